"""Which changes of the log count, and the entries that they make: the proved rules, by their library."""
from __future__ import annotations

import ctypes
import re
from ctypes import byref
from typing import NamedTuple, Optional

from .entries import NoEntry
from .library import ABSENT, PARTS_MISSING, WENT_BACK, Handle, loaded, must

# The key of a part: its generation, and the entry's name, which has who wrote it and a number of that one's.
PART = re.compile(r".*/([0-9]{8,})/(([0-9a-f]{32})-([0-9]{1,18}))\.(!|[0-9]{1,9})")
HEAD = (1 << 64) - 1
HALF = (1 << 64) - 1


class WentBack(Exception):
    """The cluster no longer has what was read of it."""


class Entry(NamedTuple):
    """An entry of the log. Who begins by a snapshot may lack parts of an entry that it has."""

    name: str
    found: Optional[bytes]

    def text(self) -> bytes:
        if self.found is None:
            raise WentBack(f"pieces of the entry {self.name} weren't shown")
        return self.found


class EntryName(ctypes.Structure):
    """`tvk_entry_name`."""

    _fields_ = [("writer_high", ctypes.c_uint64), ("writer_low", ctypes.c_uint64), ("number", ctypes.c_uint64)]


class Reader:
    """Where a reader of the log stands."""

    def __init__(self) -> None:
        self.handle, self.told, self.copied = Handle(), ctypes.c_uint64(), ctypes.c_uint64()
        self.calls = loaded("tvk_log_")
        self.at, self.told_at = byref(self.handle), byref(self.told)
        must(self.calls["open"](self.at))

    def begin_behind(self, since: int, generation: int) -> None:
        """Begins anew, by the snapshot that a floor names, which follows the one at that revision."""
        must(self.calls["close"](self.at))
        must(self.calls["open_behind"](self.at, ctypes.c_uint64(since), ctypes.c_uint64(generation)))

    def put(self, revision: int, key: str, text: bytes) -> Optional[Entry]:
        """A part was put under a key that is new: the entry that it ends, if that counts."""
        found = PART.fullmatch(key)
        if found is None:
            raise NoEntry(f"has the key {key}, which is none of an entry")
        generation, entry, writer, number, part = found.groups()
        name = EntryName(int(writer, 16) >> 64, int(writer, 16) & HALF, int(number))
        status = self.calls["put"](self.at, ctypes.c_uint64(revision), ctypes.c_uint64(int(generation)), byref(name),
                                   ctypes.c_uint64(HEAD if part == "!" else int(part)), ctypes.c_int(1), text,
                                   ctypes.c_size_t(len(text)), self.told_at)
        if status == ABSENT:
            return None
        if status == PARTS_MISSING:
            return Entry(entry, None)
        must(status)
        return Entry(entry, self.text())

    def text(self) -> bytes:
        """That of the entry that was ended last."""
        length = self.told.value
        room = ctypes.create_string_buffer(length + 1)
        must(self.calls["text"](self.at, ctypes.c_uint64(0), room, ctypes.c_size_t(length), byref(self.copied)))
        return room.raw[:length]

    def move(self, revision: int, since: int, generation: int, writer: int) -> None:
        """The floor moved: it names a snapshot, and a generation begins."""
        words = (revision, since, generation, writer >> 64, writer & HALF)
        status = self.calls["move"](self.at, *map(ctypes.c_uint64, words))
        if status == WENT_BACK:
            raise WentBack("the floor before this one isn't the one that was read")
        must(status)

    def generation(self) -> int:
        """Under which parts are put now."""
        must(self.calls["generation"](self.at, self.told_at))
        return self.told.value

    def first_behind(self, revision: int) -> int:
        """Behind which revision a reader has to begin who has a snapshot of the given one: entries may have begun before."""
        must(self.calls["first_behind"](self.at, ctypes.c_uint64(revision), self.told_at))
        return self.told.value

    def __del__(self) -> None:
        if self.handle.at:
            self.calls["close"](self.at)
