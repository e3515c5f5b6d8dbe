"""What sessions of a replica wait for: their blocks' way into the log, and the log's end. The proved rules, by their library."""
from __future__ import annotations

import ctypes
from ctypes import byref
from typing import List, Optional

from .library import ABSENT, HANDED_OVER, NEVER_HANDED_OVER, Handle, loaded, must
from .transaction import UNKNOWN, UNREACHABLE

# Most sessions whose blocks go into one entry.
MOST = 4096
# What a session is told whose limit ends first.
EXPIRED = {NEVER_HANDED_OVER: UNREACHABLE, HANDED_OVER: UNKNOWN}


class Waits:
    """Who waits under which number, and up to when the replica is known to have stood at the log's end."""

    def __init__(self) -> None:
        self.handle, self.told, self.count = Handle(), ctypes.c_uint64(), ctypes.c_uint64()
        self.numbers, self.flag = (ctypes.c_uint64 * MOST)(), ctypes.c_int()
        self.calls = loaded("tvk_waits_")
        self.at, self.told_at, self.count_at = byref(self.handle), byref(self.told), byref(self.count)
        must(self.calls["open"](self.at))

    def enter(self, size: int) -> int:
        """So many bytes of blocks wait from now on: under which number."""
        must(self.calls["enter"](self.at, ctypes.c_uint64(size), self.told_at))
        return self.told.value

    def hand_over(self, most: int) -> List[int]:
        """The first of those that wait go on their way, so many bytes of them, or one."""
        must(self.calls["hand_over"](self.at, ctypes.c_uint64(most), self.numbers, ctypes.c_size_t(MOST), self.count_at))
        return self.numbers[:self.count.value]

    def settle(self, number: int) -> bool:
        """What they came to is told: whether they were on their way, and nobody told it yet."""
        status = self.calls["settle"](self.at, ctypes.c_uint64(number))
        if status == ABSENT:
            return False
        must(status)
        return True

    def expire(self, number: int) -> Optional[bytes]:
        """Their limit ended: what is told, if nothing was. Who waits no longer does."""
        status = self.calls["expire"](self.at, ctypes.c_uint64(number))
        if status == ABSENT:
            return None
        return EXPIRED[status]

    def reach(self, revision: int) -> None:
        """All up to that revision is applied."""
        must(self.calls["reach"](self.at, ctypes.c_uint64(revision)))

    def answered(self, asked: int, end: int) -> None:
        """The cluster was asked for the log's end, at that moment, and answered."""
        must(self.calls["answered"](self.at, ctypes.c_uint64(asked), ctypes.c_uint64(end)))

    def known(self) -> int:
        """The last moment of whose end all is applied; 0 before one is known."""
        must(self.calls["known"](self.at, self.told_at))
        return self.told.value

    def is_reached(self, begun: int) -> bool:
        """Whether all is applied that the log had at that moment."""
        must(self.calls["is_reached"](self.at, ctypes.c_uint64(begun), byref(self.flag)))
        return bool(self.flag.value)

    def __del__(self) -> None:
        if self.handle.at:
            self.calls["close"](self.at)
