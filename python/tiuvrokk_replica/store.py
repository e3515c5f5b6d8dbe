"""The store behind a replica, and the transactions that are tried on it: the proved rules, by their library.

Whatever a transaction is tried to do, the replica keeps nothing of it: its block does it, once that comes in the log."""
from __future__ import annotations

import ctypes
from ctypes import byref
from typing import Dict, List, Optional

from .entries import NONE_OF_BLOCKS, Block, NoEntry, blocks_of, may_leave_ghosts, text_of
from .library import BAD_LINE, NO_ENTRY, Call, Handle, StoreEnded, loaded, must
from .lines import EVERYTHING, answer_apart, most_runs_of

# Runs that a store may make before it is made anew. It has 65,535; those of LOADs and PUTs that were tried count, and slow it down.
RUNS = 20_000
# Most records, and bytes of lines, of a run that is loaded.
RUN_RECORDS, RUN_BYTES = 65_000, 900_000
# Operations of a transaction.
OPERATIONS = 4096
# What is wrong with a line, whatever its place.
FAULTS = (b"ERR SYNTAX", b"ERR RANGE", b"ERR LONG")
MERGE, CLEAN = b"MERGE 64", b"CLEAN " + EVERYTHING + b" 64"
# Runs of entries that may stay where nobody reads them, the merge steps of a piece of all others, and the ranges to merge that a
# store keeps in mind.
FEW_RUNS, PIECE, MOST_WISHES = 64, 16, 64
# Bytes of an answer that most fit into.
ROOM = 1 << 16


class Store:
    """The records of a replica, and how many blocks of the log committed."""

    def __init__(self) -> None:
        self.calls: Dict[str, Call] = loaded("tvk_replica_")
        self.handle, self.length, self.copied = Handle(), ctypes.c_uint64(), ctypes.c_uint64()
        self.at, self.length_at, self.copied_at = byref(self.handle), byref(self.length), byref(self.copied)
        self.room = ctypes.create_string_buffer(ROOM)
        self.runs = 0
        self.loaded = 0  # runs that entries made since all were merged, at most
        self.has_ghosts = False  # that trials and deletions may have left
        self.trial: Optional[Trial] = None  # that is open in it
        must(self.calls["open"](self.at))

    def answer(self) -> bytes:
        """The answer to the last call."""
        length = self.length.value
        room = self.room if length <= ROOM else ctypes.create_string_buffer(length)
        must(self.calls["answer"](self.at, ctypes.c_uint64(0), room, ctypes.c_size_t(length), self.copied_at))
        return ctypes.string_at(room, length)

    # Entries

    def take(self, text: bytes) -> bytes:
        """Takes the text of an entry in its turn: what the clients of its blocks are told."""
        self.before_entry(text)
        self.after_entry(self.calls["take"](self.at, text, ctypes.c_size_t(len(text)), self.length_at))
        return self.answer()

    def apply(self, text: bytes) -> None:
        """Takes the text of an entry in its turn, of whose blocks no client is to be told."""
        self.before_entry(text)
        self.after_entry(self.calls["apply"](self.at, text, ctypes.c_size_t(len(text))))

    def before_entry(self, text: bytes) -> None:
        runs = most_runs_of(text)
        if self.runs + runs > RUNS:
            self.renew()
        self.runs += runs
        self.loaded += runs
        self.has_ghosts = self.has_ghosts or may_leave_ghosts(text)
        self.trial = None

    def after_entry(self, status: int) -> None:
        if status == NO_ENTRY:
            raise NoEntry(NONE_OF_BLOCKS)
        must(status)

    @property
    def commits(self) -> int:
        """How many blocks of the log committed."""
        must(self.calls["commits"](self.at, self.length_at))
        return self.length.value

    # What no answer changes by

    def keep_up(self) -> bool:
        """Merges what was read, and lets places go that transactions left, a step each, or else tidies; whether more is to be
        done."""
        moved = self.upkeep(MERGE)
        if self.has_ghosts:
            self.has_ghosts = self.upkeep(CLEAN) == b"CLEANED 64\n"
        return self.has_ghosts or moved != b"IDLE\n" or self.tidy()

    def tidy(self) -> bool:
        """Merges a piece of what nobody reads, run by run, where runs may be many; whether more is to be done. No call of the
        library does that: a read of all keys has them merged, and is forgotten behind so many newer ones. So what sessions read
        next is merged before the next piece."""
        if self.loaded <= FEW_RUNS:
            return False
        self.look(b"SCAN " + EVERYTHING + b" 1")
        if not all(self.upkeep(MERGE).startswith(b"MOVED ") for _ in range(PIECE)):
            self.loaded = 0
            return False
        self.looks([b"GET !"] * MOST_WISHES)
        return True

    def upkeep(self, line: bytes) -> bytes:
        """The answer to a line that merges or cleans; nothing, where it is another one."""
        self.trial = None
        status = self.calls["keep_up"](self.at, line, ctypes.c_size_t(len(line)), self.length_at)
        if status == BAD_LINE:
            return b""
        must(status)
        return self.answer()

    def answer_outside(self, line: bytes) -> bytes:
        """The answer to a line where no transaction is active."""
        kept_up = self.upkeep(line)
        if kept_up:
            return kept_up[:-1]
        answer = self.look(line)
        return answer if answer in FAULTS else b"ERR NOTX" if answer else answer_apart(line, False)

    def renew(self) -> None:
        """Another store with the same records, before this one is out of runs."""
        must(self.calls["renew"](self.at))
        self.runs, self.loaded, self.has_ghosts, self.trial = 0, 0, False, None

    # Snapshots

    def records(self) -> List[bytes]:
        """All records, `k=v`, by rising key, of one state."""
        found: List[bytes] = []
        low = b"!"
        while True:
            rows = self.look(b"SCAN %s %s 1000" % (low, b"~" * 32)).split(b" ")
            found += rows[3:] if found else rows[2:]
            if int(rows[1]) < 1000:
                return found
            low = found[-1].partition(b"=")[0]

    def look(self, line: bytes) -> bytes:
        """What a transaction that has no other line is answered."""
        return self.looks([line])[0]

    def looks(self, lines: List[bytes]) -> List[bytes]:
        """The same, of some lines each. They are tried together, as many as a transaction may have."""
        parts = [lines[at:at + OPERATIONS] for at in range(0, len(lines), OPERATIONS)]
        return [answer for part in parts for answer in Trial(self).ask(part)]

    def restore(self, pieces: List[bytes], commits: int) -> None:
        """Takes the records of a snapshot into a store that has none: lines that load a run each, written after so many commits."""
        for piece in pieces:
            self.apply(text_of([Block(piece)]))
        if self.commits != len(pieces):
            raise StoreEnded("the records of a snapshot can't be loaded")
        self.loaded = 0  # (a scan opens few of them, since each lies behind the one before)
        must(self.calls["restore"](self.at, ctypes.c_uint64(commits)))

    @property
    def is_closed(self) -> bool:
        return not self.handle.at

    def close(self) -> None:
        self.calls["close"](self.at)


class Trial:
    """A transaction before it is a block: its lines that were tried."""

    def __init__(self, store: Store) -> None:
        self.handle, self.store = Handle(), store
        self.runs = 0  # that its lines make
        self.at = byref(self.handle)
        must(store.calls["begin"](self.at))

    def ask(self, lines: List[bytes]) -> List[bytes]:
        """Tries lines one after another: their answers. That is empty where a line is none of a transaction."""
        store = self.store
        if store.runs > RUNS:
            store.renew()
        text = b"\n".join([*lines, b""])
        runs = most_runs_of(text)
        self.runs += runs
        # (where its trial isn't open any more its earlier lines are taken again)
        store.runs += runs if store.trial is self else self.runs
        store.trial = self
        must(store.calls["try_lines"](store.at, self.at, text, ctypes.c_size_t(len(text)), store.length_at))
        return store.answer().split(b"\n")[:-1]

    def block(self) -> Block:
        """The transaction as a block. No more is asked of it."""
        store = self.store
        store.trial = None
        must(store.calls["block"](store.at, self.at, store.length_at))
        return blocks_of(store.answer())[0]

    def __del__(self) -> None:
        if self.handle.at:
            self.store.calls["end"](self.at)


def runs_of(records: List[bytes]) -> List[bytes]:
    """Records by rising key as STAGE and LOAD lines, one run each."""
    runs: List[bytes] = []
    lines: List[bytes] = []
    size = count = at = 0
    while at < len(records):
        end = min(at + 40, len(records), at + RUN_RECORDS - count)
        line = b" ".join(records[at:end])
        lines.append(line)
        size += len(line) + 7
        count += end - at
        at = end
        if at == len(records) or size > RUN_BYTES - 5_000 or count == RUN_RECORDS:
            runs.append(b"".join(b"STAGE %s\n" % line for line in lines[:-1]) + b"LOAD %s\n" % lines[-1])
            lines, size, count = [], 0, 0
    return runs
