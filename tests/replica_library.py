#!/usr/bin/env python3
"""The proved rules of replicas as a library: worked and bad calls of tiuvrokk_replica.h from C, with each allocation refused in
turn; a store that is made anew, one that merges what nobody reads, one that is out of runs, and answers as long as a transaction
may have; then random transactions of three sessions, tried and taken as entries by two replicas, against what `amserve alone`
answers to the same lines; and random trials, entries and changes of a log against what `amreplica` makes of them, and a plain
reader."""

import asyncio
import ctypes
import json
import os
import random
import struct
import subprocess
import sys
import tempfile
from typing import Any, Dict, List, NamedTuple, Optional, Set, Tuple, Union

from support import AMSERVE, LIMIT, TOP, fail, wanted

sys.path.insert(0, f"{TOP}/python")

from tiuvrokk_replica import entries  # noqa: E402
from tiuvrokk_replica.entries import ANSWERS, Block, entry_of, text_of  # noqa: E402
from tiuvrokk_replica.etcd import Etcd, encoded  # noqa: E402
from tiuvrokk_replica.lines import EVERYTHING, MOST_ROWS, is_sure  # noqa: E402
from tiuvrokk_replica.log import Event, Log  # noqa: E402
from tiuvrokk_replica.reader import WentBack  # noqa: E402
from tiuvrokk_replica.replica import Outcome, Replica, Waiting  # noqa: E402
from tiuvrokk_replica.library import StoreEnded  # noqa: E402
from tiuvrokk_replica.store import FEW_RUNS, MERGE, Store as RunningStore, Trial, runs_of  # noqa: E402
from tiuvrokk_replica.transaction import Transaction  # noqa: E402

CC = os.environ.get("CC", "cc")
# Random steps, entries, and changes of a log.
STEPS, ENTRIES, CHANGES, SEED = 6000, 400, 20000, 7
# Statuses of the header, and the part that is a head.
OK, ABSENT, STAGED, WENT_BACK, PARTS_MISSING = 0, 1, 27, 28, 29
# Records that one run has no room for, the runs that a store makes in its life, and those of a transaction.
TWO_RUNS, ALL_RUNS, SOME_RUNS = 65_538, 65_535, 4_000
# Loads that nobody reads.
TIDIED_RUNS = 500
HEAD = 2 ** 64 - 1
CALLS = """\
GET ant: NONE
SET ant 6: OK
STAGE bee=1: OK
LOAD cat=2: OK
SCAN a z 10: ROWS 3 ant=6 bee=1 cat=2
GET: ERR SYNTAX
COMMIT: -
GET ant: NONE
SET dog 1: OK
commits 0
the first one: COMMITTED 1
commits 1
the second one: ERR CONFLICT
commits 1
GET dog: NONE
DEL cat: OK
again: COMMITTED 2
together: OK||ERR SYNTAX|VAL 7|NONE
one alone: VAL 6
none: -
SET fox 1: OK
GET fox: NONE
GET fox: VAL 1
STAGE gnu=1: OK
one that tells nobody: commits 2
RSCAN a z 10: ROWS 2 bee=1 ant=6
INS eel 9: OK
behind a snapshot: COMMITTED 42
a piece: -
again: -
a short one: entry
another piece: -
its head: an entry of three parts
a late head: -
of another generation: -
a third one: -
generation 0, behind 8, may 1
moved: a floor
moved again: a floor
generation 1, behind 10, may 0
its generation is over: -
no first piece: -
its head: parts missing
a floor of another log: went back
it is over: went back
generation 1, behind 12, may 1
no first piece: -
its head: parts missing
moved: a floor
behind it: no more
generation 2, behind 16, may 1
as wanted
"""


def made(*words: str) -> None:
    subprocess.run(words, check=True, timeout=LIMIT)


def worked_calls(folder: str, installed: str) -> str:
    """The calls from C, whichever allocation is refused."""
    program, refuse, count = (os.path.join(folder, name) for name in ("program", "refuse.so", "count"))
    made(CC, "-O2", "-shared", "-fPIC", "-o", refuse, f"{TOP}/tests/refuse_memory.c")
    made(CC, "-O2", "-Wall", "-Wextra", "-Werror", f"-I{installed}/include", "-o", program, f"{TOP}/tests/replica_calls.c",
         f"{installed}/lib/libtiuvrokk_replica.a", "-lpthread")

    def run(refused: int) -> int:
        names = {**os.environ, "LD_PRELOAD": refuse, "REFUSE": str(refused), "REFUSE_COUNT": count}
        run = subprocess.run([program], capture_output=True, text=True, timeout=LIMIT, check=False, env=names)
        wanted(f"the calls with allocation {refused} refused, {run.stderr}", (run.returncode, run.stdout), (0, CALLS))
        with open(count, encoding="ascii") as file:
            number, left = map(int, file.read().split())
        wanted(f"blocks that are left with allocation {refused} refused", left, 0)
        return number

    number = run(0)
    for refused in range(1, number + 1):
        run(refused)
    return f"each of {number} allocations refused"


class Handle(ctypes.Structure):
    _fields_ = [("at", ctypes.c_void_p)]


class Library:
    """A replica behind its library."""

    def __init__(self, calls: Any) -> None:
        self.calls, self.handle, self.length = calls, Handle(), ctypes.c_uint64()
        wanted("opened", calls.tvk_replica_open(ctypes.byref(self.handle)), 0)

    def answer(self, status: int) -> bytes:
        """The answer of a call that went well."""
        wanted("a status", status, 0)
        room = ctypes.create_string_buffer(self.length.value + 1)
        copied = ctypes.c_uint64()
        wanted("copied", self.calls.tvk_replica_answer(ctypes.byref(self.handle), ctypes.c_uint64(0), room,
                                                       ctypes.c_size_t(len(room)), ctypes.byref(copied)), 0)
        wanted("its length", copied.value, self.length.value)
        return room.raw[:copied.value]

    def take(self, text: bytes) -> bytes:
        return self.answer(self.calls.tvk_replica_take(ctypes.byref(self.handle), text, ctypes.c_size_t(len(text)),
                                                       ctypes.byref(self.length)))

    def try_line(self, transaction: Handle, line: bytes) -> bytes:
        return self.answer(self.calls.tvk_replica_try(ctypes.byref(self.handle), ctypes.byref(transaction), line,
                                                      ctypes.c_size_t(len(line)), ctypes.byref(self.length)))

    def block(self, transaction: Handle) -> bytes:
        return self.answer(self.calls.tvk_replica_block(ctypes.byref(self.handle), ctypes.byref(transaction),
                                                        ctypes.byref(self.length)))

    def no_block(self, transaction: Handle) -> None:
        """Of a transaction whose records wait."""
        wanted("a block whose records wait", self.calls.tvk_replica_block(ctypes.byref(self.handle), ctypes.byref(transaction), None),
               STAGED)
        wanted("its handle", transaction.at, None)

    def keep_up(self, line: bytes) -> None:
        self.answer(self.calls.tvk_replica_keep_up(ctypes.byref(self.handle), line, ctypes.c_size_t(len(line)),
                                                   ctypes.byref(self.length)))

    def renew(self) -> None:
        wanted("renewed", self.calls.tvk_replica_renew(ctypes.byref(self.handle)), 0)

    def begin(self) -> Handle:
        transaction = Handle()
        wanted("begun", self.calls.tvk_replica_begin(ctypes.byref(transaction)), 0)
        return transaction

    def end(self, transaction: Handle) -> None:
        wanted("ended", self.calls.tvk_replica_end(ctypes.byref(transaction)), 0)

    def close(self) -> None:
        wanted("closed", self.calls.tvk_replica_close(ctypes.byref(self.handle)), 0)


class Store:
    """A session of `amserve alone`, which is asked line by line."""

    def __init__(self) -> None:
        self.process = subprocess.Popen([AMSERVE, "alone"], stdin=subprocess.PIPE, stdout=subprocess.PIPE)

    def ask(self, *lines: bytes) -> List[bytes]:
        assert self.process.stdin and self.process.stdout
        self.process.stdin.write(b"".join(line + b"\n" for line in lines))
        self.process.stdin.flush()
        return [self.process.stdout.readline() for _ in lines]

    def close(self) -> None:
        assert self.process.stdin
        self.process.stdin.close()
        self.process.wait(LIMIT)


class Open(NamedTuple):
    """A session's transaction: the library's, its lines, and what they were answered."""

    handle: Handle
    lines: List[bytes]
    told: List[bytes]


def drawn(rng: random.Random) -> bytes:
    """A line of a transaction, mostly."""
    def key() -> bytes:
        return b"k%d" % rng.randrange(12)

    lo, hi = sorted((key(), key()))
    pairs = b" ".join(b"%s=%d" % (it, rng.randrange(9)) for it in sorted({key() for _ in range(rng.randrange(1, 4))}))
    return rng.choice([
        b"GET " + key(), b"INS %s %d" % (key(), rng.randrange(9)), b"REP %s %d" % (key(), rng.randrange(9)),
        b"SET %s %d" % (key(), rng.randrange(9)), b"DEL " + key(), b"SCAN %s %s %d" % (lo, hi, rng.randrange(1002)),
        b"RSCAN %s %s 3" % (lo, hi), b"DELR %s %s 2" % (lo, hi), b"STAGE " + pairs, b"LOAD " + pairs, b"PUT " + pairs, b"MARK",
        b"BACK", b"LOCK X %s %s" % (lo, hi), b"GET", b"SCAN k2 k1 1", b"SET " + 33 * b"k" + b" 1", 4097 * b"x",
    ])


def counts(line: bytes, answer: bytes) -> bool:
    """Whether the digest of what was told has it."""
    return not answer.startswith(b"ERR ") and not line.startswith(b"STAGE ")


def is_kept(line: bytes, answer: bytes) -> bool:
    """Whether the line is one of the block's."""
    return answer not in (b"ERR SYNTAX\n", b"ERR RANGE\n", b"ERR LONG\n")


def with_rest(entry: bytes, rest: List[bytes]) -> bytes:
    """An entry of one block with further lines, which came together with COMMIT."""
    size, = struct.unpack_from(">I", entry, 5)
    more = b"".join(line + b"\n" for line in rest)
    return entry[:5] + struct.pack(">I", size + len(more)) + entry[9:9 + size] + more + entry[9 + size:]


def outcome(store: Store, commits: int, own: Open, rest: List[bytes]) -> Tuple[int, bytes]:
    """What the block comes to on the store, which has all that committed; and how many blocks did then."""
    asked = [line for line, answer in zip(own.lines, own.told) if is_kept(line, answer)]
    told = [answer for line, answer in zip(own.lines, own.told) if is_kept(line, answer)]
    found = store.ask(b"BEGIN", *asked, *rest)[1:]
    same = [answer for line, answer in zip(asked, told) if counts(line, answer)]
    if same != [answer for line, answer in zip(asked, found) if counts(line, answer)]:
        store.ask(b"ABORT")
        return commits, b"ERR CONFLICT\n" * (len(rest) + 1)
    store.ask(b"COMMIT")
    return commits + 1, b"".join(found[len(asked):]) + b"COMMITTED %d\n" % (commits + 1)


def random_transactions(calls: Any) -> str:
    """Sessions that try lines and commit, at one replica; another one takes the same entries."""
    rng = random.Random(SEED)
    one, other, store = Library(calls), Library(calls), Store()
    sessions: List[Optional[Open]] = [None] * 3
    commits = conflicts = ends = tried = 0
    for step in range(STEPS):
        number = rng.randrange(len(sessions))
        own = sessions[number]
        if own is None:
            sessions[number] = Open(one.begin(), [], [])
        elif rng.random() < 0.75 and not own.told[-1:] == [b"ERR CONFLICT\n"]:
            line = drawn(rng)
            found = one.try_line(own.handle, line)
            told = store.ask(b"BEGIN", *own.lines, line, b"ABORT")[1:-1]
            same = all(not counts(*it) or it[1] == now for it, now in zip(zip(own.lines, own.told), told))
            is_faulty = not is_kept(line, told[-1])
            is_staged = line.startswith(b"STAGE ")
            if same or is_faulty or is_staged:
                wanted(f"step {step}: the answer to {line[:60]!r}", found, told[-1])
            else:
                wanted(f"step {step}: the answer to {line[:60]!r}", found, b"ERR CONFLICT\n")
                conflicts += 1
            own.lines.append(line)
            own.told.append(found)
            tried += 1
        else:
            sessions[number] = None
            waits = waiting(own)
            if own.told[-1:] == [b"ERR CONFLICT\n"]:
                one.end(own.handle)
                continue
            if waits:
                one.no_block(own.handle)
                continue
            rest = [line for line in (drawn(rng) for _ in range(rng.randrange(3))) if line.split(b" ")[0] in (b"GET", b"SET", b"DEL", b"INS")
                    and b" k" in line and len(line) < 20]
            entry = with_rest(one.block(own.handle), rest)
            commits, text = outcome(store, commits, own, rest)
            ends += text.startswith(b"ERR CONFLICT")
            for replica in (one, other):
                wanted(f"step {step}: what a block came to", replica.take(entry), text)
            if rng.random() < 0.1:
                rng.choice((one, other)).renew()
            rng.choice((one, other)).keep_up(rng.choice((b"MERGE 64", b"CLEAN a z 64")))
    for replica in (one, other):
        look = replica.begin()
        wanted("all records", replica.try_line(look, b"SCAN a z 1000"), store.ask(b"BEGIN", b"SCAN a z 1000", b"ABORT")[1])
        replica.end(look)
    for own in sessions:
        if own is not None:
            one.end(own.handle)
    for replica in (one, other):
        replica.close()
    store.close()
    found_of = f"{tried} lines tried, {conflicts} of them in conflict, {commits} blocks committed, {ends} in conflict"
    if not (commits > 500 and conflicts > 50 and ends > 20):
        fail(found_of)
    return found_of


def waiting(own: Open) -> bool:
    """Whether records wait."""
    waits = False
    for line, answer in zip(own.lines, own.told):
        word = line.split(b" ")[0]
        waits = word == b"STAGE" and answer == b"OK\n" or waits and not (word in (b"LOAD", b"PUT") and is_kept(line, answer))
    return waits


class Given(NamedTuple):
    """An entry, as the log gives it."""

    name: str
    entry: bytes

    def text(self) -> bytes:
        return self.entry


class Both:
    """The code that `amreplica` runs, and the library that it calls."""

    def __init__(self, calls: Any, rng: random.Random) -> None:
        self.library, self.rng = Library(calls), rng
        self.replica = Replica(Log(Etcd([]), "none"), RunningStore(), 0)
        self.entries = self.blocks = 0
        self.ends: Dict[bytes, int] = {b"COMMITTED": 0, b"ERR CONFLICT": 0}

    def transaction(self) -> Block:
        """A block of lines that were tried at the state of now, by both."""
        own, handle = Transaction(), self.library.begin()
        for _ in range(self.rng.randrange(1, 5)):
            line = drawn(self.rng)
            if is_sure(line) and not line.startswith(b"STAGE "):
                own.add(line)
                wanted(f"the answer to {line!r}", self.library.try_line(handle, line)[:-1], *own.trial(self.replica.store, 0))
        block = own.block()
        wanted("a block", text_of([block]), self.library.block(handle))
        return block

    def take(self, blocks: List[Block]) -> None:
        """An entry of these blocks."""
        self.entries += 1
        self.blocks += len(blocks)
        name, found = f"none-{self.entries}", []  # type: Tuple[str, List[Outcome]]
        waiting = Waiting(blocks, found.extend, self.replica.waits.enter(1))
        self.replica.waits.hand_over(1)
        self.replica.untold[waiting.number] = waiting
        self.replica.on_way[name] = [waiting]
        self.replica.apply_entry(Given(name, entry_of(blocks)))  # type: ignore[arg-type]
        right = self.library.take(text_of(blocks))
        wanted(f"what the blocks of entry {self.entries} came to", b"".join(found), right)
        for outcome in found:
            end = outcome.splitlines()[-1]
            self.ends[end.rpartition(b" ")[0] if end.startswith(b"COMMITTED ") else end] += 1


async def running_code(calls: Any) -> str:
    """Trials and entries by the code that `amreplica` runs, and by the library."""
    rng = random.Random(SEED)
    entries.LOADS = 3  # (so that some entries are taken in portions)
    both = Both(calls, rng)
    waiting: List[Block] = []
    for _ in range(ENTRIES):
        waiting += [both.transaction() for _ in range(rng.randrange(3))]
        rng.shuffle(waiting)
        blocks, waiting = waiting[:2], waiting[2:]
        for at, block in enumerate(blocks):
            rest = [line for line in (drawn(rng) for _ in range(rng.randrange(3))) if is_sure(line) and not line.startswith(b"STAGE ")]
            digest = bytes(32) if block.told and rng.random() < 0.1 else block.digest
            blocks[at] = Block(block.body + b"".join(line + b"\n" for line in rest), block.told, digest)
        blocks += [Block(b"SET k%d %d\nGET k1\n" % (rng.randrange(12), rng.randrange(9))) for _ in range(rng.choice((0, 1, 40)))]
        rng.shuffle(blocks)
        both.take(blocks)
    look = both.library.begin()
    wanted("all records", both.library.try_line(look, b"SCAN a z 1000")[:-1], both.replica.store.look(b"SCAN a z 1000"))
    both.library.end(look)
    both.library.close()
    both.replica.store.close()
    if min(both.ends.values()) < 50:
        fail(f"blocks came to {both.ends}")
    return f"{both.blocks} blocks of {both.entries} entries come to the same by the code that runs"


class Put(NamedTuple):
    """A part of an entry that was put under a generation."""

    revision: int
    generation: int
    entry: Tuple[int, int]
    part: int
    is_new: bool
    text: bytes

    def event(self) -> Event:
        """As the cluster shows it to `amreplica`."""
        part = "!" if self.part == HEAD else str(self.part)
        name = "{:032x}-{}".format(*self.entry)
        return Event(self.revision, f"none/log/{self.generation:08d}/{name}.{part}", encoded(self.text))


class Moved(NamedTuple):
    """The floor moved, to a snapshot that has all up to a revision."""

    revision: int
    since: int
    generation: int
    read: int

    def event(self) -> Event:
        """As the cluster shows it to `amreplica`."""
        told = {"since": self.since, "generation": self.generation, "id": f"g-{self.revision:032x}"}
        return Event(self.revision, "none/floor", encoded(json.dumps(told).encode()))


class Writing:
    """An entry that is being put: its parts, the generation under which that is done, and which one is next."""

    def __init__(self, rng: random.Random, number: int, generation: int) -> None:
        self.name = (rng.getrandbits(128) if rng.random() < 0.5 else 1, number)
        self.texts = [rng.randbytes(rng.randrange(4)) for _ in range(rng.choice((1, 1, 2, 3, 5)))]
        self.generation, self.next = generation, 0

    def part(self) -> int:
        return self.next if self.next + 1 < len(self.texts) else HEAD


class Cluster:
    """What a cluster shows of writers at random: their parts among one another's, some twice, some late."""

    def __init__(self, rng: random.Random) -> None:
        self.rng = rng
        self.revision = self.floor = self.generation = self.number = 0
        self.keys: Set[Tuple[int, Tuple[int, int], int]] = set()
        self.changes: List[Union[Put, Moved]] = []
        self.open: List[Writing] = []

    def put(self, generation: int, entry: Tuple[int, int], part: int, text: bytes) -> bool:
        """Whether it counts."""
        key = (generation, entry, part)
        self.revision += 1
        self.changes.append(Put(self.revision, generation, entry, part, key not in self.keys, text))
        counts = key not in self.keys and generation == self.generation
        self.keys.add(key)
        return counts

    def move(self) -> None:
        """Begins a generation; what is of the last but one is let go."""
        read = self.rng.choice([it.revision for it in self.changes if it.revision > self.floor])
        self.revision += 1
        self.generation += 1
        self.changes.append(Moved(self.revision, self.floor, self.generation, read))
        self.floor = self.revision
        self.keys = {key for key in self.keys if key[0] >= self.generation - 1}

    def write(self) -> None:
        """The next part of some entry, which begins anew where its generation is over, sooner or later."""
        if len(self.open) < 4:
            self.number += 1
            self.open.append(Writing(self.rng, self.number, self.generation))
        own = self.rng.choice(self.open)
        if own.generation != self.generation and self.rng.random() < 0.7:
            own.generation, own.next = self.generation, 0
        counts = self.put(own.generation, own.name, own.part(), own.texts[own.next])
        own.next = (own.next + 1) % len(own.texts)
        if not own.next and counts:
            self.open.remove(own)

    def change(self) -> None:
        """One change, or some that nobody is told of."""
        chance = self.rng.random()
        puts = [it for it in self.changes[-60:] if isinstance(it, Put)]
        if chance < 0.02 and puts and puts[-1].revision > self.floor:
            self.move()
        elif chance < 0.2 and puts:
            again = self.rng.choice(puts)
            self.put(again.generation, again.entry, again.part, again.text)
        elif chance < 0.25:
            self.revision += self.rng.randrange(3)
        else:
            self.write()


class Name(ctypes.Structure):
    _fields_ = [("writer_high", ctypes.c_uint64), ("writer_low", ctypes.c_uint64), ("number", ctypes.c_uint64)]


class PlainLog:
    """A reader of a log, in plain words."""

    def __init__(self) -> None:
        self.floor = self.generation = 0
        self.pieces: Dict[Tuple[int, int], List[Put]] = {}

    def put(self, put: Put) -> Tuple[int, bytes]:
        """What a put comes to, and the text of the entry that it ends."""
        if not put.is_new or put.generation != self.generation:
            return ABSENT, b""
        if put.part != HEAD:
            self.pieces.setdefault(put.entry, []).append(put)
            return ABSENT, b""
        parts = self.pieces.pop(put.entry, [])
        if [it.part for it in parts] != list(range(len(parts))):
            return PARTS_MISSING, b""
        return OK, b"".join(it.text for it in [*parts, put])

    def move(self, floor: Moved) -> int:
        """What a floor comes to."""
        if floor.revision <= self.floor:
            return OK
        if floor.since != self.floor:
            return WENT_BACK
        self.floor, self.generation = floor.revision, floor.generation
        self.pieces.clear()
        return OK

    def first(self, revision: int) -> int:
        """Behind which revision somebody reads who begins then."""
        return min([revision, *(it.revision - 1 for parts in self.pieces.values() for it in parts)])


class Logs:
    """A log as `amreplica` reads it, as the library does, and in plain words, from the beginning or by the snapshot that a floor
    names."""

    def __init__(self, calls: Any, floor: Optional[Moved] = None) -> None:
        self.calls, self.handle, self.told = calls, Handle(), ctypes.c_uint64()
        self.log, self.plain = Log(Etcd([]), "none"), PlainLog()
        if floor:
            self.log.begin_behind({"since": floor.since, "generation": floor.generation})
            self.plain.floor, self.plain.generation = floor.since, floor.generation - 1
            wanted("opened", self.ask("open_behind", floor.since, floor.generation), OK)
        else:
            wanted("opened", self.ask("open"), OK)

    def ask(self, call: str, *given: Any) -> int:
        """The status of a call."""
        words = [ctypes.c_uint64(it) if isinstance(it, int) else it for it in given]
        status: int = getattr(self.calls, f"tvk_log_{call}")(ctypes.byref(self.handle), *words)
        return status

    def number(self, call: str, *given: int) -> int:
        """What a call says."""
        wanted(call, self.ask(call, *given, ctypes.byref(self.told)), OK)
        return self.told.value

    def found(self, put: Put) -> Tuple[int, bytes]:
        """What a put comes to, by the library, and the text that stands then."""
        writer, number = put.entry
        name, text = Name(writer >> 64, writer % 2 ** 64, number), put.text
        status = self.ask("put", put.revision, put.generation, ctypes.byref(name), put.part, ctypes.c_int(put.is_new), text,
                          ctypes.c_size_t(len(text)), ctypes.byref(self.told))
        room, length = ctypes.create_string_buffer(100), self.told.value
        wanted("copied", self.ask("text", 0, room, ctypes.c_size_t(len(room)), ctypes.byref(self.told)), OK)
        wanted("its length", self.told.value, length)
        return status, room.raw[:length]

    def running(self, put: Put) -> Tuple[int, bytes]:
        """The same by the code that runs, which is told of new keys alone."""
        entry = self.log.take(put.event()) if put.is_new else None
        if entry is None:
            return ABSENT, b""
        try:
            return OK, entry.text()
        except WentBack:
            return PARTS_MISSING, b""

    def move(self, floor: Moved) -> int:
        """The status of a floor, by all."""
        status = self.ask("move", floor.revision, floor.since, floor.generation, 0, floor.revision)
        wanted(f"the status of {floor}", status, self.plain.move(floor))
        try:
            self.log.take(floor.event())
            wanted(f"the status of {floor}", status, OK)
        except WentBack:
            wanted(f"the status of {floor}", status, WENT_BACK)
        return status

    def show(self, change: Union[Put, Moved]) -> int:
        """Tells all of a change, and gives the status."""
        if isinstance(change, Moved):
            status = self.move(change)
        else:
            status, text = self.found(change)
            wanted(f"what {change} comes to", [(status, text), self.running(change)], [self.plain.put(change)] * 2)
        revision = change.revision
        wanted("generations", [self.number("generation"), self.log.generation], [self.plain.generation] * 2)
        wanted("beginnings", [self.number("first_behind", revision), self.log.first(revision)], [self.plain.first(revision)] * 2)
        return status

    def close(self) -> None:
        wanted("closed", self.ask("close"), OK)


async def random_logs(calls: Any) -> str:
    """Changes of a log, by the code that `amreplica` runs, and by the library: from the beginning, and by each snapshot."""
    cluster = Cluster(random.Random(SEED))
    while len(cluster.changes) < CHANGES:
        cluster.change()
    floors = [it for it in cluster.changes if isinstance(it, Moved)]
    ends = {OK: 0, ABSENT: 0, PARTS_MISSING: 0}
    firsts: Dict[int, int] = {}
    whole = Logs(calls)
    for change in cluster.changes:
        ends[whole.show(change)] += isinstance(change, Put)
        firsts[change.revision] = whole.log.first(change.revision)
        if isinstance(change, Moved):
            wanted("a floor that comes again", whole.move(change), OK)
    wanted("missing parts of a log that was read from its beginning", ends[PARTS_MISSING], 0)
    for floor in floors:
        behind = Logs(calls, floor)
        rest = [it for it in cluster.changes if it.revision > firsts[floor.read]]
        for change in rest[:200]:
            ends[behind.show(change)] += isinstance(change, Put)
        stray = Moved(rest[-1].revision + 1, rest[-1].revision + 1, behind.log.generation + 1, 0)
        wanted("a floor of another log", behind.move(stray), WENT_BACK)
        behind.close()
    whole.close()
    found = f"{len(cluster.changes)} changes of a log, also by each of {len(floors)} snapshots, come to the same: {ends[OK]} entries"
    if not (len(floors) > 200 and ends[OK] > 10000 and ends[PARTS_MISSING] > 50):
        fail(f"{found}, {ends}")
    return found


def made_anew() -> str:
    """A store is made anew whose records take two runs: it has all of them, and as many commits."""
    store = RunningStore()
    records = [b"k%06d=%d" % (number, number % 7) for number in range(TWO_RUNS)]
    store.restore(runs_of(records), 5)
    store.renew()
    wanted("the records of a store that was made anew", store.records(), records)
    wanted("its commits", store.commits, 5)
    store.close()
    return f"a store of {TWO_RUNS} records is made anew"


def left_in_runs(store: RunningStore) -> bool:
    """Whether a run has records."""
    store.look(b"SCAN %b 1" % EVERYTHING)
    return store.upkeep(MERGE) != b"DONE\n"


def tidied() -> str:
    """What entries loaded and nobody reads is merged, but for a few runs, and no answer changes. What a session reads between
    two pieces is merged before the next one: few records a step, where a piece takes whole runs."""
    rng, numbers = random.Random(SEED), list(range(TIDIED_RUNS * 64))
    rng.shuffle(numbers)
    tidy, plain = RunningStore(), RunningStore()
    for run in range(TIDIED_RUNS):
        keys = sorted(numbers[run * 64:run * 64 + 64])
        entry = text_of([Block(b"LOAD " + b" ".join(b"%05d=%d" % (key, run) for key in keys) + b"\n")])
        tidy.apply(entry)
        plain.apply(entry)
        if run + 1 == FEW_RUNS:
            wanted("more to do for a few runs", tidy.keep_up(), False)
    wanted("more to do behind a piece", tidy.keep_up(), True)
    read = b"SCAN 00000 00100 1000"
    wanted("a session's read", tidy.look(read), plain.look(read))
    moved = [int(step.split()[1]) for step in iter(lambda: tidy.upkeep(MERGE), b"IDLE\n") if step.startswith(b"MOVED")]
    wanted("what is merged next", 0 < sum(moved) <= 101 and max(moved) < 16, True)
    while tidy.keep_up():
        pass
    wanted("runs that are left", [left_in_runs(tidy), left_in_runs(plain)], [False, True])
    wanted("records", tidy.records() == plain.records() != [], True)
    tidy.close()
    plain.close()
    return f"{TIDIED_RUNS} runs that nobody reads are merged"


def out_of_runs() -> str:
    """A store that has made all its runs ends its replica: no line is told that it was refused for that."""
    store, loads = RunningStore(), 0
    try:
        while loads < 2 * ALL_RUNS:
            store.runs = 0  # (else it is made anew in time)
            lines = [b"LOAD k%d=1" % number for number in range(loads, loads + SOME_RUNS)]
            wanted("loads", set(Trial(store).ask([b"LOCK X " + EVERYTHING, *lines])), {b"OK"})
            loads += SOME_RUNS
    except StoreEnded:
        wanted("loads in front of the end", loads, ALL_RUNS // SOME_RUNS * SOME_RUNS)
    try:
        fail(f"a store that is out of runs has {store.commits} commits")
    except StoreEnded:
        store.close()
        return f"a store that is out of runs has ended, behind {loads} loads that were tried"


def longest_answers() -> str:
    """A transaction's answers have room for 64,000,000 bytes: a line whose answer might have none is told so, and what was told counts."""
    store, left, told = RunningStore(), ANSWERS, 0
    store.restore(runs_of([b"%032d=%b" % (number, b"v" * 64) for number in range(1000)]), 1)
    for answer in Trial(store).ask([b"SCAN %b 1000" % EVERYTHING] * 700):
        has_room = MOST_ROWS <= left
        wanted("a scan of long records", answer == b"ERR LIMIT", not has_room)
        left -= len(answer) + 1 if has_room else 0
        told += has_room
    store.close()
    return f"{told} scans of a transaction were answered, and no more"


def main() -> None:
    with tempfile.TemporaryDirectory() as folder:
        installed = os.path.join(folder, "installed")
        # (which is proved first where that hasn't been done)
        subprocess.run([f"{TOP}/install-library", "--replica", installed], check=True)
        print(f"replica_library: {worked_calls(folder, installed)}")
        os.environ["TIUVROKK_REPLICA_LIBRARY"] = f"{installed}/lib/libtiuvrokk_replica.so"
        calls = ctypes.CDLL(os.environ["TIUVROKK_REPLICA_LIBRARY"])
        print(f"replica_library: {made_anew()}")
        print(f"replica_library: {tidied()}")
        print(f"replica_library: {out_of_runs()}")
        print(f"replica_library: {longest_answers()}")
        print(f"replica_library: {random_transactions(calls)}")
        print(f"replica_library: {asyncio.run(running_code(calls))}")
        print(f"replica_library: {asyncio.run(random_logs(calls))}")


if __name__ == "__main__":
    main()
