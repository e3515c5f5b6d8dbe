"""A trace, followed as far as its partitions go: which records each run still has, and what went to the final partition.

A merge step works off the first records, by run and key, of the oldest of the 64 newest ranges that were read; so the text of a
trace tells where each record stands, though it names no partition but that of MOVED. A record that was deleted, or whose
transaction was aborted, is a ghost: it stands at its place, unseen, until a merge step of its run or CLEAN takes it away. CLEAN
takes the first ghosts, by partition and key, whose keys nobody has locked exclusively."""

import heapq
import itertools
import re
from bisect import bisect_left, bisect_right, insort
from collections import deque
from typing import Deque, Dict, List, NamedTuple, Optional, Set, Tuple

from .program import Stop

MOST_WISHES = 64
# The first line: a version, or the limits of the store, of which the runs alone may be others than the profile's.
FIRST = re.compile(rb"TRACE (?:[123]|4 ([1-9][0-9]{0,9}) 32 64 256 4096)")
LAST_RUN = 4_294_967_294
LINE = re.compile(rb"([A-Z]+)((?: [^ |]+)*) \| ([A-Z]+)((?: [^ |]+)*)")
KEY = re.compile(rb"h((?:[0-9a-f]{2})*)|([0-9]{1,20})")


class Query(NamedTuple):
    """A read of a range, and whether it is taken for a worker's."""

    step: int
    low: bytes
    high: bytes
    is_idle: bool = False


class Move(NamedTuple):
    """What a merge step moved, or a clean step took away: the first and the last key, how many, and whether a worker asked
    for it."""

    step: int
    low: bytes
    high: bytes
    number: int
    is_idle: bool = False


class Stay(NamedTuple):
    """A record in the final partition: from which step on, and up to which, where it is over."""

    key: bytes
    begin: int
    end: int


class Run:
    """A loaded run: its keys, which of them have left it, and which are ghosts."""

    def __init__(self, step: int, keys: List[bytes]) -> None:
        self.step = step
        self.keys = keys
        self.following = list(range(len(keys) + 1))
        self.left = len(keys)  # records and ghosts that stand there
        self.ghosts: List[bytes] = []  # rising
        self.changes: List[Tuple[int, int]] = [(step, self.left)]
        self.taken_back = 0  # the step of that, where it was

    def stays(self, at: int) -> int:
        """The first place from this one on whose record hasn't left."""
        path = []
        while self.following[at] != at:
            path.append(at)
            at = self.following[at]
        for place in path:
            self.following[place] = at
        return at

    def standing(self) -> List[bytes]:
        """The keys of what stands there, ghosts among them."""
        return [key for at, key in enumerate(self.keys) if self.stays(at) == at]

    def leave(self, step: int, places: List[int]) -> None:
        """What stands at these places goes."""
        for at in places:
            self.following[at] = at + 1
            forget(self.ghosts, self.keys[at])
        self.left -= len(places)
        self.changes.append((step, self.left))

    def first(self, low: bytes, high: bytes, number: int) -> List[int]:
        """The places of the first records of a range, ghosts among them."""
        found: List[int] = []
        at = self.stays(bisect_left(self.keys, low))
        while len(found) < number and at < len(self.keys) and self.keys[at] <= high:
            found.append(at)
            at = self.stays(at + 1)
        return found

    def left_at(self, step: int) -> int:
        """How much stood there after a step."""
        return next((left for at, left in reversed(self.changes) if at <= step), len(self.keys))


class Write(NamedTuple):
    """What a transaction wrote: a run, or a key that it inserted or deleted, in the run where that stands."""

    key: bytes
    run: Optional[Run]
    is_deletion: bool


class Body:
    """What an active transaction wrote, its savepoints, and the ranges that it locked exclusively."""

    def __init__(self) -> None:
        self.writes: List[Write] = []
        self.marks: List[int] = []
        self.locks: Set[Tuple[bytes, bytes]] = set()


class Merging:
    """What a trace tells, step by step."""

    def __init__(self, has_idle_merging: bool = False) -> None:
        self.has_idle_merging = has_idle_merging
        # As far as the last steps are a worker's read: its transaction, and the step that would be the next one.
        self.idle: Tuple[bytes, bytes] = (b"", b"")
        self.steps = 0
        self.runs: List[Run] = []
        self.queries: List[Query] = []
        self.moves: List[Move] = []
        self.cleans: List[Move] = []
        self.words: List[Tuple[int, str]] = []
        self.homes: Dict[bytes, Run] = {}  # the runs of the records that stand in one
        self.arrived: Dict[bytes, int] = {}  # the records of the final partition
        self.ghosts: List[bytes] = []  # the ghosts of that, rising
        self.over: List[Stay] = []
        self.wishes: Deque[Query] = deque(maxlen=MOST_WISHES)
        self.bodies: Dict[bytes, Body] = {}

    def keys(self) -> List[bytes]:
        """All keys that were loaded or stood in the final partition, by rising key."""
        found: Set[bytes] = {*self.arrived, *(stay.key for stay in self.over)}
        for run in self.runs:
            found.update(run.keys)
        return sorted(found)

    def unasked(self) -> List[Move]:
        """What was moved that only workers asked for."""
        return [move for move in self.moves if move.is_idle]

    def final_at(self, step: float) -> List[bytes]:
        """The records of the final partition after a step."""
        over = [stay.key for stay in self.over if stay.begin <= step < stay.end]
        return over + [key for key, begin in self.arrived.items() if begin <= step]

    def take(self, verb: bytes, words: List[bytes], reply: bytes, told: List[bytes]) -> None:
        """Follows one step."""
        self.steps += 1
        if verb == b"MERGE":
            self.merge(reply, told)
        elif verb == b"CLEAN":
            self.clean(key_of(words[0]), key_of(words[1]), int(told[0]) if reply == b"CLEANED" else 0)
        elif reply == b"BUSY":
            self.words.append((self.steps, "busy"))
        elif reply == b"ERR":
            pass
        elif verb in (b"GET", b"SCAN", b"RSCAN"):
            self.read(key_of(words[1]), key_of(words[1 if verb == b"GET" else 2]))
        elif verb == b"DELR":
            self.delete_range(words[0], key_of(words[1]), key_of(words[2]), int(told[0]))
        elif verb in (b"INS", b"REP", b"SET", b"DEL", b"LOAD"):
            self.write(verb, words, reply == b"OK")
        elif verb in (b"LOCK", b"MARK", b"BACK", b"COMMIT", b"ABORT"):
            self.control(verb, words, reply)
        if self.has_idle_merging:
            self.look_for_idle(verb, words, reply, told)

    def look_for_idle(self, verb: bytes, words: List[bytes], reply: bytes, told: List[bytes]) -> None:
        """Marks the last read as a worker's where this step is the end of one, or where a lock was in its way."""
        owner, due = self.idle
        self.idle = (b"", b"")
        if verb == b"BEGIN" and reply == b"BEGUN":
            self.idle = (told[0], b"SCAN")
        elif verb != due or words[0] != owner:
            return
        elif verb == b"SCAN" and words[3] == b"1":
            self.idle = (owner, {b"ROWS": b"COMMIT", b"BUSY": b"ABORT"}.get(reply, b""))
        elif verb == b"COMMIT":
            self.queries[-1] = self.wishes[-1] = self.queries[-1]._replace(is_idle=True)
        elif verb == b"ABORT":
            self.words[-2:] = [(self.steps, "worker busy")]

    def body(self, owner: bytes) -> Body:
        return self.bodies.setdefault(owner, Body())

    def read(self, low: bytes, high: bytes) -> None:
        self.queries.append(Query(self.steps, low, high))
        self.wishes.append(self.queries[-1])

    def write(self, verb: bytes, words: List[bytes], is_done: bool) -> None:
        """A record or a run that is new, or a record that goes. The lock is kept whatever was answered."""
        body = self.body(words[0])
        keys = [key_of(word.partition(b"=")[0]) for word in (words[1:] if verb == b"LOAD" else words[1:2])]
        body.locks.add((keys[0], keys[-1]))
        if not is_done or verb == b"REP" or (verb == b"SET" and self.is_live(keys[0])):
            return
        if verb == b"LOAD":
            run = Run(self.steps, keys)
            self.runs.append(run)
            self.homes.update(dict.fromkeys(keys, run))
            body.writes.append(Write(b"", run, False))
        elif verb in (b"INS", b"SET"):
            self.arrive(keys[0])
            body.writes.append(Write(keys[0], None, False))
        else:
            self.delete(body, keys[0])

    def delete(self, body: Body, key: bytes) -> None:
        body.writes.append(Write(key, self.homes.get(key), True))
        self.vanish(key)

    def delete_range(self, owner: bytes, low: bytes, high: bytes, count: int) -> None:
        """The first records of a range go."""
        body = self.body(owner)
        body.locks.add((low, high))
        live = (key for key in itertools.chain(self.homes, self.arrived) if low <= key <= high)
        for key in heapq.nsmallest(count, live):
            self.delete(body, key)

    def is_live(self, key: bytes) -> bool:
        return key in self.homes or key in self.arrived

    def arrive(self, key: bytes) -> None:
        """A record stands in the final partition, in place of any ghost there."""
        forget(self.ghosts, key)
        self.arrived[key] = self.steps

    def vanish(self, key: bytes) -> None:
        """A record becomes a ghost at its place."""
        run = self.homes.pop(key, None)
        if run:
            insort(run.ghosts, key)
        elif key in self.arrived:
            self.over.append(Stay(key, self.arrived.pop(key), self.steps))
            insort(self.ghosts, key)

    def control(self, verb: bytes, words: List[bytes], reply: bytes) -> None:
        """A lock, a savepoint, an end."""
        body = self.body(words[0])
        if verb == b"LOCK":
            self.words.append((self.steps, "lock"))
            if words[1] == b"X":
                body.locks.add((key_of(words[2]), key_of(words[3])))
        elif verb == b"MARK":
            body.marks.append(len(body.writes))
        elif verb == b"BACK" and reply == b"OK" and body.marks:
            self.words.append((self.steps, "back"))
            self.take_back(body, body.marks.pop())
        elif verb in (b"COMMIT", b"ABORT"):
            if verb == b"ABORT":
                self.words.append((self.steps, "abort"))
                self.take_back(body, 0)
            del self.bodies[words[0]]

    def take_back(self, body: Body, kept: int) -> None:
        """What was written since goes, the newest first: new records become ghosts, and deleted ones stand again."""
        for write in reversed(body.writes[kept:]):
            if write.run and not write.is_deletion:
                write.run.taken_back = self.steps
                for key in write.run.keys:
                    self.homes.pop(key, None)
                write.run.ghosts = write.run.standing()
            elif not write.is_deletion:
                self.vanish(write.key)
            elif write.run:
                forget(write.run.ghosts, write.key)
                self.homes[write.key] = write.run
            else:
                self.arrive(write.key)
        del body.writes[kept:]

    def merge(self, reply: bytes, told: List[bytes]) -> None:
        """The oldest wish is worked off, or dropped."""
        if reply in (b"DONE", b"ENDED") and self.wishes:
            self.wishes.popleft()
        elif reply == b"MOVED" and self.wishes:
            number, at = int(told[0]), int(told[1])
            if not 1 <= at <= len(self.runs):
                raise ValueError
            run, wish = self.runs[at - 1], self.wishes[0]
            places = run.first(wish.low, wish.high, number)
            keys = [run.keys[place] for place in places]
            for key in keys:
                if self.homes.get(key) is run:
                    del self.homes[key]
                    self.arrive(key)
            run.leave(self.steps, places)
            if keys:
                self.moves.append(Move(self.steps, keys[0], keys[-1], len(keys), wish.is_idle))

    def clean(self, low: bytes, high: bytes, number: int) -> None:
        """So many ghosts go, those of the final partition first."""
        freed = self.free_ghosts(self.ghosts, low, high, number)
        for key in freed:
            forget(self.ghosts, key)
        for run in self.runs:
            if len(freed) == number:
                break
            if run.ghosts:
                keys = self.free_ghosts(run.ghosts, low, high, number - len(freed))
                run.leave(self.steps, [bisect_left(run.keys, key) for key in keys])
                freed += keys
        if freed:
            self.cleans.append(Move(self.steps, min(freed), max(freed), len(freed)))

    def free_ghosts(self, ghosts: List[bytes], low: bytes, high: bytes, number: int) -> List[bytes]:
        """The first ghosts of a range that nobody has locked exclusively."""
        found: List[bytes] = []
        locks = [lock for body in self.bodies.values() for lock in body.locks]
        for key in ghosts[bisect_left(ghosts, low) : bisect_right(ghosts, high)]:
            if len(found) == number:
                break
            if not any(first <= key <= last for first, last in locks):
                found.append(key)
        return found


def forget(ghosts: List[bytes], key: bytes) -> None:
    """No ghost of the key stands there any more."""
    at = bisect_left(ghosts, key)
    if at < len(ghosts) and ghosts[at] == key:
        del ghosts[at]


def key_of(word: bytes) -> bytes:
    """A key as a trace spells it, in any version."""
    found = KEY.fullmatch(word)
    if not found:
        raise ValueError
    return bytes.fromhex(found.group(1).decode()) if found.group(2) is None else int(found.group(2)).to_bytes(8, "big")


def followed(text: bytes) -> Merging:
    """Follows the text of a trace. The first line that is none of one ends all."""
    lines = text.split(b"\n")
    first = FIRST.fullmatch(lines[0])
    if not first or int(first.group(1) or 1) > LAST_RUN:
        raise Stop(3, "line 1: it names no version of a trace")
    merging = Merging(has_idle_merging=first.group(1) is not None)
    for number, line in enumerate(lines[1:], 2):
        if not line and number == len(lines):
            break
        found = LINE.fullmatch(line)
        try:
            if not found:
                raise ValueError
            merging.take(found.group(1), found.group(2).split(), found.group(3), found.group(4).split())
        except (ValueError, IndexError, OverflowError):
            raise Stop(3, f"line {number}: it is none of a trace") from None
    return merging
