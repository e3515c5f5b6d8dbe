"""A replica: a store that takes the log's blocks in their order, and the way of its sessions' blocks into the log."""
from __future__ import annotations

import asyncio
import json
import uuid
from heapq import heappop, heappush
from itertools import islice
from operator import itemgetter
from typing import Any, Callable, Dict, List, NamedTuple, Optional, Tuple

from . import snapshots
from .ends import Ends
from .entries import BESIDE, Block, NoEntry, blocks_of, count_of, entry_of, portions, text_of, unpacked
from .library import StoreEnded
from .log import Event, Log, News
from .reader import Entry
from .store import Store, Trial
from .trace import Trace
from .transaction import UNKNOWN
from .waits import Waits

# Entries on their way at once: more of them make smaller ones, and were slower.
ENTRIES = 1
# Bytes of an entry that waits for company.
ENTRY = 1_000_000
# Sessions that were just told what became of their blocks may bring the next ones, for one entry: seconds that each of them is
# awaited, and that all are. They aren't where fewer than so much of those came that were told before.
MOMENT, MOMENTS = 0.003, 0.008
WORTH = 1 / 3
# Of a block.
BODY = itemgetter(0)


# What a block came to: the answers to its lines that weren't answered before, and to COMMIT, each with its LF.
Outcome = bytes


def undone(block: Block, why: bytes) -> Outcome:
    """That of a block of which nothing is known to stand."""
    return (why + b"\n") * block.awaited


def outcomes_of(answers: bytes, blocks: List[Block], first: int) -> List[Outcome]:
    """Those of an entry's blocks, by what their clients are told one after another, and the number of the first that committed."""
    # (parted so, each begins with the number of the commit before it)
    texts = (b"\n" + answers).split(b"\nCOMMITTED ")[:-1]
    if len(texts) == len(blocks):
        return [b"%sCOMMITTED %d\n" % ((text + b"\n").split(b"\n", 1)[1], number) for number, text in enumerate(texts, first)]
    lines = iter(answers.split(b"\n"))
    return [b"".join(b"%s\n" % line for line in islice(lines, block.awaited)) for block in blocks]


class Waiting(NamedTuple):
    """Blocks of a session, which go into one entry, in their order; who is told what they came to; and under which number that
    is waited for."""

    blocks: List[Block]
    tell: Callable[[List[Outcome]], None]
    number: int


def size_of(blocks: List[Block]) -> int:
    """How many bytes of an entry they are."""
    return sum(map(len, map(BODY, blocks))) + BESIDE * len(blocks)


class Replica:
    """The store, the log, and what is on its way from sessions to the log and back."""

    def __init__(self, log: Log, store: Store, blocks_between_snapshots: int, trace: Optional[Trace] = None) -> None:
        self.log, self.store, self.trace = log, store, trace
        self.loop = asyncio.get_running_loop()
        self.waits = Waits()
        self.ends = Ends(log, self.waits)
        self.blocks_between_snapshots = blocks_between_snapshots
        self.commits = 0
        self.applied = 0  # the revision of the newest entry that was
        self.blocks = 0  # that committed since the newest snapshot
        self.conflicts = self.unknown = self.unreachable = 0  # blocks of the log that didn't commit, and own ones told so
        self.name = uuid.uuid4().hex
        self.entries = 0
        self.queue: Dict[int, Waiting] = {}  # those that weren't handed over, by their numbers
        self.on_way: Dict[str, List[Waiting]] = {}  # by the entries that have them
        self.tasks: "asyncio.Queue[asyncio.Task[None]]" = asyncio.Queue()  # that write, for `life` to look at their ends
        self.awaited = 0  # how many sessions wait, or were just told
        self.awaited_until = 0.0
        self.told = self.came = 0  # sessions that were told last, and those that came within a moment
        self.told_at = 0.0
        self.moment_ends = 0.0  # when what waits goes on its way, whoever comes
        self.moment: Optional[asyncio.TimerHandle] = None
        self.untold: Dict[int, Waiting] = {}  # all that wait, by their numbers
        self.limits: List[Tuple[float, int]] = []  # a heap: until when who waits does, at most
        self.limit: Optional[asyncio.TimerHandle] = None
        self.flushes: List[Callable[[], None]] = []  # those of sessions that are being told something
        self.failure: "asyncio.Future[None]" = self.loop.create_future()  # of what the log's news did
        self.keeps_up = False  # a step that merges or cleans will be done
        self.snapshot: Optional["asyncio.Task[None]"] = None
        self.has_begun = False  # all that the log had at the start was applied

    # A session's blocks, into the log

    async def commit(self, blocks: List[Block], limit: float) -> List[Outcome]:
        """What the blocks came to; beyond the limit that isn't known, or they were never handed over."""
        outcomes: "asyncio.Future[List[Outcome]]" = self.loop.create_future()
        self.hand_in(blocks, limit, outcomes.set_result)
        return await outcomes

    def hand_in(self, blocks: List[Block], limit: float, tell: Callable[[List[Outcome]], None]) -> None:
        """Has blocks go into the log, and what they came to be told."""
        try:
            waiting = Waiting(blocks, tell, self.waits.enter(size_of(blocks)))
        except StoreEnded as fault:  # (who calls may have no task that could fail)
            if not self.failure.done():
                self.failure.set_exception(fault)
            return
        now = self.loop.time()
        self.queue[waiting.number] = self.untold[waiting.number] = waiting
        while self.limits and self.limits[0][1] not in self.untold:
            heappop(self.limits)
        heappush(self.limits, (now + limit, waiting.number))
        if self.limit is None or self.limit.when() > now + limit:
            self.await_limit()
        self.came += now < self.told_at + MOMENT
        if len(self.queue) >= self.awaited:
            self.hand_over()
        else:
            self.hand_over_soon()

    def await_limit(self) -> None:
        """Has the limit noticed that ends first. (A timer for each that waits would cost more than all else that it does.)"""
        if self.limit is not None:
            self.limit.cancel()
        self.limit = self.loop.call_at(self.limits[0][0], self.pass_limits) if self.limits else None

    def pass_limits(self) -> None:
        now = self.loop.time()
        while self.limits and (self.limits[0][1] not in self.untold or self.limits[0][0] <= now):
            self.expire(heappop(self.limits)[1])
        self.await_limit()
        self.flush_all()

    def expire(self, number: int) -> None:
        """Tells who waits no longer what is known of its blocks, unless it was told."""
        end = self.waits.expire(number)
        if end is None:
            return
        self.queue.pop(number, None)
        waiting = self.untold.pop(number)
        self.unknown += len(waiting.blocks) * (end is UNKNOWN)
        self.unreachable += len(waiting.blocks) * (end is not UNKNOWN)
        waiting.tell([undone(block, end) for block in waiting.blocks])

    def settle(self, waiting: Waiting, outcomes: List[Outcome]) -> None:
        """Tells what its blocks came to, unless its limit ended before."""
        if self.waits.settle(waiting.number):
            del self.untold[waiting.number]
            waiting.tell(outcomes)

    def hand_over(self) -> None:
        """What waits goes on its way, as far as there is room."""
        self.awaited = 0
        while self.queue and len(self.on_way) < ENTRIES:
            self.entries += 1
            name = f"{self.name}-{self.entries}"
            self.on_way[name] = [self.queue.pop(number) for number in self.waits.hand_over(ENTRY)]
            self.write(name)

    def hand_over_soon(self) -> None:
        """Where the next session doesn't come soon."""
        self.moment_ends = min(self.loop.time() + MOMENT, self.awaited_until)
        if self.moment is None:
            self.moment = self.loop.call_at(self.moment_ends, self.pass_moment)

    def pass_moment(self) -> None:
        """Hands over, unless somebody came since the moment was begun."""
        self.moment = None
        if self.loop.time() < self.moment_ends:
            self.moment = self.loop.call_at(self.moment_ends, self.pass_moment)
        else:
            self.hand_over()

    def write(self, name: str) -> None:
        entry = entry_of([block for waiting in self.on_way[name] for block in waiting.blocks])
        task = asyncio.ensure_future(self.log.write(name, entry, lambda: name not in self.on_way))
        task.add_done_callback(self.tasks.put_nowait)

    # The log's entries, into the store

    def hear(self, news: News) -> None:
        """What the log has to tell. What fails in that ends the replica."""
        if self.failure.done():
            return
        try:
            for event in news.events:
                self.take(event)
            self.ends.reach(news.revision)
        except Exception as fault:
            self.failure.set_exception(fault)

    def take(self, event: Event) -> None:
        """An event of the log, in its turn."""
        entry = self.log.take(event)
        if event is self.log.floor:
            self.blocks = max(0, self.commits - int(json.loads(event.value)["commits"]))
            for name in self.on_way:  # they weren't read while their generation was
                self.write(name)
        if entry is None or event.revision <= self.applied:
            return
        self.apply_entry(entry)
        self.applied = event.revision
        if self.trace:
            self.trace.flush()
        if self.is_snapshot_due() and (self.snapshot is None or self.snapshot.done()):
            self.snapshot = asyncio.ensure_future(snapshots.write(self))
            self.snapshot.add_done_callback(self.tasks.put_nowait)

    def is_snapshot_due(self) -> bool:
        """Whether enough blocks have committed since the newest snapshot, which an entry has followed."""
        is_enough = 0 < self.blocks_between_snapshots <= self.blocks
        return self.has_begun and is_enough and self.applied > self.log.floor.revision

    def tell(self, waitings: List[Waiting], outcomes: List[Outcome]) -> None:
        """Tells each session of an entry what became of its blocks. What waits goes on its way, with what they bring next."""
        is_worth = self.came >= self.told * WORTH
        if not is_worth:
            self.hand_over()
        at = 0
        for waiting in waitings:
            self.settle(waiting, outcomes[at:at + len(waiting.blocks)])
            at += len(waiting.blocks)
        self.flush_all()
        # (their telling may take longer than a moment)
        self.told, self.came, self.told_at = len(waitings), 0, self.loop.time()
        if is_worth:
            self.awaited, self.awaited_until = len(self.queue) + len(waitings), self.told_at + MOMENTS
            self.hand_over_soon()

    def flush_all(self) -> None:
        """Sends what sessions were told, all that one was at once."""
        flushes, self.flushes = self.flushes, []
        for flush in flushes:
            flush()

    def apply_entry(self, entry: Entry) -> None:
        """Takes its blocks, and has what they come to be told where they are this replica's sessions'."""
        waitings = self.on_way.pop(entry.name, [])
        first = self.commits + 1
        try:
            text = unpacked(entry.text())
            answers = self.take_text(text, bool(waitings))
        except NoEntry as fault:
            raise NoEntry(f"the entry {entry.name} {fault}") from fault
        self.commits = self.store.commits
        committed = self.commits + 1 - first
        self.blocks += committed
        self.conflicts += count_of(text) - committed
        self.keep_up_soon()
        if waitings:
            self.tell(waitings, outcomes_of(answers, [block for waiting in waitings for block in waiting.blocks], first))

    def take_text(self, text: bytes, is_own: bool) -> bytes:
        """Takes an entry's blocks: what their clients are told, if one is this replica's session."""
        if self.trace:
            return b"".join(self.take_traced(block, self.trace) for block in blocks_of(text))
        if is_own:
            return b"".join(map(self.store.take, portions(text)))
        for portion in portions(text):
            self.store.apply(portion)
        return b""

    def take_traced(self, block: Block, trace: Trace) -> bytes:
        """Takes a block, and stores it with all its answers, if it commits: those that were told before come again by a trial."""
        told = Trial(self.store).ask(block.lines[:block.told])
        commits = self.store.commits
        answers = self.store.take(text_of([block]))
        if self.store.commits > commits:
            trace.write(block.lines, [*told, *answers.split(b"\n")])
        return answers

    # Upkeep

    def keep_up_soon(self) -> None:
        """Has the store merge what was read and clean what was deleted, between all else, until nothing is left."""
        if not self.keeps_up:
            self.keeps_up = True
            self.loop.call_soon(self.keep_up)

    def keep_up(self) -> None:
        """A step of that."""
        self.keeps_up = False
        if self.failure.done() or self.store.is_closed:
            return
        try:
            if self.store.keep_up():
                self.keep_up_soon()
        except Exception as fault:
            self.failure.set_exception(fault)

    # Life

    def figures(self) -> Dict[str, object]:
        """How it does, for who watches it."""
        on_way = [waiting for some in self.on_way.values() for waiting in some]
        return {"commits": self.commits, "conflicts": self.conflicts, "unknown": self.unknown, "unreachable": self.unreachable,
                "waiting": sum(len(waiting.blocks) for waiting in self.queue.values()),
                "on_way": sum(len(waiting.blocks) for waiting in on_way), "since_snapshot": self.blocks,
                "generation": self.log.generation, "revision": self.log.seen, "age": f"{self.ends.age():.1f}",
                "runs": self.store.runs, "member": self.log.etcd.host}

    async def start(self) -> "asyncio.Task[None]":
        """The newest snapshot, and all that the log has by now; the task that goes on so."""
        after = await snapshots.read(self)
        if self.trace:
            self.trace.begin()
        self.ends.reach(after)
        life = asyncio.ensure_future(self.live(after))
        ready = asyncio.ensure_future(self.ends.is_reached(float("inf")))
        await asyncio.wait({life, ready}, return_when=asyncio.FIRST_COMPLETED)
        if life.done():
            ready.cancel()
            life.result()
        ready.result()
        self.has_begun = True
        return life

    async def live(self, after: int) -> None:
        """Follows the log, until that or something that writes to it fails."""
        follow = asyncio.ensure_future(self.log.follow(after, self.hear))
        while True:
            task = asyncio.ensure_future(self.tasks.get())
            lasting: List["asyncio.Future[None]"] = [follow, self.failure]
            waited: List["asyncio.Future[Any]"] = [*lasting, task]
            await asyncio.wait(waited, return_when=asyncio.FIRST_COMPLETED)
            for done in lasting:
                if done.done():
                    done.result()
            if task.done():
                task.result().result()
