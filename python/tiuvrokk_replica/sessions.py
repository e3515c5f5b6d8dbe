"""Sessions: the lines of clients, and the answers to them in their order."""
from __future__ import annotations

import asyncio
import re
import time
from typing import Awaitable, Callable, Dict, List, Optional, Tuple, Union

from tiuvrokk._grammar import MAX_LINE

from .entries import Block
from .lines import KEY, READING, is_of_http, is_sure, may_have_http, writing
from .replica import Outcome, Replica
from .transaction import LIMIT, UNREACHABLE, Transaction

# Bytes that are read at once.
CHUNK = 1 << 18
# The first byte of a connection that speaks no other protocol.
TEXT = b"\t\n\f\r" + bytes(range(32, 127))
# Bytes of whole transactions that were sent ahead, for one entry.
AHEAD = 500_000
# Whole transactions that read a few records, which may go to the store as they stand.
READS_AHEAD = re.compile(b"(?:BEGIN\n(?:(?:%b|R?SCAN %b %b [1-9])\n)*COMMIT\n)+" % (READING, KEY, KEY))
# A whole transaction that reads and writes records by lines that surely do, and that are not too long: these, one of which writes.
WRITES = re.compile(
    rb"BEGIN\n((?:{reading}\n)*{writing}\n(?:(?:{reading}|{writing})\n)*)COMMIT\n"
    .replace(b"{reading}", READING).replace(b"{writing}", writing(b"{1,41}"))
)
# Bytes of BEGIN and COMMIT.
AROUND = len(b"BEGIN\nCOMMIT\n")
# Bytes of answers that a client hasn't read, and sendings whose ends aren't known, beyond which its lines wait.
UNREAD, MOST_FLYING = 1 << 16, 100
ENDS = (b"BEGIN", b"COMMIT")
# Lines that end a transaction, or that don't belong to it.
APART = (b"QUIT", b"ABORT", b"SEEN", b"WHO", b"WHO ALL")
MAINTENANCE = (b"MERGE ", b"CLEAN ", b"END ")
# (no such line goes to the store, whose own session it would end)
END = re.compile(rb"END (0|[1-9][0-9]{0,19})")


def writers_at(text: bytes, at: int) -> Tuple[List[Block], int]:
    """The blocks of whole transactions that write, which stand in a text at some place; and where they end."""
    if not at:
        bodies = WRITES.findall(text)
        if sum(map(len, bodies)) + AROUND * len(bodies) == len(text):
            return list(map(Block, bodies)), len(text)
    blocks: List[Block] = []
    found = WRITES.match(text, at)
    while found:
        blocks.append(Block(found[1]))
        at = found.end()
        found = WRITES.match(text, at)
    return blocks, at


class Session:
    """A client's lines. Where it reads local states these are at most `limit` seconds old."""

    def __init__(
        self, replica: Replica, sessions: Dict[int, Session], number: int, is_local: bool, limit: float, writer: asyncio.StreamWriter,
    ) -> None:
        self.replica, self.number, self.is_local, self.limit, self.writer = replica, number, is_local, limit, writer
        self.sessions = sessions  # all of the replica, by their numbers
        self.heard = time.monotonic()  # when something came last
        self.begun = 0
        self.transaction: Optional[Transaction] = None
        self.out: List[Union[bytes, Block]] = []  # answers, and blocks in the place of theirs
        self.told: List[bytes] = []  # answers that go with the next ones that are sent, in this turn of the loop
        self.ahead = 0  # bytes of those blocks
        self.is_current: Optional[bool] = None  # whether the log's end was reached since the last lines came, once that was asked
        self.has_begun = False  # something has come
        self.rests = False  # all lines that came were taken
        self.flying = self.flying_bytes = 0  # sendings, and bytes of them, that wait for their ends with no task
        self.landed = asyncio.Event()  # none does

    def take_past(self, data: bytes) -> bool:
        """Lines that a session which rests takes with no task: BEGIN, the COMMIT of what was told, and whole transactions that
        write and were sent ahead. Whether it took them."""
        self.heard = time.monotonic()
        is_full = self.flying >= MOST_FLYING or self.flying_bytes > AHEAD
        if not self.rests or is_full or self.writer.transport.get_write_buffer_size() > UNREAD:
            return False
        transaction = self.transaction
        if transaction is None and data != b"BEGIN\n":
            return not may_have_http(data) and self.take_ahead(data)
        if self.flying:
            return False
        if transaction is None:
            self.begin()
            self.send()
            return True
        if data != b"COMMIT\n" or not transaction.is_told():
            return False
        self.transaction = None
        block = transaction.block()
        self.fly([block], len(block.body), lambda outcomes: self.tell(outcomes[0]))
        return True

    def take_ahead(self, data: bytes) -> bool:
        blocks, end = writers_at(data, 0)
        if end < len(data):
            return False

        def tell(outcomes: List[Outcome]) -> None:
            first, self.begun = self.begun + 1, self.begun + len(blocks)
            self.tell(b"".join([b"BEGUN %d\n%s" % it for it in enumerate(outcomes, first)]))

        self.fly(blocks, len(data), tell)
        return True

    def fly(self, blocks: List[Block], size: int, tell: Callable[[List[Outcome]], None]) -> None:
        """Blocks of so many bytes go into the log, and what they come to is told, with no task."""

        def land(outcomes: List[Outcome]) -> None:
            tell(outcomes)
            self.flying -= 1
            self.flying_bytes -= size
            if not self.flying:
                self.landed.set()

        self.flying += 1
        self.flying_bytes += size
        self.replica.hand_in(blocks, self.limit, land)

    def begin(self) -> None:
        self.begun += 1
        self.transaction = Transaction()
        self.out.append(b"BEGUN %d" % self.begun)

    async def serve(self, reader: asyncio.StreamReader) -> None:
        """All lines up to QUIT, the end of the input, or what is no line of the protocol: as where the client is lost, nothing of
        that is taken, and what isn't committed doesn't stand."""
        rest, data = b"", b"."
        while data:
            self.rests = not rest
            data = await reader.read(CHUNK)
            self.rests = False
            self.heard = time.monotonic()
            if not self.has_begun and not (data and data[0] in TEXT):
                return
            self.has_begun = True
            while self.flying:
                self.landed.clear()
                await self.landed.wait()
            self.is_current = None
            taken = await self.take_text(await self.take_reads(rest + data), not data)
            if taken is None:
                return
            rest = taken
            await self.answer_all()
            self.send()
            await self.writer.drain()

    def send(self) -> None:
        """Sends the answers that stand; no block waits before them."""
        self.flush(b"".join(answer + b"\n" for answer in self.out if isinstance(answer, bytes)))
        self.out = []

    def tell(self, answers: bytes) -> None:
        """Answers to blocks of an entry, which are sent together."""
        if not self.told:
            self.replica.flushes.append(self.flush)
        self.told.append(answers)

    def flush(self, answers: bytes = b"") -> None:
        """Sends what was told, and answers."""
        told, self.told = self.told, []
        self.writer.write(b"".join(told) + answers)

    # Lines

    async def take_text(self, text: bytes, is_last: bool) -> Optional[bytes]:
        """Lines, and whole transactions that write; the rest of the text, or None where the session ends."""
        looks = may_have_http(text)
        at = 0
        while at < len(text):
            if self.transaction is None and not looks:
                at = await self.take_writes(text, at)
            end = text.find(b"\n", at)
            if end < 0 and not is_last or at == len(text):
                break
            line = text[at:end] if end >= 0 else text[at:at + MAX_LINE + 1]
            at = end + 1 if end >= 0 else len(text)
            if looks and is_of_http(line):
                await self.answer_all()
                self.send()
                return None
            if not await self.take(line):
                return None
        return text[at:at + MAX_LINE + 1]

    async def take_writes(self, text: bytes, at: int) -> int:
        """Whole transactions that stand in the text, whose lines are answered in their blocks' places; where they end."""
        blocks, end = writers_at(text, at)
        for block in blocks:
            self.begun += 1
            self.out += (b"BEGUN %d" % self.begun, block)
            self.ahead += len(block.body)
            if self.ahead > AHEAD:
                await self.settle()
        return end

    async def take(self, line: bytes) -> bool:
        """One line; whether the session goes on."""
        if len(line) > MAX_LINE:
            await self.answer_all()
            self.out.append(b"ERR LONG")
            return True
        if line.endswith(b"\r"):
            line = line[:-1]
        transaction = self.transaction
        if line == b"BEGIN" and transaction is None:
            self.begin()
        elif transaction is None or b"\r" in line or line in APART or line.startswith(MAINTENANCE):
            await self.answer_all()
            return self.take_apart(line)
        elif line == b"COMMIT":
            await self.commit(transaction)
        else:
            await self.take_inside(transaction, line)
        return True

    async def take_inside(self, transaction: Transaction, line: bytes) -> None:
        """A line of the transaction, which is answered later, unless there is no room for it in a block."""
        if not transaction.fault and not transaction.has_room(line):
            await self.answer_all()  # answers that stand take less room than those that are awaited
            if not transaction.has_room(line):
                self.out.append(LIMIT)
                return
        transaction.add(line)

    def take_apart(self, line: bytes) -> bool:
        """A line that is answered here and now; whether the session goes on."""
        if line == b"QUIT":
            self.out.append(b"BYE")
            self.send()
            return False
        if line == b"ABORT" and self.transaction is not None:
            self.transaction = None
            self.out.append(b"ABORTED")
        elif b"\r" in line:
            self.out.append(b"ERR SYNTAX")
        elif line == b"REPLICA" and self.transaction is None:
            self.out.append(b"REPLICA")
        elif line == b"SEEN":
            self.out.append(b"SEEN %d %d" % (self.number, self.replica.commits))
        elif line in (b"WHO", b"WHO ALL"):
            self.out.append(self.who(line == b"WHO ALL"))
        elif END.fullmatch(line) and int(line[4:]) < 1 << 64:
            return self.end(int(line[4:]))
        else:
            # (a line within a transaction merges or cleans, or is faulty)
            self.out.append(self.replica.store.answer_outside(line))
        return True

    def who(self, tells_all: bool) -> bytes:
        """The replica's sessions that have a transaction active, or all, each with that and the seconds since something came. None
        holds or waits."""
        now = time.monotonic()
        asked = [one for one in self.sessions.values() if tells_all or one.transaction is not None]
        told = [b"%d:%d:%d" % (one.number, one.begun if one.transaction is not None else 0, int(now - one.heard)) for one in asked]
        return b" ".join([b"WHO %d" % len(told), *told])

    def end(self, number: int) -> bool:
        """A session of the replica ends, as where its client is lost; whether this one goes on."""
        other = self.sessions.pop(number, None)
        self.out.append(b"ERR SESSION" if other is None else b"OK")
        if other is self:
            self.send()
        elif other is not None:
            other.writer.transport.abort()
        return other is not self

    async def commit(self, transaction: Transaction) -> None:
        if transaction.only_reads() or transaction.has_stages or transaction.fault or not all(map(is_sure, transaction.pending)):
            await self.answer_all()
        if transaction.commits < 0 and transaction.only_reads():
            await self.look(transaction)
        if transaction.fault:
            self.out.append(transaction.fault)
        elif transaction.waits_to_load:
            self.out.append(b"ERR STAGED")
            return
        elif transaction.only_reads():
            self.out.append(b"COMMITTED %d" % transaction.commits)
            self.replica.keep_up_soon()
        else:
            block = transaction.block()
            self.out.append(block)
            self.ahead += len(block.body)
            if self.ahead > AHEAD:
                await self.settle()
        self.transaction = None

    # Answers

    async def answer_all(self) -> None:
        """Answers all lines that have no answer yet."""
        await self.settle()
        transaction = self.transaction
        if transaction is not None and transaction.pending:
            await self.look(transaction)
            self.out += transaction.trial(self.replica.store, self.replica.commits)

    async def settle(self) -> None:
        """The outcomes of the blocks that wait, before anything else is done."""
        blocks = [one for one in self.out if isinstance(one, Block)]
        if not blocks:
            return
        first = self.out.index(blocks[0])
        rest, self.out, self.ahead = self.out[first:], self.out[:first], 0
        self.send()
        await self.writer.drain()
        outcomes = iter(await self.replica.commit(blocks, self.limit))
        for one in rest:
            if isinstance(one, Block):
                self.out.append(next(outcomes)[:-1])
            else:
                self.out.append(one)

    async def look(self, transaction: Transaction) -> None:
        """Before a trial: its state is new enough, or the transaction can't go on."""
        if not transaction.fault and (self.is_local or transaction.commits < 0) and not await self.is_new():
            transaction.fault = UNREACHABLE
        if transaction.commits < 0:
            transaction.commits = self.replica.commits

    async def is_new(self) -> bool:
        """Whether what stands in the store now is new enough to be told of."""
        if self.is_local:
            return self.replica.ends.age() <= self.limit
        if self.is_current is None:
            self.is_current = await self.replica.ends.is_reached(self.limit)
        return self.is_current

    async def take_reads(self, text: bytes) -> bytes:
        """Whole transactions that read a few records, sent ahead, are answered by one state; the rest of the text."""
        found = READS_AHEAD.match(text) if self.transaction is None else None
        if not found or not await self.is_new():
            return text
        self.flush(self.read(found.group()))
        return text[found.end():]

    def read(self, text: bytes) -> bytes:
        """The answers to transactions that read, which are those of one state."""
        lines = text.split(b"\n")[:-1]
        found = iter(self.replica.store.looks([line for line in lines if line not in ENDS]))
        self.replica.keep_up_soon()
        answers: List[bytes] = []
        committed = b"COMMITTED %d" % self.replica.commits
        for line in lines:
            if line == b"BEGIN":
                self.begun += 1
                answers.append(b"BEGUN %d" % self.begun)
            else:
                answers.append(committed if line == b"COMMIT" else next(found))
        return b"".join([answer + b"\n" for answer in answers])


class Connection(asyncio.StreamReaderProtocol):
    """A client's connection, whose lines go to its session's task, or past it."""

    def __init__(self, serve: Callable[[Connection, asyncio.StreamReader, asyncio.StreamWriter], Awaitable[None]]) -> None:
        reader = asyncio.StreamReader(limit=CHUNK)
        self.session: Optional[Session] = None
        super().__init__(reader, lambda reader, writer: serve(self, reader, writer))

    def data_received(self, data: bytes) -> None:
        if self.session is None or not self.session.take_past(data):
            if self.session is not None:
                self.session.rests = False
            super().data_received(data)
        else:
            self.session.has_begun = True
