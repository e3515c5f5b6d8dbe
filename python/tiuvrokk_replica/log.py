"""The log: entries in one order, each counted once, kept by an etcd cluster.

Keys, under the log's name:
    NAME/floor                  the newest snapshot (a text), the number of the generation that began with it, and the form of
                                the entries of that; without a form they are of the one before, and there must be none
    NAME/log/GENERATION/ID.N    the pieces of an entry; the last of them, whose name ends in `.!`, is its head
    NAME/tail                   put together with each head, whose entry it names: its revision is the log's end
    NAME/snap/ID/N              pieces of snapshots (snapshots.py); the ID begins with the generation
    NAME/claim/GENERATION       the replica that writes the next snapshot, by a lease

An entry has its place by the revision that made its head. Puts are plain, and tried until one is answered, so they may come
twice and late. The readers settle that, all alike: a key that is put again says nothing, and a key of another generation
than the one that its place is in says nothing. The generation is the floor's, and the floor moves by a compared put alone.
A generation's keys are let go once two floors have followed it: until then a put that comes again finds its key, and later
its generation is over. Whoever sees a generation end without its entry puts it under the next.

A cluster that has an older state than was read, or another one, went back. No reader goes on from there."""
from __future__ import annotations

import asyncio
import json
from typing import Callable, List, NamedTuple, Optional, Tuple

from .entries import FORM, NoEntry
from .etcd import FAULTS, PAUSE, Etcd, Link, Message, Refused, Unreachable, decoded, encoded, put_of
from .reader import Entry, Reader, WentBack

# Bytes of a piece; etcd takes requests of 1.5 MB.
PIECE = 1_000_000
# Seconds behind which a silent watch is compared with the cluster.
SILENCE = 1.0


class LeftBehind(Exception):
    """Entries that weren't read are gone: only a snapshot has what they did."""


class Event(NamedTuple):
    """A put that counts."""

    revision: int
    key: str
    text: str  # as the gateway has the value

    @property
    def value(self) -> bytes:
        return decoded(self.text)


class Head(NamedTuple):
    """The newest put of a head that was read: the revision by which its key was made, and that of the put."""

    key: str
    made: int
    revision: int

    @property
    def name(self) -> str:
        """That of its entry."""
        return name_of(self.key)[0]


class News(NamedTuple):
    """The events that count up to a revision, behind those told before, and the newest head put among them."""

    events: List[Event]
    revision: int
    head: Optional[Head]


def name_of(key: str) -> Tuple[str, str]:
    """The name of the entry that a key belongs to, and which of its pieces it has."""
    name, _, piece = key.rpartition("/")[2].rpartition(".")
    return name, piece


def revision_of(answer: Message) -> int:
    """That of the cluster's state by which it answered."""
    return int(answer["header"]["revision"])


def told_by_floor(text: bytes) -> Message:
    """What a floor says. One that names no form was written before there were any: its snapshot is one all the same."""
    told: Message = json.loads(text)
    if told.get("form", FORM) != FORM:
        raise NoEntry(f"the snapshot {told['id']} begins a log of form {told['form']}, which this version doesn't know")
    return told


class Log:
    """What a replica knows of the log."""

    def __init__(self, etcd: Etcd, name: str) -> None:
        self.etcd, self.name = etcd, name
        self.tail = f"{name}/tail"
        self.floor = Event(0, f"{name}/floor", "")  # as far as was read
        self.reader = Reader()
        self.generation = 0
        self.moved = asyncio.Event()  # the floor has
        self.seen = 0  # the revision up to which all was read
        self.head: Optional[Head] = None  # the newest that was read, where one was

    # Writing

    async def write(self, name: str, entry: bytes, is_seen: Callable[[], bool]) -> None:
        """Puts an entry, until that was answered, or the entry was seen, or its generation is over."""
        generation = self.generation

        def is_settled() -> bool:
            return is_seen() or self.generation != generation

        place = f"{self.name}/log/{generation:08d}/{name}"
        pieces = [entry[at:at + PIECE] for at in range(0, max(len(entry), 1), PIECE)]
        for number, piece in enumerate(pieces[:-1]):
            if await self.etcd.ask("/v3/kv/put", put_of(f"{place}.{number}", piece), is_settled) is None:
                return
        puts = [put_of(f"{place}.!", pieces[-1]), put_of(self.tail, name.encode())]
        read = self.seen
        answer = await self.etcd.ask("/v3/kv/txn", {"success": [{"requestPut": put} for put in puts]}, is_settled)
        if answer is not None and revision_of(answer) <= read:
            raise WentBack(f"an entry was put at revision {revision_of(answer)}, and {read} was read before")

    # Reading

    def begin_behind(self, told: Message) -> None:
        """Reads on behind the snapshot that a floor names. That floor comes once more."""
        self.floor = Event(int(told["since"]), self.floor.key, "")
        self.reader.begin_behind(int(told["since"]), int(told["generation"]))
        self.generation = self.reader.generation()

    def take(self, event: Event) -> Optional[Entry]:
        """An event, in its turn: the entry whose head it is."""
        if event.key != self.floor.key:
            return self.reader.put(event.revision, event.key, event.value)
        if event.revision > self.floor.revision:  # who wrote the snapshot that was begun by had read it
            told = told_by_floor(event.value)
            writer = int(told["id"].rpartition("-")[2], 16)
            self.reader.move(event.revision, int(told["since"]), int(told["generation"]), writer)
            self.floor, self.generation = event, self.reader.generation()
            self.moved.set()
        return None

    def first(self, revision: int) -> int:
        """Behind which revision a reader has to begin who has a snapshot of the given one: entries may have begun before."""
        return self.reader.first_behind(revision)

    async def end(self) -> int:
        """The newest entry's revision, of what the cluster has agreed on by now."""
        read, head = self.seen, self.head  # they go on while the answer is awaited
        answer = await self.etcd.get(self.tail)
        tail = (answer.get("kvs") or [None])[0]
        end = int(tail["mod_revision"]) if tail else 0
        if revision_of(answer) < read:
            raise WentBack(f"it is at revision {revision_of(answer)}, and {read} was read before")
        if head and end <= read and (end != head.revision or decoded(tail.get("value", "")).decode() != head.name):
            raise WentBack(f"the newest entry that it has is none that was read at revision {end}")
        return end

    async def check(self) -> None:
        """That the cluster still has what was read."""
        read, head, floor = self.seen, self.head, self.floor
        keys = [floor.key] + ([head.key] if head else [])
        asked = [{"requestRange": {"key": encoded(key.encode())}} for key in keys]
        answer = await self.etcd.must("/v3/kv/txn", {"success": asked})
        found = [(next(iter(it.values())).get("kvs") or [None])[0] for it in answer["responses"]]
        newest = int(found[0]["mod_revision"]) if found[0] else 0
        if revision_of(answer) < read or newest < floor.revision:
            raise WentBack(f"it is at revision {revision_of(answer)}, its floor at {newest}; {read} was read before")
        if not head:
            return
        made = int(found[1]["create_revision"]) if found[1] else 0
        if 0 < made <= read and made != head.made:
            raise WentBack(f"the entry that was made at revision {head.made} was made at {made}")
        if not 0 < made <= read:
            # It may be let go once two floors have followed its generation.
            generation = int(json.loads(decoded(found[0]["value"]))["generation"]) if found[0] else 0
            if generation < int(head.key.split("/")[-2]) + 2:
                raise WentBack(f"it has no entry any more that was read at revision {head.revision}")

    async def follow(self, after: int, take: Callable[[News], None]) -> None:
        """Gives all that comes behind a revision, once, in its order, for ever."""
        self.seen = after
        while True:
            host = self.etcd.host
            try:
                await self.check()
                host = self.etcd.host
                await self.watch(host, take)
            except FAULTS + (Unreachable,):
                pass
            except Refused:  # the history is gone up to somewhere behind what was read
                self.give(await self.kept(), take)
            self.etcd.pass_over(host)
            await asyncio.sleep(PAUSE)

    def give(self, news: News, take: Callable[[News], None]) -> None:
        if news.revision <= self.seen:
            return
        self.seen = news.revision
        self.head = news.head or self.head
        take(news)

    async def watch(self, host: str, take: Callable[[News], None]) -> None:
        """Gives what a member tells of the log, as it comes, until the member fails or is cut off."""
        if self.etcd.access.user and not self.etcd.token:
            await self.etcd.authenticate()
        link = await Link.open(host, self.etcd.access)
        request = {"key": encoded(self.floor.key.encode()), "range_end": encoded(f"{self.name}/log0".encode()),
                   "start_revision": str(self.seen + 1), "fragment": True}
        hearing = Hearing(lambda line: self.give(self.news_of(host, json.loads(line).get("result", {})), take), link)
        try:
            answer = link.post("/v3/watch", {"create_request": request}, self.etcd.token, hearing.hear)
            await self.listen(host, hearing, answer)
            if answer.result()[0] != 200:
                self.etcd.token = ""
                raise Unreachable(host)
        finally:
            link.close()

    async def listen(self, host: str, hearing: Hearing, answer: "asyncio.Future[Tuple[int, bytes]]") -> None:
        """Waits until a watch ends. Where it is silent: has it nothing to say, or is it cut off? The cluster knows."""
        end = 0
        while not answer.done():
            hearing.is_silent = True
            await asyncio.wait({answer}, timeout=SILENCE)
            if answer.done() or not hearing.is_silent:
                end = 0
                continue
            if end > self.seen:
                raise Unreachable(host)
            end = await self.end()

    def news_of(self, host: str, result: Message) -> News:
        """The news in one message of a watch."""
        if result.get("canceled"):
            raise Refused("compacted") if "compact_revision" in result else Unreachable(host)
        events: List[Event] = []
        revision, head = 0, None
        for told in result.get("events", ()):
            kv = told["kv"]
            at = int(kv["mod_revision"])
            revision = max(revision, at)
            if at <= self.seen or told.get("type", "PUT") != "PUT":
                continue
            key = decoded(kv["key"]).decode()
            if key.endswith(".!"):
                head = Head(key, int(kv["create_revision"]), at)
            # The first put of a key says something, and each of the floor.
            if kv["version"] == "1" or key == self.floor.key:
                events.append(Event(at, key, kv.get("value", "")))
        return News(events, revision, head)

    async def kept(self) -> News:
        """The news by what is kept, where the history was compacted."""
        answer = await self.etcd.get(self.floor.key, f"{self.name}/log0", keys_only=True)
        at = revision_of(answer)
        events: List[Event] = []
        for kv in answer.get("kvs", []):
            key = decoded(kv["key"]).decode()
            revision = int(kv["mod_revision" if key == self.floor.key else "create_revision"])
            if revision <= self.seen:
                continue
            try:
                text = (await self.etcd.get(key, revision=str(at)))["kvs"][0].get("value", "")
            except Refused as fault:
                raise LeftBehind("compacted while it was read") from fault
            if key == self.floor.key and json.loads(decoded(text))["since"] != self.floor.revision:
                raise LeftBehind("the floor has moved twice")
            events.append(Event(revision, key, text))
        self.head = None  # a newer one may have been put again, or have gone since
        return News(sorted(events), at, None)


class Hearing:
    """The lines of a watch, each of which has a taker. What the taker raises ends the watch."""

    def __init__(self, take: Callable[[bytes], None], link: Link) -> None:
        self.take, self.link = take, link
        self.rest = b""
        self.is_silent = True  # since this was set

    def hear(self, piece: bytes) -> None:
        self.is_silent = False
        *lines, self.rest = (self.rest + piece).split(b"\n")
        try:
            for line in lines:
                self.take(line)
        except Exception as fault:
            self.link.fail(fault)
