"""Snapshots: all committed records, beside the log, as lines that load them; the log up to there is let go.

A snapshot is the floor's text that names it, written once all its pieces are and were read again. What isn't named there
is nobody's, and goes with the next one.

Requests may come late and more than once, after others have moved the floor. So what is let go is deleted together, and only
where the floor still is the one that was read. Pieces of a later generation stay even then: the floor may name them next."""
from __future__ import annotations

import asyncio
import hashlib
import json
import sys
import time
import uuid
import zlib
from typing import TYPE_CHECKING, Dict, List, NamedTuple, Optional, Tuple

from .entries import FORM
from .etcd import Message, Refused, decoded, deletion_of, encoded, put_of
from .library import StoreEnded
from .log import Event, Log, told_by_floor
from .store import runs_of
from .trace import TraceFault

if TYPE_CHECKING:
    from .replica import Replica

# Seconds: who writes a snapshot has to be done by then, or another may try too. The compared put lets one of them be it.
LEASE = 20
# Seconds behind which who waits for pieces of a snapshot says so, and between two such lines.
FIRST_NOTE, NEXT_NOTE = 5.0, 60.0


class Snapshot(NamedTuple):
    """A state of the store, at its place in the log."""

    name: str
    revision: int  # of the newest entry that is in it
    after: int  # behind which the log has to be read
    commits: int
    records: List[bytes]


def note(text: str) -> None:
    print(f"amreplica: {text}", file=sys.stderr, flush=True)


def pieces_of(records: List[bytes]) -> List[bytes]:
    return [zlib.compress(piece, 1) for piece in runs_of(records)]


def new_name(generation: int) -> str:
    """Of the snapshot that begins a generation. It sorts behind those of earlier ones, and behind hexadecimal digits alone,
    which names once were."""
    return f"g{generation:08d}-{uuid.uuid4().hex}"


async def write(replica: Replica) -> None:
    """Writes a snapshot, unless another replica does, or has since this was begun."""
    log = replica.log
    floor, generation = log.floor, log.generation
    if not replica.is_snapshot_due():
        return
    if not await claim(log, generation, replica.name) or log.floor is not floor:
        await asyncio.sleep(1)
        return
    begun = time.monotonic()
    # Nothing else is done meanwhile: the records are one state.
    snapshot = Snapshot(new_name(generation + 1), replica.applied, log.first(replica.applied), replica.commits,
                        replica.store.records())
    stood = time.monotonic() - begun
    pieces = await asyncio.get_running_loop().run_in_executor(None, pieces_of, snapshot.records)
    sums = await put_pieces(log, floor, snapshot.name, pieces)
    if sums is not None:
        await move_floor(log, floor, generation, snapshot, sums)
    while log.floor is floor:
        log.moved.clear()
        await log.moved.wait()
    if not await let_go(log, generation, snapshot):
        return
    note(f"snapshot of {len(snapshot.records)} records at commit {snapshot.commits}, {len(pieces)} pieces, "
         f"stood still for {stood:.3f} s, {time.monotonic() - begun:.3f} s in all")


async def claim(log: Log, generation: int, name: str) -> bool:
    """One replica at a time: whichever comes first."""
    lease = await log.etcd.must("/v3/lease/grant", {"TTL": str(LEASE)})
    put = put_of(f"{log.name}/claim/{generation:08d}", name.encode())
    try:
        return await log.etcd.put_if({"key": put["key"], "target": "VERSION", "version": "0"}, {**put, "lease": lease["ID"]})
    except Refused:  # the lease is over already
        return False


async def put_pieces(log: Log, floor: Event, name: str, pieces: List[bytes]) -> Optional[List[str]]:
    """Puts the pieces and reads them again: their digests, or None where another snapshot came first."""
    for number, piece in enumerate(pieces):
        key = f"{log.name}/snap/{name}/{number:08d}"
        await log.etcd.must("/v3/kv/put", put_of(key, piece))
        if log.floor is not floor:
            return None
        found = (await log.etcd.get(key)).get("kvs", [])
        if log.floor is not floor:
            return None
        if not found or decoded(found[0].get("value", "")) != piece:
            if await is_newest(log, floor):
                raise StoreEnded("a piece of a snapshot isn't as it was written")
            return None
    return [hashlib.sha256(piece).hexdigest() for piece in pieces]


async def is_newest(log: Log, floor: Event) -> bool:
    """Whether the cluster has no later floor. Who moves it lets go other pieces, and that may be seen before it is heard of."""
    kvs = (await log.etcd.get(floor.key)).get("kvs")
    return floor.revision == (int(kvs[0]["mod_revision"]) if kvs else 0)


async def move_floor(log: Log, floor: Event, generation: int, snapshot: Snapshot, sums: List[str]) -> None:
    """Names the snapshot, which begins the next generation, unless another one has."""
    value = {"form": FORM, "generation": generation + 1, "since": floor.revision, "id": snapshot.name, "revision": snapshot.revision,
             "after": snapshot.after, "commits": snapshot.commits, "records": len(snapshot.records), "pieces": sums}
    put = put_of(floor.key, json.dumps(value).encode())
    await log.etcd.put_if({"key": put["key"], "target": "MOD", "mod_revision": str(floor.revision)}, put)


async def let_go(log: Log, generation: int, snapshot: Snapshot) -> bool:
    """Once the floor has moved: what it made nobody's. Whether it moved to this snapshot."""
    floor = log.floor
    mine, end = f"{log.name}/snap/{snapshot.name}/", f"{log.name}/snap/{snapshot.name}0"
    if json.loads(floor.value)["id"] != snapshot.name:
        await delete_if_newest(log, floor, [(mine, end)])
        return False
    # What stands under the generation before the last is in this snapshot, which began after that one had ended.
    areas = [(f"{log.name}/log/", f"{log.name}/log/{generation:08d}/"),
             (f"{log.name}/claim/", f"{log.name}/claim/{generation + 1:08d}"),
             (f"{log.name}/snap/", mine), (end, f"{log.name}/snap/g{generation + 2:08d}")]
    if await delete_if_newest(log, floor, areas):
        await compact(log, snapshot.after)
    return True


async def delete_if_newest(log: Log, floor: Event, areas: List[Tuple[str, str]]) -> bool:
    """Deletes ranges of keys, all at once; where the floor has moved on nothing is, whenever and as often as this arrives."""
    is_newest = {"key": encoded(floor.key.encode()), "target": "VALUE", "value": floor.text}
    return await log.etcd.do_if(is_newest, [deletion_of(key, end) for key, end in areas])


async def compact(log: Log, revision: int) -> None:
    try:
        await log.etcd.must("/v3/kv/compaction", {"revision": str(revision)})
    except Refused as fault:  # another has compacted further
        note(f"compaction: {fault}")


async def read(replica: Replica) -> int:
    """The newest snapshot into the store; the revision behind which the log has to be read."""
    log, found = replica.log, Found()
    while True:
        kvs = (await log.etcd.get(log.floor.key)).get("kvs")
        if not kvs:
            return 0
        told = told_by_floor(decoded(kvs[0]["value"]))
        if await found.have_all(log, told):
            break
        await asyncio.sleep(0.2)  # another has taken its place
    if replica.trace:
        raise TraceFault("the log's beginning is in a snapshot, so no run can be stored")
    replica.store.restore([zlib.decompress(found.pieces[digest]) for digest in told["pieces"]], told["commits"])
    replica.commits, replica.applied = told["commits"], told["revision"]
    # The floor's own event comes once more, behind that.
    log.begin_behind(told)
    return min(int(told["after"]), int(kvs[0]["mod_revision"]) - 1)


class Found:
    """Pieces by their digests, as far as a replica that begins has found them. It says so where others stay away."""

    def __init__(self) -> None:
        self.pieces: Dict[str, bytes] = {}
        self.name = ""  # of the snapshot that isn't whole
        self.silent_until = 0.0

    async def have_all(self, log: Log, told: Message) -> bool:
        """Looks for the pieces that a floor names: whether all are there."""
        self.pieces = {digest: self.pieces[digest] for digest in told["pieces"] if digest in self.pieces}
        for number in range(len(told["pieces"])):
            if not await self.have(log, told, number):
                await self.say(log, told)
                return False
        return True

    async def have(self, log: Log, told: Message, number: int) -> bool:
        digest = told["pieces"][number]
        if digest not in self.pieces:
            kvs = (await log.etcd.get(f"{log.name}/snap/{told['id']}/{number:08d}")).get("kvs")
            piece = decoded(kvs[0]["value"]) if kvs else b""
            if hashlib.sha256(piece).hexdigest() == digest:
                self.pieces[digest] = piece
        return digest in self.pieces

    async def say(self, log: Log, told: Message) -> None:
        """Says which pieces aren't there, once they have been awaited for a while, and then from time to time."""
        now = time.monotonic()
        if told["id"] != self.name:
            self.name, self.silent_until = told["id"], now + FIRST_NOTE
        if now < self.silent_until:
            return
        self.silent_until = now + NEXT_NOTE
        count = len(told["pieces"])
        missing = [str(number) for number in range(count) if not await self.have(log, told, number)]
        numbers = " ".join(missing[:9]) + (" .." if len(missing) > 9 else "")
        note(f"the newest snapshot, {log.name}/snap/{told['id']}/ at commit {told['commits']}, isn't whole: "
             f"of its {count} pieces etcd lacks {numbers}; waiting")
