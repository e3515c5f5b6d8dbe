"""Entries of replicas as bytes, those that are none, and a log of the form before."""
from __future__ import annotations

import asyncio
import hashlib
import json
import os
import zlib
from typing import Any, Dict

from cluster import Cluster, until
from support import LIMIT, wanted

from tiuvrokk_replica.entries import LONGEST_TEXT, NONE_OF_BLOCKS, Block, NoEntry, blocks_of, entry_of, text_of, unpacked
from tiuvrokk_replica.etcd import Etcd, decoded, put_of
from tiuvrokk_replica.store import Store

# Two blocks, and their text, as tests/rattle/src/replica_entries.rs has it.
BLOCKS = [Block(b"INS 1\n"), Block(b"GET 1\nDEL 1\n", 1, 32 * b"\x09")]
TEXT = b"\x01\0\0\0\x02\0\0\0\x06INS 1\n\0\0\0\0\x0cGET 1\nDEL 1\n\x01\0\0\0\x01" + 32 * b"\x09"
# What isn't one, and what is said of it.
HEAD = b"\x01\0\0\0\x01\0\0\0\x08INS k 1\n"
OLD = b"1\n8 1 0 %s\nBEGIN\nINS k 1\nCOMMIT\n" % hashlib.sha256().hexdigest().encode()
PACKED = b"\x02" + zlib.compress(HEAD + b"\0")
FAULTY = b"\x01\0\0\0\x02\0\0\0\x08INS k 1\n\0\0\0\0\x06INS 1\n\0"
NONE = {
    b"": "has no bytes",
    b"\x01\0\0": NONE_OF_BLOCKS,
    HEAD: NONE_OF_BLOCKS,
    b"\x01\xff\xff\xff\xff": NONE_OF_BLOCKS,
    HEAD + b"\0\0": NONE_OF_BLOCKS,
    FAULTY: NONE_OF_BLOCKS,
    OLD: "is of the form before this version's: docs/replicas.md says how such a log is taken over",
    b"\x03\0\0\0\0": "is of form 3, which this version doesn't know",
    HEAD + b"\x02": NONE_OF_BLOCKS,
    HEAD + b"\x01\0\0\0\0" + 32 * b"\x09": NONE_OF_BLOCKS,
    PACKED[:-1]: "is cut short",
    PACKED + b"\0": "has bytes after its end",
    b"\x02" + zlib.compress(HEAD): NONE_OF_BLOCKS,
    b"\x02" + zlib.compress(PACKED): "is of form 2, which this version doesn't know",
    b"\x02" + PACKED[3:]: "doesn't unpack: ",
    b"\x02" + zlib.compress(HEAD + bytes(LONGEST_TEXT), 1): f"unpacks to more than {LONGEST_TEXT} bytes",
}
# Of an entry that no replica wrote.
OTHER = f"{7:032x}-1"
# Of a log of its own each: what a replica that reads it ends by. (Of the first block nothing stands either.)
ENDING = [OLD, FAULTY, PACKED[:-1], *[none for none in NONE if len(none) > 90_000]]


def fault_of(store: Store, entry: bytes) -> str:
    """What a replica says of an entry."""
    try:
        store.take(unpacked(entry))
    except NoEntry as fault:
        return str(fault)
    return f"{store.commits} blocks committed"


def parted(text: bytes) -> str:
    """What is said where a text is parted into blocks."""
    try:
        return f"{len(blocks_of(text))} blocks"
    except NoEntry as fault:
        return str(fault)


def entries_as_bytes() -> None:
    """Entries have the bytes that the proved crate reads, and are read again; what is none is told by name, and does nothing."""
    wanted("a text", text_of(BLOCKS), TEXT)
    wanted("a short entry", entry_of(BLOCKS), TEXT)
    wanted("its blocks", blocks_of(unpacked(TEXT)), BLOCKS)
    many = BLOCKS * 1000
    entry = entry_of(many)
    wanted("what is packed", (entry[:1], len(entry) < len(text_of(many)) / 20), (b"\x02", True))
    wanted("unpacked", blocks_of(unpacked(entry)), many)
    dense = [Block(b"INS %s\n" % os.urandom(5000).replace(b"\n", b"."))]
    wanted("what doesn't shrink", entry_of(dense), text_of(dense))
    wanted("a last line with no LF", blocks_of(b"\x01\0\0\0\x01\0\0\0\x05GET 1\0"), [Block(b"GET 1\n")])
    store = Store()
    for length in range(1, len(TEXT)):
        wanted(f"its first {length} bytes", fault_of(store, TEXT[:length]), NONE_OF_BLOCKS)
        wanted(f"the blocks of its first {length} bytes", parted(TEXT[:length]), NONE_OF_BLOCKS)
    for none, fault in NONE.items():
        wanted(f"what is said of {none[:40]!r}", fault_of(store, none)[:len(fault)], fault)
    for none in [none for none, fault in NONE.items() if fault is NONE_OF_BLOCKS and none != FAULTY and none[:1] == b"\x01"]:
        wanted(f"the blocks of {none!r}", parted(none), NONE_OF_BLOCKS)
    wanted("what is one", fault_of(store, HEAD + b"\0"), "1 blocks committed")


def put_entry(cluster: Cluster, log: str, entry: bytes, generation: int = 0) -> None:
    """As replicas do."""
    puts = [put_of(f"{log}/log/{generation:08d}/{OTHER}.!", entry), put_of(f"{log}/tail", OTHER.encode())]
    asyncio.run(Etcd(cluster.endpoints).must("/v3/kv/txn", {"success": [{"requestPut": put} for put in puts]}))


def floor_of(cluster: Cluster, log: str) -> Dict[str, Any]:
    found = asyncio.run(Etcd(cluster.endpoints).get(f"{log}/floor")).get("kvs")
    told: Dict[str, Any] = json.loads(decoded(found[0]["value"])) if found else {}
    return told


def ends_by(cluster: Cluster, at: int, what: str, fault: str) -> None:
    """The replica ends with status 7, and says why."""
    wanted(f"the status by {what}", cluster.replicas[at].wait(LIMIT), 7)
    wanted(f"what is said of {what}", f"amreplica: the log: {fault}" in cluster.notes(at), True)


def no_entries(cluster: Cluster) -> None:
    """A replica that runs ends by what is no entry, and so does one that begins then, before it listens."""
    for number, entry in enumerate(ENDING):
        log, fault = f"none{number}", f"the entry {OTHER} {NONE[entry]}"
        cluster.start_replica(0, "--log", log)
        wanted("a replica", cluster.is_ready(0), True)
        wanted("a block", cluster.client(0).ask("BEGIN", "INS first 1", "COMMIT")[2], "COMMITTED 1")
        put_entry(cluster, log, entry)
        ends_by(cluster, 0, f"{entry[:40]!r}", fault)
        cluster.start_replica(1, "--log", log)
        ends_by(cluster, 1, f"{entry[:40]!r} at its start", fault)


def operations_alone(cluster: Cluster) -> None:
    """Lines that are none of an operation are answered, and aren't put into the log: the proved crates would read no block there."""
    log = "operations"
    cluster.start_replica(0, "--log", log, "--snapshot", "0")
    wanted("a replica", cluster.is_ready(0), True)
    one, long = cluster.client(0), "k" * 33
    for number, line in enumerate(("foo", f"GET {long}", "SCAN b a 1", "SCAN a b 1001", "LOCK X b a", "HOLD 1", "INS a")):
        answers = one.ask("BEGIN", f"INS {number} 1", line, "LOCK X a b", "DELR a b 9", "COMMIT")
        wanted(f"what {line} is answered", [answer.split()[0] for answer in answers], ["BEGUN", "OK", "ERR", "OK", "DELETED", "COMMITTED"])
    found = asyncio.run(Etcd(cluster.endpoints).get(f"{log}/log/", f"{log}/log0"))["kvs"]
    bodies = {block.body for kv in found for block in blocks_of(unpacked(decoded(kv["value"])))}
    # (one that the store refuses is an operation)
    lines = [b"SCAN a b 1001\n" if number == 3 else b"" for number in range(7)]
    wanted("what is put", bodies, {b"INS %d 1\n%sLOCK X a b\nDELR a b 9\n" % it for it in enumerate(lines)})
    cluster.kill_replica(0)


def taken_over(cluster: Cluster) -> None:
    """A log whose snapshot was written by the form before is begun, and goes on in this one; where an entry of that form follows the
    snapshot the log isn't. A snapshot of a form to come is refused."""
    log = "taken"
    put_old_snapshot(cluster, "former", log)
    cluster.start_replica(0, "--log", log, "--snapshot", "0")
    wanted("a replica that takes it over", cluster.is_ready(0), True)
    one = cluster.client(0)
    wanted("a block more", one.ask("BEGIN", "GET old", "INS new 1", "COMMIT")[1:], ["VAL 1", "OK", "COMMITTED 2"])
    cluster.start_replica(1, "--log", log, "--snapshot", "1")
    wanted("one that begins then", cluster.is_ready(1), True)
    wanted("what both have", [cluster.client(at).records() for at in (0, 1)], [["new=1", "old=1"]] * 2)
    one.ask("BEGIN", "DEL new", "COMMIT")
    wanted("its next snapshot", until(lambda: floor_of(cluster, log).get("form") == 1), True)
    cluster.kill_replica(1)
    floor = floor_of(cluster, log)
    put_entry(cluster, log, OLD, floor["generation"])
    ends_by(cluster, 0, "an entry after the snapshot", f"the entry {OTHER} {NONE[OLD]}")
    put_floor(cluster, log, {**floor, "form": 9})
    cluster.start_replica(0, "--log", log)
    ends_by(cluster, 0, "a form to come", f"the snapshot {floor['id']} begins a log of form 9, which this version doesn't know")


def put_old_snapshot(cluster: Cluster, log: str, other: str) -> None:
    """Has a log write a snapshot, which another one then has as its own, with a floor as the form before wrote it."""
    cluster.start_replica(0, "--log", log, "--snapshot", "1")
    wanted("a replica", cluster.is_ready(0), True)
    wanted("a block", cluster.client(0).ask("BEGIN", "INS old 1", "COMMIT")[2], "COMMITTED 1")
    wanted("its snapshot", until(lambda: "snapshot of 1 records" in cluster.notes(0)), True)
    cluster.kill_replica(0)
    floor = floor_of(cluster, log)
    wanted("its form", floor.pop("form"), 1)
    piece = f"/snap/{floor['id']}/{0:08d}"
    text = asyncio.run(Etcd(cluster.endpoints).get(log + piece))["kvs"][0]["value"]
    asyncio.run(Etcd(cluster.endpoints).must("/v3/kv/put", put_of(other + piece, decoded(text))))
    put_floor(cluster, other, floor)


def put_floor(cluster: Cluster, log: str, floor: Dict[str, Any]) -> None:
    """In the place of the newest one."""
    asyncio.run(Etcd(cluster.endpoints).must("/v3/kv/put", put_of(f"{log}/floor", json.dumps(floor).encode())))
