#!/usr/bin/env python3
"""Times the Python package beside sqlite3 and, where it is there, lmdb, on the same records, and tells the times of the others
as multiples of its own: bench/peers.py RECORDS OPERATIONS FOLDER

Keys have 16 bytes, in no order, values 64. sqlite3 is in memory, and what lmdb writes is in a folder that is to be on tmpfs.
bench/peers installs the library and runs this behind its own figures."""

import os
import random
import sqlite3
import sys
import time
from typing import Any, Callable, Dict, List, Optional, Tuple

sys.dont_write_bytecode = True
sys.path.insert(0, os.path.join(os.path.dirname(os.path.abspath(__file__)), os.pardir, "python"))
import tiuvrokk  # noqa: E402

try:
    import lmdb  # type: ignore[import]
except ImportError:
    lmdb = None

Record = Tuple[bytes, bytes]
LEAST, GREATEST = b"", b"\xff" * 32
TRIES = 3


class Tiuvrokk:
    """A transaction of many operations locks all keys at once."""

    def __init__(self) -> None:
        self.store = tiuvrokk.Store()

    def load(self, records: List[Record]) -> None:
        with self.store.transaction() as tx:
            tx.load(records)

    def get(self, keys: List[bytes]) -> None:
        with self.store.transaction() as tx:
            if len(keys) > 200:
                tx.lock(LEAST, GREATEST)
            for key in keys:
                tx.get(key)

    def put(self, records: List[Record]) -> None:
        with self.store.transaction() as tx:
            if len(records) > 200:
                tx.lock(LEAST, GREATEST, exclusive=True)
            for key, value in records:
                tx[key] = value

    def scan(self, low: bytes, limit: int) -> int:
        with self.store.transaction() as tx:
            count = 0
            for _ in tx.scan(low):
                count += 1
                if count == limit:
                    break
            return count


class Sqlite:
    def __init__(self) -> None:
        self.store = sqlite3.connect(":memory:", isolation_level=None)
        self.store.execute("CREATE TABLE r (k BLOB PRIMARY KEY, v BLOB) WITHOUT ROWID")

    def load(self, records: List[Record]) -> None:
        self.store.execute("BEGIN")
        self.store.executemany("INSERT INTO r VALUES (?, ?)", records)
        self.store.execute("COMMIT")

    def get(self, keys: List[bytes]) -> None:
        self.store.execute("BEGIN")
        for key in keys:
            self.store.execute("SELECT v FROM r WHERE k = ?", (key,)).fetchone()
        self.store.execute("COMMIT")

    def put(self, records: List[Record]) -> None:
        self.store.execute("BEGIN")
        for record in records:
            self.store.execute("INSERT OR REPLACE INTO r VALUES (?, ?)", record)
        self.store.execute("COMMIT")

    def scan(self, low: bytes, limit: int) -> int:
        self.store.execute("BEGIN")
        count = 0
        for _ in self.store.execute("SELECT k, v FROM r WHERE k >= ? ORDER BY k LIMIT ?", (low, limit)):
            count += 1
        self.store.execute("COMMIT")
        return count


class Lmdb:
    folder = ""
    number = 0

    def __init__(self) -> None:
        Lmdb.number += 1
        path = os.path.join(self.folder, f"python{Lmdb.number}")
        self.store = lmdb.open(path, map_size=4 << 30, sync=False, writemap=True)

    def load(self, records: List[Record]) -> None:
        with self.store.begin(write=True) as tx:
            tx.cursor().putmulti(records)

    def get(self, keys: List[bytes]) -> None:
        with self.store.begin() as tx:
            for key in keys:
                tx.get(key)

    def put(self, records: List[Record]) -> None:
        with self.store.begin(write=True) as tx:
            for key, value in records:
                tx.put(key, value)

    def scan(self, low: bytes, limit: int) -> int:
        with self.store.begin() as tx:
            cursor, count = tx.cursor(), 0
            if cursor.set_range(low):
                for _ in cursor:
                    count += 1
                    if count == limit:
                        break
            return count


def seconds(call: Callable[[], Any], tries: int = TRIES) -> float:
    """The least of some tries."""
    found = []
    for _ in range(tries):
        began = time.perf_counter()
        call()
        found.append(time.perf_counter() - began)
    return min(found)


def tell(what: str, times: List[float]) -> None:
    others = "".join(f"{it / times[0]:10.2f}x" for it in times[1:])
    print(f"{what:<32}{times[0] * 1e6:9.2f}{others}", flush=True)


def parts(items: List[Any], size: int) -> List[List[Any]]:
    return [items[at : at + size] for at in range(0, len(items), size)]


def main(records: int, operations: int, folder: str) -> None:
    dice = random.Random(1)
    Lmdb.folder = folder
    kinds: List[Optional[Callable[[], Any]]] = [Tiuvrokk, Sqlite, Lmdb if lmdb else None]
    made = [kind for kind in kinds if kind]
    given = [(dice.randbytes(16), dice.randbytes(64)) for _ in range(records)]
    print(f"{'microseconds':<32}{'tiuvrokk':>9}" + "".join(f"{kind.__name__.lower():>11}" for kind in made[1:]))
    stores: Dict[int, Any] = {}

    # (made anew in their order, so that neighbours lie beside one another in memory)
    by_key = [(bytes(bytearray(key)), bytes(bytearray(value))) for key, value in sorted(given)]

    def loads(rows: List[Record]) -> List[float]:
        times = []
        for at, kind in enumerate(made):
            found = []
            for _ in range(TRIES):
                stores[at] = kind()
                found.append(seconds(lambda: stores[at].load(rows), 1))
            times.append(min(found) / records)
        return times

    tell("load, records by key", loads(by_key))
    tell("load, records in no order", loads(given))
    keys = [dice.choice(given)[0] for _ in range(operations)]
    rows = [(key, dice.randbytes(64)) for key in keys]
    for size in (1, 10, 1000):
        given_keys, given_rows = parts(keys, size), parts(rows, size)
        times = [seconds(lambda: [store.get(it) for it in given_keys]) / operations for store in stores.values()]
        tell(f"gets, {size} each", times)
        times = [seconds(lambda: [store.put(it) for it in given_rows]) / operations for store in stores.values()]
        tell(f"sets, {size} each", times)
    starts = keys[: max(operations // 100, 1)]
    for state in ("", ", all merged"):
        times = [seconds(lambda: [store.scan(it, 100) for it in starts]) / len(starts) / 100 for store in stores.values()]
        tell(f"scans of 100{state}, a row", times)
        times = [seconds(lambda: store.scan(b"", records)) / records for store in stores.values()]
        tell(f"scan of all{state}, a row", times)
        while stores[0].store.merge() is not None:
            pass
    tell("transactions of nothing", [seconds(lambda: [store.get([]) for _ in keys]) / operations for store in stores.values()])


if __name__ == "__main__":
    main(int(sys.argv[1]), int(sys.argv[2]), sys.argv[3])
