#!/usr/bin/env python3
"""Random transactions through the Python package, compared with plain dictionaries: tests/library_calls.py CALLS SEED"""

import itertools
import os
import random
import sys
import tempfile
import time
from typing import Any, Callable, Dict, List, Optional, Tuple, Type

import tiuvrokk


Records = Dict[bytes, bytes]


def keys_between(seen: Records, lo: bytes, hi: bytes) -> List[Tuple[bytes, bytes]]:
    return sorted(item for item in seen.items() if lo <= item[0] <= hi)


def expect(error: Type[Exception], call: Callable[..., Any], *words: Any) -> Any:
    """The exception of a call that is to fail."""
    try:
        call(*words)
    except error as raised:
        return raised
    raise AssertionError(f"no {error.__name__}")


def change(rng: random.Random, tx: tiuvrokk.Transaction, seen: Records, keys: List[bytes]) -> None:
    """One random call; `seen` is what the transaction sees."""
    key, value = rng.choice(keys), rng.randbytes(rng.choice((0, 1, 8, 64)))
    kind = rng.randrange(11)
    if kind in (0, 1):
        assert tx.get(key) == seen.get(key) and (key in tx) == (key in seen)
    elif kind in (2, 3, 4, 5):
        write(kind, tx, seen, (key, value))
    elif kind in (6, 7):
        lo, hi = sorted((rng.choice(keys), rng.choice(keys)))
        page, is_back = rng.choice((1, 3, 100, 999)), rng.random() < 0.5
        limit: Optional[int] = rng.choice([None, 0, 1, 5, 1000])
        wanted = keys_between(seen, lo, hi)[:: -1 if is_back else 1][:limit]
        assert list(tx.scan(lo, hi, page, limit=limit, reverse=is_back)) == wanted
        assert list(reversed(tx)) == sorted(seen, reverse=True)
    elif kind == 8:
        new = {k: rng.randbytes(3) for k in rng.sample(keys, 8) if k not in seen}
        assert tx.load(new.items(), run=rng.choice((1, 3, 4096))) == len(new)
        seen.update(new)
    elif kind == 9:
        delete_some(rng, tx, seen, keys)
    else:
        before = dict(seen)
        tx.mark()
        tx[key] = value
        tx.back()
        assert keys_between(before, b"", keys[-1]) == list(tx.scan())


def delete_some(rng: random.Random, tx: tiuvrokk.Transaction, seen: Records, keys: List[bytes]) -> None:
    """The first records of a range go, or those of a slice."""
    lo, hi = sorted((rng.choice(keys), rng.choice(keys)))
    gone = [key for key, _ in keys_between(seen, lo, hi)]
    if rng.random() < 0.5:
        gone = [key for key in gone if key < hi]
        del tx[lo:hi]  # type: ignore[misc]
    else:
        limit: Optional[int] = rng.choice([None, 0, 1, 5])
        gone = gone[:limit]
        assert tx.delete_range(lo, hi, limit) == len(gone)
    for key in gone:
        del seen[key]


def write(kind: int, tx: tiuvrokk.Transaction, seen: Records, record: Tuple[bytes, bytes]) -> None:
    """A call that writes a record, or takes it away, where it may."""
    key, value = record
    if kind == 3 and key in seen:
        assert expect(tiuvrokk.Exists, tx.insert, key, value).key == key
    elif kind == 4 and key not in seen:
        expect(tiuvrokk.Absent, tx.replace, key, value)
    elif kind == 5 and key not in seen:
        expect(KeyError, tx.__delitem__, key)
    elif kind == 5:
        del tx[key]
        del seen[key]
    else:
        [tx.__setitem__, tx.insert, tx.replace][kind - 2](key, value)
        seen[key] = value


LAST = b"\xff" * 32
WORD = 2**64
MIXER = 0xBF58_476D_1CE4_E5B9


def mix(number: int, word: int) -> int:
    mixed = (number ^ word) * MIXER % WORD
    return mixed ^ mixed >> 32


def keys_of_number(rng: random.Random, number: int, count: int) -> List[bytes]:
    """Keys of 32 bytes whose number is this one, where it is made without a secret, as locks have it: the last word undoes
    what the others made."""
    keys = []
    for _ in range(count):
        words = [rng.randrange(WORD) for _ in range(3)]
        front = 32
        for word in words:
            front = mix(front, word)
        mixed = (number ^ number >> 32) * pow(MIXER, -1, WORD) % WORD
        words.append(mixed ^ front)
        assert mix(front, words[-1]) == number
        keys.append(b"".join(word.to_bytes(8, "big") for word in words))
    return keys


def load_one_by_one(store: tiuvrokk.Store, keys: List[bytes]) -> float:
    """Loads a run of one record for each key, and tells the seconds of processor, so that what runs beside counts for little."""
    began = time.process_time()
    for at in range(0, len(keys), 4000):
        with store.transaction() as tx:
            tx.lock(b"", LAST, exclusive=True)
            assert tx.load(((key, b"1") for key in keys[at : at + 4000]), run=1) == len(keys[at : at + 4000])
    return time.process_time() - began


def ratio_of_loads(keys: List[bytes], others: List[bytes]) -> float:
    """How many times as long such loads of the keys into a new store take as those of the others, by seconds of processor: the
    least of five tries of each, which are made in turn, since a machine's speed changes."""
    seconds = []
    for _ in range(5):
        for these in (keys, others):
            with tiuvrokk.Store() as store:
                seconds.append(load_one_by_one(store, these))
    return min(seconds[::2]) / min(seconds[1::2])


def chosen_keys(rng: random.Random) -> None:
    """Keys that a stranger chose without the hash key take no longer, and are found, as are the absent ones not."""
    keys = keys_of_number(rng, rng.randrange(WORD), 21_000)
    chosen, absent = keys[:20_000], keys[20_000:]
    assert ratio_of_loads(chosen, [rng.randbytes(32) for _ in chosen]) < 3
    with tiuvrokk.Store() as store:
        load_one_by_one(store, chosen)
        with store.transaction() as tx:
            tx.lock(b"", LAST, exclusive=True)
            assert all(tx[key] == b"1" for key in chosen[:2000])
            assert not any(key in tx for key in absent)
            assert expect(tiuvrokk.Exists, tx.insert, chosen[0], b"2").key == chosen[0]
            assert expect(tiuvrokk.Exists, tx.load, [(key, b"2") for key in keys], 4096).key == min(keys[:4096])
            assert tx.load((key, b"2") for key in absent) == len(absent)
            assert [key for key, _ in itertools.islice(tx.scan(), 300)] == sorted(keys)[:300]


def many_loads(rng: random.Random) -> None:
    """Twice as many loads take no more than three times as long."""
    keys = [rng.randbytes(16) for _ in range(32_768)]
    assert ratio_of_loads(keys, keys[:16_384]) < 3


def ratio_of_looks(store: tiuvrokk.Store, *keys: bytes) -> float:
    """How many times as long 2,000 looks for the first key take as for the second, which have no records, by the same measure."""
    seconds = []
    for _ in range(5):
        for key in keys:
            with store.transaction() as tx:
                began = time.process_time()
                assert all(tx.get(key) is None for _ in range(2000))
                seconds.append(time.process_time() - began)
    return min(seconds[::2]) / min(seconds[1::2])


def ratio_of_cleans(store: tiuvrokk.Store, key: bytes) -> float:
    """How many times as long 2,000 clean steps of a key that has no record take as looks for it."""
    looks, cleans = [], []
    for _ in range(5):
        with store.transaction() as tx:
            began = time.process_time()
            assert all(tx.get(key) is None for _ in range(2000))
            looks.append(time.process_time() - began)
        began = time.process_time()
        assert not any(store.clean(key, key, 1) for _ in range(2000))
        cleans.append(time.process_time() - began)
    return min(cleans) / min(looks)


def ghosts_in_many_runs() -> None:
    """A key that stands as deleted in 8,192 runs is looked for as fast as one that never stood anywhere."""
    tiuvrokk.upkeep(False)
    with tiuvrokk.Store() as store:
        for _ in range(8192):
            tx = store.transaction()
            tx.load([(b"ant", b"6")])
            tx.abort()
        figures = store.figures()
        assert (figures.entries, figures.in_runs, figures.runs, figures.ghosts) == (8192, 8192, 8192, 8192)
        assert ratio_of_looks(store, b"ant", b"bee") < 3
        with store.transaction() as tx:
            tx[b"ant"] = b"7"
            assert tx[b"ant"] == b"7"
    tiuvrokk.upkeep(True)


def fresh_keys(rng: random.Random, count: int) -> List[bytes]:
    return sorted({rng.randbytes(16) for _ in range(count)})


def looks_and_load(store: tiuvrokk.Store, looked_for: List[bytes], new: List[bytes]) -> Tuple[float, float]:
    """The seconds of looks for some keys, of which each second one has a record, and of a load of new ones."""
    began = time.process_time()
    for half in (looked_for[::2], looked_for[1::2]):
        with store.transaction() as tx:
            tx.lock(b"", LAST)
            found = sum(tx.get(key) is not None for key in half)
        assert found == (len(half) if half[0] == looked_for[0] else 0)
    between = time.process_time()
    with store.transaction() as tx:
        assert tx.load((key, b"1") for key in new) == len(new)
    return between - began, time.process_time() - between


def refused_and_aborted(store: tiuvrokk.Store, keys: List[bytes], others: List[bytes]) -> None:
    """A transaction that deletes all records but the last, is refused to load a thousand of the keys at a time beside that one,
    loads others, and is aborted."""
    tx = store.transaction()
    tx.lock(b"", LAST, exclusive=True)
    assert tx.delete_range(hi=LAST[1:]) == store.entries() - 1
    for at in range(0, len(keys), 1000):
        again = [(key, b"2") for key in [*keys[at : at + 1000], LAST]]
        assert expect(tiuvrokk.Exists, tx.load, again).key == LAST
    assert tx.load((key, b"3") for key in others) == len(others)
    tx.abort()


def looks_behind_refusals(rng: random.Random) -> None:
    """Whatever was refused and aborted before, beside 300 runs, looks and a load take what they took: no more than five times as
    long, by the least of five tries."""
    tiuvrokk.upkeep(False)
    before: List[Tuple[float, float]] = []
    behind: List[Tuple[float, float]] = []
    for _ in range(5):
        keys, others, single = fresh_keys(rng, 20_000), fresh_keys(rng, 15_000), fresh_keys(rng, 300)
        looked_for = [key for pair in zip(keys[::8], others[::6]) for key in pair]
        with tiuvrokk.Store() as store:
            with store.transaction() as tx:
                tx.lock(b"", LAST, exclusive=True)
                assert tx.load((key, b"1") for key in keys) == len(keys)
                assert tx.load(((key, b"1") for key in [*single, LAST]), run=1) == 301
            before.append(looks_and_load(store, looked_for, fresh_keys(rng, 2000)))
            refused_and_aborted(store, keys, others)
            behind.append(looks_and_load(store, looked_for, fresh_keys(rng, 2000)))
    for took, takes in zip(zip(*before), zip(*behind)):
        assert min(takes) < 5 * min(took), (took, takes)
    tiuvrokk.upkeep(True)


# Ten times as many records as other tests have.
MILLIONS = 3_000_000


def millions(path: str) -> None:
    """A text of so many lines is taken whole, and 2,000 records go in among its records, and are found."""
    with open(path, "wb") as file:
        file.writelines(b"%07d\tv\n" % number for number in range(MILLIONS))
    with tiuvrokk.Store() as store:
        assert store.load_file(path) == MILLIONS == store.entries()
        further = [b"%07d+" % number for number in range(0, MILLIONS, MILLIONS // 2000)]
        with store.transaction() as tx:
            tx.lock(b"", LAST, exclusive=True)
            for key in further:
                tx.insert(key, b"w")
        with store.transaction() as tx:
            tx.lock(b"", LAST)
            assert all(tx[key] == b"w" and tx[key[:7]] == b"v" for key in further[::10])
        assert store.entries() == MILLIONS + len(further)
        # No look for a deleted record goes through those that stand, whether there is one elsewhere or not.
        assert ratio_of_cleans(store, b"x") < 5
        with store.transaction() as tx:
            del tx[further[0]]
        assert ratio_of_cleans(store, b"x") < 5


def main(calls: int, seed: int) -> None:
    rng = random.Random(seed)
    with tempfile.TemporaryDirectory() as folder:
        millions(os.path.join(folder, "lines"))
    chosen_keys(rng)
    many_loads(rng)
    ghosts_in_many_runs()
    looks_behind_refusals(rng)
    keys = sorted({rng.randbytes(rng.randrange(33)) for _ in range(120)})
    committed: Records = {}
    done = commits = 0
    with tiuvrokk.Store() as store:
        while done < calls:
            seen, number = dict(committed), rng.randrange(40)
            is_kept = rng.random() < 0.8
            try:
                with store.transaction() as tx:
                    for _ in range(number):
                        change(rng, tx, seen, keys)
                    if not is_kept:
                        raise InterruptedError
                commits += 1
                assert tx.commit_number == commits == store.commits
                committed = seen
            except InterruptedError:
                pass
            expect(tiuvrokk.NoTransaction, tx.get, keys[0])
            done += number + 1
            while rng.random() < 0.7 and store.merge() is not None:
                pass
        while store.clean():
            pass
        assert store.entries() == len(committed)

        first, second = store.transaction(), store.transaction()
        first.lock(b"a", b"c", exclusive=True)
        assert expect(tiuvrokk.Busy, second.get, b"b").holder == first.number
        first.abort()
        second.lock(b"b")
        expect(tiuvrokk.Bad, second.get, b"x" * 33)
        expect(ValueError, second.insert, b"x", b"x" * 65)
        expect(tiuvrokk.Bad, second.load, [(b"x", b"x" * 65)])
        expect(tiuvrokk.Twice, second.load, [(b"xx", b"1"), (b"xx", b"2")])
        expect(tiuvrokk.Bad, second.scan, b"b", b"a")
        expect(tiuvrokk.NoMark, second.back)
    expect(tiuvrokk.Closed, second.get, b"b")
    expect(tiuvrokk.Closed, store.transaction)
    print(f"library: {done} calls from Python, {commits} commits")


if __name__ == "__main__":
    main(int(sys.argv[1]), int(sys.argv[2]))
