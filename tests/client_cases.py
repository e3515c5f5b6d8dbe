"""What the transactions of an embedded store, of a server's client and of a replica's have alike: the same calls, answers and
exceptions."""

import random
import threading
from contextlib import contextmanager
from typing import Any, Callable, Dict, Iterable, Iterator, List, Type

from support import fail, wanted

import tiuvrokk

Store = Any
"""A `tiuvrokk.Store` or a `tiuvrokk.Client`."""
ODD: List[Any] = [42, 4.5, None, True, [1, 2], (1, 2), {1}, {"a": 1}, object(), range(3)]


def raised(kind: Type[BaseException], call: Callable[[], Any], what: str = "") -> Any:
    """The exception of a call that is to fail."""
    try:
        found = call()
    except kind as error:
        return error
    return fail(f"no {kind.__name__}, but {found!r}: {what}")


def as_a_mapping(store: Store) -> None:
    """Each call of a transaction, one after another."""
    with store.transaction() as tx:
        tx["bee"] = "6"
        tx["bee"] = "7"
        tx.insert(b"ant", bytearray(b"1"))
        wanted("what was set", (tx["ant"], tx.get(b"bee"), tx.get("cat"), tx.get("cat", 5)), (b"1", b"7", None, 5))
        wanted("what is in", ("ant" in tx, "cat" in tx, bool(tx)), (True, False, True))
        wanted("a key that is there", raised(tiuvrokk.Exists, lambda: tx.insert("ant", "2")).key, b"ant")
        tx.replace("ant", "2")
        wanted("a key that isn't", raised(tiuvrokk.Absent, lambda: tx.replace("cat", "2")).key, b"cat")
        for call in (lambda: tx["cat"], lambda: tx.pop("cat"), lambda: tx.__delitem__("cat")):
            wanted("an absent key", raised(KeyError, call).key, b"cat")
        wanted("pop", (tx.pop("cat", None), tx.pop("ant"), tx.setdefault("ant", "3"), tx.setdefault("ant", "4")), (None, b"2", b"3", b"3"))
        tx.discard("cat")
        tx.discard("ant")
        tx.update({"ant": "5"}, dog="8")
        del tx["bee"]
        wanted("what is left", dict(tx.items()), {b"ant": b"5", b"dog": b"8"})
    wanted("a transaction that has ended", (tx.is_active, bool(tx.commit_number)), (False, True))
    for call in (lambda: tx["ant"], lambda: tx.update(a="1"), tx.commit, lambda: list(tx.scan()), lambda: tx.load({"x": "1"})):
        raised(tiuvrokk.NoTransaction, call)
    with store.transaction() as tx:
        wanted("what a commit left", tx[:], [(b"ant", b"5"), (b"dog", b"8")])


def types_and_bounds(store: Store) -> None:
    """What is neither bytes nor a text is a TypeError, what is too long a ValueError, and nothing changes by it."""
    with store.transaction() as tx:
        tx["own"] = "1"
        for odd in ODD:
            calls = [lambda: tx.get(odd), lambda: tx.__setitem__(odd, "1"), lambda: tx.__setitem__("a", odd), lambda: tx.insert("a", odd)]
            calls += [lambda: tx.pop(odd), lambda: odd in tx, lambda: tx.load([("b", odd)]), lambda: tx.lock(odd), lambda: tx.scan(odd)]
            calls += [lambda: tx.update([(odd, "1")]), lambda: tx.__delitem__(odd), lambda: tx.discard(odd), lambda: tx.count(odd)]
            for number, call in enumerate(calls):
                raised(TypeError, call, f"call {number} with {odd!r}")
        long_key, long_value = b"k" * 33, b"v" * 65
        for call in (lambda: tx.get(long_key), lambda: tx.insert("a", long_value), lambda: tx.load({"a": long_value}), lambda: tx.lock(long_key)):
            wanted("a long text", raised(ValueError, call).name[:7], "TVK_BAD")
        for call in (lambda: tx.scan("b", "a"), lambda: tx.lock("b", "a")):
            raised(tiuvrokk.Bad, call)
        for page in (0, 1000):
            raised(tiuvrokk.Bad, lambda: tx.scan(page=page))
        raised(tiuvrokk.Bad, lambda: tx.load([], run=0))
        wanted("what misuse changed", dict(tx), {b"own": b"1"})


def ends(store: Store) -> None:
    """Exceptions abort, savepoints take back, and what was dropped leaves nothing."""
    before = store.commits
    raised(ZeroDivisionError, lambda: store.run(lambda tx: [tx.update(gone="1"), 1 // 0]))
    tx = store.transaction()
    tx["gone"] = "1"
    tx.abort()
    with store.transaction() as tx:
        raised(tiuvrokk.NoMark, tx.back)
        tx["kept"] = "1"
        try:
            with tx.savepoint():
                tx["gone"] = "1"
                with tx.savepoint():
                    tx["gone2"] = "1"
                raise InterruptedError
        except InterruptedError:
            pass
        with tx.savepoint():
            tx["kept2"] = "1"
        tx.mark()
        tx["gone3"] = "1"
        tx.back()
    wanted("commits", store.commits - before, 1)
    with store.transaction() as tx:
        wanted("what savepoints and aborts left", dict(tx), {b"kept": b"1", b"kept2": b"1"})


def one_by_one(store: Store) -> None:
    """Operations that are their own transactions."""
    before = store.commits
    store["own"], store["own2"] = "1", "2"
    wanted("a read", (store["own"], store.get("own"), store.get("none"), store.get("none", b"-")), (b"1", b"1", None, b"-"))
    wanted("what is there", ("own" in store, "none" in store, bool(store)), (True, False, True))
    wanted("a range", store["own":"p"], [(b"own", b"1"), (b"own2", b"2")])  # type: ignore[misc]
    wanted("all keys", (len(store), sorted(store)[-2:]), (len(list(store)), [b"own", b"own2"]))
    del store["own"]
    raised(tiuvrokk.Absent, lambda: store["own"])
    del store["own2"]
    wanted("whether they committed", store.commits > before, True)


def many(store: Store) -> None:
    """Loads, pages, and reads of more records than a transaction has locks."""
    rows = {b"k%05d" % (number * 7 % 3001): b"%d" % number for number in range(3001)}
    with store.transaction() as tx:
        wanted("a load", tx.load(rows, run=700), len(rows))
        wanted("a key that is there", raised(tiuvrokk.Exists, lambda: tx.load({"k00007": "x", "k00005": "x"})).key, b"k00005")
        wanted("a key twice", raised(tiuvrokk.Twice, lambda: tx.load([("x", "1"), ("a", "1"), ("x", "2")])).key, b"x")
    right = sorted(rows.items())
    with store.transaction() as tx:
        wanted("all", (list(tx.items()), list(tx), dict(tx), len(tx)), (right, [key for key, _ in right], rows, len(rows)))
        wanted("some", list(tx.scan("k00100", "k00199", page=7)), right[100:200])
        slices = (tx[slice("k00100", "k00200")], tx[slice("k02999", None)], tx[slice("k00001")])
        wanted("slices", slices, (right[100:200], right[2999:], right[:1]))
        wanted("counts", (tx.count("k00100", "k00199"), list(tx.values("k00100", "k00101"))), (100, [it[1] for it in right[100:102]]))
    with store.transaction() as tx:
        tx.update((key, b"new") for key in list(rows)[:1500])
    with store.transaction() as tx:
        wanted("an update", sum(value == b"new" for value in tx.values()), 1500)
        del tx["k00000"]
        wanted("what iteration has seen", [key for key in tx.keys() if tx[key] != rows[key] and tx[key] != b"new"], [])
        seen = []
        for key in tx.keys("k00001", "k00009"):
            tx["k00005"] = "changed"
            seen.append(tx[key])
        wanted("a value that was written behind its page", seen[4], b"changed")


def back_and_away(store: Store) -> None:
    """Reads from the highest key down, reads with a limit, and ranges that go."""
    rows = [(b"k%05d" % number, b"%d" % number) for number in range(2500)]
    with store.transaction() as tx:
        tx.load(rows, run=700)
        tx["k00007"] = "set"
        tx["k02500"] = "set"
    rows[7:8], rows[2500:] = [(b"k00007", b"set")], [(b"k02500", b"set")]
    with store.transaction() as tx:
        wanted("back", (list(tx.scan(reverse=True)), list(reversed(tx))), (rows[::-1], [key for key, _ in rows[::-1]]))
        for limit, page in ((0, 1), (1, 100), (5, 2), (100, 100), (999, 999), (1000, 999), (2500, 7), (9999, 100)):
            found = [list(tx.scan("k00001", "k02499", page, limit=limit, reverse=is_back)) for is_back in (False, True)]
            wanted("a limit", found, [rows[1:2500][:limit], rows[1:2500][::-1][:limit]])
        wanted("a range of one key", list(tx.scan("k00009", "k00009", reverse=True)), rows[9:10])
        wanted("an empty range", (list(tx.scan("l", reverse=True)), tx.delete_range("l")), ([], 0))
        tx.mark()
        counts = [tx.delete_range("k00010", "k00019", 3), tx.delete_range("k00010", "k00019"), tx.delete_range("k00010", "k00019")]
        wanted("what went", (counts, tx.delete_range(limit=0), list(tx.scan(limit=11))[-1]), ([3, 7, 0], 0, rows[20]))
        tx.__delitem__(slice("k00020", "k00030"))
        tx.__delitem__(slice("k00030", "k00030"))
        tx.__delitem__(slice("k02400", None))
        wanted("what slices left", list(tx.scan()), rows[:10] + rows[30:2400])
        wanted("all go", (tx.delete_range(), list(tx.scan(reverse=True))), (2380, []))
        tx.back()
        wanted("what was taken back", list(tx.scan()), rows)
        for call in (lambda: tx.delete_range("b", "a"), lambda: tx.scan("b", "a", reverse=True), lambda: tx.scan(page=1000, limit=1)):
            raised(tiuvrokk.Bad, call)
        for call in (lambda: tx.delete_range(limit=-1), lambda: tx.scan(limit=-1)):
            raised(ValueError, call)
        for odd in (4.5, "1", [1]):
            raised(TypeError, lambda: tx.delete_range(limit=odd), repr(odd))
            raised(TypeError, lambda: tx.scan(limit=odd), repr(odd))
        for odd in (4.5, [1], None):
            raised(TypeError, lambda: tx.delete_range(odd), repr(odd))
        tx.__delitem__(slice(None, None))
        wanted("a slice of all", len(tx), 0)


def text(dice: random.Random, most: int) -> bytes:
    return "".join(dice.choices("ab~", k=dice.randrange(1, most))).encode()


def at_random(store: Store, calls: int, seed: int) -> None:
    """Random transactions beside a dictionary."""
    dice = random.Random(seed)
    committed: Dict[bytes, bytes] = {}
    with store.transaction() as tx:
        committed = dict(tx)
    done = 0
    while done < calls:
        seen = dict(committed)
        try:
            with store.transaction() as tx:
                tx.lock(b"", b"\xff" * 32, exclusive=True)
                for _ in range(dice.randrange(40)):
                    one_call(dice, tx, seen)
                    done += 1
                if dice.random() < 0.3:
                    raise InterruptedError
            committed = seen
        except InterruptedError:
            pass
        if dice.random() < 0.5:
            store.merge()
            store.clean()


def one_call(dice: random.Random, tx: Any, seen: Dict[bytes, bytes]) -> None:
    key, value, kind = text(dice, 5), text(dice, 64), dice.randrange(10)
    if kind == 0:
        tx[key] = value
        seen[key] = value
    elif kind == 1:
        wanted("pop", tx.pop(key, None), seen.pop(key, None))
    elif kind == 2:
        wanted("setdefault", tx.setdefault(key, value), seen.setdefault(key, value))
    elif kind == 3:
        fresh = {it: value for it in {text(dice, 5) for _ in range(5)} if it not in seen}
        wanted("load", tx.load(fresh, run=dice.choice([1, 3, 100])), len(fresh))
        seen.update(fresh)
    elif kind == 4:
        rows = sorted(seen.items())
        wanted("scan", list(tx.scan(page=dice.choice([1, 2, 999]))), rows)
        wanted("list", (list(tx), dict(tx), len(tx)), (sorted(seen), seen, len(seen)))
    elif kind == 5:
        low, high = sorted([key, text(dice, 5)])
        wanted("slice", tx[slice(low, high)], [it for it in sorted(seen.items()) if low <= it[0] < high])
    elif kind == 6 and key in seen:
        del tx[key]
        del seen[key]
    elif kind == 7:
        tx.mark()
        tx[key] = value
        tx.back()
    elif kind == 8:
        tx.update({key: value, b"zz": value})
        seen.update({key: value, b"zz": value})
    else:
        wanted("get", (tx.get(key), key in tx), (seen.get(key), key in seen))


def counters(stores: Iterable[Callable[[], Any]], times: int) -> None:
    """Each store, on a thread of its own, adds so often to one counter. Each add comes right at last."""

    def add(tx: Any) -> None:
        tx["count"] = str(int(tx.get("count", b"0")) + 1)

    def work(connected: Callable[[], Any]) -> None:
        try:
            with connected() as store:
                for _ in range(times):
                    store.run(add, tries=1000)
        except BaseException as error:  # noqa: B902 (it is told)
            wrong.append(error)

    wrong: List[BaseException] = []
    threads = [threading.Thread(target=work, args=(it,)) for it in stores]
    for thread in threads:
        thread.start()
    for thread in threads:
        thread.join()
    wanted("what went wrong", wrong, [])


@contextmanager
def emptied(connected: Callable[[], Any]) -> Iterator[Any]:
    """A client whose store's records were all deleted."""
    with connected() as client:
        with client.transaction() as tx:
            tx.lock(b"", b"\xff" * 32, exclusive=True)
            keys = list(tx)
            for key in keys:
                del tx[key]
        yield client


def all_cases(fresh: Callable[[], Any], calls: int = 2000) -> None:
    """All of it; `fresh` gives a store that has no records, as the head of a `with` block."""
    for case in (as_a_mapping, one_by_one, types_and_bounds, ends, many, back_and_away):
        with fresh() as store:
            case(store)
    with fresh() as store:
        at_random(store, calls, 5)
