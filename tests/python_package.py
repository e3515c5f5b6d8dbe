#!/usr/bin/env python3
"""The Python package as its users meet it: misuse, threads, dropped transactions, what errors are about, a transaction beside a
dictionary, interrupts at random moments, a queue, and clients of servers. The library is the one that TIUVROKK_LIBRARY names, or
else it is installed into a folder of its own first."""

import array
import contextlib
import copy
import gc
import os
import pickle
import random
import re
import resource
import struct
import subprocess
import sys
import tempfile
import threading
import warnings
import zipfile
from typing import Any, Callable, Dict, List, Optional, Tuple, Type

sys.dont_write_bytecode = True
from support import LIMIT, TOP, fail, interrupted, wanted  # noqa: E402

sys.path.insert(0, f"{TOP}/python")
import client_cases  # noqa: E402
import python_clients  # noqa: E402

import tiuvrokk  # noqa: E402

ODD: List[Any] = [42, 4.5, None, True, [1, 2], (1, 2), {1}, {"a": 1}, object(), range(3)]
Call = Callable[[], Any]


def raised(kind: Type[BaseException], call: Call, what: str = "") -> Any:
    """The exception of a call that is to fail."""
    try:
        call()
    except kind as error:
        return error
    return fail(f"no {kind.__name__}: {what}")


def odd_calls(store: tiuvrokk.Store, tx: tiuvrokk.Transaction, odd: Any) -> Dict[str, Call]:
    """All calls with what is no key and no value."""
    calls: Dict[str, Call] = {
        "get": lambda: tx.get(odd),
        "item": lambda: tx[odd],
        "in": lambda: odd in tx,
        "set a key": lambda: tx.__setitem__(odd, b"1"),
        "set a value": lambda: tx.__setitem__(b"bee", odd),
        "set a value that is there": lambda: tx.__setitem__(b"ant", odd),
        "del": lambda: tx.__delitem__(odd),
        "insert a key": lambda: tx.insert(odd, b"1"),
        "insert a value": lambda: tx.insert(b"bee", odd),
        "replace a key": lambda: tx.replace(odd, b"1"),
        "replace a value": lambda: tx.replace(b"ant", odd),
        "setdefault of a key": lambda: tx.setdefault(odd, b"1"),
        "setdefault": lambda: tx.setdefault(b"bee", odd),
        "pop": lambda: tx.pop(odd),
        "pop with a default": lambda: tx.pop(odd, None),
        "update a key": lambda: tx.update([(odd, b"1")]),
        "update a value": lambda: tx.update(bee=odd),
        "load a key": lambda: tx.load([(b"bee", b"1"), (odd, b"1")]),
        "load a value": lambda: tx.load([(b"bee", b"1"), (b"cat", odd)]),
        "scan from": lambda: tx.scan(odd),
        "scan to": lambda: tx.scan(b"", odd),
        "keys": lambda: tx.keys(odd),
        "values": lambda: tx.values(b"", odd),
        "items": lambda: tx.items(odd),
        "count": lambda: tx.count(odd),
        "a range that goes": lambda: tx.delete_range(odd),
        "the end of a range that goes": lambda: tx.delete_range(b"", odd),
        "lock": lambda: tx.lock(odd),
        "clean from": lambda: store.clean(odd),
        "clean to": lambda: store.clean(b"", odd),
    }
    if odd is not None:
        calls["lock to"] = lambda: tx.lock(b"", odd)
        calls["a slice from"], calls["a slice to"] = lambda: tx[odd:], lambda: tx[:odd]
    return calls


def check_types() -> None:
    """No call takes a key, a value or a record that is neither bytes, bytearray, memoryview nor str, and a refusal changes
    nothing."""
    with tiuvrokk.Store() as store, store.transaction() as tx:
        tx["ant"] = "6"
        for odd in ODD:
            for name, call in odd_calls(store, tx, odd).items():
                raised(TypeError, call, f"{name} of {odd!r}")
        for records in (["ab", "cd"], [b"ab"], [("a", "b", "c")], [("a",)], 42, [42], [{"a", "b"}]):
            raised(TypeError, lambda: tx.load(records), f"a load of {records!r}")  # type: ignore[arg-type]
        for step in ("b", 1):
            raised(TypeError, lambda: tx["a":"c":step], "a step")  # type: ignore[misc]
        raised(TypeError, lambda: store.merge(1.5), "a merge of 1.5")  # type: ignore[arg-type]
        wanted("what misuse changed", dict(tx.items()), {b"ant": b"6"})


def check_bounds() -> None:
    """Numbers, lengths and ranges out of bounds are refused with what they are."""
    with tiuvrokk.Store() as store, store.transaction() as tx:
        for limit in (0, -1, 65, 2**64 + 5, 2**64):
            for call in (lambda: store.merge(limit), lambda: store.clean(limit=limit)):
                wanted("a limit", str(raised(tiuvrokk.Bad, call)), f"a limit is 1 to 64, and not {limit}")
        for page in (0, 1000, 2**64 + 5):
            raised(tiuvrokk.Bad, lambda: tx.scan(page=page), f"a page of {page}")
        raised(tiuvrokk.Bad, lambda: tx.load([], run=0), "a run of 0")
        wanted("more runs than there are locks", tx.load({f"r{number}": "" for number in range(300)}, run=1), 300)
        long_key, long_value = b"k" * 33, b"v" * 65
        keys: List[Call] = [lambda: tx.get(long_key), lambda: tx.insert(long_key, b""), lambda: tx.load({long_key: b""})]
        keys += [lambda: tx.lock(long_key), lambda: tx[slice(long_key, None)], lambda: tx.scan(b"", long_key)]
        keys += [lambda: tx.delete_range(long_key), lambda: tx.__delitem__(slice(long_key, None))]
        keys.append(lambda: store.clean(long_key))
        for call in keys:
            wanted("a long key", str(raised(tiuvrokk.Bad, call)), "a key has at most 32 bytes, and not 33")
        values: List[Call] = [lambda: tx.insert(b"a", long_value), lambda: tx.load({b"a": long_value})]
        for call in values:
            wanted("a long value", str(raised(ValueError, call)), "a value has at most 64 bytes, and not 65")
        ranges: List[Call] = [lambda: tx.scan("b", "a"), lambda: tx.lock("b", "a"), lambda: store.clean("b", "a")]
        for call in ranges:
            text = "the range begins at b, which is above its end a"
            wanted("a range", str(raised(tiuvrokk.Bad, call)), text)
    with tiuvrokk.Store() as store, store.transaction() as tx:
        for number in range(256):
            tx.get(f"k{number}")
        text = "there are 256 locks of a transaction, and may be no more: tx.lock(lo, hi) first locks a range as one"
        wanted("the 257th key that is read", str(raised(tiuvrokk.TooMany, lambda: tx.get("another")))[: len(text)], text)


def check_errors() -> None:
    """What each error is about, and that it can be sent to another process."""
    store = tiuvrokk.Store()
    one, other = store.transaction(), store.transaction()
    one[b"\0"], one["bee"] = b"1", b"2"
    found: List[Tuple[str, str, Any, Any]] = []

    def tell(kind: Type[tiuvrokk.Error], call: Call, text: str, name: str, about: Any) -> None:
        error = raised(kind, call, text)
        found.append((text, name, error, about))

    tell(tiuvrokk.Absent, lambda: one["ant"], "the key ant has no record", "TVK_ABSENT", {"key": b"ant"})
    tell(tiuvrokk.Absent, lambda: one.pop(""), "the key of no bytes has no record", "TVK_ABSENT", {"key": b""})
    tell(tiuvrokk.Exists, lambda: one.insert(b"\0", "1"), "the key \\x00 has a record", "TVK_EXISTS", {"key": b"\0"})
    tell(tiuvrokk.Exists, lambda: one.load({"bee": "", "a": ""}), "the key bee has a record", "TVK_EXISTS", {"key": b"bee"})
    busy = {"holder": one.number, "number": one.number}
    tell(tiuvrokk.Busy, lambda: other["bee"], "transaction 1 holds a lock that is in the way", "TVK_BUSY", busy)
    tell(tiuvrokk.NoMark, one.back, "transaction 1 has no savepoint", "TVK_NO_MARK", {"transaction": 1})
    twice = [("b", "1"), ("a", "1"), ("b", "2")]
    tell(tiuvrokk.Twice, lambda: one.load(twice), "the key b stands twice", "TVK_TWICE", {"key": b"b"})
    many = [store.transaction() for _ in range(62)]
    text = "there are 64 transactions that are active at once, and may be no more: commit or abort one"
    about = {"limit": 64, "what": "transactions that are active at once"}
    tell(tiuvrokk.TooMany, store.transaction, text, "TVK_TOO_MANY_TX", about)
    other.commit()
    tell(tiuvrokk.NoTransaction, other.commit, "transaction 2 has ended", "TVK_NO_TX", {"transaction": 2})
    tell(tiuvrokk.NoTransaction, lambda: list(other.scan()), "transaction 2 has ended", "TVK_NO_TX", {"transaction": 2})
    store.close()
    tell(tiuvrokk.Closed, store.transaction, "the store is closed", "TVK_NO_STORE", {})
    tell(tiuvrokk.Closed, lambda: one.get("ant"), "the store is closed", "TVK_NO_STORE", {})
    tell(tiuvrokk.Closed, many[0].abort, "the store is closed", "TVK_NO_STORE", {})
    for text, name, error, about in found:
        for it in (error, pickle.loads(pickle.dumps(error))):
            told = (str(it), it.name, it.status is tiuvrokk.Status[name[4:]], {key: getattr(it, key) for key in about})
            wanted(f"the error {name}", told, (text, name, True, about))
    wanted("an absent key", isinstance(found[0][2], KeyError), True)
    wanted("a name", type(found[0][2]).__module__, "tiuvrokk")


def check_states() -> None:
    """What a store and a transaction say of themselves; neither can be copied, nor closed or ended twice with harm."""
    store = tiuvrokk.Store()
    tx = store.transaction()
    wanted("an open store", repr(store), "<tiuvrokk.Store, open, 1 transaction active>")
    wanted("an active transaction", repr(tx), "<tiuvrokk.Transaction 1, active>")
    for it in (store, tx):
        for call in (lambda: copy.copy(it), lambda: copy.deepcopy(it), lambda: pickle.dumps(it)):
            if "can't be copied" not in str(raised(TypeError, call, f"a copy of {it!r}")):
                fail("a copy is refused without a reason")
    tx.commit()
    wanted("a committed transaction", repr(tx), "<tiuvrokk.Transaction 1, committed as 1>")
    tx = store.transaction()
    tx.abort()
    wanted("an aborted transaction", repr(tx), "<tiuvrokk.Transaction 2, aborted>")
    tx = store.transaction()
    store.close()
    store.close()
    wanted("a transaction of a closed store", repr(tx), "<tiuvrokk.Transaction 3, ended with its store>")
    wanted("whether it is active", tx.is_active, False)
    wanted("a closed store", repr(store), "<tiuvrokk.Store, closed>")


def on_threads(*calls: Call) -> List[Optional[BaseException]]:
    """What calls raise, each on a thread of its own, all at once."""
    found: List[Optional[BaseException]] = [None] * len(calls)

    def run(number: int) -> None:
        try:
            calls[number]()
        except BaseException as error:  # noqa: B902 (it is handed on)
            found[number] = error

    threads = [threading.Thread(target=run, args=(number,)) for number in range(len(calls))]
    for thread in threads:
        thread.start()
    for thread in threads:
        thread.join()
    return found


def elsewhere(call: Call) -> Optional[BaseException]:
    """What a call raises on another thread."""
    return on_threads(call)[0]


def dropped(kept: List[Any]) -> None:
    """Lets go what stands there."""
    kept.clear()
    gc.collect()


def check_threads() -> None:
    """A store that another thread uses, closes or collects."""
    store = tiuvrokk.Store()
    tx = store.transaction()
    tx["ant"] = "6"
    rows = tx.scan()
    calls: List[Call] = [store.transaction, store.merge, store.clean, store.entries, store.figures, store.close, lambda: store.commits]
    calls += [lambda: tx.get("ant"), lambda: tx["ant"], lambda: tx.update(ant="7"), lambda: tx.__delitem__("ant")]
    calls += [tx.commit, tx.abort, tx.mark, tx.back, lambda: tx.load({"bee": "1"}), lambda: tx.lock("a")]
    calls += [lambda: next(rows), lambda: len(tx), lambda: tx[:]]
    for call in calls:
        error = elsewhere(call)
        if not isinstance(error, tiuvrokk.WrongThread) or error.opener != threading.get_ident():
            fail(f"another thread: {error!r}")
    wanted("what another thread may ask", elsewhere(lambda: repr(store)), None)
    wanted("what other threads did", (tx["ant"], store.commits, tx.is_active), (b"6", 0, True))
    tx.commit()

    # A dropped store is closed on whichever thread; a dropped transaction is aborted by the store's own.
    kept = [store.transaction()]
    kept[0]["ant"] = "7"
    with warnings.catch_warnings(record=True) as told:
        warnings.simplefilter("always")
        elsewhere(lambda: dropped(kept))
    wanted("a warning", [it.category for it in told], [ResourceWarning])
    with store.transaction() as reader:
        wanted("what a transaction wrote that another thread dropped", reader["ant"], b"6")
    stores = [tiuvrokk.Store()]
    wanted("a store that another thread drops", elsewhere(lambda: dropped(stores)), None)
    wanted("stores of four threads", on_threads(*[lambda: check_dictionary(2000)] * 4), [None] * 4)


def check_dropped() -> None:
    """A transaction that is dropped aborts, with a warning, and its locks end."""
    with tiuvrokk.Store() as store:
        for number in range(1, 200):
            with warnings.catch_warnings(record=True) as told:
                warnings.simplefilter("always")
                store.transaction().insert("ant", "6")
                gc.collect()
            text = f"<tiuvrokk.Transaction {number}, active> was dropped, and is aborted"
            wanted("a warning", [(it.category, str(it.message)) for it in told], [(ResourceWarning, text)])
        with store.transaction() as tx:
            wanted("what dropped transactions wrote", list(tx), [])
        wanted("the store", repr(store), "<tiuvrokk.Store, open, 0 transactions active>")


def check_interrupts() -> None:
    """1,200 interrupts at random moments of transactions leave no place of a transaction taken, and as many leave no store open."""
    dice = random.Random(11)
    store = tiuvrokk.Store()

    def committed() -> None:
        with store.transaction() as tx:
            tx["ant"] = "6"

    def aborted() -> None:
        with contextlib.suppress(ZeroDivisionError):
            store.run(lambda it: it.insert("bee", str(1 // 0)))

    calls = [committed, aborted, lambda: store.transaction().insert("cat", "6")]
    with warnings.catch_warnings(), store:
        warnings.simplefilter("ignore")
        for number in range(1200):
            interrupted(dice.uniform(1e-5, 3e-4), calls[number % 3])
        many = [store.transaction()]
        wanted("transactions that stayed", store.figures().active, 1)
        many += [store.transaction() for _ in range(63)]
        for tx in many:
            tx.abort()
        for _ in range(1200):
            interrupted(dice.uniform(1e-5, 3e-4), lambda: tiuvrokk.Store().transaction().abort())
        gc.collect()
        with tiuvrokk.Store():
            wanted("stores that stayed", len(tiuvrokk._store._open), 2)


def check_closed_within() -> None:
    """A store that is closed within the block of a transaction raises at the block's end, unless something else does."""
    store = tiuvrokk.Store()

    def close_within(error: Optional[Exception]) -> None:
        with store.transaction() as tx:
            tx["ant"] = "6"
            store.close()
            if error:
                raise error

    raised(tiuvrokk.Closed, lambda: close_within(None))
    store = tiuvrokk.Store()
    raised(InterruptedError, lambda: close_within(InterruptedError()))


def check_queue() -> None:
    """A queue that nobody cleans: what was taken doesn't stand in the way of what is there."""
    with tiuvrokk.Store() as store:
        with store.transaction() as tx:
            tx.load({f"{number:08}": "job" for number in range(2000)})
        most = 0
        for number in range(2000, 22_000):
            with store.transaction() as tx:
                tx[f"{number:08}"] = "job"
                key, _ = next(tx.scan(page=1))
                del tx[key]
            most = max(most, store.figures().ghosts) if number % 100 == 0 else most
        wanted("the first job", key, b"00019999")
        if most > 200:
            fail(f"{most} entries of a queue of 2,000 are marked as deleted")
        wanted("jobs", store.run(len), 2000)
        tiuvrokk.upkeep(False)
        with store.transaction() as tx:
            tx.lock(b"", "00021000", exclusive=True)
            for key in tx.keys(hi="00021000"):
                tx.pop(key)
        if store.figures().ghosts < 1000:
            fail("a commit cleans where it is told not to")
        tiuvrokk.upkeep(True)
        # What another transaction has locked stays, and is cleaned behind its end.
        with store.transaction() as other:
            other.lock(b"", "00021000", exclusive=True)
            for number in range(100):
                with store.transaction() as tx:
                    tx["x"] = str(number)
            wanted("ghosts beside a lock", store.figures().ghosts > 1000, True)
        wanted("ghosts behind it", store.figures().ghosts < 64, True)


def check_tidy() -> None:
    """What nobody reads is merged by commits where runs are many, and all of it where a program has time."""
    with tiuvrokk.Store() as store:
        for number in range(2000):
            with store.transaction() as tx:
                tx.load({f"{place:02} {number * 7919 % 100003:06}": "1" for place in range(64)})
        wanted("few runs", store.figures().runs < 400, True)
        wanted("a commit for each", store.commits, 2000)
        wanted("a piece", store.tidy(seconds=0), True)
        wanted("all of it", store.tidy(seconds=LIMIT), False)
        wanted("no run", store.figures()[1:4], (128_000, 0, 0))
        wanted("nothing to do", store.tidy(), False)


def check_one_read() -> None:
    """`list` and `dict` of a transaction read each page once, by one lock."""
    with tiuvrokk.Store() as store:
        with store.transaction() as tx:
            tx.load({f"{number:05}": "1" for number in range(5000)})
        kinds: List[Any] = [list, tuple, dict, sorted, set]
        for kind in kinds:
            with store.transaction() as tx:
                asked: List[int] = []
                ask = tx._ask

                def counted(*words: Any, ask: Any = ask, asked: Any = asked) -> Any:
                    asked.append(1)
                    return ask(*words)

                setattr(tx, "_ask", counted)
                wanted("records", len(kind(tx)), 5000)
                # (pages of 100, 200, 400, 800, 999 and so on)
                wanted(f"the scans of {kind.__name__}", len(asked), 8)
        with store.transaction() as tx:
            keys = iter(tx)
            wanted("a length", (len(tx), next(keys), len(tx)), (5000, b"00000", 5000))
            tx["04999a"] = "1"
            del tx["04998"]
            wanted("what is given behind a write", list(keys)[-3:], [b"04997", b"04999", b"04999a"])


def check_shared() -> None:
    """A store that any thread may use, one at a time."""
    with tiuvrokk.Store(check_same_thread=False) as store:
        turn = threading.Lock()

        def add() -> None:
            for _ in range(500):
                with turn, store.transaction() as tx:
                    tx["count"] = str(int(tx.get("count", b"0")) + 1)

        wanted("threads", on_threads(*[add] * 4), [None] * 4)
        wanted("what all added", store.run(lambda tx: tx["count"]), b"2000")

        def own() -> None:
            for number in range(3000):
                with store.transaction() as tx:
                    tx[str(threading.get_ident())] = str(number)

        wanted("a transaction a thread", on_threads(*[own] * 4), [None] * 4)
        kept = [store.transaction()]
        with warnings.catch_warnings():
            warnings.simplefilter("ignore")
            elsewhere(lambda: dropped(kept))
        store.transaction().abort()
        wanted("active", store.figures().active, 0)


def check_ends() -> None:
    """A store has no file; a transaction that has ended reads nothing more; one that can't go back within its limits is aborted."""
    opened: Any = tiuvrokk.Store
    wanted("a file", "has no file" in str(raised(TypeError, lambda: opened("my.db"))), True)
    with tiuvrokk.Store() as store:
        store["ant"] = "6"
        for end in (tiuvrokk.Transaction.commit, tiuvrokk.Transaction.abort):
            tx = store.transaction()
            wanted("its keys", list(tx.keys()), [b"ant"])
            end(tx)
            raised(tiuvrokk.NoTransaction, lambda: tx[b"ant"])
        tx = store.transaction()

        def fill() -> None:
            with tx.savepoint():
                for number in range(5000):
                    tx["bee"] = str(number)

        raised(tiuvrokk.TooMany, fill)
        wanted("what was half done", (tx.is_active, "bee" in store), (False, False))


def memory() -> int:
    """The pages that this process has in memory."""
    with open("/proc/self/statm", encoding="ascii") as file:
        return int(file.read().split()[1]) * resource.getpagesize()


def check_memory() -> None:
    """100,000 transactions that read, write and are refused leave memory as it was."""
    with tiuvrokk.Store() as store:
        sizes = []
        for number in range(100_000):
            with store.transaction() as tx:
                tx["ant"] = str(number)
                if tx.get("bee") or "cat" in tx:
                    fail("a record that is there")
                if number % 10 == 0:
                    raised(tiuvrokk.Absent, lambda: tx["dog"])
                    raised(tiuvrokk.NoMark, tx.back)
                    list(tx.scan())
            if number in (20_000, 99_999):
                gc.collect()
                sizes.append(memory())
        wanted("commits", store.commits, 100_000)
        if os.path.exists("/proc/self/statm") and sizes[1] - sizes[0] > 1 << 20:
            fail(f"80,000 transactions took {sizes[1] - sizes[0]} bytes")


def some(dice: random.Random, most: int) -> Any:
    """A random text of any kind."""
    text = "".join(dice.choices("ab\0", k=dice.randrange(most)))
    kind: Any = dice.choice([str, bytes, bytearray, memoryview])
    return text if kind is str else kind(text.encode())


def plain(text: Any) -> bytes:
    return text.encode() if isinstance(text, str) else bytes(text)


def change(dice: random.Random, tx: tiuvrokk.Transaction, seen: Dict[bytes, bytes]) -> None:
    """One random call that writes, and the same of a dictionary."""
    given, new = some(dice, 6), some(dice, 65)
    key, value = plain(given), plain(new)
    kind = dice.randrange(7)
    if kind == 0:
        tx[given] = new
        seen[key] = value
    elif kind == 1:
        wanted("setdefault", tx.setdefault(given, new), seen.setdefault(key, value))
    elif kind == 2:
        wanted("pop", tx.pop(given, None), seen.pop(key, None))
    elif kind == 3 and key in seen:
        del tx[given]
        del seen[key]
    elif kind == 3:
        wanted("del", raised(KeyError, lambda: tx.__delitem__(given)).key, key)
    elif kind == 4:
        tx.update([(given, new)] if isinstance(given, bytearray) else {given: new})
        seen[key] = value
    elif kind == 5:
        fresh = {it: b"n" for it in {bytes(dice.choices(b"abc", k=4)) for _ in range(5)} if it not in seen}
        records: Any = dice.choice([fresh, fresh.items(), [list(it) for it in fresh.items()], iter(list(fresh.items()))])
        wanted("load", tx.load(records, run=dice.choice([1, 2, 65536])), len(fresh))
        seen.update(fresh)
    else:
        tx.mark()
        tx[given] = new
        tx.back()


def look(dice: random.Random, tx: tiuvrokk.Transaction, seen: Dict[bytes, bytes]) -> None:
    """One random call that reads, compared with a dictionary."""
    given = some(dice, 6)
    key, rows = plain(given), sorted(seen.items())
    low, high = sorted([key, plain(some(dice, 6))])
    within = [it for it in rows if low <= it[0] <= high]
    kind = dice.randrange(5)
    if kind == 0:
        wanted("get", tx.get(given, 5), seen.get(key, 5))
    elif kind == 1:
        wanted("items", list(tx.items()), rows)
        wanted("keys", (list(tx), list(tx.keys(low, high))), ([it for it, _ in rows], [it for it, _ in within]))
        wanted("values", list(tx.values(low, high)), [it for _, it in within])
    elif kind == 2:
        wanted("scan", list(tx.scan(low, high, page=dice.choice([1, 3, 100, 999]))), within)
        wanted("len", (len(tx), tx.count(low, high), bool(tx)), (len(seen), len(within), True))
    elif kind == 3:
        # (by name, since mypy wants the ends of a slice to be numbers)
        wanted("slice", tx[slice(low, high)], [it for it in within if it[0] < high])
        wanted("slices", (tx[slice(low, None)], tx[slice(high)]), ([it for it in rows if it[0] >= low], [it for it in rows if it[0] < high]))
        wanted("slices", (tx[:], tx[slice(high, low)]), (rows, []))
    else:
        wanted("in", (given in tx, given not in tx), (key in seen, key not in seen))


def check_dictionary(calls: int) -> None:
    """Random transactions beside a dictionary."""
    dice = random.Random(1)
    committed: Dict[bytes, bytes] = {}
    with tiuvrokk.Store() as store:
        done = 0
        while done < calls:
            seen = dict(committed)
            try:
                with store.transaction() as tx:
                    tx.lock(b"", b"\xff" * 32, exclusive=True)
                    for _ in range(dice.randrange(60)):
                        dice.choice([change, look])(dice, tx, seen)
                        done += 1
                    if dice.random() < 0.3:
                        raise InterruptedError
                committed = seen
            except InterruptedError:
                pass
            while dice.random() < 0.8 and store.merge() is not None:
                pass


def check_both_ways(loaded: Callable[..., Any]) -> None:
    """A file that is read by the library, and one that Python cuts into other runs, are refused alike."""
    dice = random.Random(3)
    pieces = [b"bee", b"x", b"=", b"\t", b"\n", b"\r\n", b"\r", b"k" * 32, b"k" * 33, b"v" * 65, b"\x80", b" ", b"\0", b"\n\n"]

    def told(text: bytes, run: int) -> Any:
        return str(raised(tiuvrokk.Error, lambda: loaded(text + b"\nbee\t1", run), f"{text!r}"))

    for _ in range(2000):
        text = b"".join(dice.choice(pieces) for _ in range(dice.randrange(9)))
        wanted(f"what is wrong with {text!r}", told(text, 65536), told(text, 65535))


def check_files(folder: str) -> None:
    """Records of a file, and lines that are none."""
    path = os.path.join(folder, "records")

    def loaded(text: bytes, run: int = 65536) -> Any:
        with open(path, "wb") as file:
            file.write(text)
        return store.load_file(path, run)

    with tiuvrokk.Store() as store:
        for text, number in ((b"", 0), (b"\n", 0), (b"bee\t2\nant=1\r\ncat\t=\n\n", 3), (b"dog=a=b", 1)):
            wanted(f"the records of {text!r}", loaded(text), number)
        with store.transaction() as tx:
            wanted("the records", tx[:], [(b"ant", b"1"), (b"bee", b"2"), (b"cat", b"="), (b"dog", b"a=b")])
        bad = {b"e=1\nf\n": 2, b"e=1\n\nf=1\n": 2, b"=1\n": 1, b"e=1\xc3\n": 1, b"e f=1": 1}
        bad.update({b"e=" + b"v" * 65: 1, b"k" * 33 + b"=1": 1})
        for text, line in bad.items():
            error = raised(tiuvrokk.BadLine, lambda: loaded(text), f"{text!r}")
            wanted(f"the line of {text!r}", (error.line, str(error).startswith(f"line {line}: ")), (line, True))
        twice = raised(tiuvrokk.BadLine, lambda: loaded(b"e=1\nf=1\ne=2\n"))
        wanted("a key that stands twice", str(twice), "line 3: the key e stands in line 1 already")
        wanted("a key that is there", raised(tiuvrokk.Exists, lambda: loaded(b"a=1\nbee=1\n")).key, b"bee")
        check_both_ways(loaded)
        raised(FileNotFoundError, lambda: store.load_file(path + ".none"))
        with store.transaction() as tx:
            wanted("what bad files left", len(tx), 4)
        wanted("the store", repr(store), "<tiuvrokk.Store, open, 0 transactions active>")


def check_structs() -> None:
    """Structs of the caller's own, in whatever holds bytes, and layouts that are none."""
    form = struct.Struct("<i4sd")
    text = b"".join(form.pack(n, b"%04d" % (n * 7 % 100), n / 2) for n in range(100))
    key, value = (4, 4), (8, 8)
    for structs in (text, bytearray(text), memoryview(text), array.array("b", text), memoryview(bytearray(text))):
        with tiuvrokk.Store() as store, store.transaction() as tx:
            wanted("the structs", tx.load_structs(structs, form.size, key, value), 100)
            wanted("their records", (len(tx), tx["0007"]), (100, struct.pack("<d", 0.5)))
            wanted("a key that is there", raised(tiuvrokk.Exists, lambda: tx.load_structs(text, 16, key, value)).key, b"0000")
    with tiuvrokk.Store() as store, store.transaction() as tx:
        wide = bytes(range(128))
        wanted("structs that are keys and values", tx.load_structs(wide, 64, (32, 32), (0, 64)), 2)
        wanted("their records", tx[:], [(wide[32:64], wide[:64]), (wide[96:], wide[64:])])
    with tiuvrokk.Store() as store, store.transaction() as tx:
        wanted("no structs", tx.load_structs(b"", 16, key, value), 0)
        wanted("a key that stands twice", raised(tiuvrokk.Twice, lambda: tx.load_structs(text + text[:16], 16, key, value)).key, b"0000")
        for size, at, held in ((16, (4, 13), value), (16, (-1, 4), value), (16, (4, -1), value), (16, key, (16, 1)), (0, (0, 0), (0, 0)), (17, key, value)):
            raised(ValueError, lambda: tx.load_structs(text, size, at, held), f"{size}, {at}, {held}")
        for size, at, held in ((80, (0, 33), value), (80, key, (0, 65))):
            raised(tiuvrokk.Bad, lambda: tx.load_structs(text, size, at, held), f"{size}, {at}, {held}")
        raised(TypeError, lambda: tx.load_structs("1234", 4, (0, 4), (0, 4)))
        odd: Any = 16.0
        raised(TypeError, lambda: tx.load_structs(text, odd, key, value))
        raised(ValueError, lambda: tx.load_structs(memoryview(text)[::2], 16, key, value))
        wanted("what refused structs left", len(tx), 0)


def check_missing(folder: str) -> None:
    """Without a library the package can be imported, and a store is an ImportError that says what to do."""
    for path in (os.path.join(folder, "none.so"), __file__):
        program = "import tiuvrokk\ntry:\n    tiuvrokk.Store()\nexcept ImportError as error:\n    print(error)"
        given = {**os.environ, "TIUVROKK_LIBRARY": path, "PYTHONPATH": f"{TOP}/python"}
        words = [sys.executable, "-B", "-c", program]
        ran = subprocess.run(words, capture_output=True, text=True, env=given, timeout=LIMIT, check=False)
        if not re.match(rf"the library of tiuvrokk can't be loaded: .*{re.escape(path)}.*TIUVROKK_LIBRARY", ran.stdout) or ran.stderr:
            fail(f"a missing library: {ran.stdout!r}, {ran.stderr!r}")


def check_editable(folder: str) -> None:
    """What `pip install -e` installs leads to the package, and has no copy of it."""
    program = "import building, sys; print(building.build_editable(sys.argv[1]))"
    words = [sys.executable, "-B", "-c", program, folder]
    given = {**os.environ, "PYTHONPATH": f"{TOP}/python"}
    ran = subprocess.run(words, stdout=subprocess.PIPE, text=True, env=given, timeout=LIMIT, check=True)
    with zipfile.ZipFile(os.path.join(folder, ran.stdout.strip())) as wheel:
        found = {it: wheel.read(it) for it in wheel.namelist() if ".dist-info/" not in it}
    wanted("the files of an editable wheel", found, {"tiuvrokk.pth": os.path.realpath(f"{TOP}/python").encode() + b"\n"})


def main() -> None:
    with tempfile.TemporaryDirectory() as folder:
        if not os.environ.get("TIUVROKK_LIBRARY"):
            subprocess.run([f"{TOP}/install-library", f"{folder}/installed"], stdout=subprocess.DEVNULL, check=True)
            os.environ["TIUVROKK_LIBRARY"] = f"{folder}/installed/lib/libtiuvrokk.so"
        warnings.simplefilter("error")
        check_types()
        check_bounds()
        check_errors()
        check_states()
        check_threads()
        check_dropped()
        check_memory()
        check_dictionary(20_000)
        check_files(folder)
        check_structs()
        check_missing(folder)
        check_editable(folder)
        check_closed_within()
        check_queue()
        check_tidy()
        check_one_read()
        check_shared()
        check_ends()
        check_interrupts()
        client_cases.all_cases(tiuvrokk.Store)
        python_clients.all_clients(folder)
    print("python_package: all as expected")


if __name__ == "__main__":
    main()
