"""Stores and their transactions."""

from __future__ import annotations

import ctypes
import io
import itertools
import os
import time
import warnings
import weakref
from collections.abc import Callable, Iterable, Iterator
from operator import index
from threading import current_thread, get_ident, main_thread
from types import TracebackType
from typing import Any, NamedTuple, NoReturn, Optional, TypeVar, Union, overload

from ._library import Call, Counts, Handle, Number, calls, holding_calls
from ._grammar import MAX_RUN
from ._mapping import MAX_PAGE, MAX_ROWS, Mapped, Runner, first_page, limited, most_of
from ._records import GREATEST, SIZES, Key, Page, Place, Record, Records, Text, Value, bad_line, below, bytes_of, double_line
from ._records import first_double, layout_of, lent, line_runs, packed, plain_text, range_of, runs_of, text_of
from .errors import MAX_LIMIT, Absent, Bad, Closed, Exists, Status, Twice, WrongThread, bad_limit, bad_range, error_of

Default = TypeVar("Default")
Row = TypeVar("Row")
Made = TypeVar("Made")

_LOCKED_RUNS = 255
_ABSENT, _EXISTS = int(Status.ABSENT), int(Status.EXISTS)
# (names of this module are found sooner, and each transaction asks for them)
_number, _pointer, _reference = ctypes.c_uint64, ctypes.byref, weakref.ref


class Figures(NamedTuple):
    """How large a store is."""

    entries: int
    """Of the index, those marked as deleted too."""
    in_final: int
    """Those in the final partition."""
    in_runs: int
    """Those in loaded runs, from where merges move them."""
    runs: int
    """Runs that have entries."""
    ghosts: int
    """Entries that are marked as deleted."""
    active: int
    """Transactions that are active."""
    commits: int
    """Transactions that committed."""


# Stores that are open, with their handles: an interrupt may keep `__del__` of one from its end, and then the next one sees to it.
_open: dict[int, tuple[weakref.ref[Store], Handle]] = {}


def _close_dropped() -> None:
    """Closes stores that nobody has any more. Interrupts meet the main thread, so only there any are left."""
    for at, (store, handle) in list(_open.items()):
        # (who takes it from there closes it)
        if store() is None and _open.pop(at, (None, None))[1] is not None:
            calls.close(ctypes.byref(handle))


class Store(Runner["Transaction"]):
    """An empty store, which is open until `close`, or until the end of a `with` block. It belongs to the thread that opens it:
    on any other each call raises `WrongThread`. `check_same_thread=False` lets any thread use it, one at a time: who asks for
    that sees to it that no two threads are in one transaction at once, and loads don't let other threads run."""

    def __init__(self, *file: NoReturn, check_same_thread: bool = True) -> None:
        if file:
            raise TypeError("a Store lives in memory and has no file: records come in by load_file, or by load in a transaction")
        if _open and current_thread() is main_thread():
            _close_dropped()
        self._calls = calls if check_same_thread else holding_calls
        self._end = calls.close
        self._handle = Handle()
        self._at = ctypes.byref(self._handle)
        self._thread = get_ident()
        self._is_shared = not check_same_thread
        # The transactions that were begun, with where the library tells their numbers. One that was dropped, or whose end was
        # interrupted, is aborted when the next one begins.
        self._begun: dict[int, tuple[weakref.ref[Transaction], ctypes.c_uint64]] = {}
        _open[id(self._handle)] = (weakref.ref(self), self._handle)
        status = self._calls.open(self._at)
        if status:
            _open.pop(id(self._handle), None)
            raise error_of(status)

    def _leave_to_parent(self) -> None:
        _open.pop(id(self._handle), None)
        self._handle.at = None

    def close(self) -> None:
        """Gives back all memory, whatever is open. A store may be closed twice."""
        if self._handle.at:
            self._stay()
            self._end(self._at)
            for reference, _ in list(self._begun.values()):
                if (tx := reference()) is not None:
                    tx._read = None
        _open.pop(id(self._handle), None)

    def __enter__(self) -> Store:
        return self

    def __exit__(
        self, kind: Optional[type[BaseException]], error: Optional[BaseException], trace: Optional[TracebackType]
    ) -> None:
        self.close()

    def __del__(self, opened: Any = _open, here: Callable[[], int] = get_ident, main: Any = main_thread()) -> None:
        # (nobody else has the store any more, so this may be any thread)
        if not hasattr(self, "_begun"):
            return
        if here() != main.ident:
            opened.pop(id(self._handle), None)
        if self._handle.at:
            self._end(self._at)
        opened.pop(id(self._handle), None)

    def __repr__(self) -> str:
        if not self._handle.at:
            return "<tiuvrokk.Store, closed>"
        active = sum(1 for tx, _ in list(self._begun.values()) if tx() is not None)
        return f"<tiuvrokk.Store, open, {active} transaction{'' if active == 1 else 's'} active>"

    def transaction(self) -> Transaction:
        """Begins a transaction. As the head of a `with` block it commits at the end of the block, and aborts where an
        exception leaves the block. One that is dropped before its end is aborted, with a ResourceWarning."""
        if self._thread != get_ident() or not self._handle.at:
            self._stay()
        if self._begun:
            self._abort_dropped()
        tx = Transaction(self)
        if status := self._calls.begin(self._at, _pointer(tx._tx)):
            tx._over()
            raise error_of(status)
        return tx

    def merge(self, limit: int = MAX_LIMIT) -> Optional[int]:
        """One merge step: works off at most `limit` entries of the oldest range that was read, whose records go to their final
        place. Answers how many they were, 0 where that range is forgotten, since nothing is left of it or its next key is
        locked, and None where no range is waiting."""
        told = Number()
        status = self._calls.merge(self._use(), _limit(limit), told)
        if status in (Status.DONE, Status.ENDED):
            return 0
        if status == Status.IDLE:
            return None
        if status:
            raise error_of(status)
        return told[0]

    def tidy(self, seconds: float = 0.001) -> bool:
        """Merges what is left, first where was read, and then cleans, until so many seconds have passed or nothing is left but what
        transactions have locked. Answers whether more may be left. A program calls it where it would wait."""
        told, end = Number(), time.monotonic() + seconds
        while True:
            if status := self._calls.tidy(self._use(), told):
                raise error_of(status)
            if not told[0] or time.monotonic() >= end:
                return bool(told[0])

    def clean(self, lo: Text = b"", hi: Text = GREATEST, limit: int = MAX_LIMIT) -> int:
        """One clean step: takes away at most `limit` entries that are marked as deleted, and answers how many."""
        at, low, high = self._use(), bytes_of(lo), bytes_of(hi)
        most, told = _limit(limit), Number()
        status = self._calls.clean(at, low, SIZES[len(low)], high, SIZES[len(high)], most, told)
        if status:
            raise error_of(status, texts=[low, high])
        return told[0]

    @property
    def commits(self) -> int:
        """How many transactions committed."""
        return self._count(self._calls.commits)

    def entries(self) -> int:
        """How many entries the index has, those marked as deleted too."""
        return self._count(self._calls.entries)

    def figures(self) -> Figures:
        """How large the store is."""
        counts = Counts()
        if status := self._calls.figures(self._use(), counts):
            raise error_of(status)
        return Figures(*counts)

    def load_file(self, path: Union[str, os.PathLike[str]], run: int = MAX_RUN) -> int:
        """Loads the records of a file, all or none, in a transaction of its own, and answers how many they are. Each line is a
        record, as `amload` reads it: a key of 1 to 32 visible characters of ASCII, none of them `=`, a TAB or the first
        `=`, and a value of 1 to 64. Raises `BadLine`, and `Exists` where a key has a record. The file is read whole, unless its
        runs are to have another number of records."""
        self._use()
        with open(path, "rb") as file, self.transaction() as tx:
            if _run(run) == MAX_RUN:
                return tx._load_text(file.read())
            try:
                return tx._load_runs(line_runs(file, run))
            except (Exists, Twice) as error:
                if not file.seekable():
                    raise
                file.seek(0)
                raise double_line(file, error.key) or error from None

    def _stay(self) -> None:
        """Raises where another process opened the store, or another thread than the store's is at work."""
        super()._stay()
        if self._thread != get_ident() and not self._is_shared:
            raise WrongThread(self._thread, get_ident())

    def _use(self) -> Any:
        """The store, for a call."""
        self._stay()
        if not self._handle.at:
            raise Closed
        if self._begun:
            self._abort_dropped()
        return self._at

    def _count(self, call: Call) -> int:
        told = Number()
        if status := call(self._use(), told):
            raise error_of(status)
        return told[0]

    def _abort_dropped(self) -> None:
        """Aborts the transactions that nobody has any more, and those that an interrupt kept from their end, which this thread had
        begun: another one may be at it."""
        for at, (reference, number) in list(self._begun.items()):
            tx = reference()
            if tx is None or tx._left_by == get_ident():
                if number.value:
                    self._calls.abort(self._at, number)
                if tx is not None:
                    tx._is_over = True
                self._begun.pop(at, None)


class Transaction(Mapped):
    """A transaction of a store, by `Store.transaction`. It reads and writes like a mapping of bytes that is sorted by key.

    Its operations raise `Busy`, `TooMany`, `OutOfMemory`, and `NoTransaction` once it has ended; what was refused changed
    nothing, and the transaction goes on. Keys and values are bytes, bytearray, memoryview or str, which is taken for its
    UTF-8; anything else is a TypeError."""

    _left_by = 0  # (the thread that began its end)
    _is_over = True  # (until it can be begun)

    def __init__(self, store: Store) -> None:
        self._store = store
        self._calls = store._calls
        self._thread = store._thread
        self._at = store._at
        # (the library writes both numbers there, so no interrupt comes between)
        self._commit_number = _number()
        self._tx = tx = _number()
        store._begun[id(tx)] = (_reference(self), tx)
        self._is_over = False

    @property
    def number(self) -> int:
        """The number by which `Busy.holder` names the transaction."""
        return self._tx.value

    @property
    def commit_number(self) -> int:
        """The number of its commit, or 0 before that."""
        return self._commit_number.value

    @property
    def is_active(self) -> bool:
        """Whether it can go on."""
        return not self._is_over and bool(self._store._handle.at)

    def __enter__(self) -> Transaction:
        return self

    def __exit__(
        self, kind: Optional[type[BaseException]], error: Optional[BaseException], trace: Optional[TracebackType]
    ) -> None:
        if self._is_over:
            return
        self._left_by = get_ident()
        if kind is None:
            # (a store that was closed meanwhile says so here)
            self.commit()
        elif self._store._handle.at:
            self.abort()

    def __del__(self, warn: Callable[..., None] = warnings.warn, here: Callable[[], int] = get_ident) -> None:
        if self._is_over or not self.is_active or not self._tx.value:
            return
        told = f"{self!r} was dropped, and is aborted"
        # (else its own thread may be at work in the library, and aborts it at its next call)
        if self._thread == here():
            self._calls.abort(self._at, self._tx)
            self._over()
        self._left_by = self._thread
        warn(told, ResourceWarning, source=self)

    def __repr__(self) -> str:
        state = "active" if self.is_active else "ended with its store"
        if self._is_over:
            state = f"committed as {self.commit_number}" if self.commit_number else "aborted"
        return f"<tiuvrokk.Transaction {self.number}, {state}>"

    def commit(self) -> int:
        """Commits, and answers the number of the commit: they rise by one from 1."""
        if self._thread != get_ident():
            self._store._stay()
        if status := self._calls.commit(self._at, self._tx, _pointer(self._commit_number)):
            raise error_of(status, self.number)
        self._over()
        return self._commit_number.value

    def abort(self) -> None:
        """Takes back what was written, and ends the transaction."""
        self._plain(self._calls.abort)
        self._over()

    def mark(self) -> None:
        """Sets a savepoint."""
        self._plain(self._calls.mark)
        self._marks += 1

    def back(self) -> None:
        """Takes back what was written since the newest savepoint, which goes. Locks stay. Raises `NoMark`."""
        self._read = None
        self._plain(self._calls.back)
        self._marks -= 1

    @overload
    def get(self, key: Text) -> Optional[bytes]: ...

    @overload
    def get(self, key: Text, default: Default) -> Union[bytes, Default]: ...

    def get(self, key: Text, default: Any = None) -> Any:
        """The value under the key, or `default` where there is none."""
        if self._thread != get_ident():
            self._store._stay()
        text = key if type(key) is bytes else bytes_of(key)
        value = Value()
        status = self._calls.get(self._at, self._tx, text, SIZES[len(text)], value, None)
        if status > _ABSENT:
            status = self._ask(self._calls.get, Number(), text, SIZES[len(text)], value)
        if status:
            return default
        return text_of(value)

    def __setitem__(self, key: Text, value: Text) -> None:
        """Sets the value under the key, whether it has one or not."""
        text = key if type(key) is bytes else bytes_of(key)
        new = value if type(value) is bytes else bytes_of(value)
        self._write(self._calls.set, text, new)

    def __delitem__(self, key: Union[Text, slice]) -> None:
        """Takes the record away. Raises `Absent` where there is none. `del tx[lo:hi]` takes those from `lo` on and below `hi`."""
        if isinstance(key, slice):
            self._delete_between(key)
            return
        self._stay()
        self._read = None
        text = bytes_of(key)
        status = self._calls.delete(self._at, self._tx, text, SIZES[len(text)], None)
        if status > _ABSENT:
            status = self._ask(self._calls.delete, Number(), text, SIZES[len(text)])
        if status:
            raise Absent(text)

    def insert(self, key: Text, value: Text) -> None:
        """Adds a record. Raises `Exists` where the key has one."""
        text = key if type(key) is bytes else bytes_of(key)
        if self._write(self._calls.insert, text, value if type(value) is bytes else bytes_of(value)):
            raise Exists(text)

    def replace(self, key: Text, value: Text) -> None:
        """Gives a record another value. Raises `Absent` where there is none."""
        text = key if type(key) is bytes else bytes_of(key)
        if self._write(self._calls.replace, text, value if type(value) is bytes else bytes_of(value)):
            raise Absent(text)

    def delete_range(self, lo: Text = b"", hi: Text = GREATEST, limit: Optional[int] = None) -> int:
        """Takes the records from `lo` to `hi` away, both included, the first `limit` of them, or all. Answers how many went. Each
        thousand is an operation."""
        self._store._use()
        low, high = _range(lo, hi)
        return sum(self._deletions(low, high, most_of(limit)))

    def _deletions(self, low: bytes, high: bytes, most: int) -> Iterator[int]:
        """How many went, by one call after another."""
        told = Number()
        self._read = None
        while most:
            size = min(most, MAX_ROWS)
            self._stay()
            self._ask(self._calls.delete_range, told, low, SIZES[len(low)], high, SIZES[len(high)], _number(size))
            yield told[0]
            most = most - size if told[0] == size else 0

    def load(self, records: Records, run: int = MAX_RUN) -> int:
        """Adds the records of a mapping, or pairs, in any order, cut into runs of at most `run` records, each sorted and added
        as a whole. Answers how many records were added.

        Raises `Exists`, with the least key of the run that has a record, and `Twice` where a run has a key twice. The
        run that was refused isn't added, and those before it stay: set a savepoint first, or abort, to be rid of them. Each
        run is locked, and all keys are where there are more than 255."""
        self._store._use()
        return self._load_runs(runs_of(records, _run(run)))

    def load_structs(self, structs: Any, size: int, key: Place, value: Place) -> int:
        """Adds the records of structs of `size` bytes, one behind another, as `struct.pack` or an array of numpy has them: `key`
        and `value` say at which byte of a struct each begins, and how many bytes it has. They may come in any order: the
        library cuts and sorts them into runs of 65,536. Structs that nobody may write to are copied first, where they aren't
        `bytes`. Answers how many records were added.

        Raises `Twice` where a key stands twice, and adds nothing then, and `Exists` as `load` does."""
        self._store._use()
        layout = layout_of(index(size), key, value)
        room, length = lent(structs)
        number, rest = divmod(length, size) if length else (0, 0)
        if rest:
            raise ValueError(f"{length} bytes are no whole number of structs of {size}")
        if not number:
            return 0
        if number > _LOCKED_RUNS * MAX_RUN:
            self.lock(b"", GREATEST, exclusive=True)
        self._read = None
        found, loaded = Key(), Number()
        try:
            status = self._ask(self._calls.load_structs, Number(), room, ctypes.c_size_t(number), layout, found, loaded)
        except Twice:
            raise Twice(text_of(found)) from None
        if status:
            raise Exists(text_of(found))
        return loaded[0]

    def scan(
        self, lo: Text = b"", hi: Text = GREATEST, page: int = 100, *, limit: Optional[int] = None, reverse: bool = False
    ) -> Iterator[Record]:
        """The records from `lo` to `hi`, both included, by rising key, or from `hi` down to `lo` where `reverse` is true; the first
        `limit` of them, or all. So many are read at a time: `page` at first, 999 at most, and twice as many each time after. Each
        time locks the range from the next key to its end."""
        return limited(self._rows(Page.records, lo, hi, first_page(page, limit), reverse), limit)

    def values(self, lo: Text = b"", hi: Text = GREATEST) -> Iterator[bytes]:
        """The values of `scan`."""
        return self._rows(Page.values, lo, hi)

    def count(self, lo: Text = b"", hi: Text = GREATEST) -> int:
        """How many records there are from `lo` to `hi`, both included. All are read to be counted."""
        return sum(self._rows(lambda _, count: [count], lo, hi, MAX_PAGE))

    def lock(self, lo: Text, hi: Optional[Text] = None, exclusive: bool = False) -> None:
        """Locks the range from `lo` to `hi`, or one key: to read it, or to write it where the lock is exclusive."""
        self._stay()
        low = bytes_of(lo)
        high = low if hi is None else bytes_of(hi)
        mode = ctypes.c_uint(bool(exclusive))
        self._ask(self._calls.lock, Number(), mode, low, SIZES[len(low)], high, SIZES[len(high)])

    def _stay(self) -> None:
        if self._thread != get_ident():
            self._store._stay()

    def _over(self) -> None:
        self._is_over, self._read = True, None
        self._store._begun.pop(id(self._tx), None)

    def _plain(self, call: Call) -> None:
        """A call that speaks of the transaction alone."""
        self._stay()
        if status := call(self._at, self._tx):
            raise error_of(status, self.number)

    def _write(self, call: Call, key: bytes, value: bytes) -> int:
        """The status of a write: OK, ABSENT or EXISTS."""
        if self._thread != get_ident():
            self._store._stay()
        self._read = None
        status = call(self._at, self._tx, key, SIZES[len(key)], value, SIZES[len(value)], None)
        return self._ask(call, Number(), key, SIZES[len(key)], value, SIZES[len(value)]) if status > _EXISTS else status

    def _ask(self, call: Call, told: ctypes.Array[ctypes.c_uint64], *words: Any) -> int:
        """A call with room for the number that it tells. Reads and writes are made without at first, and made again so where
        they are refused, which changed nothing. Answers OK, ABSENT or EXISTS."""
        if self._store._begun:
            self._store._abort_dropped()
        status = call(self._at, self._tx, *words, told)
        if status > _EXISTS:
            raise error_of(status, self.number, told[0], [it for it in words if isinstance(it, bytes)])
        return status

    def _load_runs(self, runs: Iterable[list[Record]]) -> int:
        """Loads runs, and answers how many records they have."""
        count = 0
        for number, records in enumerate(runs):
            if number == _LOCKED_RUNS:
                self.lock(b"", GREATEST, exclusive=True)
            self._load(records)
            count += len(records)
        return count

    def _load_text(self, text: bytes) -> int:
        """Loads the records of a file, and answers how many they are."""
        plain = plain_text(text)
        if plain is None:
            raise bad_line(text)
        if not plain:
            return 0
        if plain.count(b"\n") >= _LOCKED_RUNS * MAX_RUN:
            self.lock(b"", GREATEST, exclusive=True)
        self._read = None
        key, line, loaded = Key(), Number(), Number()
        try:
            status = self._ask(self._calls.load_text, Number(), plain, SIZES[len(plain)], key, line, loaded)
        except Twice:
            raise double_line(io.BytesIO(text), text_of(key)) or Twice(text_of(key)) from None
        except Bad as error:
            raise bad_line(text) if line[0] else error from None
        if status:
            raise Exists(text_of(key))
        return loaded[0]

    def _load(self, records: list[Record]) -> None:
        self._read = None
        rows, exists = packed(records), Key()
        room = (ctypes.c_char * len(rows)).from_buffer(rows)
        try:
            status = self._ask(self._calls.load, Number(), room, ctypes.c_size_t(len(records)), exists)
        except Twice:
            raise Twice(first_double(records)) from None
        if status:
            raise Exists(text_of(exists))

    def _put(self, records: list[Record]) -> None:
        self._stay()
        self._read = None
        rows = packed(records)
        room = (ctypes.c_char * len(rows)).from_buffer(rows)
        self._ask(self._calls.put, Number(), room, ctypes.c_size_t(len(records)))

    def _rows(
        self, rows_of: Callable[[Page, int], list[Row]], lo: Text, hi: Text, page: int = 100, is_back: bool = False
    ) -> Iterator[Row]:
        """What is made of each page of the records from `lo` to `hi`, or from `hi` to `lo`."""
        return itertools.chain.from_iterable(self._made_pages(rows_of, lo, hi, page, is_back))

    def _record_pages(self, lo: Text, hi: Text) -> Iterator[list[Record]]:
        return self._made_pages(Page.records, lo, hi, 100)

    def _key_pages(self, lo: bytes, is_back: bool = False) -> Iterator[list[bytes]]:
        return self._made_pages(Page.keys, lo, GREATEST, 100, is_back)

    def _made_pages(self, made: Callable[[Page, int], Made], lo: Text, hi: Text, page: int, is_back: bool = False) -> Iterator[Made]:
        self._store._use()
        low, high = _range(lo, hi)
        return self._pages(made, low, high, page, is_back)

    def _pages(self, made: Callable[[Page, int], Made], low: bytes, high: bytes, size: int, is_back: bool) -> Iterator[Made]:
        told, call = Number(), self._calls.scan_back if is_back else self._calls.scan
        while True:
            page = Page(size)
            self._stay()
            self._ask(call, told, low, SIZES[len(low)], high, SIZES[len(high)], page.room, ctypes.c_size_t(size))
            count = told[0]
            if count and is_back:
                high, call = page.last_key(count), self._calls.scan_before
            elif count:
                low, call = page.last_key(count), self._calls.scan_behind
            yield made(page, count)
            if count < size:
                return
            size = min(2 * size, MAX_PAGE)

    def _from_below(self, low: bytes, end: bytes) -> list[Record]:
        return list(self._rows(Page.records, low, below(end), MAX_PAGE))

    def _delete_below(self, low: bytes, end: bytes) -> None:
        self.delete_range(low, below(end))


def _range(lo: Text, hi: Text) -> tuple[bytes, bytes]:
    """The ends of a range."""
    low, high = range_of(lo, hi)
    if low > high:
        raise bad_range(low, high)
    return low, high


def _run(run: int) -> int:
    """The most records of a run."""
    if index(run) < 1:
        raise bad_limit(MAX_RUN, run)
    return run


def _limit(limit: int) -> ctypes.c_uint64:
    """The limit of a merge or a clean step."""
    if not 1 <= index(limit) <= MAX_LIMIT:
        raise bad_limit(MAX_LIMIT, limit)
    return ctypes.c_uint64(limit)
