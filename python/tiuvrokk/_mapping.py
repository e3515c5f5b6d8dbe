"""What each transaction has as a mapping, and each store as what gives transactions: made of the calls that a store of this
process and one at the other end of a connection answer in ways of their own."""

from __future__ import annotations

import itertools
import os
import sys
import time
import weakref
from collections import deque
from collections.abc import Callable, Iterator, Mapping
from contextlib import contextmanager
from operator import index
from types import TracebackType
from typing import Any, Deque, Generic, NoReturn, Optional, TypeVar, Union, overload

from ._grammar import MAX_RUN
from ._records import GREATEST, Record, Records, Text, bytes_of, checked, range_of, runs_of
from ._tries import MAX_TRIES, TRIED_AGAIN, Tries
from .errors import Absent, Forked, TooMany, bad_limit

Default = TypeVar("Default")
Result = TypeVar("Result")
Tx = TypeVar("Tx", bound="Mapped")
AnyRunner = TypeVar("AnyRunner", bound="Runner[Any]")

MAX_PAGE = 999
MAX_ROWS = 1000
_REQUIRED: Any = object()
# More records are put together. So few go to their places one by one, and make no run.
_SINGLE = 64
# So many values are kept of keys that were given.
_MOST_KNOWN = 1_000_000


class Unique:
    """What stands once, in the memory of its process."""

    def __reduce_ex__(self, protocol: Any) -> NoReturn:
        raise TypeError(f"a {type(self).__name__} stands in the memory of its process, and can't be copied or pickled")


# What gives transactions in this process: a fork of it has none of them.
_runners: weakref.WeakSet[Runner[Any]] = weakref.WeakSet()


def _leave_to_parent() -> None:
    for runner in list(_runners):
        runner._is_forked = True
        runner._leave_to_parent()


os.register_at_fork(after_in_child=_leave_to_parent)


class Runner(Unique, Generic[Tx]):
    """What gives transactions."""

    _is_forked = False
    """Whether another process opened it."""

    def __new__(cls: type[AnyRunner], *_words: object, **_named: object) -> AnyRunner:
        made = super().__new__(cls)
        _runners.add(made)
        return made

    def _leave_to_parent(self) -> None:
        """Lets go what is the other process's, which goes on with it."""
        raise NotImplementedError

    def _stay(self) -> None:
        """Raises where this process can't use it."""
        if self._is_forked:
            raise Forked

    def transaction(self) -> Tx:
        """Begins a transaction."""
        raise NotImplementedError

    def run(self, function: Callable[[Tx], Result], tries: int = MAX_TRIES) -> Result:
        """Runs the function in a transaction, and answers what it answers, once that is committed. It runs again where another
        transaction was in the way (`Busy`, `Conflict`, `Held`, and `TooMany` transactions), it slept for too long (`Lapsed`), or the
        connection was lost before COMMIT was sent (`Disconnected`), `tries` times at most, with pauses that grow; then that is
        raised. Any other exception aborts the transaction and isn't held. So the function does nothing but ask its transaction."""

        def once() -> Result:
            with self.transaction() as tx:
                return function(tx)

        return self._again(once, Tries(tries))

    def get(self, key: Text, default: Any = None) -> Any:
        """The value under the key, or `default` where there is none, by a transaction of its own, as each of the following."""
        return self.run(lambda tx: tx.get(key, default))

    @overload
    def __getitem__(self, key: Text) -> bytes: ...

    @overload
    def __getitem__(self, key: slice) -> list[Record]: ...

    def __getitem__(self, key: Union[Text, slice]) -> Union[bytes, list[Record]]:
        """The value under the key, which has one, or else `Absent` is raised. `store[lo:hi]` is a list of the records from `lo` on
        and below `hi`; either may be missing."""
        return self.run(lambda tx: tx[key])

    def __setitem__(self, key: Text, value: Text) -> None:
        """Sets the value under the key, whether it has one or not."""
        self.run(lambda tx: tx.__setitem__(key, value))

    def __delitem__(self, key: Union[Text, slice]) -> None:
        """Takes the record away. Raises `Absent` where there is none. `del store[lo:hi]` takes those from `lo` on and below `hi`."""
        self.run(lambda tx: tx.__delitem__(key))

    def __contains__(self, key: Text) -> bool:
        return self.run(lambda tx: key in tx)

    def __iter__(self) -> Iterator[bytes]:
        """All keys, as they are when the first one is asked for."""
        return iter(self.run(lambda tx: list(tx)))

    def __len__(self) -> int:
        return self.run(len)

    def __bool__(self) -> bool:
        # (not by `__len__`, which reads all)
        return True

    def _again(self, call: Callable[[], Result], tries: Tries) -> Result:
        """What a call answers, at one of so many tries."""
        while True:
            tries.begin()
            try:
                return call()
            except TRIED_AGAIN as error:
                pause = tries.pause_after(error)
            time.sleep(pause)


class Walk:
    """The pages of all keys, for an iterator. Who asks for the length of a transaction whose iterator was just made, as `list` does,
    has it by pages that the iterator then gives, unless something is written meanwhile."""

    def __init__(self, tx: Mapped) -> None:
        self._tx = tx
        self._pages: Optional[Iterator[list[bytes]]] = None
        self._ahead: Deque[list[bytes]] = deque()
        self._read: Optional[dict[bytes, bytes]] = None
        self._last = b""

    def __iter__(self) -> Walk:
        return self

    def __next__(self) -> list[bytes]:
        self._tx._fresh = None
        if self._ahead and self._read is not self._tx._read:
            self._ahead.clear()
            self._pages = self._behind(self._last)
        elif self._pages is None:
            self._pages = self._tx._key_pages(b"")
        page = self._ahead.popleft() if self._ahead else next(self._pages)
        self._last = page[-1] if page else self._last
        return page

    def _behind(self, last: bytes) -> Iterator[list[bytes]]:
        """The pages behind a key that was given."""
        for page in self._tx._key_pages(last):
            yield page[1:] if last and page[:1] == [last] else page

    def length(self) -> int:
        """How many keys there are, before any was given."""
        if not self._ahead or self._read is not self._tx._read:
            self._ahead = deque(self._tx._key_pages(b""))
            self._pages = iter(())
            self._read = self._tx._read = {}
        return sum(map(len, self._ahead))


class Mapped(Unique):
    """A transaction. It reads and writes like a mapping of bytes that is sorted by key."""

    _marks = 0
    """How many savepoints stand."""
    _read: Optional[dict[bytes, bytes]] = None
    """What was read and is known yet: each write has it be none."""
    _fresh: Optional[weakref.ref[Walk]] = None
    """The iterator that was made last, and hasn't begun."""

    @property
    def is_active(self) -> bool:
        """Whether it can go on."""
        raise NotImplementedError

    def __enter__(self: Tx) -> Tx:
        return self

    def __exit__(
        self, kind: Optional[type[BaseException]], error: Optional[BaseException], trace: Optional[TracebackType]
    ) -> None:
        raise NotImplementedError

    @overload
    def get(self, key: Text) -> Optional[bytes]: ...

    @overload
    def get(self, key: Text, default: Default) -> Union[bytes, Default]: ...

    def get(self, key: Text, default: Any = None) -> Any:
        """The value under the key, or `default` where there is none."""
        raise NotImplementedError

    @overload
    def __getitem__(self, key: Text) -> bytes: ...

    @overload
    def __getitem__(self, key: slice) -> list[Record]: ...

    def __getitem__(self, key: Union[Text, slice]) -> Union[bytes, list[Record]]:
        """The value under the key, which has one, or else `Absent` is raised. `tx[lo:hi]` is a list of the records from `lo` on
        and below `hi`; either may be missing."""
        if isinstance(key, slice):
            return self._between(key)
        value = self._read.pop(key, None) if self._read and type(key) is bytes else None
        if value is None:
            value = self.get(key)
        if value is None:
            raise Absent(bytes_of(key))
        return value

    def __contains__(self, key: Text) -> bool:
        return self.get(key) is not None

    def __setitem__(self, key: Text, value: Text) -> None:
        """Sets the value under the key, whether it has one or not."""
        raise NotImplementedError

    def __delitem__(self, key: Union[Text, slice]) -> None:
        """Takes the record away. Raises `Absent` where there is none. `del tx[lo:hi]` takes those from `lo` on and below `hi`."""
        raise NotImplementedError

    def delete_range(self, lo: Text = b"", hi: Text = GREATEST, limit: Optional[int] = None) -> int:
        """Takes the records from `lo` to `hi` away, both included, the first `limit` of them, or all. Answers how many went. Each
        thousand is an operation."""
        raise NotImplementedError

    def insert(self, key: Text, value: Text) -> None:
        """Adds a record. Raises `Exists` where the key has one."""
        raise NotImplementedError

    def lock(self, lo: Text, hi: Optional[Text] = None, exclusive: bool = False) -> None:
        """Locks the range from `lo` to `hi`, or one key: to read it, or to write it where the lock is exclusive."""
        raise NotImplementedError

    def abort(self) -> None:
        """Takes back what was written, and ends the transaction."""
        raise NotImplementedError

    def mark(self) -> None:
        """Sets a savepoint."""
        raise NotImplementedError

    def back(self) -> None:
        """Takes back what was written since the newest savepoint, which goes. Locks stay. Raises `NoMark`."""
        raise NotImplementedError

    def setdefault(self, key: Text, default: Text) -> bytes:
        """The value under the key, which is set to `default` first where there is none."""
        text, new = bytes_of(key), bytes_of(default)
        value = self.get(text)
        if value is None:
            self.insert(text, new)
        return new if value is None else value

    @overload
    def pop(self, key: Text) -> bytes: ...

    @overload
    def pop(self, key: Text, default: Default) -> Union[bytes, Default]: ...

    def pop(self, key: Text, default: Any = _REQUIRED) -> Any:
        """Takes the record away and answers its value, or `default` where there is none; without one `Absent` is raised."""
        text = bytes_of(key)
        value = self.get(text)
        if value is not None:
            del self[text]
            return value
        if default is _REQUIRED:
            raise Absent(text)
        return default

    def discard(self, key: Text) -> None:
        """Takes the record away, where there is one."""
        try:
            del self[key]
        except Absent:
            pass

    def update(self, records: Records = (), /, **named: Text) -> None:
        """Sets the value under each key of a mapping, or of pairs, and of the arguments that are named; the last one, where a key
        stands twice. More than 64 are one operation, which locks the range from the least key to the greatest, or one for each
        65,536: what has a record gets its value there, and the others are a sorted run, as of `load`."""
        pairs = [*(records.items() if isinstance(records, Mapping) else records), *named.items()]
        if len(pairs) <= _SINGLE:
            for key, value in pairs:
                self[key] = value
            return
        last = dict(checked(pairs))
        if len(last) > MAX_RUN:
            self.lock(min(last), max(last), exclusive=True)
        for run in runs_of(last, MAX_RUN):
            self._put(run)

    def _put(self, records: list[Record]) -> None:
        """Sets some records, which rise by key, by one operation."""
        raise NotImplementedError

    @contextmanager
    def savepoint(self) -> Iterator[None]:
        """A block whose writes are taken back where an exception leaves it, which goes on to whoever holds it. What the block
        locked stays locked. A transaction that has had all operations that it may is aborted then."""
        depth = self._marks
        self.mark()
        try:
            yield
        except BaseException:
            # (blocks within this one that ended well have left theirs)
            try:
                while self.is_active and self._marks > depth:
                    self.back()
            except TooMany:
                # (what can't be taken back must not be committed)
                self.abort()
            raise

    def scan(
        self, lo: Text = b"", hi: Text = GREATEST, page: int = 100, *, limit: Optional[int] = None, reverse: bool = False
    ) -> Iterator[Record]:
        """The records from `lo` to `hi`, both included, by rising key, or from `hi` down to `lo` where `reverse` is true; the first
        `limit` of them, or all. So many are read at a time: `page` at first, 999 at most, and twice as many each time after. Each
        time locks the range from the next key to its end."""
        raise NotImplementedError

    def items(self, lo: Text = b"", hi: Text = GREATEST) -> Iterator[Record]:
        """The records of `scan`."""
        return self.scan(lo, hi)

    def keys(self, lo: Text = b"", hi: Text = GREATEST) -> Iterator[bytes]:
        """The keys of `scan`. Their values are kept until they are asked for, up to a million, or something is written: so `dict(tx)`
        is one scan."""
        return itertools.chain.from_iterable(self._known_keys(self._record_pages(lo, hi)))

    def _known_keys(self, pages: Iterator[list[Record]]) -> Iterator[list[bytes]]:
        known = self._read = {}
        for page in pages:
            if self._read is known and len(known) < _MOST_KNOWN:
                known.update(page)
            yield [key for key, _ in page]

    def _record_pages(self, lo: Text, hi: Text) -> Iterator[list[Record]]:
        """The pages of a scan."""
        raise NotImplementedError

    def _key_pages(self, lo: bytes, is_back: bool = False) -> Iterator[list[bytes]]:
        """The keys from one on, by pages, or from the greatest down to it."""
        raise NotImplementedError

    def values(self, lo: Text = b"", hi: Text = GREATEST) -> Iterator[bytes]:
        """The values of `scan`."""
        return (value for _, value in self.scan(lo, hi))

    def __iter__(self) -> Iterator[bytes]:
        walk = Walk(self)
        self._fresh = weakref.ref(walk)
        return itertools.chain.from_iterable(walk)

    def __reversed__(self) -> Iterator[bytes]:
        return itertools.chain.from_iterable(self._key_pages(b"", True))

    def count(self, lo: Text = b"", hi: Text = GREATEST) -> int:
        """How many records there are from `lo` to `hi`, both included. All are read to be counted."""
        return sum(1 for _ in self.scan(lo, hi, MAX_PAGE))

    def __len__(self) -> int:
        walk = self._fresh() if self._fresh else None
        return walk.length() if walk else self.count()

    def __bool__(self) -> bool:
        # (not by `__len__`, which reads and locks all)
        return True

    def _between(self, asked: slice) -> list[Record]:
        """The records of a slice."""
        low, end = ends_of_slice(asked)
        if end is None:
            return list(self.scan(low, GREATEST, MAX_PAGE))
        return [] if end <= low else self._from_below(low, end)

    def _delete_between(self, asked: slice) -> None:
        """Takes the records of a slice away."""
        low, end = ends_of_slice(asked)
        if end is None:
            self.delete_range(low)
        elif end > low:
            self._delete_below(low, end)

    def _from_below(self, low: bytes, end: bytes) -> list[Record]:
        """The records from a key on and below another one, which is above it."""
        raise NotImplementedError

    def _delete_below(self, low: bytes, end: bytes) -> None:
        """Takes the records from a key on and below another one away."""
        raise NotImplementedError


def ends_of_slice(asked: slice) -> tuple[bytes, Optional[bytes]]:
    """The first key of a slice, and the one that ends it, if one does."""
    if asked.step is not None:
        raise TypeError("a slice of keys has no step")
    low, end = range_of(b"" if asked.start is None else asked.start, GREATEST if asked.stop is None else asked.stop)
    return low, None if asked.stop is None else end


def most_of(limit: Optional[int]) -> int:
    """How many records a limit lets be read or go."""
    if limit is None:
        return sys.maxsize
    if index(limit) < 0:
        raise ValueError(f"a limit of {limit}")
    return index(limit)


def first_page(page: int, limit: Optional[int]) -> int:
    """How many records are read first: no more than are asked for."""
    if not 1 <= index(page) <= MAX_PAGE:
        raise bad_limit(MAX_PAGE, page)
    return page if limit is None else min(page, max(1, most_of(limit)))


def limited(rows: Iterator[Record], limit: Optional[int]) -> Iterator[Record]:
    """The first of some rows, or all."""
    return rows if limit is None else itertools.islice(rows, most_of(limit))
