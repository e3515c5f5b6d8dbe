"""Transactions of a server (`amserve listen`) or of a replica (`amreplica`), by a connection to it, as an embedded store has
them."""

from __future__ import annotations

import io
import itertools
import os
import sys
import warnings
import weakref
from collections.abc import Callable, Iterable, Iterator, Sequence
from operator import index
from threading import get_ident
from types import TracebackType
from typing import Any, Optional, TypeVar, Union, overload

from ._grammar import GREATEST_KEY, LEAST_KEY, MAX_LOCKS, MAX_RUN, VALUE
from ._mapping import MAX_PAGE, MAX_ROWS, Mapped, Runner, first_page, limited, most_of
from ._records import GREATEST, Record, Records, Text, bytes_of, double_line, first_double, line_runs, range_of, runs_of
from ._stream import Path, Place, Port, places_of
from ._texts import EscapedTexts, Texts, below_key
from ._tries import MAX_TRIES, Tries, hold
from ._wire import LAPSED, Active, Served, Wire, actives_of, number_of, refusal, rows_of, served_of
from .errors import MAX_LIMIT, Absent, Closed, Conflict, Error, Exists, NoTransaction, OutOfMemory, Refused, Twice
from .errors import Unknown, Unreachable, WrongThread, bad_limit, bad_range

Default = TypeVar("Default")
AnyClient = TypeVar("AnyClient", bound="Client")

# A load of more runs locks all keys first.
_LOCKED_RUNS = MAX_LOCKS - 1
# With more lines COMMIT isn't sent to a replica before they were answered: one may be refused.
_SURE = 500
_HOLD = 2000
_OK = (b"OK",)


def connect(
    port: Union[None, Port, list[Port]] = None,
    path: Union[None, Path, list[Path]] = None,
    *,
    host: str = "127.0.0.1",
    timeout: Optional[float] = 120.0,
    check_same_thread: bool = True,
    escape: bool = False,
) -> Client:
    """A client of the server or the replica at a port, or at a socket of the file system. Replicas of one log are named side by
    side, as `port=[7001, 7002]`, `port=[("db1", 7001), ("db2", 7001)]` or `path=[..]`: where one can't be reached, has no seat, or
    goes away, the next transaction begins at the one behind it. An answer is awaited for `timeout` seconds, without end where that is
    None. `check_same_thread=False` is for who sees to it that threads take turns. With `escape`
    keys and values are any bytes, also none: lines carry them by percent signs, as `amload --escape` does, each such byte as three
    of the 32 and 64 that there are."""
    if (port is None) == (path is None):
        raise TypeError("a client is connected to a port, or to a path")
    places = places_of(port, path, host)
    if not places:
        raise ValueError("a client is connected to one place at least")
    return Client(places, timeout, check_same_thread, escape)


class Client(Runner["RemoteTransaction"]):
    """A session, for one transaction at a time. Where its connection is lost, or a session has had all steps that it may, the next
    transaction begins at another one."""

    def __init__(
        self, places: list[Place], timeout: Optional[float] = 120.0, check_same_thread: bool = True, escape: bool = False
    ) -> None:
        self._places, self._timeout = places, timeout
        self._texts = EscapedTexts() if escape else Texts()
        self._thread = get_ident() if check_same_thread else 0
        self._is_closed = False
        # The transaction that was begun and hasn't ended. One that was dropped is aborted before the next line.
        self._begun: Optional[weakref.ref[RemoteTransaction]] = None
        self._wire = self._connected()

    def _connected(self) -> Wire:
        """A connection to the first place that has one, and those behind it come next: what was tried before goes to the end."""
        for _ in self._places[1:]:
            try:
                return self._connected_to(self._places[0])
            except (OSError, Refused):
                self._pass_over()
        return self._connected_to(self._places[0])

    def _pass_over(self) -> None:
        self._places = [*self._places[1:], self._places[0]]

    def _anew(self) -> Wire:
        """A connection in place of one that was lost."""
        self._pass_over()
        return self._connected()

    def _connected_to(self, place: Place) -> Wire:
        wire = Wire(place, self._timeout)
        # (an older server answers that such a line is none, too)
        answer = wire.ask([b"REPLICA"])[0]
        if answer not in (b"REPLICA", b"ERR SYNTAX"):
            wire.close()
            raise refusal(answer)
        self.is_replica = answer == b"REPLICA"
        """Whether the other side is a replica."""
        self._begun = None
        return wire

    def _leave_to_parent(self) -> None:
        # (the connection is the other process's too, and ends with that)
        self._wire.close()

    def close(self) -> None:
        """Ends the session; a transaction that is active is aborted. A client may be closed twice."""
        self._is_closed = True
        self._wire.close()

    def __del__(self) -> None:
        if hasattr(self, "_wire"):
            self._wire.close()

    def __enter__(self: AnyClient) -> AnyClient:
        return self

    def __exit__(
        self, kind: Optional[type[BaseException]], error: Optional[BaseException], trace: Optional[TracebackType]
    ) -> None:
        self.close()

    def __repr__(self) -> str:
        kind = "replica" if self.is_replica else "server"
        return f"<tiuvrokk.Client, {'closed' if self._is_closed else 'open'}, {kind} at {self._places[0]}>"

    def transaction(self) -> RemoteTransaction:
        """Begins a transaction. As the head of a `with` block it commits at the end of the block, and aborts where an
        exception leaves the block. One that is dropped before its end is aborted before the next line of the client. A client has
        one at a time: a second one raises RuntimeError, and the first one goes on."""
        self._stay()
        begun = self._begun() if self._begun is not None else None
        if begun is not None and begun.is_active and not begun._is_leaving:
            raise RuntimeError("the client has a transaction, and one at a time: end that first, or connect another client")
        if not self._wire.is_open:
            self._wire = self._anew()
        try:
            return RemoteTransaction(self)
        except Refused as refused:
            if refused.answer != "ERR FULL":
                raise
        self._wire.close()
        self._wire = self._connected()
        return RemoteTransaction(self)

    def hold(self, milliseconds: int) -> None:
        """Has the server take no other session's line for so long, or up to the end of this session's next transaction, but for
        transactions that are active: these are awaited. Raises `Held` where another session holds it, or they don't end in
        time. A server that knows no such line raises `Refused`."""
        self._asked(b"HOLD %d" % index(milliseconds), lambda answer: True if answer == b"OK" else None)

    def who(self) -> list[Active]:
        """The sessions of the server, or of the replica, that have a transaction active: whose number `Busy.holder` is, and how long
        no line came of it."""
        found: list[Active] = self._asked(b"WHO", actives_of)
        return found

    def sessions(self) -> list[Served]:
        """All sessions that the server, or the replica, serves, this client's too: which transaction each has, how long no line
        came of it, and whether it holds or waits. A server that knows no such line raises `Refused`."""
        found: list[Served] = self._asked(b"WHO ALL", served_of)
        return found

    def end(self, session: int) -> bool:
        """Has that session of the server, or of the replica, end as if its client were gone: its transaction is aborted. Answers
        whether there was one. Where it is this client's own, the next transaction begins at another one."""

        def look(answer: bytes) -> Optional[bool]:
            return True if answer == b"OK" else False if answer == b"ERR SESSION" else None

        found: bool = self._asked(b"END %d" % index(session), look)
        return found

    def load(self, records: Records, run: int = MAX_RUN, hold: int = _HOLD) -> int:
        """Adds the records of a mapping, or pairs, all or none, in a transaction of its own, as its `load` does, and answers how
        many they are. It holds a server for so many milliseconds first, where that knows it; 0 is for none."""
        return self._loaded(runs_of(records, _run(run)), hold)

    def load_file(self, path: Union[str, os.PathLike[str]], run: int = MAX_RUN, hold: int = _HOLD) -> int:
        """Loads the records of a file, all or none, in a transaction of its own, and answers how many they are. Each line is a
        record, as `amload` reads it. Raises `BadLine`, and `Exists` where a key has a record."""
        with open(path, "rb") as file:
            text = file.read()
        try:
            return self._loaded(line_runs(io.BytesIO(text), _run(run)), hold)
        except (Exists, Twice) as error:
            raise double_line(io.BytesIO(text), error.key) or error from None

    def _loaded(self, runs: Iterable[list[Record]], milliseconds: int) -> int:
        """Loads runs in a transaction of its own. A server is held until one lock covers all of them: so no lock is in the way,
        however long the load takes. Short holds come first, since others wait as long."""
        if not milliseconds or self.is_replica:
            with self.transaction() as tx:
                return tx._load_runs(runs)
        made, tries = list(runs), Tries(MAX_TRIES)

        def once() -> int:
            if refused := hold(self._answer, min(milliseconds, tries.part_of(milliseconds))):
                raise refusal(refused)
            with self.transaction() as tx:
                if made:
                    tx.lock(*self._texts.covering(made), exclusive=True)
                return tx._load_runs(made)

        return self._again(once, tries)

    def _answer(self, line: bytes) -> bytes:
        """The answer to a line that isn't a transaction's."""
        self._stay()
        if not self._wire.is_open:
            self._wire = self._anew()
        return self._ask(self._wire, [line])[0]

    def merge(self, limit: int = MAX_LIMIT) -> Optional[int]:
        """One merge step: works off at most `limit` entries of the oldest range that was read. Answers how many they were, 0 where
        that range is forgotten, and None where no range is waiting."""

        def look(answer: bytes) -> Any:
            word, *rest = answer.split(b" ")
            moved = number_of(b" ".join([word, *rest[:1]]), b"MOVED")
            return (moved,) if moved is not None else (0,) if word in (b"DONE", b"ENDED") else (None,) if answer == b"IDLE" else None

        found: Optional[int] = self._asked(b"MERGE %d" % _limit(limit), look)[0]
        return found

    def clean(self, lo: Text = b"", hi: Text = GREATEST, limit: int = MAX_LIMIT) -> int:
        """One clean step: takes away at most `limit` entries that are marked as deleted, and answers how many."""
        line = b"CLEAN %b %b %d" % (*self._texts.ends(lo, hi), _limit(limit))
        found: int = self._asked(line, lambda answer: number_of(answer, b"CLEANED"))
        return found

    @property
    def commits(self) -> int:
        """How many transactions committed, as far as this session was told."""

        def look(answer: bytes) -> Any:
            words = answer.split(b" ")
            return number_of(b"SEEN " + words[-1], b"SEEN") if len(words) == 3 and words[0] == b"SEEN" else None

        found: int = self._asked(b"SEEN", look)
        return found

    def _asked(self, line: bytes, look: Callable[[bytes], Any]) -> Any:
        """What an answer says that isn't a transaction's."""
        answer = self._answer(line)
        found = look(answer)
        if found is None:
            raise refusal(answer, line)
        return found

    def _stay(self) -> None:
        """Raises where another process connected the client, another thread than its own is at work, or it is closed."""
        super()._stay()
        if self._thread and self._thread != get_ident():
            raise WrongThread(self._thread, get_ident())
        if self._is_closed:
            raise Closed

    def _end_begun(self) -> None:
        """Aborts the transaction that was begun, if there is one: an interrupt may have kept it from its end."""
        if self._begun is not None:
            self._wire.ask([b"ABORT"])
            self._forget_begun()

    def _forget_begun(self) -> None:
        if self._begun is not None and (begun := self._begun()) is not None:
            begun._is_taken_back = True
        self._begun = None

    def _ask(self, wire: Wire, lines: list[bytes]) -> list[bytes]:
        """The answers to lines, before which a transaction that was dropped is aborted."""
        if self._begun is not None and self._begun() is None:
            self._end_begun()
        answers = wire.ask(lines)
        if answers[:1] == [LAPSED] and self._begun is not None:
            self._forget_begun()
        return answers


class RemoteTransaction(Mapped):
    """A transaction of a server or a replica, by `Client.transaction`. It has what a transaction of an embedded store has, and raises
    the same exceptions; `Conflict`, `Unreachable`, `Unknown` and `Lapsed` beside them. Keys have 1 to 32 bytes and values 1 to 64, all of
    visible ASCII, and keys no `=`.

    What is set at a replica isn't sent before an answer is wanted, or the end: a transaction that only sets, 249 keys at
    most, is one send, and never meets a conflict where the replica reads that at once."""

    _is_over = True  # (until it is begun)
    _has_committed = False
    _is_leaving = False  # (its end was begun, and an interrupt may have kept it from that)
    _is_taken_back = False  # (by the next one)

    def __init__(self, client: Client) -> None:
        self._client = client
        self._wire, self._texts = client._wire, client._texts
        self._number = 0
        self.commit_number = 0
        """The number of its commit, or 0 before that."""
        self._waiting: list[bytes] = []  # lines that aren't sent yet
        self._sent = 0
        client._end_begun()
        client._begun = weakref.ref(self)
        if client.is_replica:
            # (one lock covers all that it does, so it has its 4,096 operations, and not 256 locks)
            self._waiting = [b"BEGIN", b"LOCK X %b %b" % (LEAST_KEY, GREATEST_KEY)]
        else:
            self._take([b"BEGIN"])
        self._is_over = False

    @property
    def number(self) -> int:
        """The number by which `Busy.holder` names the transaction."""
        if not self._number and self.is_active:
            self._send([])
        return self._number

    @property
    def is_active(self) -> bool:
        """Whether it can go on."""
        return not (self._is_over or self._is_taken_back) and self._wire.is_open

    def __exit__(
        self, kind: Optional[type[BaseException]], error: Optional[BaseException], trace: Optional[TracebackType]
    ) -> None:
        if self._is_over:
            return
        self._is_leaving = True
        if kind is None:
            try:
                self.commit()
            except BaseException:
                self._leave()
                raise
        else:
            self._leave()

    def _leave(self) -> None:
        """Aborts, where that can be asked for. A connection that has ended has no transaction."""
        if self.is_active:
            try:
                self.abort()
            except (Error, OSError):
                pass

    def __del__(self, warn: Callable[..., None] = warnings.warn) -> None:
        # (its client sees that it is gone, also where whoever hears the warning keeps it)
        if self.is_active:
            self._is_leaving = True
            warn(f"{self!r} was dropped, and is aborted", ResourceWarning, source=self)

    def __repr__(self) -> str:
        state = "active" if self.is_active else "lost"
        if self._is_over:
            state = f"committed as {self.commit_number}" if self._has_committed else "aborted"
        return f"<tiuvrokk.RemoteTransaction {self._number}, {state}>"

    def commit(self) -> int:
        """Commits, and answers the number of the commit: they rise by one from 1. Raises `Unknown` where the connection ends in
        front of the answer."""
        if self._sent + len(self._waiting) > _SURE and self._waiting:
            self._send([])
        try:
            answer = self._send([b"COMMIT"])[-1]
        except OSError as error:
            self._end()
            raise Unknown(f"none to COMMIT: {error}") from error
        except (Conflict, Unreachable, Unknown):
            self._end()
            raise
        self.commit_number, self._has_committed = number_of(answer, b"COMMITTED") or 0, True
        self._end()
        return self.commit_number

    def abort(self) -> None:
        """Takes back what was written, and ends the transaction."""
        if self._is_over or not self._waiting or self._sent:
            self._waiting = []
            self._send([b"ABORT"])
        self._end()

    def _end(self) -> None:
        self._is_over, self._read = True, None
        if self._client._wire is self._wire:
            self._client._begun = None

    def mark(self) -> None:
        """Sets a savepoint."""
        self._send([b"MARK"])
        self._marks += 1

    def back(self) -> None:
        """Takes back what was written since the newest savepoint, which goes. Locks stay. Raises `NoMark`."""
        self._send([b"BACK"])
        self._marks -= 1

    @overload
    def get(self, key: Text) -> Optional[bytes]: ...

    @overload
    def get(self, key: Text, default: Default) -> Union[bytes, Default]: ...

    def get(self, key: Text, default: Any = None) -> Any:
        """The value under the key, or `default` where there is none."""
        line = b"GET " + self._texts.key(key)
        answer = self._send([line])[-1]
        if answer == b"NONE":
            return default
        value = answer[4:]
        if not VALUE.fullmatch(value):
            raise Refused(answer.decode("ascii", "backslashreplace"))
        return self._texts.of_line(value)

    def __setitem__(self, key: Text, value: Text) -> None:
        """Sets the value under the key, whether it has one or not."""
        record = self._texts.key(key) + b" " + self._texts.value(value)
        self._do(b"SET " + record)

    def __delitem__(self, key: Union[Text, slice]) -> None:
        """Takes the record away. Raises `Absent` where there is none. `del tx[lo:hi]` takes those from `lo` on and below `hi`."""
        if isinstance(key, slice):
            self._delete_between(key)
            return
        if self._send([b"DEL " + self._texts.key(key)])[-1] != b"OK":
            raise Absent(bytes_of(key))

    def discard(self, key: Text) -> None:
        """Takes the record away, where there is one."""
        self._do(b"DEL " + self._texts.key(key))

    def _do(self, line: bytes) -> None:
        """A line that writes, whatever it is answered: to a replica it goes with what follows."""
        if self._client.is_replica:
            self._look()
            self._read = None
            self._waiting.append(line)
        else:
            self._send([line])

    def delete_range(self, lo: Text = b"", hi: Text = GREATEST, limit: Optional[int] = None) -> int:
        """Takes the records from `lo` to `hi` away, both included, the first `limit` of them, or all. Answers how many went. Each
        thousand is an operation."""
        self._look()
        ends = self._ends(lo, hi)
        return sum(self._deletions(*ends, most_of(limit))) if ends else 0

    def _deletions(self, low: bytes, high: bytes, most: int) -> Iterator[int]:
        """How many went, by one line after another."""
        while most:
            size = min(most, MAX_ROWS)
            answer = self._send([b"DELR %b %b %d" % (low, high, size)])[-1]
            count = number_of(answer, b"DELETED")
            if count is None or count > size:
                raise Refused(answer.decode("ascii", "backslashreplace"))
            yield count
            most = most - size if count == size else 0

    def _ends(self, lo: Text, hi: Text) -> Optional[tuple[bytes, bytes]]:
        """The ends of a range as lines have them, unless no key of a line lies there."""
        low, high = range_of(lo, hi)
        if low > high:
            raise bad_range(low, high)
        return self._texts.ends(low, high) if high else None

    def insert(self, key: Text, value: Text) -> None:
        """Adds a record. Raises `Exists` where the key has one."""
        if self._send([b"INS %b %b" % (self._texts.key(key), self._texts.value(value))])[-1] != b"OK":
            raise Exists(bytes_of(key))

    def replace(self, key: Text, value: Text) -> None:
        """Gives a record another value. Raises `Absent` where there is none."""
        if self._send([b"REP %b %b" % (self._texts.key(key), self._texts.value(value))])[-1] != b"OK":
            raise Absent(bytes_of(key))

    def lock(self, lo: Text, hi: Optional[Text] = None, exclusive: bool = False) -> None:
        """Locks the range from `lo` to `hi`, or one key: to read it, or to write it where the lock is exclusive."""
        low, high = self._texts.ends(lo, lo if hi is None else hi)
        if self._client.is_replica:
            self._look()  # (it has all keys locked from the beginning)
            return
        self._send([b"LOCK %b %b %b" % (b"X" if exclusive else b"S", low, high)])

    def load(self, records: Records, run: int = MAX_RUN) -> int:
        """Adds the records of a mapping, or pairs, in any order, cut into runs of at most `run` records, each sorted and added
        as a whole. Answers how many records were added.

        Raises `Exists`, with the least key of the run that has a record, and `Twice` where a run has a key twice. The
        run that was refused isn't added, and those before it stay: set a savepoint first, or abort, to be rid of them. Each
        run is locked, and all keys are where there are more than 255."""
        self._look()
        return self._load_runs(runs_of(records, _run(run)))

    def _load_runs(self, runs: Iterable[list[Record]]) -> int:
        count = 0
        for number, records in enumerate(runs):
            if number == _LOCKED_RUNS:
                self.lock(b"", GREATEST, exclusive=True)
            self._load(records)
            count += len(records)
        return count

    def _load(self, records: list[Record]) -> None:
        """One run: its last records load it, once those before were staged."""
        last = self._staged(records, b"LOAD")
        try:
            answer = self._send([last])[-1]
        except Twice:
            raise Twice(first_double(records)) from None
        if answer != b"OK":
            raise refusal(answer, last, self._number, self._texts)

    def _put(self, records: list[Record]) -> None:
        self._look()
        self._send([self._staged(records, b"PUT")])

    def _staged(self, records: list[Record], verb: bytes) -> bytes:
        """The line that brings the last records of a run, once those before were staged."""
        *staged, last = self._texts.lines(records, verb)
        try:
            self._send(staged)
        except OutOfMemory:
            self.abort()  # (some of it waits, and nothing but that lets it go)
            raise
        return last

    def scan(
        self, lo: Text = b"", hi: Text = GREATEST, page: int = 100, *, limit: Optional[int] = None, reverse: bool = False
    ) -> Iterator[Record]:
        """The records from `lo` to `hi`, both included, by rising key, or from `hi` down to `lo` where `reverse` is true; the first
        `limit` of them, or all. So many are read at a time: `page` at first, 999 at most, and twice as many each time after. Each
        time locks the range from the next key to its end."""
        pages = self._pages(lo, hi, first_page(page, limit), reverse)
        return limited(itertools.chain.from_iterable(pages), limit)

    def _record_pages(self, lo: Text, hi: Text) -> Iterator[list[Record]]:
        return self._pages(lo, hi, 100)

    def _key_pages(self, lo: bytes, is_back: bool = False) -> Iterator[list[bytes]]:
        return ([key for key, _ in page] for page in self._pages(lo, GREATEST, 100, is_back))

    def _pages(self, lo: Text, hi: Text, page: int, is_back: bool = False) -> Iterator[list[Record]]:
        self._look()
        ends = self._ends(lo, hi)
        return self._rows(*ends, page, is_back) if ends else iter(())

    def _rows(self, low: bytes, high: bytes, size: int, is_back: bool = False) -> Iterator[list[Record]]:
        repeated = 0
        while True:
            line = b"%b %b %b %d" % (b"RSCAN" if is_back else b"SCAN", low, high, size + repeated)
            answer = self._send([line])[-1]
            rows = rows_of(answer, size + repeated)
            if rows is None:
                raise Refused(answer.decode("ascii", "backslashreplace"))
            yield self._texts.rows_of_lines(rows[repeated:])
            if len(rows) < size + repeated:
                return
            low, high = (low, rows[-1][0]) if is_back else (rows[-1][0], high)
            repeated, size = 1, min(2 * size, MAX_PAGE)

    def _from_below(self, low: bytes, end: bytes) -> list[Record]:
        high = below_key(self._texts.key(end))
        first, last = self._texts.ends(low, GREATEST)
        pages = self._rows(first, min(high, last), MAX_PAGE) if high >= first else iter(())
        return list(itertools.chain.from_iterable(pages))

    def _delete_below(self, low: bytes, end: bytes) -> None:
        high = below_key(self._texts.key(end))
        first, last = self._texts.ends(low, GREATEST)
        if high >= first:
            sum(self._deletions(first, min(high, last), sys.maxsize))

    def _look(self) -> None:
        """Raises where the transaction can't go on."""
        self._client._stay()
        if not self.is_active:
            raise NoTransaction(self._number)

    def _send(self, lines: Sequence[bytes]) -> list[bytes]:
        """The answers to all that waits and to these lines; the first that isn't wanted is raised, that of COMMIT before all."""
        self._look()
        return self._take(lines)

    def _take(self, lines: Sequence[bytes]) -> list[bytes]:
        sent, self._waiting = [*self._waiting, *lines], []
        if not sent:
            return []
        if lines and lines[0][:3] in _WRITES:
            self._read = None
        self._sent += len(sent)
        answers = self._client._ask(self._wire, sent)
        if answers[0] == LAPSED:
            raise refusal(LAPSED, sent[0], self._number)
        if sent[0] == b"BEGIN":
            self._number = number_of(answers[0], b"BEGUN") or 0
        for line, answer in zip([sent[-1], *sent], [answers[-1], *answers]):
            if not _is_wanted(line, answer):
                raise refusal(answer, line, self._number, self._texts)
        return answers


# How lines begin that change what is read.
_WRITES = (b"INS", b"REP", b"SET", b"DEL", b"LOA", b"PUT", b"BAC")
# What each verb may be answered, but for refusals.
_WANTED = {
    b"BEGIN": (b"BEGUN",), b"COMMIT": (b"COMMITTED",), b"ABORT": (b"ABORTED",), b"GET": (b"VAL", b"NONE"), b"SCAN": (b"ROWS",),
    b"RSCAN": (b"ROWS",), b"INS": (b"OK", b"EXISTS"), b"REP": (b"OK", b"MISSING"), b"SET": _OK, b"DEL": (b"OK", b"MISSING"),
    b"DELR": (b"DELETED",), b"LOAD": (b"OK", b"EXISTS"), b"PUT": _OK, b"STAGE": _OK, b"LOCK": _OK, b"MARK": _OK, b"BACK": _OK,
}  # fmt: skip


def _is_wanted(line: bytes, answer: bytes) -> bool:
    word = answer.partition(b" ")[0]
    if word not in _WANTED[line.partition(b" ")[0]]:
        return False
    if word in (b"BEGUN", b"COMMITTED"):
        # (a replica that committed nothing yet answers COMMITTED 0 to who only read)
        return number_of(answer, word) is not None
    return answer == word if word in (b"OK", b"NONE", b"MISSING", b"ABORTED") else True


def _run(run: int) -> int:
    """The most records of a run."""
    if not 1 <= index(run) <= MAX_RUN:
        raise bad_limit(MAX_RUN, run)
    return run


def _limit(limit: int) -> int:
    """The limit of a merge or a clean step."""
    if not 1 <= index(limit) <= MAX_LIMIT:
        raise bad_limit(MAX_LIMIT, limit)
    return index(limit)
