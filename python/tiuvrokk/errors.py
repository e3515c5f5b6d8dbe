"""How a call ends: the statuses of `tiuvrokk.h`, and an exception for each that refuses. Each names what it is about."""

from __future__ import annotations

from collections.abc import Callable, Sequence
from enum import IntEnum
from typing import Optional

MAX_KEY = 32
"""The most bytes of a key."""
MAX_VALUE = 64
"""The most bytes of a value."""
MAX_LIMIT = 64
"""The most entries of one merge or clean step."""


class Status(IntEnum):
    """The statuses of `tiuvrokk.h`, under the same numbers."""

    OK = 0
    ABSENT = 1
    EXISTS = 2
    BUSY = 3
    NO_TX = 4
    NO_MARK = 5
    DONE = 6
    IDLE = 7
    ENDED = 8
    TOO_MANY_TX = 9
    TOO_MANY_LOCKS = 10
    TOO_MANY_OPS = 11
    TOO_MANY_RUNS = 12
    NOT_RISING = 13
    BAD_LIMIT = 14
    NO_MEMORY = 15
    NO_STORE = 17
    IS_OPEN = 18
    BAD_KEY = 19
    BAD_VALUE = 20
    BAD_RANGE = 21
    BAD_MODE = 22
    NULL = 23
    TWICE = 24
    BAD_LINE = 25


# How many of what there may be, by the status that says that there are as many, and what to do then.
_LIMITS = {
    Status.TOO_MANY_TX: (64, "transactions that are active at once", "commit or abort one"),
    Status.TOO_MANY_LOCKS: (256, "locks of a transaction", "tx.lock(lo, hi) first locks a range as one, tx.lock(lo, hi, exclusive=True) to write"),
    Status.TOO_MANY_OPS: (4096, "operations of a transaction", "tx.load adds many records, and tx.scan reads many, as one; or commit, and go on in another"),
    Status.TOO_MANY_RUNS: (65535, "runs of a store that have entries", "merge, or load larger ones, and tx[key] = value is none"),
}


def shown(text: bytes) -> str:
    """A text in the words of an exception: what isn't visible ASCII is escaped."""
    return repr(text)[2:-1] if text else "of no bytes"


class Error(Exception):
    """A call that was refused. It changed nothing, but that the runs stay which a load added before the refused one."""

    status: Optional[Status] = None
    """The status of `tiuvrokk.h`, or None where the library wasn't asked."""
    number = 0
    """The number told with it, or 0."""

    @property
    def name(self) -> str:
        """The name of the status, as the header has it."""
        return "" if self.status is None else f"TVK_{self.status.name}"

    def _text(self) -> str:
        return self.name

    def __str__(self) -> str:
        return self._text()


class Absent(Error, KeyError):
    """The key has no record: `key`."""

    status = Status.ABSENT

    def __init__(self, key: bytes) -> None:
        super().__init__(key)
        self.key = key

    def _text(self) -> str:
        return f"the key {shown(self.key)} has no record"


class Exists(Error):
    """The key has a record already: `key`, the least such key of a load, and else the one that was given."""

    status = Status.EXISTS

    def __init__(self, key: bytes) -> None:
        super().__init__(key)
        self.key = key

    def _text(self) -> str:
        return f"the key {shown(self.key)} has a record"


class Busy(Error):
    """Another transaction holds a lock that is in the way: its number is `holder`."""

    status = Status.BUSY

    def __init__(self, holder: int) -> None:
        super().__init__(holder)
        self.holder = self.number = holder

    def _text(self) -> str:
        return f"transaction {self.holder} holds a lock that is in the way"


class NoTransaction(Error):
    """The transaction has ended: its number is `transaction`."""

    status = Status.NO_TX

    def __init__(self, transaction: int) -> None:
        super().__init__(transaction)
        self.transaction = transaction

    def _text(self) -> str:
        return f"transaction {self.transaction} has ended"


class NoMark(Error):
    """The transaction has no savepoint: its number is `transaction`."""

    status = Status.NO_MARK

    def __init__(self, transaction: int) -> None:
        super().__init__(transaction)
        self.transaction = transaction

    def _text(self) -> str:
        return f"transaction {self.transaction} has no savepoint"


class TooMany(Error):
    """A store or a transaction holds as many of something as it may: `limit` of `what`. The text says what to do."""

    def __init__(self, status: Status) -> None:
        super().__init__(status)
        self.status = status
        self.limit, self.what, self._advice = _LIMITS[status]

    def _text(self) -> str:
        return f"there are {self.limit} {self.what}, and may be no more: {self._advice}"


class Twice(Error):
    """A key stands twice among what is to be loaded or put: `key`, the least such one."""

    status = Status.TWICE

    def __init__(self, key: bytes) -> None:
        super().__init__(key)
        self.key = key

    def _text(self) -> str:
        return f"the key {shown(self.key)} stands twice"

class Bad(Error, ValueError):
    """A length, a limit, a range or a mode is out of bounds."""

    def __init__(self, status: Status, text: str) -> None:
        super().__init__(status, text)
        self.status = status
        self.text = text

    def _text(self) -> str:
        return self.text


class BadLine(Error, ValueError):
    """A line of a file is no record, or has the key of a line before it: its number is `line`, from 1 on."""

    def __init__(self, line: int, text: str) -> None:
        super().__init__(line, text)
        self.line = line
        self.text = text

    def _text(self) -> str:
        return f"line {self.line}: {self.text}"


class Closed(Error):
    """The store is closed."""

    status = Status.NO_STORE

    def _text(self) -> str:
        return "the store is closed"


class OutOfMemory(Error, MemoryError):
    """Memory was refused."""

    status = Status.NO_MEMORY

    def _text(self) -> str:
        return "memory was refused"


class Refused(Error):
    """A server or a replica answered otherwise than it has to for what was asked: `answer`."""

    def __init__(self, answer: str) -> None:
        super().__init__(answer)
        self.answer = answer

    def _text(self) -> str:
        return f"the answer was {self.answer}"


class Conflict(Refused):
    """A replica's transaction met another one, which came between. It can't go on."""


class Unreachable(Refused):
    """A replica doesn't reach its cluster. The transaction did nothing."""


class Unknown(Refused):
    """The transaction's end was asked for, and isn't known: it may stand, or come to stand yet."""


class Held(Refused):
    """A server's other session holds it."""


class Lapsed(Refused):
    """A server aborted the transaction, since no line of its session came for too long. It may begin anew."""


class Forked(Closed, RuntimeError):
    """The store was opened, or the client connected, by another process, and a fork of that has none of them."""

    def _text(self) -> str:
        return "another process opened it, and a fork of that has none: open one, or connect, behind the fork"


class Disconnected(Error, ConnectionError):
    """The connection to a server or a replica was lost, before COMMIT was sent: `run` begins anew, by another connection."""

    def __init__(self, why: str) -> None:
        super().__init__(why)
        self.why = why

    def _text(self) -> str:
        return self.why


class WrongThread(Error, RuntimeError):
    """The store belongs to another thread, which opened it: `opener` and `user` are the two, as `threading.get_ident` has
    them. The library wasn't asked."""

    def __init__(self, opener: int, user: int) -> None:
        super().__init__(opener, user)
        self.opener = opener
        self.user = user

    def _text(self) -> str:
        return f"the store was opened by thread {self.opener}, and is used by thread {self.user}"


def bad_text(what: str, text: bytes) -> Bad:
    """What the protocol doesn't carry."""
    if what == "key":
        form = f"a key is 1 to {MAX_KEY} visible characters of ASCII, none of them ="
        return Bad(Status.BAD_KEY, f"{form}, where a server keeps it, and not {text!r}")
    return Bad(Status.BAD_VALUE, f"a value is 1 to {MAX_VALUE} visible characters of ASCII, where a server keeps it, and not {text!r}")


def bad_key(length: int) -> Bad:
    return Bad(Status.BAD_KEY, f"a key has at most {MAX_KEY} bytes, and not {length}")


def bad_value(length: int) -> Bad:
    return Bad(Status.BAD_VALUE, f"a value has at most {MAX_VALUE} bytes, and not {length}")


def bad_range(low: bytes, high: bytes) -> Bad:
    return Bad(Status.BAD_RANGE, f"the range begins at {shown(low)}, which is above its end {shown(high)}")


def bad_limit(most: int, limit: int) -> Bad:
    return Bad(Status.BAD_LIMIT, f"a limit is 1 to {most}, and not {limit}")


def error_of(status: int, transaction: int = 0, told: int = 0, texts: Sequence[bytes] = ()) -> Error:
    """The exception for a status that refuses, with what it is about: the transaction, the number that was told, and the
    keys and the value that the library was passed."""
    named = Status(status)
    if named in _LIMITS:
        return TooMany(named)
    about: dict[Status, Callable[[], Error]] = {
        Status.ABSENT: lambda: Absent(texts[0]),
        Status.EXISTS: lambda: Exists(texts[0]),
        Status.BUSY: lambda: Busy(told),
        Status.NO_TX: lambda: NoTransaction(transaction),
        Status.NO_MARK: lambda: NoMark(transaction),
        Status.NOT_RISING: lambda: Twice(b""),
        Status.TWICE: lambda: Twice(b""),
        Status.NO_MEMORY: OutOfMemory,
        Status.NO_STORE: Closed,
        Status.BAD_KEY: lambda: bad_key(max(map(len, texts))),
        Status.BAD_VALUE: lambda: bad_value(len(texts[-1])),
        Status.BAD_RANGE: lambda: bad_range(texts[0], texts[-1]),
    }
    return about[named]() if named in about else Bad(named, f"the library answered TVK_{named.name}")
