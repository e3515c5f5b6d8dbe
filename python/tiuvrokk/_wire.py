"""Lines of the protocol, sent to a server or a replica, and the answers: what each says, or the exception that it is."""

from __future__ import annotations

import re
from collections.abc import Sequence
from typing import NamedTuple, Optional

from ._stream import Place, connected
from ._texts import Texts
from .errors import Absent, Bad, Busy, Conflict, Disconnected, Error, Exists, Held, Lapsed, NoMark, NoTransaction, OutOfMemory
from .errors import Refused, Status, TooMany, Twice, Unknown, Unreachable

_LIMITS = {
    b"ERR TXS": Status.TOO_MANY_TX, b"ERR LOCKS": Status.TOO_MANY_LOCKS, b"ERR OPS": Status.TOO_MANY_OPS,
    b"ERR RUNS": Status.TOO_MANY_RUNS,
}  # fmt: skip
LAPSED = b"ERR IDLE"
_REFUSALS: dict[bytes, type[Refused]] = {
    b"ERR CONFLICT": Conflict, b"ERR UNREACHABLE": Unreachable, b"ERR UNKNOWN": Unknown, LAPSED: Lapsed,
}  # fmt: skip
_NUMBER = re.compile(rb"[0-9]{1,20}")
_ACTIVE = re.compile(rb"([0-9]{1,20}):([0-9]{1,20}):([0-9]{1,20})")
_SERVED = re.compile(_ACTIVE.pattern + rb"(:[hw])?")


class Active(NamedTuple):
    """A session with an active transaction, by `Client.who`."""

    session: int
    """Its number, for `Client.end`."""
    transaction: int
    """The number by which `Busy.holder` names the transaction."""
    seconds: int
    """How many whole seconds ago its last line came."""


class Served(NamedTuple):
    """A session that is served, by `Client.sessions`."""

    session: int
    """Its number, for `Client.end`."""
    transaction: Optional[int]
    """The number of its transaction, where one is active."""
    seconds: int
    """How many whole seconds ago its last line came."""
    holds: bool
    """Whether it has the store to itself, by `Client.hold`."""
    waits: bool
    """Whether it waits, to hold or while another holds."""


def refusal(answer: bytes, line: bytes = b"", transaction: int = 0, texts: Texts = Texts()) -> Error:
    """The exception for an answer that refuses a line."""
    word, _, rest = answer.partition(b" ")
    key = texts.of_line(line.split(b" ", 2)[1].partition(b"=")[0] if b" " in line else b"")
    if word == b"BUSY" and _NUMBER.fullmatch(rest):
        return Busy(int(rest))
    if word == b"EXISTS":
        return Exists(texts.of_line(rest))
    if answer in (b"MISSING", b"NONE"):
        return Absent(key)
    if answer == b"NOMARK":
        return NoMark(transaction)
    if answer == b"ERR NOTX":
        return NoTransaction(transaction)
    if answer in _LIMITS:
        return TooMany(_LIMITS[answer])
    if answer == b"ERR ORDER":
        return Twice(key)
    if answer == b"ERR MEMORY":
        return OutOfMemory()
    if answer == b"ERR LIMIT":
        return Bad(Status.BAD_LIMIT, "a number, or the size of the transaction, is out of bounds: the answer was ERR LIMIT")
    shown = answer.decode("ascii", "backslashreplace")
    if answer.startswith(b"ERR HELD"):
        return Held(shown)
    return _REFUSALS.get(answer, Refused)(shown)


class Wire:
    """A connection, by lines and their answers. Where anything comes between, an interrupt too, it is closed: answers that come
    later would be taken for others'. The other side then aborts what was active."""

    def __init__(self, place: Place, timeout: Optional[float]) -> None:
        self._stream = connected(place, timeout)
        self.is_open = True

    def close(self) -> None:
        self.is_open = False
        self._stream.close()

    def ask(self, lines: Sequence[bytes]) -> list[bytes]:
        """The answers to lines, which are sent together."""
        try:
            self._stream.send(b"".join([line + b"\n" for line in lines]))
            return [self._stream.line() for _ in lines]
        except ConnectionError as error:
            self.close()
            raise Disconnected(str(error)) from error
        except BaseException:
            self.close()
            raise


def rest_of(answer: bytes, word: bytes) -> Optional[bytes]:
    """What stands behind a word of an answer, where the answer begins with that."""
    return answer[len(word) + 1 :] if answer.startswith(word + b" ") else None


def number_of(answer: bytes, word: bytes) -> Optional[int]:
    """The number behind a word of an answer."""
    rest = rest_of(answer, word)
    return int(rest) if rest is not None and _NUMBER.fullmatch(rest) else None


def _told_of(answer: bytes, form: re.Pattern[bytes]) -> Optional[list[re.Match[bytes]]]:
    """What an answer to WHO tells of each session, where it is one and each has the form."""
    word, *rest = answer.split(b" ")
    found = [it for it in map(form.fullmatch, rest[1:]) if it]
    return found if word == b"WHO" and rest[:1] == [b"%d" % len(found)] and len(rest) == len(found) + 1 else None


def actives_of(answer: bytes) -> Optional[list[Active]]:
    """What an answer to WHO tells, where it is one."""
    found = _told_of(answer, _ACTIVE)
    return None if found is None else [Active(*map(int, it.groups())) for it in found]


def served_of(answer: bytes) -> Optional[list[Served]]:
    """What an answer to WHO ALL tells, where it is one."""
    found = _told_of(answer, _SERVED)
    if found is None:
        return None
    return [Served(int(it[1]), int(it[2]) or None, int(it[3]), it[4] == b":h", it[4] == b":w") for it in found]


def rows_of(answer: bytes, most: int) -> Optional[list[tuple[bytes, bytes]]]:
    """The records of an answer to a scan, where it is one."""
    rest = rest_of(answer, b"ROWS")
    if rest is None:
        return None
    number, *rows = rest.split(b" ")
    if number != b"%d" % len(rows) or len(rows) > most:
        return None
    parted = [row.partition(b"=") for row in rows]
    return [(key, value) for key, equals, value in parted if equals] if all(it[1] for it in parted) else None
