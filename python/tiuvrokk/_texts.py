"""How keys and values stand in the lines of a client: as they are, or with their bytes escaped."""

from __future__ import annotations

import re
from collections.abc import Sequence

from ._escapes import escaped_key, escaped_value, unescaped
from ._grammar import GREATEST_KEY, KEY, LEAST_KEY, PAIRS, VALUE, staged
from ._records import FIRST, GREATEST, Record, bytes_of
from .errors import MAX_KEY, MAX_VALUE, Bad, Error, Status, bad_range, bad_text, shown


class Texts:
    """Keys and values stand in lines as they are."""

    def key(self, text: object) -> bytes:
        """A key as lines have it."""
        found = bytes_of(text)  # type: ignore[arg-type]
        if not KEY.fullmatch(found):
            raise bad_text("key", found)
        return found

    def value(self, text: object) -> bytes:
        """A value as lines have it."""
        found = bytes_of(text)  # type: ignore[arg-type]
        if not VALUE.fullmatch(found):
            raise bad_text("value", found)
        return found

    def of_line(self, text: bytes) -> bytes:
        """What a text of a line stands for."""
        return text

    def rows_of_lines(self, rows: list[Record]) -> list[Record]:
        """What the rows of an answer stand for."""
        return rows

    def records(self, records: list[Record]) -> list[Record]:
        """Records, which rise by key, as lines have them, rising by the keys that they have there."""
        return records

    def ends(self, lo: object, hi: object) -> tuple[bytes, bytes]:
        """The ends of a range as lines have them: the least and the greatest text stand for the least and the greatest key."""
        low = self.key(lo) if bytes_of(lo) else LEAST_KEY  # type: ignore[arg-type]
        high = GREATEST_KEY if bytes_of(hi) == GREATEST else self.key(hi)  # type: ignore[arg-type]
        if low > high:
            raise bad_range(low, high)
        return low, high

    def covering(self, runs: Sequence[list[Record]]) -> tuple[bytes, bytes]:
        """The ends of a range that has the keys of runs, which rise by key."""
        return min(run[0][0] for run in runs), max(run[-1][0] for run in runs)

    def lines(self, records: list[Record], verb: bytes) -> list[bytes]:
        """The lines that stage all records of a run but the last, and the one by which these bring it."""
        written = self.records(records)
        pairs = [b"%b=%b" % record for record in written]
        if not PAIRS.fullmatch(b" ".join([*pairs, b""])) or any(map(is_odd, written)):
            raise next(fault_of(record) for record in written if is_odd(record))
        return staged(pairs, verb)


class EscapedTexts(Texts):
    """Keys and values are any bytes, and lines carry by percent signs what they have no form for, as `amload --escape` does. Keys are
    ordered as they stand in lines."""

    def key(self, text: object) -> bytes:
        return fitting(KEY, "key", bytes_of(text), escaped_key(bytes_of(text)))  # type: ignore[arg-type]

    def value(self, text: object) -> bytes:
        return fitting(VALUE, "value", bytes_of(text), escaped_value(bytes_of(text)))  # type: ignore[arg-type]

    def of_line(self, text: bytes) -> bytes:
        return unescaped(text)

    def rows_of_lines(self, rows: list[Record]) -> list[Record]:
        return [(unescaped(key), unescaped(value)) for key, value in rows]

    def covering(self, runs: Sequence[list[Record]]) -> tuple[bytes, bytes]:
        return b"", GREATEST

    def records(self, records: list[Record]) -> list[Record]:
        return sorted(((self.key(key), self.value(value)) for key, value in records), key=FIRST)


def fitting(form: re.Pattern[bytes], what: str, text: bytes, carried: bytes) -> bytes:
    """A text as lines carry it, where they have room for that."""
    if not form.fullmatch(carried):
        most, status = (MAX_KEY, Status.BAD_KEY) if what == "key" else (MAX_VALUE, Status.BAD_VALUE)
        raise Bad(status, f"the {what} {shown(text)} has {len(carried)} bytes with its escapes, and {most} are the most")
    return carried


def is_odd(record: Sequence[bytes]) -> bool:
    """Whether a line can't have the record."""
    return not (KEY.fullmatch(record[0]) and VALUE.fullmatch(record[1]))


def fault_of(record: Record) -> Error:
    return bad_text("value", record[1]) if KEY.fullmatch(record[0]) else bad_text("key", record[0])


def below_key(key: bytes) -> bytes:
    """The greatest key below another one; none, where that is the least."""
    last = key[-1] - 1
    if last < LEAST_KEY[0]:
        return key[:-1]
    return (key[:-1] + bytes([last - (last == b"="[0])])).ljust(MAX_KEY, b"~")
