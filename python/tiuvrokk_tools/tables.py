"""Records from a table of comma separated values."""

import csv
import io
import re
from typing import IO, Iterator, List, NamedTuple

from tiuvrokk._escapes import escaped_key, escaped_value

from .program import Stop

# What would part a line elsewhere.
_PARTS = re.compile(rb"[\t\r\n]")


class Columns(NamedTuple):
    """Which columns have keys and values: by the names of the first line, or by numbers from 1. Without a word it is `key` and
    `value`, where there are such names, and else the first two."""

    key: str = ""
    value: str = ""

    def places(self, head: List[str]) -> "tuple[int, int]":
        """Where they stand, behind a first line."""
        names = [name.strip() for name in head]
        words = [self.key or "key", self.value or "value"]
        if not (self.key or self.value or set(words) <= set(names)):
            words = ["1", "2"]
        return place_of(words[0], names), place_of(words[1], names)


def place_of(word: str, names: List[str]) -> int:
    """The place of a column, from 0."""
    if word in names:
        return names.index(word)
    if re.fullmatch("[1-9][0-9]{0,3}", word) and int(word) <= len(names):
        return int(word) - 1
    raise Stop(2, f"there is no column {word}: the first line has {', '.join(names) or 'none'}")


def lines_of_table(source: IO[bytes], columns: Columns, escapes: bool) -> Iterator[bytes]:
    """The records below the first line of a table, as lines with a TAB behind each key. Those that are to be escaped are."""
    text = io.TextIOWrapper(source, "utf-8", "surrogateescape", newline="")
    try:
        rows = csv.reader(text, strict=True)
        head = next(rows, None)
        key, value = (0, 0) if head is None else columns.places(head)
        for row in filter(None, rows):
            both = [(row[at] if at < len(row) else "").encode("utf-8", "surrogateescape") for at in (key, value)]
            if escapes:
                yield escaped_key(both[0]) + b"\t" + escaped_value(both[1]) + b"\n"
            else:
                # (a control character, which no record has, in place of one that would part lines)
                yield b"\t".join(_PARTS.sub(b"\0", it) for it in both) + b"\n"
    except csv.Error as error:
        raise Stop(3, f"line {rows.line_num} is none of comma separated values: {error}") from None
    finally:
        text.detach()
