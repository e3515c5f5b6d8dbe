"""Texts and records, as Python has them and as C has them. Many records go to and fro at once, by `struct`."""

from __future__ import annotations

import ctypes
import io
import itertools
import re
import struct
import sys
from collections.abc import Iterable, Iterator, Mapping, Sequence
from operator import itemgetter
from typing import Any, Optional, Union

from ._grammar import KEY_TEXT, VALUE_TEXT, with_tab
from .errors import MAX_KEY, MAX_VALUE, BadLine, bad_key, bad_value, shown

Text = Union[bytes, bytearray, memoryview, str]
Record = tuple[bytes, bytes]
Records = Union[Mapping[Any, Text], Iterable[tuple[Text, Text]]]
Place = tuple[int, int]
"""At which byte of a struct something begins, and how many bytes it has."""

GREATEST = b"\xff" * MAX_KEY

# `tvk_record` is a length, room for a key, a length, and room for a value. All but the lowest byte of a length are 0, so the
# byte in front of the room is free: with the length there, key and value are strings of Pascal, which `struct` knows.
_LENGTH = ctypes.sizeof(ctypes.c_size_t)
_VALUE_AT = _LENGTH + MAX_KEY
RECORD = _VALUE_AT + _LENGTH + MAX_VALUE
_LOWEST = 0 if sys.byteorder == "little" else _LENGTH - 1
_KEY_FORM = f"{_LENGTH - 1}x{MAX_KEY + 1}p"
_VALUE_FORM = f"{_LENGTH - 1}x{MAX_VALUE + 1}p"
_BOTH = struct.Struct(_KEY_FORM + _VALUE_FORM)
_PACK = struct.Struct(f"N{MAX_KEY}sN{MAX_VALUE}s").pack
_KEYS = struct.Struct(f"{_KEY_FORM}{_LENGTH + MAX_VALUE}x")
_VALUES = struct.Struct(f"{_VALUE_AT}x{_VALUE_FORM}")

FIRST, _SECOND = itemgetter(0), itemgetter(1)

CHUNK = 1024
"""So many records are looked at, or packed, at once: as many as stay in a processor's cache from one look to the next."""

Value: type[ctypes.Array[ctypes.c_char]] = ctypes.c_char * (_LENGTH + MAX_VALUE)
"""`tvk_value`."""
Key: type[ctypes.Array[ctypes.c_char]] = ctypes.c_char * (_LENGTH + MAX_KEY)
"""`tvk_key`."""


def text_of(room: ctypes.Array[ctypes.c_char]) -> bytes:
    """The text in a `tvk_value` or a `tvk_key`."""
    raw = room.raw
    return raw[_LENGTH : _LENGTH + raw[_LOWEST]]


def layout_of(size: int, key: Place, value: Place) -> ctypes.Array[ctypes.c_size_t]:
    """`tvk_layout` of structs of so many bytes, with a key and a value at these places."""
    if size < 1:
        raise ValueError("a struct has a byte at least")
    for at, length in (key, value):
        if not 0 <= at <= at + length <= size:
            raise ValueError(f"{length} bytes from byte {at} on don't lie in a struct of {size}")
    if key[1] > MAX_KEY:
        raise bad_key(key[1])
    if value[1] > MAX_VALUE:
        raise bad_value(value[1])
    return (ctypes.c_size_t * 5)(size, *key, *value)


def lent(structs: Any) -> tuple[Any, int]:
    """The bytes of an object as C is passed them, and how many they are. They are copied where nobody may write to them, but
    for `bytes`."""
    if isinstance(structs, bytes):
        return ctypes.c_char_p(structs), len(structs)
    view = memoryview(structs)
    if not view.c_contiguous:
        raise ValueError("the structs don't stand one behind another")
    kind = ctypes.c_char * view.nbytes
    return (kind.from_buffer_copy if view.readonly else kind.from_buffer)(structs), view.nbytes


class _Sizes(dict[int, ctypes.c_size_t]):
    """Each number as C takes it."""

    def __missing__(self, size: int) -> ctypes.c_size_t:
        return ctypes.c_size_t(size)


SIZES = _Sizes((size, ctypes.c_size_t(size)) for size in range(MAX_VALUE + 1))


def bytes_of(text: Text) -> bytes:
    """The bytes of a key or a value: a `str` is taken for its UTF-8."""
    if isinstance(text, str):
        return text.encode()
    if isinstance(text, (bytes, bytearray, memoryview)):
        return bytes(text)
    raise TypeError(f"a key or a value is bytes, bytearray, memoryview or str, and not {type(text).__name__}")


def all_bytes(texts: Sequence[Text]) -> Sequence[bytes]:
    """The bytes of many."""
    kinds = set(map(type, texts))
    if kinds == {bytes}:
        return texts  # type: ignore[return-value]
    return list(map(str.encode, texts)) if kinds == {str} else list(map(bytes_of, texts))  # type: ignore[arg-type]


def range_of(lo: Text, hi: Text) -> tuple[bytes, bytes]:
    """The bytes of two keys."""
    low, high = bytes_of(lo), bytes_of(hi)
    if (most := max(len(low), len(high))) > MAX_KEY:
        raise bad_key(most)
    return low, high


def below(key: bytes) -> bytes:
    """The greatest key below another one, which isn't empty."""
    if key[-1] == 0:
        return key[:-1]
    return (key[:-1] + bytes([key[-1] - 1])).ljust(MAX_KEY, b"\xff")


class Page:
    """Room for the rows of one scan."""

    def __init__(self, size: int) -> None:
        self._rows = bytearray(size * RECORD)
        self.room = (ctypes.c_char * len(self._rows)).from_buffer(self._rows)

    def last_key(self, count: int) -> bytes:
        """The key of the last row of so many."""
        at = (count - 1) * RECORD
        return bytes(self._rows[at + _LENGTH : at + _LENGTH + self._rows[at + _LOWEST]])

    def _texts(self, form: struct.Struct, count: int) -> Iterator[Any]:
        end = count * RECORD
        for at in (0, _VALUE_AT) if count else ():
            self._rows[at + _LENGTH - 1 : end : RECORD] = self._rows[at + _LOWEST : end : RECORD]
        return form.iter_unpack(memoryview(self._rows)[:end])

    def records(self, count: int) -> list[Record]:
        """The first rows."""
        return list(self._texts(_BOTH, count))

    def keys(self, count: int) -> list[bytes]:
        return list(itertools.chain.from_iterable(self._texts(_KEYS, count)))

    def values(self, count: int) -> list[bytes]:
        return list(itertools.chain.from_iterable(self._texts(_VALUES, count)))


def checked(pairs: Sequence[Any]) -> Sequence[Record]:
    """The records of some pairs, each of which has to be one."""
    for kind in set(map(type, pairs)):
        if not issubclass(kind, (tuple, list)):
            raise TypeError(f"a record is a pair of a key and a value, and not {kind.__name__}")
    if set(map(len, pairs)) != {2}:
        raise TypeError("a record is a pair of a key and a value")
    given_keys, given_values = list(map(FIRST, pairs)), list(map(_SECOND, pairs))
    keys, values = all_bytes(given_keys), all_bytes(given_values)
    if (most := max(map(len, keys))) > MAX_KEY:
        raise bad_key(most)
    if (most := max(map(len, values))) > MAX_VALUE:
        raise bad_value(most)
    return pairs if keys is given_keys and values is given_values else list(zip(keys, values))


def _packed(records: Sequence[Record]) -> bytearray:
    keys, values = list(map(FIRST, records)), list(map(_SECOND, records))
    return bytearray().join(map(_PACK, map(len, keys), keys, map(len, values), values))


def packed(records: Sequence[Record]) -> bytearray:
    """Records as C has them."""
    return bytearray().join(_packed(records[at : at + CHUNK]) for at in range(0, len(records), CHUNK))


def first_double(records: Sequence[Record]) -> bytes:
    """The first key of sorted records that stands twice."""
    return next((one[0] for one, other in zip(records, records[1:]) if one[0] == other[0]), b"")


def runs_of(records: Records, run: int) -> Iterator[list[Record]]:
    """Runs of so many records of a mapping, or of what gives pairs, each by rising key."""
    pairs = iter(records.items() if isinstance(records, Mapping) else records)
    piece: list[Record] = []
    while part := list(itertools.islice(pairs, min(CHUNK, run - len(piece)))):
        piece += checked(part)
        if len(piece) == run:
            yield sorted(piece, key=FIRST)
            piece = []
    if piece:
        yield sorted(piece, key=FIRST)


_WITHIN = bytes(range(0x21, 0x7F)) + b"\t\n"
_EQUALS_ALONE = re.compile(rb"^([^\t\n=]*)=([^\t\n]*)$", re.MULTILINE)
_EQUALS_IN_KEY = re.compile(rb"=[^\t\n]*\t")


def plain_text(text: bytes) -> Optional[bytes]:
    """The text of a file as the library reads it, without CRs and an empty last line, and with a TAB behind each key; None where
    a line is no record. That no key or value is too long, and that each line has a TAB, is left to the library."""
    if text in (b"\n", b"\r\n"):
        return b""
    if text.endswith((b"\n\n", b"\n\r\n")):
        text = text[: -1 if text.endswith(b"\n\n") else -2]
    if b"\r" in text:
        text = (text + b"\n" if text.endswith(b"\r") else text).replace(b"\r\n", b"\n")
    lines = text.count(b"\n") + (not text.endswith(b"\n") and text != b"")
    if b"=" in text:
        if text.count(b"\t") < lines:
            text = _EQUALS_ALONE.sub(rb"\1\t\2", text)
        if _EQUALS_IN_KEY.search(text):
            return None
    is_empty = text.startswith(b"\t") or text.endswith(b"\t") or b"\n\t" in text or b"\t\n" in text
    return None if is_empty or text.count(b"\t") != lines or text.translate(None, _WITHIN) else text


def bad_line(text: bytes) -> BadLine:
    """The first line of a file that is no record, where one is."""
    return _bad_line(list(io.BytesIO(text if text.endswith(b"\n") else text + b"\n")), 1)


_LINE = re.compile(b"^(%b)\t(%b)\r?$" % (KEY_TEXT, VALUE_TEXT), re.MULTILINE)


def line_runs(file: Iterable[bytes], run: int) -> Iterator[list[Record]]:
    """The same of a file: each line has a key, a TAB or the first =, and a value. An empty last line is none."""
    rest, number = iter(file), 1
    lines = list(itertools.islice(rest, run))
    while lines:
        following = list(itertools.islice(rest, run))
        if not following and lines[-1] in (b"\n", b"\r\n"):
            lines.pop()
        if lines:
            yield _records(lines, number)
        number += len(lines)
        lines = following


def _records(lines: list[bytes], number: int) -> list[Record]:
    """The records of lines, by rising key: a TAB is below all that a key has. The first of them has that number."""
    if not lines[-1].endswith(b"\n"):
        lines[-1] += b"\n"
    has_tabs = b"".join(lines).count(b"\t") >= len(lines)
    records: list[Record] = _LINE.findall(b"".join(sorted(lines if has_tabs else map(with_tab, lines))))
    if len(records) < len(lines):
        raise _bad_line(lines, number)
    return records


def _bad_line(lines: list[bytes], number: int) -> BadLine:
    """The first line that is no record."""
    at, line = next((at, it[:-1]) for at, it in enumerate(lines, number) if not _LINE.fullmatch(with_tab(it[:-1])))
    why = "a record has a key of 1 to 32 visible characters, none of them =, a TAB or the first =, and a value of 1 to 64"
    return BadLine(at, f"{shown(line[:60])} is no record: {why}")


def double_line(lines: Iterable[bytes], key: bytes) -> Optional[BadLine]:
    """The second line that has the key, where two have it."""
    first = 0
    for number, line in enumerate(lines, 1):
        if line.startswith(key) and with_tab(line).partition(b"\t")[0] == key:
            if first:
                return BadLine(number, f"the key {shown(key)} stands in line {first} already")
            first = number
    return None
