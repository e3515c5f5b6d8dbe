"""Texts of any bytes as keys and values, which lines carry as visible ASCII: what isn't that stands as a percent sign and two digits
of base 16, and so do the percent sign and, in a key, the equals sign. A text of no bytes is a percent sign alone. Keys that are
escaped are ordered as they stand then."""

import re
from typing import Dict

_IN_KEY = re.compile(rb"[^!-<>-~]|%")
_IN_VALUE = re.compile(rb"[^!-~]|%")
_ESCAPE = re.compile(rb"%([0-9A-Fa-f]{2})")
_ESCAPES: Dict[bytes, bytes] = {bytes([byte]): b"%%%02X" % byte for byte in range(256)}


_EMPTY = b"%"


def escaped_key(text: bytes) -> bytes:
    return _IN_KEY.sub(lambda found: _ESCAPES[found.group()], text) or _EMPTY


def escaped_value(text: bytes) -> bytes:
    return _IN_VALUE.sub(lambda found: _ESCAPES[found.group()], text) or _EMPTY


def unescaped(text: bytes) -> bytes:
    """What an escaped text stands for; a percent sign that isn't alone, with no two digits behind it, stands for itself."""
    return b"" if text == _EMPTY else _ESCAPE.sub(lambda found: bytes([int(found.group(1), 16)]), text)


def escaped(text: bytes, is_key: bool) -> bytes:
    return escaped_key(text) if is_key else escaped_value(text)


def unescaped_line(line: bytes) -> bytes:
    """A line of a dump with what its escapes stand for, unless that would be two lines, or two keys: so `--escape` reads it as
    it was."""
    key, _, value = line.partition(b"\t")
    texts = unescaped(key), unescaped(value)
    is_one = b"\t" not in texts[0] and not re.search(rb"[\r\n]", texts[0] + texts[1])
    return b"\t".join(texts) if is_one and line else line


def unescaped_lines(text: bytes) -> bytes:
    """The same of all lines of a text."""
    return b"\n".join(map(unescaped_line, text.split(b"\n"))) if b"%" in text else text


def cut(text: bytes, most: int, is_escaped: bool) -> bytes:
    """At most so many bytes of a text, and no part of an escape, nor of a character of UTF-8."""
    if len(text) <= most:
        return text
    if not is_escaped:
        return whole(text[:most])
    pieces = re.findall(rb"(?s)%[0-9A-F]{2}|.", text)
    while sum(map(len, pieces)) > most:
        pieces.pop()
    kept = b"".join(pieces)
    raw = unescaped(kept)
    for _ in range(len(raw) - len(whole(raw))):
        pieces.pop()
    return b"".join(pieces)


def whole(text: bytes) -> bytes:
    """The text without a character of UTF-8 at its end that was cut."""
    for behind in range(1, min(4, len(text)) + 1):
        byte = text[-behind]
        if byte & 0xC0 != 0x80:
            wanted = 4 if byte >= 0xF0 else 3 if byte >= 0xE0 else 2 if byte >= 0xC0 else 1
            return text[:-behind] if wanted > behind else text
    return text
