"""What a line of the protocol may have: its limits, keys, values and records, and how the records of a run are parted into lines."""

from __future__ import annotations

import re
from collections.abc import Sequence

from .errors import MAX_KEY, MAX_VALUE

MAX_LINE = 4096
MAX_RUN = 65536
"""The most records of a run."""
MAX_LOCKS = 256
MAX_OPERATIONS = 4096
MAX_HOLD = 60_000
"""The most milliseconds of a hold."""

KEY_TEXT, VALUE_TEXT = b"[!-<>-~]{1,%d}" % MAX_KEY, b"[!-~]{1,%d}" % MAX_VALUE
KEY, VALUE = re.compile(KEY_TEXT), re.compile(VALUE_TEXT)
LEAST_KEY, GREATEST_KEY = b"!", b"~" * MAX_KEY
PAIRS = re.compile(b"(?:%b=%b )*" % (KEY_TEXT, VALUE_TEXT))
"""Records as a line has them, with a blank behind each."""
RECORD = re.compile(b"%b\t%b" % (KEY_TEXT, VALUE_TEXT))
"""A record as a line of a file."""
RECORDS = re.compile(b"^%b\t%b$" % (KEY_TEXT, VALUE_TEXT), re.MULTILINE)


def with_tab(line: bytes) -> bytes:
    """A line of a file with a TAB behind its key."""
    return line if b"\t" in line else line.replace(b"=", b"\t", 1)


def fault_of(line: bytes) -> str:
    """Why a line of a file is no record."""
    key, separator, value = with_tab(line).partition(b"\t")
    faults = [
        (not line, "it is empty"),
        (max(line, default=0) > 0x7F, "it is not ASCII"),
        (not separator, "it has no separator: neither a TAB nor a ="),
        (not key or not value, "the key is empty" if not key else "the value is empty"),
        (re.search(rb"[ \t]", key + value), "it has a blank"),
        (re.search(rb"[\0-\x1f\x7f]", key + value), "it has a control character"),
        (b"=" in key, "the key has a ="),
        (len(key) > MAX_KEY, f"it is too long: the key has {len(key)} bytes, and {MAX_KEY} are the most"),
    ]
    too_long = f"it is too long: the value has {len(value)} bytes, and {MAX_VALUE} are the most"
    return next((why for is_so, why in faults if is_so), too_long)


def staged(records: Sequence[bytes], verb: bytes) -> list[bytes]:
    """The lines that stage all records of a run but the last, and the one by which these bring it. A key and its value are parted by
    one byte."""
    width = (MAX_LINE - len("STAGE")) // (max(map(len, records)) + 1)
    parts = [b" ".join(records[at : at + width]) for at in range(0, len(records), width)]
    return [*(b"STAGE " + part for part in parts[:-1]), verb + b" " + parts[-1]]
