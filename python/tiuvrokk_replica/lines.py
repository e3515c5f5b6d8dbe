"""What is known of lines before they are answered."""
from __future__ import annotations

import re
from typing import FrozenSet

from tiuvrokk._grammar import GREATEST_KEY, KEY_TEXT, LEAST_KEY, MAX_HOLD, MAX_LINE, VALUE_TEXT
from tiuvrokk_tools.verbs import STAGING, Kind, words_of

# Bytes that no answer goes beyond but rows.
LONGEST_SHORT = 110
# Those of a row, and of an answer of most rows.
ROW = 98
MOST_ROWS = LONGEST_SHORT + 1000 * ROW
# The range of all keys.
EVERYTHING = LEAST_KEY + b" " + GREATEST_KEY
# Lines that write nothing, whatever they are answered.
READS: FrozenSet[bytes] = frozenset(word.encode() for word in words_of(Kind.READS))
# A request of HTTP: two words or more and a version; how those lines begin that may end so too.
REQUEST = re.compile(rb"[\t\f\r ]*[^\t\f\r ]+[\t\f\r ]+[^\t\f\r ].*[\t\f\r ]http/[0-9][0-9.]*[\t\f\r ]*", re.IGNORECASE | re.DOTALL)
# A key, a record, and lines that surely are operations: one that reads, those that write so many records, and all (whose
# range has the least key first).
KEY, VALUE = KEY_TEXT, VALUE_TEXT
READING = b"GET " + KEY
# How lines begin that may make a run. (What stands before them in an entry may be any byte, and a key may end like such a word.)
LOADING = {verb + b" ": re.compile(b"%b %b=" % (verb, KEY)) for verb in sorted(STAGING)}


def writing(records: bytes) -> bytes:
    return b"(?:DEL %b|(?:INS|REP|SET) %b %b|(?:LOAD|PUT)(?: %b=%b)%b)" % (KEY, KEY, VALUE, KEY, VALUE, records)


RANGED = b"LOCK [SX] (%b) (%b)|(?:SCAN|RSCAN|DELR) (%b) (%b) (?:[1-9][0-9]{0,2}|1000)" % (KEY, KEY, KEY, KEY)
SURE = re.compile(b"|".join((READING, writing(b"+"), b"STAGE(?: %b=%b)+" % (KEY, VALUE), b"MARK", b"BACK", RANGED)))
OWN_FRONTS = (b"INS ", b"REP ", b"SET ", b"LOCK S ", b"LOCK X ")


def most_runs_of(text: bytes) -> int:
    """How many runs lines make at most, which may stand in the text of an entry."""
    return sum(len(front.findall(text)) for word, front in LOADING.items() if word in text)


def may_have_http(text: bytes) -> bool:
    """Whether a line of HTTP may stand in a text."""
    small = text.lower()
    return b"http/" in small or b"host:" in small


def is_of_http(line: bytes) -> bool:
    """Whether a line is one of HTTP: a request, or the header that names a host. The same as a server of am_serve_connections has it."""
    if line[:5].lower() == b"host:":
        return True
    return len(line) <= MAX_LINE and not line.startswith(OWN_FRONTS) and REQUEST.fullmatch(line) is not None


def is_sure(line: bytes) -> bool:
    """Whether a transaction's line is surely an operation, or stages records: no store answers it that it is faulty."""
    found = SURE.fullmatch(line)
    return found is not None and (found[1] or found[3] or b"") <= (found[2] or found[4] or b"")


def longest_answer(line: bytes) -> int:
    """Bytes that no answer to the line goes beyond."""
    if line.startswith((b"SCAN ", b"RSCAN ")):
        count = line.rpartition(b" ")[2]
        return LONGEST_SHORT + ROW * (min(int(count), 1000) if count.isdigit() and len(count) < 5 else 0)
    return LONGEST_SHORT


def answer_apart(line: bytes, is_active: bool) -> bytes:
    """The answer to a line that is none of a transaction's, and that the session has no other answer to."""
    word, _, count = line.partition(b" ")
    if is_active:
        return b"ERR ACTIVE"
    if word == b"HOLD":
        return b"OK" if 0 < int(count) <= MAX_HOLD else b"ERR LIMIT"
    return b"ERR NOTX"
