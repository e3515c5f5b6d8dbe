"""The committed blocks as the text of a trace, for an auditor."""
from __future__ import annotations

from typing import List, TextIO

from tiuvrokk_tools.verbs import STAGING

# The first line: a replica goes on in another store where one is out of runs, so all together make as many as have numbers.
FIRST = "TRACE 4 4294967294 32 64 256 4096"
# Answers to lines that take no step of the store.
NO_STEP = frozenset((b"ERR SYNTAX", b"ERR RANGE", b"ERR ACTIVE", b"ERR LONG"))


def hexed(field: bytes) -> str:
    return "h" + field.hex()


def pairs(fields: List[bytes]) -> str:
    return "".join(f" {hexed(key)}={hexed(value)}" for key, _, value in (field.partition(b"=") for field in fields))


def step_of(number: int, word: bytes, fields: List[bytes]) -> str:
    """A step, as a trace spells it."""
    if word in STAGING:
        return f"{word.decode()} {number}" + pairs(fields)
    if word in (b"SCAN", b"RSCAN", b"DELR"):
        return f"{word.decode()} {number} {hexed(fields[0])} {hexed(fields[1])} {fields[2].decode()}"
    if word == b"LOCK":
        return f"LOCK {number} {fields[0].decode()} {hexed(fields[1])} {hexed(fields[2])}"
    return " ".join([word.decode(), str(number)] + [hexed(field) for field in fields])


def reply_of(answer: bytes) -> str:
    """A reply, as a trace spells it."""
    word, *fields = answer.split(b" ")
    if word == b"ROWS":
        return f"ROWS {fields[0].decode()}" + pairs(fields[1:])
    if word in (b"VAL", b"EXISTS"):
        return f"{word.decode()} {hexed(fields[0])}"
    return answer.decode()


class TraceFault(Exception):
    """No run can be stored."""


class Trace:
    """A file that grows by whole transactions, opened to be written at its end; it stays as it is until the run begins."""

    def __init__(self, file: TextIO) -> None:
        self.file, self.number = file, 0

    def begin(self) -> None:
        self.file.truncate(0)
        self.file.write(f"{FIRST}\n")
        self.file.flush()

    def write(self, lines: List[bytes], answers: List[bytes]) -> None:
        """The next transaction that committed: its lines, and the answers to them, which others may follow."""
        self.number += 1
        rows = [f"BEGIN | BEGUN {self.number}"]
        staged: List[bytes] = []
        for line, answer in zip(lines, answers):
            word, *fields = line.split(b" ")
            if answer in NO_STEP:
                continue
            if word == b"STAGE":
                staged += fields if answer == b"OK" else []
                continue
            if word in STAGING:
                staged, fields = [], staged + fields
            rows.append(f"{step_of(self.number, word, fields)} | {reply_of(answer)}")
        rows.append(f"COMMIT {self.number} | COMMITTED {self.number}\n")
        self.file.write("\n".join(rows))

    def flush(self) -> None:
        self.file.flush()
