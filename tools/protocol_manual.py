#!/usr/bin/env python3
"""Prints docs/protocol.md as the manual tiuvrokk-protocol(7), in mdoc: tools/protocol_manual.py >tiuvrokk-protocol.7

Headings, paragraphs, lists, tables and blocks of text are what that document has. ./install and ./package call it, so the
manual says what the document says."""

import os
import re
import sys
import textwrap
from typing import Iterator, List

TOP = os.path.dirname(os.path.dirname(os.path.abspath(__file__)))
HEAD = """.Dd November 26, 2026
.Dt TIUVROKK-PROTOCOL 7
.Os
.Sh NAME
.Nm tiuvrokk-protocol
.Nd lines, answers and traces of a transactional store
.Sh DESCRIPTION"""
FOOT = """.Sh SEE ALSO
.Xr amaudit 1 ,
.Xr amdump 1 ,
.Xr amload 1 ,
.Xr amserve 1 ,
.Xr tiuvrokk 3"""
# A line of mdoc has 80 bytes at most.
WIDTH = 76
LIST = ".Bl -tag -width Ds"


def escaped(text: str) -> str:
    """Text with no mark-up, which mdoc takes for itself."""
    text = text.replace("\\", "\\e").replace("~", "\\(ti").replace("^", "\\(ha").replace("`", "")
    return re.sub(r"^([.'])", r"\\&\1", text)


def sentences(text: str) -> Iterator[str]:
    """Text in lines, each sentence on lines of its own."""
    for sentence in re.split(r"(?<=[.!?])(?<!\.\.)\s+(?=[`A-Z])", text):
        for line in textwrap.wrap(sentence, WIDTH, break_long_words=False, break_on_hyphens=False):
            yield escaped(line)


def tagged(tag: str, cells: List[str]) -> Iterator[str]:
    """An entry of a list."""
    yield f'.It "{escaped(tag)}"'
    for number, cell in enumerate(cells):
        if number:
            yield ".Pp"
        yield from sentences(cell)


def table(rows: List[str]) -> Iterator[str]:
    """The rows below a head: the first cell with what the others say of it, which the head names where they are several."""
    cells = [[cell.strip() for cell in re.split(r" \| ", row.strip().strip("|"))] for row in rows]
    names = cells[0][1:]
    yield LIST
    for first, *others in cells[2:]:
        yield from tagged(first, [f"{name}: {it}" if len(names) > 1 else it for name, it in zip(names, others)])
    yield ".El"


def listed(lines: List[str]) -> Iterator[str]:
    yield ".Bl -bullet"
    for line in lines:
        yield ".It"
        yield from sentences(line[2:])
    yield ".El"


def block(lines: List[str]) -> Iterator[str]:
    """What part of the document is between two empty lines."""
    first = lines[0]
    if first.startswith("## "):
        yield f".Ss {escaped(first[3:])}"
    elif first.startswith("|"):
        yield from table(lines)
    elif first.startswith("- "):
        yield from listed(lines)
    elif first.startswith("    "):
        yield from [".Bd -literal -offset indent", *(escaped(line[4:]) for line in lines), ".Ed"]
    elif not first.startswith("# "):
        yield from [".Pp", *sentences(" ".join(lines))]


def manual(text: str) -> str:
    """The whole manual. A paragraph behind a heading needs no break."""
    lines = [line for part in re.split(r"\n{2,}", text.strip("\n")) for line in block(part.split("\n"))]
    kept = [line for before, line in zip(["", *lines], lines) if line != ".Pp" or before and not before.startswith(".Ss")]
    return "\n".join([HEAD, *kept, FOOT, ""])


def main() -> None:
    with open(os.path.join(TOP, "docs", "protocol.md"), encoding="utf-8") as file:
        sys.stdout.write(manual(file.read()))


if __name__ == "__main__":
    main()
