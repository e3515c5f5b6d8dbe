"""The rules of names: crates stand in groups, a definition has a name of its own, and a limit is cited by its name."""

import os
import re
from typing import Dict, Iterator, List, Set

from tree import TOP, sources, text_of

LIMITS = "crates/am_record/specs/Limits.antt"
# Crates where such a number is another thing: a line's bytes, connections that wait, a port.
OTHER_MEANINGS: Dict[str, Set[str]] = {
    "am_line_source": {"4096"},
    "am_serve_connections": {"1000", "4096"},
    "am_store_locks": {"65535", "65536"},
    "am_index_btree": {"65535"},
    "am_program_options": {"65535"},
}


def faults_of_groups() -> Iterator[str]:
    """The first word of a crate's name is its group, and the lines of a group stand together under one head of crates.txt."""
    heads: Dict[str, str] = {}
    groups: Dict[str, str] = {}
    head = ""
    for line in text_of("crates.txt").splitlines():
        if line.startswith("# "):
            head = line[2:]
        found = re.match(r"am_([a-z]+)\w*(?= staticlib:|:)", line)
        if found:
            group = found.group(1)
            if heads.setdefault(group, head) != head:
                yield f"crates.txt: {found.group(0)} doesn't stand under {heads[group]!r}"
            if groups.setdefault(head, group) != group:
                yield f"crates.txt: {found.group(0)} is of another group than am_{groups[head]}"


def definitions(text: str) -> List[str]:
    """The names that a file of definitions gives out."""
    found = re.findall(r"(?m)^(?:(?:abbrev|unfoldable) )?pub (?:(?:record|data) )?([^\s:({]+) (?=[:({])", text)
    # (what a word's `-` binds to another name says more of that)
    return [name for name in found if "-" not in name]


def faults_of_double_names() -> Iterator[str]:
    """A definition whose name another crate's definition has, or another file's of its crate."""
    seen: Dict[str, str] = {}
    for path in sources("specs", kinds="antt"):
        if "/declared/" in path:
            continue
        for name in definitions(text_of(path)):
            other = seen.setdefault(name, path)
            if other != path:
                yield f"{os.path.relpath(path, TOP)}: {name} is defined in {os.path.relpath(other, TOP)} too"


def clauses(text: str) -> Iterator[str]:
    """The clauses of a file of code."""
    for found in re.finditer(r"(?m)^[^/\n]*\b(?:ensures|requires|invariant)\b[^{\n]*\{", text):
        depth = 0
        for at in range(found.end() - 1, len(text)):
            depth += {"{": 1, "}": -1}.get(text[at], 0)
            if not depth:
                yield text[found.end() : at]
                break


def faults_of_limits() -> Iterator[str]:
    """A contract or a definition that has a limit of the store by its number."""
    # (64, 32 and 256 are many things: they are a key's and a value's where these are compared)
    numbers = set(re.findall(r"(?m)^\w+ = (\d+)$", text_of(LIMITS))) - {"64", "32", "256"}
    lengths = r"\b(?:bytes_of|value)\b[^≤<\n]{0,20}(?:≤|<) (32|64)\b"
    compared = re.compile(rf"{lengths}|(?<![\w.^])(?<!\^ )({'|'.join(sorted(numbers))})\b")
    for path in sources("src", "specs", kinds="*t"):
        if "/declared/" in path or path.endswith(LIMITS):
            continue
        crate, text = os.path.relpath(path, TOP).split(os.sep)[1], text_of(path)
        lines = clauses(text) if path.endswith(".rt") else (it for it in text.splitlines() if not it.lstrip().startswith("--"))
        for line in lines:
            for found in compared.finditer(line):
                number = found.group(1) or found.group(2)
                if number not in OTHER_MEANINGS.get(crate, set()):
                    yield f"{os.path.relpath(path, TOP)}: {number} stands in place of a limit's name"
