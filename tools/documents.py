"""The rules of the documents: they name what is there, and say the same everywhere."""

import os
import re
from typing import Dict, Iterator, List, Set

from tree import TOP, crates, documents, kept_files, text_of

README_WORDS = 1600
# Of docs/DECISIONS.md and docs/measurements.md together, and of one decision.
DIARY_WORDS, DECISION_WORDS = 8000, 60
# Where the version stands beside VERSION: the programs', the header's, Python's, and the newest of CHANGELOG.md.
VERSIONS = {
    "crates/am_program_start/src/program_words.rt": r'VERSION: &str = "([^"]*)"',
    "c/tiuvrokk.h": r'#define TVK_VERSION "([^"]*)"',
    "python/tiuvrokk/__init__.py": r'(?m)^__version__ = "([^"]*)"',
    "crates/am_program_listen/stdout": r"amserve ([0-9.]+)",
    "rust/Cargo.toml": r'(?m)^version = "([^"]*)"',
    "CHANGELOG.md": r"(?m)^## ([0-9.]+)",
}


def below(crate: str, named: Dict[str, List[str]]) -> Set[str]:
    """All that the crate stands on."""
    found = set()
    for other in named[crate]:
        found |= {other, *below(other, named)}
    return found


def direct(crate: str, named: Dict[str, List[str]]) -> List[str]:
    """What the crate stands on, but for what that stands on already."""
    return [it for it in named[crate] if not any(it in below(other, named) for other in named[crate])]


def faults_of_layers() -> Iterator[str]:
    """docs/layers.md has each crate once, with those that it stands on."""
    named = crates()
    rows = re.findall(r"^\| (am_\w+) \| .*? \| (.*?) \|$", text_of("docs/layers.md"), re.M)
    told = dict(rows)
    for crate in named:
        wanted = ", ".join(direct(crate, named)) or "-"
        if [it for it, _ in rows].count(crate) != 1:
            yield f"docs/layers.md: {crate} has no row of its own"
        elif told[crate] != wanted:
            yield f"docs/layers.md: {crate} stands on {wanted}"
    for crate in told:
        if crate not in named:
            yield f"docs/layers.md: crates.txt names no crate {crate}"


def files_of(cell: str, crate: str) -> Iterator[str]:
    """The files of a cell, each in `specs/` of the section's crate; a bare file name lies where the one before it lies."""
    last = f"{crate}/specs/"
    for path in (it.strip() for it in cell.split(",")):
        last = path if "/" in path else os.path.join(os.path.dirname(last), path)
        yield last


def defines(text: str, name: str) -> bool:
    """Whether the text of a file of definitions has one of the name."""
    return bool(re.search(rf"(?m)^\s*(?:(?:pub|abbrev|unfoldable|opaque|data|record)\s+)*{re.escape(name)}(?=[\s:({{])", text))


def faults_of_definitions() -> Iterator[str]:
    """Each row names definitions first, then the files of the section's crate that have them, then what they say."""
    crate = ""
    for line in text_of("docs/definitions.md").splitlines():
        if line.startswith("## "):
            crate = line[3:].split(",")[0]
        if line.startswith("| `"):
            yield from faults_of_definition([it.strip() for it in line.strip("|").split(" | ")], crate)


def faults_of_definition(cells: List[str], crate: str) -> Iterator[str]:
    """What one row names and its files don't define."""
    if len(cells) != 3 or not cells[1].endswith(".antt"):
        yield f"docs/definitions.md: {cells[0]} isn't followed by its file and what it says"
        return
    texts = []
    for path in files_of(cells[1], crate):
        if os.path.isfile(os.path.join(TOP, "crates", path)):
            texts.append(text_of(os.path.join("crates", path)))
        else:
            yield f"docs/definitions.md: there is no file {path}"
    for name in re.findall(r"`([^`]+)`", cells[0]):
        if not any(defines(text, name) for text in texts):
            yield f"docs/definitions.md: {cells[1]} doesn't define {name}"


def faults_of_decisions() -> Iterator[str]:
    """Each decision ends with its date and is short, and the figures behind it are few."""
    for line in text_of("docs/DECISIONS.md").splitlines():
        if not line.startswith("- "):
            continue
        told = re.sub(r" \(\d{4}-\d\d-\d\d\)$", "", line)
        if told == line:
            yield f"docs/DECISIONS.md: no date ends {line[:60]!r}"
        if len(told.split()) - 1 > DECISION_WORDS:
            yield f"docs/DECISIONS.md: more than {DECISION_WORDS} words follow {line[:60]!r}"
    words = sum(len(text_of(f"docs/{name}.md").split()) for name in ("DECISIONS", "measurements"))
    if words > DIARY_WORDS:
        yield f"docs/DECISIONS.md and docs/measurements.md have {words} words, and may have {DIARY_WORDS}"


def faults_of_names() -> Iterator[str]:
    """A name between back-ticks that stands in no source and is no file's."""
    kept = kept_files()
    known = {word for it in kept if not it.endswith((".md", ".svg", ".edit")) for word in re.findall(r"\w+", text_of(it))}
    known |= {word for it in kept for word in re.findall(r"\w+", it)}
    for path in documents():
        text = re.sub(r"(?ms)^```.*?^```", "", text_of(path))
        for name in re.findall(r"`([\w:./<>&*-]+(?:\(\))?)`", text):
            if not known.issuperset(re.findall(r"[A-Za-z_]\w*", name)):
                yield f"{path}: {name} is no name of a source"


def faults_of_versions() -> Iterator[str]:
    """Another version than that of VERSION."""
    version = text_of("VERSION").strip()
    for path, pattern in VERSIONS.items():
        found = re.search(pattern, text_of(path))
        if not found or found.group(1) != version:
            yield f"{path}: its version isn't {version}, as VERSION has it"


def faults_of_statuses() -> Iterator[str]:
    """The statuses for C, as the header, am_c_steps and Python number them."""
    header = dict(re.findall(r"\bTVK_([A-Z_]+) = (\d+)[,\n ]", text_of("c/tiuvrokk.h").partition("} tvk_status;")[0]))
    names = re.findall(r'"TVK_([A-Z_]+)"|"(\?)"', text_of("c/tiuvrokk.c"))
    # (the header of replicas has some more)
    every = {**header, **dict(re.findall(r"\bTVK_([A-Z_]+) = (\d+)[, ]", text_of("c/tiuvrokk_replica.h")))}
    for number, (name, _) in enumerate(names):
        if name and header.get(name) != str(number):
            yield f"c/tiuvrokk.c: the name of status {number} is {name}, and not the header's"
    for name, number in re.findall(r"Status::(\w+) => (\d+),", text_of("crates/am_c_steps/src/status.rt")):
        upper = "OK" if name == "Fine" else re.sub(r"(?<!^)([A-Z])", r"_\1", name).upper()
        # (a seat alone is full, and C has none)
        if every.get(upper, number if name == "SeatFull" else None) != number:
            yield f"crates/am_c_steps/src/status.rt: {name} is {number}, and {every.get(upper)} in the header"
    python = dict(re.findall(r"(?m)^    ([A-Z_]+) = (\d+)$", text_of("python/tiuvrokk/errors.py")))
    for name in sorted({*header, *python}):
        if header.get(name) != python.get(name):
            yield f"python/tiuvrokk/errors.py: {name} is {python.get(name, 'missing')}, and {header.get(name, 'missing')} in the header"


def faults_of_length() -> Iterator[str]:
    """The README is what somebody reads first."""
    words = len(text_of("README.md").split())
    if words > README_WORDS:
        yield f"README.md: {words} words"
