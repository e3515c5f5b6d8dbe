"""The rule of docs/promises.md: it has each function that a crate gives out, and names no other function, no other clause, and
nothing that stands neither in the crate nor below it."""

import functools
import glob
import re
from typing import Dict, Iterator, List, Set, Tuple

import tree

PLACE = "docs/promises.md"
# These stand in no crate.
COMMANDS = {"amserve", "amaudit", "amreplica", "tvk_"}
# A row of functions and the clauses or definitions by which they promise something, below the heading of its crate.
Row = Tuple[List[str], List[str]]


def head_of(text: str, inside: str) -> str:
    """A function's signature and contract: all up to its body. One without a body, a trait's, has all."""
    lines = text.split(f"\n{inside}{{\n")[0].splitlines()
    return "\n".join(it for it in lines if not it.lstrip().startswith("//"))


def methods_of(block: str, public: str) -> Iterator[Tuple[str, str]]:
    """The methods of an impl or a trait, each with its head."""
    for part in re.split(r"(?m)^(?=    (?:pub(?:\([a-z]+\))? )?(?:const |unsafe )*fn )", block)[1:]:
        found = re.match(rf"    {public}(?:const |unsafe )*fn (\w+)", part)
        if found:
            yield found.group(1), head_of(part, "    ")


def functions_of(crate: str) -> Dict[str, str]:
    """The functions that a crate gives out, each with its signature and contract. A type's stand behind its name."""
    names, found = set(tree.given_out(crate)), {}
    for path in sorted(glob.glob(f"{tree.TOP}/crates/{crate}/src/**/*.rt", recursive=True)):
        for block in re.split(r"(?m)^(?=(?:pub\b|impl\b|fn |unsafe |#\[|extern ))", tree.text_of(path)):
            function = re.match(r'pub (?:const |unsafe |(extern "C") )*fn (\w+)', block)
            if function and (function.group(2) in names or function.group(1)):
                found[function.group(2)] = head_of(block, "")
            kind = re.match(r"(?:impl(?:<[^{]*?>)?|pub trait) (\w+)(?![^{]* for )[^{]*\{", block)
            if kind and kind.group(1) in names:
                public = "" if block.startswith("pub trait") else "pub "
                found.update((f"{kind.group(1)}::{name}", head) for name, head in methods_of(block, public))
    return found


def rows() -> Dict[str, List[Row]]:
    """The rows of each crate."""
    found: Dict[str, List[Row]] = {}
    for section in tree.text_of(PLACE).split("\n### ")[1:]:
        crate, _, text = section.partition("\n")
        cells = [re.split(r" *\| *", line.strip("| ")) for line in text.splitlines() if line.startswith("| `")]
        found[crate] = [(re.findall(r"`([^`]+)`", it[0]), re.findall(r"`([^`]+)`", it[2]) if len(it) > 2 else []) for it in cells]
    return found


def names_told() -> Dict[str, Set[str]]:
    """The names in the section of each crate: of functions, clauses, definitions and types."""
    found = {}
    for section in tree.text_of(PLACE).split("\n### ")[1:]:
        crate, _, text = section.split("\n## ")[0].partition("\n")
        quoted = re.findall(r"`([\w:]+)`", text)
        found[crate] = {word for it in quoted for word in re.findall(r"[A-Za-z_]\w*", it)}
    return found


@functools.lru_cache(maxsize=None)
def words_of(crate: str) -> Set[str]:
    """The words of a crate's sources."""
    found = [it for part in ("src", "specs", "proofs") for it in glob.glob(f"{tree.TOP}/crates/{crate}/{part}/**/*.*t", recursive=True)]
    return {word for path in found for word in re.findall(r"\w+", tree.text_of(path))}


def names_known(crate: str) -> Set[str]:
    """The words of a crate's sources, and of those below it."""
    return set().union(*map(words_of, [*tree.below(crate), crate]))


def faults_of_row(crate: str, row: Row, functions: Dict[str, str]) -> Iterator[str]:
    """What a row names and the crate doesn't have."""
    told, clauses = row
    for name in told:
        if name not in functions:
            yield f"{PLACE}: {crate} gives out no function {name}"
    known: Set[str] = {word for name in told for word in re.findall(r"[\w-]+", functions.get(name, ""))}
    for clause in clauses:
        if clause not in known:
            yield f"{PLACE}: {clause} stands in no contract of {', '.join(told)}"


def faults() -> Iterator[str]:
    """Each crate has a section, each function that it gives out a row, and each clause a contract."""
    found, named = rows(), names_told()
    for crate in tree.crates():
        if crate not in found:
            yield f"{PLACE}: {crate} has no section"
            continue
        functions = functions_of(crate)
        for row in found[crate]:
            yield from faults_of_row(crate, row, functions)
        yield from (f"{PLACE}: {name} stands neither in {crate} nor below it" for name in sorted(named[crate] - names_known(crate) - COMMANDS))
        told = {name for names, _ in found[crate] for name in names}
        yield from (f"{PLACE}: {name} of {crate} has no row" for name in functions if name not in told)
