#!/usr/bin/env python3
"""Runs the worked examples in tests/rattle by the kit's checked build: tests/worked.py [--format | --layout] [NAME..].

The gate proves all that a crate of crates.txt has, its tests too, so these stand in files that it doesn't read. Here they are
copied, with the crates' sources, into a folder of their own, as the crate am_worked. Tests that look inside a library go into its
copy: inside/am_index_btree.rs into am_index_btree, inside/am_index_parts.parts.rs into the module `parts` of am_index_parts. They are public functions
there, which am_worked calls, so that all are built at once. The checked build ends a test at an index out of
range, a use after free, an overflow, an `unwrap` of nothing or a false `prove!`. It proves nothing, so not that a test keeps the
conditions of what it calls.

With names only these modules of tests/rattle/src, or of tests/rattle/inside, are tried. By --format the files are laid out as
`rt fmt` does it, by --layout it is only said whether they are. The last line is 'N passed, M failed'."""

import argparse
import os
import re
import shutil
import signal
import subprocess
import sys
import tempfile
from typing import Any, Dict, Iterable, Iterator, List, NamedTuple, Set, Tuple

TOP = os.path.dirname(os.path.dirname(os.path.abspath(__file__)))
EXAMPLES = f"{TOP}/tests/rattle"
WORKED = "am_worked"
# Seconds that one test may take.
LIMIT = 400
# A test, and what it takes and answers.
TEST = re.compile(r"^#\[test\]\nfn (\w+)\((.*?)\)(.*?) \{$", re.M)
# What the runtime can, for a function that isn't a test.
RUNTIME = "&(impl Abort + AllocGlobal + Threads + Wait + Sync)"

sys.dont_write_bytecode = True

def text_of(path: str) -> str:
    """The text of a file."""
    with open(path, encoding="utf-8") as file:
        return file.read()


class Place(NamedTuple):
    """A file of examples, where its copy goes, its crate there, and its module, or the one that it looks inside."""

    source: str
    copied: str
    crate: str
    module: str


def places(folder: str) -> Iterator[Place]:
    """Each file of examples, and where its copy goes."""
    for name in sorted(os.listdir(f"{EXAMPLES}/src")):
        module = name[: -len(".rs")]
        yield Place(f"{EXAMPLES}/src/{name}", f"{folder}/crates/{WORKED}/src/{module}.rt", WORKED, module)
    for name in sorted(os.listdir(f"{EXAMPLES}/inside")):
        crate, _, module = name[: -len(".rs")].partition(".")
        tests = f"{module}/tests.rt" if module else "tests.rt"
        yield Place(f"{EXAMPLES}/inside/{name}", f"{folder}/crates/{crate}/src/{tests}", crate, module or "lib")


def needed(names: Iterable[str]) -> Set[str]:
    """These modules, and those that they name."""
    found: Set[str] = set()
    left = list(names)
    while left:
        name = left.pop()
        if name not in found:
            found.add(name)
            left += re.findall(r"\bcrate::(\w+)", text_of(f"{EXAMPLES}/src/{name}.rs"))
    return found


def add_tests(folder: str, place: Place) -> None:
    """Has the copy of a library know the examples that look inside it."""
    sources = f"{folder}/crates/{place.crate}/src"
    with open(f"{sources}/{place.module}.rt", "a", encoding="utf-8") as file:
        file.write("\npub mod tests;\n")
    if place.module != "lib":
        root = text_of(f"{sources}/lib.rt")
        with open(f"{sources}/lib.rt", "w", encoding="utf-8") as file:
            file.write(re.sub(rf"(?m)^mod {place.module};$", rf"pub mod {place.module};", root))
    os.makedirs(os.path.dirname(place.copied), exist_ok=True)


def calls_of(place: Place, text: str) -> str:
    """Tests that call those of a library's copy."""
    path = "::".join([place.crate, *[place.module] * (place.module != "lib"), "tests"])

    def call(test: "re.Match[str]") -> str:
        name, taken, answered = test.groups()
        given = ", ".join(f"&{it}" for it in re.findall(r"(\w+):", taken))
        return f"#[test]\nfn {path.replace('::', '_')}_{name}({taken}){answered} {{\n    {path}::{name}({given})\n}}\n"

    return "\n".join(map(call, TEST.finditer(text)))


def modules_of(names: List[str]) -> Set[str]:
    """The modules of examples with these names, and those that they name; or all of them."""
    if names:
        return needed(name for name in names if os.path.isfile(f"{EXAMPLES}/src/{name}.rs"))
    return {name[:-3] for name in os.listdir(f"{EXAMPLES}/src")} - {"lib"}


def as_functions(text: str) -> str:
    """These tests as functions that another crate may call."""
    text = TEST.sub(lambda it: f"pub fn {it[1]}({it[2].replace('HostRuntime', RUNTIME)}){it[3]} {{", text)
    used = ["process::Abort", "sync::Wait", "thread::Threads"]
    return "".join(f"use std::{it};\n" for it in used) + text.replace("&rt", "rt")


def copy_examples(folder: str, words: argparse.Namespace) -> Dict[str, Set[str]]:
    """Copies the examples. Gives the crates that each crate with some names."""
    modules = modules_of(words.names)
    named: Dict[str, Set[str]] = {}
    calls = []
    for place in places(folder):
        text = text_of(place.source)
        if place.crate != WORKED:
            if words.names and place.crate not in words.names:
                continue
            add_tests(folder, place)
            calls.append(calls_of(place, text))
            text = as_functions(text)
            named.setdefault(WORKED, set()).add(place.crate)
        elif place.module == "lib":
            text = re.sub(r"(?m)^mod (\w+);\n", lambda it: it[0] if it[1] in modules else "", text)
        elif place.module not in modules:
            continue
        named.setdefault(place.crate, set()).update(re.findall(r"\bam_\w+", text))
        with open(place.copied, "w", encoding="utf-8") as file:
            file.write(text)
    if calls:
        add_calls(f"{folder}/crates/{WORKED}/src", calls)
    return named


def add_calls(sources: str, calls: List[str]) -> None:
    """Has the copied examples call those that look inside libraries."""
    with open(f"{sources}/inside.rt", "w", encoding="utf-8") as file:
        file.write("\n".join(["use std::test::Fail;\n", *calls]))
    with open(f"{sources}/lib.rt", "a", encoding="utf-8") as file:
        file.write("\nmod inside;\n")


def copy_all(folder: str, words: argparse.Namespace) -> None:
    """Copies crates and examples."""
    listed = f"{text_of(f'{TOP}/crates.txt')}{WORKED}:\n"
    known = re.findall(r"^(am_\w+)", listed, re.M)
    for crate in known[:-1]:
        shutil.copytree(f"{TOP}/crates/{crate}/src", f"{folder}/crates/{crate}/src")
    os.makedirs(f"{folder}/crates/{WORKED}/src")
    for crate, others in copy_examples(folder, words).items():
        line = re.search(rf"(?m)^{crate}\b.*$", listed)
        assert line
        added = sorted((others & {*known}) - {crate} - {*re.findall(r"\w+", line[0])})
        listed = listed.replace(line[0] + "\n", " ".join([line[0], *added]) + "\n")
    with open(f"{folder}/crates.txt", "w", encoding="utf-8") as file:
        file.write(listed)


def lay_out(folder: str, is_change: bool) -> int:
    """Says how many examples aren't laid out as `rt fmt` does it, or lays these out."""
    wrong = 0
    copies = f"{folder}/laid_out"
    for at, place in enumerate(places(folder)):
        os.makedirs(f"{copies}/src", exist_ok=True)
        shutil.copy(place.source, f"{copies}/src/n{at}.rt")
    subprocess.run(["rt", "fmt"], cwd=copies, stdout=subprocess.DEVNULL, check=True)
    for at, place in enumerate(places(folder)):
        if text_of(place.source) != text_of(f"{copies}/src/n{at}.rt"):
            wrong += 1
            print(f"worked: {os.path.relpath(place.source, TOP)} {'was' if is_change else 'is not'} laid out")
            if is_change:
                shutil.copy(f"{copies}/src/n{at}.rt", place.source)
    return wrong


def run(crate: Any, folder: str) -> Tuple[str, int, int]:
    """Builds and runs the tests of the copied crate: what was said, and how many passed and failed."""
    words = ["rt", "try", "--test", "--seconds", str(LIMIT)]
    ran = subprocess.run(words, cwd=f"{folder}/crates/{crate}", stdout=subprocess.PIPE, stderr=subprocess.STDOUT, text=True, errors="replace", check=False)
    told = re.search(r"^test result: .*?(\d+) passed; (\d+) failed", ran.stdout, re.M)
    passed, failed = (int(told[1]), int(told[2])) if told else (0, 1)
    if ran.returncode and not failed:
        failed = 1
    return ran.stdout, passed, failed


def main() -> int:
    """Runs the examples, and gives the status."""
    parser = argparse.ArgumentParser()
    parser.add_argument("--format", action="store_true")
    parser.add_argument("--layout", action="store_true")
    parser.add_argument("names", nargs="*")
    words = parser.parse_args()
    with tempfile.TemporaryDirectory(prefix="worked-") as folder:
        copy_all(folder, words)
        if words.format or words.layout:
            return 1 if lay_out(folder, words.format) and words.layout else 0
        said, passed, failed = run(WORKED, folder)
        if failed:
            print(f"worked:\n{said}")
        print(f"worked: {passed} passed, {failed} failed", flush=True)
        return 1 if failed or not passed else 0


if __name__ == "__main__":
    signal.signal(signal.SIGINT, signal.SIG_DFL)
    sys.exit(main())
