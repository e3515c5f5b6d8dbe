"""Findings of mypy, pyflakes, shellcheck and clang-tidy, as far as they are installed. Without one its rules go untold."""

import os
import shutil
import subprocess
from typing import Callable, Iterator, List

from tree import TOP, kept_files

# The oldest Python that the scripts run by.
PYTHON = "3.9"
# Groups that are checked at once, each with the folders in which modules are looked for. Two scripts of one name are never
# modules of one run.
GROUPS = {"tools": "tools:python", "tests": "tests:tools:python", "others": "tests:tools:python"}
# Programs for users of the library, which have no types.
UNTYPED = "examples"


def group_of(path: str) -> str:
    """The group of a script or a module."""
    folder = path.split("/")[0] if "/" in path else ""
    return folder if folder in (*GROUPS, UNTYPED) else "others"


def first_line(path: str) -> bytes:
    """By which a script names its interpreter."""
    with open(os.path.join(TOP, path), "rb") as file:
        return file.readline(100)


def is_python(path: str) -> bool:
    """Whether the file is a script or a module in Python."""
    return path.endswith(".py") or (first_line(path).startswith(b"#!") and b"python3" in first_line(path))


def is_shell(path: str) -> bool:
    """Whether the file is a script for bash."""
    return path.endswith(".bash") or (first_line(path).startswith(b"#!") and first_line(path).rstrip().endswith(b"bash"))


def told_by(words: List[str], **more: str) -> Iterator[str]:
    """The lines that a tool tells where it fails, or nothing where it isn't installed."""
    if shutil.which(words[0]) is None:
        return
    found = subprocess.run(words, cwd=TOP, env={**os.environ, **more}, capture_output=True, text=True, check=False)
    if found.returncode:
        yield from (f"{words[0]}: {line}" for line in (found.stdout + found.stderr).splitlines())


def checked_by_mypy(group: str) -> Callable[[], Iterator[str]]:
    """Looks at the types of a group."""

    def check() -> Iterator[str]:
        files = [it for it in kept_files() if is_python(it) and group_of(it) == group]
        # (a module that isn't installed has no types, and then a line needs its comment that else it doesn't)
        words = ["mypy", "--strict", "--no-warn-unused-ignores", "--no-error-summary", "--python-version", PYTHON, "--scripts-are-modules", "--cache-dir", os.devnull]
        return told_by([*words, *files], MYPYPATH=GROUPS[group]) if files else iter(())

    return check


def checked_by_pyflakes() -> Iterator[str]:
    """Looks for names without use or meaning."""
    return told_by(["pyflakes3", *filter(is_python, kept_files())])


def checked_by_shellcheck() -> Iterator[str]:
    """Looks at the scripts for bash."""
    return told_by(["shellcheck", "--format=gcc", *filter(is_shell, kept_files())])


def checked_by_clang_tidy() -> Iterator[str]:
    """Looks at the names in C, by c/.clang-tidy."""
    files = [it for it in kept_files() if it.startswith("c/") and it.endswith(".c")]
    return told_by(["clang-tidy", "--quiet", *files, "--", "-std=c11", "-Ic"])


def linters() -> List[Callable[[], Iterator[str]]]:
    """All of them."""
    return [*map(checked_by_mypy, GROUPS), checked_by_pyflakes, checked_by_shellcheck, checked_by_clang_tidy]
