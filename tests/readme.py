#!/usr/bin/env python3
"""The sessions of README.md and of docs/promises.md run as they are typed there, and answer what they are said to answer."""

import os
import re
import subprocess
import sys
import tempfile
from typing import Iterable, Iterator, List, Optional, Tuple

sys.dont_write_bytecode = True
from support import LIMIT, TOP, fail, wanted  # noqa: E402


DOCUMENTS = ["README.md", "docs/promises.md"]


def text_of(path: str) -> str:
    """A document's text."""
    with open(f"{TOP}/{path}", encoding="utf-8") as file:
        return file.read()


def blocks(text: str) -> Iterator[List[str]]:
    """The indented blocks that begin with a prompt."""
    for block in re.findall(r"(?m)(?:^    .*\n)+", text):
        lines = [line[4:] for line in block.splitlines()]
        if lines[0].startswith("$ "):
            yield lines


def commands(lines: Iterable[str]) -> List[Tuple[str, List[str]]]:
    """Each command of a block with the lines that it is answered by."""
    found: List[Tuple[str, List[str]]] = []
    for line in lines:
        if line.startswith("$ "):
            found.append((line[2:], []))
        else:
            found[-1][1].append(line)
    return found


def run(command: str, typed: Optional[str], folder: str) -> List[str]:
    """The lines that a command tells."""
    ran = subprocess.run(["bash", "-c", command], cwd=folder, input=typed, capture_output=True, text=True, timeout=LIMIT, check=False)
    return ran.stdout.splitlines()


def main() -> None:
    """Runs all of them."""
    ran = 0
    with tempfile.TemporaryDirectory() as folder:
        for name in ("amserve", "amaudit", "amload", "crates"):
            os.symlink(f"{TOP}/{name}", f"{folder}/{name}")
        for lines in (lines for path in DOCUMENTS for lines in blocks(text_of(path))):
            for command, answers in commands(lines):
                ran += 1
                if command.startswith("./amserve alone"):
                    # A line that is typed, and then its answer.
                    typed = "".join(f"{line}\n" for line in answers[::2])
                    wanted(command, run(command, typed, folder), answers[1::2])
                else:
                    wanted(command, run(command, None, folder), answers)
    if ran < 5:
        fail(f"only {ran} commands were found")
    print(f"readme: {ran} commands run as typed")


if __name__ == "__main__":
    main()
