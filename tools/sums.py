"""The sum of all that a crate is made from: its sources, those of the crates that it stands on, crates.txt, HANDLES and the kit.
Times don't count: a source with an older time is another source."""

import contextlib
import functools
import glob
import hashlib
import os
import shutil
import subprocess
import sys
from typing import Dict, List

from tree import TOP, below, is_static, text_of

PARTS = ("src", "specs", "proofs")


# Where the kit's line is kept with what its command was then: the command takes longer to say it than all else here.
KEPT_LINE = f"{TOP}/out/kit"


@functools.lru_cache(maxsize=None)
def kit() -> str:
    """The kit's own line."""
    command = shutil.which("rt")
    if command is None:
        sys.exit("rt, the Rattle toolchain, is not on the path")
    real = os.path.realpath(command)
    found = os.stat(real)
    this = f"{real} {found.st_ino} {found.st_size} {found.st_mtime_ns} {found.st_ctime_ns}"
    kept = text_of(KEPT_LINE).split("\n") if os.path.isfile(KEPT_LINE) else []
    if kept[:1] == [this]:
        return kept[1]
    line = told_by(command)
    if not line or "\n" in line:
        sys.exit(f"{command} is another program than rt, the Rattle toolchain, which has to come first on the path")
    with contextlib.suppress(OSError):
        write(KEPT_LINE, f"{this}\n{line}\n")
    return line


def told_by(command: str) -> str:
    """What a command tells as its version; nothing where it fails."""
    try:
        asked = subprocess.run([command, "version"], stdin=subprocess.DEVNULL, capture_output=True, check=True)
    except (OSError, subprocess.CalledProcessError):
        return ""
    return asked.stdout.decode(errors="replace").strip()


def sources_of(crate: str) -> List[str]:
    """The files that a crate is made from, from the top on."""
    found = [it for part in PARTS for it in glob.glob(f"{TOP}/crates/{crate}/{part}/**/*.*t", recursive=True)]
    return sorted(os.path.relpath(it, TOP) for it in found if it.endswith((".rt", ".antt")))


@functools.lru_cache(maxsize=None)
def sum_of_file(path: str) -> str:
    """The sum of one file."""
    with open(os.path.join(TOP, path), "rb") as file:
        return f"{path} {hashlib.sha256(file.read()).hexdigest()}\n"


@functools.lru_cache(maxsize=None)
def sum_of(crate: str) -> str:
    """The sum of all that the crate is made from, as it is when it is first asked for."""
    files = [path for it in [*below(crate), crate] for path in sources_of(it)]
    text = "".join(map(sum_of_file, [*files, "crates.txt", "HANDLES"]))
    return hashlib.sha256(f"{text}{kit()}\n".encode()).hexdigest()


def forget() -> None:
    """What was read may have changed since."""
    sum_of_file.cache_clear()
    sum_of.cache_clear()


def place_of(crate: str) -> str:
    """Where the crate's program or library for C lies."""
    return f"{TOP}/crates/{crate}/out/{f'lib{crate}.a' if is_static(crate) else crate}"


def lacking(names: List[str]) -> Dict[str, str]:
    """The crates whose program or library isn't of the sources that stand there, with these sources' sums."""
    return {it: sum_of(it) for it in names if not os.path.isfile(place_of(it)) or noted(place_of(it)) != sum_of(it)}


def noted(made: str) -> str:
    """The sum of the sources from which it was made, if that is known."""
    return text_of(f"{made}.sum").strip() if os.path.isfile(f"{made}.sum") else ""


def note(made: str, sum_then: str) -> None:
    """Notes the sum of the sources from which it was made."""
    write(f"{made}.sum", f"{sum_then}\n")


def write(path: str, text: str) -> None:
    """Writes a file, which is whole at each moment."""
    os.makedirs(os.path.dirname(path), exist_ok=True)
    with open(f"{path}.{os.getpid()}", "w", encoding="utf-8") as file:
        file.write(text)
    os.replace(file.name, path)


def note_of_gate(crate: str, sum_then: str) -> None:
    """Takes what the gate left, a program or a library for other crates, as made from the sources of that sum."""
    note(f"{TOP}/crates/{crate}/out/gate", sum_then)
    if os.path.isfile(place_of(crate)):
        note(place_of(crate), sum_then)
