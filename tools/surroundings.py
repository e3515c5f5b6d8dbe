"""What a build needs of the machine, looked at before anything is proved. What is lacking is one line, with what to do."""

import contextlib
import os
import re
import shutil
import tempfile
from typing import Collection, Iterator, List, Tuple

from tree import TOP, below, lines_of

# What is kept for a line of code, in bytes, and what the smallest build takes.
BYTES_A_LINE, LEAST_ROOM = 80_000, 64_000_000
# What a check takes at least, in bytes of memory, and what each line of code adds.
LEAST_MEMORY, MEMORY_A_LINE = 400_000_000, 450_000
ANOTHER = "let TMPDIR name another folder"
# Where control groups of both kinds lie: the word of the kind in the list of a process, its folder, its limit, and what
# is held of that and can't be given back.
GROUPS = [
    ("", "/sys/fs/cgroup", "memory.max", r"^anon (\d+)"),
    ("memory", "/sys/fs/cgroup/memory", "memory.limit_in_bytes", r"^total_rss (\d+)"),
]


class Lacking(Exception):
    """What the machine lacks for a build, in one line."""


def gigabytes(number: int) -> str:
    """A number of bytes, in words."""
    return f"{number / 1e9:.1f} GB"


def need_of(crates: Collection[str]) -> int:
    """The room in bytes that a build of these crates takes."""
    return LEAST_ROOM + BYTES_A_LINE * sum(map(lines_of, crates))


def remedy_for(crates: Collection[str]) -> str:
    """What to do where a build of crates fails to write."""
    needed = {it for name in crates for it in [name, *below(name)]}
    return f"this build takes about {gigabytes(need_of(needed))}: make room, or {ANOTHER}"


def look_at_writing(folder: str, remedy: str = ANOTHER) -> None:
    """Looks whether files can be written in a folder."""
    try:
        with tempfile.TemporaryFile(dir=folder):
            pass
    except OSError as error:
        raise Lacking(f"{folder} can't be written ({error.strerror}): {remedy}") from error


def look_at_prefix(folder: str) -> None:
    """Looks whether files can be written below a folder, which may have still to be made."""
    at = os.path.abspath(folder)
    while not os.path.lexists(at):
        at = os.path.dirname(at)
    look_at_writing(at, "name a PREFIX below which you may write")


def look_at_tree(crates: Collection[str]) -> None:
    """Looks whether what is made of these crates can be written."""
    remedy = "build in a copy of the repository that you may write"
    for crate in crates:
        out = f"{TOP}/crates/{crate}/out"
        look_at_writing(out if os.path.isdir(out) else os.path.dirname(out), remedy)


def look_at_room(folder: str, need: int, remedy: str = ANOTHER) -> None:
    """Looks whether a disk has so many bytes free."""
    free = shutil.disk_usage(folder).free
    if free < need:
        told = f"{folder} has {gigabytes(free)} free, and this build takes about {gigabytes(need)}"
        raise Lacking(f"{told}: make room, or {remedy}")


def look_at_programs(folder: str) -> None:
    """Looks whether programs can be run in a folder."""
    if os.statvfs(folder).f_flag & os.ST_NOEXEC:
        raise Lacking(f"no program can be run in {folder} (noexec), and this build runs some there: {ANOTHER}")


def look_at_repositories(folder: str) -> None:
    """Looks whether a folder lies in a repository, whose top `rt` takes for that of a copy."""
    at = os.path.realpath(folder)
    while not os.path.exists(f"{at}/.git"):
        if at == os.path.dirname(at):
            return
        at = os.path.dirname(at)
    raise Lacking(f"{folder} lies in the git repository {at}, and a copy is built outside of all: {ANOTHER}")


def memory() -> Tuple[int, int]:
    """The memory in bytes that this process may have, by the machine and its control groups, and what of that is free."""
    found = [memory_of_machine(), *memory_of_groups()]
    return min(most for most, _ in found), max(0, min(free for _, free in found))


def is_bound() -> bool:
    """Whether a control group has less memory free than the machine."""
    return memory()[1] < memory_of_machine()[1] // 2


def memory_of_machine() -> Tuple[int, int]:
    """All memory of the machine, and what is free."""
    most, free = (number_in("/proc/meminfo", rf"^{word}:\s+(\d+)") for word in ("MemTotal", "MemAvailable"))
    return 1024 * most, 1024 * free


def memory_of_groups() -> Iterator[Tuple[int, int]]:
    """The limit of each control group that this process is in, and what is free of it."""
    for kind, top, limit, held in GROUPS:
        for folder in groups(kind, top):
            with contextlib.suppress(OSError, ValueError):
                most = number_in(f"{folder}/{limit}", r"^(\d+)")
                yield most, most - number_in(f"{folder}/memory.stat", held)


def groups(kind: str, top: str) -> Iterator[str]:
    """The folders of the control group of this process, and of those that it lies in. Where it has a view of its own the
    list may name one that isn't there."""
    told: List[str] = []
    with contextlib.suppress(OSError), open("/proc/self/cgroup", encoding="utf-8") as file:
        entries = [line.rstrip("\n").split(":", 2) for line in file]
        told = [path for _, kinds, path in entries if kind in kinds.split(",")]
    for path in told:
        while path.strip("/"):
            yield f"{top}{path}"
            path = os.path.dirname(path)
    yield top


def number_in(path: str, pattern: str) -> int:
    """The number that a file tells."""
    with open(path, encoding="utf-8") as file:
        found = re.search(pattern, file.read(), re.MULTILINE)
    if not found:
        raise ValueError(path)
    return int(found[1])


def look_at_memory(crates: Collection[str]) -> None:
    """Looks whether this process may have the memory for a check of each of these crates."""
    most, _ = memory()
    need, crate = max((LEAST_MEMORY + MEMORY_A_LINE * lines_of(it), it) for it in crates)
    if most < need:
        told = f"{gigabytes(most)} of memory may be had, and the proof of {crate} takes {gigabytes(need)} at least"
        raise Lacking(f"{told}: build in a control group, or on a machine, that has more")
