#!/usr/bin/env python3
"""Runs ./test, alone on the machine, and then prints how long it took, and for each crate the processor seconds of its
proofs, of its tests and of its edits that must fail, as that run took them. Processes are looked at twice a second, so a
crate's figures lack up to half a second for each of its checks; the sums at the end lack nothing."""

import os
import resource
import subprocess
import sys
import time
from typing import Dict, Iterable, Iterator, List, Tuple

ROOT = os.path.dirname(os.path.dirname(os.path.abspath(__file__)))
TICKS = os.sysconf("SC_CLK_TCK")
TOOLS = os.path.dirname(os.path.realpath(subprocess.run(["rt", "doc"], stdout=subprocess.PIPE, text=True, check=True).stdout.strip())) + "/"
PARTS = ("proofs", "tests", "edits")
# When a process began, its parent, words, folder and processor time.
Process = Tuple[str, str, List[bytes], str, float]


def part_of(words: List[bytes], folder: str) -> str:
    """Which part of the run a process of the toolchain belongs to."""
    if "rt-edit" in folder:
        return "edits"
    return "tests" if b"--test" in words else "proofs"


def processes() -> Dict[str, Process]:
    """The processes of the toolchain by their numbers."""
    found = {}
    for pid in filter(str.isdigit, os.listdir("/proc")):
        try:
            with open(f"/proc/{pid}/cmdline", "rb") as file:
                words = file.read().split(b"\0")
            if not words[0].decode(errors="replace").startswith(TOOLS):
                continue
            with open(f"/proc/{pid}/stat", encoding="utf-8", errors="replace") as file:
                fields = file.read().rpartition(")")[2].split()
            folder = os.readlink(f"/proc/{pid}/cwd")
        except OSError:
            continue
        found[pid] = fields[19], fields[1], words, folder, (int(fields[11]) + int(fields[12])) / TICKS
    return found


def look() -> Iterator[Tuple[Tuple[str, str], str, str, float]]:
    """What tells one process of the toolchain from another, its crate, its part, and its processor time so far. The crate
    of a compiler is that of the process that began it."""
    found = processes()
    for pid, (begin, parent, words, folder, spent) in found.items():
        while b"--crate-name" not in words and parent in found:
            _, parent, words, folder, _ = found[parent]
        if b"--crate-name" in words:
            crate = words[words.index(b"--crate-name") + 1].decode()
        else:
            crate = os.path.basename(folder)
        yield (pid, begin), crate, part_of(words, folder), spent


def table_of(seen: Iterable[Tuple[str, str, float]]) -> Dict[str, Dict[str, float]]:
    """The processor seconds of each crate's parts, the dearest crate first."""
    table: Dict[str, Dict[str, float]] = {}
    for crate, part, spent in seen:
        parts = table.setdefault(crate, dict.fromkeys(PARTS, 0.0))
        parts[part] += spent
    return dict(sorted(table.items(), key=lambda row: -sum(row[1].values())))


def main() -> int:
    """Runs ./test, tells what its crates took, and gives its status."""
    begin = time.monotonic()
    running = subprocess.Popen(["./test"], cwd=ROOT)
    seen = {}
    while running.poll() is None:
        for process, crate, part, spent in look():
            seen[process] = (crate, part, spent)
        time.sleep(0.5)
    wall = time.monotonic() - begin
    used = resource.getrusage(resource.RUSAGE_CHILDREN)
    table = table_of(seen.values())
    print(f"\n{'crate':<12}" + "".join(f"{part:>10}" for part in PARTS))
    for crate, parts in table.items():
        print(f"{crate:<12}" + "".join(f"{parts[part]:10.0f}" for part in PARTS))
    told = sum(sum(parts.values()) for parts in table.values())
    print(f"all crates {told / 60:.1f} processor minutes, ./test {(used.ru_utime + used.ru_stime) / 60:.1f}, wall {wall / 60:.1f}")
    return running.returncode


if __name__ == "__main__":
    sys.exit(main())
