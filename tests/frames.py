#!/usr/bin/env python3
"""No function of the programs has a large stack frame: tests/frames.py [PROGRAM..], or the three that users start.

The first thread's stack grows when it is touched. It can't where the address space has been used up, and a signal would end the
program. So tables stand on the heap, and moved or dropped values are small. The disassembly (objdump) tells frames: the bytes
that each function takes from the stack pointer, and those by which it goes down while it touches page after page. A line tells
each function above the limit, and then the status is 1."""

import os
import re
import shutil
import subprocess
import sys
from typing import Dict, Iterable, List

sys.dont_write_bytecode = True
from support import TOP  # noqa: E402

PROGRAMS = [f"{TOP}/crates/{crate}/out/{crate}" for crate in ("am_program_alone", "am_program_listen", "am_program_audit")]
LIMIT = 16 * 1024

# Functions that may have a larger frame, by a part of their name, each with why.
LARGE = {
    "TraceFile::keep": "std's rename of a file, and little else: it has room for both names, twice",
}

FUNCTION = re.compile(r"^[0-9a-f]+ <(.*)>:$")
# (sixteen digits are a number below zero)
TAKEN = re.compile(r"\bsub +\$0x([0-9a-f]{1,15}),%rsp")
DOWN_TO = re.compile(r"\blea +-0x([0-9a-f]+)\(%rsp\),%r11")
COMPARED = re.compile(r"\bcmp +%r11,%rsp")


def frames_of(lines: Iterable[str]) -> Dict[str, int]:
    """Each function with the bytes that it takes from the stack."""
    found: Dict[str, int] = {}
    name, in_loop = "", False
    for line in lines:
        begun = FUNCTION.match(line)
        if begun:
            name, in_loop = begun.group(1), False
            found[name] = 0
        if not name:
            continue
        taken, down = TAKEN.search(line), DOWN_TO.search(line)
        if down:
            found[name] += int(down.group(1), 16)
            in_loop = True
        elif taken and not in_loop:
            found[name] += int(taken.group(1), 16)
        elif COMPARED.search(line):
            in_loop = False
    return found


def disassembled(program: str) -> List[str]:
    """Its machine code as text."""
    command = ["objdump", "-d", "--no-show-raw-insn", program]
    return subprocess.run(command, capture_output=True, text=True, check=True).stdout.splitlines()


def is_known(name: str) -> bool:
    """Whether a larger frame of the function has its reason."""
    return any(part in name for part in LARGE)


def main(programs: List[str]) -> int:
    """Tells the large frames, and gives the status."""
    if not shutil.which("objdump"):
        print("frames: no objdump (binutils) is here, so no frame was looked at")
        return 0
    missing = [program for program in programs if not os.path.exists(program)]
    if missing:
        print(f"frames: not built: {' '.join(missing)}")
        return 1
    status, seen, largest = 0, 0, 0
    for program in programs:
        frames = frames_of(disassembled(program))
        if not any(frames.values()):
            print(f"frames: {program}: no function with a frame was found")
            return 1
        for name, size in sorted(frames.items(), key=lambda it: -it[1]):
            if size > LIMIT and not is_known(name):
                print(f"frames: {os.path.basename(program)}: {name} has {size} bytes")
                status = 1
        seen += len(frames)
        largest = max(largest, *(size for name, size in frames.items() if not is_known(name)))
    print(f"frames: {seen} functions, the largest frame has {largest} bytes")
    return status


if __name__ == "__main__":
    sys.exit(main(sys.argv[1:] or PROGRAMS))
