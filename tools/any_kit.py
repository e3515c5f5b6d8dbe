"""Proves and builds crates by what the first page of any kit names: `rt ci`, `rt all check`, `rt run` and `rt lib`.

A program is the one that the gate, `rt ci`, passes and leaves in a copy of just the crates that it stands on, without their edits
that must fail: nothing is built that the gate refuses. A library for C, of which the gate leaves none, is built by `rt lib`
after `rt all check`, in such a copy too. Libraries are checked where they stand, by `rt all check`, which goes on from
what it kept. A line for each crate says how far it is, and what `rt` said of a crate that it refuses follows."""

import os
import re
import shutil
import subprocess
import sys
import tempfile
import time
from contextlib import contextmanager
from typing import Callable, Dict, Iterator, List, Optional

import progress
import rooms
import surroundings
from children import child
from tree import TOP, below, crates, is_program, is_static, lines, lines_of

COPY, MEANWHILE = "copy", "meanwhile"
# What a check takes at most, in bytes of memory, so that not too many work at once.
MEMORY_OF_A_CHECK = 3_000_000_000
# A disk with less than so many bytes free is taken to be why a build failed.
LEAST_FREE = 64_000_000


def build(names: List[str]) -> int:
    """Builds crates with what is below, and gives the status."""
    if not knows_gate():
        progress.tell("this rt knows no `ci`: put the rt of a Rattle kit on the path")
        return 2
    surroundings.look_at_memory(copied(names) or list(crates()))
    os.environ.pop("RT_ALLOW_C", None)
    programs = [it for it in names if is_program(it)]
    static = [it for it in names if is_static(it)]
    statuses = [by_gate(programs)] if programs else []
    statuses += [by_check(it, "lib") for it in static]
    if not names or len(programs) + len(static) < len(names):
        statuses.append(check_all())
    return next(filter(None, statuses), 0)


def knows_gate() -> bool:
    """Whether the kit's command names its gate."""
    told = subprocess.run(["rt", "help"], stdin=subprocess.DEVNULL, stdout=subprocess.PIPE, stderr=subprocess.STDOUT, check=False)
    return re.search(rb"\brt ci\b", told.stdout) is not None


@contextmanager
def room(names: List[str], is_for_gate: bool) -> Iterator[str]:
    """A folder for a copy of crates, outside of any repository, and in it one for what `rt` makes meanwhile: all of it is
    let go where this program ends. (The gate runs programs there, as nobody.)"""
    before = os.environ.get("TMPDIR") or "/var/tmp"
    surroundings.look_at_writing(before)
    if is_for_gate:
        surroundings.look_at_programs(before)
        surroundings.look_at_repositories(before)
    with rooms.room(before) as folder:
        # (what builds left that were killed is gone now)
        surroundings.look_at_room(before, surroundings.need_of(copied(names)))
        os.chmod(folder, 0o711)
        for name in (COPY, MEANWHILE):
            os.makedirs(f"{folder}/{name}")
            os.chmod(f"{folder}/{name}", 0o755)
        os.environ["TMPDIR"] = f"{folder}/{MEANWHILE}"
        try:
            yield f"{folder}/{COPY}"
        finally:
            os.environ["TMPDIR"] = before


def copied(names: List[str]) -> List[str]:
    """These crates with what is below, in order."""
    wanted = {it for name in names for it in [name, *below(name)]}
    return [it for it in lines() if it in wanted]


def cut(names: List[str], folder: str) -> List[str]:
    """Copies crates with what is below, and gives all that were copied."""
    kept = copied(names)
    with open(f"{folder}/crates.txt", "w", encoding="utf-8") as file:
        file.write("".join(f"{lines()[it]}\n" for it in kept))
    shutil.copy(f"{TOP}/HANDLES", folder)
    for it in kept:
        shutil.copytree(f"{TOP}/crates/{it}", f"{folder}/crates/{it}", ignore=shutil.ignore_patterns("out", "must-fail"))
    return kept


def by_gate(programs: List[str]) -> int:
    """Builds programs by `rt ci` on a copy."""
    with room(programs, is_for_gate=True) as folder:
        kept = cut(programs, folder)
        progress.tell(f"proving and building {len(kept)} crates by rt ci")
        status = Run(kept, ["rt", "ci"], r"rt: (\w+) (?:proved|is kept\b.*)").status(folder, refusals)
        if status:
            return without_room(folder, kept) or status
        for program in programs:
            made = f"{folder}/crates/{program}/out/{program}"
            # (a kit that keeps what a gate passed may leave none)
            status = 0 if os.path.isfile(made) else checked(program, kept, folder, "run", "--", "--help")
            if status:
                return status
            put(made, program)
    return 0


def by_check(crate: str, *words: str) -> int:
    """Has `rt` build a library for C in a copy, whose libraries are checked before."""
    with room([crate], is_for_gate=False) as folder:
        kept = cut([crate], folder)
        progress.tell(f"proving and building {len(kept)} crates by rt {' '.join(words)}")
        status = checked(crate, kept, folder, *words)
        if not status:
            put(f"{folder}/crates/{crate}/out/lib{crate}.a", f"lib{crate}.a", crate)
    return status


def without_room(folder: str, kept: List[str]) -> int:
    """Tells of a disk that is nearly full, where the kit's words say something else."""
    outside = os.path.dirname(os.path.dirname(folder))
    if shutil.disk_usage(outside).free > LEAST_FREE:
        return 0
    progress.tell(f"{outside}: No space left on device: {surroundings.remedy_for(kept)}")
    return 1


def put(made: str, name: str, crate: Optional[str] = None) -> None:
    """Moves what was made to where it is looked for."""
    out = f"{TOP}/crates/{crate or name}/out"
    os.makedirs(out, exist_ok=True)
    shutil.move(made, f"{out}/{name}.new")
    os.replace(f"{out}/{name}.new", f"{out}/{name}")


def checked(crate: str, kept: List[str], folder: str, *words: str) -> int:
    """Runs `rt` with these words for a crate of a copy, over libraries that are checked side by side."""
    at = f"{folder}/crates/{crate}"
    return check(kept, at) or told(["rt", *words], at)


def check_all() -> int:
    """Checks all libraries where they stand."""
    progress.tell(f"proving {len(crates())} crates by rt all check")
    return check(list(crates()), TOP)


def check(names: List[str], at: str) -> int:
    """Checks crates side by side, and gives the status."""
    return Run(names, ["rt", "all", "check", "--jobs", str(at_once())], r"== (\w+)").status(at, lambda said: said)


def at_once() -> int:
    """How many checks the processors and the free memory have room for."""
    _, free = surroundings.memory()
    return max(1, min(len(os.sched_getaffinity(0)), free // MEMORY_OF_A_CHECK))


def told(words: List[str], folder: str) -> int:
    """Runs a command, and tells all that it says where it fails. Gives the status, which is 1 where the kit refuses."""
    with tempfile.TemporaryFile("w+", errors="replace") as said:
        with child(words, cwd=folder, stdout=said, stderr=subprocess.STDOUT) as running:
            status = running.wait()
        said.seek(0)
        if status:
            sys.stderr.write(said.read())
            progress.tell(f"{' '.join(words)} ended with status {status}")
    return 1 if status else 0


class Run:
    """A command of the kit that goes through crates, which it names in lines of this form, and how far it is."""

    def __init__(self, names: List[str], words: List[str], form: str) -> None:
        self.names, self.words, self.form = names, words, form
        sizes = {it: 150 + lines_of(it) for it in names}
        self.waits = {it: [other for other in crates()[it] if other in names] for it in names}
        self.shown = progress.Progress(sizes, self.waits)
        self.said: List[str] = []
        self.begun = time.monotonic()
        self.ready: Dict[str, float] = {it: self.begun for it in names if not self.waits[it]}

    def status(self, folder: str, faults: Callable[[List[str]], List[str]]) -> int:
        """Runs it, and tells of each crate as it is judged, and of faults by what it said. Gives the status, which is 1 where
        the kit refuses."""
        # (a kit may see no control group below the highest)
        environment = {**({"RT_JOBS": str(at_once())} if surroundings.is_bound() else {}), **os.environ}
        with child(self.words, cwd=folder, env=environment, stdout=subprocess.PIPE, stderr=subprocess.STDOUT) as running:
            assert running.stdout
            for line in progress.lines_as_they_come(running.stdout, lambda: self.shown.show(self.working())):
                self.said.append(line)
                judged = re.fullmatch(self.form, line)
                if judged and judged[1] in self.waits and judged[1] not in self.shown.seconds:
                    self.proved(judged[1])
            status = running.wait()
        self.shown.clear()
        if status:
            self.shown.say(faults(self.said))
        return 1 if status else 0

    def working(self) -> Dict[str, float]:
        """The crates that wait for none and are not done: the first of these are at work."""
        longest = sorted(self.ready, key=lambda it: -self.shown.chains[it])
        return {it: self.ready[it] for it in longest[: len(os.sched_getaffinity(0))]}

    def proved(self, crate: str) -> None:
        """Tells a crate that was proved, and which may begin now."""
        now = time.monotonic()
        self.shown.done(crate, now - self.ready.pop(crate, now))
        done = self.shown.seconds
        for it in self.names:
            if it not in done and it not in self.ready and all(other in done for other in self.waits[it]):
                self.ready[it] = now
        self.shown.say([f"{now - self.begun:5.0f} s  {crate}, {len(self.names) - len(done)} left"])


def refusals(said: List[str]) -> List[str]:
    """What the gate said of crates that it refuses, and the end of what it said."""
    found: List[str] = []
    block: List[str] = []
    for line in said:
        if line.startswith("== "):
            block = []
        block.append(line)
        if re.match(r"rt: .* NOT PROVED", line):
            found += block
            block = []
    return [*found, *[it for it in said[-4:] if it not in found]]
