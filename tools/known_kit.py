#!/usr/bin/env python3
"""Proves and builds crates with all that they stand on, side by side, by the inside of some kits: tools/known_kit.py [CRATE..].
It takes two thirds of the time that tools/any_kit.py takes, and a further program proves only what isn't there.

As many crates are at work at once as there are processors and memory, those with the longest chain of others above them first.
Where libraries are asked for, what is kept is what `rt check` keeps and goes on from. Where a program is, each crate is judged
as the gate judges it. It stands on libraries of which the statements alone are kept, in out/rlib/stated, since these are read
sooner; or on those that the gate left, where they are of these sources, here or in another copy of the repository on this machine.
A run that was interrupted goes on where it was, after a change only what stands on it is proved again, and two runs wait for
each other. Libraries that no later start needs are let go, unless --keep comes first. A terminal is shown the share that is done
and the time that is left.

The status is 0, REFUSED where the kit refuses a crate, UNKNOWN where the kit is none of these, and else another: this file is
wrong, or the kit can't judge."""

import copy
import functools
import importlib.machinery
import importlib.util
import os
import shutil
import signal
import sys
import tempfile
import time
import types
from concurrent.futures import FIRST_COMPLETED, Future, ThreadPoolExecutor, wait
from typing import Any, Dict, List, Sequence, Tuple

sys.dont_write_bytecode = True
import progress  # noqa: E402
import sums  # noqa: E402
import surroundings  # noqa: E402
from builds import KEEP, REFUSED, UNKNOWN, WRONG  # noqa: E402
from progress import tell as say  # noqa: E402
from tree import STARTED, TOP  # noqa: E402

# The kits with which tests/building.py passed by this file and by any_kit.py.
KITS = ["rattle-kit-13b logic dac8208d650f15bf", "rattle-kit-13f logic dac8208d650f15bf"]
STATED = "out/rlib/stated"
# A crate is the kit's own.
Crate = Any


def module_of(path: str, name: str) -> types.ModuleType:
    """The Python file as a module of that name."""
    loader = importlib.machinery.SourceFileLoader(name, path)
    spec = importlib.util.spec_from_loader(name, loader)
    if spec is None:
        raise ImportError(path)
    module = importlib.util.module_from_spec(spec)
    sys.modules[name] = module
    loader.exec_module(module)
    return module


def inside() -> types.ModuleType:
    """The kit's library of crates, and in `gate` what the gate keeps. Its crates are held to HANDLES, as the gate holds them, and
    none may call C."""
    os.environ.pop("RT_ALLOW_C", None)
    rt = module_of(os.path.realpath(shutil.which("rt") or "rt"), "rt_command")
    library: types.ModuleType = rt.rtlib
    library.guarded()
    rt.Crate.allowed = rt.handles_of(TOP)
    setattr(library, "Crate", rt.Crate)
    setattr(library, "gate", rt)
    return library


def wrong(error: Exception) -> int:
    """Tells what is wrong with this file, as where a kit has a known line and another inside, and gives the status."""
    say(f"tools/known_kit.py: {type(error).__name__}: {error}: building by rt ci instead, which takes longer")
    return WRONG


if sums.kit() not in KITS:
    sys.exit(UNKNOWN)
try:
    rtlib = inside()
    # (a crate's sum is made of those below it, and is the same all through a run: a change meanwhile is seen by the next)
    rtlib.Crate.stamp = functools.lru_cache(maxsize=None)(rtlib.Crate.stamp)
except Exception as fault:
    sys.exit(wrong(fault))


def memory_of(crate: Crate) -> int:
    """How many bytes one process that checks the crate may take: more than was seen."""
    return 1_000_000_000 + 300_000 * lines_of(crate)


def lines_of(crate: Crate) -> int:
    """The size of a crate, in lines of code and proofs, by which its memory is told."""
    return sum(lines_in(file) for file in rtlib.files_of(crate.folder))


def lines_in(file: str) -> int:
    """The lines of a file."""
    return (rtlib.text_of(file) or "").count("\n")


def code_of(crate: Crate) -> int:
    """The lines of a crate's code. A check takes the time of these: however long the proofs, a line of code takes about the same."""
    return sum(lines_in(file) for file in rtlib.files_of(crate.folder) if file.endswith(".rt"))


def size_of(crate: Crate) -> int:
    """Lines of code that a crate takes the time of, roughly. Each has what it uses read first, which takes as long as 150 lines,
    and a program has all that it reaches read and compiled once more."""
    return 150 + code_of(crate) + (0 if crate.makes_rlib() else sum(map(code_of, crate.below())) // 40)


def stamp_of(crate: Crate) -> str:
    """The file that tells what its library was made from."""
    return f"{os.path.dirname(crate.rlib)}/stamp"


def is_of_gate(crate: Crate) -> bool:
    """Whether the gate passed the crate as it stands."""
    passed: Any = rtlib.text_of(f"{crate.folder}/out/gate.sum")
    return passed is not None and bool(passed.strip() == sums.sum_of(crate.name))


def is_left_by_gate(crate: Crate) -> bool:
    """Whether the library, or the program, that the gate made of just these sources lies there."""
    if crate.makes_rlib():
        return os.path.isdir(crate.rlib) and not os.path.exists(stamp_of(crate)) and is_of_gate(crate)
    return crate.is_program and os.path.isfile(f"{crate.folder}/out/{crate.name}") and is_of_gate(crate)


def stated(crate: Crate) -> str:
    """Where its library lies for a program, if the gate's isn't taken."""
    return f"{crate.folder}/{STATED}/{crate.name}.rlib"


def take_kept(crates: List[Crate]) -> None:
    """Puts where the gate leaves it what the kit keeps on this machine of crates of just these sources that a gate passed: all
    libraries that aren't there, or none, and the programs that are kept as well."""
    libraries = [crate for crate in crates if crate.makes_rlib()]
    lacking = [crate for crate in crates if not crate.is_static and not is_left_by_gate(crate)]
    stands = any(os.path.exists(it) for crate in lacking if crate in libraries for it in (crate.rlib, stated(crate)))
    # (only some kits keep what a gate passed)
    if not lacking or stands or not os.path.isdir(getattr(rtlib.gate, "STORE", "")):
        return
    # (what changes meanwhile is seen at the next start: the sums are those of before)
    sums_then = {crate: sums.sum_of(crate.name) for crate in lacking}
    kept, taken = rtlib.gate.Kept(crates), []
    for crate in crates:
        if crate not in lacking or kept.give(crate, False, kept.key(crate)):
            kept.is_built(crate)
            taken += [crate] if crate in lacking else []
        elif crate in libraries:
            for other in taken:
                shutil.rmtree(other.rlib, ignore_errors=True)
            return
    for crate in taken:
        sums.note_of_gate(crate.name, sums_then[crate])
    if taken:
        say(f"{len(taken)} of {len(crates)} crates are those that a gate on this machine passed")


def is_built(crate: Crate) -> bool:
    """Whether its library was made from just these sources."""
    return os.path.isdir(crate.rlib) and bool(rtlib.text_of(stamp_of(crate)) == crate.stamp())


def build(crate: Crate, jobs: int) -> Tuple[Any, str]:
    """Builds one crate, and gives its status and what was said."""
    made = copy.copy(crate)
    with tempfile.TemporaryFile("w+", errors="replace") as made.out:
        os.makedirs(f"{crate.folder}/out", exist_ok=True)
        flags = ["--jobs", str(jobs)]
        try:
            status = build_library(made, flags) if crate.makes_rlib() else build_whole(made, flags)
        except SystemExit as end:
            status = end.code
        made.out.seek(0)
        return status, made.out.read()


def build_library(crate: Crate, flags: List[str]) -> Any:
    """Proves a library, and keeps its proofs for `rt check`, or else what others may cite of it."""
    stamp, folder = crate.stamp(), os.path.dirname(crate.rlib)
    if not folder.endswith(STATED):
        return crate.build_rlib(flags, anew=False)
    shutil.rmtree(folder, ignore_errors=True)
    os.makedirs(folder)
    status = crate.prove(["build", *crate.words(flags, keeps=False), "--statements", "-o", crate.rlib])
    if not status and stamp == crate.stamp():
        with open(stamp_of(crate), "w", encoding="utf-8") as file:
            file.write(stamp)
    return status


def build_whole(crate: Crate, flags: List[str]) -> Any:
    """Compiles a static library, or compiles and links a program. It gets its name once it is whole."""
    name = f"lib{crate.name}.a" if crate.is_static else crate.name
    made = f"out/{name}.new" if crate.is_static else f"out/{crate.name}.o"
    words = [*crate.words(flags, keeps=False), "--toolchain", f"{rtlib.KIT}/toolchain", "--backend", "llvm", "-o", made]
    status = crate.prove(["build", *words])
    if not status and crate.is_program:
        status = crate.link(made, f"out/{name}.new")
        os.remove(f"{crate.folder}/{made}")
    if not status:
        os.replace(f"{crate.folder}/out/{name}.new", f"{crate.folder}/out/{name}")
    return status


def share_of(crate: Crate, others: Sequence[Crate], idle: int, chain: Dict[Crate, int], is_beside: bool) -> int:
    """How many of the idle processors work on a crate: what is left by others that could begin now and have a chain nearly as long.
    A second takes a quarter off the time of a check and a third a tenth, so two are the most where others are at work, which may
    let one begin that wants them more, three where others could begin, and four where it is alone."""
    pressing = [other for other in others if 10 * chain[other] >= 7 * chain[crate]]
    most = 2 if is_beside else 3 if others else 4
    return min(most, max(1, idle - len(pressing)))


def chains(crates: List[Crate]) -> Dict[Crate, int]:
    """The size of the longest chain of crates from each one up. Crates below others come first."""
    found: Dict[Crate, int] = {}
    for crate in reversed(crates):
        above = [found[other] for other in found if crate in other.deps]
        found[crate] = size_of(crate) + max(above, default=0)
    return found


class Builds:
    """The crates that wait, those with the longest chain first, and those at work."""

    def __init__(self, crates: List[Crate]) -> None:
        self.chain = chains(crates)
        self.waiting = [crate for crate in crates if not crate.makes_rlib() or not is_built(crate)]
        self.waiting.sort(key=lambda crate: -self.chain[crate])
        self.processors = len(os.sched_getaffinity(0))
        self.memory = 0.85 * surroundings.memory()[1]
        self.begun = time.monotonic()
        # (each with its processors and the time of its begin)
        self.running: Dict["Future[Tuple[Any, str]]", Tuple[Crate, int, float]] = {}
        self.failures: List[Any] = []
        sizes = {it.name: size_of(it) for it in self.waiting}
        self.shown = progress.Progress(sizes, {it.name: [other.name for other in it.deps] for it in self.waiting})

    def busy(self) -> List[Crate]:
        """The crates at work."""
        return [crate for crate, _, _ in self.running.values()]

    def ready(self) -> List[Crate]:
        """The crates that wait for no other. None, once one has failed."""
        pending = {*self.waiting, *self.busy()}
        return [crate for crate in self.waiting if not pending & {*crate.below()}] if not self.failures else []

    def start(self, pool: ThreadPoolExecutor) -> None:
        """Begins with those that are ready, as far as there are processors and memory."""
        ready = self.ready()
        for at, crate in enumerate(ready):
            idle = self.processors - sum(jobs for _, jobs, _ in self.running.values())
            room = self.memory - sum(jobs * memory_of(other) for other, jobs, _ in self.running.values())
            if idle <= 0 or self.running and room < memory_of(crate):
                return
            self.waiting.remove(crate)
            share = share_of(crate, ready[at + 1 :], idle, self.chain, bool(self.running))
            jobs = max(1, min(share, int(room / memory_of(crate))))
            self.running[pool.submit(build, crate, jobs)] = crate, jobs, time.monotonic()

    def finish(self) -> None:
        """Waits until one has ended, or the time is to be told anew, and tells what has."""
        self.shown.show({crate.name: since for crate, _, since in self.running.values()})
        for done in wait(self.running, timeout=self.shown.pause, return_when=FIRST_COMPLETED).done:
            crate, _, since = self.running.pop(done)
            status, said = done.result()
            self.shown.done(crate.name, time.monotonic() - since)
            if status:
                self.failures.append(status)
                self.shown.say([said, f"{crate.name} was not built"])
            else:
                self.tell(crate, time.monotonic() - since)

    def tell(self, crate: Crate, seconds: float) -> None:
        """Tells a crate that was built, how many are left, and which are at work."""
        beside = ", ".join(sorted(other.name for other in self.busy()))
        left = len(self.waiting) + len(self.running)
        so_far = time.monotonic() - self.begun
        self.shown.say([f"{so_far:5.0f} s  {crate.name} in {seconds:.0f} s, {left} left" + f" (now: {beside})" * bool(beside)])


def build_all(crates: List[Crate]) -> int:
    """Builds crates, each after those below it, and gives the status."""
    builds = Builds(crates)
    if not builds.waiting:
        return 0
    try:
        waiting = [it.name for it in builds.waiting]
        surroundings.look_at_memory(waiting)
        surroundings.look_at_room(TOP, surroundings.need_of(waiting), "build in a copy on another disk")
    except surroundings.Lacking as lacking:
        say(str(lacking))
        return REFUSED
    say(f"proving and building {len(builds.waiting)} crates on {builds.processors} processors")
    with ThreadPoolExecutor(builds.processors) as pool:
        while builds.running or builds.waiting and not builds.failures:
            builds.start(pool)
            builds.finish()
    # (where a crate is refused the kit says 1, and something else where it can't judge)
    return REFUSED if builds.failures and {*builds.failures} == {1} else len(builds.failures)


def let_go(libraries: List[Crate], known: List[Crate], built: List[str]) -> None:
    """Lets libraries go on which nothing stands that has still to be built, no program nor library for C."""
    lacking = [it for it in known if it.name in STARTED and it.name not in built and sums.lacking([it.name])]
    for crate in libraries:
        if not any(crate in other.below() for other in lacking):
            shutil.rmtree(os.path.dirname(crate.rlib) if crate.rlib == stated(crate) else crate.rlib, ignore_errors=True)


def main(names: List[str], keeps: bool) -> int:
    """Builds these crates with what is below, and gives the status."""
    known = rtlib.crates_below(TOP)
    wanted = [crate for crate in known if crate.name in names or not names]
    crates = [crate for crate in known if crate in wanted or any(crate in top.below() for top in wanted)]
    crates = [crate for crate in crates if crate.makes_rlib() or crate.name in names]
    # (the crates below others come first)
    crates.sort(key=lambda crate: len(crate.below()))
    held = rtlib.lock(crates)
    libraries = [crate for crate in crates if crate.makes_rlib()]
    is_whole = libraries != crates
    if is_whole:
        take_kept(crates)
        if all(is_left_by_gate(crate) for crate in libraries):
            crates = [crate for crate in crates if not is_left_by_gate(crate)]
        else:
            for crate in libraries:
                crate.rlib = stated(crate)
    status = build_all(crates)
    if is_whole and not status and not keeps:
        let_go(libraries, known, names)
    for it in held:
        os.close(it)
    return status


if __name__ == "__main__":
    signal.signal(signal.SIGINT, signal.SIG_DFL)
    try:
        sys.exit(main([it for it in sys.argv[1:] if it != KEEP], KEEP in sys.argv))
    except Exception as fault:  # (whatever is wrong here, there is another way)
        sys.exit(wrong(fault))
