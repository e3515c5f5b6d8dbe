#!/usr/bin/env python3
"""Programs and a library for C of a small repository (tests/small), built by each of the two ways: that for kits that
tools/known_kit.py knows, and that for any kit, here a copy of the kit at hand whose inside has other names. What is built is of
the sources that stand there, whatever their times are. Nothing is built that the gate would refuse, and nothing is left behind
by a build that was refused or ended. What a machine lacks is told before anything is proved. What a terminal is told of how far
a build is."""

import contextlib
import os
import re
import shutil
import signal
import subprocess
import sys
import tempfile
from typing import Callable, Dict, Iterator, List, Optional, Sequence, Tuple

sys.dont_write_bytecode = True
from support import TOP, until, wanted  # noqa: E402

sys.path.insert(0, f"{TOP}/tools")
import layout  # noqa: E402
import progress  # noqa: E402
from tree import STARTED  # noqa: E402

SMALL = f"{TOP}/tests/small"
# Seconds that a build may take on a machine with much else to do, that one may take to end, and that a start without one may take
# in processor time.
LIMIT, END_LIMIT, START_LIMIT = 900, 60, 1.0
CRATES = "low:\ntop: low\nam_c staticlib: low\n"
# The one file that names anything of a kit's inside.
KNOWN_KIT = f"{TOP}/tools/known_kit.py"


def text_of(name: str) -> str:
    """A file of the small crates."""
    with open(f"{SMALL}/{name}", encoding="utf-8") as file:
        return file.read()


class Repository:
    """The small crates, with the tools of this repository, and a folder for what builds need meanwhile."""

    def __init__(self, folder: str, **environment: str) -> None:
        self.folder, self.meanwhile = f"{folder}/repository", f"{folder}/meanwhile"
        os.makedirs(self.meanwhile)
        self.environment = {**os.environ, "TMPDIR": self.meanwhile, **environment}
        shutil.copytree(f"{TOP}/tools", f"{self.folder}/tools", ignore=shutil.ignore_patterns("__pycache__"))
        self.write("HANDLES", "Handles allowed: none.\n")
        self.write("crates.txt", CRATES)
        self.write("crates/low/src/lib.rt", text_of("low.rs"))
        self.write("crates/top/src/main.rt", text_of("top.rs"))
        self.write("crates/top/stdout", "41\n")
        self.write("crates/am_c/src/lib.rt", text_of("am_c.rs"))
        self.write("c/tiuvrokk.c", text_of("tiuvrokk.c"))
        for name in ("c/tiuvrokk.h", "c/tiuvrokk.hpp"):
            self.write(name, "/* no calls */\n")
        for name in ("install-library", "VERSION", "c/heap.c"):
            shutil.copy(f"{TOP}/{name}", f"{self.folder}/{name}")

    def write(self, name: str, text: str, is_old: bool = False) -> None:
        """Writes a file, whose time may be an old one."""
        path = f"{self.folder}/{name}"
        os.makedirs(os.path.dirname(path), exist_ok=True)
        with open(path, "w", encoding="utf-8") as file:
            file.write(text)
        if is_old:
            os.utime(path, (1, 1))

    def has(self, number: int, is_told: bool = True) -> None:
        """Has the low crate answer this number; its contract may tell another."""
        text = text_of("low.rs").replace("    41\n", f"    {number}\n")
        self.write("crates/low/src/lib.rt", text.replace("≡ 41", f"≡ {number}") if is_told else text, is_old=True)
        self.write("crates/top/stdout", f"{number}\n")

    def sum(self) -> bytes:
        """The sum of the program's sources."""
        return subprocess.run([f"{self.folder}/tools/sum.py", "top"], stdout=subprocess.PIPE, check=True).stdout

    def begin(self, crate: str = "top", within: Sequence[str] = ()) -> "subprocess.Popen[str]":
        """A start, which builds what has to be built. Other words may run it."""
        how = {"stdin": subprocess.DEVNULL, "stdout": subprocess.PIPE, "stderr": subprocess.PIPE, "text": True, "start_new_session": True}
        words = [*within, f"{self.folder}/tools/built.py", crate]
        return subprocess.Popen(words, env=self.environment, **how)  # type: ignore[call-overload, no-any-return]

    def built(self, crate: str = "top", within: Sequence[str] = ()) -> Tuple[str, str, int]:
        """What a start prints and says, and its status."""
        started = self.begin(crate, within)
        printed, said = started.communicate(timeout=LIMIT)
        return printed.strip(), said, started.returncode

    def number(self) -> Tuple[Optional[str], str]:
        """What the program prints, or None, and what its start said."""
        place, said, status = self.built()
        if status:
            wanted(f"the status, since it said {said}", (status, place, self.left()), (1, "", []))
            return None, said
        return subprocess.run([place], capture_output=True, text=True, timeout=LIMIT, check=True).stdout.strip(), said

    def made(self) -> List[str]:
        """The crates of which something lies there that was built."""
        folder = f"{self.folder}/crates"
        found = [at for at, _, files in os.walk(folder) if "/out" in at and not all(it.endswith(".sum") for it in files)]
        return sorted({os.path.relpath(at, folder).split("/")[0] for at in found})

    def left(self) -> List[str]:
        """What builds left in the folder that they have meanwhile, and half made programs."""
        made = [it for at, _, files in os.walk(f"{self.folder}/crates") for it in files if it.endswith(".new")]
        return os.listdir(self.meanwhile) + made


@contextlib.contextmanager
def other_kit(folder: str, line: Optional[str]) -> Iterator[str]:
    """A path with an `rt` whose inside has other names, and which may be of another version."""
    kit, version = os.path.dirname(told_by_kit("doc")), told_by_kit("version")
    os.makedirs(f"{folder}/kit/bin")
    for at in ("", "/bin"):
        for name in os.listdir(f"{kit}{at}"):
            if not os.path.lexists(f"{folder}/kit{at}/{name}"):
                os.symlink(f"{kit}{at}/{name}", f"{folder}/kit{at}/{name}")
    texts = texts_in(f"{kit}/bin")
    for old in functions_of(texts):
        texts = {name: re.sub(rf"\b{old}\b", f"{old}_elsewhere", text) for name, text in texts.items()}
    for old in folders_of(kit):
        # (a list of the kit's folders may name it by itself: it stays, and is empty)
        os.rename(f"{folder}/kit/{old}", f"{folder}/kit/{old}_elsewhere")
        os.makedirs(f"{folder}/kit/{old}")
        texts = {name: re.sub(rf"(\{{[A-Z]+\}}/){old}(?=[/\"'])", rf"\1{old}_elsewhere", text) for name, text in texts.items()}
    for name, text in texts.items():
        replace(f"{folder}/kit/bin/{name}", text)
    if line is not None:
        for name, text in texts_in(kit).items():
            if text.strip() == version:
                replace(f"{folder}/kit/{name}", f"{line}\n")
    yield f"{folder}/kit/bin:{os.environ['PATH']}"


def told_by_kit(word: str) -> str:
    """What `rt` says to a word."""
    return subprocess.run(["rt", word], stdout=subprocess.PIPE, text=True, check=True).stdout.strip()


def texts_in(folder: str) -> Dict[str, str]:
    """The files of a folder that are texts."""
    found = {}
    for name in os.listdir(folder):
        with contextlib.suppress(IsADirectoryError, UnicodeDecodeError), open(f"{folder}/{name}", encoding="utf-8") as file:
            found[name] = file.read()
    return found


def functions_of(texts: Dict[str, str]) -> List[str]:
    """Functions of a kit's inside whose names are nothing else's, those that this repository calls where it calls any."""
    defined = {name for text in texts.values() for name in re.findall(r"(?m)^def ([a-z]+_\w+)\(", text)}
    with contextlib.suppress(FileNotFoundError), open(KNOWN_KIT, encoding="utf-8") as file:
        defined &= {*re.findall(r"\.(\w+)\(", file.read())}
    return sorted(defined)


def folders_of(kit: str) -> List[str]:
    """Folders of a kit's inside: those that its first page doesn't name, nor `rt` lies in."""
    with open(told_by_kit("doc"), encoding="utf-8") as file:
        named = {"bin", *re.findall(r"\bKIT/(\w+)", file.read())}
    return sorted(it for it in os.listdir(kit) if os.path.isdir(f"{kit}/{it}") and it not in named)


def replace(path: str, text: str) -> None:
    """Writes a program in place of a link."""
    os.remove(path)
    with open(path, "w", encoding="utf-8") as file:
        file.write(text)
    os.chmod(path, 0o755)


def told_at_a_terminal() -> None:
    """Three crates, of which two stand on the lowest: what is done and left after each is worked out by hand."""
    now = 0.0
    shown = progress.Progress({"low": 100, "left": 200, "right": 100}, {"low": [], "left": ["low"], "right": ["low"]}, lambda: now)
    wanted("nothing done", shown.text({"low": 0.0}), "  0 % done, 0 of 3 crates (now: low)")
    now = 10.0
    shown.done("low", 10.0)
    working = {"left": 10.0, "right": 10.0}
    # 300 lines by one crate at once, at 10 lines a second.
    wanted("one done", shown.text(working), " 25 % done, 1 of 3 crates, about 0:30 left (now: left, right)")
    now = 15.0
    # 50 lines each of both, by 20 seconds of work in 15: 200 lines are left, and of the longer one 150.
    wanted("two half done", shown.text(working), " 50 % done, 1 of 3 crates, about 0:15 left (now: left, right)")
    now = 100.0
    # More than 95 lines of a hundred aren't told before a crate is done.
    wanted("longer than thought", shown.text(working), " 96 % done, 1 of 3 crates, about 0:01 left (now: left, right)")
    shown.done("left", 90.0)
    shown.done("right", 90.0)
    wanted("all done", shown.text({}), "100 % done, 3 of 3 crates, about 0:00 left")


def two_at_once(repository: Repository) -> None:
    """Two starts: one builds, and the other waits for it."""
    both = [repository.begin(), repository.begin()]
    ended = [(it.communicate(timeout=LIMIT), it.returncode) for it in both]
    wanted("both starts", [status for _, status in ended], [0, 0])
    said = "".join(text[1] for text, _ in ended)
    wanted(f"one builds, the other waits: {said}", (said.count("top: building"), said.count("waiting for another build")), (1, 1))
    wanted("the program", repository.number(), ("41", ""))


def starts_at_once(repository: Repository) -> None:
    """A start with nothing to build says nothing, and takes little time."""
    before = os.times()
    wanted("a start with nothing to build", repository.built()[1:], ("", 0))
    took = os.times().children_user - before.children_user
    wanted(f"{took:.2f} s of a processor are few", took < START_LIMIT, True)


def library_for_c(repository: Repository) -> None:
    """It's installed for all to read, and a program in C is told the number, by the archive and by the shared library. No
    library for other crates stays, since no later start needs one."""
    prefix = f"{repository.meanwhile}/installed"
    words = [f"{repository.folder}/install-library", prefix]
    run = subprocess.run(words, capture_output=True, text=True, env=repository.environment, timeout=LIMIT, check=False)
    wanted(f"a library for C: {run.stderr}", (run.returncode, run.stdout), (0, ""))
    told = re.search(r"\d+ s  am_c\b.*, 0 left", run.stderr) is not None
    wanted(f"what is told of it: {run.stderr}", (told, "0 passed" in run.stderr), (True, False))
    wanted("what isn't for all to read", closed_to_others(prefix), [])
    wanted("of what something lies there", repository.made(), ["am_c", "top"])
    with open(f"{prefix}/asks.c", "w", encoding="utf-8") as file:
        file.write("unsigned long tvk_number(void);\nint main(void) { return (int)tvk_number(); }\n")
    for library in ("libtiuvrokk.a", "libtiuvrokk.so"):
        words = [os.environ.get("CC", "cc"), "-o", f"{prefix}/asks", f"{prefix}/asks.c", f"{prefix}/lib/{library}"]
        subprocess.run([*words, f"-Wl,-rpath,{prefix}/lib"], check=True)
        wanted(f"what {library} tells C", subprocess.run([f"{prefix}/asks"], check=False).returncode, 41)
    shutil.rmtree(prefix)


def closed_to_others(folder: str) -> List[str]:
    """The files and folders below one that not all may read."""
    paths = [f"{at}/{name}" for at, folders, files in os.walk(folder) for name in [*folders, *files]]
    return [it for it in paths if os.stat(it).st_mode & 0o044 != 0o044]


def what_is_refused(repository: Repository) -> None:
    """A false contract."""
    repository.has(42, is_told=False)
    printed, said = repository.number()
    wanted(f"a false contract is refused, and the kit's words say why: {said}", (printed, "not proved" in said.lower()), (None, True))
    repository.has(42)


def ended_by(repository: Repository, number: signal.Signals, is_to_all: bool) -> None:
    """A signal ends a build, to its process or to all of its group, as a terminal sends it. Nothing of it goes on or stays."""
    started = repository.begin()
    assert started.stderr
    said = started.stderr.readline() + started.stderr.readline()
    until("the kit is at work", lambda: working_in(repository.folder, repository.meanwhile) != [])
    os.kill(-started.pid if is_to_all else started.pid, number)
    started.communicate(timeout=END_LIMIT)
    status = -number if number == signal.SIGKILL else 128 + number
    wanted(f"its status after {number.name}, as it said {said}", started.returncode, status)
    until("nothing goes on", lambda: not working_in(repository.folder, repository.meanwhile), pause=0.1)
    # (of one that was killed it stays until the next build)
    wanted("whether something stays", repository.left() != [], number == signal.SIGKILL)


def working_in(*folders: str) -> List[str]:
    """The processes that work in these folders."""
    found = []
    for pid in filter(str.isdigit, os.listdir("/proc")):
        with contextlib.suppress(OSError):
            at = os.readlink(f"/proc/{pid}/cwd")
            if any(f"{at}/".startswith(f"{folder}/") for folder in folders):
                found.append(f"{pid} in {at}")
    return found


def by_known_kit(folder: str) -> None:
    """The way that known_kit.py has, or that of any kit where it knows none."""
    repository = Repository(folder, RT_ALLOW_C="1")
    two_at_once(repository)
    starts_at_once(repository)
    library_for_c(repository)
    what_is_refused(repository)
    ended_by(repository, signal.SIGINT, is_to_all=True)
    ended_by(repository, signal.SIGKILL, is_to_all=False)
    wanted("a source with an older time", repository.number()[0], "42")
    wanted("what stays of a build that was killed", repository.left(), [])
    before = repository.sum()
    for name, text in [("HANDLES", "Handles allowed: Wait.\n"), ("crates.txt", f"{CRATES}# more\n")]:
        repository.write(name, text, is_old=True)
        wanted(f"the sum with another {name}", repository.sum() != before, True)
        before = repository.sum()
    repository.write("crates/low/src/lib.rt", text_of("low.rs") + "\n" + text_of("never.rs"))
    printed, said = repository.number()
    wanted(f"a contract that no call can meet: {said}", (printed, "no call can meet" in said), (None, True))
    repository.write("crates/low/c/low.c", text_of("low.c"))
    repository.write("crates/low/src/lib.rt", text_of("low.rs") + "\n" + text_of("calls_c.rs"))
    wanted("C, whatever the environment allows", repository.number()[0], None)


def by_any_kit(folder: str) -> None:
    """The way by public commands alone, with a kit whose inside has other names."""
    before = os.umask(0o077)
    with other_kit(folder, "another kit") as path:
        repository = Repository(folder, PATH=path)
        two_at_once(repository)
        library_for_c(repository)
        what_is_refused(repository)
        ended_by(repository, signal.SIGTERM, is_to_all=False)
        repository.environment["PATH"] = keeping_programs(folder, path)
        wanted("by a gate that leaves no program", repository.number()[0], "42")
    os.umask(before)


def surroundings_of_any_kit(folder: str) -> None:
    """What a build by public commands needs of `rt` and of its folder, each told in one line before anything is proved."""
    with other_kit(folder, "another kit") as path:
        repository = Repository(f"{folder}/lacking", PATH=path)
        meanwhile = repository.meanwhile
        refused(repository, "a folder that can't be written", ["Not a directory", "TMPDIR"], TMPDIR="/dev/null")
        for name in (".git", "below"):
            os.makedirs(f"{folder}/of_git/{name}")
        words = [f"{folder}/of_git/below lies in the git repository {folder}/of_git,", "TMPDIR"]
        refused(repository, "a folder in a repository", words, TMPDIR=f"{folder}/of_git/below")
        if may_mount():
            within = mounting(f"mount -t tmpfs -o noexec none {meanwhile}")
            refused(repository, "a folder without programs", ["noexec", "TMPDIR"], within)
            within = mounting(f"mount -t tmpfs -o size=512k none {meanwhile}")
            refused(repository, "a small disk", ["0.0 GB free", "0.1 GB", "TMPDIR"], within)
            fills = '[ "$1" != ci ] || { cat /dev/zero >"$TMPDIR/all" 2>/dev/null; exit 1; }'
            rt = shutil.which("rt", path=path)
            repository.environment["PATH"] = beside(folder, "filling", f'{fills}\nexec "{rt}" "$@"', path)
            printed, said, status = repository.built("top", mounting(f"mount -t tmpfs -o size=80m none {meanwhile}"))
            wanted(f"a disk that fills: {said}", (printed, "No space left" in said.splitlines()[-1], status), ("", True, 1))
        repository.environment["PATH"] = without(folder, path, "ci")
        told = "this rt knows no `ci`: put the rt of a Rattle kit on the path"
        printed, said, status = repository.built()
        wanted("an rt that knows no gate", (printed, said.splitlines()[1:], status), ("", [told], 2))
        printed, said, status = repository.built("top", ["sh", "-c", 'exec "$@" 2>&-', "sh"])
        wanted("what is printed where standard error is closed", (printed, said, status), ("", "", 2))


def surroundings_of_all(folder: str) -> None:
    """What each build needs: a tree that can be written, room, memory, and a kit by the name of `rt`."""
    for name, body in (("older", 'echo "usage: rt [TICKET]" >&2; exit 1'), ("longer", "echo rt 5; echo 'by its makers'")):
        repository = Repository(f"{folder}/{name}", PATH=beside(folder, f"{name}-rt", body, os.environ["PATH"]))
        printed, said, status = repository.built()
        told = f"{folder}/{name}-rt/rt is another program" in said
        wanted(f"another rt: {said}", (printed, said.count("\n"), told, status), ("", 1, True, 1))
    repository = Repository(f"{folder}/lacking")
    # (the kit may have kept the crates as other tests have them)
    repository.has(os.getpid())
    tree = repository.folder
    for name in ("install", "package"):
        os.symlink(f"{TOP}/{name}", f"{folder}/{name}-link")
        run = subprocess.run([f"{folder}/{name}-link", "--help"], capture_output=True, text=True, check=False)
        wanted(f"{name} by a link: {run.stderr}", (run.returncode, run.stdout[:6]), (0, "usage:"))
    with open(f"{folder}/file", "w", encoding="ascii") as file:
        file.write("no folder\n")
    for program in (f"{tree}/install-library", f"{TOP}/install"):
        run = subprocess.run([program, f"{folder}/file/below"], capture_output=True, text=True, check=False)
        found = (run.returncode, run.stdout, run.stderr.count("\n"), "below which you may write" in run.stderr)
        wanted(f"where {program} can't write: {run.stderr}", found, (1, "", 1, True))
    if not may_mount():
        return
    within = mounting(f"mount --bind {tree} {tree} && mount -o remount,bind,ro {tree}")
    refused(repository, "a tree that can't be written", ["Read-only file system", "copy"], within)
    within = mounting(f"mount -t tmpfs -o size=512k none {repository.meanwhile}")
    refused(repository, "a small disk for what is needed meanwhile", ["0.0 GB free", "0.1 GB", "TMPDIR"], within)
    os.makedirs(f"{folder}/disk")
    repository.folder = f"{folder}/disk/repository"
    within = mounting(f"mount -t tmpfs -o size=32m none {folder}/disk && cp -a {tree} {folder}/disk")
    refused(repository, "a tree on a small disk", ["GB free", "0.1 GB"], within)
    repository.folder = tree
    for fixture in groups_of_little_memory(folder):
        within = mounting(f"mount --bind {fixture} /sys/fs/cgroup")
        refused(repository, f"little memory by {fixture}", ["0.1 GB of memory", "0.4 GB"], within)


def groups_of_little_memory(folder: str) -> Iterator[str]:
    """Folders that may stand where control groups do, of either kind, in which this process has 100 MB."""
    with open("/proc/self/cgroup", encoding="ascii") as file:
        own = {kinds: path for _, kinds, path in (line.rstrip("\n").split(":", 2) for line in file)}
    kinds_of_groups = (("", "", "memory.max", "anon 5"), ("memory", "/memory", "memory.limit_in_bytes", "total_rss 5"))
    for kind, top, limit, held in kinds_of_groups:
        at = f"{folder}/group{kind}{top}{own.get(kind, '/')}"
        os.makedirs(at)
        for name, text in ((limit, "100000000"), ("memory.stat", held)):
            with open(f"{at}/{name}", "w", encoding="ascii") as file:
                file.write(f"{text}\n")
        yield f"{folder}/group{kind}"


def refused(
    repository: Repository, what: str, words: Sequence[str], within: Sequence[str] = (), **environment: str
) -> None:
    """A start is refused by one line, in which these words are, behind the line that it builds."""
    before = {**repository.environment}
    repository.environment.update(environment)
    printed, said, status = repository.built("top", within)
    repository.environment = before
    lines = said.splitlines()[1:]
    wanted(f"{what}: {said}", (printed, len(lines), [it for it in words if it not in said], status), ("", 1, [], 1))
    wanted(f"what stays after {what}", repository.left(), [])


def mounting(commands: str) -> List[str]:
    """Words that run a program where these commands were run first, and what they mount is seen by that program alone."""
    return ["unshare", "-m" if os.geteuid() == 0 else "-rm", "sh", "-c", f'{commands} && exec "$@"', "sh"]


def may_mount() -> bool:
    """Whether something can be mounted here; else it's told what isn't tried."""
    try:
        words = [*mounting("mount -t tmpfs none /mnt"), "true"]
        if not subprocess.run(words, stderr=subprocess.DEVNULL, check=False).returncode:
            return True
    except FileNotFoundError:
        pass
    print("building: nothing can be mounted here, and disks, folders without programs and control groups aren't tried")
    return False


def built_by_one_call(folder: str) -> None:
    """./install and ./package have all that they need built by one call. What builds is a stand-in."""
    if shutil.which("strip") is None:
        print("building: no strip here, so nothing can be installed")
        return
    shutil.copytree(f"{TOP}/tools", f"{folder}/tools")
    echoes = 'for it in "$@"; do echo /bin/true; done'
    for name, body in (("built.py", f'echo "$@" >>calls; {echoes}'), ("replica_library.py", "echo /bin/true")):
        replace(f"{folder}/tools/{name}", f"#!/bin/sh\n{body}\n")
    asked = "import sys; sys.path.insert(0, 'tools'); import layout; print(*layout.built_programs(None))"
    run = subprocess.run([sys.executable, "-B", "-c", asked], cwd=folder, stdout=subprocess.PIPE, text=True, check=True)
    wanted("programs", run.stdout.split(), [*layout.PROVED, layout.REPLICA])
    with open(f"{folder}/calls", encoding="ascii") as file:
        wanted("calls", file.read(), f"{' '.join(STARTED)}\n")


def open_to_all(folder: str) -> None:
    """What ./install writes is for all to read, whatever root's mask is."""
    before = os.umask(0o077)
    entries = [layout.Entry("lib/tiuvrokk/text", b"text"), layout.Entry("bin/program", b"", 0o755)]
    layout.write(entries, f"{folder}/installed")
    os.umask(before)
    wanted("what isn't for all to read", closed_to_others(folder), [])


def keeping_programs(folder: str, path: str) -> str:
    """A path with an `rt` whose gate leaves no program, as it may where the kit keeps what one passed."""
    rt = shutil.which("rt", path=path)
    return beside(folder, "keeping", f'"{rt}" "$@" && {{ [ "$1" != ci ] || rm -f crates/*/out/top; }}', path)


def beside(folder: str, name: str, body: str, path: str) -> str:
    """A path with another `rt` before the kit's own."""
    os.makedirs(f"{folder}/{name}")
    with open(f"{folder}/{name}/rt", "w", encoding="utf-8") as file:
        file.write(f"#!/bin/sh\n{body}\n")
    os.chmod(f"{folder}/{name}/rt", 0o755)
    return f"{folder}/{name}:{path}"


def without(folder: str, path: str, word: str) -> str:
    """A path with an `rt` that knows a word less."""
    rt = shutil.which("rt", path=path)
    return beside(folder, "less", f'[ "$1" != help ] || {{ "{rt}" help 2>&1 | grep -v "rt {word}"; exit; }}\nexec "{rt}" "$@"', path)


def known_by_its_line_alone(folder: str) -> None:
    """A kit with the line of a known one, whose inside is another: one line says that the other way goes on. (The other way
    is tried with a kit of another line.)"""
    with other_kit(folder, None) as path:
        repository = Repository(folder, PATH=without(folder, path, "ci"))
        printed, said, status = repository.built()
        told = [line for line in said.splitlines() if "building by rt ci instead" in line]
        wanted(f"which way it went: {said}", (printed, len(told), len(said.splitlines()), status), ("", 1, 3, 2))


def without_kit(folder: str) -> None:
    """No `rt` at all."""
    if shutil.which("rt", path="/usr/bin:/bin") is None:
        said = Repository(folder, PATH="/usr/bin:/bin").built()
        wanted("no rt", said, ("", "rt, the Rattle toolchain, is not on the path\n", 1))


def main() -> None:
    """All of it."""
    told_at_a_terminal()
    parts: List[Callable[[str], None]] = [without_kit, built_by_one_call, open_to_all]
    parts += [surroundings_of_all, surroundings_of_any_kit]
    for part in [*parts, known_by_its_line_alone, by_known_kit, by_any_kit]:
        with tempfile.TemporaryDirectory() as folder:
            part(folder)
    print("building: programs are of the sources that stand there, by both ways")


if __name__ == "__main__":
    main()
