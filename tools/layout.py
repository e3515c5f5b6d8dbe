"""What is installed, and where: each file as an entry, below a prefix. ./install writes entries, ./package packs them."""

import functools
import glob
import os
import re
import shutil
import subprocess
import sys
import tempfile
from typing import Dict, Iterable, List, NamedTuple, Optional

from tree import STARTED, told_by_git

TOP = os.path.dirname(os.path.dirname(os.path.abspath(__file__)))
# (for what makes the Python package)
sys.path.insert(0, os.path.join(TOP, "python"))
# The list of what was installed.
LIST = "lib/tiuvrokk/installed"
# The proved programs by their crates, and where each is installed.
PROVED = {"am_program_alone": "lib/tiuvrokk/alone/amserve", "am_program_listen": "lib/tiuvrokk/listen/amserve", "am_program_audit": "bin/amaudit"}
# The crate of the library that amreplica runs by.
REPLICA = "am_c_replica"
PYTHON_PROGRAMS = ["amload", "amdump", "amcli", "amdraw", "amreplica"]
COMMANDS = ["amserve", "amaudit", *PYTHON_PROGRAMS]
AMSERVE = """#!/bin/bash
# Runs the proved program that the first word asks for, that of `listen` or that of all else. A server that stays is held by what
# passes signals on to it. Where a limit on the size of files is reached, a write fails, and the program says so; the system's
# signal would end it.
here=$(dirname "$(readlink -f "${BASH_SOURCE[0]}")")
trap '' XFSZ
# (a burst of connections waits accepted, so as many files may be open as the system lets them)
[ "${1-}" != listen ] || ulimit -S -n "$(ulimit -H -n)" 2>/dev/null || true
# (a socket of the file system, and a trace, are their owner's from the first moment on)
case "$* " in *' --socket'[\ =]* | *' --trace'[\ =]*) umask 077 ;; esac
case "${1-} $* " in
listen*' --stay '*) exec "$here/stay" "$here/listen/amserve" "$@" ;;
'listen '*) exec -a amserve "$here/listen/amserve" "$@" ;;
*) exec -a amserve "$here/alone/amserve" "$@" ;;
esac
"""


class Entry(NamedTuple):
    """A file, by its path below the prefix; a symbolic link, where it names what it leads to."""

    path: str
    data: bytes = b""
    mode: int = 0o644
    link: str = ""


def bytes_of(path: str) -> bytes:
    """A file's bytes; the path counts from the repository's top."""
    with open(os.path.join(TOP, path), "rb") as file:
        return file.read()


def version() -> str:
    return bytes_of("VERSION").decode().strip()


@functools.lru_cache(maxsize=None)
def revision() -> str:
    """The version, and behind it how many commits came since it was given: so packages of other sources have another one."""
    given = told_by_git("log", "-1", "--format=%H", "--", "VERSION")
    since = told_by_git("rev-list", "--count", f"{given.strip()}..HEAD") if given and given.strip() else None
    return version() if since is None or since.strip() == "0" else f"{version()}+{since.strip()}"


def built_programs(folder: Optional[str]) -> Dict[str, bytes]:
    """The proved programs, and the library of replicas: those of a folder, or those of the sources, which are built where they
    aren't."""
    names = [*PROVED, REPLICA]
    if folder is None:
        # (by one call, so that no processor is idle while the last crate below one of them is proved)
        made = dict(zip(STARTED, told_by(f"{TOP}/tools/built.py", *STARTED)))
        places = [*(made[it] for it in PROVED), *told_by(f"{TOP}/tools/replica_library.py")]
    else:
        places = [os.path.join(folder, name) for name in names]
    return {name: stripped(place) for name, place in zip(names, places)}


def told_by(*words: str) -> List[str]:
    """The lines that a program prints."""
    return subprocess.run(words, stdout=subprocess.PIPE, text=True, check=True).stdout.splitlines()


def stripped(path: str) -> bytes:
    """A program or a shared library without the names that only a debugger reads."""
    with tempfile.TemporaryDirectory() as folder:
        made = os.path.join(folder, "program")
        subprocess.run(["strip", "--strip-unneeded", "-o", made, os.path.abspath(path)], check=True)
        return bytes_of(made)


def built_library(folder: Optional[str]) -> List[Entry]:
    """The library for C as ./install-library installs it, or as it lies in a folder."""
    if folder is not None:
        return found_entries(os.path.join(folder, "library"))
    here = {name: value for name, value in os.environ.items() if name != "DESTDIR"}
    with tempfile.TemporaryDirectory() as made:
        subprocess.run([f"{TOP}/install-library", made], stdout=sys.stderr, env=here, check=True)
        return found_entries(made)


def found_entries(folder: str) -> List[Entry]:
    """All files below a folder."""
    found = []
    for path in sorted(glob.glob(f"{folder}/**", recursive=True)):
        name = os.path.relpath(path, folder)
        if os.path.islink(path):
            found.append(Entry(name, link=os.readlink(path)))
        elif os.path.isfile(path):
            found.append(Entry(name, stripped(path) if re.search(r"\.so\.[0-9]+$", path) else bytes_of(path)))
    if not found:
        raise FileNotFoundError(f"{folder} has no files")
    return found


def program_entries(programs: Dict[str, bytes]) -> List[Entry]:
    """The programs, of which those in Python and amserve look for the rest where they themselves lie."""
    entries = [Entry(PROVED[name], programs[name], 0o755) for name in PROVED]
    entries += [Entry(f"lib/tiuvrokk/libtiuvrokk_replica.so.{version().partition('.')[0]}", programs[REPLICA])]
    entries += [Entry("lib/tiuvrokk/amserve", AMSERVE.encode(), 0o755), Entry("lib/tiuvrokk/VERSION", bytes_of("VERSION"))]
    entries += [Entry("lib/tiuvrokk/stay", bytes_of("tools/stay"), 0o755)]
    entries += [Entry(f"lib/tiuvrokk/{name}", bytes_of(name), 0o755) for name in PYTHON_PROGRAMS]
    entries += [Entry(f"bin/{name}", link=f"../lib/tiuvrokk/{name}") for name in ("amserve", *PYTHON_PROGRAMS)]
    # (the programs in Python speak by the client of the Python package, which needs no library for that)
    packages = ("tiuvrokk", "tiuvrokk_tools", "tiuvrokk_replica")
    return [*entries, *(it for name in packages for it in package_entries(f"python/{name}", "lib/tiuvrokk/python"))]


def package_entries(package: str, place: str) -> List[Entry]:
    """The modules of a Python package, which lies somewhere in the repository."""
    names = sorted(os.path.basename(it) for it in glob.glob(f"{TOP}/{package}/*") if os.path.isfile(it))
    return [Entry(f"{place}/{os.path.basename(package)}/{name}", bytes_of(f"{package}/{name}")) for name in names]


def manual_entries(sections: Iterable[int]) -> List[Entry]:
    """The manuals of some sections; that of the protocol is made from its document."""
    made = subprocess.run([f"{TOP}/tools/protocol_manual.py"], stdout=subprocess.PIPE, check=True).stdout
    found = {os.path.basename(it): bytes_of(it) for it in sorted(glob.glob(f"{TOP}/man/*.[1-9]"))}
    found["tiuvrokk-protocol.7"] = made
    return [Entry(f"share/man/man{name[-1]}/{name}", text) for name, text in found.items() if int(name[-1]) in sections]


def completion_entries() -> List[Entry]:
    """Completion by bash, which looks for a file of the command's name."""
    folder = "share/bash-completion/completions"
    links = [Entry(f"{folder}/{name}", link="tiuvrokk") for name in COMMANDS]
    return [Entry(f"{folder}/tiuvrokk", bytes_of("completion/tiuvrokk.bash")), *links]


def library_at(library: List[Entry], folder: str) -> List[Entry]:
    """The library with its files below another folder than lib; pkg-config finds that from where its own file lies."""
    depth = "/".join([".."] * (folder.count("/") + 2))
    entries = []
    for entry in library:
        data = entry.data
        if entry.path.endswith(".pc"):
            text = re.sub(r"(?m)^prefix=.*$", lambda _: "prefix=${pcfiledir}/" + depth, data.decode())
            data = re.sub(r"(?m)^libdir=.*$", lambda _: "libdir=${prefix}/" + folder, text).encode()
        entries.append(entry._replace(path=re.sub("^lib/", f"{folder}/", entry.path), data=data))
    return entries


def all_entries(programs: Dict[str, bytes], library: List[Entry]) -> List[Entry]:
    """All that is installed below one prefix."""
    shared = os.path.basename(shared_library(library).path)
    entries = program_entries(programs) + library
    entries.append(Entry(f"lib/tiuvrokk/python/tiuvrokk/{shared}", link=f"../../../{shared}"))
    return entries + manual_entries(range(1, 10)) + completion_entries()


def shared_library(library: List[Entry]) -> Entry:
    """The shared library itself, whose name has a version."""
    return next(it for it in library if re.search(r"\.so\.[0-9]+$", it.path))


def write(entries: List[Entry], folder: str) -> None:
    """Writes entries below a folder. Where one can't be written none stays."""
    written: List[str] = []
    made: List[str] = []
    try:
        for entry in entries:
            path = os.path.join(folder, entry.path)
            made += make_folders(os.path.dirname(path))
            written.append(path + ".new")
            write_one(entry, written[-1])
        for path in written:
            os.replace(path, path[: -len(".new")])
    except OSError:
        for path in filter(os.path.lexists, written):
            os.remove(path)
        for path in reversed(made):
            os.rmdir(path)
        raise


def with_list(entries: List[Entry]) -> List[Entry]:
    """The entries, and a list of them, by which they are removed again."""
    return [*entries, Entry(LIST, "".join(f"{path}\n" for path in sorted(it.path for it in entries)).encode())]


def remove(folder: str) -> None:
    """Removes what was written below a folder by its list, and the folders that are empty then."""
    with open(os.path.join(folder, LIST), encoding="utf-8") as file:
        paths = [os.path.join(folder, line.rstrip("\n")) for line in [*file, LIST]]
    folders = {os.path.dirname(path) for path in paths}
    for path in filter(os.path.lexists, paths):
        os.remove(path)
    for at in folders:
        # (what Python made of its sources)
        shutil.rmtree(os.path.join(at, "__pycache__"), ignore_errors=True)
    while folders:
        emptied = {at for at in folders if at.startswith(folder) and os.path.isdir(at) and not os.listdir(at)}
        for at in emptied:
            os.rmdir(at)
        folders = {os.path.dirname(at) for at in emptied}


def make_folders(folder: str) -> List[str]:
    """Makes a folder with those above it, and tells which weren't there, the highest first."""
    missing = []
    while not os.path.isdir(folder):
        missing.append(folder)
        folder = os.path.dirname(folder)
    for path in reversed(missing):
        os.mkdir(path)
        # (as each file, for all to read)
        os.chmod(path, 0o755)
    return missing[::-1]


def write_one(entry: Entry, path: str) -> None:
    """Writes one entry at a path."""
    if os.path.lexists(path):
        os.remove(path)
    if entry.link:
        os.symlink(entry.link, path)
        return
    with open(path, "wb") as file:
        file.write(entry.data)
    os.chmod(path, entry.mode)


def needed(names: Iterable[str], asker: str) -> None:
    """Ends where a program isn't there that is needed."""
    for name in names:
        if shutil.which(name) is None:
            sys.exit(f"{asker}: {name} is not on the path")
