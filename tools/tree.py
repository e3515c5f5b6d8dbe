"""The tree: its files and texts, the crates with those that they name, and the names that each crate gives out."""

import functools
import glob
import os
import re
import subprocess
from typing import Dict, Iterator, List, Optional

TOP = os.path.dirname(os.path.dirname(os.path.abspath(__file__)))
# What the commands at the top build at their first starts.
STARTED = ["am_program_alone", "am_program_listen", "am_program_audit", "am_c", "am_c_replica"]


def text_of(path: str) -> str:
    """The text of a file, whose path goes from the top on."""
    with open(os.path.join(TOP, path), encoding="utf-8") as file:
        return file.read()


@functools.lru_cache(maxsize=None)
def lines() -> Dict[str, str]:
    """The line of each crate in crates.txt, in order."""
    found = [it for it in text_of("crates.txt").splitlines() if it and not it.startswith("#")]
    return {re.split(r"[ :]", line)[0]: line for line in found}


def crates() -> Dict[str, List[str]]:
    """The crates in order, each with the others that it names."""
    return {name: [word for word in line.partition(":")[2].split() if word in lines()] for name, line in lines().items()}


@functools.lru_cache(maxsize=None)
def below(crate: str) -> List[str]:
    """The crates that a crate stands on, each after those that it stands on itself."""
    found: List[str] = []
    for other in crates()[crate]:
        found += [it for it in [*below(other), other] if it not in found]
    return found


def is_static(crate: str) -> bool:
    """Whether it is a library for C."""
    return "staticlib" in lines()[crate].partition(":")[0].split()


def is_program(crate: str) -> bool:
    """Whether it has a `main`."""
    return os.path.isfile(f"{TOP}/crates/{crate}/src/main.rt")


def lines_of(crate: str) -> int:
    """The lines of a crate's code."""
    found = 0
    for at, _, files in os.walk(f"{TOP}/crates/{crate}/src"):
        for name in files:
            with open(f"{at}/{name}", "rb") as file:
                found += file.read().count(b"\n")
    return found


def sources(*folders: str, kinds: str = "rt antt") -> List[str]:
    """The files of these kinds in folders of that name in crates/."""
    found = [it for folder in folders for kind in kinds.split() for it in glob.glob(f"{TOP}/crates/*/{folder}/**/*.{kind}", recursive=True)]
    return sorted(found)


def told_by_git(*words: str) -> Optional[str]:
    """What git says of the tree, whoever owns it; None where there is no git, or the tree is none of git's own, as one from an archive."""
    if not os.path.exists(f"{TOP}/.git"):
        return None
    asked = ["git", "-c", f"safe.directory={TOP}", "-C", TOP, *words]
    try:
        return subprocess.run(asked, stdout=subprocess.PIPE, stderr=subprocess.DEVNULL, text=True, check=True).stdout
    except (OSError, subprocess.CalledProcessError):
        return None


def kept_files() -> List[str]:
    """The files that git keeps, or would keep; without it all but what is built."""
    told = told_by_git("ls-files", "-co", "--exclude-standard")
    if told is None:
        return sorted(files_beside(text_of(".gitignore").split()))
    return [it for it in told.splitlines() if os.path.isfile(os.path.join(TOP, it))]


def files_beside(built: List[str]) -> Iterator[str]:
    """The files of the tree, but those in folders that are built."""
    for folder, folders, names in os.walk(TOP):
        at = os.path.relpath(folder, TOP)
        places = {it: os.path.normpath(os.path.join(at, it)) for it in [*folders, *names]}
        folders[:] = [it for it in folders if it not in (".git", "__pycache__") and not {f"{it}/", f"{places[it]}/"} & set(built)]
        yield from (places[it] for it in names)


def documents() -> List[str]:
    """The documents that say what is so. CHANGELOG.md tells of what was."""
    return ["README.md", "CONTRIBUTING.md", *(os.path.relpath(it, TOP) for it in sorted(glob.glob(f"{TOP}/docs/*.md")))]


def given_out(crate: str) -> Iterator[str]:
    """The names that a crate's root gives out."""
    root = os.path.join("crates", crate, "src", "lib.rt")
    text = text_of(root) if os.path.isfile(os.path.join(TOP, root)) else ""
    for names, name in re.findall(r"(?m)^pub use [\w:]+::(?:\{([^}]*)\}|(\w+));", text):
        yield from (it.strip() for it in (names or name).split(",") if it.strip())
    yield from re.findall(r"(?m)^pub (?:const |unsafe )*(?:fn|const|static|struct|enum|trait|type) (\w+)", text)
