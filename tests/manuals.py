#!/usr/bin/env python3
"""The manuals: mandoc and man, where they are, have nothing to say of them. They tell the options of --help, the statuses that
--help or docs/protocol.md has, the calls and statuses of the header. Completion knows the same options."""

import os
import re
import shutil
import subprocess
import sys
import tempfile
from typing import Dict, List, Set

sys.dont_write_bytecode = True
from support import LIMIT, TOP, fail, wanted  # noqa: E402

# The subcommands of each program.
PROGRAMS: Dict[str, List[str]] = {"amserve": ["alone", "listen"]}
PROGRAMS.update((name, []) for name in ("amaudit", "amload", "amdump", "amcli", "amdraw", "amreplica"))


def text_of(path: str) -> str:
    with open(os.path.join(TOP, path), encoding="utf-8") as file:
        return file.read()


def help_of(*words: str) -> str:
    """What a program says of itself."""
    given = [f"{TOP}/{words[0]}", *words[1:], "--help"]
    return subprocess.run(given, stdout=subprocess.PIPE, text=True, timeout=LIMIT, check=True).stdout


def options_of_help(text: str) -> Set[str]:
    """The long options, each at the head of a line of its own."""
    return set(re.findall(r"(?m)^ {2,8}(?:-\w(?: [A-Z]+)?, )?(--[a-z-]+)", text))


def options_of_manual(text: str) -> Set[str]:
    """The long options that have an entry."""
    found = re.findall(r"(?m)^\.It Fl (.*)$", text)
    return {f"--{name}" for entry in found for name in re.findall(r"(?:^|, )-([a-z-]+)", entry)}


def statuses_of_document(title: str, document: str = "docs/protocol.md") -> Set[str]:
    """The statuses below a heading of a document, by its tables and its text."""
    section = text_of(document).partition(f"## {title}\n")[2].partition("\n## ")[0]
    found = set(re.findall(r"(?m)^\| ([0-9]) \|", section)) | set(re.findall(r"(?m)^\| `[A-Z ]+.*?` \| ([0-9]) \|", section))
    return found.union(*re.findall(r"Status ([0-9]) is [^.]*, ([0-9]) means", section))


def statuses_of_help(text: str) -> Set[str]:
    """The statuses at the end of a program's help."""
    return set(re.findall(r"(?m)^  ([0-9])  ", text.partition("status:")[2]))


def check_program(name: str) -> None:
    """The options and statuses of one program."""
    manual = text_of(f"man/{name}.1")
    texts = [help_of(name), *(help_of(name, word) for word in PROGRAMS[name])]
    options = set().union(*map(options_of_help, texts))
    wanted(f"options of {name}(1)", sorted(options_of_manual(manual)), sorted(options))
    told = set(re.findall(r"(?m)^\.It ([0-9])$", manual.partition(".Sh EXIT STATUS")[2]))
    title = {"amserve": "The program's status", "amaudit": "The auditor"}.get(name)
    wanted(f"statuses of {name}(1)", sorted(told), sorted(statuses_of_document(title) if title else statuses_of_help(texts[0])))
    case = re.search(rf"(?ms)^    {name}\)(.*?);;\n(?=    \w|    esac)", text_of("completion/tiuvrokk.bash"))
    completed = set(re.findall(r"--[a-z-]+", case.group(1) if case else ""))
    wanted(f"options of {name} that are completed", sorted(completed), sorted(options))


def check_documented_statuses() -> None:
    """The documents have the statuses of amload, amdump and amreplica as their help has them."""
    places = {"amload": ("Records from a file", "docs/protocol.md"), "amdump": ("Records to a file", "docs/protocol.md")}
    for name, place in {**places, "amreplica": ("Statuses", "docs/replicas.md")}.items():
        told, right = statuses_of_document(*place), statuses_of_help(help_of(name))
        wanted(f"statuses of {name} in {place[1]}", sorted(told), sorted(right))


def check_library() -> None:
    """tiuvrokk(3) has each call as the header declares it, with its statuses, and each status."""
    header, manual = text_of("c/tiuvrokk.h"), text_of("man/tiuvrokk.3")
    calls = re.findall(r"(?m)^[a-z_ ]+\*?(tvk_\w+)\(([^;]*?)\)(?: TVK_MUST_USE)?;", header)
    declared = [(name, re.sub(r"\s+", " ", words)) for name, words in calls]
    blocks = re.findall(r"(?s)\.Fo (\w+)\n(.*?)\.Fc", manual)
    told = [(name, ", ".join(re.findall(r'\.Fa "(.*?)"', words))) for name, words in blocks]
    wanted("the calls of tiuvrokk(3)", told, declared)
    listed = re.findall(r"(?s)/\*\*((?:(?!\*/).)*)\*/\n[a-z_ ]+\*?(tvk_\w+)\(", header)
    lists = {name: re.findall(r"@retval (TVK_\w+)", text)[1:] for text, name in listed}
    entries = re.findall(r"(?s)\.It Fn (tvk_\w+)\n(.*?)(?=\.It|\.El)", manual)
    told_lists = {name: re.findall(r"TVK_\w+", text.partition("It may answer")[2]) for name, text in entries}
    wanted("the statuses of each call in tiuvrokk(3)", told_lists, lists)
    statuses = re.findall(r"(TVK_\w+) = ", header.partition("} tvk_status;")[0])
    returned = manual.partition(".Sh RETURN VALUES")[2]
    wanted("the statuses of tiuvrokk(3)", re.findall(r"(?m)^\.It Dv (TVK_\w+)$", returned), statuses)


def check_lint(folder: str) -> None:
    """mandoc and man read all manuals, beside one another, without a word."""
    for name in os.listdir(f"{TOP}/man"):
        shutil.copy(f"{TOP}/man/{name}", folder)
    with open(f"{folder}/tiuvrokk-protocol.7", "w", encoding="utf-8") as file:
        subprocess.run([f"{TOP}/tools/protocol_manual.py"], stdout=file, timeout=LIMIT, check=True)
    for name in sorted(os.listdir(folder)):
        words = ["mandoc", "-T", "lint", name]
        ran = subprocess.run(words, cwd=folder, capture_output=True, text=True, timeout=LIMIT, check=False)
        wanted(f"what mandoc says of {name}", ran.stdout + ran.stderr, "")
        if shutil.which("man") and shutil.which("groff"):
            words = ["man", "--warnings", "-E", "UTF-8", "-l", "-Tutf8", "-Z", f"./{name}"]
            ran = subprocess.run(words, cwd=folder, capture_output=True, text=True, timeout=LIMIT, check=False)
            wanted(f"what man says of {name}", (ran.returncode, ran.stderr), (0, ""))


def main() -> None:
    if shutil.which("mandoc"):
        with tempfile.TemporaryDirectory() as folder:
            check_lint(folder)
    else:
        print("manuals: no mandoc here")
    for name in PROGRAMS:
        check_program(name)
    check_documented_statuses()
    check_library()
    if not text_of("completion/tiuvrokk.bash").rstrip().endswith(" ".join(["_tiuvrokk", *PROGRAMS])):
        fail("completion isn't that of all programs")
    print("manuals: all as expected")


if __name__ == "__main__":
    main()
