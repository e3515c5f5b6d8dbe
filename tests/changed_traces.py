#!/usr/bin/env python3
"""The trace of a server, of 2,000 steps of eight sessions in turn and always the same, is legal, with its number of
commits. Then 10,000 texts are made from it, each by one change: a reply, number, key or value, or a line swapped with the
next, doubled or dropped. A text that is not found legal is told by the changed line or one behind it, and a changed answer of
a committed transaction is never found legal."""

import os
import random
import re
import subprocess
import sys
import tempfile
from concurrent.futures import ThreadPoolExecutor
from typing import Dict, List, NamedTuple, Optional, Set, Tuple

sys.dont_write_bytecode = True
from support import Client, Server, built, fail, random_line  # noqa: E402

SESSIONS, STEPS, TEXTS = 8, 2_000, 10_000


def stored_run() -> Tuple[bytes, int]:
    """The text of the run, and the number of its commits."""
    with tempfile.TemporaryDirectory() as folder:
        trace = os.path.join(folder, "trace")
        server = Server("--sessions", str(SESSIONS), "--workers", "0", trace=trace)
        dice = random.Random(1)
        clients = [Client(server.port) for _ in range(SESSIONS)]
        begun = [False] * SESSIONS
        for _ in range(STEPS):
            who = dice.randrange(SESSIONS)
            reply = clients[who].ask(random_line(dice, begun[who]))
            if reply.startswith("BEGUN"):
                begun[who] = True
            elif reply.startswith("COMMITTED") or reply == "ABORTED":
                begun[who] = False
        for client in clients:
            client.quit()
        commits = server.closed()[1]
        with open(trace, "rb") as file:
            return file.read(), commits


def judged(auditor: str, text: bytes) -> List[str]:
    """The words of the auditor's verdict."""
    run = subprocess.run([auditor], input=text, stdout=subprocess.PIPE, check=False)
    return run.stdout.decode().split()


def committed(lines: List[str]) -> Set[int]:
    """The lines of answered operations of each transaction that commits."""
    by: Dict[str, Set[int]] = {}
    done: Set[int] = set()
    for at, line in enumerate(lines):
        step, _, reply = line.partition(" | ")
        words = step.split()
        if words[0] == "COMMIT" and reply.startswith("COMMITTED"):
            done |= by.pop(words[1], set())
        elif words[0] == "ABORT" and reply == "ABORTED":
            by.pop(words[1], None)
        elif words[0] not in ("BEGIN", "MERGE", "CLEAN", "COMMIT", "ABORT") and not reply.startswith(("ERR", "BUSY")):
            by.setdefault(words[1], set()).add(at)
    return done


def with_other_digit(draw: random.Random, line: str) -> str:
    """The line with another digit in one place, where it has one."""
    places = [m.start() for m in re.finditer(r"[0-9]", line)]
    if not places:
        return line
    place = draw.choice(places)
    return line[:place] + draw.choice([d for d in "0123456789" if d != line[place]]) + line[place + 1 :]


def edited(draw: random.Random, lines: List[str], at: int, kind: int) -> List[str]:
    """The lines with one change of a kind, at a line or behind it."""
    new, (step, reply) = list(lines), lines[at].split(" | ")
    if kind == 0:
        new[at] = f"{step} | {draw.choice(lines[1:]).split(' | ')[1]}"
    elif kind == 1:
        new[at] = with_other_digit(draw, lines[at])
    elif kind == 2 and at + 1 < len(lines):
        new[at], new[at + 1] = new[at + 1], new[at]
    elif kind == 3:
        new.insert(at, new[at])
    elif kind == 4:
        del new[at]
    else:
        new[at] = f"{draw.choice(lines[1:]).split(' | ')[0]} | {reply}"
    return new


def changed(draw: random.Random, lines: List[str]) -> Tuple[int, bool, List[str]]:
    """The lines with one change: where it is, whether it changed an answer, and the lines."""
    new = lines
    while new == lines:
        at, kind = draw.randrange(1, len(lines)), draw.randrange(6)
        new = edited(draw, lines, at, kind)
    return at, kind in (0, 1) and new[at].split(" | ")[0] == lines[at].split(" | ")[0], new


class Trials(NamedTuple):
    """The auditor, the lines of the trace, and those of answered operations that committed."""

    auditor: str
    lines: List[str]
    committed: Set[int]

    def fault(self, number: int) -> Optional[str]:
        """What is wrong with the verdict on a changed text, or nothing where the change is found out; None: it is legal."""
        at, is_answer, new = changed(random.Random(number), self.lines)
        told = judged(self.auditor, ("\n".join(new) + "\n").encode())
        if told[0] == "LEGAL":
            if is_answer and at in self.committed:
                return f"text {number}: the changed answer of line {at + 1} is found legal: {new[at]}"
            return None
        if told[0] not in ("WRONG", "BAD"):
            return f"text {number}: {told}"
        if int(told[1]) < at + 1:
            return f"text {number}: line {at + 1} was changed, and {' '.join(told)} was told"
        return ""


def main() -> None:
    """Judges the run, and texts made from it."""
    auditor = built("am_program_audit")
    stored, commits = stored_run()
    verdict = judged(auditor, stored)
    if verdict != ["LEGAL", str(commits)] or commits < 100:
        fail(f"the trace of {commits} commits is judged {verdict}")
    lines = stored.decode().splitlines()
    trials, found = Trials(auditor, lines, committed(lines)), 0
    with ThreadPoolExecutor(os.cpu_count()) as pool:
        for fault in pool.map(trials.fault, range(TEXTS), chunksize=50):
            if fault:
                fail(fault)
            found += fault == ""
    print(
        f"changed traces: the run of {len(lines) - 1} steps is legal with {commits} commits; "
        f"of {TEXTS} changed texts {found} were found out, each at the changed line or behind it"
    )


if __name__ == "__main__":
    main()
