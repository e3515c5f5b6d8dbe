#!/usr/bin/env python3
"""What holds a server that stays, tools/stay, and what starts it: the file of its trace, signals, and what the system lets it have.
The program is a stand-in, but where its own words count."""

import os
import random
import shutil
import signal
import stat
import subprocess
import sys
import tempfile
import time
from typing import Dict, List, Optional, Sequence, Tuple

from support import AMSERVE, LIMIT, TOP, Server, built, fail, until, wanted

STAY = os.path.join(TOP, "tools", "stay")
# It says where it listens, keeps its trace, and ends at a line STOP.
STAND_IN = """#!/usr/bin/env bash
while [ $# -gt 0 ]; do [ "$1" = --trace ] && trace=$2; shift; done
echo LISTEN 1
[ -z "${trace-}" ] || echo "TRACE of $$" >"$trace"
while IFS= read -r line; do [ "$line" != STOP ] || break; done
echo CLOSED 0 0
"""
UNWRITTEN = "amserve: cannot write the trace\n"


def started(program: str, *words: str, env: Optional[Dict[str, str]] = None) -> "subprocess.Popen[str]":
    """A launcher of the stand-in."""
    return subprocess.Popen(
        [STAY, program, "listen", "--stay", *words], stdin=subprocess.DEVNULL, stdout=subprocess.PIPE, stderr=subprocess.PIPE, text=True, env=env
    )


def ended(running: "subprocess.Popen[str]", number: Optional[int] = signal.SIGTERM) -> Tuple[int, str, str]:
    """Its status, and what it and its program said, once it was signalled where that is asked for."""
    if number is not None:
        assert running.stdout
        wanted("the first line", running.stdout.readline(), "LISTEN 1\n")
        running.send_signal(number)
    out, said = running.communicate(timeout=LIMIT)
    return running.returncode, out, said


def text_of(path: str) -> str:
    with open(path, encoding="ascii") as file:
        return file.read()


def write(path: str, text: str, mode: int = 0o644) -> None:
    with open(path, "w", encoding="ascii") as file:
        file.write(text)
    os.chmod(path, mode)


def only_copy(program: str, folder: str) -> None:
    """What can't be put aside stays as it is, and the start ends: a file that lies alone on a mount can't get another name."""
    kept, place = os.path.join(folder, "kept"), os.path.join(folder, "mounted")
    write(kept, "the only copy\n")
    write(place, "")
    if subprocess.run(["mount", "--bind", kept, place], stderr=subprocess.DEVNULL, check=False).returncode:
        print("launching: nothing can be mounted here, and a file that keeps its name isn't tried")
        return
    try:
        said = f"amserve: {place}: what it holds can't be put aside: Device or resource busy\n{UNWRITTEN}"
        wanted("a file that keeps its name", ended(started(program, "--trace", place), None), (4, "", said))
    finally:
        subprocess.run(["umount", place], check=True)
    wanted("what it holds", text_of(kept), "the only copy\n")


def two_at_once(program: str, folder: str) -> None:
    """Of two that start at once on one file the one ends: the other put aside what it had opened, and it doesn't take that for
    the file."""
    trace, tools = os.path.join(folder, "one"), os.path.join(folder, "tools")
    write(trace, "before\n")
    os.mkdir(tools)
    write(os.path.join(tools, "flock"), f'#!/bin/sh\n>"{tools}/begun"\nsleep 1\nPATH=${{PATH#*:}}\nexec flock "$@"\n', 0o755)
    late = started(program, "--trace", trace, env={**os.environ, "PATH": f"{tools}:{os.environ['PATH']}"})
    until("the late one has opened the file", lambda: os.path.exists(os.path.join(tools, "begun")))
    first = started(program, "--trace", trace)
    wanted("the late one", ended(late, None), (4, "", f"amserve: {trace}: another server writes it\n{UNWRITTEN}"))
    wanted("the first one", ended(first), (0, "CLOSED 0 0\n", ""))
    wanted("what was put aside", (text_of(f"{trace}.1"), os.path.exists(f"{trace}.2")), ("before\n", False))
    wanted("the file", text_of(trace).split()[0], "TRACE")


def by_link(program: str, folder: str) -> None:
    """A link stays one: what it leads to is put aside, each time."""
    target, link = os.path.join(folder, "target"), os.path.join(folder, "link")
    os.symlink("target", link)
    for number in range(3):
        wanted("a start by a link", ended(started(program, "--trace", link)), (0, "CLOSED 0 0\n", ""))
        wanted("the link", (os.readlink(link), os.path.exists(f"{target}.{number}")), ("target", number > 0))


def modes(folder: str) -> None:
    """Nobody else may read a trace, whether it grows or comes at the end. One that is there stays as readable as it was."""
    for name, words in (("grown", ["--stay"]), ("whole", ["--sessions", "1"])):
        trace = os.path.join(folder, name)
        server = Server(*words, trace=trace)
        if words == ["--stay"]:
            wanted("who may read a trace that grows", stat.S_IMODE(os.stat(trace).st_mode), 0o600)
            server.process.terminate()
        else:
            subprocess.run([f"{TOP}/amcli", "--port", str(server.port)], input="quit\n", capture_output=True, text=True, timeout=LIMIT, check=False)
        server.closed()
        wanted(f"who may read the trace {name}", stat.S_IMODE(os.stat(trace).st_mode), 0o600)


def signals(program: str) -> None:
    """What administrators send to have files opened anew ends nothing; SIGTERM, SIGINT and SIGQUIT are a stop."""
    for number in (signal.SIGTERM, signal.SIGINT, signal.SIGQUIT):
        running = started(program)
        assert running.stdout
        wanted("the first line", running.stdout.readline(), "LISTEN 1\n")
        for other in (signal.SIGHUP, signal.SIGUSR1, signal.SIGUSR2) * 2:
            running.send_signal(other)
            time.sleep(0.05)
        wanted("whether it goes on", running.poll(), None)
        running.send_signal(number)
        out, said = running.communicate(timeout=LIMIT)
        wanted(f"its end by {number}", (running.returncode, out, said), (0, "CLOSED 0 0\n", ""))


def early_interrupts(times: int) -> None:
    """An interrupt, or SIGTERM, at any moment of a start ends it."""
    for number in range(times):
        running = subprocess.Popen([AMSERVE, "listen", "--port", "0", "--stay"], stdin=subprocess.DEVNULL, stdout=subprocess.PIPE, stderr=subprocess.PIPE, text=True)
        time.sleep(random.uniform(0, 0.5) if number % 2 else random.uniform(0, 0.05))
        running.send_signal(signal.SIGINT if number % 4 < 3 else signal.SIGTERM)
        try:
            running.communicate(timeout=30)
        except subprocess.TimeoutExpired:
            running.kill()
            fail(f"a start that was interrupted goes on (try {number})")


def unproved(folder: str) -> None:
    """`amserve try` is `alone` by a program that isn't proved: it says so first and last, ends with that program's status, and hands on
    what the kit says, but for how the run ended. The kit is a stand-in."""
    top, tools = os.path.join(folder, "top"), os.path.join(folder, "kit")
    for at in (os.path.join(top, "crates", "am_program_alone"), tools):
        os.makedirs(at)
    shutil.copy(AMSERVE, top)
    kit = 'echo "$PWD $*: $(cat)"\necho "error: a word" >&2\necho "run=ended status=2 runners=1 races=unchecked proved=no" >&2\nexit 2\n'
    write(os.path.join(tools, "rt"), f"#!/bin/sh\n{kit}", 0o755)
    env = {**os.environ, "PATH": f"{tools}:{os.environ['PATH']}"}
    run = subprocess.run([f"{top}/amserve", "try", "--auto", "3"], input="BEGIN", env=env, capture_output=True, text=True, timeout=LIMIT, check=False)
    first, *between, last = run.stderr.splitlines()
    said = f"{os.path.realpath(top)}/crates/am_program_alone try --seconds 600 -- alone --auto 3: BEGIN\n"
    wanted("a run that isn't proved", (run.returncode, run.stdout, between), (2, said, ["error: a word"]))
    wanted("what it says first and last", ["nothing is proved" in it for it in (first, last)], [True, True])
    wanted("what stays", os.listdir(os.path.join(top, "crates", "am_program_alone")), [])


def limits() -> None:
    """Too few files, and too small a stack, are told by their names."""
    for program, limit, said in (
        (AMSERVE, "ulimit -n 10", "amserve: 10 files may be open (ulimit -n), and a server that stays wants 12\n"),
        (built("am_program_listen"), "ulimit -s 256", "amserve: the stack is limited to less than 512 KB (ulimit -s)\n"),
    ):
        words: List[str] = ["bash", "-c", f'{limit} && exec "$0" listen --port 0 --stay', program]
        run = subprocess.run(words, stdin=subprocess.DEVNULL, capture_output=True, text=True, timeout=LIMIT, check=False)
        wanted(limit, (run.returncode, run.stdout, run.stderr), (5, "", said))


def main(_words: Sequence[str]) -> None:
    # (a job in a shell's background begins with these signals ignored, and so would the servers)
    signal.signal(signal.SIGINT, signal.default_int_handler)
    signal.signal(signal.SIGQUIT, signal.SIG_DFL)
    with tempfile.TemporaryDirectory() as folder:
        program = os.path.join(folder, "stand-in")
        write(program, STAND_IN, 0o755)
        only_copy(program, folder)
        two_at_once(program, folder)
        by_link(program, folder)
        signals(program)
        modes(folder)
        unproved(folder)
        early_interrupts(24)
        limits()
    print("launching: a trace's file, two starts at once, links, modes, a run that is not proved, signals, early interrupts, limits")


if __name__ == "__main__":
    main(sys.argv[1:])
