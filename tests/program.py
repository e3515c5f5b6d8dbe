#!/usr/bin/env python3
"""The program `amserve alone` from outside: sessions, statuses and texts of its process, which no proof sees."""

import os
import select
import shutil
import signal
import subprocess
import sys
import tempfile
import threading
from typing import IO, Any, List, Tuple

sys.dont_write_bytecode = True
from support import AMSERVE, LIMIT, TOP, alone, built, fail, wanted  # noqa: E402

CC = os.environ.get("CC", "cc")
# Words that name nothing, each with the status 2 and clap's text.
WRONG = ["alone extra", "alone --auto 65", "alone --auto -1", "alone --auto", "alone --auto 1 --auto 2", "other"]
RIGHT = ["--help", "help", "alone --help", "alone --auto 0", "alone --auto 64", "alone --auto=16"]


def sessions() -> None:
    """A first session; then a load, a query of one of its records, a merge of it, and a savepoint taken back."""
    wanted("first session", alone(["BEGIN", "INS 5 a", "GET 5", "COMMIT", "QUIT"]), ["BEGUN 1", "OK", "VAL a", "COMMITTED 1", "BYE"])
    lines = ["BEGIN", "LOAD 3=c 4=d 5=e", "GET 4", "COMMIT", "MERGE 16", "MERGE 16", "MERGE 16"]
    answers = ["BEGUN 1", "OK", "VAL d", "COMMITTED 1", "MOVED 1 1", "DONE", "IDLE"]
    lines += ["BEGIN", "MARK", "REP 4 f", "GET 4", "BACK", "GET 4", "BACK", "COMMIT", "QUIT"]
    answers += ["BEGUN 2", "OK", "OK", "VAL f", "OK", "VAL d", "NOMARK", "COMMITTED 2", "BYE"]
    wanted("load, merge and savepoint", alone(lines, "--auto", "0"), answers)


def answer_in_time(out: IO[str]) -> str:
    """A line that comes within ten seconds."""
    if not select.select([out], [], [], 10)[0]:
        fail("no answer to a line while the input is open")
    return out.readline().rstrip("\n")


def answers_at_once() -> None:
    """Each answer comes before the next line is sent, and closing the input ends the program, with status 0."""
    with subprocess.Popen([AMSERVE, "alone"], stdin=subprocess.PIPE, stdout=subprocess.PIPE, text=True, bufsize=1) as server:
        if server.stdin is None or server.stdout is None:
            fail("no pipes")
        for line, answer in (("BEGIN", "BEGUN 1"), ("INS 5 a", "OK")):
            server.stdin.write(f"{line}\n")
            wanted(f"the answer to {line}", answer_in_time(server.stdout), answer)
        server.stdin.close()
        wanted("the status after the input was closed", server.wait(LIMIT), 0)


def send_many(into: IO[str]) -> None:
    """Sends more lines than anybody answers to a reader that has gone."""
    try:
        with into:
            into.write("GET 5\n" * 100_000)
    except BrokenPipeError:
        pass


def reader_that_goes() -> None:
    """A reader that goes away ends the program too."""
    server = subprocess.Popen([AMSERVE, "alone"], stdin=subprocess.PIPE, stdout=subprocess.PIPE, stderr=subprocess.DEVNULL, text=True)
    if server.stdin is None or server.stdout is None:
        fail("no pipes")
    sender = threading.Thread(target=send_many, args=(server.stdin,))
    sender.start()
    wanted("a first answer", server.stdout.readline(), "ERR NOTX\n")
    server.stdout.close()
    wanted("the status behind a reader that has gone", server.wait(60) in (6, -signal.SIGPIPE), True)
    sender.join()


def strange_bytes() -> None:
    """A NUL and bytes above 127 are answered, and the session goes on."""
    run = subprocess.run([AMSERVE, "alone"], input=b"GET \0\nGET \303\251\nGET \377\nGET 5\nQUIT\n", stdout=subprocess.PIPE, timeout=LIMIT, check=True)
    wanted("strange bytes", run.stdout, b"ERR SYNTAX\nERR SYNTAX\nERR SYNTAX\nERR NOTX\nBYE\n")


def said_by(words: List[Any], **how: Any) -> Tuple[int, str]:
    """The status of the program with these words, and what it says on standard error."""
    how = {"stdin": subprocess.DEVNULL, "stdout": subprocess.DEVNULL, **how}
    run = subprocess.run([AMSERVE, *words], stderr=subprocess.PIPE, text=True, timeout=LIMIT, check=False, **how)
    return run.returncode, run.stderr


def command_lines() -> None:
    """A fault of the command line is status 2 with clap's text; help is 0, and says nothing on standard error."""
    status, said = said_by([])
    wanted("the status and usage where no word is given", (status, said.startswith("Usage: amserve") or "\nUsage: amserve" in said), (2, True))
    for words in WRONG:
        status, said = said_by(words.split())
        wanted(f"the status and text of clap for {words}", (status, any(line.startswith("error: ") for line in said.splitlines())), (2, True))
    wanted("the status of a word that isn't UTF-8", said_by(["alone", b"\377"])[0], 2)
    for words in RIGHT:
        wanted(words, said_by(words.split()), (0, ""))


def failing_streams() -> None:
    """A directory can't be read, and a full device can't be written."""
    folder = os.open("/", os.O_RDONLY)
    wanted("a read that fails", said_by(["alone"], stdin=folder), (6, "amserve: read failed\n"))
    os.close(folder)
    with open("/dev/full", "w", encoding="ascii") as full:
        run = subprocess.run([AMSERVE, "alone"], input="GET 5\n", stdout=full, stderr=subprocess.PIPE, text=True, timeout=LIMIT, check=False)
    wanted("a write that fails", (run.returncode, run.stderr), (6, "amserve: write failed\n"))


def refused_at_the_start() -> None:
    """Memory refused while the words are read or the buffers are made. Counted are all of the process's allocations, the first
    of which may not be the program's own."""
    if not shutil.which(CC):
        return
    with tempfile.TemporaryDirectory() as folder:
        library = os.path.join(folder, "refuse.so")
        subprocess.run([CC, "-shared", "-fPIC", "-O1", "-o", library, f"{TOP}/tests/refuse_memory.c"], check=True)
        for first in (1, 2, 3, 5, 8, 13, 20):
            given = {**os.environ, "REFUSE_FROM": str(first), "LD_PRELOAD": library}
            run = subprocess.run(
                [built("am_program_alone"), "alone"], env=given, stdin=subprocess.DEVNULL, stdout=subprocess.DEVNULL, stderr=subprocess.PIPE, text=True,
                timeout=LIMIT, check=False,
            )
            ended = run.returncode, run.stderr
            if ended not in [(0, ""), (5, "amserve: no memory\n")]:
                fail(f"memory refused from allocation {first} on: {ended}")


def main() -> None:
    """All of it."""
    built("am_program_alone")
    sessions()
    answers_at_once()
    reader_that_goes()
    strange_bytes()
    command_lines()
    failing_streams()
    refused_at_the_start()
    print("program: all as expected")


if __name__ == "__main__":
    main()
