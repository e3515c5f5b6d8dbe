#!/usr/bin/env python3
"""The programs where the address space is limited (RLIMIT_AS), from less than they start with to more than they need. Each
serves, or says that it has no memory, by an answer or by its status; none is ended by a signal, and what a server stored is
whole and legal: tests/address_space.py [--all]. Without --all a sample of the limits is taken."""

import argparse
import os
import socket
import subprocess
import sys
import tempfile
import threading
from concurrent.futures import ThreadPoolExecutor
from typing import Callable, List, NamedTuple, Sequence, Tuple, Union

sys.dont_write_bytecode = True
from support import LIMIT, built  # noqa: E402

MEGABYTES = range(10, 321, 2)
# Within the last of these all of 64 sessions are served: each thread has a stack, and 64 MB of the C library's for its memory.
MANY_MEGABYTES = (1_000, 3_000, 9_000)
RECORDS = 20_000
LINES_OF_A_RUN = 8

# What a line may be answered, where memory may be refused: behind a BEGIN that was refused there is no transaction, and behind
# a LOAD that was refused records may still wait at the COMMIT.
ANSWERS = ("BEGUN ", "OK", "ROWS ", "COMMITTED ", "BYE", "ERR MEMORY", "ERR NOTX", "ERR STAGED")


class Fault(Exception):
    """What a program did that it mustn't."""


class Programs(NamedTuple):
    """Where the built programs lie."""

    alone: str
    server: str
    auditor: str


# What a session was answered, or why it has no answer.
Told = Union[List[str], OSError]


def limited(megabytes: int, words: Sequence[str]) -> List[str]:
    """The words of a program that has so much address space."""
    return ["/bin/sh", "-c", 'ulimit -v "$0" && exec "$@"', str(megabytes * 1024), *words]


def session(mark: str, count: int) -> str:
    """A session that loads so many records in runs, and scans them."""
    keys = [f"{mark}{number:06}" for number in range(count)]
    lines, record = ["BEGIN", f"LOCK X {mark} {mark}~"], "v" * 20
    pieces = [keys[at : at + 120] for at in range(0, count, 120)]
    for number, piece in enumerate(pieces, 1):
        verb = "LOAD" if number % LINES_OF_A_RUN == 0 or number == len(pieces) else "STAGE"
        lines.append(f"{verb} " + " ".join(f"{key}={record}" for key in piece))
    lines += [f"SCAN {key} {mark}~ 1000" for key in keys[::1000]]
    return "".join(f"{line}\n" for line in [*lines, "COMMIT", "QUIT"])


def need(holds: object, what: str) -> None:
    """Raises a fault unless it holds."""
    if not holds:
        raise Fault(what)


def is_ended_early(status: int, out: str, said: str) -> bool:
    """Whether the program ended for want of memory before it did anything: by itself, or by its runtime or the system's loader."""
    need(status >= 0, f"ended by signal {-status}")
    if status == 5:
        need(not out or out == "NO MEMORY\n", f"status 5 behind {out[:100]!r}")
        need(out or said.endswith(": no memory\n"), f"status 5 and {said!r}")
    elif status in (1, 127):
        # (127 is the loader's)
        need(not out and said and (status == 127 or "memory" in said), f"status {status} and {out[:100]!r}, {said!r}")
    return status in (1, 5, 127)


def right_answers(text: str, answers: List[str]) -> None:
    """Whether each line has an answer that it may have. A session for which there was no memory has the one that says so."""
    if answers == ["ERR MEMORY"]:
        return
    need(len(answers) == text.count("\n"), f"{len(answers)} answers to {text.count(chr(10))} lines")
    for answer in answers:
        need(answer.startswith(ANSWERS), f"the answer {answer[:100]!r}")


def alone(programs: Programs, megabytes: int, text: str) -> str:
    """How a session alone ends."""
    words = limited(megabytes, [programs.alone, "alone"])
    run = subprocess.run(words, input=text, capture_output=True, text=True, timeout=LIMIT, check=False)
    if is_ended_early(run.returncode, run.stdout, run.stderr):
        return "no memory"
    need(run.returncode == 0, f"status {run.returncode} and {run.stderr!r}")
    right_answers(text, run.stdout.splitlines())
    return "refused" if "ERR MEMORY" in run.stdout else "served"


def answers_of(port: int, text: str) -> Told:
    """Sends a session's lines and gives what they were answered, in pieces, until the server closes it."""
    try:
        with socket.create_connection(("127.0.0.1", port), timeout=LIMIT) as client:
            sender = threading.Thread(target=send, args=(client, text))
            sender.start()
            pieces = []
            while piece := client.recv(65_536):
                pieces.append(piece)
            sender.join()
        return b"".join(pieces).decode().splitlines()
    except ConnectionError:
        # (closed before it was read to its end, as a session for which there was no memory)
        return ["ERR MEMORY"]
    except OSError as error:
        return error


def send(client: socket.socket, text: str) -> None:
    """Sends all lines."""
    try:
        client.sendall(text.encode())
    except OSError:
        # (a session for which there was no memory is closed)
        pass


def listen(programs: Programs, megabytes: int, texts: Sequence[str], trace: str) -> str:
    """How a server ends, to which each of these sessions is sent."""
    words = [programs.server, "listen", "--port", "0", "--sessions", str(len(texts)), "--workers", "1", "--trace", trace]
    told: List[Told] = []
    with subprocess.Popen(limited(megabytes, words), stdin=subprocess.DEVNULL, stdout=subprocess.PIPE, stderr=subprocess.PIPE, text=True) as server:
        first = server.stdout.readline() if server.stdout else ""
        if first:
            port = int(first.split()[1])
            with ThreadPoolExecutor(len(texts)) as pool:
                told = [*pool.map(lambda text: answers_of(port, text), texts)]
        rest, said = server.communicate(timeout=LIMIT)
    if not first:
        need(is_ended_early(server.returncode, rest, said) or server.returncode in (3, 4), f"status {server.returncode} and {said!r}")
        return "no memory"
    need(server.returncode >= 0, f"ended by signal {-server.returncode}")
    answered = []
    for text, answers in zip(texts, told):
        if isinstance(answers, OSError):
            raise Fault(f"a session that was cut off: {answers}, status {server.returncode} and {said!r}")
        right_answers(text, answers)
        answered += answers
    right_trace(programs, server.returncode, (rest, said), trace)
    return "refused" if server.returncode or "ERR MEMORY" in answered else "served"


def right_trace(programs: Programs, status: int, ended: Tuple[str, str], trace: str) -> None:
    """Whether what a server says at its end goes with its status and with what it stored."""
    rest, said = ended
    if status in (3, 4, 5):
        need(said.startswith("amserve: "), f"status {status} and {said!r}")
    else:
        need(status == 0, f"status {status} and {said!r}")
    if status and not rest:
        return
    need(rest.startswith("CLOSED "), f"the last line {rest!r}")
    _, entries, commits = rest.split()
    with open(trace, encoding="ascii") as file:
        need(sum(1 for _ in file) == int(entries) + 1, "a trace that isn't whole")
    verdict = subprocess.run([programs.auditor, trace], capture_output=True, text=True, timeout=LIMIT, check=False).stdout
    need(verdict == f"LEGAL {commits}\n", f"the verdict {verdict!r}")


def audit(programs: Programs, megabytes: int, trace: str, wanted: str) -> str:
    """How an audit ends."""
    run = subprocess.run(limited(megabytes, [programs.auditor, trace]), capture_output=True, text=True, timeout=LIMIT, check=False)
    if is_ended_early(run.returncode, run.stdout, run.stderr):
        return "no memory"
    need((run.returncode, run.stdout) == (0, wanted), f"status {run.returncode}, {run.stdout!r} and {run.stderr!r}")
    return "served"


def small_stacks(programs: Programs) -> int:
    """How many programs don't say that their stack is limited to less than they need."""
    wrong = 0
    for kilobytes in (160, 200, 300, 500):
        for words in ([programs.alone, "alone"], [programs.server, "listen", "--port", "0"], [programs.auditor]):
            limited_stack = ["/bin/sh", "-c", 'ulimit -s "$0" && exec "$@"', str(kilobytes), *words]
            run = subprocess.run(limited_stack, input="", capture_output=True, text=True, timeout=LIMIT, check=False)
            if (run.returncode, run.stdout) != (5, "") or not run.stderr.endswith(": the stack is limited to less than 512 KB (ulimit -s)\n"):
                print(f"address space: {words} with a stack of {kilobytes} KB: status {run.returncode}, {run.stdout!r} and {run.stderr!r}")
                wrong += 1
    return wrong


def tried(what: str, megabytes: int, end: Callable[[int], str]) -> Tuple[str, str]:
    """How something ends within so many megabytes. A fault is told."""
    try:
        return what, end(megabytes)
    except (Fault, subprocess.TimeoutExpired) as fault:
        print(f"address space: {what} within {megabytes} MB: {fault}", flush=True)
        return what, "wrong"


def main(step: int) -> int:
    """Tries each limit, or each so many, and gives the status."""
    programs = Programs(built("am_program_alone"), built("am_program_listen"), built("am_program_audit"))
    one = session("k", RECORDS)
    many = [session(f"{number:02}k", 300) for number in range(64)]
    if small_stacks(programs):
        return 1
    with tempfile.TemporaryDirectory() as folder, ThreadPoolExecutor(len(os.sched_getaffinity(0)) + 1) as pool:
        sample = f"{folder}/sample"
        if tried("a server with ample room", 100_000, lambda room: listen(programs, room, [one], sample))[1] != "served":
            return 1
        jobs = []
        for megabytes in MEGABYTES[::step]:
            jobs.append(pool.submit(tried, "alone", megabytes, lambda room: alone(programs, room, one)))
            jobs.append(pool.submit(tried, "a session of a server", megabytes, lambda room: listen(programs, room, [one], f"{folder}/one{room}")))
            jobs.append(pool.submit(tried, "an audit", megabytes, lambda room: audit(programs, room, sample, "LEGAL 1\n")))
        for megabytes in [*range(10, 321, 10 * step), *MANY_MEGABYTES]:
            jobs.append(pool.submit(tried, "64 sessions of a server", megabytes, lambda room: listen(programs, room, many, f"{folder}/many{room}")))
        ends = [job.result() for job in jobs]
    for what in dict.fromkeys(what for what, _ in ends):
        counts = [sum(it == (what, end) for it in ends) for end in ("served", "refused", "no memory", "wrong")]
        print(f"address space: {what}: {counts[0]} served whole, {counts[1]} refused memory, {counts[2]} ended at once, {counts[3]} wrong")
    is_whole = ("64 sessions of a server", "served") in ends
    return 1 if any(end == "wrong" for _, end in ends) or not is_whole else 0


if __name__ == "__main__":
    parser = argparse.ArgumentParser(description=__doc__)
    parser.add_argument("--all", action="store_true", help="each limit from 10 to 320 MB by 2, and not each third")
    sys.exit(main(1 if parser.parse_args().all else 3))
