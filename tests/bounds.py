#!/usr/bin/env python3
"""The programs at the bounds that docs/protocol.md names: the longest lines, keys, values and answers, the most records of
a run, rows of a scan, operations and locks of a transaction, runs of a store, steps of a session, and a trace that has them."""

import os
import subprocess
import sys
import tempfile
import threading
from typing import List, Tuple

sys.dont_write_bytecode = True
from support import AMAUDIT, AMSERVE, Client, Server, alone, audit, fail, wanted  # noqa: E402


def answers_to(lines: List[str], *words: str) -> List[str]:
    """The answers of a session alone, one for each line."""
    answers = alone(lines, *words)
    wanted("answers", len(answers), len(lines))
    return answers


def long_key(number: int) -> str:
    """One of 32 bytes."""
    return f"{number:04}".ljust(32, "k")


def loads(keys: List[str], value: str) -> List[str]:
    """Lines that load the records, each as full as it may be."""
    lines, line = [], "LOAD"
    for key in keys:
        record = f" {key}={value}"
        if len(line) + len(record) > 4096:
            lines.append(line)
            line = "LOAD"
        line += record
    return [*lines, line]


def many_short_records() -> None:
    """More than 100 records in a line of 4,096 bytes."""
    keys = [f"{number:03}" for number in range(680)]
    line = loads(keys, "v")[0].ljust(4096, "v")
    count = line.count("=")
    wanted("the length of a line", (len(line), count > 500), (4096, True))
    answers = answers_to(["BEGIN", line, "SCAN ! ~ 1000", "COMMIT"])
    wanted("a load of many records", answers[1], "OK")
    wanted("its rows", answers[2].split()[:2], ["ROWS", str(count)])
    wanted("a line that is too long", answers_to([line + "v"]), ["ERR LONG"])


def many_staged_records() -> None:
    """As many records in a STAGE of 4,096 bytes as there can be: its LOAD has them, and is the one that looks at their order."""
    letters = [chr(code) for code in range(0x21, 0x7F) if chr(code) != "="]
    pairs = [first + second for first in letters[:8] for second in letters]
    keys = sorted([*letters, *pairs[:743]])
    line = "STAGE" + "".join(f" {key}=v" for key in keys)
    wanted("the length of a line", (len(keys), len(line) <= 4096), (836, True))
    answers = answers_to(["BEGIN", line, "LOAD ~~=v", "SCAN ! ~~ 1000", "COMMIT"])
    wanted("a stage of many records", answers[1:3], ["OK", "OK"])
    wanted("its rows", answers[3].split()[:2], ["ROWS", "837"])
    answers = answers_to(["BEGIN", "STAGE" + " a=v" * 1022, "LOAD b=v", "STAGE a=v", "LOAD b=v"])
    wanted("a stage of 1,022 records", answers[1:], ["OK", "ERR ORDER", "OK", "OK"])


def longest_answer() -> None:
    """1,000 rows of the longest keys and values."""
    value = "v" * 64
    keys = [long_key(number) for number in range(1001)]
    lines = ["BEGIN", f"LOCK X ! {'~' * 32}", *loads(keys, value), "SCAN ! ~ 1000", f"SCAN {keys[999]} ~ 1000", "COMMIT"]
    answers = answers_to(lines)
    wanted("the loads", set(answers[1:-3]), {"OK"})
    wanted("the longest answer", answers[-3], " ".join(["ROWS 1000", *(f"{key}={value}" for key in keys[:1000])]))
    wanted("its length with its LF", len(answers[-3]) + 1, 98_010)
    wanted("the rows behind it", answers[-2], f"ROWS 2 {keys[999]}={value} {keys[1000]}={value}")
    wanted("a key and a value that are too long", answers_to([f"GET {'k' * 33}", f"INS k {value}v"]), ["ERR RANGE"] * 2)


def most_locks_and_operations() -> None:
    """A transaction's 256 locks and 4,096 operations, and one more of each."""
    lines = ["BEGIN", *(f"GET {number}" for number in range(257)), "COMMIT"]
    answers = answers_to(lines)
    wanted("256 locks", set(answers[1:257]), {"NONE"})
    wanted("one more", answers[257], "ERR LOCKS")
    lines = ["BEGIN", "LOCK X ! ~", *(f"INS {number} v" for number in range(4096)), "COMMIT"]
    answers = answers_to(lines)
    wanted("4,096 operations", set(answers[1:4097]), {"OK"})
    wanted("one operation more", answers[4097:], ["ERR OPS", "COMMITTED 1"])


def stored_run(folder: str) -> None:
    """A run with the longest reply, a transaction of 4,096 operations and a lock, stored and judged."""
    trace = os.path.join(folder, "trace")
    server = Server("--workers", "0", trace=trace)
    keys = [long_key(number) for number in range(1000)]
    lines = ["BEGIN", f"LOCK X ! {'~' * 32}", *loads(keys, "v" * 64), "SCAN ! ~ 1000"]
    lines += [f"REP {keys[number % 1000]} w{number}" for number in range(4096 - len(lines) + 1)]
    answers = Client(server.port).ask_at_once([*lines, "GET x", "COMMIT", "QUIT"])
    wanted("the last answers", answers[-4:], ["OK", "ERR OPS", "COMMITTED 1", "BYE"])
    wanted("its commits", server.closed()[1], 1)
    wanted("the judgement", audit(trace), "LEGAL 1")


def full_session(folder: str) -> None:
    """A session of 1,000,000 steps still ends its transaction, and its run is judged to its last line."""
    trace = os.path.join(folder, "full")
    server = Server("--workers", "0", trace=trace)
    session = Client(server.port)
    wanted("a beginning", session.ask("BEGIN"), "BEGUN 1")
    answers = session.ask_at_once(["MERGE 1"] * 999_999)
    wanted("its steps", set(answers), {"IDLE"})
    answers = session.ask_at_once(["MERGE 1", "GET a", "SEEN", "COMMIT", "BEGIN", "QUIT"])
    wanted("a full session", answers, ["ERR FULL", "ERR FULL", "SEEN 0 0", "COMMITTED 1", "ERR FULL", "BYE"])
    wanted("what was stored", server.closed(), (1_000_001, 1))
    wanted("the judgement of a full session", audit(trace), "LEGAL 1")
    with open(trace, "a", encoding="ascii") as file:
        file.write("BEGIN | BEGUN 9\n")
    wanted("a fault behind it", audit(trace), "WRONG 1000003 FORM")


def most_runs() -> None:
    """65,535 runs of one record each, of which none is merged: reads pass all that haven't their key."""
    keys = [f"{number * 37 % 65_535:05}" for number in range(65_535)]
    lines = []
    for at in range(0, len(keys), 4000):
        lines += ["BEGIN", "LOCK X ! ~", *(f"LOAD {key}={key}" for key in keys[at : at + 4000]), "COMMIT"]
    loaded = len(lines)
    lines += ["BEGIN", "LOCK X ! ~", "LOAD x=x", "LOAD b=1 a=2", "GET x", "INS x x", *(f"GET {key}" for key in keys[::100])]
    scans = {"SCAN 3 4 300": range(30_000, 30_300), "SCAN 00000 65534 1000": range(1000), "SCAN 00300 00310 10": range(300, 310)}
    lines += [*scans, "COMMIT"]
    answers = answers_to(lines, "--auto", "0")
    wanted("the loads", [answer for answer in answers[:loaded] if answer != "OK"], [f"{word} {number}" for number in range(1, 18) for word in ("BEGUN", "COMMITTED")])
    wanted("one run more, one out of order, an absent key, and its insert", answers[loaded + 2 : loaded + 6], ["ERR RUNS", "ERR ORDER", "NONE", "OK"])
    wanted("each hundredth key", answers[loaded + 6 : -4], [f"VAL {key}" for key in keys[::100]])
    for (scan, found), answer in zip(scans.items(), answers[-4:-1]):
        wanted(scan, answer, " ".join([f"ROWS {len(found)}", *(f"{key:05}={key:05}" for key in found)]))


def memory_of(server: Server, what: str) -> float:
    """What the system says of a server's memory, in megabytes."""
    with open(f"/proc/{server.process.pid}/status", encoding="ascii") as status:
        return next(int(line.split()[1]) for line in status if line.startswith(what)) / 1000


def scans_with_room_to_spare() -> None:
    """A stored scan keeps no room for rows that it didn't find."""
    # (glibc sets 64 MB of address space aside for each thread that asks for memory, and some of them begin late)
    server = Server("--workers", "0", env={**os.environ, "MALLOC_ARENA_MAX": "1"})
    session = Client(server.port)
    wanted("a record", session.ask_all(["BEGIN", "INS b 1", "SCAN a c 1000"])[2], "ROWS 1 b=1")
    space = memory_of(server, "VmPeak")
    for _ in range(10):
        lines = ["COMMIT", "BEGIN", *(["SCAN a c 1000"] * 2000)]
        wanted("the scans", set(session.ask_at_once(lines)[2:]), {"ROWS 1 b=1"})
    used, grown = memory_of(server, "VmHWM"), memory_of(server, "VmPeak") - space
    if used > 30 or grown > 50:
        fail(f"scans of one record: {used} MB, and {grown} MB more of address space")
    wanted("the end", session.ask_all(["COMMIT", "QUIT"])[1], "BYE")
    server.closed()


def memory_of_rounds(merges: bool) -> int:
    """How many KB a store has grown by while 3,000 records were loaded, deleted and cleaned 140 times, each time others. They are
    deleted where they were loaded, or first merged into the final partition."""
    with subprocess.Popen([AMSERVE, "alone", "--auto", "0"], stdin=subprocess.PIPE, stdout=subprocess.PIPE) as process:
        assert process.stdin and process.stdout
        sizes = []
        for number in range(161):
            keys = [f"{number:03}{at:04}" for at in range(3000)]
            lines = ["BEGIN", "LOCK X ! ~"]
            lines += ["STAGE " + " ".join(f"{key}=v" for key in keys[at : at + 300]) for at in range(0, 2700, 300)]
            lines += ["LOAD " + " ".join(f"{key}=v" for key in keys[2700:])]
            if merges:
                lines += [f"SCAN {keys[at]} {keys[at + 999]} 1000" for at in range(0, 3000, 1000)]
                lines += ["COMMIT", *["MERGE 64"] * 60, "BEGIN", "LOCK X ! ~"]
            lines += [*(f"DEL {key}" for key in keys), "COMMIT", *["CLEAN ! ~ 64"] * 48]
            answers = asked(process, lines)
            wanted("what is cleaned", sum(int(answer.split()[1]) for answer in answers if answer.startswith("CLEANED ")), 3000)
            if number in (20, 160):
                with open(f"/proc/{process.pid}/status", encoding="ascii") as status:
                    sizes.append(next(int(line.split()[1]) for line in status if line.startswith("VmRSS:")))
        process.stdin.close()
    return sizes[1] - sizes[0]


def asked(process: "subprocess.Popen[bytes]", lines: List[str]) -> List[str]:
    """The answers of a process to lines that are sent together, and read meanwhile."""
    assert process.stdin and process.stdout
    stdin, text = process.stdin, "".join(f"{line}\n" for line in lines).encode()

    def send() -> None:
        stdin.write(text)
        stdin.flush()

    sender = threading.Thread(target=send)
    sender.start()
    answers = [process.stdout.readline().decode().rstrip("\n") for _ in lines]
    sender.join()
    return answers


def filters_of_records_that_left() -> None:
    """A store that loads, deletes and cleans again and again keeps nothing of what it cleaned."""
    for merges in (False, True):
        # (the filters of 420,000 keys, of their runs and of generations, are 1.7 MB at least)
        grown = memory_of_rounds(merges)
        if grown > 1500:
            fail(f"{grown} KB more after 140 rounds of loads, deletions and cleaning")


def marks_of(number: int, records: int) -> str:
    """A trace of a transaction that has so many marks, one within another, over so many records."""
    text = [f"{f'{key:08}'.encode().hex()}=h76" for key in range(records)]
    lines = ["BEGIN | BEGUN 1", "LOAD 1 h" + " h".join(text) + " | OK"]
    for mark in range(number):
        lines += ["MARK 1 | OK", f"REP 1 h{f'{mark:08}'.encode().hex()} h77 | OK"]
    lines += ["BACK 1 | OK"] * (number // 2) + ["COMMIT 1 | COMMITTED 1", ""]
    return "\n".join(["TRACE 2", *lines])


def judged(trace: str) -> Tuple[str, int]:
    """What the auditor says of a trace, and the most memory that it had."""
    with subprocess.Popen([AMAUDIT, trace], stdout=subprocess.PIPE, text=True) as judge:
        said = judge.stdout.read() if judge.stdout else ""
        _, status, used = os.wait4(judge.pid, 0)
        judge.returncode = os.waitstatus_to_exitcode(status)
    return said.strip(), used.ru_maxrss


def nested_marks(folder: str) -> None:
    """The auditor's memory hardly grows with the marks of a body."""
    peaks = []
    for number in (1, 1300):
        trace = os.path.join(folder, "marks")
        with open(trace, "w", encoding="ascii") as file:
            file.write(marks_of(number, 200_000))
        said, peak = judged(trace)
        wanted("the judgement", said, "LEGAL 1")
        peaks.append(peak)
    wanted("the memory of marks", peaks[1] < 1.2 * peaks[0], True)


def main() -> None:
    """All of it."""
    many_short_records()
    many_staged_records()
    longest_answer()
    most_locks_and_operations()
    most_runs()
    with tempfile.TemporaryDirectory() as folder:
        stored_run(folder)
        nested_marks(folder)
        full_session(folder)
    scans_with_room_to_spare()
    filters_of_records_that_left()
    print("bounds: all as expected")


if __name__ == "__main__":
    main()
