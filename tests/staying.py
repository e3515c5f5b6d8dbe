#!/usr/bin/env python3
"""A server that stays, from outside: many connections, memory that doesn't grow with age, a trace that grows, stops and ends."""

import os
import random
import resource
import selectors
import signal
import socket
import subprocess
import sys
import tempfile
import threading
import time
from typing import Any, Callable, Dict, List, Optional, Sequence, Set, Tuple, Union

sys.dont_write_bytecode = True
from other_protocols import other_protocols  # noqa: E402
from support import AMAUDIT, AMSERVE, LIMIT, Client, Server, audit, built, fail, program, tcp_sockets, until, wanted  # noqa: E402


def stay(*words: str, trace: Optional[str] = None, **how: Any) -> Server:
    """A server that stays, which a line STOP ends."""
    return Server("--stay", "--stop", *words, trace=trace, **how)


def stopped(server: Server, status: int = 0) -> Tuple[int, int, str]:
    """Stops it: the steps and the commits that it tells, and what it said on standard error."""
    server.tell("STOP\n")
    out, said = server.end(status)
    words = out.split()
    if len(words) != 3 or words[0] != "CLOSED":
        fail(f"last line: {out!r}, {said!r}")
    return int(words[1]), int(words[2]), said


def open_audit(trace: str) -> str:
    """What the auditor says of the whole lines of a run that isn't ended."""
    return subprocess.run([AMAUDIT, "--open", trace], capture_output=True, text=True, timeout=LIMIT, check=False).stdout.strip()


def commits_in(trace: str) -> int:
    """The commits that stand in the file of a trace."""
    with open(trace, "rb") as file:
        return file.read().count(b"| COMMITTED ")


def one_session(port: int, key: str) -> None:
    """A session with one transaction."""
    client = Client(port)
    wanted("a session's answers", client.ask_all(["BEGIN", f"INS {key} v", "COMMIT"])[1], "OK")
    client.quit()


def patient_session(port: int, key: str) -> None:
    """The same, tried again where the server has no seat for it within a second."""
    client = Client(port)
    while client.ask("BEGIN") == "ERR SESSIONS":
        client.socket.close()
        client = Client(port)
    wanted("a session's answer", client.ask_all([f"INS {key} v", "COMMIT"])[0], "OK")
    client.quit()


def memory(server: Server) -> int:
    """The resident memory in KB of the program."""
    with open(f"/proc/{program(server)}/status", encoding="ascii") as file:
        return next(int(line.split()[1]) for line in file if line.startswith("VmRSS:"))


def await_rest(server: Server) -> None:
    """Waits until the program has done nothing for a second: its workers have had their turns."""
    spent, before = 0, -1
    while spent != before:
        time.sleep(1)
        before = spent
        with open(f"/proc/{program(server)}/stat", encoding="ascii") as file:
            spent = sum(map(int, file.read().rpartition(")")[2].split()[11:13]))


def long_sessions() -> None:
    """A session has no end by steps, and leaves little memory; and a worker has more turns than a seat holds
    receipts."""
    server = stay("--sessions", "1", "--workers", "1", env={**os.environ, "MALLOC_ARENA_MAX": "1"})
    client = Client(server.port)
    # (a run that nobody reads isn't merged, and lets no worker rest)
    wanted("a run", client.ask_all(["BEGIN", "LOAD a=1", "COMMIT", "BEGIN"]), ["BEGUN 1", "OK", "COMMITTED 1", "BEGUN 2"])
    for _ in range(3):
        wanted("steps", set(client.ask_at_once(["MERGE 1"] * 1_000_000)), {"IDLE"})
    wanted("its end", client.ask_at_once(["COMMIT", "QUIT"]), ["COMMITTED 2", "BYE"])
    client = Client(server.port)
    wanted("a next session", client.ask_at_once(["MERGE 1"] * 3 + ["QUIT"]), ["IDLE"] * 3 + ["BYE"])
    await_rest(server)
    kept = memory(server)
    # (what the keeper had not taken yet when most was kept counts, too)
    if kept > 40_000:
        fail(f"{kept} KB after a session of 3,000,000 steps")
    steps, commits, said = stopped(server)
    # (of the sessions 3,000,009: a worker has a turn for each line that was answered)
    wanted("the worker's turns", (steps - 3_000_008 > 1_000_000, commits, said), (True, 2, ""))


def workers_that_rest(trace: str) -> None:
    """While nothing is to merge or to clean a worker has a turn for each 1,024 answers, and for each again once a run is loaded or
    put, or ghosts are many."""
    server = stay("--sessions", "1", "--workers", "1", trace=trace)
    client = Client(server.port)

    def turns() -> int:
        await_rest(server)
        with open(trace, "rb") as file:
            return sum(line.startswith(b"MERGE ") for line in file)

    wanted("lines", set(client.ask_at_once(["SEEN"] * 50_000)), {"SEEN 0 0"})
    first = turns()
    if not 1 <= first <= 1_000:
        fail(f"{first} turns for 50,000 lines of a store in which nothing is to do")
    for verb, letter, merged in (("LOAD", "j", 200), ("PUT", "k", 400)):
        first = turns()
        records = [f"{letter}{number:03}" for number in range(200)]
        client.ask_all(["BEGIN", f"{verb} " + " ".join(f"{key}=v" for key in records), "COMMIT"])
        client.ask_at_once(["BEGIN", f"SCAN {letter} {letter}z 1000", "COMMIT", *["SEEN"] * 200])
        second = turns()
        with open(trace, "rb") as file:
            moved = sum(int(line.split()[4]) for line in file if b" | MOVED " in line)
        wanted(f"records that were merged behind {verb}", (moved, second - first >= 13), (merged, True))
    client.ask_at_once(["BEGIN", *[f"DEL {key}" for key in records], "COMMIT", *["SEEN"] * 3_000])
    # (of answers that go out together those behind the 1,024th may come before the worker goes on)
    for _ in range(50):
        client.ask("SEEN")
    turns()
    with open(trace, "rb") as file:
        cleaned = sum(int(line.split()[-1]) for line in file if b" | CLEANED " in line)
    wanted("ghosts that were cleaned", cleaned, 200)
    client.quit()
    stopped(server)


def reads_in_idle_time(steps: List[List[str]]) -> None:
    """A worker's read, of one row, has its steps one right after another; and of a session that read, of 100 rows, what that read is
    merged before a worker reads twice."""
    verbs, reads, asked = [step.split()[0] for step, _ in steps], 0, False
    for place, (step, answer) in enumerate(steps):
        around = verbs[place - 1 : place + 2]
        if step.startswith("SCAN") and step.endswith(" 100"):
            reads, asked = 0, True
        elif step.startswith("SCAN"):
            reads += 1
            if around not in (["BEGIN", "SCAN", "COMMIT"], ["BEGIN", "SCAN", "ABORT"]):
                fail(f"a worker's read in pieces: {around}")
            if asked and reads > 1:
                fail(f"a session's read waits for a worker's second one, in line {place + 2}")
        elif answer == "IDLE":
            asked = False
    wanted("what workers read", any(step.startswith("SCAN") and step.endswith(" 1") for step, _ in steps), True)


def merged_unasked(trace: str) -> None:
    """Runs that nobody reads are merged once their loads have ended, but for 64 and what came in between; a scan is answered soon, and
    what a session asks for meanwhile is merged next."""
    server = stay("--sessions", "1", "--workers", "1", "--log", trace=trace)
    client = Client(server.port)
    loads, rng = 5_000, random.Random(7)
    keys = list(range(loads * 64))
    rng.shuffle(keys)
    lines = ["BEGIN"]
    for load in range(loads):
        if load % 250 == 249:
            lines += ["COMMIT", "BEGIN"]
        lines.append("LOAD " + " ".join(f"{key:07}=v" for key in sorted(keys[load * 64 : load * 64 + 64])))
    wanted("loads", {answer.split()[0] for answer in client.ask_at_once([*lines, "COMMIT"])}, {"BEGUN", "OK", "COMMITTED"})
    for number in range(20):
        client.ask_all(["BEGIN", f"SCAN {number:02}00000 {number:02}01000 100", "COMMIT"])
        time.sleep(0.02)
    await_rest(server)
    begun = time.monotonic()
    wanted("a scan", len(client.ask_all(["BEGIN", "SCAN 0100000 0200000 100", "COMMIT"])[1].split()), 102)
    if time.monotonic() > begun + 1:
        fail(f"a scan of 100 took {time.monotonic() - begun} seconds")
    client.quit()
    told = dict(word.split("=") for word in stopped(server)[2].split())
    if int(told["runs"]) > 130:
        fail(f"{told['runs']} runs are left that nobody asked for")
    wanted("audit", audit(trace).split()[0], "LEGAL")
    with open(trace, encoding="ascii") as file:
        reads_in_idle_time([line.rstrip("\n").split(" | ") for line in file if " | " in line])
    server = stay("--sessions", "1", "--workers", "1", "--runs", "0", "--log")
    client = Client(server.port)
    client.ask_all(["BEGIN", *(f"LOAD {key:03}=v" for key in range(200)), "COMMIT"])
    await_rest(server)
    client.quit()
    wanted("runs of a server that merges none unasked", "runs=200" in stopped(server)[2], True)


# How many steps a session has that asks often.
SESSION = 2_500


def asked_often(server: Server, steps: int) -> None:
    """So many steps of eight clients at once, each a merge step that finds nothing, in sessions one after another."""
    answers: List[int] = []

    def ask() -> None:
        for _ in range(steps // 8 // SESSION):
            with socket.create_connection(("127.0.0.1", server.port), timeout=LIMIT) as client:
                for _ in range(SESSION // 500):
                    client.sendall(b"MERGE 1\n" * 500)
                    answers.append(answered(client, 500))

    threads = [threading.Thread(target=ask) for _ in range(8)]
    for thread in threads:
        thread.start()
    for thread in threads:
        thread.join()
    wanted("answers", sum(answers), steps)


def answered(client: socket.socket, lines: int) -> int:
    """How many of so many lines come before the session ends."""
    got = 0
    while got < lines:
        piece = client.recv(1 << 16)
        if not piece:
            break
        got += piece.count(b"\n")
    return got


def many_connections(trace: str, count: int) -> None:
    """So many connections one after another and 200 at once, on 64 seats; the trace grows meanwhile."""
    server = stay(trace=trace)
    for number in range(count):
        one_session(server.port, f"a{number}")
    until("the commits stand in the file of an idle server", lambda: commits_in(trace) == count)
    threads = [threading.Thread(target=patient_session, args=(server.port, f"b{number}")) for number in range(200)]
    for thread in threads:
        thread.start()
    for thread in threads:
        thread.join()
    steps, commits, said = stopped(server)
    wanted("commits and what was said", (commits, said), (count + 200, ""))
    with open(trace, "rb") as file:
        wanted("lines of the trace", file.read().count(b"\n"), steps + 1)
    wanted("audit", audit(trace), f"LEGAL {count + 200}")


def bounded_memory(trace: str, first: int, further: int) -> None:
    """Memory doesn't grow with the steps that were taken, whether the trace is written or not."""
    for words in ("", f"--trace {trace}"):
        server = stay("--sessions", "8", *words.split())
        asked_often(server, first)
        await_rest(server)
        before = memory(server)
        asked_often(server, further)
        await_rest(server)
        after = memory(server)
        # (450 bytes each of 200,000 steps would be 90 MB)
        if after > before + 20_000:
            fail(f"{words}: {before} KB after {first} steps, and {after} KB after {further} more")
        stopped(server)
    wanted("audit", audit(trace), "LEGAL 0")


def staged_and_left(sessions: int) -> None:
    """Sessions that stage as many records as they may, one after another, leave no more memory than one of them does."""
    # (glibc keeps some memory for each thread that had some, and which threads serve these sessions isn't known)
    server = stay("--sessions", "8", "--workers", "0", env={**os.environ, "MALLOC_ARENA_MAX": "1"})
    keys = iter(range(65_535))
    lines = [" ".join(["STAGE", *(f"{key:08x}=v" for _, key in zip(range(300), keys))]) for _ in range(219)]
    text = "".join(f"{line}\n" for line in ["BEGIN", *lines, "QUIT"]).encode()

    def stage() -> None:
        with socket.create_connection(("127.0.0.1", server.port), timeout=LIMIT) as client:
            client.sendall(text)
            said = b"".join(iter(lambda: client.recv(1 << 16), b""))
            wanted("answers", said.split(b"\n")[1:], [b"OK"] * len(lines) + [b"BYE", b""])

    for _ in range(8):
        stage()
    before = memory(server)
    for _ in range(sessions):
        stage()
    after = memory(server)
    if after > before + 30_000:
        fail(f"{before} KB after 8 sessions that staged, and {after} KB after {sessions} more")
    stopped(server)


def loads_without_end(trace: str, loads: int) -> None:
    """More loads than a bounded server takes, half of them aborted, and one more: its trace, of version 3, is legal."""
    server = stay("--workers", "0", trace=trace)
    # (a transaction holds 256 locks; 65,535 runs at most have entries, so what is loaded is merged or cleaned, a run at a time)
    lines: List[str] = []
    for first in range(0, loads, 250):
        keys = [f"{key:06}" for key in range(first, first + 250)]
        lines += ["BEGIN", *(f"LOAD {key}=v" for key in keys)]
        if first % 500:
            lines += ["ABORT", *[f"CLEAN {keys[0]} {keys[-1]} 64"] * 4]
        else:
            lines += ["COMMIT", "BEGIN", f"SCAN {keys[0]} {keys[-1]} 1", "COMMIT", *["MERGE 1"] * 251]
    client = Client(server.port)
    words = {answer.split()[0] for answer in client.ask_at_once(lines)}
    wanted("the answers", words, {"BEGUN", "OK", "COMMITTED", "ABORTED", "ROWS", "MOVED", "DONE", "CLEANED"})
    wanted("one more", client.ask_all(["BEGIN", "LOAD x=v", "GET x", "COMMIT"])[1:3], ["OK", "VAL v"])
    client.quit()
    stopped(server)
    with open(trace, encoding="ascii") as file:
        wanted("the first line of the trace", file.readline(), "TRACE 4 4294967294 32 64 256 4096\n")
    wanted("audit", audit(trace), f"LEGAL {loads // 250 + 1}")


def waiting_connections() -> None:
    """A connection beyond those that are served at once waits, and is served where one of them ends meanwhile."""
    server = stay("--sessions", "2")
    first, second = Client(server.port), Client(server.port)
    wanted("two at once", [first.ask("BEGIN"), second.ask("BEGIN")], ["BEGUN 1", "BEGUN 2"])
    third = Client(server.port)
    third.socket.sendall(b"BEGIN\n")
    third.socket.settimeout(0.4)
    try:
        fail(f"a third is answered: {third.socket.recv(100)!r}")
    except socket.timeout:
        third.socket.settimeout(LIMIT)
    first.quit()
    wanted("the third, once the first has ended", third.reply(), "BEGUN 3")
    wanted("its number", third.ask("SEEN").split()[1], "2")
    second.quit()
    third.quit()
    stopped(server)


def burst(port: int, count: int) -> Tuple[Dict[bytes, int], float]:
    """So many clients come at once, each with one line: how many were told what, and how long the middle one of them waited."""
    said: Dict[bytes, int] = {}
    waits: List[float] = []
    with selectors.DefaultSelector() as selector:
        begun = time.monotonic()
        for _ in range(count):
            client = socket.socket()
            client.setblocking(False)
            client.connect_ex(("127.0.0.1", port))
            selector.register(client, selectors.EVENT_WRITE)
        while selector.get_map() and time.monotonic() < begun + LIMIT:
            for key, events in selector.select(1):
                client = key.fileobj  # type: ignore[assignment]
                word = b""
                try:
                    if events & selectors.EVENT_WRITE:
                        client.send(b"SEEN\nQUIT\n")
                        selector.modify(client, selectors.EVENT_READ)
                        continue
                    word = client.recv(100).split(b" ")[0]
                except OSError as error:
                    word = type(error).__name__.encode()
                said[word] = said.get(word, 0) + 1
                waits.append(time.monotonic() - begun)
                selector.unregister(client)
                client.close()
        for key in [*selector.get_map().values()]:
            said[b"nothing"] = said.get(b"nothing", 0) + 1
            key.fileobj.close()  # type: ignore[union-attr]
    return said, sorted(waits)[len(waits) // 2]


def many_at_once() -> None:
    """Bursts of clients that each ask one thing: none of them is left or cut off, and none waits for its system to try again, which
    takes a second."""
    server = stay()
    before = resource.getrlimit(resource.RLIMIT_NOFILE)
    resource.setrlimit(resource.RLIMIT_NOFILE, (min(before[1], 20_000), before[1]))
    said, middle = burst(server.port, 500)
    wanted("500 at once", (said, middle < 0.9), ({b"SEEN": 500}, True))
    wanted("1,000 at once", burst(server.port, 1000)[0], {b"SEEN": 1000})
    # (as many as this process may have of files)
    for count in (3000, min(10_000, before[1] - 200)):
        said, _ = burst(server.port, count)
        wanted(f"what {count} at once are told", {*said} <= {b"SEEN", b"ERR"} or said, True)
    resource.setrlimit(resource.RLIMIT_NOFILE, before)
    stopped(server)


def told(connection: socket.socket) -> Tuple[bytes, float]:
    """All that a connection is told until it is closed, and how many seconds that takes."""
    begun = time.monotonic()
    said = b"".join(iter(lambda: connection.recv(4096), b""))
    return said, time.monotonic() - begun


def connections_that_are_not_served(path: str) -> None:
    """Beyond those that are served at once a connection waits for most of a second and is told. So it is after the stop."""
    server = stay("--sessions", "2", "--workers", "0", "--socket", path)
    served = [Client(server.port), Client(server.port)]
    wanted("two at once", [it.ask("BEGIN") for it in served], ["BEGUN 1", "BEGUN 2"])
    # (more than wait at once, each with a line, which the server hasn't read when it tells why)
    further = [socket.create_connection(("127.0.0.1", server.port), timeout=LIMIT) for _ in range(300)]
    for connection in further:
        connection.sendall(b"BEGIN\n")
    said, seconds = told(further[-1])
    wanted("what a further one is told", said, b"ERR SESSIONS\n")
    if not 0.5 < seconds < 2:
        fail(f"it is told after {seconds:.2f} seconds")
    wanted("what all others are told", {told(it)[0] for it in further[:-1]}, {b"ERR SESSIONS\n"})
    # (those of the socket have seats of their own)
    with socket.socket(socket.AF_UNIX) as local:
        local.connect(path)
        local.sendall(b"SEEN\nQUIT\n")
        wanted("a session at the socket", told(local)[0], b"SEEN 2 0\nBYE\n")
    waits_at_a_full_socket(path)
    # The stop comes while one waits, and one more comes behind it.
    with socket.create_connection(("127.0.0.1", server.port), timeout=LIMIT) as waits:
        time.sleep(0.2)
        server.tell("STOP\n")
        said, seconds = told(waits)
        wanted("who waits at a stop", said, b"ERR SESSIONS\n")
        if seconds > 0.5:
            fail(f"it is told after {seconds:.2f} seconds")
    with socket.create_connection(("127.0.0.1", server.port), timeout=LIMIT) as late:
        wanted("who comes behind a stop", told(late)[0], b"ERR SESSIONS\n")
    wanted("those that were served", [it.ask("SEEN") for it in served], ["SEEN 0 0", "SEEN 1 0"])
    for client in served:
        client.quit()
    wanted("the end", server.closed(), (4, 0))


def waits_at_a_full_socket(path: str) -> None:
    """Who waits at the socket of the file system while all its seats are taken is told as at the port."""
    locals_ = [socket.socket(socket.AF_UNIX) for _ in range(3)]
    for local in locals_:
        local.settimeout(LIMIT)
        local.connect(path)
        if local is not locals_[2]:
            local.sendall(b"SEEN\n")
            wanted("a session at the socket", local.recv(100)[:5], b"SEEN ")
    said, seconds = told(locals_[2])
    wanted("what a further one at the socket is told", said, b"ERR SESSIONS\n")
    if not 0.5 < seconds < 2:
        fail(f"at the socket it is told after {seconds:.2f} seconds")
    for local in locals_[:2]:
        local.sendall(b"QUIT\n")
        wanted("the end of a session at the socket", told(local)[0], b"BYE\n")


def seats_of_the_idle(path: str) -> None:
    """Where all sessions are taken the one makes way for another that was idle longest, without a transaction, for more than so many
    seconds, at the port and at the socket. By default that is a minute, and 0 is for never."""
    for words, limited in ((("--idle-seat", "1"), True), (("--idle-seat", "0"), False), ((), False)):
        server = stay("--sessions", "3", "--workers", "0", "--socket", path, *words)
        places: List[Union[int, str]] = [server.port, path]
        for place in places:
            silent, begun, asks = Client(place), Client(place), Client(place)
            wanted("a transaction", begun.ask("BEGIN").split()[0], "BEGUN")
            for _ in range(3):
                time.sleep(0.6)
                wanted("a session that isn't idle", asks.ask("SEEN").split()[0], "SEEN")
            newcomer = Client(place)
            wanted("a newcomer", newcomer.ask("SEEN").split()[0], "SEEN" if limited else "ERR")
            wanted("the others", (begun.ask("ABORT"), asks.ask("SEEN").split()[0]), ("ABORTED", "SEEN"))
            if limited:
                wanted("who made way", told(silent.socket)[0], b"")
                wanted("one more, at once", Client(place).reply(), "ERR SESSIONS")
                newcomer.quit()
            else:
                silent.quit()
            for client in (begun, asks):
                client.quit()
        stopped(server)


def speakers_of_others(folder: str) -> None:
    """Connections that speak another protocol, at the port and at the socket."""
    path = os.path.join(folder, "other")
    for is_local in (False, True):
        server = stay("--sessions", "2", "--socket", path)

        def connected(port: int = server.port, is_local: bool = is_local) -> socket.socket:
            if not is_local:
                return socket.create_connection(("127.0.0.1", port))
            local = socket.socket(socket.AF_UNIX)
            local.connect(path)
            return local

        other_protocols(connected)
        stopped(server)


def killed_under_load(trace: str) -> None:
    """A server that is killed leaves whole lines that are legal, and at most one that is torn."""
    dice = random.Random(7)
    for _ in range(50):
        server = Server("--stay", "--sessions", "8", program=(built("am_program_listen"),), trace=trace)
        loads = [Load(server.port, number) for number in range(4)]
        for load in loads:
            load.start()
        time.sleep(dice.uniform(0.01, 0.25))
        server.process.kill()
        server.process.wait()
        for load in loads:
            load.join()
        said = open_audit(trace)
        if not said.startswith("LEGAL "):
            fail(f"a killed server's trace: {said}")


class Load(threading.Thread):
    """A client that commits, some times in each session, until its server goes away."""

    def __init__(self, port: int, number: int) -> None:
        super().__init__()
        self.port = port
        self.number = number
        self.committed = 0

    def run(self) -> None:
        """Commits until a connection fails or is closed."""
        try:
            while self.session():
                pass
        except OSError:
            return

    def session(self) -> bool:
        """One session. Whether it came to its end."""
        with socket.create_connection(("127.0.0.1", self.port), timeout=LIMIT) as client:
            answers = client.makefile("r", encoding="ascii")
            for _ in range(20):
                for line in ("BEGIN", f"INS {self.number}x{self.committed} v", "COMMIT"):
                    client.sendall(f"{line}\n".encode())
                    answer = answers.readline()
                    if not answer:
                        return False
                self.committed += answer.startswith("COMMITTED")
        return True


def terminated_under_load(trace: str) -> None:
    """SIGTERM stops the server: what was committed stands in the trace, and late sessions are cut with their transactions."""
    for number in (signal.SIGTERM, signal.SIGINT):
        server = Server("--stay", "--sessions", "8", "--grace", "1", trace=trace)
        late = Client(server.port)
        wanted("a late session", late.ask_all(["BEGIN", "INS late v"]), ["BEGUN 1", "OK"])
        loads = [Load(server.port, number) for number in range(4)]
        for load in loads:
            load.start()
        time.sleep(0.5)
        begun = time.monotonic()
        server.process.send_signal(number)
        out, said = server.end()
        took = time.monotonic() - begun
        for load in loads:
            load.join()
        words = out.split()
        wanted("the last line and what was said", (words[0], said), ("CLOSED", ""))
        commits = sum(load.committed for load in loads)
        # (an answer may have been cut with its session)
        if not commits <= int(words[2]) <= commits + len(loads):
            fail(f"{commits} commits were told, and {words[2]} are stored")
        wanted("audit", audit(trace), f"LEGAL {words[2]}")
        if not 0.8 < took < 10:
            fail(f"a server with a grace of one second ended after {took:.1f} s")
        with open(trace, encoding="ascii") as file:
            if "ABORT 1 | ABORTED\n" not in file.read():
                fail("the transaction of a session that was cut is not aborted")


def stopped_at_random(trace: str, times: int) -> None:
    """SIGTERM at random moments of a server's life, the one right after LISTEN among them. To the launcher it is a stop, whose
    status is the server's own; the program itself it ends at once, and the trace's whole lines stand."""
    for number in range(times):
        server = Server("--stay", "--sessions", "4", trace=trace)
        load = Load(server.port, number)
        load.start()
        time.sleep(random.choice([0.0, 0.0, 0.002, 0.02, 0.1]))
        told = number % 2 == 0
        os.kill(server.process.pid if told else program(server), signal.SIGTERM)
        out, said = server.end(0 if told else 128 + signal.SIGTERM)
        load.join()
        wanted(f"what is told of {trace}", (out.split()[:1], said), (["CLOSED"] if told else [], ""))
        wanted("the audit", (audit(trace) if told else open_audit(trace)).split()[0], "LEGAL")


def names_and_groups() -> None:
    """The program is found by its name, and what a terminal sends to all of the launcher's group doesn't end it: it is a stop."""
    server = Server("--stay", "--sessions", "2", start_new_session=True)
    with open(f"/proc/{program(server)}/comm", encoding="ascii") as file:
        wanted("its name", file.read(), "amserve\n")
    client = Client(server.port)
    wanted("a transaction", client.ask_all(["BEGIN", "INS k v", "COMMIT"])[2], "COMMITTED 1")
    client.quit()
    os.killpg(server.process.pid, signal.SIGINT)
    wanted("commits", server.closed()[1], 1)


def without_input() -> None:
    """A server that is begun with no standard input, as by a daemon, serves and ends."""
    server = Server("--stay", "--sessions", "2", stdin=None, preexec_fn=lambda: os.close(0))
    one_session(server.port, "k")
    server.process.send_signal(signal.SIGTERM)
    wanted("commits", server.closed()[1], 1)


def rest_of_input() -> None:
    """What a caller's input has after the end of a server that reads its lines is left for the caller."""
    words = f"{AMSERVE} listen --port 0 --stay --stop & server=$!; wait $server; IFS= read -r line; echo \"$line\""
    running = subprocess.Popen(["bash", "-c", f"exec {{given}}<&0; {words.replace('--stop &', '--stop <&$given &')}"],
                               stdin=subprocess.PIPE, stdout=subprocess.PIPE, text=True)
    assert running.stdin and running.stdout
    wanted("the first line", running.stdout.readline().split()[0], "LISTEN")
    launcher = int(subprocess.run(["pgrep", "-P", str(running.pid)], stdout=subprocess.PIPE, text=True, check=True).stdout.split()[0])
    os.kill(launcher, signal.SIGTERM)
    wanted("its last line", running.stdout.readline().split()[0], "CLOSED")
    time.sleep(0.2)
    out, _ = running.communicate("mine\n", timeout=LIMIT)
    wanted("what is left", out, "mine\n")


def own_trace(folder: str) -> None:
    """A trace's file is one server's: a second one ends, and what earlier ones stored is put aside."""
    trace = os.path.join(folder, "own trace")
    for number in (0, 1, 2):
        server = Server("--stay", "--sessions", "2", trace=trace)
        one_session(server.port, f"k{number}")
        second = subprocess.run([AMSERVE, "listen", "--port", "0", "--stay", f"--trace={trace}"], stdin=subprocess.DEVNULL, capture_output=True, text=True, timeout=LIMIT, check=False)
        said = f"amserve: {trace}: another server writes it\namserve: cannot write the trace\n"
        wanted("a second server", (second.returncode, second.stdout, second.stderr), (4, "", said))
        server.process.send_signal(signal.SIGTERM)
        wanted("commits", server.closed()[1], 1)
    for number, name in enumerate((f"{trace}.1", f"{trace}.2", trace)):
        wanted(f"the audit of {name}", audit(name), "LEGAL 1")
        with open(name, encoding="ascii") as file:
            wanted(f"whose trace {name} is", f"INS 1 h6b3{number}" in file.read(), True)


def closed_from_the_first_moment(path: str) -> None:
    """Nobody else may open a server's socket, not even between its making and its first session."""
    modes: Set[int] = set()
    running = subprocess.Popen([AMSERVE, "listen", "--port", "0", "--stay", "--socket", path], stdin=subprocess.DEVNULL, stdout=subprocess.PIPE, text=True)
    end = time.monotonic() + LIMIT
    while time.monotonic() < end and len(modes) < 1000 and running.poll() is None:
        try:
            modes.add(os.stat(path).st_mode & 0o777)
        except FileNotFoundError:
            continue
        if 0o600 in modes:
            break
    running.send_signal(signal.SIGTERM)
    running.communicate(timeout=LIMIT)
    wanted("what others may do at the socket", sorted(it & 0o077 for it in modes if it & 0o077), [])
    wanted("its mode", 0o600 in modes, True)


def full_file(trace: str) -> None:
    """A file that may not grow any further."""
    size = 100_000
    limit = (size, size)
    goes_on_without(trace, size, "File too large (os error 27)", lambda: resource.setrlimit(resource.RLIMIT_FSIZE, limit), (AMSERVE,))


def full_disk(folder: str) -> None:
    """A disk that fills, where one can be mounted."""
    size = 128 << 10
    disk = os.path.join(folder, "disk")
    os.mkdir(disk)
    if subprocess.run(["mount", "-t", "tmpfs", "-o", f"size={size}", "tmpfs", disk], stderr=subprocess.DEVNULL, check=False).returncode:
        print("staying: no disk can be mounted here, and a full one isn't tried")
        return
    try:
        goes_on_without(os.path.join(disk, "trace"), size, "No space left on device (os error 28)")
    finally:
        subprocess.run(["umount", disk], check=True)


def goes_on_without(
    trace: str, size: int, why: str, limit: Optional[Callable[[], None]] = None, begun_by: Optional[Sequence[str]] = None
) -> None:
    """A trace that can't be written any further: it is told once, the server keeps serving, its file has whole lines, and the
    status is 4."""
    server = stay("--sessions", "4", program=begun_by or (built("am_program_listen"),), trace=trace, preexec_fn=limit)
    for number in range(2000):
        one_session(server.port, f"a{number}")
    time.sleep(0.3)
    _, commits, said = stopped(server, 4)
    wanted("commits, and what was said", (commits, said), (2000, f"amserve: {trace}: {why}\namserve: cannot write the trace\n"))
    with open(trace, "rb") as file:
        text = file.read()
    if not (0 < len(text) <= size and text.endswith(b"\n")):
        fail(f"a trace that is cut has {len(text)} bytes and ends in {text[-20:]!r}")
    wanted("the audit of a trace that is cut", open_audit(trace).split()[0], "LEGAL")


def full_device() -> None:
    """A device that takes nothing is refused at once."""
    run = subprocess.run([built("am_program_listen"), "listen", "--port", "0", "--stay", "--trace", "/dev/full"], capture_output=True, text=True, timeout=LIMIT, check=False)
    wanted("a full device", (run.returncode, run.stdout, run.stderr), (4, "", "amserve: /dev/full: No space left on device (os error 28)\namserve: cannot write the trace\n"))


def slow_reader(folder: str) -> None:
    """A trace that nobody takes, in a pipe that is full: sessions are served, and cut when their grace is over. Once it is
    taken it is whole."""
    pipe = os.path.join(folder, "pipe")
    os.mkfifo(pipe)
    taken: List[bytes] = []
    may_read = threading.Event()

    def read() -> None:
        with open(pipe, "rb") as file:
            may_read.wait(LIMIT)
            taken.append(file.read())

    reader = threading.Thread(target=read)
    reader.start()
    server = stay("--sessions", "4", "--grace", "1", trace=pipe)
    late = Client(server.port)
    wanted("a late session", late.ask_all(["BEGIN", "INS late v"]), ["BEGUN 1", "OK"])
    for number in range(2000):
        one_session(server.port, f"a{number}")
    server.tell("STOP\n")
    begun = time.monotonic()
    wanted("what a session gets that is cut", late.socket.recv(1), b"")
    if time.monotonic() - begun > 10:
        fail("a full pipe holds up the cutting of a late session")
    may_read.set()
    out, said = server.end()
    reader.join()
    steps, commits = out.split()[1:]
    wanted("commits and what was said", (commits, said), ("2000", ""))
    wanted("lines of the trace", taken[0].count(b"\n"), int(steps) + 1)
    with open(os.path.join(folder, "taken"), "wb") as file:
        file.write(taken[0])
    wanted("audit", audit(os.path.join(folder, "taken")), "LEGAL 2000")


def nobody_reads(folder: str) -> None:
    """A trace that nobody takes, in a pipe that is full: a stop with a grace gives it up, however it comes."""
    pipe = os.path.join(folder, "unread")
    os.mkfifo(pipe)
    with open(pipe, "rb", opener=lambda path, flags: os.open(path, flags | os.O_NONBLOCK)):
        stops: List[Callable[[Server], object]] = [lambda it: it.tell("STOP\n"), Server.close_input, lambda it: it.process.terminate()]
        servers = [stay("--grace", "1", trace=pipe) for _ in stops]
        for server in servers:
            client = Client(server.port)
            for number in range(2000):
                wanted("an answer", client.ask_all(["BEGIN", f"SET a{number} {'v' * 60}", "COMMIT"])[1], "OK")
            client.quit()
        for server, stop in zip(servers, stops):
            stop(server)
        for server in servers:
            out, said = server.end(4)
            wanted("what is said of it", (out, said), ("", f"amserve: {pipe}: nobody takes what is written\namserve: cannot write the trace\n"))


def no_files_left() -> None:
    """Where connections can't be accepted that is told once, and later ones are served."""

    def few() -> None:
        resource.setrlimit(resource.RLIMIT_NOFILE, (12, 12))

    server = stay("--sessions", "32", program=(built("am_program_listen"),), preexec_fn=few)
    files = f"/proc/{server.process.pid}/fd"
    own = len(os.listdir(files))
    clients = [socket.create_connection(("127.0.0.1", server.port), timeout=LIMIT) for _ in range(20)]
    until("as many files are open as may", lambda: len(os.listdir(files)) == 12)
    for client in clients:
        client.close()
    until("all connections have ended", lambda: len(os.listdir(files)) == own)
    one_session(server.port, "a")
    wanted("what was said", stopped(server)[2], "amserve: a connection: Too many open files (os error 24)\namserve: cannot accept\n")


def none_accepted() -> None:
    """A server that can accept no connection for a while serves once it can."""
    server = stay("--sessions", "2", program=(built("am_program_listen"),))
    limits = resource.prlimit(server.process.pid, resource.RLIMIT_NOFILE)
    used = len(os.listdir(f"/proc/{server.process.pid}/fd"))
    resource.prlimit(server.process.pid, resource.RLIMIT_NOFILE, (used, limits[1]))
    with socket.create_connection(("127.0.0.1", server.port), timeout=LIMIT):
        time.sleep(0.5)
    resource.prlimit(server.process.pid, resource.RLIMIT_NOFILE, limits)
    one_session(server.port, "a")
    if not stopped(server)[2].startswith("amserve: a connection: Too many open files (os error 24)\n"):
        fail("a connection that can't be accepted isn't told")


def idle_sessions() -> None:
    """A session from which nothing comes is ended with its transaction, and a busy one isn't."""
    server = stay("--sessions", "4", "--idle", "1")
    idle, busy = Client(server.port), Client(server.port)
    wanted("a transaction that is left", idle.ask_all(["BEGIN", "INS k v"]), ["BEGUN 1", "OK"])
    wanted("another", busy.ask_all(["BEGIN", "INS k w"]), ["BEGUN 2", "BUSY 1"])
    for _ in range(8):
        time.sleep(0.25)
        wanted("a busy session", busy.ask("GET a"), "NONE")
    wanted("what the idle one is told", idle.socket.recv(100), b"")
    wanted("what it had locked", busy.ask_all(["INS k w", "COMMIT"]), ["OK", "COMMITTED 1"])
    busy.quit()
    wanted("what was said", stopped(server)[2], "")


def peers_that_take_nothing() -> None:
    """A session whose peer takes no answer is ended with its transaction, so many seconds after the last byte that went out."""
    server = stay("--sessions", "2", "--workers", "0", "--idle", "4")
    deaf, other = Client(server.port), Client(server.port)
    wanted("a transaction", deaf.ask_all(["BEGIN", "LOCK X a b", "LOAD " + " ".join(f"k{n:03}={'v' * 8}" for n in range(250))])[2], "OK")
    wanted("what it has locked", other.ask_all(["BEGIN", "INS a w"])[1], "BUSY 1")
    # (20 MB of answers, which no pair of sockets holds)
    deaf.socket.sendall(b"SCAN k l 1000\n" * 4000)
    begun = time.monotonic()
    while other.ask("INS a w") != "OK":
        if time.monotonic() - begun > LIMIT:
            fail("a session whose peer takes no answer isn't ended")
        time.sleep(0.1)
    took = time.monotonic() - begun
    if not 3.5 < took < 8:
        fail(f"a session whose peer takes no answer is ended after {took:.1f} seconds, and not after 4")
    wanted("the other's end", other.ask("COMMIT"), "COMMITTED 1")
    other.quit()
    deaf.socket.close()
    wanted("what was said", stopped(server)[2], "")


def sends_until_stuck(client: Client, lines: bytes) -> None:
    """Sends lines for as long as any are taken."""
    client.socket.settimeout(1)
    try:
        while True:
            client.socket.sendall(lines)
    except socket.timeout:
        pass


def others_beside_them() -> None:
    """Peers that take no answers, whatever they ask in a transaction, keep nobody waiting: a session that has the latch from one line
    to the next lets it go before an answer could wait."""
    server = stay("--sessions", "6", "--workers", "0")
    working = Client(server.port)
    wanted("records", working.ask_all(["BEGIN", *(f"INS k{n} {'v' * 64}" for n in range(9)), "COMMIT"])[-1], "COMMITTED 1")
    asked = [b"GET k1\n" * 2000, b"FOO\nGET k1\nSEEN\n" * 1000, b"WHO\nGET k1\n" * 1000, b"SCAN k0 k9 9\nGET k1\n" * 1000]
    deaf = [Client(server.port) for _ in asked]
    wanted("their transactions", {client.ask("BEGIN").split()[0] for client in deaf}, {"BEGUN"})
    senders = [threading.Thread(target=sends_until_stuck, args=them) for them in zip(deaf, asked)]
    for sender in senders:
        sender.start()
    for sender in senders:
        sender.join()
    for _ in range(200):
        wanted("answers beside them", working.ask_all(["BEGIN", "GET k2", "ABORT"])[1:], [f"VAL {'v' * 64}", "ABORTED"])
    wanted("how many there are", working.ask("WHO").split()[1], "4")
    for client in deaf:
        client.socket.close()
    working.quit()
    wanted("what was said", stopped(server)[2], "")


def switches(server: Server) -> Dict[str, int]:
    """How often each thread of the program began to wait."""
    pid, found = program(server), {}
    for task in os.listdir(f"/proc/{pid}/task"):
        with open(f"/proc/{pid}/task/{task}/status", encoding="ascii") as file:
            found[task] = next(int(line.split()[1]) for line in file if line.startswith("voluntary_ctxt_switches:"))
    return found


def many_answers_at_once() -> None:
    """Answers that go out together wake all workers, and not one of them alone."""
    server = stay("--sessions", "1", "--workers", "16")
    client = Client(server.port)
    # (a run that nobody reads lets no worker rest)
    wanted("a run", client.ask_all(["BEGIN", "LOAD a=1", "COMMIT"])[1:], ["OK", "COMMITTED 1"])
    await_rest(server)
    before = switches(server)
    wanted("answers", set(client.ask_at_once(["SEEN"] * 500)), {"SEEN 0 1"})
    await_rest(server)
    after = switches(server)
    # (beside workers those of the session, of the keeper and of the doors)
    woken = sum(after[task] > before.get(task, 0) for task in after)
    if woken < 16:
        fail(f"{woken} threads woke behind 500 answers, of 16 workers and those beside them")
    client.quit()
    stopped(server)


def told_by_log() -> None:
    """What a server tells of itself."""
    server = stay("--sessions", "4", "--workers", "0", "--log")
    one, two = Client(server.port), Client(server.port)
    wanted("one", one.ask_all(["BEGIN", "INS k v"]), ["BEGUN 1", "OK"])
    wanted("two", two.ask_all(["BEGIN", "INS k w", "SCAN 0 1 1001", "ABORT"]), ["BEGUN 2", "BUSY 1", "ERR LIMIT", "ABORTED"])
    wanted("one's commit", one.ask("COMMIT"), "COMMITTED 1")
    one.quit()
    two.quit()
    steps, commits, said = stopped(server)
    wanted("steps and commits", (steps, commits), (7, 1))
    told = dict(word.split("=") for word in said.split())
    del told["kept"]
    wanted("what was told", told, {"sessions": "2", "open": "0", "steps": "7", "commits": "1", "busy": "1", "too_many": "0", "wrong": "1", "in_final": "1", "in_runs": "0", "runs": "0", "ghosts": "0", "waiting": "0", "unaccepted": "0", "trace": "whole"})
    # Five entries in three runs, one of them a ghost, and nothing in the final partition.
    server = stay("--sessions", "1", "--workers", "0", "--log")
    client = Client(server.port)
    wanted("three runs", client.ask_all(["BEGIN", "LOAD a=1 b=2 c=3", "LOAD d=4", "LOAD e=5", "DEL b", "COMMIT"])[1:], ["OK"] * 4 + ["COMMITTED 1"])
    client.quit()
    told = dict(word.split("=") for word in stopped(server)[2].split())
    wanted("what is told of runs", [told[name] for name in ("in_final", "in_runs", "runs", "ghosts")], ["0", "5", "3", "1"])


def told_each_minute(server: Server, begun: float) -> None:
    """A server that began a while ago, and is asked nothing, has told a line each minute, and one at its end."""
    time.sleep(max(0, begun + 62 - time.monotonic()))
    minutes = int(time.monotonic() - begun) // 60
    lines = stopped(server)[2].splitlines()
    if len(lines) - 1 not in (minutes, max(1, minutes - 1)) or {line.split(" ")[0] for line in lines} != {"sessions=0"}:
        fail(f"told in {minutes} minutes: {lines}")


def told_in_vain(server: Server) -> None:
    """A server whose lines were refused for a minute answers as ever, and ends with its status."""
    session = Client(server.port)
    wanted("whoever asks", [session.ask(line) for line in ("BEGIN", "INS k v", "COMMIT")], ["BEGUN 1", "OK", "COMMITTED 1"])
    session.quit()
    server.tell("STOP\n")
    wanted("and its end", server.end()[0].split()[0], "CLOSED")


def socket_of_files(folder: str) -> None:
    """A socket of the file system beside the port: for its owner alone, with seats of its own, and gone at the end."""
    path = os.path.join(folder, "socket")
    with socket.socket(socket.AF_UNIX) as left:
        left.bind(path)
    server = stay("--sessions", "2", "--socket", path)
    wanted("its mode", os.stat(path).st_mode & 0o777, 0o600)
    sessions = []
    for _ in range(2):
        client = socket.socket(socket.AF_UNIX)
        client.settimeout(LIMIT)
        client.connect(path)
        sessions.append(client.makefile("rw", encoding="ascii", newline="\n"))
    others = [Client(server.port), Client(server.port)]
    for number, session in enumerate(sessions):
        session.write(f"BEGIN\nINS {number} v\n")
        session.flush()
    wanted("sessions at the socket", sorted(session.readline() + session.readline() for session in sessions), ["BEGUN 1\nOK\n", "BEGUN 2\nOK\n"])
    wanted("and at the port", [other.ask("SEEN").split()[0] for other in others], ["SEEN", "SEEN"])
    for session in sessions:
        session.write("COMMIT\nQUIT\n")
        session.flush()
    wanted("how they end", sorted(session.read().split("\n")[1] for session in sessions), ["BYE", "BYE"])
    for other in others:
        other.quit()
    wanted("commits", stopped(server)[1], 2)
    wanted("whether the socket is there at the end", os.path.exists(path), False)
    with open(path, "w", encoding="ascii") as file:
        file.write("somebody's")
    run = subprocess.run([built("am_program_listen"), "listen", "--port", "0", "--stay", "--socket", path], capture_output=True, text=True, timeout=LIMIT, check=False)
    why = f"amserve: {path}: Address already in use (os error 98)\namserve: cannot listen\n"
    wanted("a file in its place", (run.returncode, run.stdout, run.stderr, os.path.getsize(path)), (3, "", why, 10))


def socket_alone(folder: str) -> None:
    """A socket of the file system with no port beside it: nothing of TCP is open, and a stop and SIGTERM reach the server."""
    path = os.path.join(folder, "alone")
    for by_signal in (False, True):
        server = stay("--sessions", "2", "--workers", "0", path=path)
        wanted("its mode", os.stat(path).st_mode & 0o777, 0o600)
        wanted("sockets of TCP", tcp_sockets(server), 0)
        one, two = Client(path), Client(path)
        wanted("one session", one.ask_all(["BEGIN", "INS k v", "COMMIT"]), ["BEGUN 1", "OK", "COMMITTED 1"])
        wanted("another", two.ask_all(["BEGIN", "GET k"]), ["BEGUN 2", "VAL v"])
        one.quit()
        if by_signal:
            server.process.terminate()
        else:
            server.tell("STOP\n")
        time.sleep(0.2)
        wanted("a session that was begun", two.ask("COMMIT"), "COMMITTED 2")
        two.quit()
        out, said = server.end()
        wanted("the end", (out, said, os.path.exists(path)), ("CLOSED 6 2\n", "", False))


def wrong_words() -> None:
    """Words that go with a server that stays alone."""
    for words in (["--grace", "1"], ["--log"], ["--idle", "1"], ["--runs", "1"], ["--stay", "--socket", ""], ["--stay", "--grace", "3601"], ["--stay", "--idle", "0"]):
        run = subprocess.run([built("am_program_listen"), "listen", "--port", "0", *words], capture_output=True, text=True, timeout=LIMIT, check=False)
        wanted(f"the status of {words}", run.returncode, 2)


def long() -> None:
    """What takes minutes, and no part of ./test: 100,000 connections, 20,000,000 steps beside 2,000,000, and 200 sessions that stage."""
    with tempfile.TemporaryDirectory() as folder:
        trace = os.path.join(folder, "trace")
        stopped_at_random(trace, 200)
        many_connections(trace, 100_000)
        bounded_memory(trace, 2_000_000, 18_000_000)
        staged_and_left(200)
    print("staying: 100,000 connections, and memory over 20,000,000 steps and 200 sessions that staged")


def main() -> None:
    """All of it; with the word --long what takes minutes."""
    # (a job in a shell's background begins with this signal ignored, and so would the servers)
    signal.signal(signal.SIGINT, signal.default_int_handler)
    if sys.argv[1:] == ["--long"]:
        long()
        return
    with tempfile.TemporaryDirectory() as folder:
        trace = os.path.join(folder, "trace")
        wrong_words()
        logged, begun = stay("--sessions", "1", "--workers", "0", "--log"), time.monotonic()
        with open("/dev/full", "wb") as full:
            unheard = stay("--sessions", "1", "--workers", "0", "--log", stderr=full)
        many_connections(trace, 2000)
        bounded_memory(trace, 20_000, 200_000)
        loads_without_end(trace, 200_000)
        staged_and_left(30)
        long_sessions()
        workers_that_rest(trace)
        merged_unasked(trace)
        waiting_connections()
        many_at_once()
        connections_that_are_not_served(os.path.join(folder, "door"))
        seats_of_the_idle(os.path.join(folder, "seats"))
        speakers_of_others(folder)
        killed_under_load(trace)
        terminated_under_load(trace)
        stopped_at_random(trace, 40)
        names_and_groups()
        without_input()
        rest_of_input()
        own_trace(folder)
        closed_from_the_first_moment(os.path.join(folder, "early"))
        full_file(trace)
        full_disk(folder)
        full_device()
        slow_reader(folder)
        nobody_reads(folder)
        no_files_left()
        none_accepted()
        idle_sessions()
        peers_that_take_nothing()
        others_beside_them()
        many_answers_at_once()
        told_by_log()
        socket_of_files(folder)
        socket_alone(folder)
        told_each_minute(logged, begun)
        told_in_vain(unheard)
    print("staying: many connections, memory, 200,000 loads, sessions that staged, long sessions, workers that rest, waiting ones, bursts, those that aren't served, those that speak another protocol, ends by signals, a full disk, a pipe that nobody reads, few files, idle sessions, peers that take nothing, others beside these, workers that are woken, the log, one that is refused, and a socket of the file system")


if __name__ == "__main__":
    main()
