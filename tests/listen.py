#!/usr/bin/env python3
"""The server from outside, over real sockets: what no proof can see of connections, threads and files."""

import os
import random
import resource
import shutil
import socket
import subprocess
import sys
import tempfile
import threading
import time
from typing import Any, Callable, Iterable, List, Optional, Sequence, Tuple

sys.dont_write_bytecode = True
from other_protocols import CONNECTIONS, other_protocols  # noqa: E402
from support import AMAUDIT, AMSERVE, LIMIT, TOP, Client, Server, audit, built, fail, program, random_line, tcp_sockets, until, wanted  # noqa: E402


def serve(sessions: int, workers: int, trace: Optional[str] = None, stop: bool = False, words: Sequence[str] = (), **how: Any) -> Server:
    """A server of so many sessions and workers."""
    given = [*words, "--stop"] if stop else words
    return Server("--sessions", str(sessions), "--workers", str(workers), *given, trace=trace, **how)


def asked(client: Client, *lines: str) -> str:
    """The answers to lines, one after another."""
    return " / ".join(client.ask_all(lines))


def trace_lines(trace: str) -> List[str]:
    """The lines of a trace."""
    with open(trace, encoding="ascii") as file:
        return file.read().splitlines()


def two_clients(trace: str) -> None:
    """One client after the other: what the first committed the second reads."""
    server = serve(2, 1, trace)
    first = Client(server.port)
    wanted("first client", asked(first, "BEGIN", "INS 5 a", "COMMIT", "SEEN"), "BEGUN 1 / OK / COMMITTED 1 / SEEN 0 1")
    first.quit()
    second = Client(server.port)
    wanted("second client", asked(second, "BEGIN", "GET 5", "COMMIT"), "BEGUN 2 / VAL a / COMMITTED 2")
    second.quit()
    entries, commits = server.closed()
    wanted("commits", commits, 2)
    wanted("lines of the trace", len(trace_lines(trace)), entries + 1)
    wanted("audit", audit(trace), "LEGAL 2")


def locks_between_clients(trace: str) -> None:
    """A scanned gap is locked until its transaction ends, and a client that goes away has its own aborted."""
    server = serve(2, 0, trace)
    one, two = Client(server.port), Client(server.port)
    wanted("begins", [one.ask("BEGIN"), two.ask("BEGIN")], ["BEGUN 1", "BEGUN 2"])
    wanted("scan", one.ask("SCAN 10 20 5"), "ROWS 0")
    wanted("insert into a scanned gap", two.ask("INS 15 x"), "BUSY 1")
    wanted("commit", one.ask("COMMIT"), "COMMITTED 1")
    wanted("insert again", two.ask("INS 15 x"), "OK")
    wanted("a commit that others see", one.ask("SEEN").split()[2], "1")
    one.quit()
    two.socket.close()
    entries, commits = server.closed()
    wanted("entries and commits", (entries, commits), (7, 1))
    wanted("last line", trace_lines(trace)[-1], "ABORT 2 | ABORTED")
    wanted("audit", audit(trace), "LEGAL 1")


def killed_client(trace: str) -> None:
    """A client that goes away in the middle of a transaction: its locks are free, and others go on."""
    server = serve(2, 1, trace)
    gone = Client(server.port)
    wanted("insert", asked(gone, "BEGIN", "INS 5 a"), "BEGUN 1 / OK")
    gone.socket.setsockopt(socket.SOL_SOCKET, socket.SO_LINGER, b"\x01\x00\x00\x00\x00\x00\x00\x00")
    gone.socket.close()
    other = Client(server.port)
    other.ask("BEGIN")
    for _ in range(1000):
        answer = other.ask("INS 5 b")
        if answer == "OK":
            break
        wanted("while the other is being ended", answer, "BUSY 1")
        time.sleep(0.01)
    wanted("commit", other.ask("COMMIT"), "COMMITTED 1")
    other.quit()
    server.closed()
    wanted("audit", audit(trace), "LEGAL 1")


def many_connections(trace: str) -> None:
    """256 connections at once, each with a transaction: 64 may be active."""
    server = serve(256, 2, trace)
    clients = [Client(server.port) for _ in range(256)]
    for client in clients:
        client.socket.sendall(b"BEGIN\n")
    answers = [client.reply() for client in clients]
    wanted("how many begin", sum(answer.startswith("BEGUN") for answer in answers), 64)
    wanted("how many are refused", answers.count("ERR TXS"), 192)
    commits = [client.ask("COMMIT") for client, answer in zip(clients, answers) if answer != "ERR TXS"]
    wanted("commits", sorted(commits), sorted(f"COMMITTED {n}" for n in range(1, 65)))
    numbers = sorted(int(client.ask("SEEN").split()[1]) for client in clients)
    wanted("numbers of the sessions", numbers, list(range(256)))
    for client in clients:
        client.quit()
    wanted("commits told at the end", server.closed()[1], 64)
    wanted("audit", audit(trace), "LEGAL 64")


def slow_client() -> None:
    """A client that sends half a line and waits holds nobody up."""
    server = serve(2, 1)
    slow, quick = Client(server.port), Client(server.port)
    slow.socket.sendall(b"BEG")
    begun = time.monotonic()
    for n in range(200):
        asked(quick, "BEGIN", f"INS {n} a", "COMMIT")
    quick.quit()
    if time.monotonic() - begun > 30:
        fail("a slow client holds up a quick one")
    slow.socket.sendall(b"IN\n")
    wanted("the slow client's line", slow.reply(), "BEGUN 201")
    slow.quit()
    wanted("commits", server.closed()[1], 200)


class RandomClient(threading.Thread):
    """A session of random lines; a mortal one goes away somewhere in the middle."""

    def __init__(self, server: Server, seed: int, count: int, mortal: bool) -> None:
        super().__init__()
        self.client = Client(server.port)
        self.dice = random.Random(seed)
        self.left = self.dice.randint(1, count) if mortal else count
        self.mortal = mortal
        self.error: Optional[BaseException] = None

    def run(self) -> None:
        """Sends the lines, and ends the session or goes away."""
        try:
            begun = False
            for _ in range(self.left):
                reply = self.client.ask(random_line(self.dice, begun))
                if reply.startswith("BEGUN"):
                    begun = True
                elif reply.startswith("COMMITTED") or reply == "ABORTED":
                    begun = False
            if self.mortal:
                self.client.socket.close()
            else:
                self.client.quit()
        except BaseException as error:  # told by the main thread
            self.error = error


def spelled(lines: Sequence[str], replies: Sequence[str]) -> List[Tuple[str, str]]:
    """The steps of a session with its replies, as the trace spells them, but for keys and values; what takes no step is left out."""
    found: List[Tuple[str, str]] = []
    tx: Optional[int] = None
    for line, reply in zip(lines, replies):
        verb = line.split()[0]
        if verb == "QUIT" and tx is not None:
            found.append((f"ABORT {tx}", "ABORTED"))
        if verb in ("SEEN", "QUIT") or reply.startswith("ERR SYNTAX") or reply.startswith("ERR NOTX"):
            continue
        step = verb if verb in ("BEGIN", "MERGE", "CLEAN") else f"{verb} {tx}"
        found.append((step, reply.split()[0]))
        if reply.startswith("BEGUN"):
            tx = int(reply.split()[1])
        elif reply.startswith("COMMITTED") or reply == "ABORTED":
            tx = None
    return found


def is_within(own: Iterable[Tuple[str, str]], events: Iterable[Tuple[str, str]]) -> bool:
    """Whether the session's steps stand in the trace, in their order."""
    left = iter(events)
    return all(event in left for event in own)


def events_of(lines: Iterable[str]) -> List[Tuple[str, str]]:
    """The steps of a trace with their replies, but for keys and values."""
    found = []
    for line in lines:
        step, reply = line.split(" | ", 1)
        words = step.split()
        begins = words[0] in ("BEGIN", "MERGE", "CLEAN")
        found.append((words[0] if begins else f"{words[0]} {words[1]}", reply.split()[0]))
    return found


def random_clients(trace: str, count: int, mortal: bool) -> None:
    """Eight clients with so many random lines each, beside two workers: their replies stand in the trace in their order."""
    server = serve(8, 2, trace)
    clients = [RandomClient(server, seed, count, mortal and seed % 2 == 1) for seed in range(8)]
    for client in clients:
        client.start()
    for client in clients:
        client.join()
        if client.error is not None:
            fail(f"a client: {client.error!r}")
    entries, commits = server.closed()
    told = sum(reply.startswith("COMMITTED") for client in clients for reply in client.client.replies)
    if not mortal:
        wanted("commits that the clients were told", told, commits)
    elif told > commits:
        fail(f"{told} commits were told, and {commits} are stored")
    lines = trace_lines(trace)
    wanted("lines of the trace", len(lines), entries + 1)
    steps = [spelled(client.client.lines, client.client.replies) for client in clients]
    answers = sum(len(client.client.replies) for client in clients)
    count_of_steps = sum(map(len, steps))
    if not mortal and not count_of_steps <= entries <= count_of_steps + answers:
        fail(f"{entries} steps, of which {count_of_steps} are the clients', and not one of a worker for each of {answers} answers")
    events = events_of(lines[1:])
    if not all(is_within(own, events) for own in steps):
        fail("a client's replies do not stand in the trace in their order")
    wanted("audit", audit(trace), f"LEGAL {commits}")


def files_at_most(count: int) -> Callable[[], None]:
    """Lets a process that begins have so few files."""
    return lambda: resource.setrlimit(resource.RLIMIT_NOFILE, (count, count))


def for_others(folder: str) -> str:
    """The program, where each user may run it."""
    os.mkdir(folder)
    program = os.path.join(folder, "program")
    shutil.copy(built("am_program_listen"), program)
    for path in (os.path.dirname(folder), folder, program):
        os.chmod(path, 0o755)
    return program


def as_somebody() -> None:
    """Has a process that begins be that of a user who isn't root."""
    if os.geteuid() == 0:
        os.setgid(54_321)
        os.setuid(54_321)


def no_second_thread(folder: str) -> None:
    """Where no thread can be started, sessions are served all the same, one after another, before the workers."""
    program = for_others(folder)

    def alone() -> None:
        # (root may start as many as it likes)
        resource.setrlimit(resource.RLIMIT_NPROC, (1, 1))
        as_somebody()

    server = serve(2, 1, program=(program,), preexec_fn=alone)
    for number in (1, 2):
        client = Client(server.port)
        wanted("with no second thread", asked(client, "BEGIN", f"INS {number} a", "COMMIT"), f"BEGUN {number} / OK / COMMITTED {number}")
        client.quit()
    wanted("commits with no second thread", server.closed()[1], 2)
    os.chmod(folder, 0o777)
    server = serve(2, 1, os.path.join(folder, "trace"), program=(program,), stop=True, preexec_fn=alone)
    wanted("a stop with no second thread", server.end(5), ("", "amserve: no thread to hear STOP\n"))
    wanted("files of a server that can't hear a stop", sorted(os.listdir(folder)), ["program"])


def other_addresses() -> None:
    """Connections from this machine's other addresses are not taken."""
    server = serve(1, 0)
    with socket.socket() as other:
        other.settimeout(5)
        try:
            other.connect(("127.0.0.2", server.port))
            fail("the server listens at another address than 127.0.0.1")
        except OSError:
            pass
    Client(server.port).quit()
    server.closed()


def worker_moves(trace: str) -> None:
    """A worker moves what a scan asked for, and no turn is taken before a line was answered."""
    server = serve(1, 1, trace)
    client = Client(server.port)
    asked(client, "BEGIN", "LOAD " + " ".join(f"k{n:03}=v" for n in range(100)), "COMMIT", "BEGIN", "SCAN k z 100", "COMMIT")
    # Each answer lets the worker have a turn.
    for _ in range(40):
        client.ask("SEEN")
        time.sleep(0.005)
    client.quit()
    server.closed()
    moved = [line for line in trace_lines(trace) if " | MOVED " in line]
    wanted("records that a worker moved", sum(int(line.split()[4]) for line in moved), 100)
    wanted("the first line of the trace", trace_lines(trace)[1], "BEGIN | BEGUN 1")


def turns_of_workers(trace: str) -> None:
    """Each answered line lets the workers have one turn, one in all, while a run has entries, also where the lines come and the
    answers go together; and so many threads are there as are asked for."""
    ways: List[Callable[[Client, List[str]], List[str]]] = [Client.ask_all, Client.ask_at_once]
    for workers, ask in ((workers, ask) for ask in ways for workers in (1, 3)):
        server = serve(1, workers, trace)
        client = Client(server.port)
        asked(client, "BEGIN", "LOAD k=v", "COMMIT")
        time.sleep(0.5)
        ask(client, ["BEGIN"] + ["SEEN"] * 10)
        time.sleep(1)
        # (a thread for all sessions, one for each session and worker, and those that wait for them)
        threads = len(os.listdir(f"/proc/{server.process.pid}/task"))
        if not 1 + workers <= threads <= 4 + workers:
            fail(f"{threads} threads for a session and {workers} workers")
        client.ask("COMMIT")
        client.quit()
        server.closed()
        lines = trace_lines(trace)
        turns = lines.index("COMMIT 2 | COMMITTED 2") - lines.index("BEGIN | BEGUN 2") - 1
        wanted("turns for eleven answers", turns, 11)


def numbers_of_sessions() -> None:
    """A session's number is drawn when it begins, and not when its first line comes."""
    server = serve(2, 0)
    first = Client(server.port)
    time.sleep(0.5)
    second = Client(server.port)
    wanted("the second session's number", second.ask("SEEN"), "SEEN 1 0")
    wanted("the first session's number", first.ask("SEEN"), "SEEN 0 0")
    second.quit()
    first.quit()
    server.closed()


def stopped_server(trace: str) -> None:
    """A server that awaits a STOP takes no further connection after it, and tells and stores its run."""
    server = serve(8, 1, trace, stop=True)
    client = Client(server.port)
    wanted("before the stop", asked(client, "BEGIN", "INS 5 a"), "BEGUN 1 / OK")
    server.tell("STAY\nSTOP\n")
    for _ in range(6):
        # (at first the line may not have been read yet)
        time.sleep(0.2)
        with socket.socket() as late:
            late.settimeout(1)
            try:
                late.connect(("127.0.0.1", server.port))
                late.sendall(b"SEEN\n")
                if late.recv(1) == b"":
                    break
            except OSError:
                break
    else:
        fail("connections are served after STOP")
    wanted("a session that was begun", client.ask("COMMIT"), "COMMITTED 1")
    client.quit()
    entries, commits = server.closed()
    wanted("commits before the stop", commits, 1)
    wanted("lines of the trace", len(trace_lines(trace)), entries + 1)
    # The end of standard input is a stop too.
    server = serve(8, 0, stop=True)
    server.close_input()
    wanted("a server with no session", server.closed(), (0, 0))


def refused_memory(folder: str) -> None:
    """Each allocation of the program refused in turn, and all from each on: it ends with status 5, or serves, and then what
    it answered holds; and a transaction that was begun is committed or aborted, whatever is refused."""
    library = os.path.join(folder, "refuse.so")
    subprocess.run([os.environ.get("CC", "cc"), "-O2", "-shared", "-fPIC", "-o", library, f"{TOP}/tests/refuse_memory.c"], check=True)
    runs = sum(served_without(number, library, folder) for number in [*range(1, 120), *range(-120, 0), *range(120, 400, 7)])
    if runs < 50:
        fail(f"only {runs} runs served with an allocation refused")


def served_without(number: int, library: str, folder: str) -> bool:
    """Runs a server with that allocation refused, or all from it on where the number is below zero. Whether it served."""
    trace = os.path.join(folder, "refused_trace")
    words = [built("am_program_listen"), "listen", "--port", "0", "--sessions", "1", "--workers", "1", "--trace", trace]
    refusal = {"REFUSE": str(number)} if number > 0 else {"REFUSE_FROM": str(-number)}
    given = {**os.environ, "LD_PRELOAD": library, **refusal}
    said: List[str] = []
    with subprocess.Popen(words, env=given, stdout=subprocess.PIPE, stderr=subprocess.PIPE, text=True) as process:
        line = process.stdout.readline().split() if process.stdout else []
        if line:
            said = refused_session(int(line[1]), number < 0)
            if "BEGUN 1" in said and "COMMITTED 1" not in said:
                fail(f"allocation {number} refused: a transaction that was begun does not end: {said}")
        try:
            out, error = process.communicate(timeout=20)
        except subprocess.TimeoutExpired:
            process.kill()
            fail(f"allocation {number} refused: the server hangs")
    if process.returncode not in (0, 1, 4, 5):
        fail(f"allocation {number} refused: status {process.returncode}, {error}")
    if process.returncode == 0:
        wanted(f"allocation {number} refused: commits", out.split()[2], str(said.count("COMMITTED 1")))
        wanted(f"allocation {number} refused: audit", audit(trace), f"LEGAL {out.split()[2]}")
    return bool(line)


def worker_goes_on(folder: str) -> None:
    """A worker that is refused memory once, at whichever allocation, has its later turns all the same."""
    library = os.path.join(folder, "refuse.so")
    served = 0
    # (those before are asked for at the server's start, and end it)
    for number in range(110, 250, 2):
        # (a busy machine may give a worker few of the first turns)
        least = turns_with_one_refused(number, library, folder, 0.002)
        if 0 <= least < 10:
            least = turns_with_one_refused(number, library, folder, 0.02)
        if 0 <= least < 10:
            fail(f"allocation {number} refused: a worker had {least} of 40 turns")
        served += least >= 0
    if served < 30:
        fail(f"only {served} runs served a session with an allocation refused")


def turns_with_one_refused(number: int, library: str, folder: str, pause: float) -> int:
    """How many turns a worker had beside 40 answers, with that allocation refused; -1 where the session wasn't served to its end."""
    trace = os.path.join(folder, "refused_turns")
    words = [built("am_program_listen"), "listen", "--port", "0", "--sessions", "1", "--workers", "1", "--trace", trace]
    given = {**os.environ, "LD_PRELOAD": library, "REFUSE": str(number)}
    with subprocess.Popen(words, env=given, stdout=subprocess.PIPE, stderr=subprocess.PIPE, text=True) as process:
        line = process.stdout.readline().split() if process.stdout else []
        said = []
        try:
            if line:
                with socket.create_connection(("127.0.0.1", int(line[1])), timeout=20) as client:
                    answers = client.makefile("r", encoding="ascii")
                    # (a worker rests while no run has entries; any of these lines may be the one that is refused)
                    for _ in range(3):
                        client.sendall(b"BEGIN\nLOAD k=v\nCOMMIT\n")
                        if [answers.readline() for _ in range(3)][1] == "OK\n":
                            break
                    for _ in range(40):
                        client.sendall(b"SEEN\n")
                        said.append(answers.readline())
                        time.sleep(pause)
                    client.sendall(b"QUIT\n")
                    said.append(answers.readline())
        except OSError:
            said = []
        process.communicate(timeout=20)
    if process.returncode or said[-1:] != ["BYE\n"]:
        return -1
    return sum(line.startswith("MERGE ") for line in trace_lines(trace))


def refused_session(port: int, is_slow: bool) -> List[str]:
    """A session's answers, until the server closes it. The begin of a slow one was handed out before its next line comes."""
    said = b""
    try:
        with socket.create_connection(("127.0.0.1", port), timeout=20) as client:
            client.sendall(b"BEGIN\n")
            if is_slow:
                time.sleep(0.15)
            client.sendall(b"INS 5 a\nLOAD 6=b 7=c\nSCAN 5 7 9\nCOMMIT\nQUIT\n")
            while more := client.recv(65536):
                said += more
    except OSError:
        said = b""
    return said.decode().splitlines()


def refused(*words: str, program: str = AMSERVE, **how: Any) -> Tuple[int, str, str]:
    """A server that ends at once: its status, and what it said."""
    how = {"stdout": subprocess.PIPE, **how}
    run = subprocess.run([program, "listen", *words], stderr=subprocess.PIPE, text=True, timeout=LIMIT, check=False, **how)
    return run.returncode, run.stdout, run.stderr


def no_door(place: str, why: str) -> Tuple[int, str, str]:
    """How a server ends that can't listen there."""
    return 3, "", f"amserve: {place}: {why}\namserve: cannot listen\n"


def no_trace(path: str, why: str) -> Tuple[int, str, str]:
    """How a server ends that can't write its trace there."""
    return 4, "", f"amserve: {path}: {why}\namserve: cannot write the trace\n"


# What the system says.
USED = "Address already in use (os error 98)"
DENIED = "Permission denied (os error 13)"
ABSENT = "No such file or directory (os error 2)"
FOLDER = "Is a directory (os error 21)"


def ports_and_traces(folder: str) -> None:
    """A port in use, and a trace that can't be written: it is told before the port is listened at, also where that is taken."""
    astray = os.path.join(folder, "no", "such", "folder")
    with socket.create_server(("127.0.0.1", 0)) as taken:
        port = str(taken.getsockname()[1])
        beside: List[List[str]] = [[], ["--stay"], ["--socket", os.path.join(folder, "unused")]]
        for words in beside:
            wanted("a port in use", refused("--port", port, *words), no_door(f"port {port}", USED))
        for path, why in ((astray, ABSENT), (folder, FOLDER)):
            for words in (["--port", "0"], ["--port", port], ["--port", "0", "--stay"]):
                wanted("a trace that can't be written", refused(*words, "--trace", path), no_trace(path, why))
    wanted("a trace with no name", refused("--port", "0", "--trace", "")[0], 2)
    status, out, said = refused("--sessions", "2")
    wanted("neither a port nor a socket", (status, out, "--port" in said, "--socket" in said), (2, "", True, True))


def what_others_may_not(folder: str) -> None:
    """Who isn't root is told which port, which socket or which trace it may not have, and why."""
    program = for_others(folder)
    # (who runs this test may be the owner)
    os.chmod(folder, 0o555)
    path = os.path.join(folder, "door")
    wanted("a socket in a folder of others", refused("--socket", path, program=program, preexec_fn=as_somebody), no_door(path, DENIED))
    trace = os.path.join(folder, "trace")
    ways: List[List[str]] = [[], ["--stay"]]
    for words in ways:
        found = refused("--port", "0", "--trace", trace, *words, program=program, preexec_fn=as_somebody)
        wanted("a trace in a folder of others", found, no_trace(trace, DENIED))
    with open("/proc/sys/net/ipv4/ip_unprivileged_port_start", encoding="ascii") as file:
        if int(file.read()) > 80:
            wanted("a port of root's", refused("--port", "80", program=program, preexec_fn=as_somebody), no_door("port 80", DENIED))
        else:
            print("listen: each user may listen at each port here")
    os.chmod(folder, 0o755)
    wanted("what is left there", os.listdir(folder), ["program"])


def socket_alone(folder: str) -> None:
    """A socket of the file system with no port beside it: nothing of TCP is open, sessions are served, and it is gone at the end."""
    path = os.path.join(folder, "door")
    server = Server("--sessions", "2", path=path)
    wanted("its mode", os.stat(path).st_mode & 0o777, 0o600)
    wanted("sockets of TCP", tcp_sockets(server), 0)
    # (another one may not have it, and leaves it as it is)
    ways: List[List[str]] = [[], ["--stay"], ["--port", "0"]]
    for words in ways:
        wanted("another server there", refused("--socket", path, *words), no_door(path, USED))
    first, second = Client(path), Client(path)
    wanted("first client", asked(first, "BEGIN", "INS 5 a", "COMMIT"), "BEGUN 1 / OK / COMMITTED 1")
    wanted("second client", asked(second, "BEGIN", "GET 5", "COMMIT"), "BEGUN 2 / VAL a / COMMITTED 2")
    first.quit()
    second.quit()
    wanted("commits", server.closed()[1], 2)
    wanted("whether the socket is there at the end", os.path.exists(path), False)
    server = Server("--sessions", "8", "--stop", path=path)
    server.tell("STOP\n")
    wanted("a server that nobody asked", server.closed(), (0, 0))
    # One that was killed leaves it, and the next one replaces it.
    server = Server(path=path)
    server.process.kill()
    server.end(-9)
    wanted("whether the socket is left", os.path.exists(path), True)
    server = Server(path=path)
    Client(path).quit()
    server.closed()
    for astray, why in ((f"{folder}/no/door", ABSENT), (f"{folder}/{'long' * 30}", "path must be shorter than SUN_LEN")):
        wanted("a socket that can't be made", refused("--socket", astray), no_door(astray, why))
    wanted("a socket with no name", refused("--socket", "")[0], 2)


def port_and_socket(folder: str) -> None:
    """A server at both serves as many sessions at each, and says which port it is."""
    path = os.path.join(folder, "door")
    server = serve(1, 0, words=("--socket", path))
    wanted("sockets of TCP", tcp_sockets(server), 1)
    far, near = Client(server.port), Client(path)
    wanted("at the port", asked(far, "BEGIN", "INS 5 a", "COMMIT"), "BEGUN 1 / OK / COMMITTED 1")
    wanted("at the socket", asked(near, "BEGIN", "GET 5", "COMMIT"), "BEGUN 2 / VAL a / COMMITTED 2")
    far.quit()
    near.quit()
    wanted("commits", server.closed()[1], 2)
    wanted("whether the socket is there at the end", os.path.exists(path), False)


def kept_and_full(folder: str) -> None:
    """A file that is there stays whole until the run is stored, a full device is told at the end, and status 1 says that LISTEN
    couldn't be written."""
    kept = os.path.join(folder, "kept")
    with open(kept, "w", encoding="ascii") as file:
        file.write("as it was")
    server = serve(1, 0, kept)
    client = Client(server.port)
    wanted("a file while the server runs", trace_lines(kept), ["as it was"])
    client.quit()
    server.closed()
    wanted("the same at the end", trace_lines(kept), ["TRACE 2"])
    server = serve(1, 0, kept)
    client = Client(server.port)
    wanted("a step that version 3 alone writes", asked(client, "BEGIN", "SET 5 a", "COMMIT"), "BEGUN 1 / OK / COMMITTED 1")
    client.quit()
    server.closed()
    wanted("its trace", trace_lines(kept), ["TRACE 3", "BEGIN | BEGUN 1", "SET 1 h35 h61 | OK", "COMMIT 1 | COMMITTED 1"])
    wanted("its judgement", audit(kept), "LEGAL 1")
    if os.path.exists("/dev/full"):
        server = serve(1, 0, "/dev/full")
        Client(server.port).quit()
        wanted("a full device", (4, *server.end(4)), no_trace("/dev/full", "No space left on device (os error 28)"))
    with open("/dev/full", "w", encoding="ascii") as full:
        wanted("standard output that is full", refused("--port", "0", stdout=full)[0], 1)


def files_of_others(folder: str) -> None:
    """What is written beside the trace has a name that nobody had, the trace keeps the mode of the file that was there, and of a
    link the file that it leads to gets the trace."""
    trace, link, astray = (os.path.join(folder, name) for name in ("moded", "link", "astray"))
    others = f"{trace}.part"
    for name in (trace, others):
        with open(name, "w", encoding="ascii") as file:
            file.write("somebody's")
    os.chmod(trace, 0o600)
    os.symlink(trace, link)
    os.symlink(os.path.join(folder, "nowhere"), astray)
    for path in (trace, link):
        server = serve(1, 0, path)
        Client(server.port).quit()
        server.closed()
        wanted("a file of somebody else", trace_lines(others), ["somebody's"])
        wanted("the trace and its mode", (trace_lines(trace), os.stat(trace).st_mode & 0o777), (["TRACE 2"], 0o600))
        wanted("whether the link is one", os.path.islink(link), True)
    wanted("a link that leads nowhere", refused("--port", "0", "--trace", astray), no_trace(astray, ABSENT))
    wanted("what is left there", sorted(name for name in os.listdir(folder) if name.startswith("moded")), ["moded", "moded.part"])


def killed_server(folder: str) -> None:
    """A bounded server that is killed leaves the file as it was, and beside it what it had written, which is legal."""
    trace = os.path.join(folder, "killed")
    with open(trace, "w", encoding="ascii") as file:
        file.write("as it was")
    server = serve(2, 1, trace, program=(built("am_program_listen"),))
    client = Client(server.port)
    for number in range(100):
        client.ask_all(["BEGIN", f"INS {number} v", "COMMIT"])
    until("all commits are in the file", lambda: "".join(trace_lines(f"{trace}.part")).count("| COMMITTED ") == 100)
    server.process.kill()
    server.process.wait()
    wanted("the file", trace_lines(trace), ["as it was"])
    run = subprocess.run([AMAUDIT, "--open", f"{trace}.part"], capture_output=True, text=True, timeout=LIMIT, check=False)
    wanted("what was written", run.stdout, "LEGAL 100\n")


def few_files() -> None:
    """Few files may be open: as many connections are accepted as there are files for, which are served to their end, and the
    next one is told nothing."""
    server = serve(64, 0, preexec_fn=files_at_most(12))
    most = 12 - len(os.listdir(f"/proc/{program(server)}/fd"))
    clients = [Client(server.port) for _ in range(most)]
    wanted("sessions", [client.ask("BEGIN") for client in clients], [f"BEGUN {number}" for number in range(1, most + 1)])
    with socket.create_connection(("127.0.0.1", server.port), timeout=1) as late:
        late.sendall(b"BEGIN\n")
        try:
            fail(f"one connection more is told {late.recv(100)!r}")
        except TimeoutError:
            pass
        wanted("lines of the others", [client.ask("GET a") for client in clients], ["NONE"] * most)
        for client in clients:
            client.quit()
        out, said = server.end(3)
        why = "amserve: a connection: Too many open files (os error 24)\namserve: cannot accept\n"
        wanted("where a connection can't be accepted", (out, said), (f"CLOSED {3 * most} 0\n", why))
        wanted("the end of that connection", heard_last(late), b"")


def heard_last(late: socket.socket) -> bytes:
    """What a connection is told whose server has ended; nothing, too, where its own bytes were never read."""
    try:
        return late.recv(100)
    except ConnectionResetError:
        return b""


def speakers_of_others() -> None:
    """Connections that speak another protocol."""
    server = serve(CONNECTIONS, 1)
    other_protocols(lambda: socket.create_connection(("127.0.0.1", server.port)))
    server.closed()


def main() -> None:
    """All of it."""
    built("am_program_listen")
    subprocess.run([AMAUDIT, "--help"], stdout=subprocess.DEVNULL, check=True)
    with tempfile.TemporaryDirectory() as folder:
        trace = os.path.join(folder, "trace")
        two_clients(trace)
        locks_between_clients(trace)
        killed_client(trace)
        many_connections(trace)
        slow_client()
        no_second_thread(os.path.join(folder, "elsewhere"))
        other_addresses()
        worker_moves(trace)
        turns_of_workers(trace)
        numbers_of_sessions()
        stopped_server(trace)
        ports_and_traces(folder)
        what_others_may_not(os.path.join(folder, "others"))
        socket_alone(folder)
        port_and_socket(folder)
        kept_and_full(folder)
        files_of_others(folder)
        killed_server(folder)
        few_files()
        speakers_of_others()
        refused_memory(folder)
        worker_goes_on(folder)
        random_clients(trace, 10_000, mortal=False)
        random_clients(trace, 10_000, mortal=True)
    print("listen: passed")


if __name__ == "__main__":
    main()
