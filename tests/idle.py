#!/usr/bin/env python3
"""Transactions that sleep, from outside: `--idle-transaction S` aborts one from whose session no line came for S seconds, and the next
line, whatever it is, is answered `ERR IDLE`. Who was told `BUSY` goes on, and so does who would hold."""

import os
import signal
import subprocess
import sys
import tempfile
import time
from typing import Any, List, Tuple, Union

sys.dont_write_bytecode = True
from support import LIMIT, TOP, Client, Server, audit, fail, wanted  # noqa: E402

sys.path.insert(0, os.path.join(TOP, "python"))
import tiuvrokk  # noqa: E402

AMCLI = os.path.join(TOP, "amcli")
# So much later a thread may go on than it could, on a busy machine.
MARGIN = 5.0
SECONDS = 2
ALL = f"! {'~' * 32}"
SLEEPER = """
import socket

answers = socket.create_connection(("127.0.0.1", {port})).makefile("rw", newline="\\n")


def ask(lines):
    for line in lines:
        answers.write(line + "\\n")
        answers.flush()
        print(answers.readline().strip(), flush=True)


ask({first!r})
input()
ask({lines!r})
"""


def staying(*words: str, **how: Any) -> Server:
    return Server("--stay", "--stop", *words, **how)


def stopped(server: Server) -> Tuple[int, int]:
    """Ends a server whose sessions have ended: the stored steps and the commits."""
    server.close_input()
    return server.closed()


def until(client: Client, line: str, answer: str) -> float:
    """Asks a line until it is answered so, and tells how long that took. Until then it is answered BUSY."""
    begun = time.monotonic()
    while (told := client.ask(line)) != answer:
        wanted(f"{line} meanwhile", told.split()[0], "BUSY")
        if time.monotonic() - begun > LIMIT:
            fail(f"{line} is answered {told} for ever")
        time.sleep(0.05)
    return time.monotonic() - begun


class Stopped:
    """A client in a process of its own, which locks everything and is stopped. Woken, it sends one line after another."""

    def __init__(self, port: int, lines: List[str]) -> None:
        text = SLEEPER.format(port=port, first=["BEGIN", f"LOCK X {ALL}"], lines=lines)
        self.process = subprocess.Popen([sys.executable, "-c", text], stdin=subprocess.PIPE, stdout=subprocess.PIPE, text=True)
        out = self.process.stdout
        wanted("a client's wide lock", [out.readline().split()[0] for _ in range(2)] if out else [], ["BEGUN", "OK"])
        self.process.send_signal(signal.SIGSTOP)

    def woken(self) -> List[str]:
        """What it is answered once it goes on."""
        self.process.send_signal(signal.SIGCONT)
        out, _ = self.process.communicate("\n", timeout=LIMIT)
        wanted("its status", self.process.returncode, 0)
        return out.splitlines()


def stopped_clients(folder: str) -> None:
    """A stopped client with a lock on everything, beside one that works: that is told BUSY for so long, and then goes on. The first
    one's next line, whatever it is, is told so and does nothing, and it goes on."""
    trace = os.path.join(folder, "run")
    server = staying("--idle-transaction", str(SECONDS), trace=trace)
    working = Client(server.port)
    nexts = ["COMMIT", "ABORT", "BEGIN", "GET a", "SEEN", "nothing", "INS k " + "v" * 4096, "QUIT", "HOLD 1", "MERGE 1"]
    for number, line in enumerate(nexts, 1):
        sleeper = Stopped(server.port, [line, "BEGIN", "GET a", "COMMIT"])
        wanted("a transaction", working.ask("BEGIN").split()[0], "BEGUN")
        took = until(working, f"INS k{number} v", "OK")
        wanted(f"how long it took ({took:.1f} s)", SECONDS - 0.5 <= took <= SECONDS + MARGIN, True)
        wanted("its end", working.ask("COMMIT"), f"COMMITTED {2 * number - 1}")
        told = sleeper.woken()
        wanted(f"what {line[:10]} is told, and what comes then", (told[0], told[1].split()[0], told[2:]), ("ERR IDLE", "BEGUN", ["NONE", f"COMMITTED {2 * number}"]))
    working.quit()
    wanted("commits", stopped(server)[1], 2 * len(nexts))
    wanted("the trace", audit(trace), f"LEGAL {2 * len(nexts)}")


def who_works() -> None:
    """A transaction whose lines come in time stays, however long it takes; without one a session may sleep."""
    server = staying("--idle-transaction", "1")
    busy, without = Client(server.port), Client(server.port)
    wanted("a transaction", busy.ask_all(["BEGIN", "INS a 1"]), ["BEGUN 1", "OK"])
    wanted("a session without one", without.ask("SEEN"), "SEEN 1 0")
    for _ in range(8):
        time.sleep(0.4)
        wanted("goes on", busy.ask("GET a"), "VAL 1")
    wanted("its end", busy.ask("COMMIT"), "COMMITTED 1")
    time.sleep(1.5)
    wanted("no transaction lapses", [it.ask("SEEN").split()[0] for it in (busy, without)], ["SEEN", "SEEN"])
    # (what was staged is gone with the transaction)
    wanted("records wait", busy.ask_all(["BEGIN", "STAGE b=1 c=1"])[1], "OK")
    time.sleep(1 + 0.5)
    wanted("and are let go", busy.ask_all(["LOAD d=1", "BEGIN", "LOAD d=1", f"SCAN {ALL} 9", "COMMIT"])[2:4], ["OK", "ROWS 2 a=1 d=1"])
    wanted("the first answer", busy.replies[-5], "ERR IDLE")
    for client in (busy, without):
        client.quit()
    stopped(server)


def half_lines() -> None:
    """Who sends a byte at a time sends no line: the transaction lapses, and the line is told so once it has ended."""
    server = staying("--idle-transaction", "1")
    slow, other = Client(server.port), Client(server.port)
    wanted("a lock", slow.ask_all(["BEGIN", "LOCK X a b"])[1], "OK")
    wanted("another", other.ask("BEGIN"), "BEGUN 2")
    begun, is_free = time.monotonic(), False
    for byte in b"GET a.........":
        slow.socket.sendall(bytes([byte]))
        time.sleep(0.2)
        # (who asks on keeps its own transaction)
        is_free = other.ask("REP a 2" if is_free else "INS a 1") == "OK"
    wanted(f"the lock after {time.monotonic() - begun:.1f} s", is_free, True)
    slow.socket.sendall(b"\nSEEN\n")
    wanted("the line, and the next one", [slow.reply(), slow.reply().split()[0]], ["ERR IDLE", "SEEN"])
    wanted("the other's end", other.ask("COMMIT"), "COMMITTED 1")
    for client in (slow, other):
        client.quit()
    stopped(server)


def limits() -> None:
    """0 is for no limit, and so it is at a server that doesn't stay. Where `--idle` is sooner the session ends."""
    for server in (staying("--idle-transaction", "0"), Server("--sessions", "1")):
        client = Client(server.port)
        wanted("a transaction", client.ask("BEGIN"), "BEGUN 1")
        time.sleep(1.5)
        wanted("that stays", client.ask("GET a"), "NONE")
        client.quit()
        server.close_input()
        server.closed()
    server = staying("--idle-transaction", "20", "--idle", "1")
    client, begun = Client(server.port), time.monotonic()
    wanted("a transaction", client.ask("BEGIN"), "BEGUN 1")
    wanted("its session's end", (client.socket.recv(9), 0.9 <= time.monotonic() - begun <= 1 + MARGIN), (b"", True))
    client.socket.close()
    # (and its last line, where it goes away before that comes)
    gone = Client(server.port)
    wanted("another", gone.ask_all(["BEGIN", "LOCK X a b"])[1], "OK")
    gone.socket.close()
    other = Client(server.port)
    wanted("behind it", other.ask("BEGIN"), "BEGUN 3")
    until(other, "INS a 1", "OK")
    other.quit()
    stopped(server)


def holds() -> None:
    """Who would hold beside a transaction that sleeps holds once that has lapsed. Whose session waits at the hold then is told so
    behind it."""
    server = staying("--idle-transaction", "1")
    sleeper, holder = Client(server.port), Client(server.port)
    wanted("a transaction", sleeper.ask("BEGIN"), "BEGUN 1")
    begun = time.monotonic()
    wanted("a hold", holder.ask("HOLD 20000"), "OK")
    took = time.monotonic() - begun
    wanted(f"how long that took ({took:.1f} s)", 0.5 <= took <= 1 + MARGIN, True)
    sleeper.socket.sendall(b"COMMIT\n")
    wanted("the holder goes on", holder.ask_all(["BEGIN", "INS a 1", "COMMIT"])[1:], ["OK", "COMMITTED 1"])
    wanted("and the other", (sleeper.reply(), sleeper.ask_all(["BEGIN", "GET a"])[1]), ("ERR IDLE", "VAL 1"))
    for client in (sleeper, holder):
        client.quit()
    stopped(server)


def all_tickets() -> None:
    """64 transactions that sleep are the end of no other: their places are free again."""
    server = staying("--idle-transaction", "1", "--sessions", "66")
    sleepers = [Client(server.port) for _ in range(64)]
    for client in sleepers:
        wanted("a transaction", client.ask("BEGIN").split()[0], "BEGUN")
    other = Client(server.port)
    time.sleep(1.5)
    wanted("another", other.ask_all(["BEGIN", "COMMIT"])[1], "COMMITTED 1")
    wanted("what they are told", {client.ask("GET a") for client in sleepers}, {"ERR IDLE"})
    wanted("and then", {client.ask("BEGIN").split()[0] for client in sleepers}, {"BEGUN"})
    for client in [*sleepers, other]:
        client.socket.close()
    stopped(server)


def takes_nothing(folder: str) -> None:
    """A session that takes no answers while its transaction has locks, at a port and at a socket: after so long the transaction is
    aborted, and the session ends. Its lines wait in the socket meanwhile, and one that came later isn't answered any more."""
    path = os.path.join(folder, "taken")
    server = staying("--idle-transaction", str(SECONDS), "--socket", path)
    working = Client(server.port)
    places: List[Union[int, str]] = [server.port, path]
    for number, place in enumerate(places, 1):
        deaf = Client(place)
        records = " ".join(f"k{n:03}={'v' * 8}" for n in range(250))
        wanted("a transaction", deaf.ask_all(["BEGIN", f"LOCK X {ALL}", f"PUT {records}"])[1:], ["OK", "OK"])
        # (20 MB of answers, which no pair of sockets holds)
        deaf.socket.sendall(b"SCAN k l 1000\n" * 4000)
        wanted("another's transaction", working.ask("BEGIN").split()[0], "BEGUN")
        took = until(working, f"SET w {number}", "OK")
        wanted(f"how long it took ({took:.1f} s)", SECONDS - 0.5 <= took <= SECONDS + MARGIN, True)
        wanted("what it had put", working.ask_all(["SCAN k l 1", "COMMIT"]), ["ROWS 0", f"COMMITTED {number}"])
        wanted("who is left", working.ask("WHO"), "WHO 0")
        deaf.socket.close()
    # (who takes them in the end, though late, is answered)
    late = Client(path)
    wanted("a transaction", late.ask_all(["BEGIN", f"PUT {records}"])[1], "OK")
    late.socket.sendall(b"SCAN k l 1000\n" * 4000)
    time.sleep(SECONDS / 4)
    wanted("answers that come late", {late.reply().split(" k001", 1)[0] for _ in range(4000)}, {f"ROWS 250 k000={'v' * 8}"})
    wanted("and the end", late.ask("COMMIT"), "COMMITTED 3")
    for client in (late, working):
        client.quit()
    stopped(server)


def clients() -> None:
    """What the client in Python and the shell say of it."""
    server = staying("--idle-transaction", "1")
    with tiuvrokk.connect(port=server.port) as client:
        tries: List[int] = []

        def slow(tx: Any) -> None:
            tries.append(1)
            if len(tries) == 1:
                time.sleep(1.5)
            tx["a"] = "1"

        client.run(slow)
        wanted("tries", (len(tries), client.commits), (2, 1))
        tx = client.transaction()
        tx["b"] = "2"
        time.sleep(1.5)
        try:
            tx.commit()
            fail("a transaction that slept was committed")
        except tiuvrokk.Lapsed as lapsed:
            wanted("the answer", (lapsed.answer, tx.is_active), ("ERR IDLE", False))
        with client.transaction() as tx:
            wanted("and then", (tx.get("a"), tx.get("b")), (b"1", None))
        tx = client.transaction()
        time.sleep(1.5)
        try:
            client.merge()
            fail("a line that came too late was answered")
        except tiuvrokk.Lapsed:
            wanted("its transaction", tx.is_active, False)
        # (a worker may have taken the range that was read)
        wanted("a merge", client.merge() in (0, None), True)
    shell = subprocess.Popen([AMCLI, "--lenient", "--port", str(server.port)], stdin=subprocess.PIPE, stdout=subprocess.PIPE, stderr=subprocess.PIPE, text=True)
    if shell.stdin:
        shell.stdin.write("BEGIN\nINS c 3\n")
        shell.stdin.flush()
        time.sleep(2)
        shell.stdin.write("COMMIT\nGET c\n.stats\n")
    out, said = shell.communicate(timeout=LIMIT)
    wanted("the shell's answers", [line.split()[0] for line in out.splitlines()], ["BEGUN", "OK", "ERR", "NONE", "session"])
    wanted("and what it says", said, "amcli: line 3: no line came for too long: the transaction was aborted, and the line did nothing\n")
    stopped(server)


def main() -> None:
    signal.signal(signal.SIGINT, signal.default_int_handler)
    with tempfile.TemporaryDirectory() as folder:
        stopped_clients(folder)
        takes_nothing(folder)
    who_works()
    half_lines()
    limits()
    holds()
    all_tickets()
    clients()
    print("idle: stopped clients with wide locks beside one that works, half lines, limits, holds beside a transaction that sleeps, 64 that sleep, sessions that take no answers, and what clients say")


main()
