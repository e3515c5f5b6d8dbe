#!/usr/bin/env python3
"""Who waits at a server, from outside. `HOLD`: one session has the store to itself for a moment, others wait that have nothing begun,
and go on. Loads and dumps beside readers and writers hold. `BEGIN` beside 64 transactions waits for the end of one."""

import os
import random
import signal
import socket
import struct
import subprocess
import sys
import tempfile
import threading
import time
from typing import Any, Callable, List, Tuple

sys.dont_write_bytecode = True
from support import AMLOAD, LIMIT, TOP, Client, Server, alone, audit, until, wanted  # noqa: E402

AMDUMP = os.path.join(TOP, "amdump")
# A dump whose scans have ten rows, and whose transactions two scans.
BY_TENS = f"import sys; sys.path.insert(0, {os.path.join(TOP, 'python')!r}); from tiuvrokk_tools import dump; dump.ROWS, dump.MOST_SCANS = 10, 2; dump.start()"
AMDUMP_BY_TENS = [sys.executable, "-c", BY_TENS]
# So much later a thread may go on than it could, on a busy machine.
MARGIN = 5.0
ACCOUNTS = 100
# So many transactions are active at once.
MOST_ACTIVE = 64


def seconds(step: Callable[[], Any]) -> Tuple[Any, float]:
    """What a step gives, and how long it took."""
    begun = time.monotonic()
    return step(), time.monotonic() - begun


def sent(client: Client, line: str) -> None:
    """Sends a line whose answer isn't awaited."""
    client.lines.append(line)
    client.socket.sendall(f"{line}\n".encode())


def is_silent(client: Client, long: float = 0.3) -> bool:
    """Whether nothing comes for so long."""
    client.socket.settimeout(long)
    try:
        return not client.came and not client.socket.recv(1, socket.MSG_PEEK)
    except TimeoutError:
        return True
    finally:
        client.socket.settimeout(LIMIT)


def staying(*words: str, **how: Any) -> Server:
    return Server("--stay", "--stop", *words, **how)


def stopped(server: Server) -> None:
    """Ends a server whose sessions have ended."""
    server.close_input()
    server.closed()


def lines() -> None:
    """The line by itself, alone, and at a server that lets nobody hold for long."""
    said = alone(["HOLD 1", "HOLD 60000", "HOLD 0", "HOLD 60001", "HOLD", "HOLD 1 2", "HOLD x", "BEGIN", "HOLD 0", "COMMIT"])
    right = ["OK", "OK", "ERR LIMIT", "ERR LIMIT", "ERR SYNTAX", "ERR SYNTAX", "ERR SYNTAX", "BEGUN 1", "ERR ACTIVE", "COMMITTED 1"]
    wanted("alone", said, right)
    server = Server("--hold", "200")
    client = Client(server.port)
    wanted("a server's greatest", client.ask_all(["HOLD 201", "HOLD 200", "HOLD 0"]), ["ERR LIMIT", "OK", "ERR LIMIT"])
    client.quit()
    server.closed()
    server = Server("--hold", "0")
    client = Client(server.port)
    wanted("a server that nobody holds", client.ask_all(["HOLD 1", "BEGIN"]), ["ERR LIMIT", "BEGUN 1"])
    client.quit()
    server.closed()


def held(folder: str) -> None:
    """Who has nothing begun waits, whatever it sends; who has goes on; the hold ends with a COMMIT or an ABORT."""
    trace = os.path.join(folder, "run")
    server = staying(trace=trace)
    holder, reader, writer, late, other = (Client(server.port) for _ in range(5))
    for end in ("COMMIT", "ABORT"):
        wanted("a transaction", writer.ask("BEGIN").split()[0], "BEGUN")
        sent(holder, "HOLD 20000")
        wanted("a hold waits for it", is_silent(holder), True)
        sent(reader, "SEEN")
        wanted("whose line isn't taken meanwhile", is_silent(reader), True)
        wanted("the transaction goes on", writer.ask_all(["GET b", "COMMIT"])[0], "NONE")
        wanted("the hold", holder.reply(), "OK")
        sent(writer, "BEGIN")
        sent(late, "NOTHING")
        wanted("who waits", [is_silent(it) for it in (reader, writer, late)], [True] * 3)
        wanted("another that would hold", other.ask("HOLD 1000").rpartition(" ")[0], "ERR HELD")
        wanted("what doesn't end it", holder.ask_all(["COMMIT", "SEEN", "GET a", "nothing"])[2:], ["ERR NOTX", "ERR SYNTAX"])
        wanted("the holder", holder.ask_all(["BEGIN", f"{'INS' if end == 'COMMIT' else 'REP'} a 1"])[1], "OK")
        wanted("who still waits", is_silent(reader), True)
        wanted("its end", holder.ask(end).split()[0], "COMMITTED" if end == "COMMIT" else "ABORTED")
        wanted("who waited", [it.reply().split()[0] for it in (reader, writer, late)], ["SEEN", "BEGUN", "ERR"])
        wanted("and goes on", writer.ask_all(["GET b", "COMMIT"])[0], "NONE")
    for client in (holder, reader, writer, late, other):
        client.quit()
    stopped(server)
    wanted("the trace", audit(trace)[:6], "LEGAL ")


def times() -> None:
    """Nobody waits longer than the time that was asked for, or twice that beside a transaction that sleeps."""
    server = staying()
    holder, other = Client(server.port), Client(server.port)
    wanted("a hold", holder.ask("HOLD 700"), "OK")
    answer, took = seconds(lambda: other.ask("BEGIN"))
    wanted("after its time", (answer, 0.5 <= took <= 0.7 + MARGIN), ("BEGUN 1", True))
    # (the other's transaction sleeps)
    answer, took = seconds(lambda: holder.ask("HOLD 700"))
    wanted("a hold in vain", (answer, 0.6 <= took <= 0.7 + MARGIN), ("ERR HELD 1", True))
    third = Client(server.port)
    wanted("then nothing is held", third.ask("BEGIN"), "BEGUN 2")
    wanted("nor by its session", holder.ask("BEGIN"), "BEGUN 3")
    for client in (holder, other, third):
        client.quit()
    stopped(server)


def ends() -> None:
    """A holder that goes: by QUIT, by its connection, killed, and stopped without a word."""
    server = staying()
    for how in ("QUIT", "closed", "killed"):
        holder, other = Client(server.port), Client(server.port)
        if how == "killed":
            text = f"import socket, sys, time\ns = socket.create_connection(('127.0.0.1', {server.port}))\ns.sendall(b'HOLD 60000\\n')\nprint(s.recv(10), flush=True)\ntime.sleep(99)"
            process = subprocess.Popen([sys.executable, "-c", text], stdout=subprocess.PIPE, text=True)
            wanted("a hold", process.stdout.readline() if process.stdout else "", "b'OK\\n'\n")
        else:
            wanted("a hold", holder.ask("HOLD 60000"), "OK")
        sent(other, "SEEN")
        wanted(f"beside it ({how})", is_silent(other), True)
        if how == "QUIT":
            holder.quit()
        elif how == "closed":
            holder.socket.close()
        else:
            process.kill()
            process.wait()
        answer, took = seconds(other.reply)
        wanted(f"behind it ({how})", (answer.split()[0], took < MARGIN), ("SEEN", True))
        other.socket.close()
        holder.socket.close()
    sleeping(server)
    stopped(server)


def sleeping(server: Server) -> None:
    """A holder that is stopped, and wakes: its time has passed, and others went on."""
    text = f"import socket\ns = socket.create_connection(('127.0.0.1', {server.port}))\ns.sendall(b'HOLD 1500\\n')\nprint(s.recv(10), flush=True)\ninput()\ns.sendall(b'BEGIN\\nINS held 1\\nCOMMIT\\nQUIT\\n')\nf = s.makefile()\nprint(f.read().split()[-1])"
    process = subprocess.Popen([sys.executable, "-c", text], stdin=subprocess.PIPE, stdout=subprocess.PIPE, text=True)
    wanted("a hold", process.stdout.readline() if process.stdout else "", "b'OK\\n'\n")
    process.send_signal(signal.SIGSTOP)
    other = Client(server.port)
    answer, took = seconds(lambda: other.ask("BEGIN"))
    wanted("beside a holder that sleeps", (answer.split()[0], took <= 1.5 + MARGIN), ("BEGUN", True))
    wanted("and it goes on", other.ask_all(["INS other 1", "COMMIT"])[0], "OK")
    process.send_signal(signal.SIGCONT)
    wanted("then it goes on too", process.communicate("\n", timeout=LIMIT)[0], "BYE\n")
    other.quit()


def stops() -> None:
    """A server that is stopped while one holds and others wait: at the end of their grace all are cut, who waits too."""
    server = staying("--grace", "1")
    holder, waiting, asking = (Client(server.port) for _ in range(3))
    wanted("a transaction", asking.ask("BEGIN"), "BEGUN 1")
    sent(holder, "HOLD 60000")
    wanted("a hold waits", is_silent(holder), True)
    sent(waiting, "SEEN")
    wanted("and another for it", is_silent(waiting), True)
    begun = time.monotonic()
    server.close_input()
    server.closed()
    wanted("the server ends", time.monotonic() - begun < 1 + 2 * MARGIN, True)
    for client in (holder, waiting, asking):
        client.socket.close()


def sent_ahead() -> None:
    """Lines that came together with those of a transaction: its answers go out before the next one waits."""
    server = staying()
    holder, other = Client(server.port), Client(server.port)
    wanted("a transaction", other.ask("BEGIN"), "BEGUN 1")
    sent(holder, "HOLD 20000")
    wanted("a hold waits for it", is_silent(holder), True)
    other.socket.sendall(b"GET a\nCOMMIT\nBEGIN\nCOMMIT\n")
    wanted("its answers", [other.reply(), other.reply()], ["NONE", "COMMITTED 1"])
    wanted("the hold", holder.reply(), "OK")
    wanted("the next one waits", is_silent(other), True)
    wanted("the holder", holder.ask_all(["BEGIN", "ABORT"]), ["BEGUN 2", "ABORTED"])
    wanted("then it doesn't", [other.reply(), other.reply()], ["BEGUN 3", "COMMITTED 2"])
    holder.quit()
    other.quit()
    stopped(server)


def all_go_on() -> None:
    """Those that wait, in one order or another, are told to wait, and all go on: by an end of the hold and by its time."""
    server = staying("--workers", "0")
    holder = Client(server.port)
    clients = [Client(server.port) for _ in range(20)]
    for turn in range(3):
        wanted("a hold", holder.ask("HOLD 2000" if turn == 2 else "HOLD 20000"), "OK")
        for client in random.Random(turn).sample(clients, len(clients)):
            sent(client, "SEEN")
        until("each waits", lambda: holder.ask("WHO ALL").count(":w") == len(clients))
        wanted("none is served", any(not is_silent(client, 0.01) for client in clients), False)
        if turn < 2:
            wanted("the end", holder.ask_all(["BEGIN", "COMMIT"])[1].split()[0], "COMMITTED")
        wanted("each is", {client.reply().split()[0] for client in clients}, {"SEEN"})
        wanted("none waits", holder.ask("WHO ALL").count(":w"), 0)
    for client in [holder, *clients]:
        client.quit()
    stopped(server)


class Beside:
    """Threads that go on beside a test, until it ends."""

    def __init__(self, step: Callable[[Client, random.Random], None], port: int, count: int) -> None:
        self.is_over = False
        self.steps = 0
        self.longest = 0.0
        self.faults: List[str] = []
        self.threads = [threading.Thread(target=self.go_on, args=(step, Client(port), random.Random(number))) for number in range(count)]
        for thread in self.threads:
            thread.start()

    def go_on(self, step: Callable[[Client, random.Random], None], client: Client, dice: random.Random) -> None:
        try:
            while not self.is_over:
                begun = time.monotonic()
                step(client, dice)
                self.longest = max(self.longest, time.monotonic() - begun)
                self.steps += 1
                time.sleep(0.001)
            client.quit()
        except BaseException as error:  # (told by the thread of the test)
            self.faults.append(repr(error))

    def end(self) -> None:
        self.is_over = True
        for thread in self.threads:
            thread.join(LIMIT)
        wanted("what went on beside", self.faults, [])


def read(client: Client, dice: random.Random) -> None:
    """A key is read. On a machine with much else to do one of a crowd may wait for its second in vain, and tries again."""
    for _ in range(3):
        begun, value, committed = client.ask_all(["BEGIN", f"GET k{dice.randrange(20_000):06}", "COMMIT"])
        if begun != "ERR TXS":
            break
    wanted("a reader", (begun.split()[0], value == "NONE" or value.startswith("VAL "), committed.split()[0]), ("BEGUN", True, "COMMITTED"))


def transfer(client: Client, dice: random.Random) -> None:
    """Some of one account goes to another. Both locks come before the first read."""
    one, two = sorted(dice.sample(range(ACCOUNTS), 2))
    client.ask("BEGIN")
    for account in (one, two):
        if client.ask(f"LOCK X a{account:03} a{account:03}") != "OK":
            wanted("an abort", client.ask("ABORT"), "ABORTED")
            return
    amounts = [int(client.ask(f"GET a{account:03}").split()[1]) for account in (one, two)]
    moved = dice.randint(0, amounts[0])
    for account, amount in ((one, amounts[0] - moved), (two, amounts[1] + moved)):
        wanted("a transfer", client.ask(f"REP a{account:03} {amount}"), "OK")
    wanted("its commit", client.ask("COMMIT").split()[0], "COMMITTED")


def run(*words: str) -> Tuple[int, str, str]:
    """A program's status, standard output and standard error."""
    ran = subprocess.run(words, capture_output=True, text=True, timeout=LIMIT, check=False)
    return ran.returncode, ran.stdout, ran.stderr


def loads_beside_readers(folder: str) -> None:
    """Twenty loads beside eight readers, over all that these read: each comes in at its first try, and no reader is refused."""
    trace = os.path.join(folder, "run")
    server = staying("--workers", "1", trace=trace)
    readers = Beside(read, server.port, 8)
    for number in range(20):
        path = os.path.join(folder, "batch")
        with open(path, "w") as file:
            file.writelines(f"k{key:06}\t{number}\n" for key in range(number, 20_000, 20))
        wanted(f"load {number}", run(AMLOAD, "--port", str(server.port), "--hold", "30000", "--tries", "1", path), (0, "", ""))
    readers.end()
    wanted("readers went on", readers.steps > 20, True)
    stopped(server)
    wanted("the trace", audit(trace)[:6], "LEGAL ")


def dumps_beside_writers(folder: str) -> None:
    """Twenty dumps beside eight writers, half of them by many transactions: each is one state, in which nothing was lost on its way
    between two accounts. A dump that can't be whole leaves nothing."""
    server = staying("--workers", "1")
    client = Client(server.port)
    accounts = " ".join(f"a{number:03}=100" for number in range(ACCOUNTS))
    wanted("accounts", client.ask_all(["BEGIN", f"LOAD {accounts}", "COMMIT"])[1:], ["OK", "COMMITTED 1"])
    writers = Beside(transfer, server.port, 8)
    sums = []
    for number in range(20):
        path = os.path.join(folder, f"dump{number}")
        # (the next transaction of a dump begins once its hold is over)
        dump, hold = ([AMDUMP], "30000") if number % 2 else (AMDUMP_BY_TENS, "1000")
        wanted(f"dump {number}", run(*dump, "--port", str(server.port), "--hold", hold, path), (0, "", ""))
        with open(path) as file:
            sums.append(sum(int(line.split("\t")[1]) for line in file))
    writers.end()
    wanted("the sum of each", sums, [100 * ACCOUNTS] * 20)
    wanted("writers went on", writers.steps > 20, True)
    not_whole(folder, server, client)
    client.quit()
    stopped(server)


def not_whole(folder: str, server: Server, client: Client) -> None:
    """A dump beside a lock that stays."""
    path, kept = os.path.join(folder, "none"), os.path.join(folder, "kept")
    wanted("a lock", client.ask_all(["BEGIN", "LOCK X a099 a099"])[1], "OK")
    words = [AMDUMP, "--port", str(server.port), "--hold", "0", "--tries", "2"]
    status, out, said = run(*words, path)
    told = said.startswith("amdump: answered BUSY ") and said.endswith(" at try 2: not all records were read\n")
    wanted("a dump beside it", (status, out, told, os.path.exists(path), os.path.exists(f"{path}.part")), (1, "", True, False, False))
    with open(kept, "w") as file:
        file.write("before\n")
    with open(kept, "a") as file:
        wanted("to standard output", subprocess.run(words, stdout=file, stderr=subprocess.DEVNULL, timeout=LIMIT, check=False).returncode, 1)
    with open(kept) as file:
        wanted("what stands there", file.read(), "before\n")
    wanted("its end", client.ask("ABORT"), "ABORTED")


def two_loads(folder: str) -> None:
    """Two loads at once, and one beside a transaction that sleeps: they try again, and say so, or say that they didn't come in."""
    server = staying("--workers", "0")
    paths = [os.path.join(folder, name) for name in ("one", "two")]
    for path in paths:
        with open(path, "w") as file:
            file.writelines(f"{os.path.basename(path)}{key:05}\tv\n" for key in range(20_000))
    loads = [subprocess.Popen([AMLOAD, "--port", str(server.port), "--tries", "100", path], stderr=subprocess.PIPE, text=True) for path in paths]
    for load in loads:
        _, said = load.communicate(timeout=LIMIT)
        wanted("a load beside a load", (load.returncode, said == "" or said.startswith("amload: loaded at try ")), (0, True))
    client = Client(server.port)
    number = client.ask("SEEN").split()[1]
    wanted("a transaction that sleeps", client.ask("BEGIN").split()[0], "BEGUN")
    words = [AMLOAD, "--port", str(server.port), "--hold", "200", "--tries", "2"]
    ran = subprocess.run(words, input="x=1\n", capture_output=True, text=True, timeout=LIMIT, check=False)
    wanted("a load beside it", (ran.returncode, ran.stderr), (1, f"amload: answered ERR HELD {number} at try 2: nothing was loaded\n"))
    ran = subprocess.run([*words[:3], "--hold", "0"], input="x=1\n", capture_output=True, text=True, timeout=LIMIT, check=False)
    wanted("and one that doesn't hold", (ran.returncode, ran.stderr), (0, ""))
    client.quit()
    stopped(server)


def begun(server: Server, count: int = MOST_ACTIVE) -> List[Client]:
    """So many clients, each with a transaction."""
    clients = [Client(server.port) for _ in range(count)]
    for client in clients:
        wanted("a transaction", client.ask("BEGIN").split()[0], "BEGUN")
    return clients


def waiting(server: Server, count: int, pause: float = 0.02) -> List[Client]:
    """So many clients whose BEGIN isn't answered yet, in the order of their coming where there is a pause between them."""
    clients = [Client(server.port) for _ in range(count)]
    for client in clients:
        sent(client, "BEGIN")
        time.sleep(pause)
    return clients


def one_too_many(folder: str) -> None:
    """Beside 64 transactions a BEGIN waits for the end of one, those first that came first, and for a second at most. It is one step."""
    trace = os.path.join(folder, "run")
    server = staying("--sessions", "256", "--workers", "0", trace=trace)
    clients = begun(server)
    late = waiting(server, 3)
    wanted("who waits", [is_silent(client, 0.05) for client in late], [True] * 3)
    for end, client, next_one in zip(("COMMIT", "ABORT", "QUIT"), clients, late):
        client.ask(end)
        answer, took = seconds(next_one.reply)
        wanted(f"who came first goes on behind {end}", (answer.split()[0], took < 0.5), ("BEGUN", True))
    clients = [*clients[3:], *late]
    last = Client(server.port)
    answer, took = seconds(lambda: last.ask("BEGIN"))
    wanted("where none ends", (answer, 0.8 <= took <= 1 + MARGIN), ("ERR TXS", True))
    wanted("a line that isn't BEGIN", seconds(lambda: last.ask("SEEN"))[1] < 0.5, True)
    gone, patient = waiting(server, 2)
    gone.socket.close()
    clients[0].socket.close()
    wanted("behind one that went away", patient.reply().split()[0], "BEGUN")
    for client in [*clients[1:], patient]:
        client.socket.close()
    until("no transaction is active", lambda: last.ask("WHO") == "WHO 0")
    clients = begun(server)
    for client in [*clients, last]:
        client.quit()
    stopped(server)
    with open(trace) as file:
        refused = [line for line in file if line == "BEGIN | ERR TXS\n"]
    wanted("steps that were refused", len(refused) in (1, 2), True)
    wanted("the trace", audit(trace)[:6], "LEGAL ")


def holds_beside_those_that_wait() -> None:
    """Who waits to begin keeps nobody from holding, and nobody from beginning that holds. Its second passes while nobody holds."""
    server = staying("--sessions", "256", "--workers", "0")
    clients, holder = begun(server), Client(server.port)
    late = waiting(server, 70, 0)
    sent(holder, "HOLD 20000")
    wanted("a hold waits for transactions", is_silent(holder, 0.5), True)
    for client in clients:
        wanted("an end", client.ask("COMMIT").split()[0], "COMMITTED")
    answer, took = seconds(holder.reply)
    wanted("and for nobody else", (answer, took < MARGIN), ("OK", True))
    answer, took = seconds(lambda: holder.ask("BEGIN"))
    wanted("who holds begins at once", (answer.split()[0], took < 0.5), ("BEGUN", True))
    wanted("beside those that wait", [is_silent(client, 0.01) for client in late], [True] * 70)
    time.sleep(1)
    wanted("its end", holder.ask("COMMIT").split()[0], "COMMITTED")
    until("as many go on as may", lambda: sum(not is_silent(client, 0.002) for client in late) >= MOST_ACTIVE)
    first = [client for client in late if not is_silent(client, 0.002)]
    wanted("then as many go on as may", len(first), MOST_ACTIVE)
    for client in first:
        wanted("one of them", [client.reply().split()[0], client.ask("COMMIT").split()[0]], ["BEGUN", "COMMITTED"])
    wanted("and the others", {client.reply().split()[0] for client in late if client not in first}, {"BEGUN"})
    for client in [*clients, *late, holder]:
        client.quit()
    stopped(server)


def answers_before_a_wait() -> None:
    """Lines that came together: what is answered goes out before a BEGIN waits."""
    server = staying("--sessions", "256", "--workers", "0")
    clients, late = begun(server), Client(server.port)
    late.socket.sendall(b"SEEN\nBEGIN\nCOMMIT\n")
    wanted("an answer", late.reply().split()[0], "SEEN")
    wanted("the next one waits", is_silent(late, 0.1), True)
    wanted("an end", clients[0].ask("COMMIT").split()[0], "COMMITTED")
    wanted("then it doesn't", [late.reply().split()[0], late.reply().split()[0]], ["BEGUN", "COMMITTED"])
    for client in [*clients, late]:
        client.quit()
    stopped(server)


def crowd() -> None:
    """Of 256 that begin and commit quickly each gets through, also beside one that holds again and again; and a server that is stopped
    while some wait to begin ends in time."""
    server = staying("--sessions", "256", "--workers", "0")
    holder = Client(server.port)
    readers = Beside(read, server.port, 255)
    for _ in range(10):
        time.sleep(0.3)
        wanted("a hold", holder.ask_all(["HOLD 20000", "BEGIN"])[0], "OK")
        wanted("its end", holder.ask("COMMIT").split()[0], "COMMITTED")
    readers.end()
    wanted("readers went on", readers.steps > 2 * 255, True)
    holder.quit()
    stopped(server)
    server = staying("--sessions", "256", "--grace", "0")
    clients = [*begun(server), *waiting(server, 3)]
    _, took = seconds(lambda: stopped(server))
    wanted("the server ends", took < 2 * MARGIN, True)
    for client in clients:
        client.socket.close()


def gone(client: Client, how: str) -> None:
    """Its client goes away: closed, or reset."""
    if how == "reset":
        client.socket.setsockopt(socket.SOL_SOCKET, socket.SO_LINGER, struct.pack("ii", 1, 0))
    client.socket.close()


def waits_that_end() -> None:
    """A HOLD that waits ends with its session: closed, reset, or ended by END. Others go on then, another may hold, and its seat is
    free."""
    for how in ("closed", "reset", "ended"):
        server = staying("--sessions", "4", "--workers", "0")
        working, waits, other = (Client(server.port) for _ in range(3))
        number = waits.ask("SEEN").split()[1]
        wanted("a transaction", working.ask("BEGIN"), "BEGUN 1")
        sent(waits, "HOLD 60000")
        wanted(f"a hold waits ({how})", is_silent(waits), True)
        if how == "ended":
            answer, took = seconds(lambda: other.ask(f"END {number}"))
            wanted("its end", (answer, took < 0.9), ("OK", True))
        else:
            gone(waits, how)
        answer, took = seconds(lambda: other.ask("SEEN"))
        wanted(f"others go on ({how})", (answer.split()[0], took < 2), ("SEEN", True))
        holder = working.ask("SEEN").split()[1]
        wanted(f"another asks ({how})", other.ask("HOLD 50"), f"ERR HELD {holder}")
        late = [Client(server.port) for _ in range(2)]
        wanted(f"seats ({how})", [client.ask("SEEN").split()[0] for client in late], ["SEEN"] * 2)
        wanted("the transaction", working.ask("COMMIT"), "COMMITTED 1")
        wanted("then it holds", other.ask("HOLD 50"), "OK")
        for client in (working, other, *late):
            client.quit()
        stopped(server)


def half_closed() -> None:
    """A client that has said all that it will still holds where nobody is in its way, and gives way where one is."""
    server = staying("--workers", "0")
    working, client = Client(server.port), Client(server.port)
    client.socket.sendall(b"HOLD 20000\nBEGIN\nCOMMIT\n")
    client.socket.shutdown(socket.SHUT_WR)
    wanted("nobody is in its way", [client.reply() for _ in range(3)], ["OK", "BEGUN 1", "COMMITTED 1"])
    number = working.ask("SEEN").split()[1]
    wanted("a transaction", working.ask("BEGIN"), "BEGUN 2")
    client = Client(server.port)
    client.socket.sendall(b"HOLD 20000\nSEEN\n")
    client.socket.shutdown(socket.SHUT_WR)
    answer, took = seconds(client.reply)
    wanted("one is", (answer, took < MARGIN, client.reply().split()[0]), (f"ERR HELD {number}", True, "SEEN"))
    working.quit()
    stopped(server)


def beside_a_sleeper() -> None:
    """Beside a transaction that sleeps a hold keeps others out for the first tenth of its time and the last, and lets them in between.
    It has the store once the transaction has ended."""
    server = staying("--workers", "0")
    sleeper, holder = Client(server.port), Client(server.port)
    number = sleeper.ask("SEEN").split()[1]
    wanted("a transaction", sleeper.ask("BEGIN"), "BEGUN 1")
    sent(holder, "HOLD 6000")
    readers = Beside(read, server.port, 2)
    answer, took = seconds(holder.reply)
    wanted("the hold", (answer, 5.9 <= took <= 6 + MARGIN), (f"ERR HELD {number}", True))
    readers.end()
    wanted("others waited for a tenth", readers.longest < 3, True)
    wanted("and went on", readers.steps > 50, True)
    sent(holder, "HOLD 10000")
    readers = Beside(read, server.port, 2)
    time.sleep(2)
    wanted("the sleeper's end", sleeper.ask("COMMIT").split()[0], "COMMITTED")
    wanted("then it holds", holder.reply(), "OK")
    wanted("and begins", holder.ask_all(["BEGIN", "COMMIT"])[1].split()[0], "COMMITTED")
    readers.end()
    for client in (sleeper, holder):
        client.quit()
    stopped(server)


def holds_again() -> None:
    """A session that holds and asks again: who waited goes on before, and its time counts from its OK."""
    server = staying("--workers", "0")
    holder, other = Client(server.port), Client(server.port)
    wanted("a hold", holder.ask("HOLD 20000"), "OK")
    sent(other, "BEGIN")
    wanted("another waits", is_silent(other), True)
    sent(holder, "HOLD 20000")
    wanted("it goes on before", other.reply().split()[0], "BEGUN")
    wanted("which is in the way", is_silent(holder), True)
    wanted("its end", other.ask("COMMIT").split()[0], "COMMITTED")
    wanted("then it holds", holder.reply(), "OK")
    wanted("a shorter one", holder.ask("HOLD 1000"), "OK")
    answer, took = seconds(lambda: other.ask("SEEN"))
    wanted("for its time", (answer.split()[0], 0.8 <= took <= 1 + MARGIN), ("SEEN", True))
    for client in (holder, other):
        client.quit()
    stopped(server)


def main() -> None:
    """All of it."""
    lines()
    waits_that_end()
    half_closed()
    beside_a_sleeper()
    holds_again()
    with tempfile.TemporaryDirectory() as folder:
        held(folder)
    times()
    ends()
    stops()
    sent_ahead()
    all_go_on()
    with tempfile.TemporaryDirectory() as folder:
        one_too_many(folder)
    holds_beside_those_that_wait()
    answers_before_a_wait()
    crowd()
    with tempfile.TemporaryDirectory() as folder:
        loads_beside_readers(folder)
    with tempfile.TemporaryDirectory() as folder:
        dumps_beside_writers(folder)
        two_loads(folder)
    print("holding: all as expected")


if __name__ == "__main__":
    main()
