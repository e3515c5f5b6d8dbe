#!/usr/bin/env python3
"""Who is in the way, and an end to it, from outside. `WHO` tells the sessions that have a transaction active, each with that and the
seconds since its last line, and `WHO ALL` all sessions; `END s` ends a session as if its client were gone. They are answered at any
time."""

import os
import signal
import subprocess
import sys
import tempfile
import time
from typing import Any, Dict, List, Tuple

sys.dont_write_bytecode = True
from support import LIMIT, TOP, Client, Server, alone, audit, fail, until, wanted  # noqa: E402

sys.path.insert(0, os.path.join(TOP, "python"))
import tiuvrokk  # noqa: E402

# So much later a thread may go on than it could, on a busy machine.
MARGIN = 5.0
ALL = f"! {'~' * 32}"
STOPPED = """
import socket

answers = socket.create_connection(("127.0.0.1", {port})).makefile("rw", newline="\\n")
answers.write("BEGIN\\nLOCK X {all}\\n")
answers.flush()
print(answers.readline().strip(), answers.readline().strip(), flush=True)
print(repr(answers.readline()), flush=True)
"""


def staying(*words: str, **how: Any) -> Server:
    return Server("--stay", "--stop", *words, **how)


def stopped(server: Server) -> None:
    """Ends a server whose sessions have ended."""
    server.close_input()
    server.closed()


def number_of(client: Client) -> int:
    return int(client.ask("SEEN").split()[1])


def who(client: Client) -> Dict[int, Tuple[int, int]]:
    """The transaction of each session that has one, and the seconds since its last line."""
    word, count, *told = client.ask("WHO").split(" ")
    rows = [[int(number) for number in row.split(":")] for row in told]
    wanted("how many there are", (word, count), ("WHO", str(len(rows))))
    return {session: (tx, seconds) for session, tx, seconds in rows}


def served(client: Client) -> Dict[int, Tuple[int, int, str]]:
    """The transaction of each session, 0 where it has none, the seconds since its last line, and whether it holds or waits."""
    word, count, *told = client.ask("WHO ALL").split(" ")
    rows = [row.split(":") for row in told]
    wanted("how many are served", (word, count, len({row[0] for row in rows})), ("WHO", str(len(rows)), len(rows)))
    return {int(row[0]): (int(row[1]), int(row[2]), "".join(row[3:])) for row in rows}


def is_closed(client: Client) -> bool:
    """Whether the server closed the connection."""
    try:
        return client.socket.recv(1) == b""
    except ConnectionResetError:
        return True


def lines() -> None:
    """The lines by themselves, alone: its own number is 0, and behind the END of that nothing is answered."""
    said = alone(["WHO", "END 1", "END", "END x", "END 1 2", "WHO 1", "WHO ALL 1", "WHO ", "WHO all", "WHO ALL", "BEGIN", "WHO", "WHO ALL", "INS a 1", "COMMIT", "BEGIN", "WHO", "END 7", "END 0", "WHO"])
    right = ["WHO 0", "ERR SESSION", *["ERR SYNTAX"] * 7, "WHO 1 0:0:0", "BEGUN 1", *["WHO 1 0:1:0"] * 2, "OK", "COMMITTED 1", "BEGUN 2", "WHO 1 0:2:0", "ERR SESSION", "OK"]
    wanted("alone", said, right)
    wanted("beyond numbers", alone(["END 18446744073709551615", "END 18446744073709551616"]), ["ERR SESSION", "ERR RANGE"])


def stopped_client(folder: str) -> None:
    """A stopped client with a lock on everything, beside one that works: that is told BUSY, finds the session, and ends it. The lock
    is free then, and the connection closed."""
    trace = os.path.join(folder, "run")
    server = staying("--idle-transaction", "0", trace=trace)
    working = Client(server.port)
    process = subprocess.Popen([sys.executable, "-c", STOPPED.format(port=server.port, all=ALL)], stdout=subprocess.PIPE, text=True)
    out = process.stdout or fail("no output")
    begun, locked = out.readline().split(" ", 2)[1:]
    wanted("a client's wide lock", locked, "OK\n")
    process.send_signal(signal.SIGSTOP)
    until("a second behind its last line", lambda: [seconds for _, seconds in who(working).values()] == [1])
    tx = int(working.ask("BEGIN").split()[1])
    wanted("beside it", working.ask("INS a 1"), f"BUSY {begun}")
    active = who(working)
    own = number_of(working)
    wanted("who works", active.pop(own)[0], tx)
    ((sleeper, (its, seconds)),) = active.items()
    wanted("who is in the way", (its, 1 <= seconds <= 1 + MARGIN), (int(begun), True))
    wanted("its end", working.ask(f"END {sleeper}"), "OK")
    wanted("the lock is free", working.ask("INS a 1"), "OK")
    wanted("who is left", list(who(working)), [own])
    wanted("no longer there", working.ask(f"END {sleeper}"), "ERR SESSION")
    process.send_signal(signal.SIGCONT)
    wanted("its connection is closed", process.communicate(timeout=LIMIT)[0], "''\n")
    wanted("who works goes on", working.ask("COMMIT"), "COMMITTED 1")
    working.quit()
    stopped(server)
    wanted("the trace", audit(trace), "LEGAL 1")


def entries() -> None:
    """Who is told, and who isn't: a transaction from its BEGIN to its end, however that comes, and each line makes it young."""
    server = staying("--workers", "0")
    asking, one, other = (Client(server.port) for _ in range(3))
    numbers = [number_of(it) for it in (one, other)]
    wanted("nobody", who(asking), {})
    for end in ("COMMIT", "ABORT"):
        tx = int(one.ask("BEGIN").split()[1])
        wanted("one", who(asking), {numbers[0]: (tx, 0)})
        later = int(other.ask("BEGIN").split()[1])
        wanted("two", who(one), {numbers[0]: (tx, 0), numbers[1]: (later, 0)})
        wanted("their ends", [it.ask(end).split()[0] for it in (one, other)], [{"COMMIT": "COMMITTED", "ABORT": "ABORTED"}[end]] * 2)
        wanted("nobody again", who(asking), {})
    one.ask("BEGIN")
    until("a second later", lambda: who(asking)[numbers[0]][1] >= 1)
    one.ask("GET a")
    wanted("young again", who(asking)[numbers[0]][1], 0)
    one.quit()
    wanted("nobody behind QUIT", who(asking), {})
    other.ask("BEGIN")
    other.socket.close()
    until("a lost connection's transaction is told no longer", lambda: not who(asking))
    asking.quit()
    stopped(server)


def all_sessions() -> None:
    """All that are served: a silent one too, who has a transaction, who holds, and who waits for that, or to hold."""
    server = staying("--workers", "0")
    asking, silent, holder, waiting = (Client(server.port) for _ in range(4))
    numbers = [number_of(it) for it in (asking, silent, holder, waiting)]
    own, its, holds, waits = numbers
    until("a second behind its last line", lambda: served(asking)[its][1] >= 1)
    wanted("the asking one", asking.ask("SEEN").split()[1], str(own))
    told = served(asking)
    wanted("each once", (sorted(told), told[own]), (sorted(numbers), (0, 0, "")))
    wanted("a silent one", (told[its][0], 1 <= told[its][1] <= 1 + MARGIN, told[its][2]), (0, True, ""))
    tx = int(silent.ask("BEGIN").split()[1])
    holder.socket.sendall(b"HOLD 60000\n")
    until("who would hold waits", lambda: served(asking)[holds][2] == "w")
    told = served(asking)
    wanted("who has a transaction", told[its], (tx, 0, ""))
    wanted("who would hold", (told[holds][0], told[holds][2]), (0, "w"))
    wanted("WHO tells no marks", who(asking), {its: (tx, 0)})
    wanted("it commits", silent.ask("COMMIT").split()[0], "COMMITTED")
    wanted("then it holds", holder.reply(), "OK")
    wanted("its own transaction", holder.ask("BEGIN").split()[0], "BEGUN")
    waiting.socket.sendall(b"BEGIN\n")
    until("who would begin waits", lambda: served(asking)[waits][2] == "w")
    told = served(asking)
    wanted("who holds", (told[holds][0] > tx, told[holds][2]), (True, "h"))
    wanted("who waits", (told[waits][0], told[waits][2]), (0, "w"))
    wanted("who does neither", (told[own], told[its][2]), ((0, 0, ""), ""))
    wanted("the hold's end", holder.ask("COMMIT").split()[0], "COMMITTED")
    wanted("who waited goes on", waiting.reply().split()[0], "BEGUN")
    told = served(asking)
    wanted("nobody holds or waits", [row[2] for row in told.values()], [""] * 4)
    wanted("an end to the silent one", asking.ask(f"END {its}"), "OK")
    wanted("who is left", sorted(served(asking)), sorted([own, holds, waits]))
    for client in (holder, waiting):
        client.quit()
    wanted("nobody else", list(served(asking)), [own])
    wanted("other words", asking.ask_all(["WHO all", "WHO ALL ALL", "WHO 1", "WHO "]), ["ERR SYNTAX"] * 4)
    asking.quit()
    stopped(server)


def ends() -> None:
    """Of numbers that nobody has, of the session itself, and of a place that others had before."""
    server = staying()
    client, one = Client(server.port), Client(server.port)
    wanted("nobody's numbers", client.ask_all(["END 99", f"END {2**64 - 1}", "END x"]), ["ERR SESSION", "ERR SESSION", "ERR SYNTAX"])
    gone = number_of(one)
    one.quit()
    again = Client(server.port)
    wanted("another one there", number_of(again) > gone, True)
    wanted("who was there before", client.ask(f"END {gone}"), "ERR SESSION")
    wanted("it stays", again.ask("BEGIN").split()[0], "BEGUN")
    wanted("a lock", again.ask("LOCK X a z"), "OK")
    # (nothing behind it is answered)
    again.socket.sendall(f"END {number_of(again)}\nSEEN\n".encode())
    wanted("its own end", (again.reply(), is_closed(again)), ("OK", True))
    begun = time.monotonic()
    while who(client):
        if time.monotonic() - begun > LIMIT:
            fail("a session that ended itself has its transaction for ever")
    wanted("its lock is free", client.ask_all(["BEGIN", "LOCK X a z", "COMMIT"])[1], "OK")
    client.quit()
    stopped(server)


def beside_a_hold() -> None:
    """Both are answered while another holds, with a transaction and without one, and who holds can be ended."""
    server = staying()
    holder, inside, outside = (Client(server.port) for _ in range(3))
    number = number_of(holder)
    wanted("a hold", holder.ask("HOLD 60000"), "OK")
    begun = time.monotonic()
    wanted("nobody", who(outside), {})
    wanted("nobody's number", outside.ask("END 99"), "ERR SESSION")
    wanted("the holder's end", outside.ask(f"END {number}"), "OK")
    wanted("others go on", inside.ask("BEGIN").split()[0], "BEGUN")
    wanted("with no wait", time.monotonic() - begun < MARGIN, True)
    wanted("its connection", is_closed(holder), True)
    again = Client(server.port)
    number = number_of(again)
    again.lines.append("HOLD 60000")
    again.socket.sendall(b"HOLD 60000\n")
    until("it waits", lambda: served(outside)[number][2] == "w")
    wanted("who keeps it from holding", list(who(outside)), [number_of(inside)])
    wanted("is ended", outside.ask(f"END {number_of(inside)}"), "OK")
    wanted("then it holds", again.reply(), "OK")
    for client in (again, outside):
        client.quit()
    stopped(server)


def nothing_behind_its_end(folder: str) -> None:
    """Lines of a session that waits, of its HOLD or for another's: once END of it was answered none is taken, whether its client is
    there or not. Those of others are."""
    trace = os.path.join(folder, "taken")
    server = staying("--workers", "0", trace=trace)
    holder, asking = Client(server.port), Client(server.port)
    commits = 0
    for how in ("waits", "was killed", "would hold"):
        ended = Client(server.port)
        number = number_of(ended)
        lines_of = b"BEGIN\nSET z 1\nCOMMIT\n"
        if how == "would hold":
            wanted("a transaction", holder.ask("BEGIN").split()[0], "BEGUN")
            lines_of = b"HOLD 60000\n" + lines_of
        else:
            wanted("a hold", holder.ask("HOLD 60000"), "OK")
        ended.socket.sendall(lines_of)
        until(f"one that {how} waits", lambda: served(asking)[number][2] == "w")
        if how == "was killed":
            ended.socket.close()
        begun = time.monotonic()
        wanted(f"the end of one that {how}", asking.ask(f"END {number}"), "OK")
        wanted("which is gone then", (time.monotonic() - begun < 0.9, asking.ask(f"END {number}")), (True, "ERR SESSION"))
        if how != "would hold":
            wanted("the hold's end", holder.ask("BEGIN").split()[0], "BEGUN")
        wanted("another's lines", holder.ask_all([f"SET {how[0]} 1", "COMMIT"])[1].split()[0], "COMMITTED")
        commits += 1
        time.sleep(0.3)
        wanted(f"nothing of one that {how}", asking.ask_all(["BEGIN", "GET z", "ABORT"])[1], "NONE")
        wanted("commits", int(asking.ask("SEEN").split()[2]), commits)
        ended.socket.close()
    for client in (holder, asking):
        client.quit()
    stopped(server)
    with open(trace, encoding="ascii") as file:
        wanted("what was taken", [line for line in file if line.startswith("SET ") and " z " in line], [])
    wanted("the trace", audit(trace)[:6], "LEGAL ")


def many() -> None:
    """64 transactions at once are one long line."""
    server = staying("--sessions", "80", "--workers", "0")
    clients = [Client(server.port) for _ in range(64)]
    begun: List[int] = [int(client.ask("BEGIN").split()[1]) for client in clients]
    asking = Client(server.port)
    wanted("all that are served", sorted(tx for tx, _, _ in served(asking).values()), [0, *sorted(begun)])
    active = who(asking)
    wanted("all of them", sorted(tx for tx, _ in active.values()), sorted(begun))
    wanted("their ends", {asking.ask(f"END {number}") for number in active}, {"OK"})
    wanted("nobody is left", who(asking), {})
    wanted("tickets are free", asking.ask_all(["BEGIN", "COMMIT"])[1].split()[0], "COMMITTED")
    asking.quit()
    stopped(server)


def in_python() -> None:
    """The same by a client in Python."""
    server = staying()
    with tiuvrokk.connect(port=server.port) as one, tiuvrokk.connect(port=server.port) as other:
        wanted("nobody", one.who(), [])
        wanted("all are served", [it[1:] for it in one.sessions()], [(None, 0, False, False)] * 2)
        tx = other.transaction()
        tx["a"] = "1"
        (active,) = one.who()
        wanted("who has one", (active.transaction, active.seconds), (tx.number, 0))
        try:
            one.run(lambda it: it.update(a="2"), tries=1)
            fail("nobody is in the way")
        except tiuvrokk.Busy as busy:
            wanted("who is in the way", busy.holder, active.transaction)
        wanted("its end", (one.end(active.session), one.end(active.session)), (True, False))
        one.run(lambda it: it.update(a="2"))
        try:
            tx.commit()
            fail("a session that was ended commits")
        except tiuvrokk.Unknown:
            pass
        other.run(lambda it: it.update(a="3"))
        wanted("who ended goes on at another session", (one.run(lambda it: it["a"]), one.who()), (b"3", []))
    server.close_input()
    server.closed()


def main() -> None:
    """All of it."""
    lines()
    with tempfile.TemporaryDirectory() as folder:
        stopped_client(folder)
    entries()
    all_sessions()
    ends()
    beside_a_hold()
    with tempfile.TemporaryDirectory() as folder:
        nothing_behind_its_end(folder)
    many()
    in_python()
    print("ending: who has a transaction active, who is served, holds and waits, and an end to a stopped one, to oneself and beside a hold")


if __name__ == "__main__":
    main()
