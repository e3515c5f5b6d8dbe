#!/usr/bin/env python3
"""`amdump`, `amcli` and `amdraw` from outside: records back and forth, a shell at a terminal and at a pipe, a run drawn."""

import glob
import ast
import os
import pty
import re
import select
import signal
import socket
import subprocess
import sys
import tempfile
import threading
import time
from typing import List, Tuple
from xml.etree import ElementTree

sys.dont_write_bytecode = True
from support import AMAUDIT, AMLOAD, AMSERVE, LIMIT, TOP, Client, Server, built, fail, wanted  # noqa: E402

sys.path.insert(0, f"{TOP}/python")
from tiuvrokk_tools.drawing import IDLE_COLOURS  # noqa: E402
from tiuvrokk_tools.verbs import TABLE  # noqa: E402

AMDUMP, AMCLI, AMDRAW = (os.path.join(TOP, name) for name in ("amdump", "amcli", "amdraw"))
RECORDS = 1_000_000
# Two runs of three records; a query of the middle, whose records move in two steps; a refusal and an abort.
TRACE = """TRACE 2
BEGIN | BEGUN 1
LOAD 1 h61=h30 h63=h30 h65=h30 | OK
LOAD 1 h62=h30 h64=h30 h66=h30 | OK
COMMIT 1 | COMMITTED 1
BEGIN | BEGUN 2
SCAN 2 h62 h64 9 | ROWS 3 h62=h30 h63=h30 h64=h30
BEGIN | BEGUN 3
DEL 3 h63 | BUSY 2
ABORT 3 | ABORTED
MERGE 16 | MOVED 1 1
MERGE 16 | MOVED 2 2
MERGE 16 | DONE
COMMIT 2 | COMMITTED 2
"""
# Two runs of four records, of which c and d are deleted. A clean step meets the lock of who deleted them; one frees d's place
# in the second run; a merge step takes a and the ghost of c out of the first, another takes b out of the second.
DELETED = """TRACE 2
BEGIN | BEGUN 1
LOAD 1 h61=h30 h63=h30 h65=h30 h67=h30 | OK
LOAD 1 h62=h30 h64=h30 h66=h30 h68=h30 | OK
COMMIT 1 | COMMITTED 1
BEGIN | BEGUN 2
DEL 2 h63 | OK
DEL 2 h64 | OK
CLEAN h61 h68 64 | CLEANED 0
COMMIT 2 | COMMITTED 2
BEGIN | BEGUN 3
SCAN 3 h61 h64 9 | ROWS 2 h61=h30 h62=h30
COMMIT 3 | COMMITTED 3
CLEAN h64 h68 64 | CLEANED 1
MERGE 16 | MOVED 2 1
MERGE 16 | MOVED 1 2
MERGE 16 | DONE
"""
# By step: queries, moved, cleaned, and the share of each run that has left it.
DELETED_TABLE = [
    *([str(step), "0", "0", "0", *shares] for step, shares in ((1, "--"), (2, ["0 %", "-"]))),
    *([str(step), "0", "0", "0", "0 %", "0 %"] for step in range(3, 11)),
    *([str(step), "1", "0", "0", "0 %", "0 %"] for step in (11, 12)),
    ["13", "1", "0", "1", "0 %", "25 %"],
    ["14", "1", "2", "1", "50 %", "25 %"],
    *([str(step), "1", "3", "1", "50 %", "50 %"] for step in (15, 16)),
]
# What is undone: a deletion, by which e stands again, and a new record and a run, which are ghosts until they are cleaned, that
# of the final partition first. A savepoint has the run be taken back before its transaction ends.
UNDONE = """TRACE 2
BEGIN | BEGUN 1
LOAD 1 h65=h30 h69=h30 | OK
COMMIT 1 | COMMITTED 1
BEGIN | BEGUN 2
DEL 2 h65 | OK
INS 2 h6d h30 | OK
MARK 2 | OK
LOAD 2 h66=h30 h67=h30 | OK
BACK 2 | OK
CLEAN h h7a 64 | CLEANED 0
ABORT 2 | ABORTED
CLEAN h h7a 2 | CLEANED 2
CLEAN h h7a 64 | CLEANED 1
BEGIN | BEGUN 3
SCAN 3 h h7a 9 | ROWS 2 h65=h30 h69=h30
MERGE 16 | MOVED 2 1
"""
UNDONE_TABLE = [
    ["1", "0", "0", "0", "-", "-"],
    *([str(step), "0", "0", "0", "0 %", "-"] for step in range(2, 8)),
    ["8", "0", "0", "0", "0 %", "0 %"],
    *([str(step), "0", "0", "0", "0 %", "-"] for step in range(9, 12)),
    ["12", "0", "0", "2", "0 %", "-"],
    *([str(step), "0", "0", "3", "0 %", "-"] for step in (13, 14)),
    ["15", "1", "0", "3", "0 %", "-"],
    ["16", "1", "2", "3", "100 %", "-"],
]
# Two runs of four records at a server that stays. A worker reads the first half, and a session b alone, before that is merged:
# what only the worker asked for is a, c and d. Transactions 4 to 6 aren't a worker's: a step of another stands between
# theirs, they read more than one row, or they abort what they have read. The eighth one is, and meets a lock.
UNASKED = """TRACE 4 4294967294 32 64 256 4096
BEGIN | BEGUN 1
LOAD 1 h61=h30 h63=h30 h65=h30 h67=h30 | OK
LOAD 1 h62=h30 h64=h30 h66=h30 h68=h30 | OK
COMMIT 1 | COMMITTED 1
BEGIN | BEGUN 2
GET 2 h62 | VAL h30
BEGIN | BEGUN 3
SCAN 3 h61 h64 1 | ROWS 1 h61=h30
COMMIT 3 | COMMITTED 2
COMMIT 2 | COMMITTED 3
MERGE 16 | MOVED 1 2
MERGE 16 | DONE
MERGE 16 | MOVED 2 1
MERGE 16 | MOVED 1 2
BEGIN | BEGUN 4
SCAN 4 h65 h65 1 | ROWS 1 h65=h30
MERGE 16 | DONE
COMMIT 4 | COMMITTED 4
BEGIN | BEGUN 5
SCAN 5 h66 h66 2 | ROWS 1 h66=h30
COMMIT 5 | COMMITTED 5
BEGIN | BEGUN 6
SCAN 6 h67 h67 1 | ROWS 1 h67=h30
ABORT 6 | ABORTED
MERGE 16 | MOVED 1 1
MERGE 16 | DONE
MERGE 16 | MOVED 1 2
MERGE 16 | DONE
MERGE 16 | MOVED 1 1
MERGE 16 | DONE
BEGIN | BEGUN 7
LOCK 7 X h61 h68 | OK
BEGIN | BEGUN 8
SCAN 8 h61 h68 1 | BUSY 7
ABORT 8 | ABORTED
COMMIT 7 | COMMITTED 6
"""


def run(*words: str, text: str = "") -> Tuple[int, str, str]:
    """A program's status, standard output and standard error."""
    ran = subprocess.run(words, input=text, capture_output=True, text=True, timeout=LIMIT, check=False)
    return ran.returncode, ran.stdout, ran.stderr


def shell(*words: str, text: str) -> Tuple[int, str, str]:
    """The same of a shell over a store of its own."""
    return run(AMCLI, "--store", AMSERVE, *words, text=text)


def runs_on_the_oldest_python() -> None:
    """What is written in Python has no words that 3.9 doesn't know."""
    for path in [AMLOAD, AMDUMP, AMCLI, AMDRAW, *glob.glob(f"{TOP}/python/*/*.py")]:
        with open(path, encoding="utf-8") as file:
            ast.parse(file.read(), path, feature_version=(3, 9))


def back_and_forth(folder: str) -> None:
    """Records of one server dumped, loaded into another, and dumped again."""
    rows = sorted((f"k{number * 7919 % 1000003:07}", f"v={number}") for number in range(RECORDS))
    right = "".join(f"{key}\t{value}\n" for key, value in rows)
    path = os.path.join(folder, "data")
    with open(path, "w", encoding="ascii") as file:
        file.writelines(f"{key}\t{value}\n" for key, value in reversed(rows))
    one, two = Server("--sessions", "6"), Server("--sessions", "2")
    wanted("nothing to dump", run(AMDUMP, "--port", str(one.port)), (0, "", ""))
    wanted("a load", run(AMLOAD, "--port", str(one.port), path), (0, "", ""))
    both = f"{AMDUMP} --port {one.port} | {AMLOAD} --port {two.port}"
    wanted("amdump | amload", run("bash", "-o", "pipefail", "-c", both), (0, "", ""))
    if run(AMDUMP, "--port", str(two.port)) != (0, right, ""):
        fail("what was dumped, loaded and dumped again isn't what was loaded first")
    refused_dumps(one)
    two.closed()
    one.closed()


def by_socket(folder: str) -> None:
    """A server that has a socket alone."""
    path = os.path.join(folder, "socket")
    words = [built("am_program_listen"), "listen", "--socket", path, "--sessions", "5", "--workers", "0"]
    with subprocess.Popen(words, stdin=subprocess.DEVNULL, stdout=subprocess.PIPE, text=True) as server:
        assert server.stdout
        wanted("where it listens", server.stdout.readline(), f"LISTEN {path}\n")
        wanted("a load", run(AMLOAD, "--socket", path, text="ant\tsix\nbee\tsix\n"), (0, "", ""))
        wanted("a dump", run(AMDUMP, "--socket", path), (0, "ant\tsix\nbee\tsix\n", ""))
        files_of_dumps(folder, path)
        wanted("a shell", run(AMCLI, "--socket", path, "--raw", text="GET ant\n"), (0, "VAL six\n", ""))
        wanted("its end", server.stdout.read().split()[0], "CLOSED")
    wanted("its status", server.returncode, 0)
    wanted("a server that isn't there", run(AMDUMP, "--socket", path)[0], 5)
    wanted("both", run(AMDUMP, "--socket", path, "--port", "1")[0], 2)


def files_of_dumps(folder: str, path: str) -> None:
    """A dump may be read by those who may read the file in whose place it comes, and follows no link on its way."""
    kept, secret = os.path.join(folder, "kept"), os.path.join(folder, "secret")
    with open(secret, "w", encoding="ascii") as file:
        file.write("somebody's")
    os.symlink("secret", f"{kept}.part")
    for mode in (0o644, 0o600):
        wanted("a dump into a file", run(AMDUMP, "--socket", path, kept), (0, "", ""))
        with open(kept, encoding="ascii") as file:
            wanted("what it has", file.read(), "ant\tsix\nbee\tsix\n")
        if mode == 0o600:
            wanted("who may read it", os.stat(kept).st_mode & 0o777, mode)
        os.chmod(kept, 0o600)
    wanted("where the link led", os.path.getsize(secret), 10)


def refused_dumps(server: Server) -> None:
    """A lock in the way, an output that is full, a reader that goes away, no server."""
    other = Client(server.port)
    wanted("a lock", [other.ask("BEGIN")[:5], other.ask("LOCK X k k")], ["BEGUN", "OK"])
    status, out, said = run(AMDUMP, "--port", str(server.port), "--hold", "0", "--tries", "1")
    is_told = bool(re.fullmatch("amdump: answered BUSY [0-9]+: not all records were read\n", said))
    wanted("a dump beside it", (status, out, is_told), (1, "", True))
    wanted("its end", [other.ask("ABORT"), other.ask("QUIT")], ["ABORTED", "BYE"])
    with open("/dev/full", "w", encoding="ascii") as full:
        words = [AMDUMP, "--port", str(server.port)]
        ran = subprocess.run(words, stdout=full, stderr=subprocess.PIPE, text=True, timeout=LIMIT, check=False)
    wanted("a full device", (ran.returncode, ran.stderr), (6, "amdump: standard output: No space left on device\n"))
    wanted("no port", run(AMDUMP)[:2], (2, ""))
    with socket.socket() as unheard:
        unheard.bind(("127.0.0.1", 0))
        status, out, said = run(AMDUMP, "--port", str(unheard.getsockname()[1]))
    wanted("no server", (status, out, said.startswith("amdump: port ")), (5, "", True))


def server_goes_away() -> None:
    """A server that answers HOLD and BEGIN, and closes then."""
    listener = socket.create_server(("127.0.0.1", 0))

    def leave() -> None:
        session, _ = listener.accept()
        with session:
            session.recv(100)
            session.sendall(b"OK\nBEGUN 1\n")
            session.recv(100)

    server = threading.Thread(target=leave)
    server.start()
    status, out, said = run(AMDUMP, "--port", str(listener.getsockname()[1]))
    server.join(LIMIT)
    listener.close()
    wanted("a server that goes away", (status, out, said.startswith("amdump: port ")), (5, "", True))


def no_seat() -> None:
    """A server that serves no further session says so, and closes: the shell tells it, whatever was asked first."""
    listener = socket.create_server(("127.0.0.1", 0))
    port = listener.getsockname()[1]

    def refuse() -> None:
        for _ in range(2):
            session, _ = listener.accept()
            session.sendall(b"ERR SESSIONS\n")
            session.shutdown(socket.SHUT_WR)
            session.recv(1000)
            session.close()

    threading.Thread(target=refuse, daemon=True).start()
    told = f"amcli: port {port}: answered ERR SESSIONS: it serves no further session now\n"
    for line in ("get a", "seen"):
        wanted(line, run(AMCLI, "--port", str(port), text=f"{line}\n"), (5, "", told))
    listener.close()


def lines_of_a_pipe(folder: str) -> None:
    """A shell that reads a pipe: verbs in either case, tables, transactions of a line, commands, statuses."""
    path = os.path.join(folder, "records")
    typed = f"""ins ant 6
INS bee 7
scan a z 10
begin
del ant
.dump {path}
abort
.raw on
scan a z 10
get none
.dump {path}.all
lock s a z
"""
    shown = "OK\nOK\nkey  value\nant  6\nbee  7\n2 rows\nBEGUN 4\nOK\ndumped 1\nABORTED\n"
    shown += "ROWS 2 ant=6 bee=7\nNONE\ndumped 2\nERR NOTX\n"
    said = "amcli: line 12: no transaction is active: BEGIN begins one\n"
    wanted("lines of a pipe", shell(text=typed), (1, shown, said))
    said = "amcli: line 2: the key is missing: GET k is wanted\n"
    wanted("a bad line", shell(text="get a\nget\n"), (1, "NONE\nERR SYNTAX\n", said))
    said = "amcli: line 2: no transaction is active: BEGIN begins one\n"
    for word, status, rest in (("--raw", 1, ""), ("--strict", 1, "NONE\n"), ("--lenient", 0, "NONE\n")):
        wanted(f"a line that fails {word}", shell(word, text="get a\ncommit\nget a\n"), (status, f"NONE\nERR NOTX\n{rest}", said))
    wanted("a line that fails in a transaction", shell(text="begin\nins a 1\nget\ncommit\n")[:2], (1, "BEGUN 1\nOK\nERR SYNTAX\n"))
    wanted("no error, strictly", shell("--strict", text="get a\n"), (0, "NONE\n", ""))
    with open(f"{path}.all", encoding="ascii") as file:
        wanted("the file of a dump", file.read(), "ant\t6\nbee\t7\n")
    with open(f"{path}.lines", "w", encoding="ascii") as file:
        file.write(f"# comment\n.load {path}.all\nget bee\n")
    wanted("a file of lines", shell(text=f".read {path}.lines\n"), (0, "loaded 2\nVAL 7\n", ""))
    twice = shell("--strict", text=f".load {path}.all\n.load {path}.all\nget ant\n.foo\n.load\n")
    said = "amcli: line 2: answered EXISTS ant: nothing was loaded\namcli: line 4: .foo is no command: .help lists them\n"
    said += "amcli: line 5: the command needs the name of a file\n"
    wanted("commands that fail", twice, (1, "loaded 2\nVAL 6\n", said))
    wanted("a store that isn't there", run(AMCLI, "--store", f"{folder}/none")[:2], (5, ""))


def what_is_wrong(folder: str) -> None:
    """Which word of a line is wrong, and what is wanted; in a file by its name."""
    wrong = {
        "foo a": "FOO is no verb: HELP lists them",
        "inst a b": "INST is no verb, but INS is: HELP lists them",
        "get a b": "b is one word too many: GET k is wanted",
        "ins a": "the value is missing: INS k v is wanted",
        "ins a=b c": "the key a=b has a =: INS k v is wanted",
        "get " + "k" * 33: f"{'k' * 32}.. is too long: a key has at most 32 bytes: GET k is wanted",
        "scan b a 5": "b is above a: SCAN lo hi n is wanted",
        "scan a b x": "x is no number from 1 to 1,000: SCAN lo hi n is wanted",
        "merge 65": "65 is no number from 1 to 64: MERGE n is wanted",
        "lock w a b": "W is neither S nor X: LOCK S lo hi or LOCK X lo hi is wanted",
        "load a": "a has no =: LOAD k=v k=v .. is wanted",
        "get \u00e9": "\\xe9 isn't visible ASCII (.escape on carries any bytes): GET k is wanted",
    }
    status, _, said = shell("--lenient", text="begin\n" + "".join(f"{line}\n" for line in wrong))
    wanted("what is wrong", said.splitlines(), [f"amcli: line {at}: {why}" for at, why in enumerate(wrong.values(), 2)])
    wanted("its status", status, 1)
    path = os.path.join(folder, "wrong")
    with open(path, "w", encoding="ascii") as file:
        file.write("ins a 1\n\nget\nget a\n")
    said = f"amcli: {path}: line 3: the key is missing: GET k is wanted\n"
    for word, rest in (("--raw", ""), ("--lenient", "VAL 1\n")):
        wanted("a file", shell(word, text=f".read {path}\n"), (1, f"OK\nERR SYNTAX\n{rest}", said))


def words_of_the_command_line(folder: str) -> None:
    """Lines that stand on the command line, records in any order, and what programs read of answers."""
    path = os.path.join(folder, "table.csv")
    with open(path, "w", encoding="utf-8") as file:
        file.write('k,v\nimp 1,"a ""b"""\nimp2,\n')
    lines = ["put b=2 a=1", "scan a b 3", "get a", "get c", "seen"]
    ran = run(AMCLI, "--store", AMSERVE, "-c", lines[0], *lines[1:], text="get a\n")
    wanted("lines of the command line", ran, (0, "OK\nkey  value\na    1\nb    2\n2 rows\nVAL 1\nNONE\nSEEN 0 4\n", ""))
    shown = '"OK"\n[{"key": "a", "value": "1"}, {"key": "b", "value": "2"}]\n"1"\nnull\n"SEEN 0 4"\n'
    wanted("JSON", shell("--json", *lines, text=""), (0, shown, ""))
    wanted("CSV", shell("--csv", "--escape", f".import {path}", "scan a z 9", "get imp2", text=""), (0, 'loaded 2\nimp 1,"a ""b"""\nimp2,\n\n', ""))
    wanted("what no line has", shell("--escape", f".import {path}", "get imp2", text="")[1], "loaded 2\nVAL \n")
    wanted("a table that lines have no form for", shell(f".import {path}", text="")[0], 1)
    for line, why in (("load a=1 a=2", "a key stands twice"), ("commit", "no transaction is active"), ("begin;begin", "a transaction is active")):
        status, _, said = shell(*line.split(";"), text="")
        wanted(f"why {line} fails", (status, why in said), (1, True))


def any_text(folder: str) -> None:
    """Quotes and percent signs, counts, and a dump to standard output that amload reads."""
    typed = 'ins "New York" "8 \\"million\\" = a lot"\nget "New York"\nload "a b"=1 c="x y"\nscan ! ~ 9\n.count\n.count "New York"\n'
    shown = 'OK\nVAL 8 "million" = a lot\nOK\nkey       value\nNew York  8 "million" = a lot\na b       1\nc         x y\n3 rows\n3\n1\n'
    wanted("any text", shell("--escape", text=typed), (0, shown, ""))
    wanted("as it is carried", shell(text='ins a%20b 50%25\n.dump -\n.escape on\n.dump -\n.exit\nget a\n')[1], "OK\na%20b\t50%25\na b\t50%\n")
    path = os.path.join(folder, "any")
    with open(path, "w", encoding="utf-8") as file:
        file.write("S\u00e3o Paulo\t12 million\nna\u00efve=50%\n")
    shown = "loaded 2\nS\u00e3o Paulo\t12 million\nna\u00efve\t50%\n"
    wanted("a file of any text", shell("--escape", text=f".load {path}\n.dump -\n"), (0, shown, ""))
    told = shell(text="ins a 1\n.stats\nbegin\n.count a b\n.help .count\n")[1]
    wanted("commands", told, "OK\nsession 0, 1 commits, no transaction active\nBEGUN 2\n1\n.count [LO HI]\n  counts the records, or those of a range\n")


def server_comes_back(folder: str) -> None:
    """A server that goes away at a terminal: the prompt says so, the next line connects again, and what was typed is kept."""
    # (the program itself, without the launcher that holds it)
    server = Server("--stay", program=(built("am_program_listen"),))
    terminal = Terminal(AMCLI, "--port", str(server.port), home=folder)
    terminal.see("tiuvrokk> ")
    terminal.type("begin\n")
    terminal.see(r"BEGUN 1\r\n.*tiuvrokk 1> ")
    server.process.kill()
    server.process.wait()
    terminal.type("get a\n")
    terminal.see(r"amcli: port [0-9]+: .*\r\n.*not connected> ")
    terminal.type("get a\n")
    terminal.see(r"amcli: port [0-9]+: .*\r\n.*not connected> ")
    words = [AMSERVE, "listen", "--port", str(server.port), "--stay"]
    again = subprocess.Popen(words, stdin=subprocess.DEVNULL, stdout=subprocess.PIPE)
    wanted("a server at the same port", again.stdout.readline() if again.stdout else b"", b"LISTEN %d\n" % server.port)
    terminal.type("get a\n")
    terminal.see(r"NONE\r\n.*tiuvrokk> ")
    with open(os.path.join(folder, ".tiuvrokk_history"), encoding="utf-8") as file:
        wanted("what was typed before the end", file.read().splitlines()[-1], "get a")
    terminal.type("exit\n")
    wanted("its end", terminal.status(), 0)
    again.terminate()
    again.communicate(timeout=LIMIT)


def beside_others(folder: str) -> None:
    """A .load, a .dump and a .count hold the server, and try again where a lock is in their way; what can't be dumped leaves the file
    that it should renew."""
    server = Server("--sessions", "4")
    port, kept = str(server.port), os.path.join(folder, "backup")
    with open(kept, "w", encoding="ascii") as file:
        file.write("a backup")
    other = Client(server.port)
    wanted("a lock", other.ask_all(["BEGIN", "INS k v"])[1], "OK")
    status, out, said = run(AMCLI, "--port", port, "--strict", text=f".dump {kept}\n")
    is_told = bool(re.fullmatch("amcli: line 1: answered ERR HELD [0-9]+ at try 5: not all records were read\n", said))
    wanted("beside a transaction that stays", (status, out, is_told), (1, "", True))
    with open(kept, encoding="ascii") as file:
        wanted("what it should renew", file.read(), "a backup")
    wanted("what lies beside it", os.path.exists(f"{kept}.part"), False)
    later = threading.Timer(1, lambda: other.ask("COMMIT"))
    later.start()
    wanted("beside one that ends", run(AMCLI, "--port", port, "--strict", text=f".dump {kept}\n.count\n"), (0, "dumped 1\n1\n", ""))
    later.join()
    wanted("a lock", other.ask_all(["BEGIN", "GET a"])[1], "NONE")
    later = threading.Timer(1, lambda: other.ask("COMMIT"))
    later.start()
    with open(os.path.join(folder, "one"), "w", encoding="ascii") as file:
        file.write("a=1\n")
    wanted("a load beside it", run(AMCLI, "--port", port, "--strict", text=f".load {folder}/one\n"), (0, "loaded 1\n", ""))
    later.join()
    other.quit()
    server.closed()


def help_is_the_document() -> None:
    """HELP has the table of the protocol's document, word for word."""
    with open(f"{TOP}/docs/protocol.md", encoding="utf-8") as file:
        table = file.read().partition("| Line | Asks for |")[2].partition("\n\n")[0]
    rows = re.findall(r"(?m)^\| (`[A-Z][^|]*) \| (.*?) \| (.*?) \|$", table)
    wanted("the table of HELP", [row[:3] for row in TABLE], [tuple(cell.replace("`", "") for cell in row) for row in rows])
    status, shown, said = shell(text="help\nhelp scan\nhelp foo\n")
    wanted("HELP", (status, said), (1, "amcli: line 3: foo is no verb: HELP lists them\n"))
    for line, asks, answers, _ in TABLE:
        is_listed = re.search(rf"(?m)^{re.escape(line)} +{re.escape(asks)}$", shown)
        if not is_listed or line.startswith("SCAN") and answers not in shown:
            fail(f"HELP doesn't tell {line}")


class Terminal:
    """A program at a pseudo-terminal."""

    def __init__(self, *words: str, home: str) -> None:
        self.process, self.side = pty.fork()
        if not self.process:
            os.environ.update(HOME=home, TERM="dumb", INPUTRC="/dev/null")
            os.execv(words[0], words)
        self.shown = ""

    def see(self, pattern: str, again: str = "") -> str:
        """Reads until the pattern is there, and gives what came up to its end. Keys that may come too early to be heard are
        typed again."""
        begun = time.monotonic()
        while not (found := re.search(pattern, self.shown)):
            if time.monotonic() - begun > LIMIT:
                fail(f"{pattern} isn't shown, but {self.shown[-300:]!r}")
            if select.select([self.side], [], [], 2)[0]:
                self.shown += self.more()
            elif again:
                self.type(again)
        seen, self.shown = self.shown[: found.end()], self.shown[found.end() :]
        return seen

    def more(self) -> str:
        try:
            return os.read(self.side, 4096).decode()
        except OSError:
            fail(f"the program has ended: {self.shown[-300:]!r}")

    def type(self, text: str) -> None:
        os.write(self.side, text.encode())

    def status(self) -> int:
        """Waits for the end."""
        found = os.waitstatus_to_exitcode(os.waitpid(self.process, 0)[1])
        os.close(self.side)
        return found


def at_a_terminal(folder: str) -> None:
    """The prompt, completion of verbs and keys, an interrupt, the end of the input, and what was typed kept in a file."""
    terminal = Terminal(AMCLI, "--store", AMSERVE, home=folder)
    terminal.see("tiuvrokk> ")
    terminal.type("ins elephant grey\n")
    terminal.see(r"OK\r\n.*tiuvrokk> ")
    terminal.type("beg\t\n")
    terminal.see(r"BEGUN 2\r\n.*tiuvrokk 2> ")
    terminal.type("get ele\t\n")
    terminal.see(r"VAL grey\r\n.*tiuvrokk 2> ")
    terminal.type("scan a")
    terminal.see("scan a")
    terminal.type("\x03")
    terminal.see(r"\n.*tiuvrokk 2> ", again="\x03")
    terminal.type(".time on\nscan a z 5\n")
    terminal.see(r"elephant  grey\r\n1 row\r\n[0-9.]+ ms\r\n.*tiuvrokk 2> ")
    terminal.type("commit\n")
    terminal.see(r"COMMITTED 2\r\n")
    terminal.see("tiuvrokk> ")
    terminal.type("\x04")
    wanted("the end of the input", terminal.status(), 0)
    kept = os.path.join(folder, ".tiuvrokk_history")
    if not os.path.exists(kept):
        print("cli: this Python has no readline")
        return
    wanted("who may read it", os.stat(kept).st_mode & 0o777, 0o600)
    with open(kept, encoding="utf-8") as file:
        lines: List[str] = [line.strip() for line in file if not line.startswith("_HiStOrY")]
    wanted("what was typed", lines, ["ins elephant grey", "BEGIN", "get elephant", ".time on", "scan a z 5", "commit"])


def interrupted_load(folder: str) -> None:
    """An interrupt ends a `.load` at once, while it reads as while it sends, and nothing is loaded."""
    path = os.path.join(folder, "many")
    with open(path, "w", encoding="ascii") as file:
        file.writelines(f"{number:07}\tv\n" for number in range(200_000))
    terminal = Terminal(AMCLI, "--store", AMSERVE, home=folder)
    terminal.see("tiuvrokk> ")
    for reads in (r" of [0-9.]+ MB(, [0-9]+ records/s)? *\r", r"records/s, [0-9]+ s left"):
        terminal.type(f".load {path}\n")
        terminal.see(reads)
        terminal.type("\x03")
        terminal.see(r"amcli: interrupted.*\r\n.*tiuvrokk> ")
    terminal.type(".count\n")
    terminal.see(r"\n0\r\n.*tiuvrokk> ")
    terminal.type("exit\n")
    wanted("the end of a shell whose loads were interrupted", terminal.status(), 0)


def progress_at_a_terminal(folder: str) -> None:
    """How far a load is, where standard error is a terminal."""
    path = os.path.join(folder, "some")
    with open(path, "w", encoding="ascii") as file:
        file.writelines(f"{number:06}=v\n" for number in range(1000))
    terminal = Terminal("/bin/sh", "-c", f"{AMLOAD} --run 500 {path} >/dev/null; sleep 0.1; echo end", home=folder)
    shown = terminal.see("end\r\n")
    wanted("progress", bool(re.search(r"0\.0 MB, [1-9][0-9]* records/s, 0 s left *\r\n", shown)) and " 0 records/s" not in shown, True)
    wanted("the end of the shell", terminal.status(), 0)


def table_of(text: str) -> List[List[str]]:
    """The cells of the table of a run."""
    return [re.split("  +", line.strip()) for line in run(AMDRAW, "--text", text=text)[1].splitlines()]


def unasked_merging() -> None:
    """What only a worker asked for has a shade and a column of its own; a bounded server has no such workers."""
    wanted("what the auditor says", run(AMAUDIT, text=UNASKED)[1], "LEGAL 6\n")
    rows, shown = table_of(UNASKED), run(AMDRAW, text=UNASKED)[1]
    wanted("the head", rows[0], ["step", "queries", "moved", "unasked", "cleaned", "run 1", "run 2"])
    wanted("its last row", rows[-1], ["36", "4", "7", "3", "0", "100 %", "75 %"])
    told = ">4 queries<", ">4 merge steps that moved 4 records<", ">3 records that nobody asked for<", ">worker busy<"
    colours = IDLE_COLOURS.values()
    wanted("the picture", [text in shown for text in (*told, *colours)], [True] * 6)
    text = UNASKED.replace("TRACE 4 4294967294 32 64 256 4096", "TRACE 2")
    shown = run(AMDRAW, text=text)[1]
    wanted("a bounded server", table_of(text)[-1], ["36", "5", "7", "0", "100 %", "75 %"])
    wanted("its picture", [text in shown for text in (">5 queries<", "worker", *colours)], [True, False, False, False])


def pictures(folder: str) -> None:
    """A run drawn, as a picture and as a table."""
    path = os.path.join(folder, "trace")
    with open(path, "w", encoding="ascii") as file:
        file.write(TRACE)
    rows = table_of(TRACE)
    wanted("the head of the table", rows[0], ["step", "queries", "moved", "cleaned", "run 1", "run 2"])
    wanted("its last row", rows[-1], ["13", "1", "3", "0", "33 %", "67 %"])
    for text, right in ((DELETED, DELETED_TABLE), (UNDONE, UNDONE_TABLE)):
        wanted("what the auditor says", run(AMAUDIT, text=text)[1].split()[0], "LEGAL")
        for found, row in zip(table_of(text)[1:], right):
            wanted("a row of deleted records", found, row)
    status, picture, said = run(AMDRAW, text=TRACE)
    wanted("a picture", (status, said), (0, ""))
    for first in ("TRACE 3", "TRACE 4 4294967294 32 64 256 4096", "TRACE 4 2 32 64 256 4096"):
        wanted(f"the same under {first}", run(AMDRAW, text=TRACE.replace("TRACE 2", first, 1)), (0, picture, ""))
    told = [it.text or "" for it in ElementTree.fromstring(picture).iter("{http://www.w3.org/2000/svg}text")]
    for text in ("6 records in 2 runs, keys from left to right", "67 % left", "33 % left", "busy", "abort", "50 %"):
        if text not in told:
            fail(f"the picture doesn't say {text!r}: {told}")
    # Half of each run stands there, and a and b of eight keys stand in the final partition.
    shown = run(AMDRAW, text=DELETED)[1]
    for text in ("50 % left", ">25 %<", "1 CLEAN of 1 place"):
        if text not in shown:
            fail(f"the picture of deleted records doesn't say {text!r}")
    unasked_merging()
    bad = run(AMDRAW, text="TRACE 2\nBEGIN | BEGUN 1\nFOO\n")
    wanted("a bad line", bad, (3, "", "amdraw: line 3: it is none of a trace\n"))
    wanted("no run", run(AMDRAW, text="foo\n")[0], 3)
    for first in ("TRACE 4", "TRACE 4 0 32 64 256 4096", "TRACE 4 4294967295 32 64 256 4096", "TRACE 4 7 32 64 256 4095"):
        wanted("no first line", run(AMDRAW, text=f"{first}\n"), (3, "", "amdraw: line 1: it names no version of a trace\n"))
    wanted("no file", run(AMDRAW, f"{folder}/none"), (4, "", f"amdraw: {folder}/none: No such file or directory\n"))


def main() -> None:
    # (it may be ignored where tests run in the background)
    signal.signal(signal.SIGINT, signal.SIG_DFL)
    subprocess.run([AMSERVE, "--version"], stdout=subprocess.DEVNULL, check=True)
    runs_on_the_oldest_python()
    help_is_the_document()
    server_goes_away()
    no_seat()
    with tempfile.TemporaryDirectory() as folder:
        pictures(folder)
        by_socket(folder)
        beside_others(folder)
        lines_of_a_pipe(folder)
        what_is_wrong(folder)
        words_of_the_command_line(folder)
        any_text(folder)
        at_a_terminal(folder)
        server_comes_back(folder)
        interrupted_load(folder)
        progress_at_a_terminal(folder)
        back_and_forth(folder)
    print("cli: all as expected")


if __name__ == "__main__":
    main()
