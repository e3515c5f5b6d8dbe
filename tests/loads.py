#!/usr/bin/env python3
"""`amload` and the lines that it writes, from outside: records that are staged and loaded, through a pipe and by a server."""

import contextlib
import os
import signal
import socket
import subprocess
import sys
import tempfile
import threading
from typing import List, Optional, Tuple, Union

sys.dont_write_bytecode = True
from support import AMLOAD, AMSERVE, LIMIT, TOP, Client, Server, alone, audit, fail, wanted  # noqa: E402

sys.path.insert(0, f"{TOP}/python")
import tiuvrokk  # noqa: E402
from tiuvrokk._escapes import escaped_key, escaped_value, unescaped_line, unescaped_lines  # noqa: E402
from tiuvrokk._grammar import RECORD  # noqa: E402

BAD_LINES = [
    ("", ""),
    ("a", '"a": it has no separator: neither a TAB nor a ='),
    ("a=", '"a=": the value is empty'),
    ("=a", '"=a": the key is empty'),
    ("k" * 33 + "=1", '"' + "k" * 33 + '=1": it is too long: the key has 33 bytes, and 32 are the most'),
    ("a=" + "v" * 65, '"a=' + "v" * 58 + '..": it is too long: the value has 65 bytes, and 64 are the most'),
    ("a=\u00e9", '"a=\\xc3\\xa9": it is not ASCII'),
    ("a\tb\tc", '"a\\tb\\tc": it has a blank'),
    ("a=b\tc", '"a=b\\tc": the key has a ='),
    ("a=\x01", '"a=\\x01": it has a control character'),
]


def amload(*words: str, text: Optional[str] = None) -> Tuple[int, str, str]:
    """Its status, standard output and standard error."""
    run = subprocess.run([AMLOAD, *words], input=text, capture_output=True, text=True, timeout=LIMIT, check=False)
    return run.returncode, run.stdout, run.stderr


def lines_of_files() -> None:
    """What is written for small files, in each form."""
    wanted("two forms of a record", amload(text="b=1\na\t2=\naa=3"), (0, "BEGIN\nLOAD a=2= aa=3 b=1\nCOMMIT\n", ""))
    wanted("runs of two", amload("--run", "2", text="b=1\r\na\t2\r\naa=3\r\n"), (0, "BEGIN\nLOAD a=2 b=1\nLOAD aa=3\nCOMMIT\n", ""))
    wanted("no records", amload(text=""), (0, "", "amload: no records\n"))
    many = "".join(f"{number:03}=v\n" for number in range(300))
    lines = amload("--run", "1", text=many)[1].splitlines()
    wanted("more runs than locks", lines[:3], ["BEGIN", "LOCK X 000 299", "LOAD 000=v"])
    wanted("which are loaded", set(alone(lines)[2:-1]), {"OK"})


def updates() -> None:
    """With --update the last line of a run is a PUT, and records that are there get the new values."""
    wanted("an update", amload("--update", "--run", "2", text="b=1\na=2\nc=3\n"), (0, "BEGIN\nPUT a=2 b=1\nPUT c=3\nCOMMIT\n", ""))
    lines = amload(text="b=1\nd=1\n")[1] + amload("--update", text="a=2\nb=2\nc=2\n")[1] + "BEGIN\nSCAN a z 9\nCOMMIT\n"
    wanted("what an update leaves", alone(lines.splitlines())[-2], "ROWS 4 a=2 b=2 c=2 d=1")
    server = Server("--sessions", "4")
    client = Client(server.port)
    for words, text in (((), "b=1\nd=1\n"), (("--update",), "a=2\nb=2\n")):
        wanted("an update of a server", amload(*words, "--port", str(server.port), text=text), (0, "", ""))
    wanted("a load of what is there", amload("--port", str(server.port), text="a=3\n")[0], 1)
    wanted("what they leave", [client.ask(line) for line in ("BEGIN", "SCAN a z 9", "COMMIT")][1], "ROWS 3 a=2 b=2 d=1")
    client.quit()
    server.closed()


def refusals(folder: str) -> None:
    """Files that are none, statuses and texts."""
    wanted("a record with a space", amload(text="a=1\nb=2\nc d=3\na=4\n"), (3, "", 'amload: line 3 "c d=3": it has a blank\n'))
    for record, why in BAD_LINES:
        told = f"amload: line 2 {why}\n" if record else "amload: line 2: it is empty\n"
        wanted(f"the record {record!r}", amload(text=f"a=1\n{record}\nb=2\n"), (3, "", told))
    told = 'amload: line 2 "b": it has no separator: neither a TAB nor a =; 2 more such lines\n'
    wanted("three bad lines", amload(text="a=1\nb\n\nc\n"), (3, "", told))
    wanted("an empty last line", amload(text="a=1\n\n"), (0, "BEGIN\nLOAD a=1\nCOMMIT\n", ""))
    empty = amload("--skip-empty", text="\na=1\n\n\nb=2\n\n\n")
    wanted("empty lines passed over", empty, (0, "BEGIN\nLOAD a=1 b=2\nCOMMIT\n", ""))
    wanted("a bad line behind them", amload("--skip-empty", text="\n\na\n")[2][:18], 'amload: line 3 "a"')
    twice = amload("--skip-empty", text="a=1\n\na=2\n")[2]
    wanted("a key twice behind them", twice, "amload: line 3: the key a stands in line 1 already\n")
    wanted("a key that stands twice", amload(text="b=1\na=2\nc=3\na=4\n"), (3, "", "amload: line 4: the key a stands in line 2 already\n"))
    wanted("no such file", amload(f"{folder}/none")[::2], (4, f"amload: {folder}/none: No such file or directory\n"))
    for words in [("--run", "0"), ("--run", "65537"), ("--port", "0"), ("--none",), ("a", "b")]:
        wanted(f"the words {words}", amload(*words, text="")[:2], (2, ""))
    many = "".join(f"{number}=v\n" for number in range(4096))
    wanted("too many runs", amload("--run", "1", text=many), (2, "", "amload: 4096 records in runs of 1 are 4096 runs, and a transaction loads 4095 at most\n"))
    wanted("help", amload("--help")[0], 0)
    wanted("a server that isn't there", amload("--port", "1", text="a=1\n")[:2], (5, ""))
    with open("/dev/full", "w") as full:
        run = subprocess.run([AMLOAD], input="a=1\n", stdout=full, stderr=subprocess.PIPE, text=True, timeout=LIMIT, check=False)
    wanted("a full disk", (run.returncode, run.stderr), (6, "amload: standard output: No space left on device\n"))


def last_ones() -> None:
    """Of lines with one key the last one counts, in whichever runs they come."""
    said = "amload: 1 line passed over: 1 since its key stands in a line behind, whose value stays\n"
    for run, lines in (("3", "LOAD a=3 b=2\n"), ("1", "LOAD a=3\nLOAD b=2\n")):
        wanted(f"runs of {run}", amload("--last", "--run", run, text="a=1\nb=2\na=3\n"), (0, f"BEGIN\n{lines}COMMIT\n", said))
    text = "".join(f"{number % 100_000:06}={number}\n" for number in range(100_001))
    status, out, told = amload("--last", text=text)
    wanted("a key of two runs", (status, out.count("="), " 000000=0 " in out, "000000=100000" in out, told), (0, 100_000, False, True, said))
    wanted("no other fault", amload("--last", text="a=1\na\n")[0], 3)


def tables() -> None:
    """Comma separated values, by the columns that are asked for."""
    text = 'n,what,value\r\n1,"a ""b"",",x\r\n\r\n2,"c\nd",\r\n'
    wanted("any text", amload("--csv", "--escape", "--key", "what", "--value", "3", text=text), (0, 'BEGIN\nLOAD a%20"b",=x c%0Ad=%\nCOMMIT\n', ""))
    wanted("columns by their names", amload("--csv", text="value,key\n1,a\n"), (0, "BEGIN\nLOAD a=1\nCOMMIT\n", ""))
    wanted("the first two", amload("--csv", text="k,v\na,1\nb,2\n"), (0, "BEGIN\nLOAD a=1 b=2\nCOMMIT\n", ""))
    for words, text, status, said in (
        (["--csv"], "k,v\na,1\nb c,2\n", 3, 'line 3 "b c\\t2": it has a blank'), (["--csv"], "k,v\na\n", 3, 'line 2 "a\\t": the value is empty'),
        (["--csv"], "k,v\na,1\na,2\n", 3, "line 3: the key a stands in line 2 already"), (["--csv", "--key", "q"], "k,v\n", 2, "there is no column q: the first line has k, v"),
        (["--csv"], '"k,v\n', 3, "line 1 is none of comma separated values: unexpected end of data"), (["--csv"], "", 0, "no records"),
    ):
        wanted(f"{text!r}", amload(*words, text=text), (status, "", f"amload: {said}\n"))
    wanted("columns of no table", amload("--key", "a", text="")[:2], (2, ""))
    run = [sys.executable, AMLOAD, "--csv", "--skip"]
    piped = subprocess.run(run, input="k,v\n" + "".join(f"{it:06},{it}\n" for it in range(150_000)) + "x y,1\n", capture_output=True, text=True, timeout=LIMIT, check=False)
    wanted("a large one", (piped.returncode, piped.stdout.count("="), piped.stderr), (0, 150_000, "amload: 1 line passed over: 1 since it has a blank\n"))


def real_text() -> None:
    """Texts as they stand: blanks, other alphabets, keys that are too long, keys that come twice."""
    text = "New York\t8 million people = many\nna\u00efve=50%\n\na\n=x\n" + "k" * 40 + "\tv\nNew York\tagain\nv\t" + "w" * 70 + "\nx=y\tz\n"
    said = "amload: 5 lines passed over: 1 since it is empty, 1 since it has no separator, "
    said += "1 since its key is too long, 1 since its value is too long, 1 since its key stands in a line before, whose value stays\n"
    right = "BEGIN\nLOAD %=x New%20York=8%20million%20people%20=%20many na%C3%AFve=50%25 x%3Dy=z\nCOMMIT\n"
    wanted("real text", amload("--escape", "--skip", text=text), (0, right, said))
    status, out, said = amload("--escape", "--skip", "--key-bytes", "8", "--value-bytes", "7", text=text)
    right = "BEGIN\nLOAD %=x New%20Yo=8%20mil kkkkkkkk=v na%C3%AF=50%25 v=wwwwwww x%3Dy=z\nCOMMIT\n"
    wanted("what is cut", (status, out, said[:29]), (0, right, "amload: 3 lines passed over: "))
    wanted("a line that doesn't fit", amload("--escape", text="a b=1\nc\n")[2], 'amload: line 2 "c": it has no separator: neither a TAB nor a =\n')
    wanted("what is escaped comes back", unescaped_lines(right.encode()[15:].replace(b"=", b"\t", 1))[:8], b"New Yo\t8")
    for words in (("--key-bytes", "33"), ("--value-bytes", "0")):
        wanted(f"the words {words}", amload(*words, text="")[:2], (2, ""))
    # Whatever the bytes are, they come back, but for the ends of lines and a TAB in a key.
    for byte in set(range(256)) - {9, 10, 13}:
        pair = bytes([byte, 97]) + b"\t" + bytes([byte, 61])
        carried = escaped_key(pair[:2]) + b"\t" + escaped_value(pair[3:])
        wanted(f"the byte {byte}", (unescaped_line(carried), RECORD.fullmatch(carried) is not None), (pair, True))


def many_pieces(folder: str) -> None:
    """700,000 records take little memory, a terminal is told how far the reading is, and keys that stand twice are found
    wherever they stand."""
    path = os.path.join(folder, "many")
    number = 700_000
    with open(path, "w") as file:
        file.writelines(f"k{at * 7919 % 1000003:08}\tv\n" for at in range(number))
    load = subprocess.Popen([AMLOAD, path], stdout=subprocess.PIPE, stderr=subprocess.PIPE)
    lines, runs = 0, 0
    for line in load.stdout or ():
        lines += line.count(b"=")
        runs += line.startswith(b"LOAD ")
    _, status, usage = os.wait4(load.pid, 0)
    load.returncode = os.waitstatus_to_exitcode(status)
    wanted("what was written", (load.returncode, lines, runs), (0, number, 11))
    if usage.ru_maxrss > 90_000:
        fail(f"700,000 records take {usage.ru_maxrss} kB")
    with open(path, "a") as file:
        file.write("k00007919\tw\n\n")
    told = f"amload: line {number + 1}: the key k00007919 stands in line 2 already\n"
    wanted("a key that stands twice, far apart", amload(path), (3, "", told))
    with open(path) as file:
        wanted("the same of a pipe", amload("--skip-empty", text=file.read()), (3, "", told))
    status, out, said = amload("--skip", path)
    wanted("the first one stays", (status, out.count("="), out.count("k00007919=v"), said), (0, number, 1, "amload: 1 line passed over: 1 since its key stands in a line before, whose value stays\n"))
    with open(path, "a") as file:
        file.write("a b\tw\n" * 3)
    wanted("bad lines", amload("--skip-empty", path), (3, "", f'amload: line {number + 3} "a b\\tw": it has a blank; 2 more such lines\n'))


def records(count: int) -> List[Tuple[str, str]]:
    """Records in a scattered order."""
    return [(f"{number * 7919 % 1000003:08}", f"{number:016}") for number in range(1, count + 1)]


def piped(folder: str) -> None:
    """140,000 records in three runs, and queries behind them in the same pipe."""
    rows = records(140_000)
    path = os.path.join(folder, "data.tsv")
    with open(path, "w") as file:
        file.writelines(f"{key}\t{value}\n" for key, value in rows)
    asked = [key for key, _ in rows[::1000]]
    queries = "\n".join(["BEGIN", *(f"GET {key}" for key in asked), "SCAN ! ~ 1000", "COMMIT", "QUIT", ""])
    shell = f"({AMLOAD} {path}; cat) | {AMSERVE} alone"
    run = subprocess.run(shell, shell=True, input=queries, capture_output=True, text=True, timeout=LIMIT, check=True)
    answers = run.stdout.splitlines()
    at = answers.index("COMMITTED 1")
    wanted("the lines of the load", (answers[0], set(answers[1:at])), ("BEGUN 1", {"OK"}))
    found = dict(rows)
    wanted("the records", answers[at + 2 : -3], [f"VAL {found[key]}" for key in asked])
    first = " ".join(f"{key}={value}" for key, value in sorted(rows)[:1000])
    wanted("the first of them", answers[-3], f"ROWS 1000 {first}")


def most_staged() -> None:
    """65,536 records wait, and one more doesn't; the load has them and its own."""
    keys = [f"{number:05}" for number in range(65_536)]
    lines = ["BEGIN", *("STAGE " + " ".join(f"{key}=v" for key in keys[at : at + 500]) for at in range(0, 65_536, 500)), "STAGE x=v", "COMMIT", "LOAD y=w z=w", "SCAN 65535 ~ 9", "COMMIT"]
    answers = alone(lines)
    wanted("what waits", set(answers[1:-5]), {"OK"})
    wanted("what is loaded", answers[-5:], ["ERR LIMIT", "ERR STAGED", "OK", "ROWS 3 65535=v y=w z=w", "COMMITTED 1"])


def most_staged_by_a_server(folder: str) -> None:
    """The same by a server, which stores the whole run in one step."""
    trace = os.path.join(folder, "run")
    server = Server(trace=trace)
    session = Client(server.port)
    keys = [f"{number:05}" for number in range(65_536)]
    lines = ["STAGE " + " ".join(f"{key}=v" for key in keys[at : at + 500]) for at in range(0, 65_536, 500)]
    answers = session.ask_at_once(["BEGIN", *lines, "LOAD y=w", "SCAN 65535 ~ 9", "COMMIT", "QUIT"])
    wanted("what waits", set(answers[1:-4]), {"OK"})
    wanted("what is loaded", answers[-4:], ["OK", "ROWS 2 65535=v y=w", "COMMITTED 1", "BYE"])
    wanted("the commits", server.closed()[1], 1)
    with open(trace, encoding="ascii") as file:
        load = next(line for line in file if line.startswith("LOAD"))
    wanted("the records of the stored load", load.count("="), 65_537)
    wanted("the trace", audit(trace), "LEGAL 1")


def served(folder: str) -> None:
    """Records by a server, beside a session that holds a lock among them, and records that are staged beside one that commits;
    the trace is legal."""
    trace = os.path.join(folder, "run")
    server = Server("--sessions", "5", trace=trace)
    other = Client(server.port)
    loaded(folder, server.port, other)
    staged(Client(server.port), other)
    wanted("the commits", server.closed()[1], 15)
    wanted("the trace", audit(trace), "LEGAL 15")


def loaded(folder: str, number: int, other: Client) -> None:
    """Loads by a server, the first of which meets a lock."""
    port = str(number)
    wanted("another's lock", other.ask_all(["BEGIN", "GET 00500000"]), ["BEGUN 1", "NONE"])
    rows = records(1000)
    path = os.path.join(folder, "data")
    with open(path, "w") as file:
        file.writelines(f"{key}={value}\n" for key, value in rows)
    wanted("a lock in the way", amload("--port", port, "--hold", "0", "--tries", "1", path), (1, "", "amload: answered BUSY 1: nothing was loaded\n"))
    wanted("its end", other.ask("COMMIT"), "COMMITTED 1")
    wanted("a load", amload("--port", port, "--run", "300", path), (0, "", ""))
    wanted("its records again", amload("--port", port, "--run", "300", path)[:1], (1,))
    wanted("what is there", other.ask_all(["BEGIN", f"GET {rows[500][0]}", "COMMIT"]), ["BEGUN 5", f"VAL {rows[500][1]}", "COMMITTED 3"])


def staged(session: Client, other: Client) -> None:
    """One stages 1,000 records, line by line, while the other reads and commits."""
    lines = ["STAGE " + " ".join(f"z{number:03}=v" for number in range(at, at + 100)) for at in range(0, 1000, 100)]
    wanted("a beginning", session.ask("BEGIN"), "BEGUN 6")
    for number, line in enumerate(lines):
        wanted("staged", session.ask(line), "OK")
        wanted("beside it", other.ask_all(["BEGIN", "GET z500", "COMMIT"]), [f"BEGUN {7 + number}", "NONE", f"COMMITTED {4 + number}"])
    wanted("a lock in its span", other.ask_all(["BEGIN", "GET z500"]), ["BEGUN 17", "NONE"])
    wanted("the load", session.ask_at_once(["LOAD z~=w", "LOAD z~=w"]), ["BUSY 17", "OK"])
    wanted("what wasn't loaded", [other.ask("COMMIT"), *session.ask_all(["GET z500", "COMMIT"])], ["COMMITTED 14", "NONE", "COMMITTED 15"])
    other.quit()
    session.quit()


def gone() -> None:
    """A server that goes away in the middle."""
    listener = socket.create_server(("127.0.0.1", 0))

    def leave() -> None:
        session, _ = listener.accept()
        session.recv(100)
        session.sendall(b"OK\nBEGUN 1\n")
        session.close()

    server = threading.Thread(target=leave)
    server.start()
    status, out, said = amload("--port", str(listener.getsockname()[1]), text="a=1\n")
    server.join()
    wanted("a server that goes away", (status, out, said.startswith("amload: port ")), (5, "", True))


def closed_streams() -> None:
    """Standard streams that are closed: a line and a status, and no traceback."""
    for closed, status, said in [("<&-", 4, "standard input"), (">&-", 6, "standard output")]:
        words = ["sh", "-c", f"echo a=1 | {{ {AMLOAD} {closed}; }}"]
        run = subprocess.run(words, capture_output=True, text=True, timeout=LIMIT, check=False)
        wanted(f"amload {closed}", (run.returncode, run.stderr), (status, f"amload: {said}: it is closed\n"))
    run = subprocess.run(["sh", "-c", f"echo a | {{ {AMLOAD} 2>&-; }}"], capture_output=True, text=True, timeout=LIMIT, check=False)
    wanted("amload 2>&-", (run.returncode, run.stdout, run.stderr), (3, "", ""))
    with open("/dev/full", "w") as full:
        run = subprocess.run([AMLOAD, "--help"], stdout=full, stderr=subprocess.PIPE, text=True, timeout=LIMIT, check=False)
    wanted("help that can't be written", (run.returncode, run.stderr), (6, "amload: standard output: No space left on device\n"))


def interrupted(folder: str) -> None:
    """An interrupt in a large load whose reader waits: one line, the signal, and no process left behind."""
    path = os.path.join(folder, "large")
    with open(path, "w") as file:
        file.writelines(f"{number:08}=value\n" for number in range(400_000))
    load = subprocess.Popen([AMLOAD, path], stdout=subprocess.PIPE, stderr=subprocess.PIPE, start_new_session=True)
    wanted("the first line", load.stdout.readline() if load.stdout else None, b"BEGIN\n")
    os.killpg(load.pid, signal.SIGINT)
    # (each of its processes has the pipe, so its end is the end of all)
    _, said = load.communicate(timeout=LIMIT)
    wanted("an interrupt", (load.returncode, said), (-signal.SIGINT, b"amload: interrupted\n"))


def answered(answer: Optional[bytes], *words: str) -> Tuple[int, str, str]:
    """amload with a server that answers its first line so, and nothing more; None: it doesn't answer."""
    listener = socket.create_server(("127.0.0.1", 0))

    def serve() -> None:
        session, _ = listener.accept()
        with session:
            session.recv(100)
            if answer is not None:
                session.sendall(answer)
            while session.recv(100):
                pass

    server = threading.Thread(target=serve, daemon=True)
    server.start()
    said = amload("--port", str(listener.getsockname()[1]), *words, text="a=1\n")
    server.join(LIMIT)
    listener.close()
    return said


def answers_one_by_one(folder: str) -> None:
    """A server at a socket that writes each answer by itself: a socket of the file system takes some 280 of these before somebody
    reads them, so whoever loads hears while it sends."""
    path, data = os.path.join(folder, "one by one"), os.path.join(folder, "most")
    listener = socket.socket(socket.AF_UNIX)
    listener.bind(path)
    listener.listen()
    answers = {b"BEGIN": b"BEGUN 1\n", b"COMMIT": b"COMMITTED 1\n", b"REPLICA": b"ERR SYNTAX\n", b"QUIT": b"BYE\n"}

    def serve() -> None:
        for _ in range(2):
            session, _ = listener.accept()
            with contextlib.suppress(OSError), session, session.makefile("rb") as lines:
                for line in lines:
                    session.sendall(answers.get(line.split()[0], b"OK\n"))

    threading.Thread(target=serve, daemon=True).start()
    rows = {f"{number:032}": f"{number:064}" for number in range(65_536)}
    with open(data, "w", encoding="ascii") as file:
        file.writelines(f"{key}\t{value}\n" for key, value in rows.items())
    wanted("amload", amload("--socket", path, "--wait", "30", data), (0, "", ""))
    with tiuvrokk.connect(path=path, timeout=30) as client:
        wanted("the package's client", client.load(rows), len(rows))
    listener.close()


def by_a_socket(folder: str) -> None:
    """The same by a server."""
    path, data = os.path.join(folder, "door"), os.path.join(folder, "most")
    server = Server("--sessions", "2", "--workers", "0", path=path)
    wanted("amload", amload("--socket", path, "--wait", "60", data), (0, "", ""))
    with tiuvrokk.connect(path=path, timeout=60) as client:
        wanted("the package's client", client.load({f"k{number:031}": f"{number:064}" for number in range(65_536)}), 65_536)
    wanted("the commits", server.closed()[1], 2)


def no_room_for_files() -> None:
    """What waits finds no file."""
    run = subprocess.run(["sh", "-c", 'ulimit -f 0 && exec "$0"', AMLOAD], input="a=1\n", capture_output=True, text=True, timeout=LIMIT, check=False)
    told = run.stderr.startswith("amload: no file for what waits: No usable temporary directory found")
    wanted("no room for files", (run.returncode, run.stdout, told), (4, "", True))


def odd_servers() -> None:
    """Servers that don't answer, or not by the protocol."""
    status, out, said = answered(None, "--wait", "1")
    wanted("no answer in time", (status, out, said.endswith(": no answer in time\n")), (5, "", True))
    told = (1, "", "amload: answered \\xff\\xfe: nothing was loaded\n")
    wanted("an answer that isn't UTF-8", answered(b"\xff\xfe\n", "--wait", "1"), told)


def read_at_the_end() -> None:
    """65,536 records of 32 and 64 bytes, by a client that reads no answer before it has sent its last line, at a port and at a socket
    of the file system: of that the system keeps some 280 small answers."""
    with tempfile.TemporaryDirectory() as folder:
        path = os.path.join(folder, "door")
        server = Server("--sessions", "1", "--socket", path)
        places: List[Union[int, str]] = [server.port, path]
        for number, place in enumerate(places, 1):
            client = Client(place)
            client.socket.settimeout(30)
            fields = [f"{number}{n:031}={'v' * 64}" for n in range(65536)]
            lines = ["BEGIN", *(f"STAGE {' '.join(fields[at:at + 40])}" for at in range(0, len(fields), 40))]
            lines[-1] = lines[-1].replace("STAGE", "LOAD")
            client.socket.sendall("".join(f"{line}\n" for line in [*lines, "COMMIT"]).encode())
            told = [client.reply() for _ in range(len(lines) + 1)]
            wanted("the answers", (told[0], set(told[1:-1]), told[-1]), (f"BEGUN {number}", {"OK"}, f"COMMITTED {number}"))
            client.quit()
        server.end()


def main() -> None:
    """All of it."""
    # (it may be ignored where tests run in the background)
    signal.signal(signal.SIGINT, signal.SIG_DFL)
    subprocess.run([AMSERVE, "--help"], stdout=subprocess.DEVNULL, check=True)
    lines_of_files()
    updates()
    last_ones()
    tables()
    real_text()
    most_staged()
    read_at_the_end()
    closed_streams()
    odd_servers()
    no_room_for_files()
    with tempfile.TemporaryDirectory() as folder:
        refusals(folder)
        many_pieces(folder)
        interrupted(folder)
        piped(folder)
        served(folder)
        answers_one_by_one(folder)
        by_a_socket(folder)
    with tempfile.TemporaryDirectory() as folder:
        most_staged_by_a_server(folder)
    gone()
    print("loads: all as expected")


if __name__ == "__main__":
    main()
