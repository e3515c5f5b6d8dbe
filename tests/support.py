"""Things that tests of the programs share: the programs, sessions with a server, and lines that look drawn."""

import atexit
import contextlib
import os
import random
import re
import signal
import socket
import subprocess
import sys
import threading
import time
from collections import deque
from typing import Any, Callable, Deque, Iterable, List, NoReturn, Optional, Sequence, Tuple, Union

TOP = os.path.dirname(os.path.dirname(os.path.abspath(__file__)))
AMSERVE = os.path.join(TOP, "amserve")
AMAUDIT = os.path.join(TOP, "amaudit")
AMLOAD = os.path.join(TOP, "amload")
# How many seconds a program may take.
LIMIT = 120


def fail(text: str) -> NoReturn:
    """Ends the test, which is told by the name of its file. On a thread it ends that thread, and the test has failed all the same."""
    print(f"{os.path.basename(sys.argv[0])}: {text}")
    sys.exit(1)


class FailedThreads:
    """Whether a thread of the test ended by `fail`, which Python passes over: then the test's status is 1."""

    def __init__(self) -> None:
        self.any = False
        self.hook = threading.excepthook
        threading.excepthook = self.ended
        # (registered first, so it comes last)
        atexit.register(self.end)

    def ended(self, why: threading.ExceptHookArgs) -> None:
        """A thread ended by an exception."""
        self.any = self.any or why.exc_type is SystemExit
        self.hook(why)

    def end(self) -> None:
        """The test ends."""
        if self.any:
            sys.stdout.flush()
            sys.stderr.flush()
            os._exit(1)


FAILED_THREADS = FailedThreads()


def wanted(what: str, found: Any, right: Any) -> None:
    """Fails unless what was found is right."""
    if found != right:
        fail(f"{what}: {str(found)[:300]!r} and not {str(right)[:300]!r}")


def until(what: str, is_so: Callable[[], bool], pause: float = 0.01) -> None:
    """Waits for a state, and fails where it doesn't come."""
    begun = time.monotonic()
    while not is_so():
        if time.monotonic() > begun + LIMIT:
            fail(f"{what} isn't so after {LIMIT} seconds")
        time.sleep(pause)


class Interrupted(BaseException):
    """What an interrupt raises here."""


def interrupted(seconds: float, call: Callable[[], Any]) -> None:
    """Does a call again and again, until an interrupt ends that so many seconds later; a second one comes a hundredth of a second
    behind it. One that comes within a `__del__` is passed over, and told to nobody. No third one comes, however slow the machine
    is: it would meet what stands behind this."""
    left = 2

    def interrupt(_number: int, _frame: object) -> None:
        nonlocal left
        left -= 1
        if left:
            signal.setitimer(signal.ITIMER_REAL, 0.01)
        raise Interrupted

    hook, sys.unraisablehook = sys.unraisablehook, lambda told: None if told.exc_type is Interrupted else hook(told)
    before = signal.signal(signal.SIGALRM, interrupt)
    end = time.monotonic() + seconds + 0.1
    try:
        try:
            signal.setitimer(signal.ITIMER_REAL, seconds)
            while time.monotonic() < end:
                call()
        finally:
            signal.setitimer(signal.ITIMER_REAL, 0)
    except Interrupted:
        pass
    signal.signal(signal.SIGALRM, before)
    sys.unraisablehook = hook


def built(crate: str) -> str:
    """Where a program lies, which is built first where it has to be."""
    return subprocess.run([f"{TOP}/tools/built.py", crate], capture_output=True, text=True, check=True).stdout.strip()


def alone(lines: Sequence[str], *words: str) -> List[str]:
    """The answers of `amserve alone` to these lines."""
    text = "".join(f"{line}\n" for line in lines)
    return subprocess.run([AMSERVE, "alone", *words], input=text, capture_output=True, text=True, timeout=LIMIT, check=True).stdout.splitlines()


def audit(trace: str) -> str:
    """What the auditor says of a trace, which has to go with its status."""
    run = subprocess.run([AMAUDIT, trace], capture_output=True, text=True, timeout=LIMIT, check=False)
    said = run.stdout.strip()
    wanted(f"the status of {said}", run.returncode == 0, said.startswith("LEGAL "))
    return said


class Server:
    """`amserve listen` at a free port, or at a socket of the file system alone, where its path is given."""

    def __init__(self, *words: str, trace: Optional[str] = None, program: Sequence[str] = (AMSERVE,), path: str = "", **how: Any) -> None:
        place = ["--socket", path] if path else ["--port", "0"]
        given = [*program, "listen", *place, *words] + (["--trace", trace] if trace else [])
        how = {"stdin": subprocess.PIPE, "stdout": subprocess.PIPE, "stderr": subprocess.PIPE, "text": True, **how}
        self.process: "subprocess.Popen[str]" = subprocess.Popen(given, **how)
        line = self.process.stdout.readline() if self.process.stdout else ""
        if not re.fullmatch(f"LISTEN {re.escape(path) or '[0-9]+'}\n", line):
            fail(f"first line: {line!r}, {self.process.stderr.read() if self.process.stderr else ''}")
        self.port = 0 if path else int(line.split()[1])

    def tell(self, text: str) -> None:
        """Writes to its standard input."""
        if self.process.stdin:
            self.process.stdin.write(text)
            self.process.stdin.flush()

    def close_input(self) -> None:
        """Ends its standard input."""
        if self.process.stdin:
            self.process.stdin.close()
            self.process.stdin = None

    def end(self, status: int = 0) -> Tuple[str, str]:
        """Waits for the end: the rest of its output, and what it said on standard error."""
        out, said = self.process.communicate(timeout=LIMIT)
        if self.process.returncode != status:
            fail(f"status {self.process.returncode} and not {status}: {said}")
        return out, said

    def closed(self) -> Tuple[int, int]:
        """Waits for the end: the stored entries and the commits that it tells."""
        out, said = self.end()
        words = out.split()
        if len(words) != 3 or words[0] != "CLOSED" or said:
            fail(f"last line: {out!r}, {said!r}")
        return int(words[1]), int(words[2])


class Client:
    """A session at a port or at a socket of the file system, line by line. It keeps its lines and their answers."""

    def __init__(self, place: Union[int, str]) -> None:
        if isinstance(place, str):
            self.socket = socket.socket(socket.AF_UNIX)
            self.socket.settimeout(LIMIT)
            self.socket.connect(place)
        else:
            self.socket = socket.create_connection(("127.0.0.1", place), timeout=LIMIT)
            self.socket.setsockopt(socket.IPPROTO_TCP, socket.TCP_NODELAY, 1)
        self.lines: List[str] = []
        self.replies: List[str] = []
        # (answers that came and weren't asked for yet, and the beginning of the next one)
        self.came: Deque[bytes] = deque()
        self.rest = b""

    def reply(self) -> str:
        """The next answer."""
        while not self.came:
            more = self.socket.recv(1 << 20)
            if not more:
                fail("the server closed a session")
            *lines, self.rest = (self.rest + more).split(b"\n")
            self.came += lines
        self.replies.append(self.came.popleft().decode())
        return self.replies[-1]

    def ask(self, line: str) -> str:
        """The answer to a line."""
        self.lines.append(line)
        self.socket.sendall(f"{line}\n".encode())
        return self.reply()

    def ask_all(self, lines: Iterable[str]) -> List[str]:
        """The answers to lines, each of which waits for the answer before it."""
        return [self.ask(line) for line in lines]

    def ask_at_once(self, lines: Sequence[str]) -> List[str]:
        """The answers to lines that are sent together, and read meanwhile."""
        self.lines += lines
        sender = threading.Thread(target=self.socket.sendall, args=("".join(f"{line}\n" for line in lines).encode(),))
        sender.start()
        replies = [self.reply() for _ in lines]
        sender.join()
        return replies

    def quit(self) -> None:
        """Ends the session, behind which the server closes the connection."""
        wanted("the answer to QUIT", self.ask("QUIT"), "BYE")
        wanted("what stands behind BYE", self.socket.recv(1), b"")
        self.socket.close()


KINDS = {
    "GET": 20, "SCAN": 4, "RSCAN": 2, "INS": 16, "REP": 8, "SET": 4, "DEL": 9, "DELR": 1, "LOAD": 4, "COMMIT": 14, "ABORT": 3, "MARK": 3,
    "BACK": 3, "CLEAN": 1, "MERGE": 2, "SEEN": 2, "odd": 1,
}


def random_line(dice: random.Random, begun: bool) -> str:
    """A line that looks drawn: BEGIN mostly, where no transaction is active."""
    key = "".join(dice.choices("abc", k=dice.randint(1, 3)))
    if not begun:
        return dice.choice(["BEGIN"] * 12 + ["MERGE 7", "CLEAN a c 9", "SEEN"])
    kind = dice.choices(list(KINDS), list(KINDS.values()))[0]
    if kind in ("GET", "DEL"):
        return f"{kind} {key}"
    if kind in ("INS", "REP", "SET"):
        return f"{kind} {key} {dice.randint(0, 999)}"
    if kind in ("SCAN", "RSCAN"):
        return f"{kind} a {key} {dice.randint(1, 20)}"
    if kind == "DELR":
        return f"DELR {key} {key}b {dice.randint(1, 3)}"
    if kind == "LOAD":
        keys = sorted({"".join(dice.choices("abcdef", k=dice.randint(1, 4))) for _ in range(dice.randint(1, 5))})
        return "LOAD " + " ".join(f"{k}={dice.randint(0, 9)}" for k in keys)
    if kind == "MERGE":
        return f"MERGE {dice.randint(1, 64)}"
    if kind == "CLEAN":
        return "CLEAN a cc 5"
    return "GET" if kind == "odd" else kind


def program(server: Server) -> int:
    """The process of the program, which a launcher holds."""
    pid = server.process.pid
    while os.path.basename(os.readlink(f"/proc/{pid}/exe")) not in ("amserve", "am_program_listen"):
        with open(f"/proc/{pid}/task/{pid}/children", encoding="ascii") as file:
            pid = int(file.read().split()[0])
    return pid


def tcp_sockets(server: Server) -> int:
    """How many sockets of TCP the program has."""
    pid = program(server)
    held = {os.readlink(f"/proc/{pid}/fd/{number}") for number in os.listdir(f"/proc/{pid}/fd")}
    count = 0
    for name in ("tcp", "tcp6"):
        with contextlib.suppress(FileNotFoundError), open(f"/proc/{pid}/net/{name}", encoding="ascii") as file:
            count += sum(f"socket:[{line.split()[9]}]" in held for line in file.readlines()[1:])
    return count
