"""A session of the protocol, with a server or with a program of one's own."""

import argparse
import contextlib
import socket
import subprocess
from typing import IO, Optional, Protocol, Sequence

from tiuvrokk._stream import Place, connected
from tiuvrokk._wire import refusal

from .program import Stop, visible


def shown(answer: bytes) -> str:
    """An answer as it can be told, whatever its bytes are."""
    return visible(answer.rstrip(b"\r\n"))


def fault_of(place: str, error: OSError) -> Stop:
    """Why there is no answer."""
    return Stop(5, f"{place}: {'no answer in time' if isinstance(error, socket.timeout) else error.strerror or error}")


# What whoever isn't served is told, before the connection is closed.
UNSERVED = b"ERR SESSIONS"


def unserved_by(place: str) -> Stop:
    """It has no seat for this session."""
    return Stop(5, f"{place}: answered {shown(UNSERVED)}: it serves no further session now")


class Refused(Exception):
    """A line was answered otherwise than it has to be for what is going on."""

    def __init__(self, answer: bytes) -> None:
        super().__init__(f"answered {shown(answer)}")
        self.answer, self.error = answer, refusal(answer)


class Connected(Protocol):
    """What sends bytes, and gives the lines that come."""

    def send(self, data: bytes) -> None: ...

    def line(self) -> bytes: ...


class Session:
    """Lines that are sent, and their answers."""

    def __init__(self, place: str, stream: Connected) -> None:
        self.place = place
        self.stream = stream
        self.process: Optional[subprocess.Popen[bytes]] = None
        self.unheard = 0

    def send(self, lines: bytes) -> None:
        """Sends lines."""
        self.unheard += lines.count(b"\n")
        try:
            self.stream.send(lines)
        except (BrokenPipeError, ConnectionResetError) as error:
            raise self.unserved() or fault_of(self.place, error) from None
        except OSError as error:
            raise fault_of(self.place, error) from None

    def hear(self) -> bytes:
        """The next answer, with its LF."""
        try:
            answer = self.stream.line()
        except ConnectionResetError:
            raise Stop(5, f"{self.place}: it went away") from None
        except OSError as error:
            raise fault_of(self.place, error) from None
        self.unheard -= 1
        return answer + b"\n"

    def unserved(self) -> Optional[Stop]:
        """Why the other side is gone, where that is what it said last."""
        with contextlib.suppress(OSError):
            while True:
                if self.stream.line() == UNSERVED:
                    return unserved_by(self.place)
        return None

    def ask(self, line: bytes) -> bytes:
        """The answer to a line, without its LF."""
        self.send(line + b"\n")
        return self.hear()[:-1]

    def hear_all(self) -> None:
        """Passes over the answers to lines that were sent ahead."""
        while self.unheard:
            self.hear()

    def abort(self) -> None:
        """Ends a transaction that is active, behind the lines that were sent ahead."""
        self.hear_all()
        self.ask(b"ABORT")

    def leave(self) -> None:
        """Ends the session, unless the other side has. Its transaction is over once that is answered, behind the lines that
        were sent ahead."""
        with contextlib.suppress(Stop):
            self.send(b"QUIT\n")
            self.hear_all()
        if self.process and self.process.stdin:
            with contextlib.suppress(OSError):
                self.process.stdin.close()
            self.process.wait()


def names_server(asked: argparse.Namespace) -> bool:
    """Whether the words name one."""
    return asked.port is not None or asked.socket is not None


def with_server(asked: argparse.Namespace) -> Session:
    """A session with the server that the words name, or with the first one of several that can be reached."""
    places = [Place(path=it) for it in asked.socket or ()] or [Place(it) for it in asked.port]
    for place in places:
        try:
            return Session(str(place), connected(place, asked.wait))
        except OSError as error:
            fault = fault_of(str(place), error)
    raise fault from None


class Pipes:
    """The standard input and output of a program."""

    def __init__(self, put: IO[bytes], get: IO[bytes]) -> None:
        self.put, self.get = put, open(get.fileno(), "rb", closefd=False)

    def send(self, data: bytes) -> None:
        rest = memoryview(data)
        while rest:
            rest = rest[self.put.write(rest) :]

    def line(self) -> bytes:
        answer = self.get.readline()
        if not answer.endswith(b"\n"):
            raise ConnectionResetError
        return answer[:-1]


def with_program(command: Sequence[str]) -> Session:
    """A session with a program of one's own. What interrupts this program at a terminal doesn't interrupt that one."""
    place = command[0]
    try:
        # (a checkout builds it first, which an interrupt ends)
        subprocess.run([*command, "--version"], stdout=subprocess.DEVNULL, check=True)
        words = [*command, "alone"]
        process = subprocess.Popen(words, stdin=subprocess.PIPE, stdout=subprocess.PIPE, bufsize=0, start_new_session=True)
    except OSError as error:
        raise Stop(5, f"{place}: {error.strerror}") from None
    except subprocess.CalledProcessError as error:
        raise Stop(5, f"{place}: it ended with status {error.returncode}") from None
    assert process.stdin is not None and process.stdout is not None
    session = Session(place, Pipes(process.stdin, process.stdout))
    session.process = process
    return session
