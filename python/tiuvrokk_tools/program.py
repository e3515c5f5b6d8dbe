"""How a program begins and ends: its command line, its status, and one line on standard error where it doesn't end well."""

import argparse
import contextlib
import os
import re
import signal
import sys
from typing import Callable, List, NoReturn

from . import version

NO_MEMORY = 7
CLOSED = {0: False, 1: False, 2: False}
"""Which of the standard streams were closed when the program began."""


class Stop(Exception):
    """Ends the program with a status, after a line on standard error."""

    def __init__(self, status: int, text: str) -> None:
        super().__init__(text)
        self.status = status


def fill_closed_streams() -> None:
    """Has no file or socket take the place of a standard stream that is closed."""
    for number in CLOSED:
        try:
            os.fstat(number)
        except OSError:
            CLOSED[number] = True
            opened = os.open(os.devnull, os.O_RDWR)
            if opened != number:
                os.dup2(opened, number)
                os.close(opened)


def visible(data: bytes) -> str:
    """Bytes as they can be told: what isn't visible ASCII as its number."""
    return "".join(chr(byte) if 0x20 <= byte < 0x7F else "\\t" if byte == 9 else f"\\x{byte:02x}" for byte in data)


def say(text: str) -> None:
    """A line on standard error, where there is one."""
    if sys.stderr is not None:
        with contextlib.suppress(OSError, ValueError):
            print(text.encode("ascii", "backslashreplace").decode(), file=sys.stderr, flush=True)


def interrupted(name: str, text: str) -> NoReturn:
    """Ends as an interrupt ends a program, so that a shell sees it."""
    signal.signal(signal.SIGINT, signal.SIG_IGN)
    say(f"{name}: {text}")
    signal.signal(signal.SIGINT, signal.SIG_DFL)
    os.kill(os.getpid(), signal.SIGINT)
    os._exit(128 + signal.SIGINT)


def status_of(name: str, main: Callable[[], int]) -> int:
    """The status of the program, once its output is written."""
    try:
        status = main()
        if sys.stdout is not None:
            sys.stdout.flush()
        return status
    except Stop as stop:
        say(f"{name}: {stop}")
        return stop.status
    except SystemExit as end:
        # (argparse has said what is wrong, or what was asked for)
        return end.code if isinstance(end.code, int) else 0
    except MemoryError:
        say(f"{name}: no memory")
        return NO_MEMORY
    except OSError as error:
        say(f"{name}: standard output: {error.strerror}")
        return 6


def run_program(name: str, main: Callable[[], int]) -> NoReturn:
    """Runs a program, and ends the process. What is left in memory needn't be given back piece by piece."""
    fill_closed_streams()
    if signal.getsignal(signal.SIGINT) == signal.SIG_DFL:
        signal.signal(signal.SIGINT, signal.default_int_handler)
    try:
        status = status_of(name, main)
    except KeyboardInterrupt as interrupt:
        interrupted(name, str(interrupt) or "interrupted")
    os._exit(status)


def write_all(data: bytes) -> None:
    """Writes to standard output."""
    if CLOSED[1]:
        raise Stop(6, "standard output: it is closed")
    rest = memoryview(data)
    try:
        while rest:
            rest = rest[os.write(1, rest) :]
    except OSError as error:
        raise Stop(6, f"standard output: {error.strerror}") from None


class ShowVersion(argparse.Action):
    """Shows the version, whatever else is asked for."""

    def __call__(self, parser: argparse.ArgumentParser, *_: object) -> NoReturn:
        write_all(f"{parser.prog} {version()}\n".encode())
        raise SystemExit(0)


class Parser(argparse.ArgumentParser):
    """The words of a command line, told as they are laid out in the program."""

    def __init__(self, name: str, description: str, epilog: str) -> None:
        super().__init__(prog=name, description=description, epilog=epilog, formatter_class=argparse.RawDescriptionHelpFormatter)
        self.add_argument("-V", "--version", action=ShowVersion, nargs=0, help="show the version and exit")

    def print_help(self, file: object = None) -> None:
        write_all(self.format_help().encode())

    def error(self, message: str) -> NoReturn:
        say(f"{self.format_usage()}{self.prog}: {message}")
        raise SystemExit(2)


def numbers(least: int, greatest: int) -> Callable[[str], int]:
    """Whole numbers from the one to the other."""

    def number(word: str) -> int:
        if not re.fullmatch("[0-9]{1,9}", word) or not least <= int(word) <= greatest:
            raise argparse.ArgumentTypeError(f"{word} is no number from {least} to {greatest}")
        return int(word)

    return number


def add_server(parser: Parser, is_needed: bool) -> None:
    """The words that name a server, by its port or its socket."""
    port = "the port of a server at 127.0.0.1; of replicas each: the first that can be reached is asked"
    path = "the socket of a server in the file system, or of replicas each"
    wait = "seconds that an answer is waited for at most (default: 120)"
    place = parser.add_mutually_exclusive_group(required=is_needed)
    place.add_argument("--port", type=numbers(1, 65535), action="append", metavar="P", help=port)
    place.add_argument("--socket", action="append", metavar="PATH", help=path)
    parser.add_argument("--wait", type=numbers(1, 999_999), default=120, metavar="S", help=wait)


def read_file(file: str) -> bytes:
    """All of a file, or of standard input."""
    try:
        if file != "-":
            with open(file, "rb") as opened:
                return opened.read()
        if CLOSED[0]:
            raise Stop(4, "standard input: it is closed")
        pieces: List[bytes] = []
        while piece := os.read(0, 1 << 20):
            pieces.append(piece)
        return b"".join(pieces)
    except OSError as error:
        raise Stop(4, f"{'standard input' if file == '-' else file}: {error.strerror}") from None
