"""The program amreplica: its words, its life and its statuses."""
from __future__ import annotations

import argparse
import asyncio
import gc
import os
import re
import signal
import ssl
import sys
from typing import Any, Callable, Coroutine, Dict, NamedTuple, NoReturn, Optional

from .entries import NoEntry
from .etcd import Access, Etcd, Refused
from .library import NoLibrary, StoreEnded, version
from .log import LeftBehind, Log
from .reader import WentBack
from .replica import Replica
from .sessions import Connection, Session
from .store import Store
from .trace import Trace, TraceFault

# Seconds between two lines of --stats.
MINUTE = 60.0
DESCRIPTION = """A replica of a store, whose transactions an etcd cluster orders. It serves sessions over TCP at 127.0.0.1, by
docs/protocol.md and docs/replicas.md, and writes `LISTEN p` with its port once it has all that the log has."""
EPILOG = """status:
  0  ended by SIGTERM or SIGINT
  2  the words of the command line are wrong
  3  memory was refused to the store: it may differ from those of the other replicas
  4  the port can't be listened at, or a file can't be read or written, or the library isn't there
  5  etcd refuses what the log needs
  6  etcd went back: it no longer has what this replica read of it, as after a restored backup
  7  the log has an entry that this version doesn't read, as those of the version before"""


class Ending(Exception):
    """Why the program ends, and its status."""

    def __init__(self, status: int, text: str) -> None:
        super().__init__(text)
        self.status = status


def number_of(kind: Callable[[str], float], least: float, most: float) -> Callable[[str], float]:
    """Reads a number within bounds."""

    def number(word: str) -> float:
        form = "[0-9]{1,9}" if kind is int else "[0-9]{1,9}([.][0-9]{1,3})?"
        if not re.fullmatch(form, word) or not least <= kind(word) <= most:
            raise argparse.ArgumentTypeError(f"{word} is no number from {least} to {most}")
        return kind(word)

    return number


class Endpoint(NamedTuple):
    """A member's host and port, and how it is spoken to, where that is said."""

    place: str
    scheme: str


def endpoint(word: str) -> Endpoint:
    """A member, as a word names it."""
    found = re.fullmatch(r"(?:(https?)://)?((?:[\w.-]+|\[[0-9A-Fa-f:]+\]):[0-9]{1,5})/?", word)
    if not found:
        raise argparse.ArgumentTypeError(f"{word} is no HOST:PORT")
    return Endpoint(found[2], found[1] or "")


def log_name(word: str) -> str:
    """A name that keys of the cluster can begin with."""
    if not re.fullmatch(r"[\w.-]{1,100}", word):
        raise argparse.ArgumentTypeError(f"{word} is no name of letters, digits, dots, dashes and underscores")
    return word


def parser() -> argparse.ArgumentParser:
    words = argparse.ArgumentParser("amreplica", description=DESCRIPTION, epilog=EPILOG,
                                    formatter_class=argparse.RawDescriptionHelpFormatter)
    words.add_argument("-V", "--version", action="version", version=f"%(prog)s {version()}", help="show the version and exit")
    words.add_argument("--port", type=number_of(int, 0, 65535), default=0, metavar="P",
                       help="of 127.0.0.1; 0, the default, is any free one")
    words.add_argument("--log", type=log_name, default="tiuvrokk", metavar="NAME",
                       help="the store's name in the cluster (default: tiuvrokk)")
    words.add_argument("--reads", choices=("log", "local"), default="log",
                       help="log: who reads is told of the log's end; local: of a state that was it at most --limit seconds ago")
    words.add_argument("--limit", type=number_of(float, 0.1, 3600), default=10.0, metavar="S",
                       help="seconds that etcd is awaited (default: 10)")
    words.add_argument("--snapshot", type=number_of(int, 0, 999_999_999), default=100_000, metavar="BLOCKS",
                       help="that commit between snapshots (default: 100000); 0: this replica writes none")
    words.add_argument("--trace", metavar="FILE", help="the committed blocks as a trace, of a log from its beginning on")
    words.add_argument("--stats", action="store_true", help="say each minute on standard error how it does, and at the end")
    words.add_argument("--cacert", metavar="FILE", help="the certificates that etcd's are signed by, for TLS")
    words.add_argument("--cert", metavar="FILE", help="this client's certificate, for TLS")
    words.add_argument("--key", metavar="FILE", help="the key of that")
    words.add_argument("--user", metavar="NAME[:PASSWORD]",
                       help="etcd's user; a password that isn't there is the first line of standard input")
    words.add_argument("--password-file", metavar="FILE", help="the password is this file's first line; its owner alone may read it")
    words.add_argument("endpoints", nargs="+", type=endpoint, metavar="ENDPOINT",
                       help="host:port of etcd's members, spoken to by TLS where they begin with https://")
    return words


def words_of() -> argparse.Namespace:
    """The command line, whose words agree."""
    given = parser()
    asked = given.parse_args()
    schemes = {it.scheme for it in asked.endpoints}
    asked.is_by_tls = "https" in schemes or bool(asked.cacert or asked.cert)
    if asked.is_by_tls and "http" in schemes:
        given.error("an endpoint of http:// beside TLS: what is sent there could be read by others")
    if asked.key and not asked.cert:
        given.error("--key is that of --cert")
    if asked.password_file and (not asked.user or ":" in asked.user):
        given.error("--password-file is for a --user without a password")
    return asked


def password_of(file: str) -> str:
    """The first line of a file that its owner alone may read."""
    try:
        with open(file, encoding="utf-8") as opened:
            if os.fstat(opened.fileno()).st_mode & 0o077:
                raise Ending(4, f"{file}: others than its owner may read it: chmod 600 {file}")
            return opened.readline().rstrip("\n")
    except (OSError, ValueError) as fault:
        raise Ending(4, f"{file}: {getattr(fault, 'strerror', None) or fault}") from fault


def access_of(asked: argparse.Namespace) -> Access:
    """How etcd is spoken to."""
    context: Optional[ssl.SSLContext] = None
    try:
        if asked.is_by_tls:
            context = ssl.create_default_context(cafile=asked.cacert)
        if context and asked.cert:
            context.load_cert_chain(asked.cert, asked.key)
    except OSError as fault:
        raise Ending(4, f"certificates: {fault}") from fault
    user, colon, password = (asked.user or "").partition(":")
    if asked.password_file:
        password = password_of(asked.password_file)
    elif user and not colon:
        password = sys.stdin.readline().rstrip("\n")
    return Access(context, user, password)


class Program:
    """One life of a replica."""

    def __init__(self, asked: argparse.Namespace, access: Access, store: Store) -> None:
        self.asked, self.sessions, self.open = asked, 0, 0
        self.served: Dict[int, Session] = {}  # by their numbers
        self.end: "asyncio.Future[None]" = asyncio.get_running_loop().create_future()
        self.replica = Replica(Log(Etcd([it.place for it in asked.endpoints], access), asked.log), store, asked.snapshot, self.trace())

    def trace(self) -> Optional[Trace]:
        try:
            return Trace(open(self.asked.trace, "a", encoding="ascii")) if self.asked.trace else None
        except OSError as fault:
            raise Ending(4, f"{self.asked.trace}: {fault.strerror}") from fault

    def fail(self, fault: BaseException) -> None:
        """The first reason to end counts."""
        if not self.end.done():
            self.end.set_exception(fault)

    async def serve(self, connection: Connection, reader: asyncio.StreamReader, writer: asyncio.StreamWriter) -> None:
        self.sessions += 1
        self.open += 1
        session = Session(self.replica, self.served, self.sessions, self.asked.reads == "local", self.asked.limit, writer)
        self.served[session.number] = session
        connection.session = session
        try:
            await session.serve(reader)
        except OSError:
            pass  # the client's end
        except Exception as fault:
            self.fail(fault)
        finally:
            self.open -= 1
            self.served.pop(session.number, None)
            session.transaction = None
            writer.close()

    def tell_stats(self) -> None:
        """How it does, if that was asked for."""
        if self.asked.stats:
            figures: Dict[str, object] = {"sessions": self.sessions, "open": self.open, **self.replica.figures()}
            text = " ".join(f"{name}={figure}" for name, figure in figures.items())
            print(f"STAT {text}", file=sys.stderr, flush=True)

    async def watch(self) -> None:
        while True:
            await asyncio.sleep(MINUTE)
            self.tell_stats()

    async def run(self) -> None:
        """Until the store, the log or a signal ends it."""
        loop = asyncio.get_running_loop()
        for ending in (signal.SIGTERM, signal.SIGINT):
            loop.add_signal_handler(ending, lambda: self.fail(Ending(0, "")))
        self.must_last(self.begin())
        self.must_last(self.watch())
        try:
            await self.end
        finally:
            self.tell_stats()

    def must_last(self, work: Coroutine[Any, Any, None]) -> None:
        """Work whose end is the program's."""
        task = asyncio.ensure_future(work)
        task.add_done_callback(lambda done: None if done.cancelled() else self.fail(done.exception() or Ending(3, "it ended")))

    async def begin(self) -> None:
        self.replica.failure.add_done_callback(lambda done: self.fail(done.exception() or Ending(3, "it ended")))
        life = await self.replica.start()
        try:
            loop = asyncio.get_running_loop()
            server = await loop.create_server(lambda: Connection(self.serve), "127.0.0.1", self.asked.port, backlog=256)
        except OSError as fault:
            raise Ending(4, f"port {self.asked.port}: {os.strerror(fault.errno or 0)}") from fault
        print(f"LISTEN {server.sockets[0].getsockname()[1]}", flush=True)
        if self.asked.reads == "local":
            self.must_last(self.replica.ends.stay(self.asked.limit))
        await life


def leave(status: int, text: str) -> NoReturn:
    """Ends at once: clients are cut off."""
    if text:
        print(f"amreplica: {text}", file=sys.stderr, flush=True)
    os._exit(status)


def give_again(password: str) -> None:
    """What was read of standard input can be read there once more."""
    reader, writer = os.pipe()
    os.write(writer, f"{password}\n".encode())
    os.close(writer)
    os.dup2(reader, sys.stdin.fileno())


async def live(asked: argparse.Namespace, store: Store) -> None:
    try:
        access = access_of(asked)
        await Program(asked, access, store).run()
    except Ending as ending:
        leave(ending.status, str(ending))
    except (StoreEnded, MemoryError) as fault:
        leave(3, f"the store: {str(fault) or 'memory was refused'}")
    except TraceFault as fault:
        leave(4, f"{asked.trace}: {fault}")
    except Refused as fault:
        leave(5, f"etcd: {fault}")
    except WentBack as fault:
        leave(6, f"etcd went back: {fault}")
    except NoEntry as fault:
        leave(7, f"the log: {fault}")
    except LeftBehind as fault:
        # Only a newer snapshot has what the log did meanwhile.
        print(f"amreplica: left behind: {fault}: beginning anew", file=sys.stderr, flush=True)
        if not asked.password_file:
            give_again(access.password)
        os.execv(sys.executable, [sys.executable] + sys.argv)
    except OSError as fault:
        leave(4, str(fault))


def main() -> None:
    # (blocks are many, and go with no help: cycles are few)
    gc.set_threshold(100_000)
    asked = words_of()
    try:
        # (it may have to be built first, which takes minutes)
        store = Store()
    except StoreEnded as fault:
        leave(3, f"the store: {fault}")
    except (NoLibrary, OSError) as fault:
        leave(4, str(fault))
    asyncio.run(live(asked, store))
