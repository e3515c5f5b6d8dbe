"""The Python package's client, at a server and at what answers oddly; tests/replicas.py has it at replicas."""

import asyncio
import contextlib
import os
import random
import socket
import threading
import warnings
from typing import Any, Callable, Dict, Iterator, List

from client_cases import all_cases, counters, emptied, raised
from support import LIMIT, Server, fail, interrupted, wanted

import tiuvrokk
import tiuvrokk.aio


@contextlib.contextmanager
def at_new_server() -> Iterator[Any]:
    """A client of a server that has no records yet: to delete them line by line takes long on a busy machine."""
    server = Server("--stay", "--stop", "--sessions", "2")
    with tiuvrokk.connect(port=server.port) as client:
        yield client
    server.tell("STOP\n")
    server.closed()


def served(folder: str) -> None:
    """The same as over an embedded store, by a port and by a path."""
    path = os.path.join(folder, "socket")
    server = Server("--stay", "--stop", "--sessions", "8", "--socket", path, trace=os.path.join(folder, "trace"))

    def connected() -> Any:
        return tiuvrokk.connect(port=server.port)

    all_cases(at_new_server)
    with tiuvrokk.connect(path=path) as one, tiuvrokk.connect(port=server.port) as other:
        wanted("what they are", (one.is_replica, other.is_replica), (False, False))
        at_once(one, other)
        with emptied(connected) as empty:
            texts(empty)
        many_loads(one)
    counters([connected] * 4, 50)
    with connected() as client, client.transaction() as tx:
        wanted("what all added", tx["count"], b"200")
    interrupts(server)
    asyncio.run(by_asyncio(server.port))
    asyncio.run(without_block(server.port))
    dropped(server)
    lost(server)
    wrong_uses(server)
    forked(server)
    escaped(server)
    server.tell("STOP\n")
    server.closed()


def at_once(one: Any, other: Any) -> None:
    """Two sessions: a lock in the way is Busy, at a write as at a read, and what `run` was kept from isn't written."""
    with one.transaction() as tx:
        tx["held"] = "1"
        number = tx.number
        with other.transaction() as late:
            for call in (lambda: late.get("held"), lambda: late.update(held="2"), lambda: late.insert("held", "2"), lambda: late.load({"held": "2"}), lambda: late.lock("held"), lambda: list(late)):
                wanted("who is in the way", raised(tiuvrokk.Busy, call).holder, number)
        wanted("tries", raised(tiuvrokk.Busy, lambda: other.run(lambda it: it.update(held="2"), tries=3)).holder, number)
    wanted("what is there", other.run(lambda it: it["held"]), b"1")
    ended = threading.Timer(0.2, lambda: tx.commit())
    one._thread = 0  # (its transaction ends on the timer's thread)
    tx = one.transaction()
    tx["held"] = "3"
    ended.start()
    wanted("run", other.run(lambda it: it.pop("held"), tries=1000), b"3")
    ended.join()


def texts(client: Any) -> None:
    """What lines can't carry is refused before it is sent."""
    with client.transaction() as tx:
        for key in ("", "a b", "a=b", "é", "a\n"):
            wanted("a key", raised(tiuvrokk.Bad, lambda: tx.get(key), key).name, "TVK_BAD_KEY")
            raised(tiuvrokk.Bad, lambda: tx.load({"a": "1", key: "1"}), key)
        for value in ("", "a b", "é", "a\n"):
            wanted("a value", raised(tiuvrokk.Bad, lambda: tx.insert("a", value), value).name, "TVK_BAD_VALUE")
            raised(tiuvrokk.Bad, lambda: tx.load({"a": value}), value)
        wanted("what is there", dict(tx), {})
    with client.transaction() as tx:
        for number in range(256):
            tx.get(f"k{number}")
        if "tx.lock(" not in str(raised(tiuvrokk.TooMany, lambda: tx.get("another"))):
            fail("the limit of locks doesn't say the way out")


def many_loads(client: Any) -> None:
    """A load in a transaction of its own, all or none, which holds where the server can be held."""
    wanted("a load", client.load({f"l{number:04}": "1" for number in range(3000)}, run=1000), 3000)
    raised(tiuvrokk.Exists, lambda: client.load([("a", "1"), ("b", "1"), ("l0001", "1")], run=1))
    wanted("runs beyond locks", client.load(((f"m{number}", "1") for number in range(300)), run=1, hold=0), 300)
    wanted("records", client.run(lambda tx: ("a" in tx, tx.count("l", "l~"), tx.count("m", "m~"))), (False, 3000, 300))
    wanted("a merge and a clean step", ((client.merge() or 0) >= 0, client.clean() >= 0), (True, True))


def interrupts(server: Server) -> None:
    """300 interrupts at random moments: the client goes on by itself, and no transaction stays."""

    def committed() -> None:
        # (a server may take a while to see that a connection ended)
        with contextlib.suppress(tiuvrokk.Busy), client.transaction() as tx:
            tx["a"] = "1"
            tx.get("b")

    dice = random.Random(7)
    with warnings.catch_warnings(), tiuvrokk.connect(port=server.port) as client:
        warnings.simplefilter("ignore")
        for _ in range(300):
            interrupted(dice.uniform(1e-5, 2e-3), committed)
        client.run(lambda tx: tx.lock(b"", b"\xff" * 32, exclusive=True), tries=1000)


async def by_asyncio(port: int) -> None:
    """The client of asyncio: its calls, tasks that share a client and tasks of two, and tasks that are cancelled."""
    async with tiuvrokk.aio.connect(port=port) as one, tiuvrokk.aio.connect(port=port) as other:
        await awaited_calls(one, other)
        await awaited_tasks(one, other)
        await cancelled(one, other)
    with contextlib.suppress(tiuvrokk.Closed):
        await one.run(lambda tx: tx.get("a"))
        fail("a client goes on after its end")


async def without_block(port: int) -> None:
    """A client that is awaited, and ended by a call; blocks that would wait for themselves say so."""
    client = await tiuvrokk.aio.connect(port=port)
    async with client.transaction() as tx:
        await tx.update(way1="1", way2="2")
        wanted("its number", await tx.number() > 0, True)
        with contextlib.suppress(ZeroDivisionError):
            async with tx.savepoint():
                await tx.put("way3", str(1 // 0))
        async with tx.savepoint():
            await tx.put("way4", "4")
        wanted("its keys", [key async for key in tx.keys("way", "way~")], [b"way1", b"way2", b"way4"])
        wanted("its values", [value async for value in tx.values("way", "way~")], [b"1", b"2", b"4"])
        wanted("its items", [row async for row in tx.items("way4", "way~")], [(b"way4", b"4")])
        for nested in (client.run(add_one), asyncio.gather(client.run(add_one)), asyncio.ensure_future(client.run(add_one))):
            try:
                await asyncio.wait_for(nested, 5)
                fail("a transaction within another one of its client")
            except RuntimeError as error:
                wanted("what is wrong", "is open around this one" in str(error), True)
    await asyncio.gather(client.run(add_one), client.run(add_one))
    await client.close()
    await client.close()
    with contextlib.suppress(tiuvrokk.Closed):
        await client.run(add_one)
        fail("a client goes on after its end")


async def awaited_calls(one: tiuvrokk.aio.Client, other: tiuvrokk.aio.Client) -> None:
    """Each call, and what is raised."""
    wanted("a load", await one.ask(lambda it: it.load({f"async{n}": "1" for n in range(300)})), 300)
    async with one.transaction() as tx:
        await tx.put("async", "6")
        wanted("what was set", (await tx.get("async"), await tx.get("asynchronous"), await tx.pop("async0"), await tx.pop("async0")), (b"6", None, b"1", None))
        await tx.delete("async1")
        await tx.update({"async2": "2"}, async3="3")
        wanted("a count", await tx.count("async", "async~"), 299)
        wanted("the first rows", [row async for row in tx.scan("async", "async~", page=7)][:2], [(b"async", b"6"), (b"async10", b"1")])
        async with other.transaction() as late:
            with contextlib.suppress(tiuvrokk.Busy):
                await late.get("async")
                fail("a lock is in nobody's way")
        with contextlib.suppress(RuntimeError):
            await one.ask(lambda it: it.merge())
            fail("a client waits for its own transaction")
    wanted("what an exception left", await taken_back(one, other), b"6")


async def taken_back(one: tiuvrokk.aio.Client, other: tiuvrokk.aio.Client) -> Any:
    """What is read after an exception."""
    with contextlib.suppress(ZeroDivisionError):
        async with one.transaction() as tx:
            await tx.put("async", str(1 // 1))
            await tx.put("async", str(1 // 0))
    return await other.run(lambda tx: tx.get("async"))


async def add_one(tx: tiuvrokk.aio.Transaction) -> None:
    await tx.put("async", str(int(await tx.get("async") or b"0") + 1))


async def awaited_tasks(one: tiuvrokk.aio.Client, other: tiuvrokk.aio.Client) -> None:
    """Tasks that share a client take turns, and those of two go again; others run while an answer is awaited."""

    async def add_many(client: tiuvrokk.aio.Client) -> None:
        for _ in range(25):
            await client.run(add_one, tries=1000)

    await asyncio.gather(*[add_many(it) for it in (one, one, other, other)])
    wanted("what all added", await one.run(lambda tx: tx.get("async")), b"106")
    await one.ask(lambda it: it.hold(400))
    waits = asyncio.ensure_future(other.run(lambda tx: tx.get("async")))
    turns = 0
    while not waits.done() and turns < 1000:
        turns += 1
        await asyncio.sleep(0.01)
    if turns < 5:
        fail("no other task runs while an answer is awaited")
    wanted("what was waited for", await waits, b"106")


async def cancelled(one: tiuvrokk.aio.Client, other: tiuvrokk.aio.Client) -> None:
    """A task that is cancelled leaves no transaction, at whichever moment it is."""
    dice = random.Random(9)
    for _ in range(200):
        with contextlib.suppress(asyncio.TimeoutError):
            await asyncio.wait_for(one.run(add_one), dice.uniform(1e-5, 2e-3))
    held = asyncio.Event()

    async def hold_on() -> None:
        async with one.transaction() as tx:
            await tx.put("async", "0")
            held.set()
            await asyncio.sleep(LIMIT)

    task = asyncio.ensure_future(hold_on())
    await held.wait()
    task.cancel()
    with contextlib.suppress(asyncio.CancelledError):
        await task
    await other.run(lambda tx: tx.lock(b"", b"\xff" * 32, exclusive=True), tries=1000)
    wanted("what a cancelled task wrote", await other.run(lambda tx: tx.get("async")) != b"0", True)


def dropped(server: Server) -> None:
    """A transaction that is dropped is aborted before its client's next line, and one that stands goes on where another is begun."""
    with tiuvrokk.connect(port=server.port) as client, warnings.catch_warnings(record=True) as told:
        warnings.simplefilter("always")
        client.transaction().update(dropped="1")
        wanted("a warning", [it.category for it in told if "dropped" in str(it.message)], [ResourceWarning])
        wanted("what it wrote", client.run(lambda tx: "dropped" in tx), False)

        with client.transaction() as tx:
            tx["dropped"] = "2"
            raised(RuntimeError, client.transaction)
            raised(RuntimeError, lambda: client["dropped"])
        wanted("what goes on", client["dropped"], b"2")
        del client["dropped"]


def lost(server: Server) -> None:
    """A connection that ends: the transaction raises, and the next one begins at another connection."""
    with tiuvrokk.connect(port=server.port) as client:

        def cut(tx: Any) -> None:
            tx["lost"] = "1"
            client._wire._stream._socket.shutdown(socket.SHUT_RDWR)
            with contextlib.suppress(OSError):
                tx.get("a")

        raised(tiuvrokk.NoTransaction, lambda: client.run(cut))
        client.run(lambda tx: tx.lock("lost", exclusive=True), tries=1000)
        wanted("what a lost transaction wrote", client.run(lambda tx: "lost" in tx), False)

        def cut_at_the_end(tx: Any) -> None:
            tx.get("a")
            client._wire._stream._socket.shutdown(socket.SHUT_WR)

        raised(tiuvrokk.Unknown, lambda: client.run(cut_at_the_end))
        tries: List[int] = []

        def cut_once(tx: Any) -> None:
            tries.append(tx.number)
            if len(tries) == 1:
                client._wire._stream._socket.shutdown(socket.SHUT_RDWR)
            tx["lost"] = str(len(tries))

        client.run(cut_once)
        wanted("a connection that is lost before COMMIT", (len(tries), client["lost"]), (2, b"2"))
        with client.transaction() as tx:
            client._wire._stream._socket.shutdown(socket.SHUT_RDWR)
            wanted("what is lost", isinstance(raised(tiuvrokk.Disconnected, lambda: tx.get("a")), ConnectionError), True)
            raised(tiuvrokk.NoTransaction, tx.commit)
            tx._is_over = True  # (so the block's end is none)


def forked(server: Server) -> None:
    """A fork has none of its parent's clients: each call raises at once, and the parent goes on in its transaction."""
    with tiuvrokk.connect(port=server.port) as client, client.transaction() as tx:
        tx["forked"] = "1"
        child = os.fork()
        if not child:
            refused = [raised(tiuvrokk.Forked, call) for call in (client.transaction, lambda: tx.get("forked"), lambda: client.load({"a": "1"}))]
            os._exit(len(refused))
        wanted("what a fork is refused", os.waitstatus_to_exitcode(os.waitpid(child, 0)[1]), 3)
        wanted("what its parent reads", tx["forked"], b"1")
    with tiuvrokk.connect(port=server.port) as client:
        wanted("what its parent wrote", client["forked"], b"1")


ESCAPED = {"a key": "a value with blanks", "none": "", "": "of no key", "\u00fc=%": "\u00fc", "tab\tkey": "100 %", "%41": "%41"}


def escaped(server: Server) -> None:
    """Any bytes come back as they went, also none, by each call; what amdump --escape writes of them is what they were."""
    with tiuvrokk.connect(port=server.port, escape=True) as client, tiuvrokk.connect(port=server.port) as plain:
        plain.run(lambda tx: tx.delete_range())
        with client.transaction() as tx:
            wanted("a load", tx.load(ESCAPED), len(ESCAPED))
            wanted("which of them is there", raised(tiuvrokk.Exists, lambda: tx.load({"b": "1", "a key": "2"})).key, b"a key")
            wanted("which is none", raised(tiuvrokk.Absent, lambda: tx.replace("b c", "1")).key, b"b c")
        encoded = {key.encode(): value.encode() for key, value in ESCAPED.items()}
        with client.transaction() as tx:
            wanted("all of them", (dict(tx), dict(tx.items()), [tx[key] for key in ESCAPED]), (encoded, encoded, list(encoded.values())))
            wanted("a slice", tx["a":"b"], [(b"a key", encoded[b"a key"])])  # type: ignore[misc]
            tx.update({f"more {number}": "" for number in range(70)})
            wanted("what was put", (tx.count("more 0", "more 9"), tx["more 69"]), (70, b""))
            wanted("what goes", (tx.delete_range("more 0", "more 9"), tx.pop("none"), "none" in tx), (70, b"", False))
            wanted("too long with its escapes", raised(tiuvrokk.Bad, lambda: tx.get("\u00fc" * 6)).name, "TVK_BAD_KEY")
        wanted("how lines have it", plain["a%20key"], b"a%20value%20with%20blanks")
        wanted("a load of its own", client.load({"one more": "", "and more": " "}), 2)
        plain.run(lambda tx: tx.delete_range())


def wrong_uses(server: Server) -> None:
    """Neither a port nor a path, another thread, a closed client, no server."""
    raised(TypeError, tiuvrokk.connect)
    raised(TypeError, lambda: tiuvrokk.connect(port=server.port, path="x"))
    raised(OSError, lambda: tiuvrokk.connect(path="/nowhere"))
    client = tiuvrokk.connect(port=server.port)
    found: List[Any] = []
    thread = threading.Thread(target=lambda: found.append(raised(tiuvrokk.WrongThread, client.transaction)))
    thread.start()
    thread.join()
    wanted("another thread", len(found), 1)

    def close_within() -> None:
        with client.transaction() as tx:
            tx["a"] = "2"
            client.close()

    raised(tiuvrokk.Closed, close_within)
    client.close()
    raised(tiuvrokk.Closed, client.transaction)
    raised(tiuvrokk.Closed, lambda: client.commits)


class Odd:
    """A server that answers BEGIN, and each other line in one odd way."""

    def __init__(self, answers: Dict[bytes, bytes]) -> None:
        self.answers = answers
        self.listener = socket.create_server(("127.0.0.1", 0))
        self.port: int = self.listener.getsockname()[1]
        self.lines: List[bytes] = []
        threading.Thread(target=self.accept, daemon=True).start()

    def accept(self) -> None:
        with contextlib.suppress(OSError):
            while True:
                session, _ = self.listener.accept()
                threading.Thread(target=self.serve, args=(session,), daemon=True).start()

    def serve(self, session: socket.socket) -> None:
        with session, contextlib.suppress(OSError), session.makefile("rb") as lines:
            for line in lines:
                self.lines.append(line[:-1])
                session.sendall(self.answers.get(line.split()[0], b"OK") + b"\n")


STILL = {b"REPLICA": b"ERR SYNTAX", b"BEGIN": b"BEGUN 1", b"ABORT": b"ABORTED", b"COMMIT": b"COMMITTED 1"}
CALLS: Dict[bytes, Callable[[Any], Any]] = {
    b"GET": lambda tx: tx.get("a"), b"SCAN": lambda tx: list(tx), b"INS": lambda tx: tx.insert("a", "1"), b"DEL": lambda tx: tx.discard("a"),
    b"REP": lambda tx: tx.replace("a", "1"), b"SET": lambda tx: tx.update(a="1"), b"RSCAN": lambda tx: list(reversed(tx)),
    b"DELR": lambda tx: tx.delete_range("a", "b"), b"PUT": lambda tx: tx.update((f"k{it}", "1") for it in range(65)), b"LOAD": lambda tx: tx.load({"a": "1"}), b"LOCK": lambda tx: tx.lock("a"), b"MARK": lambda tx: tx.mark(),
    b"BACK": lambda tx: tx.back(), b"COMMIT": lambda tx: None, b"BEGIN": lambda tx: None,
}  # fmt: skip


def odd_answers() -> None:
    """Whatever a line is answered otherwise than it may be raises, and isn't committed."""
    for verb, call in CALLS.items():
        for answer in (b"", b"HELLO", b"BUSY 3", b"ERR WHAT", b"OK 5", b"VAL", b"ROWS 2 a=1", b"ROWS 1 a", b"\xff\xfe", b"BEGUN x", b"COMMITTED"):
            odd = Odd({**STILL, verb: answer})
            with tiuvrokk.connect(port=odd.port, timeout=5) as client:
                error = raised(tiuvrokk.Error, lambda: client.run(call, tries=1), f"{verb!r} answered {answer!r}")
                wanted(f"{verb!r} answered {answer!r}", isinstance(error, tiuvrokk.Busy if answer == b"BUSY 3" else tiuvrokk.Refused), True)
            wanted("whether it was committed", b"COMMIT" in odd.lines, verb == b"COMMIT")
            odd.listener.close()
    odd = Odd({**STILL, b"REPLICA": b"ERR SESSIONS"})
    wanted("no seat", raised(tiuvrokk.Refused, lambda: tiuvrokk.connect(port=odd.port)).answer, "ERR SESSIONS")
    odd = Odd({**STILL, b"HOLD": b"ERR SYNTAX"})
    with tiuvrokk.connect(port=odd.port) as client:
        wanted("a load of a server that can't be held", client.load({"a": "1"}), 1)
        raised(tiuvrokk.Refused, lambda: client.hold(100))
    wanted("its lines", odd.lines[1:6], [b"HOLD 100", b"BEGIN", b"LOCK X a a", b"LOAD a=1", b"COMMIT"])
    odd = Odd({**STILL, b"HOLD": b"ERR HELD 4"})
    with tiuvrokk.connect(port=odd.port) as client:
        wanted("who holds", raised(tiuvrokk.Held, lambda: client.hold(100)).answer, "ERR HELD 4")
    for answer in (b"WHO", b"WHO 2 1:1:1", b"WHO 1 1:1", b"WHO 0 1:1:1", b"WHO 1 1:1:-1", b"WHO x", b"OK", b"ERR SYNTAX"):
        odd = Odd({**STILL, b"WHO": answer, b"END": answer})
        with tiuvrokk.connect(port=odd.port) as client:
            raised(tiuvrokk.Refused, client.who, f"WHO answered {answer!r}")
            if answer != b"OK":
                raised(tiuvrokk.Refused, lambda: client.end(1), f"END answered {answer!r}")
    odd = Odd({**STILL, b"WHO": b"WHO 2 0:7:0 18446744073709551615:8:90"})
    with tiuvrokk.connect(port=odd.port) as client:
        wanted("who has a transaction", client.who(), [(0, 7, 0), (2**64 - 1, 8, 90)])
    for answer in (b"WHO 1 1:1:1:x", b"WHO 1 1:1:1:", b"WHO 1 1:1:1:h:w", b"WHO 2 1:1:1:h", b"WHO 1 1:1:1  ", b"ERR SYNTAX"):
        odd = Odd({**STILL, b"WHO": answer})
        with tiuvrokk.connect(port=odd.port) as client:
            raised(tiuvrokk.Refused, client.sessions, f"WHO ALL answered {answer!r}")
    odd = Odd({**STILL, b"WHO": b"WHO 3 0:7:0:h 4:0:5:w 18446744073709551615:8:90"})
    with tiuvrokk.connect(port=odd.port) as client:
        told = [(0, 7, 0, True, False), (4, None, 5, False, True), (2**64 - 1, 8, 90, False, False)]
        wanted("who is served", client.sessions(), told)
        raised(tiuvrokk.Refused, client.who, "WHO tells no marks")


def full_sessions() -> None:
    """A session that had all its steps: the next transaction begins in another one."""
    steps = {**STILL, b"BEGIN": b"ERR FULL"}
    odd = Odd(steps)
    with tiuvrokk.connect(port=odd.port) as client:
        raised(tiuvrokk.Refused, client.transaction)
    wanted("what was tried", odd.lines.count(b"BEGIN"), 2)


def fails_over() -> None:
    """Several places, as those of replicas: where one can't be reached or goes away, the next transaction begins at the one behind it."""
    servers = [Server("--stay", "--stop", "--grace", "0") for _ in range(2)]
    refused = socket.create_server(("127.0.0.1", 0))
    ports: List[Any] = [refused.getsockname()[1], ("localhost", servers[0].port), servers[1].port]
    refused.close()
    with tiuvrokk.connect(port=ports) as client:
        client["a"] = "1"
        wanted("where it is", f"at port {servers[0].port} of localhost" in repr(client), True)
        servers[0].tell("STOP\n")
        servers[0].closed()
        wanted("what the other has", client.get("a"), None)
        client["a"] = "2"
        wanted("where it goes on", f"at port {servers[1].port}>" in repr(client), True)
        servers[1].tell("STOP\n")
        servers[1].closed()
        raised(OSError, lambda: client.get("a"))
    raised(OSError, lambda: tiuvrokk.connect(port=ports))
    raised(ValueError, lambda: tiuvrokk.connect(port=[]))
    several: Any = (7001, 7002)
    raised(TypeError, lambda: tiuvrokk.connect(port=several))


def all_clients(folder: str) -> None:
    """All of it."""
    odd_answers()
    full_sessions()
    fails_over()
    served(folder)
