"""The client of `tiuvrokk.connect` for asyncio: each of its calls is awaited, and other tasks run meanwhile.

    async def main():
        async with tiuvrokk.aio.connect(port=7070) as client, client.transaction() as tx:
            await tx.put("ant", "6")
            async for key, value in tx.scan("a", "c"):
                print(key, value)

    asyncio.run(main())

`client = await tiuvrokk.aio.connect(port=7070)` does without a block, and `await client.close()` ends it.

A client is one session, on a thread of its own. It has one transaction at a time: a task that begins another one waits for the end of
the one before. What runs when its task is cancelled goes on, as the end of a block does, and the next call comes after it."""

from __future__ import annotations

import asyncio
import os
from collections.abc import AsyncIterator, Awaitable, Callable, Coroutine, Generator
from concurrent.futures import ThreadPoolExecutor
from contextlib import asynccontextmanager
from contextvars import ContextVar
from functools import partial, wraps
from typing import TYPE_CHECKING, Any, Optional, TypeVar, Union

from . import _client
from ._client import RemoteTransaction
from ._mapping import first_page, most_of
from ._records import GREATEST, Record, Text
from ._stream import Path, Port
from ._tries import MAX_TRIES, TRIED_AGAIN, Tries
from .errors import Closed, Forked

if TYPE_CHECKING:
    from typing_extensions import Concatenate, ParamSpec

    Words = ParamSpec("Words")

Result = TypeVar("Result")
# The turns that a task, or one that began it, has at clients: it would wait for itself.
_turns: ContextVar[tuple[object, ...]] = ContextVar("_turns", default=())


def _awaited(call: Callable[Concatenate[RemoteTransaction, Words], Result]) -> Callable[Concatenate[Transaction, Words], Coroutine[Any, Any, Result]]:
    """A call of a transaction, to be awaited."""

    @wraps(call)
    async def awaited(self: Transaction, /, *words: Words.args, **named: Words.kwargs) -> Result:
        return await self._client._called(partial(call, self._tx, *words, **named))

    return awaited


class Transaction:
    """The calls of a `tiuvrokk.RemoteTransaction`. `put` and `delete` stand for `tx[key] = value` and `del tx[key]`."""

    def __init__(self, client: Client, tx: RemoteTransaction) -> None:
        self._client, self._tx = client, tx

    async def get(self, key: Text, default: Optional[bytes] = None) -> Optional[bytes]:
        """The value under the key, or `default` where there is none."""
        return await self._client._called(partial(self._tx.get, key, default))

    async def pop(self, key: Text, default: Optional[bytes] = None) -> Optional[bytes]:
        """Takes the record away and answers its value, or `default` where there is none."""
        return await self._client._called(partial(self._tx.pop, key, default))

    async def scan(
        self, lo: Text = b"", hi: Text = GREATEST, page: int = 100, *, limit: Optional[int] = None, reverse: bool = False
    ) -> AsyncIterator[Record]:
        """The records from `lo` to `hi`, both included, by rising key, or from `hi` down to `lo` where `reverse` is true; the first
        `limit` of them, or all. They are read by pages."""
        pages, left = self._tx._pages(lo, hi, first_page(page, limit), reverse), most_of(limit)
        while left and (rows := await self._client._called(lambda: next(pages, None))) is not None:
            for row in rows[:left]:
                yield row
            left -= len(rows[:left])

    def items(self, lo: Text = b"", hi: Text = GREATEST) -> AsyncIterator[Record]:
        """The records of `scan`."""
        return self.scan(lo, hi)

    async def keys(self, lo: Text = b"", hi: Text = GREATEST) -> AsyncIterator[bytes]:
        """The keys of `scan`."""
        async for key, _ in self.scan(lo, hi):
            yield key

    async def values(self, lo: Text = b"", hi: Text = GREATEST) -> AsyncIterator[bytes]:
        """The values of `scan`."""
        async for _, value in self.scan(lo, hi):
            yield value

    async def number(self) -> int:
        """The number by which `Busy.holder` names the transaction."""
        return await self._client._called(lambda: self._tx.number)

    @asynccontextmanager
    async def savepoint(self) -> AsyncIterator[None]:
        """A block whose writes are taken back where an exception leaves it, as `tiuvrokk.RemoteTransaction.savepoint` has it."""
        block = self._tx.savepoint()
        await self._client._called(block.__enter__)
        try:
            yield
        except BaseException as error:
            if not await asyncio.shield(self._client._called(partial(block.__exit__, type(error), error, error.__traceback__))):
                raise
        else:
            await self._client._called(partial(block.__exit__, None, None, None))

    async def delete_range(self, lo: Text = b"", hi: Text = GREATEST, limit: Optional[int] = None) -> int:
        """Takes the records from `lo` to `hi` away, both included, the first `limit` of them, or all. Answers how many went."""
        return await self._client._called(partial(self._tx.delete_range, lo, hi, limit))

    put, delete, insert = _awaited(RemoteTransaction.__setitem__), _awaited(RemoteTransaction.__delitem__), _awaited(RemoteTransaction.insert)
    replace, discard, setdefault = _awaited(RemoteTransaction.replace), _awaited(RemoteTransaction.discard), _awaited(RemoteTransaction.setdefault)
    update, load, count = _awaited(RemoteTransaction.update), _awaited(RemoteTransaction.load), _awaited(RemoteTransaction.count)
    lock, mark, back = _awaited(RemoteTransaction.lock), _awaited(RemoteTransaction.mark), _awaited(RemoteTransaction.back)
    commit, abort = _awaited(RemoteTransaction.commit), _awaited(RemoteTransaction.abort)


class Client:
    """A session, as `tiuvrokk.connect` makes one, which is connected at the head of an `async with` block, or where it is awaited."""

    def __init__(
        self, port: Union[None, Port, list[Port]] = None, path: Union[None, Path, list[Path]] = None, *,
        host: str = "127.0.0.1", timeout: Optional[float] = 120.0, escape: bool = False,
    ) -> None:
        self._connect = partial(_client.connect, port, path, host=host, timeout=timeout, check_same_thread=False, escape=escape)
        self._client: Optional[_client.Client] = None
        self._has: Optional[object] = None  # (whose turn it is)
        self._process = os.getpid()

    async def __aenter__(self) -> Client:
        self._thread, self._turn = ThreadPoolExecutor(1), asyncio.Lock()
        self._client = await self._called(self._connect)
        return self

    def __await__(self) -> Generator[Any, None, Client]:
        return self.__aenter__().__await__()

    async def __aexit__(self, *_: object) -> None:
        await self.close()

    async def close(self) -> None:
        """Ends the session; a transaction that is active is aborted. A client may be closed twice."""
        client, self._client = self._client, None
        if client:
            await self._called(client.close)
            self._thread.shutdown(wait=False)

    async def _called(self, call: Callable[[], Result]) -> Result:
        """What a call answers, which is made on the client's thread."""
        if self._process != os.getpid():
            raise Forked
        return await asyncio.get_running_loop().run_in_executor(self._thread, call)

    @asynccontextmanager
    async def _its_turn(self) -> AsyncIterator[_client.Client]:
        """A block in which no other task uses the client."""
        if self._client is None:
            raise Closed
        if self._has in _turns.get():
            raise RuntimeError("a transaction of the client is open around this one: use that one, or another client")
        async with self._turn:
            self._has = turn = object()
            _turns.set((*_turns.get(), turn))
            try:
                yield self._client
            finally:
                self._has = None
                _turns.set(tuple(it for it in _turns.get() if it is not turn))

    @asynccontextmanager
    async def transaction(self) -> AsyncIterator[Transaction]:
        """A block with a transaction, which commits at its end, and aborts where an exception leaves it."""
        async with self._its_turn() as client:
            begun = self._thread.submit(client.transaction)
            try:
                tx = await asyncio.wrap_future(begun)
            except asyncio.CancelledError:
                self._thread.submit(lambda: begun.result()._leave())  # (it may begin yet)
                raise
            try:
                yield Transaction(self, tx)
            except BaseException as error:
                await asyncio.shield(self._called(partial(tx.__exit__, type(error), error, error.__traceback__)))
                raise
            await asyncio.shield(self._called(partial(tx.__exit__, None, None, None)))

    async def run(self, function: Callable[[Transaction], Awaitable[Result]], tries: int = MAX_TRIES) -> Result:
        """As `tiuvrokk.Client.run`, with a function whose answer is awaited."""
        tried = Tries(tries)
        while True:
            tried.begin()
            try:
                async with self.transaction() as tx:
                    return await function(tx)
            except TRIED_AGAIN as error:
                pause = tried.pause_after(error)
            await asyncio.sleep(pause)

    async def ask(self, function: Callable[[_client.Client], Result]) -> Result:
        """What a function answers of the plain client, as `await client.ask(lambda it: it.load(records))`, beside no transaction."""
        async with self._its_turn() as client:
            return await self._called(partial(function, client))


connect = Client
