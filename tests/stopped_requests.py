"""Proxies between a replica and etcd's members that stop one of its requests, for tests that run replicas in a process of their
own."""
from __future__ import annotations

import asyncio
import re
from enum import Enum
from typing import Callable, List, Optional, Tuple


class Way(Enum):
    """What becomes of the request, and of the replica that sent it, until it all goes on."""

    HELD = "held"  # it waits, and so does all that comes after it either way
    UNTOLD = "untold"  # it arrives, its answer and connection are lost, and all else waits
    LATE = "late"  # its connection ends, so that it is sent again by another one; later it arrives too


class Stop:
    """Stops one of the requests that go by some proxies, which `is_it` knows by its number and its text."""

    def __init__(self, way: Way, is_it: Callable[[int, bytes], bool]) -> None:
        self.way, self.is_it = way, is_it
        self.count = 0
        self.path = ""  # of the request
        self.is_reached, self.goes_on = asyncio.Event(), asyncio.Event()
        self.late: Optional[Tuple[int, bytes]] = None  # the member's port, and the request
        self.connections: List[Carrying] = []

    def reach(self, request: bytes) -> None:
        self.path = request.split(b" ", 2)[1].decode()
        self.is_reached.set()

    def is_shut(self) -> bool:
        """Whether nothing passes."""
        return self.way is not Way.LATE and self.is_reached.is_set() and not self.goes_on.is_set()

    async def go_on(self) -> None:
        """What waits passes; what was kept arrives, and is answered."""
        self.goes_on.set()
        for connection in self.connections:
            connection.give_answers()
        if self.late is not None:
            reader, writer = await asyncio.open_connection("127.0.0.1", self.late[0])
            writer.write(self.late[1])
            await reader.read(1)
            writer.close()

    async def proxies(self, members: List[int]) -> List[str]:
        """Where the members are reached by proxies."""
        servers = [await asyncio.start_server(self.carry_to(port), "127.0.0.1", 0, limit=1 << 24) for port in members]
        return [f"127.0.0.1:{server.sockets[0].getsockname()[1]}" for server in servers]

    def carry_to(self, port: int) -> Callable[[asyncio.StreamReader, asyncio.StreamWriter], "asyncio.Future[None]"]:
        async def carry(reader: asyncio.StreamReader, writer: asyncio.StreamWriter) -> None:
            back, forth = await asyncio.open_connection("127.0.0.1", port)
            self.connections.append(Carrying(self, port, writer, forth))
            await self.connections[-1].run(reader, back)

        return lambda reader, writer: asyncio.ensure_future(carry(reader, writer))


class Carrying:
    """A connection to a member, by a proxy."""

    def __init__(self, stop: Stop, port: int, client: asyncio.StreamWriter, server: asyncio.StreamWriter) -> None:
        self.stop, self.port, self.client, self.server = stop, port, client, server
        self.is_cut = False
        self.kept = b""  # answers that wait
        self.is_answered = asyncio.Event()

    async def run(self, client: asyncio.StreamReader, server: asyncio.StreamReader) -> None:
        """Until either side ends, or it is cut."""
        ways = [asyncio.ensure_future(self.requests(client)), asyncio.ensure_future(self.answers(server))]
        await asyncio.wait(ways, return_when=asyncio.FIRST_COMPLETED)
        for way in ways:
            way.cancel()
        await asyncio.gather(*ways, return_exceptions=True)
        self.client.close()
        self.server.close()

    async def requests(self, source: asyncio.StreamReader) -> None:
        while not self.is_cut:
            head = await source.readuntil(b"\r\n\r\n")
            length = re.search(rb"content-length: *([0-9]+)", head.lower())
            request = head + await source.readexactly(int(length.group(1)) if length else 0)
            self.stop.count += 1
            if self.stop.is_it(self.stop.count, request):
                await self.stop_at(request)
            if self.stop.is_shut():
                await self.stop.goes_on.wait()
            if not self.is_cut:
                self.is_answered.clear()
                self.server.write(request)

    async def stop_at(self, request: bytes) -> None:
        self.is_cut = self.stop.way is not Way.HELD
        if self.stop.way is Way.LATE:
            self.stop.late = self.port, request
        elif self.stop.way is Way.UNTOLD:
            self.is_answered.clear()
            self.server.write(request)
            await self.is_answered.wait()
        self.stop.reach(request)

    async def answers(self, source: asyncio.StreamReader) -> None:
        while data := await source.read(1 << 16):
            self.kept += data
            self.is_answered.set()
            if not self.stop.is_shut():
                self.give_answers()

    def give_answers(self) -> None:
        """All that waits, at once, as a process has it that was stopped."""
        if not self.is_cut:
            self.client.write(self.kept)
        self.kept = b""
