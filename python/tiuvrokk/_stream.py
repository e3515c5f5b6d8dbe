"""A connection, by the bytes that are sent and the lines that come."""

from __future__ import annotations

import os
import select
import socket
from collections import deque
from operator import index
from typing import Optional, Union

Path = Union[str, bytes, "os.PathLike[str]"]
Port = Union[int, "tuple[str, int]"]
"""A port, of one host or another."""
PIECE = 1 << 16


class Place:
    """Where a server or a replica is asked: at a port of a host, or at a socket of the file system."""

    def __init__(self, port: Optional[Port] = None, path: Optional[Path] = None, host: str = "127.0.0.1") -> None:
        self.path = path
        self.host, self.port = port if isinstance(port, tuple) else (host, index(port or 0))
        if not isinstance(self.host, str):
            raise TypeError("a port is a number, or a host with a number; several are a list")

    def __str__(self) -> str:
        if self.path is not None:
            return os.fsdecode(self.path)
        return f"port {self.port}" + f" of {self.host}" * (self.host != "127.0.0.1")


def places_of(port: Union[None, Port, list[Port]], path: Union[None, Path, list[Path]], host: str) -> list[Place]:
    """The places of some ports, or of some sockets of the file system."""
    if path is not None:
        return [Place(path=it) for it in (path if isinstance(path, list) else [path])]
    ports = port if isinstance(port, list) else [] if port is None else [port]
    return [Place(it, host=host) for it in ports]


def connected(place: Place, timeout: Optional[float]) -> Stream:
    """A connection to a place."""
    by_path = place.path is not None
    connection = socket.socket(socket.AF_UNIX) if by_path else socket.create_connection((place.host, place.port), timeout)
    try:
        if place.path is not None:
            connection.settimeout(timeout)
            connection.connect(os.fspath(place.path))
        else:
            connection.setsockopt(socket.IPPROTO_TCP, socket.TCP_NODELAY, 1)
        return Stream(connection, timeout)
    except BaseException:
        connection.close()
        raise


class Stream:
    """Sends bytes, and hears lines meanwhile: so it never is that each side waits for the other to read. A wait takes so many
    seconds at most, or has no end where that is None."""

    def __init__(self, connection: socket.socket, timeout: Optional[float]) -> None:
        connection.setblocking(False)
        self._socket = connection
        self._patience = None if timeout is None else 1000 * timeout
        self._lines: deque[bytes] = deque()
        self._rest = b""
        self._to_hear, self._to_send = select.poll(), select.poll()
        self._to_hear.register(connection, select.POLLIN)
        self._to_send.register(connection, select.POLLIN | select.POLLOUT)

    def send(self, data: bytes) -> None:
        """Sends bytes. Lines that come meanwhile are kept."""
        rest = memoryview(data)
        while True:
            try:
                rest = rest[self._socket.send(rest) :]
            except BlockingIOError:
                pass
            if not rest:
                return
            self._await(self._to_send)
            self._hear()

    def line(self) -> bytes:
        """The next line, without its LF."""
        while not self._lines:
            self._await(self._to_hear)
            self._hear()
        return self._lines.popleft()

    def close(self) -> None:
        self._socket.close()

    def _await(self, poll: select.poll) -> None:
        if not poll.poll(self._patience):
            raise socket.timeout("timed out")

    def _hear(self) -> None:
        """Keeps the lines that have come."""
        try:
            data = self._socket.recv(PIECE)
        except BlockingIOError:
            return
        if not data:
            raise ConnectionResetError("the server went away")
        *lines, self._rest = (self._rest + data).split(b"\n")
        self._lines.extend(lines)
