"""Requests to an etcd cluster (3.4 on), by the JSON gateway of its members: whichever answers."""
from __future__ import annotations

import asyncio
import json
import ssl
import sys
import time
from binascii import a2b_base64, b2a_base64
from typing import Any, Callable, Dict, List, NamedTuple, Optional, Set, Tuple

Message = Dict[str, Any]
# What a connection may end with.
FAULTS = (OSError, asyncio.TimeoutError, ValueError)
# Seconds for one answer of one member, and between two tries.
PATIENCE = 2.0
PAUSE = 0.05
# Seconds of silence of all members, behind which standard error has a line.
SILENCE = 5.0
# So often in turn a member may deny what a user asks before that is taken for its word.
MOST_DENIALS = 20


class Unreachable(Exception):
    """No answer, or none that says anything, of this member."""


class Refused(Exception):
    """etcd understood the request and said no."""


class Access(NamedTuple):
    """How members are spoken to: TLS where there is a context, a password where there is a user."""

    context: Optional[ssl.SSLContext] = None
    user: str = ""
    password: str = ""


def encoded(data: bytes) -> str:
    """Bytes, as the gateway has them."""
    return b2a_base64(data, newline=False).decode()


def decoded(text: str) -> bytes:
    """The bytes that the gateway's text means."""
    return a2b_base64(text)


def put_of(key: str, value: bytes) -> Message:
    """The request that puts a value."""
    return {"key": encoded(key.encode()), "value": encoded(value)}


def deletion_of(key: str, end: str) -> Message:
    """The operation that deletes the range of keys up to `end`."""
    return {"requestDeleteRange": {"key": encoded(key.encode()), "range_end": encoded(end.encode())}}


def refusal_of(body: bytes) -> str:
    """What an answer that is none says."""
    try:
        answer = json.loads(body)
        return str(answer.get("message", answer.get("error", "")))
    except (ValueError, AttributeError):
        return body[:200].decode("utf-8", "replace").strip()


class Link(asyncio.Protocol):
    """A connection to a member, for one request at a time."""

    def __init__(self, host: str) -> None:
        self.host = host
        self.transport: Optional[asyncio.Transport] = None
        self.buffer = bytearray()  # what came and wasn't read yet
        self.has_head = self.is_chunked = self.is_closed = False
        self.status = self.length = 0
        self.pieces: List[bytes] = []
        self.sink: Optional[Callable[[bytes], None]] = None  # who takes the body as it comes
        self.answer: Optional["asyncio.Future[Tuple[int, bytes]]"] = None

    @classmethod
    async def open(cls, host: str, access: Access) -> Link:
        """A connection, within PATIENCE."""
        name, _, port = host.rpartition(":")
        loop = asyncio.get_running_loop()
        opening = loop.create_connection(lambda: cls(host), name.strip("[]"), int(port), ssl=access.context)
        return (await asyncio.wait_for(opening, PATIENCE))[1]

    def post(
        self, path: str, message: Message, token: str, sink: Optional[Callable[[bytes], None]] = None
    ) -> "asyncio.Future[Tuple[int, bytes]]":
        """The status and the body of the answer, once that is whole. A sink takes the body of a good answer as it comes."""
        self.answer = asyncio.get_running_loop().create_future()
        if self.transport is None or self.is_closed:
            self.fail(ConnectionError("closed"))
            return self.answer
        self.has_head, self.pieces, self.sink = False, [], sink
        body = json.dumps(message).encode()
        head = [f"POST {path} HTTP/1.1", f"Host: {self.host}", "Content-Type: application/json", f"Content-Length: {len(body)}"]
        head += [f"Authorization: {token}"] if token else []
        self.transport.write("\r\n".join([*head, "", ""]).encode() + body)
        return self.answer

    def fail(self, fault: BaseException) -> None:
        """The answer won't be whole."""
        if self.answer is not None and not self.answer.done():
            self.answer.set_exception(fault)

    def expire(self) -> None:
        self.fail(asyncio.TimeoutError())

    def connection_made(self, transport: asyncio.BaseTransport) -> None:
        assert isinstance(transport, asyncio.Transport)
        self.transport = transport

    def connection_lost(self, fault: Optional[Exception]) -> None:
        self.is_closed = True
        self.fail(fault or ConnectionError("closed"))

    def data_received(self, data: bytes) -> None:
        self.buffer += data
        try:
            while self.answer is not None and not self.answer.done() and self.read():
                pass
        except (ValueError, IndexError) as fault:
            self.fail(ValueError(f"no answer of HTTP: {fault}"))

    def read(self) -> bool:
        """Reads the head, or a piece of the body; whether it was there as a whole."""
        if not self.has_head:
            return self.read_head()
        begin, length = 0, self.length
        if self.is_chunked:
            end = self.buffer.find(b"\r\n")
            if end < 0:
                return False
            begin, length = end + 2, int(self.buffer[:end].split(b";")[0], 16)
        end = begin + length
        if len(self.buffer) < end + 2 * self.is_chunked:
            return False
        piece = bytes(self.buffer[begin:end])
        del self.buffer[:end + 2 * self.is_chunked]
        if self.sink is not None and self.status == 200:
            self.sink(piece)
        else:
            self.pieces.append(piece)
        if (length == 0 or not self.is_chunked) and self.answer is not None and not self.answer.done():
            self.answer.set_result((self.status, b"".join(self.pieces)))
        return True

    def read_head(self) -> bool:
        end = self.buffer.find(b"\r\n\r\n")
        if end < 0:
            return False
        first, *rest = bytes(self.buffer[:end]).lower().split(b"\r\n")
        del self.buffer[:end + 4]
        headers = {name: value.strip() for name, _, value in (line.partition(b":") for line in rest)}
        self.status = int(first.split()[1])
        self.is_chunked = headers.get(b"transfer-encoding") == b"chunked"
        self.length = int(headers.get(b"content-length", b"0"))
        self.has_head = True
        return True

    def close(self) -> None:
        if self.transport is not None:
            self.transport.abort()


class Etcd:
    """Requests to one member after another, until one answers."""

    def __init__(self, endpoints: List[str], access: Access = Access()) -> None:
        self.endpoints, self.access = endpoints, access
        self.at = 0
        self.idle: List[Link] = []
        self.token = ""
        self.denials = 0
        self.silent_since: Optional[float] = None
        self.strangers: Set[str] = set()  # members whose certificates aren't those that are asked for

    @property
    def host(self) -> str:
        """The member whose turn it is."""
        return self.endpoints[self.at]

    def pass_over(self, host: str) -> None:
        """The member has failed: the next one's turn, unless somebody has said so before."""
        if self.host == host:
            self.at = (self.at + 1) % len(self.endpoints)
            for link in self.idle:
                link.close()
            self.idle = []

    async def exchange(self, host: str, path: str, message: Message) -> Tuple[int, bytes]:
        """The status and the body of the member's answer."""
        link = self.idle.pop() if self.idle else None
        if link is None or link.is_closed:
            link = await Link.open(host, self.access)
        timer = asyncio.get_running_loop().call_later(PATIENCE, link.expire)
        is_whole = False
        try:
            answer = await link.post(path, message, self.token)
            is_whole = link.host == self.host
        finally:
            timer.cancel()
            if is_whole:
                self.idle.append(link)
            else:
                link.close()
        return answer

    async def authenticate(self) -> None:
        """A token for the user's requests. Members forget it at their end, and after some minutes."""
        answer = await self.answer_of("/v3/auth/authenticate", {"name": self.access.user, "password": self.access.password})
        self.token = str(answer["token"])

    async def try_once(self, path: str, message: Message) -> Message:
        """The answer of the member whose turn it is, within PATIENCE."""
        if self.access.user and not self.token:
            await self.authenticate()
        return await self.answer_of(path, message)

    async def answer_of(self, path: str, message: Message) -> Message:
        host = self.host
        try:
            status, body = await self.exchange(host, path, message)
            self.strangers.discard(host)
            if status == 200:
                answer: Message = json.loads(body)
                return answer
        except ssl.SSLCertVerificationError as fault:
            self.pass_over(host)
            self.strangers.add(host)
            if self.strangers >= set(self.endpoints):
                # (no time mends that)
                raise Refused(f"{host}: {fault.verify_message}") from fault
            raise Unreachable(f"{host}: {fault.verify_message}") from fault
        except FAULTS as fault:
            self.pass_over(host)
            raise Unreachable(f"{host}: {str(fault) or type(fault).__name__}") from fault
        text = refusal_of(body)
        if status == 401 or "auth store is old" in text or self.is_forgotten(status):
            self.token = ""
            raise Unreachable(f"{host}: {text}")
        if status in (400, 403, 404):
            raise Refused(text)
        self.pass_over(host)
        raise Unreachable(f"{host}: {status} {text}")

    def is_forgotten(self, status: int) -> bool:
        """Whether what was denied may be the user's once it has a token anew: a member that has just begun takes a token that it
        forgot for nobody's."""
        if status != 403 or not self.token:
            return False
        self.denials += 1
        return self.denials <= MOST_DENIALS

    async def ask(self, path: str, message: Message, is_settled: Callable[[], bool] = lambda: False) -> Optional[Message]:
        """The answer, however long it takes; None once it is settled otherwise. For requests that may be repeated."""
        while not is_settled():
            try:
                answer = await self.try_once(path, message)
                self.silent_since, self.denials = None, 0
                return answer
            except Unreachable as fault:
                self.note(fault)
                await asyncio.sleep(PAUSE)
        return None

    def note(self, fault: Unreachable) -> None:
        """Says once of a longer silence that there is one."""
        if self.silent_since is None:
            self.silent_since = time.monotonic()
        elif time.monotonic() - self.silent_since > SILENCE:
            self.silent_since = float("inf")
            print(f"amreplica: etcd isn't reached: {fault}", file=sys.stderr, flush=True)

    async def must(self, path: str, message: Message) -> Message:
        """The answer, however long it takes."""
        answer = await self.ask(path, message)
        assert answer is not None
        return answer

    async def get(self, key: str, end: Optional[str] = None, **more: Any) -> Message:
        """A key, or the range up to `end`: what a majority has agreed on by now."""
        message: Message = {"key": encoded(key.encode()), **more}
        if end is not None:
            message["range_end"] = encoded(end.encode())
        return await self.must("/v3/kv/range", message)

    async def do_if(self, compare: Message, operations: List[Message]) -> bool:
        """Operations that are done together, where the comparison holds then: whether it did."""
        answer = await self.must("/v3/kv/txn", {"compare": [compare], "success": operations})
        return bool(answer.get("succeeded"))

    async def put_if(self, compare: Message, put: Message) -> bool:
        """One compared put: whether it was done."""
        return await self.do_if(compare, [{"requestPut": put}])
