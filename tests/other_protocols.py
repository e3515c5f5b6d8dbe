"""What a server does with a connection that speaks another protocol: nothing of it, by whatever way it comes."""
from __future__ import annotations

import re
import socket
import time
from typing import Callable, List, Sequence

from support import LIMIT, wanted

METHODS = ["GET", "HEAD", "POST", "PUT", "DELETE", "CONNECT", "OPTIONS", "TRACE", "PATCH", "PROPFIND", "MKCOL", "LOCK", "UNLOCK",
           "post", "Post", "GeT"]
BODY = b"\r\nBEGIN\nINS body 1\nCOMMIT\n"
# The beginning of a hello of TLS, with lines in its session's name.
HELLO = b"\x16\x03\x01\x00\x80\x01\x00\x00\x7c\x03\x03" + b"\n" * 32 + b"\x20" + b"BEGIN\nINS body 1\nCOMMIT\n"
LONG = b"/" + b"a" * 5000
# Pieces, and what is answered to them: nothing.
CLOSED: List[Sequence[bytes]] = [
    *([b"%s /a HTTP/1.1\r\nHost: a\r\n" % method.encode() + BODY] for method in METHODS),
    [b"GET  /\t http/1.0\r\n" + BODY],
    [b"GET\t/\tHtTP/2\n" + BODY],
    [b"PRI * HTTP/2.0\r\n\r\nSM\r\n" + BODY],
    [b"GET /a /b HTTP/1.1 \r\n" + BODY],
    [b"Host: a\r\n" + BODY],
    [b"HOST:a\n" + BODY],
    [b"GE", b"T /a HT", b"TP/1.1\r", b"\n" + BODY],
    [b"GET / HTTP/1.1", b"\r\n" + BODY],
    [b"Ho", b"st", b": a", b"\r\n" + BODY],
    [HELLO],
    [b"\x80"],
    [b"\x00" + BODY],
    [b"\x7f" + BODY],
    [b"post /a HTTP/1.1\n" + BODY],
    [b"*a /a HTTP/1.1\n" + BODY],
]
# What a person may begin with, and the answers: it's a line as others are.
TYPED = [
    (b"\nSEEN x\nQUIT\n", "ERR SYNTAX\nERR SYNTAX\nBYE\n"), (b"\r\nQUIT\n", "ERR SYNTAX\nBYE\n"), (b"begin\nQUIT\n", "ERR SYNTAX\nBYE\n"),
    (b" BEGIN\nQUIT\n", "ERR SYNTAX\nBYE\n"), (b"?", "ERR SYNTAX\n"), (b"\t\nQUIT\n", "ERR SYNTAX\nBYE\n"),
]
# Lines of the protocol that look alike, and their answers.
OWN = [
    ("BEGIN", "BEGUN"), ("INS HTTP/1.1 HTTP/1.1", "OK"), ("GET HTTP/1.1", "VAL HTTP/1.1"), ("REP HTTP/1.1 http/2", "OK"),
    ("LOCK S HTTP/1.0 HTTP/1.1", "OK"), ("SCAN HTTP/1.1 HTTP/1.1 9", "ROWS 1 HTTP/1.1=http/2"), ("DEL HTTP/1.1", "OK"),
    ("LOAD HTTP/1.2=2 host:=1", "OK"), ("GET host:", "VAL 1"), ("", "ERR SYNTAX"), ("begin", "ERR SYNTAX"), ("Host", "ERR SYNTAX"),
    (" HTTP/1.1", "ERR SYNTAX"), ("GET HTTP/1.", "NONE"), ("GET a HTTP/", "ERR SYNTAX"), ("GET a /1.1", "ERR SYNTAX"),
    ("GET a xHTTP/1.1", "ERR SYNTAX"), ("x" * 5000, "ERR LONG"), ("ABORT", "ABORTED"), ("QUIT", "BYE"),
]


def answers(connected: Callable[[], socket.socket], pieces: Sequence[bytes], ends: bool = False) -> str:
    """All that is answered to pieces, up to the end of the connection, without the numbers of transactions and commits."""
    came = b""
    with connected() as client:
        client.settimeout(LIMIT)
        try:
            for piece in pieces:
                client.sendall(piece)
                time.sleep(0.02 if len(pieces) > 1 else 0)
            if ends:
                client.shutdown(socket.SHUT_WR)
            while more := client.recv(1 << 16):
                came += more
        except (ConnectionResetError, BrokenPipeError):
            pass
    return re.sub("(BEGUN|COMMITTED) [0-9]+", r"\1", came.decode())


def other_protocols(connected: Callable[[], socket.socket]) -> None:
    """All of it, by connections to one server: as many as `CONNECTIONS`."""
    for pieces in CLOSED:
        wanted(f"the answer to {b''.join(pieces)[:60]!r} in {len(pieces)} pieces", answers(connected, pieces), "")
    for typed, answered in TYPED:
        wanted(f"the answer to {typed!r}", answers(connected, [typed], ends=True), answered)
    begun = b"BEGIN\nINS open 1\n"
    for line in (b"GET / HTTP/1.1\r\n", b"Host: a\n", b"POST %s HTTP/1.1\r\nHost: a\n" % LONG):
        told = "BEGUN\nOK\n" + ("ERR LONG\n" if LONG in line else "")
        wanted(f"the answers before {line[:20]!r}", answers(connected, [begun + line]), told)
        whole = begun.replace(b"open", line[:4].strip(b" :") + b"1") + b"COMMIT\n"
        wanted(f"what was committed before {line[:20]!r}", answers(connected, [whole + line]), "BEGUN\nOK\nCOMMITTED\n" + told[9:])
    wanted("the answer before a line with no LF", answers(connected, [b"BEGIN\nGET / HTTP/1.1"], ends=True), "BEGUN\n")
    lines = "".join(f"{line}\n" for line, _ in OWN).encode()
    right = "".join(f"{answer}\n" for _, answer in OWN)
    wanted("the answers to lines that look alike", answers(connected, [lines]), right)
    some = lines.replace(b"x" * 5000 + b"\n", b"")
    wanted("the same in small pieces", answers(connected, [some[at:at + 3] for at in range(0, len(some), 3)]), right.replace("ERR LONG\n", ""))
    asked = b"BEGIN\nGET body\nGET open\nGET GET1\nGET Host1\nGET POST1\nCOMMIT\nQUIT\n"
    wanted("what stands", answers(connected, [asked]), "BEGUN\nNONE\nNONE\nVAL 1\nVAL 1\nVAL 1\nCOMMITTED\nBYE\n")


CONNECTIONS = len(CLOSED) + len(TYPED) + 10
