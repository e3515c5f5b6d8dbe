"""Three members of etcd and some replicas on loopback, which a test starts, stops and kills.

Every process is a child of the test, which ends it by `close`. The programs are those of the repository, unless the
environment's TIUVROKK_REPLICA_LIBRARY names another library, or AMREPLICA_AUDITOR another auditor."""
from __future__ import annotations

import os
import random
import shlex
import signal
import socket
import subprocess
import sys
import time
from typing import Any, Callable, Dict, List, Optional, Sequence, Set

from support import AMAUDIT, LIMIT, TOP

sys.path.insert(0, os.path.join(TOP, "python"))

AUDITOR = shlex.split(os.environ.get("AMREPLICA_AUDITOR", shlex.quote(AMAUDIT)))
# That have a port.
REPLICAS = 6


def free_ports(count: int) -> List[int]:
    """Ports that nobody listens at, below those that connections are given: one of these could take a member's while that is down."""
    with open("/proc/sys/net/ipv4/ip_local_port_range", encoding="ascii") as file:
        end = int(file.read().split()[0])
    held: List[socket.socket] = []
    ports: List[int] = []
    for port in random.SystemRandom().sample(range(end // 2, end), end - end // 2):
        try:
            held.append(socket.create_server(("127.0.0.1", port)))
        except OSError:
            continue
        ports.append(port)
        if len(ports) == count:
            break
    for one in held:
        one.close()
    return ports


def until(holds: Callable[[], Any], limit: float = LIMIT) -> bool:
    """Waits until something holds; whether it did within the limit."""
    end = time.monotonic() + limit
    while not holds():
        if time.monotonic() > end:
            return False
        time.sleep(0.05)
    return True


def states_of(pid: int) -> Set[str]:
    """The states of a process's threads, by the system's letters."""
    states = set()
    for thread in os.listdir(f"/proc/{pid}/task"):
        try:
            with open(f"/proc/{pid}/task/{thread}/stat", encoding="utf-8", errors="replace") as file:
                states.add(file.read().rpartition(")")[2].split()[0])
        except OSError:
            pass  # it has ended meanwhile
    return states


def listens(port: int) -> bool:
    try:
        socket.create_connection(("127.0.0.1", port), 1).close()
        return True
    except OSError:
        return False


class Cluster:
    """The members run at once; replicas are started by their numbers, each at a port of its own."""

    def __init__(self, folder: str, *words: str, members: int = 3, scheme: str = "http", access: Sequence[str] = ()) -> None:
        ports = free_ports(2 * members + REPLICAS)
        self.folder, self.words, self.scheme, self.access = folder, words, scheme, access
        os.makedirs(folder, exist_ok=True)
        self.clients, self.peers, self.ports = ports[:members], ports[members:2 * members], ports[2 * members:]
        self.endpoints = [f"127.0.0.1:{port}" for port in self.clients]
        self.members: List[Optional[subprocess.Popen[bytes]]] = [None] * members
        self.replicas: Dict[int, subprocess.Popen[bytes]] = {}
        for at in range(members):
            self.start_member(at)
        if not until(lambda: self.status("endpoint", "status") == 0):
            raise TimeoutError("etcd isn't ready")

    def status(self, *words: str) -> int:
        """The status of etcdctl."""
        given = ["etcdctl", "--endpoints", ",".join(self.endpoints), *self.access, *words]
        version = {**os.environ, "ETCDCTL_API": "3"}
        return subprocess.run(given, env=version, stdout=subprocess.DEVNULL, stderr=subprocess.DEVNULL, check=False).returncode

    def start_member(self, at: int) -> None:
        names = ",".join(f"m{number}=http://127.0.0.1:{port}" for number, port in enumerate(self.peers))
        client, peer = f"{self.scheme}://127.0.0.1:{self.clients[at]}", f"http://127.0.0.1:{self.peers[at]}"
        given = ["etcd", "--name", f"m{at}", "--data-dir", f"{self.folder}/m{at}", "--log-level", "error",
                 "--listen-client-urls", client, "--advertise-client-urls", client, "--listen-peer-urls", peer,
                 "--initial-advertise-peer-urls", peer, "--initial-cluster", names, "--initial-cluster-state", "new", *self.words]
        with open(f"{self.folder}/m{at}.log", "ab") as log:
            self.members[at] = subprocess.Popen(given, stdout=log, stderr=subprocess.STDOUT)

    def member(self, at: int) -> "subprocess.Popen[bytes]":
        process = self.members[at]
        assert process is not None
        return process

    def kill_member(self, at: int) -> None:
        self.member(at).kill()
        self.member(at).wait()

    def stop_member(self, at: int) -> None:
        """None of its threads runs once this has returned: on a busy machine they run on for a while."""
        process = self.member(at)
        process.send_signal(signal.SIGSTOP)
        if not until(lambda: states_of(process.pid) == {"T"}):
            raise TimeoutError(f"member {at} runs on")

    def continue_member(self, at: int) -> None:
        self.member(at).send_signal(signal.SIGCONT)

    def start_replica(self, at: int, *words: str, endpoints: Sequence[str] = (), under: Sequence[str] = (), **names: str) -> None:
        """A replica that has these names in its environment, and is started under another command."""
        first = at % len(self.endpoints)  # each has another member to begin with
        members = endpoints or self.endpoints[first:] + self.endpoints[:first]
        given = [*under, f"{TOP}/amreplica", "--port", str(self.ports[at]), *words, *members]
        with open(f"{self.folder}/r{at}.log", "ab") as log:
            self.replicas[at] = subprocess.Popen(given, stdout=subprocess.DEVNULL, stderr=log, env={**os.environ, **names})

    def is_ready(self, at: int, limit: float = LIMIT) -> bool:
        """Whether the replica listens, within the limit."""
        replica, port = self.replicas[at], self.ports[at]
        return until(lambda: replica.poll() is not None or listens(port), limit) and replica.poll() is None

    def kill_replica(self, at: int) -> None:
        self.replicas[at].kill()
        self.replicas[at].wait()

    def notes(self, at: int) -> str:
        """What a replica said on standard error."""
        with open(f"{self.folder}/r{at}.log", encoding="utf-8") as log:
            return log.read()

    def client(self, at: int) -> Client:
        return Client(self.ports[at])

    def close(self) -> None:
        for process in [*self.replicas.values(), *self.members]:
            if process is not None and process.poll() is None:
                process.send_signal(signal.SIGCONT)
                process.kill()
                process.wait()


class Client:
    """A session with a replica."""

    def __init__(self, port: int, limit: float = LIMIT) -> None:
        self.socket = socket.create_connection(("127.0.0.1", port), timeout=limit)
        self.socket.setsockopt(socket.IPPROTO_TCP, socket.TCP_NODELAY, 1)
        self.file = self.socket.makefile("rb")

    def ask(self, *lines: str) -> List[str]:
        """The answers to lines that are sent together."""
        self.send(*lines)
        return [self.answer() for _ in lines]

    def send(self, *lines: str) -> None:
        self.socket.sendall("".join(f"{line}\n" for line in lines).encode())

    def answer(self) -> str:
        answer = self.file.readline()
        if not answer.endswith(b"\n"):
            raise ConnectionError("closed")
        return answer[:-1].decode()

    def records(self) -> List[str]:
        """All records, by one transaction; at once where nobody writes."""
        rows: List[str] = []
        low = "!"
        self.ask("BEGIN")
        while True:
            answer = self.ask(f"SCAN {low} {'~' * 32} 1000")[0].split()
            if answer[0] != "ROWS":
                break
            rows += answer[3:] if rows else answer[2:]
            if int(answer[1]) < 1000:
                break
            low = rows[-1].partition("=")[0]
        return rows if self.ask("COMMIT")[0].startswith("COMMITTED") else self.records()

    def close(self) -> None:
        self.file.close()
        self.socket.close()
