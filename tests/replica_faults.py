"""Faults at random: replicas and members that are killed or stopped, and a proxy between one replica and etcd that cuts
connections, delays what is sent, and delivers requests once more, late."""
from __future__ import annotations

import random
import signal
import socket
import threading
import time
from collections import Counter
from typing import Callable, Dict, List

from cluster import Cluster

KINDS = ("replica", "replica", "member", "stop", "both", "cut", "delay", "late", "sleep")
# The replica that reaches etcd through proxies.
PROXIED = 1


class Proxy:
    """Takes connections to a member on their way."""

    def __init__(self, member: int) -> None:
        self.member = member
        self.listener = socket.create_server(("127.0.0.1", 0))
        self.port = int(self.listener.getsockname()[1])
        self.is_cut = False
        self.delay = 0.0
        self.ends: List[socket.socket] = []
        self.requests: List[bytes] = []  # that put an entry
        threading.Thread(target=self.accept, daemon=True).start()

    def accept(self) -> None:
        while True:
            try:
                client, _ = self.listener.accept()
                server = socket.create_connection(("127.0.0.1", self.member))
            except OSError:
                if self.listener.fileno() < 0:
                    return
                client.close()
                continue
            self.ends += [client, server]
            threading.Thread(target=self.carry, args=(client, server), daemon=True).start()
            threading.Thread(target=self.carry, args=(server, client), daemon=True).start()
            if self.is_cut:
                self.cut()

    def carry(self, source: socket.socket, sink: socket.socket) -> None:
        try:
            while data := source.recv(1 << 16):
                if data.startswith(b"POST /v3/kv/txn ") and len(self.requests) < 1000:
                    self.requests.append(data)
                time.sleep(self.delay)
                sink.sendall(data)
        except OSError:
            pass
        for end in (source, sink):
            try:
                end.shutdown(socket.SHUT_RDWR)
            except OSError:
                pass  # it has ended already

    def cut(self) -> None:
        """Ends all connections, and each that comes until `is_cut` is taken back."""
        self.is_cut = True
        ends, self.ends = self.ends, []
        for end in ends:
            try:
                end.shutdown(socket.SHUT_RDWR)
            except OSError:
                pass
            end.close()

    def deliver_again(self, dice: random.Random) -> None:
        """Some of the requests that came by, once more."""
        for request in dice.sample(self.requests, min(len(self.requests), 10)):
            try:
                with socket.create_connection(("127.0.0.1", self.member), timeout=5) as server:
                    server.sendall(request)
                    server.recv(1 << 16)
            except OSError:
                pass  # the member is away

    def close(self) -> None:
        self.listener.close()
        self.cut()


class Faults:
    """Makes one fault after another, and mends each."""

    def __init__(self, cluster: Cluster, seed: int, words: Dict[int, List[str]]) -> None:
        self.cluster, self.words = cluster, words
        self.dice = random.Random(seed)
        self.proxies = [Proxy(port) for port in cluster.clients]
        self.done: Counter[str] = Counter()

    def start_replica(self, at: int) -> None:
        endpoints = [f"127.0.0.1:{proxy.port}" for proxy in self.proxies] if at == PROXIED else []
        self.cluster.start_replica(at, *self.words[at], endpoints=endpoints)

    def make(self, serving: int) -> str:
        """One fault, mended again: what is wrong then."""
        kind = self.dice.choice(KINDS)
        at, member = self.dice.randrange(serving), self.dice.randrange(len(self.proxies))
        self.done[kind] += 1
        mending = self.broken(kind, at, member)
        time.sleep(self.dice.uniform(0.1, 1.5))
        for mend in mending:
            mend()
        if not self.cluster.is_ready(at):
            return f"replica {at} isn't ready, {self.cluster.replicas[at].poll()}: {self.cluster.notes(at)[-500:]}"
        time.sleep(self.dice.uniform(0.2, 0.6))
        return ""

    def broken(self, kind: str, at: int, member: int) -> List[Callable[[], None]]:
        """Makes a fault: what mends it."""
        cluster, proxy = self.cluster, self.proxies[member]
        mending: List[Callable[[], None]] = []
        if kind in ("replica", "both"):
            cluster.kill_replica(at)
            mending.append(lambda: self.start_replica(at))
        if kind in ("member", "both"):
            cluster.kill_member(member)
            mending.append(lambda: cluster.start_member(member))
        if kind == "stop":
            cluster.stop_member(member)
            mending.append(lambda: cluster.continue_member(member))
        if kind == "sleep":
            cluster.replicas[at].send_signal(signal.SIGSTOP)
            mending.append(lambda: cluster.replicas[at].send_signal(signal.SIGCONT))
        if kind == "cut":
            proxy.cut()
            mending.append(lambda: setattr(proxy, "is_cut", False))
        if kind == "delay":
            proxy.delay = self.dice.uniform(0.01, 0.2)
            mending.append(lambda: setattr(proxy, "delay", 0.0))
        if kind == "late":
            proxy.deliver_again(self.dice)
        return mending

    def close(self) -> None:
        for proxy in self.proxies:
            proxy.close()
