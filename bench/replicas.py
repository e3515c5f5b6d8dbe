#!/usr/bin/env python3
"""How fast replicas are, beside etcd's own puts and the store's own rate through a pipe, in one run: bench/replicas.py.

Three members of etcd and the replicas run on this machine, so the figures are ratios. Clients in Python see half of what replicas
do; by bench/load_clients.c some more send whole transactions, one or a hundred ahead. --records N: of the store whose snapshot a
replica begins with; 0 leaves that out."""
from __future__ import annotations

import argparse
import asyncio
import os
import re
import shlex
import statistics
import subprocess
import sys
import tempfile
import threading
import time
from typing import List, Tuple

sys.dont_write_bytecode = True
sys.path.insert(0, os.path.join(os.path.dirname(os.path.dirname(os.path.realpath(__file__))), "tests"))

from cluster import Client, Cluster, until
from support import AMSERVE

from tiuvrokk_replica.etcd import Etcd, put_of

RUN = 50_000


async def puts(endpoints: List[str], clients: int, seconds: float) -> Tuple[float, float]:
    """etcd's puts of 64 bytes by so many clients: how many a second, and the median in milliseconds."""
    times: List[float] = []
    end = time.perf_counter() + seconds

    async def one(number: int) -> None:
        etcd = Etcd([endpoints[number % len(endpoints)]])
        while time.perf_counter() < end:
            begun = time.perf_counter()
            await etcd.try_once("/v3/kv/put", put_of(f"bench/{number}", b"x" * 64))
            times.append(time.perf_counter() - begun)

    begun = time.perf_counter()
    await asyncio.gather(*[one(number) for number in range(clients)])
    return len(times) / (time.perf_counter() - begun), statistics.median(times) * 1000


async def writes(ports: List[int], clients: int, seconds: float, is_ahead: bool) -> Tuple[float, float]:
    """Transactions of three lines, each of which adds a record: how many a second, and the median in milliseconds."""
    times: List[float] = []
    end = time.perf_counter() + seconds
    mark = f"{clients}{'a' if is_ahead else 'l'}"

    async def one(number: int) -> None:
        reader, writer = await asyncio.open_connection("127.0.0.1", ports[number % len(ports)])
        step, answer = 0, b""
        while time.perf_counter() < end:
            begun, step = time.perf_counter(), step + 1
            lines = [b"BEGIN\n", f"INS {mark}{number}.{step} x\n".encode(), b"COMMIT\n"]
            for sent in [b"".join(lines)] if is_ahead else lines:
                writer.write(sent)
                for _ in range(sent.count(b"\n")):
                    answer = await reader.readline()
            if not answer.startswith(b"COMMITTED"):
                raise ValueError(answer)
            times.append(time.perf_counter() - begun)
        writer.close()

    begun = time.perf_counter()
    await asyncio.gather(*[one(number) for number in range(clients)])
    return len(times) / (time.perf_counter() - begun), statistics.median(times) * 1000


def reading(count: int) -> bytes:
    """Transactions that read one record each."""
    return b"".join(b"BEGIN\nGET a%d\nCOMMIT\n" % (number % 1000) for number in range(count))


async def reads(port: int, clients: int, seconds: float, count: int) -> float:
    """Transactions that read, sent ahead by so many: how many a second."""
    done = 0
    end = time.perf_counter() + seconds
    text = reading(count)

    async def one() -> None:
        nonlocal done
        reader, writer = await asyncio.open_connection("127.0.0.1", port)
        while time.perf_counter() < end:
            writer.write(text)
            left = 3 * count
            while left:
                data = await reader.read(1 << 18)
                if not data:
                    raise ConnectionError("closed")
                left -= data.count(b"\n")
            done += count
        writer.close()

    begun = time.perf_counter()
    await asyncio.gather(*[one() for _ in range(clients)])
    return done / (time.perf_counter() - begun)


def alone(count: int, seconds: float) -> float:
    """The same of a store alone, by a pipe."""
    process = subprocess.Popen([AMSERVE, "alone", "--auto", "16"], stdin=subprocess.PIPE, stdout=subprocess.PIPE, bufsize=0)
    assert process.stdin and process.stdout
    into, out = process.stdin, process.stdout

    def turn(text: bytes) -> None:
        left = text.count(b"\n")
        if len(text) > 4096:  # more than the pipe surely takes
            threading.Thread(target=into.write, args=(text,)).start()
        else:
            into.write(text)
        while left:
            left -= (out.read(1 << 18) or b"").count(b"\n")

    turn(b"BEGIN\nLOCK X ! ~\n" + b"".join(b"INS a%d x\n" % number for number in range(1000)) + b"COMMIT\n")
    begun, done, text = time.perf_counter(), 0, reading(count)
    while time.perf_counter() - begun < seconds:
        turn(text)
        done += count
    rate = done / (time.perf_counter() - begun)
    into.close()
    process.wait()
    return rate


def figures_of_writes(cluster: Cluster, seconds: float) -> None:
    for clients in (1, 64):
        rate, median = asyncio.run(puts(cluster.endpoints, clients, seconds))
        print(f"{clients} clients: etcd's puts {rate:.0f} a second, median {median:.2f} ms")
        for is_ahead in (True, False):
            done, took = asyncio.run(writes(cluster.ports[:1] if clients == 1 else cluster.ports[:3], clients, seconds, is_ahead))
            print(f"{clients} clients, {'sent ahead' if is_ahead else 'line by line'}: {done:.0f} transactions a second, "
                  f"{done / rate:.2f} of the puts; median {took:.2f} ms, {took / median:.2f} puts", flush=True)


def by_clients_in_c(cluster: Cluster, program: str, clients: int, ahead: int, seconds: float) -> Tuple[float, float]:
    """Whole transactions, so many sent ahead: how many a second, and the median of their answers in milliseconds."""
    ports, count = ",".join(map(str, cluster.ports[:3 if clients > 1 else 1])), 20 * clients * ahead
    while True:
        words = [program, "whole", ports, str(clients), str(3 * count), str(3 * ahead)]
        begun = time.perf_counter()
        told = subprocess.run(words, capture_output=True, text=True, check=True).stdout
        took = time.perf_counter() - begun
        if took > seconds / 2:
            found = re.search(r"([0-9.]+) ms at the median", told)
            return count / took, float(found[1]) if found else 0
        count *= 2


def figures_of_clients_in_c(cluster: Cluster, seconds: float) -> None:
    program = os.path.join(cluster.folder, "load_clients")
    source = os.path.join(os.path.dirname(os.path.realpath(__file__)), "load_clients.c")
    subprocess.run([*shlex.split(os.environ.get("CC", "cc")), "-O2", "-pthread", "-o", program, source], check=True)
    for clients, ahead in ((1, 1), (64, 1), (64, 100)):
        rate, _ = asyncio.run(puts(cluster.endpoints, clients, seconds))
        done, median = by_clients_in_c(cluster, program, clients, ahead, seconds)
        print(f"{clients} clients in C, {ahead} sent ahead: {done:.0f} transactions a second, {done / rate:.2f} of the puts; "
              f"median {median:.2f} ms", flush=True)


def figures_of_reads(cluster: Cluster, seconds: float) -> None:
    lines = ["BEGIN", "LOCK X ! ~", *(f"INS a{number} x" for number in range(1000)), "COMMIT"]
    cluster.client(0).ask(*lines)
    for count in (1, 1000):
        pipe = alone(count, seconds)
        for at, kind in ((0, "log"), (2, "local")):
            for clients in (1, 16):
                rate = asyncio.run(reads(cluster.ports[at], clients, seconds, count))
                print(f"--reads {kind}, {clients} clients, {count} sent ahead: {rate:.0f} transactions a second, "
                      f"{rate / pipe:.2f} of the store by a pipe", flush=True)


def figures_of_beginning(cluster: Cluster, client: Client, records: int) -> None:
    """A replica that begins with a snapshot."""
    begun = time.perf_counter()
    for first in range(0, records, RUN):
        last = min(first + RUN, records)
        found = [f"r{number:08}=v{number}" for number in range(first, last)]
        rows = [" ".join(found[at:at + 100]) for at in range(0, len(found), 100)]
        client.ask("BEGIN", *["STAGE " + row for row in rows[:-1]], "LOAD " + rows[-1], "COMMIT")
    print(f"{records} records loaded through the log in {time.perf_counter() - begun:.1f} s", flush=True)
    cluster.start_replica(3, "--snapshot", "1")
    cluster.is_ready(3)
    client.ask("BEGIN", "INS zz x", "COMMIT")
    until(lambda: "snapshot of" in cluster.notes(3))
    print(cluster.notes(3).strip())
    for _ in range(3):
        begun = time.perf_counter()
        cluster.start_replica(4, "--snapshot", "0")
        cluster.is_ready(4)
        ready = time.perf_counter() - begun
        answer = cluster.client(4).ask("BEGIN", f"GET r{records - 1:08}", "COMMIT")[1]
        print(f"ready {ready:.2f} s after its start: {answer}", flush=True)
        cluster.kill_replica(4)


def main() -> None:
    words = argparse.ArgumentParser(description=__doc__)
    words.add_argument("--seconds", type=float, default=5)
    words.add_argument("--records", type=int, default=1_000_000)
    asked = words.parse_args()
    print("load average before: {:.1f}, {:.1f}, {:.1f}".format(*os.getloadavg()))
    with tempfile.TemporaryDirectory() as folder:
        cluster = Cluster(folder)
        try:
            for at in range(3):
                cluster.start_replica(at, "--snapshot", "0", "--reads", "local" if at == 2 else "log")
            if not all(cluster.is_ready(at) for at in range(3)):
                sys.exit("bench/replicas.py: a replica isn't ready")
            figures_of_writes(cluster, asked.seconds)
            figures_of_clients_in_c(cluster, asked.seconds)
            figures_of_reads(cluster, asked.seconds / 2)
            if asked.records:
                figures_of_beginning(cluster, cluster.client(0), asked.records)
        finally:
            cluster.close()


if __name__ == "__main__":
    main()
