#!/usr/bin/env python3
"""Replicas over three members of etcd on loopback: clients that move amounts while replicas and members fail, corners that
such designs break in, and a replica that is stopped at each of its requests. --faults N: how many faults, 20 by default;
--seed N: other ones; --only: a part. Where etcd isn't installed, a line says so and nothing is tested."""
from __future__ import annotations

import argparse
import os
import shutil
import sys
import tempfile
import time
from typing import List

sys.dont_write_bytecode = True

from cluster import Cluster
from replica_access import exhausted, guarded, speakers_of_others, statuses, transactions
from replica_bank import LATE, SERVING, TRACING, Bank, compared
from replica_corners import all_corners
from replica_ends import refused_allocations, went_back
from replica_entries import entries_as_bytes, no_entries, operations_alone, taken_over
from replica_faults import Faults
from replica_stops import each_stop
from support import fail

CLIENTS = 16
SNAPSHOT = "300"


def bank(cluster: Cluster, faults: int, seed: int) -> None:
    """Sixteen clients and faults; one replica reads local states, one is reached by etcd through a proxy, one stores the run."""
    words = {at: ["--log", "bank", "--snapshot", SNAPSHOT, "--limit", "10"] for at in range(SERVING)}
    words[SERVING - 1] += ["--reads", "local"]
    trace = os.path.join(cluster.folder, "trace")
    making = Faults(cluster, seed, words)
    cluster.start_replica(TRACING, "--log", "bank", "--snapshot", "0", "--trace", trace)
    for at in range(SERVING):
        making.start_replica(at)
    wrong = [f"replica {at} isn't ready: {cluster.notes(at)[-500:]}" for at in range(TRACING + 1) if not cluster.is_ready(at)]
    if wrong:
        fail("; ".join(wrong))
    accounts = Bank(cluster, seed)
    accounts.begin(CLIENTS)
    try:
        for _ in range(faults):
            accounts.wrong += filter(None, [making.make(SERVING)])
            if accounts.wrong:
                break
    finally:
        accounts.end()
    cluster.start_replica(LATE, "--log", "bank", "--snapshot", "0")
    accounts.wrong += [f"replica {at} ended: {cluster.notes(at)[-500:]}" for at in range(LATE + 1) if not cluster.is_ready(at)]
    found = compared(accounts, trace) if not accounts.wrong else accounts.wrong
    written = sum(cluster.notes(at).count("snapshot of") for at in range(LATE + 1))
    anew = sum(cluster.notes(at).count("beginning anew") for at in range(LATE + 1))
    print(f"replicas: {sum(making.done.values())} faults, {dict(making.done)}; {written} snapshots, {anew} replicas began anew")
    making.close()
    if found:
        fail("; ".join(found[:9]))


def asked() -> argparse.Namespace:
    words = argparse.ArgumentParser(description=__doc__)
    words.add_argument("--faults", type=int, default=20, metavar="N")
    words.add_argument("--seed", type=int, default=1, metavar="N")
    words.add_argument("--only", choices=("bank", "corners", "stops"))
    return words.parse_args()


def main() -> None:
    given = asked()
    missing: List[str] = [program for program in ("etcd", "etcdctl") if not shutil.which(program)]
    if missing:
        print(f"replicas: {' and '.join(missing)} not installed: nothing was tested")
        return
    with tempfile.TemporaryDirectory() as folder:
        begun = time.monotonic()
        cluster = Cluster(folder)
        try:
            if given.only in (None, "bank"):
                bank(cluster, given.faults, given.seed)
                print(f"replicas: faults: {time.monotonic() - begun:.0f} s", flush=True)
            for at in cluster.replicas:
                cluster.kill_replica(at)
            if given.only in (None, "corners"):
                entries_as_bytes()
                operations_alone(cluster)
                no_entries(cluster)
                taken_over(cluster)
                for at in cluster.replicas:
                    cluster.kill_replica(at)
                all_corners(cluster)
                for at in cluster.replicas:
                    cluster.kill_replica(at)
                statuses(cluster)
                transactions(cluster)
                speakers_of_others(cluster)
                for at in cluster.replicas:
                    cluster.kill_replica(at)
                refused_allocations(cluster)
        finally:
            cluster.close()
        if given.only in (None, "stops"):
            each_stop(os.path.join(folder, "stops"))
        if given.only in (None, "corners"):
            guarded(os.path.join(folder, "guarded"))
            exhausted(os.path.join(folder, "exhausted"))
            went_back(os.path.join(folder, "back"))
        print(f"replicas: {time.monotonic() - begun:.0f} s")
    print("replicas: all as expected")


if __name__ == "__main__":
    main()
