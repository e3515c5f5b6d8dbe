"""What ends a replica, while the others go on: memory that its store is refused, a cluster that went back. And a block of the
greatest size, which ends none."""
from __future__ import annotations

import os
import shlex
import shutil
import signal
import subprocess
from typing import List, Optional

from cluster import Client, Cluster, until
from support import LIMIT, TOP, fail, wanted

# The log that refused stores read, the replica that goes on, and those that are tried at a time.
LOG = "refused"
LASTING, TRIED = 0, (3, 4, 5)
# From which of a store's allocations on all are refused.
POINTS = [*range(1, 12), *(int(12 * 1.35 ** power) for power in range(19))]
# Records of a line, and lines of a run, so that a line counts 4,000 bytes of the 64,000,000 that a block has.
LINE_RECORDS, RUN_LINES, LINES = 41, 1_599, 16_000


def load_line(name: str, number: int) -> str:
    """A LOAD of a hundred records."""
    return "LOAD " + " ".join(f"{name}{number:03}.{at:02}=v" for at in range(100))


def refusing_library(folder: str) -> str:
    """The library, with allocations of its own that can be refused."""
    library, names = os.path.join(folder, "refusing.so"), os.path.join(folder, "names")
    subprocess.run([f"{TOP}/install-library", "--replica", f"{folder}/installed"], check=True)
    with open(names, "w", encoding="ascii") as file:
        file.write("{ global: tvk_*; local: *; };\n")
    archive = f"{folder}/installed/lib/libtiuvrokk_replica.a"
    subprocess.run([*shlex.split(os.environ.get("CC", "cc")), "-O2", "-shared", "-fPIC", "-o", library, f"-Wl,--version-script={names}",
                    f"{TOP}/tests/refuse_memory.c", "-Wl,--whole-archive", archive, "-Wl,--no-whole-archive", "-lpthread"],
                   check=True, timeout=LIMIT)
    return library


def refused_allocations(cluster: Cluster) -> None:
    """All allocations of a store from one on are refused, for some in turn: its replica ends with status 3, at its start or once it
    needs memory, and tells nothing else than the others."""
    library = refusing_library(os.path.join(cluster.folder, "refusing"))
    cluster.start_replica(LASTING, "--log", LOG, "--snapshot", "0")
    wanted("a replica that goes on", cluster.is_ready(LASTING), True)
    one = cluster.client(LASTING)
    for number in range(20):
        wanted("a block", one.ask("BEGIN", load_line("r", number), "SCAN r r~ 50", "COMMIT")[3].split()[0], "COMMITTED")
    for at in range(0, len(POINTS), len(TRIED)):
        some = dict(zip(TRIED, POINTS[at:at + len(TRIED)]))
        for replica, point in some.items():
            names = {"TIUVROKK_REPLICA_LIBRARY": library, "REFUSE_FROM": str(point)}
            cluster.start_replica(replica, "--log", LOG, "--snapshot", "0", **names)
        for replica, point in some.items():
            end_of(cluster, one, replica, f"a store refused from its allocation {point} on")
    cluster.kill_replica(LASTING)
    print(f"replicas: allocations of a store from {len(POINTS)} points on were refused, the last one {POINTS[-1]}")


def end_of(cluster: Cluster, one: Client, replica: int, what: str) -> None:
    """The replica has ended, or serves what the others do until further blocks end it."""
    process, number = cluster.replicas[replica], 20
    if cluster.is_ready(replica):
        try:
            answers = cluster.client(replica).ask("BEGIN", "SCAN r r~ 1000", "COMMIT")
            wanted(f"what is told by {what}", answers[1], one.ask("BEGIN", "SCAN r r~ 1000", "COMMIT")[1])
        except OSError:
            pass  # it has ended since
    while process.poll() is None and number < 400:
        answers = one.ask("BEGIN", load_line("s", number), *(f"DEL s{number:03}.{at:02}" for at in range(100)), "COMMIT")
        wanted("the others", answers[-1].split()[0], "COMMITTED")
        number += 1
    wanted(what, process.wait(LIMIT), 3)
    wanted(f"what it says of {what}", "amreplica: the store: " in cluster.notes(replica), True)


def largest_block(one: Client, two: Client) -> None:
    """Lines that count just 64,000,000 bytes commit, at all replicas; one more is refused before."""
    value = "v" * 64
    rows = [[f"x{at + number:028}={value}" for number in range(LINE_RECORDS)] for at in range(0, LINES * LINE_RECORDS, LINE_RECORDS)]
    one.ask("BEGIN")
    for first in range(0, LINES, RUN_LINES):
        run = rows[first:first + RUN_LINES]
        run[-1][-1] = run[-1][-1].replace("=", "~=")  # as long as a STAGE, which has one letter more
        lines = [*("STAGE " + " ".join(row) for row in run[:-1]), "LOAD " + " ".join(run[-1])]
        wanted("the length of each line", {len(line) for line in lines}, {3_900})
        wanted("a run", set(one.ask(*lines)), {"OK"})
    wanted("a line more", one.ask("GET a"), ["ERR LIMIT"])
    wanted("the end", one.ask("COMMIT")[0].split()[0], "COMMITTED")
    wanted("the last record elsewhere", two.ask("BEGIN", f"GET {rows[-1][-1].partition('=')[0]}", "COMMIT")[1], f"VAL {value}")


def went_back(folder: str) -> None:
    """A member that is restored from a backup: who read more ends with status 6, also where the log went on meanwhile."""
    cluster = Cluster(folder, members=1)
    try:
        for at in range(3):
            cluster.start_replica(at, "--limit", "60", "--reads", "local" if at == 2 else "log")
        wanted("replicas", [cluster.is_ready(at) for at in range(3)], [True] * 3)
        backup = os.path.join(folder, "backup")
        one, sleeper = cluster.client(0), cluster.client(1)
        one.ask("BEGIN", "INS kept 1", "COMMIT")
        wanted("a backup", cluster.status("snapshot", "save", backup), 0)
        one.ask("BEGIN", "INS lost 1", "COMMIT")
        wanted("what all read", [sees(cluster, at, "lost") for at in range(3)], ["VAL 1"] * 3)
        cluster.replicas[1].send_signal(signal.SIGSTOP)
        restore(cluster, backup)
        wanted("ends", [cluster.replicas[at].wait(LIMIT) for at in (0, 2)], [6, 6])
        wanted("what is said", "amreplica: etcd went back: " in cluster.notes(0), True)
        cluster.start_replica(0)
        wanted("a replica that begins then", cluster.is_ready(0), True)
        wanted("what it reads", [sees(cluster, 0, key) for key in ("kept", "lost")], ["VAL 1", "NONE"])
        one = cluster.client(0)
        for number in range(20):
            wanted("the log goes on", one.ask("BEGIN", f"INS new{number} 1", "COMMIT")[2], f"COMMITTED {number + 2}")
        sleeper.send("BEGIN", "GET lost", "COMMIT")
        cluster.replicas[1].send_signal(signal.SIGCONT)
        wanted("what who slept tells of it", [it for it in answers_up_to_end(sleeper) if not it.startswith("BEGUN")], [])
        wanted("its end", cluster.replicas[1].wait(LIMIT), 6)
    finally:
        cluster.close()


def sees(cluster: Cluster, at: int, key: str) -> Optional[str]:
    """What a replica tells of a key; one that reads local states may need a moment."""
    found: List[str] = []

    def is_there() -> bool:
        client = cluster.client(at)
        found[:] = client.ask("BEGIN", f"GET {key}", "COMMIT")
        client.close()
        return found[1] != "NONE"

    until(is_there, 2)
    return found[1]


def answers_up_to_end(client: Client) -> List[str]:
    found: List[str] = []
    try:
        while True:
            found.append(client.answer())
    except OSError:
        return found


def restore(cluster: Cluster, backup: str) -> None:
    """The one member ends, and begins again from a backup."""
    cluster.kill_member(0)
    data, peer = f"{cluster.folder}/m0", f"http://127.0.0.1:{cluster.peers[0]}"
    shutil.rmtree(data)
    words = ["snapshot", "restore", backup, "--data-dir", data, "--name", "m0", "--initial-cluster", f"m0={peer}"]
    wanted("etcdctl's restore", cluster.status(*words, "--initial-advertise-peer-urls", peer), 0)
    cluster.start_member(0)
    if not until(lambda: cluster.status("endpoint", "status") == 0):
        fail("etcd isn't ready")
