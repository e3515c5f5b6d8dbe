"""What lies round a replica: TLS and a password, etcd's space, statuses and texts, and the transactions of the Python package."""
from __future__ import annotations

import asyncio
import base64
import hashlib
import os
import socket
import subprocess
import sys
from typing import Any, Callable, List, Tuple

from cluster import Cluster, until
from other_protocols import other_protocols
from support import LIMIT, TOP, fail, wanted

from tiuvrokk_replica.etcd import Etcd, Refused, Unreachable, put_of

sys.path.insert(0, os.path.join(TOP, "python"))

AMREPLICA = os.path.join(TOP, "amreplica")


def run(*words: str, **how: Any) -> Tuple[int, str, str]:
    """Its status, standard output and standard error, of a program that ends by itself."""
    done = subprocess.run([AMREPLICA, *words], capture_output=True, text=True, timeout=LIMIT, check=False, **how)
    return done.returncode, done.stdout, done.stderr


def statuses(cluster: Cluster) -> None:
    """Words, ports and files that are wrong, and a launcher that is a link."""
    link = os.path.join(cluster.folder, "link")
    os.symlink(AMREPLICA, link)
    helped = subprocess.run([link, "--help"], capture_output=True, text=True, timeout=LIMIT, check=False)
    wanted("help by a link", (helped.returncode, "status:" in helped.stdout), (0, True))
    for given in ["", "--port 65536 a:1", "--reads all a:1", "nowhere", "--log a/b a:1", "--limit 0 a:1", "--snapshot -1 a:1",
                  "https://a:1 http://b:1", "--cacert /dev/null http://a:1", "--key x a:1", "--password-file x a:1",
                  "--user a:b --password-file x a:1", "ftp://a:1"]:
        wanted(f"the words {given}", run(*given.split())[:2], (2, ""))
    endpoint = cluster.endpoints[0]
    wanted("a trace that can't be written", run("--trace", "/nowhere/trace", endpoint)[::2],
           (4, "amreplica: /nowhere/trace: No such file or directory\n"))
    names = {**os.environ, "TIUVROKK_REPLICA_LIBRARY": "/nowhere/library"}
    wanted("a library that isn't there", run(endpoint, env=names)[::2],
           (4, "amreplica: the library can't be loaded: /nowhere/library: cannot open shared object file: No such file or directory\n"))
    cluster.start_replica(0, "--log", "statuses", "--snapshot", "1", "--stats")
    wanted("a replica", cluster.is_ready(0), True)
    port = str(cluster.ports[0])
    wanted("a port in use", run("--log", "statuses", "--port", port, endpoint)[::2],
           (4, f"amreplica: port {port}: Address already in use\n"))
    trace = os.path.join(cluster.folder, "later")
    with open(trace, "w", encoding="ascii") as file:
        file.write("earlier\n")
    cluster.client(0).ask("BEGIN", "INS a 1", "COMMIT")
    wanted("a snapshot", until(lambda: "snapshot of" in cluster.notes(0)), True)
    wanted("a trace that comes late", run("--log", "statuses", "--trace", trace, endpoint)[::2],
           (4, f"amreplica: {trace}: the log's beginning is in a snapshot, so no run can be stored\n"))
    with open(trace, encoding="ascii") as file:
        wanted("leaves its file", file.read(), "earlier\n")
    cluster.replicas[0].terminate()
    wanted("its end by SIGTERM", cluster.replicas[0].wait(LIMIT), 0)
    wanted("how it did", "\nSTAT sessions=" in cluster.notes(0) and " commits=1 conflicts=0 unknown=0 " in cluster.notes(0), True)


def certificates(folder: str) -> List[str]:
    """A certificate for 127.0.0.1 that signs itself, and its key. It has no common name: beside passwords etcd's gateway
    refuses clients that have one."""
    files = [os.path.join(folder, "certificate"), os.path.join(folder, "key")]
    words = ["openssl", "req", "-x509", "-newkey", "rsa:2048", "-nodes", "-days", "2", "-subj", "/O=Tiuvrokk",
             "-addext", "subjectAltName=IP:127.0.0.1", "-addext", "extendedKeyUsage=serverAuth,clientAuth",
             "-out", files[0], "-keyout", files[1]]
    subprocess.run(words, check=True, stderr=subprocess.DEVNULL, timeout=LIMIT)
    return files


def reads(cluster: Cluster, key: str) -> List[str]:
    """What a transaction that reads a key is answered, by a session of its own; nothing where that is closed, as one is whose
    transaction's end isn't known."""
    try:
        return cluster.client(0).ask("BEGIN", f"GET {key}", "COMMIT")[1:]
    except ConnectionError:
        return []


def guarded(folder: str) -> None:
    """etcd by TLS, which asks for certificates, and with a password."""
    os.makedirs(folder)
    certificate, key = certificates(folder)
    words = ["--cert-file", certificate, "--key-file", key, "--trusted-ca-file", certificate, "--client-cert-auth"]
    access = ["--cacert", certificate, "--cert", certificate, "--key", key]
    cluster = Cluster(folder, *words, members=1, scheme="https", access=access)
    try:
        for given in (["user", "add", "root:secret"], ["user", "grant-role", "root", "root"], ["auth", "enable"]):
            wanted(f"etcdctl {given}", cluster.status(*given), 0)
        secret = os.path.join(folder, "secret")
        with open(secret, "w", encoding="ascii") as file:
            file.write("secret\n")
        by_file = ["--user", "root", "--password-file", secret]
        os.chmod(secret, 0o644)
        told = f"amreplica: {secret}: others than its owner may read it: chmod 600 {secret}\n"
        wanted("a password that others may read", run(*access, *by_file, cluster.endpoints[0]), (4, "", told))
        os.chmod(secret, 0o600)
        strange = run(*by_file, f"https://{cluster.endpoints[0].rpartition('/')[2]}")
        wanted("a certificate that nobody known signed", (strange[0], "certificate" in strange[2]), (5, True))
        cluster.start_replica(0, *access, *by_file)
        wanted("a replica", cluster.is_ready(0), True)
        client = cluster.client(0)
        wanted("a transaction", client.ask("BEGIN", "INS a 1", "COMMIT")[1:], ["OK", "COMMITTED 1"])
        cluster.kill_member(0)  # which forgets the token
        cluster.start_member(0)
        if not until(lambda: reads(cluster, "a") == ["VAL 1", "COMMITTED 1"]):
            with open(f"{folder}/m0.log", encoding="utf-8", errors="replace") as log:
                fail(f"no read behind a restart; the member: {log.read()[-1000:]}; the replica: {cluster.notes(0)[-1000:]}")
        wanted("a commit", cluster.client(0).ask("BEGIN", "INS b 1", "COMMIT")[1:], ["OK", "COMMITTED 2"])
        wrong = run(*access, "--user", "root", cluster.endpoints[0], input="wrong\n")
        wanted("a wrong password", (wrong[0], wrong[2].startswith("amreplica: etcd: ")), (5, True))
    finally:
        cluster.close()


def exhausted(folder: str) -> None:
    """etcd's space is used up, by others' history and then by the log: nothing more commits, and what stands is read. Once
    the history is compacted and its space given back all goes on, with what was on its way."""
    cluster = Cluster(folder, "--quota-backend-bytes", "20000000", members=1)
    try:
        cluster.start_replica(0, "--limit", "5")
        wanted("a replica", cluster.is_ready(0), True)
        client = cluster.client(0)
        client.ask("BEGIN", "INS first 1", "COMMIT")
        revision = fill_history(cluster)
        wanted("without space", client.ask("BEGIN", "INS late 1", "COMMIT")[2], "ERR UNKNOWN")
        wanted("what is read", client.ask("BEGIN", "GET first", "COMMIT")[1:], ["VAL 1", "COMMITTED 1"])
        for words in (["compact", str(revision)], ["defrag"], ["alarm", "disarm"]):
            # (its own limit is five seconds, which a busy disk may take)
            wanted(f"etcdctl {words}", cluster.status(*words, f"--command-timeout={LIMIT}s"), 0)
        wanted("what was on its way", until(lambda: client.ask("BEGIN", "GET late", "COMMIT")[1] == "VAL 1"), True)
        wanted("a commit", client.ask("BEGIN", "INS next 1", "COMMIT")[2], "COMMITTED 3")
        ends = ["COMMITTED"]
        while ends[-1].startswith("COMMITTED") and len(ends) < 100:
            ends.append(client.ask("BEGIN", *filler(len(ends)), "COMMIT")[-1])
        wanted("the last of many", ends[-1] in ("ERR UNKNOWN", "ERR UNREACHABLE"), True)
        stands = "VAL " + filling("f1.0000")
        wanted("what stands", until(lambda: client.ask("BEGIN", "GET f1.0000", "COMMIT")[1] == stands), True)
        cluster.kill_replica(0)
        cluster.start_replica(0, "--limit", "5")
        wanted("a replica that begins then", cluster.is_ready(0), True)
        client = cluster.client(0)
        wanted("has what stands", until(lambda: client.ask("BEGIN", "GET f1.0000", "COMMIT")[1] == stands), True)
    finally:
        cluster.close()


def fill_history(cluster: Cluster) -> int:
    """Puts another key again and again, until there is no space: the newest revision. A put that only takes long is repeated."""

    async def fill() -> int:
        etcd, revision = Etcd(cluster.endpoints), 0
        for _ in range(100):
            try:
                answer = await etcd.try_once("/v3/kv/put", put_of("other", b"x" * 1_000_000))
                revision = int(answer["header"]["revision"])
            except (Refused, Unreachable) as fault:
                if "space exceeded" in str(fault):
                    return revision
        fail("etcd's space isn't used up")

    return asyncio.run(fill())


def filling(key: str) -> str:
    """A value that no packing makes much smaller."""
    return base64.b64encode(hashlib.sha384(key.encode()).digest()).decode()


def filler(number: int) -> List[str]:
    """Lines of half a million bytes."""
    records = [f"{key}={filling(key)}" for key in (f"f{number}.{at:04}" for at in range(6500))]
    return [f"LOCK X ! {'~' * 32}"] + [f"LOAD {' '.join(records[at:at + 50])}" for at in range(0, 6500, 50)]


def transactions(cluster: Cluster) -> None:
    """The Python package: all that a transaction of an embedded store has, what conflicts runs again, up to a bound, and what only
    sets never conflicts."""
    import tiuvrokk
    from client_cases import all_cases, counters, emptied
    from tiuvrokk.replica import Session

    for at in (0, 1):
        cluster.start_replica(at, "--log", "python", "--limit", "60")
    wanted("replicas", [cluster.is_ready(at) for at in (0, 1)], [True, True])
    ones: List[Callable[[], Any]] = [lambda: tiuvrokk.connect(port=cluster.ports[0]), lambda: tiuvrokk.connect(port=cluster.ports[1])]
    all_cases(lambda: emptied(ones[0]), 400)
    counters([*ones, *ones], 20)
    with ones[0]() as client:
        wanted("what it is", client.is_replica, True)
        wanted("what all added", client.run(lambda tx: tx["count"]), b"80")
        client.run(lambda tx: tx.update(b="3"))
        refusals(client, cluster)
    with Session(cluster.ports[0]) as session:
        session.transaction(lambda tx: tx.update(named="1"))
        wanted("by its former name", session.transaction(lambda tx: tx["named"]), b"1")


def speakers_of_others(cluster: Cluster) -> None:
    """Connections that speak another protocol."""
    cluster.start_replica(2, "--log", "others", "--limit", "60")
    wanted("a replica", cluster.is_ready(2), True)
    other_protocols(lambda: socket.create_connection(("127.0.0.1", cluster.ports[2])))


def refusals(client: Any, cluster: Cluster) -> None:
    """Ends of transactions that don't commit, and many records."""
    import tiuvrokk

    tried: List[int] = []

    def meddled(tx: Any) -> None:
        tried.append(len(tried))
        value = int(tx["b"])
        cluster.client(1).ask("BEGIN", f"REP b {len(tried)}", "COMMIT")
        tx["b"] = str(value + 1000)

    raises("a conflict at each try", tiuvrokk.Conflict, lambda: client.run(meddled, tries=3))
    wanted("tries", len(tried), 3)

    def set_many(prefix: str, number: int) -> Callable[[Any], Any]:
        return lambda tx: tx.update((f"{prefix}{at:04}", str(at)) for at in range(number))

    def set_each(tx: Any) -> None:
        for at in range(4097):
            tx[f"n{at:04}"] = str(at)

    client.run(set_many("m", 2000))
    raises("more operations than a transaction has", tiuvrokk.TooMany, lambda: client.run(set_each))
    found = client.run(lambda tx: list(tx.scan("m", "n~")))
    wanted("records", found, [(b"m%04d" % number, b"%d" % number) for number in range(2000)])
    never_conflicts(client, cluster)


def never_conflicts(client: Any, cluster: Cluster) -> None:
    """A transaction that only sets is one send."""
    asked: List[int] = []
    ask = client._wire.ask

    def counted(lines: List[bytes]) -> Any:
        asked.append(len(lines))
        return ask(lines)

    client._wire.ask = counted

    def set_only(tx: Any) -> None:
        cluster.client(1).ask("BEGIN", f"REP b {len(asked)}", "COMMIT")
        for number in range(100):
            tx[f"s{number}"] = "1"
        tx.discard("s5")

    client.run(set_only, tries=1)
    wanted("sends", [it for it in asked if it], [104])
    wanted("what was set", client.run(lambda tx: tx.count("s", "s~")), 99)


def raises(what: str, kind: Any, call: Callable[[], Any]) -> None:
    try:
        call()
    except kind:
        return
    fail(f"{what} isn't told")
