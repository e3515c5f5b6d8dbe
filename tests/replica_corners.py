"""What such designs break in, one by one, at three replicas of one log."""
from __future__ import annotations

import asyncio
import json
import signal
import threading
import time
from types import SimpleNamespace
from typing import Any, Callable, Dict, List, Sequence, Tuple

from cluster import Client, Cluster, until
from replica_ends import largest_block
from support import fail, wanted

from tiuvrokk_replica.etcd import Etcd, Refused, decoded, encoded
from tiuvrokk_replica.library import StoreEnded
from tiuvrokk_replica.log import Event, Log
from tiuvrokk_replica.reader import WentBack
from tiuvrokk_replica.snapshots import put_pieces

NAME = "corners"
LIMIT = 60
SHORT_LIMIT = 3
EVERYTHING = "! " + "~" * 32
FLOOR_EVERY = "3"


def request(cluster: Cluster, path: str, message: Dict[str, Any]) -> Dict[str, Any]:
    """A request to etcd, as replicas make it."""
    return asyncio.run(Etcd(cluster.endpoints).must(path, message))


def kept(cluster: Cluster, folder: str) -> List[Tuple[int, str, bytes]]:
    """The keys of the log below a folder, by rising revision."""
    area = {"key": encoded(f"{NAME}/{folder}".encode()), "range_end": encoded(f"{NAME}/{folder}~".encode())}
    found = request(cluster, "/v3/kv/range", area).get("kvs", [])
    return sorted((int(kv["create_revision"]), decoded(kv["key"]).decode(), decoded(kv.get("value", ""))) for kv in found)


def floors(cluster: Cluster) -> int:
    """How many snapshots were written."""
    found = kept(cluster, "floor")
    return int(json.loads(found[0][2])["generation"]) if found else 0


def start(cluster: Cluster, at: int, *words: str, limit: int = LIMIT, under: Sequence[str] = ()) -> None:
    cluster.start_replica(at, "--log", NAME, "--limit", str(limit), *words, under=under)
    if not cluster.is_ready(at):
        fail(f"replica {at} isn't ready: {cluster.notes(at)[-500:]}")


def sees(cluster: Cluster, at: int, key: str) -> str:
    """What a transaction of that replica alone reads."""
    client = cluster.client(at)
    answer = client.ask("BEGIN", f"GET {key}", "COMMIT")[1]
    client.close()
    return answer


def phantoms(one: Client, two: Client) -> None:
    """A scan conflicts with a record that came between; a read at once doesn't, and takes no number."""
    one.ask("BEGIN", "INS a 1", "INS c 3", "COMMIT")
    wanted("two records", one.ask("BEGIN", "SCAN a c 9")[1], "ROWS 2 a=1 c=3")
    wanted("a line", one.ask("INS x 1"), ["OK"])
    number = int(two.ask("BEGIN", "INS b 2", "COMMIT")[2].split()[1])
    wanted("a phantom", one.ask("COMMIT"), ["ERR CONFLICT"])
    wanted("behind it", one.ask("GET a"), ["ERR NOTX"])
    wanted("three records", one.ask("BEGIN", "SCAN a c 9", "COMMIT")[1:], ["ROWS 3 a=1 b=2 c=3", f"COMMITTED {number}"])
    wanted("what wrote nothing", two.ask("BEGIN", "INS a 1")[1:] + two.ask("COMMIT"), ["EXISTS a", f"COMMITTED {number}"])


def one_state(one: Client, two: Client) -> None:
    """Nothing that a transaction is told mixes two states: behind a change its lines are refused up to its end."""
    one.ask("BEGIN", "GET a")
    two.ask("BEGIN", "REP a 5", "COMMIT")
    wanted("a refused line", until(lambda: one.ask("GET b") == ["ERR CONFLICT"]), True)
    wanted("all behind it", one.ask("INS d 4", "COMMIT"), ["ERR CONFLICT"] * 2)
    wanted("nothing of it stands", one.ask("BEGIN", "GET d", "ABORT")[1:], ["NONE", "ABORTED"])


def pipelines(one: Client) -> None:
    """Lines of all kinds, sent together."""
    lines = ["COMMIT", "BEGIN", "INS p1 1", "COMMIT", "BEGIN", "GET p1", "COMMIT", "BEGIN", "INS p2 1", "ABORT",
             "BEGIN", "GET p2", "BEGIN", "foo", "REP p1 2", "COMMIT", "MERGE 65", "CLEAN z a 1",
             "BEGIN", "GET p1", "GET " + "k" * 33, "x" * 5000, "COMMIT"]
    right = ["ERR NOTX", "BEGUN", "OK", "COMMITTED", "BEGUN", "VAL 1", "COMMITTED", "BEGUN", "OK", "ABORTED",
             "BEGUN", "NONE", "ERR ACTIVE", "ERR SYNTAX", "OK", "COMMITTED", "ERR LIMIT", "ERR RANGE",
             "BEGUN", "VAL 2", "ERR RANGE", "ERR LONG", "COMMITTED"]
    answers = [answer.split()[0] if answer[0] in "BC" else answer for answer in one.ask(*lines)]
    wanted("lines of all kinds", answers, right)
    one.socket.sendall(b"BEGIN\r\nGET p1\r\r\nGET p1\r\nCOMMIT\r\r\nCOMMIT\r\n")
    answers = [one.answer().split(" ")[0] for _ in range(5)]
    wanted("CR CR LF", answers, ["BEGUN", "ERR", "VAL", "ERR", "COMMITTED"])
    number = one.ask("BEGIN", "COMMIT")[1].split()[1]
    wanted("SEEN", one.ask("SEEN")[0].split()[::2], ["SEEN", number])


def endings(cluster: Cluster) -> None:
    """Who has a transaction at a replica, and an end to it, inside a transaction and without one, and to oneself."""
    one, two = cluster.client(0), cluster.client(0)
    first, second = (it.ask("SEEN")[0].split()[1] for it in (one, two))
    wanted("nobody", one.ask("WHO", "END 99", "END x", f"END {2**64}"), ["WHO 0", "ERR SESSION", "ERR SYNTAX", "ERR RANGE"])
    two.ask("BEGIN", "INS e1 1")
    wanted("one", one.ask("WHO"), [f"WHO 1 {second}:1:0"])
    wanted("all", {f"{first}:0:0", f"{second}:1:0"} <= set(one.ask("WHO ALL")[0].split()[2:]), True)
    wanted("beside it", one.ask("BEGIN", "INS e2 1", "WHO", "END 99")[2:], [f"WHO 2 {first}:1:0 {second}:1:0", "ERR SESSION"])
    wanted("its end", one.ask(f"END {second}", "WHO", f"END {second}"), ["OK", f"WHO 1 {first}:1:0", "ERR SESSION"])
    wanted("its connection", two.file.readline(), b"")
    wanted("who ended it goes on", one.ask("GET e1", "COMMIT")[0], "NONE")
    one.ask("BEGIN")
    one.send(f"END {first}", "SEEN")
    wanted("its own end", (one.answer(), one.file.readline()), ("OK", b""))
    other = cluster.client(0)
    wanted("nobody is left", other.ask("WHO"), ["WHO 0"])
    for client in (one, two, other):
        client.close()


def sent_ahead(cluster: Cluster) -> None:
    """Whole transactions and parts of others, sent one behind the other with no wait: the answers come in their order."""
    client = cluster.client(0)
    client.send("BEGIN", "INS q1 COMMIT", "COMMIT", "BEGIN", "DEL q1", "INS q1 BEGIN", "COMMIT")
    client.send("BEGIN", "INS q2 1", "COMMIT")
    time.sleep(0.001)
    client.send("BEGIN", "GET q1", "GET q2", "COMMIT")
    client.send("BEGIN", "INS q3 1")
    client.send("COMMIT", "BEGIN", "INS q4 1", "foo", "ABORT", "QUIT")
    answers = [client.answer() for _ in range(22)]
    first = int(answers[2].split()[1])
    right = ["BEGUN 1", "OK", f"COMMITTED {first}", "BEGUN 2", "OK", "OK", f"COMMITTED {first + 1}", "BEGUN 3", "OK",
             f"COMMITTED {first + 2}", "BEGUN 4", "VAL BEGIN", "VAL 1", f"COMMITTED {first + 2}", "BEGUN 5", "OK",
             f"COMMITTED {first + 3}", "BEGUN 6", "OK", "ERR SYNTAX", "ABORTED", "BYE"]
    wanted("answers in their order", answers, right)
    client = cluster.client(0)
    for number in range(2000):  # more than may be on their way, in small pieces
        client.send("BEGIN", f"REP q1 {number}", "COMMIT")
    answers = [client.answer() for _ in range(6000)]
    first = int(answers[2].split()[1])
    right = [answer for number in range(2000) for answer in (f"BEGUN {number + 1}", "OK", f"COMMITTED {first + number}")]
    wanted("answers to many", answers == right, True)


def staging(one: Client, two: Client) -> None:
    """Records that are staged: faults, and a run of more than 65,536, at another replica."""
    answers = one.ask("BEGIN", "STAGE s1=1 s2=2", "COMMIT", "LOAD s3=3", "STAGE s4=4", "LOAD s1=1", "COMMIT",
                      "BEGIN", "SCAN s1 s9 9", "COMMIT")
    wanted("staged lines", answers[1:6], ["OK", "ERR STAGED", "OK", "OK", "ERR ORDER"])
    wanted("what is loaded", answers[8], "ROWS 3 s1=1 s2=2 s3=3")
    records = [f"w{number:05}={number:020}" for number in range(65_536)]  # more than a piece of the log
    one.ask("BEGIN")
    for at in range(0, len(records), 128):
        wanted("a staged line", one.ask("STAGE " + " ".join(records[at:at + 128])), ["OK"])
    wanted("the load", one.ask("STAGE wx=1", "LOAD wx=1 wy=2"), ["ERR LIMIT", "OK"])
    wanted("its end", one.ask("COMMIT")[0].split()[0], "COMMITTED")
    wanted("the run elsewhere", two.ask("BEGIN", "SCAN w65535 wz 9", "COMMIT")[1], f"ROWS 3 {records[-1]} wx=1 wy=2")


def always_in_conflict(cluster: Cluster, one: Client) -> None:
    """Two clients at two replicas that write one record: both get on."""
    one.ask("BEGIN", "INS fight 0", "COMMIT")
    done = [0, 0]

    def fight(me: int) -> None:
        client = cluster.client(me)
        end = time.monotonic() + 60
        while time.monotonic() < end and (done[me] < 20 or min(done) == 0):
            value = client.ask("BEGIN", "GET fight")[1]
            if value.startswith("VAL") and client.ask(f"REP fight {int(value[4:]) + 1}") == ["OK"]:
                done[me] += client.ask("COMMIT")[0].startswith("COMMITTED")
            else:
                client.ask("ABORT")

    fights = [threading.Thread(target=fight, args=(me,)) for me in (0, 1)]
    for thread in fights:
        thread.start()
    for thread in fights:
        thread.join()
    wanted("what both made of it", one.ask("BEGIN", "GET fight", "COMMIT")[1], f"VAL {sum(done)}")
    wanted("each got on", min(done) > 0, True)


def long_transaction(cluster: Cluster, one: Client) -> None:
    """4,090 lines one by one, beside another client's transactions."""
    stop = threading.Event()

    def other() -> None:
        client, step = cluster.client(0), 0
        while not stop.is_set():
            step += 1
            client.ask("BEGIN", f"INS o{step} 1", "COMMIT")
            time.sleep(0.05)

    thread = threading.Thread(target=other)
    thread.start()
    try:
        one.ask("BEGIN", f"LOCK X {EVERYTHING}")
        answers = {answer for number in range(4090) for answer in one.ask(f"INS l{number} 1")}
        wanted("answers", answers, {"OK"})
        wanted("its end", one.ask("COMMIT")[0].split()[0], "COMMITTED")
    finally:
        stop.set()
        thread.join()


def many_runs(one: Client) -> None:
    """70,000 LOADs that are aborted: more runs than a store makes in its life."""
    lines = ["BEGIN", f"LOCK X {EVERYTHING}", *(f"LOAD u{number:03}=1" for number in range(1000)), "ABORT"]
    for _ in range(70):
        wanted("aborted loads", set(one.ask(*lines)[1:]), {"OK", "ABORTED"})
    wanted("what was there", one.ask("BEGIN", "GET c", "GET u001", "COMMIT")[1:3], ["VAL 3", "NONE"])


def large_answers(one: Client) -> None:
    """A transaction's answers have a bound; what is beyond it isn't done, and the transaction goes on."""
    records = [f"v{number:031}={'v' * 64}" for number in range(1000)]
    lines = ["STAGE " + " ".join(records[at:at + 40]) for at in range(0, 960, 40)] + ["LOAD " + " ".join(records[960:])]
    wanted("records of the greatest size", set(one.ask("BEGIN", *lines)[1:]), {"OK"})
    one.ask("COMMIT")
    one.ask("BEGIN")
    answers = [one.ask("SCAN v v~ 1000")[0] for _ in range(660)]
    sizes = [len(answer) + 1 for answer in answers if answer.startswith("ROWS 1000")]
    wanted("the longest answers", set(sizes), {98_010})
    wanted("others", [answer for answer in answers if not answer.startswith("ROWS")], ["ERR LIMIT"] * (660 - len(sizes)))
    wanted("how many 64,000,000 bytes have room for", len(sizes), 652)
    wanted("its end", one.ask("GET a", "COMMIT")[0], "VAL 5")


def puts_again(cluster: Cluster, one: Client, two: Client) -> None:
    """A put that comes once more, at once, late, and behind the end of its generation, does nothing."""
    number = int(one.ask("BEGIN", "INS again 1", "COMMIT")[2].split()[1])
    _, key, value = kept(cluster, "log/")[-1]
    tail = (f"{NAME}/tail", key.rpartition("/")[2].rpartition(".")[0].encode())
    puts = {"success": [{"requestPut": {"key": encoded(it.encode()), "value": encoded(text)}} for it, text in ((key, value), tail)]}
    request(cluster, "/v3/kv/txn", puts)
    wanted("the next number", one.ask("BEGIN", "DEL again", "COMMIT")[2], f"COMMITTED {number + 1}")
    request(cluster, "/v3/kv/txn", puts)
    cluster.kill_replica(2)
    start(cluster, 2, "--snapshot", FLOOR_EVERY)
    for _ in range(3):
        before = floors(cluster)
        wanted("a snapshot", until(lambda: two.ask("BEGIN", "INS y 1", "DEL y", "COMMIT") and floors(cluster) > before), True)
    wanted("the key has gone", until(lambda: key not in [found for _, found, _ in kept(cluster, "log/")]), True)
    request(cluster, "/v3/kv/txn", puts)
    wanted("snapshots at rest", until(lambda: not kept(cluster, "claim/")), True)
    cluster.kill_replica(2)
    start(cluster, 2, "--snapshot", FLOOR_EVERY)
    wanted("the record", [sees(cluster, at, "again") for at in range(3)], ["NONE"] * 3)


def slept(cluster: Cluster, generations: int) -> None:
    """A replica that sleeps while snapshots are written and the history goes; beyond the first it begins anew by itself."""
    process = cluster.replicas[1]
    process.send_signal(signal.SIGSTOP)
    for at in range(3):  # what was on its way to it is lost too
        cluster.kill_member(at)
        cluster.start_member(at)
    wanted("etcd", until(lambda: cluster.status("endpoint", "status") == 0), True)
    one = cluster.client(0)
    before = floors(cluster)
    while floors(cluster) < before + generations:
        one.ask("BEGIN", "INS y 1", "DEL y", "COMMIT")
        time.sleep(1)  # so that one generation is one
    wanted("a commit", one.ask("BEGIN", f"INS slept{generations} 1", "COMMIT")[2].split()[0], "COMMITTED")
    revision = request(cluster, "/v3/kv/range", {"key": encoded(b"none")})["header"]["revision"]
    try:
        request(cluster, "/v3/kv/compaction", {"revision": revision})
    except Refused:
        pass  # it was compacted further
    process.send_signal(signal.SIGCONT)
    if generations > 1:
        wanted("it begins anew", until(lambda: "beginning anew" in cluster.notes(1)), True)
        wanted("and is ready", until(lambda: process.poll() is None and is_answered(cluster, 1)), True)
    wanted("what it reads", sees(cluster, 1, f"slept{generations}"), "VAL 1")


def is_answered(cluster: Cluster, at: int) -> bool:
    try:
        return sees(cluster, at, "c") == "VAL 3"
    except OSError:
        return False


def no_majority(cluster: Cluster) -> None:
    """What was on its way isn't known, what waited wasn't done, what reads is refused; then all goes on."""
    for at in range(3):
        cluster.kill_replica(at)
        start(cluster, at, "--reads", "local" if at == 2 else "log", limit=SHORT_LIMIT)
    local = cluster.client(2)
    wanted("a local read", until(lambda: local.ask("BEGIN", "GET a", "COMMIT")[1] == "VAL 5"), True)
    for at in (0, 1):
        cluster.stop_member(at)
    clients = [cluster.client(0) for _ in range(3)]
    for number, client in enumerate(clients):
        client.send("BEGIN", f"INS cut{number} 1", "COMMIT")
        time.sleep(0.3)
    wanted("a read", cluster.client(1).ask("BEGIN", "GET a", "COMMIT")[1:], ["ERR UNREACHABLE"] * 2)
    ends = [[client.answer() for _ in range(3)][2] for client in clients]
    wanted("what COMMIT is told", ends, ["ERR UNKNOWN", "ERR UNREACHABLE", "ERR UNREACHABLE"])
    old = ["ERR UNREACHABLE"] * 2
    wanted("a local read of what is too old", until(lambda: local.ask("BEGIN", "GET a", "COMMIT")[1:] == old), True)
    for at in (0, 1):
        cluster.continue_member(at)
    wanted("and back", until(lambda: cluster.client(0).ask("BEGIN", "REP a 6", "COMMIT")[2].startswith("COMMITTED")), True)
    for number in (1, 2):
        wanted("what wasn't done", until(lambda: sees(cluster, 1, f"cut{number}") == "NONE"), True)
    wanted("a local read again", until(lambda: local.ask("BEGIN", "GET a", "COMMIT")[1] == "VAL 6"), True)
    for at in range(3):
        cluster.kill_replica(at)
        start(cluster, at)


def equal(cluster: Cluster) -> None:
    contents = [cluster.client(at).records() for at in range(3)]
    wanted("equal records", [content == contents[0] for content in contents], [True] * 3)


def refused_memory(cluster: Cluster) -> None:
    """A replica that is refused memory ends; the others go on."""
    with open(f"/proc/{cluster.replicas[0].pid}/status", encoding="ascii") as status:
        size = next(int(line.split()[1]) for line in status if line.startswith("VmSize:"))
    start(cluster, 3, under=["sh", "-c", f'ulimit -v {size + 30_000}; exec "$@"', "sh"])
    one = cluster.client(1)
    keys = [f"m{number:06}" for number in range(500_000)]
    # (values of 16 bytes or fewer would fit into the memory that there is)
    value = 17 * "v"
    rows = [" ".join(f"{key}={value}" for key in keys[at:at + 125]) for at in range(0, len(keys), 125)]
    for at in range(0, len(rows), 200):
        lines = [f"STAGE {row}" for row in rows[at:at + 199]] + [f"LOAD {rows[at + 199]}"]
        wanted("a load", set(one.ask("BEGIN", *lines)[1:]), {"OK"})
        wanted("its end", one.ask("COMMIT")[0].split()[0], "COMMITTED")
    wanted("a replica that is refused memory", cluster.replicas[3].wait(60), 3)
    wanted("what it says", "amreplica: the store: memory was refused" in cluster.notes(3), True)
    wanted("the others", [sees(cluster, at, keys[-1]) for at in (1, 2)], [f"VAL {value}"] * 2)


class WithoutPieces:
    """A cluster that has let go all pieces of snapshots, and whose floor was put at that revision."""

    def __init__(self, floor: int) -> None:
        self.floor = floor

    async def must(self, _path: str, _message: Dict[str, Any]) -> Dict[str, Any]:
        return {}

    async def get(self, key: str) -> Dict[str, Any]:
        return {"kvs": [{"mod_revision": str(self.floor)}]} if key == f"{NAME}/floor" else {}


def piece_let_go() -> None:
    """A piece of a snapshot is gone where another one came first, of which was not heard yet. Else the store ends."""
    def put(newest: int) -> str:
        log: Any = SimpleNamespace(name=NAME, floor=Event(5, f"{NAME}/floor", ""), etcd=WithoutPieces(newest))
        try:
            return str(asyncio.run(put_pieces(log, log.floor, "mine", [b"piece"])))
        except StoreEnded:
            return "ended"

    wanted("a piece that a later snapshot let go", put(6), "None")
    wanted("a piece that nobody let go", put(5), "ended")


def begun_within_an_entry() -> None:
    """Who begins by a snapshot reads from before it on, where an entry had begun whose head hadn't come. Of another one, which the
    snapshot has, it may be shown the end alone."""
    def put(revision: int, piece: str) -> Event:
        entry, _, number = piece.partition(".")
        return Event(revision, f"{NAME}/log/00000000/{names[entry]}.{number}", encoded(piece.encode()))

    def taken(since: int) -> Log:
        log = Log(None, NAME)  # type: ignore[arg-type]
        entries = [entry for event in events if event.revision > since and (entry := log.take(event))]
        wanted("the entries that are read", [entry.name for entry in entries], [names["whole"]])
        try:
            texts.append(entries[0].text().decode())
        except WentBack as fault:
            texts.append(str(fault))
        return log

    texts: List[str] = []
    names = {"whole": f"{1:032x}-1", "later": f"{2:032x}-1"}
    events = [put(2, "whole.0"), put(3, "later.0"), put(4, "whole.1"), put(5, "whole.!")]
    since = taken(0).first(5)
    taken(since)
    wanted("its text, from the beginning and from there", texts, ["whole.0whole.1whole.!", f"pieces of the entry {names['whole']} weren't shown"])


def all_corners(cluster: Cluster) -> None:
    """Each of them, on one log."""
    for at in range(3):
        start(cluster, at, "--snapshot", "0")
    one, two = cluster.client(0), cluster.client(1)
    corners: List[Tuple[str, Callable[[], None]]] = [
        ("phantoms", lambda: phantoms(one, two)),
        ("one state", lambda: one_state(one, two)),
        ("pipelines", lambda: pipelines(one)),
        ("endings", lambda: endings(cluster)),
        ("sent ahead", lambda: sent_ahead(cluster)),
        ("staging", lambda: staging(one, two)),
        ("always in conflict", lambda: always_in_conflict(cluster, one)),
        ("a long transaction", lambda: long_transaction(cluster, one)),
        ("many runs", lambda: many_runs(one)),
        ("large answers", lambda: large_answers(one)),
        ("puts again", lambda: puts_again(cluster, one, two)),
        ("a piece that is gone", piece_let_go),
        ("begun within an entry", begun_within_an_entry),
        ("slept", lambda: slept(cluster, 1)),
        ("slept longer", lambda: slept(cluster, 3)),
        ("no majority", lambda: no_majority(cluster)),
        ("equal", lambda: equal(cluster)),
        ("refused memory", lambda: refused_memory(cluster)),
        ("the largest block", lambda: largest_block(cluster.client(1), cluster.client(2))),
    ]
    for name, corner in corners:
        begun = time.monotonic()
        corner()
        print(f"replicas: {name}: {time.monotonic() - begun:.1f} s", flush=True)
