"""Clients that move amounts between accounts over several replicas, and what has to be right of it whatever failed meanwhile."""
from __future__ import annotations

import random
import re
import subprocess
import threading
import time
from collections import Counter
from typing import Dict, List, Optional, Set

from cluster import AUDITOR, Client, Cluster
from support import LIMIT

ACCOUNTS, AMOUNT, COUNTERS = 50, 1000, 9
# Replicas that clients speak to; the next one keeps the trace, and the one behind it begins when all is over.
SERVING = 3
TRACING, LATE = SERVING, SERVING + 1
# Tries of a transaction that reads line by line.
TRIES = 1000


class Bank:
    """What clients were told, and what of it can't be right."""

    def __init__(self, cluster: Cluster, seed: int) -> None:
        self.cluster, self.seed = cluster, seed
        self.told: Dict[str, int] = {}  # the key that a transfer leaves, and its commit's number
        self.unknown: Set[str] = set()  # keys of those that may stand
        self.counts: Counter[str] = Counter()
        self.wrong: List[str] = []
        self.stop = threading.Event()
        self.lock = threading.Lock()
        self.threads: List[threading.Thread] = []

    def begin(self, clients: int) -> None:
        """Opens the accounts, and lets the clients begin once each replica has them."""
        lines = [f"INS a{number:02} {AMOUNT}" for number in range(ACCOUNTS)] + [f"INS n{number} -" for number in range(COUNTERS)]
        answer = self.cluster.client(0).ask("BEGIN", *lines, "COMMIT")[-1]
        if answer != "COMMITTED 1":
            self.wrong.append(f"the first transaction: {answer}")
        for at in range(SERVING):  # a local read may be of a state before that
            while self.cluster.client(at).ask("BEGIN", "GET a00", "COMMIT")[1] == "NONE":
                time.sleep(0.1)
        self.threads = [threading.Thread(target=Teller(self, number).work) for number in range(clients)]
        for thread in self.threads:
            thread.start()

    def end(self) -> None:
        self.stop.set()
        for thread in self.threads:
            thread.join()

    def count(self, what: str) -> None:
        with self.lock:
            self.counts[what] += 1

    def committed(self, kind: str, key: str, answer: str) -> None:
        with self.lock:
            self.told[key] = int(answer.split()[1])
            self.counts[kind] += 1


class Teller:
    """A client, which connects again wherever its replica goes away."""

    def __init__(self, bank: Bank, number: int) -> None:
        self.bank, self.number = bank, number
        self.dice = random.Random(bank.seed * 1000 + number)
        self.client: Optional[Client] = None
        self.key, self.is_sent = "", False  # of the transfer at hand: whether its COMMIT went out

    def work(self) -> None:
        step = 0
        while not self.bank.stop.is_set():
            step += 1
            self.key, self.is_sent = f"t{self.number}.{step}", False
            try:
                self.client = self.client or self.bank.cluster.client(self.dice.randrange(SERVING))
                kinds = (self.move, self.move_ahead, self.scan_at_once, self.scan_by_lines)
                self.dice.choices(kinds, (14, 3, 2, 1))[0](self.client)
            except OSError:
                self.lost()
            except BaseException as fault:  # (a thread that ends says nothing by itself)
                self.bank.wrong.append(f"{self.key}: {fault!r}")
                return

    def lost(self) -> None:
        """The replica went away."""
        self.bank.count("lost")
        if self.is_sent:
            self.bank.unknown.add(self.key)
        if self.client is not None:
            self.client.close()
        self.client = None
        time.sleep(0.2)

    def move(self, client: Client) -> None:
        """An amount from one account to another, line by line."""
        one, two = self.dice.sample(range(ACCOUNTS), 2)
        amount = self.dice.randrange(1, 20)
        client.ask("BEGIN")
        values = client.ask(f"GET a{one:02}") + client.ask(f"GET a{two:02}")
        if not all(value.startswith("VAL") for value in values):
            client.ask("ABORT")
            self.bank.count("conflict")
            return
        client.ask(f"REP a{one:02} {int(values[0][4:]) - amount}")
        client.ask(f"REP a{two:02} {int(values[1][4:]) + amount}")
        client.ask(f"INS {self.key} {one}:{two}:{amount}")
        self.is_sent = True
        self.take_end("moved", client.ask("COMMIT")[0])

    def move_ahead(self, client: Client) -> None:
        """A transaction that is sent with its COMMIT never conflicts."""
        self.is_sent = True
        answers = client.ask("BEGIN", f"INS {self.key} ahead", f"REP n{self.dice.randrange(COUNTERS)} {self.key}", "COMMIT")
        if answers[-1] == "ERR CONFLICT" or answers[-1].startswith("COMMITTED") and answers[1:3] != ["OK", "OK"]:
            self.bank.wrong.append(f"{self.key}, sent ahead: {answers}")
        self.take_end("sent ahead", answers[-1])

    def take_end(self, kind: str, answer: str) -> None:
        """What COMMIT was answered."""
        if answer.startswith("COMMITTED"):
            self.bank.committed(kind, self.key, answer)
        elif answer in ("ERR CONFLICT", "ERR UNREACHABLE", "ERR UNKNOWN"):
            self.bank.count(answer[4:].lower())
            if answer == "ERR UNKNOWN":
                self.bank.unknown.add(self.key)
        else:
            self.bank.wrong.append(f"{self.key}: COMMIT was answered {answer}")

    def is_right(self, answers: List[str]) -> bool:
        """Whether scans of all accounts were answered; then the sum has to be right, whether the transaction commits or not."""
        if not all(answer.startswith("ROWS") for answer in answers):
            return False
        total = sum(int(row.partition("=")[2]) for answer in answers for row in answer.split()[2:])
        if total != ACCOUNTS * AMOUNT:
            self.bank.wrong.append(f"a scan's sum is {total}")
        return True

    def scan_at_once(self, client: Client) -> None:
        """One scan, or two that are sent with their COMMIT, never conflict."""
        if self.dice.random() < 0.5:
            answers = client.ask("BEGIN") + client.ask("SCAN a00 a49 100") + client.ask("COMMIT")
        else:
            answers = client.ask("BEGIN", "SCAN a00 a24 100", "SCAN a25 a49 100", "COMMIT")
        if self.is_right(answers[1:-1]) and answers[-1].startswith("COMMITTED"):
            self.bank.count("scans at once")
        elif answers[-1] != "ERR UNREACHABLE":
            self.bank.wrong.append(f"a scan that was sent at once: {answers[-1]}")

    def scan_by_lines(self, client: Client) -> None:
        """Two scans, line by line, end at some time."""
        for _ in range(TRIES):
            client.ask("BEGIN")
            answers = client.ask("SCAN a00 a24 100") + client.ask("SCAN a25 a49 100")
            if self.is_right(answers) and client.ask("COMMIT")[0].startswith("COMMITTED"):
                self.bank.count("scans by lines")
                return
            client.ask("ABORT")
            self.bank.count("scans by lines again")
            if self.bank.stop.is_set() or "ERR UNREACHABLE" in answers:
                return
        self.bank.wrong.append("a scan by lines doesn't end")


def faults_of_records(bank: Bank, records: List[str]) -> List[str]:
    """What isn't right of the records at the end."""
    have = dict(record.split("=", 1) for record in records)
    balance = {f"a{number:02}": AMOUNT for number in range(ACCOUNTS)}
    for key, value in have.items():
        if key[0] == "t" and value != "ahead":
            one, two, amount = map(int, value.split(":"))
            balance[f"a{one:02}"] -= amount
            balance[f"a{two:02}"] += amount
    faults = [f"{key} isn't what its transfers make of it" for key, value in balance.items() if have.get(key) != str(value)]
    faults += [f"{key} was told and is missing" for key in bank.told if key not in have]
    strange = [key for key in have if key[0] == "t" and key not in bank.told and key not in bank.unknown]
    return faults + [f"{key} committed and was told otherwise" for key in strange]


def faults_of_trace(bank: Bank, path: str, commits: int) -> List[str]:
    """What isn't right of the trace: each told commit stands once, at the number that was told, and all is legal."""
    with open(path, encoding="ascii") as file:
        text = file.read()
    places: Dict[str, int] = {}
    faults = []
    for number, key in re.findall(r"^INS (\d+) (h74[0-9a-f]*) \S+ \| OK$", text, re.MULTILINE):
        name = bytes.fromhex(key[1:]).decode()
        faults += [f"{name} stands twice"] if name in places else []
        places[name] = int(number)
    faults += ["a transaction stands twice"] if "EXISTS" in text else []
    moved = [(key, number, places.get(key)) for key, number in bank.told.items() if places.get(key) != number]
    faults += [f"{key} was told {number} and stands at {place}" for key, number, place in moved]
    verdict = subprocess.run([*AUDITOR, path], capture_output=True, text=True, timeout=LIMIT, check=False).stdout.strip()
    return faults + ([] if verdict == f"LEGAL {commits}" else [f"the auditor says {verdict} of {commits} commits"])


def compared(bank: Bank, path: str) -> List[str]:
    """All that isn't right, once the clients have ended and all replicas run."""
    contents = [bank.cluster.client(at).records() for at in range(LATE + 1)]
    commits = int(bank.cluster.client(TRACING).ask("BEGIN", "COMMIT")[1].split()[1])
    faults = bank.wrong + faults_of_records(bank, contents[TRACING]) + faults_of_trace(bank, path, commits)
    faults += [f"replica {at} has other records" for at, content in enumerate(contents) if content != contents[TRACING]]
    stand = sum(record.partition("=")[0] in bank.unknown for record in contents[TRACING])
    print(f"replicas: {len(bank.told)} told commits, {dict(bank.counts)}; {commits} committed; "
          f"of {len(bank.unknown)} that aren't known {stand} stand")
    return faults
