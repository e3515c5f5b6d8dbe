#!/usr/bin/env python3
"""Small loads that nobody reads, at a server that stays and by programs: bench/unasked.py. It is not part of ./test.

200,000 loads of 64 records, in no order, come in back to back, each in a transaction of its own: at a server with one
worker, by the library for C and by the Python package, both with the upkeep that they have at first. None may be
refused. Then a scan of a hundred anywhere is to take a millisecond at most, and so is each commit of a program, its
load aside. The server's memory is told beside that of one that took the same records in runs of 65,536 and merged none.
A program's times are the processor's. `--loads 5000` takes some seconds; `--only server c python` names what is run.

What takes longer than it should is told as a miss, and the status is 1 then."""

import argparse
import os
import random
import statistics
import subprocess
import sys
import tempfile
import time
from typing import Dict, Iterator, List, NamedTuple

TOP = os.path.dirname(os.path.dirname(os.path.abspath(__file__)))
sys.dont_write_bytecode = True
sys.path[:0] = [os.path.join(TOP, "tests"), os.path.join(TOP, "python")]
from staying import await_rest, memory, stay, stopped  # noqa: E402
from support import AMSERVE, Server  # noqa: E402

LOADS, BATCH, LARGE, KEY, SCANS, ROWS = 200_000, 64, 65_536, 16, 1000, 100
WAYS = ("server", "c", "python")
# Microseconds that a scan and a commit may take.
MOST = 1000.0


class Told:
    """What is told, and whether something took longer than is wanted."""

    def __init__(self) -> None:
        self.has_missed = False

    def line(self, text: str) -> None:
        print(text, flush=True)

    def times(self, name: str, micros: List[float], most: float = MOST) -> None:
        """The middle one, that of 99 in a hundred and the longest, which is to be no longer than so much."""
        found = sorted(micros)
        middle, late = statistics.median(found), found[len(found) * 99 // 100]
        told = f"{name}: {middle:.1f} us, 99 % {late:.1f}, longest {found[-1]:.1f}"
        longer = sum(it > most for it in found)
        if longer:
            self.has_missed = True
            told += f", MISSED: {longer} of {len(found)} longer than {most:.0f}"
        self.line(told)


def times_in(said: str) -> Dict[str, List[float]]:
    """The numbers of lines, by the letter before each."""
    found: Dict[str, List[float]] = {}
    for line in said.splitlines():
        kind, number = line.split()
        found.setdefault(kind, []).append(float(number))
    return found


def output(*words: str) -> str:
    return subprocess.run(words, stdout=subprocess.PIPE, text=True, check=True).stdout


def tell_program(told: Told, name: str, said: str) -> None:
    """What a program told of its loads."""
    found = times_in(said)
    both = [load + commit for load, commit in zip(found["L"], found["C"])]
    tenth = max(1, len(both) // 10)
    grown = sum(both[-tenth:]) / sum(both[:tenth])
    told.line(f"{name}: {len(both)} loads of {BATCH}, none refused; the last tenth takes {grown:.2f} times the first")
    told.times(f"{name}, a load", found["L"], float("inf"))
    told.times(f"{name}, its commit", found["C"])
    told.times(f"{name}, a scan of {ROWS} anywhere", found["S"])
    kept = found["M"][0] * 1024 / (len(both) * BATCH)
    told.line(f"{name}: {found['R'][0]:.0f} runs are left; {kept:.1f} bytes of the process for each record")


class Loaded(NamedTuple):
    """A server that took loads: the seconds that they took, and its memory in KiB before."""

    server: Server
    took: float
    before: int

    def kept(self) -> int:
        """The bytes of memory that it has come to have."""
        return (memory(self.server) - self.before) * 1024


def loaded(asked: argparse.Namespace, clients: str, loads: int, batch: int, *words: str) -> Loaded:
    server = stay("--sessions", "2", "--workers", "1", "--log", *words, program=(asked.program,))
    before = memory(server)
    took = float(output(clients, "lines", str(server.port), str(loads), str(batch)))
    return Loaded(server, took, before)


def at_server(told: Told, asked: argparse.Namespace, clients: str) -> None:
    records = asked.loads * BATCH
    run = loaded(asked, clients, asked.loads, BATCH)
    rate, each = asked.loads / run.took, run.kept() / records
    told.line(f"server: {asked.loads} loads of {BATCH}, each answered OK, in {run.took:.1f} s, {rate:.0f} a second")

    def scans() -> List[float]:
        return times_in(output(clients, "scans", str(run.server.port), str(records)))["S"]

    told.times(f"server, a scan of {ROWS} anywhere", scans())
    begun = time.monotonic()
    await_rest(run.server)
    told.times(f"server, the same {time.monotonic() - begun:.0f} s later", scans())
    later = run.kept() / records
    log = dict(word.split("=") for word in stopped(run.server)[2].splitlines()[-1].split())
    told.line(f"server: {log['runs']} runs are left, with {log['in_runs']} of {records} records")
    loads = -(-records // LARGE)
    other = loaded(asked, clients, loads, LARGE, "--runs", "0")
    large = other.kept() / (loads * LARGE)
    stopped(other.server)
    told.line(
        f"server: {each:.1f} bytes of memory for each record of {2 * KEY}, {later:.1f} later; "
        f"in runs of {LARGE} {large:.1f}"
    )


def scattered(number: int) -> int:
    """A number for each number, none twice, in no order, as bench/unasked.c has it."""
    most = (1 << 64) - 1
    number = (number + 0x9E3779B97F4A7C15) & most
    number = (number ^ number >> 30) * 0xBF58476D1CE4E5B9 & most
    number = (number ^ number >> 27) * 0x94D049BB133111EB & most
    return number ^ number >> 31


def lines_of_python(loads: int) -> Iterator[str]:
    """Loads, their commits and scans by the package, with the times of the processor: what bench/unasked.c writes."""
    import tiuvrokk

    with tiuvrokk.Store() as store:
        for load in range(loads):
            texts = sorted(f"{scattered(number):016x}" for number in range(load * BATCH, load * BATCH + BATCH))
            tx = store.transaction()
            begun = time.process_time()
            tx.load(zip(texts, texts))
            between = time.process_time()
            tx.commit()
            end = time.process_time()
            yield f"L {(between - begun) * 1e6:.2f}\nC {(end - between) * 1e6:.2f}\n"
        figures = store.figures()
        dice, width = random.Random(7), (1 << 64) // (loads * BATCH) * ROWS
        for _ in range(SCANS):
            low = dice.randrange((1 << 64) - width)
            tx = store.transaction()
            begun = time.process_time()
            rows = list(tx.scan(f"{low:016x}", f"{low + width:016x}", limit=ROWS))
            yield f"S {(time.process_time() - begun) * 1e6:.2f}\n"
            tx.abort()
        if figures.entries != loads * BATCH or not rows:
            sys.exit("bench/unasked.py: other records")
        with open("/proc/self/status", encoding="ascii") as file:
            kept = next(line.split()[1] for line in file if line.startswith("VmRSS:"))
        yield f"R {figures.runs}\nM {kept}\n"


def main() -> int:
    parser = argparse.ArgumentParser(description=__doc__, formatter_class=argparse.RawDescriptionHelpFormatter)
    parser.add_argument("--loads", type=int, default=LOADS, metavar="N", help=f"how many (default: {LOADS})")
    parser.add_argument("--only", nargs="+", choices=WAYS, default=WAYS, metavar="WAY", help="of server, c and python")
    parser.add_argument("--program", default=AMSERVE, metavar="FILE", help="the server (default: ./amserve)")
    # What runs the package, in a process of its own.
    parser.add_argument("--here", action="store_true", help=argparse.SUPPRESS)
    asked = parser.parse_args()
    if asked.here:
        sys.stdout.writelines(lines_of_python(asked.loads))
        return 0
    told = Told()
    with tempfile.TemporaryDirectory() as folder:
        clients, installed = os.path.join(folder, "unasked"), os.path.join(folder, "installed")
        source = os.path.join(TOP, "bench", "unasked.c")
        build = [os.environ.get("CC", "cc"), "-std=gnu11", "-O2", "-pthread", "-o", clients, source]
        if {"c", "python"}.intersection(asked.only):
            subprocess.run([os.path.join(TOP, "install-library"), installed], stdout=subprocess.DEVNULL, check=True)
            build += ["-DWITH_STORE", f"-I{installed}/include", f"{installed}/lib/libtiuvrokk.a"]
        subprocess.run(build, check=True)
        if "server" in asked.only:
            at_server(told, asked, clients)
        if "c" in asked.only:
            tell_program(told, "C", output(clients, "store", str(asked.loads)))
        if "python" in asked.only:
            os.environ["TIUVROKK_LIBRARY"] = f"{installed}/lib/libtiuvrokk.so"
            tell_program(told, "Python", output(sys.executable, __file__, "--here", "--loads", str(asked.loads)))
    return int(told.has_missed)


if __name__ == "__main__":
    sys.exit(main())
