#!/usr/bin/env python3
"""Readers beside a batch a second, and dumps beside sixteen writers, in one run: bench/beside.py. It is not part of ./test.

Over 200,000 old records a load of 20,000 or 65,536 new ones, spread evenly between them, comes in each second, 20 in all, beside
readers that read a key, or scan a hundred, in a transaction each, and think for a millisecond. Each load holds, as amload does. Where
SQLite's header is there (Debian: libsqlite3-dev) the same is done over a file of it in WAL mode, by a thread and a connection for
each reader. One run is drawn into docs/pictures by gnuplot, where that is there. The clients are in C.

With --unasked it is another run, of two minutes: a load of 65,536 a second beside sixteen readers, of gets and scans,
of a hot hundredth of the old records or anywhere, at a server that doesn't merge in idle time what nobody reads, and at
one that does. The readers' 99 % is to be at most 1.2 times what it is without that, and the loads' time 1.1 times. The
scans anywhere are drawn by the second. `--unasked --loads 10` takes half a minute."""

import argparse
import contextlib
import os
import shutil
import statistics
import subprocess
import sys
import tempfile
import time
from typing import Dict, Iterator, List, NamedTuple, Tuple

TOP = os.path.dirname(os.path.dirname(os.path.abspath(__file__)))
sys.dont_write_bytecode = True
sys.path.insert(0, os.path.join(TOP, "tests"))
from support import AMSERVE, Server  # noqa: E402

PICTURES = os.path.join(TOP, "docs", "pictures")
MEMORY = "/dev/shm" if os.path.isdir("/dev/shm") else None
BATCHES, KINDS, READERS, LOADS = (20_000, 65_536), ("get", "scan"), (1, 4, 16, 64), 20
DUMPS, WRITERS, ACCOUNTS, AMOUNT = 75, 16, 1000, 1_000_000
# The loads of a run with --unasked, and by which words a server merges what nobody reads and doesn't.
UNASKED_LOADS, UNASKED_READERS = 120, 16
UNASKED_WAYS: Dict[str, Tuple[str, ...]] = {"without idle merging": ("--runs", "0"), "with idle merging": ()}
MOST_OF_READERS, MOST_OF_LOADS = 1.2, 1.1
# The run that is drawn, and so many seconds of it, by the longest answer of each fiftieth of a second.
DRAWN, DRAWN_SECONDS, BUCKET = (65_536, "get", 16), 5, 0.02


class Load(NamedTuple):
    at: float
    took: float
    tries: int


class Run(NamedTuple):
    """What readers and loads told: each load, when each transaction of a reader began and how long it took, how often a
    lock was in a reader's way, and the ways in which they read."""

    lead: float
    loads: List[Load]
    reads: List[Tuple[float, float]]
    refusals: int
    ways: List[str]

    def beside(self) -> List[float]:
        """How long transactions took, in milliseconds, since the first load, the shortest first."""
        return sorted(took * 1000 for at, took in self.reads if at >= self.lead)

    def of_way(self, way: str) -> "Run":
        """The same with the transactions of one way of reading alone."""
        reads = [read for read, name in zip(self.reads, self.ways) if name == way]
        return self._replace(reads=reads, ways=[way] * len(reads))

    def by_second(self) -> Dict[int, float]:
        """The middle time of the transactions that began in each second since the first load, in milliseconds."""
        times: Dict[int, List[float]] = {}
        for at, took in self.reads:
            times.setdefault(int(at - self.lead), []).append(took * 1000)
        return {second: statistics.median(found) for second, found in sorted(times.items()) if second >= 0}

    def rate_before(self) -> float:
        return sum(0.2 < at < self.lead - 0.2 for at, _ in self.reads) / (self.lead - 0.4)

    def rate_between(self) -> float:
        """How many began in a second in which no load was at work, or 0 where loads were all the time."""
        whole = max(at for at, _ in self.reads) - self.lead
        spans = [(load.at, load.at + load.took) for load in self.loads]
        between = sum(at >= self.lead and not any(begin <= at <= end for begin, end in spans) for at, _ in self.reads)
        rest = whole - sum(load.took for load in self.loads)
        return between / rest if rest > whole / 10 else 0.0


def share(times: List[float], part: float) -> float:
    """So many of these are no longer."""
    return times[min(len(times) - 1, int(len(times) * part))]


def run_of(said: str, lead: float) -> Run:
    loads: List[Load] = []
    reads: List[Tuple[float, float]] = []
    ways: List[str] = []
    refusals = 0
    for line in said.splitlines():
        kind, *words = line.split()
        if kind == "L":
            loads.append(Load(float(words[0]), float(words[1]), int(words[2])))
        elif kind == "R":
            reads.append((float(words[0]), float(words[1])))
            ways.append(words[2] if len(words) > 2 else "")
        else:
            refusals = int(words[0])
    return Run(lead, loads, reads, refusals, ways)


@contextlib.contextmanager
def serving(program: str, *words: str) -> Iterator[Server]:
    """A server that stays."""
    server = Server("--stay", "--stop", "--sessions", "128", "--workers", "1", *words, program=(program,))
    try:
        yield server
    finally:
        server.close_input()
        server.end()


def words_of(asked: argparse.Namespace, readers: int, kind: str, batch: int) -> List[str]:
    return [str(readers), kind, str(batch), str(asked.loads), str(asked.lead)]


def output(words: List[str]) -> str:
    return subprocess.run(words, stdout=subprocess.PIPE, text=True, check=True).stdout


def at_server(clients: str, program: str, rest: List[str]) -> str:
    with serving(program) as server:
        return output([clients, "lines", str(server.port), *rest])


def at_sqlite(clients: str, _: str, rest: List[str]) -> str:
    with tempfile.TemporaryDirectory(dir=MEMORY) as folder:
        return output([clients, "sqlite", os.path.join(folder, "records"), *rest])


def told_of_times(times: List[float]) -> str:
    return f"{share(times, 0.5):6.3f} ms, 99 % {share(times, 0.99):7.3f}, longest {times[-1]:7.1f}"


def told(name: str, run: Run) -> str:
    """A line of the table."""
    times, loads = run.beside(), [load.took * 1000 for load in run.loads]
    first = sum(load.tries == 1 for load in run.loads)
    return (
        f"{name:28}{first:3} of {len(loads)} at once, {statistics.median(loads):6.1f} ms each, {max(loads):6.1f} the longest; "
        f"readers {told_of_times(times)}, told BUSY {run.refusals}; "
        f"{run.rate_before():7.0f} a second before, {run.rate_between():7.0f} between"
    )


def sums_of_dump(path: str) -> Tuple[int, int]:
    with open(path, encoding="ascii") as file:
        amounts = [int(line.split("\t")[1]) for line in file]
    return len(amounts), sum(amounts)


def dumps(clients: str, program: str, count: int) -> str:
    """So many dumps beside writers that move amounts between accounts: each has to be of one moment."""
    with serving(program) as server:
        command = [clients, "writers", str(server.port), str(WRITERS), str(ACCOUNTS)]
        writers = subprocess.Popen(command, stdin=subprocess.PIPE, stdout=subprocess.PIPE, text=True)
        time.sleep(1)
        whole, times = 0, []
        with tempfile.TemporaryDirectory() as folder:
            path = os.path.join(folder, "dump")
            for _ in range(count):
                begun = time.monotonic()
                ran = subprocess.run([os.path.join(TOP, "amdump"), "--port", str(server.port), path], check=False)
                times.append(time.monotonic() - begun)
                whole += ran.returncode == 0 and sums_of_dump(path) == (ACCOUNTS, ACCOUNTS * AMOUNT)
        said, _ = writers.communicate("")
        took = sorted(took * 1000 for _, took in run_of(said, 0).reads)
        beside = f"{len(took)} transfers, median {share(took, 0.5):.2f} ms, 99 % {share(took, 0.99):.1f}, longest {took[-1]:.0f}"
    return f"{whole} of {count} dumps beside {WRITERS} writers are whole, {statistics.median(times):.2f} s each; {beside}"


def buckets(run: Run) -> Dict[float, float]:
    """The longest of those that ended in each bucket, from half a second behind the first load on."""
    begin = run.lead + 0.5
    longest: Dict[int, float] = {}
    for at, took in run.reads:
        bucket = int((at + took - begin) / BUCKET)
        if 0 <= bucket < DRAWN_SECONDS / BUCKET:
            longest[bucket] = max(longest.get(bucket, 0.0), took * 1000)
    return {bucket * BUCKET: took for bucket, took in sorted(longest.items())}


def panel(folder: str, name: str, run: Run, colour: str, label: str) -> str:
    """Commands that draw a run: the loads as bars behind it."""
    path, begin = os.path.join(folder, name), run.lead + 0.5
    with open(path, "w", encoding="ascii") as file:
        file.writelines(f"{at:.3f} {took:.4f}\n" for at, took in buckets(run).items())
    spans = [(load.at - begin, load.at + load.took - begin) for load in run.loads]
    bars = [
        f"set object {number} rect from {at:.3f},graph 0 to {end:.3f},graph 1 fc rgb '#e8d8a0' fs solid noborder behind"
        for number, (at, end) in enumerate(spans, 1)
        if 0 <= at < DRAWN_SECONDS
    ]
    return "\n".join(["unset object", *bars, f"plot '{path}' using 1:2 with steps lw 1.5 lc rgb '{colour}' title '{label}'"])


def draw(folder: str, ours: Run, theirs: Run) -> None:
    commands = f"""
set terminal svg size 720,480 dynamic background rgb 'white' font 'sans-serif,13'
set output '{os.path.join(PICTURES, "beside.svg")}'
set multiplot layout 2,1
set logscale y
set yrange [0.02:500]
set xrange [0:{DRAWN_SECONDS}]
set ylabel 'ms, the longest of 20 ms'
set key top right
{panel(folder, "ours", ours, "#c03020", "16 readers of Tiuvrokk; bars: loads of 65,536")}
set xlabel 'seconds'
{panel(folder, "theirs", theirs, "#408040", "16 readers of SQLite in WAL mode; bars: its loads")}
unset multiplot
"""
    subprocess.run(["gnuplot"], input=commands, text=True, check=True)


def unasked_runs(asked: argparse.Namespace, clients: str) -> Iterator[str]:
    """Readers beside loads with idle merging and without it, and what is to be said of that."""
    runs = []
    for name, words in UNASKED_WAYS.items():
        with serving(asked.program, *words) as server:
            rest = words_of(asked, UNASKED_READERS, "mixed", BATCHES[-1])
            runs.append(run_of(output([clients, "lines", str(server.port), *rest]), asked.lead))
        yield told(name, runs[-1])
        for way in sorted(set(runs[-1].ways)):
            yield f"{name}, {way:10}{told_of_times(runs[-1].of_way(way).beside())}"
    without, with_it = ([statistics.median(load.took for load in run.loads), share(run.beside(), 0.99)] for run in runs)
    loads, readers = (one / other for one, other in zip(with_it, without))
    yield (
        f"with it in parts of without: loads {loads:.2f}, at most {MOST_OF_LOADS} wanted; "
        f"readers' 99 % {readers:.2f}, at most {MOST_OF_READERS} wanted"
    )
    if shutil.which("gnuplot"):
        draw_unasked(os.path.join(asked.folder, "unasked.svg"), *(run.of_way("cold_scan").by_second() for run in runs))


def draw_unasked(picture: str, without: Dict[int, float], with_it: Dict[int, float]) -> None:
    points = ""
    for times in (without, with_it):
        points += "".join(f"{second} {took:.4f}\n" for second, took in times.items()) + "e\n"
    commands = f"""
set terminal svg size 720,360 dynamic background rgb 'white' font 'sans-serif,13'
set output '{picture}'
set xlabel 'seconds, each with a load of 65,536'
set ylabel 'ms for a scan of 100 anywhere'
set yrange [0:]
set key top left
set grid
plot '-' using 1:2 with lines lw 2 lc rgb '#808080' title 'merged only where somebody reads', \\
     '-' using 1:2 with lines lw 2 lc rgb '#c03020' title 'and in idle time what nobody reads'
"""
    subprocess.run(["gnuplot"], input=commands + points, text=True, check=True)


def main() -> None:
    parser = argparse.ArgumentParser(description=__doc__, formatter_class=argparse.RawDescriptionHelpFormatter)
    parser.add_argument("--unasked", action="store_true", help="readers with idle merging and without it, and no more")
    parser.add_argument("--loads", type=int, metavar="N", help="loads of a run, one a second (default: 20, or 120)")
    parser.add_argument("--lead", type=float, default=3, metavar="S", help="seconds of readers alone before them (default: 3)")
    parser.add_argument("--readers", type=int, nargs="+", default=READERS, metavar="N", help="how many readers (default: 1 4 16 64)")
    parser.add_argument("--dumps", type=int, default=DUMPS, metavar="N", help=f"dumps beside writers (default: {DUMPS})")
    parser.add_argument("--folder", default=PICTURES, help="where the table goes (default: docs/pictures)")
    parser.add_argument("--program", default=AMSERVE, metavar="FILE", help="the server (default: ./amserve)")
    asked = parser.parse_args()
    asked.loads = asked.loads or (UNASKED_LOADS if asked.unasked else LOADS)
    has_sqlite = os.path.exists("/usr/include/sqlite3.h")
    lines: List[str] = []

    def tell(line: str) -> None:
        print(line, flush=True)
        lines.append(line + "\n")

    with tempfile.TemporaryDirectory() as folder:
        clients = os.path.join(folder, "beside")
        flags = ["-DWITH_SQLITE", "-lsqlite3"] if has_sqlite else []
        source = os.path.join(TOP, "bench", "beside.c")
        subprocess.run([os.environ.get("CC", "cc"), "-std=gnu11", "-O2", "-pthread", "-o", clients, source, *flags], check=True)
        if asked.unasked:
            for line in unasked_runs(asked, clients):
                tell(line)
            keep(os.path.join(asked.folder, "unasked.txt"), lines)
            return
        ways = [("Tiuvrokk", at_server), *([("SQLite", at_sqlite)] if has_sqlite else [])]
        for batch in BATCHES:
            for kind in KINDS:
                for readers in asked.readers:
                    runs = []
                    for name, way in ways:
                        runs.append(run_of(way(clients, asked.program, words_of(asked, readers, kind, batch)), asked.lead))
                        tell(told(f"{name}, {batch}, {readers} {kind}", runs[-1]))
                    if (batch, kind, readers) == DRAWN and len(runs) == 2 and shutil.which("gnuplot"):
                        draw(folder, runs[0], runs[1])
        tell(dumps(clients, asked.program, asked.dumps))
    keep(os.path.join(asked.folder, "beside.txt"), lines)


def keep(path: str, lines: List[str]) -> None:
    with open(path, "w", encoding="ascii") as file:
        file.writelines(lines)


if __name__ == "__main__":
    main()
