#!/usr/bin/env python3
"""Draws docs/pictures/merging.svg: a thousand queries over sixteen runs, and what they merged. It is not part of ./test.

A server with no worker has sixteen runs loaded, and then queries, most of them over two ranges that are asked for one after the
other, each followed by merge steps; a second session holds a lock among them for a while. The run that the server stored is
judged by ./amaudit and drawn by ./amdraw. The queries are the same each time. With --trace FILE the run is kept there."""

import argparse
import os
import random
import subprocess
import sys
import tempfile
from typing import List

TOP = os.path.dirname(os.path.dirname(os.path.abspath(__file__)))
sys.dont_write_bytecode = True
sys.path.insert(0, os.path.join(TOP, "tests"))
from support import AMAUDIT, Client, Server, wanted  # noqa: E402

RUNS, RECORDS, QUERIES, ROWS = 16, 2000, 1000, 400
LINE_RECORDS = 100
BUSY_FROM, BUSY_TO = 600, 606


def key(number: int) -> str:
    return f"k{number:06}"


def lines_of_loads(dice: random.Random) -> List[str]:
    """The records in random order, cut into runs, each of which is sorted."""
    numbers = list(range(RUNS * RECORDS))
    dice.shuffle(numbers)
    lines = ["BEGIN"]
    for at in range(0, len(numbers), RECORDS):
        run = [f"{key(number)}=v" for number in sorted(numbers[at : at + RECORDS])]
        parts = [" ".join(run[begin : begin + LINE_RECORDS]) for begin in range(0, RECORDS, LINE_RECORDS)]
        lines += [*(f"STAGE {part}" for part in parts[:-1]), f"LOAD {parts[-1]}"]
    return [*lines, "COMMIT"]


def place(dice: random.Random, query: int) -> int:
    """Where a query begins: one range is hot at first, then another; one query in eight is anywhere."""
    whole = RUNS * RECORDS - ROWS
    if dice.random() < 0.125:
        return dice.randrange(whole)
    return int(whole * (dice.uniform(0.15, 0.35) if query < QUERIES // 2 else dice.uniform(0.55, 0.85)))


def query(client: Client, other: Client, number: int, dice: random.Random) -> None:
    """One query, and the merge steps behind it."""
    low = place(dice, number)
    if number == BUSY_FROM:
        wanted("a lock of another", [other.ask("BEGIN")[:5], other.ask(f"LOCK X {key(low)} {key(low + ROWS)}")], ["BEGUN", "OK"])
    client.ask("BEGIN")
    answer = client.ask(f"SCAN {key(low)} {key(low + dice.randrange(ROWS // 4, ROWS))} 1000")
    client.ask("ABORT" if answer.startswith("BUSY") else "COMMIT")
    if number == BUSY_TO:
        wanted("its end", other.ask("ABORT"), "ABORTED")
    for _ in range(6):
        if not client.ask("MERGE 16").startswith("MOVED"):
            break


def main() -> None:
    parser = argparse.ArgumentParser(description=__doc__, formatter_class=argparse.RawDescriptionHelpFormatter)
    parser.add_argument("--trace", metavar="FILE", help="keep the trace")
    asked = parser.parse_args()
    dice = random.Random(2003)
    with tempfile.TemporaryDirectory() as folder:
        trace = asked.trace or os.path.join(folder, "trace")
        server = Server("--sessions", "2", "--workers", "0", trace=trace)
        client, other = Client(server.port), Client(server.port)
        for line in lines_of_loads(dice):
            answer = client.ask(line)
            if answer.startswith(("ERR", "BUSY", "EXISTS")):
                sys.exit(f"bench/merging.py: {line[:20]}: {answer}")
        for number in range(QUERIES):
            query(client, other, number, dice)
        wanted("two ends", [client.ask("QUIT"), other.ask("QUIT")], ["BYE", "BYE"])
        server.closed()
        subprocess.run([AMAUDIT, trace], check=True)
        with open(os.path.join(TOP, "docs", "pictures", "merging.svg"), "wb") as picture:
            subprocess.run([os.path.join(TOP, "amdraw"), trace], stdout=picture, check=True)


if __name__ == "__main__":
    main()
