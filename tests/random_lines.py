#!/usr/bin/env python3
"""10,000 random lines give the same answers with no merging as with the usual one. MERGE and CLEAN are left out, since their
own answers tell what was merged before."""

import random
import sys
from typing import List

sys.dont_write_bytecode = True
from support import alone, fail, wanted  # noqa: E402

LINES = 10_000
KINDS = {
    "BEGIN": 3, "COMMIT": 1, "GET": 4, "SCAN": 2, "RSCAN": 1, "INS": 2, "REP": 1, "SET": 1, "DEL": 2, "DELR": 1, "LOAD": 1, "MARK": 1,
    "BACK": 1, "LOCK": 1, "odd": 1,
}


def random_line(dice: random.Random, number: int) -> str:
    """A line of a random kind. A load is a new run, so that there is something to merge; some lines are no request at all."""
    key = dice.randrange(60)
    high = key + dice.randrange(9)
    kind = dice.choices(list(KINDS), list(KINDS.values()))[0]
    lines = {
        "COMMIT": "COMMIT" if dice.random() < 0.7 else "ABORT",
        "GET": f"GET {key}",
        "SCAN": f"SCAN {key} {high} {dice.randint(1, 12)}",
        "RSCAN": f"RSCAN {key} {high} {dice.randint(1, 12)}",
        "INS": f"INS {key} v{number}",
        "SET": f"SET {key} s{number}",
        "DELR": f"DELR {key} {high} {dice.randint(1, 3)}",
        "REP": f"REP {key} r{number}",
        "DEL": f"DEL {key}",
        "LOAD": "LOAD" + "".join(f" {100 + number % 900}{at}=l{number}" for at in range(3)),
        "LOCK": f"LOCK {dice.choice('SX')} {key} {high}",
        "odd": "SEEN" if dice.random() < 0.5 else f"GOT {key}",
    }
    return lines.get(kind, kind)


def random_lines() -> List[str]:
    """Lines that are always the same."""
    dice = random.Random(20)
    return [*(random_line(dice, number) for number in range(LINES)), "QUIT"]


def main() -> None:
    """Compares the answers."""
    lines = random_lines()
    unmerged = alone(lines, "--auto", "0")
    wanted("answers", len(unmerged), len(lines))
    wanted("the same answers merged", alone(lines) == unmerged, True)
    wanted("the same answers merged slowly", alone(lines, "--auto", "1") == unmerged, True)
    for kind in ("OK", "VAL", "BEGUN", "COMMITTED", "ROWS", "DELETED"):
        if not any(answer.startswith(kind) for answer in unmerged):
            fail(f"no answer {kind}")
    print(f"random lines: {LINES} lines, the same answers merged and unmerged")


if __name__ == "__main__":
    main()
