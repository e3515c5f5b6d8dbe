#!/usr/bin/env python3
"""Prints where the programs or static libraries of crates lie: tools/built.py [--keep] CRATE... Those are built first
that weren't made from just what stands there now. Libraries that no later start needs are let go then, but with --keep.
With --by-gate, lines `CRATE SUM` on standard input say what the gate left there, a program or a library for other crates:
it is taken as made from the sources of that sum."""

import sys
from typing import List

sys.dont_write_bytecode = True
import streams  # noqa: E402
import sums  # noqa: E402
from tree import lines  # noqa: E402


def complain(text: str) -> int:
    """Says what is wrong."""
    print(f"tools/built.py: {text}", file=sys.stderr)
    return 2


def main(names: List[str]) -> int:
    """Prints the places, and gives the status."""
    streams.open_closed()
    if names == ["--by-gate"]:
        for line in sys.stdin:
            sums.note_of_gate(*line.split())
        return 0
    keeps = names[:1] == ["--keep"]
    names = names[keeps:]
    missing = [it for it in names if it not in lines()]
    if missing:
        return complain(f"crates.txt names no crate {' '.join(missing)}")
    status = 0
    try:
        if sums.lacking(names):
            # (nearly each start finds all built, and does without what builds)
            import builds

            status = builds.make(names, keeps)
    except OSError as error:
        return complain(f"{error.filename or error}: {error.strerror or 'failed'}") - 1
    if not status:
        print("\n".join(map(sums.place_of, names)))
    return status


if __name__ == "__main__":
    sys.exit(main(sys.argv[1:]))
