#!/usr/bin/env python3
"""Prints the sum of all that a crate is made from: tools/sum.py CRATE, or of each of several with its name."""

import sys
from typing import List

sys.dont_write_bytecode = True

import sums  # noqa: E402
from tree import lines  # noqa: E402


def main(names: List[str]) -> int:
    """Prints the sums, and gives the status."""
    missing = [it for it in names if it not in lines()]
    if missing or not names:
        print(f"crates.txt names no crate {' '.join(missing)}" if missing else "usage: tools/sum.py CRATE..", file=sys.stderr)
        return 2
    for name in names:
        print(sums.sum_of(name) if len(names) == 1 else f"{name} {sums.sum_of(name)}")
    return 0


if __name__ == "__main__":
    sys.exit(main(sys.argv[1:]))
