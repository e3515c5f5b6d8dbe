#!/usr/bin/env python3
"""Proves and builds crates with all that they stand on: tools/build.py [CRATE..], or all libraries, for `rt check` to go on from.

A line for each crate on standard error says what is done and how many are left; a terminal is also shown the share that is done
and the time that is left. Where a crate is refused, what `rt` said of it follows, and the status is 1."""

import sys
from typing import List

sys.dont_write_bytecode = True
import builds  # noqa: E402
import children  # noqa: E402
import streams  # noqa: E402
import surroundings  # noqa: E402
from tree import lines  # noqa: E402


def main(names: List[str]) -> int:
    """Builds these crates, and gives the status."""
    streams.open_closed()
    missing = [it for it in names if it not in lines()]
    if missing:
        print(f"tools/build.py: crates.txt names no crate {' '.join(missing)}", file=sys.stderr)
        return 2
    children.take_signals()
    try:
        return builds.build(names)
    except surroundings.Lacking as lacking:
        print(lacking, file=sys.stderr)
        return 1


if __name__ == "__main__":
    sys.exit(main(sys.argv[1:]))
