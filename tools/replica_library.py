#!/usr/bin/env python3
"""Prints where the library lies by which ./amreplica runs among the sources. It is proved and built first unless it was made from
just what stands there now."""

import hashlib
import os
import shutil
import subprocess
import sys
import tempfile

sys.dont_write_bytecode = True
import streams  # noqa: E402
import sums  # noqa: E402
from tree import TOP, text_of  # noqa: E402

CRATE = "am_c_replica"
# What it is made from beside the crate.
SOURCES = ["install-library", "VERSION", "c/hash_words.h", "c/heap.c", "c/tiuvrokk.h", "c/tiuvrokk_replica.c", "c/tiuvrokk_replica.h"]


def sum_now() -> str:
    """The sum of all that it is made from."""
    files = "".join(map(sums.sum_of_file, SOURCES))
    return hashlib.sha256(f"{files}{sums.sum_of(CRATE)}\n".encode()).hexdigest()


def make(place: str) -> int:
    """Makes it, and gives the status. A replica that runs keeps the former one."""
    with tempfile.TemporaryDirectory() as folder:
        names = {name: value for name, value in os.environ.items() if name != "DESTDIR"}
        words = [f"{TOP}/install-library", "--replica", folder]
        status = subprocess.run(words, stdin=subprocess.DEVNULL, stdout=sys.stderr, env=names, check=False).returncode
        if not status:
            os.makedirs(os.path.dirname(place), exist_ok=True)
            shutil.copy(f"{folder}/lib/{os.path.basename(place)}", f"{place}.{os.getpid()}")
            os.replace(f"{place}.{os.getpid()}", place)
    return status


def main() -> int:
    """Prints the place, and gives the status."""
    streams.open_closed()
    place = f"{TOP}/out/libtiuvrokk_replica.so.{text_of('VERSION').partition('.')[0]}"
    sum_then, status = sum_now(), 0
    try:
        if not os.path.isfile(place) or sums.noted(place) != sum_then:
            status = make(place)
            if not status:
                sums.note(place, sum_then)
    except OSError as error:
        print(f"tools/replica_library.py: {error.filename or place}: {error.strerror or 'failed'}", file=sys.stderr)
        return 1
    if not status:
        print(place)
    return status


if __name__ == "__main__":
    sys.exit(main())
