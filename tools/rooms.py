"""Folders for what builds need meanwhile. Each goes with its build, and what a killed build left goes with the next."""

import contextlib
import fcntl
import glob
import os
import shutil
import tempfile
from contextlib import contextmanager
from typing import Iterator, Tuple

PREFIX = "tiuvrokk-build-"


@contextmanager
def room(folder: str) -> Iterator[str]:
    """A folder below another one, as long as this process is at work in it."""
    sweep(folder)
    place, held = taken(folder)
    try:
        yield place
    finally:
        shutil.rmtree(place)
        os.close(held)


def taken(folder: str) -> Tuple[str, int]:
    """A new folder, locked by this process: that nobody is at work in one is seen by its lock."""
    while True:
        place = tempfile.mkdtemp(prefix=PREFIX, dir=folder)
        held = os.open(place, os.O_RDONLY | os.O_DIRECTORY)
        fcntl.flock(held, fcntl.LOCK_EX)
        # (one that sweeps may have come between)
        if os.path.isdir(place):
            return place, held
        os.close(held)


def sweep(folder: str) -> None:
    """Lets go this user's folders in which nobody is at work."""
    for place in glob.glob(f"{glob.escape(folder)}/{PREFIX}*"):
        with contextlib.suppress(OSError):
            if os.lstat(place).st_uid == os.geteuid():
                let_go(place)


def let_go(place: str) -> None:
    """Lets a folder go unless its lock is held."""
    held = os.open(place, os.O_RDONLY | os.O_DIRECTORY | os.O_NOFOLLOW)
    try:
        fcntl.flock(held, fcntl.LOCK_EX | fcntl.LOCK_NB)
        shutil.rmtree(place)
    finally:
        os.close(held)
