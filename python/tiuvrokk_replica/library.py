"""The library of the proved rules of replicas, `tiuvrokk_replica.h`: where it is found, and its calls.

It is the one that the environment's TIUVROKK_REPLICA_LIBRARY names, else the one that is installed beside this package; among
the sources it is built first where it has to be."""
from __future__ import annotations

import ctypes
import os
import subprocess
from functools import lru_cache
from typing import Any, Callable, Dict

TOP = os.path.dirname(os.path.dirname(os.path.dirname(os.path.realpath(__file__))))
CALLS = {
    "tvk_replica_": ("open", "close", "take", "apply", "begin", "try_lines", "block", "end", "keep_up", "renew", "restore", "commits",
                     "answer"),
    "tvk_log_": ("open", "open_behind", "close", "put", "move", "generation", "first_behind", "text"),
    "tvk_waits_": ("open", "close", "enter", "hand_over", "settle", "expire", "reach", "answered", "known", "is_reached"),
}
# Statuses of `tiuvrokk.h` and `tiuvrokk_replica.h`.
ABSENT, NO_MEMORY, BAD_LINE, NO_ENTRY, WENT_BACK, PARTS_MISSING = 1, 15, 25, 26, 28, 29
NEVER_HANDED_OVER, HANDED_OVER = 30, 31

Call = Callable[..., int]


class NoLibrary(Exception):
    """It isn't there, or is another one."""


class StoreEnded(Exception):
    """Memory was refused to it, so it may differ from those of the other replicas."""


class Handle(ctypes.Structure):
    """`tvk_replica`, `tvk_transaction`, `tvk_log` and `tvk_waits`."""

    _fields_ = [("at", ctypes.c_void_p)]


def must(status: int) -> None:
    """What was called has to have gone well."""
    if status == NO_MEMORY:
        raise StoreEnded("memory was refused")
    if status:
        raise AssertionError(f"the library answered status {status}")


def version() -> str:
    """That of all programs."""
    with open(os.path.join(TOP, "VERSION"), encoding="ascii") as file:
        return file.read().strip()


@lru_cache(None)
def library_path() -> str:
    """Where the library lies."""
    named = os.environ.get("TIUVROKK_REPLICA_LIBRARY")
    installed = os.path.join(TOP, f"libtiuvrokk_replica.so.{version().partition('.')[0]}")
    if named or os.path.exists(installed):
        return named or installed
    made = subprocess.run([os.path.join(TOP, "tools", "replica_library.py")], stdin=subprocess.DEVNULL, stdout=subprocess.PIPE,
                          text=True, check=False)
    if made.returncode:
        raise NoLibrary(f"the library can't be built: tools/replica_library.py ended with status {made.returncode}")
    return made.stdout.strip()


@lru_cache(None)
def loaded(front: str) -> Dict[str, Call]:
    """The calls whose names begin so, by the rest of these. They are passed what C takes, made beforehand."""
    path = library_path()
    try:
        library: Any = ctypes.CDLL(path)
        return {name: library[front + name] for name in CALLS[front]}
    except (OSError, AttributeError) as fault:
        raise NoLibrary(f"the library can't be loaded: {fault}") from fault
