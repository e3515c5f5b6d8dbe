"""The shared library of `tiuvrokk.h`: where it is found, and its calls.

It is the one that the environment's TIUVROKK_LIBRARY names, else the one beside this file, as a wheel has it, else the one that
the system finds. It is loaded at the first call, so who speaks to a replica alone needs none."""

from __future__ import annotations

import ctypes
import ctypes.util
import functools
import os
from collections.abc import Callable

# Calls that may take long, or end a store that is large: other threads of Python run meanwhile. The others are over sooner
# than a thread can be woken.
_LONG = ["open", "close", "abort", "load", "load_structs", "load_text", "put"]
_SHORT = [
    "begin", "commit", "mark", "back", "get", "insert", "replace", "set", "delete", "delete_range", "scan", "scan_behind",
    "scan_back", "scan_before", "lock", "merge", "tidy", "clean", "commits", "entries", "figures", "upkeep",
]

_ADVICE = "./install-library PREFIX installs it from the sources, and TIUVROKK_LIBRARY=PREFIX/lib/libtiuvrokk.so names it"

Call = Callable[..., int]


Number: type[ctypes.Array[ctypes.c_uint64]] = ctypes.c_uint64 * 1
"""Where a call tells a number: an array, which C is passed the address of."""

Counts: type[ctypes.Array[ctypes.c_uint64]] = ctypes.c_uint64 * 7
"""`tvk_figures_t`."""


class Handle(ctypes.Structure):
    """`tvk_store`."""

    _fields_ = [("at", ctypes.c_void_p)]


def library_path() -> str:
    """Where the library lies, or the name by which the system is asked for it."""
    from . import __version__  # (which is there once the package is)

    shared = f"libtiuvrokk.so.{__version__.partition('.')[0]}"
    beside = os.path.join(os.path.dirname(os.path.abspath(__file__)), shared)
    if named := os.environ.get("TIUVROKK_LIBRARY"):
        return named
    return beside if os.path.exists(beside) else ctypes.util.find_library("tiuvrokk") or shared


@functools.lru_cache(None)
def _calls(holds: bool) -> dict[str, Call]:
    """All calls. They are passed what C takes, made beforehand, and so have no types of their own: these would be looked at
    for each argument anew, which takes as long as a call."""
    path = library_path()
    try:
        holding, freeing = ctypes.PyDLL(path), ctypes.CDLL(path)
        found: dict[str, Call] = {name: holding[f"tvk_{name}"] for name in _SHORT}
        found.update((name, (holding if holds else freeing)[f"tvk_{name}"]) for name in _LONG)
    except (OSError, AttributeError) as error:
        raise ImportError(f"the library of tiuvrokk can't be loaded: {error}. {_ADVICE}", name="tiuvrokk", path=path) from None
    return found


class Calls:
    """The calls of the library by their names, without `tvk_`. Where they are to hold the interpreter's lock, long ones do, too."""

    def __init__(self, holds: bool) -> None:
        self._holds = holds

    def __getattr__(self, name: str) -> Call:
        call = _calls(self._holds)[name]
        setattr(self, name, call)
        return call


calls, holding_calls = Calls(False), Calls(True)


def upkeep(on: bool) -> None:
    """Whether commits of all stores of this program clean some of what was deleted, and merge where more than 64 runs have entries,
    as they do at first. Without that who loads or deletes calls `Store.tidy` from time to time: scans pass over what isn't merged,
    and over what is marked as deleted."""
    calls.upkeep(ctypes.c_int(on))
