"""Builds programs, libraries and libraries for C, each proved with all that it stands on. Any kit does it, by its public commands
(any_kit.py). A kit that known_kit.py knows from within does it sooner; wherever that fails for another reason than a crate that is
refused, any_kit.py goes on. That file may be missing."""

import fcntl
import os
import sys
import tempfile
from contextlib import contextmanager
from typing import Iterator, List

import any_kit
import children
import progress
import rooms
import sums
import surroundings
from tree import TOP

KNOWN_KIT = f"{TOP}/tools/known_kit.py"
# The status of known_kit.py where the kit refuses a crate or the machine lacks something, which has been told, where it
# doesn't know the kit, and where it is itself wrong, as it has told.
REFUSED, UNKNOWN, WRONG = 10, 11, 12
# The word by which libraries stay that no later start needs, for one after a change.
KEEP = "--keep"
SOONER = " (./amserve try <LINES answers lines in a minute or two, by a program that isn't proved)"


def build(crates: List[str], keeps: bool = True) -> int:
    """Builds crates with what is below, and gives the status; what was refused has been told."""
    return by_known_kit(crates, keeps) if os.path.isfile(KNOWN_KIT) else any_kit.build(crates)


def by_known_kit(crates: List[str], keeps: bool) -> int:
    """Builds them by the inside of the kit, or else as any kit does."""
    # (what the kit makes meanwhile, and would leave where it is ended, is let go with its folder)
    with rooms.room(tempfile.gettempdir()) as meanwhile:
        surroundings.look_at_room(os.path.dirname(meanwhile), surroundings.LEAST_ROOM)
        words = [sys.executable, KNOWN_KIT, *[KEEP] * keeps, *crates]
        with children.child(words, env={**os.environ, "TMPDIR": meanwhile}) as running:
            status = running.wait()
    if status in (0, REFUSED):
        return 1 if status else 0
    if status not in (UNKNOWN, WRONG):
        progress.tell(f"tools/known_kit.py ended with status {status}: building by rt ci instead, which takes longer")
    return any_kit.build(crates)


def make(names: List[str], keeps: bool) -> int:
    """Builds the programs and libraries for C that aren't there, and gives the status."""
    children.take_signals()
    children.end_with_parent()
    with alone():
        # (what another build made meanwhile is there now)
        sums.forget()
        wanted = sums.lacking(names)
        status = make_anew(list(wanted), keeps) if wanted else 0
        if not status:
            # (what changed while it was built is seen at the next start: the sums are those of before)
            for it, sum_then in wanted.items():
                sums.note(sums.place_of(it), sum_then)
        return status


def make_anew(wanted: List[str], keeps: bool) -> int:
    """Builds programs and libraries for C that aren't there, or are of other sources, and gives the status."""
    sooner = SOONER if "am_program_alone" in wanted else ""
    progress.tell(f"{' '.join(wanted)}: building; what is below is proved first{sooner}")
    try:
        surroundings.look_at_tree(wanted)
        for it in wanted:
            if os.path.exists(f"{sums.place_of(it)}.sum"):
                os.remove(f"{sums.place_of(it)}.sum")
        return build(wanted, keeps)
    except surroundings.Lacking as lacking:
        progress.tell(str(lacking))
    except OSError as error:
        progress.tell(f"{error.filename or error}: {error.strerror or 'failed'}: {surroundings.remedy_for(wanted)}")
    return 1


@contextmanager
def alone() -> Iterator[None]:
    """Builds of one copy of the repository wait for each other."""
    held = os.open(f"{TOP}/crates", os.O_RDONLY)
    try:
        fcntl.flock(held, fcntl.LOCK_EX | fcntl.LOCK_NB)
    except BlockingIOError:
        progress.tell("waiting for another build to end")
        fcntl.flock(held, fcntl.LOCK_EX)
    try:
        yield
    finally:
        os.close(held)
