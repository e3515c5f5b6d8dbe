"""Programs that end where this one does."""

import ctypes
import signal
import subprocess
import sys
from contextlib import contextmanager
from types import FrameType
from typing import Any, Iterator, List, Optional

# What prctl calls a signal at the end of the parent.
SIGNAL_OF_PARENTS_END = 1


@contextmanager
def child(words: List[str], **how: Any) -> Iterator["subprocess.Popen[bytes]"]:
    """A program that ends where this one does, however that ends."""
    running = subprocess.Popen(words, stdin=subprocess.DEVNULL, preexec_fn=end_with_parent, **how)
    try:
        yield running
    finally:
        running.terminate()
        running.wait()


def end_with_parent() -> None:
    """Has the system end this process where its parent ends."""
    ctypes.CDLL(None).prctl(SIGNAL_OF_PARENTS_END, signal.SIGTERM)


def ends(number: int, _: Optional[FrameType]) -> None:
    """Lets go what is at work, and ends as by the signal."""
    sys.exit(128 + number)


def take_signals() -> None:
    """Has an interrupt and a request to end let go what is at work."""
    for number in (signal.SIGINT, signal.SIGTERM, signal.SIGHUP):
        signal.signal(number, ends)
