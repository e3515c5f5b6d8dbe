"""How far a load or a dump is, on standard error, where that is a terminal."""

import os
import sys
import time

from .program import CLOSED, say

WIDTH = 78


class Progress:
    """Bytes, records a second, and, where the whole is known, the time that is left."""

    def __init__(self, name: str, records: int = 0, whole: int = 0) -> None:
        self.name, self.records, self.whole = name, records, whole
        self.begun = time.monotonic()
        self.shows = not CLOSED[2] and os.isatty(2)
        self.told = False

    def text(self, records: int, size: int) -> str:
        """So much is done."""
        passed = max(time.monotonic() - self.begun, 0.001)
        done = f"{size / 1e6:.1f} of {self.whole / 1e6:.1f} MB" if self.whole else f"{size / 1e6:.1f} MB"
        text = f"{self.name}: {done}"
        if records:
            text += f", {records / passed:.0f} records/s"
        if self.records and records:
            text += f", {passed * (self.records - records) / records:.0f} s left"
        return text

    def show(self, records: int, size: int) -> None:
        """Says so over what was said before."""
        if self.shows and sys.stderr is not None:
            self.told = True
            print(f"\r{self.text(records, size):{WIDTH}}", end="", file=sys.stderr, flush=True)

    def end(self) -> None:
        """What is said next stands on a line of its own."""
        if self.told:
            self.told = False
            say("")
