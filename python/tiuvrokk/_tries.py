"""Beginning anew where another was in the way, and having a server to oneself for a moment."""

from __future__ import annotations

import random
from collections.abc import Callable
from typing import Optional

from .errors import Busy, Conflict, Disconnected, Held, Lapsed, Status, TooMany

MAX_TRIES = 100
"""How often `run` runs its function, unless it is told otherwise."""
TRIED_AGAIN = (Busy, Conflict, Disconnected, Held, Lapsed, TooMany)
# Seconds: the first pause is up to this long, each further one up to twice as long, and none longer than the other.
_FIRST_PAUSE, _LONGEST_PAUSE = 0.001, 0.25
# A first try holds for so many milliseconds, and each further one for twice as many: others wait as long.
_FIRST_HOLD = 100


def may_come_right(error: Exception) -> bool:
    """Whether the same transaction may go well a little later. Where a connection was lost, COMMIT hadn't been sent."""
    return isinstance(error, TRIED_AGAIN) and (not isinstance(error, TooMany) or error.status is Status.TOO_MANY_TX)


class Tries:
    """How often something was tried, and how often it may be."""

    def __init__(self, most: int, first_pause: float = _FIRST_PAUSE) -> None:
        if most < 1:
            raise ValueError(f"{most} tries")
        self.most, self.first_pause = most, first_pause
        self.done = 0

    def begin(self) -> None:
        """One more."""
        self.done += 1

    def may_follow(self, error: Exception) -> bool:
        """Whether one more follows where the last one ended by this."""
        return self.done < self.most and may_come_right(error)

    def pause_after(self, error: Exception) -> float:
        """How many seconds pass before the next one. What none follows is raised."""
        if not self.may_follow(error):
            raise error
        return self.pause()

    def pause(self) -> float:
        """How many seconds pass after the last one, by chance."""
        return random.uniform(0, min(self.first_pause * 2 ** min(self.done - 1, 16), _LONGEST_PAUSE))

    def part_of(self, milliseconds: int) -> int:
        """How long a try holds: the last one for as long as it may."""
        return milliseconds if self.done >= self.most else min(milliseconds, _FIRST_HOLD << min(self.done - 1, 16))

    def told(self) -> str:
        """Which try it was, where it wasn't the first."""
        return f" at try {self.done}" if self.done > 1 else ""


def hold(ask: Callable[[bytes], bytes], milliseconds: int) -> Optional[bytes]:
    """Holds a server for so long, or for as long as it lets one hold, unless it knows no such line. Gives the answer by which that is
    refused, if it is."""
    while milliseconds:
        answer = ask(b"HOLD %d" % milliseconds)
        if answer != b"ERR LIMIT":
            return None if answer in (b"OK", b"ERR SYNTAX") else answer
        milliseconds //= 2
    return None
