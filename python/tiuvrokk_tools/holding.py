"""Having a server's store to oneself for a moment, and beginning anew where that, or a lock, is refused."""

import argparse
import time
from typing import Callable, TypeVar

from tiuvrokk import _tries
from tiuvrokk._grammar import MAX_HOLD

from .program import Parser, numbers
from .sessions import Refused, Session

FIRST_PAUSE = 0.05
Result = TypeVar("Result")


def hold(session: Session, millis: int) -> None:
    """Holds for so long, or for as long as the server lets one hold. A server that doesn't know HOLD is not held."""
    if answer := _tries.hold(session.ask, millis):
        raise Refused(answer)


class Tries(_tries.Tries):
    """How often something was tried, and how often it may be."""

    def until_done(self, step: Callable[[], Result], undo: Callable[[], object]) -> Result:
        """Does the step, anew where it was refused for another's sake, after what undoes it."""
        while True:
            self.begin()
            try:
                return step()
            except Refused as refused:
                if not self.may_follow(refused.error):
                    raise
            undo()
            time.sleep(self.pause())


def add_holding(parser: Parser, millis: int, tries: int) -> None:
    """The words that say how long a server is held, and how often that is tried."""
    held = f"hold the server so many milliseconds at most, 0 to {MAX_HOLD}; 0: not at all (default: {millis})"
    tried = f"try so often where another holds, or has a lock (default: {tries})"
    parser.add_argument("--hold", type=numbers(0, MAX_HOLD), default=millis, metavar="MS", help=held)
    parser.add_argument("--tries", type=numbers(1, 999_999), default=tries, metavar="N", help=tried)


def tries_of(asked: argparse.Namespace) -> Tries:
    """As the words say."""
    return Tries(asked.tries, FIRST_PAUSE)
