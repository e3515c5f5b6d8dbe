"""That a replica stands at the log's end: a question to the cluster, for all who wait by the time that it is asked."""
from __future__ import annotations

import asyncio
import time
from typing import Set

from .log import Log
from .waits import Waits

# Questions on their way at once: who comes while one is needs the next.
QUESTIONS = 2


def now() -> int:
    """Nanoseconds, those counted in which the machine slept."""
    return time.clock_gettime_ns(time.CLOCK_BOOTTIME)


class Ends:
    """When the replica's state was the log's end."""

    def __init__(self, log: Log, waits: Waits) -> None:
        self.log, self.waits = log, waits
        self.progress = asyncio.Event()
        self.questions: Set["asyncio.Task[None]"] = set()
        self.is_asking = False  # a question will be put that all may wait for who come before

    def reach(self, revision: int) -> None:
        """All entries up to that revision are applied."""
        self.waits.reach(revision)
        self.progress.set()

    async def ask(self) -> None:
        """Asks for the log's end, and waits until that is applied."""
        asked = now()
        self.is_asking = False
        self.waits.answered(asked, await self.log.end())
        while not self.waits.is_reached(asked):
            self.progress.clear()
            await self.progress.wait()

    async def is_reached(self, limit: float) -> bool:
        """Whether the replica comes to the end that the log has now within so many seconds. A question that was asked before
        says nothing of now."""
        begun = now()
        until = time.monotonic() + limit
        while not self.waits.is_reached(begun):
            if not self.is_asking and len(self.questions) < QUESTIONS:
                self.is_asking = True
                self.questions.add(asyncio.ensure_future(self.ask()))
            left = max(0.0, until - time.monotonic())
            done, _ = await asyncio.wait(set(self.questions), timeout=left, return_when=asyncio.FIRST_COMPLETED)
            self.questions -= done
            if not done:
                return False
            for question in done:
                question.result()
        return True

    def age(self) -> float:
        """How many seconds ago the replica's state was the log's end, at most."""
        return (now() - self.waits.known()) / 1e9

    async def stay(self, limit: float) -> None:
        """Asks again and again, so that the age stays known."""
        while True:
            await self.is_reached(limit)
            await asyncio.sleep(min(1.0, limit / 4))
