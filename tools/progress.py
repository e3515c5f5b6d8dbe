"""How far a build of crates is, on standard error, where that is a terminal: the share that is done, by the crates' lines,
and the time that is left."""

import os
import selectors
import sys
import time
from typing import IO, Callable, Collection, Dict, Iterable, Iterator, Mapping, Optional

# Seconds between two looks at the time, and the width of a line where the terminal tells none.
PAUSE, WIDTH = 1.0, 80
# So much of a crate's lines counts as done at most, however long it is at work.
MOST_AT_WORK = 0.95


def chains_of(sizes: Mapping[str, int], waits: Mapping[str, Collection[str]]) -> Dict[str, int]:
    """The sizes along the longest chain of crates that wait for one another, from each crate on upwards."""
    chains: Dict[str, int] = {}

    def chain(crate: str) -> int:
        if crate not in chains:
            chains[crate] = sizes[crate] + max((chain(it) for it in sizes if crate in waits[it]), default=0)
        return chains[crate]

    for crate in sizes:
        chain(crate)
    return chains


class Progress:
    """The crates by name: their sizes, in lines, and the crates that each waits for."""

    def __init__(
        self, sizes: Mapping[str, int], waits: Mapping[str, Collection[str]], clock: Callable[[], float] = time.monotonic
    ) -> None:
        self.sizes, self.chains, self.clock = sizes, chains_of(sizes, waits), clock
        self.begun = clock()
        self.seconds: Dict[str, float] = {}  # that a crate took which is done
        self.shown = 0  # characters of what stands in the terminal's line
        self.pause: Optional[float] = PAUSE if os.isatty(2) else None

    def done(self, crate: str, seconds: float) -> None:
        self.seconds[crate] = seconds

    def rate(self) -> float:
        """Lines that a crate at work gets done in a second, of those that are done."""
        return sum(self.sizes[it] for it in self.seconds) / max(0.001, sum(self.seconds.values()))

    def parts(self, working: Mapping[str, float]) -> Dict[str, float]:
        """The lines that count as done of each crate. Those at work are told by the second in which each began."""
        now, rate = self.clock(), self.rate()
        begun = {it: min(MOST_AT_WORK * self.sizes[it], rate * (now - since)) for it, since in working.items()}
        return {**{it: float(self.sizes[it]) for it in self.seconds}, **begun}

    def left(self, working: Mapping[str, float]) -> float:
        """The seconds that are left: of all lines by as many crates at once as were at work, or of the longest chain."""
        parts, now = self.parts(working), self.clock()
        spent = sum(self.seconds.values()) + sum(now - since for since in working.values())
        at_once = max(1.0, spent / max(0.001, now - self.begun))
        lines = sum(self.sizes.values()) - sum(parts.values())
        chain = max([0.0] + [self.chains[it] - parts.get(it, 0) for it in self.sizes if it not in self.seconds])
        return max(lines / at_once, chain) / self.rate()

    def text(self, working: Mapping[str, float]) -> str:
        """What a terminal shows."""
        share = sum(self.parts(working).values()) / max(1, sum(self.sizes.values()))
        text = f"{100 * share:3.0f} % done, {len(self.seconds)} of {len(self.sizes)} crates"
        if self.seconds:
            minutes, seconds = divmod(round(self.left(working)), 60)
            text += f", about {minutes}:{seconds:02} left"
        return f"{text} (now: {', '.join(sorted(working))})" if working else text

    def show(self, working: Mapping[str, float]) -> None:
        """Shows it over what was shown before."""
        if self.pause is not None:
            text = self.text(working)[: columns() - 1]
            print(f"\r{text:{self.shown}}", end="", file=sys.stderr, flush=True)
            self.shown = len(text)

    def clear(self) -> None:
        """Takes back what was shown."""
        if self.shown:
            print(f"\r{'':{self.shown}}\r", end="", file=sys.stderr, flush=True)
            self.shown = 0

    def say(self, lines: Iterable[str]) -> None:
        """Lines that stay, in place of what was shown."""
        self.clear()
        for line in lines:
            tell(line)


def tell(text: str) -> None:
    """Tells a line on standard error."""
    print(text, file=sys.stderr, flush=True)


def lines_as_they_come(pipe: IO[bytes], waiting: Callable[[], None]) -> Iterator[str]:
    """The lines that a program writes. While none comes, another call is made each second."""
    with selectors.DefaultSelector() as ready:
        ready.register(pipe, selectors.EVENT_READ)
        rest = b""
        while True:
            if not ready.select(PAUSE):
                waiting()
                continue
            piece = os.read(pipe.fileno(), 65_536)
            *whole, rest = (rest + piece).split(b"\n")
            yield from (it.decode(errors="replace") for it in whole)
            if not piece:
                return


def columns() -> int:
    """How wide the terminal is."""
    try:
        return os.get_terminal_size(2).columns or WIDTH
    except OSError:
        return WIDTH
