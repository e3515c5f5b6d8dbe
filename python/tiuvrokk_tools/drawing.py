"""Draws how a store was merged, from a trace: a picture as SVG on standard output, or with --text a table.

TRACE is what `amserve listen --trace TRACE` stored (standard input, where none or - is named). Keys go from left to right, each
record as wide as any other. Above stands each loaded run, a band that is thinned where its records left it, and pale where
they are deleted and still take their place. Below that the steps go from top to bottom: each query a bar over its range, each
merge step a bar over what it moved, each CLEAN one over what it freed; locks, refusals and aborts are told by a word. At the
foot stands the final partition after each quarter of the steps. The table has, by step, how many records were merged and
places cleaned, and the share of each run that has left it. A trace is drawn as it stands: `amaudit` says whether it is legal.

Idle merging of a server that stays has its own shade, and a column `unasked` of the table. A trace doesn't say whose
a step is: a BEGIN, a SCAN for one row and a COMMIT, or an ABORT where that was busy, one right after another, are taken
for a worker's. So is what a session does that reads one row in a transaction of its own while nobody else asks. Python
3.9 is needed.

    ./amdraw TRACE >picture.svg"""

import argparse
from bisect import bisect_left, bisect_right
from collections import Counter
from typing import Dict, Iterable, List, Tuple, Union

from .merging import Merging, Move, Query, Run, followed
from .program import Parser, read_file, run_program, write_all

EPILOG = """status:
  0  the picture or the table was written
  2  the words of the command line are wrong
  3  a line is none of a trace
  4  TRACE can't be read
  6  standard output can't be written
  7  there was no memory"""
NAME = "amdraw"
LEFT, RIGHT, WIDTH = 84, 96, 780
# So wide is a letter at most.
LETTER = 7
TOP, STEPS_HEIGHT, FOOT_HEIGHT, GAP = 58, 420, 84, 30
RUNS_HEIGHT, BAND, WORD_HEIGHT = 360, 14, 10
COLUMN = 4
TABLE_ROWS, MOST_COLUMNS = 16, 20
COLOURS = {"run": "#30506e", "ghost": "#e2b4bc", "gone": "#e3e9ee", "query": "#2a78b5", "move": "#d9701e", "clean": "#2f8f4e"}
IDLE_COLOURS = {"query": "#b4a8cc", "move": "#8a63a8"}
WORD_COLOUR = "#b02030"
SHADES = ["#f6dcc4", "#efba8c", "#e59450", "#c9601a"]


class Picture:
    """The marks of a picture, on the scale of its keys and steps."""

    def __init__(self, merging: Merging) -> None:
        self.merging = merging
        self.keys = merging.keys()
        self.ranks = {key: rank for rank, key in enumerate(self.keys)}
        self.marks: List[str] = []
        self.right = RIGHT
        self.band = min(BAND, RUNS_HEIGHT / max(1, len(merging.runs)))
        self.steps_top = TOP + self.band * len(merging.runs) + GAP
        self.foot_top = self.steps_top + STEPS_HEIGHT + GAP

    def x(self, rank: int) -> float:
        """Where the key of a rank begins."""
        return LEFT + WIDTH * rank / max(1, len(self.keys))

    def y(self, step: int) -> float:
        return self.steps_top + STEPS_HEIGHT * step / max(1, self.merging.steps)

    def span(self, low: bytes, high: bytes) -> Tuple[int, int]:
        """From where to where the keys of a range stand, a pixel at least."""
        begin = round(self.x(bisect_left(self.keys, low)))
        return begin, max(begin + 1, round(self.x(bisect_right(self.keys, high))))

    def text(self, x: float, y: float, text: str, how: str = "") -> None:
        self.marks.append(f'<text x="{x:.0f}" y="{y:.0f}" {how}>{text}</text>')

    def columns(self, keys: Iterable[bytes]) -> "Counter[int]":
        """How many of the keys stand in each column of the picture."""
        return Counter(WIDTH * self.ranks[key] // (COLUMN * len(self.keys)) for key in keys)

    def run(self, number: int, run: Run) -> None:
        """A band, thinned where records left it."""
        middle = TOP + self.band * (number + 0.5)
        full, standing = self.columns(run.keys), run.standing()
        live = [key for key in standing if self.merging.homes.get(key) is run]
        low, high = min(full, default=0), max(full, default=-1)
        height = self.band * 0.8
        x, wide = LEFT + COLUMN * low, COLUMN * (high + 1 - low)
        size = f'x="{x}" y="{middle - height / 2:.1f}" width="{wide}" height="{height:.1f}"'
        self.marks.append(f'<rect {size} fill="{COLOURS["gone"]}"/>')
        for kind, keys in (("ghost", standing if run.ghosts else []), ("run", live)):
            left = self.columns(keys)
            shares = [left[column] / full[column] if full[column] else 0.0 for column in range(low, high + 1)]
            if keys:
                self.marks.append(f'<path d="{outline(x, middle, height, shares)}" fill="{COLOURS[kind]}"/>')
        if self.band >= WORD_HEIGHT or not number % round(WORD_HEIGHT / self.band + 0.5):
            told = "taken back" if run.taken_back else f"{percent(len(live), len(run.keys))} left"
            self.text(LEFT - 8, middle + 4, f"run {number + 1}", 'text-anchor="end"')
            self.text(LEFT + WIDTH + 8, middle + 4, told)

    def steps(self) -> None:
        """The queries and the merge steps, those of idle merging behind the others."""
        frame = f'x="{LEFT}" y="{self.steps_top:.0f}" width="{WIDTH}" height="{STEPS_HEIGHT}"'
        self.marks.append(f'<rect {frame} fill="none" stroke="#bbb"/>')
        for is_idle, colours in ((True, IDLE_COLOURS), (False, COLOURS)):
            self.bars(colours["query"], (it for it in self.merging.queries if it.is_idle == is_idle))
            self.bars(colours["move"], (it for it in self.merging.moves if it.is_idle == is_idle))
        self.bars(COLOURS["clean"], self.merging.cleans)
        for quarter in range(5):
            step = self.merging.steps * quarter // 4
            self.text(LEFT - 8, self.y(step) + 4, f"step {step}", 'text-anchor="end"')

    def bars(self, colour: str, steps: Iterable[Union[Query, Move]]) -> None:
        """One over the range of each of these steps."""
        spans = {(*self.span(it.low, it.high), self.y(it.step)) for it in steps}
        path = " ".join(sorted({f"M{low},{y:.1f}h{high - low}" for low, high, y in spans}))
        if path:
            self.marks.append(f'<path d="{path}" stroke="{colour}" stroke-width="1" stroke-opacity="0.6"/>')

    def words(self) -> None:
        """Locks, refusals, aborts: those that stand close together in one line, with their numbers."""
        rows: Dict[int, Counter[str]] = {}
        for step, word in self.merging.words:
            rows.setdefault(int(self.y(step) / WORD_HEIGHT), Counter())[word] += 1
        for row, words in sorted(rows.items()):
            told = ", ".join(word if number == 1 else f"{number} {word}" for word, number in sorted(words.items()))
            self.text(LEFT + WIDTH + 8, row * WORD_HEIGHT + 8, told, f'fill="{WORD_COLOUR}"')
            self.right = max(self.right, 16 + LETTER * len(told))

    def foot(self) -> None:
        """The final partition after each quarter of the steps, the last one behind the others."""
        whole = self.columns(self.keys)
        columns = range(max(whole, default=-1) + 1)
        bottom = self.foot_top + FOOT_HEIGHT
        for quarter, shade in zip((4, 3, 2, 1), SHADES):
            there = self.columns(self.merging.final_at(self.merging.steps * quarter / 4))
            shares = [there[column] / whole[column] if whole[column] else 0.0 for column in columns]
            self.marks.append(f'<path d="{outline(LEFT, bottom, FOOT_HEIGHT, shares, is_standing=True)}" fill="{shade}"/>')
        self.marks.append(f'<path d="M{LEFT},{bottom:.0f}h{WIDTH}" stroke="#888"/>')
        self.text(LEFT - 8, bottom - 20, "final", 'text-anchor="end"')
        self.text(LEFT - 8, bottom - 6, "partition", 'text-anchor="end"')
        self.text(LEFT + WIDTH + 8, bottom - 6, percent(len(self.merging.arrived), len(self.keys)))
        self.text(LEFT, bottom + 18, "the final partition after one, two, three and four quarters of the steps, dark to light")

    def head(self) -> None:
        merging = self.merging
        whole = f"{count(len(self.keys), 'record')} in {count(len(merging.runs), 'run')}"
        self.text(LEFT, 22, f"{whole}, keys from left to right", 'class="title"')
        pale = ", and pale where they are deleted" if any(run.ghosts for run in merging.runs) else ""
        self.text(LEFT, 42, f"loaded runs at the end: a band is thinned where its records left it{pale}")
        freed = sum(it.number for it in merging.cleans)
        asked = [it for it in merging.moves if not it.is_idle]
        queries = sum(not it.is_idle for it in merging.queries)
        told = (
            f'<tspan fill="{COLOURS["query"]}">{queries} queries</tspan> and '
            f'<tspan fill="{COLOURS["move"]}">{len(asked)} merge steps that moved {count(moved(asked), "record")}</tspan>'
        )
        if merging.unasked():
            unasked = f'{count(moved(merging.unasked()), "record")} that nobody asked for'
            told = told.replace("</tspan> and ", "</tspan>, ") + f', <tspan fill="{IDLE_COLOURS["move"]}">{unasked}</tspan>'
        if freed:
            told = told.replace("</tspan> and ", "</tspan>, ")
            cleans = f'{count(len(merging.cleans), "CLEAN")} of {count(freed, "place")}'
            told += f' and <tspan fill="{COLOURS["clean"]}">{cleans}</tspan>'
        self.text(LEFT, self.steps_top - 8, told + ", steps from top to bottom")

    def svg(self) -> str:
        """The picture."""
        self.head()
        for number, run in enumerate(self.merging.runs):
            self.run(number, run)
        self.steps()
        self.words()
        self.foot()
        wide, high = LEFT + WIDTH + self.right, self.foot_top + FOOT_HEIGHT + GAP
        size = f'width="{wide}" height="{high:.0f}" viewBox="0 0 {wide} {high:.0f}"'
        style = "text{font:12px sans-serif} .title{font-weight:bold;font-size:14px}"
        head = f'<svg xmlns="http://www.w3.org/2000/svg" {size}><style>{style}</style>'
        return "\n".join([head, '<rect width="100%" height="100%" fill="#fff"/>', *self.marks, "</svg>", ""])


def outline(x: float, base: float, height: float, shares: List[float], is_standing: bool = False) -> str:
    """A shape as high as each column's share: about its middle, or standing on its base."""
    heights = [round(height * share, 1) for share in shares]
    upper = [base - (it if is_standing else it / 2) for it in heights]
    path = f"M{x:.0f},{base:.1f}" + columns_path(x, upper, COLUMN)
    if is_standing:
        return f"{path}V{base:.1f}z"
    lower = [base + it / 2 for it in reversed(heights)]
    return path + columns_path(x + COLUMN * len(heights), lower, -COLUMN) + "z"


def columns_path(x: float, levels: List[float], wide: int) -> str:
    """A line along the levels of columns; those beside one another that are alike are one."""
    path = ""
    for at, level in enumerate(levels):
        if at == 0 or f"{level:.1f}" != f"{levels[at - 1]:.1f}":
            path += f"V{level:.1f}"
        if at + 1 == len(levels) or f"{level:.1f}" != f"{levels[at + 1]:.1f}":
            path += f"H{x + wide * (at + 1):.0f}"
    return path


def moved(steps: Iterable[Move]) -> int:
    """How many records these moved."""
    return sum(it.number for it in steps)


def count(number: int, name: str) -> str:
    return f"{number:,} {name}{'' if number == 1 else 's'}"


def percent(part: int, whole: int) -> str:
    return f"{100 * part / whole:.0f} %" if whole else "-"


def table(merging: Merging) -> str:
    """What was done by each step, and the share of each run that has left it; of many runs the least, the middle and the
    greatest share. Where workers merged what nobody asked for, that much of what was moved."""
    is_wide = len(merging.runs) > MOST_COLUMNS
    names = ["least", "middle", "most"] if is_wide else [f"run {number}" for number in range(1, len(merging.runs) + 1)]
    unasked = merging.unasked()
    rows = [["step", "queries", "moved", *(["unasked"] if unasked else []), "cleaned", *names]]
    for part in range(1, TABLE_ROWS + 1):
        step = merging.steps * part // TABLE_ROWS
        shares = [share_gone(run, step) for run in merging.runs]
        known = sorted(share for share in shares if share >= 0)
        if is_wide:
            shares = [known[0], known[len(known) // 2], known[-1]] if known else [-1.0] * 3
        queries = sum(it.step <= step and not it.is_idle for it in merging.queries)
        kinds = [merging.moves, *([unasked] if unasked else []), merging.cleans]
        done = [moved(it for it in steps if it.step <= step) for steps in kinds]
        rows.append([str(step), str(queries), *map(str, done), *("-" if share < 0 else f"{share:.0f} %" for share in shares)])
    widths = [max(map(len, column)) for column in zip(*rows)]
    return "".join("  ".join(f"{cell:>{width}}" for cell, width in zip(row, widths)) + "\n" for row in rows)


def share_gone(run: Run, step: int) -> float:
    """How much of a run has left it after a step, of a hundred; less than 0 where it isn't loaded, or was taken back."""
    if step < run.step or not run.keys or 0 < run.taken_back <= step:
        return -1.0
    return 100 * (1 - run.left_at(step) / len(run.keys))


def words() -> argparse.Namespace:
    parser = Parser(NAME, __doc__, EPILOG)
    parser.add_argument("--text", action="store_true", help="write a table in place of a picture")
    parser.add_argument("trace", nargs="?", default="-", metavar="TRACE", help="the trace (default: standard input)")
    return parser.parse_args()


def main() -> int:
    asked = words()
    merging = followed(read_file(asked.trace))
    write_all((table(merging) if asked.text else Picture(merging).svg()).encode())
    return 0


def start() -> None:
    run_program(NAME, main)
