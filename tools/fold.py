#!/usr/bin/env python3
"""Breaks the lines of proofs that are longer than 120 characters: tools/fold.py [CRATE..], or in all crates.

`rt fmt` lays out what was broken, and breaks nothing itself. So both take turns, until all lines fit. What goes on in a further
line is indented deeper than its item. A line is broken at as few brackets deep as can be, behind an operator, or between the
fields of a record, which the layout then gives a line each."""

import glob
import os
import re
import subprocess
import sys
from typing import Dict, List, NamedTuple, Optional, Tuple

sys.dont_write_bytecode = True
from tree import TOP  # noqa: E402

WIDTH = 120
OPEN, CLOSE = "([{⟨", ")]}⟩"
# A line may end behind these, and none begins with these.
BEHIND = {"→", "∙", "=", "×", "↔", "⊎", "++", "then", "else", "in"}
NEVER_FIRST = {"∙", "→", "×", "=", ":", "↔", "⊎", "++", ".", "≡", "∷", "then", "of", ";"}
NEVER_LAST = {"λ", "let", "where", "pub", "use", "module", "record", "data"}
# A record of fewer characters stays in one line.
SMALL_RECORD = 64


class Block:
    """A `let` or `where`, whose items begin in the column of the first one."""

    def __init__(self, word: str, opener: int, depth: int, first: Optional[int]) -> None:
        self.word, self.opener, self.depth, self.first = word, opener, depth, first


class Word(NamedTuple):
    """A word of a line: the blanks before it, how many brackets and which blocks are open before it."""

    text: str
    blanks: int
    depth: int
    blocks: Tuple[Block, ...]
    is_bound: bool  # between a λ and its dot
    is_item: bool  # the first word of a block


def deeper(text: str) -> int:
    """How many brackets more are open behind the text."""
    return sum(text.count(it) for it in OPEN) - sum(text.count(it) for it in CLOSE)


def words_of(line: str) -> Tuple[List[Word], List[Block]]:
    """The words of a line, and the blocks that are open at its end."""
    found = re.findall(r'( *)((?:"[^"]*"|[^ "])+)', line.lstrip(" "))
    words: List[Word] = []
    blocks: List[Block] = []
    depth, bound = 0, None
    for at, (blanks, text) in enumerate(found):
        while blocks and blocks[-1].depth > depth:
            blocks.pop()
        if text == "in" and any(it.word == "let" for it in blocks):
            while blocks.pop().word != "let":
                pass
        is_item = bool(blocks) and blocks[-1].first == at
        words.append(Word(text, len(blanks), depth, tuple(blocks), bound is not None, is_item))
        inside = depth + deeper(text)
        if bound is not None and text.endswith(".") and inside == bound:
            bound = None
        if text.lstrip(OPEN) == "λ":
            bound = inside
        depth = inside
        if text.lstrip(OPEN) in ("let", "where"):
            blocks.append(Block(text.lstrip(OPEN), at, depth, at + 1 if at + 1 < len(found) else None))
    return words, blocks


class Line:
    """A long line, and the pieces that it is broken into."""

    def __init__(self, line: str) -> None:
        self.base = len(line) - len(line.lstrip(" "))
        self.words, open_blocks = words_of(line)
        self.least = min(it.depth for it in self.words)
        # The items below stand in the column of such a block's first: all up to there stays as it is.
        self.kept = min((it.opener + 1 for it in open_blocks if it.first is not None), default=0)
        self.columns: Dict[int, int] = {}

    def place(self, start: int, indent: int) -> int:
        """Puts the words from one on into one line. Says where that ends."""
        column = indent
        for at in range(start, len(self.words)):
            column += self.words[at].blanks if at > start else 0
            self.columns[at] = column
            column += len(self.words[at].text)
        return column

    def may_break(self, at: int) -> bool:
        """Whether a line may end before the word."""
        word, last = self.words[at], self.words[at - 1]
        if at <= self.kept or word.is_item or word.is_bound or word.text in NEVER_FIRST:
            return False
        if word.text == "in" and at == len(self.words) - 1:
            return False
        return last.text.lstrip(OPEN) not in NEVER_LAST and not (last.text == ":" and word.depth > 0)

    def indent(self, at: int) -> int:
        """Where a line begins that starts with the word: deeper than the items of the blocks round it."""
        items = [self.columns[it.first] for it in self.words[at].blocks if it.first is not None]
        return max([self.base + 2 + 2 * max(0, min(self.words[at].depth, 3)), *(it + 2 for it in items)])

    def is_small(self, at: int) -> bool:
        """Whether the brackets round the word hold little."""
        low, high, depth = at, at, self.words[at].depth
        while low > 0 and self.words[low].depth >= depth:
            low -= 1
        while high < len(self.words) - 1 and self.words[high + 1].depth >= depth:
            high += 1
        return sum(1 + len(it.text) for it in self.words[low : high + 1]) <= SMALL_RECORD

    def cost(self, at: int, begun: int, indent: int) -> float:
        """How bad a break before the word is, of a line that begins in a column."""
        word, last = self.words[at], self.words[at - 1]
        end = self.columns[at - 1] + len(last.text)
        is_behind = last.text in BEHIND or last.text[-1] in ";," or word.text == "in"
        found = (word.depth - self.least) * 26 + (0 if is_behind else 14) + max(0, indent - 60) + (WIDTH - end) * 0.4
        if not is_behind and at >= 2 and (self.words[at - 2].text in BEHIND or last.text[0] in OPEN and last.depth < word.depth):
            found += 8  # (a function stays beside its first argument)
        if last.text.endswith(";"):
            found += 60 if self.is_small(at) else -70
        if last.text == ":" or (last.text == "=" and word.depth > 0):
            found += 25
        return found + (60 if end - begun < 45 else 0)

    def best(self, start: int, begun: int) -> Optional[int]:
        """The best word to begin the next line with."""
        found: List[Tuple[float, int]] = []
        for at in range(start + 1, len(self.words)):
            if self.columns[at - 1] + len(self.words[at - 1].text) > WIDTH:
                break
            if self.may_break(at) and self.indent(at) < min(97, self.columns[at] - 6):
                found.append((self.cost(at, begun, self.indent(at)), at))
        return min(found)[1] if found else None

    def pieces(self) -> List[str]:
        """The lines."""
        told: List[str] = []
        start, begun = 0, self.base
        while self.place(start, begun) > WIDTH:
            at = self.best(start, begun)
            if at is None:
                break
            told.append(self.text(start, at, begun))
            start, begun = at, self.indent(at)
            if self.words[at - 1].text.endswith(";"):
                break  # (the layout gives each field a line)
        return [*told, self.text(start, len(self.words), begun)]

    def text(self, start: int, end: int, indent: int) -> str:
        """Words as a line."""
        rest = "".join(" " * it.blanks + it.text for it in self.words[start + 1 : end])
        return " " * indent + self.words[start].text + rest


def fold_comment(line: str) -> List[str]:
    """A comment in several lines."""
    head = line[: line.index("--") + 2]
    told, now = [], head
    for word in line[len(head) :].split():
        if len(now) + 1 + len(word) > WIDTH and now != head:
            told.append(now)
            now = head
        now += f" {word}"
    return [*told, now]


def fold_use(head: str, names: List[str]) -> List[str]:
    """Imports from one module in several lines, each whole. The last line of a name that is too long has it alone."""
    told, now = [], names[:1]
    for name in names[1:]:
        if len(f"{head}{', '.join([*now, name])}}}") > WIDTH:
            told.append(f"{head}{', '.join(now)}}}")
            now = []
        now.append(name)
    last = f"{head}{', '.join(now)}}}"
    return [*told, last] if len(last) <= WIDTH else [*told, head, *(f"  {it}," for it in now), "}"]


def fold(line: str) -> List[str]:
    """The line in pieces that fit, as far as it can be broken."""
    if len(line) <= WIDTH:
        return [line]
    if line.lstrip(" ").startswith("--"):
        return fold_comment(line)
    use = re.fullmatch(r"( *(?:pub )?use [^{]*\{)(.*)\}", line)
    return fold_use(use.group(1), use.group(2).split(", ")) if use else Line(line).pieces()


def fold_all(files: List[str]) -> List[str]:
    """Breaks lines once. The files that still have long ones."""
    long: List[str] = []
    for path in files:
        with open(path, encoding="utf-8") as file:
            old = file.read().split("\n")
        if any(len(line) > WIDTH for line in old):
            long.append(path)
            with open(path, "w", encoding="utf-8") as file:
                file.write("\n".join(piece for line in old for piece in fold(line)))
    return long


def main(crates: List[str]) -> int:
    """Folds, and gives the status: 1 where a line can't be broken."""
    folders = [f"{TOP}/crates/{it}" for it in crates] or glob.glob(f"{TOP}/crates/*")
    files = sorted(it for folder in folders for it in glob.glob(f"{folder}/proofs/**/*.antt", recursive=True))
    for _ in range(8):
        files = fold_all(files)
        if not files:
            return 0
        for folder in sorted({f"{TOP}/crates/{os.path.relpath(it, f'{TOP}/crates').split(os.sep)[0]}" for it in files}):
            subprocess.run(["rt", "fmt"], cwd=folder, stdout=subprocess.DEVNULL, check=True)
    print("\n".join(f"{os.path.relpath(it, TOP)}: a line that can't be broken" for it in files))
    return 1


if __name__ == "__main__":
    sys.exit(main(sys.argv[1:]))
