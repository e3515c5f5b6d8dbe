"""A transaction as its session has it, in trials, and as a block of the log.

All that a transaction was told is what one state of the store, which was the log's end once, answers: the library sees to that.
Here stand the lines that have no answer yet, and may go into the block without one."""
from __future__ import annotations

from typing import List, Optional

from tiuvrokk_tools.verbs import STAGING, has_written

from .entries import Block
from .lines import READS, answer_apart, longest_answer
from .store import Store, Trial

CONFLICT = b"ERR CONFLICT"
LIMIT = b"ERR LIMIT"
UNREACHABLE = b"ERR UNREACHABLE"
UNKNOWN = b"ERR UNKNOWN"
# Bytes of a block's lines, each counted with 100 more, and of its answers.
MOST_LINES = 64_000_000
MOST_ANSWERS = 64_000_000


def line_size(line: bytes) -> int:
    return len(line) + 100


class Transaction:
    """Its lines up to now: those that were answered, and those that wait for that."""

    def __init__(self) -> None:
        self.tried: Optional[Trial] = None  # where some were answered
        self.pending: List[bytes] = []
        self.fault = b""  # what all further lines are answered
        self.has_stages = False
        self.waits_to_load = False  # records were staged
        self.wrote = False
        self.commits = -1  # those of the state that it was told of; -1 before the first trial
        self.line_bytes = self.answer_bytes = 0  # the answers of what is pending are counted as the longest

    def block(self) -> Block:
        """It as a block, with the lines that are pending. It is over then."""
        block = self.tried.block() if self.tried else Block(b"")
        return block.with_lines(self.pending)

    def is_told(self) -> bool:
        """Whether it wrote, and all its lines were answered, with no fault."""
        return self.wrote and not (self.pending or self.fault or self.waits_to_load)

    def only_reads(self) -> bool:
        """Whether it wrote nothing, and has no line pending that may."""
        return not self.wrote and all(line.partition(b" ")[0] in READS for line in self.pending)

    def has_room(self, line: bytes) -> bool:
        """Whether no block can be too large with that line."""
        return self.line_bytes + line_size(line) <= MOST_LINES and self.answer_bytes + longest_answer(line) <= MOST_ANSWERS

    def add(self, line: bytes) -> None:
        """A line that is pending from now on."""
        self.pending.append(line)
        self.has_stages = self.has_stages or line.startswith(b"STAGE ")
        self.line_bytes += line_size(line)
        self.answer_bytes += longest_answer(line)

    def trial(self, store: Store, commits: int) -> List[bytes]:
        """The answers to the lines that are pending, where the store stands now."""
        pending, self.pending = self.pending, []
        for line in pending:
            self.line_bytes -= line_size(line)
            self.answer_bytes -= longest_answer(line)
        if self.fault or not pending:
            return [self.fault] * len(pending)
        self.commits = commits
        if self.tried is None:
            self.tried = Trial(store)
        answers = [answer or answer_apart(line, True) for line, answer in zip(pending, self.tried.ask(pending))]
        for line, answer in zip(pending, answers):
            self.take(line, answer)
        store.has_ghosts = store.has_ghosts or self.wrote
        return answers

    def take(self, line: bytes, answer: bytes) -> None:
        """A line was answered. One with a fault did nothing and is forgotten; a LOAD or PUT lets go what was staged."""
        if answer == CONFLICT:
            self.fault = CONFLICT
            return
        word = line.partition(b" ")[0]
        if answer.startswith(b"ERR ") and (word not in STAGING or answer in (b"ERR SYNTAX", b"ERR RANGE", LIMIT)):
            return
        if word in STAGING or word == b"STAGE":
            self.waits_to_load = word == b"STAGE"
        self.wrote = self.wrote or has_written(line, answer)
        self.line_bytes += line_size(line)
        self.answer_bytes += len(answer) + 1
