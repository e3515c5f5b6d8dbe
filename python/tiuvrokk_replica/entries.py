"""Entries of the log as bytes, in the form that crate am_replica_entries reads.

A text is a byte that names its form, the number of its blocks, and the blocks. A block is the length of its lines, these, and
0, or 1 with how many of the lines were answered and the digest of those answers. Numbers have four bytes, the highest first.

A long entry is packed: its text by zlib, after a byte of another form. Whatever else is in the log is no entry, and ends who
reads it: other replicas might have taken it."""
from __future__ import annotations

import struct
import zlib
from typing import List, NamedTuple, Tuple

from .lines import LONGEST_SHORT, MOST_ROWS, longest_answer, most_runs_of

# The byte that a text begins with, which floors tell too, and that of a packed one. Entries were begun by a digit once.
FORM, PACKED = 1, 2
OLD_FORMS = b"0123456789"
# Bytes of a text that isn't worth packing, and of the longest one that is unpacked: a block has 64,000,000, and those that a
# session sent ahead 500,000 more, which take 41 bytes each beside a line of one.
SMALL, LONGEST_TEXT = 2048, 100_000_000
# Bytes of a digest, and those that a block takes beside its lines, at most.
DIGEST = 32
BESIDE = 4 + 1 + 4 + DIGEST

# LOADs and PUTs, and bytes of answers, of blocks that are taken at once, beside one block more.
LOADS, ANSWERS = 20_000, 64_000_000
# What is said of a text that isn't one.
NONE_OF_BLOCKS = "is none whose blocks a replica takes"

HEAD = struct.Struct(">BI")
NUMBER = struct.Struct(">I")


class NoEntry(Exception):
    """What is in the log is none, or one of a form that this version doesn't know."""


def may_leave_ghosts(text: bytes) -> bool:
    """Whether lines may leave places of what they deleted or took back."""
    return b"DEL " in text or b"DELR " in text or b"BACK\n" in text


class Block(NamedTuple):
    """Lines, each with its LF; how many of them were answered; the digest of those answers, where some were."""

    body: bytes
    told: int = 0
    digest: bytes = b""

    def with_lines(self, lines: List[bytes]) -> Block:
        """The same with further lines, which have no answer."""
        return self._replace(body=b"".join([self.body, *(line + b"\n" for line in lines)]))

    @property
    def number(self) -> int:
        """How many lines there are."""
        return self.body.count(b"\n")

    @property
    def awaited(self) -> int:
        """How many answers its client has yet to be told: to its lines, and to COMMIT."""
        return self.number - self.told + 1

    @property
    def lines(self) -> List[bytes]:
        return self.body.split(b"\n")[:-1]

    def loads(self) -> int:
        return most_runs_of(self.body)

    def longest_answers(self) -> int:
        # (RSCAN has it within)
        return sum(map(longest_answer, self.lines)) if b"SCAN " in self.body else LONGEST_SHORT * self.number


def text_of(blocks: List[Block]) -> bytes:
    """The one text of an entry that has them."""
    parts = [HEAD.pack(FORM, len(blocks))]
    for body, told, digest in blocks:
        parts += (NUMBER.pack(len(body)), body, b"\1%s%s" % (NUMBER.pack(told), digest) if told else b"\0")
    return b"".join(parts)


def entry_of(blocks: List[Block]) -> bytes:
    """The bytes of that entry."""
    text = text_of(blocks)
    packed = b"%c%s" % (PACKED, zlib.compress(text, 1)) if len(text) > SMALL else text
    return min(packed, text, key=len)


def unpacked(entry: bytes) -> bytes:
    """The text of an entry, which may be packed."""
    if entry[:1] == bytes((FORM,)):
        return entry
    if entry[:1] != bytes((PACKED,)):
        raise NoEntry(of_other_form(entry))
    unpacking = zlib.decompressobj()
    try:
        text = unpacking.decompress(entry[1:], LONGEST_TEXT + 1)
    except zlib.error as fault:
        raise NoEntry(f"doesn't unpack: {fault}") from fault
    if len(text) > LONGEST_TEXT:
        raise NoEntry(f"unpacks to more than {LONGEST_TEXT} bytes")
    if not unpacking.eof:
        raise NoEntry("is cut short")
    if unpacking.unused_data:
        raise NoEntry("has bytes after its end")
    if text[:1] != bytes((FORM,)):
        raise NoEntry(of_other_form(text))
    return text


def of_other_form(text: bytes) -> str:
    """What a text is that isn't of this form."""
    if not text:
        return "has no bytes"
    if text[0] in OLD_FORMS:
        return "is of the form before this version's: docs/replicas.md says how such a log is taken over"
    return f"is of form {text[0]}, which this version doesn't know"


def count_of(text: bytes) -> int:
    """How many blocks a text says that it has."""
    if len(text) < HEAD.size:
        raise NoEntry(NONE_OF_BLOCKS)
    count: int = HEAD.unpack_from(text)[1]
    return count


def blocks_of(text: bytes) -> List[Block]:
    """The blocks of a text. What they are answered, and whether their lines are a block's, the library says."""
    blocks: List[Block] = []
    count, at = count_of(text), HEAD.size
    try:
        while len(blocks) < count:
            begin = at + NUMBER.size
            end = begin + NUMBER.unpack_from(text, at)[0]
            # (the last line may have no LF)
            body = text[begin:end] if text[end - 1] == 10 or begin == end else text[begin:end] + b"\n"
            told, at = told_at(text, end) if text[end] else (0, end + 1)
            blocks.append(Block(body, told, text[at - DIGEST:at] if told else b""))
    except (struct.error, IndexError) as fault:
        raise NoEntry(NONE_OF_BLOCKS) from fault
    if at != len(text):
        raise NoEntry(NONE_OF_BLOCKS)
    return blocks


def told_at(text: bytes, at: int) -> Tuple[int, int]:
    """How many lines the flag there says were answered, and where the digest behind that ends."""
    told: int = NUMBER.unpack_from(text, at + 1)[0]
    if text[at] != 1 or told == 0:
        raise NoEntry(NONE_OF_BLOCKS)
    return told, at + 1 + NUMBER.size + DIGEST


def portions(text: bytes) -> List[bytes]:
    """The texts of entries that have the same blocks, one after another: so few that the store has runs for them, and that memory
    has room for their answers."""
    if MOST_ROWS * text.count(b"SCAN ") + LONGEST_SHORT * text.count(b"\n") <= ANSWERS and most_runs_of(text) <= LOADS:
        return [text]
    found: List[List[Block]] = [[]]
    loads = size = 0
    for block in blocks_of(text):
        loads += block.loads()
        size += block.longest_answers()
        if found[-1] and (loads > LOADS or size > ANSWERS):
            found.append([])
            loads, size = block.loads(), block.longest_answers()
        found[-1].append(block)
    return list(map(text_of, found))
