"""Records of a file that is read piece by piece. Each piece is cut into runs, whose lines wait in a file without a name until all of
the input was looked at; so memory doesn't grow with the input, but for eight bytes of each key, by which keys that stand twice
are found. Pieces are made ready by as many processes as there are processors."""

import array
import itertools
import os
import pickle
import re
import signal
import tempfile
from bisect import bisect_left
from collections import Counter
from typing import IO, BinaryIO, Callable, Dict, Iterator, List, NamedTuple, Optional, Tuple

from tiuvrokk._escapes import cut, escaped_key, escaped_value
from tiuvrokk._grammar import MAX_LOCKS, MAX_OPERATIONS, MAX_RUN, RECORD, RECORDS, fault_of, staged, with_tab

from .program import CLOSED, Stop, visible
from .tables import Columns, lines_of_table

# A transaction's operations are a lock and the loads. Each load has a lock of its own, unless one covers them all.
MAX_RUNS = MAX_OPERATIONS - 1
SHOWN = 60

# Hashes of keys are compared by at most so many parts of their range, one after another.
PARTS = 64
TWICE, TWICE_LAST = "its key stands in a line before, whose value stays", "its key stands in a line behind, whose value stays"


class Reading(NamedTuple):
    """How lines are read."""

    run: int = MAX_RUN
    skips_empty: bool = False
    skips: bool = False
    """What is no record is passed over and counted."""
    escapes: bool = False
    key_bytes: int = 0
    value_bytes: int = 0
    """At most so many bytes of a key, and of a value, where it isn't 0."""
    updates: bool = False
    """Records that are there get the new values."""
    keeps_last: bool = False
    """Of lines with one key the last one counts."""
    columns: Optional[Columns] = None
    """Where the lines are a table's, which of its columns are read."""

    @property
    def is_escaped(self) -> bool:
        """Whether records come with their bytes escaped."""
        return self.escapes and self.columns is not None

    @property
    def drops_doubles(self) -> bool:
        return self.skips or self.keeps_last

    @property
    def twice(self) -> str:
        """Why a line is passed over whose key another one has."""
        return TWICE_LAST if self.keeps_last else TWICE

    @property
    def verb(self) -> bytes:
        """That of a run's last line."""
        return b"PUT" if self.updates else b"LOAD"


class Run(NamedTuple):
    """A run's lines, and what is known of its records."""

    number: int
    least: bytes
    greatest: bytes
    size: int
    hashes: bytes
    lines: bytes = b""


class Piece(NamedTuple):
    """What came of some lines of the input: runs, the first line that is no record, how many there are, and why they are none."""

    runs: List[Run]
    bad: Optional[Tuple[int, bytes, str]]
    faults: "Counter[str]"


def piece_of(text: bytes, first: int, reading: Reading) -> Piece:
    """Makes runs of lines, the first of which has that number."""
    text = text.replace(b"\r\n", b"\n")
    is_plain = not (reading.escapes or reading.key_bytes or reading.value_bytes)
    records = RECORDS.findall(text) if is_plain and b"\t" in text else []
    bad: Optional[Tuple[int, bytes, str]] = None
    faults: "Counter[str]" = Counter()
    if len(records) < text.count(b"\n") and is_plain:
        records = RECORDS.findall(b"\n".join(map(with_tab, text.split(b"\n"))))
    if len(records) < text.count(b"\n"):
        records = []
        for number, line in enumerate(text.split(b"\n")[:-1], first):
            if not line and reading.skips_empty:
                continue
            record = record_of(line, reading)
            if RECORD.fullmatch(record):
                records.append(record)
            else:
                why = fault_of(record)
                faults[reason(why)] += 1
                bad = bad or (number, line, why)
    if reading.drops_doubles:
        records = without_doubles(records, faults, reading)
    runs = [run_of(records[at : at + reading.run], reading.verb) for at in range(0, len(records), reading.run)]
    return Piece(runs, bad, faults)


def record_of(line: bytes, reading: Reading) -> bytes:
    """A line as a record, with a TAB behind its key, as far as it is one."""
    key, separator, value = with_tab(line).partition(b"\t")
    if reading.escapes and separator and not reading.is_escaped:
        key, value = escaped_key(key), escaped_value(value)
    if reading.key_bytes:
        key = cut(key, reading.key_bytes, reading.escapes)
    if reading.value_bytes:
        value = cut(value, reading.value_bytes, reading.escapes)
    return key + separator + value


def reason(why: str) -> str:
    """Why a line is no record, but for its numbers."""
    found = re.match(r"it is too long: the (key|value)", why)
    return f"its {found.group(1)} is too long" if found else why.partition(":")[0]


def without_doubles(records: List[bytes], faults: "Counter[str]", reading: Reading) -> List[bytes]:
    """The records but those whose key one before has, or one behind."""
    kept: Dict[bytes, bytes] = {}
    for record in records if reading.keeps_last else reversed(records):
        kept[key_of(record)] = record
    if len(kept) < len(records):
        faults[reading.twice] += len(records) - len(kept)
    return list(kept.values())


def key_of(record: bytes) -> bytes:
    return record.partition(b"\t")[0]


def run_of(records: List[bytes], verb: bytes) -> Run:
    """A run as it is loaded."""
    hashes = array.array("q", sorted(map(hash, map(key_of, records))))
    lines = lines_of(records, verb)
    size = sum(map(len, records)) + len(records)
    return Run(len(records), min(records), max(records), size, hashes.tobytes(), lines)


def lines_of(records: List[bytes], verb: bytes) -> bytes:
    """The lines that stage the records of one run and load, or put, the last of them. TAB is below all that a key may have, so
    records stand in the order of their keys."""
    return b"".join(line + b"\n" for line in staged(sorted(records), verb)).replace(b"\t", b"=")


class Helper:
    """A process that makes pieces ready, one at a time. It ends with this one, and an interrupt at the terminal is this one's."""

    def __init__(self, reading: Reading, others: "List[Helper]") -> None:
        get_text, put_text = os.pipe()
        get_piece, put_piece = os.pipe()
        self.is_busy = False
        self.process = os.fork()
        if self.process:
            os.close(get_text)
            os.close(put_piece)
            self.put, self.get = open(put_text, "wb"), open(get_piece, "rb")
            return
        try:
            signal.signal(signal.SIGINT, signal.SIG_IGN)
            signal.signal(signal.SIGPIPE, signal.SIG_DFL)
            for number in [put_text, get_piece, *(it.fileno() for helper in others for it in (helper.put, helper.get))]:
                os.close(number)
            with open(get_text, "rb") as asked, open(put_piece, "wb") as made:
                while True:
                    text, first = pickle.load(asked)
                    pickle.dump(piece_of(text, first, reading), made, protocol=4)
                    made.flush()
        finally:
            os._exit(0)

    def ask(self, text: bytes, first: int) -> None:
        pickle.dump((text, first), self.put, protocol=4)
        self.put.flush()
        self.is_busy = True

    def take(self) -> Piece:
        """What it made; it has no more than want of memory to fail by."""
        try:
            found: Piece = pickle.load(self.get)
        except (EOFError, pickle.UnpicklingError):
            raise MemoryError from None
        self.is_busy = False
        return found

    def end(self) -> None:
        self.put.close()
        self.get.close()
        os.waitpid(self.process, 0)


def opened(file: str) -> BinaryIO:
    """The input. One that can't be read twice is copied as it is read."""
    if file == "-" and CLOSED[0]:
        raise Stop(4, "standard input: it is closed")
    try:
        return open(0 if file == "-" else file, "rb", closefd=file != "-")
    except OSError as error:
        raise Stop(4, f"{file}: {error.strerror}") from None


def nameless() -> IO[bytes]:
    """A file without a name."""
    try:
        return tempfile.TemporaryFile()
    except OSError as error:
        raise Stop(4, f"no file for what waits: {error.strerror}") from None


class Pieces:
    """All records of a file, as runs that are loaded in turn."""

    def __init__(self, file: str, reading: Reading, show: Callable[[int, int, int], None]) -> None:
        self.file, self.reading = file, reading
        self.runs: List[Run] = []
        self.faults: "Counter[str]" = Counter()
        self.bad: Optional[Tuple[int, bytes, str]] = None
        self.dropped: Dict[int, List[bytes]] = {}
        self.spool = nameless()
        self.read(opened(file), show)
        self.raise_faults()
        suspects = self.suspects()
        if suspects and reading.drops_doubles:
            self.drop_doubles(suspects)
        elif suspects:
            self.raise_double(suspects)
        if len(self.runs) > MAX_RUNS:
            number = f"{self.records()} records in runs of {reading.run} are {len(self.runs)} runs"
            raise Stop(2, f"{number}, and a transaction loads {MAX_RUNS} at most")

    def read(self, source: BinaryIO, show: Callable[[int, int, int], None]) -> None:
        """Reads all, and shows how far it is: records, bytes, and how many bytes there are, where that is known."""
        lines_at_once = self.reading.run * max(1, MAX_RUN // self.reading.run)
        columns = self.reading.columns
        lines: Iterator[bytes] = lines_of_table(source, columns, self.reading.escapes) if columns else iter(source)
        self.copy: Optional[IO[bytes]] = nameless() if columns or not source.seekable() else None
        self.lines_before = 1 if columns else 0
        whole = os.fstat(source.fileno()).st_size if source.seekable() else 0
        helpers: List[Helper] = []
        first, size = self.lines_before, 0
        try:
            for text in self.texts(lines, lines_at_once):
                if not helpers and text.count(b"\n") == lines_at_once:
                    for _ in range(len(os.sched_getaffinity(0))):
                        helpers.append(Helper(self.reading, helpers))
                if helpers:
                    helper = helpers.pop(0)
                    helpers.append(helper)
                    if helper.is_busy:
                        self.take(helper.take())
                    helper.ask(text, first + 1)
                else:
                    self.take(piece_of(text, first + 1, self.reading))
                first += text.count(b"\n")
                size += len(text)
                show(self.records(), size, whole)
            for helper in helpers:
                if helper.is_busy:
                    self.take(helper.take())
        except OSError as error:
            raise Stop(4, f"{'standard input' if self.file == '-' else self.file}: {error.strerror}") from None
        finally:
            for helper in helpers:
                helper.end()
        self.source = source

    def texts(self, source: Iterator[bytes], number: int) -> Iterator[bytes]:
        """So many lines at a time, each ended by an LF. An empty last line is none."""
        lines = list(itertools.islice(source, number))
        while lines:
            if self.copy:
                self.copy.writelines(lines)
            following = list(itertools.islice(source, number))
            if not following:
                if lines[-1] in (b"\n", b"\r\n"):
                    lines.pop()
                elif not lines[-1].endswith(b"\n"):
                    lines[-1] += b"\n"
            if lines:
                yield b"".join(lines)
            lines = following

    def take(self, piece: Piece) -> None:
        self.faults.update(piece.faults)
        self.bad = self.bad or piece.bad
        if self.bad and not self.reading.skips:
            return
        try:
            for run in piece.runs:
                self.spool.write(run.lines)
                self.runs.append(run._replace(lines=b"%d" % len(run.lines)))
        except OSError as error:
            raise Stop(4, f"{tempfile.gettempdir()}: {error.strerror}") from None

    def raise_faults(self) -> None:
        """Tells the first line that is no record, why it is none, and how many more there are."""
        if self.reading.skips or not self.bad:
            return
        number, line, why = self.bad
        text = visible(line)
        text = f' "{text[:SHOWN]}{".." if len(text) > SHOWN else ""}"' if line else ""
        more = sum(self.faults.values()) - 1
        told = f"; {more} more such line{'s' if more > 1 else ''}" if more else ""
        raise Stop(3, f"line {number}{text}: {why}{told}")

    def suspects(self) -> "set[int]":
        """The hashes that two keys have, of which nearly all are those of keys that stand twice."""
        found: "set[int]" = set()
        columns = [memoryview(run.hashes).cast("q") for run in self.runs]
        step = 2**64 // max(1, min(PARTS, self.records() // MAX_RUN))
        for low in range(-(2**63), 2**63, step):
            seen: "set[int]" = set()
            for column in columns:
                part = column[bisect_left(column, low) : bisect_left(column, low + step)].tolist()
                before = len(seen)
                fresh = set(part)
                if len(fresh) < len(part):
                    found.update(it for it, times in Counter(part).items() if times > 1)
                seen |= fresh
                if len(seen) < before + len(fresh):
                    found |= self.repeated(columns, low, step)
                    break
        return found

    def repeated(self, columns: List["memoryview"], low: int, step: int) -> "set[int]":
        """The hashes of a part of their range that stand more than once."""
        counts: "Counter[int]" = Counter()
        for column in columns:
            counts.update(column[bisect_left(column, low) : bisect_left(column, low + step)].tolist())
        return {it for it, times in counts.items() if times > 1}

    def raise_double(self, suspects: "set[int]") -> None:
        """Tells the first key that stands in a line before, where one does."""
        source = self.copy or self.source
        source.seek(0)
        first: Dict[bytes, int] = {}
        for number, line in enumerate(source, 1 + self.lines_before):
            key = key_of(record_of(line.rstrip(b"\r\n") if line.endswith(b"\n") else line, self.reading))
            if key and hash(key) in suspects and first.setdefault(key, number) != number:
                raise Stop(3, f"line {number}: the key {key.decode()} stands in line {first[key]} already")

    def drop_doubles(self, suspects: "set[int]") -> None:
        """Has the runs drop what a run before has, or one behind."""
        doubtful: List["set[bytes]"] = []
        for _, lines in self:
            keys = {word.partition(b"=")[0] for word in lines.split() if b"=" in word}
            doubtful.append({key for key in keys if hash(key) in suspects})
        seen: "set[bytes]" = set()
        for at in reversed(range(len(doubtful))) if self.reading.keeps_last else range(len(doubtful)):
            if again := doubtful[at] & seen:
                self.dropped[at] = sorted(again)
                self.faults[self.reading.twice] += len(again)
            seen |= doubtful[at]

    def told_faults(self) -> str:
        """How many lines were passed over, and why."""
        number = sum(self.faults.values())
        reasons = ", ".join(f"{times} since {why}" for why, times in self.faults.most_common())
        return f"{number} line{'' if number == 1 else 's'} passed over: {reasons}" if number else ""

    def records(self) -> int:
        return sum(run.number for run in self.runs) - sum(map(len, self.dropped.values()))

    def size(self) -> int:
        """The bytes of all records, with what parts them."""
        return sum(run.size for run in self.runs)

    def lock(self) -> bytes:
        """Where there are more runs than a transaction has locks, one lock covers all of them."""
        return self.whole_lock() if len(self.runs) > MAX_LOCKS else b""

    def whole_lock(self) -> bytes:
        """The line that locks the range of all keys."""
        low, high = min(run.least for run in self.runs), max(run.greatest for run in self.runs)
        return b"LOCK X %b %b\n" % (key_of(low), key_of(high))

    def __iter__(self) -> Iterator[Tuple[int, bytes]]:
        """The lines of each run, with the number of records up to its end."""
        self.spool.seek(0)
        done = 0
        for at, run in enumerate(self.runs):
            lines = self.spool.read(int(run.lines))
            done += run.number
            if at in self.dropped:
                gone = set(self.dropped[at])
                done -= len(gone)
                records = [word for word in lines.split() if b"=" in word and word.partition(b"=")[0] not in gone]
                lines = lines_of([record.replace(b"=", b"\t", 1) for record in records], self.reading.verb) if records else b""
            yield done, lines

