"""Writes the committed records of a server's store, one a line, by rising key: the key, a TAB and the value.

They are read by scans under one shared lock, so they are those of one moment, and nobody writes meanwhile. For that lock the
server is held first, so that no writer is in its way. What is written is what amload reads:

    ./amdump --port 7070 | ./amload --port 7071

With --escape percent signs and the two digits behind each are written as the bytes that they stand for, as amload --escape reads
them. A record with an end of a line, or with a TAB in its key, is written with its percent signs.

Where FILE is named it appears once it is whole, and until then there is FILE.part. Else the records go to standard output; a
plain file there is emptied again where the dump fails. Where standard error is a terminal it says how far it is. Python 3.9 is
needed."""

import argparse
import contextlib
import os
import stat
from typing import Callable, Iterator, List, Optional

from tiuvrokk._escapes import unescaped_lines
from tiuvrokk._grammar import GREATEST_KEY, LEAST_KEY

from .holding import Tries, add_holding, hold, tries_of
from .program import Parser, Stop, add_server, run_program, write_all
from .progress import Progress
from .sessions import Refused, Session, with_server

EPILOG = """status:
  0  all records were written
  1  the server answered a line otherwise: what was written isn't all
  2  the words of the command line are wrong
  5  the server can't be reached, went away or didn't answer in time: what was written isn't all
  6  standard output, or FILE, can't be written
  7  there was no memory: what was written isn't all
An interrupt ends it by SIGINT: what was written isn't all."""
NAME = "amdump"
HOLD_MILLIS = 2000
TRIES = 8
ROWS = 1000
MOST_SCANS = 4000


def wanted_answer(session: Session, line: bytes, wanted: bytes) -> bytes:
    """What stands behind the wanted word of the answer; another answer ends all."""
    answer = session.ask(line)
    if not answer.startswith(wanted + b" "):
        raise Refused(answer)
    return answer[len(wanted) + 1 :]


def scans(session: Session, lowest: bytes = LEAST_KEY, greatest: bytes = GREATEST_KEY) -> Iterator[List[bytes]]:
    """The rows of each scan, in a transaction. Each goes on from the last row's key, which comes once more. The first one
    locks the whole range, so all are of one moment."""
    repeated = 0
    while True:
        number, *rows = wanted_answer(session, b"SCAN %b %b %d" % (lowest, greatest, ROWS), b"ROWS").split(b" ")
        yield rows[repeated:]
        if number != b"%d" % ROWS:
            return
        lowest, repeated = rows[-1].partition(b"=")[0], 1


def text_of(rows: List[bytes]) -> bytes:
    """Rows as lines. No key has a =."""
    return b"".join(row.replace(b"=", b"\t", 1) + b"\n" for row in rows)


def dump_rows(session: Session, write: Callable[[bytes], object], progress: Progress) -> int:
    """Writes all records that the session's transaction sees, and counts them."""
    records = size = 0
    for rows in scans(session):
        text = text_of(rows)
        write(text)
        records, size = records + len(rows), size + len(text)
        progress.show(records, size)
    return records


def writer(escapes: bool) -> Callable[[bytes], object]:
    """What writes lines to standard output."""
    return (lambda text: write_all(unescaped_lines(text))) if escapes else write_all


class Pages:
    """Scans of a moment's records, by one session after another: a transaction has 4,096 operations, and before it ends the next
    one has the same lock, so nobody writes between them. A session that is done goes, lest it be found idle, but for one that is
    given: that one is the first, and stays."""

    def __init__(self, make_session: Callable[[], Session], given: Optional[Session] = None) -> None:
        self.make_session = make_session
        self.given = given
        self.session = given or make_session()

    def begin(self) -> None:
        """A transaction that nobody writes beside."""
        wanted_answer(self.session, b"BEGIN", b"BEGUN")
        self.lock()

    def lock(self) -> None:
        answer = self.session.ask(b"LOCK S %b %b" % (LEAST_KEY, GREATEST_KEY))
        if answer != b"OK":
            raise Refused(answer)

    def turn(self) -> None:
        """Another session goes on; where there is no other one nobody writes, and the same one does."""
        before, self.session = self.session, self.make_session()
        if self.session is before:
            self.end()
            self.begin()
            return
        self.begin()
        wanted_answer(before, b"COMMIT", b"COMMITTED")
        if before is not self.given:
            before.leave()

    def rows(self) -> Iterator[List[bytes]]:
        """The rows of each scan. Each goes on from the last row's key, which comes once more."""
        lowest, repeated, scans_left = LEAST_KEY, 0, MOST_SCANS
        while True:
            line = b"SCAN %b %b %d" % (lowest, GREATEST_KEY, ROWS)
            number, *rows = wanted_answer(self.session, line, b"ROWS").split(b" ")
            yield rows[repeated:]
            if number != b"%d" % ROWS:
                return
            lowest, repeated = rows[-1].partition(b"=")[0], 1
            scans_left -= 1
            if not scans_left:
                self.turn()
                scans_left = MOST_SCANS

    def end(self) -> None:
        wanted_answer(self.session, b"COMMIT", b"COMMITTED")

    def leave(self) -> None:
        if self.session is not self.given:
            self.session.leave()


def dump_pages(pages: Pages, write: Callable[[bytes], object], progress: Progress) -> int:
    """Writes all records that are there under the lock, and counts them."""
    records = size = 0
    for rows in pages.rows():
        text = text_of(rows)
        write(text)
        records, size = records + len(rows), size + len(text)
        progress.show(records, size)
    pages.end()
    return records


class Output:
    """Where records go: standard output, or a file that appears once it is whole."""

    def __init__(self, file: str, escapes: bool) -> None:
        self.file = file
        self.to_standard_output = writer(escapes)
        self.escapes = escapes
        self.part = f"{file}.part"
        self.descriptor = self.opened() if file else 1
        self.begun = self.size_of_file()

    def opened(self) -> int:
        """A file of its own, whatever lay there, which may be read by those who may read the file that it replaces."""
        try:
            with contextlib.suppress(FileNotFoundError):
                os.unlink(self.part)
            replaced = self.mode_of_file()
            descriptor = os.open(self.part, os.O_WRONLY | os.O_CREAT | os.O_EXCL, 0o666 if replaced is None else 0o600)
            if replaced is not None:
                os.fchmod(descriptor, replaced)
            return descriptor
        except OSError as error:
            raise Stop(6, f"{self.part}: {error.strerror}") from None

    def mode_of_file(self) -> Optional[int]:
        """Who may read and write the file that is there."""
        with contextlib.suppress(OSError):
            status = os.stat(self.file)
            return stat.S_IMODE(status.st_mode) if stat.S_ISREG(status.st_mode) else None
        return None

    def size_of_file(self) -> Optional[int]:
        """What stands in a plain file before the records."""
        with contextlib.suppress(OSError):
            status = os.fstat(self.descriptor)
            return status.st_size if stat.S_ISREG(status.st_mode) else None
        return None

    def write(self, data: bytes) -> None:
        if not self.file:
            self.to_standard_output(data)
            return
        rest = memoryview(unescaped_lines(data) if self.escapes else data)
        try:
            while rest:
                rest = rest[os.write(self.descriptor, rest) :]
        except OSError as error:
            raise Stop(6, f"{self.part}: {error.strerror}") from None

    def keep(self) -> None:
        """All was written."""
        if not self.file:
            return
        try:
            os.close(self.descriptor)
            os.replace(self.part, self.file)
        except OSError as error:
            raise Stop(6, f"{self.file}: {error.strerror}") from None

    def drop(self) -> None:
        """Not all was: nothing stays that looks like it."""
        with contextlib.suppress(OSError):
            if self.begun is not None:
                os.ftruncate(self.descriptor, self.begun)
            if self.file:
                os.unlink(self.part)


def begin_held(pages: Pages, millis: int) -> None:
    """Begins once no other has a transaction, so that no lock is in the way. The hold ends after so long at most; others that
    only read go on then."""
    hold(pages.session, millis)
    pages.begin()


def dump_all(pages: Pages, output: Output, progress: Progress, millis: int, tries: Tries) -> int:
    """Writes all records, and counts them, or says why not."""
    try:
        tries.until_done(lambda: begin_held(pages, tries.part_of(millis)), pages.session.abort)
        records = dump_pages(pages, output.write, progress)
    except Refused as refused:
        raise Stop(1, f"{refused}{tries.told()}: not all records were read") from None
    output.keep()
    return records


def words() -> argparse.Namespace:
    parser = Parser(NAME, __doc__, EPILOG)
    parser.add_argument("--escape", action="store_true", help="write what percent signs stand for")
    add_server(parser, is_needed=True)
    add_holding(parser, HOLD_MILLIS, TRIES)
    parser.add_argument("file", nargs="?", default="", metavar="FILE", help="where the records go (default: standard output)")
    return parser.parse_args()


def main() -> int:
    given = words()
    progress = Progress(NAME)
    pages = Pages(lambda: with_server(given))
    output = Output(given.file, given.escape)
    try:
        dump_all(pages, output, progress, given.hold, tries_of(given))
    except BaseException:
        output.drop()
        raise
    finally:
        progress.end()
    pages.leave()
    return 0


def start() -> None:
    run_program(NAME, main)
