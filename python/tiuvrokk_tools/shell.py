"""Speaks with a store at a terminal: with a server's by --port or --socket, else with one of its own, which ends with it.

Lines are those of the protocol, their verbs in either case; HELP lists them, HELP VERB tells one. GET, SCAN, RSCAN, INS, REP, SET,
DEL, DELR, LOAD and PUT outside a transaction are one each; LOAD and PUT take their records in any order. Rows are shown as a table,
with --json or --csv as such. Beside them:

    .load FILE    loads records, as amload reads them      .raw on|off   answers as the store's lines
    .import FILE  loads a table, as amload --csv reads it  .time on|off  how long each answer took
    .dump FILE    writes all records, as amdump does       .escape on|off  any bytes by percent signs, as --escape does
    .read FILE    reads lines from a file                  .stats        the session's number, and the commits so far
    .count LO HI  counts records, or all                   .quit         ends, as QUIT, EXIT and the end of the input do
    .help VERB    tells a line or a command

    amcli --port 7070 'set ant 6' 'scan a z 10'            lines may stand on the command line, and then no others are read

With --escape what is typed may be any text: what has blanks stands between quotes, and percent signs carry it.

At a terminal the prompt has the number of the active transaction, a TAB completes verbs and the keys that were seen, and what
was typed is kept in a file, line by line. A store that goes away is told of by the prompt, and the next line connects again.
Elsewhere lines are read with no prompt, and the first that fails, by BUSY or ERR or a command's fault, ends all with status 1, told
with its number; what is active is aborted. With --lenient lines that follow are read, and with --strict too, but for the status. An
interrupt drops the line that is typed, and ends a .load or a .dump; a second one ends all. Python 3.9 is needed."""

import argparse
import contextlib
import csv
import enum
import io
import json
import os
import signal
import sys
import time
from typing import Callable, Dict, Iterable, Iterator, List, Optional, Tuple

from tiuvrokk._escapes import unescaped
from tiuvrokk._grammar import GREATEST_KEY, LEAST_KEY

from . import TOP
from .completion import Completion
from .dump import HOLD_MILLIS, Output, Pages, dump_all, dump_rows, scans
from .holding import Tries, hold
from .load import load_held, load_runs
from .pieces import Pieces, Reading
from .program import CLOSED, Parser, Stop, add_server, read_file, run_program, say, visible, write_all
from .progress import Progress
from .sessions import UNSERVED, Refused, Session, names_server, shown, unserved_by, with_program, with_server
from .tables import Columns
from .typed import spelled, words_of
from .verbs import ALONE, SORTED, VERBS, fault_of_line, help_of, help_of_all, refusal_of

EPILOG = """status:
  0  the input was read to its end
  1  a line of a pipe failed: it was answered BUSY or ERR, or a command didn't do what it is for; with --lenient only where a line
     has none of the forms
  2  the words of the command line are wrong
  5  the store can't be reached, went away or didn't answer in time
  6  standard output can't be written
  7  there was no memory"""
NAME = "amcli"
LAPSED = b"ERR IDLE"
LAPSE = "no line came for too long: the transaction was aborted"
MOST_FILES = 16
# So often a command is tried that another holds up: whoever types waits a few seconds.
TRIES = 5


class Form(enum.Enum):
    """How answers are shown."""

    TABLE = "rows as a table"
    RAW = "lines of the store"
    JSON = "a line of JSON each"
    CSV = "rows as comma separated values"


class Failures(enum.Enum):
    """What comes of a line of a pipe that fails."""

    END = "it ends all, with a status"
    COUNT = "it goes on, and ends with a status"
    PASS = "it goes on, and ends with a status where a line has none of the forms"


class ShellProgress(Progress):
    """How far a .load or a .dump is; an interrupt is seen between two of its parts."""

    def __init__(self, shell: "Shell", records: int = 0, whole: int = 0) -> None:
        super().__init__(NAME, records, whole)
        self.shell = shell

    def show(self, records: int, size: int) -> None:
        super().show(records, size)
        if self.shell.is_interrupted:
            raise Stop(1, "interrupted")


def text_of(text: bytes, escapes: bool) -> str:
    """A key or a value as it is shown."""
    if not escapes or b"%" not in text:
        return shown(text)
    return "".join(it if it.isprintable() else visible(it.encode()) for it in unescaped(text).decode("utf-8", "backslashreplace"))


def texts_of(rows: List[bytes], escapes: bool) -> List[Tuple[str, str]]:
    """The keys and values of rows, as they are shown."""
    parted = [row.partition(b"=")[::2] for row in rows]
    return [(text_of(key, escapes), text_of(value, escapes)) for key, value in parted]


def table(rows: List[Tuple[str, str]]) -> str:
    """Rows as a table."""
    records = [("key", "value"), *rows]
    width = max(len(key) for key, _ in records)
    lines = [f"{key:{width}}  {value}" for key, value in records]
    number = len(rows)
    return "\n".join([*(lines if rows else []), f"{number} row{'' if number == 1 else 's'}"])


def as_csv(rows: List[Tuple[str, str]]) -> str:
    """Rows as comma separated values, without a line of names."""
    text = io.StringIO()
    csv.writer(text, lineterminator="\n").writerows(rows)
    return text.getvalue()[:-1]


def as_json(answer: bytes, rows: Optional[List[Tuple[str, str]]], value: Optional[str]) -> str:
    """An answer as JSON: rows as a list of objects, a value as a string, none as null, and what else there is as its text."""
    if rows is not None:
        return json.dumps([{"key": key, "value": value} for key, value in rows], ensure_ascii=False)
    return json.dumps(None if answer == b"NONE" else shown(answer) if value is None else value, ensure_ascii=False)


class Shell:
    """A session, and how its answers are shown."""

    def __init__(
        self, connect: Callable[[], Session], form: Form = Form.TABLE, escapes: bool = False, failures: Failures = Failures.PASS
    ) -> None:
        self.connect = connect
        self.session = connect()
        self.is_connected = True
        self.form = form
        self.escapes = escapes
        self.failures = failures
        self.is_timed = False
        self.transaction: Optional[str] = None
        self.has_failed = False
        self.has_bad_line = False
        self.has_ended = False
        self.is_interrupted = False
        self.place = ""
        self.files = 0
        self.completion = Completion()
        self.commands: Dict[str, Callable[[str], None]] = {
            ".load": self.load, ".import": self.import_table, ".dump": self.dump, ".read": self.read, ".count": self.count, ".stats": self.stats, ".raw": self.set_raw,
            ".escape": self.set_escape, ".time": self.set_time, ".help": self.help, ".quit": self.quit, ".exit": self.quit,
        }

    @property
    def is_over(self) -> bool:
        """Whether no further line is read."""
        return self.has_ended or (self.has_failed and self.failures is Failures.END)

    def prompt(self) -> str:
        if not self.is_connected:
            return "not connected> "
        return f"tiuvrokk {self.transaction}> " if self.transaction else "tiuvrokk> "

    def do(self, line: str) -> None:
        """Carries out one line of the input."""
        word, _, rest = line.strip().partition(" ")
        if not word or word.startswith("#"):
            return
        begun = time.monotonic()
        try:
            with self.interrupts_noted():
                self.do_words(line, word, rest.strip())
        except Stop as stop:
            if stop.status >= 5:
                self.is_connected, self.transaction = False, None
                raise
            self.has_bad_line |= stop.status == 2
            self.fail(str(stop))
        if self.is_timed:
            write_all(f"{(time.monotonic() - begun) * 1000:.1f} ms\n".encode())

    def do_words(self, line: str, word: str, rest: str) -> None:
        command = {"HELP": self.help, "EXIT": self.quit}.get(word.upper(), self.commands.get(word.lower()))
        if not self.is_connected and command not in (self.help, self.quit):
            self.session = self.connect()
            self.is_connected = True
        if command:
            command(rest)
        elif word.startswith("."):
            raise Stop(2, f"{word} is no command: .help lists them")
        else:
            asked = self.spelled(line)
            answer = self.answer(asked)
            self.show(answer)
            if answer == LAPSED:
                raise Stop(1, f"{LAPSE}, and the line did nothing")
            if answer in (b"ERR SYNTAX", b"ERR RANGE", b"ERR LONG", b"ERR LIMIT"):
                raise Stop(2, fault_of_line(asked.decode("utf-8", "surrogateescape")))
            if why := refusal_of(shown(answer)):
                raise Stop(1, why)

    def fail(self, text: str) -> None:
        self.has_failed = True
        say(f"{NAME}: {self.place}{text}")

    def spelled(self, line: str) -> bytes:
        """The line as the protocol has it: its verb in upper case, and so the mode of a lock."""
        if self.escapes:
            line = spelled(line.rstrip("\r\n"))
        verb, *rest = line.rstrip("\r\n").strip(" ").split(" ")
        verb = verb.upper()
        if verb == "LOCK" and rest:
            rest[0] = rest[0].upper()
        if verb in SORTED:
            rest.sort(key=lambda record: record.partition("=")[0].encode("utf-8", "surrogateescape"))
        return " ".join([verb, *rest]).encode("utf-8", "surrogateescape")

    def answer(self, line: bytes) -> bytes:
        """The answer to a line, which is a transaction of its own where it has to be one and none is active."""
        verb = line.partition(b" ")[0].decode("ascii", "replace")
        if verb in ALONE and not self.transaction:
            self.session.send(b"BEGIN\n%b\nCOMMIT\n" % line)
            begun = self.heard()
            answer, committed = self.session.hear(), self.session.hear()
            if not begun.startswith(b"BEGUN "):
                answer = begun
            elif not committed.startswith(b"COMMITTED "):
                answer = committed
        else:
            self.session.send(line + b"\n")
            answer = self.heard()
            self.note(answer)
        self.completion.see(line, answer)
        return answer[:-1]

    def heard(self) -> bytes:
        """The answer to a line that may be the session's first."""
        answer = self.session.hear()
        if answer == UNSERVED + b"\n":
            raise unserved_by(self.session.place)
        return answer

    def note(self, answer: bytes) -> None:
        """What the answer says of the session."""
        if answer.startswith(b"BEGUN "):
            self.transaction = shown(answer).partition(" ")[2]
        elif answer.startswith((b"COMMITTED ", b"ABORTED")) or answer == LAPSED + b"\n":
            self.transaction = None
        elif answer == b"BYE\n":
            self.has_ended = True

    def show(self, answer: bytes) -> None:
        """Shows an answer."""
        self.has_failed |= answer.startswith((b"ERR ", b"BUSY "))
        word, *rest = answer.split(b" ")
        text = shown(answer)
        rows = texts_of(rest[1:], self.escapes) if word == b"ROWS" else None
        value = text_of(answer[4:], self.escapes) if word == b"VAL" else None
        if self.form is Form.JSON:
            text = as_json(answer, rows, value)
        elif self.form is not Form.RAW and value is not None:
            text = f"VAL {value}" if self.form is Form.TABLE else value
        elif self.form is not Form.RAW and rows is not None:
            text = table(rows) if self.form is Form.TABLE else as_csv(rows)
            if not text:
                return
        write_all(f"{text}\n".encode("utf-8", "backslashreplace"))

    def load(self, file: str) -> None:
        """Loads a file by a transaction of its own, where none is active."""
        self.load_as(file, Reading(escapes=self.escapes))

    def import_table(self, file: str) -> None:
        """The same of a table."""
        self.load_as(file, Reading(escapes=self.escapes, columns=Columns()))

    def load_as(self, file: str, reading: Reading) -> None:
        """Loads the records of a file that is read so."""
        runs = self.read_records(self.named(file), reading)
        records = runs.records()
        progress = ShellProgress(self, records, runs.size())
        try:
            if self.transaction:
                load_runs(self.session, runs.lock(), runs, progress)
            elif records:
                load_held(self.session, runs, progress, HOLD_MILLIS, Tries(TRIES))
        except (Refused, Stop) as refused:
            if isinstance(refused, Stop) and refused.status >= 5:
                raise
            self.session.hear_all()
            kept = "not all runs were loaded" if self.transaction else "nothing was loaded"
            self.note_lapse(refused)
            self.abort_own()
            raise Stop(1, f"{refused}: {kept}") from None
        finally:
            progress.end()
        write_all(b"loaded %d\n" % records)

    def read_records(self, name: str, reading: Reading) -> Pieces:
        """The records of a file; an interrupt is seen between two of its pieces."""
        progress = ShellProgress(self)

        def show(records: int, size: int, whole: int) -> None:
            progress.whole = whole
            progress.show(records, size)

        try:
            return Pieces(name, reading, show)
        finally:
            progress.end()

    def dump(self, file: str) -> None:
        """Writes all records to a file, which appears once it is whole, by a transaction of its own, where none is active."""
        name, progress = self.named(file), ShellProgress(self)
        try:
            number = self.dumped("" if name == "-" else name, progress)
        except Stop as stop:
            # (of a file that can't be written a shell goes on)
            raise Stop(4, str(stop)) from None if stop.status == 6 and name != "-" else stop
        except Refused as refused:
            self.note_lapse(refused)
            raise Stop(1, f"{refused}: not all records were written") from None
        finally:
            progress.end()
        if name != "-":
            write_all(b"dumped %d\n" % number)

    def another(self) -> Session:
        """A session with the same store: a program of one's own has one."""
        return self.session if self.session.process else self.connect()

    def dumped(self, file: str, progress: Progress) -> int:
        """How many records were written, unless none is."""
        output, pages = Output(file, self.escapes), Pages(self.another, self.session)
        try:
            if self.transaction:
                number = dump_rows(self.session, output.write, progress)
                output.keep()
                return number
            return dump_all(pages, output, progress, HOLD_MILLIS, Tries(TRIES))
        except BaseException as fault:
            output.drop()
            if not isinstance(fault, Stop) or fault.status < 5:
                self.abort_own()
            raise
        finally:
            pages.leave()

    def note_lapse(self, refused: Exception) -> None:
        """Where the server aborted the transaction, none is active."""
        if isinstance(refused, Refused) and refused.answer == LAPSED:
            self.transaction = None

    def abort_own(self) -> None:
        """Ends the transaction of a .load or a .dump."""
        if not self.transaction:
            self.session.ask(b"ABORT")

    def read(self, file: str) -> None:
        """Carries out the lines of a file."""
        text = read_file(self.named(file)).decode("utf-8", "surrogateescape")
        if self.files == MOST_FILES:
            raise Stop(2, f"{file}: {MOST_FILES} files are being read already")
        self.files += 1
        before = self.place
        try:
            for number, line in enumerate(text.split("\n"), 1):
                if self.is_over or self.is_interrupted:
                    break
                self.place = f"{file}: line {number}: "
                self.do(line)
        finally:
            self.files -= 1
            self.place = before

    def count(self, words: str) -> None:
        """Counts the records, or those of a range, by a transaction of its own, where none is active."""
        is_one = len(words_of(words)) == 1 if self.escapes else " " not in words
        ends = f"{words} {words}" if words and is_one else words
        lock, tries = self.spelled(f"LOCK S {ends}") if words else b"LOCK S %b %b" % (LEAST_KEY, GREATEST_KEY), Tries(TRIES)

        def begin() -> None:
            hold(self.session, tries.part_of(HOLD_MILLIS))
            self.wanted(b"BEGIN")
            self.wanted(lock)

        try:
            if self.transaction:
                self.wanted(lock)
            else:
                tries.until_done(begin, self.session.abort)
            number = sum(map(len, scans(self.session, *lock.split(b" ")[2:])))
            if not self.transaction:
                self.wanted(b"COMMIT")
        except Refused as refused:
            self.abort_own()
            self.note_lapse(refused)
            raise Stop(1, f"{refused}: not all records were counted") from None
        write_all(b"%d\n" % number)

    def wanted(self, line: bytes) -> None:
        """Asks a line, and goes on where it is done."""
        answer = self.session.ask(line)
        if not answer.startswith((b"BEGUN ", b"OK", b"COMMITTED ")):
            raise Refused(answer)

    def stats(self, _: str) -> None:
        """What the session sees."""
        answer = self.session.ask(b"SEEN")
        if answer == LAPSED:
            self.transaction = None
            answer = self.session.ask(b"SEEN")
        _, number, commits = shown(answer).split(" ")
        active = f"transaction {self.transaction}" if self.transaction else "no transaction"
        write_all(f"session {number}, {commits} commits, {active} active\n".encode())

    def named(self, file: str) -> str:
        if not file:
            raise Stop(2, "the command needs the name of a file")
        return os.path.expanduser(file)

    def set_raw(self, word: str) -> None:
        self.form = Form.RAW if self.switched(word, self.form is Form.RAW) else Form.TABLE

    def set_escape(self, word: str) -> None:
        self.escapes = self.switched(word, self.escapes)

    def set_time(self, word: str) -> None:
        self.is_timed = self.switched(word, self.is_timed)

    def switched(self, word: str, was: bool) -> bool:
        """A switch is turned where no word says which way."""
        if word not in ("", "on", "off"):
            raise Stop(2, f"{word} is neither on nor off")
        return word == "on" if word else not was

    def help(self, verb: str) -> None:
        text = help_of(verb) if verb else help_of_all()
        if not text:
            raise Stop(2, f"{verb} is no verb: HELP lists them")
        write_all(f"{text}\n".encode())

    def quit(self, _: str) -> None:
        self.has_ended = True

    @contextlib.contextmanager
    def interrupts_noted(self) -> Iterator[None]:
        """The first interrupt is seen between two parts of a command, and drops no answer; a second one ends all."""

        def note(_number: int, _frame: object) -> None:
            if self.is_interrupted:
                raise KeyboardInterrupt
            self.is_interrupted = True

        if self.files:
            yield
            return
        self.is_interrupted = False
        before = signal.signal(signal.SIGINT, note)
        try:
            yield
        finally:
            signal.signal(signal.SIGINT, before)


def from_terminal(shell: Shell, history: str) -> None:
    """Lines that are typed."""
    shell.completion.begin([*VERBS, "HELP", "EXIT", *shell.commands], history)
    if isinstance(sys.stdin, io.TextIOWrapper):
        sys.stdin.reconfigure(errors="surrogateescape")
    while not shell.has_ended:
        try:
            line = input(shell.prompt())
        except KeyboardInterrupt:
            write_all(b"\n")
            continue
        except EOFError:
            write_all(b"\n")
            break
        fault = shell.completion.keep() if line.strip() else ""
        if fault:
            say(f"{NAME}: {fault}")
        try:
            shell.do(line)
        except Stop as stop:
            if stop.status != 5:
                raise
            shell.fail(str(stop))


def from_lines(shell: Shell, lines: Iterable[bytes]) -> None:
    """Lines of a pipe, of a file or of the command line."""
    for number, line in enumerate(lines, 1):
        shell.place = f"line {number}: "
        shell.do(line.decode("utf-8", "surrogateescape").rstrip("\n"))
        if shell.is_over:
            break


def words() -> argparse.Namespace:
    parser = Parser(NAME, __doc__, EPILOG)
    add_server(parser, is_needed=False)
    store, history = "the program of a store of its own (default: amserve)", "what was typed (default: ~/.tiuvrokk_history)"
    strict, lenient = "read on behind a line that fails, and end with status 1", "read on behind a line that fails, with status 1 only for lines of no form"
    parser.add_argument("--store", metavar="FILE", default=os.path.join(TOP, "amserve"), help=store)
    parser.add_argument("--escape", action="store_true", help="carry blanks and all other bytes by percent signs")
    shows = parser.add_mutually_exclusive_group()
    shows.add_argument("--raw", dest="form", action="store_const", const=Form.RAW, default=Form.TABLE, help="show answers as the store's lines")
    shows.add_argument("--json", dest="form", action="store_const", const=Form.JSON, help="show each answer as a line of JSON")
    shows.add_argument("--csv", dest="form", action="store_const", const=Form.CSV, help="show rows as comma separated values, and values alone")
    fails = parser.add_mutually_exclusive_group()
    fails.add_argument("--strict", dest="failures", action="store_const", const=Failures.COUNT, default=Failures.END, help=strict)
    fails.add_argument("--lenient", dest="failures", action="store_const", const=Failures.PASS, help=lenient)
    parser.add_argument("--history", metavar="FILE", default="~/.tiuvrokk_history", help=history)
    parser.add_argument("-c", "--command", dest="lines", metavar="LINE", action="append", default=[], help="a line, in place of those of standard input")
    parser.add_argument("more_lines", metavar="LINE", nargs="*", help="the same")
    return parser.parse_args()


def main() -> int:
    asked = words()

    def connect() -> Session:
        return with_server(asked) if names_server(asked) else with_program([asked.store])

    lines = [os.fsencode(line) for line in [*asked.lines, *asked.more_lines]]
    is_typed = not lines and os.isatty(0) and os.isatty(1)
    shell = Shell(connect, asked.form, asked.escape, Failures.PASS if is_typed else asked.failures)
    if is_typed:
        from_terminal(shell, os.path.expanduser(asked.history))
    elif lines or not CLOSED[0]:
        from_lines(shell, lines or iter(sys.stdin.buffer.readline, b""))
    if shell.is_connected:
        shell.session.leave()
    has_failed = shell.has_bad_line if shell.failures is Failures.PASS else shell.has_failed
    return 1 if has_failed and not is_typed else 0


def start() -> None:
    run_program(NAME, main)
