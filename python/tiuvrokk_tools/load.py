"""Brings records from a file into a store: writes the lines of one transaction that stages and loads them.

Each line of FILE (standard input, where none or - is named) is a record: its key, a TAB or the first =, and its value, in
any order. Runs are cut from them as they come, and each is sorted by its keys. With --port or --socket the lines go to
the server there, and the transaction is committed only where every line was answered OK; else they go to standard output, for a pipe:

    (./amload data.tsv; cat queries) | ./amserve alone

A record that is there already is refused with all others; with --update it gets the new value. With --csv FILE has comma separated
values.

It holds a server first: nobody else begins meanwhile, so no lock is in the way of the load, and readers wait as
long as it takes. Where another holds, or a transaction doesn't end in time, it tries again.

A key is 1 to 32 visible characters of ASCII, none of them =, a value 1 to 64. The first line that is no record is told with
its number, its text, why it is none, and how many more there are; so is a key that stands twice. Then nothing is sent. An
empty last line is passed over. With --escape other bytes are carried by percent signs, as %20 for a blank; --skip passes over
what doesn't fit, and says how many lines those were, and why: of lines with one key the first counts then, and with --last the
last. What is sent waits in a file without a name until all was read,
where the environment's TMPDIR says. Where standard error is a terminal it says how far the load is. Python 3.9 is needed."""

import argparse
import gc
import itertools
from typing import Iterable, Iterator, Tuple

from tiuvrokk._grammar import MAX_RUN
from tiuvrokk.errors import MAX_KEY, MAX_VALUE

from .holding import Tries, add_holding, hold, tries_of
from .pieces import Pieces, Reading
from .program import Parser, Stop, add_server, numbers, run_program, say, write_all
from .progress import Progress
from .sessions import Refused, Session, names_server, with_server
from .tables import Columns

EPILOG = """status:
  0  at a server: committed, or there were no records; else: all lines were written
  1  the server answered one of the lines otherwise: nothing was loaded
  2  the words of the command line are wrong, or there are more runs than one transaction can load
  3  a line is no record, or a key stands twice: nothing was sent
  4  FILE can't be read
  5  the server can't be reached, went away or didn't answer in time: where COMMIT was sent, it isn't known whether it was
     committed
  6  standard output can't be written
  7  there was no memory: nothing was loaded
An interrupt ends it by SIGINT: nothing was loaded, unless it says otherwise."""
NAME = "amload"
HOLD_MILLIS = 2000
TRIES = 8


def write(runs: Pieces, progress: Progress) -> None:
    """Writes the transaction's lines."""
    write_all(b"BEGIN\n" + runs.lock())
    size = 0
    for done, lines in runs:
        write_all(lines)
        size += len(lines)
        progress.show(done, size)
    write_all(b"COMMIT\n")


def hear(session: Session, left: int) -> None:
    """Hears answers until so many are left, but for one that refuses its line."""
    while session.unheard > left:
        answer = session.hear()
        if not answer.startswith((b"BEGUN ", b"OK", b"COMMITTED ")):
            raise Refused(answer)


def load_runs(session: Session, begin: bytes, runs: Iterable[Tuple[int, bytes]], progress: Progress) -> None:
    """Has the lines of all runs answered, behind some that begin. One run is sent ahead of the answers."""
    session.send(begin)
    size = 0
    for done, lines in runs:
        session.send(lines)
        hear(session, lines.count(b"\n"))
        size += len(lines)
        progress.show(done, size)
    hear(session, 0)


def load(session: Session, runs: Pieces, progress: Progress) -> None:
    """Has the transaction's lines answered; COMMIT goes out once all others are."""
    load_runs(session, b"BEGIN\n" + runs.lock(), runs, progress)
    commit(session)


def commit(session: Session) -> None:
    """Has COMMIT answered."""
    try:
        session.send(b"COMMIT\n")
        hear(session, 0)
    except KeyboardInterrupt:
        raise KeyboardInterrupt("interrupted behind COMMIT: it isn't known whether it was committed") from None


def prepared(runs: Pieces) -> Iterator[Tuple[int, bytes]]:
    """The lines of all runs, the first of which are made."""
    made = iter(runs)
    return itertools.chain([next(made)], made)


def held_load(session: Session, runs: Pieces, progress: Progress, millis: int) -> None:
    """Loads all while nobody else begins. What can be made before is. All keys are locked at once, so that nobody is in the
    way either where the load takes longer than the hold."""
    if not millis:
        load(session, runs, progress)
        return
    begin, pieces = b"BEGIN\n" + runs.whole_lock(), prepared(runs)
    hold(session, millis)
    load_runs(session, begin, pieces, progress)
    commit(session)


def load_held(session: Session, runs: Pieces, progress: Progress, millis: int, tries: Tries) -> None:
    """The same, anew where it was refused for another's sake."""
    tries.until_done(lambda: held_load(session, runs, progress, tries.part_of(millis)), session.abort)


def bring(session: Session, runs: Pieces, progress: Progress, millis: int, tries: Tries) -> None:
    """Loads all, or nothing."""
    try:
        load_held(session, runs, progress, millis, tries)
    except Refused as refused:
        session.leave()
        raise Stop(1, f"{refused}{tries.told()}: nothing was loaded") from None
    if tries.done > 1:
        progress.end()
        say(f"amload: loaded{tries.told()}")


def words() -> argparse.Namespace:
    parser = Parser(NAME, __doc__, EPILOG)
    run = f"records of a run, 1 to {MAX_RUN} (default: {MAX_RUN})"
    parser.add_argument("--run", type=numbers(1, MAX_RUN), default=MAX_RUN, metavar="N", help=run)
    parser.add_argument("--update", action="store_true", help="records that are there get the new values")
    parser.add_argument("--last", action="store_true", help="of lines with one key the last one counts, and how many others there are is said")
    parser.add_argument("--csv", action="store_true", help="FILE has comma separated values, below a line with the columns' names")
    column = "the column of the %s, by its name or its number from 1 (default: %s, or else number %d)"
    parser.add_argument("--key", metavar="C", help=column % ("keys", "key", 1))
    parser.add_argument("--value", metavar="C", help=column % ("values", "value", 2))
    parser.add_argument("--skip-empty", action="store_true", help="pass over empty lines")
    parser.add_argument("--skip", action="store_true", help="pass over lines that are no record, or have a key that a line before has, and say how many and why")
    parser.add_argument("--escape", action="store_true", help="carry blanks and all other bytes by percent signs")
    parser.add_argument("--key-bytes", type=numbers(1, MAX_KEY), default=0, metavar="N", help="cut keys at so many bytes")
    parser.add_argument("--value-bytes", type=numbers(1, MAX_VALUE), default=0, metavar="N", help="cut values at so many bytes")
    add_server(parser, is_needed=False)
    add_holding(parser, HOLD_MILLIS, TRIES)
    parser.add_argument("file", nargs="?", default="-", metavar="FILE", help="the records (default: standard input)")
    asked = parser.parse_args()
    if (asked.key or asked.value) and not asked.csv:
        parser.error("--key and --value are for --csv")
    return asked


def reading_of(asked: argparse.Namespace) -> Reading:
    """How lines are read, as the words say."""
    columns = Columns(asked.key or "", asked.value or "") if asked.csv else None
    cuts = {"key_bytes": asked.key_bytes, "value_bytes": asked.value_bytes}
    return Reading(asked.run, asked.skip_empty, asked.skip, asked.escape, **cuts, updates=asked.update, keeps_last=asked.last, columns=columns)


def read(file: str, reading: Reading) -> Pieces:
    """Reads all records, and says how far that is."""
    progress = Progress(f"{NAME}: reading")

    def show(records: int, size: int, whole: int) -> None:
        progress.whole = whole
        progress.show(records, size)

    try:
        return Pieces(file, reading, show)
    finally:
        progress.end()


def main() -> int:
    asked = words()
    # What is made lives until the end, so a search for what can go finds nothing.
    gc.disable()
    runs = read(asked.file, reading_of(asked))
    if told := runs.told_faults():
        say(f"amload: {told}")
    if not runs.records():
        say("amload: no records")
        return 0
    progress = Progress(NAME, runs.records(), runs.size())
    try:
        if names_server(asked):
            bring(with_server(asked), runs, progress, asked.hold, tries_of(asked))
        else:
            write(runs, progress)
    finally:
        progress.end()
    return 0


def start() -> None:
    run_program(NAME, main)
