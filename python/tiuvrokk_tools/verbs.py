"""The lines of a session as docs/protocol.md has them in its table: the line, what it asks for, its answers."""

import difflib
import enum
import itertools
import re
from typing import List, NamedTuple, Tuple

class Kind(enum.Enum):
    """What a line does to its transaction."""

    ENDS = "begins or ends it"
    READS = "belongs to it, and writes nothing, whatever it is answered"
    WRITES = "belongs to it, and writes"
    STAGES = "has records wait for one that writes"
    APART = "stands apart from transactions"


class Verb(NamedTuple):
    """The lines that begin with a word, as docs/protocol.md tells of them."""

    lines: str
    """Its forms."""
    asks: str
    """What they ask for."""
    answers: str
    """What they are answered, refusals aside."""
    kind: Kind

    @property
    def word(self) -> str:
        return re.split("[ ,]", self.lines, 1)[0]

    @property
    def takes_staged(self) -> bool:
        """Whether records that were staged go with it."""
        return self.kind is Kind.WRITES and self.lines.endswith(" ..")


TABLE: List[Verb] = [
    Verb("BEGIN", "a transaction", "BEGUN t, t being its number: they rise by one from 1", Kind.ENDS),
    Verb("GET k", "the value under a key", "VAL v, or NONE", Kind.READS),
    Verb(
        "SCAN lo hi n", "the first n records of the range, n from 1 to 1,000", "ROWS m k=v k=v .., m records by rising key",
        Kind.READS,
    ),
    Verb(
        "RSCAN lo hi n", "the last n records of the range, n from 1 to 1,000",
        "ROWS m k=v k=v .., m records from the highest key down", Kind.READS,
    ),
    Verb("INS k v", "a new record", "OK, or EXISTS k where the key has a record", Kind.WRITES),
    Verb("REP k v", "another value for a record", "OK, or MISSING", Kind.WRITES),
    Verb("SET k v", "a record with this value, whether or not the key has one", "OK", Kind.WRITES),
    Verb("DEL k", "a record to go", "OK, or MISSING", Kind.WRITES),
    Verb("DELR lo hi n", "the first n records of the range to go, n from 1 to 1,000", "DELETED m, m of them", Kind.WRITES),
    Verb(
        "LOAD k=v k=v ..",
        "new records, their keys strictly rising, as a sorted run: all of them or none, with those that were staged "
        "before them",
        "OK, or EXISTS k with the least key that has a record",
        Kind.WRITES,
    ),
    Verb(
        "PUT k=v k=v ..",
        "records with these values, their keys strictly rising, with those that were staged before them: those whose keys have "
        "none are a sorted run",
        "OK",
        Kind.WRITES,
    ),
    Verb("STAGE k=v k=v ..", "records to wait in the session for its next LOAD or PUT", "OK", Kind.STAGES),
    Verb("LOCK S lo hi, LOCK X lo hi", "a shared or an exclusive lock on a range", "OK", Kind.READS),
    Verb("MARK", "a savepoint; they are nested", "OK", Kind.READS),
    Verb("BACK", "back to the newest savepoint, which goes with that", "OK, or NOMARK where none stands", Kind.READS),
    Verb("COMMIT", "the transaction's end, with its writes", "COMMITTED c, c counting the commits from 1", Kind.ENDS),
    Verb("ABORT", "the transaction's end, without them", "ABORTED", Kind.ENDS),
    Verb(
        "MERGE n",
        "records of the oldest range that was read to move to the final partition, at most n, from 1 to 64",
        "MOVED m run, DONE (nothing is left there), ENDED k t (transaction t has locked k exclusively), IDLE (nothing "
        "waits)",
        Kind.APART,
    ),
    Verb("CLEAN lo hi n", "at most n deleted records' places to be freed, from 1 to 64", "CLEANED m", Kind.APART),
    Verb("SEEN", "what the session sees", "SEEN s c: its number, 0 where it is alone, and the commits so far", Kind.APART),
    Verb(
        "HOLD n",
        "the store to itself, for n milliseconds at most, from 1 to 60,000",
        "OK, or ERR HELD s, s being a session that holds, or has a transaction that didn't end in so long",
        Kind.APART,
    ),
    Verb(
        "WHO, WHO ALL",
        "the sessions that have a transaction active, or all",
        "WHO n s:t:q s:t:q .., n sessions, each with its number, its transaction's (0: none) and the seconds since its last line; "
        "of WHO ALL with :h after these where it holds, and :w where it waits",
        Kind.APART,
    ),
    Verb("END s", "the end of session s, as if its client were gone", "OK, or ERR SESSION where none has that number", Kind.APART),
    Verb("QUIT", "the session's end", "BYE; bytes after it are not answered", Kind.APART),
]
VERBS: List[str] = [verb.word for verb in TABLE]

# Answers to lines that write, by which nothing was written.
_DID_NOTHING = (b"EXISTS", b"MISSING", b"ERR", b"BUSY")


def words_of(*kinds: Kind) -> Tuple[str, ...]:
    """The verbs of these kinds."""
    return tuple(verb.word for verb in TABLE if verb.kind in kinds)


ALONE = tuple(word for word in words_of(Kind.READS, Kind.WRITES) if word not in ("LOCK", "MARK", "BACK"))
"""The verbs that are a transaction of their own where none is active."""
WRITES = frozenset(word.encode() for word in words_of(Kind.WRITES))
STAGING = frozenset(verb.word.encode() for verb in TABLE if verb.takes_staged)
"""The verbs with which records go that were staged before."""


def has_written(line: bytes, answer: bytes) -> bool:
    """Whether a line wrote, by its answer."""
    return (
        line.partition(b" ")[0] in WRITES and answer.partition(b" ")[0] not in _DID_NOTHING and answer != b"DELETED 0"
    )


SORTED = ("LOAD", "PUT")
"""The verbs whose records a shell sorts."""
# What answers mean that refuse a line for another reason than its form.
_REFUSALS = {
    "BUSY": "transaction {} holds a lock that is in the way: ABORT, and begin anew (WHO names its session)",
    "ERR NOTX": "no transaction is active: BEGIN begins one",
    "ERR ACTIVE": "a transaction is active: COMMIT or ABORT ends it",
    "ERR STAGED": "records wait that were staged: LOAD or PUT brings them, ABORT lets them go",
    "ERR TXS": "64 transactions are active, and may be no more: begin anew a little later",
    "ERR LOCKS": "the transaction holds 256 locks, and may hold no more: LOCK S lo hi, or LOCK X lo hi, first locks a range as one",
    "ERR OPS": "the transaction had 4,096 operations, and may have no more: COMMIT, and go on in another; LOAD and PUT bring many records as one",
    "ERR RUNS": "as many runs have entries as may be: read and MERGE them, or load larger ones",
    "ERR ORDER": "a key stands twice, or doesn't rise above what was staged",
    "ERR MEMORY": "memory was refused, and the line did nothing",
    "ERR HELD": "session {} holds the store, or has a transaction that didn't end in time: hold anew a little later",
    "ERR SESSION": "no session has that number: WHO tells those that have a transaction",
    "ERR CONFLICT": "others committed what is in the way, and the transaction is over: begin anew",
}


def refusal_of(answer: str) -> str:
    """What an answer means that refuses a line, or nothing, where it doesn't or its form is wrong."""
    word, _, rest = answer.partition(" ")
    if word == "ERR":
        second, _, rest = rest.partition(" ")
        word = f"ERR {second}"
    return _REFUSALS.get(word, "").format(rest)


COMMANDS: List[Tuple[str, str]] = [
    (".load FILE", "loads records, as amload reads them"),
    (".import FILE", "loads the records of a table of comma separated values, as amload --csv reads them"),
    (".dump FILE", "writes all records, as amdump does; - is standard output"),
    (".read FILE", "reads lines from a file"),
    (".count [LO HI]", "counts the records, or those of a range"),
    (".stats", "tells the session's number, the commits so far, and what is active"),
    (".raw on|off", "shows answers as the store's lines"),
    (".escape on|off", "carries any bytes by percent signs; what has blanks is quoted"),
    (".time on|off", "tells how long each answer took"),
    (".help [VERB]", "lists all lines and commands, or tells one"),
    (".quit", "ends, as QUIT, EXIT and the end of the input do"),
]
"""The commands of a shell."""
WORDS = {"k": "the key", "lo": "the least key", "hi": "the greatest key", "v": "the value", "n": "the number", "s": "the number"}


def help_of_all() -> str:
    """All lines, with what they ask for, and the shell's own commands."""
    rows = [(verb.lines, verb.asks) for verb in TABLE] + COMMANDS
    width = max(len(line) for line, _ in rows)
    return "\n".join([*(f"{line:{width}}  {asks}" for line, asks in rows), "HELP VERB tells what a line is answered."])


def help_of(verb: str) -> str:
    """One line, what it asks for, and its answers, or a command; nothing, where there is none."""
    found = [row for row in TABLE if row.word == verb.upper()]
    told = [f"{row.lines}\n  asks for  {row.asks}\n  answers   {row.answers}" for row in found]
    told += [f"{line}\n  {does}" for line, does in COMMANDS if line.partition(" ")[0] == verb.lower()]
    return "\n".join(told)


def forms_of(verb: str) -> List[str]:
    """The forms of the lines that begin with the verb."""
    return [form for row in TABLE if row.word == verb for form in row.lines.split(", ")]


def fault_of_line(line: str) -> str:
    """What is wrong with a line that has none of the forms, or goes beyond a bound: the word, and what is wanted."""
    verb, *given = line.split(" ")
    forms = forms_of(verb)
    if not forms:
        near = difflib.get_close_matches(verb, VERBS, 1)
        return f"{verb} is no verb{f', but {near[0]} is' if near else ''}: HELP lists them"
    fault = fault_of_words(verb, forms, given)
    return f"{fault}: {' or '.join(forms)} is wanted" if fault else f"{' or '.join(forms)} is wanted"


def fault_of_words(verb: str, forms: List[str], given: List[str]) -> str:
    """The first word that is wrong."""
    names = forms[0].split(" ")[1:]
    if names[-1:] == [".."]:
        names = ["k=v"] * max(1, len(given))
    for name, word in itertools.zip_longest(names, given):
        if word is None:
            return f"{WORDS.get(name, name)} is missing"
        if name is None:
            return f"{word} is one word too many"
        fault = fault_of_word(verb, name, word, forms)
        if fault:
            return fault
    bounds = dict(zip(names, given))
    return f"{bounds['lo']} is above {bounds['hi']}" if bounds.get("lo", "") > bounds.get("hi", "~" * 33) else ""


def fault_of_word(verb: str, name: str, word: str, forms: List[str]) -> str:
    """What is wrong with one word."""
    if name == "n":
        most = 1000 if verb in ("SCAN", "RSCAN", "DELR") else 60_000 if verb == "HOLD" else 64
        return "" if re.fullmatch("[1-9][0-9]{0,5}", word) and int(word) <= most else f"{word} is no number from 1 to {most:,}"
    if name == "s":
        return "" if re.fullmatch("[0-9]{1,20}", word) else f"{word} is no number"
    if name == "k=v":
        key, equals, value = word.partition("=")
        if not equals:
            return f"{word} has no ="
        return fault_of_word(verb, "k", key, forms) or fault_of_word(verb, "v", value, forms)
    if name not in WORDS:
        modes = [form.split(" ")[1] for form in forms]
        return "" if word in modes else f"{word} is neither {' nor '.join(modes)}"
    most, what = (64, "value") if name == "v" else (32, "key")
    if not word:
        return f"{WORDS[name]} is empty: one blank parts two words"
    if len(word.encode("utf-8", "surrogateescape")) > most:
        return f"{word[:most]}.. is too long: a {what} has at most {most} bytes"
    if not re.fullmatch("[!-~]+", word):
        return f"{word.encode('ascii', 'backslashreplace').decode()} isn't visible ASCII (.escape on carries any bytes)"
    return f"the key {word} has a =" if what == "key" and "=" in word else ""
