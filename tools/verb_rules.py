"""The rule of verbs: one table has them, with what each is answered and does (python/tiuvrokk_tools/verbs.py). What else knows them by
name has the same: the words of lines, the locks of operations, the client of the package, what a shell does alone, and which lines
aren't HTTP."""

import ast
import os
import re
import sys
from typing import Dict, Iterator, Set

from tree import TOP, text_of

sys.path.insert(0, os.path.join(TOP, "python"))
from tiuvrokk_tools import verbs  # noqa: E402
from tiuvrokk_tools.verbs import Kind  # noqa: E402

TABLE = "python/tiuvrokk_tools/verbs.py"


def words_of_lines() -> Dict[str, str]:
    """The word of each verb, by its name in the crates."""
    return dict(re.findall(r'(?m)^word_of (\w+) = codes "([A-Z]+)"$', text_of("crates/am_line_text/specs/Verbs.antt")))


def verbs_of_operations() -> Dict[str, str]:
    """The name of the verb of each operation."""
    return dict(re.findall(r"(?m)^verb_of \(?(\w+)[^=]*= verb\.(\w+)$", text_of("crates/am_trace_text/specs/Steps.antt")))


def locks_of_operations() -> Dict[str, str]:
    """The mode of the lock that each operation asks for, where it asks for one of its own."""
    return dict(re.findall(r"(?m)^lock_of \(?(\w+)[^=]*= Some \(record \{ mode = (\w+);", text_of("crates/am_record/specs/Asks.antt")))


def answers_in(text: str) -> Set[str]:
    """The words with which answers begin that a cell names."""
    return {word for word in re.findall(r"\b[A-Z]{2,}\b", text.partition(";")[0]) if word != "ERR"}


def assigned(path: str, name: str) -> ast.expr:
    """What a module gives a name."""
    for part in ast.parse(text_of(path)).body:
        if isinstance(part, ast.Assign) and [it.id for it in part.targets if isinstance(it, ast.Name)] == [name]:
            return part.value
    raise LookupError(f"{path} has no {name}")


def answers_of_client() -> Dict[str, Set[str]]:
    """What the client of the package takes for an answer to each verb."""
    table = assigned("python/tiuvrokk/_client.py", "_WANTED")
    assert isinstance(table, ast.Dict)
    found: Dict[str, Set[str]] = {}
    for key, value in zip(table.keys, table.values):
        words = ast.literal_eval(value) if isinstance(value, ast.Tuple) else (b"OK",)
        found[ast.literal_eval(key).decode() if key else ""] = {word.decode() for word in words}
    return found


def faults_of_words() -> Iterator[str]:
    """The verbs are those of lines, and write exactly where their operation locks to write."""
    words = words_of_lines()
    if {*verbs.VERBS} != {*words.values()}:
        yield f"{TABLE}: {sorted({*verbs.VERBS} ^ {*words.values()})} are in the table or in am_line_text alone"
    kinds = {verb.word: verb.kind for verb in verbs.TABLE}
    locks, names = locks_of_operations(), verbs_of_operations()
    for operation, name in names.items():
        word, kind = words.get(name, "?"), Kind.WRITES if locks.get(operation) == "Exclusive" else Kind.READS
        if kinds.get(word) is not kind:
            yield f"{TABLE}: {word} is one that {kinds.get(word)}, and {operation} of am_record {kind}"
    written = {words[name] for name in names.values() if name in words}
    for word in {*verbs.words_of(Kind.READS, Kind.WRITES)} - written:
        yield f"{TABLE}: {word} is no operation of am_record"


def faults_of_users() -> Iterator[str]:
    """Who else has a list of them."""
    wanted = {verb.word: answers_in(verb.answers) for verb in verbs.TABLE if verb.kind is not Kind.APART}
    client = answers_of_client()
    for word in sorted({*wanted, *client}):
        # (BACK is answered NOMARK, which is raised)
        if wanted.get(word, set()) - {"NOMARK"} != client.get(word):
            yield f"python/tiuvrokk/_client.py: {word} is answered {client.get(word)}, and {wanted.get(word)} by the table"
    alone = text_of("man/amcli.1").partition(".Ql HELP VERB")[2].partition("are a transaction of their own")[0]
    if {*re.findall(r"\.Ql ([A-Z]+)", alone)} != {*verbs.ALONE}:
        yield f"man/amcli.1: other verbs than {verbs.ALONE} are transactions of their own"
    fronts = set(re.findall(r'b"([A-Z]+)', text_of("crates/am_serve_connections/src/http.rt").partition("OWN_FRONTS")[2].partition(";\n")[0]))
    own = {verb.word for verb in verbs.TABLE if re.search(r" (v|hi)$", verb.lines.partition(",")[0])}
    if fronts != own:
        yield f"crates/am_serve_connections/src/http.rt: {sorted(fronts)} may end as a request of HTTP does, and {sorted(own)} by the table"
    if set(re.findall(r'b"([A-Z]+)', text_of("python/tiuvrokk_replica/lines.py").partition("OWN_FRONTS = ")[2].partition(")\n")[0])) != own:
        yield "python/tiuvrokk_replica/lines.py: OWN_FRONTS are others than those of am_serve_connections"


def faults() -> Iterator[str]:
    yield from faults_of_words()
    yield from faults_of_users()
