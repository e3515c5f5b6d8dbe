"""The rules of the crates, as far as they are seen without a proof."""

import glob
import os
import re
import shutil
import subprocess
import tempfile
from itertools import takewhile
from typing import Dict, Iterator, List, Set, Tuple

from tree import TOP, crates, given_out, sources, text_of

# Names that a crate gives out although no other takes them. A law, a function with neither parameters nor a result, is read and not
# called, and needs no place here.
SURFACE = {
    "am_latch": {"Closed", "LatchFault", "Missing"},  # what `close` and `Latch::open` give
    "am_serve": {"serve_session"},  # a session over any source and sink, whose contract is a promise
    "am_latch_counters": {"CountersFault"},  # why `Counters` are refused
}


def faults_of_dependencies() -> Iterator[str]:
    """A crate that another names in crates.txt, and in none of its files: it would wait for it in vain."""
    for crate, others in crates().items():
        files = [it for kind in ("rt", "antt") for it in glob.glob(f"{TOP}/crates/{crate}/**/*.{kind}", recursive=True)]
        named = set(re.findall(r"\bam_\w+", " ".join(text_of(it) for it in files if "/out/" not in it)))
        for other in others:
            if other not in named:
                yield f"crates.txt: {crate} waits for {other}, and names nothing of it"


def statements(text: str) -> Iterator[Tuple[str, str]]:
    """The name and the statement of each lemma, white space folded. Before the statement stand the parameters of the modules
    round it. Lemmas inside a proof, by `where`, aren't among them."""
    outer: List[str] = []
    lines = text.split("\n")
    for at, line in enumerate(lines):
        inside = indent_of(line)
        if not line.strip() or line.lstrip().startswith("--"):
            continue
        del outer[inside // 2 :]
        if inside != 2 * len(outer):
            continue
        rest = takewhile(lambda it, inside=inside: it.strip() and indent_of(it) > inside, lines[at + 1 :])  # type: ignore[misc]
        whole = " ".join([line, *rest]).split()
        if whole[:2] == ["module", "_"]:
            outer.append(" ".join(whole[2 : whole.index("where")]))
        found = re.match(r"(?:pub )?([^\s:({]+) : (.*)$", " ".join(whole))
        if found:
            yield found.group(1), " / ".join([*outer, found.group(2)])


def indent_of(line: str) -> int:
    """How many blanks the line begins with."""
    return len(line) - len(line.lstrip())


def faults_of_lemmas() -> Iterator[str]:
    """A lemma under any name, stated word for word as in another file. The goals of a function, and what a Proof.antt states,
    speak of that function's own code, so there the same words mean something else. A type that names no variable and no
    equation states nothing: it is that of a definition."""
    seen: Dict[str, Tuple[str, str]] = {}
    for path in (it for it in sources("proofs", "specs", kinds="antt") if os.path.basename(it) != "Proof.antt"):
        for name, statement in statements(text_of(path)):
            if re.search(r"\bgoal\.", statement) or not re.search(r"[({].* : |[≡≢]", statement):
                continue
            other = seen.setdefault(statement, (path, name))
            if other[0] != path:
                where = f"{os.path.relpath(other[0], TOP)} states as {other[1]}"
                yield f"{os.path.relpath(path, TOP)}: {name} is what {where}"


def faults_of_surface() -> Iterator[str]:
    """A name that a crate gives out and no other crate takes: neither code by a path, nor a definition or a proof."""
    named = list(crates())
    code = {it: [text_of(path) for path in glob.glob(f"{TOP}/crates/{it}/s*/**/*.*t", recursive=True)] for it in named}
    examples = [text_of(path) for path in glob.glob(f"{TOP}/tests/rattle/**/*.rs", recursive=True) + glob.glob(f"{TOP}/bench/rattle/*.rs")]
    proofs = {it: [text_of(path) for path in glob.glob(f"{TOP}/crates/{it}/proofs/**/*.antt", recursive=True)] for it in named}
    # (one look at each text for all crates: there are many texts)
    path = re.compile(rf"\b({'|'.join(named)})(?:::|\.)([\w:.]*\{{[^;]*?\}}|[\w:.]+)")
    taken: Dict[str, Set[str]] = {it: set() for it in named}
    for user, texts in [("", examples), *((it, code[it] + proofs[it]) for it in named)]:
        for crate, names in path.findall("\n".join(texts)):
            if crate != user:
                taken[crate].update(re.findall(r"\w+", names))
    for crate in named:
        laws = set(re.findall(r"(?m)^pub fn (\w+)(?:<[^>]*>)?\(\)$", "\n".join(code[crate])))
        exceptions, given = SURFACE.get(crate, set()), set(given_out(crate))
        for name in sorted(given - taken[crate] - laws - exceptions):
            yield f"crates/{crate}/src/lib.rt: no other crate names {name}"
        for name in sorted(exceptions - given | exceptions & taken[crate]):
            yield f"tools/crate_rules.py: {name} of {crate} is no exception"


def faults_of_layout() -> Iterator[str]:
    """What `rt fmt` would lay out otherwise. It is tried on copies, in a folder of one crate."""
    with tempfile.TemporaryDirectory() as folder:
        copies = {path: f"{folder}/src/{os.path.relpath(path, TOP)}" for path in sources("s*", "proofs")}
        for path, copied in copies.items():
            os.makedirs(os.path.dirname(copied), exist_ok=True)
            shutil.copy(path, copied)
        ran = subprocess.run(["rt", "fmt"], cwd=folder, capture_output=True, text=True, check=False)
        if ran.returncode:
            yield from ran.stderr.splitlines()
        yield from (f"{os.path.relpath(path, TOP)} is not in the layout" for path, copied in copies.items() if text_of(path) != text_of(copied))


def faults_of_edits() -> Iterator[str]:
    """An edit that must fail, and can't be applied."""
    for edit in sorted(glob.glob(f"{TOP}/crates/*/must-fail/*.edit")):
        path = ""
        for line in text_of(edit).splitlines():
            if line.startswith("file: "):
                path = os.path.join(os.path.dirname(os.path.dirname(edit)), line[len("file: ") :].strip())
            elif line.startswith("old: "):
                found = text_of(path).count(line[len("old: ") :])
                if found != 1:
                    yield f"{os.path.relpath(edit, TOP)}: what it changes stands {found} times, and not once"


def faults_of_widths() -> Iterator[str]:
    """Code, definitions and proofs fit on a page; a text of code that `rt fmt` leaves as it stands, and one long name, may not."""
    for path in sources("s*", "proofs"):
        for number, line in enumerate(text_of(path).splitlines(), 1):
            one_name = line.startswith("use ") and "," not in line
            if len(line) > 120 and not one_name and not (path.endswith(".rt") and '"' in line):
                yield f"{os.path.relpath(path, TOP)}:{number}: a line of {len(line)} characters"


# Operations whose names stand for nothing else.
OPERATIONS = ("Replace", "Set", "Put", "ScanBack", "DeleteRange")


def operation_files() -> Dict[str, List[str]]:
    """The files of each kind that name the operation which most files name, outside their comments. Worked traces and tests don't
    count, and neither does the log of replicas, whose puts are etcd's."""
    worked = re.compile(r"crates/(am_tests_memory|am_replica_log/|am_c_replica/src/logs|am_law_serial/specs/Rows|am_law_serial/proofs/worked_)")
    kinds = {"sources": "src", "specifications": "specs", "files of proofs": "proofs"}
    texts = {kind: [(os.path.relpath(it, TOP), text_of(it)) for it in sources(folder)] for kind, folder in kinds.items()}
    found = [
        {kind: [it for it, text in files if not worked.match(it) and names_each(text, name)] for kind, files in texts.items()}
        for name in OPERATIONS
    ]
    return max(found, key=lambda files: sum(map(len, files.values())))


def names_each(text: str, *names: str) -> bool:
    """Whether the text names each outside its comments."""
    code = re.sub(r"(--|//).*", "", text)
    return all(re.search(rf"\b{it}\b", code) for it in names)


def faults_of_operations() -> Iterator[str]:
    """A new operation touches few files."""
    for (kind, files), most in zip(operation_files().items(), (17, 20, 19)):
        if len(files) > most:
            yield f"tools/operation_files.py: {len(files)} {kind} name one operation, and {most} may"
