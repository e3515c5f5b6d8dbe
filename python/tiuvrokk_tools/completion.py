"""What readline has of a shell: completion of verbs, keys and files, and a file of what was typed."""

import glob
import os
import re
import stat
from typing import List, Set

from tiuvrokk._grammar import KEY_TEXT

try:
    import readline
except ImportError:  # (some builds of Python have none: then nothing is completed and nothing kept)
    readline = None  # type: ignore[assignment]

MOST_KEYS = 100_000
MOST_LINES = 1000
KEY = re.compile(b"(?<= )%b(?==)" % KEY_TEXT)
ASKED = re.compile(b"(?:GET|INS|REP|SET|DEL) (%b)" % KEY_TEXT)


class Completion:
    """The words that a TAB completes."""

    def __init__(self) -> None:
        self.keys: Set[str] = set()
        self.words: List[str] = []
        self.found: List[str] = []
        self.history = ""

    def see(self, line: bytes, answer: bytes) -> None:
        """Keeps the keys of a line and of its answer."""
        if len(self.keys) < MOST_KEYS:
            seen = ASKED.match(line)
            keys = [*KEY.findall(line), *KEY.findall(answer), *([seen.group(1)] if seen else [])]
            self.keys.update(key.decode() for key in keys)

    def begin(self, words: List[str], history: str) -> None:
        """Completes by these verbs and commands, and takes what was typed before."""
        self.words, self.history = words, history
        if readline is None:
            return
        readline.set_completer_delims(" ")
        readline.set_completer(self.complete)
        readline.parse_and_bind("tab: complete")
        readline.set_history_length(MOST_LINES)
        try:
            # (what was typed is its user's alone)
            if stat.S_ISREG(os.lstat(history).st_mode):
                os.chmod(history, 0o600)
            readline.read_history_file(history)
            if readline.get_current_history_length() >= MOST_LINES:
                # (those that lie further back are left out)
                readline.write_history_file(history)
        except OSError:
            pass

    def keep(self) -> str:
        """Keeps the line that was typed last, or says why it can't."""
        try:
            if readline is not None and self.history:
                os.close(os.open(self.history, os.O_WRONLY | os.O_APPEND | os.O_CREAT, 0o600))
                readline.append_history_file(1, self.history)
        except OSError as error:
            told, self.history = f"{self.history}: {error.strerror}", ""
            return told
        return ""

    def complete(self, text: str, state: int) -> "str | None":
        """The words that begin so, one by one, as readline asks for them."""
        if state == 0:
            self.found = self.words_for(readline.get_line_buffer()[: readline.get_begidx()], text)
        return self.found[state] if state < len(self.found) else None

    def words_for(self, before: str, text: str) -> List[str]:
        """The words that may stand behind others and begin so."""
        if not before.strip():
            return [word for word in self.words if word.upper().startswith(text.upper())]
        if before.startswith((".load ", ".dump ", ".read ")):
            return sorted(glob.glob(glob.escape(text) + "*"))
        if before.strip().upper() == "HELP":
            return [word for word in self.words if word.startswith(text.upper()) and not word.startswith(".")]
        return sorted(key for key in self.keys if key.startswith(text))
