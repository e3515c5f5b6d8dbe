"""Lines that are typed with quotes, where any bytes are carried by percent signs."""

from typing import List, Tuple

from tiuvrokk._escapes import escaped

from .verbs import forms_of

Word = List[Tuple[str, bool]]
"""A word's characters, and whether each was quoted."""


def words_of(line: str) -> List[Word]:
    """The words of a line: blanks part them but between quotes, within which a quote or a backslash stands behind a backslash."""
    words: List[Word] = []
    is_quoted = is_open = False
    at = 0
    while at < len(line):
        character = line[at]
        if is_quoted and character == "\\" and line[at + 1 : at + 2] in ("\\", '"'):
            at += 1
            words[-1].append((line[at], True))
        elif character == '"':
            is_quoted = not is_quoted
            if not is_open:
                words.append([])
            is_open = True
        elif character == " " and not is_quoted:
            is_open = False
        else:
            if not is_open:
                words.append([])
            is_open = True
            words[-1].append((character, is_quoted))
        at += 1
    return words


def text_of(word: Word) -> str:
    return "".join(character for character, _ in word)


def carried(text: str, is_key: bool) -> str:
    return escaped(text.encode("utf-8", "surrogateescape"), is_key).decode()


def spelled(line: str) -> str:
    """The line with its keys and values as lines carry them."""
    words = words_of(line)
    if not words:
        return ""
    verb = text_of(words[0]).upper()
    names = (forms_of(verb) or [verb])[0].split(" ")[1:]
    found = [verb]
    for at, word in enumerate(words[1:]):
        name = names[min(at, len(names) - 1)] if names else ""
        if ".." in names:
            key, value = parted(word)
            found.append(f"{carried(key, True)}={carried(value, False)}")
        elif name in ("k", "lo", "hi", "v"):
            found.append(carried(text_of(word), name != "v"))
        else:
            found.append(text_of(word))
    return " ".join(found)


def parted(word: Word) -> Tuple[str, str]:
    """The key and the value of a word, parted by the first equals sign that isn't quoted."""
    at = next((at for at, (character, is_quoted) in enumerate(word) if character == "=" and not is_quoted), len(word))
    return text_of(word[:at]), text_of(word[at + 1 :])
