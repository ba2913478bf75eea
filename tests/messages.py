"""The messages of agep by the names of their faults, from texts written by hand: those of the format from
docs/FORMAT.md, those about options and files from tests/messages.txt."""

import itertools
import os
import re

ROOT = os.path.dirname(os.path.dirname(os.path.abspath(__file__)))
NAMES = "docs/FORMAT.md and tests/messages.txt"


def read_lines(name):
    with open(os.path.join(ROOT, name), encoding="utf-8") as file:
        return file.read().split("\n")


def numbers():
    """The faults and parts in the tables of docs/FORMAT.md: number in C, name, and text, with numbered
    placeholders."""
    for line in read_lines("docs/FORMAT.md"):
        found = re.fullmatch(r"\| (\d+) \| `(\w+)` \|(?: [^|]* \|)? `([^`]*)` \|", line)
        if found:
            count = itertools.count()
            text = re.sub(r"\b(?:N|CODE|PART)\b", lambda _: f"{{{next(count)}}}", found[3])
            yield int(found[1]), found[2], text


def rows():
    """The name and the text of each message."""
    own = [line for line in read_lines("tests/messages.txt") if line and not line.startswith("#")]
    of_files = [(name, text) for _, name, text in numbers()]
    return of_files + [tuple(line.split(": ", 1)) for line in own]


# Each text by its name and the number of its placeholders.
TEXTS = {(name, len(set(re.findall(r"\{\d\}", text)))): text for name, text in rows()}


def message(name, *words):
    """The message of a fault, with these words in it. A word that is the name of a message stands for its text."""
    if (name, len(words)) not in TEXTS:
        raise KeyError(f"{name} with {len(words)} words is not in {NAMES}")
    return TEXTS[name, len(words)].format(*(TEXTS.get((word, 0), word) for word in words))


def pattern(name, *words):
    """A regular expression that matches only this message."""
    return f"^{re.escape(message(name, *words))}$"


def filled(line):
    """A line of a transcript. `agep: <NAME>` and `agep: <NAME: WORD, WORD>` stand for that message; the last
    word may contain commas."""
    found = re.fullmatch(r"((?:2> )?agep: )<(\w+)(?:: (.*))?>", line)
    if not found:
        return line
    start, name, words = found.groups()
    most = max((count for known, count in TEXTS if known == name), default=0)
    return start + message(name, *([] if words is None else words.split(", ", max(most - 1, 0))))
