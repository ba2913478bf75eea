"""Compares the messages in docs/FORMAT.md and tests/messages.txt, which are written by hand, with the texts
in the code and the manual page, and the texts in the code with the table of messages in docs/USE.md."""

import glob
import itertools
import os
import re
import sys
import unittest
from pathlib import Path

sys.path.append(str(Path(__file__).resolve().parent.parent / "share/generate"))
import codes

from messages import NAMES, TEXTS, numbers, rows
from program import ROOT, TESTS, read

VERBOSE = TESTS + "/cli/verbose.console"


def text_of(name):
    return read(name).decode("utf-8", "surrogateescape")


def numbered(text):
    """A text of the code, with its placeholders numbered like those of a row."""
    count = itertools.count()
    return re.sub(r"\{\w+\}", lambda _: f"{{{next(count)}}}", text)


FAULTS = ("age_file/src/fault.rt", "age_job/src/fault.rt")
# Not returned by agep: it has one recipient, which refuses nothing, and no disk holds 2^88 chunks.
NOT_BY_AGEP = {"NoRecipients", "Refused", "IncompatibleRecipients", "TooManyChunks"}


def source(name):
    """The text of a file of the crates. A string of several lines is joined into one."""
    return re.sub(r"\\\n *", "", text_of(f"{ROOT}/crates/{name}"))


def texts_of_faults(*files):
    """The names and texts of the faults in these files."""
    for file in files:
        for name, text in re.findall(r'Fault::(\w+)[^"]*"(.*)"', source(file).split("impl fmt::Display for ")[1]):
            yield name, numbered(text)


def texts_of_code():
    """The names and texts of the faults, of the parts of a stanza, and of the roles of files."""
    yield from texts_of_faults(*FAULTS, "age_recipient/src/unwrapped.rt")
    for name, text in re.findall(r'Role::(\w+) => "(.*)"', source("age_job/src/file_names.rt")):
        yield name, text if name == "Input" else f"the {text}"


def without_example(line):
    """The second line of an error after the name of the file, with N for each number."""
    line = re.sub("^2> agep: ", "", line).replace("\\-", "-").replace("\n", " ").strip()
    return re.sub(r"\d+", "N", re.sub("^IN: .*|^([a-z ]+ )?[^ ]+: ", "", line))


class Code(unittest.TestCase):
    def test_texts(self):
        """Each text in the code has a row, and each row is a text in the code."""
        code, table = set(texts_of_code()), set(rows())
        self.assertGreater(len(code), 40)
        self.assertEqual(code - table, set(), f"these have no row in {NAMES}")
        self.assertEqual(table - code, set(), f"these rows of {NAMES} stand nowhere in the code")

    def test_numbers(self):
        """The rows of docs/FORMAT.md have the numbers of the library for C."""
        root = Path(ROOT)
        of_files = set(codes.faults(root)) - set(codes.own(root))
        expected = {(fault.code, fault.name) for fault in of_files} | {(0, "Other")}
        expected |= {(number, part.name) for number, part in codes.parts(root).items()}
        self.assertEqual({(number, name) for number, name, _ in numbers()}, expected)


class Page(unittest.TestCase):
    def test_each_message_is_explained(self):
        """docs/USE.md has a row for each message: faults that agep may return, lines of salvage, and those of
        main.rt."""
        table = text_of(ROOT + "/docs/USE.md").split("\n## Messages\n")[1]
        explained = re.findall(r"`(.*?)`", "".join(re.findall(r"^\| (`.*?) \| ", table, re.MULTILINE)))
        rows = [re.sub(r"\b(?!OUT\b)[A-Z]+\b(\\.agep\\-new)?|\\\.\\\.", ".+", re.escape(text)) for text in explained]
        texts = [text for name, text in texts_of_faults(*FAULTS) if name not in NOT_BY_AGEP]
        texts += re.findall(r'"([a-z]+ [^"]*)"', source("age_cli/src/lines.rt").replace("{TAG_SIZE}", "16"))
        texts += re.findall(r'"agep: (.*)"', source("agep/src/main.rt"))
        self.assertGreater(len(texts), 50)
        self.assertEqual([text for text in texts if not any(re.fullmatch(row, text) for row in rows)], [])


class Manual(unittest.TestCase):
    """DIAGNOSTICS in the manual page: some first lines, and examples of second lines."""

    def setUp(self):
        page = text_of(ROOT + "/share/man/agep.1").split("\n.SH DIAGNOSTICS\n")[1]
        page = page.split("\n.SH ")[0]
        entries = re.findall(r"^\.TP\n\.B (.*)\n((?:[^.].*\n)+)", page, re.MULTILINE)
        self.assertGreater(len(entries), 3)
        heads = [head.split(r"\fR, and other")[0] for head, _ in entries]
        self.first = [part for head in heads for part in head.split(r"\fR, \fB")]
        self.second = [example for _, example in entries]

    def test_first_lines(self):
        """Each first line is a message (up to the name of a file), or a part of a stanza."""
        known = {re.sub(r" \{0\}$", "", text).replace("{0}", "3") for text in TEXTS.values()}
        self.assertEqual([line for line in self.first if line not in known], [])

    def test_second_lines(self):
        """Each second line occurs in a transcript, for another file."""
        lines = [line for line in text_of(VERBOSE).split("\n") if line.startswith("2> ")]
        shown = {without_example(line) for line in lines}
        self.assertEqual([line for line in self.second if without_example(line) not in shown], [])


class Transcripts(unittest.TestCase):
    def test_names(self):
        """Transcripts name messages, and do not repeat their texts."""
        texts = "|".join(re.sub(r"\\\{\d\\\}", ".*", re.escape(text)) for text in TEXTS.values())
        for name in sorted(glob.glob(TESTS + "/cli/*.console")):
            with self.subTest(os.path.basename(name)):
                literal = re.findall(rf"^(?:2> )?agep: (?:{texts})$", text_of(name), re.MULTILINE)
                self.assertEqual(literal, [])
