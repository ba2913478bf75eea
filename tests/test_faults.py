"""The order in which each command checks for faults, and refused command lines. tests/cli/usage.console has
the missing and the unknown commands."""

import itertools
import re

from program import ProgramCase, usage_error
from test_files import Files
from test_texts import commands, help_of, option_rows, texts_of


def secret(slot, p, k, choice, absent):
    """The faults of a secret with these letters: those of the choice, and those of its files."""
    yield slot, {choice: ("", f"-{p} {absent} -{k} {absent}", f"-{k} key -{p} pass -{k} key")}
    yield slot, {
        f"CannotOpen: {absent}": (f"-{p} {absent}", f"-{k} {absent}", f"-{k} key -{k} {absent}"),
        "KeyLength": (f"-{k} short.key", f"-{k} long.key", f"-{k} empty", f"-{k} key -{k} pass"),
        "PassphraseLength": (f"-{p} long.pass",), "Read": (f"-{p} folder", f"-{k} folder"),
    }


def typed(slot, p):
    """The faults of a passphrase for a new file."""
    return slot, {"NoPassphrase": [f"-{p} {name} -w 1" for name in ("empty", "lf", "/dev/null")], "UntypedPassphrase": [f"-{p} <(printf 'a\\r')"]}


SECRET, NEW_SECRET = [*secret("secret", "p", "k", "KeyChoice", "no1")], [*secret("new", "P", "K", "NewKeyChoice", "no2")]
SEED = "seed", {"CannotOpen: no3": ["-s no3"], "SeedLength": ["-s short.seed", "-s empty"], "Read": ["-s folder"]}
FILE_KEY = "secret", {
    "CannotOpen: no1": ["-f no1"],
    "FileKeyLength": [f"-f {name}" for name in ("empty", "short.key", "<(head -c 15 seed)", "<(head -c 17 seed)")],
}
IN, READ = ("in", {"CannotOpen: nowhere": ["nowhere"]}), ("in", {"Read": ["folder"]})
OUT = "out", {"CannotCreate: nowhere/made": ["-o nowhere/made"], "CannotCreate: folder": ["-o folder"]}
OPENS = {"secret": "-k key", "out": "-o made", "in": "key.age"}
# The words of a run without a fault by their slot, and the faults of each slot in the order in which a command checks.
ORDERS = {
    "encrypt": ({"secret": "-k key", "seed": "-s seed", "out": "-o made", "in": "hello"}, [*SECRET, typed("secret", "p"), SEED, IN, OUT, READ]),
    "decrypt": (OPENS, [*SECRET, IN, OUT, READ]),
    "salvage": (OPENS, [*SECRET, IN, OUT, READ]),
    "range 0 1": (OPENS, [*SECRET, IN, OUT, READ]),
    "rewrap": (
        {"new": "-K new.key", "seed": "-s seed", **OPENS},
        [SECRET[0], NEW_SECRET[0], SECRET[1], NEW_SECRET[1], typed("new", "P"), SEED, IN, OUT, READ],
    ),
    "inspect": ({"secret": "-f file.key", "in": "key.age"}, [FILE_KEY, IN, READ]),
}


class Order(Files):
    def test_order(self):
        """Of two faults in different slots a command reports the one that it checks for first. No
        file is created or changed."""
        for command, (good, groups) in ORDERS.items():
            rows = [(slot, words, name) for slot, faults in groups for name, each in faults.items() for words in each]
            for first, other in itertools.combinations_with_replacement(rows, 2):
                if first == other or first[0] != other[0]:
                    words = {**good, first[0]: first[1], other[0]: other[1]}
                    if words["in"] == "folder" and words.get("out") == "-o made":
                        del words["out"]  # this fault is found after OUT is created
                    line = " ".join([command, *words.values()])
                    with self.subTest(line):
                        self.changes_nothing(first[2], line)


class Refused(ProgramCase):
    """Command lines that the parser refuses, made from what help shows of each command."""

    ARGUMENTS = {"range": "0 1 absent"}

    @classmethod
    def setUpClass(cls):
        super().setUpClass()
        cls.rows = {command: [row for row in option_rows(command) if row[0] not in ("-h", "-V")] for command in commands()}
        cls.usages = {command: re.search(r"^Usage: agep (.*)", help_of(command), re.MULTILINE)[1] for command in cls.rows}

    def refuses(self, line, text, usage=None):
        """A command line must be refused with this text."""
        with self.subTest(line):
            self.assert_ended(self.run_line(line), 2, usage_error(text, usage))

    def numbers(self):
        """For each numeric argument: a line with N in its place, its name in messages, its least and greatest value."""
        yield from (("range N 1 absent", "<AT>", 0, 2**63 - 1), ("range 0 N absent", "<LEN>", 0, 2**63 - 1))
        for command, rows in self.rows.items():
            for name in (name for _, name, value in rows if value == "N"):
                ends = map(int, re.search(r"(\d+) to (\d+)", texts_of(command)[name]).groups())
                yield f"{command} {name} N {self.ARGUMENTS.get(command, 'absent')}", f"{name} <N>", *ends

    def test_numbers(self):
        """Each numeric argument must be a number from its least to its greatest value."""
        for line, name, least, most in self.numbers():
            said = {number: f"{number} is not in {least}..={most}" for number in (least - 1, most + 1, 2**64 - 1) if number >= 0}
            said |= {2**64: "number too large to fit in target type", "x": "invalid digit found in string"}
            for number, why in said.items():
                self.refuses(line.replace("N", str(number)), f"invalid value '{number}' for '{name}': {why}")
            for number in least, most:
                with self.subTest(line := line.replace("N", str(number))):
                    self.assertEqual(self.run_line(line).status, 1)

    def test_options(self):
        """Unknown options, repeated options, missing values, and values for options that take none."""
        every = {row for rows in self.rows.values() for row in rows if row[0]}
        for command, rows in self.rows.items():
            usage, text = self.usages[command], texts_of(command)
            for letter, name, value in rows:
                shown, given = (f"{name} <{value}>", " 1024" if name == "--max-header" else " 1") if value else (name, "")
                for word in (letter, name) if value else ():
                    self.refuses(f"{command} {word}", f"a value is required for '{shown}' but none was supplied")
                if not value:
                    self.refuses(f"{command} {name}=x", f"unexpected value 'x' for '{name}' found; no more were expected", usage.replace("[OPTIONS]", name))
                if "Repeat it" not in text[name]:
                    self.refuses(f"{command} {letter or name}{given} {name}{given}", f"the argument '{shown}' cannot be used multiple times", usage)
            for letter in sorted({row[0] for row in every - {*rows}} | {"-1"}):
                self.refuses(f"{command} {letter}", f"unexpected argument '{letter}' found\n\n  tip: to pass '{letter}' as a value, use '-- {letter}'", usage)

    def test_arguments(self):
        """More or fewer arguments than the usage shows."""
        for command, usage in self.usages.items():
            self.refuses(f"{command} {self.ARGUMENTS.get(command, 'absent')} more", "unexpected argument 'more' found", usage)
        names = self.usages["range"].split()[2:]
        for option, shown in ("", ""), ("-p pass", "--passphrase <FILE> "):
            for count in range(3):
                text = "\n  ".join(["the following required arguments were not provided:", *names[count:]])
                self.refuses(f"range {option} {' '.join('01'[:count])}", text, f"range {shown}{' '.join(names)}")
