"""Standard input by each of its names, from a file, from a pipe and closed; and the roles in which it is
refused."""

import itertools
import os

from fixture import HELLO
from messages import message
from program import ProgramCase, read
from test_files import lines, roles
from test_headers import header_in, table

NAMES = ["/dev/stdin", "/dev/fd/0", "/proc/self/fd/0"]


class StandardInput(ProgramCase):
    def both(self, title, expected, name, *words):
        """Runs the program with a file as standard input, and with a pipe that returns the same bytes."""
        with self.subTest(f"a file: {title}"), open(name, "rb") as stdin:
            self.writes(expected, *words, input=stdin)
        with self.subTest(f"a pipe: {title}"):
            self.writes(expected, *words, input=read(name))

    def test_in(self):
        """IN is standard input."""
        rows = [
            ("encrypt -k key -s seed", "hello", read("key.age")), ("decrypt -k key", "key.age", HELLO),
            ("rewrap -p pass -K key -s seed", "pass.age", read("key.age")), ("inspect -r", "key.age", read("key.age")[:156]),
        ]
        for name in [*NAMES, None]:
            for words, file, expected in rows:
                self.both(f"{words} {name or ''}", expected, file, *words.split(), *([name] if name else []))

    def test_range(self):
        """range reads standard input from a file, but not from a pipe."""
        for name in NAMES:
            with self.subTest(f"a file: {name}"), open("key.age", "rb") as stdin:
                self.writes(b"ell", "range", "-k", "key", "1", "3", name, input=stdin)
            with self.subTest(f"a pipe: {name}"):
                self.says(message("CannotOpen", name), "range", "-k", "key", "1", "3", name, input=read("key.age"))

    def test_secrets(self):
        """A secret or the seed is standard input, and IN is given."""
        key_age, pass_1_age = read("key.age"), read("pass_1.age")
        rows = [
            ("decrypt -k", "key.age", "key", HELLO), ("decrypt -p", "pass.age", "pass", HELLO),
            ("encrypt -s seed -k", "hello", "key", key_age), ("encrypt -w 1 -s seed -p", "hello", "pass", pass_1_age),
            ("encrypt -k key -s", "hello", "seed", key_age), ("rewrap -p pass -s seed -K", "pass.age", "key", key_age),
            ("rewrap -k key -s seed -w 1 -P", "key.age", "pass", pass_1_age), ("rewrap -k key -K key -s", "key.age", "seed", key_age),
            ("range -k key -k", "0 9 key.age", "other.key", HELLO),
        ]
        for name in NAMES:
            for words, rest, secret, expected in rows:
                self.both(f"{words} {name}", expected, secret, *words.split(), name, *rest.split())

    def test_file_key(self):
        """The file key is standard input."""
        for name in NAMES:
            with self.subTest(name), open("file.key", "rb") as stdin:
                expected = table(header_in(read("key.age")), True)
                self.writes(expected, "inspect", "-f", name, "key.age", input=stdin)

    def test_device(self):
        """A character device counts as standard input only by one of NAMES; only then are two uses of it refused."""
        for name in NAMES:
            for words, role in (("decrypt -k", "Key"), ("encrypt -k key -s", "Seed")):
                with self.subTest(f"{words} {name}"), open("/dev/zero", "rb") as stdin:
                    self.says(message("StandardInputTwice", "Input", role), *words.split(), name, input=stdin)
        with self.subTest("another name of the device"), open("/dev/zero", "rb") as stdin:
            self.says(message("KeyLength"), "decrypt", "-k", "/dev/zero", input=stdin)


def with_names(line, names):
    """The line with other names in place of these."""
    return " ".join(names.get(word, word) for word in line.split())


class Refused(ProgramCase):
    def refused(self, name, line):
        """Runs a line, which must end with this fault and create no OUT."""
        with self.subTest(line):
            self.line_says(name, line)
            self.assertFalse(os.path.exists("made"))

    def test_each_role(self):
        """If IN is standard input, no other file may be. Closed, it cannot be opened; `-` does not name it."""
        for line, (role, name) in ((line, it) for line in lines() for it in roles(line)):
            out = "" if line.startswith("inspect") else " -o made"
            self.refused("CannotOpen: -", f"{with_names(line, {name: '-'})}{out} <yesterday")
            for standard in NAMES:
                named = with_names(line, {name: standard})
                self.refused(f"CannotOpen: {standard}", f"{named}{out} <&-")
                if role != "Input" and not line.startswith("range"):
                    for stdin in ("< <(cat yesterday)", "<yesterday", "<&-"):
                        self.refused(f"StandardInputTwice: Input, {role}", f"{named[: named.rindex(' ')]}{out} {stdin}")

    def test_two_roles(self):
        """No two files may be standard input, by any of its names."""
        for said, line in (
            ("Passphrase", "decrypt -p {} -p {} pass.age <pass"), ("Key", "rewrap -k {} -k {} -K new.key key.age <key"), ("Key, Seed", "encrypt -k {} -s {} hello <key"),
            ("Passphrase, NewPassphrase", "rewrap -p {} -P {} pass.age <pass"), ("NewKey", "rewrap -k key -K {} -K {} key.age < <(cat key)"),
        ):
            for names in itertools.permutations(NAMES, 2):
                self.refused(f"StandardInputTwice: {said}", line.format(*names))

    def test_link(self):
        """A secret is standard input even by a link."""
        os.symlink("key", "linked.key")
        self.refused("StandardInputTwice: Input, Key", "encrypt -k linked.key <key")

    def test_closed(self):
        """A closed standard input cannot be read."""
        for words in ("encrypt -k key", "decrypt -k key", "salvage -k key", "rewrap -k key -K key", "inspect"):
            self.refused("Read", f"{words} <&-")
