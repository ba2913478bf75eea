"""Control characters in names and arguments: every message escapes them, by the rule in docs/DECISIONS.md."""

import os
import re

import fixture
from fixture import HELLO
from messages import message
from program import ProgramCase, read, write

CONTROLS = [*range(1, 32), 127, *range(128, 160)]


def escaped(code):
    return {10: "\\n", 13: "\\r", 9: "\\t"}.get(code, f"\\x{code:02x}")


NAME = "".join(map(chr, CONTROLS))
SHOWN = "".join(map(escaped, CONTROLS))
ABSENT = "No such file or directory"


class Names(ProgramCase):
    def tearDown(self):
        if os.path.lexists(NAME):
            os.remove(NAME)

    def test_each(self):
        """Control characters in the name of an absent file are escaped, and printable ones are not."""
        rows = [(NAME, SHOWN), (NAME[::-1], "".join(map(escaped, CONTROLS[::-1])))]
        rows += [(f"a{chr(code)}", f"a{escaped(code)}") for code in CONTROLS]
        plain = [code for code in range(32, 127) if chr(code) != "/"] + [160, 161, 255, 0x2192, 0x1F986]
        rows.append(("".join(map(chr, plain)),) * 2)
        for name, shown in rows:
            with self.subTest(ascii(shown)):
                self.says(message("CannotOpen", shown), "inspect", name)

    def test_second_lines(self):
        """Second lines, and OutputIsRead, with all control characters: NAME is absent, or `made` is its bytes or target."""
        size = "6 bytes; a key file holds 32 raw bytes, not hexadecimal"
        damaged = fixture.changed(read("key.age"), -1)
        for made, words, line, more in (
            (None, "inspect NAME", message("CannotOpen", SHOWN), f"opening {SHOWN}: {ABSENT}"),
            (None, "encrypt -k key -o nowhere/NAME hello", message("CannotCreate", f"nowhere/{SHOWN}"), f"creating nowhere/{SHOWN}: {ABSENT}"),
            (HELLO, "encrypt -k key -o NAME NAME", message("OutputIsRead", "Input", SHOWN), None),
            (HELLO, "encrypt -k NAME hello", message("KeyLength"), f"key file {SHOWN}: {size}"),
            (b"", "encrypt -p NAME hello", message("NoPassphrase"), f"passphrase file: {SHOWN}"),
            (b"", "decrypt -k key NAME", message("HeaderTruncated"), f"{SHOWN}: the file is empty"),
            (damaged, "decrypt -k key NAME", message("BadChunk", 0), f"IN: {SHOWN}"),
            (read("key.age"), "decrypt -k other.key NAME", message("WrongKey"), f"{SHOWN}: not opened by key file other.key"),
            ("folder", "decrypt -k key NAME", message("Read"), f"reading {SHOWN}: Is a directory"),
            ("/dev/full", "decrypt -k key -o NAME key.age", message("Write"), f"writing {SHOWN}: No space left on device"),
        ):
            with self.subTest(words):
                if isinstance(made, str):
                    os.symlink(made, NAME)
                elif made is not None:
                    write(NAME, made)
                command, *rest = [word.replace("NAME", NAME) for word in words.split()]
                self.says(line, command, "-v", *rest, more=more)
            self.tearDown()

    def test_words(self):
        """The message about a refused argument has no control character except LF."""
        for words in ("", "frob", "inspect a", "inspect -H", "range -k key", "encrypt -w"):
            with self.subTest(words or "a command"):
                ran = self.run_agep(*words.split(), NAME)
                self.assert_ended(ran, 2, ran.err)
                self.assertTrue(ran.err)
                self.assertIsNone(re.search("[\x01-\x09\x0b-\x1f\x7f\x80-\x9f]", ran.err.decode()), ran.err)
