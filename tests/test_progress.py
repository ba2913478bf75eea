"""The line by which -v shows at a terminal how much was read. The clock of tests/calls.c moves on at each look."""

import os
import re
import subprocess

import fixture
from fixture import HELLO, KEY
from messages import message
from program import AGEP, ProgramCase, fault, preload, read, write
from terminal import Terminal

ERASE, CUT, WRAP = "\r\x1b[K", "\x1b[?7l", "\x1b[?7h"
MANY = b"".join(b"%d\n" % i for i in range(1, 100001))[:450000]
KEY_FRONT = 172
# The size in KiB, and the line for a pipe: how much was read, and how fast. The line for a file
# also has the size and the seconds that are left.
SIZE = 439
PIPE = r"agep: (\d+) KiB, (\d+) KiB/s"
FILE = rf"agep: (\d+) KiB of {SIZE} KiB, (\d+) KiB/s, (\d+) s left"


class Progress(ProgramCase):
    def setUp(self):
        super().setUp()
        write("many", MANY)
        write("many.age", fixture.for_keys(MANY, KEY))

    def at_terminal(self, line, input=b"", term="xterm", look=500):
        """Runs a line with a terminal as standard error; at each look at the clock these milliseconds have passed.
        Returns its status, its output, and the text on the terminal."""
        env = {**os.environ, "TERM": term, "LD_PRELOAD": preload("calls"), "CLOCK": str(look)}
        pipe = subprocess.PIPE
        return Terminal(AGEP, *line.split(), streams=["stderr"], stdin=pipe, stdout=pipe, env=env).ended(input)

    def assert_drawn(self, said, line, look=500, last=""):
        """Checks that the line was drawn, at most twice a second, and erased before the last output. The rate
        counts from the second look at the clock while IN is read, after 128 to 255 KiB."""
        self.assertEqual(said[len(said) - len(ERASE + last) :], ERASE + last)
        first, *drawn = said[: len(said) - len(ERASE + last)].split(ERASE)
        self.assertEqual(first, "")
        every = -(-500 // look)
        self.assertIn(len(drawn), range(4 // every, 6 // every + 1), drawn)
        before = 0
        for count, each in enumerate(drawn, 1):
            found = re.fullmatch(re.escape(CUT) + line + re.escape(WRAP), each)
            self.assertIsNotNone(found, each)
            done, rate, *left = map(int, found.groups())
            self.assertTrue(before + 64 * every - 1 <= done <= SIZE, each)
            took = count * every * look / 1000
            self.assertTrue(int((done - 255) / took) <= rate <= (done - 127) / took, (each, took))
            for seconds in left:
                self.assertTrue((SIZE - done - 1) // (rate + 1) <= seconds <= (SIZE - done + 1) // rate, each)
            before = done

    def test_drawn(self):
        """The line shows how much was read, and how fast; for a file also the size and the time left."""
        for look in (500, 300, 3000):
            with self.subTest(look):
                status, out, said = self.at_terminal("encrypt -v -k key -s seed", MANY, look=look)
                self.assertEqual((status, out), (0, read("many.age")))
                self.assert_drawn(said, PIPE, look)
                status, out, said = self.at_terminal("decrypt -v -k key many.age", look=look)
                self.assertEqual((status, out), (0, MANY))
                self.assert_drawn(said, FILE, look)

    def test_units(self):
        """From 10 MiB on, amounts are in MiB."""
        said = self.at_terminal("encrypt -v -k key", bytes(18 << 20), look=20)[2]
        amounts = re.findall(r"agep: (\d+) (KiB|MiB), (\d+) (KiB|MiB)/s", said)
        self.assertEqual({unit for _, unit, *_ in amounts}, {"KiB", "MiB"})
        for number, unit in (pair for row in amounts for pair in (row[:2], row[2:])):
            self.assertIn(int(number), range(10, 19) if unit == "MiB" else range(10240))

    def test_range(self):
        """For a range, which reads a part of the file, the line does not show the size."""
        status, out, said = self.at_terminal(f"range -v -k key 0 {len(MANY)} many.age")
        self.assertEqual((status, out), (0, MANY))
        self.assertIn(ERASE, said)
        self.assertNotIn(" of ", said)

    def test_fault(self):
        """The line is erased before the message about a fault."""
        write("damaged", fixture.changed(read("many.age"), -1))
        status, out, said = self.at_terminal("decrypt -v -k key damaged")
        self.assertEqual((status, out), (1, MANY[:393216]))
        self.assert_drawn(said, FILE, last=fault(message("BadChunk", 6), "IN: damaged"))

    def test_lost(self):
        """A message about a lost chunk replaces the line; of seven chunks, 1 and 4 are lost."""
        text = fixture.changed(read("many.age"), KEY_FRONT + 65552)
        write("damaged", fixture.changed(text, KEY_FRONT + 4 * 65552))
        status, out, said = self.at_terminal("salvage -v -k key damaged")
        zeros = bytes(65536)
        self.assertEqual((status, out), (1, MANY[:65536] + zeros + MANY[131072:262144] + zeros + MANY[327680:]))
        for lost in ("chunk 1 is lost: bytes 65536 to 131071", "chunk 4 is lost: bytes 262144 to 327679"):
            before, line, after = said.partition(f"{ERASE}agep: {lost} of the plaintext\n")
            self.assertTrue(line, said)
            said = before + after
        self.assert_drawn(said, FILE)

    def test_closed_output(self):
        """If standard output is closed, the terminal does not get the output."""
        last = fault(message("Write"), "writing standard output: Bad file descriptor")
        for words, name in (
            ("decrypt -v -k key", "key.age"), ("decrypt -v -k key key.age", "/dev/null"), ("encrypt -v -k key", "hello"),
            ("salvage -v -k key", "key.age"), ("decrypt -v -k key key.age <&-", "/dev/null"),
        ):
            with self.subTest(words), open(name, "rb") as file:
                ran = Terminal("bash", "-c", f'"$0" {words} >&-', AGEP, streams=["stderr"], stdin=file)
                self.assertEqual(ran.ended(), (1, last))

    def test_passphrase(self):
        """While scrypt runs, the line says so."""
        for line, out in (
            ("decrypt -v -p pass pass.age", HELLO), ("range -v -p pass 0 9 pass.age", HELLO), ("rewrap -v -p pass -K key -s seed pass.age", read("key.age")),
            ("encrypt -v -p pass -s seed -w 10 hello", read("pass.age")), ("rewrap -v -k key -P pass -s seed -w 10 key.age", read("pass.age")),
        ):
            with self.subTest(line):
                said = f"{ERASE}{CUT}agep: making a key from the passphrase{WRAP}{ERASE}"
                self.assertEqual(self.at_terminal(line), (0, out, said))

    def test_none(self):
        """Nothing is shown without -v, for a small file, or if standard error is not a terminal. With TERM=dumb the
        terminal gets no escape sequence."""
        for line, plain, term in ("decrypt -k key many.age", MANY, "xterm"), ("decrypt -v -k key key.age", HELLO, "xterm"), ("decrypt -v -k key many.age", MANY, "dumb"):
            with self.subTest(line):
                self.assertEqual(self.at_terminal(line, term=term), (0, plain, ""))
        self.writes(MANY, *"decrypt -v -k key many.age".split(), env={"LD_PRELOAD": preload("calls"), "CLOCK": "500"})
        write("damaged", fixture.changed(read("many.age"), KEY_FRONT + 65552))
        lost = fault("chunk 1 is lost: bytes 65536 to 131071 of the plaintext")
        expected = MANY[:65536] + bytes(65536) + MANY[131072:]
        self.assertEqual(self.at_terminal("salvage -v -k key damaged", term="dumb"), (1, expected, lost))
        for term in ("dum", "dumber", ""):
            with self.subTest(term):
                self.assertIn(ERASE, self.at_terminal("decrypt -v -k key many.age", term=term)[2])

    def test_out(self):
        """The line is shown if OUT is /dev/null or a new file; a terminal, by any name, gets only the plaintext."""
        os.symlink("/dev/tty", "link")
        for name, shows in (("/dev/tty", False), ("/dev/stderr", False), ("link", False), ("/dev/null", True), ("made", True)):
            with self.subTest(name):
                status, _, said = self.at_terminal(f"decrypt -v -k key -o {name}", read("many.age"))
                self.assertEqual(status, 0)
                if shows:
                    self.assertTrue(said.startswith(ERASE) and said.endswith(ERASE), said)
                else:
                    self.assertTrue(said == MANY.decode(), said[:100])
