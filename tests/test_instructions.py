"""The instructions for a chunk and for scrypt, as valgrind counts them, so that a slower path to the same
bytes fails. Without valgrind, nothing is counted."""

import re
import shutil
import subprocess
import unittest

import fixture
from fixture import KEY
from program import AGEP, ProgramCase, read, write

# The limit for a chunk, by the level for which the program was built; valgrind lacks x86-64-v4. Each
# limit is a tenth above the count; another toolchain may change the count.
CHUNK = {"x86-64-v2": 1_040_000, "x86-64-v3": 348_000}
# The size of a keyed file's header with the nonce after it.
FRONT = 172
# The limit for each KiB of scrypt's memory.
KIB = {"x86-64-v2": 12_700, "x86-64-v3": 10_200}


def counted(*words, status=0):
    """The number of instructions of a run."""
    tool = ["valgrind", "--tool=callgrind", "--callgrind-out-file=/dev/null"]
    done = subprocess.run([*tool, AGEP, *words], stdin=subprocess.DEVNULL, stdout=subprocess.DEVNULL, stderr=subprocess.PIPE)
    if done.returncode != status:
        raise AssertionError(done.stderr.decode())
    return int(re.search(rb"Collected : (\d+)", done.stderr)[1])


@unittest.skipUnless(shutil.which("valgrind"), "valgrind is missing")
class Instructions(ProgramCase):
    def setUp(self):
        super().setUp()
        self.level = read(AGEP[: -len("agep")] + "built").split(b"\n")[0].decode()
        if self.level not in KIB:
            self.skipTest(f"valgrind cannot run the build for {self.level}")

    def test_chunk(self):
        """The cost of the second of two full chunks."""
        for name, chunks in (("one", 1), ("two", 2)):
            write(name, bytes(65536 * chunks))
            self.writes(b"", "encrypt", "-k", "key", "-s", "seed", "-o", name + ".age", name)
        for words in ("encrypt -k key -s seed -o made %s", "decrypt -k key -o back %s.age"):
            with self.subTest(words):
                one, two = (counted(*(words % name).split()) for name in ("one", "two"))
                self.assertLessEqual(two - one, CHUNK[self.level])
                self.assertGreater(two - one, 65536)

    def test_short_text(self):
        """400 bytes go through the lanes: they cost less than 128 bytes, two single blocks, and
        three more blocks at the cost of the second."""
        counts = []
        for size in (64, 128, 400):
            write("short", bytes(size))
            write("short.age", fixture.for_keys(bytes(size), KEY))
            counts.append([counted(*words.split()) for words in ("encrypt -k key -s seed short", "decrypt -k key short.age")])
        for one, two, many in zip(*counts):
            self.assertLess(many - two, 3 * (two - one))

    def test_lost_chunk(self):
        """A lost chunk that is not the last is tried with both flags. decrypt shows the cost of one attempt; writing zeros costs
        less than one attempt."""
        counts = []
        for size, command in ((1, "decrypt"), (65536, "decrypt"), (65536, "salvage"), (131072, "salvage")):
            file = fixture.for_keys(bytes(size), KEY)
            write("lost.age", file[:FRONT] + bytes(len(file) - FRONT))
            counts.append(counted(command, "-k", "key", "lost.age", status=1))
        short, full, one, two = counts
        self.assertLess(two - one, 3 * (full - short))
        self.assertGreater(two - one, full - short)

    def test_scrypt(self):
        """The cost of work factor 10 above that of 9, for 512 KiB."""
        write("hello", b"hello\n")
        for words in ("encrypt -p pass -w {0} -s seed -o made.{0} hello", "decrypt -p pass -o back made.{0}"):
            with self.subTest(words):
                nine, ten = (counted(*words.format(work).split()) for work in (9, 10))
                self.assertLessEqual(ten - nine, 512 * KIB[self.level])
                self.assertGreater(ten - nine, 512 * 1024)
