"""Damaged and cut files, read in every way: a call that needs a damaged or missing chunk raises its
error, and the other chunks of an open file stay readable."""

import functools
import io
import itertools
import os
import pickle
import random
import shutil
import unittest
from unittest import mock

import agefile
from agefile import AgeError, Code
from support import KEY, SEALED, TEXT, InFolder, damaged, error_of, fault_of, text

# Five chunks, the last of which is not full.
LENGTH = 4 * TEXT + 1000


def until_empty(read):
    return b"".join(iter(read, b""))


def into_room(call):
    """What a call writes into a buffer as long as the plaintext."""
    room = bytearray(LENGTH)
    return room[: call(room)]


def in_pieces(read_into):
    room = bytearray(1000)
    return until_empty(lambda: bytes(room[: read_into(room)]))


def copied(file):
    out = io.BytesIO()
    shutil.copyfileobj(file, out)
    return out.getvalue()


def as_text(file):
    return io.TextIOWrapper(file, "latin-1", newline="")


def words():
    return b"".join(b"%d,%s\n" % (number, text(16)[:5].hex().encode()) for number in range(30000))[:LENGTH]


# Ways to read a whole file, as functions of an open file. `Positions` has single calls.
WAYS = {
    "read": lambda file: file.read(),
    "readlines": lambda file: b"".join(file.readlines()),
    "iteration": lambda file: b"".join(file),
    "copyfileobj": copied,
    "readinto1": lambda file: in_pieces(file.readinto1),
    "peek": lambda file: until_empty(lambda: file.read(len(file.peek()))),
    "BufferedReader, read": lambda file: io.BufferedReader(file).read(),
    "BufferedReader, read(1000)": lambda file: until_empty(functools.partial(io.BufferedReader(file).read, 1000)),
    "text, read": lambda file: as_text(file).read().encode("latin-1"),
    "text, iteration": lambda file: "".join(as_text(file)).encode("latin-1"),
    "raw.readall": lambda file: file.raw.readall(),
    "raw.read(1000)": lambda file: until_empty(lambda: file.raw.read(1000)),
    "raw.readinto": lambda file: in_pieces(file.raw.readinto),
    "BufferedReader over raw": lambda file: io.BufferedReader(file.raw).read(),
}


class Ways(unittest.TestCase):
    def test_each_way(self):
        """Each reads a whole file, or raises a bad chunk's error. Of a bad end `open` raises it."""
        plain = words()
        file = agefile.encrypt(plain, recipients=KEY)
        end = agefile.inspect(file).length + 16 + 2 * SEALED
        harms = [(damaged(file, chunk), chunk) for chunk in range(5)] + [(file[:end], 1), (file[: end + 300], 2)]
        for name, read in WAYS.items():
            with agefile.open(io.BytesIO(file), identities=KEY) as whole:
                self.assertEqual(read(whole) == plain, True, name)
            for harm, chunk in harms:
                with self.subTest(f"{name}: {chunk}"):
                    self.assertEqual(fault_of(lambda: read(agefile.open(io.BytesIO(harm), identities=KEY))), (Code.BAD_CHUNK, chunk))

    def test_text_mode(self):
        for chunk in range(4):
            source = io.BytesIO(damaged(agefile.encrypt(words(), recipients=KEY), chunk))
            with agefile.open(source, "r", identities=KEY) as file:
                for _ in range(2):
                    self.assertEqual(error_of(file.read).place, chunk)


class Positions(unittest.TestCase):
    PLAIN = b"".join(b"%d\n" % number for number in range(100000))
    BAD = (2, 3, 6)

    @classmethod
    def setUpClass(cls):
        cls.file = damaged(agefile.encrypt(cls.PLAIN, recipients=KEY), *cls.BAD)

    def needed(self, kind, at, size):
        """The end of the bytes that a call at this position returns from an undamaged file."""
        most = len(self.PLAIN) if size in (-1, None) else min(at + size, len(self.PLAIN))
        if kind in ("readline", "next"):
            most = min(self.PLAIN.find(b"\n", at) + 1 or most, most)
        return max(most, at)

    def bad_in(self, begin, end):
        return next((bad for bad in self.BAD if begin < end and bad * TEXT < end and begin < (bad + 1) * TEXT), None)

    def call(self, file, kind, size):
        if kind.startswith("readinto"):
            room = bytearray(size)
            return bytes(room[: getattr(file, kind)(room)])
        return next(file, b"") if kind == "next" else getattr(file, kind)(size)

    def test_calls_in_random_order(self):
        """A call that needs a bad chunk raises its error and keeps the position. If the result may be short, only the
        first byte is needed. `raw` shares the chunks and has a position of its own."""
        choose, whole = random.Random(48), agefile.open(io.BytesIO(self.file), identities=KEY)
        places, raised = {whole: 0, whole.raw: 0}, 0
        for number in range(6000):
            kind = choose.choice(("read", "readline", "readinto", "next", "peek", "read1", "readinto1", "raw.read", "raw.readinto"))
            file, call = (whole.raw if kind.startswith("raw.") else whole), kind.removeprefix("raw.")
            at = max(choose.choice((places[file], choose.randrange(len(self.PLAIN) + 9), choose.randrange(9) * TEXT + choose.randrange(-9, 9))), 0)
            size = choose.choice((0, 1, 5, 9, 1000, 65535, 65536, 65537, 200000) + ((-1, None) if kind in ("read", "readline") else ()))
            size = -1 if kind == "next" else size
            with self.subTest(f"call {number}: {kind}({size}) at {at}"):
                self.assertEqual(file.tell(), places[file])
                if at != places[file]:
                    self.assertEqual(file.seek(at), at)
                raised += self.check(file, call, size, at, file is whole.raw or kind in ("peek", "read1", "readinto1"))
            places[file] = file.tell()
        self.assertGreater(raised, 1000)

    def check(self, file, kind, size, at, is_short):
        if is_short:
            # These may choose how much they return; for peek, size is a hint.
            end = at + (at < len(self.PLAIN) and (kind == "peek" or size > 0))
        else:
            end = self.needed(kind, at, size)
        bad = self.bad_in(at, end)
        if bad is None:
            found = self.call(file, kind, size)
            if is_short:
                self.assertTrue((found or end == at) and (kind == "peek" or len(found) <= size))
                end = at + len(found)
            self.assertEqual(found, self.PLAIN[at:end])
            self.assertEqual(file.tell(), at if kind == "peek" else end)
            return False
        for _ in range(2):
            self.assertEqual(fault_of(lambda: self.call(file, kind, size)), (Code.BAD_CHUNK, bad))
            self.assertEqual(file.tell(), at)
        return True

    def test_readlines(self):
        file = agefile.open(io.BytesIO(self.file), identities=KEY)
        file.seek(7)
        for hint in (-1, None, 1 << 30):
            self.assertRaises(AgeError, file.readlines, hint)
            self.assertEqual(file.tell(), 7)
        self.assertEqual(b"".join(file.readlines(1000)), self.PLAIN[7 : self.PLAIN.index(b"\n", 1006) + 1])

    def test_an_error_between_two_chunks(self):
        """Each call raises such an error, perhaps of a signal handler: a short result would be
        taken for the end of the plaintext."""
        file = agefile.encrypt(words(), recipients=KEY)
        for name, read in (
            ("read", lambda file: file.read(LENGTH)),
            ("read all", lambda file: file.read()),
            ("readinto", lambda file: into_room(file.readinto)),
            ("read1", lambda file: file.read1(LENGTH)),
            ("raw.readinto", lambda file: into_room(file.raw.readinto)),
        ):
            with self.subTest(name), agefile.open(io.BytesIO(file), identities=KEY) as whole:
                chunks = whole.raw.chunks
                piece, calls = chunks._piece, itertools.count()

                def interrupted(at):
                    if next(calls) == 1:
                        raise TimeoutError
                    return piece(at)

                with mock.patch.object(chunks, "_piece", interrupted):
                    self.assertRaises(TimeoutError, read, whole)
                self.assertEqual((whole.tell(), whole.read()), (0, words()))

    def test_no_error_is_kept(self):
        """A kept exception would keep the frames of its traceback, and a later read would raise
        it."""
        with agefile.open(io.BytesIO(damaged(agefile.encrypt(words(), recipients=KEY), 1)), identities=KEY) as file:
            self.assertEqual(file.raw.readinto(bytearray(LENGTH)), TEXT)
            self.assertEqual(file.raw.chunks.errors, {})
            self.assertRaises(AgeError, file.read)
            self.assertEqual(file.raw.chunks.errors, {})


class EachChunk(unittest.TestCase):
    """A file of 50 chunks, damaged in each, cut after each, or cut in the last one."""

    def test_whole_and_streamed(self):
        plain = text(49 * TEXT + 77)
        whole = agefile.encrypt(plain, recipients=KEY)
        first = agefile.inspect(whole).length + 16
        for chunk in range(50):
            for file, threads in itertools.product((damaged(whole, chunk), whole[:-1][: first + (chunk + 1) * SEALED]), (1, 2, 4)):
                with self.subTest(f"{len(file)} bytes, chunk {chunk}, {threads} threads"), mock.patch("os.cpu_count", return_value=4):
                    self.assertEqual(fault_of(lambda: agefile.decrypt(file, identities=KEY, threads=threads)), (Code.BAD_CHUNK, chunk))
                    out = io.BytesIO()
                    self.assertEqual(fault_of(lambda: agefile.copy(io.BytesIO(file), out, identities=KEY, threads=threads)), (Code.BAD_CHUNK, chunk))
                    self.assertEqual(out.getvalue() == plain[: chunk * TEXT], True)


class Below(InFolder):
    """The file below changes, or its system calls return less than requested."""

    def test_cut_while_open(self):
        """Missing chunks are reported, even after a chunk that still exists."""
        plain = text(500000)
        with agefile.open(self.made(plain), identities=KEY) as file:
            os.truncate("a.age", 300000)
            for at in (300000, 400000, 499999):
                file.seek(0)
                self.assertEqual(file.read(TEXT), plain[:TEXT])
                file.seek(at)
                self.assertEqual(fault_of(lambda: file.read(1), agefile.AgeChangedError), (Code.CHUNK_SHORT, at // TEXT))
                file.seek(4 * TEXT - 10)
                self.assertEqual(file.read(10), plain[4 * TEXT - 10 : 4 * TEXT])

    def test_grown_while_open(self):
        plain = text(200000)
        with agefile.open(self.made(plain), identities=KEY) as file:
            with open("a.age", "ab") as more:
                more.write(bytes(100000))
            self.assertEqual(file.read(), plain)
            pickled = pickle.dumps(file)
        self.assertIn("has grown", str(error_of(pickle.loads(pickled).read, agefile.AgeChangedError)))
        self.assertEqual(self.refused("a.age"), Code.BAD_CHUNK)

    def test_short_preadv(self):
        plain, preadv = text(200000), os.preadv
        for most in (1, 1000, 65551):
            short = lambda file, rooms, offset: preadv(file, [memoryview(rooms[0])[:most]], offset)
            with self.subTest(most), mock.patch("os.preadv", short):
                with agefile.open(self.made(plain), identities=KEY) as file:
                    self.assertEqual(file.read() if most > 1 else file.read(10), plain if most > 1 else plain[:10])
