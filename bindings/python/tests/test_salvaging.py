"""salvage: small files of every kind compared with a model, failing reads, and its arguments. What
is saved after a failed read follows by arithmetic."""

import io
import os
import pickle
import threading
import types
import unittest

import agefile
from agefile import AgeError, Code, Key, LostChunks
from support import KEY, SEALED, TEXT, Device, InFolder, damaged, error_of, in_time, text

import fixture
import test_salvage
from salvaged import expected, runs

HEADER = test_salvage.HEADER
FRONT = agefile.inspect(agefile.encrypt(b"", recipients=KEY)).length + 16


def saved(source, **words):
    """The output and the report."""
    out = io.BytesIO()
    report = agefile.salvage(source, out, identities=words.pop("identities", KEY), **words)
    return out.getvalue(), report


class Model(test_salvage.Payloads):
    """The files of the program's test. A file is whole exactly if it can be decrypted."""

    def assert_saved(self, payload):
        key = Key(fixture.KEY)
        found, report = saved(io.BytesIO(HEADER + payload), identities=key)
        wanted, facts = expected(payload)
        self.assertTrue(found == wanted)
        self.assertEqual(report, facts)
        try:
            is_whole = agefile.decrypt(HEADER + payload, identities=key) == found
        except AgeError:
            is_whole = False
        self.assertEqual(report.whole, is_whole)

    # A test of the program only, which continues under a wrong MAC.
    test_changed_header = None

    def test_headers(self):
        """An error in the header is the same as in `copy`, and nothing is written."""
        file = agefile.encrypt(b"hello", recipients=KEY)
        cuts = [(f"cut at {at}", file[:at]) for at in range(FRONT)]
        for name, bad in cuts + [(f"byte {at}", fixture.changed(file, at)) for at in range(FRONT - 16)]:
            with self.subTest(name), self.assertRaises(AgeError) as right:
                agefile.copy(io.BytesIO(bad), io.BytesIO(), identities=KEY)
            out = io.BytesIO()
            with self.subTest(name), self.assertRaises(AgeError) as caught:
                agefile.salvage(io.BytesIO(bad), out, identities=KEY)
            facts = [(error.code, error.place, error.detail) for error in (right.exception, caught.exception)]
            self.assertEqual((facts[1], out.getvalue()), (facts[0], b""))


class FailedReads(unittest.TestCase):
    def setUp(self):
        self.plain = text(4 * TEXT + 1000)
        self.file = agefile.encrypt(self.plain, recipients=KEY)

    def without(self, *chunks):
        """The plaintext with zeros for these chunks."""
        pieces = [self.plain[at : at + TEXT] for at in range(0, len(self.plain), TEXT)]
        return b"".join(bytes(len(piece)) if i in chunks else piece for i, piece in enumerate(pieces))

    def assert_lost(self, source, chunks, *runs):
        """These chunks must be lost, in these runs: their numbers, and whether they could not be
        read."""
        found, report = saved(source)
        self.assertTrue(found == self.without(*chunks))
        ends = [min(run[0].stop * TEXT, len(self.plain)) for run in runs]
        wanted = tuple(LostChunks(run, run[0] * TEXT, end - run[0] * TEXT, unread) for (run, unread), end in zip(runs, ends))
        self.assertEqual(report, (len(self.plain), 5, wanted, None, 0, False, not chunks))

    def test_bad_blocks(self):
        """A bad block costs the chunks on it, wherever it is in them, and each chunk is tried
        once."""
        blocks = range(-(-FRONT // 512), -(-len(self.file) // 512))
        for block in [*blocks[:3], *blocks[::37], *(len(self.file) // 512 - 1, len(self.file) // 512)]:
            first, last = ((at - FRONT) // SEALED for at in (512 * block, min(512 * block + 511, len(self.file) - 1)))
            disks = [Device(self.file, bad=[block]), Device(self.file, bad=[block])]
            sources = [disks[0], io.BufferedReader(disks[1])]
            if 512 * block > 4096:
                disks.append(Device(self.file, bad=[block], ends_before=False, most=len(self.file)))
            for kind, disk, source in zip(("ends before", "buffered", "fails"), disks, sources + disks[2:]):
                with self.subTest(block=block, kind=kind):
                    chunks = range(first, last + 1)
                    self.assert_lost(source, chunks, (chunks, True))
                    # The end of the file may also be on it.
                    self.assertLessEqual(len(disk.failed), len(chunks) + 1)

    def test_many_bad_blocks(self):
        """Several in one chunk, in adjacent and in separate chunks, all from some block on, and all
        except the first ones."""
        def block(chunk, at):
            return (FRONT + chunk * SEALED + at) // 512

        end = -(-len(self.file) // 512)
        for name, bad, chunks in (
            ("in one chunk", [block(1, 600), block(1, 9000), block(1, 60000)], [1]),
            ("in a row", [block(1, 9000), block(2, 9000)], [1, 2]),
            ("apart", [block(0, 9000), block(3, 9000)], [0, 3]),
            ("the last", [block(4, 600)], [4]),
            ("the end", range(block(2, 9000), end), [2, 3, 4]),
            ("all after the header", range(8, end), [0, 1, 2, 3, 4]),
        ):
            with self.subTest(name):
                rows = [(run, True) for run in runs(chunks)]
                in_time(lambda: self.assert_lost(Device(self.file, bad=bad), chunks, *rows))

    def test_damage_beside_it(self):
        """Damaged chunks and chunks that could not be read are different runs."""
        disk = Device(damaged(self.file, 1, 2), bad=[(FRONT + 3 * SEALED) // 512 + 9])
        self.assert_lost(disk, [1, 2, 3], (range(1, 3), False), (range(3, 4), True))

    def test_position(self):
        """A file object is read from its position on."""
        before = bytes(1000)
        disk = Device(before + self.file, bad=[(1000 + FRONT + SEALED) // 512 + 9])
        disk.seek(1000)
        self.assert_lost(disk, [1], (range(1, 2), True))

    def test_no_seek(self):
        """If the source cannot seek, a failed read ends salvaging: what came before it is written,
        and the error is raised."""
        bad = [(FRONT + 2 * SEALED) // 512 + 9]
        for disk in (Device(self.file, bad=bad, can_seek=False), types.SimpleNamespace(read=Device(self.file, bad=bad).read)):
            out = io.BytesIO()
            self.assertRaisesRegex(OSError, "Input/output error", agefile.salvage, disk, out, identities=KEY)
            self.assertTrue(out.getvalue() == self.plain[: 2 * TEXT])

    def test_no_end(self):
        """The error is raised if `seek` finds the end before the failed read, as in files of unknown
        length."""
        disk = Device(self.file, bad=[(FRONT + 2 * SEALED) // 512 + 9])
        seek = disk.seek
        disk.seek = lambda at, whence=0: FRONT if whence == os.SEEK_END else seek(at, whence)
        self.assertRaisesRegex(OSError, "Input/output error", saved, disk)


class Arguments(InFolder):
    def test_files(self):
        """Paths, descriptors and file objects, with a plaintext that only its owner can read."""
        plain = text(2 * TEXT + 5)
        name, right = self.put(damaged(agefile.encrypt(plain, recipients=KEY), 1)), plain[:TEXT] + bytes(TEXT) + plain[-5:]
        agefile.salvage(name, "out", identities=[Key(bytes(32)), KEY])
        self.assertEqual((self.got("out"), os.stat("out").st_mode & 0o777), (right, 0o600))
        for by in (lambda file: file, lambda file: file.fileno()):
            with open(name, "rb") as source, open("other", "wb") as sink:
                agefile.salvage(by(source), by(sink), identities=KEY)
            self.assertTrue(self.got("other") == right)
        with open(name, "r+b") as both:
            self.assertRaisesRegex(ValueError, "is the source", agefile.salvage, name, both, identities=KEY)
        self.assertRaisesRegex(TypeError, "text file", agefile.salvage, name, io.StringIO(), identities=KEY)

    def test_pipe(self):
        """A pipe is read to its end, which may come in the middle of a chunk."""
        file = agefile.encrypt(text(2 * TEXT), recipients=KEY)
        reading, writing = os.pipe()
        with os.fdopen(reading, "rb") as source, os.fdopen(writing, "wb") as sink:
            thread = threading.Thread(target=lambda: (sink.write(file[:-1]), sink.close()))
            thread.start()
            found, report = saved(source)
            thread.join()
        self.assertTrue(found == text(2 * TEXT)[:TEXT] + bytes(TEXT - 1))
        self.assertEqual(report.lost, (LostChunks(range(1, 2), TEXT, TEXT - 1, False),))

    def test_old_file(self):
        """After a wrong key, an old file at the sink's path stays. With `atomic` it stays after a
        failed read, too."""
        name = self.made(text(2 * TEXT))
        for words in ({"identities": Key(bytes(32))}, {"identities": Key(bytes(32)), "atomic": True}):
            self.put(b"old", "out")
            error = error_of(lambda: agefile.salvage(name, "out", **words))
            self.assertEqual((error.code, error.filename, self.got("out")), (Code.WRONG_KEY, name, b"old"))
        disk = Device(self.got(name), bad=[(FRONT + SEALED) // 512 + 9], can_seek=False)
        self.assertRaises(OSError, agefile.salvage, disk, "out", identities=KEY, atomic=True)
        self.assertEqual((self.got("out"), sorted(os.listdir())), (b"old", ["a.age", "out"]))
        self.assertRaisesRegex(TypeError, "atomic takes a path", agefile.salvage, name, io.BytesIO(), identities=KEY, atomic=True)

    def test_progress(self):
        """`progress` gets the number of bytes read, skipped ones included, and the total. Its own
        exception does not count as a failed read."""
        name, told = self.made(text(4 * TEXT)), []
        size = os.stat(name).st_size
        agefile.salvage(name, io.BytesIO(), identities=KEY, progress=lambda *numbers: told.append(numbers))
        self.assertEqual((told[-1], sorted(told)), ((size, size), told))
        told.clear()
        disk = Device(self.got(name), bad=[(FRONT + SEALED) // 512 + 9])
        agefile.salvage(disk, io.BytesIO(), identities=KEY, progress=lambda *numbers: told.append(numbers))
        self.assertEqual(told[-1], (size, None))

        def fails(done, of):
            if done > TEXT:
                raise BrokenPipeError("of the progress")

        self.assertRaisesRegex(BrokenPipeError, "of the progress", agefile.salvage, name, io.BytesIO(), identities=KEY, progress=fails)

    def test_report(self):
        """A report shows its fields by name, and can be pickled and compared."""
        _, report = saved(io.BytesIO(damaged(agefile.encrypt(text(TEXT + 1), recipients=KEY), 0)))
        self.assertEqual(repr(report), "Salvaged(length=65537, chunks=2, "
                         "lost=(LostChunks(chunks=range(0, 1), offset=0, length=65536, unread=False),), early=None, trailing=0, cut=False, whole=False)")
        self.assertEqual(pickle.loads(pickle.dumps(report)), report)
