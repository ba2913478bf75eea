"""An encrypted table through fsspec and Dask: each worker opens the chunks of its own blocks. The
variable AGEFILE_DASK_ROWS is the number of rows; 42,000,000 make a gigabyte."""

import os
import pickle
import shutil
import sys
import tempfile
import unittest
from unittest import mock

import agefile

sys.path.insert(0, os.path.join(os.path.dirname(os.path.abspath(__file__)), "../examples"))
try:
    import dask.distributed
    import dask_sum
    import fsspec
except ImportError as error:
    raise unittest.SkipTest(str(error)) from error

from agefile import _reader
from support import message

SECRET = agefile.Passphrase("correct horse", work=10)
ROWS = int(os.environ.get("AGEFILE_DASK_ROWS", 400_000))
SEALED, TEXT = 65552, 65536
# A block of 16 chunks.
BLOCK = 1 << 20


def failure_of(work):
    """The error of a task, as text."""
    try:
        work()
    except agefile.AgeError as error:
        return str(error)
    return None


class Logged:
    """A recipient and identity whose file key is in the file; `unwrap` logs each call."""

    def __init__(self, log):
        self.log = log

    def wrap(self, file_key):
        return [agefile.Stanza(("logged",), file_key)]

    def unwrap(self, stanzas):
        with open(self.log, "a", encoding="ascii") as file:
            file.write(f"{os.getpid()}\n")
        return stanzas[0].body


class Tables(unittest.TestCase):
    @classmethod
    def setUpClass(cls):
        folder = tempfile.TemporaryDirectory()
        cls.addClassCleanup(folder.cleanup)
        cls.name = os.path.join(folder.name, "table.csv.age")
        with agefile.open(cls.name, "wb", recipients=SECRET) as file:
            file.write(b"number,square\n")
            for begin in range(0, ROWS, 10000):
                rows = range(begin, min(begin + 10000, ROWS))
                file.write("".join(f"{number},{number * number}\n" for number in rows).encode())
        cls.options = {"identities": SECRET}
        cls.length = agefile.open(cls.name, identities=SECRET).length

    def test_an_opener(self):
        opener = fsspec.open(self.name, "rb")
        with agefile.open(opener, identities=SECRET) as file:
            self.assertEqual(file.read(14), b"number,square\n")
            with pickle.loads(pickle.dumps(file)) as again:
                self.assertEqual(again.read(4), b"0,0\n")

    def test_a_sum_on_two_processes(self):
        found = dask_sum.sums(self.name, SECRET, workers=2, blocksize=max(BLOCK, self.length // 64))
        self.assertEqual(int(found["number"]), ROWS * (ROWS - 1) // 2)
        # 64 bits, like the numbers in the table.
        square = (ROWS - 1) * ROWS * (2 * ROWS - 1) // 6
        self.assertEqual(int(found["square"]) % 2**64, square % 2**64)

    def test_one_block_reads_its_own_chunks(self):
        """A task reads the chunks of its block, the next ones to find the end of a line, and the
        last one of the file."""
        blocks = dask_sum.table(self.name, SECRET, BLOCK).to_delayed()
        offsets, read_at = [], _reader._Source.read_at

        def counting(source, offset, room):
            offsets.append(offset)
            return read_at(source, offset, room)

        with mock.patch.object(_reader._Source, "read_at", counting):
            blocks[3].compute(scheduler="synchronous")
        first = agefile.inspect(self.name).length + 16
        chunks = {(offset - first) // SEALED for offset in offsets}
        # From both ends of its block the task searches for the end of a line, in pieces of 64 KiB.
        own = set(range(3 * 16 - 1, 4 * 16 + 2))
        self.assertLessEqual(chunks, own | {(self.length - 1) // TEXT})
        self.assertGreaterEqual(chunks, set(range(3 * 16, 4 * 16)))

    def test_damage_in_one_block(self):
        """Damage fails only the task of its block, with the number of its chunk."""
        damaged = self.name + ".damaged.age"
        self.addCleanup(os.remove, damaged)
        shutil.copy(self.name, damaged)
        with open(damaged, "r+b") as file:
            at = agefile.inspect(damaged).length + 16 + 40 * SEALED
            os.pwrite(file.fileno(), bytes(byte ^ 1 for byte in os.pread(file.fileno(), 1, at)), at)
        blocks = dask_sum.table(damaged, SECRET, BLOCK).to_delayed()
        failures = {index: failure_of(lambda: block.compute(scheduler="synchronous")) for index, block in enumerate(blocks[:8])}
        # A block of 1 MiB has 16 chunks: chunk 40 is in block 2.
        said = f"{message('BadChunk', 40)}: {damaged!r}"
        self.assertEqual({index: text for index, text in failures.items() if text}, {2: said})
        with dask.distributed.LocalCluster(n_workers=2, threads_per_worker=1, dashboard_address=None) as cluster:
            with dask.distributed.Client(cluster) as client:
                tasks = client.compute(blocks[:8])
                failures = {index: failure_of(task.result) for index, task in enumerate(tasks)}
        self.assertEqual({index: text for index, text in failures.items() if text}, {2: said})

    def test_a_file_is_unlocked_once(self):
        """The worker processes read with the key that was found when the file was first opened."""
        log, name = self.name + ".log", self.name + ".logged.age"
        identity = Logged(log)
        self.addCleanup(os.remove, name), self.addCleanup(os.remove, log)
        with agefile.open(self.name, identities=SECRET) as source:
            agefile.copy(source, name, recipients=identity)
        found = dask_sum.sums(name, identity, workers=2, blocksize=max(BLOCK, self.length // 64))
        self.assertEqual(int(found["number"]), ROWS * (ROWS - 1) // 2)
        with open(log, encoding="ascii") as file:
            self.assertEqual(file.read(), f"{os.getpid()}\n")
