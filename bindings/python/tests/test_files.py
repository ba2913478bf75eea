"""Open files: among others ranges, lines, pickles, closing, threads, forks, and what may be opened."""

import contextlib
import csv
import functools
import gc
import gzip
import io
import multiprocessing
import os
import pathlib
import pickle
import random
import re
import shutil
import subprocess
import tempfile
import threading
import time
import traceback
import unittest
import warnings
from unittest import mock

import agefile
from agefile import AgeError, Code, Key, Passphrase, _library
from support import KEY, InFolder, damaged, error_of, in_threads, in_time, message, text


class PathThatWrites:
    """A path with a method `write`, like those of the package py."""

    def __fspath__(self):
        return "path.age"

    def write(self, data):
        raise AssertionError("a path is not an open file")


class FileWithPath(io.FileIO):
    """An open file that is also a path, like the local ones of fsspec."""

    def __fspath__(self):
        raise AssertionError("an open file is not opened by its path")


class Reading(InFolder):
    def test_ranges(self):
        plain = text(300000)
        with agefile.open(self.made(plain), identities=KEY) as file:
            self.assertEqual(file.length, len(plain))
            for at in (0, 1, 65535, 65536, 131072, 299999, 300000, 400000):
                for length in (0, 1, 100, 65536, 65537, 200000, 500000):
                    self.assertEqual(file.seek(at), at)
                    self.assertEqual(file.read(length), plain[at : at + length])
                    self.assertEqual(file.tell(), min(max(at, 300000), at + len(plain[at : at + length])) if at > 300000 else at + len(plain[at : at + length]))
            self.assertEqual(file.seek(-5, os.SEEK_END), 299995)
            self.assertEqual(file.read(), plain[-5:])
            file.seek(10)
            self.assertEqual(file.seek(5, os.SEEK_CUR), 15)

    def test_lines(self):
        rows = [[str(number), "ä" * (number % 70)] for number in range(5000)]
        with agefile.open("t.age", "w", recipients=KEY, newline="") as file:
            csv.writer(file).writerows(rows)
        with agefile.open("t.age", "r", identities=KEY, newline="") as file:
            self.assertEqual(list(csv.reader(file)), rows)
        plain = io.StringIO(newline="")
        csv.writer(plain).writerows(rows)
        with agefile.open("t.age", "rb", identities=KEY) as file:
            self.assertEqual(b"".join(file), plain.getvalue().encode())

    def test_a_header_is_parsed_once(self):
        self.made(b"text")
        for name, call in (
            ("open", lambda: self.read("a.age", identities=[KEY])), ("decrypt", lambda: agefile.decrypt(self.got("a.age"), identities=KEY)),
            ("copy", lambda: agefile.copy("a.age", io.BytesIO(), identities=[KEY])),
        ):
            with self.subTest(name), mock.patch.object(_library, "call", wraps=_library.call) as calls:
                call()
                self.assertEqual([each.args[0] for each in calls.mock_calls].count("inspect"), 1)

    def test_a_pipe(self):
        """It cannot be opened, and the error says what reads it."""
        for make in (lambda pipe: pipe, lambda pipe: open(pipe, "rb"), lambda pipe: open(pipe, "rb", 0)):
            read, write = os.pipe()
            self.addCleanup(os.close, write)
            file = make(read)
            self.assertRaisesRegex(io.UnsupportedOperation, "agefile.copy", agefile.open, file, identities=KEY)

    def test_errors_name_their_file(self):
        """The text of an error and its `filename` name the file."""
        plain = text(300000)
        self.put(damaged(self.got(self.made(plain)), 2))
        self.assertEqual(str(error_of(lambda: self.read("a.age"))), f"{message('BadChunk', 2)}: 'a.age'")
        secret, path = Key(bytes(32)), pathlib.Path("a.age")
        for name, code, call in (
            ("a.age", Code.BAD_CHUNK, lambda: agefile.open("a.age", "r", identities=KEY, encoding="latin-1").read()),
            ("a.age", Code.BAD_CHUNK, lambda: agefile.copy(path, io.BytesIO(), identities=KEY)),
            ("a.age", Code.BAD_CHUNK, lambda: agefile.copy(open("a.age", "rb"), io.BytesIO(), identities=KEY, threads=2)),
            (b"a.age", Code.WRONG_KEY, lambda: agefile.open(b"a.age", identities=secret)),
            ("a.age", Code.WRONG_KEY, lambda: agefile.open(open("a.age", "rb"), identities=secret)),
            ("a.age", Code.WRONG_KEY, lambda: agefile.rewrap_copy("a.age", io.BytesIO(), identities=secret, recipients=KEY)),
            ("empty", Code.HEADER_TRUNCATED, lambda: agefile.inspect(self.put(b"age-encryption.org/v1\n", "empty"))),
            (None, Code.WRONG_KEY, lambda: agefile.decrypt(self.got("a.age"), identities=secret)),
            (None, Code.WRONG_KEY, lambda: agefile.open(io.BytesIO(self.got("a.age")), identities=secret)),
        ):
            error = error_of(call)
            self.assertEqual((error.filename, error.code), (name, code))
            for other in (error, pickle.loads(pickle.dumps(error))):
                self.assertEqual(str(other).endswith(f": {name!r}"), name is not None)
        with agefile.open(self.made(plain), identities=KEY) as file:
            os.truncate("a.age", 200000)
            error = error_of(file.read, agefile.AgeChangedError)
        self.assertEqual(str(error), f"the file was cut while it was open: {message('ChunkShort', 3)}: 'a.age'")

    def test_words_that_are_refused(self):
        name = self.made(b"text")
        for mode in ("", "a", "rw", "r+", "rbt", "bb", "rr"):
            self.assertRaises(ValueError, agefile.open, name, mode, identities=KEY)
        self.assertRaises(TypeError, agefile.open, name, "rb")
        self.assertRaises(TypeError, agefile.open, name, "rb", recipients=KEY)
        self.assertRaises(TypeError, agefile.open, name, "wb", identities=KEY)
        self.assertRaises(ValueError, agefile.open, name, "rb", identities=KEY, encoding="utf-8")
        self.assertRaises(FileNotFoundError, agefile.open, "absent", identities=KEY)
        with agefile.open(name, identities=KEY) as file:
            self.assertRaises(ValueError, file.seek, 0, 7)
            self.assertRaises(ValueError, file.raw.seek, 0, 7)
            self.assertRaises(ValueError, file.seek, -1)
            self.assertRaises(io.UnsupportedOperation, file.write, b"")
        for call in (file.read, file.tell, lambda: file.seek(0), file.readable, lambda: file.peek(1), lambda: file.raw.read(1)):
            self.assertRaises(ValueError, call)

    def test_pickles(self):
        plain = text(300000)
        secret = Passphrase("x", work=2)
        self.written(plain, "p.age", recipients=secret)
        for opener in (functools.partial(open, "p.age", "rb"), "p.age"):
            with agefile.open(opener, identities=secret) as file:
                file.seek(70000)
                pickled = pickle.dumps(file)
            self.assertNotIn(b"Passphrase", pickled)
            with pickle.loads(pickled) as again:
                self.assertEqual(again.read(), plain[70000:])
        with open("p.age", "rb") as below, agefile.open(below, identities=secret) as file:
            self.assertRaises(TypeError, pickle.dumps, file)
        again = pickle.loads(pickled)
        self.assertFalse(hasattr(again, "other"))
        self.assertEqual((again.name, in_threads(lambda: again.read(1)) and again.tell(), pickle.loads(pickle.dumps(again)).tell()), ("p.age", 70004, 70004))
        self.made(plain, "p.age")
        again = pickle.loads(pickled)
        for _ in range(2):
            self.assertRaises(AgeError, again.read)
        again.close()
        self.assertRaisesRegex(ValueError, "closed file", again.read)

    def test_pools(self):
        """A worker opens the file in the call, which raises the error, because a Pool waits for ever for a task that it cannot unpickle."""
        with multiprocessing.get_context("fork").Pool(1) as pool, agefile.open(self.made(text(200000)), identities=KEY) as file:
            self.assertEqual(in_time(lambda: pool.apply(file.read)), text(200000))
            os.rename("a.age", "old.age")
            self.assertIsInstance(in_time(lambda: pool.apply(file.read)), FileNotFoundError)
            self.put(self.got("old.age")[:-1])
            self.assertIsInstance(in_time(lambda: pool.apply(file.read)), agefile.AgeChangedError)

    def test_a_thread_that_closes(self):
        """A read beside it finds the file closed, and not another file at its descriptor."""
        self.made(text(300000))
        for read in (lambda file: file.read(1000), lambda file: file.readline()):
            for _ in range(50):
                file = agefile.open("a.age", identities=KEY)
                thread = threading.Thread(target=lambda: found.append(error_of(lambda: [read(file) or file.seek(0) for _ in range(10**6)], Exception)))
                found = []
                thread.start()
                file.close()
                thread.join()
                self.assertIs(type(found[0]), ValueError, found)

    def test_each_chunk_is_read_once(self):
        """Short reads and lines are served from a buffer of one chunk."""
        plain, offsets = b"some text\n" * 30000, []
        for read in (lambda file: file.read(1000), lambda file: file.readline(), lambda file: file.read1(100)):
            with agefile.open(self.made(plain), identities=KEY) as file:
                source = file.raw.chunks.source
                read_at = source.read_at
                source.read_at = lambda offset, room: offsets.append(offset) or read_at(offset, room)
                while read(file):
                    pass
            self.assertEqual(len(offsets), 5)
            offsets.clear()

    def test_no_descriptor_is_left(self):
        """Files that nobody closed get closed, even those that were refused."""
        name, before = self.made(b"text\n" * 1000), os.listdir("/proc/self/fd")
        with warnings.catch_warnings():
            warnings.simplefilter("ignore", ResourceWarning)
            for _ in range(20):
                self.assertRaises(AgeError, agefile.open, name, identities=Key(bytes(32)))
                for mode in ("rb", "r"):
                    file = agefile.open(name, mode, identities=KEY)
                    file.readline()
                    file.itself = file
                del file
            gc.collect()
        self.assertEqual(os.listdir("/proc/self/fd"), before)

    def test_views_of_a_traceback(self):
        """The frames of a traceback keep no view of memory that no object owns."""

        class Broken(io.FileIO):
            breaks = False

            def readinto(self, room):
                if self.breaks:
                    raise RuntimeError
                return super().readinto(room)

        name = self.made(text(300000))
        with open(name, "r+b") as file:
            file.seek(200000)
            file.write(b"damage")
        for size, breaks in ((10, False), (200000, False), (-1, False), (10, True), (200000, True), (-1, True)):
            below = Broken(name)
            file = agefile.open(below, identities=KEY)
            below.breaks = breaks
            try:
                while file.read(size):
                    pass
            except (AgeError, RuntimeError) as error:
                kept = error
            self.assertIs(type(kept), RuntimeError if breaks else AgeError)
            with below:
                del file
            gc.collect()
            frames = [frame for frame, _ in traceback.walk_tb(kept.__traceback__)]
            self.assertGreater(len(frames), 3)
            for view in (value for frame in frames for value in frame.f_locals.values() if isinstance(value, memoryview)):
                with contextlib.suppress(ValueError):
                    self.assertIsNotNone(view.obj)

    def test_threads_on_one_file(self):
        """Each piece goes to one of the threads."""
        plain = text(1000000)
        with agefile.open(self.made(plain), identities=KEY) as file:
            found = in_threads(lambda: [file.read(10000) for _ in range(50)])
        pieces = [plain[at : at + 10000] for at in range(0, len(plain), 10000)]
        self.assertEqual(sorted(sum(found, [])), sorted(pieces + [b""] * 100))

    def test_a_thread_on_the_raw_file(self):
        """The file and its `raw` share one chunk buffer; neither mistakes the other's chunk for its
        own."""
        plain = text(300000)
        with agefile.open(self.made(plain), identities=KEY) as file:
            read = file.raw.chunks._read

            def slow_read(number):
                length = read(number)
                time.sleep(0.002)
                return length

            def by_file():
                for at in range(0, 250000, 5000):
                    file.seek(at)
                    self.assertEqual(file.read(100) == plain[at : at + 100], True)

            def by_raw():
                for at in range(250000, 0, -5000):
                    file.raw.seek(at)
                    found = file.raw.read(100)
                    self.assertEqual((plain.startswith(found, at), len(found) > 0), (True, True))

            works = iter((by_file, by_raw))
            with mock.patch.object(file.raw.chunks, "_read", slow_read):
                in_threads(lambda: next(works)(), 2)

    def test_lines_beside_a_bad_chunk(self):
        """A thread that reads lines gets its own errors, and not those of another thread."""
        lines = [b"%0999d\n" % number for number in range(300)]
        self.put(damaged(agefile.encrypt(b"".join(lines), recipients=KEY), 3))
        with agefile.open("a.age", identities=KEY) as file:
            before = b"".join(lines)[: 3 * 65536].count(b"\n")

            def read_lines():
                for _ in range(20):
                    with agefile.open("a.age", identities=KEY) as other:
                        found = []
                        self.assertRaises(AgeError, found.extend, iter(other.__next__, None))
                        self.assertRaises(AgeError, list, other)
                        self.assertEqual((other.tell(), other.raw.chunks.errors), (1000 * before, {}))

            def read_on():
                for _ in range(200):
                    file.seek(3 * 65536 - 10)
                    self.assertRaises(AgeError, file.read, 20)

            works = iter((read_lines, read_on))
            in_threads(lambda: next(works)(), 2)
            # The line that the bad chunk cuts is never returned in part, nor taken for the end.
            for is_iterator in (True, False):
                file.seek(0)
                found, it = [], iter(file) if is_iterator else file
                for _ in range(3):
                    with self.assertRaises(AgeError):
                        while True:
                            found.append(next(it))
                            # An error that another thread's read raised in the meantime.
                            file.raw.chunks.errors[0] = AgeError(Code.BAD_CHUNK)
                self.assertEqual((found, file.tell()), (lines[:before], 1000 * before))
        self.assertRaises(ValueError, iter, file)

    def test_a_bad_chunk_beside_a_thread_that_seeks(self):
        """The other thread seeks to the end. The short result before the chunk is still an
        error."""
        self.put(damaged(self.got(self.made(text(200000))), 1))
        with agefile.open("a.age", identities=KEY) as file:
            buffer = file._buffer
            thread = threading.Thread(target=file.seek, args=(0, os.SEEK_END))

            def read(size):
                found = buffer.read(size)
                thread.start()
                thread.join(0.5)
                return found

            file._buffer = mock.Mock(wraps=buffer, read=read)
            self.assertRaisesRegex(AgeError, message("BadChunk", 1), file.read, 100000)
            thread.join()
            self.assertEqual(file.tell(), 200000)

    def test_descriptors_that_forked_readers_share(self):
        """A file object of the system is read at offsets, so its position does not matter."""
        plain = text(2000000)
        self.made(plain)
        for kind, opened in (
            ("BufferedReader", lambda: open("a.age", "rb")),
            ("BufferedRandom", lambda: open("a.age", "r+b")),
            ("FileIO", lambda: open("a.age", "rb", 0)),
            ("TemporaryFile", self.in_temporary_file),
        ):
            with self.subTest(kind), opened() as below, agefile.open(below, identities=KEY) as file:
                below.seek(5)
                self.assertEqual(file.read(300000), plain[:300000])
                self.assertEqual(below.tell(), 5)
                children = [os.fork() or self.read_in_child(file, plain, number) for number in range(4)]
                self.assertEqual([os.waitpid(child, 0)[1] for child in children], [0] * 4)
                with agefile.open(below, identities=KEY) as other:
                    self.assertEqual((other.read(5), below.tell()), (plain[:5], 5))

    def in_temporary_file(self):
        below = tempfile.NamedTemporaryFile()
        below.write(self.got("a.age"))
        return below

    def read_in_child(self, file, plain, number):
        choose, status = random.Random(number), 1
        try:
            places = [choose.randrange(len(plain)) for _ in range(200)]
            status = any((file.seek(at), file.read(1000))[1] != plain[at : at + 1000] for at in places)
        finally:
            os._exit(status)

    def test_a_file_that_gives_other_bytes_than_its_descriptor(self):
        with gzip.open("a.gz", "wb") as file:
            file.write(agefile.encrypt(text(200000), recipients=KEY))
        with gzip.open("a.gz") as below:
            self.assertEqual(self.read(below), text(200000))
        below = io.BytesIO(agefile.encrypt(text(200000), recipients=KEY))
        with open("a.gz", "rb") as below.file:
            self.assertEqual(self.read(below), text(200000))

    def test_a_source_whose_seek_returns_nothing(self):
        class Remote:
            def __init__(self, data):
                self._file = io.BytesIO(data)
                self.read, self.tell = self._file.read, self._file.tell

            def seek(self, *where):
                self._file.seek(*where)

        with agefile.open(Remote(self.got(self.made(text(200000)))), identities=KEY) as file:
            file.seek(-5, os.SEEK_END)
            self.assertEqual(file.read(), text(200000)[-5:])

    def test_what_is_opened(self):
        """`open`, `copy` and `rewrap_copy` read paths, descriptors, file objects and openers."""
        plain = text(70000)
        self.made(plain)
        for kind, make in (
            ("str", lambda: "a.age"),
            ("bytes", lambda: b"a.age"),
            ("path", lambda: pathlib.Path("a.age")),
            ("descriptor", lambda: os.open("a.age", os.O_RDONLY)),
            ("file", lambda: io.BytesIO(self.got("a.age"))),
            ("opener", lambda: functools.partial(open, "a.age", "rb")),
        ):
            with self.subTest(kind):
                self.assertEqual(self.read(make()), plain)
                self.assertEqual(agefile.copy(make(), "plain", identities=KEY), len(plain))
                self.assertEqual(self.got("plain"), plain)
                agefile.rewrap_copy(make(), "new.age", identities=KEY, recipients=Key(bytes(32)))
                self.assertEqual(agefile.decrypt(self.got("new.age"), identities=Key(bytes(32))), plain)
                if kind in ("str", "path", "descriptor"):
                    self.assertEqual(agefile.inspect(make()), agefile.inspect(self.got("a.age")))
        with FileWithPath("a.age") as below:
            self.assertEqual(self.read(below), plain)
        with open("both.age", "w+b") as below:
            below.write(agefile.encrypt(b"not flushed", recipients=KEY))
            self.assertEqual(self.read(below), b"not flushed")
        self.written(plain, PathThatWrites())
        self.assertEqual(agefile.decrypt(self.got("path.age"), identities=KEY), plain)
        self.assertEqual(agefile.copy("plain", os.open("b.age", os.O_WRONLY | os.O_CREAT), recipients=KEY), len(plain))
        self.assertEqual(agefile.decrypt(self.got("b.age"), identities=KEY), plain)

    def test_descriptors(self):
        """A file closes the descriptor that it was opened from, as a built-in one does. After an error, and
        in the other functions, the descriptor stays open."""
        self.made(b"text"), self.put(bytes(32), "key")
        other = Key(bytes(32))
        for stays, name, call in (
            (False, "a.age", lambda given: agefile.open(given, identities=KEY).close()),
            (True, "a.age", lambda given: agefile.open(given, identities=other)),
            (True, "key", lambda given: agefile.open(given, identities=KEY)),
            (False, "new", lambda given: agefile.open(given, "wb", recipients=KEY).commit()),
            (True, "new", lambda given: agefile.open(given, "wb", recipients=[])),
            (True, "a.age", lambda given: agefile.copy(given, "plain", identities=KEY)),
            (True, "a.age", lambda given: agefile.copy(given, "plain", identities=other)),
            (True, "new", lambda given: agefile.copy("a.age", given, identities=KEY)),
            (True, "a.age", lambda given: agefile.rewrap_copy(given, "plain", identities=KEY, recipients=other)),
            (True, "new", lambda given: agefile.rewrap_copy("a.age", given, identities=KEY, recipients=other)),
            (True, "a.age", agefile.inspect), (True, "key", agefile.inspect), (True, "key", Key.from_file), (True, "key", Passphrase.from_file),
        ):
            given = os.open(name, os.O_RDWR | os.O_CREAT)
            with contextlib.suppress(AgeError):
                call(given)
            gc.collect()
            with contextlib.nullcontext() if stays else self.assertRaises(OSError):
                os.close(given)
        given = os.open("a.age", os.O_RDONLY)
        self.assertRaises(AgeError, agefile.open, given, identities=other)
        self.assertEqual(self.read(given), b"text")

    def test_what_is_not_opened(self):
        """A TypeError says what to pass."""
        for wrong, words in ((None, "path"), (5.0, "path"), (io.StringIO(), "binary"), ([], "path")):
            for call in (
                lambda: agefile.open(wrong, identities=KEY),
                lambda: agefile.open(wrong, "wb", recipients=KEY),
                lambda: agefile.copy(wrong, io.BytesIO(), recipients=KEY),
                lambda: agefile.copy(io.BytesIO(), wrong, recipients=KEY),
            ):
                with self.subTest(wrong), self.assertRaisesRegex(TypeError, words):
                    call()
        for wrong in (None, 5.0, io.BytesIO(), [1]):
            self.assertRaisesRegex(TypeError, "bytes-like", agefile.inspect, wrong)
        with open(self.made(b""), encoding="utf-8") as wrong, self.assertRaisesRegex(TypeError, "binary"):
            agefile.open(wrong, identities=KEY)

    def test_names(self):
        """`name`, `mode` and `repr` are like those of files."""
        self.made(b"text")
        for mode, words in (("rb", {"identities": KEY}), ("r", {"identities": KEY}), ("wb", {"recipients": KEY}), ("w", {"recipients": KEY})):
            for name in ("a.age", b"a.age", pathlib.Path("a.age")):
                with agefile.open(name, mode, **words) as file, open(os.devnull, mode) as like:
                    self.assertEqual((file.name, file.mode), (os.fspath(name), mode))
                    self.assertIn(f"name={os.fspath(name)!r}", repr(file))
                    self.assertIn(f"mode={mode!r}", repr(file))
                    self.assertEqual("b" in file.mode, "b" in like.mode)
        with open("a.age", "rb") as below, agefile.open(below, identities=KEY) as file:
            self.assertEqual(file.name, "a.age")
        with agefile.open(io.BytesIO(self.got("a.age")), identities=KEY) as file:
            self.assertEqual((file.name, file.mode), (None, "rb"))

    def test_a_view_with_a_zero_in_its_shape(self):
        empty = memoryview(bytes(8)).cast("B", (2, 4))[:0]
        self.assertEqual(empty.shape, (0, 4))
        with agefile.open("z.age", "wb", recipients=KEY) as file:
            self.assertEqual(file.write(empty), 0)
            self.assertEqual(file.write(memoryview(bytes(8)).cast("B", (2, 4))), 8)
        with agefile.open("z.age", identities=KEY) as file:
            for read in (file.readinto, file.readinto1, file.raw.readinto):
                self.assertEqual(read(memoryview(bytearray(8)).cast("B", (2, 4))[:0]), 0)
            self.assertEqual(file.read(), bytes(8))


TYPED = """
import agefile, contextlib, gzip, io, pickle, tarfile, zipfile
from typing import BinaryIO
key = agefile.Key(bytes(32))
reader: agefile.Reader = agefile.open("a.age", identities=key)
same: agefile.Reader = agefile.open("a.age", "rb", identities=key)
writer: agefile.Writer = agefile.open("a.age", "wb", recipients=[key], atomic=True)
text: io.TextIOWrapper = agefile.open("a.age", "r", identities=key, newline="")
lines: list[str] = agefile.open("a.age", "x", recipients=key, encoding="ascii").readlines()
data: bytes = reader.read()
wrong: int = reader.read()  # assignment
no_text: io.TextIOWrapper = agefile.open("a.age", identities=key)  # assignment
agefile.open("a.age", "rb", identities=key, atomic=True)  # call-overload
agefile.open("a.age", "wb", identities=key, recipients=key)  # call-overload
agefile.open("a.age", "w")  # call-overload
agefile.open("a.age", recipients=key)  # call-overload
agefile.open("a.age", "w", recipients=key).commit()
files: list[BinaryIO] = [reader, writer]
tarfile.open(fileobj=writer, mode="w|"), tarfile.open(fileobj=reader), zipfile.ZipFile(writer, "w"), zipfile.ZipFile(reader)
io.TextIOWrapper(writer), gzip.open(reader), contextlib.closing(writer), contextlib.closing(reader), pickle.Pickler(writer)
agefile.copy("a", "b", recipients=key), agefile.copy("a", "b", identities=key, threads=2, atomic=True)
agefile.copy("a", "b")  # call-overload
agefile.copy("a", "b", recipients=key, identities=key)  # call-overload
agefile.encrypt("text", recipients=key)  # arg-type
agefile.encrypt(memoryview(bytearray(8)), recipients=key)
identity: agefile.Identity = agefile.Passphrase("text")
recipient: agefile.Recipient = key
found: bytes = key.unwrap(agefile.inspect("a.age").stanzas) or b""

def by_mode(mode: str) -> None:
    agefile.open("a.age", mode, identities=key, encoding="ascii").read()
    agefile.open("a.age", mode, recipients=key, atomic=True).write("text")
    agefile.open("a.age", mode, key)  # call-overload
"""


@unittest.skipIf(shutil.which("mypy") is None, "mypy is missing")
class Types(InFolder):
    def test_open(self):
        """A type checker knows what `open` returns in each mode, accepts a mode that is known only
        at run time, and refuses arguments that the mode does not take."""
        self.put(TYPED.encode(), "typed.py")
        os.symlink(os.path.dirname(agefile.__file__), "agefile")
        done = subprocess.run(["mypy", "--strict", "typed.py"], capture_output=True, text=True)
        found = re.findall(r"^typed.py:(\d+): error: .*\[(.*)\]$", done.stdout, re.MULTILINE)
        expected = [(str(number), line.partition("  # ")[2]) for number, line in enumerate(TYPED.split("\n"), 1) if "  # " in line]
        self.assertEqual(found, expected, done.stdout)
