"""Files that nobody committed, or that more than one call or thread ends, and ends that fail."""

import concurrent.futures
import contextlib
import errno
import io
import itertools
import os
import subprocess
import sys
import threading
import warnings
from unittest import mock

import agefile
from agefile._writer import _Sealer
from support import KEY, InFolder, error_of, in_child, text


class Unclosed(InFolder):
    def test_an_old_file_is_kept(self):
        """It is kept after less than a chunk without a flush. If nobody ends the new one, `sys.unraisablehook` runs."""
        for mode, data in (("wb", b"text"), ("w", "text")):
            for end in (lambda file: self.assertRaisesRegex(ValueError, "only commit or the clean end of a with block", file.close), lambda file: getattr(file, "buffer", file).abort(), lambda file: None):
                self.put(b"old", "o.age")
                with mock.patch("sys.unraisablehook") as told:
                    file = agefile.open("o.age", mode, recipients=KEY)
                    file.write(data)
                    is_told = end(file) is None
                    del file
                self.assertEqual((self.got("o.age"), told.called), (b"old", is_told and not end.__code__.co_names))

    def test_close_in_with(self):
        """It ends writing, and the block decides, or a commit does."""
        for mode, data in (("wb", text(100000)), ("w", "x" * 100000)):
            with agefile.open("w.age", mode, recipients=KEY, atomic=True) as file:
                file.write(data)
                file.close()
                for call in (lambda: file.write(data), file.flush, file.__enter__):
                    self.assertRaisesRegex(ValueError, "closed file", call)
                self.assertEqual(os.listdir(), ["w.age.agep-new"])
                file.commit() if mode == "w" else None
            self.assertEqual((self.read("w.age", mode.replace("w", "r")), os.listdir()), (data, ["w.age"]))
            os.remove("w.age")

    def test_a_write_beside_the_end(self):
        """The ended file has the data of each write that returned; a later write is refused."""
        def count(file, length, started):
            for number in range(10**7):
                started.set()
                try:
                    file.write(bytes(length))
                except ValueError:
                    return number

        for length, end in itertools.product((1, 3000), (agefile.Writer.commit, agefile.Writer.close)):
            with concurrent.futures.ThreadPoolExecutor(1) as pool, agefile.open("t.age", "wb", recipients=KEY) as file:
                found = pool.submit(count, file, length, started := threading.Event())
                started.wait()
                end(file)
            self.assertEqual(len(self.read("t.age")), found.result() * length)

    def test_close_in_a_handler(self):
        """The exception that is being handled is the one that is raised, and a warning names the file."""
        for kind in (RuntimeError, KeyboardInterrupt, SystemExit):
            for make in (lambda: contextlib.closing(agefile.open("w.age", "wb", recipients=KEY)), lambda: io.TextIOWrapper(agefile.open("w.age", "wb", recipients=KEY))):
                with self.assertWarnsRegex(RuntimeWarning, "w.age.* is not whole"), self.assertRaises(kind), make() as file:
                    file.write("x" * 200000 if isinstance(file, io.TextIOBase) else bytes(200000))
                    raise kind
                self.refused("w.age")

    def test_the_buffer_of_text(self):
        """Text that has not reached the buffer is in the file, whichever call of the buffer completes it."""
        for end in (lambda file: file.buffer.commit(), lambda file: file.buffer.close(), lambda file: file.detach().commit(), lambda file: file.buffer.__exit__(None)):
            with contextlib.suppress(ValueError), agefile.open("w.age", "w", recipients=KEY) as file:
                file.write("text")
                end(file)
            self.assertEqual(self.read("w.age"), b"text")

    def test_commit_of_what_failed(self):
        for mode, data in (("wb", text(200000)), ("w", "x" * 200000)):
            file = agefile.open("w.age", mode, recipients=KEY)
            with mock.patch.object(_Sealer, "_put", side_effect=KeyboardInterrupt):
                self.assertRaises(KeyboardInterrupt, file.write, data)
            self.assertRaisesRegex(OSError, "an earlier write failed", file.commit)
            self.assertTrue(file.closed)
            file = agefile.open("w.age", mode, recipients=KEY)
            self.assertEqual(in_child(lambda: self.assertRaises(OSError, file.commit)), 0)
            file.commit()
            self.assertRaisesRegex(ValueError, "closed file", file.commit)
            self.assertEqual(self.read("w.age"), b"")

    def test_the_end_of_a_program(self):
        """Each file that something holds to the end is given up, and the user is told, whatever the filters of warnings,
        except for a file that a daemon thread is writing: the end does not wait for that."""
        begin = "import agefile, concurrent.futures, os, sys, threading; key = agefile.Key(bytes(32))\ndef new(*file, **words): return agefile.open(*file, recipients=key, **words)\n"
        for code, names in (
            ("sys.a, sys.b = new('a.age', 'w'), new('b.age', 'wb', atomic=True)", ("a.age", "b.age")),
            ("concurrent.futures.ThreadPoolExecutor(1).submit(lambda: new('p.age', 'wb').close())", ("p.age",)),
            ("file = new(os.pipe()[1], 'wb'); threading.Thread(target=file.write, args=[bytes(10**6)], daemon=True).start()\n"
             "while file._sealer._lock.acquire(blocking=False): file._sealer._lock.release()", ()),
        ):
            for action in ("default", "error"):
                done = subprocess.run([sys.executable, "-W", action, "-c", begin + code], capture_output=True, text=True, timeout=60)
                self.assertEqual((done.returncode, [name for name in names if f"name='{name}' mode='wb'> is not whole" not in done.stderr]), (0, []))
                self.assertNotIn("tracemalloc", done.stderr)
        self.assertNotIn("b.age.agep-new", os.listdir())

    def test_a_sink_that_fails_to_close(self):
        """The user is told, even if the caller drops that error as `logging` does."""
        file = agefile.open(lambda: mock.Mock(write=len, close=mock.Mock(side_effect=OSError)), "wb", recipients=KEY)
        file.flush()
        with self.assertWarns(RuntimeWarning):
            self.assertRaises(OSError, file.close)

    def test_warnings_that_raise(self):
        """The file still cannot be completed."""
        file = agefile.open("w.age", "wb", recipients=KEY)
        with warnings.catch_warnings():
            warnings.simplefilter("error")
            self.assertRaises(RuntimeWarning, file.close)
        self.assertRaises(OSError, file.commit)
        self.refused("w.age")

    def test_writers_that_begin_together(self):
        """Each first locks its own file, then looks for the other's, so one of them is refused even if both had looked before."""
        os_open, begun = os.open, []

        def begin(name, flags, *mode):
            if flags & os.O_CREAT and bool(flags & os.O_EXCL) == atomic and not begun:
                begun.append(None)
                begun[0] = agefile.open("o.age", "wb", recipients=KEY, atomic=not atomic)
            return os_open(name, flags, *mode)

        for atomic in (False, True):
            with mock.patch("os.open", begin):
                self.assertRaises(BlockingIOError, agefile.open, "o.age", "wb", recipients=KEY, atomic=atomic)
            begun.pop().commit()
            self.assertEqual((self.read("o.age"), os.listdir()), (b"", ["o.age"]))

    def test_what_a_failed_sync_says(self):
        """The folder is synced last, and only that sync's error says that the file was replaced."""
        for number in (0, 1):
            with mock.patch("os.fsync", side_effect=[*[None] * number, OSError(errno.EIO, "failed")]):
                error = error_of(lambda: self.written(b"text", "o.age", atomic=True), OSError)
            self.assertEqual(("replaced" in str(error), os.path.exists("o.age")), (number == 1, number == 1))
