"""New files: written chunk by chunk, replaced as a whole or kept, and their state after a failed
write."""

import contextlib
import errno
import gzip
import io
import itertools
import os
import random
import shutil
import signal
import subprocess
import sys
import tempfile
import unittest
from unittest import mock

import agefile
from agefile import AgeError, Key, Passphrase
from agefile._writer import _Sealer
from support import KEY, InFolder, broken, damaged, error_of, in_child, in_threads, message, text


def fails(*_):
    raise OSError(errno.EIO, "failed")


def commit(file):
    """Completes the file, unless another thread has."""
    with contextlib.suppress(ValueError):
        file.commit()


class Writing(InFolder):
    def test_sizes_and_pieces(self):
        for length in (0, 1, 65535, 65536, 65537, 131072, 300000):
            for piece in (1000, 65536, 300001):
                with agefile.open("w.age", "wb", recipients=KEY) as file:
                    for at in range(0, length, piece):
                        file.write(memoryview(text(length))[at : at + piece])
                    self.assertEqual(file.tell(), length)
                self.assertEqual(agefile.decrypt(self.got("w.age"), identities=KEY), text(length))

    def test_marks_of_the_byte_order(self):
        for encoding in ("utf-16", "UTF32", "utf-16-le", "utf-8-sig"):
            with agefile.open("m.age", "w", recipients=KEY, encoding=encoding) as file:
                file.write("one\n"), file.write("two\n")
            self.assertEqual(agefile.decrypt(self.got("m.age"), identities=KEY), "one\ntwo\n".encode(encoding))

    @unittest.skipIf(sys.version_info < (3, 10), "Python 3.9 has no such encoding")
    def test_the_encoding_of_the_locale(self):
        with agefile.open("l.age", "w", recipients=KEY, encoding="locale") as file:
            self.assertEqual(file.encoding, io.TextIOWrapper(io.BytesIO(), "locale").encoding)

    def test_an_old_file_is_kept(self):
        """A file keeps its contents if `open` fails, and no other file is left."""

        class Kms:
            def wrap(self, file_key):
                raise ConnectionError("the service is down")

        for mode in ("wb", "w"):
            for error, words in (
                (ConnectionError, {"recipients": [KEY, Kms()]}),
                (AgeError, {"recipients": []}),
                (AgeError, {"recipients": [KEY, Passphrase("x", work=1)]}),
                (AgeError, {"recipients": Passphrase("", work=1)}),
                (TypeError, {"recipients": "word"}),
                (TypeError, {"recipients": [KEY, b"word"]}),
                (TypeError, {}),
                (TypeError, {"recipients": KEY, "identities": KEY}),
                (LookupError, {"recipients": KEY, "encoding": "bogus"}),
                (ValueError, {"recipients": KEY, "newline": "bogus"}),
            ):
                if mode == "wb" and {"encoding", "newline"} & set(words):
                    error = ValueError
                for atomic in (False, True):
                    self.put(b"old", "o.age")
                    with self.subTest(f"{mode} {words} {atomic}"), self.assertRaises(error):
                        agefile.open("o.age", mode, atomic=atomic, **words)
                    self.assertEqual((self.got("o.age"), os.listdir()), (b"old", ["o.age"]))
        code = "import agefile, resource\nresource.setrlimit(resource.RLIMIT_AS, (1 << 28, 1 << 28))\n"
        code += "agefile.open('o.age', 'wb', recipients=agefile.Passphrase('x'))"
        done = subprocess.run([sys.executable, "-c", code], capture_output=True, text=True)
        self.assertIn(message("OutOfMemory"), done.stderr)
        self.assertEqual(self.got("o.age"), b"old")

    def test_when_an_old_file_is_emptied(self):
        for write, is_kept in (
            (lambda file: None, True),
            (lambda file: file.write(text(65536)), True),
            (lambda file: file.write(text(65537)), False),
            (lambda file: file.flush(), False),
        ):
            self.put(b"old", "o.age")
            with contextlib.suppress(KeyError), agefile.open("o.age", "wb", recipients=KEY) as file:
                write(file)
                raise KeyError
            self.assertEqual(self.got("o.age") == b"old", is_kept)
            self.refused("o.age")
            with agefile.open("o.age", "wb", recipients=KEY) as file:
                write(file)
                written = file.tell()
            self.assertEqual(agefile.decrypt(self.got("o.age"), identities=KEY), text(65537)[:written])

    def test_what_an_opener_opens_is_opened_last(self):
        opened = []

        def opener():
            opened.append(open("o.age", "wb"))
            return opened[-1]

        broken(agefile.open(opener, "wb", recipients=KEY), b"text")
        self.assertEqual(opened, [])
        with agefile.open(opener, "w", recipients=KEY) as file:
            file.write("text")
        self.assertTrue(opened[0].closed)
        self.assertEqual(agefile.decrypt(self.got("o.age"), identities=KEY), b"text")

    def test_copies_of_paths(self):
        """An error before the first byte is written leaves the sink as it was. An empty plaintext empties
        it."""
        self.made(text(100000)), self.made(b"", "e.age")
        self.put(damaged(self.got("a.age"), 0), "bad.age")
        self.put(b"", "empty")
        for error, call in (
            (AgeError, lambda: agefile.copy("a.age", "old", identities=Key(bytes(32)))),
            (AgeError, lambda: agefile.copy("bad.age", "old", identities=KEY)),
            (AgeError, lambda: agefile.copy("a.age", "old", recipients=[])),
            (FileNotFoundError, lambda: agefile.copy("absent", "old", recipients=KEY)),
            # Its first read fails.
            (OSError, lambda: agefile.copy("/proc/self/mem", "old", recipients=KEY)),
            (AgeError, lambda: agefile.rewrap_copy("a.age", "old", identities=Key(bytes(32)), recipients=KEY)),
            (AgeError, lambda: agefile.rewrap_copy("a.age", "old", identities=KEY, recipients=[])),
            (ValueError, lambda: agefile.copy(open("a.age", "rb"), "a.age", recipients=KEY)),
            (ValueError, lambda: agefile.copy(agefile.open("a.age", identities=KEY), "a.age", recipients=KEY)),
            (ValueError, lambda: agefile.copy("a.age", open("a.age", "r+b"), recipients=KEY)),
            (ValueError, lambda: agefile.copy("a.age", os.open("a.age", os.O_RDWR), recipients=KEY)),
            (ValueError, lambda: agefile.copy(tempfile._TemporaryFileWrapper(open("a.age", "rb"), "a.age", False), "a.age", recipients=KEY)),
            (ValueError, lambda: agefile.rewrap_copy(open("a.age", "rb"), "a.age", identities=KEY, recipients=KEY)),
            (ValueError, lambda: agefile.copy("a.age", "old", recipients=KEY, threads=0)),
            (TypeError, lambda: agefile.copy("a.age", "old", recipients=KEY, threads="4")),
        ):
            self.put(b"old", "old")
            before = self.got("a.age")
            self.assertRaises(error, call)
            self.assertEqual((self.got("old"), self.got("a.age")), (b"old", before))
        agefile.copy("e.age", "old", identities=KEY)
        self.assertEqual(self.got("old"), b"")
        self.addCleanup(os.umask, os.umask(0o002))
        agefile.copy("e.age", "new", identities=KEY)
        agefile.copy("new", "new.age", recipients=KEY)
        self.assertEqual([os.stat(name).st_mode & 0o777 for name in ("new", "new.age")], [0o600, 0o664])
        self.put(bytes(1000000), "old")
        agefile.copy("empty", "old", recipients=KEY)
        self.assertEqual(agefile.decrypt(self.got("old"), identities=KEY), b"")

    def test_small_writes(self):
        """They are collected, in whatever kind of object they come."""
        choose, pieces = random.Random(2), []
        with agefile.open("s.age", "wb", recipients=KEY) as file:
            for kind in (bytes, bytearray, memoryview) * 3000:
                piece = text(300)[: choose.choice((0, 1, 20, 300))]
                pieces.append(piece)
                self.assertEqual((file.write(kind(piece)), file.tell()), (len(piece), sum(map(len, pieces))))
            for wrong in ("text", 5, None):
                self.assertRaises(TypeError, file.write, wrong)
        self.assertEqual(agefile.decrypt(self.got("s.age"), identities=KEY), b"".join(pieces))

    def test_an_interrupt_within_a_write(self):
        """After it the file has part of the data: it never becomes complete, whoever catches the
        exception."""
        def take(sealer, rest):
            sealer._filled += 10
            raise KeyboardInterrupt

        for call in (lambda file: file.write(text(100000)), lambda file: file.write(b"text") and file.flush()):
            file = agefile.open("s.age", "wb", recipients=KEY)
            with mock.patch.object(_Sealer, "_take", take):
                self.assertRaises(KeyboardInterrupt, call, file)
            self.assertRaisesRegex(OSError, "an earlier write failed", file.write, text(100000))
            self.assertRaisesRegex(OSError, "an earlier write failed", file.commit)
            self.assertRaisesRegex(ValueError, "closed file", file.write, b"text")
            self.refused("s.age")

    def test_threads_that_write(self):
        """Each write is complete in the file, in some order."""
        file = agefile.open("t.age", "wb", recipients=KEY)
        numbers = iter(range(4))

        def work():
            row = bytes([next(numbers)]) * 20000
            return [file.write(row) for _ in range(50)]

        in_threads(work)
        file.commit()
        plain = agefile.decrypt(self.got("t.age"), identities=KEY)
        rows = [plain[at : at + 20000] for at in range(0, len(plain), 20000)]
        self.assertEqual(sorted(rows), [bytes([number]) * 20000 for number in range(4) for _ in range(50)])

    def test_threads_that_close(self):
        """One of them completes the file; the others find it closed."""
        for _ in range(20):
            file = agefile.open("t.age", "wb", recipients=KEY)
            file.write(text(100000))
            in_threads(lambda: commit(file))
            self.assertEqual(agefile.decrypt(self.got("t.age"), identities=KEY), text(100000))

    def test_what_no_buffer_may_do(self):
        with agefile.open("b.age", "wb", recipients=KEY) as file:
            file.write(b"text")
            for call in (file.truncate, file.detach, lambda: file.seek(0), lambda: file.read(1)):
                self.assertRaises(io.UnsupportedOperation, call)
        self.assertEqual(agefile.decrypt(self.got("b.age"), identities=KEY), b"text")

    def test_a_child_closes_no_sink(self):
        """It would publish a part of its parent's file, for example in an object store."""
        class Store(io.BytesIO):
            def close(self):
                open("published", "wb").close()

        file = agefile.open(lambda: Store(), "wb", recipients=KEY)
        file.flush()
        self.assertEqual((in_child(file.abort), os.path.exists("published")), (0, False))
        file.commit()
        self.assertTrue(os.path.exists("published"))

    def test_what_a_kill_costs(self):
        """At most the last 128 KiB: a chunk, and a buffer of the same size."""
        plain = text(400000)
        with agefile.open("k.age", "wb", recipients=KEY) as file:
            for at in range(0, 400000, 100):
                file.write(plain[at : at + 100])
                chunks = os.path.getsize("k.age") // 65552
                self.assertLessEqual(at + 100 - chunks * 65536, 131072)
            self.put(self.got("k.age"), "killed.age")
        agefile.salvage("killed.age", "saved", identities=KEY)
        self.assertEqual(self.got("saved"), plain[: chunks * 65536])

    def test_flush_reaches_the_file(self):
        """`flush` also flushes the buffer of the caller's sink, and `write` does not."""
        with open("s.age", "wb", 1 << 20) as below, agefile.open(below, "wb", recipients=KEY) as file:
            file.write(text(200000))
            self.assertEqual(os.path.getsize("s.age"), 0)
            file.flush()
            self.assertGreater(os.path.getsize("s.age"), 3 * 65552)

    def test_an_error_of_the_sink_that_closes(self):
        """`commit` raises the error, for example of an upload that is refused at its end."""
        class Upload(io.BytesIO):
            def close(self):
                if not self.closed:
                    super().close()
                    raise ConnectionError("refused")

        for mode, data in (("wb", b"text"), ("w", "text")):
            file = agefile.open(lambda: Upload(), mode, recipients=KEY)
            file.write(data)
            self.assertRaises(ConnectionError, file.commit)
            self.assertTrue(file.closed)

    def test_lines_and_encodings(self):
        """Newlines are those requested, and text is UTF-8 whatever the locale."""
        for newline, expected in ((None, b"a\nb\n"), ("", b"a\nb\n"), ("\n", b"a\nb\n"), ("\r\n", b"a\r\nb\r\n")):
            self.written("a\nb\n", "l.age", "w", newline=newline)
            self.assertEqual(agefile.decrypt(self.got("l.age"), identities=KEY), expected)
        self.made(b"a\r\nb\r\n", "l.age")
        for newline, expected in ((None, "a\nb\n"), ("", "a\r\nb\r\n"), ("\n", "a\r\nb\r\n")):
            self.assertEqual(self.read("l.age", "r", newline=newline), expected)
        self.written("\u00fc", "l.age", "w", encoding="ascii", errors="replace")
        self.assertEqual(agefile.decrypt(self.got("l.age"), identities=KEY), b"?")
        self.made(b"\xff", "l.age")
        self.assertEqual(self.read("l.age", "r", errors="ignore"), "")
        code = "import agefile, sys; key = agefile.Key(bytes(range(32)))\n"
        code += "with agefile.open('u.age', 'w', recipients=key) as file: file.write('\\u00fcber')\n"
        code += "with agefile.open('u.age', 'r', identities=key) as file: assert file.read() == '\\u00fcber'"
        env = {**os.environ, "PYTHONUTF8": "0", "LC_ALL": "C", "PYTHONCOERCECLOCALE": "0"}
        subprocess.run([sys.executable, "-c", code], env=env, check=True)
        self.assertEqual(agefile.decrypt(self.got("u.age"), identities=KEY), "über".encode())

    def test_atomic_copies(self):
        """The old file stays after these errors, also of a thread. A new plaintext is its owner's alone."""
        def raises(*_):
            raise KeyError

        other = Key(bytes(32))
        self.put(damaged(self.got(self.made(text(300000))), 3), "bad.age")
        for error, call in (
            (AgeError, lambda: agefile.copy("bad.age", "bad.age", identities=KEY, atomic=True)),
            (AgeError, lambda: agefile.copy("bad.age", "old", identities=KEY, atomic=True, threads=2)),
            (KeyError, lambda: agefile.copy("a.age", "old", recipients=KEY, atomic=True, progress=raises)),
            (KeyError, lambda: agefile.rewrap_copy("a.age", "old", identities=KEY, recipients=other, atomic=True, progress=raises)),
            (AgeError, lambda: agefile.rewrap_copy("a.age", "a.age", identities=other, recipients=KEY, atomic=True)),
            (TypeError, lambda: agefile.copy("a.age", io.BytesIO(), identities=KEY, atomic=True)),
            (TypeError, lambda: agefile.rewrap_copy("a.age", lambda: open("b", "wb"), identities=KEY, recipients=KEY, atomic=True)),
        ):
            self.put(b"old", "old")
            before = [self.got(name) for name in ("a.age", "bad.age", "old")]
            self.assertRaises(error, call)
            self.assertEqual([self.got(name) for name in ("a.age", "bad.age", "old")], before)
            self.assertEqual(sorted(os.listdir()), ["a.age", "bad.age", "old"])
        os.chmod("a.age", 0o640)
        self.assertIsNone(agefile.rewrap_copy("a.age", "a.age", identities=KEY, recipients=other, atomic=True))
        for name in ("new", "old"):
            self.assertEqual(agefile.copy("a.age", name, identities=other, atomic=True), 300000)
        self.assertEqual([os.stat(name).st_mode & 0o777 for name in ("a.age", "new", "old")], [0o640, 0o600, 0o644])

    def test_a_close_that_fails(self):
        """A copy raises the error."""
        self.made(text(200000))
        for words in ({"identities": KEY}, {"recipients": KEY}):
            with mock.patch("agefile._paths.Output.close", fails):
                self.assertRaises(OSError, agefile.copy, "a.age", "new", **words)

    def test_progress(self):
        """It grows to the length of the source, which a pipe does not report."""
        class Plain:
            def __init__(self, data):
                self.read = io.BytesIO(data).read

        for length in (0, 1, 65536, 300000, 5000000):
            plain = text(length)
            sealed = self.got(self.made(plain))
            for threads in (1, 2):
                for call, source in (
                    (lambda source, **words: agefile.copy(source, io.BytesIO(), recipients=KEY, threads=threads, **words), plain),
                    (lambda source, **words: agefile.copy(source, io.BytesIO(), identities=KEY, threads=threads, **words), sealed),
                    (lambda source, **words: agefile.rewrap_copy(source, io.BytesIO(), identities=KEY, recipients=KEY, **words), sealed),
                ):
                    for kind in (io.BytesIO, lambda data: self.put(data, "source"), Plain):
                        seen = []
                        call(kind(source), progress=lambda *found: seen.append(found))
                        counts, totals = zip(*seen)
                        self.assertEqual((list(counts), counts[-1]), (sorted(set(counts)), len(source)))
                        self.assertEqual(set(totals), {None if kind is Plain else len(source) or None})
                        self.assertIn(len(seen), range(len(source) // 70000 if threads == 1 else 1, len(source) // 65536 + 3))
        with open("source", "rb") as source:
            source.seek(-10, os.SEEK_END)
            agefile.copy(source, io.BytesIO(), recipients=KEY, progress=lambda *found: self.assertEqual(found, (10, 10)))
        read_end, write_end = os.pipe()
        with open(write_end, "wb") as file:
            file.write(b"text")
        for source, total in ((read_end, None), (open("source", "rb"), os.path.getsize("source")), (agefile.open("a.age", identities=KEY), 5000000), (gzip.open(self.put(gzip.compress(b"text"), "gz")), None)):
            seen = []
            agefile.copy(source, io.BytesIO(), recipients=KEY, progress=lambda *found: seen.append(found))
            self.assertEqual(seen[-1], (total or 4, total))

    @unittest.skipIf(os.geteuid() != 0, "only root gives files away")
    def test_atomic_and_the_owner(self):
        """Owner and group stay if allowed. If the group does not, the new one gets no permissions. Set-ID bits go."""
        fchown, mode_of = os.fchown, lambda: (lambda it: (it.st_uid, it.st_gid, it.st_mode & 0o7777))(os.stat("o.age"))
        for mode, refused, found in (
            (0o6750, (), (1234, 5678, 0o750)), (0o664, ((1234, 5678),), (0, 5678, 0o664)),
            (0o664, ((1234, 5678), (-1, 5678)), (0, 0, 0o604)), (0o600, ((1234, 5678), (-1, 5678)), (0, 0, 0o600)),
        ):
            self.put(b"old", "o.age"), os.chown("o.age", 1234, 5678), os.chmod("o.age", mode)
            with mock.patch("os.fchown", lambda file, *ids: fails() if ids in refused else fchown(file, *ids)):
                self.written(b"text", "o.age", atomic=True)
            self.assertEqual((mode_of(), self.read("o.age")), (found, b"text"))
            os.remove("o.age")

    @unittest.skipUnless(shutil.which("setfacl"), "setfacl is missing")
    def test_atomic_and_access_lists(self):
        """The new file gets the old list or, if refused, no group access; never the folder's."""
        acl = lambda name="o.age": subprocess.run(["getfacl", "-cE", name], capture_output=True, text=True, check=True).stdout.split()
        set_acl = lambda *words: subprocess.run(["setfacl", *words], check=True)
        for kind, of_folder, of_file in (("its own", [], ["-m", "u:nobody:r,g::-"]), ("the folder's", ["-d", "-m", "u:nobody:rw"], ["-b"]), ("both", ["-d", "-m", "u:nobody:rw"], ["-m", "u:daemon:r"])):
            os.mkdir(kind), set_acl(*of_folder or ["-b"], kind)
            name = self.put(b"old", f"{kind}/o.age")
            set_acl(*of_file, name), os.chmod(name, 0o640)
            before = acl(name)
            self.written(b"text", name, atomic=True)
            self.assertEqual((acl(name), self.read(name)), (before, b"text"))
            if of_file != ["-b"]:
                with mock.patch("os.setxattr", fails):
                    self.written(b"text", name, atomic=True)
                self.assertEqual(acl(name), ["user::rw-", "group::---", "other::---"])

    def test_two_writers(self):
        """With locks a path has one writer at a time, whose lock ends with it, although a child has the descriptor."""
        new = lambda: agefile.open("o.age", "wb", recipients=KEY)
        with new() as file:
            child = os.fork()
            if child == 0:
                signal.pause()
            self.addCleanup(lambda: (os.kill(child, signal.SIGKILL), os.waitpid(child, 0)))
            in_child(file._sealer._sink.close)
            for call in (new, lambda: agefile.copy(io.BytesIO(b"other"), "o.age", recipients=KEY)):
                self.assertEqual(error_of(call, BlockingIOError).filename, "o.age")
            file.write(text(200000))
        self.assertEqual(self.read("o.age"), text(200000))
        self.written(b"text", "o.age")
        with mock.patch("fcntl.flock", side_effect=OSError(errno.ENOLCK, "no locks")), new() as file, new():
            file.abort()

    def test_atomic_and_other_files(self):
        self.addCleanup(os.umask, os.umask(0o027))
        self.written("", "n.age", "w", atomic=True)
        self.put(b"", "like")
        self.assertEqual(os.stat("n.age").st_mode, os.stat("like").st_mode)
        os.symlink("loop", "loop")
        for wrong in "loop", "absent/o.age", "a" * 255:
            self.assertRaises(OSError, agefile.open, wrong, "wb", recipients=KEY, atomic=True)
        for wrong in (io.BytesIO(), 1, lambda: io.BytesIO()):
            self.assertRaises(TypeError, agefile.open, wrong, "wb", recipients=KEY, atomic=True)
        self.assertRaises(TypeError, agefile.open, "n.age", "rb", identities=KEY, atomic=True)
        self.assertEqual(sorted(os.listdir()), ["like", "loop", "n.age"])

    def test_what_a_killed_writer_left(self):
        """Without locks a path is still written, but what was left stays and refuses an `atomic` writer."""
        with mock.patch("fcntl.flock", side_effect=OSError(errno.ENOLCK, "no locks")):
            self.written(b"text", "o.age", atomic=True)
            name = os.path.realpath(self.put(b"", "o.age.agep-new"))
            new = lambda: agefile.open("o.age", "wb", recipients=KEY, atomic=True)
            self.assertEqual(error_of(new, BlockingIOError).filename, name)
        self.assertEqual((self.read("o.age"), len(os.listdir())), (b"text", 2))

    def test_a_new_file_that_is_removed(self):
        """Another file of its name is neither moved nor removed."""
        for end in ("commit", "abort"):
            self.put(b"old", "o.age")
            file = agefile.open("o.age", "wb", recipients=KEY, atomic=True)
            os.remove("o.age.agep-new"), self.put(b"other", "o.age.agep-new")
            self.assertRaisesRegex(FileNotFoundError, "was removed", file.commit) if end == "commit" else file.abort()
            self.assertEqual((self.got("o.age"), self.got("o.age.agep-new")), (b"old", b"other"))

    def test_many_writers(self):
        """Each of several writers completes the file or is refused; some are killed, and the next one succeeds."""
        def write():
            for number in range(50):
                with contextlib.suppress(BlockingIOError), agefile.open("m.age", "wb", recipients=KEY, atomic=True) as file:
                    file.write(text(100000))
                    if number == 49:
                        os.kill(os.getpid(), signal.SIGKILL)

        self.put(b"old", "m.age")
        statuses = in_threads(lambda: in_child(write))
        self.assertLessEqual({*statuses}, {0, signal.SIGKILL})
        self.written(b"text", "m.age", atomic=True)
        self.assertEqual((self.read("m.age"), os.listdir()), (b"text", ["m.age"]))

    def test_fork(self):
        """A child neither writes, completes nor removes the file of its parent."""
        for (mode, data), atomic in itertools.product((("wb", b"text"), ("wb", text(100000)), ("w", "text" * 30000)), (False, True)):
            file = agefile.open("f.age", mode, recipients=KEY, atomic=atomic)
            file.write(data)
            file.flush()
            for call in (lambda: (file.write(data), file.flush(), file.commit()), lambda: (file.close(), file.__enter__())):
                self.assertEqual(in_child(lambda: self.assertRaises((OSError, ValueError), call)), 0)
            file.write(data)
            file.commit()
            self.assertEqual((self.read("f.age", mode.replace("w", "r")), os.listdir()), (data + data, ["f.age"]))

    def test_text_that_is_not_written(self):
        """An interrupt while text is written does not leave a complete file without that text."""
        for atomic in (False, True):
            for call in ("commit", "flush"):
                self.made(b"old", "o.age")
                file = agefile.open("o.age", "w", recipients=KEY, atomic=atomic)
                file.write("secret")
                with mock.patch.object(agefile.Writer, "write", side_effect=KeyboardInterrupt):
                    self.assertRaises(KeyboardInterrupt, getattr(file, call))
                self.assertRaises(OSError, file.commit) if call == "flush" else file.close()
                self.assertEqual(os.listdir(), ["o.age"])
                self.assertEqual(agefile.decrypt(self.got("o.age"), identities=KEY), b"old")
        for error in type("Limit", (ValueError,), {}), KeyboardInterrupt:
            for kind, call in ((_Sealer, "_take"), (agefile.Writer, "write")):
                file = agefile.open("o.age", "w", recipients=KEY)
                file.write("secret")
                with mock.patch.object(kind, call, side_effect=error):
                    self.assertRaises(error, file.write, "text" * 20000)
                self.assertRaises(OSError, file.commit)
                self.assertEqual(agefile.decrypt(self.got("o.age"), identities=KEY), b"old")
        with agefile.open("o.age", "w", recipients=KEY, encoding="ascii") as file:
            self.assertRaises(UnicodeError, file.write, "ü")
            self.assertRaises(TypeError, file.write, b"text")
            file.write("text")
        self.assertEqual(agefile.decrypt(self.got("o.age"), identities=KEY), b"text")

    def test_a_source_in_memory_stays_there(self):
        """`fileno` of a SpooledTemporaryFile would write it to the disk."""
        with tempfile.SpooledTemporaryFile() as source:
            source.write(b"text")
            source.seek(0)
            agefile.copy(source, "s.age", recipients=KEY)
            self.assertFalse(source._rolled)
        self.assertEqual(agefile.decrypt(self.got("s.age"), identities=KEY), b"text")

    def test_modes(self):
        with agefile.open("x.age", "xb", recipients=KEY) as file:
            self.assertTrue(file.writable() and not file.readable() and not file.seekable())
        self.assertRaises(FileExistsError, agefile.open, "x.age", "x", recipients=KEY)
        self.assertRaises(ValueError, file.write, b"")
        self.assertRaises(AgeError, agefile.open, "none.age", "wb", recipients=[])
        below = io.BytesIO()
        with agefile.open(below, "wb", recipients=KEY) as file:
            file.write(b"text")
        self.assertFalse(below.closed)
        self.assertEqual(agefile.decrypt(below.getvalue(), identities=KEY), b"text")
