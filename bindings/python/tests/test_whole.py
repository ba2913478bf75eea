"""Files in memory and from source to sink: results, errors and memory."""

import array
import contextlib
import functools
import io
import itertools
import mmap
import os
import pickle
import pydoc
import signal
import socket
import subprocess
import sys
import tempfile
import threading
import time
import traceback
import types
import unittest
from unittest import mock

import agefile
from agefile import AgeError, Code, Key, Passphrase, Stanza, _library
from support import KEY, error_of, in_time, message, pattern, text

import fixture

# around the boundaries of chunks, and of what one thread takes at a time
SIZES = (0, 1, 65535, 65536, 65537, 131072, 200000, 16 * 65536, 16 * 65536 + 1, 50 * 65536 + 7)
DATA = os.path.join(os.path.dirname(__file__), "../../../tests/data")


def of_age(name):
    with open(os.path.join(DATA, name), "rb") as file:
        return file.read()


class Round(unittest.TestCase):
    def test_files_come_back(self):
        for plain in map(text, SIZES):
            for threads in (1, 3):
                file = agefile.encrypt(plain, recipients=KEY, threads=threads)
                for back in (1, 2):
                    self.assertEqual(agefile.decrypt(file, identities=KEY, threads=back), plain)

    def test_files_of_age(self):
        secret = Passphrase("correct horse")
        self.assertEqual(agefile.decrypt(of_age("passphrase.age"), identities=secret), b"hello\n")
        header = agefile.inspect(fixture.for_public_keys(668))
        self.assertEqual((len(header.stanzas), header.length), (668, 65534))
        self.assertEqual({stanza.args[0] for stanza in header.stanzas}, {"X25519"})
        kinds = {stanza.args[0]: len(stanza.body) for stanza in agefile.inspect(of_age("ssh_recipients.age")).stanzas}
        self.assertEqual(kinds, {"ssh-rsa": 256, "ssh-ed25519": 32, "X25519": 32})

    def test_rewrap(self):
        plain, other = text(200000), Passphrase("x", work=2)
        file = agefile.encrypt(plain, recipients=other)
        new = agefile.rewrap(file, identities=other, recipients=[KEY, Key(bytes(32))])
        self.assertEqual(agefile.decrypt(new, identities=Key(bytes(32))), plain)
        self.assertEqual(new[agefile.inspect(new).length :], file[agefile.inspect(file).length :])
        self.assertRaisesRegex(AgeError, pattern("WrongKey"), agefile.rewrap, file, identities=Passphrase("y"), recipients=KEY)

    def test_rewrap_verifies_the_header(self):
        """An identity of the caller with a wrong file key makes no header."""
        class Wrong:
            def unwrap(self, stanzas):
                return bytes(16)

        file, out = agefile.encrypt(b"text", recipients=KEY), io.BytesIO()
        self.assertRaisesRegex(AgeError, pattern("BadMac"), agefile.rewrap, file, identities=Wrong(), recipients=KEY)
        self.assertRaisesRegex(AgeError, pattern("BadMac"), agefile.rewrap_copy, io.BytesIO(file), out, identities=Wrong(), recipients=KEY)
        self.assertEqual(out.getvalue(), b"")

    def test_what_is_bytes_like(self):
        file = agefile.encrypt(b"text" * 100, recipients=KEY)
        with tempfile.TemporaryFile() as place:
            place.write(file)
            place.flush()
            with mmap.mmap(place.fileno(), 0, access=mmap.ACCESS_READ) as mapped:
                self.assertEqual(agefile.decrypt(mapped, identities=KEY), b"text" * 100)
        for kind in (bytearray, memoryview, lambda data: array.array("B", data)):
            self.assertEqual(agefile.decrypt(kind(file), identities=KEY), b"text" * 100)
        numbers = array.array("I", range(1000))
        self.assertEqual(agefile.decrypt(agefile.encrypt(numbers, recipients=KEY), identities=KEY), numbers.tobytes())
        for wrong in (5, None, memoryview(file)[::2]):
            self.assertRaises((TypeError, BufferError), agefile.decrypt, wrong, identities=KEY)
        with mock.patch.object(_library, "made", side_effect=AssertionError("another thread may change it")):
            self.assertEqual(agefile.decrypt(bytearray(agefile.encrypt(bytearray(b"text"), recipients=KEY)), identities=KEY), b"text")
        self.assertRaisesRegex(TypeError, r"pass text\.encode\(\)", agefile.encrypt, "text", recipients=KEY)
        self.assertRaisesRegex(TypeError, "its path to agefile.open", agefile.decrypt, "a.age", identities=KEY)

    def test_a_length_that_lies(self):
        class Liar(bytes):
            def __len__(self):
                return 1 << 40

        file = agefile.encrypt(Liar(b"text"), recipients=KEY)
        self.assertEqual(agefile.decrypt(Liar(file), identities=KEY), b"text")

    def test_memory_after_an_error(self):
        """The caller may change the arguments, although the error keeps the frames of the call."""
        file = bytearray(agefile.encrypt(bytes(200 * 65536), recipients=KEY))
        file[1000] ^= 1
        for threads in (1, 2):
            kept = None
            try:
                agefile.decrypt(file, identities=KEY, threads=threads)
            except AgeError as error:
                # assertRaises would clear the frames.
                kept = error
            file += b"more"
            for frame, _ in traceback.walk_tb(kept.__traceback__):
                for view in [value for value in frame.f_locals.values() if isinstance(value, memoryview)]:
                    with contextlib.suppress(ValueError):
                        self.assertIsNot(view.obj, file)


class Wrong(unittest.TestCase):
    def test_the_gravest_miss_of_several(self):
        """A wrong key is reported, wherever it is among identities without a stanza. The right one opens the
        file, wherever it is among wrong ones."""
        file, wrong, other = agefile.encrypt(b"", recipients=KEY), Key(bytes(32)), Passphrase("x")
        for identities in ([wrong, other], [other, wrong], [wrong], [other, wrong, other]):
            self.assertRaisesRegex(AgeError, pattern("WrongKey"), agefile.decrypt, file, identities=identities)
        self.assertRaisesRegex(AgeError, pattern("NoMatch"), agefile.decrypt, file, identities=[])
        for right, wrong in ((KEY, wrong), (Passphrase("x", work=1), Passphrase("y"))):
            file = agefile.encrypt(b"text", recipients=right)
            for identities in ([right, wrong], [wrong, right]):
                self.assertEqual(agefile.decrypt(file, identities=identities), b"text")

    def test_a_passphrase_beside_others(self):
        """A stanza of a passphrase that is not alone is refused, even if the identity ignores it."""
        file = agefile.encrypt(b"", recipients=Passphrase("x", work=1))
        for other in (b"--- ", b"-> scrypt "):
            mixed = file.replace(b"\n" + other, b"\n-> other\n\n" + other, 1)
            self.assertRaisesRegex(AgeError, pattern("MixedPassphrase"), agefile.decrypt, mixed, identities=mock.Mock(unwrap=lambda stanzas: None))

    def test_a_malformed_stanza(self):
        file = agefile.encrypt(b"", recipients=Passphrase("x", work=3))
        for work in (3, 9, 10, 20, 30):
            with self.assertRaisesRegex(AgeError, pattern("Malformed", "WorkFactorTooHigh")) as caught:
                agefile.decrypt(file.replace(b" 3\n", b" %d\n" % work), identities=Passphrase("x", max_work=2))
            self.assertEqual((caught.exception.code, caught.exception.detail), (Code.MALFORMED, 4))

    def test_words_that_are_refused(self):
        self.assertRaises(TypeError, agefile.encrypt, b"")
        self.assertRaises(TypeError, agefile.encrypt, b"", KEY)
        self.assertRaises(TypeError, agefile.encrypt, b"", recipients=[5])
        self.assertRaises(TypeError, agefile.copy, io.BytesIO(), io.BytesIO())
        for length in (0, 16, 31, 33, 64):
            self.assertRaises(ValueError, Key, bytes(length))
        self.assertRaises(ValueError, agefile.copy, io.BytesIO(), io.BytesIO(), recipients=KEY, threads=0)
        for work in (0, 31):
            self.assertRaises(AgeError, Passphrase, "x", work=work)
            self.assertRaises(AgeError, Passphrase, "x", max_work=work)
        for work in (1.5, 10.0, "10", None):
            self.assertRaises(TypeError, Passphrase, "x", work=work)
            self.assertRaises(TypeError, Passphrase, "x", max_work=work)

    def test_secrets_that_are_words(self):
        """A TypeError names the class for a passphrase or a key."""
        for secret in ("word", b"word", bytearray(b"word"), "", ["word"], [KEY, b"word"], 5):
            for call in (
                lambda: agefile.encrypt(b"", recipients=secret),
                lambda: agefile.decrypt(agefile.encrypt(b"", recipients=KEY), identities=secret),
            ):
                self.assertRaisesRegex(TypeError, r"agefile\.Passphrase\(\.\.\)", call)

    def test_an_empty_passphrase(self):
        """It makes no file in any way, and opens those that others made."""
        empty = Passphrase("", work=1)
        for call in (
            lambda: agefile.encrypt(b"text", recipients=empty),
            lambda: agefile.encrypt(b"text", recipients=Passphrase(b"", work=1)),
            lambda: agefile.copy(io.BytesIO(b"text"), io.BytesIO(), recipients=[empty]),
            lambda: agefile.open(io.BytesIO(), "wb", recipients=empty),
            lambda: agefile.rewrap(agefile.encrypt(b"", recipients=KEY), identities=KEY, recipients=empty),
            lambda: empty.wrap(bytes(16)),
        ):
            self.assertEqual(str(error_of(call)), "passphrase is empty")
        file = fixture.for_passphrase(b"hello\n", b"", 1)
        self.assertEqual(agefile.decrypt(file, identities=empty), b"hello\n")
        self.assertEqual(agefile.rewrap(file, identities=empty, recipients=KEY)[-22:], file[-22:])

    def test_help(self):
        """The example in the package's help is shown as it must be typed."""
        self.assertIn(r'notes.write("one\n")', pydoc.render_doc(agefile, renderer=pydoc.plaintext))

    def test_secrets_are_not_printed(self):
        for secret in (KEY, Passphrase("correct horse")):
            self.assertEqual(repr(secret), f"{type(secret).__name__}(..)")


class Callers(unittest.TestCase):
    """Recipients and identities of the caller, and a few facts on those of the package."""

    def test_an_interrupt_in_scrypt(self):
        """It ends the call at once, while scrypt runs on."""
        def interrupt(*_):
            raise KeyboardInterrupt

        self.addCleanup(signal.signal, signal.SIGALRM, signal.signal(signal.SIGALRM, interrupt))
        file, before = agefile.encrypt(b"text", recipients=Passphrase("x", work=18)), threading.active_count()
        for call in (lambda: agefile.encrypt(b"text", recipients=Passphrase("x")), lambda: agefile.decrypt(file, identities=Passphrase("y"))):
            signal.setitimer(signal.ITIMER_REAL, 0.2)
            self.assertRaises(KeyboardInterrupt, call)
            self.assertTrue(threading.enumerate()[-1].daemon, "the process would wait for it")
            while threading.active_count() > before:
                time.sleep(0.01)
        with mock.patch.object(threading.Thread, "start", side_effect=RuntimeError("can't start new thread")):
            self.assertEqual(agefile.decrypt(file, identities=Passphrase("x")), b"text")

    def test_the_same_key_for_all(self):
        class Plain:
            asked = 0

            def wrap(self, file_key):
                return [Stanza(("plain", "x"), file_key), Stanza(("grease",), bytes(100))]

            def unwrap(self, stanzas):
                self.asked += 1
                return next((body for args, body in stanzas if args[0] == "plain"), None)

        plain = Plain()
        file = agefile.encrypt(b"text", recipients=[KEY, plain])
        self.assertEqual(agefile.decrypt(file, identities=plain), b"text")
        self.assertEqual(agefile.decrypt(file, identities=[Key(bytes(32)), KEY]), b"text")
        self.assertEqual(agefile.decrypt(file, identities=[Key(bytes(32)), plain, KEY]), b"text")
        self.assertEqual(plain.asked, 2)
        kinds = [stanza.args[0] for stanza in agefile.inspect(file).stanzas]
        self.assertEqual(kinds[1:], ["plain", "grease"])

    def test_a_secret_is_an_identity(self):
        """It unwraps the stanzas of a header whose MAC is right, for other identities too."""
        other = mock.Mock(spec=["unwrap"], unwrap=lambda stanzas: KEY.unwrap(stanzas))
        self.assertEqual(agefile.decrypt(agefile.encrypt(b"text", recipients=KEY), identities=other), b"text")
        for secret, wrong in ((KEY, Key(bytes(32))), (Passphrase("x", work=1), Passphrase("y"))):
            self.assertEqual((isinstance(secret, agefile.Identity), isinstance(secret, agefile.Recipient)), (True, True))
            given = []
            file = agefile.encrypt(b"text", recipients=mock.Mock(spec=["wrap"], wrap=lambda key: given.append(key) or secret.wrap(key)))
            stanzas = agefile.inspect(file).stanzas
            self.assertEqual([each.unwrap(stanzas) for each in (secret, wrong, Key(bytes(32)), Passphrase("z"))], [*given, None, None, None])
            self.assertRaisesRegex(TypeError, "stanzas of a Header", secret.unwrap, [*stanzas])
            end = agefile.inspect(file).length - 1
            bad = file[: end - 43] + b"A" * 43 + file[end:]
            self.assertEqual(error_of(lambda: secret.unwrap(agefile.inspect(bad).stanzas)).code, Code.BAD_MAC)
            for length in (0, 15, 17):
                self.assertRaisesRegex(ValueError, f"16 bytes, not {length}", secret.wrap, bytes(length))

    def test_equal_secrets(self):
        """Objects are equal by settings and secret; the secrets are compared in constant time."""
        makers = [lambda: Key(bytes(32)), lambda: Key(bytes(range(32))), lambda: Passphrase(bytes(32)), lambda: Passphrase("x"), lambda: Passphrase("x", work=1), lambda: Passphrase("x", max_work=20)]
        for (i, one), (j, other) in itertools.product(enumerate(makers), repeat=2):
            self.assertEqual((one() == other(), one() != other()), (i == j, i != j))
        for make in makers:
            self.assertEqual({make(), make(), pickle.loads(pickle.dumps(make()))}, {make()})
            self.assertFalse(make() == make()._secret)
        with mock.patch("hmac.compare_digest", return_value=True) as compare:
            self.assertEqual((Key(bytes(32)) == KEY, compare.call_count), (True, 1))

    def test_a_wrong_file_key_is_found_by_the_mac(self):
        class Wrong:
            def __init__(self, length):
                self.unwrap = lambda stanzas: bytes(length)

        file = agefile.encrypt(b"text", recipients=KEY)
        self.assertEqual(error_of(lambda: agefile.decrypt(file, identities=Wrong(16))).code, Code.BAD_MAC)
        for length in (0, 15, 17):
            self.assertRaisesRegex(ValueError, f"16 bytes, not {length}", agefile.decrypt, file, identities=Wrong(length))

    def test_stanzas_that_are_refused(self):
        for args in ((), ("",), ("a b",), ("a", ""), ("ü",), ("a\n",), "X25519"):
            class Bad:
                def wrap(self, file_key):
                    return [Stanza(args, b"")]

            self.assertEqual(error_of(lambda: agefile.encrypt(b"", recipients=Bad())).code, Code.BAD_ARGUMENTS)


class Devices(unittest.TestCase):
    """Sources and sinks of the caller, which read and write as much as they like."""

    PLAIN = text(200000)

    def test_a_source_that_returns_too_much(self):
        """Nothing of it is dropped in silence."""
        error = in_time(lambda: agefile.copy(types.SimpleNamespace(read=lambda size: text(100000)), io.BytesIO(), recipients=KEY))
        self.assertEqual(str(error), "the read returned 100000, not 0 to 65536")

    def test_a_sink_that_returns_nothing(self):
        """If it is not a raw file, None means that it took all bytes."""
        taken = []
        agefile.copy(io.BytesIO(self.PLAIN), types.SimpleNamespace(write=lambda data: taken.append(bytes(data))), recipients=KEY)
        self.assertEqual(agefile.decrypt(b"".join(taken), identities=KEY) == self.PLAIN, True)

    def test_a_sink_of_short_writes_on_threads(self):
        """Each chunk of several batches is written as a whole; `copy` returns the length of all."""
        class Sink(io.BytesIO):
            def write(self, data):
                return super().write(data[: max(len(data) // 2, 1)])

        plain = text(200 * 65536 + 5)
        for threads in (1, 2):
            sealed, opened = Sink(), Sink()
            self.assertEqual(agefile.copy(io.BytesIO(plain), sealed, recipients=KEY, threads=threads), len(plain))
            self.assertEqual(agefile.copy(io.BytesIO(sealed.getvalue()), opened, identities=KEY, threads=threads), len(plain))
            self.assertEqual(opened.getvalue() == plain, True)

    def test_one_object_is_source_and_sink(self):
        """It would be overwritten while it is read. A socket may be both, because its two
        directions differ."""
        sealed = agefile.encrypt(self.PLAIN, recipients=KEY)
        both = io.BytesIO(sealed)
        for call in (
            lambda: agefile.copy(both, both, recipients=KEY),
            lambda: agefile.copy(both, both, identities=KEY),
            lambda: agefile.rewrap_copy(both, both, identities=KEY, recipients=KEY),
            lambda: agefile.copy(agefile.open(both, identities=KEY), both, recipients=KEY),
        ):
            both.seek(0)
            self.assertRaisesRegex(ValueError, "is the source", call)
            self.assertEqual(both.getvalue() == sealed, True)
        mine, other = socket.socketpair()
        with mine, other, mine.makefile("rwb") as pair:
            other.sendall(b"text")
            other.shutdown(socket.SHUT_WR)
            agefile.copy(pair, pair, recipients=KEY)
            pair.flush()
            self.assertEqual(agefile.decrypt(other.recv(1000), identities=KEY), b"text")

    def test_what_opens_the_sink(self):
        """Nothing is opened that would empty the source."""
        with tempfile.TemporaryDirectory() as folder:
            path = os.path.join(folder, "x")
            with open(path, "wb") as file:
                file.write(self.PLAIN)

            class Opener:
                fs, path = mock.Mock(local_file=True), os.path.join(folder, "x")

                def open(self):
                    return open(self.path, "wb")

            for error, sink in ((TypeError, lambda: open(path, "wb")), (TypeError, functools.partial(open, path, "wb")), (ValueError, Opener())):
                for call in (lambda: agefile.copy(path, sink, recipients=KEY), lambda: agefile.copy(open(path, "rb"), sink, recipients=KEY)):
                    self.assertRaises(error, call)
                    self.assertEqual(os.path.getsize(path), len(self.PLAIN))
            Opener.path = os.path.join(folder, "y")
            agefile.copy(path, Opener(), recipients=KEY)
            with agefile.open(Opener.path, identities=KEY) as file:
                self.assertEqual(file.read() == self.PLAIN, True)

    def test_wrappers_that_count(self):
        """Like those of tqdm, they count in one method, and pass the others on."""
        class Counting:
            def __init__(self, file, method):
                self.file, self.count = file, 0

                def counting(data):
                    result = getattr(file, method)(data)
                    self.count += len(data if method == "write" else result)
                    return result

                setattr(self, method, counting)

            def __getattr__(self, name):
                return getattr(self.file, name)

        sealed = agefile.encrypt(self.PLAIN, recipients=KEY)
        for threads in (1, 2):
            for data, words in ((self.PLAIN, {"recipients": KEY}), (sealed, {"identities": KEY})):
                source, sink = Counting(io.BytesIO(data), "read"), Counting(out := io.BytesIO(), "write")
                agefile.copy(source, sink, threads=threads, **words)
                self.assertEqual((source.count, sink.count), (len(data), len(out.getvalue())))
        source, sink = Counting(io.BytesIO(sealed), "read"), Counting(out := io.BytesIO(), "write")
        agefile.rewrap_copy(source, sink, identities=KEY, recipients=KEY)
        self.assertEqual((source.count, sink.count), (len(sealed), len(out.getvalue())))

    def test_a_sink_without_a_descriptor(self):
        for found in (lambda: -1, mock.Mock(side_effect=NotImplementedError), lambda: "none"):
            class Sink(io.BytesIO):
                fileno = staticmethod(found)

            agefile.copy(open(os.devnull, "rb"), sink := Sink(), recipients=KEY)
            self.assertEqual(agefile.decrypt(sink.getvalue(), identities=KEY), b"")

    def test_a_pipe_that_would_block(self):
        """It has not ended, so no part of it is taken for the whole."""
        file = agefile.encrypt(self.PLAIN, recipients=KEY)
        for first, call in (
            (file[:100], lambda source: agefile.rewrap_copy(source, io.BytesIO(), identities=KEY, recipients=KEY)),
            (file[:100], lambda source: agefile.copy(source, io.BytesIO(), identities=KEY)),
            (file[:30000], lambda source: agefile.rewrap_copy(source, io.BytesIO(), identities=KEY, recipients=KEY)),
            (file[:30000], lambda source: agefile.copy(source, io.BytesIO(), identities=KEY)),
            (b"a part", Passphrase.from_file),
        ):
            for opened in (
                lambda source: source, lambda source: open(source, "rb", closefd=False), lambda source: open(source, "rb", 0, closefd=False),
                lambda source: types.SimpleNamespace(read=open(source, "rb", 0, closefd=False).read),
            ):
                source, sink = os.pipe()
                os.set_blocking(source, False)
                os.write(sink, first)
                self.assertIsInstance(in_time(lambda: call(opened(source))), BlockingIOError)
                os.close(source)
                os.close(sink)

    def test_a_file_in_two_pieces(self):
        """A pipe has the first bytes of a file, then some more, and stays open: a fault is reported
        as soon as these bytes decide it."""
        key = agefile.encrypt(b"", recipients=KEY)
        length = agefile.inspect(key).length
        bad = b"age-encryption.org/v1\n-> a\n\nbad line\n"
        rows = [(key[:length], cut, Code.WRONG_KEY) for cut in range(1, length)]
        rows += [(bad, cut, Code.BAD_LINE) for cut in range(1, len(bad))]
        rows += [(b"age-encryption.org/v2\n", cut, Code.NOT_AGE) for cut in range(1, 22)]
        for front, cut, code in rows:
            with self.subTest(f"{code!r}, cut at {cut}"):
                self.assertEqual(in_time(lambda: self.opened_in_pieces(front[:cut], front[cut:]), 5).code, code)

    def test_a_great_header_by_single_bytes(self):
        """A header of 65,536 single bytes is read in less than 10 s."""
        head = b"age-encryption.org/v1\n" + b"-> a\n\n" * 10911 + b"--- " + b"A" * 43 + b"\n"
        found = agefile.inspect(head)
        self.assertEqual((len(found.stanzas), found.length, found.mac), (10911, len(head), bytes(32)))
        began = time.process_time()
        error = self.opened_in_pieces(*(head[at : at + 1] for at in range(len(head))))
        self.assertEqual(error.code, Code.NO_MATCH)
        self.assertLess(time.process_time() - began, 10)

    def opened_in_pieces(self, *pieces):
        class Waits(Exception):
            """The pipe has no more bytes."""

        class Pipe:
            def __init__(self):
                self.pieces = list(pieces)

            def read(self, size):
                if not self.pieces:
                    raise Waits
                return self.pieces.pop(0)

        try:
            agefile.copy(Pipe(), io.BytesIO(), identities=Key(bytes(32)))
        except AgeError as error:
            return error

    def test_a_chunk_that_a_byte_follows(self):
        """The text of a chunk is written once the next byte has arrived, which shows that the chunk
        is not the last one."""
        file = agefile.encrypt(self.PLAIN, recipients=KEY)
        read, write = os.pipe()
        out, seen = io.BytesIO(), threading.Event()
        first = agefile.inspect(file).length + 16 + 65552

        class Sink:
            def write(self, data):
                seen.set()
                return out.write(data)

        def work():
            with open(read, "rb", 0) as source:
                agefile.copy(source, Sink(), identities=KEY)

        thread = threading.Thread(target=work, daemon=True)
        thread.start()
        with open(write, "wb", 0) as sink:
            sink.write(file[: first + 1])
            self.assertTrue(seen.wait(20))
            self.assertEqual(out.getvalue() == self.PLAIN[:65536], True)
            sink.write(file[first + 1 :])
        thread.join(20)
        self.assertEqual(out.getvalue() == self.PLAIN, True)


class Processes(unittest.TestCase):
    def test_the_library_that_is_taken(self):
        """The library in the package, else the one that AGEFILE_LIBRARY names."""
        inside = os.path.join(os.path.dirname(agefile.__file__), "lib")
        words = [sys.executable, "-c", "import agefile"]
        done = subprocess.run(words, capture_output=True, text=True, env=os.environ | {"AGEFILE_LIBRARY": "/absent.so"})
        if os.path.exists(inside):
            self.assertEqual((done.returncode, done.stderr), (0, ""))
        else:
            self.assertIn("/absent.so", done.stderr)

    def test_memory_that_is_refused(self):
        """If scrypt gets no memory, a MemoryError with code 17 is raised."""
        code = (
            "import agefile, resource\n"
            "head = '-> scrypt ' + 'A' * 22 + ' 20\\n' + 'A' * 43 + '\\n--- ' + 'A' * 43 + '\\n'\n"
            "resource.setrlimit(resource.RLIMIT_AS, (1 << 29, 1 << 29))\n"
            "try: agefile.decrypt(b'age-encryption.org/v1\\n' + head.encode(), identities=agefile.Passphrase('x'))\n"
            "except MemoryError as error: print(repr(error.code), error)\n"
        )
        done = subprocess.run([sys.executable, "-c", code], capture_output=True, text=True)
        self.assertEqual((done.stdout, done.stderr), (f"<Code.OUT_OF_MEMORY: 17> {message('OutOfMemory')}\n", ""))


# Prints by how many KiB a call raises the peak memory of its process. The call may use `key`, and
# `name` and `data`: a file and its bytes.
PEAK = """
import agefile, re, shutil, sys
key, name = agefile.Key(bytes(range(32))), sys.argv[1]
data = open(name, "rb").read() if "(data" in sys.argv[2] else None
peak = lambda: int(re.search(r"VmHWM:\\s*(\\d+)", open("/proc/self/status").read())[1])
before = peak()
exec(sys.argv[2])
print(peak() - before)
"""


class Costs(unittest.TestCase):
    MIB = 64

    @classmethod
    def setUpClass(cls):
        folder = tempfile.TemporaryDirectory()
        cls.addClassCleanup(folder.cleanup)
        cls.plain, cls.made = folder.name + "/plain", folder.name + "/made"
        with open(cls.plain, "wb") as file:
            file.write(bytes(cls.MIB << 20))
        with open(cls.plain, "rb") as source, open(cls.made, "wb") as sink:
            agefile.copy(source, sink, recipients=KEY)

    def peak_of(self, name, code):
        done = subprocess.run([sys.executable, "-c", PEAK, name, code], capture_output=True, text=True, check=True)
        return int(done.stdout) / 1024

    def test_one_copy_of_the_result(self):
        """Whole buffers take the memory of their result and less than 16 MiB more, even with
        threads."""
        for name, code in (
            (self.made, "agefile.decrypt(data, identities=key)"), (self.made, "agefile.decrypt(data, identities=key, threads=2)"),
            (self.plain, "agefile.encrypt(data, recipients=key)"), (self.plain, "agefile.encrypt(data, recipients=key, threads=2)"),
            (self.made, "agefile.open(name, identities=key).read()"),
            (self.made, "file = agefile.open(name, identities=key); file.readline(10); file.read()"),
        ):
            with self.subTest(code):
                self.assertLess(self.peak_of(name, code), self.MIB + 16)

    def test_constant_memory(self):
        """Streams of 64 MiB take less than 16 MiB, even from and to pipes."""
        for name, code in (
            (self.made, "shutil.copyfileobj(agefile.open(name, identities=key), open('/dev/null', 'wb'))"),
            (self.plain, "shutil.copyfileobj(open(name, 'rb'), agefile.open('/dev/null', 'wb', recipients=key))"),
            (self.plain, "agefile.copy(open(name, 'rb'), open('/dev/null', 'wb'), recipients=key)"),
            (self.made, "agefile.copy(open(name, 'rb'), open('/dev/null', 'wb'), identities=key)"),
            (self.made, "agefile.copy(open(name, 'rb'), open('/dev/null', 'wb'), identities=key, threads=2)"),
            (self.plain, "agefile.copy(open(name, 'rb'), open('/dev/null', 'wb'), recipients=key, threads=2)"),
            (self.made, "import subprocess; agefile.copy(subprocess.Popen(['cat', name], stdout=subprocess.PIPE).stdout, "
                "subprocess.Popen('cat >/dev/null', shell=True, stdin=subprocess.PIPE).stdin, identities=key)"),
        ):
            with self.subTest(code):
                self.assertLess(self.peak_of(name, code), 16)

    def test_more_threads_than_there_is_to_do(self):
        """Threads take memory only for their work, and there are no more than processors."""
        for code in (
            "agefile.encrypt(bytes(1), recipients=key, threads=500)",
            "agefile.encrypt(bytes(1 << 18), recipients=key, threads=2000)",
            "agefile.decrypt(agefile.encrypt(bytes(1 << 18), recipients=key), identities=key, threads=2000)",
        ):
            with self.subTest(code):
                self.assertLess(self.peak_of(self.plain, code), 16)
        most = 4 * 2 * (os.cpu_count() or 1) + 16
        self.assertLess(self.peak_of(self.plain, "agefile.copy(open(name, 'rb'), open('/dev/null', 'wb'), recipients=key, threads=2000)"), most)
