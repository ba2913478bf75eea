"""The reads, writes, seeks and flushes of a caller's file fail in turn, in many ways. The expected outcome follows
from the bytes read or written."""

import contextlib
import errno
import functools
import io
import itertools
import unittest

import agefile
from agefile import AgeError, Key, LostChunks
from support import KEY, SEALED, TEXT, Device, in_time, text

OTHER = Key(bytes(32))
PLAIN = text(2 * TEXT + 1000)
FILE = agefile.encrypt(PLAIN, recipients=KEY)
FRONT = agefile.inspect(FILE).length + 16
OF_SYSTEM = {type(error): error for error in (OSError(number, "failed") for number in errno.errorcode)}.values()
RAISED = [*OF_SYSTEM, RuntimeError("failed"), EOFError("failed"), MemoryError("failed"), KeyboardInterrupt("failed")]
EARLIER = "an earlier write failed, so this file stays without its end"
BINARY, LATIN = {"mode": "wb"}, {"mode": "w", "encoding": "latin-1", "newline": ""}
# Wrong results in place of a count of bytes, each a function of the count asked for.
WRONG = [lambda count: None, lambda count: -1, lambda count: count + 1, lambda count: "all"]


def each(kind, run, data=b"", failures=RAISED):
    """Devices that fail at each call of this kind that a run makes, in each way, once or from it on."""
    whole = Device(data)
    run(whole)
    assert whole.calls[kind] > 0
    for number, failure, once in itertools.product(range(whole.calls[kind]), failures, (True, False)):
        yield Device(data, kind, number, failure, once)


def opened(given):
    """The length of the text of the chunks that have a byte after them within the first `given` bytes."""
    return max(given - FRONT - 1, 0) // SEALED * TEXT


def is_refused(file, identity):
    with contextlib.suppress(AgeError):
        agefile.decrypt(file, identities=identity)
        return False
    return True


def outcome(work, *devices):
    """The result of the function, or its exception, which must come in time."""
    def run():
        try:
            return work(*devices)
        except BaseException as error:
            return error

    return in_time(run)


# Each way from a source to a sink: the function, what its source has, and the key of the result, if it is encrypted.
COPIES = {
    "copy, decrypt": (lambda source, sink: agefile.copy(source, sink, identities=KEY), FILE, None),
    "copy, decrypt, 2 threads": (lambda source, sink: agefile.copy(source, sink, identities=KEY, threads=2), FILE, None),
    "copy, encrypt": (lambda source, sink: agefile.copy(source, sink, recipients=OTHER), PLAIN, OTHER),
    "copy, encrypt, 2 threads": (lambda source, sink: agefile.copy(source, sink, recipients=OTHER, threads=2), PLAIN, OTHER),
    "rewrap_copy": (lambda source, sink: agefile.rewrap_copy(source, sink, identities=KEY, recipients=OTHER), FILE, OTHER),
    "salvage": (lambda source, sink: agefile.salvage(source, sink, identities=KEY), FILE, None),
}


class Devices(unittest.TestCase):
    def assert_error(self, found, device):
        """The exception must be the device's own. A wrong count of bytes must raise one, too."""
        failure = device.fault[1]
        self.assertIsInstance(found, BaseException, f"{device}: {found!r}")
        if isinstance(failure, BaseException):
            self.assertIs(found, failure, device)
        elif failure(1) is None:
            self.assertIsInstance(found, BlockingIOError, device)

    def assert_part(self, name, key, made):
        """The plaintext or the rewrapped payload is a start of the whole, and a new file is refused."""
        if name == "rewrap_copy":
            # It does not open the chunks. The new header is as long as the old one.
            self.assertTrue(FILE[FRONT - 16 :].startswith(made[FRONT - 16 :]))
        elif key:
            self.assertTrue(is_refused(made, key))
        else:
            self.assertTrue(PLAIN.startswith(made) and len(made) < len(PLAIN))

    def test_whole(self):
        """Nothing fails, and each call takes at most `most` bytes."""
        for (name, (work, data, key)), most in itertools.product(COPIES.items(), (9000, 40000, 1 << 20)):
            with self.subTest(f"{name}, {most} bytes a call"):
                sink = Device(most=most)
                found = work(Device(data, most=most), sink)
                made = sink.below.getvalue()
                self.assertEqual((agefile.decrypt(made, identities=key) if key else made) == PLAIN, True)
                self.assertEqual(found.whole if name == "salvage" else found, {"salvage": True, "rewrap_copy": None}.get(name, len(PLAIN)))

    def test_sources(self):
        """The error is that of the read, and what was written is a part."""
        for name, (work, data, key) in COPIES.items():
            for device in each("read", lambda source: work(source, io.BytesIO()), data, [*RAISED, *WRONG]):
                if name != "salvage" and device.once:
                    with self.subTest(f"{name}, {device}"):
                        self.assert_error(outcome(work, device, sink := io.BytesIO()), device)
                        self.assert_part(name, key, sink.getvalue())
                        if name == "copy, decrypt":
                            self.assertEqual(len(sink.getvalue()), opened(device.failed[0]))

    def test_salvage(self):
        """An OSError of a read after the nonce costs its chunk, unless the read would block or was interrupted."""
        for device in each("read", lambda source: agefile.salvage(source, io.BytesIO(), identities=KEY), FILE):
            with self.subTest(str(device)):
                found = outcome(COPIES["salvage"][0], device, sink := io.BytesIO())
                self.judge_salvage(device, found, sink.getvalue())

    def judge_salvage(self, device, found, made):
        at, error = device.failed[0], device.fault[1]
        if at < FRONT or not isinstance(error, OSError) or isinstance(error, (BlockingIOError, InterruptedError)):
            self.assert_error(found, device)
            self.assertEqual(made == PLAIN[: opened(at)], True)
            return
        chunks = range((at - FRONT) // SEALED, (at - FRONT) // SEALED + 1 if device.once else 3)
        start, end = chunks.start * TEXT, min(chunks.stop * TEXT, len(PLAIN))
        is_lost = at < len(FILE)
        self.assertEqual(made == (PLAIN[:start] + bytes(end - start) + PLAIN[end:] if is_lost else PLAIN), True)
        self.assertEqual((found.whole, found.lost), (not is_lost, (LostChunks(chunks, start, end - start, True),) * is_lost))

    def test_ranges(self):
        """A failed call returns no wrong byte, then or later, and keeps the position."""
        for kind in ("read", "seek"):
            for device in each(kind, lambda source: self.read_ranges(agefile.open(source, identities=KEY), source), FILE, RAISED[:-1]):
                with self.subTest(str(device)):
                    file = outcome(lambda: agefile.open(device, identities=KEY))
                    if isinstance(file, BaseException):
                        self.assert_error(file, device)
                    else:
                        self.read_ranges(file, device)

    def read_ranges(self, file, device):
        errors = 0
        for at in (0, TEXT, 5, TEXT + 5, 2 * TEXT, 9, 2 * TEXT + 9, TEXT - 4, TEXT, 0):
            file.seek(at)
            found = outcome(lambda: file.read(10))
            if found != PLAIN[at : at + 10]:
                self.assert_error(found, device)
                self.assertEqual(file.tell(), at)
                errors += 1
        self.assertIn(errors, range(1, 2 if device.once else 11) if device.failed else range(1))

    def test_sinks(self):
        """The error is that of the write, and what was written is a part."""
        wrong = [*WRONG, lambda count: 0]
        for name, (work, data, key) in COPIES.items():
            for device in each("write", lambda sink: work(Device(data), sink), b"", [*RAISED, *wrong]):
                if device.once:
                    with self.subTest(f"{name}, {device}"):
                        self.assert_error(outcome(work, Device(data), device), device)
                        self.assert_part(name, key, device.below.getvalue())

    def written(self, file):
        """Writes a file, and goes on after each error. Returns the errors."""
        plain = PLAIN if "b" in file.mode else PLAIN.decode("latin-1")
        writes = (functools.partial(file.write, plain[at : at + 9999]) for at in range(0, len(plain), 9999))
        results = [outcome(call) for call in (file.flush, *writes, file.commit)]
        return [result for result in results if isinstance(result, BaseException)]

    def test_writers(self):
        """After a failed write a Writer refuses further ones. A file that it opened is flushed with each write. Its buffer
        repeats a write that was interrupted, and has an error of its own for one that would block."""
        for kind, is_owned, words in (("write", False, BINARY), ("write", True, BINARY), ("flush", True, BINARY), ("write", False, LATIN), ("flush", True, LATIN)):
            new = lambda device: agefile.open((lambda: device) if is_owned else device, recipients=OTHER, **words)
            for device in each(kind, lambda device: self.written(new(device)), b"", [*RAISED, *WRONG * (kind == "write")]):
                with self.subTest(f"{words['mode']}, {device}"):
                    self.judge_writer(new(device), device)

    def judge_writer(self, file, device):
        first, *more = self.written(file)
        if str(first) != EARLIER and not isinstance(first, BlockingIOError):
            self.assert_error(first, device)
        said = {str(error) for error in more if not isinstance(error, BlockingIOError)}
        self.assertLessEqual(said, {EARLIER, str(device.fault[1]), *["I/O operation on closed file", "I/O operation on closed file."] * (file.mode == "w")})
        self.assertTrue(file.closed)
        made = device.below.getvalue()
        # A failed flush may follow the last chunk, or be part of no write.
        self.assertTrue(is_refused(made, OTHER) or device.fault[0] == "flush" and agefile.decrypt(made, identities=OTHER) == PLAIN)

    def test_flushes(self):
        """In binary mode a failed flush of a caller's own file costs nothing."""
        for failure in RAISED:
            device = Device(b"", "flush", 0, failure)
            with agefile.open(device, "wb", recipients=OTHER) as file:
                file.write(PLAIN[:70000])
                with self.assertRaises(type(failure)):
                    file.flush()
                file.write(PLAIN[70000:])
            self.assertEqual(agefile.decrypt(device.below.getvalue(), identities=OTHER) == PLAIN, True)
