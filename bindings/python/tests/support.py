"""Shared by the tests of the package: among others a key, texts, damage, threads and devices."""

import collections
import concurrent.futures
import errno
import functools
import io
import os
import re
import sys
import tempfile
import threading
import unittest

import agefile
from agefile import AgeError, Key

ROOT = os.path.join(os.path.dirname(os.path.abspath(__file__)), "../../..")
sys.path.append(os.path.join(ROOT, "tests"))
from messages import message, pattern

AGEP = os.path.join(ROOT, "crates/agep/out/agep")
KEY = Key(bytes(range(32)))
TEXT, SEALED = 65536, 65552


@functools.lru_cache
def text(length):
    return bytes(i * 7 + i // 251 & 255 for i in range(length))


def program(number, **places):
    """The Python program of this number in the package's README.md, with its folders replaced."""
    with open(os.path.join(ROOT, "bindings/python/README.md"), encoding="utf-8") as page:
        found = re.findall(r"^```python\n(.*?)^```$", page.read(), re.MULTILINE | re.DOTALL)[number - 1]
    for name, place in places.items():
        found = found.replace(f"/{name}", place)
    return found


def damaged(file, *chunks):
    """The age file with a byte of each of these chunks changed."""
    found, first = bytearray(file), agefile.inspect(file).length + 16
    for chunk in chunks:
        found[first + chunk * SEALED + 5] ^= 1
    return bytes(found)


def copied(data, **words):
    """What `copy` makes of these bytes."""
    out = io.BytesIO()
    agefile.copy(io.BytesIO(data), out, **words)
    return out.getvalue()


def in_threads(work, count=4):
    """The results of the function in this many threads at once."""
    start = threading.Barrier(count)
    with concurrent.futures.ThreadPoolExecutor(count) as pool:
        futures = [pool.submit(lambda: (start.wait(), work())[1]) for _ in range(count)]
        return [future.result() for future in futures]


def in_time(work, seconds=20):
    """Returns the function's result or Exception. AssertionError if there is none in time."""
    found = []

    def run():
        try:
            found.append(work())
        except Exception as error:
            found.append(error)

    thread = threading.Thread(target=run, daemon=True)
    thread.start()
    thread.join(seconds)
    if not found:
        raise AssertionError(f"not done in {seconds} seconds")
    return found[0]


def in_child(work):
    """The status of a forked child that ends with the result of the function, or with 1 if it raises."""
    child = os.fork()
    if child == 0:
        status = 1
        try:
            status = work() or 0
        finally:
            os._exit(status)
    return os.waitpid(child, 0)[1]


def broken(file, data):
    """Writes to a file whose `with` statement then raises."""
    with unittest.TestCase().assertRaises(KeyError), file as opened:
        opened.write(data)
        raise KeyError


def error_of(call, kind=AgeError):
    """The error that the call raises."""
    with unittest.TestCase().assertRaises(kind) as caught:
        call()
    return caught.exception


def fault_of(call, kind=AgeError):
    """The code and the place of the error that the call raises."""
    error = error_of(call, kind)
    return error.code, error.place


class Device(io.RawIOBase):
    """A file in memory. Its call of this kind and number fails and, without `once`, so do later ones: a call raises an
    exception, or returns what a function makes of the number of bytes asked for. Bad blocks of 512 bytes cannot be
    read: with `ends_before` a read ends before one, and fails if it begins in one; else it fails if it reaches one."""

    def __init__(self, data=b"", kind="", number=0, failure=None, once=True, most=40000, bad=(), ends_before=True, can_seek=True):
        self.below, self.most, self.fault, self.once = io.BytesIO(data), most, (kind, failure), once
        self.first, self.is_closing = number, False
        self.bad, self.ends_before, self.seekable = set(bad), ends_before, lambda: can_seek
        # How many calls of each kind were made, and the file's offset at those that failed.
        self.calls, self.failed = collections.Counter(), []

    def fails(self, kind):
        number, self.calls[kind] = self.calls[kind], self.calls[kind] + 1
        if kind != self.fault[0] or not (number == self.first if self.once else number >= self.first):
            return False
        self.failed.append(self.below.tell())
        if isinstance(self.fault[1], BaseException):
            raise self.fault[1]
        return True

    def readinto(self, room):
        if self.fails("read"):
            return self.fault[1](len(room))
        at = self.below.tell()
        reached = at + (1 if self.ends_before else len(room))
        if any(at // 512 <= block and 512 * block < reached for block in self.bad):
            self.failed.append(at)
            raise OSError(errno.EIO, "Input/output error")
        ends = [512 * block - at for block in self.bad if 512 * block > at]
        return self.below.readinto(memoryview(room)[: min([self.most, *ends])])

    def write(self, data):
        if self.fails("write"):
            return self.fault[1](len(data))
        return self.below.write(bytes(data[: self.most]))

    def seek(self, at, whence=0):
        if self.fails("seek") or not self.seekable():
            raise io.UnsupportedOperation("seek")
        return self.below.seek(at, whence)

    def tell(self):
        return self.below.tell()

    def flush(self):
        if not self.is_closing:
            self.fails("flush")

    def close(self):
        self.is_closing = True
        super().close()

    def readable(self):
        return True

    writable = readable

    def __str__(self):
        kind, failure = self.fault
        said = repr(failure) if isinstance(failure, BaseException) else f"{failure(1)!r} of 1"
        return f"{kind} {self.first}{'' if self.once else ' and all later'}: {said}"


class InFolder(unittest.TestCase):
    """A test with its own folder, where it makes files."""

    def setUp(self):
        folder = tempfile.TemporaryDirectory()
        self.addCleanup(folder.cleanup)
        self.addCleanup(os.chdir, os.getcwd())
        os.chdir(folder.name)

    def made(self, plain, name="a.age", recipients=KEY):
        return self.put(agefile.encrypt(plain, recipients=recipients), name)

    def put(self, data, name="a.age"):
        with open(name, "wb") as file:
            file.write(data)
        return name

    def written(self, data, name, mode="wb", **words):
        """Writes a new file with this plaintext."""
        with agefile.open(name, mode, **{"recipients": KEY, **words}) as file:
            file.write(data)

    def read(self, file, mode="rb", **words):
        """The plaintext of a file."""
        with agefile.open(file, mode, **{"identities": KEY, **words}) as opened:
            return opened.read()

    def got(self, name):
        with open(name, "rb") as file:
            return file.read()

    def refused(self, name):
        """The code with which `decrypt` refuses the file. `open` must refuse it too."""
        self.assertRaises(AgeError, agefile.open, name, identities=KEY)
        return error_of(lambda: agefile.decrypt(self.got(name), identities=KEY)).code
