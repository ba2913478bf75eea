"""The plaintext of an age file as a seekable file, which opens the chunks read, and the last."""

from __future__ import annotations

import contextlib
import ctypes
import io
import os
import stat
import threading
from collections.abc import Iterator
from typing import TYPE_CHECKING, Any, BinaryIO, TypeVar

from . import _library as lib
from ._errors import AgeChangedError, AgeError, Code
from ._paths import BinaryBase, is_open, name_of, named, opened, raw_of, with_name
from ._payload import Chunk, Front
from ._secrets import Identities
from ._sources import flat, read_into

_Result = TypeVar("_Result")


class _Source:
    """The file below, which is read at offsets, and its opener. The file's own position may be
    anywhere: forked processes and other readers of the same file object move it."""

    def __init__(self, file: BinaryIO, opener: Any, owned: bool) -> None:
        self.file, self.opener, self._owned, self._at = file, opener, owned, 0
        self._raw = raw_of(file)
        if self._raw:
            file.flush()
        found = os.fstat(self._raw.fileno()) if self._raw else None
        if found and stat.S_ISREG(found.st_mode):
            self.length = found.st_size
        else:
            if not getattr(file, "seekable", lambda: True)():
                raise io.UnsupportedOperation("a file that cannot seek is read by agefile.copy")
            file.seek(0, os.SEEK_END)
            self.length = file.tell()
        if guarded := getattr(opener, "guarded", None):
            setattr(self, "read_at", guarded(self.read_at))

    def read_at(self, offset: int, room: memoryview) -> int:
        """Reads until the room is full or the file ends."""
        if self._raw is None:
            self.file.seek(offset)
            return read_into(self.file, room)
        count = done = os.preadv(self._raw.fileno(), (room,), offset)
        while 0 < count and done < len(room):
            count = os.preadv(self._raw.fileno(), (room[done:],), offset + done)
            done += count
        return done

    def read(self, size: int) -> bytes:
        """Reads the next bytes, beginning with the first of the file."""
        room = bytearray(min(size, max(self.length - self._at, 0)))
        count = self.read_at(self._at, memoryview(room))
        self._at += count
        return bytes(room[:count])

    def close(self) -> None:
        if self._owned:
            self.file.close()


class _Chunks:
    """The plaintext of an age file in chunks. The chunk opened last is kept."""

    def __init__(self, source: _Source, ranges: lib.Ranges, name: Any) -> None:
        self.source, self.ranges, self.name = source, ranges, name
        room = max(min(ranges.sealed_len, lib.SEALED_CHUNK), 1)
        self._chunk, self._number, self._len = Chunk(room), -1, 0
        self._open = lib.for_chunks("ranges_chunk", ranges)
        self._first: int = ranges.first
        self._sealed_len: int = ranges.sealed_len
        self._lock = threading.Lock()
        # What made a thread's read short: the error of a chunk, the source or a signal's handler.
        self.errors: dict[int, Exception] = {}
        self._open_last()

    def _open_last(self) -> None:
        """Opens the last chunk, whose tag proves where the plaintext ends."""
        before = max(self._sealed_len - 1, 0) // lib.SEALED_CHUNK
        length = self._read(before)
        words = ctypes.byref(self.ranges), self._chunk.base, length
        self.length: int = lib.check("ranges_last", *words).len
        self._number, self._len = before, self.length - before * lib.TEXT_CHUNK

    def _read(self, number: int) -> int:
        """Reads a sealed chunk into the room of the one that was kept, and returns its length."""
        self._number = -1
        at, room = number * lib.SEALED_CHUNK, self._chunk.view
        if self._sealed_len - at < lib.SEALED_CHUNK:
            room = room[: self._sealed_len - at]
        length = self.source.read_at(self._first + at, room)
        if length != len(room):
            raise AgeChangedError(Code.CHUNK_SHORT, number)
        return length

    def _piece(self, at: int) -> memoryview:
        """The text from this offset, which must be below `length`, to the end of its chunk."""
        number, start = divmod(at, lib.TEXT_CHUNK)
        if number != self._number:
            length = self._read(number)
            self._len = self._open(number * lib.TEXT_CHUNK, self._chunk.base, length)
            self._number = number
        return self._chunk.view[start : self._len]

    def fill(self, room: memoryview, at: int, least: int) -> int:
        """Copies text from an offset on until the room is full or the plaintext ends. An Exception
        is kept if `least` is 0; else raised, except an AgeError after `least` bytes or more."""
        done, wanted = 0, min(len(room), self.length - at)
        with self._lock:
            try:
                while done < wanted:
                    piece = self._piece(at + done)[: wanted - done]
                    room[done : done + len(piece)] = piece
                    done += len(piece)
            except Exception as error:
                with_name(error, self.name)
                if done < least or least and not isinstance(error, AgeError):
                    raise
                if not least:
                    self.errors.setdefault(threading.get_ident(), error)
        return done


class _Plaintext(io.RawIOBase):
    """A plaintext as a raw file. `readinto` ends before a bad chunk, and raises its error if fewer
    than `least` bytes come before it; `readall` raises it unless `least` is 0. `least` is 1, or 0
    under a buffer: an exception would make the buffer lose bytes that it has read."""

    def __init__(self, chunks: _Chunks, least: int) -> None:
        self.chunks, self._least, self.position = chunks, least, 0

    def readinto(self, room: Any) -> int:
        """Fills a room of more than 64 KiB; a smaller one only up to the end of the chunk."""
        self.readable()
        most = lib.TEXT_CHUNK - self.position % lib.TEXT_CHUNK
        with flat(room) as view, view[: most if len(view) <= lib.TEXT_CHUNK else None] as part:
            # A traceback must not keep a view of memory that is not Python's.
            del room
            count = self.chunks.fill(part, self.position, min(self._least, len(part)))
        self.position += count
        return count

    def readall(self) -> bytes:
        self.readable()
        out = lib.fresh_bytes(max(self.chunks.length - self.position, 0))
        count = self.chunks.fill(lib.view_of(out), self.position, self._least * len(out))
        self.position += count
        return out if count == len(out) else out[:count]

    def seek(self, offset: int, whence: int = os.SEEK_SET) -> int:
        self.readable()
        starts = {os.SEEK_SET: 0, os.SEEK_CUR: self.position, os.SEEK_END: self.chunks.length}
        if whence not in starts:
            raise ValueError(f"unknown whence: {whence}")
        if starts[whence] + offset < 0:
            raise ValueError(f"negative position: {starts[whence] + offset}")
        self.position = starts[whence] + offset
        return self.position

    def tell(self) -> int:
        self.readable()
        return self.position

    def readable(self) -> bool:
        if self.closed:
            raise ValueError("I/O operation on closed file")
        return True

    seekable = readable

    def close(self) -> None:
        super().close()
        self.chunks.source.close()


class Reader(BinaryBase):
    """The plaintext of an age file, as a seekable binary file.

    Opens only the last chunk and the chunks read, so damage in others is not noticed. A call that
    needs a damaged chunk raises AgeError each time, and the position stays. Calls whose results may
    be short, such as `read1`, `peek` and `raw.readinto`, first return the bytes before the chunk.

    A Reader opened from a path or a picklable opener can be pickled, for example for workers. The
    pickle contains the key of the payload: whoever has it can read the file. The unpickled Reader
    opens the file again, without scrypt, at its first call, which raises the error if that fails.
    """

    mode = "rb"
    raw: _Plaintext

    def __init__(self, chunks: _Chunks) -> None:
        self._chunks, self.name, self.raw = chunks, chunks.name, _Plaintext(chunks, 1)
        self._below = _Plaintext(chunks, 0)
        self._buffer = io.BufferedReader(self._below, max(min(chunks.length, lib.TEXT_CHUNK), 1))
        self._errors = chunks.errors
        # Within a call no other thread may move the position.
        self._lock = threading.RLock()

    def __repr__(self) -> str:
        return f"<agefile.Reader name={self.name!r} mode={self.mode!r}>"

    @property
    def encrypted(self) -> BinaryIO:
        """The age file itself, encrypted."""
        return self._chunks.source.file

    def __reduce_ex__(self, protocol: Any) -> tuple[Any, ...]:
        return _reopen, (*self.again(), self.tell())

    def again(self) -> tuple[Any, bytes]:
        """What is needed to open the same plaintext again without identities: the opener, and the
        payload's key with the offsets of its chunks."""
        if self._chunks.source.opener is None:
            raise TypeError("a file that was opened over a file object cannot be pickled")
        return self._chunks.source.opener, bytes(self._chunks.ranges)

    @property
    def length(self) -> int:
        """The length of the plaintext in bytes."""
        return self._chunks.length

    def _or_error(self, found: _Result, count: int) -> _Result:
        """Returns a result of this many bytes, or restores the position and raises the error."""
        error = self._errors.pop(threading.get_ident(), None)
        if error is None:
            return found
        self.seek(-count, os.SEEK_CUR)
        try:
            raise error
        finally:
            del error

    def read(self, size: int | None = -1, /) -> bytes:
        with self._lock:
            if size is None or size < 0:
                # Joining the buffered bytes and the rest would make a second copy.
                at = self.tell()
                size = -1 if at == self._below.position else max(self.length - at, 0)
            found = self._buffer.read(size)
            return self._or_error(found, len(found))

    def read1(self, size: int = -1, /) -> bytes:
        with self._lock:
            found = self._buffer.read1(size)
            if found and isinstance(self._errors.get(threading.get_ident()), AgeError):
                del self._errors[threading.get_ident()]
            return self._or_error(found, len(found))

    def readinto(self, room: Any, /) -> int:
        with self._lock:
            count = self._buffer.readinto(room)
            return self._or_error(count, count)

    def peek(self, size: int = 0, /) -> bytes:
        with self._lock:
            return self._buffer.peek(size) or self._or_error(b"", 0)

    def readline(self, size: int | None = -1, /) -> bytes:
        # One call of the buffer needs no other lock.
        line = self._buffer.readline(size)
        return self._or_error(line, len(line)) if self._errors else line

    def __iter__(self) -> Iterator[bytes]:
        super().__iter__()
        read, errors = self._buffer.readline, self._errors

        def readline() -> bytes:
            line = read()
            return self._or_error(line, len(line)) if errors else line

        # Lines are short, so this saves what can be saved: it takes two thirds of the time of calls
        # of the method above. Unlike a generator it raises the error of a bad chunk each time.
        return iter(readline, b"")

    def readlines(self, hint: int | None = -1, /) -> list[bytes]:
        with self._lock:
            begin = self.tell()
            try:
                return super().readlines(hint)  # type: ignore[arg-type]
            except Exception:
                self.seek(begin)
                raise

    def seek(self, offset: int, whence: int = os.SEEK_SET, /) -> int:
        with self._lock:
            return self._buffer.seek(offset, whence)

    def tell(self) -> int:
        return self._buffer.tell()

    def readable(self) -> bool:
        return self._buffer.readable()

    def seekable(self) -> bool:
        return self._buffer.seekable()

    def close(self) -> None:
        with self._lock:
            super().close()
            # First the buffer, because `readline` holds only the buffer's own lock.
            self._buffer.close()
            self.raw.close()


def _unlocked(source: _Source, identities: Identities) -> lib.Ranges:
    """Unlocks a source. Reads only its beginning."""
    front, ranges = Front(source), lib.Ranges()
    _, file_key = front.unlock(identities)
    text = bytes(front.bytes)
    lib.check("ranges_open", text, len(text), source.length, file_key, ctypes.byref(ranges))
    return ranges


def open_reader(file: Any, identities: Identities) -> Reader:
    """Opens the plaintext of a path, a descriptor, an opener, or a seekable binary file."""
    owned = not is_open(file, "read")
    is_descriptor = isinstance(file, int)
    below, name = opened(file, closefd=not is_descriptor) if owned else file, name_of(file)
    try:
        source = _Source(below, file if owned and not is_descriptor else None, owned)
        reader = Reader(_Chunks(source, _unlocked(source, identities), name))
        if is_descriptor:
            # Until here the descriptor stays the caller's, who may try another key.
            source.file = opened(file)
    except BaseException as error:
        if owned:
            below.close()
        with_name(error, name)
        raise
    return reader


def reopened(opener: Any, ranges: bytes, position: int) -> Reader:
    """Opens a plaintext again with its payload's key. Verifies the last chunk again."""
    below, found = opened(opener), lib.Ranges.from_buffer_copy(ranges)
    with named(name_of(opener)), contextlib.ExitStack() as stack:
        stack.callback(below.close)
        source = _Source(below, opener, True)
        now, before = source.length - found.first, found.sealed_len
        if now != before:
            last = max(min(now, before) - 1, 0) // lib.SEALED_CHUNK
            raise AgeChangedError(Code.BAD_CHUNK if now > before else Code.CHUNK_SHORT, last)
        found.state = 1
        reader = Reader(_Chunks(source, found, name_of(opener)))
        reader.seek(position)
        stack.pop_all()
    return reader


class _LaterReader(Reader):
    """A Reader from a pickle until its first call, which opens the file. An error in `pickle.loads`
    would make a `multiprocessing.Pool` hang."""

    def __init__(self, *source: Any) -> None:
        self.name, self._source, self._opening = name_of(source[0]), source, threading.RLock()

    if not TYPE_CHECKING:

        def __getattr__(self, name: str) -> Any:
            if name not in ("_chunks", "raw", "_below", "_buffer", "_errors", "_lock"):
                raise AttributeError(name)
            with self._opening:
                if type(self) is not Reader:
                    if self.closed:
                        raise ValueError("I/O operation on closed file")
                    made = reopened(*self._source)
                    # The other Reader is kept: its finalizer would close the file in use here.
                    vars(self).update(vars(made), _made=made)
                    # Lookups of attributes take longer in this class.
                    self.__class__ = Reader
            return vars(self)[name]

    def close(self) -> None:
        io.BufferedIOBase.close(self)


def _reopen(*source: Any) -> Reader:
    return _LaterReader(*source)
