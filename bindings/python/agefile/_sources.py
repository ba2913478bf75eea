"""Reads from sources until a buffer is full, writes all bytes to sinks, and reports progress."""

from __future__ import annotations

import contextlib
import functools
import io
import os
from typing import Any, BinaryIO, Callable, Optional

from ._paths import raw_of

Progress = Callable[[int, Optional[int]], object]


def flat(data: Any, instead: str = "bytes") -> memoryview:
    """A view of an object's bytes, even with a zero in its shape. Raises TypeError for a str."""
    if isinstance(data, str):
        raise TypeError(f"a bytes-like object is required, not 'str': pass {instead}")
    with memoryview(data) as view:
        return view.cast("B") if view.nbytes else memoryview(bytearray())


def _checked(count: Any, least: int, most: int, call: str) -> int:
    """Checks the result of a call of the file below, which is None if it would block."""
    if count is None:
        raise BlockingIOError(f"the {call} would block")
    if not least <= count <= most:
        raise OSError(f"the {call} returned {count}, not {least} to {most}")
    return int(count)


def has_own(source: Any, method: str) -> bool:
    """Whether the source's own class has this method. A wrapper that counts in `read`, such as
    those of tqdm, passes calls of other methods to its file without counting."""
    return hasattr(type(source), method)


def readinto_of(source: Any) -> Any:
    """The source's readinto, or a function that does the same with its read."""
    is_own = has_own(source, "readinto") or not hasattr(source, "read")
    return source.readinto if is_own else functools.partial(_read_by_copy, source)


def read_some(source: Any, most: int) -> bytes:
    """Reads what the source has ready, and at least a byte unless it has ended."""
    piece = source.read1(most) if has_own(source, "read1") else source.read(most)
    if piece == b"":
        # An empty result of a buffer's read1 may mean that the call would block.
        piece = source.read(1)
    if piece is None:
        raise BlockingIOError("the read would block")
    return bytes(piece)


def read_into(source: BinaryIO, room: memoryview) -> int:
    """Reads until the room is full or the source ends, and returns the number of bytes."""
    read, wanted, done = readinto_of(source), len(room), 0
    while done < wanted:
        count = _checked(read(room[done:] if done else room), 0, wanted - done, "read")
        if count == 0:
            break
        done += count
    return done


def _read_by_copy(source: BinaryIO, room: memoryview) -> int | None:
    piece: bytes | None = source.read(len(room))
    if piece is None:
        return None
    if len(piece) <= len(room):
        room[: len(piece)] = piece
    return len(piece)


def write_all(sink: Any, data: Any) -> None:
    """Writes all bytes. A sink without a buffer may take them in parts. A result of None means that
    the sink took all of them, except for a raw file, where it means that the call would block."""
    rest = data
    while len(rest):
        count = sink.write(rest)
        if count == len(rest) or count is None and not isinstance(sink, io.RawIOBase):
            return
        rest = memoryview(rest)[_checked(count, 1, len(rest), "write") :]


class Counted:
    """A source that reports its progress after every 64 KiB or more and at its end: the number of
    bytes read, and the total as `_length_of` finds it. `file` is the file whose length counts, if
    that is not the source."""

    def __init__(self, source: Any, progress: Progress, file: Any = None) -> None:
        self._source, self._readinto, self._progress = source, readinto_of(source), progress
        total = _length_of(source if file is None else file)
        self._done, self._told, self._total = 0, -1, total

    def _count(self, count: int) -> None:
        self._done += count
        if self._done - self._told >= 65536 or not count and self._done != self._told:
            self._told = self._done
            self._progress(self._done, self._total)

    def readinto(self, room: memoryview) -> Any:
        count = self._readinto(room)
        if count is not None:
            self._count(count)
        return count

    def read(self, size: int) -> bytes:
        piece = read_some(self._source, size)
        self._count(len(piece))
        return piece


def _length_of(source: Any) -> int | None:
    """The number of bytes from the position on, or None if it is 0, as in /proc, if a seek fails,
    or if the source is not a file of the system, a BytesIO or a Reader: its seek may be slow."""
    with contextlib.suppress(OSError):
        if raw_of(source) or isinstance(source, io.BytesIO) or hasattr(source, "encrypted"):
            at = source.tell()
            end = source.seek(0, os.SEEK_END)
            source.seek(at)
            return max(int(end) - at, 0) or None
    return None
