"""The beginning of a file, and payloads in order: chunk by chunk, and on several threads."""

from __future__ import annotations

import collections
import concurrent.futures
import ctypes
import io
import operator
import os
from collections.abc import Iterator
from typing import Any, BinaryIO, NamedTuple

from . import _library as lib
from ._errors import AgeError, Code
from ._secrets import Header, Identities, Key, Recipients, read_header, stanzas_text, unlock
from ._sources import read_into, read_some, readinto_of, write_all

# How many chunks one thread seals or opens at a time.
PART = 16


class Front:
    """The beginning of a source: its header and nonce, and the bytes read after them. Reads no more
    than the source has ready, so that a wrong key is reported before a pipe has more bytes."""

    def __init__(self, source: Any) -> None:
        self.bytes, self._source, self._ended = bytearray(), source, False

    def more(self) -> bool:
        """Reads more, and returns whether there was more."""
        piece = b"" if self._ended else read_some(self._source, lib.FRONT)
        self._ended = not piece
        self.bytes += piece
        return bool(piece)

    def header(self) -> Header:
        """Reads until the header is complete, and returns it."""
        tried = 0
        while True:
            # Each piece may complete or spoil the header. If pieces are so small that parsing after
            # each would take too long, the header is still parsed once its last line is there.
            at = self.bytes.find(b"\n---")
            has_last_line = at >= 0 and self.bytes.find(b"\n", at + 1) >= 0
            if tried <= 16 * (len(self.bytes) + 4096) or has_last_line or self._ended:
                tried += len(self.bytes)
                try:
                    return read_header(bytes(self.bytes))
                except AgeError as error:
                    if error.code != Code.HEADER_TRUNCATED or self._ended:
                        raise
            self.more()

    def unlock(self, identities: Identities) -> tuple[bytes, bytes]:
        """Reads until the nonce is complete too, or the source has ended. Returns the text of the
        header, and its file key."""
        self.more()
        code: int = Code.NO_MATCH
        if type(identities) is Key:
            # If it opens the header, nobody needs the stanzas.
            code, report, file_key = identities._unlock(bytes(self.bytes))
            length: int = report.len
        if code:
            header = self.header()
            length, file_key = header.length, unlock(header, identities)
        text = bytes(self.bytes[:length])
        while len(self.bytes) < len(text) + lib.NONCE and self.more():
            pass
        return text, file_key


def begin(recipients: Recipients) -> tuple[bytes, lib.Payload]:
    """A new file's header and nonce, and its payload for writing."""
    payload, file_key, nonce = lib.Payload(), os.urandom(lib.FILE_KEY), os.urandom(lib.NONCE)
    text = stanzas_text(recipients, file_key)
    out = ctypes.create_string_buffer(len(text) + 256)
    words = text, len(text), file_key, nonce, out, len(out), ctypes.byref(payload)
    length = lib.check("begin", *words).len
    return out.raw[:length], payload


def open_payload(front: bytes, file_key: bytes) -> tuple[int, lib.Payload]:
    """The offset of the first sealed chunk, and the payload for reading."""
    payload = lib.Payload()
    report = lib.check("open", front, len(front), file_key, ctypes.byref(payload))
    return report.len, payload


def open_source(source: BinaryIO, identities: Identities) -> tuple[bytes, lib.Payload]:
    """Unlocks a source. Returns the bytes of its chunks read so far, and the payload for reading."""
    front = Front(source)
    _, file_key = front.unlock(identities)
    at, payload = open_payload(bytes(front.bytes), file_key)
    return bytes(front.bytes[at:]), payload


class Chunk:
    """Room for some chunks in a row, of the plaintext or sealed."""

    def __init__(self, length: int = lib.SEALED_CHUNK) -> None:
        self.room = bytearray(length)
        self.view = memoryview(self.room)
        # The address of the first byte, valid as long as this object lives.
        self.base = ctypes.addressof(ctypes.c_char.from_buffer(self.room))


# The processing of a chunk: its length before and after, and the library's functions.
_Step = NamedTuple("_Step", [("take", int), ("give", int), ("one", str), ("of_part", str)])
OPENING = _Step(lib.SEALED_CHUNK, lib.TEXT_CHUNK, "open_next", "part_open_next")
SEALING = _Step(lib.TEXT_CHUNK, lib.SEALED_CHUNK, "seal_next", "part_seal_next")


def pieces(source: BinaryIO, length: int) -> Iterator[tuple[Chunk, int, bool]]:
    """A source in pieces of this length: each with the number of its bytes, and whether it is the
    last. A piece is valid until the next one is requested."""
    chunk, ahead = Chunk(), Chunk()
    count = read_into(source, chunk.view[:length])
    # One byte after a chunk shows that it is not the last, so the chunk need not wait for more.
    while count == length and (more := read_into(source, ahead.view[:1])):
        yield chunk, count, False
        count = more + read_into(source, ahead.view[more:length])
        chunk, ahead = ahead, chunk
    yield chunk, count, True


def one_by_one(step: _Step, payload: lib.Payload, source: BinaryIO, sink: Any) -> int:
    """Seals or opens a source to its end, chunk by chunk. Returns the length of the result."""
    convert, total = lib.for_chunks(step.one, payload), 0
    for chunk, count, is_last in pieces(source, step.take):
        sealed = count if step is OPENING else count + lib.TAG
        converted = chunk.view[: convert(chunk.base, sealed, is_last)]
        write_all(sink, converted)
        total += len(converted)
    return total


class _Batch:
    """Some chunks in a row, none of them the last, that one thread seals or opens."""

    def __init__(self, step: _Step, payload: lib.Payload, room: Chunk) -> None:
        self.step, self.room, self.part = step, room, lib.Part()
        lib.check("take_part", ctypes.byref(payload), PART, ctypes.byref(self.part))

    def run(self) -> tuple[int, AgeError | None]:
        """Processes the chunks. Returns how many are done, and the next one's error or None."""
        convert = lib.for_chunks(self.step.of_part, self.part)
        for index in range(PART):
            try:
                convert(self.room.base + index * lib.SEALED_CHUNK, lib.SEALED_CHUNK)
            except AgeError as error:
                return index, error
        return PART, None


def _read_batch(step: _Step, source: BinaryIO, room: Chunk) -> int:
    """Reads the chunks of a batch, each to its place. Returns the number of bytes."""
    if step is OPENING:
        return read_into(source, room.view)
    total = 0
    for at in range(0, len(room.room), lib.SEALED_CHUNK):
        count = read_into(source, room.view[at : at + step.take])
        total += count
        if count < step.take:
            break
    return total


def run(step: _Step, payload: lib.Payload, source: BinaryIO, sink: Any, threads: int) -> int:
    """Like `one_by_one`, on several threads. Holds at most two batches per thread, and one more."""
    if threads == 1:
        return one_by_one(step, payload, source, sink)
    total, waiting = 0, collections.deque[tuple[_Batch, Any]]()
    spare: list[Chunk] = []

    def finish_first() -> int:
        batch, future = waiting.popleft()
        count, error = future.result()
        for at in range(0, count * lib.SEALED_CHUNK, lib.SEALED_CHUNK):
            write_all(sink, batch.room.view[at : at + step.give])
        spare.append(batch.room)
        if error is not None:
            raise error
        return int(count) * step.give

    with concurrent.futures.ThreadPoolExecutor(threads) as pool:
        try:
            room = Chunk(PART * lib.SEALED_CHUNK)
            length = _read_batch(step, source, room)
            while length == PART * step.take:
                ahead = spare.pop() if spare else Chunk(PART * lib.SEALED_CHUNK)
                more = _read_batch(step, source, ahead)
                if more == 0:
                    break
                batch = _Batch(step, payload, room)
                waiting.append((batch, pool.submit(batch.run)))
                room, length = ahead, more
                if len(waiting) == 2 * threads:
                    total += finish_first()
            while waiting:
                total += finish_first()
        finally:
            for _, future in waiting:
                future.cancel()
    # The chunks of the batch that was read last, with which the source ended.
    whole = [room.view[at : at + step.take] for at in range(0, len(room.room), lib.SEALED_CHUNK)]
    return total + one_by_one(step, payload, io.BytesIO(b"".join(whole)[:length]), sink)


def thread_count(threads: int) -> int:
    """The number of threads to use, at most `threads`."""
    count = operator.index(threads)
    if count < 1:
        raise ValueError("threads is at least 1")
    return min(count, os.cpu_count() or 1)


class Behind:
    """The bytes already read from a source, then the source."""

    def __init__(self, first: bytes | memoryview, source: BinaryIO) -> None:
        self._first, self._at, self._readinto = first, 0, readinto_of(source)

    def readinto(self, out: memoryview) -> Any:
        count = min(len(out), len(self._first) - self._at)
        if count == 0:
            return self._readinto(out)
        # No slice is kept: a caller's buffer could not be resized as long as it lives.
        out[:count] = self._first[self._at : self._at + count]
        self._at += count
        return count
