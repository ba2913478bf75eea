"""Whole files, in memory and from a source to a sink."""

from __future__ import annotations

import io
import os
from typing import TYPE_CHECKING, Any, BinaryIO, cast, overload

from . import _library as lib
from ._paths import check_atomic, reading, writing
from ._payload import OPENING, SEALING, Behind, Front, begin, open_payload, open_source, run, thread_count
from ._secrets import Header, Identities, Recipients, header_of, read_header, stanzas_text, unlock
from ._sources import Counted, Progress, flat, read_into, write_all

if TYPE_CHECKING:
    from _typeshed import ReadableBuffer


def encrypt(data: ReadableBuffer, *, recipients: Recipients, threads: int = 1) -> bytes:
    """Encrypts a bytes-like object for one or several recipients. Returns the age file."""
    threads = thread_count(threads)
    with flat(data, "text.encode()") as view:
        # Another thread may change data that are not bytes: these are read once, chunk by chunk.
        if threads == 1 and type(data) is bytes:
            file_key, nonce = os.urandom(lib.FILE_KEY), os.urandom(lib.NONCE)
            text = stanzas_text(recipients, file_key)
            return lib.made("encrypt", data, len(data), text, len(text), file_key, nonce)
        front, payload = begin(recipients)
        sink = io.BytesIO()
        sink.write(front)
        run(SEALING, payload, cast(BinaryIO, Behind(view, io.BytesIO())), sink, threads)
    return sink.getvalue()


def decrypt(data: ReadableBuffer, *, identities: Identities, threads: int = 1) -> bytes:
    """Decrypts an age file in memory, and returns its plaintext. Raises AgeError, and returns
    nothing, if no identity opens the file or it has a fault."""
    threads = thread_count(threads)
    with flat(data, "the bytes of a file, or its path to agefile.open") as view:
        front = bytes(view[: lib.FRONT])
        file_key = unlock(read_header(front), identities)
        if threads == 1 and type(data) is bytes:
            return lib.made("decrypt", data, len(data), file_key)
        first, payload = open_payload(front, file_key)
        sink = io.BytesIO()
        with view[first:] as rest:
            run(OPENING, payload, cast(BinaryIO, Behind(rest, io.BytesIO())), sink, threads)
    return sink.getvalue()


def inspect(data: Any) -> Header:
    """Reads the header of an age file, given as a path, a descriptor, or bytes that contain at least
    the header. Does not verify its MAC. Raises AgeError if there is no complete, valid header."""
    if isinstance(data, (str, int, os.PathLike)):
        with reading(data) as source:
            return Front(source).header()
    with flat(data) as view:
        return read_header(bytes(view[: lib.FRONT]))


def rewrap(data: Any, *, identities: Identities, recipients: Recipients) -> bytes:
    """Replaces the header of an age file by one for other recipients, and returns the new file.

    File key and payload stay: whoever kept the old header and its secret can still open the file.
    The payload is not verified. Raises AgeError, for example if no identity opens the header.
    """
    source, sink = io.BytesIO(data), io.BytesIO()
    rewrap_copy(source, sink, identities=identities, recipients=recipients)
    return sink.getvalue()


def rewrap_copy(
    source: Any, sink: Any, *, identities: Identities, recipients: Recipients,
    atomic: bool = False, progress: Progress | None = None,
) -> None:
    """Like `rewrap`, but from a file to another, each a path, a descriptor or a binary file object.
    `atomic` and `progress` are those of `copy`: with `atomic` a file can be rewrapped in place."""
    check_atomic(sink, atomic)
    with reading(source) as file:
        below: Any = file if progress is None else Counted(file, progress)
        front = Front(below)
        old, file_key = front.unlock(identities)
        # Verifies the MAC of the old header. The nonce may be any, but the call needs one.
        open_payload(old + bytes(lib.NONCE), file_key)
        header = header_of(stanzas_text(recipients, file_key), file_key)
        with writing(sink, file, atomic=atomic) as out:
            write_all(out, header)
            write_all(out, front.bytes[len(old) :])
            room = memoryview(bytearray(lib.TEXT_CHUNK))
            while length := read_into(below, room):
                write_all(out, room[:length])


@overload
def copy(source: Any, sink: Any, *, recipients: Recipients, threads: int = 1,
         atomic: bool = False, progress: Progress | None = None) -> int: ...
@overload
def copy(source: Any, sink: Any, *, identities: Identities, threads: int = 1,
         atomic: bool = False, progress: Progress | None = None) -> int: ...
def copy(
    source: Any, sink: Any, *,
    recipients: Recipients | None = None, identities: Identities | None = None,
    threads: int = 1, atomic: bool = False, progress: Progress | None = None,
) -> int:
    """Encrypts a file to another for `recipients`, or decrypts it with `identities`.

    Source and sink are paths, descriptors or binary file objects, also pipes. Uses constant memory,
    and for the chunks up to `threads` threads. Returns the length of the plaintext.

    Raises AgeError, for example for a wrong key, or for a damaged chunk: without `atomic` the sink
    has the plaintext before it. An existing file at the sink's path keeps its contents until the
    first byte is written. With `atomic` it keeps them until the new file beside it is complete;
    errors change nothing unless they say `replaced`. A new plaintext is readable only by its owner.

    `progress` is called with the number of bytes read from the source and with their total, or None
    if the total is 0 or not known, as of pipes. An exception that it raises ends the copy.
    """
    if (recipients is None) == (identities is None):
        raise TypeError("copy takes recipients to encrypt, or identities to decrypt")
    threads = thread_count(threads)
    check_atomic(sink, atomic)
    begun = None if recipients is None else begin(recipients)
    with reading(source) as file:
        below: Any = file if progress is None else Counted(file, progress)
        if begun is None:
            assert identities is not None
            first, payload = open_source(below, identities)
            with writing(sink, file, 0o600, atomic) as out:
                return run(OPENING, payload, cast(BinaryIO, Behind(first, below)), out, threads)
        front, payload = begun
        with writing(sink, file, atomic=atomic) as out:
            room = memoryview(bytearray(lib.TEXT_CHUNK))
            first = room[: read_into(below, room)]
            write_all(out, front)
            sealed = run(SEALING, payload, cast(BinaryIO, Behind(first, below)), out, threads)
            return sealed - lib.TAG * ((sealed + lib.SEALED_CHUNK - 1) // lib.SEALED_CHUNK)
