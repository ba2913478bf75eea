"""A new age file, which is written chunk by chunk and complete only after it was committed."""

from __future__ import annotations

import atexit
import io
import operator
import os
import sys
import threading
import warnings
import weakref
from typing import Any, NamedTuple

from . import _library as lib
from ._paths import BinaryBase, created, is_open, is_path, name_of, opener_of
from ._payload import Chunk, begin
from ._secrets import Recipients
from ._sources import flat, write_all


class _Sealer(io.RawIOBase):
    """The age file under a Writer, which collects and seals chunks. Closed, it takes no more text;
    `finish` then completes the file, or leaves it without its last chunk."""

    def __init__(self, file: Any, mode: str, recipients: Recipients, atomic: bool) -> None:
        self.name, self.mode, self._owned = name_of(file), mode, not is_open(file, "write")
        self._lock, self._process, self.is_finished = threading.RLock(), os.getpid(), False
        self._chunk, self._filled, self._total, self._failed = Chunk(), 0, 0, False
        self._front, payload = begin(recipients)
        self._seal_next = lib.for_chunks("seal_next", payload)
        is_later = self._owned and not (is_path(file) or isinstance(file, int))
        sink: Any = None if is_later else created(file, mode, atomic) if self._owned else file
        self._opener, self._sink = opener_of(file) if is_later else None, sink

    def _put(self, data: Any) -> None:
        """Writes to the sink. After a failure or an interrupt nothing more is written."""
        self._failed = True
        if self._opener is not None:
            self._sink, self._opener = self._opener(), None
        write_all(self._sink, b"".join((self._front, data)) if self._front else data)
        self._front = b""
        if self._owned and hasattr(self._sink, "flush"):
            # The finalizer of a forked child would write what is left in a buffer.
            self._sink.flush()
        self._failed = False

    def _seal(self, is_last: bool) -> None:
        """Seals the text and writes it. An interrupt meanwhile counts as a failure."""
        self._failed = True
        length = self._seal_next(self._chunk.base, self._filled + lib.TAG, is_last)
        self._total, self._filled = self._total + self._filled, 0
        self._put(self._chunk.view[:length])

    def write(self, data: Any, /) -> int:
        with self._lock, flat(data) as rest:
            self._check_usable()
            try:
                self._take(rest)
            except BaseException:
                # An interrupt too: after it a text file would drop the text not yet passed on.
                self._failed = True
                raise
            return len(rest)

    def _take(self, rest: memoryview) -> None:
        at = 0
        while at < len(rest):
            # A full chunk waits for a byte after it, without which the chunk is the last.
            if self._filled == lib.TEXT_CHUNK:
                self._seal(False)
            count = min(lib.TEXT_CHUNK - self._filled, len(rest) - at)
            self._chunk.view[self._filled : self._filled + count] = rest[at : at + count]
            self._filled += count
            at += count

    def spoil(self) -> None:
        """Makes a file that is not closed refuse all further writes and the commit."""
        with self._lock:
            self._failed |= not self.closed

    def is_parent(self) -> bool:
        return self._process == os.getpid()

    def check_ours(self) -> None:
        if not self.is_parent():
            raise OSError("only the process that opened this file writes it")

    def _check_usable(self) -> None:
        self.check_ours()
        if self._failed:
            raise OSError("an earlier write failed, so this file stays without its end")

    def tell(self) -> int:
        self._check_usable()
        return self._total + self._filled

    def writable(self) -> bool:
        if self.closed:
            raise ValueError("I/O operation on closed file")
        return True

    def send(self) -> None:
        """Writes the header, if no chunk has done that, and flushes the sink."""
        with self._lock:
            if self._front and not self._failed:
                self._put(b"")
            if hasattr(self._sink, "flush") and not getattr(self._sink, "closed", False):
                self._sink.flush()

    def truncate(self, _: Any = None, /) -> int:
        """Ends the text: this is what a BufferedWriter calls under its own lock, after it has passed
        on all its bytes, so that the write of another thread is in the file or is refused."""
        with self._lock:
            self.writable()
            self._check_usable()
            self.close()
        return self._total

    def finish(self, is_whole: bool) -> None:
        """Seals the last chunk of a whole file, and closes a sink that it opened. A forked child
        leaves the sink to its parent, one of whose threads may hold the lock."""
        self.close()
        if not self.is_parent():
            return
        with self._lock:
            if self.is_finished:
                if is_whole:
                    raise ValueError("I/O operation on closed file")
                return
            try:
                if is_whole:
                    self._check_usable()
                    self._seal(True)
                    # A caller's file may have a buffer, whose finalizer drops errors.
                    self.send()
                    getattr(self._sink, "replace_old", bool)()
            finally:
                self.is_finished = self._failed = True
                if self._owned and self._sink is not None:
                    self._sink.close()


class Writer(BinaryBase):
    """The plaintext of a new age file, as a binary file to write.

    **The file is complete only after `commit` or the clean end of its `with` block** or, in
    agefile.fsspec, `close`. Until then a file with `atomic` keeps its old contents. Any other file
    keeps them until its header is written, with a full chunk or by `flush`; then readers refuse it.

    `close` in a `with` block ends writing, and the block's clean end completes the file; so
    wrappers that close it (TextIOWrapper) belong inside. Elsewhere `close` gives up with a warning
    and, if no exception is handled, ValueError. A forked child cannot write: it would reuse nonces.
    """

    # A TextIOWrapper asks for it at each write.
    closed: bool = property(operator.attrgetter("_sealer.closed"))  # type: ignore[assignment]
    # Whether `close` only ends writing, and the end of a `with` block or the finalizer decides.
    _is_decided_later = False
    # The TextWriter above, if there is one: what it has not passed on belongs to the file.
    _text: Any = staticmethod(lambda: None)
    # Set by agefile.fsspec, whose users call only `close`: it commits, unless it sees an exception.
    _commits_at_close = False

    def __init__(self, file: Any, mode: str, recipients: Recipients, atomic: bool) -> None:
        self._sealer = _Sealer(file, mode, recipients, atomic)
        self.name, self.mode = self._sealer.name, mode
        # Has a BufferedWriter and is not one itself: numpy would ask it for a descriptor.
        self._buffer = io.BufferedWriter(self._sealer, lib.TEXT_CHUNK)
        self._write = self._buffer.write
        _unended.add(self)

    def __repr__(self) -> str:
        return f"<agefile.Writer name={self.name!r} mode={self.mode!r}>"

    def write(self, data: Any, /) -> int:
        # Nothing may be added here: programs write few bytes at a time.
        return self._write(data)

    def tell(self) -> int:
        return self._buffer.tell()

    def writable(self) -> bool:
        return self._buffer.writable()

    def flush(self) -> None:
        """Writes the header, and flushes the sealed chunks. The newest chunk stays in memory."""
        # fsspec flushes even after an exception, which would destroy the old file.
        is_broken = self._commits_at_close and not self._is_decided_later and sys.exc_info()[0]
        if self._sealer.writable() and self._sealer.is_parent() and not is_broken:
            self._buffer.flush()
            self._sealer.send()

    def _end(self) -> None:
        """Ends writing, unless `close` or another thread has ended it."""
        try:
            # After `detach` the text file has no buffer.
            if (text := self._text()) is not None and text.buffer is not None:
                text.flush()
            self._buffer.truncate()
        except BaseException as error:
            if not (self.closed and isinstance(error, ValueError)):
                self._sealer.spoil()
                self._sealer.close()
                raise

    def commit(self) -> None:
        """Completes the file with its last chunk, and closes it. OSError after a failed write."""
        self._sealer.check_ours()
        try:
            self._end()
        except BaseException:
            self.abort()
            raise
        self._sealer.finish(True)

    def abort(self) -> None:
        """Closes the file without its last chunk: readers refuse it, or it has its old contents."""
        self._sealer.finish(False)

    def close(self) -> None:
        """Ends writing in a `with` block, whose end decides. Elsewhere, except in agefile.fsspec, this
        is `abort` with a warning and, unless an exception is being handled, a ValueError."""
        if self.closed or not self._sealer.is_parent():
            self._sealer.close()
        elif self._is_decided_later:
            self._end()
        elif self._commits_at_close and sys.exc_info()[0] is None:
            try:
                self.commit()
            except BaseException:
                self._warn()
                raise
        else:
            # Warns because pools and `logging` may drop the error. The warning itself may raise.
            self._sealer.spoil()
            self._warn()
            self.abort()
            if sys.exc_info()[0] is None:
                raise ValueError(self._loss())

    def _loss(self) -> str:
        return f"{self!r} is not whole: only commit or the clean end of a with block completes it"

    def _warn(self) -> None:
        warnings.warn(self._loss(), RuntimeWarning, 3)

    def __enter__(self) -> Writer:
        self._sealer.writable()
        self._is_decided_later = True
        return self

    def __exit__(self, kind: type[BaseException] | None, *rest: Any) -> None:
        if self._sealer.is_finished:
            return
        if kind is None:
            return self.commit()
        self.abort()
        if self._sealer.is_parent() and not issubclass(kind, (Exception, KeyboardInterrupt)):
            # Nothing else would report SystemExit, GeneratorExit and cancelled tasks.
            self._warn()

    def __del__(self) -> None:
        if hasattr(self, "_buffer") and self._sealer.is_parent() and not self._sealer.is_finished:
            self.abort()
            raise ValueError(self._loss())

    def _dealloc_warn(self, _: Any) -> None:
        """Finalizers of wrappers call this, then `close`, and drop errors: so `__del__` raises."""
        self._is_decided_later = True


_unended: weakref.WeakSet[Writer] = weakref.WeakSet()


class _Last(NamedTuple):
    """Gives a file up once Python frees its modules, and says so. A file that `logging` or `sys`
    holds is never finalized, and functions of `atexit` that run after ours may still commit it."""

    writer: Writer

    def __del__(self) -> None:
        # A daemon thread may hold the lock for ever.
        if self.writer._sealer._lock.acquire(blocking=False):
            self.writer.__del__()


atexit.register(lambda: sys.modules.update(agefile_last=[*map(_Last, _unended)]))  # type: ignore


_write_text = io.TextIOWrapper.write


class TextWriter(io.TextIOWrapper):
    """A text file over a Writer, complete under the same conditions."""

    buffer: Writer

    def __init__(self, buffer: Writer, **words: Any) -> None:
        super().__init__(buffer, **words)
        buffer._text = weakref.ref(self)

    def write(self, text: str, /) -> int:
        # Programs write few characters at a time, and `super()` takes as long as the rest.
        try:
            return _write_text(self, text)
        except (TypeError, UnicodeError):
            raise
        except BaseException:
            # A TextIOWrapper drops text of earlier calls with that of this one.
            self.buffer._sealer.spoil()
            raise

    def flush(self) -> None:
        try:
            super().flush()
        except BaseException:
            self.buffer._sealer.spoil()
            raise

    def commit(self) -> None:
        """Does what `Writer.commit` does."""
        self.buffer.commit()

    def close(self) -> None:
        """Does what `Writer.close` does."""
        self.buffer.close()

    def __del__(self) -> None:
        # `buffer` is None after `detach`.
        if self.buffer is not None:
            self.buffer.__del__()

    def __enter__(self) -> TextWriter:
        self.buffer.__enter__()
        return self

    def __exit__(self, kind: type[BaseException] | None, *rest: Any) -> None:
        if self.buffer is not None:
            self.buffer.__exit__(kind, *rest)
