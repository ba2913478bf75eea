"""Saving what is left of a damaged file."""

from __future__ import annotations

import ctypes
import os
from typing import Any, BinaryIO, NamedTuple, cast

from . import _library as lib
from ._paths import check_atomic, reading, writing
from ._payload import Behind, open_source, pieces
from ._secrets import Identities
from ._sources import Counted, Progress, read_some, readinto_of, write_all

# Three values of `agefile_saved` and the two of `agefile_verdict` in agefile.h.
EARLY, ZEROS, PADDED, WHOLE, CUT = 3, 4, 6, 1, 2
# A header is read in such pieces, because a read that reaches a bad block may return nothing.
BLOCK = 4096


class LostChunks(NamedTuple):
    """Chunks in a row that are lost. `chunks` are their numbers, counted from 0. Their plaintext is
    `length` bytes from `offset` on, for which zeros were written. `unread` says that reads of them
    failed; otherwise they are damaged."""

    chunks: range
    offset: int
    length: int
    unread: bool


class Salvaged(NamedTuple):
    """What was saved of a file.

    `length` is the number of bytes written, zeros included. `chunks` is the number of chunks, and
    `lost` lists those that are lost. `early` is None or the latest chunk that is marked as the last
    and cannot be it: a chunk follows it, or it is empty after other chunks. `trailing` counts the
    bytes of the file after the early chunk or, if `early` is None, after the last chunk.
    `cut` says that the file is known to be cut short: if its last chunk is lost, `cut` is False.
    `whole` says that the plaintext is complete and genuine: exactly then `copy` decrypts the file.
    """

    length: int
    chunks: int
    lost: tuple[LostChunks, ...]
    early: int | None
    trailing: int
    cut: bool
    whole: bool


class _Skipping:
    """A source that, after a failed read, gives zeros up to the next chunk if its file can seek."""

    def __init__(self, file: Any) -> None:
        self._file, self._readinto = file, readinto_of(file)
        self._can_seek = getattr(file, "seekable", bool)()
        self.at = file.tell() if self._can_seek else 0
        # The offset of chunk 0, and the numbers of chunks whose reads failed.
        self.first, self.unread, self._zeros = 0, set[int](), 0

    def read(self, size: int) -> bytes:
        """Reads a piece for Front, up to the nonce. A failed read is an error here."""
        piece = read_some(self._file, min(size, BLOCK))
        self.at += len(piece)
        return piece

    def readinto(self, room: memoryview) -> Any:
        if not self._zeros:
            try:
                count = self._readinto(room)
                self.at += count or 0
                return count
            except (BlockingIOError, InterruptedError):
                # They say nothing of the disk.
                raise
            except OSError as error:
                self._skip(error)
        count = min(len(room), self._zeros)
        room[:count] = bytes(count)
        self._zeros -= count
        self.at += count
        return count

    def _skip(self, error: OSError) -> None:
        """Moves the file to the next chunk or to its end. Raises the error if it cannot."""
        number = (self.at - self.first) // lib.SEALED_CHUNK
        end = self._file.seek(0, os.SEEK_END) if self._can_seek else 0
        if end < self.at:
            raise error
        following = min(self.first + (number + 1) * lib.SEALED_CHUNK, end)
        self._file.seek(following)
        self._zeros = following - self.at
        self.unread.add(number)


def salvage(
    source: Any, sink: Any, *,
    identities: Identities, atomic: bool = False, progress: Progress | None = None,
) -> Salvaged:
    """Saves what is left of a damaged file. Returns what was saved and what is lost.

    Writes the plaintext of every chunk that opens, at its offset, and zeros for every chunk that
    does not. Each chunk that was saved is genuine; the file as a whole only if the result's
    `whole` is True. Damaged chunks raise no exception. A wrong key raises AgeError, and so does a
    damaged header, even if a key fits it.

    If reading a chunk fails, the chunk is lost, and salvaging continues at the next. If the source
    cannot seek or would block, raises the error: without `atomic` the sink has what was saved.

    `source`, `sink`, `atomic` and `progress` are those of `copy`, but the sink must not be the
    source: a later try may save more. Uses constant memory, except for the list of losses.
    """
    check_atomic(sink, atomic)
    with reading(source) as file:
        skipping = _Skipping(file)
        below: Any = skipping if progress is None else Counted(skipping, progress, file)
        ahead, payload = open_source(below, identities)
        skipping.first = skipping.at - len(ahead)
        with writing(sink, file, 0o600, atomic, in_place=False) as out:
            return _save(payload, cast(BinaryIO, Behind(ahead, below)), skipping.unread, out)


def _save(payload: lib.Payload, source: BinaryIO, unread: set[int], sink: Any) -> Salvaged:
    lost: list[LostChunks] = []
    early, total, sealed = None, 0, 0
    for number, (chunk, length, is_last) in enumerate(pieces(source, lib.SEALED_CHUNK)):
        report = lib.check("salvage_next", ctypes.byref(payload), chunk.base, length, is_last)
        saved, text = report.place, chunk.view[: report.len]
        write_all(sink, text)
        if saved == ZEROS:
            _join(lost, LostChunks(range(number, number + 1), total, len(text), number in unread))
        early = number if saved == EARLY else early
        unread.discard(number)
        total, sealed = total + len(text), sealed + length
    end = number * lib.SEALED_CHUNK + len(text) + lib.TAG if saved == PADDED else sealed
    trailing = max(sealed - (end if early is None else (early + 1) * lib.SEALED_CHUNK), 0)
    verdict = report.detail == CUT, report.detail == WHOLE
    return Salvaged(total, number + 1, tuple(lost), early, trailing, *verdict)


def _join(lost: list[LostChunks], new: LostChunks) -> None:
    """Adds a chunk to the run that it continues, or as a new one."""
    if lost and lost[-1].chunks.stop == new.chunks.start and lost[-1].unread == new.unread:
        run = lost.pop()
        chunks = range(run.chunks.start, new.chunks.stop)
        new = LostChunks(chunks, run.offset, run.length + new.length, new.unread)
    lost.append(new)
