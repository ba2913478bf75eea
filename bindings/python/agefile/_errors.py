"""Errors: the codes of the library, and the exceptions that carry them."""

from __future__ import annotations

import enum
from typing import Any


class Code(enum.IntEnum):
    """The codes of libagefile. No code is ever reused."""

    _text: str

    def __new__(cls, code: int, text: str = "") -> Code:
        self = int.__new__(cls, code)
        self._value_, self._text = code, text
        return self

    # generated: code members
    OK = 0, "no fault"
    NOT_AGE = 1, "not an age file"
    BAD_LINE = 2, "bad header line {place}"
    HEADER_TRUNCATED = 3, "header is cut short"
    HEADER_TOO_LARGE = 4, "header is too large"
    MIXED_PASSPHRASE = 5, "a passphrase stanza must stand alone"
    NO_MATCH = 6, "no key fits this file"
    WRONG_KEY = 7, "wrong passphrase or key"
    MALFORMED = 8, "malformed stanza: {part}"
    BAD_MAC = 9, "header check failed"
    NONCE_TRUNCATED = 10, "payload nonce is cut short"
    CHUNK_SHORT = 11, "chunk {place} is cut short"
    EMPTY_FINAL = 12, "chunk {place} is empty"
    BAD_CHUNK = 13, "chunk {place} is damaged"
    TOO_MANY_CHUNKS = 14, "too many chunks"
    READ = 15, "read failed"
    WRITE = 16, "write failed"
    OUT_OF_MEMORY = 17, "out of memory"
    NO_RECIPIENTS = 18, "no recipients"
    REFUSED = 19, "recipient refused"
    INCOMPATIBLE_RECIPIENTS = 20, "recipient does not go with recipient 0"
    TOO_SMALL = 21, "buffer is too small"
    WORK_FACTOR = 22, "work factor must be 1 to 30"
    OUT_OF_ORDER = 23, "no such offset, a chunk of another length, or a call out of order"
    NULL_POINTER = 24, "null pointer with a length"
    BAD_ARGUMENTS = 25, "stanza arguments must be visible ASCII, one space apart"
    EMPTY_PASSPHRASE = 26, "passphrase is empty"
    # end of code members


_DETAILS = {
    # generated: code details
    1: "argument count",
    2: "salt",
    3: "work factor",
    4: "work factor is too high",
    5: "body length",
    # end of code details
}


class AgeError(Exception):
    """A file or a call was refused or, in agefile.fsspec, a read failed.

    `code` is the code of the library, or 0 if another library made this error from a text, as Dask
    does. `place` is the line of a header, counted from 1, or the chunk, counted from 0. `detail` is
    the part of a malformed stanza, 1 to 5. `place` and `detail` are 0 if the error has none.
    `filename` is a path, a descriptor, the `name` or `path` of a file object or opener, or None.
    """

    def __init__(
        self, code: int | str, place: int = 0, detail: int = 0, filename: Any = None
    ) -> None:
        self.code = Code.OK if isinstance(code, str) else Code(code)
        text = self.code._text.format(place=place, part=_DETAILS.get(detail, "other"))
        super().__init__(code if isinstance(code, str) else text)
        self.place, self.detail, self.filename = place, detail, filename

    def __str__(self) -> str:
        text = str(self.args[0])
        return text if self.filename is None else f"{text}: {self.filename!r}"

    def __repr__(self) -> str:
        return f"{type(self).__name__}({str(self)!r})"

    def __reduce__(self) -> tuple[Any, ...]:
        return type(self), (int(self.code) or self.args[0], self.place, self.detail, self.filename)

    @staticmethod
    def of(code: int, place: int = 0, detail: int = 0) -> AgeError:
        """Makes the exception of a code: an AgeMemoryError if memory was refused."""
        kind = AgeMemoryError if code == Code.OUT_OF_MEMORY else AgeError
        return kind(code, place, detail)


class AgeMemoryError(AgeError, MemoryError):
    """An allocation was refused: code 17."""


class AgeChangedError(AgeError):
    """The file was cut while open, or had another length when an unpickled Reader opened it."""

    def __init__(self, code: int | str = Code.CHUNK_SHORT, *rest: Any) -> None:
        super().__init__(code, *rest)
        if not isinstance(code, str):
            what = "was cut while it was" if code == Code.CHUNK_SHORT else "has grown since it was"
            self.args = (f"the file {what} open: {self.args[0]}",)
