"""Opening an age file as a file of its plaintext."""

from __future__ import annotations

import codecs
import io
from typing import Any, Literal, overload

from ._paths import check_atomic
from ._reader import Reader, open_reader
from ._secrets import Identities, Recipients
from ._writer import TextWriter, Writer

_ReadBytes = Literal["rb", "br"]
_ReadText = Literal["r", "rt", "tr"]
_WriteBytes = Literal["wb", "bw", "xb", "bx"]
_WriteText = Literal["w", "wt", "tw", "x", "xt", "tx"]


@overload
def open(file: Any, mode: _ReadBytes = "rb", *, identities: Identities) -> Reader: ...
@overload
def open(file: Any, mode: _ReadText, *, identities: Identities, encoding: str | None = None,
         errors: str | None = None, newline: str | None = None) -> io.TextIOWrapper: ...
@overload
def open(file: Any, mode: _WriteBytes, *, recipients: Recipients, atomic: bool = False) -> Writer: ...
@overload
def open(file: Any, mode: _WriteText, *, recipients: Recipients, encoding: str | None = None,
         errors: str | None = None, newline: str | None = None, atomic: bool = False) -> TextWriter: ...
# The mode is known only at run time.
@overload
def open(file: Any, mode: str, *, identities: Identities, encoding: str | None = None,
         errors: str | None = None, newline: str | None = None) -> Any: ...
@overload
def open(file: Any, mode: str, *, recipients: Recipients, encoding: str | None = None,
         errors: str | None = None, newline: str | None = None, atomic: bool = False) -> Any: ...
def open(
    file: Any, mode: str = "rb", *,
    identities: Identities | None = None, recipients: Recipients | None = None,
    encoding: str | None = None, errors: str | None = None, newline: str | None = None,
    atomic: bool = False,
) -> Any:
    """Opens an age file, as the built-in `open` opens a file.

    `file` is a path, a descriptor, a binary file object, or an opener: a function without
    arguments, or an object with a method `open`, such as `fsspec.open` returns.

    Modes `rb` (returns a Reader) and `r` (text) read the plaintext with `identities`. The file must
    be seekable; `copy` reads pipes. A file object that is not an open file of the system, nor a
    buffer over one, is moved by `seek` before each read, so only one thread at a time may use it.

    Modes `wb` and `xb` (return a Writer), `w` and `x` (text) write a new file for `recipients`. It
    is complete only after `commit` or the clean end of its `with` block; until then every reader
    refuses it. `close` without either warns and, unless an exception is handled, raises ValueError.

    An existing file keeps its contents until the first byte is written or, with `atomic`, until the
    new file beside it is complete. Text is UTF-8 by default. AgeError, for example, if no identity
    opens the file or its last chunk is damaged; BlockingIOError if another writer has it.
    """
    kind = mode.replace("b", "").replace("t", "")
    if kind not in ("r", "w", "x") or len(mode) > 2 or {"b", "t"} <= set(mode):
        why = ": nothing is appended, as Dask does for single_file" if "a" in mode else ""
        raise ValueError(f"invalid mode: {mode!r}: an age file is read, or written anew{why}")
    words: dict[str, Any] = {"encoding": encoding, "errors": errors, "newline": newline}
    is_given = any(word is not None for word in words.values())
    if "b" in mode and is_given:
        raise ValueError("a binary mode takes no encoding, errors or newline")
    words["encoding"] = encoding or "utf-8"
    # A wrong `encoding` or `newline` is refused before anything is opened.
    used = io.TextIOWrapper(io.BytesIO(), **words).encoding if is_given else "utf-8"
    if kind == "r":
        if identities is None or recipients is not None or atomic:
            raise TypeError("to read a file takes identities, and neither recipients nor atomic")
        below: Any = open_reader(file, identities)
    else:
        if recipients is None or identities is not None:
            raise TypeError("to write a file takes recipients, and no identities")
        check_atomic(file, atomic)
        below = Writer(file, kind + "b", recipients, atomic)
    if "b" in mode:
        return below
    if kind != "r" and codecs.lookup(used).name in ("utf-16", "utf-32"):
        # In these, a TextIOWrapper writes the byte-order mark only to a seekable file.
        below.write("".encode(words["encoding"]))
    text = (io.TextIOWrapper if kind == "r" else TextWriter)(below, **words)
    text.mode = mode
    return text
