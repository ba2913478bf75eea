"""Recipients and identities, and the headers that they make and open."""

from __future__ import annotations

import concurrent.futures
import ctypes
import functools
import hmac
import operator
import os
import threading
from collections.abc import Iterable, Sequence
from typing import Any, Callable, NamedTuple, Protocol, TypeVar, Union, cast, runtime_checkable

from . import _library as lib
from ._errors import AgeError, Code
from ._paths import reading
from ._sources import read_into

_Call = TypeVar("_Call", bound=Callable[..., Any])
_MARKS = b"\xef\xbb\xbf", b"\xff\xfe", b"\xfe\xff"


class Stanza(NamedTuple):
    """An entry of a header, usually the file key wrapped for a recipient (C2SP age.md, "Recipient
    stanza"). `args` are its type and arguments, `body` is its body."""

    args: tuple[str, ...]
    body: bytes


class Header(NamedTuple):
    """The contents of a header. The MAC is not verified. `length` is in bytes, with the last LF."""

    stanzas: tuple[Stanza, ...]
    mac: bytes
    length: int


@runtime_checkable
class Recipient(Protocol):
    """A recipient: `wrap` wraps the file key of a new file, 16 bytes, into stanzas."""

    def wrap(self, file_key: bytes) -> Sequence[Stanza]: ...


@runtime_checkable
class Identity(Protocol):
    """An identity: `unwrap` finds the file key, 16 bytes, in the stanzas of a header, or returns None
    if no stanza is for it."""

    def unwrap(self, stanzas: Sequence[Stanza]) -> bytes | None: ...


class _Stanzas(tuple[Stanza, ...]):
    """The stanzas of a header, with its text: the library unlocks only a header as a whole."""

    text: bytes


class _Secret:
    """A secret with which the library wraps and unwraps file keys. Its repr does not show it.
    Equal ones have the same secret, which is compared in constant time, and the same settings."""

    def __init__(self, secret: bytes) -> None:
        self._secret, self._token = secret, os.urandom(16).hex()

    def __eq__(self, other: object) -> bool:
        if not isinstance(other, _Secret) or type(other) is not type(self):
            return NotImplemented
        mine, its = ({**vars(each), "_secret": b"", "_token": ""} for each in (self, other))
        return mine == its and hmac.compare_digest(self._secret, other._secret)

    def __hash__(self) -> int:
        # From a hash of the secret a weak passphrase could be guessed.
        return hash(type(self))

    def __dask_tokenize__(self) -> str:
        """A random name for this object and its pickles: a hash would help to guess the secret."""
        return self._token

    def __repr__(self) -> str:
        return f"{type(self).__name__}(..)"

    def wrap(self, file_key: bytes) -> list[Stanza]:
        """Returns a list of one stanza, which holds this file key."""
        file_key = _file_key(file_key)
        return list(read_header(header_of(self._text(file_key), file_key)).stanzas)

    def unwrap(self, stanzas: Sequence[Stanza]) -> bytes | None:
        """Verifies a header's MAC and returns its file key, or None if this secret does not fit;
        else AgeError. TypeError unless `stanzas` is from a Header or was passed to an identity."""
        if not isinstance(stanzas, _Stanzas):
            raise TypeError("pass the stanzas of a Header: without its MAC they are not unwrapped")
        code, file_key = self._find(stanzas)
        return file_key if code == Code.OK else None

    def _find(self, stanzas: _Stanzas) -> tuple[int, bytes]:
        """The code 0 and the file key, or the code of a secret that does not fit. Raises others."""
        code, report, file_key = self._unlock(stanzas.text)
        if code not in (Code.OK, Code.NO_MATCH, Code.WRONG_KEY):
            raise AgeError.of(code, report.place, report.detail)
        return code, file_key

    def _text(self, file_key: bytes) -> bytes:
        raise NotImplementedError

    def _unlock(self, front: bytes) -> tuple[int, lib.Report, bytes]:
        raise NotImplementedError


def _interruptible(work: _Call) -> _Call:
    """Makes the main thread wait while another one runs scrypt. Ctrl-C, which a call of the library
    would hold back, ends that wait at once. The other thread runs on until scrypt is done."""

    @functools.wraps(work)
    def run(*arguments: Any) -> Any:
        done: concurrent.futures.Future[Any] = concurrent.futures.Future()

        def work_there() -> None:
            try:
                done.set_result(work(*arguments))
            except BaseException as error:
                done.set_exception(error)

        if threading.current_thread() is not threading.main_thread():
            return work(*arguments)
        try:
            threading.Thread(target=work_there, daemon=True).start()
        except RuntimeError:
            # There is no thread to be had.
            return work(*arguments)
        return done.result()

    return cast(_Call, run)


class Passphrase(_Secret):
    """A passphrase, as a recipient and as an identity: text, which is encoded as UTF-8, or bytes.

    `work` is the work factor of new files: each attempt to open one takes 2^work KiB of memory.
    `max_work` is the largest work factor that is accepted from a file. Both are 1 to 30, else
    AgeError. An empty passphrase can open files but not make them: AgeError.
    """

    _untyped = False

    def __init__(self, passphrase: str | bytes, *, work: int = 18, max_work: int = 22) -> None:
        if isinstance(passphrase, str):
            passphrase = passphrase.encode()
        self._work, self._max_work = operator.index(work), operator.index(max_work)
        if not (1 <= self._work <= 30 and 1 <= self._max_work <= 30):
            raise AgeError(Code.WORK_FACTOR)
        super().__init__(bytes(memoryview(passphrase)))

    @classmethod
    def from_file(cls, file: Any, *, work: int = 18, max_work: int = 22) -> Passphrase:
        """Reads a passphrase file as `agep -p` does: at most 65,536 bytes, else ValueError; one LF
        at the end is removed. `file` is a path, a descriptor or a binary file object. A passphrase
        that ends in CR or LF, or begins with a byte-order mark, which nobody types, can open files;
        making a file with it raises ValueError."""
        room = bytearray(lib.TEXT_CHUNK + 1)
        with reading(file) as source:
            length = read_into(source, memoryview(room))
        if length > lib.TEXT_CHUNK:
            raise ValueError(f"a passphrase file has at most {lib.TEXT_CHUNK} bytes")
        made = cls(bytes(room[:length]).removesuffix(b"\n"), work=work, max_work=max_work)
        made._untyped = made._secret.startswith(_MARKS) or made._secret.endswith((b"\r", b"\n"))
        return made

    @_interruptible
    def _text(self, file_key: bytes) -> bytes:
        if self._untyped:
            raise ValueError("passphrase ends in CR or LF, or begins with a byte-order mark")
        salt, secret = os.urandom(lib.SALT), self._secret
        return _text_of("wrap_passphrase", file_key, secret, len(secret), self._work, salt)

    @_interruptible
    def _unlock(self, front: bytes) -> tuple[int, lib.Report, bytes]:
        file_key, secret = lib.FileKey(), self._secret
        words = front, len(front), secret, len(secret), self._max_work, file_key
        return (*lib.call("unlock_passphrase", *words), bytes(file_key))


class Key(_Secret):
    """A secret key of 32 bytes, as a recipient and as an identity. Only agep and libagefile open
    files encrypted with it. ValueError for any other length."""

    def __init__(self, key: bytes) -> None:
        if isinstance(key, str):
            raise TypeError("a key is 32 bytes: pass bytes.fromhex(..), or a file to Key.from_file")
        super().__init__(bytes(memoryview(key)))
        if len(self._secret) != 32:
            raise ValueError(f"a key has 32 bytes, not {len(self._secret)}")

    @classmethod
    def from_file(cls, file: Any) -> Key:
        """Reads a key file as `agep -k` does: 32 raw bytes, else ValueError. `file` is a path, a
        descriptor or a binary file object."""
        room = bytearray(33)
        with reading(file) as source:
            length = read_into(source, memoryview(room))
        if length != 32:
            found = "more" if length > 32 else str(length)
            raise ValueError(f"a key file holds 32 raw bytes, not hexadecimal; this one has {found}")
        return cls(bytes(room[:32]))

    def _text(self, file_key: bytes) -> bytes:
        return _text_of("wrap_key", file_key, self._secret, os.urandom(lib.SALT))

    def _unlock(self, front: bytes) -> tuple[int, lib.Report, bytes]:
        file_key = lib.FileKey()
        return (*lib.call("unlock_key", front, len(front), self._secret, file_key), bytes(file_key))


Recipients = Union[Recipient, Iterable[Recipient]]
Identities = Union[Identity, Iterable[Identity]]


def _file_key(found: Any) -> bytes:
    """These bytes, which must be 16."""
    file_key = bytes(memoryview(found))
    if len(file_key) != lib.FILE_KEY:
        raise ValueError(f"a file key has 16 bytes, not {len(file_key)}")
    return file_key


def _text_of(function: str, *arguments: Any, room: int = lib.STANZA_ROOM) -> bytes:
    """The output of a function, in a buffer of this size or, if too small, of the size needed."""
    while True:
        out = ctypes.create_string_buffer(room)
        code, report = lib.call(function, *arguments, out, room)
        if code == Code.OK:
            return out.raw[: report.len]
        if code != Code.TOO_SMALL:
            raise AgeError.of(code, report.place, report.detail)
        room = report.len


def _stanza_text(stanza: Stanza) -> bytes:
    """The text of a stanza in a header."""
    args, body = " ".join(stanza.args).encode(), bytes(stanza.body)
    if isinstance(stanza.args, str) or any(not arg or " " in arg for arg in stanza.args):
        raise AgeError(Code.BAD_ARGUMENTS)
    return _text_of("wrap", args, len(args), body, len(body))


def as_list(secrets: Any, method: str) -> list[Any]:
    """One recipient or identity, or several, as a list."""
    is_one = isinstance(secrets, (str, bytes, bytearray)) or hasattr(secrets, method)
    found = [secrets] if is_one or not isinstance(secrets, Iterable) else list(secrets)
    for secret in found:
        if not hasattr(secret, method):
            what = f"{type(secret).__name__} has no method {method}"
            raise TypeError(f"{what}: pass agefile.Passphrase(..) or agefile.Key(..)")
    return found


def stanzas_text(recipients: Recipients, file_key: bytes) -> bytes:
    """The text of the stanzas into which the recipients wrap a file key, in order."""
    texts = []
    for recipient in as_list(recipients, "wrap"):
        if isinstance(recipient, _Secret):
            texts.append(recipient._text(file_key))
        else:
            texts += [_stanza_text(Stanza(*stanza)) for stanza in recipient.wrap(file_key)]
    return b"".join(texts)


def header_of(text: bytes, file_key: bytes) -> bytes:
    """The header of this text of stanzas."""
    return _text_of("header", text, len(text), file_key, room=len(text) + 128)


def read_header(front: bytes) -> Header:
    """The header at the start of these bytes."""
    summary = lib.Summary()
    lib.check("inspect", front, len(front), ctypes.byref(summary))
    count, length = summary.stanzas, summary.header_len
    sizes, room = (lib.StanzaSummary * count)(), ctypes.create_string_buffer(length)
    lib.check("stanzas", front, len(front), sizes, count, room, length)
    text, stanzas, at = room.raw, [], 0
    for each in sizes:
        args = text[at : at + each.args_len].decode().split(" ")
        at += each.args_len
        stanzas.append(Stanza(tuple(args), text[at : at + each.body_len]))
        at += each.body_len
    found = _Stanzas(stanzas)
    found.text = front[:length]
    return Header(found, bytes(summary.mac), length)


def unlock(header: Header, identities: Identities) -> bytes:
    """The file key that the first matching identity finds. For a caller's own identity the MAC is
    not verified yet: opening the payload does that."""
    stanzas, missed = cast(_Stanzas, header.stanzas), Code.NO_MATCH
    if len(stanzas) > 1 and any(stanza.args[0] == "scrypt" for stanza in stanzas):
        raise AgeError(Code.MIXED_PASSPHRASE)
    for identity in as_list(identities, "unwrap"):
        if isinstance(identity, _Secret):
            code, file_key = identity._find(stanzas)
            if code == Code.OK:
                return file_key
            missed = max(missed, Code(code))
        elif (found := identity.unwrap(stanzas)) is not None:
            return _file_key(found)
    raise AgeError.of(missed)
