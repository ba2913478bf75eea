"""The functions of libagefile by ctypes, and their structs. Only this module calls the library."""

from __future__ import annotations

import ctypes
import functools
import mmap
import os
import pathlib
from typing import Any, Callable

from ._errors import AgeError, Code

TEXT_CHUNK = 65536
SEALED_CHUNK = 65552
FRONT = 65552
TAG = 16
FILE_KEY = 16
NONCE = 16
SALT = 16
STANZA_ROOM = 128
SONAME = "libagefile.so.1"

number, size, byte, address = ctypes.c_uint64, ctypes.c_size_t, ctypes.c_uint8, ctypes.c_void_p
FileKey = byte * FILE_KEY

# generated: structs


class Summary(ctypes.Structure):
    _fields_ = [("header_len", number), ("stanzas", number), ("mac", byte * 32)]


class StanzaSummary(ctypes.Structure):
    _fields_ = [("args", number), ("args_len", number), ("body_len", number)]


class Part(ctypes.Structure):
    _fields_ = [("key", byte * 32), ("number", number), ("left", number), ("state", number),
                ("spare", number)]


class Payload(ctypes.Structure):
    _fields_ = [("key", byte * 32), ("number", number), ("state", number),
                ("damaged", ctypes.c_uint32), ("before", ctypes.c_uint32), ("held", number)]


class Ranges(ctypes.Structure):
    _fields_ = [("key", byte * 32), ("first", number), ("sealed_len", number), ("state", number)]


class Report(ctypes.Structure):
    _fields_ = [("len", number), ("place", number), ("detail", number)]


# end of structs


_pointer = ctypes.POINTER
_report = _pointer(Report)
_bytes = (address, size)
_SIGNATURES: dict[str, tuple[Any, ...]] = {
    # generated: signatures
    "inspect": (*_bytes, _pointer(Summary), _report),
    "stanzas": (*_bytes, _pointer(StanzaSummary), size, *_bytes, _report),
    "unlock_passphrase": (*_bytes, *_bytes, byte, address, _report),
    "unlock_key": (*_bytes, address, address, _report),
    "wrap_passphrase": (address, *_bytes, byte, address, *_bytes, _report),
    "wrap_key": (address, address, address, *_bytes, _report),
    "wrap": (*_bytes, *_bytes, *_bytes, _report),
    "header": (*_bytes, address, *_bytes, _report),
    "begin": (*_bytes, address, address, *_bytes, _pointer(Payload), _report),
    "open": (*_bytes, address, _pointer(Payload), _report),
    "open_next": (_pointer(Payload), *_bytes, ctypes.c_bool, _report),
    "seal_next": (_pointer(Payload), *_bytes, ctypes.c_bool, _report),
    "take_part": (_pointer(Payload), number, _pointer(Part), _report),
    "part_open_next": (_pointer(Part), *_bytes, _report),
    "part_seal_next": (_pointer(Part), *_bytes, _report),
    "salvage_next": (_pointer(Payload), *_bytes, ctypes.c_bool, _report),
    "ranges_open": (*_bytes, number, address, _pointer(Ranges), _report),
    "ranges_last": (_pointer(Ranges), *_bytes, _report),
    "ranges_locate": (_pointer(Ranges), number, _report),
    "ranges_chunk": (_pointer(Ranges), number, *_bytes, _report),
    "decrypt": (*_bytes, address, *_bytes, _report),
    "encrypt": (*_bytes, *_bytes, address, address, *_bytes, _report),
    # end of signatures
}


def _load() -> ctypes.CDLL:
    """The library of the wheel, else the one that AGEFILE_LIBRARY names, else the loader's."""
    inside = pathlib.Path(__file__).parent / "lib" / SONAME
    other = os.environ.get("AGEFILE_LIBRARY") or SONAME
    return ctypes.CDLL(str(inside) if inside.exists() else other)


_loaded = _load()


def _function(name: str) -> Callable[..., int]:
    function = getattr(_loaded, "agefile_" + name)
    function.argtypes = _SIGNATURES[name]
    function.restype = ctypes.c_uint32
    return function  # type: ignore[no-any-return]


_functions = {name: _function(name) for name in _SIGNATURES}
_loaded.agefile_version.restype = ctypes.c_uint32


def version() -> str:
    """Returns the version of the loaded library, such as '0.4.0'."""
    packed = _loaded.agefile_version()
    return f"{packed >> 16}.{packed >> 8 & 255}.{packed & 255}"


def call(name: str, *arguments: Any) -> tuple[int, Report]:
    """Calls a function, and returns its code and report. Inputs are `bytes`, which nobody changes
    meanwhile; outputs are ctypes objects, new bytes, or the room of a Chunk."""
    report = Report()
    return _functions[name](*arguments, ctypes.byref(report)), report


def check(name: str, *arguments: Any) -> Report:
    """Calls a function, and returns its report. Raises the error of a code other than 0."""
    code, report = call(name, *arguments)
    if code != Code.OK:
        raise AgeError.of(code, report.place, report.detail)
    return report


def for_chunks(name: str, struct: ctypes.Structure) -> Callable[..., int]:
    """Returns a function that calls `name` on a Payload, Part or Ranges, for one thread at a time.
    It returns the length in the report, or raises the error of a code other than 0."""
    report = Report()
    step, out = functools.partial(_functions[name], ctypes.byref(struct)), ctypes.byref(report)

    def call_step(*arguments: int) -> int:
        code = step(*arguments, out)
        if code:
            raise AgeError.of(code, report.place, report.detail)
        return report.len  # type: ignore[no-any-return]

    return call_step


def address_of(memory: bytes) -> int:
    """Where these bytes are, as long as the object lives."""
    return ctypes.cast(ctypes.c_char_p(memory), address).value or 0


def view_of(memory: bytes) -> memoryview:
    """A writable view of new bytes to which nobody else refers yet."""
    array = (ctypes.c_char * len(memory)).from_address(address_of(memory))
    array.owner = memory  # type: ignore[attr-defined]
    return memoryview(array).cast("B")


_new_bytes = ctypes.pythonapi.PyBytes_FromStringAndSize
_new_bytes.argtypes = [address, ctypes.c_ssize_t]
_new_bytes.restype = ctypes.py_object


# Huge pages, if the system has them: page faults for pages of 4 KiB take as long as the cipher.
_advise = getattr(ctypes.CDLL(None), "madvise", None)
_GREAT, _PAGE = 1 << 22, mmap.PAGESIZE
_ADVICE = getattr(mmap, "MADV_HUGEPAGE", 14)


def fresh_bytes(length: int) -> bytes:
    """New bytes of this length, to which nobody else refers yet, so the library may write them."""
    made: bytes = _new_bytes(None, length)
    if length >= _GREAT and _advise is not None:
        first = address_of(made)
        begin = (first + _PAGE - 1) // _PAGE * _PAGE
        end = (first + length) // _PAGE * _PAGE
        _advise(address(begin), size(end - begin), _ADVICE)
    return made


def made(name: str, *arguments: Any) -> bytes:
    """The output of a function, in new bytes of the length that it needs."""
    code, report = call(name, *arguments, None, 0)
    out = fresh_bytes(report.len if code == Code.TOO_SMALL else 0)
    if out:
        code, report = call(name, *arguments, out, len(out))
    if code:
        raise AgeError.of(code, report.place, report.detail)
    return out
