"""A file system of plaintexts for fsspec, and so for its users, such as Dask.

    import agefile, agefile.fsspec, dask.dataframe, fsspec
    secret = agefile.Passphrase("correct horse battery staple")
    table = dask.dataframe.read_csv("age:///data/*.csv.age", storage_options={"identities": secret})
    with fsspec.open("age::s3://bucket/a.age", age={"identities": secret}) as file:
        data = file.read()

Names are those of the file system below. Each task opens only the chunks of its block, the next
ones to find the end of a line, and the file's last one; damage in other chunks does not fail it.
Do not replace a file between the making of a table and its computation: as with plain files, Dask
then reads as many bytes as the old file had.

A pickle of the file system contains its recipients, its identities and, unless each identity is a
Key, the keys of the last files read, to run scrypt once for each: whoever has it has the secrets.
"""

from __future__ import annotations

import collections
import contextlib
import functools
import os
import shutil
import sys
from collections.abc import Iterator
from typing import Any

import fsspec  # type: ignore[import]
from fsspec.implementations.local import LocalFileSystem  # type: ignore[import]
from fsspec.spec import AbstractFileSystem  # type: ignore[import]
from fsspec.utils import tokenize  # type: ignore[import]

from ._errors import AgeError, Code
from ._files import open as open_file
from ._paths import NEW, Replacement, is_path
from ._reader import Reader, open_reader, reopened
from ._secrets import Identities, Key, Recipients, as_list

# How a file that does not exist is reported.
_ABSENT = FileNotFoundError, NotADirectoryError, IsADirectoryError
# The largest number of files whose keys are kept; the pickle of a file system contains them.
_MOST_KEYS = 512


def _refuse_slips(options: dict[str, Any], *others: str) -> None:
    """Refuses likely mistakes. Other options are allowed: a later fsspec may pass new ones."""
    slips = {"key", "keys", "passphrase", "password", "secret", "identity", "recipient", *others}
    if found := sorted(slips & {*options}):
        raise TypeError(f"{', '.join(found)}: a secret is passed as identities or recipients")


@contextlib.contextmanager
def _reading(path: str) -> Iterator[None]:
    """Makes an OSError an AgeError, unless the file is absent. Users such as zarr take any OSError
    for an absent file, and so for zeros, which they then write."""
    try:
        yield
    except OSError as error:
        if isinstance(error, _ABSENT):
            raise
        raise AgeError(Code.READ, filename=path) from error


def _random_end() -> str:
    """The end of a new file's name, where several writers may replace the same file at once."""
    return f".{os.urandom(8).hex()}{NEW}"


def _below(name: str) -> Any:
    def method(self: AgeFileSystem, path: Any, *arguments: Any, **options: Any) -> Any:
        return getattr(self.fs, name)(self._strip_protocol(path), *arguments, **options)

    return method


class AgeFileSystem(AbstractFileSystem):  # type: ignore[misc]
    """The plaintexts of the age files in another file system, which are read with `identities` and
    written for `recipients`. With `atomic` a new file replaces the old one once it is complete, as
    in `agefile.open` or, if the file system below is not local, by its `mv`. A failed read raises
    AgeError unless the file is absent. `rm`, `mv` and the like are those of the file system below.

    The file system below is `fs`, else that of the protocol of a chain, else the local one. `ls`
    opens no file, so its entries have no sizes; `info` of a single file has its size.
    """

    protocol = "age"
    cachable = False

    def __init__(
        self, *, fs: AbstractFileSystem | None = None,
        identities: Identities | None = None, recipients: Recipients | None = None,
        target_protocol: str = "file", target_options: dict[str, Any] | None = None,
        fo: Any = "", atomic: bool = False, **options: Any,
    ) -> None:
        _refuse_slips(options)
        super().__init__(**options)
        self.fs = fs or fsspec.filesystem(target_protocol, **(target_options or {}))
        self._identities = None if identities is None else as_list(identities, "unwrap")
        self._recipients = None if recipients is None else as_list(recipients, "wrap")
        self._target, self._atomic = fo, atomic
        groups = self._identities or [], self._recipients or []
        names = [[getattr(it, "_token", os.urandom(16).hex()) for it in group] for group in groups]
        self._token = tokenize(self.fs._fs_token, fo, atomic, names)
        # For each of the last files read: its state, and its payload's key with the offsets of its
        # chunks. Not kept if each identity is a Key, because no time would be saved.
        self._keys: collections.OrderedDict[str, tuple[str, bytes]] = collections.OrderedDict()
        self._keeps = any(type(each) is not Key for each in self._identities or [])
        # In a chain, such as `age::file://a.age`, the path is in `fo`, and the one given is empty.
        self._strip_protocol = self._name_below

    @property
    def _fs_token(self) -> str:
        """fsspec and Dask treat file systems with the same token as one. fsspec's own token
        contains the reprs of the secrets, which are all alike."""
        return str(self._token)

    def _name_below(self, path: Any) -> Any:
        if isinstance(path, list):
            return [self._name_below(each) for each in path]
        path = type(self)._strip_protocol(path)
        return self.fs._strip_protocol(path) if path else self._target

    def open(self, path: Any, mode: str = "rb", **options: Any) -> Any:
        """Opens a file as `agefile.open` does; but `close` of a new file completes it, unless an
        exception is being handled. Text is UTF-8 unless `encoding` names another. To write with a
        compression, which would lose the end of the file, or in a transaction: ValueError."""
        if "r" not in mode:
            return self._create(self._strip_protocol(path), mode, options)
        _refuse_slips(options, "identities", "recipients", "atomic")
        if "b" not in mode:
            options["encoding"] = options.get("encoding") or "utf-8"
        return super().open(path, mode, **options)

    def _open(self, path: str, mode: str = "rb", **options: Any) -> Any:
        return self._reader(path) if mode == "rb" else self._create(path, mode, options)

    def _create(self, path: str, mode: Any, options: dict[str, Any]) -> Any:
        is_later = self._intrans or not options.get("autocommit", True)
        if is_later or options.get("compression") is not None:
            raise ValueError("a file is written without compression, and outside of transactions")
        _refuse_slips(options, "identities")
        names = {"encoding", "errors", "newline", "recipients"} & set(options)
        words: Any = {"recipients": self._recipients, **{name: options[name] for name in names}}
        is_atomic = options.get("atomic", self._atomic)
        if isinstance(self.fs, LocalFileSystem):
            if self.fs.auto_mkdir:
                self.fs.makedirs(self.fs._parent(path), exist_ok=True)
            file = open_file(path, mode, atomic=is_atomic, **words)
        elif "x" in mode and self.fs.exists(path):
            raise FileExistsError(path)
        else:
            file = open_file(_Opener(self.fs, path, "atomic" if is_atomic else "wb"), mode, **words)
        getattr(file, "buffer", file)._commits_at_close = True
        return file

    def _reader(self, path: str) -> Reader:
        with _reading(path):
            opener, state = _Opener(self.fs, path, "rb"), str(self.fs.ukey(path))
            reader, (before, key) = None, self._keys.get(path, ("", b""))
            with contextlib.suppress(AgeError):
                # An unchanged file is opened again with the key kept of it.
                reader = reopened(opener, key, 0) if before == state else None
            if reader is None:
                if self._identities is None:
                    raise TypeError("to read a file takes identities")
                reader = open_reader(opener, self._identities)
                if self._keeps:
                    self._keys[path] = state, reader.again()[1]
                if len(self._keys) > _MOST_KEYS:
                    self._keys.popitem(last=False)
        setattr(reader, "size", reader.length)  # as fsspec's own files have it
        return reader

    def info(self, path: str, **_: Any) -> dict[str, Any]:
        """Returns what the file system below returns, with the size of the plaintext."""
        path = self._strip_protocol(path)
        found = dict(self.fs.info(path))
        if found["type"] == "file":
            with self._reader(path) as reader:
                found["size"] = reader.length
        return found

    def ls(self, path: str, detail: bool = True, **options: Any) -> list[Any]:
        found = self.fs.ls(self._strip_protocol(path), detail=True, **options)
        files = [{**each, "size": None} if each["type"] == "file" else each for each in found]
        return files if detail else [each["name"] for each in files]

    # `du` is the size of the files, encrypted.
    mkdir, makedirs, rmdir, rm, rm_file = map(_below, "mkdir makedirs rmdir rm rm_file".split())
    created, modified, exists, isfile = map(_below, "created modified exists isfile".split())
    isdir, du, ukey = map(_below, "isdir du ukey".split())

    def cp_file(self, path1: str, path2: str, **options: Any) -> None:
        self.fs.cp_file(self._strip_protocol(path1), self._strip_protocol(path2), **options)

    def mv(self, path1: str, path2: str, **options: Any) -> None:
        old, new = self._strip_protocol(path1), self._strip_protocol(path2)
        if old != new:
            self.fs.mv(old, new, **options)

    def touch(self, path: str, truncate: bool = True, **options: Any) -> None:
        """Makes a file without plaintext or, without `truncate`, gives an existing one a new time."""
        if truncate or not self.exists(path):
            self.open(path, "wb", **options).close()
        else:
            self.fs.touch(self._strip_protocol(path), truncate=False)

    def cat(self, path: Any, recursive: bool = False, on_error: str = "raise", **options: Any) -> Any:
        """Leaves out, or returns as exceptions, only files that are absent. All other errors are
        raised: users such as zarr take what is left out for zeros."""
        how = on_error if on_error == "raise" else "return"
        found = super().cat(path, recursive, how, **options)
        if not isinstance(found, dict):
            return found
        for each in found.values():
            if isinstance(each, Exception) and not isinstance(each, _ABSENT):
                raise each
        is_left_out: Any = Exception if on_error == "omit" else ()
        return {name: each for name, each in found.items() if not isinstance(each, is_left_out)}

    def cat_ranges(self, *arguments: Any, **options: Any) -> Any:
        """Raises each error, for the reason in `cat`. Ignores `on_error`, the fifth argument."""
        return super().cat_ranges(*arguments[:4], **{**options, "on_error": "raise"})

    def get_file(self, rpath: str, lpath: Any, *arguments: Any, **options: Any) -> None:
        """Writes a local file, which keeps its contents until the new ones are complete: the caches
        of fsspec take any file that exists for a complete one."""
        self._refuse_same(rpath, lpath)
        is_other = not is_path(lpath) or os.path.exists(lpath) and not os.path.isfile(lpath)
        if is_other or self.isdir(rpath):
            super().get_file(rpath, lpath, *arguments, **options)
            return
        os.makedirs(os.path.dirname(os.path.abspath(lpath)), exist_ok=True)
        with Replacement(lpath, "wb", 0o666, _random_end()) as new:
            super().get_file(rpath, new, *arguments, **options)
            new.replace_old()

    def put_file(self, lpath: str, rpath: str, *arguments: Any, **options: Any) -> None:
        self._refuse_same(rpath, lpath)
        if sys.exc_info()[0] is not None:
            # fsspec's caches put half a file here after an exception.
            raise RuntimeError(f"{rpath!r} was not written: an exception is being handled")
        super().put_file(lpath, rpath, *arguments, **options)

    def _refuse_same(self, path: str, local: Any) -> None:
        """Refuses a local file that is the age file itself, as in `get(X, X)`, or its new file."""
        name, fs = self._strip_protocol(path), self.fs
        while not isinstance(fs, LocalFileSystem) and getattr(fs, "fs", None) is not None:
            name, fs = fs._join(name) if hasattr(fs, "_join") else name, fs.fs
        is_local = isinstance(fs, LocalFileSystem) and isinstance(local, (str, os.PathLike))
        for each in (name, os.path.realpath(name) + NEW) if is_local and os.path.exists(local) else ():
            if os.path.isfile(each) and os.path.samefile(each, local):
                raise shutil.SameFileError(f"{each!r} and {local!r} are the same file")

    def invalidate_cache(self, path: str | None = None) -> None:
        self.fs.invalidate_cache(None if path is None else self._strip_protocol(path))

    def __reduce__(self) -> tuple[Any, ...]:
        words = {"fs": self.fs, "identities": self._identities, "recipients": self._recipients}
        make = functools.partial(AgeFileSystem, fo=self._target, atomic=self._atomic, **words)
        return make, (), {"_keys": self._keys, "_token": self._token}


class _Opener:
    """Opens a file of a file system. It can be pickled if the file system can."""

    def __init__(self, fs: AbstractFileSystem, path: str, mode: str) -> None:
        self._fs, self.path, self._mode = fs, path, mode

    def open(self) -> Any:
        if self._mode == "atomic":
            return _Beside(self._fs, self.path)
        if self._mode == "rb":
            # No cache below: each chunk is read once.
            return self.guarded(self._fs.open)(self.path, "rb", cache_type="none")
        return self._fs.open(self.path, self._mode)

    def guarded(self, read: Any) -> Any:
        return _reading(self.path)(read)


class _Beside:
    """A new file beside another. `replace_old` moves it to the other's name; closed before that, it
    is removed."""

    def __init__(self, fs: AbstractFileSystem, path: str) -> None:
        self._fs, self._path = fs, path
        self._name = path + _random_end()
        self._file = fs.open(self._name, "wb")
        self.write, self.flush = self._file.write, self._file.flush

    def replace_old(self) -> None:
        self._file.close()
        self._fs.mv(self._name, self._path)
        self._name = ""

    def close(self) -> None:
        try:
            self._file.close()
        finally:
            if self._name:
                with contextlib.suppress(FileNotFoundError):
                    self._fs.rm_file(self._name)


fsspec.register_implementation("age", AgeFileSystem, clobber=True)
