"""A caller's files (paths, descriptors, openers, file objects), and new files with their locks."""

from __future__ import annotations

import contextlib
import errno
import fcntl
import io
import operator
import os
import stat
import tempfile
from collections.abc import Iterator
from typing import TYPE_CHECKING, Any, BinaryIO

from ._errors import AgeError

_ACL = "system.posix_acl_access"
# The end of a new file's name until the file is complete. agep uses it too.
NEW = ".agep-new"

if TYPE_CHECKING:
    class BinaryBase(io.BufferedIOBase, BinaryIO):  # type: ignore[misc]
        """A BinaryIO for type checkers, like `io.BufferedReader`."""
        name: Any
        mode: str
else:
    BinaryBase = io.BufferedIOBase


def is_path(file: Any) -> bool:
    """Whether this is a path, and not an open file with `__fspath__`, such as fsspec's."""
    return isinstance(file, (str, bytes, os.PathLike)) and not isinstance(file, io.IOBase)


def is_open(file: Any, method: str) -> bool:
    """Whether this is an open binary file with this method, and not an opener."""
    if isinstance(file, io.TextIOBase):
        raise TypeError("a text file holds no bytes: open it in binary mode, or pass its `buffer`")
    return hasattr(file, method) and not is_path(file)


def raw_of(file: Any) -> io.FileIO | None:
    """The system's file that this object reads directly or through a buffer, or None."""
    if isinstance(file, tempfile._TemporaryFileWrapper):
        file = file.file
    raw = getattr(file, "raw", file)
    is_plain = type(file) in (io.FileIO, io.BufferedReader, io.BufferedRandom)
    return raw if is_plain and type(raw) is io.FileIO else None


def name_of(file: Any) -> Any:
    """The path or the descriptor, else the `name` or `path` of the object, or None."""
    if is_path(file):
        return os.fspath(file)
    return file if isinstance(file, int) else getattr(file, "name", getattr(file, "path", None))


def opened(file: Any, mode: str = "rb", closefd: bool = True) -> Any:
    """Opens a path, a descriptor or an opener: a function, or an object with `open`, as in fsspec."""
    if is_path(file):
        return io.FileIO(os.fspath(file), mode)
    if isinstance(file, int):
        return io.FileIO(file, mode, closefd=closefd)
    return opener_of(file)()


def opener_of(file: Any) -> Any:
    opener = getattr(file, "open", file)
    if not callable(opener):
        kind = type(file).__name__
        raise TypeError(f"pass a path, a descriptor, a binary file or what opens one, not {kind}")
    return opener


def _stat_of(file: Any) -> os.stat_result | None:
    """What the system says of a path or an open file, or None. Keeps a spooled file in memory."""
    with contextlib.suppress(AttributeError, NotImplementedError, TypeError, ValueError, OSError):
        if is_path(file):
            return os.stat(file)
        if not hasattr(file, "rollover"):
            return os.fstat(operator.index(file.fileno()))
    return None


def _refuse_source(sink: Any, source: Any) -> None:
    """Refuses a sink that is the source, or the file below a source that is a Reader: that file
    would be emptied, or grow while it is read. A socket or terminal may be both."""
    source = getattr(source, "encrypted", source)
    to, of = _stat_of(sink), _stat_of(source)
    if to is None or of is None:
        is_same = sink is source and sink.seekable()
    else:
        is_same = stat.S_ISREG(to.st_mode) and os.path.samestat(to, of)
    if is_same:
        raise ValueError(f"{name_of(sink)!r} is the source, and cannot be the sink too")


def _is_same(name: Any, other: Any) -> bool:
    """Whether this name, not followed if it is a link, is a name of the other file."""
    with contextlib.suppress(FileNotFoundError):
        return os.path.samestat(os.lstat(name), os.stat(other))
    return False


class Locked(io.FileIO):
    """A file with one writer at a time, because two would destroy each other's chunks."""

    name: Any
    _process = 0

    def lock(self, beside: str = "") -> bool:
        """Locks it, or raises if it or the file beside it is locked. False if locks do not work."""
        self._process = os.getpid()
        try:
            fcntl.flock(self.fileno(), fcntl.LOCK_EX | fcntl.LOCK_NB)
            if beside and not _is_same(beside, self.fileno()):
                _refuse_busy(beside)
        except BlockingIOError as error:
            self.close()
            raise _busy(error.filename or self.name) from None
        except OSError:
            return False
        return True

    def close(self) -> None:
        if not self.closed and self._process == os.getpid():
            # The locking process unlocks: the descriptor of a forked child would keep the lock.
            with contextlib.suppress(OSError):
                fcntl.flock(self.fileno(), fcntl.LOCK_UN)
        super().close()


def _busy(name: Any) -> BlockingIOError:
    return BlockingIOError(errno.EAGAIN, "another run is writing this file", name)


def _refuse_busy(name: str, target: str = "") -> None:
    """Refuses a file that another writer has locked. Given a target, removes a file that a killed
    writer left: a regular file with only this name, or the target itself under a second name."""
    flags = os.O_RDWR | os.O_NOFOLLOW | os.O_NONBLOCK | os.O_CLOEXEC
    try:
        with Locked(name, "rb+", opener=lambda name, _: os.open(name, flags)) as file:
            is_dead, found = file.lock(), os.fstat(file.fileno())
            is_ours = stat.S_ISREG(found.st_mode) and (found.st_nlink == 1 or _is_same(name, target))
            if target and is_dead and is_ours and _is_same(name, file.fileno()):
                os.unlink(name)
    except OSError as error:
        if isinstance(error, BlockingIOError) or target and not isinstance(error, FileNotFoundError):
            raise


class Output(Locked):
    """The file of a path, which keeps its contents until the first byte is written."""

    def __init__(self, path: Any, mode: str, permissions: int = 0) -> None:
        def without_truncation(path: Any, flags: int) -> int:
            return os.open(path, flags & ~os.O_TRUNC, permissions)

        # The file that a writer with `atomic` would have locked.
        new = os.path.realpath(os.fsdecode(path)) + NEW
        if not os.path.exists(path):
            _refuse_busy(new)
        super().__init__(os.fspath(path), mode, opener=without_truncation)
        self._is_kept = stat.S_ISREG(os.fstat(self.fileno()).st_mode)
        if self._is_kept:
            self.lock(new)

    def replace_old(self) -> None:
        """Empties the file, if nothing was written."""
        if self._is_kept:
            self.truncate(0)
            self._is_kept = False

    def write(self, data: Any, /) -> int:
        self.replace_old()
        return super().write(data)


class Replacement(Locked):
    """A new file beside that of a path, with the old file's owner and permissions. `replace_old`
    moves it to the path; `close` removes it if it was not moved."""

    _is_beside = False

    def __init__(self, path: Any, mode: str, permissions: int, end: str = NEW) -> None:
        self._target, self._is_new = os.path.realpath(os.fsdecode(path)), "x" in mode
        name = self._target + end
        if self._is_new and os.path.lexists(path):
            with contextlib.suppress(OSError):
                if _is_same(name, self._target):
                    _refuse_busy(name, self._target)
            raise FileExistsError(errno.EEXIST, os.strerror(errno.EEXIST), path)
        # Fails for a link that leads nowhere.
        found = os.stat(path) if os.path.lexists(path) else None
        if found is not None and not stat.S_ISREG(found.st_mode):
            raise ValueError(f"only a regular file is replaced, which {path!r} is not")
        if found is not None and end == NEW:
            # As without `atomic`, the old file must be writable and have no other writer.
            Output(path, "ab").close()
        _refuse_busy(name, self._target)
        try:
            access = permissions if found is None else 0o600
            super().__init__(name, "xb", opener=lambda name, flags: os.open(name, flags, access))
        except FileExistsError:
            raise _busy(name) from None
        # Another writer may have locked it first, taken it for a killed writer's, and removed it.
        self.lock()
        if not _is_same(name, self.fileno()):
            self.close()
            raise _busy(name)
        self._is_beside = True
        if end == NEW:
            self.lock(self._target)
        if found is not None:
            self._take_permissions(found)

    def _take_permissions(self, found: os.stat_result) -> None:
        """Takes over owner, group, ACL and the mode's permission bits, where the system allows it.
        If the group or the ACL cannot be kept, the group gets no permissions."""
        new, kept, acl = self.fileno(), 0o707, None
        for owner in (found.st_uid, -1):
            with contextlib.suppress(OSError):
                os.fchown(new, owner, found.st_gid)
                kept = 0o777
                break
        try:
            acl = os.getxattr(self._target, _ACL)
            os.setxattr(new, _ACL, acl)
        except OSError as error:
            if acl is not None or error.errno not in (errno.ENODATA, errno.ENOTSUP):
                kept = 0o707
            with contextlib.suppress(OSError):
                # The mode's group bits would become an inherited ACL's mask, and put it in force.
                os.removexattr(new, _ACL)
        os.fchmod(new, found.st_mode & kept)

    def replace_old(self) -> None:
        """Syncs the file, moves it to the path, and syncs the folder if that may be read."""
        folder = None
        with contextlib.suppress(PermissionError):
            folder = os.open(os.path.dirname(self._target), os.O_RDONLY)
        try:
            os.fsync(self.fileno())
            if not _is_same(self.name, self.fileno()):
                raise FileNotFoundError(errno.ENOENT, "the new file was removed", self.name)
            if self._is_new:
                os.link(self.name, self._target)
                with contextlib.suppress(OSError):
                    os.unlink(self.name)
            else:
                os.replace(self.name, self._target)
            self._is_beside = False
            if folder is not None:
                os.fsync(folder)
        except OSError as error:
            if not self._is_beside:
                error.strerror = f"replaced, but the folder was not synced: {error.strerror}"
            raise
        finally:
            if folder is not None:
                os.close(folder)

    def close(self) -> None:
        try:
            # A forked child must not remove its parent's file.
            if self._is_beside and self._process == os.getpid() and _is_same(self.name, self.fileno()):
                os.unlink(self.name)
        finally:
            self._is_beside = False
            super().close()


def created(
    file: Any, mode: str, atomic: bool = False, closefd: bool = True, permissions: int = 0o666
) -> Any:
    """Opens the file to write. The file of a path keeps its contents for now."""
    if is_path(file):
        return (Replacement if atomic else Output)(file, mode, permissions)
    return opened(file, mode, closefd)


def with_name(error: BaseException, name: Any) -> None:
    """Adds the name of the file to an AgeError that has none."""
    if isinstance(error, AgeError) and error.filename is None:
        error.filename = name


@contextlib.contextmanager
def named(name: Any) -> Iterator[None]:
    """Adds the file's name to an AgeError that the block raises."""
    try:
        yield
    except AgeError as error:
        with_name(error, name)
        raise


@contextlib.contextmanager
def reading(file: Any) -> Iterator[BinaryIO]:
    """An open file, or one opened here and closed at the end. A descriptor stays open."""
    with named(name_of(file)), contextlib.ExitStack() as stack:
        is_ours = not is_open(file, "read")
        yield stack.enter_context(opened(file, closefd=False)) if is_ours else file


def check_atomic(file: Any, atomic: bool) -> None:
    if atomic and not is_path(file):
        raise TypeError("atomic takes a path, beside which the new file is written")


@contextlib.contextmanager
def writing(
    file: Any, source: BinaryIO, permissions: int = 0o666, atomic: bool = False, in_place: bool = True
) -> Iterator[Any]:
    """Like `reading`, for writing. The file may be the source only if it is replaced at the end."""
    if is_open(file, "write"):
        _refuse_source(file, source)
        yield file
        getattr(file, "flush", bool)()
        return
    if atomic and not _is_same(new := os.path.realpath(os.fsdecode(file)) + NEW, file):
        # A source of this name would be removed as a killed run's new file.
        _refuse_source(new, source)
    if atomic and not in_place:
        _refuse_source(file, source)
    elif not is_path(file) and not isinstance(file, int):
        if opener_of(file) is file:
            raise TypeError("a function could empty the source: pass a path, or the file that it opens")
        if getattr(getattr(file, "fs", None), "local_file", False):
            _refuse_source(file.path, source)
    with created(file, "wb", atomic, closefd=False, permissions=permissions) as sink:
        _refuse_source(sink, source)
        yield sink
        if isinstance(sink, (Output, Replacement)):
            sink.replace_old()
