"""A store's bytes kept in a file: read under a lock, and saved by a new file that gets the old one's name. It is the same as
the command's, `hosts/rust/src/file.rs`, so that they lock each other out.

The lock is the system's advisory lock on the file itself (flock), shared while a store is only read. A save replaces the file,
so whoever waited for the lock may hold that of a file that no longer bears the name: it is looked up again until it does. Not
everybody takes the lock; so a save looks just before the rename whether the file is still the one that was read.
"""
import errno
import fcntl
import os
import random
import stat
import string
from io import FileIO
from typing import Callable, ClassVar, Optional, Tuple, Union

from .given import said
from .lent import STORE_BYTES

# The name of a file.
FileName = Union[str, bytes, "os.PathLike[str]", "os.PathLike[bytes]"]

# The mode of a file that is made: its owner's alone, since it holds the texts of every label.
_OWNER_ALONE = 0o600

# How many names are tried for the new file of a save.
_TRIES = 100

# The attribute of a file that holds its access list, and the errors where there is none.
_ACCESS_LIST = "system.posix_acl_access"
_NO_LIST = (errno.ENODATA, errno.ENOTSUP)


class StoreFileError(OSError):
    """Why a store in a file could not be opened or saved: the file's name, and what happened in words. What the system refuses
    comes as the OSError that it is, as FileNotFoundError or PermissionError."""

    # The system's number of it, if there is one.
    _number: ClassVar[Optional[int]] = None

    def __init__(self, filename: str, words: str) -> None:
        super().__init__(self._number, words, filename)
        self.words = words

    def __str__(self) -> str:
        """The file's name and what happened."""
        return f"{self.filename}: {self.words}"

    def __repr__(self) -> str:
        """What it is made of."""
        return f"{type(self).__name__}({self.filename!r}, {self.words!r})"

    def __reduce__(self) -> Tuple[Callable[..., "StoreFileError"], Tuple[str, str]]:
        """What it is made of anew where it is unpickled or copied."""
        return type(self), (self.filename, self.words)


class StoreInUse(StoreFileError, BlockingIOError):
    """Another holds the lock, and there was to be no waiting."""

    _number = errno.EAGAIN


class StoreChanged(StoreFileError):
    """The file is no longer the one that was read; nothing was saved."""


class NotAStore(StoreFileError):
    """The file is a folder, a device or a pipe, or it has another length than a store."""


class StoreNotSynced(StoreFileError):
    """The new store is there, but its folder could not be synced, so that the name may not survive a loss of power."""


def file_name(given: FileName) -> str:
    """The name of a file that was given. TypeError if it is none."""
    try:
        return os.fsdecode(given)
    except TypeError:
        raise TypeError(f"the path is no name of a file but {said(given)}") from None


def whole_store(buffer: memoryview) -> bytes:
    """The bytes of a store that is to be saved. ValueError if it has another length."""
    if buffer.nbytes != STORE_BYTES:
        raise ValueError(f"not saved: the store has {buffer.nbytes} bytes and not {STORE_BYTES}")
    return buffer.tobytes()


def create(name: str, store: bytes) -> None:
    """Makes a file with a store, its owner's alone. No file is overwritten: a new file beside it is filled and then linked to
    the name, which the system refuses where there is one: FileExistsError."""
    try:
        with _new_beside(name) as new:
            try:
                _fill(new, store)
                os.link(str(new.name), name)
            finally:
                _unlink(str(new.name))
    except FileExistsError:
        raise FileExistsError(errno.EEXIST, "there is a file of this name already", name) from None
    except OSError as error:
        raise _not_saved(error, name) from error
    _sync_folder(name, name)


def read(name: str, wait: bool) -> bytes:
    """The store of a file, read under a shared lock, which is let go at once."""
    with _open_locked(name, fcntl.LOCK_SH, wait)[1] as file:
        return _read_store(file, name)


class LockedFile:
    """A file with a store that is read and may be saved. Nobody else who takes locks reads or saves it until it is closed."""

    def __init__(self, name: str, wait: bool) -> None:
        """Opens a file and locks it. Symbolic links are followed."""
        self._process = os.getpid()
        self._given = name
        self._name, self._file, self._denied = _open_locked(name, fcntl.LOCK_EX, wait)
        try:
            self.store = _read_store(self._file, name)
        except BaseException:
            self.close()
            raise

    @property
    def is_closed(self) -> bool:
        """Whether the lock is let go."""
        return self._file.closed

    def close(self) -> None:
        """Lets the lock go. In a process that was forked from the one that opened it, the lock stays the other's."""
        if not self._file.closed and self._process == os.getpid():
            fcntl.flock(self._file, fcntl.LOCK_UN)
        self._file.close()

    def save(self, store: bytes) -> bool:
        """Saves a store by a new file, synced and renamed, if a byte has changed since it was read or saved: whether it has.
        The new file has the old one's mode, group and access list and, where the system allows it, its owner."""
        if store == self.store:
            return False
        if self._process != os.getpid():
            raise ValueError("the store is open in the process from which this one was forked: only that one saves it")
        try:
            if self._denied is not None:
                raise OSError(self._denied, os.strerror(self._denied))
            new = self._replace(store)
        except StoreFileError:
            raise
        except OSError as error:
            raise _not_saved(error, self._given) from error
        self.close()
        self._file, self.store = new, store
        _sync_folder(self._name, self._given)
        return True

    def _replace(self, store: bytes) -> FileIO:
        """Fills a new file, which is locked before anybody can find it, and gives it the store's name: the new file."""
        new = _new_beside(self._name)
        try:
            fcntl.flock(new, fcntl.LOCK_EX | fcntl.LOCK_NB)
            _set_rights(new, self._file)
            _fill(new, store)
            if not self._is_as_read():
                raise StoreChanged(self._given, "not saved: the file was changed meanwhile")
            os.rename(str(new.name), self._name)
        except BaseException:
            _unlink(str(new.name))
            new.close()
            raise
        return new

    def _is_as_read(self) -> bool:
        """Whether the file that was read has the same bytes and still bears the name, which is looked at last."""
        return _contents(self._file) == self.store and _bears(self._name, self._file)


def _open_locked(given: str, access: int, wait: bool) -> Tuple[str, FileIO, Optional[int]]:
    """Opens and locks a file; again where another file has got the name meanwhile. The name without links, the file, and the
    number of the system's error if it may not be written. Where it cannot be opened, the error has the name that was given."""
    if not isinstance(wait, bool):
        raise TypeError(f"wait is True or False and not {said(wait)}: there is no limit of time")
    while True:
        is_regular = stat.S_ISREG(os.stat(given).st_mode)
        if not is_regular:
            raise NotAStore(given, "it is no regular file")
        name = os.path.realpath(given)
        try:
            file, denied = _open_as(name, access)
        except OSError as error:
            raise OSError(error.errno, error.strerror, given) from error
        try:
            _lock(file, access, wait, given)
            if _bears(given, file) and _bears(name, file):
                return name, file, denied
        except BaseException:
            file.close()
            raise
        file.close()


def _open_as(name: str, access: int) -> Tuple[FileIO, Optional[int]]:
    """Opens a file, to be written too where it is to be had alone. One that may not be written is opened to be read: perhaps
    nothing is changed."""
    if access == fcntl.LOCK_SH:
        return FileIO(name), None
    try:
        return FileIO(name, "r+"), None
    except OSError as error:
        if error.errno not in (errno.EACCES, errno.EPERM, errno.EROFS):
            raise
        return FileIO(name), error.errno


def _lock(file: FileIO, access: int, wait: bool, given: str) -> None:
    """Locks a file."""
    try:
        fcntl.flock(file, access if wait else access | fcntl.LOCK_NB)
    except BlockingIOError:
        raise StoreInUse(given, "the file is in use") from None
    except OSError as error:
        raise OSError(error.errno, f"the file cannot be locked: {error.strerror}", given) from error


def _bears(name: str, file: FileIO) -> bool:
    """Whether the name leads to this file."""
    try:
        return os.path.samestat(os.stat(name), os.fstat(file.fileno()))
    except OSError:
        return False


def _contents(file: FileIO) -> bytes:
    """The bytes of a file, at most one more than a store's."""
    contents, more = b"", b"-"
    while more and len(contents) <= STORE_BYTES:
        more = os.pread(file.fileno(), STORE_BYTES + 1 - len(contents), len(contents))
        contents += more
    return contents


def _read_store(file: FileIO, given: str) -> bytes:
    """The bytes of a file that has those of a store."""
    try:
        contents = _contents(file)
    except OSError as error:
        raise OSError(error.errno, error.strerror, given) from error
    if len(contents) != STORE_BYTES:
        length = max(os.fstat(file.fileno()).st_size, len(contents))
        raise NotAStore(given, f"it is no store: it has {length} bytes, a store has {STORE_BYTES}")
    return contents


def _new_beside(name: str) -> FileIO:
    """A new file beside this one: its name, a dot and six letters."""
    for left in reversed(range(_TRIES)):
        letters = "".join(random.SystemRandom().choices(string.ascii_lowercase, k=6))
        try:
            return FileIO(f"{name}.{letters}", "x+", opener=lambda path, flags: os.open(path, flags, _OWNER_ALONE))
        except FileExistsError:
            if not left:
                raise
    raise AssertionError("a try is left")


def _unlink(name: str) -> None:
    """Takes a file away if it is there."""
    try:
        os.unlink(name)
    except OSError:
        pass


def _set_rights(file: FileIO, source: FileIO) -> None:
    """Gives a file the mode, the group and the access list of another, and its owner where the system allows it."""
    own, about = os.fstat(file.fileno()), os.fstat(source.fileno())
    if own.st_uid != about.st_uid:
        try:
            os.fchown(file.fileno(), about.st_uid, -1)
        except OSError:
            pass
    if own.st_gid != about.st_gid:
        os.fchown(file.fileno(), -1, about.st_gid)
    _copy_access_list(source.fileno(), file.fileno())
    os.fchmod(file.fileno(), stat.S_IMODE(about.st_mode))


def _copy_access_list(source: int, file: int) -> None:
    """Gives a file the access list of another, or none where that has none. Without it the mode's bits would let in whom it
    shut out."""
    try:
        os.setxattr(file, _ACCESS_LIST, os.getxattr(source, _ACCESS_LIST))
    except OSError as error:
        if error.errno not in _NO_LIST:
            raise
        _remove_access_list(file)


def _remove_access_list(file: int) -> None:
    """Takes the access list of a file away, if it has one."""
    try:
        os.removexattr(file, _ACCESS_LIST)
    except OSError as error:
        if error.errno not in _NO_LIST:
            raise


def _fill(file: FileIO, contents: bytes) -> None:
    """Writes and syncs a file."""
    left = memoryview(contents)
    while left:
        left = left[file.write(left) :]
    os.fsync(file.fileno())


def _sync_folder(name: str, given: str) -> None:
    """Syncs the folder that a file stands in, so that its name survives a loss of power."""
    try:
        folder = os.open(os.path.dirname(name) or ".", os.O_RDONLY | os.O_DIRECTORY)
        try:
            os.fsync(folder)
        finally:
            os.close(folder)
    except OSError as error:
        raise StoreNotSynced(given, f"saved, but its folder is not synced: {error.strerror}") from error


def _not_saved(error: OSError, name: str) -> OSError:
    """The system's error of a save, of the same class, with the store's name."""
    return OSError(error.errno, f"not saved: {error.strerror}", name)
