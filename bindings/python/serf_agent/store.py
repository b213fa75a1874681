"""The file of an agent's snapshot (Linux)."""

import contextlib
import errno
import fcntl
import os
import stat
import weakref
from typing import Dict, Iterator, List, Optional, Type, Union

# The types of a file's path.
Path = Union[str, bytes, "os.PathLike[str]", "os.PathLike[bytes]"]

# The number of the descriptor after the file was closed.
CLOSED = -1

# The maximum number of attempts to open the file, if it is replaced each time after its opening and before its lock.
MAX_ATTEMPTS = 100


class StoreError(Exception):
    """The file can't be opened, read or written. If the system reported an error, it is the cause (``__cause__``)."""


class Locked(StoreError):
    """Another store, in this process or another one, has locked the file.

    ``pid`` is the process that locked it. It is None if /proc/locks doesn't show the lock.
    """

    def __init__(self, said: str, pid: Optional[int] = None) -> None:
        super().__init__(said)
        self.pid = pid


class MissingFolder(StoreError):
    """The folder that should contain the file doesn't exist."""


class NotAFile(StoreError):
    """The path is a folder, a device or anything else that is not a regular file."""


class ReadOnly(StoreError):
    """The file, its folder or its file system is not writable."""


class Full(StoreError):
    """The disk, or this user's quota, is full."""


class Broken(StoreError):
    """An earlier call failed, or the store is closed."""


ERRORS_BY_NUMBER: Dict[int, Type[StoreError]] = {
    errno.ENOENT: MissingFolder,
    errno.ENOTDIR: MissingFolder,
    errno.EISDIR: NotAFile,
    errno.ELOOP: NotAFile,
    errno.ENXIO: NotAFile,
    errno.EACCES: ReadOnly,
    errno.EPERM: ReadOnly,
    errno.EROFS: ReadOnly,
    errno.ENOSPC: Full,
    errno.EDQUOT: Full,
    errno.EFBIG: Full,
}


def lock_owner(path: str, lock_list: str = "/proc/locks") -> Optional[int]:
    """Returns the process that locked a file by flock, according to the system's list of locks, or None."""
    try:
        status = os.stat(path)
        with open(lock_list, encoding="ascii") as file:
            lines = [line.split() for line in file]
    except OSError:
        return None
    file_id = f"{os.major(status.st_dev):02x}:{os.minor(status.st_dev):02x}:{status.st_ino}"
    return next((int(words[4]) for words in lines if words[1:2] == ["FLOCK"] and words[5:6] == [file_id]), None)


def locked_error(path: str) -> Locked:
    """Returns the error for a file that another store has locked."""
    pid = lock_owner(path)
    if pid is None:
        return Locked(f"{path}: another agent has the file; /proc/locks doesn't show in which process")
    where = "in this process" if pid == os.getpid() else f"in process {pid}"
    return Locked(f"{path}: another agent has the file, {where}", pid)


@contextlib.contextmanager
def converted_errors(path: str) -> Iterator[None]:
    """Converts the system's error to a ``StoreError``."""
    try:
        yield
    except BlockingIOError as error:
        raise locked_error(path) from error
    except OSError as error:
        raise ERRORS_BY_NUMBER.get(error.errno or 0, StoreError)(f"{path}: {error.strerror}") from error


def real_path(path: str) -> str:
    """Returns the path without symbolic links.

    If the file doesn't exist, only the links in its folder's path are resolved.
    """
    if os.path.exists(path):
        return os.path.realpath(path)
    return os.path.join(os.path.realpath(os.path.dirname(path)), os.path.basename(path))


def write_all(file: int, data: bytes) -> None:
    """Writes all of these bytes to the file, in several calls if necessary."""
    view = memoryview(data)
    while view:
        view = view[os.write(file, view) :]


# The stores of this process that may be open.
STORES: "weakref.WeakSet[Store]" = weakref.WeakSet()


def close_all_stores() -> None:
    """Closes a forked child's copies of the files, so that only the parent has the lock, and the lock ends with it."""
    for store in list(STORES):
        store.close()


os.register_at_fork(after_in_child=close_all_stores)


class Store:
    """The snapshot's file, which is created if it doesn't exist. It is locked, so only one store at a time has it open.

    The system releases the lock when the process ends, however it ends. A child that is forked by ``os.fork`` closes its
    copy of the file at once, and a program that is run by ``exec`` gets none. A replacement writes ``FILE.new`` next to the
    file, flushes it and renames it, so a crash leaves the old text or the new one. The next opening removes a ``FILE.new`` that
    a crash left. After an error in an append or a replacement the store is broken: it accepts no more bytes until it, and the
    agent with it, is opened again.

    The store is not proved. tests/library/embed.py tests it.
    """

    def __init__(self, path: Path) -> None:
        # Python decodes the bytes of a path and encodes them again without a loss.
        self.path = real_path(os.fsdecode(path))
        self._file = self._folder = CLOSED
        self._is_broken = False
        STORES.add(self)
        with converted_errors(self.path):
            try:
                self._folder = os.open(os.path.dirname(self.path), os.O_RDONLY | os.O_DIRECTORY)
                self._name = os.path.basename(self.path) or "."
                self._open_file()
                self._finish_opening()
            except BaseException:
                self.close()
                raise

    def _open_file(self) -> None:
        """Opens and locks the file that has the name now."""
        flags = os.O_RDWR | os.O_APPEND | os.O_CREAT | os.O_NOFOLLOW | os.O_NONBLOCK
        for _ in range(MAX_ATTEMPTS):
            self._file = os.open(self._name, flags, 0o600, dir_fd=self._folder)
            opened = os.fstat(self._file)
            if not stat.S_ISREG(opened.st_mode):
                raise OSError(errno.EISDIR, "it is not a regular file")
            fcntl.flock(self._file, fcntl.LOCK_EX | fcntl.LOCK_NB)
            with contextlib.suppress(FileNotFoundError):
                if os.path.samestat(opened, os.stat(self._name, dir_fd=self._folder, follow_symlinks=False)):
                    return
            os.close(self._file)
            self._file = CLOSED
        raise Locked(f"{self.path}: the file was replaced during each of {MAX_ATTEMPTS} attempts to open it")

    def _finish_opening(self) -> None:
        """Removes the new file that a crash left of a replacement, and flushes the file and its folder."""
        with contextlib.suppress(FileNotFoundError):
            os.unlink(self._name + ".new", dir_fd=self._folder)
        os.fsync(self._file)
        os.fsync(self._folder)

    def read(self) -> bytes:
        """Returns the whole file, which is the text on which an agent is opened."""
        if self._file == CLOSED:
            raise Broken(f"{self.path}: the store is closed")
        with converted_errors(self.path):
            parts: List[bytes] = []
            offset = 0
            while part := os.pread(self._file, 1 << 20, offset):
                parts.append(part)
                offset += len(part)
            return b"".join(parts)

    @contextlib.contextmanager
    def _break_on_error(self) -> Iterator[None]:
        """Marks the store as broken if its block fails."""
        if self._file == CLOSED or self._is_broken:
            raise Broken(f"{self.path}: an earlier call failed, or the store is closed")
        self._is_broken = True
        with converted_errors(self.path):
            yield
        self._is_broken = False

    def append(self, data: bytes) -> None:
        """Appends these bytes and flushes them to the disk. It does nothing if there are none."""
        with self._break_on_error():
            if data:
                write_all(self._file, data)
                os.fdatasync(self._file)

    def replace(self, data: bytes) -> None:
        """Replaces the file's content with these bytes, durably."""
        with self._break_on_error():
            new_name = self._name + ".new"
            file = os.open(new_name, os.O_RDWR | os.O_APPEND | os.O_CREAT | os.O_EXCL, 0o600, dir_fd=self._folder)
            try:
                fcntl.flock(file, fcntl.LOCK_EX | fcntl.LOCK_NB)
                os.fchmod(file, stat.S_IMODE(os.fstat(self._file).st_mode) & 0o777)
                write_all(file, data)
                os.fsync(file)
                os.rename(new_name, self._name, src_dir_fd=self._folder, dst_dir_fd=self._folder)
            except OSError:
                os.close(file)
                os.unlink(new_name, dir_fd=self._folder)
                raise
            os.close(self._file)
            self._file = file
            os.fsync(self._folder)

    def close(self) -> None:
        """Releases the lock. Closing a closed store does nothing."""
        for file in (self._file, self._folder):
            if file != CLOSED:
                os.close(file)
        self._file = self._folder = CLOSED

    def __enter__(self) -> "Store":
        return self

    def __exit__(self, *_: object) -> None:
        self.close()
