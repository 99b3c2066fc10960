"""Files as the library wants them: open to be read and written, and locked before anything is
done with them, so that no document is cut which somebody has open."""
from __future__ import annotations

import errno
import fcntl
import os
import tempfile
from typing import Union

from .errors import file_error, from_system

Path = Union[str, bytes, "os.PathLike[str]", "os.PathLike[bytes]"]


def _lock(number: int, path: Path) -> None:
    """Takes the lock, or refuses: whoever has the file open has it, in this program or another."""
    try:
        fcntl.flock(number, fcntl.LOCK_EX | fcntl.LOCK_NB)
    except BlockingIOError:
        raise file_error(errno.EWOULDBLOCK, "the file is in use", os.fsdecode(path)) from None


def _above_streams(number: int) -> int:
    """A descriptor that isn't taken for a standard stream, where one of these is closed."""
    if number > 2:
        return number
    above = fcntl.fcntl(number, fcntl.F_DUPFD_CLOEXEC, 3)
    os.close(number)
    return above


def open_locked(path: Path, flags: int) -> int:
    """The descriptor of a file, which is never cut here, and no child inherits it."""
    try:
        number = _above_streams(os.open(path, os.O_RDWR | os.O_CLOEXEC | flags, 0o666))
        try:
            _lock(number, path)
        except BaseException:
            os.close(number)
            raise
    except OSError as error:
        raise from_system(error) from None
    return number


def sync_folder(path: Path) -> None:
    """Syncs the folder that a file lies in: without it a crash may lose the name of a new file."""
    folder = os.path.dirname(os.path.realpath(os.fsdecode(path)))
    try:
        number = os.open(folder, os.O_RDONLY | os.O_DIRECTORY)
        try:
            os.fsync(number)
        finally:
            os.close(number)
    except OSError as error:
        raise from_system(error) from None


def make_locked(path: Path, must_be_empty: bool = False) -> int:
    """The same of a file that is made where it is missing, with its name on the disk.

    One that must be empty is refused where it has bytes, so that nobody's document is lost.
    """
    number = open_locked(path, os.O_CREAT)
    try:
        if must_be_empty and os.fstat(number).st_size > 0:
            raise file_error(errno.EEXIST, "the file has something in it", os.fsdecode(path))
        sync_folder(path)
    except BaseException:
        os.close(number)
        raise
    return number


class Replacement:
    """A new file beside one that has something in it, whose place it takes once it is whole.

    It has that file's owner and mode, and the lock of both is held meanwhile. Only a file with
    one name can be replaced, since its other names would still lead to the old one.
    """

    def __init__(self, old: int, path: Path) -> None:
        status = os.fstat(old)
        if status.st_nlink != 1:
            raise file_error(errno.EMLINK, "the file has several names", os.fsdecode(path))
        self._path = os.path.realpath(os.fsdecode(path))
        folder, name = os.path.split(self._path)
        try:
            number, self.path = tempfile.mkstemp(prefix=f"{name}.", dir=folder)
        except OSError as error:
            raise from_system(error) from None
        self.file = number
        try:
            self.file = _above_streams(number)
            _lock(self.file, self.path)
            self._be_like(status)
        except BaseException as error:
            self.give_up()
            if isinstance(error, OSError):
                raise from_system(error) from None
            raise

    def _be_like(self, status: os.stat_result) -> None:
        own = os.fstat(self.file)
        if (own.st_uid, own.st_gid) != (status.st_uid, status.st_gid):
            os.fchown(self.file, status.st_uid, status.st_gid)
        os.fchmod(self.file, status.st_mode & 0o7777)

    def take_place(self) -> None:
        """Takes the old file's place. Where it can't, it keeps the name `path`."""
        try:
            os.rename(self.path, self._path)
        except OSError as error:
            raise from_system(error) from None

    def give_up(self) -> None:
        """Takes the new file away: the old one stays as it is."""
        os.unlink(self.path)
        os.close(self.file)
