"""What can go wrong: a class for each fault of a document, by its name, and for each other code
of the library. All are under Error, and each has its number as `code`."""
from __future__ import annotations

import functools
import os
from typing import Any, ClassVar, cast


class Error(Exception):
    """Something was refused. What was refused has changed nothing."""

    code: ClassVar[int] = 0

    def __str__(self) -> str:
        return Exception.__str__(self)


class Memory(Error, MemoryError):
    """no memory"""

    code = 1


class File(Error, OSError):
    """a call on the file has failed"""

    code = 2

    def __str__(self) -> str:
        return OSError.__str__(self)

    def __reduce__(self) -> tuple[Any, ...]:
        """For pickle, which knows no class that was made for an errno."""
        if self.errno is None:
            return File, self.args
        return file_error, (self.errno, self.strerror, self.filename)


class Damaged(Error):
    """the file is a damaged document"""

    code = 3


class NotDocument(Error):
    """the file is no document"""

    code = 4


class NoBlock(Error, KeyError):
    """there is no such block"""

    code = 5


class NoChunk(Error, KeyError):
    """there is no such chunk"""

    code = 6


class WrongKind(Error):
    """the block is a heap where a raw one is wanted, or the reverse"""

    code = 7


class Full(Error):
    """the heap would need more than 65,520 bytes, or has no handle left"""

    code = 8


class TooBig(Error, ValueError):
    """over 65,520 bytes in a raw block, 64 in a step's name, or 65,508 in an element"""

    code = 9


class NoHandles(Error):
    """fewer block handles are free than are needed"""

    code = 10


class Range(Error, ValueError):
    """a place, a length or a size is outside its bounds"""

    code = 11


class NotArray(Error):
    """the chunk is no array of the kind that is wanted, or the block no root of a large array"""

    code = 12


class NoElement(Error, IndexError, KeyError):
    """there is no such element, or the token isn't used"""

    code = 13


class CountFull(Error):
    """the element has as many references as any can have"""

    code = 14


class NoName(Error, KeyError):
    """no element has the name"""

    code = 15


class NameInUse(Error):
    """another token has the name"""

    code = 16


class BadChain(Error):
    """no chain begins at the block, or a branch isn't what the root of a large array says"""

    code = 17


class IsMap(Error):
    """the map block would be freed"""

    code = 18


class Locked(Error):
    """a block is locked, and this can't be done meanwhile"""

    code = 19


class NotLocked(Error):
    """the block isn't locked"""

    code = 20


class CacheFull(Error):
    """as many blocks are locked as may be in memory, and another one is needed there"""

    code = 21


class NothingToUndo(Error):
    """no step is left to undo, or no two to be joined"""

    code = 22


class NothingToRedo(Error):
    """no undo is left to take back"""

    code = 23


class NoTarget(Error):
    """there is no file to save into: call save_as with a path"""

    code = 24


class BadCommand(Error):
    """the line is no command"""

    code = 25


class LockLimit(Error):
    """the block is locked 255 times"""

    code = 26


class Worn(Error):
    """the file was committed as often as can be told apart"""

    code = 27


class GroupOpen(Error):
    """a group is open, and this can't be done meanwhile"""

    code = 28


class NoGroup(Error):
    """no group is open"""

    code = 29


class NotOpen(Error):
    """the document is closed"""

    code = 100


class OpenAlready(Error):
    """the document is open"""

    code = 101


class BadArgument(Error, ValueError):
    """a number is out of its bounds"""

    code = 102


class CutOff(Error):
    """a buffer took a part; the package asks again, so this is never raised"""

    code = 103


class Untold(Error, MemoryError):
    """no memory for a reply; the command may be done"""

    code = 104


class WrongThread(Error, RuntimeError):
    """a document is used in the thread that opened it, and in no other one"""


class BrokenGroup(Error):
    """an exception has left a group within this one, after edits: all of it is to be abandoned"""


BY_CODE: dict[int, type[Error]] = {
    kind.code: kind for kind in list(globals().values())
    if isinstance(kind, type) and issubclass(kind, Error) and kind.code > 0
}


@functools.lru_cache(maxsize=None)
def _file_class(kind: type[OSError]) -> type[File]:
    """File, as Python's own class for an errno too: so FileNotFoundError catches a missing file."""
    if kind is OSError:
        return File
    return cast("type[File]", type("File", (File, kind), {"__module__": File.__module__}))


def file_error(number: int, text: str, path: str | None = None) -> File:
    """The File for an errno."""
    return _file_class(type(OSError(number, text)))(number, text, path)


def from_system(error: OSError) -> File:
    """The File for what the system has refused to Python."""
    path = None if error.filename is None else os.fsdecode(error.filename)
    return file_error(error.errno or 0, error.strerror or str(error), path)


def from_code(code: int, call: str, number: int = 0) -> Error:
    """The exception for what a call has answered; `number` is the errno that it left, if any."""
    kind = BY_CODE.get(code)
    if kind is None:
        return Error(f"{call}: the library answered {code}")
    text = f"{call}: {kind.__doc__ or kind.__name__}"
    return file_error(number, f"{text}: {os.strerror(number)}") if kind is File and number \
        else kind(text)
