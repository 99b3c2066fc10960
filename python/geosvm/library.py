"""The library for C: where it is found, and what its calls take and give."""
from __future__ import annotations

import ctypes
import ctypes.util
import operator
import os
from collections.abc import Iterator
from typing import Any

from .errors import BadArgument

MAJOR = 0
MINOR = 2
# Before 1.0 what the library takes may be other in each 0.N, as a session is.
SERIES = f"{MAJOR}.{MINOR}" if MAJOR == 0 else f"{MAJOR}"
FILE = 2
CUT_OFF = 103
UNTOLD = 104
REPLY_MOST = 131072


class State(ctypes.Structure):
    """A geosvm_session. One that was just made is GEOSVM_CLOSED."""

    _fields_ = [
        ("private_at", ctypes.c_void_p), ("private_is_open", ctypes.c_bool),
        ("private_file", ctypes.c_ssize_t),
    ]


class PlaceFields(ctypes.Structure):
    """A geosvm_place."""

    _fields_ = [
        ("kind", ctypes.c_uint8), ("block", ctypes.c_uint16), ("chunk", ctypes.c_uint16),
        ("at", ctypes.c_uint32), ("before", ctypes.c_uint32), ("after", ctypes.c_uint32),
    ]


# Each call but for the session, which comes first: what it takes, and behind -> what it gives.
# Those that open a file by its path aren't here: files.py does that. `bytes` that are taken are a
# pointer and a size; lists that are given are a buffer, its room and how many there are; `places`
# take a first number before these. tests/test_calls.py compares this with geosvm.h.
SESSION_CALLS = """
open i32 size
create i32 size
open_checksums i32 size
create_checksums i32 size
close
command bytes -> bytes
undo
redo
join
name bytes
forget u32
limit_undo u32
begin
end
abandon
update
save
revert
save_as i32
lock u16
unlock u16
dirty u16
locks u16 -> u8
locked_chunk u16 u16 -> lent
locked_raw u16 -> lent
lock_run u16 u32 -> u16 lent
"""
EDITS = """
newraw u16 u32 -> u16
newheap u16 -> u16
vfree u16
vcopy u16 -> u16
vwrite u16 u32 bytes
vsplice u16 u32 u32 bytes
attach u16 bytes
uid u16 u16
settype u16 u16
map u16
alloc u16 u32 -> u16
free u16 u16
resize u16 u16 u32
insert u16 u16 u32 u32
delete u16 u16 u32 u32
write u16 u16 u32 bytes
splice u16 u16 u32 u32 bytes
acreate u16 u32 u32 -> u16
ainsert u16 u16 u32 bytes
aset u16 u16 u32 bytes
aresize u16 u16 u32 u32
adelete u16 u16 u32 u32
azero u16 u16
ecreate u16 u32 -> u16
eadd u16 u16 bytes -> u16
eref u16 u16 u16
eunref u16 u16 u16
edelete u16 u16 u16
echange u16 u16 u16 bytes
ncreate u16 u32 -> u16
nadd u16 u16 bytes bytes bool -> u16
nname u16 u16 u16 bytes
nset u16 u16 u16 bytes
nunref u16 u16 u16
chcopy u16 -> u16
chfree u16
hcreate u16 u32 -> u16
hinsert u16 u32 bytes
hset u16 u32 bytes
hdelete u16 u32 u32
"""
LOOK_UPS = """
info u16 -> u8 u16 u32
gettype u16 -> u16
list -> handles
find u16 u16 -> u16
mapblock -> u16
vread u16 -> bytes
chunks u16 -> handles
read u16 u16 -> bytes
acount u16 u16 -> size
aget u16 u16 u32 -> bytes
ecount u16 u16 u16 -> size
edata u16 u16 u16 -> bytes
eused u16 u16 -> size
etoken u16 u16 u32 -> u16
eindex u16 u16 u16 -> size
nfind u16 u16 bytes -> u16
ncount u16 u16 u16 -> size
ntext u16 u16 u16 -> bytes
ndata u16 u16 u16 -> bytes
walk u16 -> handles
chsize u16 -> size
chequal u16 u16 -> u8
hcount u16 -> size
hget u16 u32 -> bytes
hread u16 u32 u32 -> bytes
undos -> size
redos -> size
modified -> size
undo_name -> bytes
redo_name -> bytes
touched -> places
undo_places -> places
redo_places -> places
abandon_places -> places
copy_block u16 session -> u16
"""

NUMBERS: dict[str, Any] = {
    "u8": ctypes.c_uint8, "u16": ctypes.c_uint16, "u32": ctypes.c_uint32,
    "i32": ctypes.c_int32, "size": ctypes.c_size_t, "bool": ctypes.c_bool,
}
MOST = {"u16": 2**16 - 1, "u32": 2**32 - 1, "i32": 2**31 - 1, "size": 2**31 - 1, "bool": 1}
LISTS: dict[str, Any] = {
    "bytes": ctypes.c_uint8, "handles": ctypes.c_uint16, "places": PlaceFields,
}


def as_bytes(data: Any) -> bytes:
    """The bytes of anything that has a buffer. A text or a number is none."""
    return data if isinstance(data, bytes) else bytes(memoryview(data))


def as_number(call: str, kind: str, value: Any) -> int:
    """A number within the bounds of its type in C, where it would be cut off otherwise."""
    number = operator.index(value)
    if not 0 <= number <= MOST[kind]:
        raise BadArgument(f"{call}: {number} is out of its bounds, 0 to {MOST[kind]}")
    return number


def types_taken(takes: list[str]) -> Iterator[Any]:
    for kind in takes:
        if kind == "bytes":
            yield from (ctypes.c_char_p, ctypes.c_size_t)
        elif kind == "session":
            yield ctypes.POINTER(State)
        else:
            yield NUMBERS[kind]


def types_given(gives: list[str]) -> Iterator[Any]:
    size = ctypes.c_size_t
    for kind in gives:
        if kind in LISTS:
            yield from [size] if kind == "places" else []
            yield from (ctypes.POINTER(LISTS[kind]), size, ctypes.POINTER(size))
        elif kind == "lent":
            yield from (ctypes.POINTER(ctypes.c_void_p), ctypes.POINTER(size))
        else:
            yield ctypes.POINTER(NUMBERS[kind])


class Call:
    """A call of the library."""

    def __init__(self, library: ctypes.CDLL, line: str) -> None:
        taken, _, given = line.partition("->")
        self.name, *self.takes = taken.split()
        self.gives = given.split()
        self.may_edit = f"\n{line}\n" in EDITS or self.name == "command"
        self.function = getattr(library, f"geosvm_{self.name}")
        self.function.restype = ctypes.c_int32
        self.function.argtypes = [
            ctypes.POINTER(State), *types_taken(self.takes), *types_given(self.gives)]

    def given(self, values: tuple[Any, ...]) -> list[Any]:
        """What is passed to C for these values."""
        passed: list[Any] = []
        for kind, value in zip(self.takes, values, strict=True):
            if kind == "bytes":
                data = as_bytes(value)
                passed += [data, len(data)]
            elif kind == "session":
                passed.append(value)
            else:
                passed.append(as_number(self.name, kind, value))
        return passed


def _candidates() -> Iterator[str]:
    """Where the library may be, the likeliest place first."""
    yield f"libgeosvm.so.{SERIES}"
    found = ctypes.util.find_library("geosvm")
    if found is not None:
        yield found
    yield "libgeosvm.so"
    yield "libgeosvm.dylib"


def _loaded(name: str) -> ctypes.CDLL:
    return ctypes.CDLL(name, use_errno=True)


def _found() -> ctypes.CDLL:
    named = os.environ.get("GEOSVM_LIBRARY")
    if named:
        try:
            return _loaded(named)
        except OSError as error:
            raise ImportError(f"GEOSVM_LIBRARY names no library: {error}") from None
    for name in _candidates():
        try:
            return _loaded(name)
        except OSError:
            continue
    raise ImportError(
        f"there is no libgeosvm.so.{SERIES} where the system looks for libraries: install it by "
        "`sh install.sh PREFIX`, and set LD_LIBRARY_PATH, or set GEOSVM_LIBRARY to its path")


def require_series(version: str, name: str) -> None:
    """Refuses a library of another version than those that take the same."""
    if not version.startswith(f"{SERIES}."):
        raise ImportError(f"{name} is version {version} of geosvm: this package needs {SERIES}.x")


def load() -> ctypes.CDLL:
    """The library, if it is there and of the right version."""
    library = _found()
    try:
        library.geosvm_version.restype = ctypes.c_char_p
        text = library.geosvm_version()
    except AttributeError:
        raise ImportError(f"{library._name} is no library of geosvm") from None
    require_series(text.decode(), library._name)
    return library


LIBRARY = load()
CALLS = {
    call.name: call for call in (
        Call(LIBRARY, line) for line in (SESSION_CALLS + EDITS + LOOK_UPS).split("\n") if line)}


def version() -> str:
    """The version of the library that is loaded."""
    text: bytes = LIBRARY.geosvm_version()
    return text.decode()


def last_error() -> int:
    """The errno by which a call on a file failed last in this thread."""
    return int(LIBRARY.geosvm_last_error())


def fault_name(code: int) -> str:
    """The name of a fault, by its number; BadArgument where no fault has it."""
    buffer = (ctypes.c_uint8 * 64)()
    length = ctypes.c_size_t()
    number = ctypes.c_int32(as_number("fault_name", "i32", code))
    room = ctypes.c_size_t(len(buffer))
    if LIBRARY.geosvm_fault_name(number, buffer, room, ctypes.byref(length)) != 0:
        raise BadArgument(f"fault_name: no fault has the number {code}")
    return bytes(buffer[:length.value]).decode()
