"""A session of the library with the file that it is in, and how its calls are made."""
from __future__ import annotations

import contextlib
import ctypes
import os
import threading
import weakref
from typing import Any

from .errors import NotOpen, WrongThread, from_code
from .library import CALLS, CUT_OFF, FILE, LISTS, NUMBERS, UNTOLD, Call, State, last_error


class _Thread(threading.local):
    """What a thread is known by: its number is given again to a later one."""

    def __init__(self) -> None:
        self.mark = object()


_here = _Thread()


class Session:
    """A session and the descriptor of its file: both are given up together.

    The library wants one call at a time on a session. Here all have to come from one thread, so
    that nobody has to see to that: those from others are refused.
    """

    def __init__(self, file: int, call: str, frames: int) -> None:
        self.file = -1
        self.edits = 0  # so many calls may have edited the document
        self._thread = _here.mark
        self._state = State()
        self._rooms: dict[str, Any] = {kind: (LISTS[kind] * 256)() for kind in LISTS}
        self.call(call, file, frames)
        self.file = file
        _sessions.add(self)

    def _require_thread(self, call: str) -> None:
        if self._thread is not _here.mark:
            raise WrongThread(f"{call}: {WrongThread.__doc__}")

    def _made(self, call: Call, values: tuple[Any, ...], *given: Any) -> tuple[int, int]:
        """The code that a call answers, and the errno where that is File."""
        self._require_thread(call.name)
        code = call.function(self._state, *call.given(values), *given)
        number = last_error() if code == FILE else 0
        if call.may_edit and code in (0, CUT_OFF, UNTOLD):
            self.edits += 1
        return code, number

    def call(self, name: str, *values: Any) -> Any:
        """Makes a call of the library. What it refuses is raised."""
        call = CALLS[name]
        if call.gives and call.gives[0] in LISTS:
            return self._listed(call, values)
        if call.gives[-1:] == ["lent"]:
            return self._lent(call, values)
        given = [NUMBERS[kind]() for kind in call.gives]
        code, number = self._made(call, values, *map(ctypes.byref, given))
        if code != 0:
            raise from_code(code, name, number)
        return given[0].value if len(given) == 1 else tuple(it.value for it in given)

    def _asked(self, call: Call, values: tuple[Any, ...], buffer: Any) -> tuple[int, int]:
        """Asks for a list: the code, which is OK or CUT_OFF, and how many there are."""
        length = ctypes.c_size_t()
        first = [0] if call.gives == ["places"] else []
        code, number = self._made(
            call, values, *first, buffer, len(buffer), ctypes.byref(length))
        if code not in (0, CUT_OFF):
            raise from_code(code, call.name, number)
        return code, length.value

    def _listed(self, call: Call, values: tuple[Any, ...]) -> Any:
        """A list, in a buffer that grows until the list fits."""
        kind = call.gives[0]
        code, length = self._asked(call, values, self._rooms[kind])
        while code == CUT_OFF:
            self.make_room(kind, length)
            code, length = self._asked(call, values, self._rooms[kind])
        if kind == "bytes":
            return ctypes.string_at(self._rooms[kind], length)
        return self._rooms[kind][:length]

    def make_room(self, kind: str, length: int) -> None:
        """Makes room for lists of so many."""
        if len(self._rooms[kind]) < length:
            self._rooms[kind] = (LISTS[kind] * length)()

    def copy_block(self, block: int, to: Session) -> int:
        """Copies a block into a session, which may be this one, and gives its handle there."""
        to._require_thread("copy_block")
        handle: int = self.call("copy_block", block, to._state)
        to.edits += 1
        return handle

    def length(self, name: str, *values: Any) -> int:
        """How many a list has, without the list."""
        call = CALLS[name]
        return self._asked(call, values, (LISTS[call.gives[0]] * 0)())[1]

    def _lent(self, call: Call, values: tuple[Any, ...]) -> Any:
        """The bytes that are lent, copied: no object of Python's may outlive the loan. What else the
        call gives comes before them."""
        given = [NUMBERS[kind]() for kind in call.gives[:-1]]
        address, length = ctypes.c_void_p(), ctypes.c_size_t()
        code, number = self._made(
            call, values, *map(ctypes.byref, (*given, address, length)))
        if code != 0:
            raise from_code(code, call.name, number)
        data = ctypes.string_at(address, length.value)
        return (*(it.value for it in given), data) if given else data

    def close(self) -> None:
        """Closes the session and its file, once. What wasn't committed is given up."""
        if self.file >= 0:
            with contextlib.suppress(NotOpen):
                self.call("close")
            self._give_file_up()

    def take_file(self, file: int) -> None:
        """The session is in this file now, so the other one is given up."""
        os.close(self.file)
        self.file = file

    def _give_file_up(self) -> None:
        file, self.file = self.file, -1
        if file >= 0:
            os.close(file)

    def leave(self) -> None:
        """Gives up the file and its lock without a call of the library: in a forked child, where
        the session is its parent's, and in a thread that may not use it. Its memory stays."""
        self._state = State()
        self._give_file_up()

    def drop(self) -> None:
        """Closes the session in whatever thread its document is dropped."""
        if self._thread is _here.mark:
            self.close()
        else:
            self.leave()


_sessions: weakref.WeakSet[Session] = weakref.WeakSet()


def _leave_all() -> None:
    for session in list(_sessions):
        session.leave()


os.register_at_fork(after_in_child=_leave_all)
