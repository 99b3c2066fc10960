"""Documents: opened, edited, undone and committed."""
from __future__ import annotations

import contextlib
import os
import warnings
import weakref
from collections.abc import Iterator
from types import TracebackType
from typing import Any, Literal

from .arrays import Name, name_bytes
from .blocks import Block, Heap, Raw
from .errors import BrokenGroup, Error, GroupOpen, NoBlock, NoGroup, NotOpen, TooBig, from_code
from .files import Path, Replacement, make_locked, open_locked, sync_folder
from .large_arrays import LargeArray
from .library import FILE, REPLY_MOST, last_error
from .places import Place, as_places
from .session import Session

FRAMES = 64
MOST_NAME = 64
AS_SAVED = 1
AS_UPDATED = 2
Mode = Literal["r+", "w+", "x+"]


def step_name(name: Name) -> bytes:
    """The bytes of the name of a step, if it isn't too long."""
    named = name_bytes(name)
    if len(named) > MOST_NAME:
        raise TooBig(f"name: {TooBig.__doc__}")
    return named


def _drop(session: Session, path: Path) -> None:
    """A document is gone that nobody closed."""
    if session.file >= 0:
        session.drop()
        warnings.warn(f"unclosed document {os.fsdecode(path)!r}", ResourceWarning, stacklevel=2)


class Document:
    """A document in a file. `open` and `create` make one; closing gives up what isn't committed.

    `doc[handle]` is a block, and going over the document gives all blocks, rising.
    """

    def __init__(self, path: Path, mode: Mode = "r+", frames: int = FRAMES,
                 checksums: bool = False) -> None:
        if mode not in ("r+", "w+", "x+"):
            raise ValueError(f"a mode is r+, w+ or x+, to read and write, not {mode!r}")
        is_new = mode != "r+"
        file = make_locked(path, mode == "x+") if is_new else open_locked(path, 0)
        try:
            made = "create_checksums" if checksums else "create"
            opened = "open_checksums" if checksums else "open"
            self._session = Session(file, made if is_new else opened, frames)
        except BaseException:
            os.close(file)
            raise
        self.path = path
        self._is_broken = False
        self._finalizer = weakref.finalize(self, _drop, self._session, path)

    # A session.

    def call(self, name: str, *values: Any) -> Any:
        """Makes a call of the library for C, by its name there without geosvm_."""
        return self._session.call(name, *values)

    def length(self, name: str, *values: Any) -> int:
        """How many bytes, handles or places such a call would give."""
        return self._session.length(name, *values)

    def command(self, line: str) -> str:
        """Carries out a command of docs/SCRIPT.md, and gives its reply; a refusal is raised.

        Only replies that tell places can be too long for the buffer, and these are asked for
        again, which changes nothing.
        """
        self._session.make_room("bytes", REPLY_MOST)
        data: bytes = self.call("command", line.encode("utf-8", "surrogateescape"))
        reply = data.decode("ascii").rstrip("\n")
        if reply.startswith("no "):
            code = int(reply.split()[1])
            raise from_code(code, "command", last_error() if code == FILE else 0)
        return reply

    def close(self) -> None:
        """Closes the document and its file. What wasn't committed is given up."""
        self._session.close()
        self._finalizer.detach()

    @property
    def closed(self) -> bool:
        """Whether it is closed."""
        return self._session.file < 0

    def __enter__(self) -> Document:
        if self.closed:
            raise NotOpen(f"{NotOpen.__doc__}")
        return self

    def __exit__(self, kind: type[BaseException] | None, error: BaseException | None,
                 traceback: TracebackType | None) -> None:
        self.close()

    def __repr__(self) -> str:
        state = "closed" if self.closed else "open"
        return f"<geosvm.Document {os.fsdecode(self.path)!r}, {state}>"

    # Blocks.

    def __getitem__(self, handle: int) -> Heap | Raw:
        is_heap = self.call("info", handle)[0]
        return Heap(self, handle) if is_heap else Raw(self, handle)

    def __iter__(self) -> Iterator[Heap | Raw]:
        return iter([self[it] for it in self.call("list")])

    def __len__(self) -> int:
        return self.length("list")

    def __bool__(self) -> bool:
        """It is a document, also with no block."""
        return True

    def __contains__(self, block: object) -> bool:
        own = isinstance(block, Block) and block.document is self
        return (block.handle if own else block) in self.call("list")

    def blocks(self, user_id: int) -> list[Heap | Raw]:
        """The blocks that have this user ID, rising."""
        found = []
        block = self.find(user_id)
        while block is not None:
            found.append(block)
            block = self.find(user_id, block.handle)
        return found

    def find(self, user_id: int, after: int = 0) -> Heap | Raw | None:
        """The block with this user ID that has the least handle above `after`, if there is one."""
        handle = self.call("find", user_id, after)
        return self[handle] if handle else None

    def new_heap(self, user_id: int = 0) -> Heap:
        """Makes a block with an empty heap."""
        return Heap(self, self.call("newheap", user_id))

    def new_raw(self, size: int = 0, user_id: int = 0) -> Raw:
        """Makes a raw block of so many zeros."""
        return Raw(self, self.call("newraw", user_id, size))

    def new_large_array(self, size: int = 0, user_id: int = 0) -> LargeArray:
        """Makes a large array of elements of `size` bytes, 0 for any sizes; its root has the ID."""
        return LargeArray(self, self.call("hcreate", user_id, size))

    def copy_in(self, block: Heap | Raw) -> Heap | Raw:
        """Makes a block like one of another document: with its content, its user ID and type,
        and its chunks under the same handles."""
        handle = block.document._session.copy_block(block.handle, self._session)
        return type(block)(self, handle)

    @property
    def map_block(self) -> Heap | Raw | None:
        """The block from which a program finds the others."""
        handle = self.call("mapblock")
        return self[handle] if handle else None

    @map_block.setter
    def map_block(self, block: Block | None) -> None:
        if block is not None and block.document is not self:
            raise NoBlock("map: the block is another document's")
        self.call("map", block.handle if block is not None else 0)

    # Steps.

    def undo(self) -> None:
        """Takes back the newest step."""
        self.call("undo")

    def redo(self) -> None:
        """Makes the step again that the newest undo took back."""
        self.call("redo")

    @property
    def undo_count(self) -> int:
        """How many steps can be undone. An open group is none yet."""
        return int(self.call("undos"))

    @property
    def redo_count(self) -> int:
        """How many steps can be redone."""
        return int(self.call("redos"))

    def join(self) -> None:
        """Makes the newest two steps to be undone one."""
        self.call("join")

    def forget(self, most: int = 0) -> None:
        """Keeps the newest `most` steps to be undone, and forgets the others."""
        self.call("forget", most)

    def limit_undo(self, most: int) -> None:
        """Keeps no more than so many steps from now on; with 0 all."""
        self.call("limit_undo", most)

    def name_step(self, name: Name) -> None:
        """Names the newest step to be undone, in at most 64 bytes; with none it has no name."""
        self.call("name", name_bytes(name))

    @property
    def undo_name(self) -> str:
        """The name of the step that an undo takes back, empty where it has none."""
        name: bytes = self.call("undo_name")
        return name.decode("utf-8", "surrogateescape")

    @property
    def redo_name(self) -> str:
        """The name of the step that a redo makes again, empty where it has none."""
        name: bytes = self.call("redo_name")
        return name.decode("utf-8", "surrogateescape")

    # Groups.

    def begin(self) -> None:
        """Opens a group: the edits from here on are one step. `group` does that in a `with`."""
        self.call("begin")
        self._is_broken = False

    def end(self) -> None:
        """Closes the group; but BrokenGroup where an exception left a `group` within it."""
        if self._is_broken:
            raise BrokenGroup(f"end: {BrokenGroup.__doc__}")
        self.call("end")

    def abandon(self) -> None:
        """Closes the group, and takes its edits back."""
        self.call("abandon")
        self._is_broken = False

    @contextlib.contextmanager
    def group(self, name: Name = "") -> Iterator[None]:
        """The edits within the `with` are one step, with this name; an exception that leaves it
        takes them back. One within another belongs to that, and so is taken back with all of it.
        While a block is locked none can be: that is Locked then, and the group stays open.
        """
        named = step_name(name)
        with self._outer_group(named) if self._is_begun() else self._inner_group():
            yield

    def _is_begun(self) -> bool:
        """Opens a group, where none is open."""
        try:
            self.begin()
        except GroupOpen:
            return False
        return True

    @contextlib.contextmanager
    def _outer_group(self, name: bytes) -> Iterator[None]:
        try:
            yield
            self._end_named(name)
        except BaseException:
            with contextlib.suppress(NoGroup, NotOpen):
                self.abandon()
            raise

    @contextlib.contextmanager
    def _inner_group(self) -> Iterator[None]:
        """Where it made no edit, an exception leaves nothing to be taken back."""
        before = self._session.edits
        try:
            yield
        except BaseException:
            self._is_broken = self._is_broken or self._session.edits != before
            raise

    def _end_named(self, name: bytes) -> None:
        """Ends the group. One without an edit leaves no step, so nothing is named then."""
        leaves_step = name != b"" and self.length("abandon_places") > 0
        self.end()
        try:
            if leaves_step:
                self.name_step(name)
        except Error:  # there was no memory for the name: the edits go, as by any exception
            self.undo()
            raise

    # Places.

    def touched(self) -> list[Place]:
        """Where the last edit, undo, redo, abandon or revert changed the document."""
        return as_places(self.call("touched"))

    def undo_places(self) -> list[Place]:
        """Where an undo would change it."""
        return as_places(self.call("undo_places"))

    def redo_places(self) -> list[Place]:
        """Where a redo would change it."""
        return as_places(self.call("redo_places"))

    def abandon_places(self) -> list[Place]:
        """Where an abandon would change it."""
        return as_places(self.call("abandon_places"))

    # Commits.

    def update(self) -> None:
        """Makes the document what its file opens to."""
        self.call("update")

    def save(self) -> None:
        """Makes the document what its file opens to, and what a revert gives."""
        self.call("save")

    def revert(self) -> None:
        """Goes back to the saved document, with nothing to undo."""
        self.call("revert")

    def save_as(self, path: Path) -> None:
        """Saves into another file, and goes on in that.

        The file that is left goes back to its saved document. What the other file had in it is
        replaced once the document is whole in a file beside it; so where this is refused the
        document stays in its file, and the other one as it was.
        """
        if self.closed:
            raise NotOpen(f"save_as: {NotOpen.__doc__}")
        old = make_locked(path)
        if os.fstat(old).st_size == 0:
            self._save_into_empty(old, path)
            return
        try:
            self._replace(old, path)
        finally:
            os.close(old)

    def _save_into_empty(self, file: int, path: Path) -> None:
        """Saves into a file that has nothing in it, nor where this is refused."""
        try:
            self._save_into(file, path)
        except Error:
            with contextlib.suppress(OSError):
                os.ftruncate(file, 0)
            os.close(file)
            raise

    def _replace(self, old: int, path: Path) -> None:
        """Saves into a new file that takes the place of an old one."""
        new = Replacement(old, path)
        try:
            self._save_into(new.file, new.path)
        except Error:
            new.give_up()
            raise
        new.take_place()
        self._be_at(path)
        sync_folder(path)

    def _save_into(self, file: int, path: Path) -> None:
        """Goes on in a file. After an interrupt the document may be in either: both are open."""
        self.call("save_as", file)
        self._session.take_file(file)
        self._be_at(path)

    def _be_at(self, path: Path) -> None:
        self.path = path
        self._finalizer.detach()
        self._finalizer = weakref.finalize(self, _drop, self._session, path)

    @property
    def as_saved(self) -> bool:
        """Whether the document is as it was saved, by its steps."""
        return bool(self.call("modified") & AS_SAVED)

    @property
    def as_updated(self) -> bool:
        """Whether the document is what its file opens to, by its steps."""
        return bool(self.call("modified") & AS_UPDATED)

    @property
    def modified(self) -> bool:
        """Whether it isn't as it was saved: the star in a window's title."""
        return not self.as_saved


def open(path: Path, mode: Mode = "r+", frames: int = FRAMES,  # noqa: A001
         checksums: bool = False) -> Document:
    """Opens the document of a file.

    With the mode "w+" an empty document is made of the file, whatever was in it; with "x+" the
    file must be missing or empty, else it is a FileExistsError. At most `frames` blocks are in
    memory at a time, 1 to 64. Whoever opens a file that is open gets File, which is a
    BlockingIOError then.

    With `checksums` the file has checksums from its next commit on, and one that is made from the
    start: where bytes of it were changed elsewhere it is refused then, mostly as Damaged, or opens
    to the commit before. It keeps them, and so has what it is saved into.
    """
    return Document(path, mode, frames, checksums)


def create(path: Path, frames: int = FRAMES, checksums: bool = False) -> Document:
    """Makes a document of a file that is missing or empty; one with bytes is FileExistsError."""
    return Document(path, "x+", frames, checksums)
