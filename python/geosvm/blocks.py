"""Blocks, chunks and chains. Each object is a document and a handle, and holds no bytes: it looks
at the document whenever it is asked."""
from __future__ import annotations

import contextlib
import operator
from collections.abc import Iterator
from typing import TYPE_CHECKING, Any, TypeVar, Union, overload

from .errors import BadArgument
from .library import as_bytes

if TYPE_CHECKING:
    from .arrays import Array, ElementArray, NameArray
    from .document import Document
    from .large_arrays import LargeArray

Data = Union[bytes, bytearray, memoryview]
B = TypeVar("B", bound="Block")


class Part:
    """A part of a document. Two are equal where they are the same part of the same document."""

    def __init__(self, document: Document, *handles: int) -> None:
        self.document = document
        self._handles = handles

    def _call(self, name: str, *values: Any) -> Any:
        return self.document.call(name, *self._handles, *values)

    def __eq__(self, other: object) -> bool:
        if type(other) is not type(self):
            return NotImplemented
        return self.document is other.document and self._handles == other._handles

    def __hash__(self) -> int:
        return hash((type(self), id(self.document), self._handles))

    def __repr__(self) -> str:
        return f"<geosvm.{type(self).__name__} {' '.join(f'{it:04x}' for it in self._handles)}>"


class Text(Part):
    """Bytes of a document, as a chunk and a raw block are: a slice can be read and given others."""

    def read(self) -> bytes:
        """All its bytes."""
        raise NotImplementedError

    def write(self, at: int, data: Data) -> None:
        """Writes over the bytes from `at` on."""
        raise NotImplementedError

    def splice(self, at: int, count: int, data: Data) -> None:
        """Puts these bytes in the place of `count` from `at` on, as one edit."""
        raise NotImplementedError

    def __len__(self) -> int:
        raise NotImplementedError

    def __bool__(self) -> bool:
        """It is there, also with no bytes."""
        return True

    def __bytes__(self) -> bytes:
        return self.read()

    def __iter__(self) -> Iterator[int]:
        return iter(self.read())

    @overload
    def __getitem__(self, key: int) -> int: ...
    @overload
    def __getitem__(self, key: slice) -> bytes: ...
    def __getitem__(self, key: int | slice) -> int | bytes:
        return self.read()[key]

    def _run(self, key: slice) -> tuple[int, int]:
        """Where a slice begins, and how many bytes it has."""
        at, end, step = key.indices(len(self))
        if step != 1:
            raise ValueError("only bytes that lie side by side can be edited as a slice")
        return at, max(end - at, 0)

    @overload
    def __setitem__(self, key: int, data: int) -> None: ...
    @overload
    def __setitem__(self, key: slice, data: Data) -> None: ...
    def __setitem__(self, key: int | slice, data: int | Data) -> None:
        if isinstance(key, slice):
            self.splice(*self._run(key), as_bytes(data))
        else:
            self.write(range(len(self))[key], bytes([operator.index(data)]))

    def __delitem__(self, key: int | slice) -> None:
        if isinstance(key, slice):
            self.splice(*self._run(key), b"")
        else:
            self.splice(range(len(self))[key], 1, b"")


class Block(Part):
    """A block: a Heap, or a Raw."""

    @property
    def handle(self) -> int:
        """Its handle, which stays."""
        return self._handles[0]

    def __bool__(self) -> bool:
        """It is there, also with nothing in it."""
        return True

    @property
    def user_id(self) -> int:
        """Its user ID, by which `Document.find` and `blocks` find it."""
        return int(self._call("info")[1])

    @user_id.setter
    def user_id(self, user_id: int) -> None:
        self._call("uid", user_id)

    @property
    def size(self) -> int:
        """The bytes that a heap needs, or that a raw block has: at most 65,520."""
        return int(self._call("info")[2])

    def copy(self: B) -> B:
        """Makes a block with the same content, user ID and type."""
        return type(self)(self.document, self._call("vcopy"))

    def free(self) -> None:
        """Frees the block."""
        self._call("vfree")

    def lock(self) -> None:
        """Locks the block once more, so that it stays in memory."""
        self._call("lock")

    def unlock(self) -> None:
        """Takes one lock away."""
        self._call("unlock")

    @contextlib.contextmanager
    def locked(self) -> Iterator[None]:
        """Locks the block as long as the `with` lasts. No undo and no commit is done meanwhile."""
        self.lock()
        try:
            yield
        finally:
            self.unlock()

    def dirty(self) -> None:
        """The next commit writes the locked block, as if it had been edited."""
        self._call("dirty")

    @property
    def lock_count(self) -> int:
        """How often it is locked."""
        return int(self._call("locks"))


class Raw(Block, Text):
    """A raw block: bytes, at most 65,520."""

    def read(self) -> bytes:
        data: bytes = self._call("vread")
        return data

    def locked_read(self) -> bytes:
        """Its bytes, of a block that is locked; so nothing is brought into memory."""
        data: bytes = self._call("locked_raw")
        return data

    def lock_run(self, i: int) -> tuple[Raw, bytes]:
        """Locks the block that has element `i` of the large array of which this is the root, and
        gives that block, which is to be unlocked, and its elements from there on, copied."""
        block, data = self._call("lock_run", i)
        return Raw(self.document, block), data

    def write(self, at: int, data: Data) -> None:
        self._call("vwrite", at, data)

    def splice(self, at: int, count: int, data: Data) -> None:
        self._call("vsplice", at, count, data)

    def attach(self, data: Data) -> None:
        """Gives the block these bytes in place of its own."""
        self._call("attach", data)

    def __len__(self) -> int:
        return self.document.length("vread", *self._handles)

    def chain(self) -> Chain:
        """The chain that begins at this block."""
        return Chain(self.document, *self._handles)

    def as_large_array(self) -> LargeArray:
        """The large array of which it is the root; what is none is NotArray when it is asked."""
        from .large_arrays import LargeArray
        return LargeArray(self.document, *self._handles)


class Chain(Part):
    """The chain, or tree, of raw blocks that begins at a root. A block begins with its link."""

    @property
    def root(self) -> Raw:
        """The block that it begins at."""
        return Raw(self.document, *self._handles)

    def __iter__(self) -> Iterator[Raw]:
        """Its blocks, each before those that it links to, branches in order."""
        return iter([Raw(self.document, it) for it in self._call("walk")])

    def __len__(self) -> int:
        return self.document.length("walk", *self._handles)

    @property
    def size(self) -> int:
        """How many bytes its blocks have together."""
        return int(self._call("chsize"))

    def copy(self) -> Chain:
        """Copies each of its blocks; the copies link to one another."""
        return Chain(self.document, self._call("chcopy"))

    def free(self) -> None:
        """Frees all its blocks."""
        self._call("chfree")

    def equals(self, other: Chain) -> bool:
        """Whether both have the same bytes, but for handles and user IDs."""
        if other.document is not self.document:
            raise BadArgument("chequal: the other chain is another document's")
        return bool(self._call("chequal", *other._handles))


class Heap(Block):
    """A heap of chunks: `heap[handle]` is one, and going over the heap gives all."""

    @property
    def type(self) -> int:
        """The type of the heap, which means what the program likes."""
        return int(self._call("gettype"))

    @type.setter
    def type(self, heap_type: int) -> None:
        self._call("settype", heap_type)

    def __getitem__(self, handle: int) -> Chunk:
        self.document.length("read", *self._handles, handle)
        return Chunk(self, handle)

    def __iter__(self) -> Iterator[Chunk]:
        return iter([Chunk(self, it) for it in self._call("chunks")])

    def __len__(self) -> int:
        return self.document.length("chunks", *self._handles)

    def __contains__(self, chunk: object) -> bool:
        handle = chunk.handle if isinstance(chunk, Chunk) and chunk.heap == self else chunk
        return handle in self._call("chunks")

    def alloc(self, size: int) -> Chunk:
        """Makes a chunk of so many zeros."""
        return Chunk(self, self._call("alloc", size))

    def new_chunk(self, data: Data = b"") -> Chunk:
        """Makes a chunk with these bytes, as one step."""
        with self.document.group():
            chunk = self.alloc(len(as_bytes(data)))
            chunk.write(0, data)
        return chunk

    def new_array(self, size: int = 0, extra: int = 0) -> Array:
        """Makes a chunk array of elements of `size` bytes, 0 for any sizes, and extra zeros."""
        return Chunk(self, self._call("acreate", size, extra)).as_array()

    def new_element_array(self, size: int = 0) -> ElementArray:
        """Makes an element array of data of `size` bytes, 0 for any sizes."""
        return Chunk(self, self._call("ecreate", size)).as_element_array()

    def new_name_array(self, size: int = 0) -> NameArray:
        """Makes a name array of parts of `size` bytes."""
        return Chunk(self, self._call("ncreate", size)).as_name_array()


class Chunk(Text):
    """A chunk of a heap: `chunk[2:5]` are bytes of it, and `chunk[2:5] = b"..."` is a splice."""

    def __init__(self, heap: Heap, handle: int) -> None:
        super().__init__(heap.document, heap.handle, handle)
        self.heap = heap

    @property
    def handle(self) -> int:
        """Its handle, which stays."""
        return self._handles[1]

    def __len__(self) -> int:
        return self.document.length("read", *self._handles)

    def read(self) -> bytes:
        data: bytes = self._call("read")
        return data

    def locked_read(self) -> bytes:
        """Its bytes, of a block that is locked; so nothing is brought into memory."""
        data: bytes = self._call("locked_chunk")
        return data

    def write(self, at: int, data: Data) -> None:
        self._call("write", at, data)

    def splice(self, at: int, count: int, data: Data) -> None:
        self._call("splice", at, count, data)

    def insert(self, at: int, size: int) -> None:
        """Puts so many zeros in before the byte at `at`."""
        self._call("insert", at, size)

    def delete(self, at: int, size: int) -> None:
        """Takes so many bytes out from `at` on."""
        self._call("delete", at, size)

    def resize(self, size: int) -> None:
        """Cuts the chunk at its end, or adds zeros there."""
        self._call("resize", size)

    def free(self) -> None:
        """Frees the chunk."""
        self._call("free")

    def as_array(self) -> Array:
        """The chunk array in it; what is none is NotArray when it is looked at."""
        from .arrays import Array
        return Array(self)

    def as_element_array(self) -> ElementArray:
        """The element array in it."""
        from .arrays import ElementArray
        return ElementArray(self)

    def as_name_array(self) -> NameArray:
        """The name array in it."""
        from .arrays import NameArray
        return NameArray(self)
