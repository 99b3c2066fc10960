"""The three kinds of arrays that a chunk can hold."""
from __future__ import annotations

import operator
from collections.abc import Iterator, MutableSequence
from typing import TYPE_CHECKING, Any, Union, overload

from .blocks import Data, Part
from .errors import NoElement, NoName
from .library import as_bytes

if TYPE_CHECKING:
    from .blocks import Chunk

Name = Union[str, Data]


def name_bytes(name: Name) -> bytes:
    """The bytes of a name: of a text those of UTF-8."""
    return name.encode("utf-8", "surrogateescape") if isinstance(name, str) else as_bytes(name)


class ChunkArray(Part):
    """What all arrays have: the chunk that they are in."""

    def __init__(self, chunk: Chunk) -> None:
        super().__init__(chunk.document, chunk.heap.handle, chunk.handle)
        self.chunk = chunk

    @property
    def handle(self) -> int:
        """The handle of its chunk."""
        return self.chunk.handle

    def element(self, number: int) -> bytes:
        """An element by its number from 0 on, as it lies in an array of any kind."""
        data: bytes = self._call("aget", number)
        return data

    def _element_count(self) -> int:
        return int(self._call("acount"))


class Array(ChunkArray, MutableSequence[bytes]):
    """A chunk array: a list of elements, which are bytes."""

    def __len__(self) -> int:
        return self._element_count()

    def _number(self, key: Any) -> int:
        """The number of an element, which may be counted from the end."""
        number = operator.index(key)
        return number + len(self) if number < 0 else number

    def _existing(self, key: Any) -> int:
        number = self._number(key)
        if number < 0:
            raise NoElement(f"{NoElement.__doc__}")
        return number

    @overload
    def __getitem__(self, key: int) -> bytes: ...
    @overload
    def __getitem__(self, key: slice) -> list[bytes]: ...
    def __getitem__(self, key: int | slice) -> bytes | list[bytes]:
        if isinstance(key, slice):
            return [self.element(it) for it in range(*key.indices(len(self)))]
        return self.element(self._existing(key))

    def __setitem__(self, key: Any, data: Any) -> None:
        """Gives an element these bytes. A slice is edited by `delete` and `insert`, in a group."""
        self._call("aset", self._existing(key), data)

    def __delitem__(self, key: int | slice) -> None:
        if not isinstance(key, slice):
            return self.delete(self._existing(key))
        at, end, step = key.indices(len(self))
        if step != 1:
            raise ValueError("only elements side by side can be deleted as a slice")
        self.delete(at, max(end - at, 0))

    def insert(self, index: int, value: Data) -> None:
        """Makes these bytes an element before this one; past the end is Range."""
        self._call("ainsert", max(self._number(index), 0), value)

    def delete(self, index: int, count: int = 1) -> None:
        """Deletes so many elements from this one on, as one edit."""
        self._call("adelete", index, count)

    def resize(self, index: int, size: int) -> None:
        """Cuts an element at its end, or adds zeros there."""
        self._call("aresize", self._existing(index), size)

    def clear(self) -> None:
        """Deletes all elements; the extra bytes stay."""
        self._call("azero")


class ElementArray(ChunkArray):
    """An element array: elements under tokens, each with a count of references. Going over it
    gives the tokens that are used."""

    def __len__(self) -> int:
        return int(self._call("eused"))

    def __iter__(self) -> Iterator[int]:
        return iter([self.token(it) for it in range(len(self))])

    def __contains__(self, token: object) -> bool:
        return token in list(self)

    def __getitem__(self, token: int) -> bytes:
        data: bytes = self._call("edata", token)
        return data

    def __setitem__(self, token: int, data: Data) -> None:
        self._call("echange", token, data)

    def __delitem__(self, token: int) -> None:
        self._call("edelete", token)

    def add(self, data: Data) -> int:
        """Gives the element with these bytes one more reference, or makes it; gives its token."""
        return int(self._call("eadd", data))

    def reference(self, token: int) -> None:
        """Gives an element one more reference."""
        self._call("eref", token)

    def release(self, token: int) -> None:
        """Takes one reference of an element away, which frees it with the last one."""
        self._call("eunref", token)

    def references(self, token: int) -> int:
        """How many references an element has."""
        return int(self._call("ecount", token))

    def token(self, index: int) -> int:
        """The token of a used element, by its number from 0 on."""
        return int(self._call("etoken", index))

    def index(self, token: int) -> int:
        """How many used tokens are lower."""
        return int(self._call("eindex", token))


class NameArray(ChunkArray):
    """A name array: names under tokens, each with a part. Going over it gives the names, and
    `names["left"]` is the part of one."""

    def tokens(self) -> list[int]:
        """The tokens that are used, rising."""
        return [it for it in range(self._element_count()) if self._is_used(it)]

    def _is_used(self, token: int) -> bool:
        try:
            self.references(token)
        except NoElement:
            return False
        return True

    def __len__(self) -> int:
        return len(self.tokens())

    def __iter__(self) -> Iterator[bytes]:
        return iter([self.name(it) for it in self.tokens()])

    def __contains__(self, name: Name) -> bool:
        try:
            self.find(name)
        except NoName:
            return False
        return True

    def __getitem__(self, name: Name) -> bytes:
        return self.part(self.find(name))

    def add(self, name: Name, part: Data = b"", *, replace: bool = False) -> int:
        """Gives a name that is there one more reference, and this part if `replace`; or makes it
        with this part. Gives its token."""
        return int(self._call("nadd", name_bytes(name), part, replace))

    def find(self, name: Name) -> int:
        """The lowest token that has the name."""
        return int(self._call("nfind", name_bytes(name)))

    def name(self, token: int) -> bytes:
        """The name of a token."""
        data: bytes = self._call("ntext", token)
        return data

    def part(self, token: int) -> bytes:
        """The part of a token's name."""
        data: bytes = self._call("ndata", token)
        return data

    def rename(self, token: int, name: Name) -> None:
        """Gives a token another name."""
        self._call("nname", token, name_bytes(name))

    def set_part(self, token: int, part: Data) -> None:
        """Gives the name of a token this part."""
        self._call("nset", token, part)

    def references(self, token: int) -> int:
        """How many references a name has."""
        return int(self._call("ncount", token))

    def release(self, token: int) -> None:
        """Takes one reference of a name away, which frees it with the last one."""
        self._call("nunref", token)
