"""Large arrays: elements in as many raw blocks as they need."""
from __future__ import annotations

import operator
from collections.abc import MutableSequence
from typing import Any, overload

from .blocks import Chain, Data, Part, Raw
from .errors import NoElement


class LargeArray(Part, MutableSequence[bytes]):
    """A large array, by its root: a list of elements, which are bytes, far longer than a block.

    Where all elements have one size, `insert` and `set` take bytes for as many as they have room
    for: so with elements of one byte it is a text, and `read` gives parts of it.
    """

    @property
    def handle(self) -> int:
        """The handle of its root, which stays."""
        return self._handles[0]

    @property
    def root(self) -> Raw:
        """The raw block by which it is named, and whose bytes name its branches."""
        return Raw(self.document, *self._handles)

    def chain(self) -> Chain:
        """Its root and its branches as a tree: so it is copied, and freed, as one."""
        return self.root.chain()

    def __len__(self) -> int:
        return int(self._call("hcount"))

    def element(self, number: int) -> bytes:
        """An element by its number, from 0 on."""
        data: bytes = self._call("hget", number)
        return data

    def read(self, index: int, count: int) -> bytes:
        """The bytes of so many elements of one size, from this one on: at most 65,520. Where sizes
        vary that is Range."""
        data: bytes = self._call("hread", index, count)
        return data

    def _number(self, key: Any) -> int:
        """The number of an element, which may be counted from the end."""
        number = operator.index(key)
        return number + len(self) if number < 0 else number

    def _existing(self, key: Any) -> int:
        number = self._number(key)
        if number < 0:
            raise NoElement(f"{NoElement.__doc__}")
        return number

    @overload
    def __getitem__(self, key: int) -> bytes: ...
    @overload
    def __getitem__(self, key: slice) -> list[bytes]: ...
    def __getitem__(self, key: int | slice) -> bytes | list[bytes]:
        if isinstance(key, slice):
            return [self.element(it) for it in range(*key.indices(len(self)))]
        return self.element(self._existing(key))

    def __setitem__(self, key: Any, data: Any) -> None:
        """Gives an element these bytes, as `set` does."""
        self.set(self._existing(key), data)

    def __delitem__(self, key: int | slice) -> None:
        if not isinstance(key, slice):
            return self.delete(self._existing(key))
        at, end, step = key.indices(len(self))
        if step != 1:
            raise ValueError("only elements side by side can be deleted as a slice")
        self.delete(at, max(end - at, 0))

    def insert(self, index: int, value: Data) -> None:
        """Puts these bytes in before this element, as one; where all have one size, as many. Past
        the end is Range."""
        self._call("hinsert", max(self._number(index), 0), value)

    def set(self, index: int, data: Data) -> None:
        """Puts these bytes in the place of this element; where all have one size, of as many."""
        self._call("hset", index, data)

    def delete(self, index: int, count: int = 1) -> None:
        """Deletes so many elements from this one on, as one edit."""
        self._call("hdelete", index, count)

    def clear(self) -> None:
        """Deletes all elements, as one edit."""
        self.delete(0, len(self))
