"""What the workloads know of a document beforehand, so that they know each reply: sizes of chunks, slots of arrays, texts, trees."""

from __future__ import annotations

import heapq
from bisect import bisect_left
from collections.abc import Iterator
from dataclasses import dataclass
from itertools import accumulate
from random import Random
from typing import Final

CAPACITY: Final = 65_520
"""How many bytes a heap has room for, and a raw block can have."""

BLOCKS: Final = 8_192
"""How many blocks a document can have."""


def space_of(size: int) -> int:
    """What a chunk of so many bytes takes: its bytes and a word before them, in whole double words; an empty one takes nothing."""
    return (size + 5) // 4 * 4 if size else 0


def handle(number: int) -> str:
    """A block, a token, or a chunk as a script spells it."""
    return f"{number:04x}"


def word(number: int) -> str:
    """A number in two bytes, the low one first."""
    return number.to_bytes(2, "little").hex()


class Pool:
    """A set of numbers of which one can be picked at random, in the same time whatever their count."""

    def __init__(self) -> None:
        self._members: list[int] = []
        self._places: dict[int, int] = {}

    def __len__(self) -> int:
        return len(self._members)

    def add(self, member: int) -> None:
        self._places[member] = len(self._members)
        self._members.append(member)

    def remove(self, member: int) -> None:
        place = self._places.pop(member)
        last = self._members.pop()
        if last != member:
            self._members[place] = last
            self._places[last] = place

    def pick(self, rng: Random) -> int:
        return self._members[rng.randrange(len(self._members))]


@dataclass(frozen=True, slots=True)
class SizeChange:
    """What an edit did to a chunk: its size before and after, None where it isn't live."""

    entry: int
    old: int | None
    new: int | None


class HeapModel:
    """The sizes of the chunks of a heap, by table entry from 1 on, with the steps that can be undone and made again."""

    def __init__(self) -> None:
        self._sizes: dict[int, int] = {}
        self._live = Pool()
        self._top = 0
        self._spaces = 0
        # each entry up to the greatest that ever was live and isn't any more, and some that are live again
        self._freed: list[int] = []
        self._greatest = 0
        self._done: list[SizeChange] = []
        self._undone: list[SizeChange] = []

    def __len__(self) -> int:
        return len(self._live)

    @property
    def need(self) -> int:
        """How many bytes the heap needs."""
        return self._need(self._top, self._spaces)

    @property
    def room(self) -> int:
        return CAPACITY - self.need

    @property
    def undos(self) -> int:
        return len(self._done)

    @property
    def redos(self) -> int:
        return len(self._undone)

    @staticmethod
    def chunk(entry: int) -> str:
        """The handle of the chunk under a table entry."""
        return handle(14 + 2 * entry)

    def chunks(self) -> list[str]:
        """The handles of all chunks, rising."""
        return [self.chunk(entry) for entry in sorted(self._sizes)]

    def pick(self, rng: Random) -> int:
        """The entry of a chunk at random; there is one."""
        return self._live.pick(rng)

    def size(self, entry: int) -> int:
        return self._sizes[entry]

    def free_entry(self) -> int:
        """The least entry that isn't live."""
        while self._freed and self._freed[0] in self._sizes:
            heapq.heappop(self._freed)
        return self._freed[0] if self._freed else self._greatest + 1

    def resize(self, entry: int, size: int | None) -> bool:
        """Gives the chunk this size, makes it or, with None, frees it, as one step; False where the heap hasn't the room."""
        old = self._sizes.get(entry)
        if size is not None and not self._fits(entry, old, size):
            return False
        self._put(entry, size)
        self._done.append(SizeChange(entry, old, size))
        self._undone.clear()
        return True

    def undo(self) -> None:
        step = self._done.pop()
        self._put(step.entry, step.old)
        self._undone.append(step)

    def redo(self) -> None:
        step = self._undone.pop()
        self._put(step.entry, step.new)
        self._done.append(step)

    def _fits(self, entry: int, old: int | None, size: int) -> bool:
        spaces = self._spaces - space_of(old or 0) + space_of(size)
        return self._need(max(self._top, entry), spaces) <= CAPACITY

    @staticmethod
    def _need(top: int, spaces: int) -> int:
        return 16 + 4 * ((top + 1) // 2) + spaces

    def _put(self, entry: int, size: int | None) -> None:
        old = self._sizes.pop(entry, None)
        self._spaces += space_of(size or 0) - space_of(old or 0)
        if size is not None:
            self._sizes[entry] = size
        if old is None and size is not None:
            self._live.add(entry)
            self._top = max(self._top, entry)
            self._greatest = max(self._greatest, entry)
        if old is not None and size is None:
            self._live.remove(entry)
            heapq.heappush(self._freed, entry)
            self._lower_top()

    def _lower_top(self) -> None:
        while self._top and self._top not in self._sizes:
            self._top -= 1


@dataclass(frozen=True, slots=True)
class Slot:
    """A used element: its references, its data or its name, and the part beside a name."""

    references: int
    text: str
    part: str = ""


@dataclass(frozen=True, slots=True)
class SlotChange:
    """What an edit did to a token: its slot before, None where it wasn't used, and whether the array got longer."""

    token: int
    old: Slot | None
    appended: bool


class TokenModel:
    """The slots of an element or a name array whose texts all differ, with the steps that can be undone."""

    def __init__(self) -> None:
        self._slots: list[Slot | None] = []
        self._free: list[int] = []
        self._used = Pool()
        self._tokens: dict[str, int] = {}
        self._done: list[SlotChange] = []

    def __len__(self) -> int:
        return len(self._used)

    def __contains__(self, text: str) -> bool:
        return text in self._tokens

    def pick(self, rng: Random) -> int:
        """A used token at random; there is one."""
        return self._used.pick(rng)

    def slot(self, token: int) -> Slot:
        slot = self._slots[token]
        assert slot is not None
        return slot

    def next_token(self) -> int:
        """The token of the next new element: the newest free one, else the next."""
        return self._free[-1] if self._free else len(self._slots)

    def index(self, token: int) -> int:
        """How many used tokens are lower."""
        return sum(slot is not None for slot in self._slots[:token])

    def set(self, token: int, slot: Slot | None) -> None:
        """Gives a used token this slot or, with None, frees it, or gives the next token one: one step."""
        appended = token == len(self._slots)
        old = None if appended else self._slots[token]
        self._put(token, slot)
        self._done.append(SlotChange(token, old, appended))

    def unref(self, token: int) -> None:
        """Takes one reference; with none left the slot is freed."""
        slot = self.slot(token)
        left = slot.references - 1
        self.set(token, Slot(left, slot.text, slot.part) if left else None)

    def undo(self) -> None:
        step = self._done.pop()
        self._put(step.token, step.old)
        if step.appended:
            self._slots.pop()
            self._free.pop()

    def _put(self, token: int, slot: Slot | None) -> None:
        if token == len(self._slots):
            self._slots.append(None)
            self._free.append(token)
        old = self._slots[token]
        self._slots[token] = slot
        if old is not None:
            del self._tokens[old.text]
            self._used.remove(token)
        elif slot is not None:
            self._free.pop()
        if slot is not None:
            self._tokens[slot.text] = token
            self._used.add(token)
        elif old is not None:
            self._free.append(token)


class TextModel:
    """The bytes of a text, in pieces, so that an edit of a long one takes as long as that of a piece."""

    _PIECE: Final = 32_768

    def __init__(self, content: bytes | bytearray) -> None:
        places = range(0, max(1, len(content)), self._PIECE)
        self._pieces = [bytearray(content[at : at + self._PIECE]) for at in places]

    def __len__(self) -> int:
        return sum(map(len, self._pieces))

    def insert(self, at: int, content: bytes) -> None:
        """Puts bytes in before the one at a place up to the end."""
        k, at = self._found(at)
        piece = self._pieces[k]
        piece[at:at] = content
        if len(piece) > 2 * self._PIECE:
            self._pieces[k : k + 1] = [piece[: self._PIECE], piece[self._PIECE :]]

    def delete(self, at: int, count: int) -> None:
        """Takes bytes out; there are so many from that place on."""
        while count:
            k, start = self._found(at + 1)
            piece = self._pieces[k]
            start -= 1
            less = min(count, len(piece) - start)
            del piece[start : start + less]
            count -= less

    def runs(self, most: int) -> Iterator[tuple[int, bytes]]:
        """All bytes in runs of so many, the last one of fewer, each with its place."""
        whole = b"".join(self._pieces)
        for at in range(0, len(whole), most):
            yield at, whole[at : at + most]

    def _found(self, at: int) -> tuple[int, int]:
        """The first piece that ends at this place or behind it, and where in it the place is."""
        ends = list(accumulate(map(len, self._pieces)))
        k = bisect_left(ends, at)
        return k, at - (ends[k - 1] if k else 0)


class TreeModel:
    """A tree of raw blocks, numbered level by level from its root on, the block 0001."""

    def __init__(self, blocks: int, rng: Random) -> None:
        self._children: list[list[int]] = []
        made = 1
        while len(self._children) < blocks:
            arity = min(rng.randint(1, 4), blocks - made)
            self._children.append(list(range(made, made + arity)))
            made += arity

    def __len__(self) -> int:
        return len(self._children)

    def body(self, block: int, content: str) -> str:
        """A block's bytes: a block with one child is linked to it, one with more has a branch to each; the content is behind."""
        links = [word(child + 1) for child in self._children[block]]
        if len(links) < 2:
            return (links[0] if links else word(0)) + content
        branches = "".join(word(0) + link for link in links)
        return "ffff" + word(6) + word(len(links)) + branches + content

    def walk(self) -> list[str]:
        """The handles of all blocks, each before its children, the children in order."""
        order: list[str] = []
        ahead = [0]
        while ahead:
            block = ahead.pop()
            order.append(handle(block + 1))
            ahead.extend(reversed(self._children[block]))
        return order
