"""The workloads: each is a generator of the lines of a script, with the reply that is right for each line.

The same seed and scale give the same script. A scale below 1 makes fewer operations on smaller documents; one above 1 makes more
operations, and documents no larger.
"""

from __future__ import annotations

from collections.abc import Callable, Iterator
from dataclasses import dataclass
from functools import partial
from itertools import islice
from random import Random
from typing import Final, NamedTuple

from models import BLOCKS, CAPACITY, HeapModel, Slot, TextModel, TokenModel, TreeModel, handle


class Line(NamedTuple):
    """A line of a script and its reply; a blank line has none."""

    text: str
    reply: str = "ok"


Lines = Iterator[Line]

EDITED: Final = 64
"""How many bytes an edit of a text puts in or takes out."""

BRANCH: Final = 50_000
"""How many each branch of a saved text has: too many to be joined, and fewer than there is room for."""

READ_AT_ONCE: Final = 8_192


@dataclass(frozen=True, slots=True)
class Scale:
    """How much of a workload is made."""

    factor: float

    def times(self, operations: int) -> int:
        """So many operations at the scale 1."""
        return max(1, round(operations * self.factor))

    def size(self, most: int) -> int:
        """So many parts of a document at the scale 1, and above it too."""
        return min(most, self.times(most))


Generator = Callable[[Scale, Random], Lines]


@dataclass(frozen=True, slots=True)
class Workload:
    """A workload under the name that the table and `--only` have for it, and its generator.

    It has a new document, or with `before` the one that such a script has made, of which nothing is measured. The opening of that one is
    part of what is counted in instructions only where it `counts_opening`.
    """

    name: str
    make: Generator
    before: Generator | None = None
    counts_opening: bool = True

    @property
    def family(self) -> str:
        """The name without the size that growing workloads have behind it."""
        return self.name.partition("-")[0]

    @property
    def shows(self) -> str:
        """What it shows: the first line that its generator has of itself."""
        generator = self.make.func if isinstance(self.make, partial) else self.make
        return (generator.__doc__ or "").partition("\n")[0]

    def lines(self, scale: Scale, seed: int) -> Lines:
        """The script; `name` is part of the seed, so that no two workloads use the same numbers."""
        return self.make(scale, Random(f"{self.name} {seed}"))

    def lines_before(self, scale: Scale, seed: int) -> Lines | None:
        """The script that makes the document, where it isn't a new one."""
        return self.before(scale, Random(f"{self.name} before {seed}")) if self.before else None


def random_hex(rng: Random, least: int, most: int) -> str:
    """Bytes, so many at random, as a script spells them."""
    return rng.randbytes(rng.randint(least, most)).hex()


def bytes_reply(content: bytes | bytearray | str) -> str:
    text = content if isinstance(content, str) else content.hex()
    return f"bytes {text or '-'}"


def chunks_made(count: int, size: int) -> Lines:
    """A heap, the block 0001, of so many chunks of one size."""
    yield Line("newheap 0", "block 0001")
    for entry in range(1, count + 1):
        yield Line(f"alloc 0001 {size}", f"chunk {HeapModel.chunk(entry)}")


def blocks_made(count: int, size: int) -> Lines:
    """So many raw blocks of one size, from 0001 on."""
    for block in range(1, count + 1):
        yield Line(f"newraw 0 {size}", f"block {handle(block)}")


def start(scale: Scale, rng: Random) -> Lines:
    """No line: what it takes to start, to make a document and to end, which is in every other row too."""
    return iter(())


def writes(scale: Scale, rng: Random) -> Lines:
    """Small writes into 100 chunks, and the undo of each: reading a line, one splice, and what is kept of it."""
    size, chunks = 512, scale.size(100)
    count = scale.times(200_000)
    yield from chunks_made(chunks, size)
    for _ in range(count):
        data = random_hex(rng, 1, 64)
        at = rng.randint(0, size - len(data) // 2)
        yield Line(f"write 0001 {HeapModel.chunk(rng.randint(1, chunks))} {at} {data}")
    for _ in range(count):
        yield Line("undo")
    for entry in range(1, chunks + 1):
        yield Line(f"read 0001 {HeapModel.chunk(entry)}", bytes_reply(bytes(size)))


def grown(heap: HeapModel, rng: Random) -> Line:
    """An edit that makes a heap larger where it has the room, and else is refused."""
    kind = rng.randrange(3)
    if kind == 0 or not len(heap):
        entry, size = heap.free_entry(), rng.randint(1, 200)
        text, reply = f"alloc 0001 {size}", f"chunk {heap.chunk(entry)}"
    else:
        entry, more = heap.pick(rng), rng.randint(1, 100)
        old = heap.size(entry)
        size, reply = old + more, "ok"
        if kind == 1:
            text = f"insert 0001 {heap.chunk(entry)} {rng.randint(0, old)} {more}"
        else:
            text = f"resize 0001 {heap.chunk(entry)} {size}"
    return Line(text, reply if heap.resize(entry, size) else "no 8 Full")


def shrunk(heap: HeapModel, rng: Random) -> Line:
    """An edit that makes a heap smaller, of one of its chunks; there is one."""
    kind, entry = rng.randrange(3), heap.pick(rng)
    old, chunk = heap.size(entry), heap.chunk(entry)
    less = rng.randint(0, min(old, 100))
    heap.resize(entry, old - less if kind else None)
    if kind == 0:
        return Line(f"free 0001 {chunk}")
    if kind == 1:
        return Line(f"delete 0001 {chunk} {rng.randint(0, old - less)} {less}")
    return Line(f"resize 0001 {chunk} {old - less}")


def turned(heap: HeapModel, rng: Random) -> Lines:
    """A few undos, and then some redos of what they took back."""
    undos = rng.randint(1, 8)
    for _ in range(min(undos, heap.undos)):
        heap.undo()
        yield Line("undo")
    for _ in range(min(rng.randint(0, undos), heap.redos)):
        heap.redo()
        yield Line("redo")


def churned(heap: HeapModel, rng: Random) -> Lines:
    """Edits, undos and redos without an end: the less room there is, the more edits make some."""
    while True:
        if rng.randrange(10) == 0:
            yield from turned(heap, rng)
        elif rng.randrange(1_000) < heap.room or not len(heap):
            yield grown(heap, rng)
        else:
            yield shrunk(heap, rng)


def churn(scale: Scale, rng: Random) -> Lines:
    """Edits, undos and redos in a heap with some hundred bytes to spare: finding room, and packing where it is scattered."""
    heap = HeapModel()
    yield Line("newheap 0", "block 0001")
    while heap.room > 1_000:
        yield grown(heap, rng)
    yield from islice(churned(heap, rng), scale.times(344_000))
    yield Line("info 0001", f"heap 0 {heap.need}")
    yield Line("chunks 0001", " ".join(["chunks", *heap.chunks()]))
    yield Line("undos", f"number {heap.undos + 1}")
    yield Line("redos", f"number {heap.redos}")


def fresh_text(array: TokenModel, rng: Random, least: int, most: int) -> str:
    """A text that no used slot has."""
    while (text := random_hex(rng, least, most)) in array:
        pass
    return text


def element_added(array: TokenModel, rng: Random) -> Line:
    token, text = array.next_token(), fresh_text(array, rng, 4, 10)
    array.set(token, Slot(1, text))
    return Line(f"eadd 0001 0010 {text}", f"token {handle(token)}")


def element_changed(array: TokenModel, rng: Random) -> Line:
    """An edit of a used element that leaves it used, or takes one reference."""
    token = array.pick(rng)
    slot = array.slot(token)
    kind = rng.randrange(4)
    if kind == 0:
        text = fresh_text(array, rng, 4, 10)
        array.set(token, Slot(slot.references, text))
        return Line(f"echange 0001 0010 {handle(token)} {text}")
    if kind == 1:
        array.unref(token)
        return Line(f"eunref 0001 0010 {handle(token)}")
    array.set(token, Slot(slot.references + 1, slot.text))
    if kind == 2:
        return Line(f"eref 0001 0010 {handle(token)}")
    return Line(f"eadd 0001 0010 {slot.text}", f"token {handle(token)}")


def element_edit(array: TokenModel, rng: Random, entries: int) -> Line:
    if len(array) < entries:
        return element_added(array, rng)
    if rng.randrange(3):
        return element_changed(array, rng)
    token = array.pick(rng)
    array.set(token, None)
    return Line(f"edelete 0001 0010 {handle(token)}")


def element_look(array: TokenModel, rng: Random) -> Line:
    token = array.pick(rng)
    slot = array.slot(token)
    kind = rng.randrange(4)
    if kind == 0:
        return Line("eused 0001 0010", f"number {len(array)}")
    if kind == 1:
        return Line(f"etoken 0001 0010 {array.index(token)}", f"token {handle(token)}")
    if kind == 2:
        return Line(f"ecount 0001 0010 {handle(token)}", f"number {slot.references}")
    return Line(f"edata 0001 0010 {handle(token)}", bytes_reply(slot.text))


def name_added(array: TokenModel, rng: Random) -> Line:
    token, text = array.next_token(), fresh_text(array, rng, 4, 12)
    part = random_hex(rng, 2, 2)
    array.set(token, Slot(1, text, part))
    return Line(f"nadd 0002 0010 {text} {part} keep", f"token {handle(token)}")


def name_changed(array: TokenModel, rng: Random) -> Line:
    """An edit of a used name that leaves it used."""
    token = array.pick(rng)
    slot = array.slot(token)
    kind = rng.randrange(3)
    if kind == 0:
        text = fresh_text(array, rng, 4, 12)
        array.set(token, Slot(slot.references, text, slot.part))
        return Line(f"nname 0002 0010 {handle(token)} {text}")
    given = random_hex(rng, 2, 2)
    part, keep = (slot.part, "keep") if kind == 1 else (given, "set")
    array.set(token, Slot(slot.references + 1, slot.text, part))
    return Line(f"nadd 0002 0010 {slot.text} {given} {keep}", f"token {handle(token)}")


def name_edit(array: TokenModel, rng: Random, entries: int) -> Line:
    if len(array) < entries:
        return name_added(array, rng)
    if rng.randrange(2):
        return name_changed(array, rng)
    token = array.pick(rng)
    array.unref(token)
    return Line(f"nunref 0002 0010 {handle(token)}")


def name_look(array: TokenModel, rng: Random) -> Line:
    token = array.pick(rng)
    slot = array.slot(token)
    kind = rng.randrange(4)
    if kind == 0:
        return Line(f"nfind 0002 0010 {slot.text}", f"token {handle(token)}")
    if kind == 1:
        return Line(f"ncount 0002 0010 {handle(token)}", f"number {slot.references}")
    if kind == 2:
        return Line(f"ntext 0002 0010 {handle(token)}", bytes_reply(slot.text))
    return Line(f"ndata 0002 0010 {handle(token)}", bytes_reply(slot.part))


def later(array: TokenModel, rng: Random, edit: Callable[[], Line], look: Callable[[], Line]) -> Lines:
    """Edits, look-ups and undos of the edit before, without an end."""
    while True:
        if rng.randrange(3) == 0:
            yield look()
            continue
        yield edit()
        if rng.randrange(6) == 0:
            array.undo()
            yield Line("undo")


def names(scale: Scale, rng: Random) -> Lines:
    """An element and a name array built entry by entry, and then edited and asked: the array calls, and what is kept of an edit."""
    entries, operations = scale.size(2_000), scale.times(3_000)
    elements, texts = TokenModel(), TokenModel()
    yield Line("newheap 0", "block 0001")
    yield Line("newheap 0", "block 0002")
    yield Line("ecreate 0001 0", "chunk 0010")
    yield Line("ncreate 0002 2", "chunk 0010")
    for _ in range(entries):
        yield element_added(elements, rng)
        yield name_added(texts, rng)
    of_elements = later(elements, rng, lambda: element_edit(elements, rng, entries), lambda: element_look(elements, rng))
    of_names = later(texts, rng, lambda: name_edit(texts, rng, entries), lambda: name_look(texts, rng))
    yield from islice(of_elements, operations)
    yield from islice(of_names, operations)


def raw(size: int, scale: Scale, rng: Random) -> Lines:
    """Writes over 1,000 raw blocks of 1 KB (raws: 8 KB) with 30 updates: blocks read and written back, and commits."""
    blocks = scale.size(1_000)
    rounds = scale.size(30)
    bodies = [bytearray(size) for _ in range(blocks)]
    yield from blocks_made(blocks, size)
    for _ in range(rounds):
        for _ in range(scale.times(30_000) // rounds):
            block, data = rng.randrange(blocks), rng.randbytes(rng.randint(1, 64))
            at = rng.randint(0, size - len(data))
            bodies[block][at : at + len(data)] = data
            yield Line(f"vwrite {handle(block + 1)} {at} {data.hex()}")
        yield Line("update")
    for block in range(0, blocks, 10):
        yield Line(f"vread {handle(block + 1)}", bytes_reply(bodies[block]))


def listed(blocks: int) -> Line:
    """The blocks from 0001 on, so many."""
    return Line("list", " ".join(["blocks", *(handle(block) for block in range(1, blocks + 1))]))


def full_blocks(scale: Scale) -> int:
    """As many as a document can have."""
    return scale.size(BLOCKS)


def new_blocks(scale: Scale, rng: Random) -> Lines:
    """8,192 raw blocks of 65,520 bytes, as many and as long as can be: making them, and writing them back."""
    yield from blocks_made(full_blocks(scale), CAPACITY)
    yield listed(full_blocks(scale))


def saved_blocks(scale: Scale, rng: Random) -> Lines:
    """Such blocks, saved."""
    yield from blocks_made(full_blocks(scale), CAPACITY)
    yield Line("save")


def opening(scale: Scale, rng: Random) -> Lines:
    """One line, behind the opening of a file of 8,192 raw blocks of 65,520 bytes: nearly all of it is the opening's."""
    yield listed(full_blocks(scale))


def groups(scale: Scale, rng: Random) -> Lines:
    """A group of two small edits and its undo, 5,000 times among 8,000 blocks: an undo that is as long as its group."""
    size, blocks, count = 64, scale.size(8_000), scale.times(5_000)
    # the edits are all in so few blocks, which stay in memory
    edited = range(1, min(blocks, 4) + 1)
    bodies = {block: bytearray(size) for block in edited}
    yield from blocks_made(blocks, size)
    for block in edited:
        bodies[block][:8] = rng.randbytes(8)
        yield Line(f"vwrite {handle(block)} 0 {bodies[block][:8].hex()}")
    for _ in range(count):
        yield Line("begin")
        for _ in range(2):
            yield Line(f"vwrite {handle(rng.choice(edited))} {rng.randint(0, size - 8)} {random_hex(rng, 1, 8)}")
        yield Line("end")
        yield Line("undo")
    yield Line("undos", f"number {blocks + len(edited)}")
    yield Line("redos", "number 1")
    for block in edited:
        yield Line(f"vread {handle(block)}", bytes_reply(bodies[block]))


def chains(scale: Scale, rng: Random) -> Lines:
    """A tree walked, copied, compared and freed whole, each taken back: walks, and edits of many blocks at once.

    The tree and its copy have 2,000 blocks together, since programs that know version 1 of the file alone have 2,048 handles.
    """
    tree = TreeModel(scale.size(1_000), rng)
    yield from blocks_made(len(tree), 0)
    for block in range(len(tree)):
        yield Line(f"attach {handle(block + 1)} {tree.body(block, random_hex(rng, 8, 32))}")
    copy, walked = handle(len(tree) + 1), " ".join(["blocks", *tree.walk()])
    for _ in range(scale.times(100)):
        yield Line("walk 0001", walked)
        yield Line("chcopy 0001", f"block {copy}")
        yield Line(f"chequal 0001 {copy}", "same")
        yield Line(f"chfree {copy}")
        yield Line("undo")
        yield Line(f"chequal {copy} 0001", "same")
        yield Line("undo")


def text_edits(count: int, length: int, rng: Random) -> Iterator[tuple[int, bytes]]:
    """Insertions of 64 bytes, and deletions, which have none, at random places of a text of such a length."""
    for _ in range(count):
        content = rng.randbytes(EDITED) if length < EDITED or rng.randrange(2) else b""
        yield rng.randint(0, length if content else length - EDITED), content
        length += EDITED if content else -EDITED


def text_edit(at: int, content: bytes) -> Line:
    return Line(f"hinsert 0001 {at} {content.hex()}" if content else f"hdelete 0001 {at} {EDITED}")


def text(megabytes: int, edits: int, scale: Scale, rng: Random) -> Lines:
    """A text of so many MB built in pieces of 64 bytes, edited at random places, and read whole: edits of large arrays."""
    built = bytearray()
    yield Line("hcreate 1 1", "block 0001")
    for _ in range(scale.size(megabytes * 1_000_000 // EDITED)):
        content = rng.randbytes(EDITED)
        yield text_edit(len(built), content)
        built += content
    made = TextModel(built)
    for at, content in text_edits(scale.times(edits), len(made), rng):
        if content:
            made.insert(at, content)
        else:
            made.delete(at, EDITED)
        yield text_edit(at, content)
    yield Line("hcount 0001", f"number {len(made)}")
    for at, content in made.runs(READ_AT_ONCE):
        yield Line(f"hread 0001 {at} {len(content)}", bytes_reply(content))


def branches_of(megabytes: int, scale: Scale) -> int:
    """How many branches a text of so many MB has, in each of which there is room for more."""
    return scale.size(megabytes * 1_000_000 // BRANCH)


def saved_text(megabytes: int, scale: Scale, rng: Random) -> Lines:
    """Such a text, saved. Each piece is put in before the others, so that it is a branch of its own."""
    yield Line("hcreate 1 1", "block 0001")
    for _ in range(branches_of(megabytes, scale)):
        yield Line(f"hinsert 0001 0 {rng.randbytes(BRANCH).hex()}")
    yield Line("save")


def edits(megabytes: int, scale: Scale, rng: Random) -> Lines:
    """1,000 insertions and deletions of 64 bytes in a saved text of so many MB, whose opening isn't counted: what an edit takes."""
    length = BRANCH * branches_of(megabytes, scale)
    for at, content in text_edits(scale.times(1_000), length, rng):
        length += EDITED if content else -EDITED
        yield text_edit(at, content)
    yield Line("hcount 0001", f"number {length}")


def array(elements: int, scale: Scale, rng: Random) -> Lines:
    """An array of elements of 4 bytes built one by one, and then 10,000 edits and look-ups of it."""
    held: list[str] = []
    yield Line("newheap 0", "block 0001")
    yield Line("acreate 0001 4 0", "chunk 0010")
    for i in range(scale.size(elements)):
        held.append(random_hex(rng, 4, 4))
        yield Line(f"ainsert 0001 0010 {i} {held[i]}")
    for _ in range(scale.times(5_000)):
        i = rng.randrange(len(held))
        held[i] = random_hex(rng, 4, 4)
        yield Line(f"aset 0001 0010 {i} {held[i]}")
        i = rng.randrange(len(held))
        yield Line(f"aget 0001 0010 {i}", bytes_reply(held[i]))


def document(blocks: int, scale: Scale, rng: Random) -> Lines:
    """A saved document of raw blocks, and then 1,000 times a write into one of them and an update."""
    size, count = 256, scale.size(blocks)
    yield from blocks_made(count, size)
    yield Line("save")
    for _ in range(scale.times(1_000)):
        data = random_hex(rng, 16, 16)
        block, at = handle(rng.randint(1, count)), rng.randint(0, size - 16)
        yield Line(f"vwrite {block} {at} {data}")
        yield Line("update")


def undo(steps: int, scale: Scale, rng: Random) -> Lines:
    """So many steps of a byte each, all undone: what is kept of a step beside its content."""
    size, count = 256, scale.times(steps)
    yield from chunks_made(1, size)
    for _ in range(count):
        yield Line(f"write 0001 0010 {rng.randrange(size)} {random_hex(rng, 1, 1)}")
    yield Line("undos", f"number {count + 2}")
    for _ in range(count):
        yield Line("undo")
    yield Line("read 0001 0010", bytes_reply(bytes(size)))


def lists(scale: Scale, rng: Random) -> Lines:
    """A million times `list` of a document of three blocks: what a command takes that does nothing."""
    yield from blocks_made(3, 0)
    for _ in range(scale.times(1_000_000)):
        yield Line("list", "blocks 0001 0002 0003")


def blanks(scale: Scale, rng: Random) -> Lines:
    """A million lines without a word, which have no reply."""
    for _ in range(scale.times(1_000_000)):
        yield Line("", "")


def workloads() -> list[Workload]:
    """All of them, in the order of the table."""
    return [
        Workload("start", start),
        Workload("writes", writes),
        Workload("churn", churn),
        Workload("names", names),
        Workload("raw", partial(raw, 1_024)),
        Workload("raws", partial(raw, 8_192)),
        Workload("new-blocks", new_blocks),
        Workload("opening", opening, before=saved_blocks),
        Workload("groups", groups),
        Workload("chains", chains),
        Workload("text-2", partial(text, 2, 10_000)),
        Workload("text-50", partial(text, 50, 100_000)),
        *(Workload(f"edits-{size}", partial(edits, size), partial(saved_text, size), counts_opening=False) for size in (1, 10, 100)),
        *(Workload(f"array-{size}", partial(array, size)) for size in (10, 1_000, 10_000)),
        *(Workload(f"document-{size}", partial(document, size)) for size in (10, 200, 2_000)),
        *(Workload(f"undo-{size}", partial(undo, size)) for size in (1_000, 10_000, 100_000, 1_000_000)),
        Workload("lists", lists),
        Workload("blanks", blanks),
    ]
