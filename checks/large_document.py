# Needs: python3
"""A document of raw blocks with its steps, locks and commits, by docs/SCRIPT.md and docs/FORMAT.md, for large_by_chance.py: what is answered
to each line. A large array is edited as a list is, and its blocks by the rule in large_array.py; the two have to agree.
"""
from itertools import islice
from typing import NamedTuple, Optional

from large_array import (CAPACITY, GREATEST_SIZE, MOST_BRANCHES, ROOM, Root, branch_bytes, branch_of, count, ends_of, part, respread,
                         root_bytes, root_of, word, word_at)

MOST_BLOCKS = 8192
TREE = 0xFFFF
NUMBERS = {"NoBlock": 5, "WrongKind": 7, "TooBig": 9, "NoHandles": 10, "Range": 11, "NotArray": 12, "NoElement": 13, "BadChain": 17,
           "IsMap": 18, "Locked": 19, "NotLocked": 20, "CacheFull": 21, "NothingToUndo": 22, "NothingToRedo": 23, "GroupOpen": 28,
           "NoGroup": 29}
# What each command has behind its name: handles of blocks, numbers and bytes.
EDITS = {"newraw": "nn", "newheap": "n", "vfree": "b", "vcopy": "b", "uid": "bn", "map": "b", "vwrite": "bnx", "vsplice": "bnnx",
         "attach": "bx", "chcopy": "b", "chfree": "b", "hcreate": "nn", "hinsert": "bnx", "hset": "bnx", "hdelete": "bnn"}
OTHERS = {"undo": "", "redo": "", "begin": "", "end": "", "abandon": "", "join": "", "forget": "n", "update": "", "save": "", "revert": "",
          "lock": "b", "unlock": "b", "info": "b", "list": "", "find": "nb", "mapblock": "", "vread": "b", "walk": "b", "chsize": "b",
          "chequal": "bb", "hcount": "b", "hget": "bn", "hread": "bnn", "undos": "", "redos": "", "modified": "", "touched": "",
          "undoplaces": "", "redoplaces": "", "abandonplaces": ""}


class Refused(Exception):
    pass


def refuse_if(holds, fault):
    if holds:
        raise Refused(fault)


class Block(NamedTuple):
    user_id: int
    body: Optional[bytes]  # None of a heap


def handle(b):
    return f"{b:04x}"


def hex_of(data):
    return data.hex() or "-"


def block_places(handles):
    return [("block", b) for b in handles]


# Chains

def links_of(body):
    """Where a body of a chain's block has its links; None where no block of a chain can have it."""
    if len(body) < 2:
        return None
    if word_at(body, 0) != TREE:
        return [0]
    if len(body) < 6:
        return None
    at, branches = word_at(body, 2), word_at(body, 4)
    if at < 6 or at + 4 * branches > len(body) or any(word_at(body, at + 4 * k) for k in range(branches)):
        return None
    return [at + 2 + 4 * k for k in range(branches)]


def relinked(body, rename):
    out = bytearray(body)
    for at in links_of(body):
        out[at:at + 2] = word(rename.get(word_at(body, at), 0))
    return bytes(out)


class Document:
    """Blocks by their handles, and the map block. No document changes: each edit makes another, with the places that it tells and its
    reply."""

    def __init__(self, blocks, map_block=0, least=1):
        # All handles below the least are live.
        self.blocks, self.map_block, self.least = blocks, map_block, least

    def edited(self, come, go=(), places=(), reply="ok"):
        blocks = dict(self.blocks)
        for b in go:
            del blocks[b]
        blocks.update(come)
        return Document(blocks, self.map_block, min([self.least, *go])), list(places), reply

    def with_body(self, b, body, places):
        return self.edited({b: Block(self.blocks[b].user_id, body)}, places=places)

    def new_handles(self, most):
        """The least free ones, as many as there are up to so many."""
        while self.least in self.blocks:
            self.least += 1
        free = (b for b in range(self.least, MOST_BLOCKS + 1) if b not in self.blocks)
        return list(islice(free, most))

    def test_live(self, b):
        refuse_if(b not in self.blocks, "NoBlock")

    def raw(self, b):
        self.test_live(b)
        refuse_if(self.blocks[b].body is None, "WrongKind")
        return self.blocks[b].body

    def is_raw(self, b):
        return b in self.blocks and self.blocks[b].body is not None

    # Edits of blocks

    def made(self, block):
        new = self.new_handles(1)
        refuse_if(not new, "NoHandles")
        return self.edited({new[0]: block}, places=block_places(new), reply="block " + handle(new[0]))

    def newraw(self, user_id, size):
        refuse_if(size > CAPACITY, "TooBig")
        return self.made(Block(user_id, bytes(size)))

    def newheap(self, user_id):
        return self.made(Block(user_id, None))

    def vcopy(self, b):
        self.test_live(b)
        return self.made(self.blocks[b])

    def vfree(self, b):
        self.test_live(b)
        refuse_if(b == self.map_block, "IsMap")
        return self.edited({}, [b], block_places([b]))

    def uid(self, b, user_id):
        self.test_live(b)
        return self.edited({b: Block(user_id, self.blocks[b].body)}, places=[("attributes", b)])

    def map(self, b):
        refuse_if(b and b not in self.blocks, "NoBlock")
        return Document(self.blocks, b, self.least), [("map",)], "ok"

    def vwrite(self, b, at, data):
        body = self.raw(b)
        refuse_if(at + len(data) > len(body), "Range")
        return self.with_body(b, body[:at] + data + body[at + len(data):], [("run", b, 0, at, len(data), len(data))])

    def vsplice(self, b, at, n, data):
        body = self.raw(b)
        refuse_if(at + n > len(body), "Range")
        refuse_if(len(body) - n + len(data) > CAPACITY, "TooBig")
        return self.with_body(b, body[:at] + data + body[at + n:], [("run", b, 0, at, n, len(data))])

    def attach(self, b, data):
        body = self.raw(b)
        refuse_if(len(data) > CAPACITY, "TooBig")
        return self.with_body(b, data, [("run", b, 0, 0, len(body), len(data))])

    # Chains

    def chain(self, b):
        self.raw(b)
        found, left = {}, [b]
        while left:
            b = left.pop()
            links = links_of(self.blocks[b].body) if self.is_raw(b) and b not in found else None
            refuse_if(links is None, "BadChain")
            found[b] = None
            left.extend(link for at in reversed(links) if (link := word_at(self.blocks[b].body, at)))
        return list(found)

    def shape(self, b):
        chain = self.chain(b)
        names = dict(zip(chain, range(1, len(chain) + 1)))
        return [relinked(self.blocks[b].body, names) for b in chain]

    def chcopy(self, b):
        chain = self.chain(b)
        new = self.new_handles(len(chain))
        refuse_if(len(new) < len(chain), "NoHandles")
        names = dict(zip(chain, new))
        copies = {names[b]: Block(self.blocks[b].user_id, relinked(self.blocks[b].body, names)) for b in chain}
        return self.edited(copies, places=block_places(new), reply="block " + handle(new[0]))

    def chfree(self, b):
        chain = self.chain(b)
        refuse_if(self.map_block in chain, "IsMap")
        return self.edited({}, chain, block_places(chain))

    # Large arrays

    def root(self, b):
        root = root_of(self.raw(b))
        refuse_if(root is None, "NotArray")
        return root

    def branches(self, b):
        """Asks for pieces of an array, each of which is tested: BadChain where it isn't what the root says, stands where another did that
        was asked for, or is the root."""
        root, seen = self.root(b), {}

        def get(k):
            h = root.handles[k]
            piece = branch_of(root.size, root.counts[k], self.blocks[h].body) if self.is_raw(h) else None
            refuse_if(piece is None or h == b or seen.setdefault(h, k) != k, "BadChain")
            return piece
        return root, get

    def run(self, b, i, n):
        root, get = self.branches(b)
        if n == 0:
            return []
        first, last, before, behind = ends_of(root.counts, i, i + n)
        pieces = [get(k) for k in range(first, last + 1)]
        pieces[-1] = part(root.size, pieces[-1], 0, behind)
        pieces[0] = part(root.size, pieces[0], before, root.counts[first])
        return pieces

    def hcreate(self, user_id, size):
        refuse_if(size > GREATEST_SIZE, "Range")
        new = self.new_handles(2)
        refuse_if(len(new) < 2, "NoHandles")
        root = root_bytes(Root(size, (0,), (new[1],)))
        come = {new[0]: Block(user_id, root), new[1]: Block(0, branch_bytes(size, b"" if size else ()))}
        return self.edited(come, places=block_places(new), reply="block " + handle(new[0]))

    def hinsert(self, b, i, data):
        root = self.root(b)
        refuse_if(i > sum(root.counts) or root.size and len(data) % root.size, "Range")
        return self.replaced(b, i, i, data if root.size else (data,))

    def hset(self, b, i, data):
        root = self.root(b)
        n = -(-len(data) // root.size) if root.size else 1
        refuse_if(i + n > sum(root.counts), "NoElement")
        if root.size == 0:
            return self.replaced(b, i, i + 1, (data,))
        refuse_if(len(data) % root.size, "Range")
        return self.written(b, i, n, data)

    def hdelete(self, b, i, n):
        root = self.root(b)
        refuse_if(i + n > sum(root.counts), "NoElement")
        return self.replaced(b, i, i + n, b"" if root.size else ())

    def written(self, b, i, n, data):
        """Elements of one size, where they are."""
        if n == 0:
            return self.edited({}, places=block_places([b]))
        root, get = self.branches(b)
        first, last, at, _ = ends_of(root.counts, i, i + n)
        come, places, at, old = {}, range(first, last + 1), at * root.size, None
        pieces = [get(k) for k in places]
        for k, old in zip(places, pieces):
            new, data = data[:len(old) - at], data[len(old) - at:]
            body = branch_bytes(root.size, old[:at] + new + old[at + len(new):])
            come[root.handles[k]] = Block(self.blocks[root.handles[k]].user_id, body)
            at = 0
        return self.edited(come, places=block_places(come))

    def replaced(self, b, i, j, new):
        if i == j and not new:
            return self.edited({}, places=block_places([b]))
        root, get = self.branches(b)
        refuse_if(root.size == 0 and any(len(element) + 2 > ROOM for element in new), "TooBig")
        first, last, _, _ = ends_of(root.counts, i, j)
        for k in range(first, last + 1):
            get(k)
        window = respread(root.size, root.counts, get, i, j, new)
        first, behind = window.first, window.behind
        go = [h for k, h in enumerate(root.handles[first:behind], first) if k not in window.keeps]
        refuse_if(self.map_block in go, "IsMap")
        come = self.new_handles(window.keeps.count(None))
        refuse_if(len(come) < window.keeps.count(None), "NoHandles")
        left = iter(come)
        handles = tuple(next(left) if k is None else root.handles[k] for k in window.keeps)
        counts = tuple(count(root.size, piece) for piece in window.pieces)
        after = Root(root.size, root.counts[:first] + counts + root.counts[behind:],
                     root.handles[:first] + handles + root.handles[behind:])
        refuse_if(len(after.counts) > MOST_BRANCHES, "NoHandles")
        bodies = {b: root_bytes(after)} | {h: branch_bytes(root.size, piece) for h, piece in zip(handles, window.pieces)}
        blocks = {h: Block(self.blocks[h].user_id if h in self.blocks else 0, body) for h, body in bodies.items()}
        return self.edited(blocks, go, block_places([*go, b, *handles]))

    def elements(self, b):
        """The size and the elements of a large array, None where it is none: its root, each branch, and no block is there twice."""
        try:
            root, get = self.branches(b)
            pieces = [get(k) for k in range(len(root.counts))]
        except Refused:
            return None
        return root.size, b"".join(pieces) if root.size else sum(pieces, ())


def taken_back(places):
    """What is told where a step is undone: the last place first, and of a run the two lengths exchanged."""
    return [place[:4] + (place[5], place[4]) if place[0] == "run" else place for place in reversed(places)]


def places_reply(places):
    def words(kind, *rest):
        handles = {"block": 1, "attributes": 1, "run": 2}.get(kind, 0)
        return [kind, *map(handle, rest[:handles]), *map(str, rest[handles:])]
    return " ".join(["places", *(part for place in places for part in words(*place))])


class Group:
    def __init__(self, before):
        self.before, self.places, self.has_edit = before, [], False


class Machine:
    """A session on a new file, with so many frames, of which so many steps can be undone, or all."""

    def __init__(self, frames, limit=None):
        self.limit = limit
        self.now = self.updated = self.saved = Document({})
        self.past, self.future, self.group, self.touched_places, self.locks, self.frames = [], [], None, [], {}, frames

    def answer(self, line):
        name, *words = line.split()
        kinds = EDITS.get(name) or OTHERS[name]
        operands = [{"b": lambda w: int(w, 16), "n": int, "x": lambda w: b"" if w == "-" else bytes.fromhex(w)}[kind](w)
                    for kind, w in zip(kinds, words, strict=True)]
        try:
            return self.edit(name, operands) if name in EDITS else getattr(self, name)(*operands)
        except Refused as fault:
            return f"no {NUMBERS[str(fault)]} {fault}"

    # Room in memory

    def test_locks(self):
        refuse_if(self.locks, "Locked")

    def test_frames(self, *blocks):
        """CacheFull where each frame has a locked block, and none of them is this one."""
        refuse_if(len(self.locks) >= self.frames and not any(b in self.locks for b in blocks), "CacheFull")

    def edit(self, name, operands):
        b = operands[0]
        if name in ("chcopy", "chfree", "hinsert", "hset", "hdelete"):
            self.test_locks()
        refuse_if(name == "vfree" and b in self.locks, "Locked")
        if name in ("vfree", "vcopy"):
            self.now.test_live(b)
            self.test_frames(b)
        if name in ("vwrite", "vsplice", "attach"):
            self.now.raw(b)
            self.test_frames(b)
        document, places, reply = getattr(self.now, name)(*operands)
        self.touched_places, self.future = places, []
        if self.group:
            self.group.places, self.group.has_edit = self.group.places + places, True
        else:
            self.add_step(self.now, places)
        self.now = document
        return reply

    def add_step(self, before, places):
        self.past.append((before, places))
        if self.limit:
            self.forget(self.limit)

    # Steps

    def test_turn(self):
        refuse_if(self.group, "GroupOpen")
        self.test_locks()

    def undo(self):
        self.test_turn()
        refuse_if(not self.past, "NothingToUndo")
        document, places = self.past.pop()
        self.future.append((self.now, places))
        self.now, self.touched_places = document, taken_back(places)
        return "ok"

    def redo(self):
        self.test_turn()
        refuse_if(not self.future, "NothingToRedo")
        document, places = self.future.pop()
        self.past.append((self.now, places))
        self.now, self.touched_places = document, places
        return "ok"

    def begin(self):
        refuse_if(self.group, "GroupOpen")
        self.group = Group(self.now)
        return "ok"

    def end(self):
        refuse_if(not self.group, "NoGroup")
        if self.group.has_edit:
            self.add_step(self.group.before, self.group.places)
        self.group = None
        return "ok"

    def abandon(self):
        refuse_if(not self.group, "NoGroup")
        self.test_locks()
        self.now, self.touched_places, self.group = self.group.before, taken_back(self.group.places), None
        return "ok"

    def join(self):
        refuse_if(self.group, "GroupOpen")
        refuse_if(len(self.past) < 2, "NothingToUndo")
        (_, newer), (document, older) = self.past.pop(), self.past.pop()
        self.past.append((document, older + newer))
        return "ok"

    def forget(self, most):
        self.past = self.past[max(0, len(self.past) - most):]
        return "ok"

    def update(self):
        self.test_turn()
        self.updated = self.now
        return "ok"

    def save(self):
        self.test_turn()
        self.updated = self.saved = self.now
        return "ok"

    def revert(self):
        self.test_turn()
        self.now = self.updated = self.saved
        self.past, self.future, self.touched_places = [], [], [("all",)]
        return "ok"

    def lock(self, b):
        self.now.test_live(b)
        self.test_frames(b)
        self.locks[b] = self.locks.get(b, 0) + 1
        return "ok"

    def unlock(self, b):
        self.now.test_live(b)
        refuse_if(b not in self.locks, "NotLocked")
        self.locks[b] -= 1
        if self.locks[b] == 0:
            del self.locks[b]
        return "ok"

    # Look-ups

    def info(self, b):
        self.now.test_live(b)
        self.test_frames(b)
        block = self.now.blocks[b]
        return f"heap {block.user_id} 16" if block.body is None else f"raw {block.user_id} {len(block.body)}"

    def list(self):
        return " ".join(["blocks", *map(handle, sorted(self.now.blocks))])

    def find(self, user_id, start):
        found = [b for b, block in self.now.blocks.items() if b > start and block.user_id == user_id]
        return "block " + handle(min(found, default=0))

    def mapblock(self):
        return "block " + handle(self.now.map_block)

    def vread(self, b):
        body = self.now.raw(b)
        self.test_frames(b)
        return "bytes " + hex_of(body)

    def walk(self, b):
        self.now.raw(b)
        self.test_frames()
        return " ".join(["blocks", *map(handle, self.now.chain(b))])

    def chsize(self, b):
        self.now.raw(b)
        self.test_frames()
        return f"number {sum(len(self.now.blocks[b].body) for b in self.now.chain(b))}"

    def chequal(self, b, other):
        self.now.test_live(b)
        self.now.test_live(other)
        self.now.raw(b)
        self.now.raw(other)
        self.test_frames()
        return "same" if self.now.shape(b) == self.now.shape(other) else "differ"

    def hcount(self, b):
        self.now.raw(b)
        self.test_frames()
        return f"number {sum(self.now.root(b).counts)}"

    def hget(self, b, i):
        self.now.raw(b)
        self.test_frames()
        root = self.now.root(b)
        refuse_if(i >= sum(root.counts), "NoElement")
        element = self.now.run(b, i, 1)[0]
        return "bytes " + hex_of(element if root.size else element[0])

    def hread(self, b, i, n):
        self.now.raw(b)
        self.test_frames()
        root = self.now.root(b)
        refuse_if(i + n > sum(root.counts), "NoElement")
        refuse_if(root.size == 0 or n * root.size > CAPACITY, "Range")
        return "bytes " + hex_of(b"".join(self.now.run(b, i, n)))

    def undos(self):
        return f"number {len(self.past)}"

    def redos(self):
        return f"number {len(self.future)}"

    def modified(self):
        stands = not (self.group and self.group.has_edit)
        return f"number {stands * ((self.now is self.saved) + 2 * (self.now is self.updated))}"

    def touched(self):
        return places_reply(self.touched_places)

    def undoplaces(self):
        refuse_if(self.group, "GroupOpen")
        refuse_if(not self.past, "NothingToUndo")
        return places_reply(taken_back(self.past[-1][1]))

    def redoplaces(self):
        refuse_if(self.group, "GroupOpen")
        refuse_if(not self.future, "NothingToRedo")
        return places_reply(self.future[-1][1])

    def abandonplaces(self):
        refuse_if(not self.group, "NoGroup")
        return places_reply(taken_back(self.group.places))
