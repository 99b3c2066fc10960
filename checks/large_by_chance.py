# Needs: python3
"""Plays scripts by chance about large arrays: edits and look-ups of elements of any size, beside undo, redo, groups, joins, commits, locks,
edits of their blocks as such, and blocks that they are damaged by. Each reply is compared with what large_document.py says, a model that
has the arrays as lists too.

    python3 checks/large_by_chance.py GEOSVM [COUNT] [EDITS]

There are 8 scripts for each of COUNT, each the same each time, and each is run with 1, 2 and 8 frames; two of five have a limit of steps.
At the end of each all is undone and made again, and the document is read each time; then the file is opened again, and has what was
committed last. Then come at least EDITS edits of arrays of some MB, by the scripts of large_list.py, which has a plain list alone.
"""
import os
import random
import re
import subprocess
import sys
import tempfile

from large_array import GREATEST_SIZE, HEADER, JOIN, ROOM, Root, branch_bytes, count, packed, part, root_bytes, root_of, word
from large_document import MOST_BLOCKS, Machine, handle, hex_of
from large_list import Script as ListScript

FRAMES = 1, 2, 8
# What edits of arrays are refused for, but for wrong blocks.
FAULTS = ["Locked", "NotArray", "NoElement", "BadChain", "IsMap", "Range", "TooBig", "NoHandles"]
STEPS = 60
# How many edits a script beside a plain list has, at most, behind those that fill the list.
LIST_EDITS = 5_000
# How many bytes a script and its replies have, about, before it comes to its end.
LONGEST = 700_000
# A line has 140,000 bytes at most.
MOST_BYTES = 69980


class Script(random.Random):
    """The lines of a script, with the replies of a machine of the most frames."""

    def __init__(self, seed):
        super().__init__(seed)
        self.limit = [None, None, 1, None, 4][seed % 5]
        self.machine, self.lines, self.replies, self.length = Machine(FRAMES[-1], self.limit), [], [], 0
        self.roots, self.repairs, self.dump = [], [], None
        # Whether pieces are near the room of a branch, few handles are free, and blocks are locked.
        self.is_wide, self.is_scarce, self.has_locks = seed % 2 == 1, seed % 8 == 5, seed % 8 in (3, 6)
        self.edits = self.splits = self.joins = 0
        self.faults = dict.fromkeys(FAULTS, 0)

    def say(self, line):
        reply = self.machine.answer(line)
        self.lines.append(line)
        self.replies.append(reply)
        self.length += len(line) + len(reply)
        return reply

    def replies_of(self, frames):
        """With so many. They say nothing of the replies, but where blocks are locked."""
        machine = Machine(frames, self.limit)
        return [machine.answer(line) for line in self.lines] if self.has_locks else self.replies

    # Bytes and pieces

    def size_of_elements(self):
        return self.choice([0, 0, 0, 1, 1, 1, 2, 5, GREATEST_SIZE if self.is_wide else 3])

    def element_length(self):
        """Of an element where sizes vary."""
        wide = [self.randrange(20000), 24564, 24565, 32753, 40000, 49130, 65508, 65509, self.randrange(MOST_BYTES)]
        return self.choice(wide if self.is_wide and self.randrange(3) == 0 else [0, 0, 1, 2, self.randrange(9)])

    def elements(self, size, n):
        return self.randbytes(size * n) if size else tuple(self.randbytes(self.element_length()) for _ in range(n))

    def piece(self, size):
        """At least one element, as many as there is room for in a branch."""
        if not self.is_wide:
            return self.elements(size, self.randint(1, 4))
        targets = [8 * size, JOIN // 2, JOIN // 2 + size, JOIN - 20, JOIN, ROOM - 3, ROOM, ROOM, self.randint(size, ROOM)]
        return self.long_piece(size, self.choice(targets))

    def long_piece(self, size, target):
        """One that weighs so much, or little less. Where sizes vary it has few short elements beside a long one."""
        if size:
            return self.long_bytes(min(target, ROOM) // size * size or size)
        few = [self.randbytes(self.randrange(9)) for _ in range(self.randint(1, 5))]
        rest = target - sum(len(element) + 2 for element in few)
        if rest >= 2:
            few.insert(self.randint(0, len(few)), self.long_bytes(rest - 2))
        return tuple(few)

    def long_bytes(self, n):
        """Any bytes, or zeros among which a few others are."""
        if n < 2000 or self.randrange(4) == 0:
            return self.randbytes(n)
        data = bytearray(n)
        for at in [0, n - 1, *(self.randrange(n) for _ in range(5))]:
            data[at] = self.randint(1, 255)
        return bytes(data)

    # What a script begins with

    def fill(self, free):
        """Copies of a chain, until so many handles are free."""
        here = len(self.machine.now.blocks)
        first = here + 1
        for b in range(first, first + 64):
            self.say("newraw 0 2")
        for b in range(first, first + 63):
            self.say(f"vwrite {handle(b)} 0 {hex_of(word(b + 1))}")
        while MOST_BLOCKS - len(self.machine.now.blocks) - free >= 64:
            self.say("chcopy " + handle(first))
        for _ in range(MOST_BLOCKS - len(self.machine.now.blocks) - free):
            self.say("newraw 0 0")

    def make(self):
        """An array that is made by edits."""
        size = self.size_of_elements()
        reply = self.say(f"hcreate {self.randrange(5)} {size}")
        if reply.startswith("block "):
            self.roots.append(int(reply.split()[1], 16))

    def draw(self, pieces, size):
        """An array whose blocks are written as such, in any order; neighbours may be as small as they like."""
        new = self.machine.now.new_handles(len(pieces) + 1)
        order = self.sample(new, len(new))
        b, *branches = order
        root = Root(size, tuple(count(size, piece) for piece in pieces), tuple(branches))
        bodies = dict(zip(order, [root_bytes(root), *(branch_bytes(size, piece) for piece in pieces)]))
        for h in new:
            self.write_body(h, bodies[h])
        self.roots.append(b)

    def write_body(self, h, body):
        """A new block. Of long bytes that are mostly zeros the others alone are in a line."""
        is_sparse = len(body) - body.count(0) < 1000 < len(body)
        self.say(f"newraw {self.randrange(3)} {len(body) if is_sparse else 0}")
        if not is_sparse:
            self.say(f"attach {handle(h)} {hex_of(body)}")
            return
        for few in re.finditer(rb"[^\0]+(\0{1,9}[^\0]+)*", body):
            self.say(f"vwrite {handle(h)} {few.start()} {hex_of(few[0])}")

    def draw_some(self):
        size = self.size_of_elements()
        self.draw([self.piece(size) for _ in range(self.randint(1, 4 if self.is_wide else 12))], size)

    def draw_edge(self):
        """Two pieces that become one by an edit after which they weigh as much as they may, and stay two by one that puts in more; or three
        of any weights, between which elements come that are as long as they get."""
        size = self.choice([0, 0, 1, 1, 2])
        if self.randrange(2):
            first, gap = 2 * self.randint(1000, JOIN // 2 - 1000), 12
            self.draw([self.long_piece(size, first), self.long_piece(size, JOIN - first - gap)], size)
            edits = [(0, gap if size else gap - 2), (0, gap + size if size else gap - 1)]
        else:
            size = self.choice([0, size])
            self.draw([self.long_piece(size, self.choice(weights)) for weights in ([100, 9000, 40000], [60000, ROOM], [100, 20000, ROOM])], size)
            edits = [(self.choice([-1, 0, 1, 1, 2, 2]), self.choice([40000, 60000, 65000, 65508])) for _ in range(2)]
        for by, length in self.sample(edits, 2):
            root = root_of(self.machine.now.blocks[self.roots[-1]].body)
            i = max(0, min(self.choice([0, root.counts[0], root.counts[0], sum(root.counts[:2])]) + by, sum(root.counts)))
            self.make_edit(f"hinsert {handle(self.roots[-1])} {i} {hex_of(self.long_bytes(length))}", self.roots[-1])
            self.say(self.choice(["undo", "undo", "undo", "undos"]))

    def draw_far(self):
        """A root of more branches than there can be handles, most of them at one block."""
        size, branches = self.choice([0, 1]), self.choice([8190, 8191, 8192, 8193, 8193, 10000])
        new = self.machine.now.new_handles(4)
        for _ in new:
            self.say("newraw 0 0")
        b, *few = new
        # Two elements of any length needn't fit into a branch.
        piece = self.elements(size, 2) if size else [element[:100] for element in self.elements(size, 2)]
        for h in few:
            self.say(f"attach {handle(h)} {hex_of(branch_bytes(size, piece))}")
        root = Root(size, (2,) * branches, (*few[:2], *[few[2]] * (branches - 2)))
        self.say(f"attach {handle(b)} {hex_of(root_bytes(root))}")
        self.roots.append(b)

    def start(self):
        self.say("newheap 3")
        if self.randrange(2):
            self.say("newraw 9 7")
        for _ in range(self.randint(1, 2)):
            self.choice([self.make, self.draw_some, self.draw_edge if self.is_wide else self.draw_some])()
        if self.randrange(8) == 0:
            self.draw_far()
        if self.is_scarce:
            self.fill(self.randrange(4))

    # What is edited

    def array(self):
        """The root of an array, now and then another block, with what its bytes say."""
        now = self.machine.now
        live = [b for b in self.roots if now.is_raw(b)] or self.roots or [1]
        b = self.choice(live)
        if self.randrange(25) == 0:
            b = self.choice([0, 1, 2, self.randint(1, 12), MOST_BLOCKS, MOST_BLOCKS + 1, 0xFFFF])
        return b, root_of(now.blocks[b].body) if now.is_raw(b) else None

    def place(self, root):
        """The number of an element: at an end, at the edge of a branch, or anywhere; now and then past them."""
        total, edges = sum(root.counts), [0]
        for elements in root.counts[:200]:
            edges.append(edges[-1] + elements)
        i = self.choice([0, total, self.choice(edges), self.choice(edges) - 1, self.choice(edges) + 1, self.randint(0, total)])
        if self.randrange(40) == 0:
            i = self.choice([total + 1, total + 2, 999_999_999])
        return max(0, i)

    def near(self, root):
        """A weight that makes pieces as large as they get, or as large as they are joined, or one element more."""
        k = self.randrange(len(root.counts))
        here = root.counts[k] * root.size
        beside = root.counts[k - 1] * root.size
        edge = self.choice([ROOM - here, JOIN - here, JOIN - here - beside, ROOM, JOIN, MOST_BYTES, self.randrange(MOST_BYTES)])
        return max(0, edge + self.choice([-root.size, 0, 0, root.size]))

    def new_bytes(self, root):
        if root is None or root.size == 0:
            return self.randbytes(min(self.element_length(), MOST_BYTES))
        n = self.choice([0, 1, 1, 1, 2, 3, self.randrange(12)])
        if self.is_wide and self.randrange(4) == 0:
            n = self.near(root) // root.size
        odd = self.randrange(root.size) if self.randrange(15) == 0 else 0
        return self.randbytes(min(n * root.size, MOST_BYTES // root.size * root.size - root.size) + odd)

    def run_length(self, root, i):
        """How many elements from i on: few, up to the edge of a branch, all that are left, or one more than these."""
        total, edges = sum(root.counts), []
        for elements in root.counts[:200]:
            edges.append((edges or [0])[-1] + elements)
        to = self.choice([i, i + 1, i + 1, i + 2, i + self.randrange(9), self.choice(edges), self.choice(edges) + 1, total])
        if self.is_wide and root.size and self.randrange(3) == 0:
            to = i + self.near(root) // root.size
        if self.randrange(40):
            to = min(to, total)
        return self.choice([0, 999_999_999]) if self.randrange(100) == 0 else max(0, to - i)

    def edit(self):
        b, root = self.array()
        if root is None:
            i, n = self.randrange(3), self.randrange(3)
        else:
            i = self.place(root)
            n = self.run_length(root, i)
        if root is not None and self.randrange(20) == 0:
            self.say("map " + handle(self.choice([0, *root.handles[:20]])))
        kind = self.choice(["hinsert", "hinsert", "hset", "hdelete"])
        if kind == "hdelete":
            self.make_edit(f"hdelete {handle(b)} {i} {n}", b)
        else:
            self.make_edit(f"{kind} {handle(b)} {i} {hex_of(self.new_bytes(root))}", b)

    def make_edit(self, line, b):
        before, old = self.machine.now, self.machine.now.elements(b)
        reply = self.say(line)
        if reply == "ok":
            self.edits += 1
            self.compare(line, before, old, b)
            self.look_at_edit(b)
            return
        fault = reply.split()[-1]
        if fault in FAULTS:
            self.faults[fault] += 1
        assert self.machine.now is before

    def compare(self, line, before, old, b):
        """The array is the list, edited; where it was one. That is of the model alone."""
        now, told = self.machine.now, {place[1] for place in self.machine.touched_places}
        same = before.blocks.keys() & now.blocks.keys()
        assert all(before.blocks[h] == now.blocks[h] for h in same if h not in told)
        assert all(h in told for h in before.blocks.keys() ^ now.blocks.keys())
        self.splits += len(now.blocks) > len(before.blocks)
        self.joins += len(now.blocks) < len(before.blocks)
        if old is None:
            return
        (size, elements), (kind, _, i, last) = old, line.split()
        data = b"" if kind == "hdelete" or last == "-" else bytes.fromhex(last)
        new = data if size else () if kind == "hdelete" else (data,)
        i = int(i)
        end = {"hinsert": i, "hset": i + count(size, new)}.get(kind) if kind != "hdelete" else i + int(last)
        wanted = part(size, elements, 0, i) + new + part(size, elements, end, count(size, elements))
        assert now.elements(b) == (size, wanted), f"the model isn't the list behind {line[:90]}"

    def look_at_edit(self, b):
        if self.randrange(3):
            self.say("touched")
        if self.randrange(3) == 0:
            self.say(f"hcount {handle(b)}")
        if self.randrange(3) == 0:
            self.say(f"vread {handle(b)}")
        if self.randrange(4) == 0:
            self.say(f"chsize {handle(b)}")
        told = [place[1] for place in self.machine.touched_places if place[0] == "block"]
        for h in self.sample(told, min(2, len(told))):
            block = self.machine.now.blocks.get(h)
            if block is None or len(block.body or b"") < 3000 or self.randrange(10) == 0:
                self.say(f"vread {handle(h)}")

    # What is asked

    def look_up(self):
        b, root = self.array()
        i = self.randrange(3) if root is None else self.place(root)
        n = self.randrange(3) if root is None else self.run_length(root, i)
        asked = self.randrange(9)
        if asked < 3:
            self.say(f"hget {handle(b)} {i}")
        elif asked < 6:
            if n > 3000 and self.randrange(5):
                n = self.randrange(2000)
            self.say(f"hread {handle(b)} {i} {n}")
        else:
            self.say(self.choice([f"hcount {handle(b)}", f"walk {handle(b)}", f"chsize {handle(b)}", f"info {handle(b)}", "list", "mapblock",
                                  f"chequal {handle(b)} {handle(self.array()[0])}", f"find {self.randrange(5)} 0000"]))

    def ask(self):
        self.say(self.choice(["touched", "undoplaces", "redoplaces", "abandonplaces", "undos", "redos", "modified"]))

    # Steps

    def turn(self):
        for _ in range(self.choice([1, 1, 2, 4])):
            self.say(self.choice(["undo", "undo", "redo"]))
            if self.randrange(2):
                self.say("touched")

    def group(self):
        self.say(self.choice(["end", "end", "abandon"]) if self.machine.group else "begin")
        self.ask()

    def shorten(self):
        self.say(self.choice(["join", "join", f"forget {self.choice([0, 1, 3, 20])}"]))
        self.ask()

    def commit(self):
        self.say(self.choice(["save", "save", "update", "update", "update", "revert"]))
        self.ask()

    # Blocks

    def some_block(self):
        """A root, a branch, or any other block."""
        b, root = self.array()
        if root is not None and self.randrange(3):
            return self.choice(root.handles[:50])
        return b

    def change_blocks(self):
        b = handle(self.some_block())
        line = self.choice([f"map {b}", f"map {b}", "map 0000", f"vfree {b}", f"vcopy {b}", f"chcopy {b}", f"chfree {b}",
                            f"uid {b} {self.randrange(5)}", "newraw 1 3", "newheap 2"])
        reply = self.say(line)
        if reply.startswith("block ") and line.split()[0] in ("vcopy", "chcopy"):
            new = int(reply.split()[1], 16)
            if root_of(self.machine.now.blocks[new].body or bytes(6)) is not None:
                self.roots.append(new)
        elif reply == "ok" and line.startswith(("vfree", "chfree")) and self.randrange(4):
            self.say("undo")

    def damaged_root(self, b, root):
        """A root in which one thing is another: it is one still, or none."""
        size, counts, handles = root.size, list(root.counts), list(root.handles)
        k, other = self.randrange(len(counts)), self.choice(handles)
        kind = self.randrange(9)
        if kind == 0:
            counts[k] = max(0, min(65535, counts[k] + self.choice([-1, 1, 5])))
        elif kind == 1:
            handles[k] = self.choice([b, 0, 1, 2, other, other, MOST_BLOCKS + 1, self.randint(1, 12)])
        elif kind == 2:
            handles[k], handles[k - 1] = handles[k - 1], handles[k]
        elif kind == 3:
            size = self.choice([0, 1, 2, size + 1, 4096, 4097])
        elif kind == 4:
            at = self.randint(0, len(counts))
            counts.insert(at, self.choice([1, 2, 40000]))
            handles.insert(at, self.choice([other, b, self.randint(1, 12)]))
        if kind < 5:
            return root_bytes(Root(size, tuple(counts), tuple(handles)))
        data = bytearray(root_bytes(root))
        at = self.choice([2, 4, 6, 9, 11, 12, 15, 16, self.randrange(len(data)), len(data) - 4])
        data[at] ^= self.choice([1, 2, 128])
        return bytes(data) + b"\0" * (self.randrange(4) == 0)

    def damaged_branch(self, body):
        data, kind = bytearray(body), self.randrange(6)
        if kind == 0:
            data += self.randbytes(self.choice([1, 2, 5]))
        elif kind == 1 and data:
            del data[-1]
        elif kind == 2:
            del data[self.randint(0, min(12, len(data))):]
        elif len(data) >= HEADER:
            at = self.choice([0, 1, 2, 2, 3, 4, 5, 6, 8, 9, self.randrange(len(data))])
            data[at] ^= self.choice([1, 2, 128])
        return bytes(data)

    def damage(self):
        """Other bytes in a block, and for later the line that puts back those that were there."""
        b, root = self.array()
        if root is None or len(root.counts) > 1000:
            return
        h = b if self.randrange(2) else self.choice(root.handles)
        if not self.machine.now.is_raw(h):
            return
        old = self.machine.now.blocks[h].body
        new = self.damaged_root(b, root) if h == b else self.damaged_branch(old)
        same = 0
        while same < min(len(old), len(new)) and old[same] == new[same]:
            same += 1
        tail = 0
        while tail < min(len(old), len(new)) - same and old[-1 - tail] == new[-1 - tail]:
            tail += 1
        gone, come = old[same:len(old) - tail], new[same:len(new) - tail]
        self.say(f"vsplice {handle(h)} {same} {len(gone)} {hex_of(come)}")
        self.repairs.append(f"vsplice {handle(h)} {same} {len(come)} {hex_of(gone)}")
        for _ in range(self.randint(1, 5)):
            self.choice([self.edit, self.edit, self.look_up])()

    def repair(self):
        if self.repairs:
            line = self.repairs.pop()
            self.say(line if self.randrange(3) else "undo")

    # Locks

    def lock(self):
        """Some blocks are locked for a few steps."""
        live = [b for b in self.machine.now.blocks if self.machine.now.is_raw(b)] or [1]
        locked = self.sample(live, min(len(live), self.choice([1, 1, 2, 8])))
        for b in locked:
            self.say("lock " + handle(b))
        for _ in range(self.randint(1, 6)):
            self.choice([self.edit, self.edit, self.look_up, self.look_up, self.look_up, self.make, self.ask, self.turn])()
            self.say("vread " + handle(self.choice(live)))
        for b in locked:
            self.say("unlock " + handle(b))

    # All of it

    def step(self):
        steps = [self.edit] * 30 + [self.look_up] * 8 + [self.ask] * 2 + [self.turn] * 6 + [self.group] * 4 + [self.shorten] * 2
        steps += [self.commit] * 2 + [self.change_blocks] * 3 + [self.damage] * 2 + [self.repair] * 4 + [self.make]
        self.choice(steps + [self.lock] * 3 * self.has_locks)()

    def show(self, small=False):
        """All of the document, or of one of very many blocks those that arrays have; or of large blocks some alone."""
        now = self.machine.now
        self.say("list")
        self.say("mapblock")
        handles = sorted(now.blocks)
        if len(handles) > 200:
            named = {h for b in self.roots if now.is_raw(b) for h in (b, *getattr(root_of(now.blocks[b].body), "handles", ()))}
            handles = sorted(named & now.blocks.keys())
        for b in handles[:200]:
            if len(now.blocks[b].body or b"") < 3000 or self.randrange(6 if small else 3) == 0:
                self.say(f"vread {handle(b)}")
            self.say(f"info {handle(b)}")

    def write(self):
        self.start()
        self.say("save")
        self.say(self.choice(["forget 0", "undos", "undos"]))
        for _ in range(STEPS):
            self.step()
            if self.length > LONGEST:
                break
        if self.machine.group:
            self.say(self.choice(["end", "abandon"]))
        self.show()
        undone = len(self.machine.past)
        for _ in range(undone):
            self.say("undo")
        self.show()
        for _ in range(undone):
            self.say("redo")
        self.say("touched")
        self.show(small=True)
        self.say("modified")
        return self


def play(geosvm, words, lines, wanted, told):
    """Runs a script. Something else than is wanted is told, by the first line of it."""
    script = "".join(line + "\n" for line in lines)
    done = subprocess.run([geosvm, *words], input=script, capture_output=True, text=True, check=False)
    replies = done.stdout.split("\n")
    for number, (line, want, given) in enumerate(zip(lines, wanted, replies), 1):
        if want != given:
            print(f"FAILED  {told}, line {number}: {line[:90]}: wanted {want[:200]}, got {given[:200]}")
            return False
    if done.returncode or len(replies) != len(wanted) + 1:
        print(f"FAILED  {told}: status {done.returncode}, {len(replies) - 1} replies to {len(wanted)}; {done.stderr[:300]}")
        return False
    return True


def opened(machine):
    """What the file has: the updated document, and then the saved one."""
    script = Script(0)
    script.machine.now = script.machine.updated = machine.updated
    script.machine.saved = machine.saved
    script.roots = [b for b in machine.updated.blocks if machine.updated.is_raw(b) and root_of(machine.updated.blocks[b].body or bytes(6))]
    script.show()
    script.say("revert")
    script.show()
    return script


def go(geosvm, path, seed):
    """How many runs of a script were right."""
    script = Script(seed).write()
    right = 0
    for frames in FRAMES:
        wanted = script.replies_of(frames)
        words = ["--new", "--cache", str(frames), *(["--undo", str(script.limit)] if script.limit else []), path]
        right += play(geosvm, words, script.lines, wanted, f"script {seed}, {frames} frames")
    again = opened(script.machine)
    right += play(geosvm, [path], again.lines, again.replies, f"script {seed}, opened again")
    return right, script


def go_beside_lists(geosvm, path, wanted):
    """How many runs of scripts beside plain lists were right, how many there were, and how many edits they had."""
    right = runs = edits = 0
    seed = 0
    while edits < wanted:
        script = ListScript(seed, min(LIST_EDITS, wanted // 9 + 1)).write()
        for frames in FRAMES:
            words = ["--new", "--cache", str(frames), *(["--undo", str(script.limit)] if script.limit else []), path]
            right += play(geosvm, words, script.lines, script.replies, f"list {seed}, {frames} frames")
            edits += script.edits
        again = script.opened()
        right += play(geosvm, [path], again.lines, again.replies, f"list {seed}, opened again")
        runs += len(FRAMES) + 1
        seed += 1
    return right, runs, edits


def main():
    geosvm = os.path.abspath(sys.argv[1])
    scripts = 8 * (int(sys.argv[2]) if len(sys.argv) > 2 else 10)
    wanted_edits = int(sys.argv[3]) if len(sys.argv) > 3 else 6_000
    passed = failed = lines = splits = joins = edits = 0
    faults = dict.fromkeys(FAULTS, 0)
    with tempfile.TemporaryDirectory() as folder:
        for seed in range(scripts):
            right, script = go(geosvm, os.path.join(folder, "document"), seed)
            passed += right
            failed += len(FRAMES) + 1 - right
            lines += len(script.lines)
            edits += len(FRAMES) * script.edits
            splits += script.splits
            joins += script.joins
            for name, n in script.faults.items():
                faults[name] += n
        right, runs, list_edits = go_beside_lists(geosvm, os.path.join(folder, "document"), wanted_edits)
    passed += right
    failed += runs - right
    print(f"        {lines} lines, {splits} edits by which blocks came, {joins} by which some went; of edits were refused: "
          + ", ".join(f"{n} as {name}" for name, n in faults.items()))
    print(f"        {edits + list_edits} edits, {edits} of them beside the model of blocks, and {list_edits} beside a plain list")
    # They aren't a few.
    often = min(splits, joins) > scripts // 2 and all(5 * n > scripts // 8 for n in faults.values())
    print(f"{passed + often} passed, {failed + (not often)} failed")
    sys.exit(failed != 0 or not often)


if __name__ == "__main__":
    main()
