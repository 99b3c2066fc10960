# Needs: python3
"""Scripts about large arrays of some MB, for large_by_chance.py, with the replies that a plain list gives: bytes where elements have one
size, else a list of them. It knows nothing of blocks. An edit costs it no more than a move of some of these bytes, so that a long run has
very many.
"""
import random

# A line has 140,000 bytes at most, and what one reads 65,520.
MOST_BYTES = 69_980
READ = 65_520
LONGEST = 65_508
SIZES = [1, 0, 2, 1, 40, 0, 1, 4096, 5, 0]
# About how many bytes the elements have together, and each of them where sizes vary.
WEIGHTS = [300_000, 1_000_000, 2_000_000, 4_000_000]
MEAN = 800
# The root is the first block.
ROOT = "0001"


class Script(random.Random):
    """The lines about one array: it is filled, and then there are so many edits."""

    def __init__(self, seed, edits):
        super().__init__(seed)
        self.size, self.wanted = SIZES[seed % len(SIZES)], edits
        self.limit = [None, 100, 7][seed % 3]
        self.weight = WEIGHTS[seed % len(WEIGHTS)]
        self.now = bytearray() if self.size else []
        self.lines, self.replies, self.edits = [], [], 0
        # A step is a list of places, with what stood there and what stands there since.
        self.past, self.future, self.group = [], [], None
        self.cursor = 0
        self.committed = {}

    def say(self, line, reply="ok"):
        self.lines.append(line)
        self.replies.append(reply)

    # The list

    def count(self):
        return len(self.now) // self.size if self.size else len(self.now)

    def part(self, i, j):
        return bytes(self.now[i * self.size:j * self.size]) if self.size else self.now[i:j]

    def put(self, i, j, new):
        if self.size:
            self.now[i * self.size:j * self.size] = new
        else:
            self.now[i:j] = new

    def length_of(self, part):
        return len(part) // self.size if self.size else len(part)

    def change(self, i, j, new):
        """The elements from i up to j give their place to new ones. That is a step, or one more edit of the group."""
        edit = i, self.part(i, j), new
        self.put(i, j, new)
        self.edits += 1
        self.future = []
        if self.group is None:
            self.past.append([edit])
            self.forget_old()
        else:
            self.group.append(edit)

    def forget_old(self):
        if self.limit:
            del self.past[:-self.limit]

    def take_back(self, step):
        for i, old, new in reversed(step):
            self.put(i, i + self.length_of(new), old)

    def make_again(self, step):
        for i, old, new in step:
            self.put(i, i + self.length_of(old), new)

    # What is edited

    def weight_of_list(self):
        return len(self.now) if self.size else MEAN * len(self.now)

    def few(self, *mosts):
        """A number that is seldom large: up to the first of these mostly, and up to the last one of a hundred times."""
        kind = self.randrange(100)
        return self.randint(0, mosts[0 if kind < 70 else 1 if kind < 95 else 2 if kind < 99 else 3])

    def new(self):
        if not self.size:
            return [self.randbytes(self.few(9, 60, 20_000, LONGEST))]
        n = max(1, self.few(8, 300, 9_000, MOST_BYTES - self.size) // self.size)
        return self.randbytes(n * self.size)

    def place(self):
        """Near the last edit, where pieces are full at first, at an end, or anywhere."""
        count, kind = self.count(), self.randrange(10)
        if kind < 4:
            i = self.cursor + self.choice([0, 0, 1, -1, self.randint(-50, 50)])
        elif kind < 5 and self.size:
            i = self.randint(0, 64) * (65_510 // self.size) + self.randint(-1, 1)
        elif kind < 6:
            i = self.choice([0, count, count - 1])
        else:
            i = self.randint(0, count)
        return max(0, min(i, count))

    def insert(self):
        i, new = self.place(), self.new()
        self.say(f"hinsert {ROOT} {i} {hex_of(new, self.size)}")
        self.change(i, i, new)
        self.look(i, self.length_of(new))

    def set(self):
        if self.count() == 0:
            return
        i, new = min(self.place(), self.count() - 1), self.new()
        n = min(self.length_of(new), self.count() - i)
        new = new[:n * self.size] if self.size else new
        self.say(f"hset {ROOT} {i} {hex_of(new, self.size)}")
        self.change(i, i + n, new)
        self.look(i, n)

    def delete(self, most=None):
        i = self.place()
        n = self.few(8, 300, 9_000, 200_000) // self.size if self.size else self.few(3, 9, 100, 300)
        n = min(max(1, most or n), self.count() - i)
        self.say(f"hdelete {ROOT} {i} {n}")
        self.change(i, i + n, self.part(0, 0))
        self.look(i, 0)

    def edit(self):
        weight = self.weight_of_list()
        if weight > 1.2 * self.weight:
            self.delete(self.count() // 3)
            return
        kinds = [self.insert] * 4 + [self.set] * 2 + [self.delete] * 3
        self.choice(kinds if weight > self.weight // 2 else kinds + [self.insert] * 3)()

    def refused(self):
        count = self.count()
        past = self.choice([count + 1, count + 2, 99_999_999, 999_999_999])
        element = b"\1" * (self.size or 1)
        lines = [(f"hinsert {ROOT} {past} {element.hex()}", "no 11 Range"),
                 (f"hset {ROOT} {past - 1} {element.hex() if past > count + 1 or not self.size else 2 * element.hex()}", "no 13 NoElement"),
                 (f"hdelete {ROOT} {past - 1} 2", "no 13 NoElement"), (f"hdelete {ROOT} 0 {past}", "no 13 NoElement"),
                 (f"hget {ROOT} {past - 1}", "no 13 NoElement"), (f"hread {ROOT} 0 {past}", "no 13 NoElement")]
        if self.size > 1:
            lines.append((f"hinsert {ROOT} 0 {element.hex()}01", "no 11 Range"))
        if not self.size:
            lines.append((f"hinsert {ROOT} 0 {'00' * (LONGEST + 1)}", "no 9 TooBig"))
        self.say(*self.choice(lines))

    # What is looked at

    def look(self, i, n):
        """What stands round an edit."""
        self.cursor = i + self.choice([0, n])
        if self.randrange(2):
            self.say(f"hcount {ROOT}", f"number {self.count()}")
        if self.randrange(2):
            self.read(max(0, i - 2), min(self.count(), i + min(n, 20) + 2))
        if self.randrange(20) == 0:
            self.read(i, min(self.count(), i + n))

    def read(self, i, j):
        if not self.size:
            for k in range(i, min(j, i + 9)):
                self.say(f"hget {ROOT} {k}", f"bytes {self.now[k].hex() or '-'}")
        elif (j - i) * self.size <= READ:
            self.say(f"hread {ROOT} {i} {j - i}", f"bytes {self.part(i, j).hex() or '-'}")

    def read_all(self):
        """In pieces, or element by element."""
        count = self.count()
        self.say(f"hcount {ROOT}", f"number {count}")
        step = READ // self.size if self.size else 1
        for i in range(0, count, step):
            self.read(i, min(count, i + step))

    # Steps and commits

    def undo(self):
        if self.group is not None:
            self.say("undo", "no 28 GroupOpen")
            return
        if not self.past:
            self.say("undo", "no 22 NothingToUndo")
            return
        self.say("undo")
        self.future.append(self.past.pop())
        self.take_back(self.future[-1])

    def redo(self):
        if self.group is not None:
            self.say("redo", "no 28 GroupOpen")
            return
        if not self.future:
            self.say("redo", "no 23 NothingToRedo")
            return
        self.say("redo")
        self.past.append(self.future.pop())
        self.make_again(self.past[-1])

    def turn(self):
        for _ in range(self.choice([1, 1, 2, 5])):
            self.choice([self.undo, self.undo, self.redo])()
        self.say(f"hcount {ROOT}", f"number {self.count()}")

    def begin_or_end(self):
        if self.group is None:
            self.say("begin")
            self.group = []
            return
        if self.randrange(3) == 0:
            self.say("abandon")
            self.take_back(self.group)
        else:
            self.say("end")
            if self.group:
                self.past.append(self.group)
                self.forget_old()
        self.group = None

    def join(self):
        if self.group is not None:
            self.say("join", "no 28 GroupOpen")
        elif len(self.past) < 2:
            self.say("join", "no 22 NothingToUndo")
        else:
            self.say("join")
            newer = self.past.pop()
            self.past[-1] = self.past[-1] + newer

    def commit(self):
        if self.group is not None:
            return
        kind = self.choice(["update", "update", "save", "revert"])
        self.say(kind)
        if kind == "revert":
            self.now = self.committed["save"][:]
            self.past, self.future = [], []
            self.committed["update"] = self.now[:]
        for named in ("update", "save") if kind == "save" else [kind] if kind == "update" else []:
            self.committed[named] = self.now[:]

    # All of it

    def fill(self):
        self.say(f"hcreate 7 {self.size}", f"block {ROOT}")
        while self.weight_of_list() < self.weight:
            i, new = self.count(), self.randbytes(MOST_BYTES // self.size * self.size - self.size) if self.size else self.new()
            self.say(f"hinsert {ROOT} {i} {hex_of(new, self.size)}")
            self.change(i, i, new)
        self.say("save")
        self.say("forget 0")
        self.past = []
        self.committed = {"update": self.now[:], "save": self.now[:]}

    def write(self):
        self.fill()
        self.read_all()
        others = [self.turn] * 6 + [self.begin_or_end] * 4 + [self.join] * 2 + [self.refused] * 5
        filled = self.edits
        while self.edits < filled + self.wanted:
            self.edit()
            if self.randrange(6) == 0:
                self.choice(others)()
            if self.randrange(500) == 0:
                self.commit()
            if self.randrange(max(100, self.wanted // 4)) == 0:
                self.read_all()
        if self.group is not None:
            self.begin_or_end()
        self.read_all()
        undone = len(self.past)
        for number in range(undone):
            self.undo()
            if number % 100 == 0:
                self.look(self.place(), 3)
        self.read_all()
        for _ in range(undone):
            self.redo()
        self.read_all()
        return self

    def opened(self):
        """What a file has behind it: the updated array, and then the saved one."""
        again = Script(1, 0)
        again.size = self.size
        for named, line in (("update", None), ("save", "revert")):
            if line:
                again.say(line)
            again.now = self.committed[named]
            again.read_all()
        return again


def hex_of(new, size):
    return (new if size else new[0]).hex() or "-"
