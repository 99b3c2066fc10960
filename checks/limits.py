# Needs: python3
"""Runs that are ten times as long, and files ten times as large, as those that the tests of the crates try. Each reply is looked at.

    python3 checks/limits.py GEOSVM GEOSDOC [--long] [NAME..]

Each commit waits for the disk, so there are fewer of them but for `--long`.
"""
import itertools
import json
import os
import random
import subprocess
import sys
import tempfile
import time

from large_array import ROOM, Root, branch_bytes, root_bytes

COMMITS = 10_000 if "--long" in sys.argv else 2_000
STEPS = 327_520
GROUP = 20_000
SMALL_STEPS = 100_000
LIMITED = 10_000_000 if "--long" in sys.argv else 100_000
LIMIT = 1000
JOINED = 100_000
BLOCKS = 660
BLOCK_BYTES = 65_520
READS = 80
LONGEST_LINE = 140_000
LONGEST_ELEMENT = 65_508
# Large arrays: the bytes of an element, 0 where sizes vary, and how many elements there are.
ARRAYS = [(1, 1_000_000), (40, 20_000), (4096, 300), (0, 60)]
MOST_BLOCKS = 8192
# The places of the edits of a group, and of those that are joined.
RAW_RUN, CHUNK_RUN = " run 0001 0000 0 4 4", " run 0002 0010 0 4 4"


class Script:
    """The lines of a script with the replies that are right."""

    def __init__(self):
        self.lines, self.replies = [], []

    def ask(self, line, reply="ok"):
        self.lines.append(line)
        self.replies.append(reply)

    def undo_all(self, values, names):
        """Undoes as many steps as there are values, each the one that an undo gives back, and looks at one of a thousand, and at its name."""
        for number, (value, name) in enumerate(zip(values, names)):
            self.ask("undo")
            if number % 1000 == 0 or number == len(values) - 1:
                self.ask("vread 0001", f"bytes {value}")
                self.ask("redoname", f"bytes {name}")

    def run(self, program, *words):
        done = subprocess.run([program, *words], input="\n".join(self.lines) + "\n", stdout=subprocess.PIPE, stderr=subprocess.PIPE, text=True)
        assert done.returncode == 0 and done.stderr == "", (done.returncode, done.stderr)
        replies = done.stdout.splitlines()
        for number, (got, wanted) in enumerate(zip(replies, self.replies)):
            assert got == wanted, f"line {number + 1}, {self.lines[number][:60]}, is answered {shown(got)} and not {shown(wanted)}"
        assert len(replies) == len(self.replies), f"{len(replies)} replies to {len(self.replies)} lines"


def shown(reply):
    """The front of a reply, and how many words it has: replies of many places begin alike."""
    return f"{reply[:60]}, of {len(reply.split())} words,"


def word(number):
    return f"{number:08x}"


def many_commits(geosvm, geosdoc, path):
    """Commits of one session, of each kind, and the documents of the last one. The file doesn't grow with them."""
    script = Script()
    script.ask("newraw 7 4", "block 0001")
    for number in range(1, COMMITS + 1):
        script.ask(f"vwrite 0001 0 {word(number)}")
        script.ask(["save", "update", "save", "update"][number % 4])
    script.ask("revert")
    script.ask("vread 0001", f"bytes {word(COMMITS - COMMITS % 2)}")
    script.run(geosvm, "--new", path)
    assert os.path.getsize(path) < 8_000, f"{os.path.getsize(path)} bytes"
    opened = Script()
    opened.ask("vread 0001", f"bytes {word(COMMITS - COMMITS % 2)}")
    opened.run(geosvm, path)
    return f"{COMMITS} commits"


def many_steps(geosvm, geosdoc, path):
    """Edits, each a step with a name, all of them undone."""
    script = Script()
    script.ask("newraw 7 4", "block 0001")
    for number in range(1, STEPS + 1):
        script.ask(f"vwrite 0001 0 {word(number)}")
        script.ask(f"name {word(number)}")
    script.ask("undos", f"number {STEPS + 1}")
    script.undo_all([word(number) for number in range(STEPS - 1, -1, -1)], [word(number) for number in range(STEPS, 0, -1)])
    script.ask("redos", f"number {STEPS}")
    script.ask("undo")
    script.ask("list", "blocks")
    began = time.monotonic()
    script.run(geosvm, "--new", path)
    # A look at the names of other steps would take the square of that.
    assert time.monotonic() - began < 60, f"{time.monotonic() - began:.0f} s for {STEPS} steps"
    return f"{STEPS + 1} steps undone"


def steps_within_limit(count):
    """The lines of so many steps, of which the newest are kept, and their replies: all of these are undone and made again. Each other one
    has a name, or is a group."""
    yield "newraw 7 32", "block 0001"
    for number in range(1, count + 1):
        if number % 10 == 0:
            yield from [("begin", "ok"), (f"vwrite 0001 0 {word(0) * 8}", "ok")]
        yield f"vwrite 0001 0 {word(number) * 8}", "ok"
        if number % 10 == 0:
            yield "end", "ok"
        if number % 2 == 0:
            yield from [(f"name {word(0) * 16}", "ok"), (f"name {word(number) * 16}", "ok")]
    yield "undos", f"number {LIMIT}"
    for number in range(count, count - LIMIT, -1):
        name = "-" if number % 2 else word(number) * 16
        yield from [("undo", "ok"), ("vread 0001", f"bytes {word(number - 1) * 8}"), ("redoname", f"bytes {name}")]
    yield from [("undo", "no 22 NothingToUndo"), ("redos", f"number {LIMIT}")]
    yield from [("redo", "ok")] * LIMIT
    yield "vread 0001", f"bytes {word(count) * 8}"


def most_memory(geosvm, path, count):
    """The kB that a run of so many steps had at most."""
    return memory_of([geosvm, "--new", "--undo", str(LIMIT), path], steps_within_limit(count))


def memory_of(words, lines):
    """The kB that a run had at most, of lines that come with their replies."""
    with subprocess.Popen(words, stdin=subprocess.PIPE, stdout=subprocess.PIPE, text=True) as program:
        while some := list(itertools.islice(lines, 200)):
            program.stdin.write("".join(line + "\n" for line, _ in some))
            program.stdin.flush()
            for line, wanted in some:
                got = program.stdout.readline()
                assert got == wanted + "\n", f"{line[:60]} is answered {got[:60]} and not {wanted[:60]}"
        # What is told of a process that has ended counts in what the one had that started it.
        with open(f"/proc/{program.pid}/status", encoding="ascii") as status:
            most = next(int(line.split()[1]) for line in status if line.startswith("VmHWM:"))
        program.stdin.close()
        assert program.wait(60) == 0 and program.stdout.read() == "", "a run ends otherwise"
    return most


def limited_steps(geosvm, geosdoc, path):
    """Of any number of steps no more are kept than the limit says, and they take no more memory than a few more do."""
    few, many = most_memory(geosvm, path, 3 * LIMIT), most_memory(geosvm, path, LIMITED)
    # Each step has 64 bytes of content, before and behind, beside what is kept of it: 100,000 of them take 6,400 kB at least, half of which
    # have a name. So many names of 64 bytes that stand no more take 3,200 at least, and those that were given in their place as many.
    assert many < few + 2000, f"{many} kB, and {few} for {3 * LIMIT} steps"
    return f"{LIMITED} steps of which {LIMIT} are kept, in {many} kB, and {3 * LIMIT} in {few}"


def steps_of(count, size):
    """The lines of so many steps, each a write of so many bytes, and their replies."""
    yield from [("newheap 0", "block 0001"), ("alloc 0001 256", "chunk 0010")]
    for number in range(count):
        yield f"write 0001 0010 {number % 128} {number % 256:02x}{'5a' * (size - 1)}", "ok"


def small_steps(geosvm, geosdoc, path):
    """A step takes little memory beside its content, which is the bytes before and behind."""
    told = []
    for size, most in ((1, 24), (64, 160)):
        few, many = (memory_of([geosvm, "--new", path], steps_of(count, size)) for count in (1_000, 1_000 + SMALL_STEPS))
        taken = 1024 * (many - few) / SMALL_STEPS
        assert taken < most, f"{taken:.0f} bytes a step that writes {size}"
        told.append(f"{taken:.0f} bytes a step that writes {size}")
    return ", ".join(told)


def sized_steps(geosvm, geosdoc, path):
    """Steps of contents of all sizes, the largest among them, are undone and made again as they are, with a name, and joined."""
    script = Script()
    script.ask("newraw 7 65520", "block 0001")
    sizes = [1, 12, 13, 127, 128, 129, 32_759, 32_760, 32_767, 32_768, 65_520]
    for size in sizes:
        before, first, second = (f"{byte:02x}" * size for byte in (0, size % 251 + 1, size % 241 + 2))
        shown = ("vread 0001", lambda part: f"bytes {part}{'00' * (65_520 - size)}")
        for named in (False, True):
            script.ask(f"vwrite 0001 0 {first}")
            if named:
                script.ask("name 6f6e65")
            script.ask("undo")
            script.ask("redo")
            script.ask(shown[0], shown[1](first))
            script.ask(f"vwrite 0001 0 {second}")
            script.ask("join")
            script.ask("undoname", "bytes 6f6e65" if named else "bytes -")
            script.ask("undo")
            script.ask(shown[0], shown[1](before))
            script.ask("redo")
            script.ask(shown[0], shown[1](second))
            script.ask("undo")
    script.run(geosvm, "--new", path)
    return f"steps of up to {2 * sizes[-1]} bytes of content"


def joined_steps(geosvm, geosdoc, path):
    """Edits that are joined to the step before, each when it comes, so that they are one step. What it changes is told in whole."""
    script = Script()
    script.ask("newraw 7 4", "block 0001")
    script.ask("newheap 7", "block 0002")
    script.ask("alloc 0002 4", "chunk 0010")
    for number in range(1, JOINED // 2 + 1):
        script.ask(f"vwrite 0001 0 {word(number)}")
        if number > 1:
            script.ask("join")
        script.ask(f"write 0002 0010 0 {word(number)}")
        script.ask("join")
        script.ask(f"name {word(number)}")
    script.ask("undos", "number 4")
    script.ask("undoname", f"bytes {word(JOINED // 2)}")
    script.ask("touched", "places" + CHUNK_RUN)
    made, undone, alloc = JOINED // 2 * (RAW_RUN + CHUNK_RUN), JOINED // 2 * (CHUNK_RUN + RAW_RUN), " chunk 0002 0010"
    last = JOINED // 2
    turns = [("undo", 0, undone), ("redo", last, made), ("join", last, made), ("undo", None, undone + alloc), ("redo", last, alloc + made)]
    for turn, value, places in turns:
        script.ask(turn)
        script.ask("touched", "places" + places)
        script.ask("vread 0001", f"bytes {word(value or 0)}")
        script.ask("read 0002 0010", "no 6 NoChunk" if value is None else f"bytes {word(value)}")
    began = time.monotonic()
    script.run(geosvm, "--new", path)
    # A join that went over the older step again would take the square of that.
    assert time.monotonic() - began < 60, f"{time.monotonic() - began:.0f} s for {JOINED} joins"
    return f"{JOINED} edits in one step"


def large_groups(geosvm, geosdoc, path):
    """A group that is undone, made again and undone, and one that is abandoned. Each tells a place for each of its edits, in order."""
    script = Script()
    script.ask("newraw 7 4", "block 0001")
    script.ask("newheap 7", "block 0002")
    script.ask("alloc 0002 4", "chunk 0010")
    made, undone = "places" + GROUP // 2 * (RAW_RUN + CHUNK_RUN), "places" + GROUP // 2 * (CHUNK_RUN + RAW_RUN)
    for ending in ("end", "abandon"):
        script.ask("begin")
        for number in range(1, GROUP // 2 + 1):
            script.ask(f"vwrite 0001 0 {word(number)}")
            script.ask(f"write 0002 0010 0 {word(number)}")
        turns = [("undo", 0, undone), ("redo", GROUP // 2, made), ("undo", 0, undone)] if ending == "end" else [("abandon", 0, undone)]
        if ending == "end":
            script.ask("end")
        # The answer is still that of the last edit.
        script.ask("touched", "places" + CHUNK_RUN)
        for turn, value, places in turns:
            script.ask(turn + "places", places)
            script.ask(turn)
            script.ask("touched", places)
            script.ask("vread 0001", f"bytes {word(value)}")
            script.ask("read 0002 0010", f"bytes {word(value)}")
    script.ask("undos", "number 3")
    script.run(geosvm, "--new", path)
    return f"groups of {GROUP} edits"


def block_bytes(number):
    """What a block of the large file has at its front and at its end, between zeros."""
    return word(number) * 4


def large_file(geosvm, geosdoc, path):
    """A file of 43 MB: it is made, opened, looked at in each way, and made again of its dump."""
    script = Script()
    for number in range(1, BLOCKS + 1):
        script.ask(f"newraw {number} {BLOCK_BYTES}", f"block {number:04x}")
        script.ask(f"vwrite {number:04x} 0 {block_bytes(number)}")
        script.ask(f"vwrite {number:04x} {BLOCK_BYTES - 16} {block_bytes(number)}")
    script.ask("save")
    script.run(geosvm, "--new", path)
    length = os.path.getsize(path)
    assert length > BLOCKS * BLOCK_BYTES, f"{length} bytes"
    opened = Script()
    for number in range(1, BLOCKS + 1, 13):
        front = block_bytes(number)
        opened.ask(f"vread {number:04x}", "bytes " + front + "00" * (BLOCK_BYTES - 32) + front)
    opened.run(geosvm, path)
    looked(geosdoc, "check", path, lambda text: text.startswith(f"opens: yes\nlength: {length} bytes\n"))
    stat = json.loads(looked(geosdoc, "stat", "--json", path))
    raw = stat["updated"]["raw_blocks"]
    assert (stat["bytes"], raw["count"], raw["bytes"]) == (length, BLOCKS, BLOCKS * BLOCK_BYTES), stat
    looked(geosdoc, "stat", path, lambda text: f" {BLOCKS * BLOCK_BYTES}   " in text)
    looked(geosdoc, "map", path)
    looked(geosdoc, "map", "--svg", path, lambda text: text.rstrip().endswith("</svg>"))
    dumped = looked(geosdoc, "dump", path)
    again = path + ".again"
    subprocess.run([geosdoc, "restore", again], input=dumped, text=True, check=True)
    counted = json.loads(looked(geosdoc, "stat", "--json", again))["updated"]
    assert counted == stat["updated"], "another document is made again"
    opened.run(geosvm, again)
    os.remove(again)
    return f"a file of {length} bytes"


def looked(geosdoc, *words, holds=None):
    *words, holds = words if callable(words[-1]) else (*words, holds)
    done = subprocess.run([geosdoc, *words], stdout=subprocess.PIPE, stderr=subprocess.PIPE, text=True)
    assert done.returncode == 0 and done.stderr == "", (words, done.returncode, done.stderr)
    assert done.stdout and (holds is None or holds(done.stdout)), (words, done.stdout[:300])
    return done.stdout


def long_replies(geosvm, geosdoc, path):
    """The replies to the lines of one read are 10 MB."""
    script = Script()
    script.ask(f"newraw 7 {BLOCK_BYTES}", "block 0001")
    script.ask("vwrite 0001 100 616263")
    for _ in range(READS):
        script.ask("vread 0001", "bytes " + "00" * 100 + "616263" + "00" * (BLOCK_BYTES - 103))
    script.run(geosvm, "--new", path)
    return f"{sum(map(len, script.replies))} bytes of replies to one read"


class Array:
    """A large array of a script, and a plain list of its elements."""

    def __init__(self, script, b, size):
        self.script, self.b, self.size, self.elements, self.counts = script, f"{b:04x}", size, [], []
        self.chance = random.Random(size)
        script.ask(f"hcreate 7 {size}", f"block {self.b}")

    def new(self, k, count):
        """Any elements from k on. Where sizes vary they are as long as they can be, short, or anything between."""
        lengths = [LONGEST_ELEMENT, 3, 0, LONGEST_ELEMENT - 1, 40_000, 12, 9_000 + k]
        return [self.chance.randbytes(self.size or lengths[at % len(lengths)]) for at in range(k, k + count)]

    def fill(self, count):
        """By lines that are about as long as there can be, where elements have one size, and one by one where they vary."""
        most = (LONGEST_LINE - 30) // 2 // self.size if self.size else 1
        while len(self.elements) < count:
            self.counts.append(len(self.elements))
            new = self.new(len(self.elements), min(most, count - len(self.elements)))
            self.script.ask(f"hinsert {self.b} {len(self.elements)} {b''.join(new).hex() or '-'}")
            self.elements += new

    def read_all(self):
        self.script.ask(f"hcount {self.b}", f"number {len(self.elements)}")
        step = BLOCK_BYTES // self.size if self.size else 1
        for i in range(0, len(self.elements), step):
            some = self.elements[i:i + step]
            line = f"hread {self.b} {i} {len(some)}" if self.size else f"hget {self.b} {i}"
            self.script.ask(line, f"bytes {b''.join(some).hex() or '-'}")

    def refuse(self):
        """Numbers of nine digits, and what is one more than there can be."""
        b, count, element = self.b, len(self.elements), "61" * (self.size or 1)
        for i in (count, 999_999_998):
            for line in (f"hget {b} {i}", f"hset {b} {i} {element}", f"hread {b} {i} 1", f"hread {b} 0 {i + 1}", f"hdelete {b} {i} 1",
                         f"hdelete {b} {i} {i}", f"hdelete {b} 0 {i + 1}"):
                self.script.ask(line, "no 13 NoElement")
            self.script.ask(f"hinsert {b} {i + 1} {element}", "no 11 Range")
        self.script.ask(f"hget {b} 1000000000", "no 25 BadCommand")
        self.script.ask(f"hread {b} 0 {BLOCK_BYTES // self.size + 1 if self.size else 1}", "no 11 Range")
        if self.size > 1:
            self.script.ask(f"hinsert {b} 0 {element}61", "no 11 Range")
        if self.size == 0:
            self.script.ask(f"hinsert {b} 0 {'61' * (LONGEST_ELEMENT + 1)}", "no 9 TooBig")

    def insert_longest(self):
        """A line of just as many bytes as there can be, and one of one more."""
        i = len(self.elements) // 2
        line = f"hinsert {self.b} {i} "
        n = (LONGEST_LINE - len(line)) // 2 // self.size if self.size else 1
        line = (line + "61" * (n * (self.size or LONGEST_ELEMENT))).ljust(LONGEST_LINE)
        self.script.ask(line + " ", "no 25 BadCommand")
        self.script.ask(line)
        self.elements[i:i] = [b"a" * (self.size or LONGEST_ELEMENT)] * n
        self.read_all()
        del self.elements[i:i + n]
        self.script.ask("undo")
        self.read_all()

    def delete_all(self):
        self.script.ask(f"hdelete {self.b} 0 {len(self.elements)}")
        self.script.ask(f"hcount {self.b}", "number 0")
        self.script.ask("undo")
        self.read_all()


def large_arrays(geosvm, geosdoc, path):
    """Large arrays of more than ten times what a block has: filled, asked for what they haven't, edited by the longest lines, and emptied at
    once. Each step is undone and made again."""
    script = Script()
    arrays = [Array(script, 2 * number + 1, size) for number, (size, _) in enumerate(ARRAYS)]
    for array, (_, count) in zip(arrays, ARRAYS):
        array.fill(count)
        assert sum(map(len, array.elements)) > 10 * BLOCK_BYTES
    for array in arrays:
        array.read_all()
        array.refuse()
        array.insert_longest()
        array.delete_all()
    steps = sum(len(array.counts) for array in arrays)
    script.ask("undos", f"number {steps + len(arrays)}")
    for array in reversed(arrays):
        for count in reversed(array.counts):
            script.ask("undo")
            script.ask(f"hcount {array.b}", f"number {count}")
    for _ in range(steps):
        script.ask("redo")
    script.ask("save")
    opened = Script()
    for array in arrays:
        array.read_all()
        array.script = opened
        array.read_all()
    script.run(geosvm, "--new", path)
    opened.run(geosvm, path)
    return f"{sum(sum(map(len, array.elements)) for array in arrays)} bytes in {len(arrays)} large arrays"


def all_handles(geosvm, geosdoc, path):
    """A large array that has each handle: nothing is put in where that takes one more, and all of it is set, and deleted at once."""
    branches, script = MOST_BLOCKS - 1, Script()
    script.ask("newraw 7 0", "block 0001")
    for b in range(2, MOST_BLOCKS + 1):
        script.ask("newraw 0 0", f"block {b:04x}")
        script.ask(f"attach {b:04x} {branch_bytes(1, bytes([b % 256])).hex()}")
    root = Root(1, (1,) * branches, tuple(range(2, MOST_BLOCKS + 1)))
    script.ask(f"attach 0001 {root_bytes(root).hex()}")
    script.ask("save")
    script.ask("forget 0")
    was = "bytes " + bytes(b % 256 for b in range(2, MOST_BLOCKS + 1)).hex()
    full = "61" * ROOM
    script.ask("hcreate 7 1", "no 10 NoHandles")
    script.ask(f"hinsert 0001 {branches} {full}", "no 10 NoHandles")
    script.ask(f"hread 0001 0 {branches}", was)
    # The two neighbours of the one that goes become one, so that two handles are free.
    script.ask("hdelete 0001 4000 1")
    for number, reply in enumerate(["ok", "ok", "no 10 NoHandles"]):
        script.ask(f"hinsert 0001 {branches - 1 + number * ROOM} {full}", reply)
    script.ask("hcount 0001", f"number {branches - 1 + 2 * ROOM}")
    for _ in range(3):
        script.ask("undo")
    script.ask(f"hread 0001 0 {branches}", was)
    script.ask(f"hset 0001 0 {'62' * branches}")
    script.ask(f"hread 0001 0 {branches}", "bytes " + "62" * branches)
    script.ask(f"hdelete 0001 0 {branches}")
    script.ask("list", "blocks 0001 0002")
    script.ask("undo")
    script.ask("undo")
    script.ask(f"hread 0001 0 {branches}", was)
    script.run(geosvm, "--new", path)
    return f"{branches} branches"


def largest_array(geosvm, geosdoc, path):
    """A large array of as many bytes as there can be, each branch full. It is emptied at once, and given back."""
    branches, rest = MOST_BLOCKS - 1, "62" * (ROOM - 4)
    total = branches * ROOM

    def lines():
        yield "hcreate 7 1", "block 0001"
        for number in range(branches):
            yield f"hinsert 0001 {number * ROOM} {word(number)}{rest}", "ok"
        yield f"hinsert 0001 {total} 61", "no 10 NoHandles"
        for turn in ("save", f"hdelete 0001 0 {total}", "undo"):
            yield turn, "ok"
            yield "hcount 0001", f"number {0 if turn[0] == 'h' else total}"
            if turn[0] != "h":
                yield f"hget 0001 {total - 1}", "bytes 62"
                yield f"hget 0001 {total}", "no 13 NoElement"
                for number in range(0, branches, 90):
                    yield f"hread 0001 {number * ROOM} 5", f"bytes {word(number)}62"
                yield f"hread 0001 {total - BLOCK_BYTES} {BLOCK_BYTES}", f"bytes {'62' * 10}{word(branches - 1)}{rest}"
    most = memory_of([geosvm, "--new", "--undo", "1", path], lines())
    return f"{total} bytes, in {most} kB of memory"


TRIED = {it.__name__: it for it in (many_commits, many_steps, limited_steps, small_steps, sized_steps, joined_steps, large_groups, large_file, long_replies,
                                    large_arrays, all_handles, largest_array)}
LONG_ALONE = ["largest_array"]


def main():
    geosvm, geosdoc, *names = [word for word in sys.argv[1:] if word != "--long"]
    geosvm, geosdoc = map(os.path.abspath, (geosvm, geosdoc))
    passed = failed = 0
    for name in names or [name for name in TRIED if "--long" in sys.argv or name not in LONG_ALONE]:
        began = time.monotonic()
        with tempfile.TemporaryDirectory() as folder:
            try:
                said = TRIED[name](geosvm, geosdoc, os.path.join(folder, "document"))
                print(f"ok      {name}: {said}, in {time.monotonic() - began:.0f} s", flush=True)
                passed += 1
            except (AssertionError, subprocess.CalledProcessError) as wrong:
                print(f"FAILED  {name}: {wrong}", flush=True)
                failed += 1
    print(f"{passed} passed, {failed} failed")
    sys.exit(failed != 0)


if __name__ == "__main__":
    main()
