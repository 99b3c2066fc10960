# Needs: python3
"""Dumps random documents, makes them again from their dumps, by `geosvm --new` or by `geosdoc restore`, and compares both documents
byte for byte, and the arrays, which a dump has by their elements. Then one element is added to an array of each kind, which must be
one line more; and `geosdoc restore` refuses a file that is there, and a script with a line that is refused.

    python3 checks/dumped_documents.py GEOSVM GEOSDOC [COUNT] [SEED]

GEOSVM and GEOSDOC are the programs of `crates/geosvm` and `crates/geosdoc`. Files are read here by docs/FORMAT.md alone.
"""
import difflib
import os
import random
import subprocess
import sys
import tempfile

MOST_BLOCKS = 8192
CAPACITY = 65520
NO_TOKEN = 0xFFFF


def word(data, at, size=2):
    return int.from_bytes(data[at:at + size], "little")


def slots_of(data):
    """The open slots: their number, and both directories' extents."""
    slots = []
    for at in (0, 512):
        if data[at:at + 4] == b"GVMF" and data[at + 4] == 1:
            slots.append((word(data, at + 8, 8), data[at:at + 32]))
    return sorted(slots, reverse=True)


def document_at(data, page, length):
    """The map block, and the user ID, type and image of each block under its handle."""
    text = data[512 * page:512 * page + length]
    assert text[:4] == b"GDIR" and len(text) == length
    blocks = {}
    # In version 3 an entry has a sum behind these 16 bytes.
    size_of_entry = 20 if word(text, 4) == 3 else 16
    for i in range(word(text, 6)):
        entry = text[16 + size_of_entry * i:32 + size_of_entry * i]
        at, size = 512 * word(entry, 4, 4), word(entry, 8, 4)
        blocks[word(entry, 0)] = (word(entry, 2), word(entry, 12), data[at:at + size])
    return word(text, 8), blocks


def documents_of(path, which=0):
    """The updated and the saved document of a slot, that of the greatest number first."""
    with open(path, "rb") as file:
        data = file.read()
    slot = slots_of(data)[which][1]
    return [document_at(data, word(slot, at, 4), word(slot, at + 4, 4)) for at in (16, 24)]


class Scripts:
    """Random scripts. Replies aren't read: what is refused changes nothing."""

    def __init__(self, chance):
        self.chance = chance

    def number(self, most):
        return self.chance.choice([0, 1, most, self.chance.randint(0, most), self.chance.randint(0, min(most, 40))])

    def content(self, most):
        size = self.chance.choice([1, 2, 31, 32, 33, 64, self.chance.randint(1, 200), self.chance.randint(1, most)])
        size = max(1, min(size, most))
        kind = self.chance.random()
        if kind < 0.3:
            return bytes(size)
        if kind < 0.6:
            return bytes(self.chance.choice([0] * 60 + [1, 255]) for _ in range(size))
        return self.chance.randbytes(size)

    def edits(self, count, handles):
        lines = []
        for _ in range(count):
            block = "%04x" % self.chance.randint(1, handles)
            chunk = "%04x" % (16 + 2 * self.chance.randint(0, self.chance.choice([3, 10, 60])))
            kind = self.chance.random()
            if kind < 0.1:
                lines.append(f"newraw {self.number(65535)} {self.chance.choice([0, 1, 32, 100, self.number(CAPACITY)])}")
            elif kind < 0.22:
                lines.append(f"newheap {self.number(65535)}")
            elif kind < 0.28:
                lines.append(f"vfree {block}")
            elif kind < 0.31:
                lines.append(f"vcopy {block}")
            elif kind < 0.36:
                lines.append(f"attach {block} {self.content(600).hex()}")
            elif kind < 0.42:
                lines.append(f"vwrite {block} {self.number(90)} {self.content(90).hex()}")
            elif kind < 0.46:
                lines.append(f"uid {block} {self.number(65535)}")
            elif kind < 0.50:
                lines.append(f"settype {block} {self.number(65535)}")
            elif kind < 0.53:
                lines.append(f"map {self.chance.choice([block, block, '0000'])}")
            elif kind < 0.75:
                lines.append(f"alloc {block} {self.chance.choice([0, 0, 1, 33, self.number(300), self.number(CAPACITY)])}")
            elif kind < 0.82:
                lines.append(f"free {block} {chunk}")
            elif kind < 0.86:
                lines.append(f"resize {block} {chunk} {self.number(500)}")
            elif kind < 0.97:
                lines.append(f"write {block} {chunk} {self.number(30)} {self.content(60).hex()}")
            else:
                lines.append(f"ecreate {block} {self.number(9)}")
        return lines

    def full_heap(self, block):
        """A new heap that is filled up, often with many chunks, and holes in its table."""
        count = self.chance.choice([3, 50, 400, 32752 if self.chance.random() < 0.02 else 900])
        size = self.chance.choice([0, 0, CAPACITY // count, 30])
        lines = [f"newheap {self.number(65535)}"]
        lines += [f"alloc {block:04x} {size}"] * count
        lines += [f"alloc {block:04x} {n}" for n in (8000, 2000, 500, 100, 20, 4, 2, 1) for _ in range(9)]
        holes = self.chance.sample(range(count), min(count, self.chance.randint(0, 60)))
        lines += [f"free {block:04x} {16 + 2 * i:04x}" for i in holes]
        lines += [f"write {block:04x} {16 + 2 * self.chance.randint(0, count):04x} 0 {self.content(30).hex()}" for _ in range(9)]
        return lines

    def script(self):
        handles = self.chance.choice([2, 6, 12, 40])
        lines = []
        if self.chance.random() < 0.25:
            lines += self.full_heap(1)
        if self.chance.random() < 0.01:
            lines += ["newraw 3 1"] * self.chance.choice([1000, MOST_BLOCKS])
            handles = MOST_BLOCKS
        for block in range(1, self.chance.randint(0, min(handles, 40)) + 1):
            lines.append(self.chance.choice([f"newheap {self.number(65535)}", f"newheap {block}", f"newraw {block} {self.number(200)}"]))
            lines += [f"alloc {block:04x} {self.number(90)}" for _ in range(self.chance.randint(0, 5))]
        lines += self.edits(self.chance.choice([0, 5, 30, 150]), handles)
        if self.chance.random() < 0.9:
            lines.append(self.chance.choice(["save", "save", "save", "update", "save\nsave"]))
        for _ in range(self.chance.choice([0, 1, 1, 1, 2])):
            lines += self.edits(self.chance.choice([1, 2, 5, 30, 100]), handles)
            lines.append(self.chance.choice(["update", "update", "update", "save", "revert"]))
        return "\n".join(lines) + "\n"


def chunks_of(image):
    """The chunks of a heap's image under their handles, and the bytes that the heap needs."""
    length = word(image, 1)
    at, chunks, need = 3 + 2 * length, {}, 16 + 4 * ((length + 1) // 2)
    for i in range(length):
        size = word(image, 3 + 2 * i)
        if size != 0xFFFF:
            chunks[16 + 2 * i] = image[at:at + size]
            at += size
            need += 4 * ((size + 5) // 4) if size else 0
    assert at == len(image)
    return chunks, need


def chunk_array(data):
    """The extra bytes, the size and the elements; None where the bytes are no chunk array."""
    if len(data) < 8:
        return None
    count, size, zero, start = (word(data, at) for at in (0, 2, 4, 6))
    if zero != 0 or start < 8 or start > len(data):
        return None
    if size:
        if len(data) != start + count * size:
            return None
        return data[8:start], size, [data[start + i * size:start + (i + 1) * size] for i in range(count)]
    if len(data) < start + 2 * count:
        return None
    places = [word(data, start + 2 * i) for i in range(count)] + [len(data)]
    if places[0] != start + 2 * count or any(a > b for a, b in zip(places, places[1:])):
        return None
    return data[8:start], 0, [data[a:b] for a, b in zip(places, places[1:])]


class Arrays(Scripts):
    """Heaps whose chunks are arrays, whole ones and some of which a byte is changed."""

    def array_edit(self, block):
        chance, chunk = self.chance, "%04x" % (16 + 2 * self.chance.randint(0, 5))
        data = chance.randbytes(chance.randint(1, 9)).hex()
        token = chance.randint(0, 4)
        return chance.choice([
            f"acreate {block} {chance.choice([0, 1, 2, 3, 7])} {chance.choice([0, 0, 2, 4, 6])}",
            f"ecreate {block} {chance.choice([0, 1, 4])}",
            f"ncreate {block} {chance.choice([0, 0, 1, 64])}",
            f"eadd {block} {chunk} {data}",
            f"eadd {block} {chunk} {data[:2]}",
            f"edelete {block} {chunk} {token}",
            f"eunref {block} {chunk} {token}",
            f"eref {block} {chunk} {token}",
            f"nadd {block} {chunk} {data} {chance.randbytes(1).hex()} keep",
            f"nadd {block} {chunk} {data} - keep",
            f"nunref {block} {chunk} {token}",
            f"ainsert {block} {chunk} 0 {data}",
            f"ainsert {block} {chunk} {chance.randint(0, 2)} {chance.choice(['-', data[:2], data[:4], data[:6], data[:14]])}",
            f"aset {block} {chunk} {token} {data}",
            f"write {block} {chunk} {chance.choice([8, chance.randint(0, 24)])} {chance.choice(['00', 'ff', '01', data])}",
            f"resize {block} {chunk} {chance.randint(0, 40)}",
            f"alloc {block} {chance.randint(0, 12)}",
            f"settype {block} {chance.randint(0, 3)}",
        ])

    def full_arrays(self, block):
        """A new heap that is filled up with arrays, often with holes in its table."""
        lines, chunk = [f"newheap {self.number(65535)}"], 16
        for _ in range(self.chance.randint(1, 6)):
            size, extra = self.chance.choice([0, 1, 2, 400, 4096]), self.chance.choice([0, 0, 2, 1024])
            made = self.chance.choice(["plain", "plain", "element", "name"])
            front = {
                "plain": f"acreate {block:04x} {size} {extra}",
                "element": f"ecreate {block:04x} {size}",
                "name": f"ncreate {block:04x} 2",
            }[made]
            lines += [front, f"alloc {block:04x} {self.chance.choice([0, 1])}"]
            for most in (8000, 2000, 500, 100, 20, 4, 2, 1):
                for _ in range(self.chance.choice([0, 9, 20])):
                    data = self.chance.randbytes(size or self.chance.randint(most // 2, most)).hex()
                    lines.append({
                        "plain": f"ainsert {block:04x} {chunk:04x} 0 {data or '-'}",
                        "element": f"eadd {block:04x} {chunk:04x} {data or '-'}",
                        "name": f"nadd {block:04x} {chunk:04x} {data[:512]} abcd set",
                    }[made])
            if extra:
                lines.append(f"write {block:04x} {chunk:04x} {7 + extra} {self.chance.choice(['00', '01'])}")
            chunk += 4
        lines += [f"free {block:04x} {at + 2:04x}" for at in range(16, chunk, 4) if self.chance.random() < 0.7]
        return lines

    def script(self):
        lines = [f"newheap {i}" for i in range(self.chance.randint(1, 4))] + ["newraw 9 3"]
        if self.chance.random() < 0.2:
            lines += self.full_arrays(len(lines) + 1)
        for _ in range(self.chance.choice([1, 2, 3])):
            lines += [self.array_edit("%04x" % self.chance.randint(1, 4)) for _ in range(self.chance.randint(0, 60))]
            lines.append(self.chance.choice(["save", "update", "update"]))
        return "\n".join(lines) + "\n"


def used_elements(array, extra):
    """The bytes of the used elements behind their counts; None where the array isn't one of slots with so many extra bytes."""
    more, size, elements = array
    if len(more) != extra or 0 < size < 4:
        return None
    free, used = set(), []
    for token, element in enumerate(elements):
        if len(element) < 3:
            return None
        if element[2] == 0xFF:
            if size == 0 and len(element) != 3 or any(element[3:]):
                return None
            free.add(token)
        elif word(element, 0, 3) == 0:
            return None
        else:
            used.append(element[3:])
    token, met = word(more, 0), set()
    while token != NO_TOKEN:
        if token not in free or token in met:
            return None
        met.add(token)
        token = word(elements[token], 0)
    return used if met == free else None


def is_name_array(array):
    used = used_elements(array, 4)
    if used is None or array[1] != 0:
        return False
    part = word(array[0], 2)
    return part <= 64 and all(part + 1 <= len(element) <= part + 256 for element in used)


def array_lines(block, chunk, data):
    """The lines that make a chunk by the elements of an array; none where its bytes are no array, or one that none can make."""
    array = chunk_array(data)
    if array is None or array[1] > 4096 or len(array[0]) > 1024:
        return []
    extra, size, elements = array
    here, names = f"{block:04x} {chunk:04x}", is_name_array(array)
    used, part = used_elements(array, 4 if names else 2), word(extra, 2) if names else 0
    if used is None or len({element[part:] for element in used}) < len(elements):
        lines = [f"acreate {block:04x} {size} {len(extra)}"] + [f"write {here} 8 {extra.hex()}"] * any(extra)
        return lines + [f"ainsert {here} 0 {element.hex() or '-'}" for element in reversed(elements)]
    lines = [f"ncreate {block:04x} {part}" if names else f"ecreate {block:04x} {max(size - 3, 0)}"]
    for token, (element, data) in enumerate(zip(elements, used)):
        if names:
            lines.append(f"nadd {here} {data[part:].hex()} {data[:part].hex() or '-'} keep")
        else:
            lines.append(f"eadd {here} {data.hex() or '-'}")
        if word(element, 0, 3) != 1:
            lines.append(f"aset {here} {token} {element.hex()}")
    return lines


def look_at_arrays(saved, document):
    """That the saved document's dump has its arrays by their elements, and no line of other bytes that is long; how many arrays."""
    rest, count = saved, 0
    for block, (_, _, image) in sorted(document[1].items()):
        for chunk, data in chunks_of(image)[0].items() if image[0] == 1 else ():
            lines = array_lines(block, chunk, data)
            if lines:
                front, found, rest = rest.partition("".join(line + "\n" for line in lines))
                assert found, ("an array isn't told by its elements", lines[:3])
                look_at_others(front)
                count += 1
    look_at_others(rest)
    return count


def look_at_others(script):
    assert not any(line[1:7] in ("create", "insert") for line in script.splitlines()), "more arrays than there are"
    assert max(map(len, script.splitlines()), default=0) <= 96, "a long line"


def run(words, text=None):
    done = subprocess.run(words, input=text, stdout=subprocess.PIPE, stderr=subprocess.PIPE, text=True)
    assert done.returncode == 0, (words, done.returncode, done.stderr)
    return done.stdout


def make(geosvm, geosdoc, restores, path, script):
    """Makes a document anew by a dump."""
    if restores:
        if os.path.exists(path):
            os.remove(path)
        assert run([geosdoc, "restore", path], script) == "", "a restore tells nothing"
        return
    replies = run([geosvm, "--new", path], script)
    assert len(replies.splitlines()) == len(script.splitlines()), "a line without a reply"
    assert "no " not in replies, "refused"


def try_other(geosvm, geosdoc, restores, first, again):
    """Dumps what the other slot leads to, if it still leads to documents; whether it does."""
    try:
        wanted = documents_of(first, 1)
    except (AssertionError, IndexError):
        wanted = None
    done = subprocess.run([geosdoc, "dump", "--other", first], stdout=subprocess.PIPE, stderr=subprocess.PIPE, text=True)
    if done.returncode != 0:
        assert "the other slot doesn't open" in done.stderr, done.stderr
        return False
    assert wanted is not None, "a slot that isn't open was dumped"
    make(geosvm, geosdoc, restores, again, done.stdout)
    assert documents_of(again) == wanted, "other documents than the other slot's"
    return True


def try_one(geosvm, geosdoc, folder, seed):
    """One random document; how many lines its dump has, whether it has another updated one, whether its other slot opens, and its arrays."""
    first, again = os.path.join(folder, "first"), os.path.join(folder, "again")
    restores = seed % 2 == 1
    run([geosvm, "--new", first], (Arrays if seed % 4 < 2 else Scripts)(random.Random(seed)).script())
    wanted = documents_of(first)
    with open(first, "rb") as file:
        before = file.read()
    script = run([geosdoc, "dump", first])
    with open(first, "rb") as file:
        assert file.read() == before, "the dump wrote to the file"
    make(geosvm, geosdoc, restores, again, script)
    assert documents_of(again) == wanted, ("another document", seed)
    assert run([geosdoc, "dump", again]) == script, ("another dump", seed)
    assert script.count("update") == (wanted[0] != wanted[1]), ("an update", seed)
    saved = run([geosdoc, "dump", "--saved", first])
    assert script.startswith(saved)
    arrays = look_at_arrays(saved, wanted[1])
    make(geosvm, geosdoc, restores, again, saved)
    assert documents_of(again) == [wanted[1], wanted[1]], ("another saved document", seed)
    return len(script.splitlines()), wanted[0] != wanted[1], try_other(geosvm, geosdoc, restores, first, again), arrays


# An array with a hundred elements, and what adds one.
GROWING = {
    "a chunk array": ("acreate 0001 0 0", "ainsert 0001 0010 {place} {hex}"),
    "a chunk array with elements of two bytes": ("acreate 0001 2 3", "ainsert 0001 0010 {place} {hex4}"),
    "an element array": ("ecreate 0001 0", "eadd 0001 0010 {hex}"),
    "a name array": ("ncreate 0001 2", "nadd 0001 0010 {hex} {hex4} keep"),
}


# In these, what is there has one reference more.
COUNTING = ("an element array", "a name array")


def grown(geosvm, geosdoc, path, kind, numbers):
    """The dump of a document with an array to which these are added, each number in order of the numbers."""
    front, add = GROWING[kind]
    lines, places = ["newheap 0", front, "alloc 0001 1"], []
    for number in numbers:
        place = sum(other < number for other in places)
        places.append(number)
        line = add.format(place=place, hex=(b"Name %d" % number).hex(), hex4="%04x" % number)
        lines += [line] * (2 if number % 4 == 0 and kind in COUNTING else 1)
    run([geosvm, "--new", path], "\n".join(lines + ["save", ""]))
    return run([geosdoc, "dump", path]).splitlines()


def try_one_more(geosvm, geosdoc, folder):
    """One element more in an array of a hundred, at its front, amid the others or at its end: one line more."""
    path = os.path.join(folder, "grown")
    for kind in GROWING:
        before = grown(geosvm, geosdoc, path, kind, range(10, 210, 2))
        for number in (1, 11, 107, 211):
            after = grown(geosvm, geosdoc, path, kind, [*range(10, 210, 2), number])
            differs = [line for line in difflib.ndiff(before, after) if line[0] in "+-"]
            assert len(differs) == 1 and differs[0].startswith("+ "), (kind, number, differs)


def restore_refused(geosdoc, path, script):
    """Why a restore refuses, and the bytes of the file afterwards."""
    done = subprocess.run([geosdoc, "restore", path], input=script, stdout=subprocess.PIPE, stderr=subprocess.PIPE, text=True)
    assert done.returncode == 1 and done.stdout == "", (done.returncode, done.stdout)
    front = f"geosdoc: {path}: "
    assert done.stderr.startswith(front) and done.stderr.endswith("\n"), done.stderr
    with open(path, "rb") as file:
        return done.stderr[len(front):-1], file.read()


def try_refused(geosvm, geosdoc, folder):
    """A file that is there, a document and an empty one; and a script whose line behind a commit is refused."""
    there, half = os.path.join(folder, "there"), os.path.join(folder, "half")
    script = "newraw 7 20\nsave\n"
    run([geosvm, "--new", there], script)
    with open(there, "rb") as file:
        before = file.read()
    assert restore_refused(geosdoc, there, "newraw 9 90\nsave\n") == ("it is there already", before)
    with open(half, "wb"):
        pass
    assert restore_refused(geosdoc, half, script) == ("it is there already", b"")
    os.remove(half)
    told, _ = restore_refused(geosdoc, half, script + "newraw 9 1\nvfree 0009\nsave\n")
    assert told == "line 4 of the script is refused: no 5 NoBlock", told
    assert documents_of(half) == documents_of(there), "another document than the one that was committed"


def main():
    geosvm, geosdoc = map(os.path.abspath, sys.argv[1:3])
    count = int(sys.argv[3]) if len(sys.argv) > 3 else 1000
    start = int(sys.argv[4]) if len(sys.argv) > 4 else 1
    lines = changed = others = arrays = failed = 0
    with tempfile.TemporaryDirectory() as folder:
        for seed in range(start, start + count):
            try:
                done = try_one(geosvm, geosdoc, folder, seed)
                lines, changed, others, arrays = (a + b for a, b in zip((lines, changed, others, arrays), done))
            except AssertionError as wrong:
                failed += 1
                print(f"FAILED  the document of seed {seed}: {wrong}")
        for name, tried in (("one element more", try_one_more), ("what a restore refuses", try_refused)):
            try:
                tried(geosvm, geosdoc, folder)
            except AssertionError as wrong:
                failed += 1
                print(f"FAILED  {name}: {wrong}")
    print(f"        {count} documents, {changed} of them with another updated one, {others} with another slot that opens; {lines} lines, {arrays} arrays")
    print(f"{count + 2 - failed} passed, {failed} failed")
    sys.exit(failed != 0)


if __name__ == "__main__":
    main()
