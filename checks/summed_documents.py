# Needs: python3
"""Makes documents of version 3 of documents of version 2, opens them, edits and saves them, and damages them: each damage must be told, or
change nothing. Blocks whose sum is wrong must be left out of a salvage, and be in it with `--all`; a line of it tells where the sum of the
directory is wrong.

    python3 checks/summed_documents.py GEOSVM GEOSDOC [COUNT] [SEED]

GEOSVM and GEOSDOC are the programs of `crates/geosvm` and `crates/geosdoc`. Files are read and written here by docs/FORMAT.md alone. Of
each document a sample of bits, bytes, cuts and pages is changed.
"""
import os
import random
import subprocess
import sys
import tempfile

from dumped_documents import run, slots_of, word
from salvaged import compare, salvage, script_of

PAGE = 512


def crc32c(data):
    """The CRC-32C (Castagnoli) of bytes, bit by bit by its definition."""
    register = 0xFFFFFFFF
    for byte in data:
        register ^= byte
        for _ in range(8):
            register = register >> 1 ^ (0x82F63B78 if register & 1 else 0)
    return register ^ 0xFFFFFFFF


def little(number, size):
    return number.to_bytes(size, "little")


def entries_of(directory, size):
    """The entries of a directory's text, of so many bytes each."""
    return [directory[at:at + size] for at in range(16, len(directory), size)]


class Summed:
    """A file of version 3: the images of a document of version 2 where they are, its directories behind them, and slot 0."""

    def __init__(self, old):
        self.data = bytearray(old + b"\0" * (-len(old) % PAGE))
        number, slot = max(slots_of(old))
        extents = [self.add(old, word(slot, at, 4), word(slot, at + 4, 4)) for at in (16, 24)]
        sums = [crc32c(text) for _, text in extents]
        sealed = bytes([3, 0, 0]) + little(number + 1, 8)
        for page, text in extents:
            sealed += little(page, 4) + little(len(text), 4)
        sealed += little(sums[0], 4) + little(sums[1], 4)
        other = 512 if old[:32] == slot else 0
        self.data[other:other + 44] = b"GVMF\1" + sealed + little(crc32c(sealed), 4)

    def add(self, old, page, size):
        """A directory of version 2 as one of version 3, behind all that there is."""
        directory = old[PAGE * page:PAGE * page + size]
        text = b"GDIR" + little(3, 2) + directory[6:16]
        for entry in entries_of(directory, 16):
            start, length = PAGE * word(entry, 4, 4), word(entry, 8, 4)
            text += entry + little(crc32c(old[start:start + length]), 4)
        at = len(self.data) // PAGE
        self.data += text + b"\0" * (-len(text) % PAGE)
        return at, text


def dump(geosdoc, path, *flags):
    done = subprocess.run([geosdoc, "dump", *flags, path], capture_output=True)
    return done.stdout if done.returncode == 0 else None


def is_summed(data):
    """The slot that counts is of version 3, and all of its sums are right."""
    number, slot = max(slots_of(data))
    at = 0 if data[:32] == slot else 512
    text = data[at:at + 44]
    if text[5] != 3 or crc32c(text[5:40]) != word(text, 40, 4):
        return False
    for extent, sum_at in ((16, 32), (24, 36)):
        start, size = PAGE * word(text, extent, 4), word(text, extent + 4, 4)
        directory = data[start:start + size]
        if crc32c(directory) != word(text, sum_at, 4) or word(directory, 4) != 3:
            return False
        for entry in entries_of(directory, 20):
            start, size = PAGE * word(entry, 4, 4), word(entry, 8, 4)
            if crc32c(data[start:start + size]) != word(entry, 16, 4):
                return False
    return True


def listed(data):
    """The map block and the entries of the updated document: of each its place, and where its image stands."""
    slot = max(slots_of(data))[1]
    start, size = PAGE * word(slot, 16, 4), word(slot, 20, 4)
    entries = [(at, PAGE * word(data, at + 4, 4), word(data, at + 8, 4)) for at in range(start + 16, start + size, 20)]
    return word(data, start + 8), entries


def has_directory_sum(data):
    """The directory of the updated document has the sum that its slot gives."""
    slot = max(slots_of(data))[1]
    at = 0 if data[:32] == slot else 512
    start, size = PAGE * word(slot, 16, 4), word(slot, 20, 4)
    return crc32c(data[start:start + size]) == word(data, at + 32, 4)


def document_without(data, handles):
    """The updated document but for the blocks of these handles."""
    map_block, entries = listed(data)
    blocks = {word(data, at): (word(data, at + 2), word(data, at + 12), data[start:start + size]) for at, start, size in entries}
    blocks = {handle: block for handle, block in blocks.items() if handle not in handles}
    return (map_block if map_block in blocks else 0), blocks


def with_wrong_sums(chance, old):
    """The file with other sums of some blocks, or other bytes in them, and their handles. The image of each is still one."""
    data = bytearray(old)
    entries = listed(old)[1]
    chosen = chance.sample(entries, min(len(entries), chance.randint(1, 9)))
    for at, start, size in chosen:
        if data[start] == 0 and size > 1 and chance.random() < 0.5:
            data[start + chance.randrange(1, size)] ^= 1 << chance.randrange(8)
        else:
            data[at + 16 + chance.randrange(4)] ^= 1 << chance.randrange(8)
    return bytes(data), {word(old, at) for at, _, _ in chosen}


def with_wrong_handle(chance, old, handles):
    """The same with another handle at one more entry."""
    data = bytearray(old)
    at = chance.choice([at for at, _, _ in listed(old)[1] if word(old, at) not in handles])
    data[at:at + 2] = little(chance.randint(1, 65535), 2)
    return bytes(data)


class Tries:
    def __init__(self, geosvm, geosdoc, folder):
        self.geosvm, self.geosdoc, self.folder = geosvm, geosdoc, folder
        self.passed = self.failed = 0

    def told(self, what, holds):
        self.passed += holds
        self.failed += not holds
        if not holds:
            print(f"FAILED  {what}")

    def document(self, chance, name):
        """A document of version 2 and the same one of version 3: dumped alike; an edit of it is kept, and so is the version."""
        old, new = (os.path.join(self.folder, f"{name}.{version}") for version in (2, 3))
        run([self.geosvm, "--new", old], script_of(chance))
        with open(old, "rb") as file:
            summed = Summed(file.read()).data
        with open(new, "wb") as file:
            file.write(summed)
        self.told(f"{name}: dumped as the one of version 2", dump(self.geosdoc, new) == dump(self.geosdoc, old) is not None)
        self.told(f"{name}: its saved document", dump(self.geosdoc, new, "--saved") == dump(self.geosdoc, old, "--saved") is not None)
        lines = f"newraw 9 700\nundo\nredo\nnewheap 8\n{chance.choice(['update', 'save', 'revert'])}\n"
        answers = [run([self.geosvm, path], lines) for path in (old, new)]
        self.told(f"{name}: the same replies", answers[0] == answers[1])
        self.told(f"{name}: the same document behind a commit", dump(self.geosdoc, new) == dump(self.geosdoc, old) is not None)
        with open(new, "rb") as file:
            data = file.read()
        self.told(f"{name}: all sums are right behind a commit", is_summed(data))
        return new, data

    def script(self, data, *flags):
        """What is salvaged of a file, and the lines about blocks."""
        path = os.path.join(self.folder, "salvaged")
        with open(path, "wb") as file:
            file.write(data)
        status, script, told = salvage(self.geosdoc, path, *flags)
        assert (status, told) == (0, ""), (status, told)
        tells = "# its directory's sum is wrong: handles, user IDs, types and the map block may be, too" in script.splitlines()
        assert tells != has_directory_sum(data), ("the directory's sum", tells)
        return script, {line for line in script.splitlines() if line.startswith("# block ")}

    def summed(self, what, chance, old):
        """Without --all the blocks with a wrong sum are left out, and with it they are taken. No block that comes without it goes."""
        data, handles = with_wrong_sums(chance, old)
        again = os.path.join(self.folder, "again")
        try:
            salvages = [([], handles, "is left out: its sum is wrong"), (["--all"], set(), "is taken, though its sum is wrong")]
            for flags, left, words in salvages:
                script, notes = self.script(data, *flags)
                assert notes == {f"# block {handle:04x} {words}" for handle in handles}, (flags, notes)
                compare(self.geosvm, self.geosdoc, again, script, document_without(data, left), True)
            data = with_wrong_handle(chance, data, handles)
            gone = [{line.split()[2] for line in self.script(data, *flags)[1] if " left out" in line} for flags in ((), ("--all",))]
            assert gone[1] <= gone[0], ("left out with --all alone", gone[1] - gone[0])
            self.told(what, True)
        except AssertionError as wrong:
            self.told(f"{what}: {wrong}", False)

    def damaged(self, what, data, documents):
        """A damaged file is refused, or has the documents that it had or those of the commit before."""
        path = os.path.join(self.folder, "damaged")
        with open(path, "wb") as file:
            file.write(data)
        found = dump(self.geosdoc, path)
        self.told(what, found is None or found in documents)


def main():
    geosvm, geosdoc = map(os.path.abspath, sys.argv[1:3])
    count = int(sys.argv[3]) if len(sys.argv) > 3 else 20
    chance = random.Random(int(sys.argv[4]) if len(sys.argv) > 4 else 1)
    with tempfile.TemporaryDirectory() as folder:
        tries = Tries(geosvm, geosdoc, folder)
        for i in range(count):
            path, data = tries.document(chance, f"document{i}")
            documents = {dump(geosdoc, path), dump(geosdoc, path, "--other")}
            tries.summed(f"document{i}: a salvage with wrong sums", chance, data)
            for _ in range(10):
                at, bit = chance.randrange(len(data)), chance.randrange(8)
                tries.damaged(f"document{i}: bit {bit} of byte {at}", data[:at] + bytes([data[at] ^ 1 << bit]) + data[at + 1:], documents)
                at, byte = chance.randrange(len(data)), chance.randrange(256)
                tries.damaged(f"document{i}: byte {at} is {byte}", data[:at] + bytes([byte]) + data[at + 1:], documents)
            at = chance.randrange(len(data))
            tries.damaged(f"document{i}: cut at {at}", data[:at], documents)
            one, other = (PAGE * chance.randrange(len(data) // PAGE) for _ in range(2))
            swapped = bytearray(data)
            swapped[one:one + PAGE], swapped[other:other + PAGE] = data[other:other + PAGE], data[one:one + PAGE]
            tries.damaged(f"document{i}: pages at {one} and {other} exchanged", bytes(swapped), documents)
    print(f"{tries.passed} passed, {tries.failed} failed")
    sys.exit(tries.failed != 0)


if __name__ == "__main__":
    main()
