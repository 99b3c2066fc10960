# Needs: python3
"""Damages random documents, salvages them, restores what was salvaged, and compares it with the blocks that weren't damaged, byte for
byte and handle for handle.

    python3 checks/salvaged.py GEOSVM GEOSDOC [COUNT] [SEED]

GEOSVM and GEOSDOC are the programs of `crates/geosvm` and `crates/geosdoc`. Of each document 1 to 10 blocks of about 100 are damaged, in
their entries or their images; of some a slot or the header of a directory as well, of some both gates are closed, and some files are cut.
A line tells that the slot is closed, just where it is. Of one document in four more just one entry has another handle, and all other blocks
must come back. A damage is one that can be seen: another byte within a raw block can't. Files are read here by docs/FORMAT.md alone.
"""
import os
import random
import subprocess
import sys
import tempfile

from dumped_documents import documents_of, run, slots_of, word

BLOCKS = 100

# Of this document the last block was left out once, behind an entry that has no handle a block can have.
ONCE_WRONG = [397]


def script_of(chance):
    """About 100 blocks with holes among them, raw ones and heaps, some of a type, and a map block; saved, changed and updated."""
    lines = []
    for block in range(1, BLOCKS + 1):
        if chance.random() < 0.5:
            size = chance.choice([0, 1, 33, 500, 2000, chance.randint(0, 900)])
            lines.append(f"newraw {chance.randint(0, 65535)} {size}")
            if size:
                lines.append(f"vwrite {block:04x} 0 {chance.randbytes(min(size, 90)).hex()}")
        else:
            lines.append(f"newheap {chance.randint(0, 65535)}")
            count = chance.randint(0, 6)
            lines += [f"alloc {block:04x} {chance.randint(1, 90)}" for _ in range(count)]
            lines += [f"write {block:04x} 0010 0 {chance.randbytes(1).hex()}"] * (count > 0) + [f"free {block:04x} 0012"] * (count > 3)
            if chance.random() < 0.4:
                lines.append(f"settype {block:04x} {chance.randint(0, 65535)}")
    lines += [f"vfree {block:04x}" for block in chance.sample(range(1, BLOCKS + 1), chance.randint(0, 8))]
    lines.append(f"map {chance.randint(1, BLOCKS):04x}")
    lines.append("save")
    for _ in range(chance.randint(0, 12)):
        block = chance.randint(1, BLOCKS)
        lines.append(chance.choice([f"vwrite {block:04x} 0 {chance.randbytes(1).hex()}", f"vfree {block:04x}", f"newraw 7 {block}"]))
    lines.append("update")
    return "\n".join(lines) + "\n"


def places_of(data):
    """The extents of the directories in the order in which they are tried: of the slot that counts, then of the other one."""
    return [(word(slot, at, 4), word(slot, at + 4, 4)) for _, slot in slots_of(data) for at in (16, 24)]


def entries_of(data, place):
    """The map block, and of each entry its place, its handle, its user ID and type, and the extent of its image in bytes."""
    start, size = 512 * place[0], place[1]
    found = []
    for at in range(start + 16, min(start + size, len(data)) - 15, 16):
        found.append((at, word(data, at), (word(data, at + 2), word(data, at + 12)), (512 * word(data, at + 4, 4), word(data, at + 8, 4))))
    return word(data, start + 8), found


def document_in(data, place, length, damaged):
    """The document of a directory in a file that was cut to a length, but for the blocks that were damaged."""
    map_block, entries = entries_of(data[:length], place)
    blocks = {}
    for at, handle, attributes, (start, size) in entries:
        if handle not in damaged and start + size <= length:
            blocks[handle] = (*attributes, data[start:start + size])
    return (map_block if map_block in blocks else 0), blocks


def damage_image(chance, data, entry):
    """The kind of the body is none that there is, or the image of a heap is another length than its table tells."""
    start, size = entry[3]
    if data[start] == 1 and chance.random() < 0.5:
        data[start + 1:start + 3] = b"\xff\xff"
    else:
        data[start] = chance.choice([2, 77, 255])


def damage_entry(chance, data, entry):
    """The entry has another extent, bytes that aren't zeros, or all of it others. Its handle stays, or is one above all that can be."""
    at = entry[0]
    kind = chance.randrange(5)
    if kind == 0:
        data[at + 4:at + 8] = chance.choice([b"\0\0\0\0", b"\1\0\0\0", b"\xff\xff\xff\x7f"])
    elif kind == 1:
        data[at + 8:at + 12] = chance.choice([b"\0\0\0\0", b"\xff\xff\xff\xff", b"\0\0\x01\0"])
    elif kind == 2:
        data[at + 14 + chance.randrange(2)] = chance.randint(1, 255)
    elif kind == 3:
        data[at:at + 16] = b"\xff" * 16
    else:
        data[at:at + 16] = bytes(16)


def damage_handle(chance, data, entries, i):
    """The entry has the handle of another one, which isn't beside it."""
    others = [j for j in range(len(entries)) if abs(i - j) > 2]
    data[entries[i][0]:entries[i][0] + 2] = entries[chance.choice(others)][1].to_bytes(2, "little")


def damage(chance, data, place):
    """Damages 1 to 10 blocks of a directory, and gives their handles."""
    entries = entries_of(data, place)[1]
    chosen = chance.sample(range(len(entries)), chance.randint(1, 10))
    lonely = [i for i in chosen if all(abs(i - j) > 2 for j in chosen if j != i)]
    for i in chosen:
        kind = chance.random()
        if kind < 0.5:
            damage_image(chance, data, entries[i])
        elif kind < 0.7 and i in lonely:
            damage_handle(chance, data, entries, i)
        else:
            damage_entry(chance, data, entries[i])
    # The image of one block may be that of no other, but both documents and both slots may have it.
    return {entries[i][1] for i in chosen}


def damaged_handle(chance, data):
    """Gives one entry, often the last one or the one before it, another handle, often one just above that of the entry behind it, and tells
    what must be salvaged. Handles that rise tell nothing, and are left aside. So are those with which it could be the entry before it that
    is wrong: they leave it below that one and no other."""
    whole, place = bytes(data), places_of(bytes(data))[0]
    entries = entries_of(data, place)[1]
    handles = [entry[1] for entry in entries]
    free = [handle - i for i, handle in enumerate(handles)]
    last = len(handles) - 1
    while True:
        i = chance.choice([last, last - 1, chance.randint(0, last)])
        behind = handles[min(i + 1, last)]
        handle = chance.choice([behind, behind + 1, behind + 2, handles[i] ^ 1 << chance.randrange(13), chance.randint(1, 8192)])
        is_above = i < last and handle - i > free[i + 1]
        is_below = handle - i < (free[i - 2] if i >= 2 else 1)
        if 1 <= handle <= 8192 and (is_above or is_below):
            break
    data[entries[i][0]:entries[i][0] + 2] = handle.to_bytes(2, "little")
    return document_in(whole, place, len(whole), {handles[i]})


def salvage(geosdoc, path, *flags):
    done = subprocess.run([geosdoc, "salvage", *flags, path], stdout=subprocess.PIPE, stderr=subprocess.PIPE, text=True)
    return done.returncode, done.stdout, done.stderr


def compare(geosvm, geosdoc, again, script, wanted, restores):
    """Restores a script, by one program or the other, and compares."""
    if os.path.exists(again):
        os.remove(again)
    if restores:
        assert run([geosdoc, "restore", again], script) == "", "a restore tells nothing"
    else:
        assert "no " not in run([geosvm, "--new", again], script), "refused"
    for document in documents_of(again):
        assert document[0] == wanted[0], ("the map block", wanted[0], document[0])
        assert document[1].keys() == wanted[1].keys(), ("handles", sorted(document[1].keys() ^ wanted[1].keys()))
        for handle, block in wanted[1].items():
            assert document[1][handle] == block, ("block", handle)


def damaged_file(chance, data):
    """Damages a file in one of the ways, and gives what must be salvaged of it, None for nothing."""
    whole = bytes(data)
    slots, places = slots_of(whole), places_of(whole)
    counts = 0 if whole[:32] == slots[0][1] else 512
    kind = chance.randrange(8)
    if kind == 0:
        data[chance.randrange(4)] ^= 1
        data[512 + chance.randrange(4)] ^= 1
        return None
    place = places[0]
    if kind == 1 and len(places) == 4:
        # The slot that counts is gone, and the other one's directory has damaged blocks.
        data[counts + chance.randrange(4)] ^= 1
        place = places[2]
    elif kind == 2 and places[1] != place:
        # The header of the updated document's directory is gone.
        data[512 * place[0] + chance.choice([0, 3, 5, 6])] ^= 0x40
        place = places[1]
    elif kind == 3:
        length = chance.randint(chance.choice([1024, 512 * min(page for page, _ in places) + 16]), len(data) - 1)
        del data[length:]
        for place in places:
            if 512 * place[0] + 16 <= length:
                return document_in(whole, place, length, set())
        return None
    damaged = damage(chance, data, place)
    if kind == 4:
        # No slot is open: that with the greater number comes first, as of open ones.
        data[4], data[516] = 0, 2
    return document_in(whole, place, len(whole), damaged)


def tells_gate(data, notes):
    """The lines tell that the slot is closed, just where it is."""
    slot = int(notes[0].rpartition(" ")[2])
    told = "# its slot is closed: it may be an earlier document, or written over in part, or not whole yet" in notes
    return told == (data[512 * slot + 4] != 1)


def try_one(geosvm, geosdoc, folder, seed, damaged):
    """One random document, damaged in a way. How many blocks were salvaged of it, and how many weren't."""
    chance = random.Random(seed)
    path, again = os.path.join(folder, "damaged"), os.path.join(folder, "again")
    run([geosvm, "--new", path], script_of(chance))
    status, script, told = salvage(geosdoc, path)
    assert (status, script, told) == (0, run([geosdoc, "dump", path]), ""), "no dump of a file that opens"
    with open(path, "rb") as file:
        data = bytearray(file.read())
    wanted = damaged(chance, data)
    with open(path, "wb") as file:
        file.write(data)
    status, script, told = salvage(geosdoc, path)
    with open(path, "rb") as file:
        assert file.read() == bytes(data), "the salvage wrote to the file"
    assert salvage(geosdoc, path, "--all") == (status, script, told), "there are no sums that --all could leave aside"
    if wanted is None:
        assert (status, script, told) == (1, "", f"geosdoc: {path}: no directory of it can be read\n"), (status, told)
        return 0, 0
    assert status == 0 and told == "", (status, told)
    if subprocess.run([geosdoc, "check", path], stdout=subprocess.PIPE).returncode == 0:
        return 0, 0
    notes = [line for line in script.splitlines() if line.startswith("#")]
    assert notes and notes[0].startswith("# what can be read of the ") and tells_gate(data, notes), notes[:2]
    compare(geosvm, geosdoc, again, script, wanted, seed % 2 == 1)
    return len(wanted[1]), sum(line.startswith("# block ") for line in notes)


def main():
    geosvm, geosdoc = map(os.path.abspath, sys.argv[1:3])
    count = int(sys.argv[3]) if len(sys.argv) > 3 else 300
    start = int(sys.argv[4]) if len(sys.argv) > 4 else 1
    salvaged = left = failed = 0
    tried = [(seed, damaged_file) for seed in [*range(start, start + count), *ONCE_WRONG]]
    tried += [(seed, damaged_handle) for seed in range(start, start + (count + 3) // 4)]
    with tempfile.TemporaryDirectory() as folder:
        for seed, damaged in tried:
            try:
                done = try_one(geosvm, geosdoc, folder, seed, damaged)
                salvaged, left = salvaged + done[0], left + done[1]
            except AssertionError as wrong:
                failed += 1
                print(f"FAILED  the document of seed {seed}, by {damaged.__name__}: {wrong}")
    count = len(tried)
    print(f"        {count} files, {salvaged} blocks salvaged of them, {left} left out")
    print(f"{count - failed} passed, {failed} failed")
    sys.exit(failed != 0)


if __name__ == "__main__":
    main()
