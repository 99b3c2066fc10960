# Needs: python3
"""Compares each number of `geosdoc stat --json` with what docs/FORMAT.md alone says of random documents, and the text of `geosdoc stat`
with the same numbers in their columns.

    python3 checks/stat_counted.py GEOSVM GEOSDOC [COUNT] [SEED]

GEOSVM and GEOSDOC are the programs of `crates/geosvm` and `crates/geosdoc`. Half of the documents are those of
checks/dumped_documents.py, and half have arrays of each kind, and chunks that are almost arrays.
"""
import json
import os
import random
import resource
import subprocess
import sys
import tempfile

from dumped_documents import CAPACITY, Arrays, Scripts, chunk_array, chunks_of, document_at, is_name_array, run, slots_of, used_elements, word



# Arrays, read by the bytes.

def kind_of(data):
    """The kind of the array that the bytes read as, and how many elements it has."""
    array = chunk_array(data)
    if array is None:
        return None
    if is_name_array(array):
        return "name_arrays", len(array[2])
    if used_elements(array, 2) is not None:
        return "element_arrays", len(array[2])
    return "chunk_arrays", len(array[2])


# What is counted.

def tally(unit, items):
    """How many, the sum, and the first of the largest, of items with their names."""
    largest = None
    for item in items:
        if largest is None or item[unit] > largest[unit]:
            largest = item
    return {"count": len(items), unit: sum(item[unit] for item in items), "largest": largest}


def counted(map_block, blocks):
    raws, heaps, types, chunks = [], [], {}, []
    arrays = {"chunk_arrays": [], "element_arrays": [], "name_arrays": []}
    for handle in sorted(blocks):
        heap_type, image = blocks[handle][1:]
        name = {"block": "%04x" % handle}
        if image[0] == 0:
            raws.append(dict(name, bytes=len(image) - 1))
            continue
        held, need = chunks_of(image)
        heaps.append(dict(name, needed_bytes=need))
        types.setdefault(heap_type, []).append(heaps[-1])
        for chunk, data in held.items():
            place = dict(name, chunk="%04x" % chunk)
            chunks.append(dict(place, bytes=len(data)))
            kind = kind_of(data)
            if kind is not None:
                arrays[kind[0]].append(dict(place, elements=kind[1]))
    stat = {"map_block": "%04x" % map_block if map_block else None, "raw_blocks": tally("bytes", raws)}
    stat["heaps"] = tally("needed_bytes", heaps)
    stat["heaps"]["free_bytes"] = sum(CAPACITY - heap["needed_bytes"] for heap in heaps)
    stat["heaps"]["types"] = [{"type": t, **tally("needed_bytes", types[t])} for t in sorted(types)]
    stat["chunks"] = tally("bytes", chunks)
    for kind in arrays:
        stat[kind] = tally("elements", arrays[kind])
    return stat


def free_pages(data, extents):
    pages = (len(data) + 511) // 512
    taken = {page for at, size in extents for page in range(at, at + (size + 511) // 512)}
    runs, last = [], None
    for page in range(pages):
        if page in taken:
            continue
        if last is not None and last + 1 == page:
            runs[-1] += 1
        else:
            runs.append(1)
        last = page
    return {"count": sum(runs), "runs": len(runs), "longest": max(runs, default=0)}


def wanted(data):
    slot = slots_of(data)[0][1]
    directories = [(word(slot, at, 4), word(slot, at + 4, 4)) for at in (16, 24)]
    extents = [(0, 1024)] + directories
    for page, length in directories:
        text = data[512 * page:512 * page + length]
        extents += [(word(text, 20 + 16 * i, 4), word(text, 24 + 16 * i, 4)) for i in range(word(text, 6))]
    documents = [counted(*document_at(data, *directory)) for directory in directories]
    return {
        "bytes": len(data),
        "pages": (len(data) + 511) // 512,
        "free_pages": free_pages(data, extents),
        "updated": documents[0],
        "saved": None if directories[0] == directories[1] else documents[1],
    }


# The text.

def tally_line(name, tally, unit):
    largest = tally["largest"]
    if largest is None:
        said = "-"
    else:
        said = f"{largest[unit]} in {largest['block']}" + (f" {largest['chunk']}" if "chunk" in largest else "")
    return f"{name:<18} {tally['count']:>10} {tally[unit]:>12}   {said}"


def heading(unit):
    return f"{'':<18} {'count':>10} {unit:>12}   largest"


def text_of_document(name, stat):
    heaps = stat["heaps"]
    lines = ["", f"{name} document", f"  map block        {stat['map_block'] or 'none'}"]
    lines += [heading("bytes"), tally_line("  raw blocks", stat["raw_blocks"], "bytes"), tally_line("  chunks", stat["chunks"], "bytes")]
    lines += [heading("needed bytes"), tally_line("  heaps", heaps, "needed_bytes")]
    lines += [tally_line(f"    type {tally['type']}", tally, "needed_bytes") for tally in heaps["types"]]
    lines += [f"  free in heaps {heaps['free_bytes']:>26}", heading("elements")]
    return lines + [tally_line("  " + kind.replace("_", " "), stat[kind], "elements") for kind in ("chunk_arrays", "element_arrays", "name_arrays")]


def text_of(stat):
    """What `geosdoc stat` has to write."""
    free = stat["free_pages"]
    lines = [f"bytes        {stat['bytes']:>10}", f"pages        {stat['pages']:>10}"]
    lines += [f"free pages   {free['count']:>10}   runs: {free['runs']}, longest: {free['longest']}"]
    lines += text_of_document("updated", stat["updated"])
    lines += ["", "the saved document is the updated one"] if stat["saved"] is None else text_of_document("saved", stat["saved"])
    return "\n".join(lines) + "\n"


def try_one(geosvm, geosdoc, folder, seed):
    """One random document; the arrays that it has."""
    path = os.path.join(folder, "document")
    scripts = (Scripts if seed % 2 else Arrays)(random.Random(seed))
    run([geosvm, "--new", path], scripts.script())
    with open(path, "rb") as file:
        data = file.read()
    told = json.loads(run([geosdoc, "stat", path, "--json"]))
    with open(path, "rb") as file:
        assert file.read() == data, "the file was written"
    wants = wanted(data)
    assert told == wants, (seed, told, wants)
    assert list(told) == list(wants) and list(told["updated"]) == list(wants["updated"]), "another order"
    text = run([geosdoc, "stat", path])
    assert text == text_of(wants), (seed, "another text", text, text_of(wants))
    return [told["updated"][kind]["count"] for kind in ("chunk_arrays", "element_arrays", "name_arrays")]


def try_damaged(geosdoc, folder):
    """A file that doesn't open: status 1, and the verdict of a check."""
    path = os.path.join(folder, "document")
    with open(path, "r+b") as file:
        file.seek(512)
        file.write(b"no")
        file.seek(0)
        file.write(b"no")
    done = subprocess.run([geosdoc, "stat", path], stdout=subprocess.PIPE, stderr=subprocess.PIPE, text=True)
    assert done.returncode == 1 and done.stdout == "" and "it doesn't open, NotDocument" in done.stderr, done
    assert run_check(geosdoc, path) == "opens: no, NotDocument"


def try_hole(geosvm, geosdoc, folder):
    """A file with a hole of 40 GB behind it: what lies in it is told in as much time and memory as before."""
    path = os.path.join(folder, "document")
    run([geosvm, "--new", path], Scripts(random.Random(1)).script())
    looks = [[geosdoc, "stat", "--json", path], [geosdoc, "dump", path], [geosdoc, "dump", "--other", path]]
    small = [run(look) for look in looks]
    length = 40 << 30
    os.truncate(path, length)
    grown = [subprocess.run(look, stdout=subprocess.PIPE, check=True, timeout=10, text=True, preexec_fn=few_bytes).stdout for look in looks]
    assert grown[1:] == small[1:], "another dump"
    told, was = json.loads(grown[0]), json.loads(small[0])
    more = length // 512 - was["pages"]
    assert (told["bytes"], told["pages"]) == (length, length // 512), told
    assert told["free_pages"]["count"] == was["free_pages"]["count"] + more and told["free_pages"]["longest"] >= more, told
    assert told["updated"] == was["updated"] and told["saved"] == was["saved"], told


def few_bytes():
    """As much memory as a document of a few blocks takes."""
    resource.setrlimit(resource.RLIMIT_AS, (256 << 20, 256 << 20))


def run_check(geosdoc, path):
    done = subprocess.run([geosdoc, "check", path], stdout=subprocess.PIPE, text=True)
    assert done.returncode == 1
    return done.stdout.splitlines()[0]


def main():
    geosvm, geosdoc = map(os.path.abspath, sys.argv[1:3])
    count = int(sys.argv[3]) if len(sys.argv) > 3 else 1000
    start = int(sys.argv[4]) if len(sys.argv) > 4 else 1
    arrays, failed = [0, 0, 0], 0
    with tempfile.TemporaryDirectory() as folder:
        for seed in range(start, start + count):
            try:
                arrays = [a + b for a, b in zip(arrays, try_one(geosvm, geosdoc, folder, seed))]
            except AssertionError as wrong:
                failed += 1
                print(f"FAILED  the document of seed {seed}: {wrong}")
        try:
            try_damaged(geosdoc, folder)
        except AssertionError as wrong:
            failed += 1
            print(f"FAILED  a damaged document: {wrong}")
        try:
            try_hole(geosvm, geosdoc, folder)
        except (AssertionError, subprocess.SubprocessError) as wrong:
            failed += 1
            print(f"FAILED  a file with a hole: {wrong}")
    print(f"        {count} documents, with {arrays[0]} chunk arrays, {arrays[1]} element arrays and {arrays[2]} name arrays")
    print(f"{count + 2 - failed} passed, {failed} failed")
    sys.exit(failed != 0)


if __name__ == "__main__":
    main()
