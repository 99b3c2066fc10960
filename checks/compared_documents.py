# Needs: python3
"""Compares documents by `geosdoc diff` and by this script, which reads the files by docs/FORMAT.md alone, and wants the
same lines and the right status: of pairs by chance that differ in one thing, in many, in none (a dump made again), and
of a file with itself. Then it asks for what can't be compared.

    python3 checks/compared_documents.py GEOSVM GEOSDOC [COUNT] [SEED]

GEOSVM and GEOSDOC are the programs of `crates/geosvm` and `crates/geosdoc`.
"""
import collections
import os
import random
import subprocess
import sys
import tempfile

from dumped_documents import Scripts, documents_of, run, word

NO_CHUNK = 0xFFFF


def chunks_of(image):
    """The chunks of a heap's image under their handles."""
    count = word(image, 1)
    sizes = [word(image, 3 + 2 * i) for i in range(count)]
    at, chunks = 3 + 2 * count, {}
    for i, size in enumerate(sizes):
        if size != NO_CHUNK:
            chunks[16 + 2 * i] = image[at:at + size]
            at += size
    assert at == len(image), "an image of another length"
    return chunks


def is_heap(block):
    return block[2][0] != 0


def told(block):
    """The kind of a block and how much it has."""
    return f"heap {len(chunks_of(block[2]))}" if is_heap(block) else f"raw {len(block[2]) - 1}"


def change(old, new):
    """Both sizes, and where the bytes part."""
    at = 0
    while at < min(len(old), len(new)) and old[at] == new[at]:
        at += 1
    return f"{len(old)} {len(new)} at {at}"


def chunk_lines(name, old, new):
    for chunk in sorted(old.keys() | new.keys()):
        if chunk not in new:
            yield f"- {name} {chunk:04x} {len(old[chunk])}"
        elif chunk not in old:
            yield f"+ {name} {chunk:04x} {len(new[chunk])}"
        elif old[chunk] != new[chunk]:
            yield f"! {name} {chunk:04x} {change(old[chunk], new[chunk])}"


def block_lines(name, old, new):
    if old is None or new is None or is_heap(old) != is_heap(new):
        if old is not None:
            yield f"- {name} {told(old)}"
        if new is not None:
            yield f"+ {name} {told(new)}"
        return
    if old[0] != new[0]:
        yield f"! {name} uid {old[0]} {new[0]}"
    if old[1] != new[1]:
        yield f"! {name} type {old[1]} {new[1]}"
    if is_heap(old):
        yield from chunk_lines(name, chunks_of(old[2]), chunks_of(new[2]))
    elif old[2] != new[2]:
        yield f"! {name} raw {change(old[2][1:], new[2][1:])}"


def lines_between(old, new):
    """The lines that tell what differs between two documents."""
    lines = []
    if old[0] != new[0]:
        lines.append(f"map {old[0]:04x} {new[0]:04x}")
    for handle in sorted(old[1].keys() | new[1].keys()):
        lines += block_lines(f"{handle:04x}", old[1].get(handle), new[1].get(handle))
    return lines


def diff(geosdoc, words):
    done = subprocess.run([geosdoc, "diff", *words], stdout=subprocess.PIPE, stderr=subprocess.PIPE, text=True)
    return done.returncode, done.stdout, done.stderr


def try_pair(geosdoc, first, second, kinds):
    """Both versions of two files, each way; how many lines."""
    count = 0
    before = [open(path, "rb").read() for path in (first, second)]
    for flags, at in ([], 0), (["--saved"], 1):
        for one, other in (first, second), (second, first):
            wanted = lines_between(documents_of(one)[at], documents_of(other)[at])
            status, out, errors = diff(geosdoc, [*flags, one, other])
            assert errors == "", errors
            assert out.splitlines() == wanted, ("other lines", flags, out.splitlines(), wanted)
            assert out == "" or out.endswith("\n")
            assert status == (1 if wanted else 0), ("another status", status)
            count += len(wanted)
            kinds.update(kind_of(line) for line in wanted)
    assert [open(path, "rb").read() for path in (first, second)] == before, "the comparison wrote to a file"
    return count


def kind_of(line):
    """What a line tells, but for its numbers."""
    words = line.split()
    return " ".join([words[0], *(w for w in words[1:] if w in ("raw", "heap", "uid", "type", "at")), str(len(words))])


# A document, and edits of it that each differ in one thing.
START = ["newraw 3 100", "newheap 5", "alloc 0002 10", "alloc 0002 0", "alloc 0002 40", "write 0002 0010 0 00112233", "newraw 0 0",
         "vwrite 0001 10 abcdef"]
EDITS = [["map 0001"], ["vfree 0001"], ["vfree 0002"], ["newraw 1 7"], ["newheap 1"], ["uid 0001 9"], ["uid 0002 9"],
         ["settype 0002 7"], ["vwrite 0001 0 01"], ["vwrite 0001 99 01"], ["vwrite 0001 16 01"], ["free 0002 0010"],
         ["alloc 0002 5"], ["free 0002 0012"], ["resize 0002 0014 41"], ["resize 0002 0014 12"], ["resize 0002 0012 1"],
         ["write 0002 0010 3 44"], ["write 0002 0010 9 44"], ["vfree 0001", "newheap 0"], ["vfree 0002", "newraw 0 9"], []]


def try_single(geosvm, geosdoc, folder, edits, kinds):
    first, second = os.path.join(folder, "first"), os.path.join(folder, "second")
    run([geosvm, "--new", first], "\n".join([*START, "save", ""]))
    replies = run([geosvm, "--new", second], "\n".join([*START, *edits, "save", ""]))
    assert "no " not in replies, ("refused", edits, replies)
    wanted = 2 if len(edits) == 2 else len(edits)
    count = try_pair(geosdoc, first, second, kinds)
    assert count == 4 * wanted, ("other than one line", edits, count)


def try_random(geosvm, geosdoc, folder, seed, kinds):
    first, second = os.path.join(folder, "first"), os.path.join(folder, "second")
    chance = random.Random(seed)
    script = Scripts(chance).script()
    run([geosvm, "--new", first], script)
    if seed % 4 == 0:
        run([geosvm, "--new", second], run([geosdoc, "dump", first]))
        count = try_pair(geosdoc, first, second, kinds)
        assert count == 0, "a dump made again differs"
    elif seed % 4 == 1:
        run([geosvm, "--new", second], Scripts(chance).script())
        count = try_pair(geosdoc, first, second, kinds)
    else:
        more = Scripts(chance).edits(chance.choice([1, 3, 30]), chance.choice([2, 6, 40]))
        run([geosvm, "--new", second], script + "\n".join([*more, chance.choice(["save", "update"]), ""]))
        count = try_pair(geosdoc, first, second, kinds)
    for flags in [], ["--saved"]:
        assert diff(geosdoc, [*flags, first, first]) == (0, "", ""), "a file differs from itself"
    return count


def try_refused(geosvm, geosdoc, folder):
    """What can't be compared: 2, a line that names the file, and nothing on standard output."""
    there, none, text = (os.path.join(folder, name) for name in ("there", "none", "text"))
    run([geosvm, "--new", there], "newraw 7 20\nsave\n")
    with open(text, "wb") as file:
        file.write(b"no document")
    cases = [([none, there], none, "no such file"), ([there, none], none, "no such file"), ([folder, there], folder, "not a regular file"),
             ([text, there], text, "it doesn't open, NotDocument"), ([there, text], text, "it doesn't open, NotDocument")]
    for words, name, cause in cases:
        assert diff(geosdoc, words) == (2, "", f"geosdoc: {name}: {cause}\n"), (words, diff(geosdoc, words))
    for words in [], [there], [there, there, there], ["--other", there, there]:
        status, out, errors = diff(geosdoc, words)
        assert status == 2 and out == "" and errors != "", words
    with open("/dev/full", "wb") as full:
        run([geosvm, "--new", none], "newraw 7 20\nnewraw 1 1\nsave\n")
        done = subprocess.run([geosdoc, "diff", there, none], stdout=full, stderr=subprocess.PIPE, text=True)
        assert (done.returncode, done.stderr) == (2, "geosdoc: write fault\n"), done


def main():
    geosvm, geosdoc = map(os.path.abspath, sys.argv[1:3])
    count = int(sys.argv[3]) if len(sys.argv) > 3 else 200
    start = int(sys.argv[4]) if len(sys.argv) > 4 else 1
    lines = failed = 0
    kinds = collections.Counter()
    with tempfile.TemporaryDirectory() as folder:
        tries = [(f"one thing, {edits}", lambda edits=edits: try_single(geosvm, geosdoc, folder, edits, kinds)) for edits in EDITS]
        tries += [(f"the pair of seed {seed}", lambda seed=seed: try_random(geosvm, geosdoc, folder, seed, kinds))
                  for seed in range(start, start + count)]
        tries += [("what can't be compared", lambda: try_refused(geosvm, geosdoc, folder))]
        for name, attempt in tries:
            try:
                lines += attempt() or 0
            except AssertionError as wrong:
                failed += 1
                print(f"FAILED  {name}: {wrong}")
    print(f"        {count} pairs by chance, {lines} lines; " + ", ".join(f"{kind}: {n}" for kind, n in sorted(kinds.items())))
    print(f"{len(tries) - failed} passed, {failed} failed")
    sys.exit(failed != 0)


if __name__ == "__main__":
    main()
