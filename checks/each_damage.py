# Needs: python3
"""Damages a small document of version 3 in every way of these: each bit turned, each byte set to each other value, each cut, each two pages
exchanged, each page as it was a commit earlier. The file must be refused, or open to the documents that it had or to those of the other slot.
It isn't in the gate, since it takes some hundred thousand runs; `summed_documents.py` has a sample of them.

    python3 checks/each_damage.py GEOSVM GEOSDOC [PROCESSES]

GEOSVM and GEOSDOC are the programs of `crates/geosvm` and `crates/geosdoc`.
"""
import multiprocessing
import os
import sys
import tempfile

from dumped_documents import run
from summed_documents import PAGE, dump, is_summed

SCRIPT = "newraw 1 20\nvwrite 0001 0 616263\nnewheap 2\nalloc 0002 5\nmap 0001\nsave\n"
LATER = "vwrite 0001 3 6465\nupdate\n"


def made(geosvm, folder):
    """The file, and the file as it was a commit earlier."""
    path = os.path.join(folder, "document")
    files = []
    for words, script in ((["--new", "--checksums"], SCRIPT), ([], LATER)):
        run([geosvm, *words, path], script)
        with open(path, "rb") as file:
            files.append(file.read())
    assert all(map(is_summed, files)), "the sums are right"
    return files[1], files[0]


def damages(data, before):
    """Each damage, with words for it."""
    for at, byte in enumerate(data):
        for bit in range(8):
            yield f"bit {bit} of byte {at}", data[:at] + bytes([byte ^ 1 << bit]) + data[at + 1:]
        for other in range(256):
            if other != byte:
                yield f"byte {at} is {other}", data[:at] + bytes([other]) + data[at + 1:]
    for end in range(len(data)):
        yield f"cut at {end}", data[:end]
    padded = data + bytes(-len(data) % PAGE)
    pages = [padded[at:at + PAGE] for at in range(0, len(padded), PAGE)]
    for one in range(len(pages)):
        for other in range(one):
            swapped = list(pages)
            swapped[one], swapped[other] = swapped[other], swapped[one]
            yield f"pages {other} and {one} exchanged", b"".join(swapped)
        earlier = before[PAGE * one:PAGE * (one + 1)]
        yield f"page {one} as it was a commit earlier", padded[:PAGE * one] + earlier.ljust(PAGE, b"\0") + padded[PAGE * (one + 1):]


class Part:
    """One process's share of the damages."""

    def __init__(self, geosdoc, documents, folder):
        self.geosdoc, self.documents, self.folder = geosdoc, documents, folder

    def __call__(self, damage):
        what, data = damage
        path = os.path.join(self.folder, str(os.getpid()))
        with open(path, "wb") as file:
            file.write(data)
        found = dump(self.geosdoc, path)
        return None if found is None or found in self.documents else what


def main():
    geosvm, geosdoc = map(os.path.abspath, sys.argv[1:3])
    processes = int(sys.argv[3]) if len(sys.argv) > 3 else os.cpu_count()
    with tempfile.TemporaryDirectory(dir="/dev/shm" if os.path.isdir("/dev/shm") else None) as folder:
        data, before = made(geosvm, folder)
        path = os.path.join(folder, "document")
        documents = {dump(geosdoc, path), dump(geosdoc, path, "--other")}
        assert None not in documents and len(documents) == 2, "both slots open"
        count, wrong = 0, []
        with multiprocessing.Pool(processes) as pool:
            for what in pool.imap_unordered(Part(geosdoc, documents, folder), damages(data, before), chunksize=200):
                count += 1
                if what:
                    wrong.append(what)
        for what in wrong[:20]:
            print(f"FAILED  {what}: it opens to another document")
    print(f"{count - len(wrong)} passed, {len(wrong)} failed")
    sys.exit(bool(wrong))


if __name__ == "__main__":
    main()
