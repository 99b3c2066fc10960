# Needs: python3
"""Measures what docs/DESIGNING.md says of three ways to keep a text: how large the file is, and by how much it grows when a letter is
typed and updated.

    python3 checks/designs_measured.py GEOSVM
"""
import os
import subprocess
import sys
import tempfile

PAGE = os.path.join(os.path.dirname(os.path.realpath(__file__)), "..", "docs", "DESIGNING.md")
PARAGRAPH = "61" * 60
COUNT = 900


def heaps(count):
    """900 paragraphs as chunks, in so many heaps."""
    lines = []
    for block in range(1, count + 1):
        lines.append("newheap 10")
        for i in range(COUNT // count):
            chunk = 16 + 2 * i
            lines += [f"alloc {block:04x} 0", f"splice {block:04x} {chunk:04x} 0 0 {PARAGRAPH}"]
    return lines


def raws():
    """900 paragraphs, each a block."""
    return [line for block in range(1, COUNT + 1) for line in ("newraw 10 0", f"attach {block:04x} {PARAGRAPH}")]


# What the text is kept as, how it is made, and a letter that is typed into its first paragraph.
FILES = [
    ("one heap, a chunk for each", heaps(1), "splice 0001 0010 0 0 61"),
    ("10 heaps, a chunk for each", heaps(10), "splice 0001 0010 0 0 61"),
    ("900 raw blocks, one for each", raws(), "vsplice 0001 0 0 61"),
]


def answered(geosvm, words, lines):
    """Runs a script of which no line is refused."""
    ran = subprocess.run([geosvm, *words], input="\n".join(lines) + "\n", capture_output=True, text=True, check=True)
    refused = [line for line in ran.stdout.split("\n") if line.startswith("no ")]
    assert not refused and ran.stdout.count("\n") == len(lines), refused


def file_sizes(geosvm, made, letter):
    """The size of a file with a text, and by how much it grows with a letter and an update."""
    with tempfile.TemporaryDirectory() as folder:
        first, path = os.path.join(folder, "first"), os.path.join(folder, "document")
        # What a save-as makes has no free pages.
        answered(geosvm, ["--new", "--as", path, first], made + ["saveas"])
        size = os.path.getsize(path)
        answered(geosvm, [path], [letter, "update"])
        return size, os.path.getsize(path) - size


def said_of(name):
    """The numbers of the row of the page that begins with this."""
    with open(PAGE, encoding="utf-8") as page:
        for line in page:
            cells = [cell.strip() for cell in line.strip().strip("|").split("|")]
            if cells[0] == name:
                return [int(cell.replace(",", "")) for cell in cells[1:]]
    return None


def main():
    geosvm = os.path.abspath(sys.argv[1])
    passed = failed = 0
    for name, made, letter in FILES:
        measured, said = list(file_sizes(geosvm, made, letter)), said_of(name)
        print(f"{name}: {measured}, said {said}")
        passed, failed = passed + (measured == said), failed + (measured != said)
    print(f"{passed} passed, {failed} failed")
    sys.exit(failed != 0)


main()
