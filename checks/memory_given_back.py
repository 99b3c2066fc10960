# Needs: python3
"""Has blocks and chunks of the most bytes come and go, and looks at how much memory the program has at most: no more than where they come
and go a few times.

    python3 checks/memory_given_back.py GEOSVM [ROUNDS]
"""
import os
import subprocess
import sys
import tempfile

FULL_HEAP = ["newheap 0", "alloc 0001 65498"]
NAMED = ["vwrite 0001 0 61", f"name {'61' * 64}"]
# A name, what is done at first, what in each round, and what is asked at the end, with its reply.
ROUNDS = [
    ("raw blocks are made and undone", [], ["newraw 0 65520", "undo"], "list", "blocks"),
    ("a raw block is undone and redone", ["newraw 0 65520"], ["undo", "redo"], "info 0001", "raw 0 65520"),
    ("a full heap is undone and redone", FULL_HEAP, ["undo", "redo"], "info 0001", "heap 0 65520"),
    ("a full heap is freed and comes back", FULL_HEAP, ["vfree 0001", "undo"], "info 0001", "heap 0 65520"),
    ("a full heap is copied and the copy undone", FULL_HEAP, ["vcopy 0001", "undo"], "list", "blocks 0001"),
    ("a chunk grows to the greatest size and back", ["newheap 0", "alloc 0001 0"], ["insert 0001 0010 0 65498", "undo"], "info 0001",
     "heap 0 20"),
    ("a full heap is made, freed and forgotten", [], FULL_HEAP + ["vfree 0001", "forget 0"], "undos", "number 0"),
    ("one is made and freed in one step, undone, made again and forgotten", [],
     FULL_HEAP + ["vfree 0001", "join", "join", "undo", "redo", "forget 0"], "undos", "number 0"),
    ("steps with names are undone, and can't be made again", ["newraw 0 4"], (NAMED + ["undo"]) * 500, "undos", "number 1"),
    ("steps without names are forgotten", ["newraw 0 100"], [f"vwrite 0001 0 {'61' * 100}"] * 500 + ["forget 0"], "undos", "number 0"),
    ("steps with names are joined, and forgotten", ["newraw 0 4"], (NAMED + NAMED + ["join", "name -", "forget 0"]) * 500, "undos",
     "number 0"),
]
# In kB. A round that keeps a block adds 64 to it, one that keeps the names of 500 steps 32 at least, one that keeps their content 100.
MORE = 16000


def most(geosvm, path, first, lines, rounds, last, reply):
    """The most kB that the program had in memory. What this one has counts too, so it never holds a whole script or its replies."""
    # Of a program that is built to look at each access of memory: what it keeps back of what was freed.
    environment = dict(os.environ, ASAN_OPTIONS="quarantine_size_mb=1")
    with open(path + ".script", "w", encoding="ascii") as file:
        file.writelines(line + "\n" for line in first)
        for _ in range(rounds):
            file.writelines(line + "\n" for line in lines)
        file.write(last + "\n")
    with open(path + ".script", encoding="ascii") as file, open(path + ".replies", "w+", encoding="ascii") as replies:
        started = subprocess.Popen([geosvm, "--new", path], stdin=file, stdout=replies, env=environment)
        _, status, usage = os.wait4(started.pid, 0)
        started.returncode = os.waitstatus_to_exitcode(status)
        replies.seek(0)
        count = 0
        for answer in replies:
            assert not answer.startswith("no "), answer
            count += 1
    assert started.returncode == 0 and count == len(first) + len(lines) * rounds + 1, "a run ends before its script does"
    assert answer == reply + "\n", answer
    return usage.ru_maxrss


def main():
    geosvm = os.path.abspath(sys.argv[1])
    rounds = int(sys.argv[2]) if len(sys.argv) > 2 else 1000
    passed = failed = 0
    for name, first, lines, last, reply in ROUNDS:
        with tempfile.TemporaryDirectory() as folder:
            path = os.path.join(folder, "document")
            try:
                few = most(geosvm, path, first, lines, 20, last, reply)
                many = most(geosvm, path, first, lines, rounds, last, reply)
                assert many < few + MORE, f"{many} kB, and {few} in 20 rounds"
                passed += 1
            except AssertionError as wrong:
                failed += 1
                print(f"FAILED  {name}: {wrong}")
    print(f"{passed} passed, {failed} failed")
    sys.exit(failed != 0)


if __name__ == "__main__":
    main()
