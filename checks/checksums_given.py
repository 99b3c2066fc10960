# Needs: python3
"""Gives documents checksums, by `--checksums` of the program: new ones at once, those of versions 1 and 2 by their next commit, whichever
that is, the target of a save-as, and what `geosdoc restore --checksums` makes. All sums are looked at by docs/FORMAT.md alone, and bytes of
a block are changed while a run is at work.

    python3 checks/checksums_given.py GEOSVM GEOSDOC [COUNT] [SEED]

GEOSVM and GEOSDOC are the programs of `crates/geosvm` and `crates/geosdoc`.
"""
import os
import random
import shutil
import subprocess
import sys
import tempfile

from dumped_documents import run, slots_of, word
from salvaged import salvage, script_of, tells_gate
from summed_documents import PAGE, Tries, dump, is_summed, little, with_wrong_sums

# Slot 0 of a first file with checksums, and its directory: docs/FORMAT.md has these bytes.
FIRST_SLOT = bytes.fromhex("47564d4601030000010000000000000002000000100000000200000010000000367de34c367de34cbc3fa7a7")
FIRST_DIRECTORY = bytes.fromhex("47444952030000000000000000000000")
COMMITS = ("update", "save", "revert")


def read(path):
    with open(path, "rb") as file:
        return file.read()


def write(path, data):
    with open(path, "wb") as file:
        file.write(data)


def version_of(data):
    """The version of the slot that counts."""
    return max(slots_of(data))[1][5]


def as_version_1(old):
    """The same file in version 1, which has no types of heaps and leads to directories of version 1."""
    data = bytearray(old)
    for at in (0, 512):
        slot = data[at:at + 32]
        if slot[4] != 1:
            continue
        data[at + 5] = 1
        for extent in (16, 24):
            start, size = PAGE * word(slot, extent, 4), word(slot, extent + 4, 4)
            data[start + 4:start + 6] = little(1, 2)
            for entry in range(start + 16, start + size, 16):
                data[entry + 12:entry + 14] = b"\0\0"
    return bytes(data)


class Given(Tries):
    def path(self, name):
        return os.path.join(self.folder, name)

    def both_dumped(self, one, other):
        return all(dump(self.geosdoc, one, *flags) == dump(self.geosdoc, other, *flags) is not None for flags in ((), ("--saved",)))

    def is_alone(self, path):
        """One slot alone is open; where it is shut by a bit that flips, the file is refused."""
        data = bytearray(read(path))
        gates = [at for at in (4, 516) if data[at] == 1]
        if len(gates) != 1:
            return False
        data[gates[0]] ^= 1
        write(self.path("shut"), data)
        told = subprocess.run([self.geosvm, self.path("shut")], input=b"list\n", capture_output=True)
        return told.returncode != 0 and b"NotDocument" in told.stderr

    def is_told_shut(self, path):
        """Where the mark of the slot is gone that is open, the one that was shut is salvaged, and it is told that it is closed."""
        data = bytearray(read(path))
        at = 0 if data[4] == 1 else 512
        data[at] ^= 1
        write(self.path("shut"), data)
        status, script, told = salvage(self.geosdoc, self.path("shut"))
        notes = [line for line in script.splitlines() if line.startswith("#")]
        return (status, told) == (0, "") and notes[0].endswith(f" of slot {0 if at else 1}") and tells_gate(data, notes)

    def new_file(self):
        path, plain = self.path("new"), self.path("plain")
        run([self.geosvm, "--new", "--checksums", path], "")
        data = read(path)
        self.told("a new file: its slot", data[:44] == FIRST_SLOT and data[512:516] == b"GVMF")
        self.told("a new file: its directory", data[1024:] == FIRST_DIRECTORY)
        run([self.geosvm, "--new", plain], "")
        self.told("a new file without checksums", version_of(read(plain)) == 2 and len(read(plain)) == 1040)
        checked = subprocess.run([self.geosdoc, "check", path], capture_output=True, text=True)
        self.told("a new file: geosdoc tells its version", checked.returncode == 0 and "version 3" in checked.stdout)
        self.told("a restore of no commit: the same file", read(self.restore("new", "", "--checksums")) == data)
        self.told("a restore of no commit without checksums", read(self.restore("new", "")) == read(plain))

    def given(self, what, old, chance):
        """A file without checksums: what a run without a commit leaves of it, and each commit."""
        plain, summed = self.path("plain"), self.path("summed")
        write(summed, old)
        run([self.geosvm, "--checksums", summed], "list\n")
        self.told(f"{what}: nothing is written without an edit or a commit", read(summed) == old)
        for commit in COMMITS:
            lines = f"newraw 9 700\nnewheap 8\nvfree {chance.randint(1, 100):04x}\n{commit}\n"
            for more in ("", "newraw 3 3\nupdate\nundo\nsave\n"):
                answers = []
                for path, flags in ((plain, []), (summed, ["--checksums"])):
                    write(path, old)
                    answers.append(run([self.geosvm, *flags, path], lines + more))
                self.told(f"{what}, {commit}: the same replies", answers[0] == answers[1])
                self.told(f"{what}, {commit}: the same documents", self.both_dumped(plain, summed))
                self.told(f"{what}, {commit}: all sums are right", is_summed(read(summed)) and version_of(read(plain)) == 2)
                self.told(f"{what}, {commit}: the commit before is shut, one behind it isn't", self.is_alone(summed) == (not more))
                self.told(f"{what}, {commit}: so is its dump", (dump(self.geosdoc, summed, "--other") is None) == (not more))
                self.told(f"{what}, {commit}: a salvage of it tells so", bool(more) or self.is_told_shut(summed))
        run([self.geosvm, summed], "newraw 5 5\nupdate\n")
        self.told(f"{what}: it stays so", is_summed(read(summed)))

    def saved_as(self, old):
        """The target of a save-as has checksums where the file has them, or is to get them."""
        for flags, made in (([], 2), (["--checksums"], 3)):
            source, target, again = self.path("source"), self.path("target"), self.path("again")
            for path in (target, again):
                if os.path.exists(path):
                    os.remove(path)
            write(source, old)
            run([self.geosvm, *flags, "--as", target, source], "newraw 4 400\nsaveas\n")
            self.told(f"save-as {flags}: the version of the target", version_of(read(target)) == made == version_of(read(source)))
            self.told(f"save-as {flags}: all sums of both", made == 2 or is_summed(read(target)) and is_summed(read(source)))
            run([self.geosvm, "--as", again, target], "newraw 4 400\nsaveas\n")
            self.told(f"save-as {flags}: the version goes on", version_of(read(again)) == made and (made == 2 or is_summed(read(again))))

    def restore(self, name, script, *flags):
        path = self.path(name)
        if os.path.exists(path):
            os.remove(path)
        assert run([self.geosdoc, "restore", *flags, path], script) == "", "a restore tells nothing"
        return path

    def restored(self, what, old, chance):
        """A dump and a salvage are restored with checksums and without: to the same documents, and with them where they are asked for."""
        source, made, damaged = self.path("source"), self.path("made"), self.path("damaged")
        write(source, old)
        script = dump(self.geosdoc, source).decode()
        plain, summed = self.restore("plain", script), self.restore("summed", script, "--checksums")
        run([self.geosvm, "--new", "--checksums", made], script)
        self.told(f"{what}, restored: the same documents", self.both_dumped(plain, source) and self.both_dumped(summed, source))
        self.told(f"{what}, restored: checksums just where they are asked for", is_summed(read(summed)) and version_of(read(plain)) == 2)
        self.told(f"{what}, restored: what geosvm makes by the script", read(summed) == read(made))
        if not is_summed(read(summed)):
            return
        data, handles = with_wrong_sums(chance, read(summed))
        write(damaged, data)
        status, script, told = salvage(self.geosdoc, damaged)
        self.told(f"{what}: a file with wrong sums is salvaged", (status, told, script.count("# block ")) == (0, "", len(handles)))
        checked = subprocess.run([self.geosdoc, "check", damaged], capture_output=True, text=True)
        steps = [line for line in checked.stdout.splitlines() if line.startswith("next: ")]
        self.told(f"{what}: what can be done gives it checksums again", bool(steps) and all("restore --checksums" in step for step in steps))
        plain, summed = self.restore("plain", script), self.restore("summed", script, "--checksums")
        self.told(f"{what}, salvaged: the same documents", self.both_dumped(plain, summed))
        self.told(f"{what}, salvaged: checksums just where they are asked for", is_summed(read(summed)) and version_of(read(plain)) == 2)

    def changed_meanwhile(self):
        """Bytes of a block that isn't in memory are changed under a run: it is told when the block is read."""
        path = self.path("meanwhile")
        run([self.geosvm, "--new", "--checksums", path], "newraw 1 9000\nnewheap 2\nalloc 0002 40\nnewraw 3 20\nsave\n")
        for block, ask in ((1, "vread 0001"), (2, "read 0002 0010")):
            place = self.path("changed")
            shutil.copy(path, place)
            words = [self.geosvm, "--cache", "1", "--as", self.path("other"), place]
            with subprocess.Popen(words, stdin=subprocess.PIPE, stdout=subprocess.PIPE, text=True, bufsize=1) as at_work:
                def line(words):
                    at_work.stdin.write(words + "\n")
                    at_work.stdin.flush()
                    return at_work.stdout.readline().strip()
                first = line("vread 0003")
                data = bytearray(read(place))
                slot = max(slots_of(bytes(data)))[1]
                entry = PAGE * word(slot, 16, 4) + 16 + 20 * (block - 1)
                data[PAGE * word(data, entry + 4, 4) + word(data, entry + 8, 4) - 1] ^= 1
                with open(place, "r+b") as file:
                    file.write(data)
                told = [line(ask), line("vread 0003"), line("saveas"), line(ask)]
                at_work.stdin.close()
            self.told(f"block {block} is changed meanwhile: {told}", told[0] == told[2] == told[3] == "no 3 Damaged" and told[1] == first)


def main():
    geosvm, geosdoc = map(os.path.abspath, sys.argv[1:3])
    count = int(sys.argv[3]) if len(sys.argv) > 3 else 4
    chance = random.Random(int(sys.argv[4]) if len(sys.argv) > 4 else 1)
    with tempfile.TemporaryDirectory() as folder:
        tries = Given(geosvm, geosdoc, folder)
        tries.new_file()
        tries.changed_meanwhile()
        for i in range(count):
            path = tries.path("old")
            run([geosvm, "--new", path], script_of(chance))
            old = read(path)
            tries.given(f"document{i} of version 2", old, chance)
            tries.given(f"document{i} of version 1", as_version_1(old), chance)
            tries.saved_as(old)
            tries.restored(f"document{i}", old, chance)
    print(f"{tries.passed} passed, {tries.failed} failed")
    sys.exit(tries.failed != 0)


if __name__ == "__main__":
    main()
