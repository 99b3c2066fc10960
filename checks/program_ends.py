# Needs: python3
"""How runs of both programs end: the exit status, what is told and on which stream, and that the files are as they were.

    python3 checks/program_ends.py GEOSVM GEOSDOC
"""
import fcntl
import os
import shutil
import subprocess
import sys
import tempfile

MADE = "newraw 7 3\nvwrite 0001 0 616263\nsave\n"
NO_DOCUMENT = b"this is no document\n" * 100


class Ends:
    def __init__(self, folder):
        self.folder, self.passed, self.failed = folder, 0, 0

    def path(self, name):
        return os.path.join(self.folder, name)

    def files(self):
        files = {}
        for name in os.listdir(self.folder):
            with open(self.path(name), "rb") as file:
                files[name] = file.read()
        return files

    def told(self, name, wanted, got):
        if wanted == got:
            self.passed += 1
        else:
            self.failed += 1
            print(f"FAILED  {name}: wanted {wanted}, got {got}")

    def run(self, words, script=b"", **how):
        if isinstance(script, str):
            script = script.encode()
        if "stdin" not in how:
            how["input"] = script
        done = subprocess.run(words, cwd=self.folder, stdout=subprocess.PIPE, stderr=subprocess.PIPE, timeout=60, **how)
        return done.returncode, done.stdout.decode(), done.stderr.decode()

    def ends(self, name, words, status, output, errors, script="", **how):
        """A run that ends so, and leaves each file as it was. Of what is told `...` at the end leaves the rest open."""
        before = self.files()
        got = self.run(words, script, **how)
        as_wanted = [wanted if is_like(text, wanted) else text for text, wanted in ((got[1], output), (got[2], errors))]
        self.told(name, (status, output, errors), (got[0], *as_wanted))
        self.told(f"{name}: the files", before, self.files())


def is_like(text, wanted):
    return text.startswith(wanted[:-3]) and len(text) > len(wanted) - 3 if wanted.endswith("...") else text == wanted


def damaged(document):
    """The document with another mark at the directory of each slot."""
    data = bytearray(document)
    for slot in (0, 512):
        page = int.from_bytes(data[slot + 16:slot + 20], "little")
        if data[slot + 4] == 1:
            data[512 * page:512 * page + 4] = b"none"
    return bytes(data)


def try_geosvm(ends, geosvm):
    ends.ends("geosvm --help", [geosvm, "--help"], 0, "...", "")
    ends.ends("geosvm -h", [geosvm, "-h"], 0, "...", "")
    ends.ends("geosvm --version", [geosvm, "--version"], 0, "geosvm ...", "")
    ends.ends("geosvm without a file", [geosvm], 2, "", "error...")
    ends.ends("geosvm with two files", [geosvm, "document", "other"], 2, "", "error...")
    ends.ends("geosvm with no such option", [geosvm, "--none", "document"], 2, "", "error...")
    ends.ends("geosvm with no frames", [geosvm, "--cache", "0", "document"], 2, "", "error...")
    ends.ends("geosvm with a word that is no text", [geosvm, b"\xff"], 2, "", "error: invalid UTF-8...")
    ends.ends("geosvm with FILE as FILE2", [geosvm, "--as", "document", "document"], 2, "", "geosvm: FILE2 is FILE\n")
    ends.ends("geosvm, an empty file", [geosvm, "empty"], 1, "", "geosvm: open 4 NotDocument\n")
    ends.ends("geosvm, no document", [geosvm, "other"], 1, "", "geosvm: open 4 NotDocument\n")
    ends.ends("geosvm, a damaged document", [geosvm, "damaged"], 1, "", "geosvm: open 3 Damaged\n")
    ends.ends("geosvm, refusals", [geosvm, "document"], 0, "no 5 NoBlock\nbytes 616263\nno 25 BadCommand\n", "",
              "vfree 0009\nvread 0001\nnothing\n")
    ends.ends("geosvm --bail", [geosvm, "--bail", "document"], 1, "bytes 616263\nno 5 NoBlock\n", "geosvm: line 2 is refused\n",
              "vread 0001\nvfree 0009\nvread 0001\n")
    # Each line counts, one that gets no reply and one that no read gives as a whole too.
    ends.ends("geosvm --bail, notes and empty lines", [geosvm, "--bail", "document"], 1, "no 5 NoBlock\n", "geosvm: line 5 is refused\n",
              "# a note\n\n \t\r\n" + "#" * 100_000 + "\nvfree 0009\n")
    ends.ends("geosvm --bail, the last line", [geosvm, "--bail", "document"], 1, "bytes 616263\nno 25 BadCommand\n",
              "geosvm: line 100002 is refused\n", "\n" * 100_000 + "vread 0001\nnothing")
    ends.ends("geosvm --bail, the first line", [geosvm, "--bail", "document"], 1, "no 5 NoBlock\n", "geosvm: line 1 is refused\n", "vfree 0009")
    ends.ends("geosvm --echo", [geosvm, "--echo", "document"], 0, "# a note\nvread 0001\nbytes 616263\n", "", "# a note\nvread 0001")
    folder = os.open(ends.folder, os.O_RDONLY)
    ends.ends("geosvm, a script that can't be read", [geosvm, "document"], 1, "", "geosvm: read fault\n", stdin=folder)
    os.close(folder)


def unopened(step, name, cause):
    """What geosvm tells of a file that isn't opened."""
    return f"geosvm: {step} 2 File\ngeosvm: {name}: {cause}\n"


def try_causes(ends, geosvm):
    """Why FILE or FILE2 isn't opened is told behind its name."""
    long_name = "n" * 300
    for name, words, step, cause in (
        ("missing", ["missing"], "open", "no such file"),
        ("none/document", ["none/document"], "open", "no such file"),
        ("document/x", ["document/x"], "open", "no such folder"),
        (".", ["."], "open", "it is a folder"),
        (long_name, [long_name], "open", "the name is too long"),
        ("none/document", ["--new", "none/document"], "create", "no such folder"),
        ("document/x", ["--new", "document/x"], "create", "no such folder"),
        (".", ["--new", "."], "create", "it is a folder"),
        (long_name, ["--new", long_name], "create", "the name is too long"),
        ("none/target", ["--as", "none/target", "document"], "target", "no such folder"),
        (".", ["--as", ".", "document"], "target", "it is a folder"),
        ("./document", ["--as", "./document", "document"], "target", "open already under another name"),
        ("hard", ["--as", "hard", "document"], "target", "open already under another name"),
        ("soft", ["--as", "soft", "document"], "target", "open already under another name"),
        ("./document", ["--new", "--as", "./document", "document"], "target", "open already under another name"),
    ):
        ends.ends(f"geosvm {' '.join(words)[:40]}: {cause}", [geosvm, *words], 1, "", unopened(step, name, cause))
    with tempfile.TemporaryDirectory() as folder:
        circle = os.path.join(folder, "circle")
        os.symlink("circle", circle)
        ends.ends("geosvm, a link to itself", [geosvm, circle], 1, "", unopened("open", circle, "too many links"))
    # A device is opened, and is no document.
    ends.ends("geosvm /dev/null", [geosvm, "/dev/null"], 1, "", "geosvm: open 4 NotDocument\n")


def try_permissions(ends, geosvm):
    """A user who may not read and write a file, or make one there, is told so. Whoever may do all becomes nobody for that."""
    nobody = {"user": 65534, "group": 65534, "extra_groups": []} if os.geteuid() == 0 else {}
    with tempfile.TemporaryDirectory() as folder:
        program = os.path.join(folder, "geosvm")
        shutil.copy(geosvm, program)
        theirs = os.path.join(folder, "theirs")
        os.mkdir(theirs)
        document = os.path.join(theirs, "document")
        shutil.copy(ends.path("document"), document)
        for path, mode in ((folder, 0o755), (program, 0o755), (theirs, 0o555)):
            os.chmod(path, mode)
        made = os.path.join(theirs, "made")
        for mode in (0o000, 0o444, 0o222):
            os.chmod(document, mode)
            ends.ends(f"geosvm, a file of the mode {mode:03o}", [program, document], 1, "", unopened("open", document, "permission denied"), **nobody)
        ends.ends("geosvm --new, a folder that isn't written", [program, "--new", made], 1, "", unopened("create", made, "permission denied"), **nobody)
        os.chmod(theirs, 0o311)
        ends.ends("geosvm --new, a folder that isn't read", [program, "--new", made], 1, "", unopened("create", made, "permission denied"), **nobody)
        ends.told("nothing was made there", False, os.path.exists(made))
        os.chmod(theirs, 0o755)


def try_geosdoc(ends, geosdoc):
    ends.ends("geosdoc --help", [geosdoc, "--help"], 0, "...", "")
    ends.ends("geosdoc check --help", [geosdoc, "check", "--help"], 0, "...", "")
    ends.ends("geosdoc --version", [geosdoc, "--version"], 0, "geosdoc ...", "")
    ends.ends("geosdoc without a command", [geosdoc], 2, "", "...")
    ends.ends("geosdoc with no such command", [geosdoc, "none", "document"], 2, "", "error...")
    ends.ends("geosdoc without a file", [geosdoc, "check"], 2, "", "error...")
    for command in ("check", "dump", "stat", "map"):
        ends.ends(f"geosdoc {command}", [geosdoc, command, "document"], 0, "...", "")
        ends.ends(f"geosdoc {command}, no file", [geosdoc, command, "missing"], 1, "", "geosdoc: missing: no such file\n")
        ends.ends(f"geosdoc {command}, a folder", [geosdoc, command, "."], 1, "", "geosdoc: .: not a regular file\n")
    for command in ("dump", "stat", "map"):
        ends.ends(f"geosdoc {command}, no document", [geosdoc, command, "other"], 1, "", "geosdoc: other: ...")
        ends.ends(f"geosdoc {command}, a damaged document", [geosdoc, command, "damaged"], 1, "", "geosdoc: damaged: ...")
    ends.ends("geosdoc check, no document", [geosdoc, "check", "other"], 1, "opens: no, NotDocument\n...", "")
    ends.ends("geosdoc check, a damaged document", [geosdoc, "check", "damaged"], 1, "opens: no, Damaged\n...", "")
    ends.ends("geosdoc restore, a file that is there", [geosdoc, "restore", "other"], 1, "", "geosdoc: other: it is there already\n", MADE)
    ends.ends("geosdoc restore, an empty file", [geosdoc, "restore", "empty"], 1, "", "geosdoc: empty: it is there already\n", MADE)
    ends.ends("geosdoc restore, no folder", [geosdoc, "restore", "none/document"], 1, "", "geosdoc: none/document: no such folder\n", MADE)
    folder = os.open(ends.folder, os.O_RDONLY)
    ends.told("geosdoc restore, a script that can't be read", (1, "", "geosdoc: read fault\n"), ends.run([geosdoc, "restore", "half"], stdin=folder))
    os.close(folder)
    os.remove(ends.path("half"))
    wanted = 1, "", "geosdoc: half: line " + str(MADE.count("\n") + 1) + " of the script is refused: no 5 NoBlock\n"
    ends.told("geosdoc restore, a line that is refused", wanted, ends.run([geosdoc, "restore", "half"], MADE + "vfree 0009\n"))
    os.remove(ends.path("half"))
    ends.told("geosdoc restore", (0, "", ""), ends.run([geosdoc, "restore", "again"], MADE))
    with open(ends.path("document"), "rb") as one, open(ends.path("again"), "rb") as other:
        ends.told("geosdoc restore makes what geosvm makes", one.read(), other.read())
    os.remove(ends.path("again"))
    ends.told("geosdoc restore --checksums", (0, "", ""), ends.run([geosdoc, "restore", "--checksums", "again"], MADE))
    with open(ends.path("again"), "rb") as made:
        ends.told("geosdoc restore --checksums makes a file of version 3", 3, made.read()[5])
    os.remove(ends.path("again"))


def try_locks(ends, geosvm, geosdoc):
    """Who else may have the file: others that look at it beside a look, and nobody beside a `geosvm`."""
    with open(ends.path("document"), "rb") as file:
        fcntl.flock(file, fcntl.LOCK_SH)
        for command in ("check", "dump", "stat", "map"):
            ends.ends(f"geosdoc {command} beside another look", [geosdoc, command, "document"], 0, "...", "")
        in_use = "in use by another program"
        ends.ends("geosvm beside a look", [geosvm, "document"], 1, "", unopened("open", "document", in_use))
        ends.ends("geosvm --new beside a look", [geosvm, "--new", "document"], 1, "", unopened("create", "document", in_use))
        ends.ends("geosvm with a target beside a look", [geosvm, "--as", "document", "second"], 1, "", unopened("target", "document", in_use))
    with open(ends.path("document"), "rb") as file:
        fcntl.flock(file, fcntl.LOCK_EX)
        for command in ("check", "dump", "stat", "map"):
            ends.ends(f"geosdoc {command} beside a program that writes", [geosdoc, command, "document"], 1, "",
                      "geosdoc: document: in use by another program\n")
        ends.ends("geosvm beside a program that writes", [geosvm, "document"], 1, "", unopened("open", "document", in_use))


def main():
    geosvm, geosdoc = map(os.path.abspath, sys.argv[1:3])
    with tempfile.TemporaryDirectory() as folder:
        ends = Ends(folder)
        ends.told("a document is made", (0, "block 0001\nok\nok\n", ""), ends.run([geosvm, "--new", "document"], MADE))
        with open(ends.path("document"), "rb") as file:
            document = file.read()
        for name, content in (("other", NO_DOCUMENT), ("empty", b""), ("damaged", damaged(document))):
            with open(ends.path(name), "wb") as file:
                file.write(content)
        os.link(ends.path("document"), ends.path("hard"))
        os.symlink("document", ends.path("soft"))
        shutil.copy(ends.path("document"), ends.path("second"))
        try_causes(ends, geosvm)
        try_permissions(ends, geosvm)
        os.remove(ends.path("hard"))
        try_geosvm(ends, geosvm)
        try_geosdoc(ends, geosdoc)
        try_locks(ends, geosvm, geosdoc)
    print(f"{ends.passed} passed, {ends.failed} failed")
    sys.exit(ends.failed != 0)


if __name__ == "__main__":
    main()
