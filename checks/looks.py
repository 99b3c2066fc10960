# Needs: python3
"""Plays the cases of checks/looks: files that scripts make, whose bytes are changed, and what geosdoc tells of them.

    python3 checks/looks.py GEOSVM GEOSDOC [FILE..]

A case file is read line by line. An indented line is a line of a script, which `geosvm --new` makes the file by, or `geosvm` goes on
with; no line is refused. A line that begins with `#` is a note. At the left margin stands one of these:

    case NAME, define NAME, use NAME     a case begins; steps that cases use; they stand here
    often 300                            the lines of a script below are said so often
    for 1..300/5                         they are said for each number, by steps of 5: <number>, as a handle <handle>, and <number+1>
    then                                 they are said once
    make                                 the script so far is run
    some refused                         lines of scripts may be refused from here on
    bytes 47*4 00                        the file has these bytes: in a word 61+00*4 stands for 6100000000
    layout 10                            the file has so many pages, laid out by docs/FORMAT.md, of which slot 0 counts
    updated 6, saved 2                   the document whose directory lies on that page; its blocks stand below, each a handle, the page
                                         of its image and the image; `0001..2000 259 01` are so many blocks, a page each
    put 5 03                             it has these bytes there
    cut 1023                             it has its first bytes, so many
    opens, opens no Damaged              geosdoc check tells that, and geosvm opens it just so; where nothing of the slot that counts
                                         is found it opens, and where something is it doesn't
    finds TEXT                           the check has that line
    next dump --other, salvage           its last lines name these commands as what can be done, or say this; nothing behind `next`: none does;
                                         with `--checksums` behind a command the restore of what it writes is to have that
    overlap: TEXT                        and this one; it has no other ones of overlaps than those that stand here
    dump                                 geosdoc dump writes the lines below that begin with `| `, the file stays as it is, and the dump
                                         makes both documents again, and that of the saved one alone makes this
    dumps 81, dumps more than 81         the same, of which so many lines are all that is known
    other                                geosdoc dump --other writes the lines below
    keeps other                          after the script below the other slot has the documents from before, by their dump
    stat raw_blocks.count 3              geosdoc stat --json has this there, of the updated document, of saved or of the file; or more than 3
    counted                              all that it has is what docs/FORMAT.md alone says of the file
    map                                  geosdoc map writes the lines below
    rows                                 it begins with them
    mapped TEXT, mapped 2 of TEXT        this stands there once; so often
    drawn TEXT, drawn 2 of TEXT          the same of geosdoc map --svg
    unmapped Damaged                     neither is written, since the file doesn't open
    each byte 0..32 1024..1030           each byte there is changed in three ways: geosdoc check and geosdoc stat tell what geosvm does
    most refused 250                     more than so many of these aren't opened
"""
import json
import os
import re
import struct
import subprocess
import sys
import tempfile

from dumped_documents import documents_of
from stat_counted import wanted as counted_by_format

FAULTS = {"NotDocument": "4", "Damaged": "3"}


class Wrong(Exception):
    pass


def expect(wanted, given, what=""):
    if wanted != given:
        raise Wrong(f"{what}{': ' if what else ''}wanted {wanted!r}, got {given!r}")


def expanded(text):
    """Hexadecimal digits."""
    parts = (part.split("*") for word in text.split() for part in word.split("+"))
    return bytes.fromhex("".join(part[0] * int(part[1]) if len(part) > 1 else part[0] for part in parts))


def read_cases(path):
    """Each case: its name, and its items, a number of a line, a line at the left margin, and the lines below that belong to it."""
    sections, order = {}, []
    with open(path, encoding="utf-8") as file:
        lines = file.read().split("\n")
    for number, line in enumerate(lines, 1):
        word, _, rest = line.partition(" ")
        if not line or line.startswith("#"):
            continue
        if word in ("case", "define"):
            order.append((word == "case", rest))
            items = sections[rest] = [(number, "then", [])]
        elif line.startswith((" ", "|")):
            items[-1][2].append(line[2:] if line.startswith("|") else line.strip())
        elif word == "use":
            items += sections[rest] + [(number, "then", [])]
        else:
            items.append((number, line, []))
    return [(name, sections[name]) for is_case, name in order if is_case]


def said(mark, number):
    number += int(mark[2] or 0)
    return str(number) if mark[1] == "number" else f"{number:04x}"


class Case:
    def __init__(self, programs, folder):
        self.geosvm, self.geosdoc = programs
        self.folder = folder
        self.path = os.path.join(folder, "document")
        self.script = []
        self.found = []
        self.overlaps = []
        self.refused = 0
        self.may_refuse = False

    def run(self, words, text=""):
        done = subprocess.run(words, input=text.encode(), stdout=subprocess.PIPE, stderr=subprocess.PIPE, timeout=120)
        return done.returncode, done.stdout.decode(), done.stderr.decode()

    def make(self, path, script, is_new, may_refuse=False):
        status, replies, errors = self.run([self.geosvm] + ["--new"] * is_new + [path], script)
        expect((0, ""), (status, errors))
        expect(script.count("\n"), replies.count("\n"), "replies")
        refused = [reply for reply in replies.splitlines() if reply.startswith("no ")]
        if not may_refuse:
            expect([], refused, "replies")

    def made(self):
        """The file, by the script so far, unless it is made already."""
        if self.script or not os.path.exists(self.path):
            script = "".join(line + "\n" for line in self.script)
            self.make(self.path, script, not os.path.exists(self.path), self.may_refuse)
            self.script = []
        with open(self.path, "rb") as file:
            return file.read()

    def write(self, data):
        with open(self.path, "wb") as file:
            file.write(data)

    def dump_of(self, path, *options):
        with open(path, "rb") as file:
            before = file.read()
        given = self.run([self.geosdoc, "dump", *options, path])
        with open(path, "rb") as file:
            expect(before, file.read(), "the file behind a dump")
        expect((0, ""), (given[0], given[2]), "a dump")
        return given[1]

    def tell(self, word, rest, lines):
        getattr(self, "do_" + word.rstrip(":"))(rest, lines)

    def do_then(self, rest, lines):
        self.script += lines

    def do_often(self, rest, lines):
        self.script += lines * int(rest)

    def do_for(self, rest, lines):
        first, last, step = re.fullmatch(r"(\d+)\.\.(\d+)(?:/(\d+))?", rest).groups("1")
        for number in range(int(first), int(last) + 1, int(step)):
            self.script += [re.sub(r"<(number|handle)(?:\+(\d+))?>", lambda mark: said(mark, number), line) for line in lines]

    def do_make(self, rest, lines):
        self.made()
        self.script += lines

    def do_some(self, rest, lines):
        self.may_refuse = True

    def do_bytes(self, rest, lines):
        self.write(expanded(rest))

    def do_layout(self, rest, lines):
        self.write(b"GVMF\x01\x02\0\0\x01" + bytes(512 * int(rest) - 9))

    def do_document(self, page, slot_at, lines):
        data, entries = bytearray(self.made()), b""
        for line in lines:
            handles, first, image = line.split(" ", 2)
            first, image = int(first), expanded(image)
            low, _, high = handles.partition("..")
            for place, handle in enumerate(range(int(low, 16), int(high or low, 16) + 1)):
                entries += struct.pack("<HHIII", handle, 0, first + place, len(image), 0)
                data[512 * (first + place):512 * (first + place) + len(image)] = image
        text = b"GDIR" + struct.pack("<HHQ", 2, len(entries) // 16, 0) + entries
        data[512 * page:512 * page + len(text)] = text
        data[slot_at:slot_at + 8] = struct.pack("<II", page, len(text))
        self.write(data)

    def do_updated(self, rest, lines):
        self.do_document(int(rest), 16, lines)

    def do_saved(self, rest, lines):
        self.do_document(int(rest), 24, lines)

    def do_put(self, rest, lines):
        at, digits = rest.split(" ", 1)
        data, put = bytearray(self.made()), expanded(digits)
        data[int(at):int(at) + len(put)] = put
        self.write(data)

    def do_cut(self, rest, lines):
        self.write(self.made()[:int(rest)])

    def verdict(self):
        """How geosvm opens the file, which is to stay as it is."""
        data = self.made()
        status, replies, errors = self.run([self.geosvm, self.path], "")
        expect(data, self.made(), "the file behind an opening")
        if status == 0:
            return "yes"
        match = re.fullmatch(r"geosvm: open (\d+) (\w+)\n", errors)
        expect((1, "", FAULTS.get(match and match[2])), (status, replies, match and match[1]), errors)
        return "no, " + match[2]

    def check(self):
        """The verdict of a check, which is that of an opening, and its lines. Of the slot that counts something is found just where that is
        refused."""
        status, text, errors = self.run([self.geosdoc, "check", self.path])
        verdict, lines = self.verdict(), text.splitlines()
        expect((f"opens: {verdict}", ""), (lines[0], errors), "a check")
        expect(0 if verdict == "yes" else 1, status, "its status")
        expect(f"length: {len(self.made())} bytes", lines[1])
        counts = [line for line in lines if line.startswith("counts: ")][0]
        if counts.startswith("counts: slot"):
            faults = [line for line in lines if line.startswith(counts[8:] + ": ")][1:]
            expect(verdict != "yes", bool(faults), "something is found")
        return verdict, lines

    def do_opens(self, rest, lines):
        self.made()
        verdict, self.found = self.check()
        expect(rest.replace("no ", "no, ") or "yes", verdict)
        self.overlaps = [line for line in self.found if line.startswith("overlap: ")]

    def do_finds(self, rest, lines):
        if rest not in self.found:
            raise Wrong(f"wanted {rest!r}, found {self.found}")

    def do_next(self, rest, lines):
        steps = [line.removeprefix("next: geosdoc ").removeprefix("next: ") for line in self.found if line.startswith("next: ")]
        named = [re.sub(r" FILE \| geosdoc restore( --checksums)? FILE2 makes .*", r"\1", step) for step in steps]
        expect(rest, ", ".join(named), "what can be done")

    def do_overlap(self, rest, lines):
        expect("overlap: " + rest, self.overlaps.pop(0) if self.overlaps else None)

    def tried_dump(self):
        """The dump, when all that is known of it was looked at."""
        self.made()
        again = os.path.join(self.folder, "again")
        wanted, dump = documents_of(self.path), self.dump_of(self.path)
        if max(map(len, dump.splitlines()), default=0) > 96:
            raise Wrong("a line of a dump is long")
        saved = self.dump_of(self.path, "--saved")
        for script, documents in ((dump, wanted), (saved, [wanted[1]] * 2)):
            self.make(again, script, True)
            expect(documents, documents_of(again), "documents")
            expect(script, self.dump_of(again), "a dump")
        if not dump.startswith(saved):
            raise Wrong("the saved document's dump is another one")
        return dump

    def do_dump(self, rest, lines):
        expect("".join(line + "\n" for line in lines), self.tried_dump(), "a dump")

    def do_dumps(self, rest, lines):
        count = len(self.tried_dump().splitlines())
        least = rest.removeprefix("more than ")
        if least != rest and count > int(least):
            return
        expect(rest, str(count), "lines")

    def do_other(self, rest, lines):
        self.made()
        expect("".join(line + "\n" for line in lines), self.dump_of(self.path, "--other"), "the other slot's dump")

    def do_keeps(self, rest, lines):
        self.made()
        before = self.dump_of(self.path)
        self.script = lines
        self.made()
        expect(before, self.dump_of(self.path, "--other"), "the other slot's dump")

    def stat(self):
        self.made()
        status, text, errors = self.run([self.geosdoc, "stat", "--json", self.path])
        expect((0, ""), (status, errors), "stat")
        return json.loads(text)

    def do_counted(self, rest, lines):
        value = self.stat()
        expect(counted_by_format(self.made()), value, "stat")
        self.script += lines

    def do_stat(self, rest, lines):
        key, wanted = rest.split(" ", 1)
        value = self.stat()
        if key.split(".")[0] not in value:
            value = value["updated"]
        for part in key.split("."):
            value = value[int(part)] if isinstance(value, list) else value[part]
        least = wanted.removeprefix("more than ")
        if least != wanted and value > int(least):
            return
        expect(json.loads(least), value, key)

    def picture(self, *options):
        self.made()
        status, text, errors = self.run([self.geosdoc, "map", *options, self.path])
        expect((0, ""), (status, errors), "a picture")
        return text

    def do_map(self, rest, lines):
        expect("".join(line + "\n" for line in lines), self.picture(), "a picture")

    def do_rows(self, rest, lines):
        wanted = "".join(line + "\n" for line in lines)
        expect(wanted, self.picture()[:len(wanted)], "a picture")

    def stands(self, rest, text):
        count, part = re.fullmatch(r"(?:(\d+) of )?(.*)", rest).groups("1")
        expect(int(count), text.count(part), f"of {part!r}")

    def do_mapped(self, rest, lines):
        self.stands(rest, self.picture())

    def do_drawn(self, rest, lines):
        text = self.picture("--svg")
        expect("</svg>\n", text[-7:], "the end")
        self.stands(rest, text)

    def do_unmapped(self, rest, lines):
        for options in ([], ["--svg"]):
            given = self.run([self.geosdoc, "map", *options, self.path])
            expect((1, "", f"geosdoc: {self.path}: it doesn't open, {rest}\n"), given, "a picture")

    def do_each(self, rest, lines):
        data = self.made()
        for place in rest.split()[1:]:
            first, last = map(int, place.split(".."))
            for at in range(first, last):
                for byte in (data[at] ^ 1, data[at] ^ 128, 255):
                    self.write(data[:at] + bytes([byte]) + data[at + 1:])
                    self.try_byte(at, byte)
        self.write(data)

    def try_byte(self, at, byte):
        try:
            verdict, _ = self.check()
            status, text, errors = self.run([self.geosdoc, "stat", self.path])
            expect(verdict == "yes", status == 0, "stat")
        except Wrong as wrong:
            raise Wrong(f"{byte} at {at}: {wrong}") from None
        self.refused += verdict != "yes"

    def do_most(self, rest, lines):
        least = int(rest.split()[1])
        if self.refused <= least:
            raise Wrong(f"wanted more than {least}, got {self.refused}")


def play(programs, name, items):
    """Why a case doesn't go as it is written, if it doesn't."""
    with tempfile.TemporaryDirectory() as folder:
        case = Case(programs, folder)
        for number, line, lines in items:
            word, _, rest = line.partition(" ")
            try:
                if word not in ("finds", "overlap:"):
                    expect([], case.overlaps, "overlaps")
                case.tell(word, rest, lines)
            except Wrong as wrong:
                return f"line {number}: {wrong}"
        if case.overlaps:
            return f"line {number}: overlaps that aren't written: {case.overlaps}"
    return None


def main():
    programs = [os.path.abspath(path) for path in sys.argv[1:3]]
    folder = os.path.join(os.path.dirname(os.path.abspath(__file__)), "looks")
    passed = failed = 0
    for path in sys.argv[3:] or sorted(os.path.join(folder, name) for name in os.listdir(folder)):
        for name, items in read_cases(path):
            wrong = play(programs, name, items)
            passed += not wrong
            failed += bool(wrong)
            if wrong:
                print(f"FAILED  {os.path.basename(path)}, {name}, {wrong}")
    print(f"{passed} passed, {failed} failed")
    sys.exit(failed != 0)


if __name__ == "__main__":
    main()
