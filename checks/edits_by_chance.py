# Needs: python3
"""Makes edits, groups, undos, redos, joins, forgets, abandons and commits as they come, the same each time, and compares the document with
those that are kept here: the one before each step, the one before the group that is open, and those that were committed. Behind each step
that may change it `touched` is asked: what is told nowhere is as it was before. Some steps are named, and behind each step the names of
those that an undo and a redo take are asked for.

    python3 checks/edits_by_chance.py GEOSVM [COUNT]

A step is refused as docs/SCRIPT.md says, and a refused one changes nothing. It is done COUNT times, each time with other steps, with 1, 2
and 8 frames, and in half of the runs with a limit of steps. Whether it is saved is asked behind each step. At the end the file is opened
again, and has what was committed last, whether a group was open or not.
"""
import os
import random
import subprocess
import sys
import tempfile

STEPS = 300
# Two heaps with a chunk and an array of each kind, and raw blocks.
FIRST = ["newheap 1", "alloc 0001 4", "acreate 0001 0 0", "ecreate 0001 0", "ncreate 0001 1", "vcopy 0001"] + ["newraw 2 2"] * 4
SMALL, ARRAY, ELEMENTS, NAMES = "0010", "0012", "0014", "0016"
# How many handles a place of each kind has.
HANDLES = {"all": 0, "map": 0, "attributes": 1, "block": 1, "chunk": 2, "run": 2}


class Program:
    """A geosvm that answers line by line."""

    def __init__(self, words):
        self.process = subprocess.Popen(words, stdin=subprocess.PIPE, stdout=subprocess.PIPE, text=True)

    def __enter__(self):
        return self

    def __exit__(self, *wrong):
        self.process.kill()
        self.process.wait()

    def ask(self, lines):
        if not lines:
            return []
        self.process.stdin.write("".join(line + "\n" for line in lines))
        self.process.stdin.flush()
        replies = [self.process.stdout.readline() for _ in lines]
        assert all(reply.endswith("\n") for reply in replies), "the program ends before its script does"
        return [reply.rstrip("\n") for reply in replies]

    def end(self):
        self.process.stdin.close()
        assert self.process.wait(60) == 0 and self.process.stdout.read() == "", "a run ends otherwise"

    def answers(self, lines):
        return dict(zip(lines, self.ask(lines)))

    def document(self):
        """All that there is of it, each answer by its question; how much can be undone and made again, and whether it is as committed."""
        undos, redos, modified = (int(reply.split()[1]) for reply in self.ask(["undos", "redos", "modified"]))
        shown = self.answers(["list", "mapblock"])
        blocks = shown["list"].split()[1:]
        infos = self.answers([f"info {block}" for block in blocks])
        heaps = [block for block in blocks if infos[f"info {block}"].startswith("heap ")]
        shown |= infos | self.answers([f"vread {block}" for block in blocks if block not in heaps])
        shown |= self.answers([f"gettype {block}" for block in heaps])
        chunks = self.answers([f"chunks {block}" for block in heaps])
        shown |= chunks
        shown |= self.answers([line.replace("chunks", "read") + " " + chunk for line, told in chunks.items() for chunk in told.split()[1:]])
        return shown, undos, redos, modified


class Chance(random.Random):
    def few(self):
        return self.randrange(4)

    def block(self):
        return f"{self.randint(1, 8):04x}"

    def heap(self):
        return f"{self.randint(1, 2):04x}"

    def raw(self):
        return f"{self.randint(3, 6):04x}"

    def chunk(self):
        return f"{16 + 2 * self.randrange(5):04x}"

    def token(self):
        return f"{self.randrange(2):04x}"

    def data(self):
        return f"{self.few():02x}" * (1 + self.few())

    def edit_of_blocks(self):
        uid, block, raw = self.few(), self.block(), self.raw()
        return self.choice([f"newraw {uid} 2", f"newheap {uid}", f"vfree {block}", f"vfree {block}", f"vfree {block}", f"vcopy {block}",
                            f"uid {block} {uid}", f"uid {block} {uid}", f"map {block}", f"chcopy {raw}", f"settype {block} {uid}",
                            f"settype {block} {uid}", f"chfree {raw}", f"chfree {raw}"])

    def edit_of_bytes(self):
        raw, heap, at, n, data, link = self.raw(), self.heap(), self.few(), self.few(), self.data(), f"{self.randrange(7):02x}00"
        return self.choice([f"vwrite {raw} {at} {data}", f"vwrite {raw} {at} {data}", f"vwrite {raw} 0 {link}", f"vwrite {raw} 0 {link}",
                            f"attach {raw} {data}", f"alloc {heap} {n}", f"free {heap} {self.chunk()}", f"resize {heap} {SMALL} {n}",
                            f"insert {heap} {SMALL} {at} {n}", f"delete {heap} {SMALL} {at} {n}", f"write {heap} {SMALL} {at} {data}",
                            f"write {heap} {SMALL} {at} {data}", f"splice {heap} {SMALL} {at} {n} {data}", f"vsplice {raw} {at} {n} {data}"])

    def edit_of_arrays(self):
        heap, at, n, data = self.heap(), self.randrange(2), self.few(), self.data()
        inserts = [f"ainsert {heap} {ARRAY} {at} {data}"] * 6
        return self.choice(inserts + [f"acreate {heap} 0 {n}", f"aset {heap} {ARRAY} {at} {data}", f"aresize {heap} {ARRAY} {at} {n}",
                                      f"adelete {heap} {ARRAY} {at} 1", f"adelete {heap} {ARRAY} {at} 1", f"azero {heap} {ARRAY}"])

    def edit_of_elements(self):
        heap, token, n, data = self.heap(), self.token(), self.few(), self.data()
        adds = [f"eadd {heap} {ELEMENTS} {data}"] * 3 + [f"nadd {heap} {NAMES} {data} {self.few():02x} set"] * 4
        return self.choice(adds + [f"ecreate {heap} {n}", f"eref {heap} {ELEMENTS} {token}", f"eunref {heap} {ELEMENTS} {token}",
                                   f"edelete {heap} {ELEMENTS} {token}", f"echange {heap} {ELEMENTS} {token} {data}", f"ncreate {heap} {n}",
                                   f"nname {heap} {NAMES} {token} {data}", f"nset {heap} {NAMES} {token} {self.few():02x}",
                                   f"nunref {heap} {NAMES} {token}"])

    def name(self):
        return f"{self.randrange(256):02x}" * self.choice([0, 1, 2, 64, 65, self.randrange(66)]) or "-"

    def step(self):
        edit = self.choice([self.edit_of_blocks, self.edit_of_bytes, self.edit_of_arrays, self.edit_of_elements])()
        commit = self.choice(["revert"] + ["update"] * 3 + ["save"] * 4)
        forget = f"forget {self.choice([0, 1, 2, 4, 8, 12, 16, 20])}"
        turns = ["undo"] * 3 + ["redo"] * 2 + ["join"] * 2 + [forget]
        return self.choice(["begin"] * 3 + ["end"] * 2 + ["abandon"] + turns + [commit] + [f"name {self.name()}"] * 3 + [edit] * 12)


class State:
    """A document as a step left it. That of another step is another state, also where the documents are equal."""

    def __init__(self, document):
        self.document = document


class Kept:
    """The documents that there must be, those of the past and the future with the names of their steps. One that no undo and no redo leads
    to is in no list any more, so that it never comes to be now."""

    def __init__(self, document, limit):
        self.now = self.updated = self.saved = State(document)
        self.told = "places"
        self.past, self.future, self.group, self.has_edit, self.limit = [], [], None, False, limit
        # Whether the file has one directory for both documents.
        self.is_one = True
        self.groups = self.abandons = self.turns = self.joins = self.names = self.forgets = self.stars = 0

    def fault(self, step):
        if step in ("end", "abandon"):
            return "no 29 NoGroup" if self.group is None else None
        asked, _, name = step.partition(" ")
        if asked not in ("begin", "undo", "redo", "join", "name", "update", "save", "revert"):
            return None
        if self.group is not None:
            return "no 28 GroupOpen"
        if asked in ("undo", "name") and not self.past or asked == "join" and len(self.past) < 2:
            return "no 22 NothingToUndo"
        if asked == "redo" and not self.future:
            return "no 23 NothingToRedo"
        return "no 9 TooBig" if len(name) > 2 * 64 else None

    def modified(self):
        """Which of the committed states this one is."""
        stands = not (self.group and self.has_edit)
        return stands * ((self.now is self.saved) + 2 * (self.now is self.updated))

    def step_names(self):
        """What is answered of the next step that an undo takes back, and that a redo makes again."""
        if self.group is not None:
            return ["no 28 GroupOpen"] * 2
        return [f"bytes {steps[-1][1]}" if steps else fault
                for steps, fault in ((self.past, "no 22 NothingToUndo"), (self.future, "no 23 NothingToRedo"))]

    def forget(self, most):
        self.past = self.past[max(0, len(self.past) - most):]

    def step_from(self, state):
        self.past.append((state, "-"))
        if self.limit:
            self.forget(self.limit)

    def turn(self, undone, made):
        state, name = undone.pop()
        made.append((self.now, name))
        self.now = state
        self.turns += 1

    def join(self):
        """The document between the two steps goes."""
        (_, newer), (state, older) = self.past.pop(), self.past.pop()
        self.past.append((state, older if newer == "-" else newer))
        self.joins += 1

    def give_name(self, name):
        self.past[-1] = (self.past[-1][0], name)
        self.names += name != "-"

    def close_group(self, step):
        if step == "abandon":
            self.now = self.group
            self.abandons += self.has_edit
        elif self.has_edit:
            self.step_from(self.group)
            self.groups += 1
        self.group = None

    def commit(self, step):
        if step == "revert":
            self.now = self.saved
            self.past, self.future = [], []
        elif step == "save":
            self.saved = self.now
        self.updated = self.now
        self.is_one = step != "update"

    def edit(self, document):
        self.future, self.has_edit = [], True
        if self.group is None:
            self.step_from(self.now)
        self.now = State(document)

    def accept(self, step, document):
        if step == "begin":
            self.group, self.has_edit = self.now, False
        elif step in ("end", "abandon"):
            self.close_group(step)
        elif step == "undo":
            self.turn(self.past, self.future)
        elif step == "redo":
            self.turn(self.future, self.past)
        elif step == "join":
            self.join()
        elif step.startswith("name "):
            self.give_name(step.split()[1])
        elif step.startswith("forget "):
            before = len(self.past)
            self.forget(int(step.split()[1]))
            self.forgets += len(self.past) < before
        elif step in ("update", "save", "revert"):
            self.commit(step)
        else:
            self.edit(document)
        self.stars += self.modified() in (1, 2)

    def tally(self):
        return [self.groups, self.abandons, self.turns, self.joins, self.names, self.forgets, self.stars]


def places_in(reply):
    """What each place names: its kind and its handles."""
    assert reply.split()[0] == "places", reply
    words = reply.split()[1:]
    while words:
        handles, numbers = HANDLES[words[0]], 3 if words[0] == "run" else 0
        yield words[: 1 + handles]
        del words[: 1 + handles + numbers]


def may_change(line, place):
    """Whether something else may be answered where the document has changed at a place."""
    (asked, *names), (kind, *handles) = line.split(), place
    if kind == "all" or asked == "mapblock":
        return kind in ("all", "map")
    if asked == "list":
        return kind == "block"
    if kind == "block" or asked in ("info", "chunks"):
        return handles[:1] == names[:1]
    if asked == "gettype":
        return (kind, handles) == ("attributes", names)
    return kind in ("chunk", "run") and handles == (names + ["0000"])[:2]


def look_at_told(step, is_moved, old, new, kept, told):
    """What is told nowhere stays. A step that leaves the document leaves what is told too."""
    if not is_moved:
        assert told == kept.told, f"{told} behind {step}, which leaves {kept.told}"
        return
    kept.told, places = told, list(places_in(told))
    for line in old.keys() | new.keys():
        same = old.get(line) == new.get(line)
        assert same or any(may_change(line, place) for place in places), f"{step}: another answer to {line}, and {told}"


def take(program, kept, step):
    [reply] = program.ask([step])
    document, undos, redos, modified = program.document()
    told, *names = program.ask(["touched", "undoname", "redoname"])
    fault, old, is_edit = kept.fault(step), kept.now.document, " " in step and step.split()[0] not in ("forget", "name")
    is_moved = not reply.startswith("no ") and (is_edit or step in ("undo", "redo", "abandon", "revert"))
    if fault:
        assert reply == fault, f"{step}: wanted {fault}, got {reply}"
    elif not reply.startswith("no "):
        kept.accept(step, document)
    else:
        assert is_edit and reply not in ("no 1 Memory", "no 2 File"), f"{step}: {reply}"
    look_at_told(step, is_moved, old, document, kept, told)
    assert document == kept.now.document, f"another document behind {step}"
    assert (undos, redos) == (len(kept.past), len(kept.future)), f"something else can be undone or redone behind {step}"
    assert modified == kept.modified(), f"modified is {modified} and not {kept.modified()} behind {step}"
    assert names == kept.step_names(), f"the names are {names} and not {kept.step_names()} behind {step}"


def go(geosvm, path, frames, seed):
    chance = Chance(seed)
    limit = [None, 1, None, 2, None, 7][seed % 6]
    with Program([geosvm, "--new", "--cache", str(frames), *(["--undo", str(limit)] if limit else []), path]) as program:
        kept = Kept(program.document()[0], limit)
        for step in FIRST + [chance.step() for _ in range(STEPS)]:
            take(program, kept, step)
        program.end()
    with Program([geosvm, path]) as program:
        document, undos, redos, modified = program.document()
        assert document == kept.updated.document, "another updated document"
        assert (undos, redos, modified) == (0, 0, 3 if kept.is_one else 2), "something else is said of a file that was opened"
        program.ask(["revert"])
        document, _, _, modified = program.document()
        assert (document, modified) == (kept.saved.document, 3), "another saved document"
        program.end()
    return kept.tally()


def main():
    geosvm = os.path.abspath(sys.argv[1])
    count = int(sys.argv[2]) if len(sys.argv) > 2 else 20
    passed = failed = 0
    tally = [0] * 7
    with tempfile.TemporaryDirectory() as folder:
        for frames in (1, 2, 8):
            for seed in range(count):
                try:
                    tally = [a + b for a, b in zip(tally, go(geosvm, os.path.join(folder, "document"), frames, seed))]
                    passed += 1
                except AssertionError as wrong:
                    failed += 1
                    print(f"FAILED  {frames} frames, the steps of {seed}: {wrong}")
    groups, abandons, turns, joins, names, forgets, stars = tally
    print(f"        {groups} groups, {abandons} that were abandoned, {turns} undos and redos, {joins} joins, {names} names, {forgets} "
          f"times something was forgotten; {stars} times saved and not updated, or the reverse")
    # They aren't a few.
    often = abandons > count and turns > 12 * count and min(groups, joins, names, forgets, stars) > 2 * count
    print(f"{passed + often} passed, {failed + (not often)} failed")
    sys.exit(failed != 0 or not often)


if __name__ == "__main__":
    main()
