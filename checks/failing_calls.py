# Needs: gcc python3
"""Has each call of the system behind a document fail in turn, and looks at what is told and what is left in the files.

    python3 checks/failing_calls.py GEOSVM GEOSDOC [--library LIBGEOSVM]

GEOSVM and GEOSDOC are the programs of `crates/geosvm` and `crates/geosdoc`. With `--library` the program is one in C over the library
(checks/embedded.c), in place of these two: LIBGEOSVM is the archive that `embedding/build.sh` makes.

failing_calls.c tells each call, and has the call that is asked for fail: with an error once, with an interruption once, by moving half of
its bytes, or with an error from it on. Of each run of a program is looked at: what it told; that what it left opens to the documents of
the last commit that was acknowledged, or of one that was tried since; that no other file was touched. And of what is left by a stop of
the machine behind any call: that it leads to such documents too, where only what was synced is there, or that and one write more, or
the first few, or all. So it is seen whether the file is synced before and after each commit, and its folder after a file was made; and
whether a commit that gives a file its checksums is told only once no stop leaves a slot open beside it that has none. Where large arrays
are edited each reply is compared too, with the model of large_document.py, in which a refused line has changed nothing.
"""
import errno
import os
import shutil
import subprocess
import sys
import tempfile

from dumped_documents import documents_of, slots_of
from large_document import Block, Document, Machine as ArrayMachine

HERE = os.path.dirname(os.path.abspath(__file__))
OTHER = b"some other file\n"
SAVED = "newraw 7 2\nvwrite 0001 0 0001\nsave\n"
SCRIPT = "vwrite 0001 0 0010\nsave\nvwrite 0001 0 0011\nupdate\nvread 0001\nvwrite 0001 0 0012\nsave\nnewraw 8 9000\nvwrite 0001 0 0013\nupdate\nrevert\n"
BY_REVERT = "vwrite 0001 0 0010\nrevert\n"
COMMITS = ("save", "update", "revert")
TO_TARGET = "vwrite 0001 0 0020\nsaveas\nvwrite 0001 0 0021\nsave\n"
# An array of bytes with one full branch, and one with two short elements in its branch.
FULL, LONG = 65_510, 65_508
ARRAYS = f"hcreate 7 1\nhinsert 0001 0 {'61' * FULL}\nhcreate 7 0\nhinsert 0003 0 61\nhinsert 0003 1 6262\nsave\n"
# Branches are split in two and in three, edited over their edges, and joined again.
ARRAY_EDITS = f"""hinsert 0001 30000 6363
hset 0001 30000 64646464
undo
redo
hinsert 0003 1 {'65' * LONG}
update
hread 0001 29998 8
begin
hinsert 0001 30002 66
hdelete 0001 29000 20000
hset 0003 1 67
end
undo
redo
undo
hdelete 0003 0 2
save
hinsert 0003 0 68
undo
hget 0003 0
hread 0001 29999 4
"""

# What fails otherwise than by EIO and by an interruption.
HOWS = {
    "pwrite": [errno.EIO, errno.ENOSPC, errno.EINTR, "short"],
    "pread": [errno.EIO, errno.EINTR, "short"],
    "read": [errno.EIO, errno.EINTR, "short"],
    "write": [errno.EIO, errno.ENOSPC, errno.EINTR, "short"],
    "flock": [errno.EIO, errno.EWOULDBLOCK, errno.EINTR],
    "fsync": [errno.EIO, errno.ENOTSUP, errno.EINTR],
    # No signal interrupts these.
    "stat": [errno.EIO],
    "rename": [errno.EIO],
}
# What is told of a file that isn't opened, by the error of the call that fails.
CAUSES = [
    ("open file", errno.ENOENT, "no such file"),
    ("open file", errno.ENOTDIR, "no such folder"),
    ("open file", errno.EISDIR, "it is a folder"),
    ("open file", errno.EACCES, "permission denied"),
    ("open file", errno.EPERM, "permission denied"),
    ("open file", errno.EROFS, "on a read-only file system"),
    ("open file", errno.ENAMETOOLONG, "the name is too long"),
    ("open file", errno.ELOOP, "too many links"),
    ("open file", errno.ENOSPC, "no room on the disk"),
    ("open file", errno.EDQUOT, "no room on the disk"),
    ("open file", errno.EIO, "it can't be opened"),
    ("flock file", errno.EWOULDBLOCK, "in use by another program"),
    ("flock file", errno.EIO, "it can't be opened"),
]
# A failure of these is no failure of the program: a file is closed all the same, and a lock goes with it.
HARMLESS = {"close", "unlink", "lseek", "fchmod", "fchown"}
# Syncs are only counted, so that no disk needs to be waited for.
ROOMS = "/dev/shm" if os.access("/dev/shm", os.W_OK | os.X_OK) else None


class Call:
    """A line of what failing_calls.c tells."""

    def __init__(self, line):
        self.name, self.kind, node, at, size, result, more = line.rstrip("\n").split(" ", 6)
        self.node, self.at, self.size, self.result, self.more = int(node), int(at), int(size), int(result), more


class Checks:
    def __init__(self):
        self.passed = self.failed = 0

    def told(self, name, wrong):
        if wrong:
            self.failed += 1
            print(f"FAILED  {name}: {wrong}")
        else:
            self.passed += 1


class Ran:
    """A run of a program: what it told, and the calls that it made."""

    def __init__(self, done, calls):
        self.status, self.errors = done.returncode, done.stderr.decode(errors="replace")
        self.output = done.stdout.decode(errors="replace")
        self.calls = calls


def run(library, folder, words, script, failing=None, number=0, how=errno.EIO, lasts=False, is_bare=False):
    told = os.path.join(folder, "..", "told")
    if os.path.exists(told):
        os.remove(told)
    environment = dict(os.environ, LD_PRELOAD=library, CALLS_TOLD=os.path.abspath(told))
    if failing:
        environment |= {"FAILING_CALL": failing, "FAILING_NUMBER": str(number), "FAILING_HOW": str(how)}
    if lasts:
        environment["FAILING_LASTS"] = "yes"
    if is_bare:
        environment["CALLS_BARE"] = "yes"
    done = subprocess.run(words, cwd=folder, input=script.encode(), stdout=subprocess.PIPE, stderr=subprocess.PIPE,
                          env=environment, timeout=60)
    with open(told) as lines:
        return Ran(done, [Call(line) for line in lines])


# What a script makes, by its replies.

class Session:
    """The documents of a session, each the bytes of block 0001 and whether block 0002 is there; None where there is none."""

    EMPTY = b"", False
    # What is wrong with a reply.
    wrong = None

    def __init__(self, before):
        self.now = before or self.EMPTY
        self.saved = self.now
        self.acknowledged = before and (before, before)
        self.tried = []

    @staticmethod
    def document_of(blocks):
        return (blocks[1][2][1:] if 1 in blocks else b"", 2 in blocks)

    def commit(self, pair, reply):
        if reply == "ok":
            self.acknowledged, self.tried = pair, []
        else:
            self.tried.append(pair)

    def answer(self, line, reply):
        """A line of the script; no reply is that of a line which may have been carried out."""
        name, *operands = line.split()
        done = reply is None or not reply.startswith("no ")
        if name == "newraw" and done:
            # The first block has the first handle, also where the one before it was refused.
            is_first = reply == "block 0001" or reply is None and operands[0] == "7"
            self.now = (bytes(int(operands[1])), False) if is_first else (self.now[0], True)
        elif name == "vwrite" and done:
            self.now = bytes.fromhex(operands[2]) + self.now[0][2:], self.now[1]
        elif name == "update":
            self.commit((self.now, self.saved), reply)
        elif name == "save":
            self.commit((self.now, self.now), reply)
            if done:
                self.saved = self.now
        elif name == "revert":
            self.commit((self.saved, self.saved), reply)
            if done:
                self.now = self.saved

    def allowed(self):
        return [self.acknowledged, *self.tried]


class ArraySession(Session):
    """One that edits large arrays. Its documents are raw blocks with their user IDs, and its replies those of a model."""

    EMPTY = {}

    def __init__(self, before):
        super().__init__(before)
        self.machine = ArrayMachine(1)
        document = Document(self.now)
        self.machine.now = self.machine.updated = self.machine.saved = document

    @staticmethod
    def document_of(blocks):
        return {b: Block(user_id, image[1:]) for b, (user_id, _, image) in blocks.items()}

    def answer(self, line, reply):
        if reply != "no 2 File":
            wanted = self.machine.answer(line)
            if reply not in (None, wanted):
                self.wrong = self.wrong or f"{line[:60]} is answered {reply[:60]} and not {wanted[:60]}"
            self.now = self.machine.now.blocks
        super().answer(line, reply)


def pair_of(path, kind=Session):
    """What the file's updated and saved document are, in the words of a session of that kind; None where it is none."""
    try:
        documents = documents_of(path)
    except (AssertionError, IndexError, OSError):
        return None
    return tuple(kind.document_of(blocks) for _, blocks in documents)


def sessions_of(script, replies, before, kind=Session):
    """The session, and beside it the target's from its `saveas` on."""
    session, target = kind(before), None
    lines = script.splitlines()
    for at, line in enumerate(lines):
        reply = replies[at] if at < len(replies) else None
        if line == "saveas" and (reply is None or reply == "ok"):
            target = Session(None)
            target.now = target.saved = session.now
            target.commit((session.now, session.now), reply)
            continue
        (target or session).answer(line, reply)
        if target and reply is None:
            # Whether it went on in the target isn't known.
            session.answer(line, None)
    return session, target


# What a stop of the machine leaves.

class Machine:
    """The files of a folder, as they are and as they are on the disk, by the calls of a program."""

    def __init__(self, folder):
        self.names, self.content, self.disk, self.pending = {}, {}, {}, {}
        for name in os.listdir(folder):
            path = os.path.join(folder, name)
            node = os.stat(path).st_ino
            with open(path, "rb") as file:
                self.content[node] = self.disk[node] = file.read()
            self.names[name] = node
            self.pending[node] = []
        self.kept_names = dict(self.names)

    def happens(self, call):
        if call.result < 0:
            # What a sync that failed was to keep may be lost for good, though the next one succeeds.
            if call.name == "fsync" and call.kind == "file" and call.result != -errno.EINTR:
                self.pending[call.node] = []
            return
        if call.name == "open" and call.kind == "file" and call.at & os.O_CREAT:
            name = os.path.basename(call.more)
            if call.node not in self.names.values():
                self.names[name] = call.node
                self.content[call.node] = self.disk[call.node] = b""
                self.pending[call.node] = []
        elif call.name == "rename":
            old, new = map(os.path.basename, call.more.split("\t"))
            self.names[new] = self.names.pop(old)
        elif call.name == "unlink":
            self.names.pop(os.path.basename(call.more), None)
        elif call.kind == "file" and call.name in ("pwrite", "ftruncate"):
            change = (call.at, bytes.fromhex(call.more)) if call.name == "pwrite" else (call.at, None)
            self.content[call.node] = changed(self.content[call.node], change)
            self.pending[call.node].append(change)
        elif call.name == "fsync" and call.kind == "file":
            for change in self.pending[call.node]:
                self.disk[call.node] = changed(self.disk[call.node], change)
            self.pending[call.node] = []
        elif call.name == "fsync" and call.kind == "folder":
            self.kept_names = dict(self.names)

    def left(self, name):
        """All that a stop may leave under a name, as far as it is tried: None where the name isn't there."""
        for names in [self.names, self.kept_names] if self.names != self.kept_names else [self.names]:
            if name not in names:
                yield None
                continue
            node = names[name]
            disk, pending = self.disk[node], self.pending[node]
            yield disk
            for change in pending if len(pending) > 1 else []:
                yield changed(disk, change)
            for change in pending:
                disk = changed(disk, change)
                yield disk


def changed(content, change):
    at, data = change
    if data is None:
        return content[:at].ljust(at, b"\0")
    return content[:at].ljust(at, b"\0") + data + content[at + len(data):]


def replies_of(calls):
    """How many replies stand in what was written to standard output."""
    return sum(bytes.fromhex(call.more).count(b"\n") for call in calls if call.name == "write" and call.kind == "output" and call.result > 0)


def made(geosvm, path, script):
    """The bytes of a new document."""
    subprocess.run([*geosvm, "--new", path], input=script.encode(), stdout=subprocess.DEVNULL, check=True)
    with open(path, "rb") as file:
        return file.read()


class Scenario:
    """A program on a file, with a script."""

    def __init__(self, name, words, script, file=SAVED, target=None, makes=False, opens=True, kind=Session):
        self.name, self.words, self.script, self.file, self.target, self.makes = name, words, script, file, target, makes
        self.opens, self.kind = opens, kind
        self.gives_checksums = "--checksums" in words
        # Where documents are large each call fails in one way alone, and stops are looked at only where nothing fails.
        self.is_large = kind is not Session
        self.files = None
        self.shutting = set()

    def prepare(self, geosvm, folder):
        """The files of a run, anew; the program makes them once."""
        shutil.rmtree(folder, ignore_errors=True)
        os.makedirs(folder)
        if self.files is None:
            self.files = {"other": OTHER}
            for name, script in (("document", self.file), ("target", self.target)):
                if script is not None:
                    self.files[name] = script if isinstance(script, bytes) else made(geosvm, os.path.join(folder, name), script)
        for name, content in self.files.items():
            with open(os.path.join(folder, name), "wb") as file:
                file.write(content)
        return self.files

    def fails_as(self, call, how, number=1, last=1, notes_files=False):
        """What is to be told where the calls of these numbers fail: "well", "refused" where something has to be, "any" where it needn't, or
        just that."""
        if notes_files and call.name == "stat" and number in (3, 8):
            # By this one geosvm knows FILE, or FILE2, under another name. A file that it won't know is opened all the same.
            return "any"
        if not self.opens:
            return "refused"
        if call.name in HARMLESS:
            return "any"
        if how in (errno.EINTR, "short") or call.kind == "file" and self.is_shutting(call.name, range(number, last + 1)):
            return "well"
        if call.kind in ("input", "output"):
            return "geosvm: read fault\n" if call.kind == "input" else "geosvm: write fault\n"
        # One that can't be made beside the file is made in its place.
        is_beside = call.name in ("rename", "stat", "open", "ftruncate") or call.name == "flock" and number > 1 + ("--as" in self.words)
        return "any" if is_beside and (self.makes or self.target) else "refused"

    def is_shutting(self, name, numbers):
        """All of these shut the slot that counted before the commit that gave the file its checksums: it is acknowledged by then."""
        return all((name, number) in self.shutting for number in numbers)


def shutting_calls(calls):
    """The write of the gate that is shut right behind the first one that is opened, and the sync behind it, each by its number."""
    numbers = {"pwrite": 0, "fsync": 0}
    steps = []
    for call in calls:
        if call.kind == "file" and call.name in numbers:
            numbers[call.name] += 1
            steps.append((call.name, numbers[call.name], call.at, call.more))
    for opening, _, shutting, sync in zip(steps, steps[1:], steps[2:], steps[3:]):
        if [(step[0], step[3]) for step in (opening, shutting)] == [("pwrite", "01"), ("pwrite", "00")] and {opening[2], shutting[2]} == {4, 516}:
            return {shutting[:2], sync[:2]}
    return set()


def is_alone(content):
    """No slot without checksums is open, beside the one that counts."""
    return all(slot[5] == 3 for _, slot in slots_of(content))


def judge(scenario, folder, files, ran, wanted, before, target_before):
    """What is wrong with a run."""
    replies = ran.output.splitlines()
    well = ran.status == 0 and not any(reply.startswith("no ") for reply in replies) and len(replies) == len(scenario.script.splitlines())
    if wanted == "well" and not well:
        return f"told {ran.status} {ran.errors!r} {replies}"
    if wanted == "refused" and well:
        return "nothing is told"
    if wanted.startswith("geosvm: ") and ran.errors != wanted:
        return f"told {ran.errors!r}"
    if ran.status not in (0, 1) or (ran.status == 1) != (ran.errors != ""):
        return f"status {ran.status} {ran.errors!r}"
    if ran.status == 1 and not ran.errors.startswith("geosvm: "):
        return f"told {ran.errors!r}"
    left = set(os.listdir(folder))
    if left - set(files) - {"document", "target", "document.geosvm-new", "target.geosvm-new"}:
        return f"files {left}"
    with open(os.path.join(folder, "other"), "rb") as file:
        if file.read() != OTHER:
            return "another file was touched"
    told = ran.errors.split()
    begun = not (ran.status == 1 and told[1] in ("open", "create", "target"))
    session, target = sessions_of(scenario.script, replies, None if scenario.makes else before, scenario.kind)
    if session.wrong:
        return session.wrong
    for name, its, was in (("document", session, before), ("target", target, target_before)):
        path = os.path.join(folder, name)
        now = None
        if os.path.exists(path):
            with open(path, "rb") as file:
                now = file.read()
        if not begun or its is None:
            # A file that was missing may be there, empty, or begun. One that was made beside the old one has its place already where its
            # folder can't be synced then.
            has_its_place = any(call.name == "rename" and call.result == 0 and call.more.endswith("\t" + name) for call in ran.calls)
            if files.get(name) is not None and now != files[name] and not (has_its_place and pair_of(path, scenario.kind)):
                return f"{name} was touched by a run that didn't begin"
            continue
        empty = scenario.kind.EMPTY
        allowed = its.allowed() if its.acknowledged else [*its.allowed(), was and (was, was), (empty, empty)]
        if pair_of(path, scenario.kind) not in allowed:
            return f"{name} has {pair_of(path, scenario.kind)}, and not one of {allowed}; {replies} {ran.errors!r}"[:2000]
    return None


def judge_stops(scenario, folder, files, ran, machine, before):
    """What is wrong with what a stop of the machine leaves behind each call of a run."""
    image = os.path.join(folder, "..", "image")
    has_begun = not scenario.makes
    # Where one can't be made beside the old file that is emptied, and written in place.
    is_in_place = not any(call.name == "rename" and call.result == 0 for call in ran.calls) and any(
        call.result < 0 and call.result != -errno.ENOENT and call.name in ("flock", "open", "stat", "rename") for call in ran.calls)
    replies = ran.output.splitlines()
    seen, allowed, allowed_for, told = set(), [], None, 0
    lines = scenario.script.splitlines()
    has_failed = False
    for at, call in enumerate(ran.calls):
        machine.happens(call)
        told += replies_of([call])
        has_begun = has_begun or told > 0
        has_failed = has_failed or call.name in ("pwrite", "fsync") and call.result < 0 and call.result != -errno.EINTR
        is_given = scenario.gives_checksums and any(line in COMMITS and reply == "ok" for line, reply in zip(lines, replies[:told]))
        if told != allowed_for:
            allowed, allowed_for = allowed_behind(scenario, replies, told, None if scenario.makes else before), told
        for content in machine.left("document"):
            key = content, told
            if key in seen:
                continue
            seen.add(key)
            if not scenario.opens:
                if content != files["document"]:
                    return f"what is no document is touched by a stop behind call {at} ({call.name} {call.kind})"
                continue
            if not has_begun and (content is None or not files.get("document") or content == files["document"]):
                continue
            if content is None:
                return f"the name of the file is lost by a stop behind call {at} ({call.name} {call.kind})"
            if is_given and not has_failed and not is_alone(content):
                return f"a stop behind call {at} ({call.name} {call.kind}), {told} replies, leaves a slot without checksums open"
            with open(image, "wb") as file:
                file.write(content)
            pair = pair_of(image, scenario.kind)
            if pair not in allowed:
                if not has_begun and (is_in_place or not files.get("document")):
                    continue
                return f"a stop behind call {at} ({call.name} {call.kind}), {told} replies, leaves {pair}, and not one of {allowed}"[:2000]
    return None


def allowed_behind(scenario, replies, told, before):
    """What a file may have where so many replies are told. What was carried out and isn't told yet may be there."""
    session, _ = sessions_of(scenario.script, replies[:told], before, scenario.kind)
    return [pair for pair in (*session.allowed(), *later(scenario.script, replies, told, before, scenario.kind)) if pair]


def later(script, replies, told, before, kind=Session):
    """What commits behind the replies that are told may have led to."""
    more = [(kind.EMPTY, kind.EMPTY)] if before is None else []
    for end in range(told, len(script.splitlines()) + 1):
        session, _ = sessions_of(script, replies[:end], before, kind)
        more += [pair for pair in session.allowed() if pair]
        lines = script.splitlines()[:end + 1]
        session = kind(before)
        for at, line in enumerate(lines):
            if line == "saveas":
                break
            session.answer(line, replies[at] if at < end and at < len(replies) else None)
        more += [pair for pair in session.allowed() if pair]
    return more


def hows_of(name):
    for how in HOWS.get(name, [errno.EIO, errno.EINTR]):
        yield how, False
    if name in ("pwrite", "fsync", "pread", "write"):
        yield errno.EIO, True


def try_scenario(checks, library, geosvm, program, scenario, room, has_streams=True):
    folder = os.path.join(room, "files")
    files = scenario.prepare(geosvm, folder)
    document, target = os.path.join(folder, "document"), os.path.join(folder, "target")
    before, target_before = (found and found[0] for found in (pair_of(document, scenario.kind), pair_of(target, scenario.kind)))
    machine = Machine(folder)
    words = [*program, *scenario.words]
    first = run(library, folder, words, scenario.script)
    wanted = "well" if scenario.opens else "refused"
    checks.told(f"{scenario.name}, nothing fails", judge(scenario, folder, files, first, wanted, before, target_before))
    checks.told(f"{scenario.name}, the machine stops", judge_stops(scenario, folder, files, first, machine, before))
    if scenario.gives_checksums:
        scenario.shutting = shutting_calls(first.calls)
        checks.told(f"{scenario.name}, the slot that counted is shut, and that is synced", {name for name, _ in scenario.shutting} != {"pwrite", "fsync"})
    kinds = {}
    for call in first.calls:
        kinds[call.name, call.kind] = kinds.get((call.name, call.kind), 0) + 1
    for (name, kind), most in sorted(kinds.items()):
        # What is told where standard error fails can't be looked at. What a C program does on its streams is its own. A long script comes
        # in as many reads as the system likes.
        if kind == "errors" or name == "lseek" or (not has_streams or scenario.is_large) and kind in ("input", "output"):
            continue
        for how, lasts in [(errno.EIO, False)] if scenario.is_large else hows_of(name):
            wrong = []
            for number in range(1, most + 1):
                files = scenario.prepare(geosvm, folder)
                machine = Machine(folder)
                ran = run(library, folder, words, scenario.script, f"{name} {kind}", number, how, lasts, scenario.is_large)
                call = [call for call in ran.calls if (call.name, call.kind) == (name, kind)][number - 1]
                # Behind a sync that failed every further one of the file fails.
                last = most if lasts or name == "fsync" else number
                wanted = scenario.fails_as(call, how, number, last, notes_files=has_streams)
                found = judge(scenario, folder, files, ran, wanted, before, target_before)
                if not found and not scenario.is_large:
                    found = judge_stops(scenario, folder, files, ran, machine, before)
                if found:
                    wrong.append(f"number {number}: {found}")
            said = how if how == "short" else errno.errorcode[how]
            checks.told(f"{scenario.name}, {most} times {name} {kind} {said}{' from one on' if lasts else ''}", "; ".join(wrong[:2]))


# Looks at a document, and a restore.

def try_look(checks, library, geosdoc, words, scenario, geosvm, room):
    """A look writes nothing. It tells what it tells where nothing fails, or that it failed."""
    folder = os.path.join(room, "files")
    files = scenario.prepare(geosvm, folder)
    first = run(library, folder, [*geosdoc, *words], "")
    name = "geosdoc " + " ".join(words)
    kinds = {}
    for call in first.calls:
        kinds[call.name, call.kind] = kinds.get((call.name, call.kind), 0) + 1
    writes = [call.name for call in first.calls if call.kind == "file" and (
        call.name in ("pwrite", "write", "ftruncate", "rename", "unlink") or call.name == "open" and call.at & (os.O_RDWR | os.O_WRONLY))]
    checks.told(f"{name} writes to no file", writes)
    checks.told(f"{name}, nothing fails", first.status or first.errors)
    for (call, kind), most in sorted(kinds.items()):
        if call in HARMLESS or kind in ("errors", "input"):
            continue
        for how, lasts in hows_of(call):
            wrong = []
            for number in range(1, most + 1):
                ran = run(library, folder, [*geosdoc, *words], "", f"{call} {kind}", number, how, lasts)
                wrong += [f"number {number}: {it}" for it in wrong_look(first, ran, call, kind, how) if it]
                for it, content in files.items():
                    with open(os.path.join(folder, it), "rb") as file:
                        wrong += [f"number {number}: {it} was touched"] if file.read() != content else []
            said = how if how == "short" else errno.errorcode[how]
            checks.told(f"{name}, {most} times {call} {kind} {said}{' from one on' if lasts else ''}", "; ".join(wrong[:2]))


def wrong_look(first, ran, call, kind, how):
    if how in (errno.EINTR, "short"):
        yield (ran.status, ran.output, ran.errors) != (0, first.output, "") and f"told {ran.status} {ran.errors!r}"
        return
    yield ran.status != 1 and f"status {ran.status}"
    wanted = "geosdoc: document: it can't be read\n"
    if how == errno.EWOULDBLOCK:
        wanted = "geosdoc: document: in use by another program\n"
    if kind == "output":
        wanted = "geosdoc: write fault\n"
    yield ran.errors != wanted and f"told {ran.errors!r}"
    yield not first.output.startswith(ran.output) and "wrote something else"


def accepted(script):
    """The replies to a script of which nothing is refused: of a block that is made its handle, as far as it is asked for."""
    return ["block 0001" if line.startswith("newraw 7") else "ok" for line in script.splitlines()]


def try_restore(checks, library, geosvm, geosdoc, room):
    """A restore makes the document of its script, or tells that it didn't; what it leaves then is none, or one of its commits."""
    folder = os.path.join(room, "files")
    scenario = Scenario("restore", ["restore", "document"], SAVED + SCRIPT, file=None)
    scenario.prepare(geosvm, folder)
    first = run(library, folder, [*geosdoc, *scenario.words], scenario.script)
    checks.told("geosdoc restore, nothing fails", first.status or first.errors)
    session, _ = sessions_of(scenario.script, accepted(scenario.script), None)
    last = session.acknowledged
    checks.told("geosdoc restore makes its document", pair_of(os.path.join(folder, "document")) != last)
    commits = [last, None, *later(scenario.script, accepted(scenario.script), 0, None)]
    kinds = {}
    for call in first.calls:
        kinds[call.name, call.kind] = kinds.get((call.name, call.kind), 0) + 1
    for (call, kind), most in sorted(kinds.items()):
        if call in HARMLESS or kind == "errors":
            continue
        for how, lasts in hows_of(call):
            wrong = []
            for number in range(1, most + 1):
                scenario.prepare(geosvm, folder)
                ran = run(library, folder, [*geosdoc, *scenario.words], scenario.script, f"{call} {kind}", number, how, lasts)
                pair = pair_of(os.path.join(folder, "document"))
                goes_well = how in (errno.EINTR, "short")
                if (ran.status, ran.errors) != (0, "") and (goes_well or ran.status != 1 or not ran.errors.startswith("geosdoc: ")):
                    wrong.append(f"number {number}: told {ran.status} {ran.errors!r}")
                elif ran.status == 0 and pair != last or pair not in commits:
                    wrong.append(f"number {number}: leaves {pair}")
                elif ran.status == 0 and not goes_well and call in ("pwrite", "fsync", "flock", "open"):
                    wrong.append(f"number {number}: nothing is told")
                elif call == "read" and kind == "input" and not goes_well and ran.errors != "geosdoc: read fault\n":
                    wrong.append(f"number {number}: told {ran.errors!r}")
            said = how if how == "short" else errno.errorcode[how]
            checks.told(f"geosdoc restore, {most} times {call} {kind} {said}{' from one on' if lasts else ''}", "; ".join(wrong[:2]))


def try_causes(checks, library, geosvm, room):
    """Whatever the system says of a file that it doesn't open is told behind its name."""
    folder = os.path.join(room, "files")
    SCENARIOS[0].prepare([geosvm], folder)
    for call, how, cause in CAUSES:
        ran = run(library, folder, [geosvm, "document"], "", call, 1, how)
        wanted = 1, "", f"geosvm: open 2 File\ngeosvm: document: {cause}\n"
        got = ran.status, ran.output, ran.errors
        checks.told(f"geosvm document, {call} {errno.errorcode[how]}", got != wanted and f"wanted {wanted}, got {got}")


def compiled(room, name, *words):
    """What gcc makes of a file beside this one."""
    made = os.path.join(room, name)
    subprocess.run(["gcc", "-O1", "-Wall", "-Wextra", "-Werror", "-o", made, os.path.join(HERE, name + ".c"), *words], check=True)
    return made


def main():
    checks = Checks()
    geosvm, geosdoc, *rest = map(os.path.abspath, (word for word in sys.argv[1:] if word != "--library"))
    with tempfile.TemporaryDirectory(dir=ROOMS) as room:
        library = compiled(room, "failing_calls", "-shared", "-fPIC")
        if rest:
            embedding = os.path.join(HERE, "..", "embedding")
            program = compiled(room, "embedded", "-I" + embedding, *rest)
            for scenario in SCENARIOS:
                if scenario.name in OF_LIBRARY:
                    try_scenario(checks, library, [geosvm], [program], scenario, room, has_streams=False)
        else:
            for scenario in SCENARIOS:
                try_scenario(checks, library, [geosvm], [geosvm], scenario, room)
            for words in LOOKS:
                try_look(checks, library, [geosdoc], words, SCENARIOS[0], [geosvm], room)
            try_restore(checks, library, [geosvm], [geosdoc], room)
            try_causes(checks, library, geosvm, room)
    print(f"{checks.passed} passed, {checks.failed} failed")
    sys.exit(checks.failed != 0)


SCENARIOS = [
    Scenario("opened", ["document"], SCRIPT),
    Scenario("no document", ["document"], SCRIPT, file=b"this is no document\n" * 100, opens=False),
    Scenario("given checksums", ["--checksums", "document"], SCRIPT),
    Scenario("given checksums by a revert", ["--checksums", "document"], BY_REVERT),
    Scenario("made", ["--new", "document"], SAVED + SCRIPT, file=None, makes=True),
    Scenario("made anew", ["--new", "document"], SAVED + SCRIPT, makes=True),
    Scenario("saved as a new one", ["--as", "target", "document"], SCRIPT + TO_TARGET),
    Scenario("saved as an old one", ["--as", "target", "document"], SCRIPT + TO_TARGET, target=SAVED),
    Scenario("large arrays, in one frame", ["--cache", "1", "document"], ARRAY_EDITS, file=ARRAYS, kind=ArraySession),
    Scenario("large arrays, in five frames", ["--cache", "5", "document"], ARRAY_EDITS, file=ARRAYS, kind=ArraySession),
]
# The library makes no file beside an old one: its program opens the files.
OF_LIBRARY = ["opened", "no document", "made", "saved as a new one"]
LOOKS = [["check", "document"], ["dump", "document"], ["dump", "--other", "document"], ["stat", "document"], ["map", "document"],
         ["map", "--svg", "document"]]

if __name__ == "__main__":
    main()
