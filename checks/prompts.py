# Needs: python3 tmux
"""Types to geosvm where its standard streams are terminals and where they are pipes, and looks at the prompts, the replies, what is told
and the exit status. A prompt comes just where standard input and standard error are both terminals, and there alone a line may ask for
help, have texts in quotes, or end the script, and it is asked once before edits that aren't saved are given up; everywhere else the same
bytes are a script, as they stand. A whole session is typed in tmux, whose screens are those of checks/screens/.

    python3 checks/prompts.py crates/geosvm/out/geosvm [--write]    --write makes the screens anew
"""

import contextlib
import os
import pathlib
import pty
import shlex
import subprocess
import sys
import tempfile
import termios
import threading
import time
import tty

SCREENS = pathlib.Path(__file__).resolve().parent / "screens"
PROMPT = b"geosvm> "
QUESTION = b"Edits aren't saved. Type save or update to keep them, quit again to drop them.\n"
# Ctrl-D, and what is told then.
KEY, ENDED = b"\x04", b"\n"
# It is asked, and dropped.
DROPPED = ENDED + QUESTION + ENDED
EDIT, MADE = b"newraw 7 2\n", b"block 0001\n"
TYPED = EDIT + b"list\n"
REPLIES = MADE + b"blocks 0001\n"
# One before each line, and two that are answered by the end of the script.
PROMPTS = PROMPT * 3 + ENDED + QUESTION + PROMPT + ENDED


def read_all(descriptor):
    """What is written to a descriptor until its other end is closed."""
    text = b""
    while True:
        try:
            piece = os.read(descriptor, 4096)
        except OSError:  # so a terminal ends
            piece = b""
        if not piece:
            return text
        text += piece


def ends(is_terminal):
    """The two ends of a terminal or of a pipe: that of this program, and that of geosvm."""
    if not is_terminal:
        read, write = os.pipe()
        return read, write
    ours, theirs = pty.openpty()
    tty.setraw(theirs)
    return ours, theirs


def run(program, typed, input_is_terminal=True, errors_are_terminal=True, words=("--new", "document"), ends_by_key=True, there=None):
    """The status, the replies and what is told, of lines that are typed or come from a pipe. Two keys end what is typed: the second one
    is read only where the first one didn't end it."""
    errors, errors_of_program = ends(errors_are_terminal)
    if input_is_terminal:
        typing, script = pty.openpty()
        attributes = termios.tcgetattr(script)
        attributes[3] &= ~termios.ECHO
        termios.tcsetattr(script, termios.TCSANOW, attributes)
    else:
        script, typing = os.pipe()
    with contextlib.nullcontext(there) if there else tempfile.TemporaryDirectory() as folder:
        started = subprocess.Popen([program, *words], stdin=script, stdout=subprocess.PIPE, stderr=errors_of_program, cwd=folder)
        os.close(script)
        os.close(errors_of_program)
        told = []
        # A terminal holds a few thousand bytes, and help is longer.
        listening = threading.Thread(target=lambda: told.append(read_all(errors)))
        listening.start()
        # One that doesn't end is ended, so that it is seen.
        ending = threading.Timer(30, started.kill)
        ending.start()
        os.write(typing, typed)
        if input_is_terminal:
            if ends_by_key:
                os.write(typing, KEY * 2)
            replies = started.stdout.read()
            os.close(typing)
        else:
            os.close(typing)
            replies = started.stdout.read()
        listening.join()
        ending.cancel()
        os.close(errors)
        return started.wait(timeout=60), replies, told[0]


class Looks:
    def __init__(self, program):
        self.program, self.passed, self.failed = program, 0, 0

    def told(self, name, wanted, given):
        good = wanted == given
        print("ok     " if good else f"FAILED  wanted {wanted}, got {given}", name)
        self.passed += good
        self.failed += not good

    def types(self, name, typed, replies, told, **how):
        """What is typed is answered so on standard output, and this is told between the prompts."""
        status, given, errors = run(self.program, typed, **how)
        self.told(name, (0, replies, told), (status, given, b"".join(errors.split(PROMPT))))


def look_at_streams(looks):
    for input_is_terminal in (False, True):
        for errors_are_terminal in (False, True):
            wanted = 0, REPLIES, PROMPTS if input_is_terminal and errors_are_terminal else b""
            name = f"input {'typed' if input_is_terminal else 'piped'}, errors {'shown' if errors_are_terminal else 'piped'}"
            looks.told(name, wanted, run(looks.program, TYPED, input_is_terminal, errors_are_terminal))
            if not (input_is_terminal and errors_are_terminal):
                # Nothing but a script is read where nobody is prompted.
                script = b'help\nhelp list\nnewraw 7 2\nvwrite 0001 0 "hi"\nquit\nlist\n'
                bad = b"no 25 BadCommand\n"
                wanted = 0, bad + bad + b"block 0001\n" + bad + bad + b"blocks 0001\n", b""
                looks.told(f"{name}, lines for a person", wanted, run(looks.program, script, input_is_terminal, errors_are_terminal))


def look_at_texts(looks):
    made = b"newheap 7\nalloc 0001 5\n"
    replies = b"block 0001\nchunk 0010\n"
    for name, text, bytes_of in (
        ("a text", b'"hello"', b"hello"),
        ("a text with blanks", b'"a  \tb"', b"a  \tb"),
        ("a text behind digits", b'00"ello"', b"\0ello"),
        ("texts and digits", b'"a"22"bc"0a', b'a"bc\n'),
        ("a text in UTF-8", '"h\u00e9\u00e9"'.encode(), "h\u00e9\u00e9".encode()),
        ("a text that would be a note", b'"#####"', b"#####"),
    ):
        typed = made + b"write 0001 0010 0 " + text + b"\nread 0001 0010\n"
        looks.types(name, typed, replies + b"ok\nbytes " + bytes_of.hex().encode() + b"\n", DROPPED)
    looks.types("a name and a part", b'newheap 7\nncreate 0001 2\nnadd 0001 0010 "Ada" "20" set\nntext 0001 0010 0000\n',
                b"block 0001\nchunk 0010\ntoken 0000\nbytes 416461\n", DROPPED)
    looks.types("a note with a quote", b'# "a note\n# "two" of them\nlist\n', b"blocks\n", b"\n")
    looks.types("the line that is echoed", b'newraw 7 2\nvwrite 0001 0 "hi"\n# "hi"\n',
                b'newraw 7 2\nblock 0001\nvwrite 0001 0 6869\nok\n# "hi"\n', DROPPED, words=("--new", "--echo", "document"))


def look_at_reasons(looks):
    bad = b"no 25 BadCommand\n"
    number, handle = b"a number, 1 to 7 decimal digits\n", b", four hexadecimal digits\n"
    octets = b"bytes, two hexadecimal digits for each, a text in quotes, or - for none\n"
    for typed, reason in (
        (b"nothing", b"no command is called nothing, help lists them\n"),
        (b"LIST", b"no command is called LIST, help lists them\n"),
        (b"n" * 60, b"no command is called " + b"n" * 40 + b", help lists them\n"),
        (b"alloc", b"alloc b n: b is missing, a block" + handle),
        (b"alloc 0001", b"alloc b n: n is missing, " + number),
        (b"alloc 1 3", b"alloc b n: 1 is no b, a block" + handle),
        (b"free 0001 zzzz", b"free b c: zzzz is no c, a chunk" + handle),
        (b"eref 0001 0010 1", b"eref b c t: 1 is no t, a token" + handle),
        (b"alloc 0001 12345678", b"alloc b n: 12345678 is no n, " + number),
        (b"hread 0001 123456789 1234567890", b"hread b i n: 1234567890 is no n, a number, 1 to 9 decimal digits\n"),
        (b"hcreate 7 12345678", b"hcreate uid size: 12345678 is no size, " + number),
        (b"newheap 65536", b"newheap uid: 65536 is no uid, a user ID, a number up to 65535\n"),
        (b"settype 0001 x", b"settype b type: x is no type, the type of a heap, a number up to 65535\n"),
        (b"attach 0001 abc", b"attach b hex: abc is no hex, " + octets),
        (b'attach 0001 a"b"', b"attach b hex: a62 is no hex, " + octets),
        (b"attach 0001", b"attach b hex: hex is missing, " + octets),
        (b'attach 0001 ""', b"attach b hex: hex is missing, " + octets),
        (b"nadd 0001 0010 61 - Keep", b"nadd b c name part keep|set: Keep is no keep|set, keep or set\n"),
        (b"list 0001", b"list: 0001 is one word too many\n"),
        (b"undo # a note", b"undo: # is one word too many\n"),
        (b"quit now", b"quit: now is one word too many\n"),
        (b'attach 0001 "abc', b"a text has no quote at its end\n"),
    ):
        looks.types(f"why {typed[:30].decode()} is no command", typed + b"\n", bad, reason + b"\n")
    # Each command without its operands is told by its own row.
    for row in rows_of_help(looks.program):
        name, *operands = row.split()
        if operands:
            given = run(looks.program, name.encode() + b"\n")[2]
            good = given.startswith(PROMPT + row.encode() + b": " + operands[0].encode() + b" is missing, ")
            looks.told(f"why {name} alone is no command", (row, True), (row, good))


def rows_of_help(program):
    """The commands with their operands, as `--help` lists them."""
    text = subprocess.run([program, "--help"], stdout=subprocess.PIPE, check=True).stdout.decode()
    return [line.strip() for line in text.split("Commands, which docs/SCRIPT.md explains:\n")[1].splitlines() if line.startswith("  ")]


def look_at_help(looks):
    status, replies, told = run(looks.program, b"help\n")
    lines = told.decode().splitlines()
    rows = rows_of_help(looks.program)
    looks.told("help lists each command", (0, b"", []), (status, replies, [row for row in rows if "  " + row not in lines]))
    looks.told("there are commands", True, len(rows) > 70)
    for row in rows:
        name, *operands = row.split()
        status, replies, told = run(looks.program, f"help {name}\n".encode())
        lines = told.decode().replace(PROMPT.decode(), "", 1).splitlines()
        wrong = [] if lines[0] == row else [f"begins with {lines[0]}"]
        for begins in ("    reply: ", "    refusals: ", *(f"    {operand}: " for operand in operands)):
            wrong += [] if any(line.startswith(begins) and len(line) > len(begins) for line in lines) else [f"nothing of {begins}"]
        looks.told(f"help {name}", (0, b"", []), (status, replies, wrong))
    for name, does in (("help", "lists the commands; with the name of one behind it, tells what that does"),
                       ("quit", "ends the script, as Ctrl-D does; what wasn't committed is given up")):
        looks.types(f"help {name}", f"help {name}\n".encode(), b"", f"{name}\n    {does}\n\n".encode())
    looks.types("help of what is no command", b"help nothing\n", b"", b"no command is called nothing, help lists them\n\n")


def look_at_end(looks, name, typed, replies, told, left, **how):
    """What is typed ends the run, is answered so, this is told, and the file has these blocks then."""
    with tempfile.TemporaryDirectory() as folder:
        given = run(looks.program, typed, there=folder, ends_by_key=False, **how)
        has = subprocess.run([looks.program, "document"], input=b"list\n", stdout=subprocess.PIPE, cwd=folder, check=True).stdout
    looks.told(name, (0, replies, told, left), (*given, has))


def look_at_ends(looks):
    none, one, ok = b"blocks\n", b"blocks 0001\n", b"ok\n"
    for end, typed, told in (("Ctrl-D", KEY, ENDED), ("quit", b"quit\n", b"")):
        leaves = PROMPT + told
        asked = leaves + QUESTION
        look_at_end(looks, f"{end} at once", typed, b"", leaves, none)
        look_at_end(looks, f"{end} twice, edits aren't saved", EDIT + typed * 2, MADE, PROMPT + asked + leaves, none)
        for commit in (b"save\n", b"update\n"):
            name = commit.decode().strip()
            look_at_end(looks, f"{end} behind {name}", EDIT + commit + typed, MADE + ok, PROMPT * 2 + leaves, one)
            look_at_end(looks, f"{end}, {name}, {end}", EDIT + typed + commit + typed, MADE + ok, PROMPT + asked + PROMPT + leaves, one)
        look_at_end(looks, f"{end}, a line, {end} twice", EDIT + typed + b"list\n" + typed * 2, MADE + one,
                    PROMPT + asked + PROMPT + asked + leaves, none)
        look_at_end(looks, f"{end} behind an undo", EDIT + b"undo\n" + typed, MADE + ok, PROMPT * 2 + leaves, none)
        look_at_end(looks, f"{end} twice, one edit is saved", EDIT + b"save\n" + EDIT + typed * 2, MADE + ok + b"block 0002\n",
                    PROMPT * 3 + asked + leaves, one)
        look_at_end(looks, f"{end} twice, a revert", EDIT + typed + b"revert\n" + typed, MADE + ok, PROMPT + asked + PROMPT + leaves, none)
    look_at_end(looks, "quit with blanks", b"  quit \t\n", b"", PROMPT, none)
    look_at_end(looks, "quit, Ctrl-D", EDIT + b"quit\n" + KEY, MADE, PROMPT * 2 + QUESTION + PROMPT + ENDED, none)
    # Ctrl-D ends a line first, where one has begun.
    look_at_end(looks, "a line without a line feed", b"list" + KEY * 2, none, PROMPT * 2 + ENDED, none)
    look_at_end(looks, "an edit without a line feed", EDIT[:-1] + KEY * 3, MADE, PROMPT * 2 + ENDED + QUESTION + PROMPT + ENDED, none)
    # Nobody is asked of a script.
    look_at_end(looks, "an edit in a script", EDIT, MADE, b"", none, input_is_terminal=False)
    look_at_end(looks, "an edit that is typed, errors elsewhere", EDIT + KEY, MADE, b"", none, errors_are_terminal=False)


# What is typed, a screen of its own each: prompts, a text, why a line is no command, help; and ends.
SESSIONS = {
    "prompt": ("newheap 7", "alloc 0001 5", 'write 0001 0010 0 "hello"', "read 0001 0010", "", "# a note", "lost", "alloc 1 3", 'free 0001 "x',
               "help write", "help nothing", "save", "quit"),
    "question": ("newraw 7 2", "quit", "save", "newraw 7 2", KEY.decode(), "list", KEY.decode(), "quit"),
}


class Screen:
    """A session of geosvm in tmux, behind which its status is shown."""

    def __init__(self, program, folder, name):
        # Its own socket: the server of the session before may not have ended yet, and would refuse this one.
        self.base = ["tmux", "-u", "-L", f"prompts-{os.getpid()}-{name}", "-f", "/dev/null"]
        command = f"{shlex.quote(program)} --new document; echo status $?; exec sleep 60"
        environment = dict(os.environ, LANG="C.UTF-8", LC_ALL="C.UTF-8")
        subprocess.run([*self.base, "new-session", "-d", "-x", "80", "-y", "50", command], check=True, cwd=folder, env=environment)

    def tmux(self, *words):
        return subprocess.run([*self.base, *words], check=True, capture_output=True, text=True).stdout

    def shown(self):
        return self.tmux("capture-pane", "-p").rstrip("\n") + "\n"

    def wait(self, is_there):
        """What is shown once it is so, or after a while."""
        end = time.monotonic() + 30
        while not is_there(self.shown()) and time.monotonic() < end:
            time.sleep(0.05)
        return self.shown()

    def type(self, line):
        # Each line behind the prompt for it, so that what is typed stands there.
        prompt = PROMPT.decode().rstrip()
        before = self.wait(lambda shown: shown.splitlines()[-1] == prompt)
        self.tmux("send-keys", "-l", line)
        if line != KEY.decode():
            self.tmux("send-keys", "Enter")
        self.wait(lambda shown: shown != before)


def look_at_screens(looks, writes):
    for name, lines in SESSIONS.items():
        with tempfile.TemporaryDirectory() as folder:
            screen = Screen(looks.program, folder, name)
            try:
                for line in lines:
                    screen.type(line)
                shown = screen.wait(lambda shown: "\nstatus " in shown)
            finally:
                screen.tmux("kill-server")
        kept = SCREENS / f"{name}.txt"
        if writes:
            kept.write_text(shown)
        looks.told(f"the screen {name}", kept.read_text().splitlines(), shown.splitlines())


def main():
    looks = Looks(os.path.realpath(sys.argv[1]))
    look_at_streams(looks)
    look_at_texts(looks)
    look_at_reasons(looks)
    look_at_help(looks)
    look_at_ends(looks)
    look_at_screens(looks, "--write" in sys.argv[2:])
    print(f"{looks.passed} passed, {looks.failed} failed")
    sys.exit(looks.failed != 0)


main()
