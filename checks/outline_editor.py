# Needs: python3 g++ gcc objdump pkg-config tmux ncursesw6-config
"""The editor of examples/outline, built as its page says over an installed library: its unit test, a session in which it is
typed to by tmux and its screen is read, and kills at moments by chance, behind which the document has to open, to be an
outline, and to have all that was acknowledged.

    python3 checks/outline_editor.py crates/geosvm/out/geosvm crates/geosdoc/out/geosdoc embedding/out/libgeosvm.a [--long]
"""

import os
import pathlib
import re
import shutil
import signal
import subprocess
import sys
import tempfile
import time

import outline_kills

ROOT = pathlib.Path(__file__).resolve().parent.parent
SOURCES = ROOT / "examples" / "outline"
passed = failed = 0


def told(name, is_so, got=""):
    global passed, failed
    passed, failed = passed + bool(is_so), failed + (not is_so)
    print(f"ok      {name}" if is_so else f"FAILED  {name}: got {got!r}", flush=True)


def built(folder, geosvm, geosdoc, library):
    """Installs the library, and builds the editor by the command of its page, and its unit test."""
    programs = folder / "programs"
    programs.mkdir()
    shutil.copy(geosvm, programs / "geosvm")
    shutil.copy(geosdoc, programs / "geosdoc")
    os.environ.update(PROGRAMS=str(programs), LIBRARY=str(pathlib.Path(library).resolve()))
    subprocess.run(["sh", ROOT / "install.sh", folder / "installed"], check=True, stdout=subprocess.DEVNULL)
    os.environ["PKG_CONFIG_PATH"] = str(folder / "installed/lib/pkgconfig")
    os.environ["LD_LIBRARY_PATH"] = str(folder / "installed/lib")
    shutil.copytree(SOURCES, folder / "sources")
    commands = re.findall(r"^g\+\+ .*$", (SOURCES / "README.md").read_text(), re.M)
    for command in commands:
        strict = command.replace("g++ ", "g++ -Wall -Wextra -Werror -pedantic ", 1)
        done = subprocess.run(strict, shell=True, cwd=folder / "sources", capture_output=True, text=True)
        told(command, done.returncode == 0 and not done.stderr, done.stderr[:2000])
    return folder / "sources/outline", folder / "sources/outline_test"


class Terminal:
    """A shell in tmux."""

    def __init__(self, folder, name, columns=60, rows=16):
        self.base = ["tmux", "-u", "-L", f"outline-{os.getpid()}-{name}", "-f", "/dev/null"]
        environment = dict(os.environ, LANG="C.UTF-8", LC_ALL="C.UTF-8", PS1="$ ")
        words = ["new-session", "-d", "-x", str(columns), "-y", str(rows), "sh"]
        subprocess.run(self.base + words, check=True, cwd=folder, env=environment)

    def tmux(self, *words, **more):
        return subprocess.run(self.base + list(words), check=True, capture_output=True, text=True, **more).stdout

    def keys(self, *names):
        self.tmux("send-keys", *names)

    def type(self, text):
        self.tmux("send-keys", "-l", text)

    def paste(self, text):
        self.tmux("load-buffer", "-", input=text)
        self.tmux("paste-buffer", "-p")

    def screen(self):
        return self.tmux("capture-pane", "-p")

    def cursor(self):
        return self.tmux("display-message", "-p", "#{cursor_x} #{cursor_y}").strip()

    def sees(self, name, *wanted, without=(), within=30):
        """All of these come on the screen, each as a part of it, and none of those is there."""
        end = time.monotonic() + within
        while True:
            screen = self.screen()
            is_so = all(w in screen for w in wanted) and not any(w in screen for w in without)
            if is_so or time.monotonic() > end:
                return told(name, is_so, screen)
            time.sleep(0.02)

    def child(self):
        """The process that the shell runs."""
        shell = self.tmux("display-message", "-p", "#{pane_pid}").strip()
        return int(pathlib.Path(f"/proc/{shell}/task/{shell}/children").read_text().split()[0])

    def ends(self, end):
        """Makes the process end that the shell runs, by a call, and waits until it has."""
        process = self.child()
        end(process)
        for _ in range(1000):
            if not os.path.exists(f"/proc/{process}"):
                return
            time.sleep(0.01)

    def close(self):
        self.tmux("kill-server")


def edits(t):
    """What is typed is shown, and each edit has its step with its name."""
    t.type("./outline --pause 0.3 notes.document\n")
    t.sees("a new outline has one empty note", "notes.document", "•\n", "F1 tells the keys", without=["*"])
    t.type("House")
    t.sees("what is typed is shown, the mark and the step with it", "• House", "document *", "Undo Typing")
    t.sees("it is autosaved behind a pause", "autosaved", "document *")
    t.keys("Enter")
    t.type("Kitchen")
    t.keys("Tab")
    t.sees("a note is indented", "▾ House\n  • Kitchen", "Undo Indent")
    t.keys("C-z")
    t.sees("an undo has the name of what it takes next, a redo of what it makes", "• House\n• Kitchen", "Undo Typing | Redo Indent")
    t.keys("C-z")
    t.sees("letters in a row are one step", "• House\n•\n", "Undo New Note | Redo Typing")
    t.keys("C-y", "C-y")
    t.sees("redo", "▾ House\n  • Kitchen", "Undo Indent", without=["Redo"])
    t.keys("Enter")
    t.type("Lamp")
    t.keys("Enter", "BTab")
    t.type("Garden")
    t.sees("a note comes out again", "▾ House\n  • Kitchen\n  • Lamp\n• Garden", "Undo Typing")
    t.keys("M-Up")
    t.sees("a note goes up", "• Garden\n▾ House\n  • Kitchen\n  • Lamp", "Undo Move Up")
    t.keys("M-Down")
    t.sees("and down, past all that is below the other one", "▾ House\n  • Kitchen\n  • Lamp\n• Garden", "Undo Move Down")
    t.keys("M-Down")
    t.sees("where it can't it says so", "it is the last on its level")
    t.keys("Up", "Up", "Up", "C-o")
    t.sees("a note is folded", "▸ House\n• Garden", "Undo Fold", without=["Lamp"])
    t.keys("C-f")
    t.type("lAm")
    t.keys("Enter")
    t.sees("a search goes to what is folded", "▾ House\n  • Kitchen\n  • Lamp\n• Garden", "Undo Unfold")
    told("and the cursor stands there", t.cursor() == "4 3", t.cursor())
    t.keys("C-f")
    t.type("nothing")
    t.keys("Enter")
    t.sees("what isn't there is told", "'nothing' isn't there")
    t.keys("C-k")
    t.sees("a note is removed", "▾ House\n  • Kitchen\n• Garden", "Undo Remove", without=["Lamp"])
    t.keys("C-s")
    t.sees("it is saved, and the mark goes", "saved", without=["*"])
    t.keys("C-z")
    t.sees("an undo behind a save brings the mark back", "Lamp", "document *", "Redo Remove")
    t.keys("C-y")
    t.sees("a redo to what was saved takes it away", "Undo Remove", without=["*", "Lamp"])


def texts(t):
    """Wide and long texts, and what of them is looked at and drawn anew."""
    t.keys("Down", "Down", "End", "Enter")
    t.type("漢字é")
    t.keys("Left")
    t.type("x")
    t.sees("wide characters", "• 漢字xé")
    told("the cursor stands behind two wide ones and a letter", t.cursor() == "7 4", t.cursor())
    t.keys("BSpace", "BSpace", "DC")
    t.sees("one is deleted as a whole, in either direction", "• 漢\n", "Undo Deleting")
    t.keys("Enter")
    t.paste("word " * 20000 + "\nend")
    t.sees("a long text is pasted", "  end\n", "Undo Paste")
    t.type("!")
    t.sees("and goes on", "  end!\n", "Undo Typing")
    t.keys("F2")
    t.sees("of a letter behind it a byte is looked at, and little drawn", "the key before looked at 1 bytes")
    told("and that is its row, and the last one", "1 bytes and drew 2 rows" in t.screen(), t.screen())
    t.tmux("resize-window", "-x", "44", "-y", "12")
    t.sees("a smaller window", "  end!\n", "Undo Typing")
    told("has its rows", len(t.screen().rstrip("\n").split("\n")) == 12, t.screen())
    t.tmux("resize-window", "-x", "100", "-y", "16")
    t.sees("a larger one", "  end!\n", "Undo Typing")
    t.keys("C-z", "C-z", "C-z")
    t.sees("it is undone", "• 漢\n", "Redo New Note", without=["word"])
    t.keys("C-r")
    t.type("y")
    t.sees("a revert gives what was saved", "▾ House\n  • Kitchen\n• Garden", "reverted", without=["漢", "*", "Undo", "Redo"])


def ends(t, folder):
    """How it ends: by its key, by signals, by a crash; and what the next one says."""
    t.keys("End")
    t.type(" and more")
    t.keys("C-q")
    t.sees("what isn't saved is asked for", "Save before leaving? y, n or Esc")
    t.ends(lambda _: t.type("y"))
    t.type("echo status $?; stty -a | grep -o ' -*icanon\\| -*echo '\n")
    t.sees("it leaves, and the terminal is as it was", "status 0\n icanon\n echo", without=["House"])
    t.type("clear; ./outline --pause 60 --every 5 --log log notes.document\n")
    t.sees("it opens as it was saved", "House and more", "F1 tells the keys", without=["*"])
    t.type("abcd")
    t.sees("four edits", "abcdHouse", "not saved", without=["autosaved"])
    t.type("e")
    t.sees("the fifth is autosaved", "abcdeHouse", "autosaved")
    told("and noted", (folder / "log").read_text() == "update 5\n", (folder / "log").read_text())
    program = ["./outline", "--print", "notes.document"]
    second = subprocess.run(program, cwd=folder, capture_output=True, text=True)
    told("a second program is told that it is open", second.returncode == 1 and "it is open in another program" in second.stderr, second)
    for number, text, kept in ((signal.SIGTERM, "f", "abcdefHouse"), (signal.SIGHUP, "g", "gabcdefHouse"), (signal.SIGKILL, "h", "gabcdefHouse")):
        t.type(text)
        t.sees(f"before signal {number}", f"{text}House" if text == "f" else f"{text}{kept[text == 'g':]}", "not saved")
        t.ends(lambda process: os.kill(process, number))
        if number == signal.SIGKILL:
            t.type("\nreset; clear\n")
        else:
            t.type("echo status $?; stty -a | grep -o ' -*icanon\\| -*echo '\n")
            t.sees("it gives the terminal back", "status 0\n icanon\n echo")
        t.type("clear; ./outline --pause 60 --every 5 notes.document\n")
        t.sees(f"behind signal {number} it tells what wasn't saved", "Left unsaved by an earlier session", f" {kept}", "*")
        t.type("k")
        t.sees("what is kept stays", "kept, and not saved yet", f" {kept}", "*")
    t.keys("C-q")
    t.ends(lambda _: t.type("n"))
    t.type("clear; ./outline notes.document\n")
    t.sees("left without saving, it opens as it was saved", "House and more", "F1 tells", without=["abcde", "*"])
    t.type("z")
    t.sees("autosaved", "zHouse", "autosaved", "*")
    t.ends(lambda process: os.kill(process, signal.SIGKILL))
    t.type("\nreset; clear; ./outline notes.document\n")
    t.sees("a crash behind an autosave is told", "Left unsaved by an earlier session", "zHouse")
    t.type("r")
    t.sees("and r reverts", "reverted", "House and more", without=["zHouse", "*"])
    noted = (folder / "log").read_text()
    t.keys("C-w")
    t.type("log")
    t.keys("Enter")
    t.sees("a save-as asks before it replaces a file", "log is there: replace it?")
    t.type("n")
    t.sees("and doesn't where it shall not", "\n saved\n", without=["log is there"])
    told("so the file stays", (folder / "log").read_text() == noted, noted)
    t.keys("C-w")
    t.type("copy.document")
    t.keys("Enter")
    t.sees("it saves elsewhere and goes on there", " copy.document", "saved as this file")
    t.ends(lambda _: t.keys("C-q"))
    t.type("clear; (trap '' XFSZ; ulimit -f 40; ./outline notes.document)\n")
    t.sees("a file that may have 20 kB", "House and more", "F1 tells")
    t.paste("much " * 9000)
    t.sees("what doesn't go to the disk is told", "not autosaved: the disk is full or has failed", "much much")
    t.keys("C-s")
    t.sees("and of a save", "the disk is full or has failed", "*")
    t.keys("C-z")
    t.sees("an undo goes on", "House and more", without=["much", "*"])
    t.keys("C-q")


def refusals(program, geosvm, folder):
    """What can't be opened is told in words, and stays as it is."""
    def run(words, **more):
        return subprocess.run([program] + words, cwd=folder, capture_output=True, text=True, **more)

    document = (folder / "notes.document").read_bytes()
    (folder / "damaged").write_bytes(document[:1500])
    (folder / "text").write_text("no document\n" * 100)
    subprocess.run([geosvm, "--new", folder / "other"], input="newheap 7\nsave\n", text=True, stdout=subprocess.DEVNULL, check=True)
    (folder / "folder").mkdir()
    for name, words in (("damaged", "it is damaged"), ("text", "it is no document of geosvm"), ("other", "it is no outline"),
                        ("folder", "it is no file"), ("missing/file", "there is no such file or folder")):
        before = (folder / name).read_bytes() if (folder / name).is_file() else b""
        done = run(["--print", name])
        after = (folder / name).read_bytes() if (folder / name).is_file() else b""
        told(f"{name}: {words}", done.returncode == 1 and words in done.stderr and before == after, done)
    os.chmod(folder, 0o755)
    os.chmod(folder / "notes.document", 0o444)
    drops = (lambda: os.setuid(65534)) if os.getuid() == 0 else None
    program_for_all = folder / "outline"
    done = subprocess.run([program_for_all, "--print", "notes.document"], cwd=folder, capture_output=True, text=True, preexec_fn=drops)
    told("a file that may only be read: it may not be written", done.returncode == 1 and "it may not be written" in done.stderr, done)
    os.chmod(folder / "notes.document", 0o644)
    told("wrong words", [run(words).returncode for words in ([], ["--pause"], ["--pause", "x", "f"], ["--other", "f"], ["a", "b"])] == [2] * 5)
    told("no terminal", "it needs a terminal" in run(["notes.document"], stdin=subprocess.DEVNULL).stderr)
    done = run(["--print", "notes.document"])
    told("what is printed", done.stdout == "- House and more\n\t- Kitchen\n- Garden\n", done)


def main(geosvm, geosdoc, library, long):
    folder = pathlib.Path(tempfile.mkdtemp())
    os.chmod(folder, 0o755)
    try:
        program, test = built(folder, geosvm, geosdoc, library)
        session = folder / "session"
        session.mkdir()
        shutil.copy(program, session)
        for seed in range(1, 21 if long else 4):
            done = subprocess.run([test, "1000", str(seed)], cwd=folder, capture_output=True, text=True)
            told(f"the unit test, {done.stdout.strip()}", done.returncode == 0, done)
            for name in ("test.document", "full.document", "rows.document"):
                (folder / name).unlink(missing_ok=True)
        terminal = Terminal(session, "session")
        try:
            edits(terminal)
            texts(terminal)
            ends(terminal, session)
        finally:
            terminal.close()
        refusals(program, pathlib.Path(geosvm).resolve(), session)
        began = time.monotonic()
        told(*outline_kills.kill(program, folder, 1000 if long else 200))
        print(f"in {time.monotonic() - began:.0f} s")
    finally:
        shutil.rmtree(folder)
    print(f"{passed} passed, {failed} failed")
    return failed != 0


if __name__ == "__main__":
    words = [word for word in sys.argv[1:] if word != "--long"]
    sys.exit(main(*words, "--long" in sys.argv))
