# Needs: python3
"""Kills the editor of examples/outline at moments by chance while keys come to it, for outline_editor.py.

Each run goes on with what the one before left. What the keys make of the outline is worked out by the model here, key by
key, and the editor's log says behind which key it has updated or saved. So what it opens to afterwards has to be what
the model has behind the last of these keys, or behind a later one."""

import concurrent.futures
import fcntl
import os
import pty
import random
import select
import signal
import struct
import subprocess
import termios
import time

UP, DOWN, END = b"\x1bOA", b"\x1bOB", b"\x05"
BACK_TAB, MOVE_UP, MOVE_DOWN, PASTE, PASTE_END = b"\x1b[Z", b"\x1b[1;3A", b"\x1b[1;3B", b"\x1b[200~", b"\x1b[201~"


class Model:
    """The notes as rows of depth, folded and text; the caret is at the end of one."""

    def __init__(self, rows):
        self.rows = [list(row) for row in rows]
        self.at = 0

    def text(self):
        return "".join("\t" * d + ("+ " if f else "- ") + t + "\n" for d, f, t in self.rows)

    def end(self, i):
        e = i + 1
        while e < len(self.rows) and self.rows[e][0] > self.rows[i][0]:
            e += 1
        return e

    def shown(self):
        i, all = 0, []
        while i < len(self.rows):
            all.append(i)
            i = self.end(i) if self.rows[i][1] else i + 1
        return all

    def previous(self, i):
        """The note before it on its level, or none."""
        p = i - 1
        while p >= 0 and self.rows[p][0] > self.rows[i][0]:
            p -= 1
        return p if p >= 0 and self.rows[p][0] == self.rows[i][0] else None

    def parent(self, i):
        return next((p for p in range(i - 1, -1, -1) if self.rows[p][0] < self.rows[i][0]), None)

    def is_long(self):
        return len(self.rows[self.at][2]) > 40

    def move(self, to, deeper):
        i = self.at
        run = self.rows[i:self.end(i)]
        del self.rows[i:self.end(i)]
        self.rows[to:to] = [[d + deeper, f, t] for d, f, t in run]
        self.at = to
        if self.parent(to) is not None:
            self.rows[self.parent(to)][1] = False

    def shift(self, key):
        """Tab, back tab, up and down, where they can be."""
        i, end = self.at, self.end(self.at)
        previous, parent = self.previous(i), self.parent(i)
        if key == b"\t" and previous is not None:
            self.move(i, 1)
        elif key == BACK_TAB and parent is not None:
            self.move(self.end(parent) - (end - i), -1)
        elif key == MOVE_UP and previous is not None:
            self.move(previous, 0)
        elif key == MOVE_DOWN and end < len(self.rows) and self.rows[end][0] == self.rows[i][0]:
            self.move(i + self.end(end) - end, 0)
        else:
            return False
        return True

    def enter(self):
        i = self.at
        below = self.end(i) > i + 1 and not self.rows[i][1]
        self.at = i + 1 if below else self.end(i)
        self.rows.insert(self.at, [self.rows[i][0] + below, False, ""])

    def remove(self):
        i, end = self.at, self.end(self.at)
        shown = self.shown()
        above = shown[shown.index(i) - 1] if shown.index(i) > 0 else None
        has_next = end < len(self.rows) and self.rows[end][0] == self.rows[i][0]
        del self.rows[i:end]
        self.rows = self.rows or [[0, False, ""]]
        self.at = i if has_next else above or 0

    def step(self, over):
        """To the note below or above, where there is one."""
        shown = self.shown()
        k = shown.index(self.at) + over
        if 0 <= k < len(shown):
            self.at = shown[k]


def parsed(text):
    rows = []
    for line in text.splitlines():
        depth = len(line) - len(line.lstrip("\t"))
        rows.append((depth, line[depth] == "+", line[depth + 2:]))
    return rows


def action(m, chance):
    """A few keys, each with the outline behind it."""
    keys = []

    def key(code):
        keys.append((code, m.text()))

    kind = chance.random()
    if kind < 0.4:
        for letter in chance.choices("abcdefgh", k=chance.randint(1, 8)):
            if len(m.rows[m.at][2]) < 35 or m.is_long():
                m.rows[m.at][2] += letter
                key(letter.encode())
    elif kind < 0.55:
        m.enter()
        key(b"\r")
    elif kind < 0.75:
        code = chance.choice([b"\t", BACK_TAB, MOVE_UP, MOVE_DOWN])
        before = Model(m.rows)
        before.at = m.at
        done = m.shift(code)
        key(code)
        if done and chance.random() < 0.3:
            after = Model(m.rows)
            after.at = m.at
            m.rows, m.at = before.rows, before.at
            key(b"\x1a")
            if chance.random() < 0.5:
                m.rows, m.at = after.rows, after.at
                key(b"\x19")
    elif kind < 0.8 and m.end(m.at) - m.at < (4 if len(m.rows) < 60 else 40):
        m.remove()
        key(b"\x0b")
        key(END)
    elif kind < 0.84 and m.end(m.at) > m.at + 1:
        m.rows[m.at][1] = not m.rows[m.at][1]
        key(b"\x0f")
    elif kind < 0.86:
        text = "".join(chance.choices("xyz", k=chance.randint(100, 9000)))
        before = m.text()
        m.rows[m.at][2] += text
        keys.append((PASTE + text.encode() + PASTE_END, None))
        keys.extend([(b"", before)] * len(text))
        key(b"")
        keys[0] = (keys[0][0], before)
    elif kind < 0.9:
        key(b"\x13")
    elif not m.is_long():
        code, over = chance.choice([(UP, -1), (DOWN, 1)])
        shown = m.shown()
        m.step(over)
        key(code)
        key(END)
    return keys


def read_until(fd, wanted, end):
    """Reads the screen until one of the texts came."""
    text = b""
    while time.monotonic() < end and not any(w in text for w in wanted):
        if select.select([fd], [], [], 0.05)[0]:
            try:
                text += os.read(fd, 65536)
            except OSError:
                break
    return text


def drain(fd):
    while select.select([fd], [], [], 0)[0]:
        try:
            if not os.read(fd, 65536):
                return
        except OSError:
            return


def send(fd, code):
    while code:
        drain(fd)
        code = code[os.write(fd, code[:2000]):]


def round_of_keys(program, document, log, rows, chance):
    """Runs the editor and kills it. What the outline may be now, in the order of the keys, and how many were acknowledged."""
    end = time.monotonic() + chance.choice([chance.uniform(0, 0.03), chance.uniform(0.02, 0.25)])
    pid, fd = pty.fork()
    if pid == 0:
        os.environ.update(TERM="xterm", LC_ALL="C.UTF-8")
        os.execv(program, [str(program), "--pause", "0.03", "--every", str(chance.randint(2, 30)), "--log", log, document])
    fcntl.ioctl(fd, termios.TIOCSWINSZ, struct.pack("HHHH", 30, 100, 0, 0))
    m = Model(rows)
    states = [m.text()]
    began = read_until(fd, (b"F1 tells", b"k keeps it"), end)
    keys = [(b"k", m.text())] if b"k keeps it" in began else []
    keys.append((END, m.text()))
    has_begun = b"F1 tells" in began or b"k keeps it" in began
    while has_begun and time.monotonic() < end:
        for code, state in keys:
            if code:
                send(fd, code)
            states.append(state)
        keys = action(m, chance)
        if chance.random() < 0.1:
            time.sleep(max(0, min(chance.uniform(0, 0.06), end - time.monotonic())))
    time.sleep(max(0, min(chance.choice([0, 0, 0.001, 0.01]), 0.01)))
    os.kill(pid, signal.SIGKILL)
    os.waitpid(pid, 0)
    os.close(fd)
    lines = open(log).read().split("\n")[:-1] if os.path.exists(log) else []
    return states, int(lines[-1].split()[1]) if lines else 0, len(lines)


def document_of(program, path):
    """The rows of the outline, which has to open."""
    done = subprocess.run([program, "--print", path], capture_output=True, text=True)
    return done.stdout if done.returncode == 0 else None


def kill_times(program, folder, times, seed):
    """What went wrong, and counts."""
    chance = random.Random(seed)
    document, rows = str(folder / f"killed{seed}.document"), [(0, False, "")]
    counts = {"keys": 0, "commits": 0, "behind": 0, "unmade": 0}
    for i in range(times):
        log = str(folder / f"killed{seed}.log")
        if os.path.exists(log):
            os.remove(log)
        if chance.random() < 0.1 and os.path.exists(document):
            os.remove(document)
            rows = [(0, False, "")]
        states, acknowledged, commits = round_of_keys(program, document, log, rows, chance)
        if not os.path.exists(document) and acknowledged == 0 and len(states) == 1:
            counts["unmade"] += 1
            continue
        text = document_of(program, document)
        if text is None:
            return f"seed {seed}, kill {i}: it doesn't open, or is no outline", counts
        if text not in states[acknowledged:]:
            where = states.index(text) if text in states else "none of them"
            return f"seed {seed}, kill {i}: {acknowledged} keys of {len(states) - 1} were acknowledged, it has {where}", counts
        counts["keys"] += len(states) - 1
        counts["commits"] += commits
        counts["behind"] += text != states[-1]
        rows = parsed(text)
    return None, counts


def kill(program, folder, times):
    """The name of the check, whether it is so, and what went wrong."""
    parts = 2
    with concurrent.futures.ProcessPoolExecutor(parts) as pool:
        all = list(pool.map(kill_times, [program] * parts, [folder] * parts, [times // parts] * parts, range(1, parts + 1)))
    wrong = [what for what, _ in all if what]
    keys, commits, behind, unmade = (sum(c[k] for _, c in all) for k in ("keys", "commits", "behind", "unmade"))
    name = (f"{times} kills: it opens to what was acknowledged, or to something since: {keys} keys, {commits} commits, "
            f"{behind} times keys were lost, {unmade} times before the file was there")
    return name, not wrong, wrong
