"""Scripts and their replies as files, runs of a program on them with what each took, and the check of what it answered."""

from __future__ import annotations

import ctypes
import filecmp
import os
import signal
import subprocess
from collections.abc import Iterator
from contextlib import contextmanager, suppress
from dataclasses import dataclass, replace
from itertools import zip_longest
from pathlib import Path
from tempfile import TemporaryDirectory
from typing import Final

from workloads import Lines, Scale, Workload

BATCH: Final = 1 << 20

# How often a program is started that ends before it can be waited for.
STARTS: Final = 20


class BenchError(Exception):
    """A run that can't stand in the table."""


class ReapedError(BenchError):
    """The shell that started a short run was still there at its end, and took what was known of it."""


@dataclass(frozen=True, slots=True)
class Script:
    """The lines of a workload in a file, and in another the replies that are right.

    They are for a new document, or for the one that the script `before` makes of a new one, whose opening can be left out of counts.
    """

    path: Path
    replies: Path
    lines: int
    refused: int
    before: Script | None = None
    counts_opening: bool = True


@dataclass(frozen=True, slots=True)
class Run:
    """What a program took: seconds of processor time, and bytes of memory at its peak."""

    user: float
    system: float
    peak: int

    @property
    def processor(self) -> float:
        return self.user + self.system


@contextmanager
def scratch() -> Iterator[Path]:
    """A folder for the files of a workload, which goes behind it; its name is as long as that of each other one."""
    with TemporaryDirectory(prefix="geosvm-bench-") as name:
        yield Path(name)


def write_script(workload: Workload, scale: Scale, seed: int, folder: Path) -> Script:
    """Makes the two files of a workload, and two more where it has a script before it."""
    first = workload.lines_before(scale, seed)
    before = None if first is None else write_lines(first, folder / "before", folder / "before.right")
    script = write_lines(workload.lines(scale, seed), folder / "script", folder / "right", before)
    return replace(script, counts_opening=workload.counts_opening)


def write_lines(made: Lines, path: Path, replies: Path, before: Script | None = None) -> Script:
    lines = refused = 0
    with path.open("w", buffering=BATCH) as script, replies.open("w", buffering=BATCH) as right:
        for text, reply in made:
            script.write(text + "\n")
            lines += 1
            if reply:
                right.write(reply + "\n")
                refused += reply.startswith("no ")
    return Script(path, replies, lines, refused, before)


def adopt_orphans() -> None:
    """Makes this process the parent of each child that a child of its leaves behind (Linux's PR_SET_CHILD_SUBREAPER)."""
    if ctypes.CDLL(None, use_errno=True).prctl(36, 1, 0, 0, 0):
        raise OSError(ctypes.get_errno(), "prctl")


def command(program: Path, script: Script, folder: Path) -> list[str | Path]:
    """The words that run the program on the document of a script."""
    return [program, *([] if script.before else ["--new"]), folder / "document"]


def prepare(program: Path, script: Script, folder: Path) -> None:
    """Leaves the document as the script is to find it: none, or the one that the script before makes."""
    (folder / "document").unlink(missing_ok=True)
    if script.before:
        run(program, script.before, folder)


def start(program: Path, script: Script, folder: Path) -> int:
    """Starts the program on the script, and gives its process.

    The peak of a process is no less than what was in memory of the one that it was forked from. So it is forked by `sh`, which is small,
    and left behind to this process.
    """
    line = 'script=$1 replies=$2 errors=$3; shift 3; "$@" <"$script" >"$replies" 2>"$errors" & echo $!'
    files = [script.path, folder / "replies", folder / "errors"]
    words = ["sh", "-c", line, "sh", *files, *command(program, script, folder)]
    shell = subprocess.run(words, stdout=subprocess.PIPE, check=True, text=True)
    return int(shell.stdout)


def finish(process: int) -> tuple[int, Run]:
    """Waits for the program to end: its exit status, and what it took."""
    try:
        _, status, used = os.wait4(process, 0)
    except ChildProcessError:
        raise ReapedError("it ended before it could be waited for") from None
    except KeyboardInterrupt:
        os.kill(process, signal.SIGKILL)
        raise
    return os.waitstatus_to_exitcode(status), Run(used.ru_utime, used.ru_stime, used.ru_maxrss * 1024)


def waited(program: Path, script: Script, folder: Path) -> tuple[int, Run]:
    """The exit status of a run, and what it took. One that the shell has reaped is started again."""
    for _ in range(STARTS):
        prepare(program, script, folder)
        with suppress(ReapedError):
            return finish(start(program, script, folder))
    raise BenchError("it ended before it could be waited for, each time")


def run(program: Path, script: Script, folder: Path) -> Run:
    """Runs the program on the script, and checks each of its replies."""
    status, took = waited(program, script, folder)
    judge(status, script, folder)
    return took


def judge(status: int, script: Script, folder: Path) -> None:
    """Raises what is wrong with a run of this exit status, whose replies and errors are in the folder."""
    replies, errors = folder / "replies", folder / "errors"
    if status:
        raise BenchError(f"status {status}: {errors.read_text(errors='replace').strip()}")
    if not filecmp.cmp(replies, script.replies, shallow=False):
        raise BenchError(first_difference(replies, script.replies))


def first_difference(got: Path, wanted: Path) -> str:
    """The first line in which two files differ."""
    with got.open(errors="replace") as one, wanted.open() as other:
        for number, (line, right) in enumerate(zip_longest(one, other), 1):
            if line != right:
                return f"reply {number} is {shown(line)} and not {shown(right)}"
    return "no difference"


def shown(line: str | None) -> str:
    if line is None:
        return "missing"
    text = line.rstrip("\n")
    return repr(text if len(text) <= 60 else text[:60] + "..")
