"""Counts of the instructions that a program takes for a line, by valgrind's callgrind."""

from __future__ import annotations

import os
import re
import subprocess
from pathlib import Path
from typing import Final

from running import BenchError, Script, command, judge, prepare, scratch, write_lines

TUNABLES: Final = "glibc.cpu.hwcaps=-ERMS"
"""Has glibc set and copy long runs by vectors: callgrind counts each byte of a repeated move as an instruction."""

TOTAL: Final = re.compile(r"^totals: (\d+)$", re.MULTILINE)


def counted(program: Path, script: Script, folder: Path) -> int:
    """The instructions of a whole run on a script, from the start of the program to its end. Each reply is checked."""
    prepare(program, script, folder)
    counts, told = folder / "counts", folder / "valgrind"
    counts.unlink(missing_ok=True)
    environment = {**os.environ, "GLIBC_TUNABLES": TUNABLES}
    words = ["valgrind", "--tool=callgrind", f"--callgrind-out-file={counts}", f"--log-file={told}"]
    with script.path.open() as lines, (folder / "replies").open("w") as out, (folder / "errors").open("w") as errors:
        try:
            words += map(str, command(program, script, folder))
            status = subprocess.run(words, stdin=lines, stdout=out, stderr=errors, env=environment).returncode
        except FileNotFoundError:
            raise BenchError("there is no valgrind") from None
    judge(status, script, folder)
    total = TOTAL.search(counts.read_text()) if counts.exists() else None
    if not total:
        raise BenchError(f"callgrind counted nothing: {told.read_text(errors='replace').strip()[-400:]}")
    return int(total[1])


class LineCounter:
    """Counts of one program. What a run takes without a line, with a new document, is counted once, and is in none of them."""

    def __init__(self, program: Path) -> None:
        self._program = program
        self._empty: int | None = None

    def a_line(self, script: Script, folder: Path) -> float | None:
        """The instructions of a line of the script; None where it has none."""
        if not script.lines:
            return None
        without = self._without_lines() if script.counts_opening else self._opening(script, folder)
        return (counted(self._program, script, folder) - without) / script.lines

    def _opening(self, script: Script, folder: Path) -> int:
        """What a run takes that opens the document of a script, and reads no line."""
        empty = write_lines(iter(()), folder / "empty", folder / "empty.right", script.before)
        return counted(self._program, empty, folder)

    def _without_lines(self) -> int:
        if self._empty is None:
            with scratch() as folder:
                empty = write_lines(iter(()), folder / "script", folder / "right")
                self._empty = counted(self._program, empty, folder)
        return self._empty
