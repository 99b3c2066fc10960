"""Runs a built program on each workload, and prints what it took as a table. README.md says what the columns mean."""

from __future__ import annotations

import argparse
import os
import platform
import sys
from collections.abc import Callable
from functools import partial
from pathlib import Path
from typing import TypeVar

from counting import LineCounter
from running import BenchError, Run, Script, adopt_orphans, run, scratch, write_script
from workloads import Scale, Workload, workloads

HEAD = ["user s", "system s", "MB", "µs a line"]
COUNT = "instructions"

Result = TypeVar("Result")


def positive(text: str) -> float:
    number = float(text)
    if not 0 < number < float("inf"):
        raise argparse.ArgumentTypeError("it is to be above 0")
    return number


def count(text: str) -> int:
    number = int(text)
    if number < 1:
        raise argparse.ArgumentTypeError("it is to be 1 at least")
    return number


def program(text: str) -> Path:
    path = Path(text).resolve()
    if not os.access(path, os.X_OK) or path.is_dir():
        raise argparse.ArgumentTypeError(f"{text} is no program")
    return path


def options(words: list[str]) -> argparse.Namespace:
    parser = argparse.ArgumentParser(description="Runs a built geosvm on workloads, and prints what it took as a table.")
    parser.add_argument("program", type=program, help="the built program")
    parser.add_argument("--against", type=program, metavar="OTHER", help="another program for the same command language")
    parser.add_argument("--scale", type=positive, default=1.0, help="how much of each workload; 1 where nothing is said")
    parser.add_argument("--only", action="append", metavar="NAME", help="this workload, or all NAME-SIZE; can be given again")
    parser.add_argument("--seed", type=int, default=1, help="of all that is at random; 1 where nothing is said")
    parser.add_argument("--repeat", type=count, default=1, metavar="N", help="run each N times, and tell the fastest")
    parser.add_argument("--instructions", action="store_true", help="count them too, by valgrind, which takes long")
    parser.add_argument("--list", action="store_true", help="print the workloads and what each shows, and run nothing")
    return parser.parse_args(words)


def chosen(names: list[str] | None) -> list[Workload]:
    """The workloads that were asked for, in the order of the table."""
    every = workloads()
    known = {name for workload in every for name in (workload.name, workload.family)}
    for name in names or []:
        if name not in known:
            raise BenchError(f"no workload {name}; there are {' '.join(workload.name for workload in every)}")
    return [workload for workload in every if not names or workload.name in names or workload.family in names]


def fastest(programs: list[Path], script: Script, folder: Path, repeat: int) -> list[Run]:
    """The run of each program that took the least processor time. They take turns, so that a busy machine meets them alike."""
    runs: list[list[Run]] = [[] for _ in programs]
    for _ in range(repeat):
        for path, taken in zip(programs, runs):
            taken.append(named(path, partial(run, path, script, folder)))
    return [min(taken, key=lambda one: one.processor) for taken in runs]


def named(path: Path, work: Callable[[], Result]) -> Result:
    """What comes of the work, where what goes wrong is told with the program's name."""
    try:
        return work()
    except BenchError as wrong:
        raise BenchError(f"{path}: {wrong}") from None


def share(one: float | None, other: float | None) -> str:
    return "-" if one is None or not other else f"{one / other:.2f}"


def columns(took: Run, lines: int) -> list[str]:
    """What stands in a row of one program."""
    each = f"{took.processor / lines * 1e6:.3f}" if lines else "-"
    return [f"{took.user:.2f}", f"{took.system:.2f}", f"{took.peak / 1e6:.1f}", each]


def row(workload: Workload, script: Script, runs: list[Run], counts: list[float | None]) -> list[str]:
    """The cells of a row: of each program what its run took, and its instructions of a line where they were counted."""
    cells = [workload.name, f"{script.lines:,}", f"{script.refused:,}"]
    for place, took in enumerate(runs):
        cells += columns(took, script.lines)
        cells += ["-" if count is None else f"{count:,.0f}" for count in counts[place : place + 1]]
    if len(runs) == 2:
        one, other = runs
        cells += [share(one.processor, other.processor), share(one.peak, other.peak)]
        cells += [share(*counts)] if counts else []
    return cells


def printed(cells: list[str], widths: list[int]) -> None:
    """Prints a row at once, so that who waits sees it."""
    first, *numbers = cells
    padded = [first.ljust(widths[0]), *(number.rjust(width) for number, width in zip(numbers, widths[1:]))]
    print("|", " | ".join(padded), "|", flush=True)


def titles(against: bool, instructions: bool) -> list[str]:
    """What stands over the columns."""
    one = [*HEAD, *([COUNT] if instructions else [])]
    first, *others = one
    shares = ["time", "memory", *(["count"] if instructions else [])]
    return ["workload", "lines", "refused", *one, *([f"other: {first}", *others, *shares] if against else [])]


def head(arguments: argparse.Namespace) -> list[int]:
    """Prints what was run and where, and the head of the table; the widths of its columns."""
    print(f"{arguments.program}" + (f", other: {arguments.against}" if arguments.against else ""))
    machine = f"{platform.machine()}, {os.cpu_count()} processors, {platform.system()} {platform.release()}"
    print(f"scale {arguments.scale:g}, seed {arguments.seed}, fastest of {arguments.repeat}; {machine}\n")
    names = titles(bool(arguments.against), arguments.instructions)
    widths = [max(len(name), 13 if place == 0 else 9) for place, name in enumerate(names)]
    printed(names, widths)
    printed(["-" * widths[0], *("-" * (width - 1) + ":" for width in widths[1:])], widths)
    return widths


def measured(arguments: argparse.Namespace, chosen_ones: list[Workload]) -> bool:
    """Prints the table; whether each workload has its row."""
    widths = head(arguments)
    programs = [arguments.program] + ([arguments.against] if arguments.against else [])
    counters = [(path, LineCounter(path)) for path in programs] if arguments.instructions else []
    wrong: list[str] = []
    for workload in chosen_ones:
        with scratch() as folder:
            script = write_script(workload, Scale(arguments.scale), arguments.seed, folder)
            try:
                runs = fastest(programs, script, folder, arguments.repeat)
                counts = [named(path, partial(counter.a_line, script, folder)) for path, counter in counters]
                printed(row(workload, script, runs, counts), widths)
            except BenchError as error:
                wrong.append(f"bench: {workload.name}: {error}")
    for line in wrong:
        print(line, file=sys.stderr)
    return not wrong


def main(words: list[str]) -> int:
    arguments = options(words)
    try:
        chosen_ones = chosen(arguments.only)
    except BenchError as wrong:
        print(f"bench: {wrong}", file=sys.stderr)
        return 2
    if arguments.list:
        for workload in chosen_ones:
            print(f"{workload.name:<14}{workload.shows}")
        return 0
    adopt_orphans()
    return 0 if measured(arguments, chosen_ones) else 1


if __name__ == "__main__":
    sys.exit(main(sys.argv[1:]))
