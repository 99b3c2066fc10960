# Needs: python3 valgrind
"""Counts the instructions that a program takes for a line of small rows of `bench/`, by valgrind, and compares them
with those that are written down: a row that takes a twentieth more fails.

    python3 checks/instructions.py GEOSVM [--write] [FILE]

FILE, bench/instructions.txt where none is given, has a line for each row: its name, its scale and its count. `--write`
writes it anew.
"""

from __future__ import annotations

import sys
from pathlib import Path

BENCH = Path(__file__).resolve().parent.parent / "bench"
sys.path.insert(0, str(BENCH))

from bench import chosen, program  # noqa: E402
from counting import LineCounter  # noqa: E402
from running import BenchError, adopt_orphans, scratch, write_script  # noqa: E402
from workloads import Scale  # noqa: E402

# The rows and how much of each: so much that what a line takes stands out, and all of them in less than a minute.
ROWS = {
    "writes": 0.01,
    "undo-10000": 0.2,
    "lists": 0.004,
    "churn": 0.01,
    "names": 0.2,
    "array-1000": 0.3,
    "raw": 0.1,
    "raws": 0.1,
    "document-200": 0.5,
    "new-blocks": 0.03,
    "opening": 0.05,
    "groups": 0.1,
    "chains": 0.1,
    "text-2": 0.1,
    "edits-1": 0.3,
}
SEED = 1
MORE = 1.05


def read(path: Path) -> dict[str, tuple[float, int]]:
    """The scale and the count of each row that is written down; none where there is no file."""
    if not path.exists():
        return {}
    rows = [line.split() for line in path.read_text().splitlines()]
    return {name: (float(scale), int(count)) for name, scale, count in rows}


def write(path: Path, counts: dict[str, int]) -> None:
    path.write_text("".join(f"{name} {ROWS[name]:g} {count}\n" for name, count in counts.items()))


def count_of(counter: LineCounter, name: str) -> int:
    """The instructions of a line of a row."""
    with scratch() as folder:
        count = counter.a_line(write_script(chosen([name])[0], Scale(ROWS[name]), SEED, folder), folder)
    if count is None:
        raise BenchError("it has no line")
    return round(count)


def what_is_wrong(name: str, count: int, written: dict[str, tuple[float, int]]) -> str:
    """Why a count isn't right by what is written down; nothing where it is."""
    if name not in written:
        return "it isn't written down"
    scale, before = written[name]
    if scale != ROWS[name]:
        return f"it is written down at scale {scale:g}, and counted at {ROWS[name]:g}"
    return "it takes more than a twentieth more" if count > before * MORE else ""


def shown(name: str, count: int, written: dict[str, tuple[float, int]]) -> str:
    before = written[name][1] if name in written else 0
    down, ratio = (f"{before:,}", f"{count / before:.3f}") if before else ("-", "-")
    return f"{name:<12} {count:>12,} {down:>12} {ratio:>7}"


def main(words: list[str]) -> int:
    writes = "--write" in words
    geosvm, *rest = [word for word in words if word != "--write"]
    path = Path(rest[0]) if rest else BENCH / "instructions.txt"
    written = read(path)
    counter, counts, wrong = LineCounter(program(geosvm)), dict[str, int](), list[str]()
    adopt_orphans()
    print(f"{'row':<12} {'count':>12} {'written down':>12} {'ratio':>7}")
    for name in ROWS:
        try:
            counts[name] = count_of(counter, name)
        except BenchError as error:
            wrong.append(f"FAILED  {name}: {error}")
            continue
        print(shown(name, counts[name], written), flush=True)
        reason = "" if writes else what_is_wrong(name, counts[name], written)
        wrong += [f"FAILED  {name}: {reason}"] if reason else []
    passed = len(ROWS) - len(wrong)
    if not writes:
        wrong += [f"FAILED  {name}: it is written down, and not counted" for name in written if name not in ROWS]
    elif not wrong:
        write(path, counts)
    for line in wrong:
        print(line)
    print(f"{passed} passed, {len(wrong)} failed")
    return 1 if wrong else 0


if __name__ == "__main__":
    sys.exit(main(sys.argv[1:]))
