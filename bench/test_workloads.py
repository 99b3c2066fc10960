# Needs: python3 valgrind
"""Tests of the models, of the workloads and of the runner: `python3 -m unittest` in this folder.

Where the environment variable GEOSVM names a built program, it is run on a small script of each workload too.
"""

from __future__ import annotations

import os
import resource
import tempfile
import unittest
from collections import Counter
from dataclasses import replace
from itertools import islice
from pathlib import Path
from random import Random
from unittest import mock

from bench import chosen, columns, fastest, row, titles
from counting import LineCounter
from models import BLOCKS, CAPACITY, HeapModel, Slot, TextModel, TokenModel, TreeModel
from running import BenchError, Run, Script, adopt_orphans, first_difference, run, write_script
from workloads import Scale, Workload, workloads

SMALL = Scale(0.002)
ANSWERED = Scale(0.02)

# What a program of the shell's own does with each line, up to its end.
READS = 'while read -r line; do echo "$line";'


def texts(workload: Workload, scale: Scale, seed: int) -> list[str]:
    return [line.text for line in workload.lines(scale, seed)]


def named(name: str) -> Workload:
    return chosen([name])[0]


class Heaps(unittest.TestCase):
    def needed(self, sizes: dict[int, int]) -> int:
        """The size formula, from the sizes of all chunks."""
        table = 4 * ((max(sizes, default=0) + 1) // 2)
        return 16 + table + sum(4 * ((size + 5) // 4) for size in sizes.values() if size)

    def test_it_needs_what_the_formula_says_and_has_the_least_free_entry(self) -> None:
        heap, rng, sizes = HeapModel(), Random(1), dict[int, int]()
        for _ in range(3_000):
            entry = heap.pick(rng) if sizes and rng.randrange(2) else heap.free_entry()
            size = rng.randrange(900)
            if entry in sizes and rng.randrange(2):
                self.assertTrue(heap.resize(entry, None))
                del sizes[entry]
            elif heap.resize(entry, size):
                sizes[entry] = size
            else:
                self.assertGreater(self.needed({**sizes, entry: size}), CAPACITY)
            self.assertEqual(heap.need, self.needed(sizes))
            self.assertLessEqual(heap.need, CAPACITY)
            self.assertEqual(heap.free_entry(), next(free for free in range(1, len(sizes) + 2) if free not in sizes))

    def test_the_longest_chunk_fills_a_heap(self) -> None:
        self.assertTrue(HeapModel().resize(1, 65_498))
        self.assertFalse(HeapModel().resize(1, 65_499))

    def test_undos_give_back_each_heap_and_redos_too(self) -> None:
        heap, rng = HeapModel(), Random(2)
        seen = [(heap.need, heap.chunks(), heap.free_entry())]
        while len(seen) < 300:
            entry = heap.pick(rng) if len(heap) and rng.randrange(3) else heap.free_entry()
            live = HeapModel.chunk(entry) in heap.chunks()
            if heap.resize(entry, None if live and rng.randrange(3) == 0 else rng.randrange(2_000)):
                seen.append((heap.need, heap.chunks(), heap.free_entry()))
        for wanted in reversed(seen[:-1]):
            heap.undo()
            self.assertEqual((heap.need, heap.chunks(), heap.free_entry()), wanted)
        for wanted in seen[1:]:
            heap.redo()
            self.assertEqual((heap.need, heap.chunks(), heap.free_entry()), wanted)


class Tokens(unittest.TestCase):
    def test_the_newest_free_token_comes_first(self) -> None:
        array = TokenModel()
        for text in ("aa", "bb", "cc"):
            array.set(array.next_token(), Slot(1, text))
        array.set(0, None)
        array.unref(1)
        self.assertEqual(array.next_token(), 1)
        self.assertEqual(array.index(2), 0)
        array.set(1, Slot(1, "dd"))
        self.assertEqual(array.next_token(), 0)
        array.set(0, Slot(1, "ee"))
        self.assertEqual(array.next_token(), 3)

    def test_a_reference_less_leaves_what_has_more(self) -> None:
        array = TokenModel()
        array.set(0, Slot(2, "aa", "01"))
        array.unref(0)
        self.assertEqual(array.slot(0), Slot(1, "aa", "01"))
        array.unref(0)
        self.assertNotIn("aa", array)

    def test_an_undo_gives_back_slots_and_the_order_of_free_ones(self) -> None:
        array = TokenModel()
        array.set(0, Slot(1, "aa"))
        array.set(1, Slot(1, "bb"))
        array.undo()
        self.assertEqual((len(array), array.next_token()), (1, 1))
        array.set(0, None)
        array.undo()
        self.assertEqual((array.slot(0), array.next_token()), (Slot(1, "aa"), 1))


class Texts(unittest.TestCase):
    def test_an_edited_text_is_as_bytes_that_are_edited_alike(self) -> None:
        rng = Random(1)
        right = bytearray(rng.randbytes(70_000))
        text = TextModel(right)
        for _ in range(400):
            content, at = rng.randbytes(rng.choice([1, 64, 40_000])), rng.randint(0, len(right))
            less = min(rng.choice([0, 64, 90_000]), len(right) - at)
            text.delete(at, less)
            text.insert(at, content)
            right[at : at + less] = content
            self.assertEqual(len(text), len(right))
        runs = list(text.runs(10_000))
        self.assertEqual([at for at, _ in runs], list(range(0, len(right), 10_000)))
        self.assertEqual(b"".join(content for _, content in runs), right)
        self.assertEqual(len(TextModel(b"")), 0)


class Trees(unittest.TestCase):
    def test_a_walk_comes_once_to_each_block_from_the_root_on(self) -> None:
        for blocks in (1, 2, 7, 500):
            tree = TreeModel(blocks, Random(blocks))
            walk = tree.walk()
            self.assertEqual(walk[0], "0001")
            self.assertEqual(sorted(walk), [f"{block:04x}" for block in range(1, blocks + 1)])

    def test_bodies_are_as_the_format_has_them(self) -> None:
        tree = TreeModel(9, Random(1))
        bodies = [tree.body(block, "5a") for block in range(9)]
        for body in bodies:
            self.assertTrue(body.startswith("ffff0600") or body in ("00005a", body[:2] + "005a"), body)
        self.assertEqual(bodies[-1], "00005a")


class Workloads(unittest.TestCase):
    def test_the_same_seed_makes_the_same_script_and_another_one_another(self) -> None:
        for workload in workloads():
            with self.subTest(workload.name):
                script = texts(workload, SMALL, 7)
                self.assertEqual(script, texts(workload, SMALL, 7))
                if workload.name not in ("start", "lists", "blanks", "new-blocks", "opening"):
                    self.assertNotEqual(script, texts(workload, SMALL, 8))

    def test_each_has_a_name_of_its_own_and_says_what_it_shows(self) -> None:
        self.assertEqual(max(Counter(workload.name for workload in workloads()).values()), 1)
        for workload in workloads():
            self.assertTrue(workload.shows.endswith("."), workload.name)

    def test_a_name_without_a_size_stands_for_all_sizes(self) -> None:
        self.assertEqual([workload.name for workload in chosen(["array", "raw"])], ["raw", "array-10", "array-1000", "array-10000"])
        self.assertRaises(BenchError, chosen, ["arrays"])

    def test_counts_follow_the_scale(self) -> None:
        verbs = Counter(text.split()[0] for text in texts(named("writes"), Scale(0.05), 1))
        self.assertEqual((verbs["alloc"], verbs["write"], verbs["undo"]), (5, 10_000, 10_000))
        verbs = Counter(text.split()[0] for text in islice(texts(named("raw"), Scale(1), 1), 40_000))
        self.assertEqual((verbs["newraw"], verbs["vwrite"], verbs["update"]), (1_000, 30_000, 30))
        verbs = Counter(text.split()[0] for text in texts(named("names"), Scale(1), 1))
        self.assertEqual(sum(verbs.values()), 4 + 2 * 2_000 + 6_000)

    def test_blocks_that_are_full_are_as_many_as_a_document_can_have(self) -> None:
        for scale in (Scale(1), Scale(2)):
            script = texts(named("new-blocks"), scale, 1)
            self.assertEqual(script, [f"newraw 0 {CAPACITY}"] * BLOCKS + ["list"])
        made = [line.text for line in named("opening").lines_before(Scale(0.01), 1) or ()]
        self.assertEqual(made, [f"newraw 0 {CAPACITY}"] * 82 + ["save"])
        self.assertEqual([len(line.reply.split()) for line in named("opening").lines(Scale(0.01), 1)], [83])

    def test_rows_of_other_scripts_have_a_new_document(self) -> None:
        before = [workload.name for workload in workloads() if workload.lines_before(SMALL, 1) is not None]
        self.assertEqual(before, ["opening", "edits-1", "edits-10", "edits-100"])
        counting = [workload.name for workload in workloads() if not workload.counts_opening]
        self.assertEqual(counting, ["edits-1", "edits-10", "edits-100"])

    def test_a_text_is_built_edited_and_read_whole(self) -> None:
        lines = list(named("text-2").lines(Scale(0.01), 1))
        verbs = Counter(line.text.split()[0] for line in lines)
        edits = [line.text.split() for line in lines if line.text.startswith(("hinsert", "hdelete"))]
        self.assertEqual(len(edits), 312 + 100)
        self.assertEqual([words[2] for words in edits[:312]], [str(at) for at in range(0, 64 * 312, 64)])
        self.assertEqual({len(words[3]) if words[0] == "hinsert" else int(words[3]) for words in edits}, {128, 64})
        length = 64 * (verbs["hinsert"] - verbs["hdelete"])
        self.assertEqual(sum(len(line.reply) - 6 for line in lines if line.text.startswith("hread")), 2 * length)
        self.assertIn(f"number {length}", [line.reply for line in lines])

    def test_each_branch_of_a_text_of_any_size_has_room(self) -> None:
        for size in (1, 10, 100):
            made = [line.text for line in named(f"edits-{size}").lines_before(Scale(0.1), 1) or ()]
            self.assertEqual({text.split()[2] for text in made[1:-1]}, {"0"})
            self.assertEqual({len(text.split()[3]) for text in made[1:-1]}, {100_000})
            self.assertEqual(len(made) - 2, 2 * size)
            self.assertEqual(len(texts(named(f"edits-{size}"), Scale(0.1), 1)), 101)

    def test_each_group_of_two_edits_is_undone(self) -> None:
        verbs = [text.split()[0] for text in texts(named("groups"), Scale(0.01), 1)]
        self.assertEqual(verbs[:84], ["newraw"] * 80 + ["vwrite"] * 4)
        self.assertEqual(verbs[84:-6], ["begin", "vwrite", "vwrite", "end", "undo"] * 50)
        self.assertEqual(verbs[-6:], ["undos", "redos"] + ["vread"] * 4)

    def test_raws_writes_over_blocks_of_8_kb(self) -> None:
        for name, size in (("raw", 1_024), ("raws", 8_192)):
            made = {text for text in texts(named(name), SMALL, 1) if text.startswith("newraw")}
            self.assertEqual(made, {f"newraw 0 {size}"})

    def test_most_edits_of_a_nearly_full_heap_are_accepted(self) -> None:
        lines = list(named("churn").lines(Scale(0.05), 1))
        self.assertLess(sum(line.reply.startswith("no ") for line in lines), len(lines) // 50)
        needs = next(line.reply for line in lines if line.text == "info 0001")
        self.assertGreater(int(needs.split()[2]), CAPACITY * 95 // 100)


class WithPrograms(unittest.TestCase):
    """Programs that are shell scripts, in a folder that goes with the test."""

    def setUp(self) -> None:
        adopt_orphans()
        folder = tempfile.TemporaryDirectory()
        self.addCleanup(folder.cleanup)
        self.folder = Path(folder.name)

    def written(self, name: str, text: str) -> Path:
        path = self.folder / name
        path.write_text(text)
        return path

    def program(self, commands: str) -> Path:
        path = self.written("program", f"#!/bin/sh\n{commands}\n")
        path.chmod(0o755)
        return path

    def script(self, replies: str, before: Script | None = None) -> Script:
        return Script(self.written("script", "list\n"), self.written("right", replies), 1, 0, before)


class Runs(WithPrograms):
    def test_a_run_with_the_right_replies_is_taken_and_its_peak_is_its_own(self) -> None:
        took = run(self.program("sleep 0.05; cat"), self.script("list\n"), self.folder)
        own = resource.getrusage(resource.RUSAGE_SELF).ru_maxrss * 1024
        self.assertTrue(0 < took.peak < own, took)

    def test_another_reply_and_a_missing_one_are_told(self) -> None:
        program = self.program("sleep 0.05; cat")
        self.assertRaisesRegex(BenchError, "reply 1 is 'list' and not 'blocks'", run, program, self.script("blocks\n"), self.folder)
        self.assertRaisesRegex(BenchError, "reply 2 is missing and not 'ok'", run, program, self.script("list\nok\n"), self.folder)

    def test_a_program_that_fails_is_told_with_what_it_says(self) -> None:
        program = self.program("sleep 0.05; echo 'it broke' >&2; exit 3")
        self.assertRaisesRegex(BenchError, "status 3: it broke", run, program, self.script(""), self.folder)

    def test_the_fastest_of_each_program_is_taken(self) -> None:
        program = self.program("sleep 0.05; cat")
        runs = fastest([program, program], self.script("list\n"), self.folder, 2)
        self.assertEqual(len(runs), 2)

    def test_what_the_script_before_makes_is_opened(self) -> None:
        program = self.program('sleep 0.05; if [ "$1" = --new ]; then cat >"$2"; else cat "$1"; fi')
        before = Script(self.written("before", "made\n"), self.written("before.right", ""), 1, 0)
        run(program, self.script("made\n", before), self.folder)
        other = self.script("list\n", before)
        self.assertRaisesRegex(BenchError, "reply 1 is 'made'", run, program, other, self.folder)
        wrong = self.script("made\n", Script(before.path, self.written("before.right", "ok\n"), 1, 0))
        self.assertRaisesRegex(BenchError, "is missing and not 'ok'", run, program, wrong, self.folder)

    def test_the_first_difference_is_found(self) -> None:
        one, other = self.written("one", "a\nb\nc\n"), self.written("other", "a\nB\nC\n")
        self.assertEqual(first_difference(one, other), "reply 2 is 'b' and not 'B'")

    def test_columns_are_seconds_megabytes_and_microseconds(self) -> None:
        self.assertEqual(columns(Run(1.5, 0.5, 2_500_000), 1_000_000), ["1.50", "0.50", "2.5", "2.000"])


class Counts(WithPrograms):
    """Of programs that the shell carries out itself, so that valgrind sees all of it."""

    def lines(self, count: int) -> Script:
        return Script(self.written("script", "list\n" * count), self.written("right", "list\n" * count), count, 0)

    def a_line(self, program: Path, script: Script) -> float:
        count = LineCounter(program).a_line(script, self.folder)
        assert count is not None
        return count

    def test_a_line_counts_as_much_in_a_long_script_as_in_a_short_one(self) -> None:
        program = self.program(f"{READS} done")
        short, long = (self.a_line(program, self.lines(count)) for count in (200, 800))
        self.assertTrue(0.9 * short < long < 1.1 * short, (short, long))

    def test_what_does_more_counts_more(self) -> None:
        once = self.a_line(self.program(f"{READS} done"), self.lines(200))
        again = self.a_line(self.program(f'{READS} : "$line" "$line"; done'), self.lines(200))
        self.assertGreater(again, 1.05 * once)

    def test_what_is_before_the_lines_counts_in_none(self) -> None:
        one = self.a_line(self.program(f"{READS} done"), self.lines(200))
        waits = "i=0; while [ $i -lt 2000 ]; do i=$((i + 1)); done"
        other = self.a_line(self.program(f"{waits}; {READS} done"), self.lines(200))
        self.assertTrue(0.99 * one < other < 1.01 * one, (one, other))

    def test_an_opening_is_in_no_count_where_that_is_said(self) -> None:
        loop = "i=0; while [ $i -lt $(($# * 2000)) ]; do i=$((i + 1)); done"
        program = self.program(f'if [ "$1" = --new ]; then : >"$2"; set --; fi; {loop}; {READS} done')
        before = Script(self.written("before", ""), self.written("before.right", ""), 0, 0)
        new = self.lines(200)
        opened, uncounted = replace(new, before=before), replace(new, before=before, counts_opening=False)
        one, counted, other = (self.a_line(program, script) for script in (new, opened, uncounted))
        self.assertTrue(0.99 * one < other < 1.01 * one, (one, other))
        self.assertGreater(counted, 1.1 * one)

    def test_a_script_without_a_line_has_no_count(self) -> None:
        self.assertIsNone(LineCounter(self.program("cat")).a_line(self.lines(0), self.folder))

    def test_a_run_that_goes_wrong_has_no_count(self) -> None:
        counter = LineCounter(self.program("echo other"))
        self.assertRaisesRegex(BenchError, "reply 1 is 'other'", counter.a_line, self.lines(1), self.folder)
        counter = LineCounter(self.program("echo 'it broke' >&2; exit 3"))
        self.assertRaisesRegex(BenchError, "status 3: it broke", counter.a_line, self.lines(1), self.folder)

    def test_a_machine_without_valgrind_has_no_count(self) -> None:
        counter = LineCounter(self.program("cat"))
        with mock.patch.dict(os.environ, PATH=str(self.folder)):
            self.assertRaisesRegex(BenchError, "there is no valgrind", counter.a_line, self.lines(1), self.folder)

    def test_a_row_has_a_cell_for_each_title(self) -> None:
        took, script = Run(1.5, 0.5, 2_500_000), self.lines(3)
        for counts in ([], [1_500.4], [None]):
            self.assertEqual(len(row(named("raw"), script, [took], counts)), len(titles(False, bool(counts))))
        for counts in ([], [1_500.4, 1_000.0], [None, None]):
            self.assertEqual(len(row(named("raw"), script, [took, took], counts)), len(titles(True, bool(counts))))
        self.assertEqual(row(named("raw"), script, [took, took], [1_500.4, 1_000.0])[7::5], ["1,500", "1,000"])
        self.assertEqual(row(named("raw"), script, [took, took], [1_500.4, 1_000.0])[-1], "1.50")


@unittest.skipUnless(os.environ.get("GEOSVM"), "GEOSVM names no program")
class Program(unittest.TestCase):
    def test_the_program_answers_as_the_models_say(self) -> None:
        adopt_orphans()
        program = Path(os.environ["GEOSVM"]).resolve()
        for workload in workloads():
            for seed in (1, 2):
                with self.subTest(workload.name, seed=seed), tempfile.TemporaryDirectory() as name:
                    run(program, write_script(workload, ANSWERED, seed, Path(name)), Path(name))


if __name__ == "__main__":
    unittest.main()
