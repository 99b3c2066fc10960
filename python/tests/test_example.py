"""The example of README.md prints what stands beside it, and its table has each call."""
import contextlib
import io
import os
import re
import unittest
from pathlib import Path

from folders import FolderCase
from geosvm import library

PAGE = (Path(__file__).resolve().parent.parent / "README.md").read_text(encoding="utf-8")


def part(kind):
    return re.search(rf"^```{kind}\n(.*?)^```$", PAGE, re.S | re.M)[1]


class Example(FolderCase):
    def test_it_prints_what_the_page_says(self):
        here = os.getcwd()
        self.addCleanup(os.chdir, here)
        os.chdir(self.folder)
        printed = io.StringIO()
        with contextlib.redirect_stdout(printed):
            exec(compile(part("python"), "README.md", "exec"), {})
        self.assertEqual(printed.getvalue(), part("text"))
        self.assertEqual(os.listdir(), ["notes.document"])


class Table(unittest.TestCase):
    def test_it_has_each_call(self):
        rows = re.findall(r"^\| (.*) \| (.*) \|$", PAGE, re.M)
        named = set()
        for python, c in rows:
            named |= set(re.findall(r"\w+", " ".join(re.findall(r"`(.*?)`", c))))
            if c == "the same":
                named |= set(re.findall(r"\w+", python))
        self.assertEqual(set(library.CALLS) - named, set())
