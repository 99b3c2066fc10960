"""The table of calls is that of geosvm.h, each call is used, and all that is public is tried."""
import inspect
import os
import re
import typing
import unittest
from pathlib import Path

import geosvm
from geosvm import (
    arrays, blocks, document, errors, files, large_arrays, library, places, session,
)

TESTS = Path(__file__).resolve().parent
PACKAGE = Path(library.__file__).resolve().parent
HEADER = Path(os.environ.get("GEOSVM_HEADER", TESTS.parent.parent / "embedding" / "geosvm.h"))

# What C has for each word of the table.
NUMBERS = {"u8": "uint8_t", "u16": "uint16_t", "u32": "uint32_t", "i32": "int32_t",
           "size": "size_t", "bool": "bool"}
LISTS = {"bytes": "uint8_t *", "handles": "uint16_t *", "places": "geosvm_place *"}


def parameters(call):
    """The parameters in C of a call of the table."""
    wanted = ["geosvm_session *"]
    words = {"bytes": ["const uint8_t *", "size_t"], "session": ["geosvm_session *"]}
    for kind in call.takes:
        wanted += words[kind] if kind in words else [NUMBERS[kind]]
    for kind in call.gives:
        if kind in LISTS:
            wanted += ["size_t"] * (kind == "places") + [LISTS[kind], "size_t", "size_t *"]
        else:
            wanted += ["const uint8_t **", "size_t *"] if kind == "lent" else [f"{NUMBERS[kind]} *"]
    return wanted


def declared():
    """The parameters of each prototype of the header."""
    text = re.sub(r"/\*.*?\*/", "", HEADER.read_text(), flags=re.S)
    found = re.findall(r"int32_t\s+geosvm_(?!io_)(\w+)\s*\(([^)]*)\)\s*;", text)
    return {name: [" ".join(re.sub(r"\w+$", "", it.strip()).split()) for it in given.split(",")]
            for name, given in found}


@unittest.skipUnless(HEADER.exists(), "there is no geosvm.h")
class Header(unittest.TestCase):
    def test_the_table_is_that_of_the_header(self):
        wanted = declared()
        # One has no session, and files.py opens files by their paths.
        for name in ("fault_name", "open_path", "save_as_path"):
            del wanted[name]
        self.assertEqual({name: parameters(it) for name, it in library.CALLS.items()}, wanted)

    def test_a_place_is_that_of_the_header(self):
        body = re.search(r"typedef struct geosvm_place \{(.*?)\}", HEADER.read_text(), re.S)[1]
        body = re.sub(r"/\*.*?\*/", "", body, flags=re.S)
        wanted = [(name.strip(), kind) for kind, names in re.findall(r"(\w+) ([\w, ]+);", body)
                  for name in names.split(",")]
        kinds = {NUMBERS[it]: library.NUMBERS[it] for it in NUMBERS}
        self.assertEqual(library.PlaceFields._fields_, [(it, kinds[kind]) for it, kind in wanted])

    def test_numbers_of_the_header(self):
        header = HEADER.read_text()
        defined = {name: int(number) for name, number in
                   re.findall(r"^#define GEOSVM_(\w+) +(\d+)", header, re.M)}
        self.assertEqual(defined["VERSION_MAJOR"], library.MAJOR)
        self.assertEqual(defined["VERSION_MINOR"], library.MINOR)
        self.assertEqual(defined["FILE"], library.FILE)
        self.assertEqual(defined["REPLY_MOST"], library.REPLY_MOST)
        self.assertEqual(defined["AS_SAVED"], document.AS_SAVED)
        self.assertEqual(defined["AS_UPDATED"], document.AS_UPDATED)
        for code, kind in errors.BY_CODE.items():
            name = re.sub(r"(?<=[a-z])(?=[A-Z])", "_", kind.__name__).upper()
            self.assertEqual(defined[name], code)
        told = dict(re.findall(r"GEOSVM_PLACE_(\w+) += (\d)", header))
        self.assertEqual({it.name: str(int(it)) for it in geosvm.PlaceKind}, told)


class Package(unittest.TestCase):
    def test_each_call_is_used(self):
        source = "".join(path.read_text() for path in PACKAGE.glob("*.py"))
        unused = [it for it in library.CALLS if f'"{it}"' not in source]
        self.assertEqual(unused, [])

    def public(self):
        """Each public name of a public class, with what it is."""
        for name in geosvm.__all__:
            value = getattr(geosvm, name)
            if inspect.isclass(value) and not issubclass(value, Exception):
                yield from ((name, it, what) for it, what in vars(value).items()
                            if not it.startswith("_"))

    def test_each_method_is_tried(self):
        tests = "".join(path.read_text() for path in TESTS.glob("test_*.py"))
        untried = [f"{name}.{it}" for name, it, _ in self.public() if f".{it}" not in tests]
        self.assertEqual(untried, [])

    def functions(self):
        for module in (arrays, blocks, document, errors, files, large_arrays, library, places,
                       session):
            for value in vars(module).values():
                if inspect.isclass(value) and value.__module__ == module.__name__:
                    for it in vars(value).values():
                        it = it.fget if isinstance(it, property) else it
                        yield from [it] if inspect.isfunction(it) else []
                elif inspect.isfunction(value) and value.__module__ == module.__name__:
                    yield value

    def test_each_function_has_type_hints(self):
        # What stands only for type checkers is given here.
        names = dict(vars(blocks), Array=geosvm.Array, ElementArray=geosvm.ElementArray,
                     NameArray=geosvm.NameArray, LargeArray=geosvm.LargeArray,
                     Document=geosvm.Document, Chunk=geosvm.Chunk)
        count = 0
        for it in self.functions():
            # A dataclass and an enumeration have some that aren't the package's own.
            if Path(inspect.unwrap(it).__code__.co_filename).resolve().parent == PACKAGE:
                count += self.is_hinted(it, names)
        self.assertGreater(count, 150)

    def is_hinted(self, function, names):
        own = inspect.unwrap(function).__globals__
        hints = typing.get_type_hints(function, {**names, **own})
        given = set(inspect.signature(function).parameters) - {"self"}
        with self.subTest(function=function.__qualname__):
            self.assertEqual(given - set(hints), set())
            self.assertIn("return", hints)
        return True

    def test_public_functions_have_docstrings(self):
        inherited = {"read", "write", "splice"}
        for name, it, what in self.public():
            if (inspect.isfunction(what) or isinstance(what, property)) and it not in inherited:
                self.assertTrue(what.__doc__, f"{name}.{it}")

    def test_it_is_marked_as_typed(self):
        self.assertTrue((PACKAGE / "py.typed").exists())
