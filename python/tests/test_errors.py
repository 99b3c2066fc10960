"""Each exception once, where it can be made, and the names and numbers of all."""
import errno
import os
import pickle
import re
import resource
import subprocess
import sys
import unittest
from pathlib import Path

import geosvm
from folders import DocumentCase, FolderCase
from geosvm import errors


class Names(unittest.TestCase):
    def test_each_fault_has_a_class_of_its_name(self):
        for code in range(1, 30):
            with self.subTest(code=code):
                kind = getattr(geosvm, geosvm.fault_name(code))
                self.assertTrue(issubclass(kind, geosvm.Error))
                self.assertEqual(kind.code, code)
                self.assertIs(errors.BY_CODE[code], kind)
        for code in (0, 30):
            with self.assertRaises(geosvm.BadArgument):
                geosvm.fault_name(code)

    def test_each_other_code_has_a_class(self):
        for code in range(100, 105):
            self.assertEqual(errors.BY_CODE[code].code, code)
        self.assertIsInstance(errors.from_code(77, "undo"), geosvm.Error)

    def test_they_are_what_python_people_catch(self):
        for kind, base in ((geosvm.File, OSError), (geosvm.Memory, MemoryError),
                           (geosvm.NoBlock, KeyError), (geosvm.NoElement, IndexError),
                           (geosvm.Range, ValueError)):
            self.assertTrue(issubclass(kind, base))

    def test_they_can_be_pickled(self):
        for error in (errors.from_code(5, "vfree"), errors.from_code(2, "save"),
                      errors.file_error(errno.ENOENT, "missing", "path")):
            again = pickle.loads(pickle.dumps(error))
            self.assertEqual((type(again), str(again)), (type(error), str(error)))

    def test_they_say_what_was_refused(self):
        self.assertEqual(str(errors.from_code(5, "vfree")), "vfree: there is no such block")
        self.assertEqual(errors.from_code(2, "save").errno, None)
        self.assertEqual(errors.from_code(2, "save", errno.EFBIG).errno, errno.EFBIG)


class Refusals(DocumentCase):
    def setUp(self):
        super().setUp()
        self.heap, self.raw = self.doc.new_heap(), self.doc.new_raw(4)
        self.count = self.doc.undo_count

    def refused(self, kind, call, *values):
        with self.assertRaises(kind) as caught:
            call(*values)
        self.assertIs(type(caught.exception), kind)
        self.assertEqual(caught.exception.code, kind.code)

    def test_blocks_and_chunks(self):
        self.refused(geosvm.NoBlock, self.doc.__getitem__, 9)
        self.refused(geosvm.NoBlock, geosvm.Heap(self.doc, 9).free)
        self.refused(geosvm.NoChunk, self.heap.__getitem__, 16)
        self.refused(geosvm.WrongKind, geosvm.Raw(self.doc, 1).read)
        self.refused(geosvm.Full, self.heap.alloc, 65520)
        self.refused(geosvm.Full, self.heap.new_chunk, bytes(65520))
        self.refused(geosvm.TooBig, self.doc.new_raw, 65521)
        self.refused(geosvm.TooBig, self.doc.name_step, "n" * 65)
        self.refused(geosvm.Range, self.raw.write, 2, b"abc")
        self.assertEqual(self.doc.undo_count, self.count)

    def test_numbers_that_c_would_cut_off(self):
        for call in (lambda: self.doc[65536 + 1], lambda: self.doc[-1],
                     lambda: self.raw.splice(-1, 0, b""), lambda: self.doc.new_raw(2**32),
                     lambda: self.doc.forget(-1), lambda: self.heap[2**16 + 16]):
            self.refused(geosvm.BadArgument, call)
        with self.assertRaises(TypeError):
            self.doc["1"]
        self.assertEqual(self.doc.undo_count, self.count)

    def test_arrays(self):
        array, chunk = self.heap.new_array(), self.heap.new_chunk(b"abc")
        elements = self.heap.new_element_array(1)
        names = self.heap.new_name_array(0)
        names.add("a")
        names.add("b")
        elements.add(b"x")
        self.refused(geosvm.NotArray, chunk.as_array().clear)
        self.refused(geosvm.NoElement, array.__getitem__, 0)
        self.refused(geosvm.NoElement, elements.release, 1)
        self.refused(geosvm.NoName, names.find, "c")
        self.refused(geosvm.NameInUse, names.rename, 0, "b")
        elements.chunk.write(10, b"\xff\xff\xfe")
        self.assertEqual(elements.references(0), 16711679)
        self.refused(geosvm.CountFull, elements.add, b"x")

    def test_chains_and_the_map_block(self):
        self.raw.attach(b"\1\0")
        self.refused(geosvm.BadChain, list, self.raw.chain())
        self.doc.map_block = self.heap
        self.refused(geosvm.IsMap, self.heap.free)

    def test_no_handles(self):
        for _ in range(8190):
            self.doc.new_raw()
        self.refused(geosvm.NoHandles, self.doc.new_raw)
        self.assertEqual(len(list(self.doc.call("list"))), 8192)

    def test_locks(self):
        self.refused(geosvm.NotLocked, self.heap.unlock)
        for _ in range(255):
            self.heap.lock()
        self.refused(geosvm.LockLimit, self.heap.lock)
        self.refused(geosvm.Locked, self.doc.undo)
        self.refused(geosvm.Locked, self.doc.save)
        self.doc.close()
        with geosvm.open(self.path(), "w+", frames=1) as doc:
            first, second = doc.new_heap(), doc.new_heap()
            with first.locked():
                self.refused(geosvm.CacheFull, second.lock)

    def test_steps_and_groups(self):
        self.refused(geosvm.NothingToRedo, self.doc.redo)
        self.doc.forget()
        self.refused(geosvm.NothingToUndo, self.doc.undo)
        self.refused(geosvm.NoGroup, self.doc.end)
        with self.doc.group():
            self.refused(geosvm.GroupOpen, self.doc.save)
            self.refused(geosvm.GroupOpen, self.doc.begin)

    def test_commands(self):
        self.refused(geosvm.BadCommand, self.doc.command, "nonsense")
        self.refused(geosvm.BadCommand, self.doc.command, "\v")
        self.refused(geosvm.NoTarget, self.doc.command, "saveas")
        self.refused(geosvm.NoBlock, self.doc.command, "vfree 0009")

    def test_sessions(self):
        self.refused(geosvm.OpenAlready, self.doc.call, "open", 0, 8)
        self.refused(geosvm.BadArgument, geosvm.create, self.path("new.document"), 65)
        self.doc.close()
        self.refused(geosvm.NotOpen, self.doc.undo)


class Files(FolderCase):
    def make(self):
        with geosvm.open(self.path(), "w+") as doc:
            doc.new_heap().new_chunk(bytes(1000))
            doc.save()

    def patch(self, at, data):
        with open(self.path(), "r+b") as file:
            file.seek(at)
            file.write(data)

    def test_a_damaged_document(self):
        self.make()
        os.truncate(self.path(), os.path.getsize(self.path()) - 1)
        with self.assertRaises(geosvm.Damaged):
            geosvm.open(self.path())

    def test_no_document(self):
        self.make()
        self.patch(0, b"text")
        self.patch(512, b"text")
        with self.assertRaises(geosvm.NotDocument):
            geosvm.open(self.path())

    def test_a_worn_file(self):
        geosvm.create(self.path()).close()
        self.patch(8, b"\xff" * 8)
        with geosvm.open(self.path()) as doc:
            doc.new_heap()
            with self.assertRaises(geosvm.Worn):
                doc.save()

    def test_a_folder_is_no_file(self):
        with self.assertRaises(IsADirectoryError) as caught:
            geosvm.open(self.folder)
        self.assertIsInstance(caught.exception, geosvm.File)

    def test_a_file_that_cannot_be_written(self):
        self.make()
        limits = resource.getrlimit(resource.RLIMIT_FSIZE)
        with geosvm.open(self.path()) as doc:
            doc[1][16].write(0, b"abc")
            resource.setrlimit(resource.RLIMIT_FSIZE, (1, limits[1]))
            try:
                with self.assertRaises(geosvm.File) as caught:
                    doc.save()
            finally:
                resource.setrlimit(resource.RLIMIT_FSIZE, limits)
            self.assertEqual(caught.exception.errno, errno.EFBIG)
            self.assertEqual(doc[1][16][:3], b"abc")
            doc.save()
        with geosvm.open(self.path()) as doc:
            self.assertEqual(doc[1][16][:3], b"abc")

    # 64 MB more than the program has now are soon used up by what undo holds.
    WITHOUT_MEMORY = """
import resource, sys, geosvm
doc = geosvm.create(sys.argv[1])
raw = doc.new_raw(65520)
data = [bytes([it]) * 65520 for it in (1, 2)]
with open("/proc/self/statm") as file:
    most = int(file.read().split()[0]) * resource.getpagesize() + (64 << 20)
limits = resource.getrlimit(resource.RLIMIT_AS)
resource.setrlimit(resource.RLIMIT_AS, (most, limits[1]))
try:
    for number in range(5000):
        raw.attach(data[number % 2])
except geosvm.Memory as error:
    resource.setrlimit(resource.RLIMIT_AS, limits)
    assert error.code == 1 and isinstance(error, MemoryError)
    assert bytes(raw) == data[(number + 1) % 2]
    doc.undo()
    assert bytes(raw) == data[number % 2]
    print("Memory")
"""

    def test_no_memory(self):
        ran = subprocess.run([sys.executable, "-c", self.WITHOUT_MEMORY, self.path()],
                             capture_output=True, text=True)
        self.assertEqual((ran.stdout, ran.stderr), ("Memory\n", ""))


class Library(FolderCase):
    def imported(self, library):
        environment = dict(os.environ, GEOSVM_LIBRARY=library)
        return subprocess.run([sys.executable, "-c", "import geosvm"], env=environment,
                              capture_output=True, text=True).stderr.rpartition("ImportError: ")[2]

    def compiled(self, text):
        """A library of this text in C; without a compiler the test is left out."""
        source, library = self.path("other.c"), self.path("libother.so")
        Path(source).write_text(text)
        try:
            subprocess.run(["gcc", "-shared", "-fPIC", source, "-o", library], check=True)
        except FileNotFoundError:
            self.skipTest("there is no gcc")
        return library

    def test_one_that_is_not_there(self):
        self.assertIn("GEOSVM_LIBRARY names no library", self.imported(self.path("missing.so")))

    def test_one_of_another_major_version(self):
        library = self.compiled('const char *geosvm_version(void) { return "1.2.3"; }')
        self.assertEqual(self.imported(library), f"{library} is version 1.2.3 of geosvm: "
                         "this package needs 0.2.x\n")

    def test_one_that_is_another_library(self):
        library = self.compiled("int other;")
        self.assertEqual(self.imported(library), f"{library} is no library of geosvm\n")

    def test_the_version(self):
        self.assertRegex(geosvm.version(), r"^0\.\d+\.\d+$")
        project = (Path(__file__).parent.parent / "pyproject.toml").read_text()
        self.assertEqual(re.search(r'^version = "(.*)"$', project, re.M)[1], geosvm.version())
