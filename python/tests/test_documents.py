"""Documents in files: opened, shared, committed, closed and dropped."""
import errno
import gc
import os
import pathlib
import subprocess
import sys
import threading
import warnings
from unittest import mock

import geosvm
from folders import DocumentCase, FolderCase, image


class Opened(FolderCase):
    def content(self, path):
        with open(path, "rb") as file:
            return file.read()

    def test_a_reopened_document_is_the_saved_one(self):
        with geosvm.open(self.make()) as doc:
            self.assertEqual(bytes(doc[1][16]), b"abc")
            self.assertEqual(doc.undo_count, 0)

    def test_closing_gives_up_what_is_not_committed(self):
        with geosvm.open(self.make()) as doc:
            doc[1][16][:] = b"other"
        with geosvm.open(doc.path) as doc:
            self.assertEqual(bytes(doc[1][16]), b"abc")

    def test_a_closed_document(self):
        doc = geosvm.open(self.make())
        self.assertFalse(doc.closed)
        doc.close()
        doc.close()
        self.assertTrue(doc.closed)
        self.assertIn("closed", repr(doc))
        for call in (doc.undo, doc.save, lambda: doc.save_as(self.path("x")), lambda: len(doc),
                     doc.__enter__):
            with self.assertRaises(geosvm.NotOpen):
                call()
        self.assertFalse(os.path.exists(self.path("x")))

    def test_the_path_may_be_of_any_kind(self):
        path = self.make()
        for it in (path, path.encode(), pathlib.Path(path)):
            with geosvm.open(it, frames=1) as doc:
                self.assertEqual(len(doc), 1)

    def test_create_makes_an_empty_one(self):
        with open(self.path("empty.document"), "wb"):
            pass
        for name in ("missing.document", "empty.document"):
            with geosvm.create(self.path(name), frames=8) as doc:
                self.assertEqual(len(doc), 0)
        with geosvm.open(self.make(), "w+") as doc:
            self.assertEqual(len(doc), 0)

    def version(self, path):
        """The version of the first slot, which counts in a new file."""
        return self.content(path)[5]

    def test_a_file_is_made_with_checksums(self):
        for name, checksums in (("with.document", True), ("without.document", False)):
            geosvm.create(self.path(name), checksums=checksums).close()
            self.assertEqual(self.version(self.path(name)), 3 if checksums else 2)
        geosvm.open(self.path("with.document"), "w+").close()
        self.assertEqual(self.version(self.path("with.document")), 2)
        geosvm.open(self.path("with.document"), "w+", checksums=True).close()
        self.assertEqual(self.version(self.path("with.document")), 3)

    def test_a_file_gets_checksums_with_its_next_commit_and_keeps_them(self):
        path, other = self.path("plain.document"), self.path("other.document")
        with geosvm.create(path) as doc:
            doc.save()
        before = self.content(path)
        with geosvm.open(path, checksums=True) as doc:
            self.assertEqual(self.content(path), before)
            doc.save()  # the third commit is in the first slot
        self.assertEqual(self.version(path), 3)
        with geosvm.open(path) as doc:
            doc.save_as(other)
        self.assertEqual(self.version(other), 3)

    def test_create_empties_no_file(self):
        path = self.make()
        before = self.content(path)
        with self.assertRaises(FileExistsError) as caught:
            geosvm.create(path)
        self.assertIsInstance(caught.exception, geosvm.File)
        self.assertEqual(self.content(path), before)
        geosvm.open(path).close()

    def test_a_mode_that_makes_a_file_that_is_missing(self):
        geosvm.open(self.path("new.document"), mode="x+").close()
        with self.assertRaises(FileExistsError) as caught:
            geosvm.open(self.path("new.document"), mode="x+")
        self.assertIsInstance(caught.exception, geosvm.File)
        for mode in ("r", "w", "rb", ""):
            with self.assertRaises(ValueError):
                geosvm.open(self.path(), mode)

    def test_a_file_that_is_missing(self):
        with self.assertRaises(FileNotFoundError) as caught:
            geosvm.open(self.path("missing"))
        self.assertIsInstance(caught.exception, geosvm.File)
        self.assertEqual(caught.exception.filename, self.path("missing"))
        self.assertFalse(os.path.exists(self.path("missing")))

    def refused(self, path):
        before = self.content(path)
        for way in (geosvm.open, geosvm.create):
            with self.subTest(way=way), self.assertRaises(geosvm.File) as caught:
                way(path)
            self.assertIsInstance(caught.exception, BlockingIOError)
        self.assertEqual(self.content(path), before)

    def test_a_second_open_is_refused(self):
        path = self.make()
        os.link(path, self.path("link.document"))
        with geosvm.open(path) as doc:
            self.refused(path)
            self.refused(self.path("link.document"))
            self.assertEqual(bytes(doc[1][16]), b"abc")
            doc.save()
        geosvm.open(path).close()

    def test_a_second_open_from_another_program_is_refused(self):
        path = self.make()
        line = "import sys, geosvm; geosvm.create(sys.argv[1])"
        with geosvm.open(path):
            before = self.content(path)
            ran = subprocess.run([sys.executable, "-c", line, path], capture_output=True, text=True)
            self.assertEqual(self.content(path), before)
        self.assertEqual(ran.returncode, 1)
        self.assertIn("the file is in use", ran.stderr)

    def test_it_takes_the_place_of_no_standard_stream(self):
        line = ("import geosvm, sys; doc = geosvm.open(sys.argv[1]); print(len(doc), sys.stdin); "
                "assert doc._session.file > 2")
        for closed, printed in (("<&-", "1 None\n"), (">&-", "")):
            ran = subprocess.run(["sh", "-c", f'exec "$0" -c "$1" "$2" {closed}', sys.executable,
                                  line, self.make()], capture_output=True, text=True)
            self.assertEqual((ran.returncode, ran.stdout, ran.stderr), (0, printed, ""))

    def test_the_folder_of_a_new_file_is_synced(self):
        os.mkdir(self.path("folder"))
        os.symlink(self.path("folder/new.document"), self.path("link.document"))
        synced = []
        with mock.patch.object(os, "fsync", lambda it: synced.append(os.fstat(it).st_ino)):
            geosvm.create(self.path("link.document")).close()
            with geosvm.open(self.make()) as doc:
                doc.save_as(self.path("folder/other.document"))
        folder, own = os.stat(self.path("folder")).st_ino, os.stat(self.folder).st_ino
        self.assertEqual(synced, [folder, own, folder])

    def test_a_refused_open_leaves_no_file_open(self):
        with open(self.path("text"), "wb") as file:
            file.write(b"no document, " * 200)
        before = len(os.listdir("/proc/self/fd"))
        for _ in range(10):
            with self.assertRaises(geosvm.NotDocument):
                geosvm.open(self.path("text"))
            with self.assertRaises(geosvm.BadArgument):
                geosvm.open(self.make(), frames=0)
        self.assertEqual(len(os.listdir("/proc/self/fd")), before)


class Dropped(FolderCase):
    def drop(self):
        doc = geosvm.create(self.path())
        doc.new_heap()
        doc.save()
        doc.new_heap()
        with warnings.catch_warnings(record=True) as told:
            warnings.simplefilter("always")
            del doc
            gc.collect()
        self.assertEqual([it.category for it in told], [ResourceWarning])

    def test_a_dropped_document_closes_itself(self):
        before = len(os.listdir("/proc/self/fd"))
        self.drop()
        self.assertEqual(len(os.listdir("/proc/self/fd")), before)
        with geosvm.open(self.path()) as doc:
            self.assertEqual(len(doc), 1)

    def test_a_part_keeps_its_document(self):
        heap = geosvm.create(self.path()).new_heap()
        gc.collect()
        self.assertEqual(len(heap), 0)
        heap.document.close()

    def test_one_that_a_thread_leaves_behind(self):
        kept = []
        thread = threading.Thread(target=lambda: kept.append(geosvm.create(self.path())))
        thread.start()
        thread.join()
        with warnings.catch_warnings():
            warnings.simplefilter("ignore")
            kept.clear()
            gc.collect()
        geosvm.open(self.path()).close()


class Shared(DocumentCase):
    def test_another_thread_is_refused(self):
        told = []

        def run():
            try:
                self.doc.new_heap()
            except geosvm.WrongThread as error:
                told.append(error)

        thread = threading.Thread(target=run)
        thread.start()
        thread.join()
        self.assertEqual(len(told), 1)
        self.assertEqual(len(self.doc), 0)

    def test_a_later_thread_is_another_one(self):
        kept, told = [], []

        def save():
            with self.assertRaises(geosvm.WrongThread):
                kept[0].save()
            told.append(threading.get_ident())

        for run in (lambda: kept.append(geosvm.create(self.path("other.document"))), save, save):
            thread = threading.Thread(target=run)
            thread.start()
            thread.join()
        self.assertEqual(len(told), 2)
        with warnings.catch_warnings():
            warnings.simplefilter("ignore")
            kept.clear()

    def test_threads_have_documents_of_their_own(self):
        counts = []

        def run(name):
            with geosvm.create(self.path(name)) as doc:
                for _ in range(50):
                    doc.new_raw(4).write(0, b"abcd")
                counts.append(len(doc))

        threads = [threading.Thread(target=run, args=(f"{it}.document",)) for it in range(4)]
        for thread in threads:
            thread.start()
        for thread in threads:
            thread.join()
        self.assertEqual(counts, [50] * 4)

    def test_a_forked_child_has_no_session(self):
        self.doc.new_heap()
        child = os.fork()
        if child == 0:
            os._exit(0 if self.doc.closed and self.is_refused() else 1)
        self.assertEqual(os.waitpid(child, 0)[1], 0)
        self.doc.save()
        with self.assertRaises(geosvm.File):
            geosvm.open(self.path())

    def is_refused(self):
        try:
            self.doc.save()
        except geosvm.NotOpen:
            return True
        return False

    def test_a_child_that_lives_on_has_no_lock(self):
        child = subprocess.Popen([sys.executable, "-c", "input()"], stdin=subprocess.PIPE,
                                 close_fds=False)
        self.doc.close()
        geosvm.open(self.path()).close()
        child.communicate(b"\n")


class Commits(DocumentCase):
    def setUp(self):
        super().setUp()
        self.chunk = self.doc.new_heap().new_chunk(b"abc")

    def test_whether_it_is_modified(self):
        states = []
        for step in (lambda: None, self.doc.save, lambda: self.chunk.write(0, b"x"),
                     self.doc.update, self.doc.undo):
            step()
            states.append((self.doc.modified, self.doc.as_saved, self.doc.as_updated))
        self.assertEqual(states, [(True, False, False), (False, True, True), (True, False, False),
                                  (True, False, True), (False, True, False)])

    def test_update_and_revert(self):
        self.doc.save()
        self.chunk.write(0, b"x")
        self.doc.update()
        self.chunk.write(0, b"y")
        self.doc.close()
        with geosvm.open(self.path()) as doc:
            self.assertEqual(bytes(doc[1][16]), b"xbc")
            doc.revert()
            self.assertEqual(bytes(doc[1][16]), b"abc")
            self.assertEqual(doc.undo_count, 0)

    def test_save_as_goes_on_in_the_other_file(self):
        self.doc.save()
        self.chunk.write(0, b"x")
        before = image(self.doc)
        self.doc.save_as(self.path("other.document"))
        self.assertEqual(self.doc.path, self.path("other.document"))
        self.assertEqual(image(self.doc), before)
        with self.assertRaises(geosvm.File):
            geosvm.open(self.path("other.document"))
        with geosvm.open(self.path()) as left:
            self.assertEqual(bytes(left[1][16]), b"abc")
        self.doc.undo()
        self.doc.save()
        self.doc.close()
        with geosvm.open(self.path("other.document")) as doc:
            self.assertEqual(bytes(doc[1][16]), b"abc")

    def test_save_as_into_a_file_in_use_is_refused(self):
        self.doc.save()
        os.link(self.path(), self.path("link.document"))
        for path in (self.path(), self.path("link.document")):
            with self.assertRaises(BlockingIOError):
                self.doc.save_as(path)
        self.assertEqual(self.doc.path, self.path())
        self.assertEqual(bytes(self.chunk), b"abc")
        self.doc.save()

    def test_save_as_replaces_a_file_once_the_document_is_whole(self):
        other = self.make("other.document")
        os.chmod(other, 0o640)
        os.symlink(other, self.path("link.document"))
        before = os.stat(other)
        self.chunk.write(0, b"x")
        self.doc.save_as(self.path("link.document"))
        after = os.stat(other)
        self.assertTrue(os.path.islink(self.path("link.document")))
        self.assertNotEqual(before.st_ino, after.st_ino)
        self.assertEqual(after.st_mode & 0o7777, 0o640)
        with self.assertRaises(BlockingIOError):
            geosvm.open(other)
        self.doc.close()
        with geosvm.open(other) as doc:
            self.assertEqual(bytes(doc[1][16]), b"xbc")
        self.assertEqual(sorted(os.listdir(self.folder)),
                         ["link.document", "one.document", "other.document"])

    def test_a_refused_save_as_leaves_the_other_file_as_it_was(self):
        other = self.make("other.document")
        self.doc.save()
        with open(other, "rb") as file:
            bytes_before = file.read()
        inode = os.stat(other).st_ino
        numbers = len(os.listdir("/proc/self/fd"))
        with self.doc.group(), self.assertRaises(geosvm.GroupOpen):
            self.doc.save_as(other)
        os.link(other, self.path("link.document"))
        with self.assertRaises(geosvm.File) as refused:
            self.doc.save_as(other)
        self.assertEqual(refused.exception.errno, errno.EMLINK)
        os.unlink(self.path("link.document"))
        with mock.patch.object(os, "fchmod", side_effect=PermissionError(errno.EPERM, "no")), \
                self.assertRaises(PermissionError):
            self.doc.save_as(other)
        with open(other, "rb") as file:
            self.assertEqual(file.read(), bytes_before)
        self.assertEqual(os.stat(other).st_ino, inode)
        self.assertEqual(sorted(os.listdir(self.folder)), ["one.document", "other.document"])
        self.assertEqual(len(os.listdir("/proc/self/fd")), numbers)
        self.assertEqual(self.doc.path, self.path())

    def test_a_save_as_that_cannot_take_the_place_goes_on_beside(self):
        other = self.make("other.document")
        with mock.patch.object(os, "rename", side_effect=PermissionError(errno.EPERM, "no")), \
                self.assertRaises(PermissionError):
            self.doc.save_as(other)
        self.assertTrue(os.fspath(self.doc.path).startswith(other + "."))
        before = image(self.doc)
        path = self.doc.path
        self.doc.close()
        with geosvm.open(path) as doc:
            self.assertEqual(image(doc), before)

    def test_a_refused_save_as_leaves_the_document_where_it_is(self):
        with self.doc.group(), self.assertRaises(geosvm.GroupOpen):
            self.doc.save_as(self.path("other.document"))
        geosvm.create(self.path("other.document")).close()
        with self.assertRaises(FileNotFoundError):
            self.doc.save_as(self.path("missing/other.document"))
        self.doc.save()
        self.doc.close()
        with geosvm.open(self.path()) as doc:
            self.assertEqual(bytes(doc[1][16]), b"abc")

    def test_calls_by_their_names_in_c(self):
        self.assertEqual(self.doc.call("newraw", 7, 5), 2)
        self.assertEqual(self.doc.call("info", 2), (0, 7, 5))
        self.assertEqual(self.doc.length("vread", 2), 5)
        with self.assertRaises(ValueError):
            self.doc.call("newraw", 7)

    def test_commands_as_text(self):
        self.assertEqual(self.doc.command("read 0001 0010"), "bytes 616263")
        self.assertEqual(self.doc.command("# a note"), "")
        self.doc.new_raw(65520)
        self.assertEqual(len(self.doc.command("vread 0002")), 6 + 2 * 65520)
