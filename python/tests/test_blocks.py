"""Blocks, heaps, chunks, raw blocks and chains: each method once."""
import unittest

import geosvm
from folders import DocumentCase, image, text_of


class Blocks(DocumentCase):
    def test_a_document_has_its_blocks(self):
        self.assertEqual(len(self.doc), 0)
        self.assertTrue(self.doc)
        heap = self.doc.new_heap(user_id=7)
        raw = self.doc.new_raw(5, user_id=9)
        self.assertEqual((heap.handle, raw.handle), (1, 2))
        self.assertEqual(list(self.doc), [heap, raw])
        self.assertEqual(len(self.doc), 2)
        self.assertIsInstance(self.doc[1], geosvm.Heap)
        self.assertIsInstance(self.doc[2], geosvm.Raw)
        self.assertEqual(self.doc[1], heap)
        self.assertNotEqual(self.doc[1], raw)
        self.assertEqual(hash(self.doc[1]), hash(heap))
        self.assertEqual(repr(heap), "<geosvm.Heap 0001>")
        self.assertTrue(1 in self.doc and raw in self.doc)
        self.assertFalse(3 in self.doc)

    def test_blocks_are_found_by_their_user_id(self):
        blocks = [self.doc.new_heap(user_id=7), self.doc.new_raw(), self.doc.new_heap(user_id=7)]
        self.assertEqual(self.doc.blocks(7), [blocks[0], blocks[2]])
        self.assertEqual(self.doc.find(7, after=1), blocks[2])
        self.assertIsNone(self.doc.find(8))

    def test_the_map_block(self):
        self.assertIsNone(self.doc.map_block)
        heap = self.doc.new_heap()
        self.doc.map_block = heap
        self.assertEqual(self.doc.map_block, heap)
        self.doc.map_block = None
        self.assertIsNone(self.doc.map_block)

    def test_a_block_of_another_document_is_no_map_block(self):
        self.doc.new_heap()
        with geosvm.create(self.path("other.document")) as other:
            with self.assertRaises(geosvm.NoBlock):
                self.doc.map_block = other.new_heap()
            self.assertFalse(other[1] in self.doc)
            self.assertNotEqual(other[1], self.doc[1])

    def test_attributes(self):
        heap, raw = self.doc.new_heap(user_id=7), self.doc.new_raw(5)
        heap.user_id = 65535
        heap.type = 300
        self.assertEqual((heap.user_id, heap.type), (65535, 300))
        self.assertEqual(raw.size, 5)
        self.assertEqual(heap.size, 16)
        self.assertTrue(heap)
        self.assertEqual(len(heap), 0)

    def test_a_copy_in_another_document(self):
        heap = self.doc.new_heap(user_id=7)
        heap.type = 3
        chunks = [heap.new_chunk(it) for it in (b"abc", b"", b"defgh")]
        chunks[0].free()
        raw = self.doc.new_raw(3, user_id=9)
        with geosvm.create(self.path("two.document")) as other:
            other.new_raw(1)
            before = image(other)
            copies = [other.copy_in(heap), other.copy_in(raw)]
            self.assertEqual([it.handle for it in copies], [2, 3])
            self.assertEqual([text_of(it) for it in copies], [text_of(heap), text_of(raw)])
            self.assertIsInstance(copies[0], geosvm.Heap)
            self.assertIs(copies[0].document, other)
            other.undo()
            other.undo()
            self.assertEqual(image(other), before)
            with other.group():
                other.copy_in(heap)
                other.copy_in(other[1])
            other.undo()
            self.assertEqual(image(other), before)
            heap.free()
            with self.assertRaises(geosvm.NoBlock):
                other.copy_in(heap)
        with self.assertRaises(geosvm.NotOpen):
            other.copy_in(raw)

    def test_a_copy_is_a_block_of_its_own(self):
        heap = self.doc.new_heap(user_id=7)
        heap.new_chunk(b"abc")
        other = heap.copy()
        heap[16].write(0, b"x")
        self.assertIsInstance(other, geosvm.Heap)
        self.assertEqual((other.handle, other.user_id), (2, 7))
        self.assertEqual(bytes(other[16]), b"abc")
        heap.free()
        self.assertEqual(list(self.doc), [other])

    def test_locks(self):
        heap, raw = self.doc.new_heap(), self.doc.new_raw(3)
        chunk = heap.new_chunk(b"abc")
        raw.attach(b"xyz")
        heap.lock()
        with heap.locked(), raw.locked():
            self.assertEqual((heap.lock_count, raw.lock_count), (2, 1))
            self.assertEqual(chunk.locked_read(), b"abc")
            self.assertEqual(raw.locked_read(), b"xyz")
            heap.dirty()
        heap.unlock()
        self.assertEqual((heap.lock_count, raw.lock_count), (0, 0))
        with self.assertRaises(geosvm.NotLocked):
            chunk.locked_read()

    def test_elements_are_lent_by_a_lock(self):
        root = self.doc[int(self.doc.command("hcreate 5 2").split()[1], 16)]
        self.doc.command(f"hinsert {root.handle:04x} 0 61626364")
        block, data = root.lock_run(1)
        self.assertEqual((data, block.lock_count), (b"cd", 1))
        block.unlock()
        with self.assertRaises(geosvm.NoElement):
            root.lock_run(2)
        self.assertEqual(block.lock_count, 0)

    def test_a_lock_goes_with_an_exception(self):
        heap = self.doc.new_heap()
        with self.assertRaises(ZeroDivisionError), heap.locked():
            raise ZeroDivisionError
        self.assertEqual(heap.lock_count, 0)


class Chunks(DocumentCase):
    def setUp(self):
        super().setUp()
        self.heap = self.doc.new_heap()
        self.chunk = self.heap.new_chunk(b"abcdefgh")

    def test_a_heap_has_its_chunks(self):
        other = self.heap.alloc(3)
        self.assertEqual([it.handle for it in self.heap], [16, 18])
        self.assertEqual(list(self.heap), [self.chunk, other])
        self.assertEqual(self.heap[18], other)
        self.assertEqual(other.heap, self.heap)
        self.assertEqual(len(self.heap), 2)
        self.assertEqual(bytes(other), b"\0\0\0")
        self.assertTrue(16 in self.heap and other in self.heap)
        self.assertFalse(20 in self.heap)
        with self.assertRaises(geosvm.NoChunk):
            self.heap[20]
        other.free()
        self.assertEqual(list(self.heap), [self.chunk])

    def test_a_new_chunk_is_one_step(self):
        self.assertEqual(self.doc.undo_count, 2)
        self.doc.undo()
        self.assertEqual(list(self.heap), [])

    def test_it_is_looked_at_as_bytes(self):
        self.assertEqual(len(self.chunk), 8)
        self.assertEqual(self.chunk[2:5], b"cde")
        self.assertEqual(self.chunk[-1], ord("h"))
        self.assertEqual(self.chunk[::2], b"aceg")
        self.assertEqual(bytes(self.chunk), b"abcdefgh")
        self.assertEqual(self.chunk.read(), b"abcdefgh")
        self.assertEqual(list(self.chunk)[:2], [97, 98])
        with self.assertRaises(IndexError):
            self.chunk[8]

    def test_slices_are_those_of_a_bytearray(self):
        for key in [slice(2, 5), slice(None), slice(-3, None), slice(6, 2), slice(20, 30),
                    slice(0, 0), slice(None, -20)]:
            for data in [b"", b"xy", bytearray(b"12345"), memoryview(b"0")]:
                with self.subTest(key=key, data=data):
                    wanted = bytearray(b"abcdefgh")
                    self.chunk[:] = wanted
                    wanted[key] = data
                    self.chunk[key] = data
                    self.assertEqual(bytes(self.chunk), bytes(wanted))

    def test_deleted_slices_are_those_of_a_bytearray(self):
        for key in [slice(2, 5), slice(-3, None), slice(6, 2), 0, -1, 7]:
            with self.subTest(key=key):
                wanted = bytearray(b"abcdefgh")
                self.chunk[:] = wanted
                del wanted[key]
                del self.chunk[key]
                self.assertEqual(bytes(self.chunk), bytes(wanted))

    def test_a_slice_is_one_step(self):
        count = self.doc.undo_count
        self.chunk[2:5] = b"12345"
        self.assertEqual(self.doc.undo_count, count + 1)
        self.doc.undo()
        self.assertEqual(bytes(self.chunk), b"abcdefgh")

    def test_one_byte(self):
        self.chunk[-1] = 0x41
        self.assertEqual(bytes(self.chunk), b"abcdefgA")
        with self.assertRaises(IndexError):
            self.chunk[8] = 0
        with self.assertRaises(ValueError):
            self.chunk[0] = 256

    def test_what_is_no_bytes_is_refused(self):
        for data in ["text", 5, [1, 2], None]:
            with self.subTest(data=data), self.assertRaises(TypeError):
                self.chunk[0:1] = data
        with self.assertRaises(ValueError):
            self.chunk[::2] = b"abcd"
        with self.assertRaises(ValueError):
            del self.chunk[::2]
        self.assertEqual(bytes(self.chunk), b"abcdefgh")

    def test_edits(self):
        self.chunk.write(1, b"XY")
        self.chunk.splice(3, 2, b"-")
        self.assertEqual(bytes(self.chunk), b"aXY-fgh")
        self.chunk.insert(0, 2)
        self.chunk.delete(2, 3)
        self.assertEqual(bytes(self.chunk), b"\0\0-fgh")
        self.chunk.resize(3)
        self.assertEqual(bytes(self.chunk), b"\0\0-")

    def test_the_most_bytes_are_read(self):
        data = bytes(range(256)) * 255
        self.chunk[:] = data
        self.assertEqual(len(self.chunk), len(data))
        self.assertEqual(bytes(self.chunk), data)

    def test_many_chunks_are_listed(self):
        handles = [self.heap.alloc(0).handle for _ in range(2000)]
        self.assertEqual([it.handle for it in self.heap], [16, *handles])


class Raws(DocumentCase):
    def test_edits(self):
        raw = self.doc.new_raw(5)
        raw.write(1, b"abc")
        self.assertEqual(raw.read(), b"\0abc\0")
        raw.splice(0, 1, b"12")
        self.assertEqual(bytes(raw), b"12abc\0")
        raw[2:3] = b""
        raw[0] = 0
        self.assertEqual((bytes(raw), len(raw), raw.size), (b"\0" + b"2bc\0", 5, 5))
        raw.attach(b"other")
        self.assertEqual(bytes(raw), b"other")
        self.assertEqual(bytes(raw.copy()), b"other")
        raw.free()
        self.assertNotIn(1, self.doc)

    def test_the_most_bytes(self):
        raw = self.doc.new_raw(65520)
        raw.write(65519, b"x")
        self.assertEqual(raw[-2:], b"\0x")
        self.assertEqual(len(raw), 65520)


class Chains(DocumentCase):
    def test_a_chain(self):
        first, second = self.doc.new_raw(), self.doc.new_raw(user_id=3)
        first.attach(b"\2\0hi")
        second.attach(b"\0\0")
        chain = first.chain()
        self.assertEqual(list(chain), [first, second])
        self.assertEqual((chain.root, len(chain), chain.size), (first, 2, 6))
        copy = chain.copy()
        self.assertEqual([it.handle for it in copy], [3, 4])
        self.assertTrue(chain.equals(copy))
        self.assertFalse(chain.equals(second.chain()))
        with geosvm.create(self.path("other.document")) as other, \
                self.assertRaises(geosvm.BadArgument):
            chain.equals(other.new_raw(2).chain())
        chain.free()
        self.assertEqual([it.handle for it in self.doc], [3, 4])


if __name__ == "__main__":
    unittest.main()
