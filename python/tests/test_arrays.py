"""Chunk arrays, element arrays and name arrays: each method once."""
import geosvm
from folders import DocumentCase


class Arrays(DocumentCase):
    def setUp(self):
        super().setUp()
        self.heap = self.doc.new_heap()
        self.array = self.heap.new_array()

    def test_it_is_a_list(self):
        wanted = []
        for it in (wanted, self.array):
            it.append(b"one")
            it.extend([b"two", b"three", b"four"])
            it.insert(0, b"zero")
            it.insert(-1, b"before")
            it[1] = b"ONE"
            it[-1] = b"FOUR"
            del it[2]
            del it[-2]
            it += [b"end"]
        self.assertEqual(list(self.array), wanted)
        self.assertEqual(len(self.array), len(wanted))
        self.assertEqual(self.array[0], b"zero")
        self.assertEqual(self.array[-1], b"end")
        self.assertEqual(self.array[1:], wanted[1:])
        self.assertEqual(self.array[::-1], wanted[::-1])
        self.assertEqual(self.array.pop(), b"end")
        self.assertEqual(self.array.index(b"three"), wanted.index(b"three"))
        self.assertIn(b"FOUR", self.array)
        del self.array[1:3]
        self.assertEqual(list(self.array), wanted[:1] + wanted[3:-1])

    def test_what_is_outside_is_an_index_error(self):
        self.array.append(b"one")
        for number in (1, -2):
            with self.subTest(number=number):
                with self.assertRaises(IndexError):
                    self.array[number]
                with self.assertRaises(geosvm.NoElement):
                    self.array[number] = b""
                with self.assertRaises(geosvm.NoElement):
                    del self.array[number]
        with self.assertRaises(ValueError):
            del self.array[::2]

    def test_edits(self):
        self.array.extend([b"one", b"two", b"three"])
        self.array.resize(0, 4)
        self.array.delete(1, 2)
        self.assertEqual(list(self.array), [b"one\0"])
        self.assertEqual(self.array.element(0), b"one\0")
        self.array.clear()
        self.assertEqual(list(self.array), [])

    def test_an_array_of_one_size_with_extra_bytes(self):
        array = self.heap.new_array(2, extra=4)
        array.append(b"ab")
        array.chunk[8:12] = b"more"
        with self.assertRaises(geosvm.Range):
            array.append(b"abc")
        self.assertEqual((list(array), array.chunk[8:12]), ([b"ab"], b"more"))
        self.assertEqual(self.heap[array.handle].as_array(), array)
        self.assertEqual(array.chunk, self.heap[array.handle])


class ElementArrays(DocumentCase):
    def test_elements_and_their_references(self):
        heap = self.doc.new_heap()
        colors = heap.new_element_array()
        self.assertEqual([colors.add(it) for it in (b"red", b"blue", b"red")], [0, 1, 0])
        self.assertEqual((list(colors), len(colors)), ([0, 1], 2))
        self.assertEqual((colors[1], colors.references(0)), (b"blue", 2))
        colors.reference(1)
        self.assertEqual(colors.references(1), 2)
        colors.release(0)
        colors.release(0)
        self.assertEqual((list(colors), colors.token(0), colors.index(1)), ([1], 1, 0))
        self.assertTrue(1 in colors)
        self.assertFalse(0 in colors)
        colors[1] = b"green"
        self.assertEqual(heap[colors.handle].as_element_array()[1], b"green")
        self.assertEqual(colors.element(1), b"\2\0\0green")
        del colors[1]
        self.assertEqual(len(colors), 0)


class NameArrays(DocumentCase):
    def test_names_and_their_parts(self):
        heap = self.doc.new_heap()
        names = heap.new_name_array(1)
        self.assertEqual(names.add("left", b"1"), 0)
        self.assertEqual(names.add(b"right", b"2"), 1)
        self.assertEqual(names.add("left", b"3"), 0)
        self.assertEqual((names["left"], names.references(0)), (b"1", 2))
        names.add("left", b"4", replace=True)
        names.set_part(1, b"5")
        self.assertEqual((names["left"], names.part(1)), (b"4", b"5"))
        names.rename(1, "r\N{LATIN SMALL LETTER E WITH ACUTE}")
        self.assertEqual(list(names), [b"left", b"r\xc3\xa9"])
        self.assertEqual((names.find("left"), names.name(0)), (0, b"left"))
        for _ in range(3):
            names.release(0)
        self.assertEqual((names.tokens(), len(names)), ([1], 1))
        self.assertFalse("left" in names)
        self.assertTrue(b"r\xc3\xa9" in heap[names.handle].as_name_array())
        with self.assertRaises(KeyError):
            names["left"]


class LargeArrays(DocumentCase):
    def test_a_text(self):
        text = self.doc.new_large_array(1, user_id=7)
        text.insert(0, b"hello")
        text.set(0, b"J")
        text.insert(len(text), b"y")
        self.assertEqual((text.read(0, len(text)), text[1], len(text)), (b"Jelloy", b"e", 6))
        text.delete(1, 2)
        self.assertEqual((text.read(0, 4), text.element(1), text[-1]), (b"Jloy", b"l", b"y"))
        self.doc.undo()
        text.insert(6, bytes(70000))
        text.set(65509, b"ab")
        self.assertEqual((text.read(65508, 4), len(text)), (b"\0ab\0", 70006))
        self.assertEqual(len(text.read(1, 65520)), 65520)
        self.assertEqual((text.handle, text.root.user_id, len(text.chain())), (1, 7, 3))
        self.assertEqual(self.doc[text.handle].as_large_array(), text)
        copy = text.chain().copy().root.as_large_array()
        self.assertEqual((len(copy), copy.read(65509, 2)), (70006, b"ab"))
        text.clear()
        self.assertEqual((len(text), len(text.chain())), (0, 2))

    def test_elements_of_any_sizes_are_a_list(self):
        wanted = []
        array = self.doc.new_large_array()
        for it in (wanted, array):
            it.append(b"one")
            it.extend([b"two", b"", b"four"])
            it.insert(0, b"zero")
            it.insert(-1, b"before")
            it[1] = b"ONE"
            it[-1] = b"FOUR" * 1000
            del it[2]
            it += [b"end"]
        self.assertEqual(list(array), wanted)
        self.assertEqual((array[1:], array[::-1]), (wanted[1:], wanted[::-1]))
        self.assertEqual(array.pop(), b"end")
        del array[1:3]
        self.assertEqual(list(array), wanted[:1] + wanted[3:-1])
        del array[0]
        self.assertIn(b"before", array)

    def test_what_is_refused(self):
        text, lines = self.doc.new_large_array(2), self.doc.new_large_array()
        text.insert(0, b"abcd")
        refused = [
            (geosvm.Range, lambda: self.doc.new_large_array(4097)),
            (geosvm.Range, lambda: text.insert(3, b"ab")),
            (geosvm.Range, lambda: text.insert(0, b"abc")),
            (geosvm.Range, lambda: lines.read(0, 0)),
            (geosvm.TooBig, lambda: lines.insert(0, bytes(65509))),
            (geosvm.NoElement, lambda: text[2]),
            (geosvm.NoElement, lambda: text[-3]),
            (geosvm.NoElement, lambda: text.read(1, 2)),
            (geosvm.NoElement, lambda: text.set(1, b"abcd")),
            (geosvm.NoElement, lambda: text.delete(0, 3)),
            (geosvm.NoElement, lambda: text.__delitem__(2)),
            (geosvm.NotArray, lambda: len(self.doc.new_raw(3).as_large_array())),
            (geosvm.BadArgument, lambda: text.read(-1, 1)),
        ]
        for kind, call in refused:
            with self.subTest(kind=kind), self.assertRaises(kind):
                call()
        with self.assertRaises(ValueError):
            del text[::2]
        with text.root.locked(), self.assertRaises(geosvm.Locked):
            text.set(0, b"AB")
        self.doc[2].write(2, b"\1")
        with self.assertRaises(geosvm.BadChain):
            text.element(0)
        self.assertEqual(len(text), 2)
