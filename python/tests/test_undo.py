"""Undo: steps, groups, names, places, and 2,000 edits by chance beside a model."""
import copy
import random

import geosvm
from folders import DocumentCase, image
from geosvm import Place, PlaceKind


class Steps(DocumentCase):
    def setUp(self):
        super().setUp()
        self.raw = self.doc.new_raw(4)

    def test_undo_and_redo(self):
        self.raw.write(0, b"abcd")
        self.assertEqual((self.doc.undo_count, self.doc.redo_count), (2, 0))
        self.doc.undo()
        self.assertEqual(bytes(self.raw), b"\0" * 4)
        self.assertEqual((self.doc.undo_count, self.doc.redo_count), (1, 1))
        self.doc.redo()
        self.assertEqual(bytes(self.raw), b"abcd")

    def test_join_forget_and_limit(self):
        for it in b"abc":
            self.raw[0] = it
        self.doc.join()
        self.doc.undo()
        self.assertEqual(self.raw[0], ord("a"))
        self.doc.redo()
        self.doc.forget(1)
        self.assertEqual(self.doc.undo_count, 1)
        self.doc.limit_undo(2)
        for it in b"defg":
            self.raw[0] = it
        self.assertEqual(self.doc.undo_count, 2)
        self.doc.forget()
        self.assertEqual(self.doc.undo_count, 0)

    def test_names(self):
        self.assertEqual(self.doc.undo_name, "")
        self.doc.name_step("T\N{LATIN SMALL LETTER Y WITH ACUTE}ping")
        self.assertEqual(self.doc.undo_name, "T\N{LATIN SMALL LETTER Y WITH ACUTE}ping")
        self.doc.undo()
        self.assertEqual(self.doc.redo_name, "T\N{LATIN SMALL LETTER Y WITH ACUTE}ping")
        self.doc.redo()
        self.doc.name_step(b"\xff\0")
        self.assertEqual(self.doc.undo_name.encode("utf-8", "surrogateescape"), b"\xff\0")
        self.doc.name_step("")
        self.assertEqual(self.doc.undo_name, "")


class Groups(DocumentCase):
    def setUp(self):
        super().setUp()
        self.raw = self.doc.new_raw(4)
        self.doc.name_step("Make")
        self.before = image(self.doc)

    def test_a_group_is_one_step(self):
        with self.doc.group(name="Typing"):
            self.raw.write(0, b"ab")
            self.raw.write(2, b"cd")
        self.assertEqual((self.doc.undo_count, self.doc.undo_name), (2, "Typing"))
        self.doc.undo()
        self.assertEqual(image(self.doc), self.before)
        self.doc.redo()
        self.assertEqual(bytes(self.raw), b"abcd")

    def test_an_exception_abandons_it(self):
        with self.assertRaises(ZeroDivisionError), self.doc.group("Typing"):
            self.raw.write(0, b"ab")
            raise ZeroDivisionError
        self.assertEqual(image(self.doc), self.before)
        self.assertEqual((self.doc.undo_count, self.doc.undo_name), (1, "Make"))
        with self.assertRaises(geosvm.NoGroup):
            self.doc.end()

    def test_nested_groups_are_one(self):
        with self.doc.group("Outer"):
            self.raw.write(0, b"ab")
            with self.doc.group("Inner"):
                self.raw.write(2, b"cd")
            self.raw.write(0, b"x")
        self.assertEqual((self.doc.undo_count, self.doc.undo_name), (2, "Outer"))
        self.doc.undo()
        self.assertEqual(image(self.doc), self.before)

    def test_an_exception_of_an_inner_group_abandons_all(self):
        with self.assertRaises(ZeroDivisionError), self.doc.group():
            self.raw.write(0, b"ab")
            with self.doc.group():
                self.raw.write(2, b"cd")
                raise ZeroDivisionError
        self.assertEqual(image(self.doc), self.before)

    def test_and_so_does_one_that_is_caught_between(self):
        with self.assertRaises(geosvm.BrokenGroup), self.doc.group():
            with self.assertRaises(ZeroDivisionError), self.doc.group():
                self.raw.write(2, b"cd")
                raise ZeroDivisionError
            self.raw.write(0, b"ab")
        self.assertEqual(image(self.doc), self.before)
        with self.doc.group():
            self.raw.write(0, b"ab")
        self.assertEqual(self.doc.undo_count, 2)

    def test_one_that_edited_nothing_breaks_none(self):
        heap = self.doc.new_heap()
        with self.doc.group():
            with self.assertRaises(geosvm.Full):
                heap.new_chunk(bytes(65520))
            with self.assertRaises(geosvm.NoChunk), self.doc.group():
                self.assertEqual(len(heap), 0)
                heap[16].free()
            heap.new_chunk(b"abc")
        self.assertEqual([bytes(it) for it in heap], [b"abc"])

    def test_a_broken_one_by_hand_is_not_ended(self):
        self.doc.begin()
        with self.assertRaises(geosvm.BadCommand), self.doc.group():
            self.doc.command("vwrite 0001 0 6162")
            self.doc.command("nonsense")
        with self.assertRaises(geosvm.BrokenGroup):
            self.doc.end()
        self.doc.command("abandon")
        self.assertEqual(image(self.doc), self.before)
        with self.doc.group():
            self.raw.write(0, b"ab")
        self.assertEqual(self.doc.undo_count, 2)

    def test_it_is_named_where_the_steps_are_limited(self):
        self.doc.limit_undo(1)
        with self.doc.group("Typing"):
            self.raw.write(0, b"ab")
        self.assertEqual((self.doc.undo_count, self.doc.undo_name), (1, "Typing"))

    def test_what_cannot_be_taken_back_stays_open(self):
        with self.assertRaises(geosvm.Locked), self.doc.group():
            self.raw.write(0, b"ab")
            self.raw.lock()
            raise ZeroDivisionError
        self.raw.unlock()
        self.doc.abandon()
        self.assertEqual(image(self.doc), self.before)

    def test_an_exception_of_a_group_has_no_other_context(self):
        with self.assertRaises(ZeroDivisionError) as caught, self.doc.group(), self.doc.group():
            raise ZeroDivisionError
        self.assertIsNone(caught.exception.__context__)

    def test_a_document_that_is_closed_in_a_group(self):
        with self.assertRaises(geosvm.NotOpen), self.doc.group():
            self.raw.write(0, b"ab")
            self.doc.close()

    def test_an_empty_group_names_nothing(self):
        with self.doc.group("Nothing"):
            pass
        self.assertEqual((self.doc.undo_count, self.doc.undo_name), (1, "Make"))

    def test_a_name_that_is_too_long_is_refused_first(self):
        with self.assertRaises(geosvm.TooBig), self.doc.group("n" * 65):
            self.fail("the group was begun")
        self.assertEqual(image(self.doc), self.before)
        self.assertEqual(self.doc.undo_count, 1)

    def test_groups_by_hand(self):
        self.doc.begin()
        self.raw.write(0, b"ab")
        with self.doc.group():
            self.raw.write(2, b"cd")
        self.assertEqual(len(self.doc.abandon_places()), 2)
        self.doc.abandon()
        self.assertEqual(image(self.doc), self.before)
        self.doc.begin()
        self.raw.write(0, b"ab")
        self.doc.end()
        self.assertEqual(self.doc.undo_count, 2)


class Places(DocumentCase):
    def test_where_it_changes(self):
        self.assertEqual(self.doc.touched(), [])
        heap = self.doc.new_heap()
        self.assertEqual(self.doc.touched(), [Place(PlaceKind.BLOCK, 1)])
        chunk = heap.alloc(5)
        self.assertEqual(self.doc.touched(), [Place(PlaceKind.CHUNK, 1, 16)])
        chunk[4:5] = b"xy"
        run = Place(PlaceKind.RUN, 1, 16, 4, 1, 2)
        self.assertEqual(self.doc.touched(), [run])
        back = Place(PlaceKind.RUN, 1, 16, 4, 2, 1)
        self.assertEqual(self.doc.undo_places(), [back])
        self.doc.undo()
        self.assertEqual(self.doc.touched(), [back])
        self.assertEqual(self.doc.redo_places(), [run])
        heap.user_id = 8
        self.assertEqual(self.doc.touched(), [Place(PlaceKind.ATTRIBUTES, 1)])
        self.doc.map_block = heap
        self.assertEqual(self.doc.touched(), [Place(PlaceKind.MAP_BLOCK)])
        self.doc.revert()
        self.assertEqual(self.doc.touched(), [Place(PlaceKind.ALL)])

    def test_a_place_has_its_fields(self):
        place = Place(PlaceKind.RUN, 1, 16, 4, 1, 2)
        self.assertEqual((place.kind, place.block, place.chunk), (5, 1, 16))
        self.assertEqual((place.at, place.before, place.after), (4, 1, 2))

    def test_more_places_than_the_buffer_has_room_for(self):
        raw = self.doc.new_raw(1000)
        with self.doc.group():
            for at in range(1000):
                raw[at] = 1
        told = self.doc.undo_places()
        self.assertEqual([it.at for it in told], list(range(999, -1, -1)))
        self.doc.undo()
        self.assertEqual(self.doc.touched(), told)
        self.doc.redo()
        reply = self.doc.command("undoplaces")
        self.assertEqual(reply.count("run"), 1000)
        with self.doc.group():
            for at in range(9000):
                raw[at % 1000] = 1
        self.assertEqual(self.doc.command("undoplaces").count("run"), 9000)


class Model:
    """What a document should have, edited beside it by chance."""

    def __init__(self, doc, chance):
        self.doc = doc
        self.chance = chance
        self.now = {"map": None, "blocks": {}}

    def some(self, most=40):
        return self.chance.randbytes(self.chance.randrange(most))

    def free_handle(self):
        return next(it for it in range(1, 8193) if it not in self.now["blocks"])

    def of_kind(self, kind):
        found = [it for it, block in self.now["blocks"].items() if block[0] == kind]
        return self.chance.choice(found) if found else None

    def edit(self):
        """Makes an edit, and the same of the model; where there is nothing to edit, none."""
        name = self.chance.choice([
            "new_heap", "new_raw", "new_chunk", "splice", "splice", "splice", "raw", "raw",
            "free", "free_chunk", "user_id", "type", "map_block", "copy"])
        before = copy.deepcopy(self.now)
        getattr(self, f"edit_{name}")()
        return before

    def edit_new_heap(self):
        handle, user_id = self.free_handle(), self.chance.randrange(9)
        assert self.doc.new_heap(user_id).handle == handle
        self.now["blocks"][handle] = ("heap", user_id, 0, {})

    def edit_new_raw(self):
        handle, size = self.free_handle(), self.chance.randrange(50)
        assert self.doc.new_raw(size, user_id=1).handle == handle
        self.now["blocks"][handle] = ("raw", 1, bytes(size))

    def edit_new_chunk(self):
        handle = self.of_kind("heap")
        if handle is None:
            return self.edit_new_heap()
        data = self.some()
        chunk = self.doc[handle].new_chunk(data)
        self.now["blocks"][handle][3][chunk.handle] = data

    def edit_splice(self):
        handle = self.of_kind("heap")
        chunks = self.now["blocks"][handle][3] if handle else {}
        if not chunks:
            return self.edit_new_chunk()
        chunk, data = self.chance.choice(list(chunks)), self.some()
        at, end = sorted(self.chance.randrange(45) for _ in range(2))
        text = bytearray(chunks[chunk])
        text[at:end] = data
        self.doc[handle][chunk][at:end] = data
        chunks[chunk] = bytes(text)

    def edit_raw(self):
        handle = self.of_kind("raw")
        if handle is None:
            return self.edit_new_raw()
        kind, user_id, _ = self.now["blocks"][handle]
        data = self.some(3000)
        self.doc[handle].attach(data)
        self.now["blocks"][handle] = (kind, user_id, data)

    def edit_free(self):
        handle = self.chance.choice([0, *self.now["blocks"]])
        if len(self.now["blocks"]) < 8 or handle in (0, self.now["map"]):
            return self.edit_new_heap()
        self.doc[handle].free()
        del self.now["blocks"][handle]

    def edit_free_chunk(self):
        handle = self.of_kind("heap")
        chunks = self.now["blocks"][handle][3] if handle else {}
        if not chunks:
            return self.edit_new_chunk()
        chunk = self.chance.choice(list(chunks))
        self.doc[handle][chunk].free()
        del chunks[chunk]

    def edit_user_id(self):
        if not self.now["blocks"]:
            return self.edit_new_raw()
        handle = self.chance.choice(list(self.now["blocks"]))
        user_id = self.doc[handle].user_id = self.chance.randrange(65536)
        kind, _, *rest = self.now["blocks"][handle]
        self.now["blocks"][handle] = (kind, user_id, *rest)

    def edit_type(self):
        handle = self.of_kind("heap")
        if handle is None:
            return self.edit_new_heap()
        heap_type = self.doc[handle].type = self.chance.randrange(65536)
        kind, user_id, _, chunks = self.now["blocks"][handle]
        self.now["blocks"][handle] = (kind, user_id, heap_type, chunks)

    def edit_map_block(self):
        handle = self.of_kind("heap")
        self.doc.map_block = self.doc[handle] if handle else None
        self.now["map"] = handle

    def edit_copy(self):
        if not 0 < len(self.now["blocks"]) < 12:
            return self.edit_map_block()
        handle = self.chance.choice(list(self.now["blocks"]))
        made = self.free_handle()
        assert self.doc[handle].copy().handle == made
        self.now["blocks"][made] = copy.deepcopy(self.now["blocks"][handle])


class ByChance(DocumentCase):
    EDITS = 2000

    def setUp(self):
        super().setUp()
        self.chance = random.Random(1)
        self.model = Model(self.doc, self.chance)
        self.befores, self.afters = [], []
        self.undos = self.redos = 0

    def compare(self, what):
        self.assertEqual(image(self.doc), self.model.now, what)

    def step(self):
        """An edit, or several as a group."""
        before = self.model.edit()
        if self.chance.random() < 0.1:
            self.model.now = copy.deepcopy(before)
            self.doc.undo()
            with self.doc.group("Some"):
                for _ in range(self.chance.randrange(1, 4)):
                    self.model.edit()
                    self.assertNotEqual(self.doc.touched(), [])
        self.assertNotEqual(self.doc.touched(), [])
        self.befores.append(before)
        self.afters.clear()
        self.assertEqual(self.doc.undo_count, len(self.befores))

    def back(self, count):
        for _ in range(min(count, len(self.befores))):
            self.afters.append(self.model.now)
            self.doc.undo()
            self.model.now = self.befores.pop()
            self.compare("after an undo")
            self.undos += 1

    def ahead(self, count):
        for _ in range(min(count, len(self.afters))):
            self.befores.append(self.model.now)
            self.doc.redo()
            self.model.now = self.afters.pop()
            self.compare("after a redo")
            self.redos += 1

    def test_edits_by_chance(self):
        for number in range(self.EDITS):
            self.step()
            if number % 20 == 19:
                self.compare("after edits")
                count = self.chance.randrange(1, 12)
                self.back(count)
                self.ahead(self.chance.randrange(count + 1))
            if number % 500 == 499:
                self.doc.save()
        self.back(100)
        self.ahead(100)
        self.assertGreater(min(self.undos, self.redos), 300)
        self.doc.save()
        self.doc.close()
        self.doc = geosvm.open(self.path())
        self.addCleanup(self.doc.close)
        self.compare("after it was reopened")
