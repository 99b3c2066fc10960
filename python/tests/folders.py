"""Tests that have a folder and a document of their own."""
import os
import shutil
import tempfile
import unittest

import geosvm


class FolderCase(unittest.TestCase):
    """Each test is in a new folder."""

    def setUp(self):
        self.folder = tempfile.mkdtemp()
        self.addCleanup(shutil.rmtree, self.folder)

    def path(self, name="one.document"):
        return os.path.join(self.folder, name)

    def make(self, name="one.document", data=b"abc"):
        """A file with a document of a heap that has one chunk."""
        with geosvm.open(self.path(name), "w+") as doc:
            doc.new_heap(user_id=7).new_chunk(data)
            doc.save()
        return self.path(name)


class DocumentCase(FolderCase):
    """Each test has an empty document."""

    def setUp(self):
        super().setUp()
        self.doc = geosvm.create(self.path())
        self.addCleanup(self.doc.close)


def text_of(block):
    """All that a block has."""
    if isinstance(block, geosvm.Heap):
        chunks = {chunk.handle: bytes(chunk) for chunk in block}
        return ("heap", block.user_id, block.type, chunks)
    return ("raw", block.user_id, bytes(block))


def image(doc):
    """All that a document has."""
    map_block = doc.map_block
    return {
        "map": map_block and map_block.handle,
        "blocks": {block.handle: text_of(block) for block in doc},
    }
