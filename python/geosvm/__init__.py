"""Documents of blocks and heaps in a file, with exact undo: the library geosvm for Python.

    with geosvm.open("my.document") as doc:
        chunk = doc.new_heap(user_id=7).new_chunk(b"abc")
        chunk[1:2] = b"xyz"
        doc.undo()
        doc.save()

A Document is used in the thread that opened it.
"""
from .arrays import Array, ElementArray, NameArray
from .blocks import Block, Chain, Chunk, Heap, Raw
from .document import Document, create, open
from .errors import (
    BadArgument, BadChain, BadCommand, BrokenGroup, CacheFull, CountFull, CutOff, Damaged, Error,
    File, Full, GroupOpen, IsMap, Locked, LockLimit, Memory, NameInUse, NoBlock, NoChunk,
    NoElement, NoGroup, NoHandles, NoName, NotArray, NotDocument, NoTarget, NothingToRedo,
    NothingToUndo, NotLocked, NotOpen, OpenAlready, Range, TooBig, Untold, Worn, WrongKind,
    WrongThread,
)
from .large_arrays import LargeArray
from .library import fault_name, version
from .places import Place, PlaceKind

__all__ = [
    "Array", "BadArgument", "BadChain", "BadCommand", "Block", "BrokenGroup", "CacheFull", "Chain",
    "Chunk", "CountFull", "CutOff", "Damaged", "Document", "ElementArray", "Error", "File", "Full",
    "GroupOpen", "Heap", "IsMap", "LargeArray", "LockLimit", "Locked", "Memory", "NameArray",
    "NameInUse", "NoBlock", "NoChunk", "NoElement", "NoGroup", "NoHandles", "NoName", "NoTarget",
    "NotArray", "NotDocument", "NotLocked", "NotOpen", "NothingToRedo", "NothingToUndo",
    "OpenAlready", "Place", "PlaceKind", "Range", "Raw", "TooBig", "Untold", "Worn", "WrongKind",
    "WrongThread", "create", "fault_name", "open", "version",
]
