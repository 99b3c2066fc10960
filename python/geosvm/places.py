"""Where a document was changed, or would be."""
from __future__ import annotations

import enum
from dataclasses import dataclass

from .library import PlaceFields


class PlaceKind(enum.IntEnum):
    """What is to be looked at anew."""

    ALL = 0
    MAP_BLOCK = 1
    ATTRIBUTES = 2
    BLOCK = 3
    CHUNK = 4
    RUN = 5


@dataclass(frozen=True)
class Place:
    """A place: numbers that its kind has no use for are 0.

    Of a RUN, from `at` on `after` bytes of the chunk, or of the raw block where `chunk` is 0, are
    in the place of `before`.
    """

    kind: PlaceKind
    block: int = 0
    chunk: int = 0
    at: int = 0
    before: int = 0
    after: int = 0


def as_places(told: list[PlaceFields]) -> list[Place]:
    """The places that a call has told."""
    return [
        Place(PlaceKind(it.kind), it.block, it.chunk, it.at, it.before, it.after) for it in told]
