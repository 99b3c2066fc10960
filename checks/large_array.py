# Needs: python3
"""Large arrays by docs/FORMAT.md, for large_by_chance.py: the bytes of their blocks, and by which rule elements are spread over them.

Elements of one size are bytes, one after another; those of sizes that vary are a tuple of bytes. A piece is the elements of one branch.
"""
from typing import NamedTuple

CAPACITY = 65520
# A zero word, and the header of a chunk array.
HEADER = 10
# What fits in a branch, and up to what two neighbours are joined: bytes of elements, with two more for each where sizes vary.
ROOM = CAPACITY - HEADER
JOIN = 49132
GREATEST_SIZE = 4096
MOST_BRANCHES = 8191
MARK = b"GARR"


def word(n):
    return n.to_bytes(2, "little")


def word_at(data, at):
    return int.from_bytes(data[at:at + 2], "little")


# Pieces

def weight(size, piece):
    return len(piece) if size else sum(len(element) + 2 for element in piece)


def count(size, piece):
    return len(piece) // size if size else len(piece)


def part(size, piece, start, end):
    return piece[start * size:end * size] if size else piece[start:end]


def packed(size, elements):
    """In pieces from the front, each as full as it gets."""
    if size:
        most = ROOM // size * size
        return [elements[at:at + most] for at in range(0, len(elements), most)]
    pieces, start, used = [], 0, 0
    for at, element in enumerate(elements):
        if used + len(element) + 2 > ROOM:
            pieces.append(elements[start:at])
            start, used = at, 0
        used += len(element) + 2
    return pieces + [elements[start:]] if elements else []


def ends_of(counts, i, j):
    """In which pieces the elements from i up to j begin and end, how many of the first stand before them, and how many of the last stand
    before j. None are at the end of a piece rather than at the beginning of the next one."""
    first = before = 0
    while first < len(counts) - 1 and (before + counts[first] < i if i == j else before + counts[first] <= i):
        before += counts[first]
        first += 1
    last, behind = first, before
    while last < len(counts) - 1 and behind + counts[last] < j:
        behind += counts[last]
        last += 1
    return first, last, i - before, j - behind


class Window(NamedTuple):
    """The pieces from `first` up to `behind` go, and `pieces` come. keeps[k] is which old one's block piece k is in, None for a new one."""
    first: int
    behind: int
    pieces: list
    keeps: list


def respread(size, counts, get, i, j, new):
    """What comes of the elements from i up to j replaced by new ones. get(k) is piece k, asked for where it has to be looked at alone: where
    elements have one size, its count tells what a neighbour weighs."""
    p, q, before, behind = ends_of(counts, i, j)
    head, tail = part(size, get(p), 0, before), part(size, get(q), behind, counts[q])

    def weight_of(piece):
        return weight(size, piece)

    def beside(k):
        return size * counts[k] if size else weight_of(get(k))
    pieces = packed(size, head + new)
    if tail:
        if pieces and weight_of(pieces[-1]) + weight_of(tail) <= (ROOM if p == q else JOIN):
            pieces[-1] += tail
        else:
            pieces.append(tail)
    first, last = p, q
    has_left, has_right = p > 0, q + 1 < len(counts)
    if not pieces and has_left and has_right:
        if beside(p - 1) + beside(q + 1) <= JOIN:
            first, last, pieces = p - 1, q + 1, [get(p - 1) + get(q + 1)]
    elif not pieces and not has_left and not has_right:
        pieces = [head]
    elif pieces:
        if has_left and weight_of(pieces[0]) <= JOIN and beside(p - 1) + weight_of(pieces[0]) <= JOIN:
            first, pieces[0] = p - 1, get(p - 1) + pieces[0]
        if has_right and weight_of(pieces[-1]) <= JOIN and weight_of(pieces[-1]) + beside(q + 1) <= JOIN:
            last, pieces[-1] = q + 1, pieces[-1] + get(q + 1)

    def stays(k):
        if p <= k <= q:
            return (weight_of(head) if k == p else 0) + (weight_of(tail) if k == q else 0)
        return beside(k)
    return Window(first, last + 1, pieces, keeps_of(range(first, last + 1), len(pieces), stays, weight_of(head) >= weight_of(tail)))


def keeps_of(old, pieces, stays, has_more_before):
    """Which old block each piece is in: one alone in that of which most stays, the first of these."""
    if pieces < 2:
        return [max(old, key=lambda k: (stays(k), -k))][:pieces]
    new = [None] * (pieces - len(old))
    if len(old) == 1:
        return [old[0], *new] if has_more_before else [*new, old[0]]
    return [old[0], *old[1:-1][:pieces - 2], *new, old[-1]]


# Bytes

class Root(NamedTuple):
    size: int
    counts: tuple
    handles: tuple


def root_bytes(root):
    branches = len(root.counts)
    return b"".join([word(0xFFFF), word(16 + 2 * branches), word(branches), MARK, word(root.size), sum(root.counts).to_bytes(4, "little"),
                     *map(word, root.counts), *(word(0) + word(handle) for handle in root.handles)])


def root_of(data):
    """The root that the bytes are, or None."""
    branches = word_at(data, 4)
    if branches == 0 or len(data) != 16 + 6 * branches or word_at(data, 2) != 16 + 2 * branches:
        return None
    links = 16 + 2 * branches
    root = Root(word_at(data, 10), tuple(word_at(data, at) for at in range(16, links, 2)),
                tuple(word_at(data, at + 2) for at in range(links, len(data), 4)))
    is_full = branches == 1 or 0 not in root.counts
    return root if root.size <= GREATEST_SIZE and is_full and root_bytes(root) == data else None


def branch_bytes(size, piece):
    header = word(0) + word(count(size, piece)) + word(size) + word(0) + word(8)
    if size:
        return header + piece
    places, at = [], 8 + 2 * len(piece)
    for element in piece:
        places.append(word(at))
        at += len(element)
    return header + b"".join(places) + b"".join(piece)


def branch_of(size, elements, data):
    """The piece that a branch has, of which the root says that it has so many elements; None where it hasn't."""
    if data[:HEADER] != word(0) + word(elements) + word(size) + word(0) + word(8):
        return None
    if size:
        piece = data[HEADER:]
        return piece if len(piece) == size * elements else None
    if len(data) < HEADER + 2 * elements:
        return None
    places = [2 + word_at(data, HEADER + 2 * k) for k in range(elements)] + [len(data)]
    piece = tuple(data[start:end] for start, end in zip(places, places[1:]))
    return piece if branch_bytes(0, piece) == data else None
