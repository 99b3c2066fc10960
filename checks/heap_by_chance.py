# Needs: python3
"""Makes calls of a heap by chance, which is kept nearly full, the same each time, and compares each reply with what a plain list of chunks
gives, by docs/SCRIPT.md and docs/FORMAT.md alone.

    python3 checks/heap_by_chance.py GEOSVM [CALLS]
"""
import os
import random
import subprocess
import sys
import tempfile

CAPACITY = 65520
MOST_SLOTS = 32752
FULL, NO_CHUNK, RANGE = "no 8 Full", "no 6 NoChunk", "no 11 Range"


def space(length):
    return (length + 5) // 4 * 4 if length else 0


class Heap:
    """Chunks by slot: the first has the handle 0010, and each other one the next even number. None is a slot without a chunk."""

    def __init__(self):
        self.slots, self.space = [], 0

    def need(self, slots=None, more=0):
        return 16 + 4 * ((slots or len(self.slots)) + 1 & ~1) // 2 + self.space + more

    def fits(self, slot, length):
        chunk = self.slots[slot] if slot < len(self.slots) else None
        slots = max(len(self.slots), slot + 1)
        return slot < MOST_SLOTS and self.need(slots, space(length) - space(len(chunk or b""))) <= CAPACITY

    def gap(self):
        return self.slots.index(None) if None in self.slots else len(self.slots)

    def put(self, slot, chunk):
        if slot == len(self.slots):
            self.slots.append(None)
        self.space += space(len(chunk)) - space(len(self.slots[slot] or b""))
        self.slots[slot] = bytes(chunk)

    def alloc(self, n):
        slot = self.gap()
        if not self.fits(slot, n):
            return FULL
        self.put(slot, bytes(n))
        return "chunk " + handle(slot)

    def resize(self, slot, n):
        chunk = self.slots[slot]
        if n > len(chunk) and not self.fits(slot, n):
            return FULL
        self.put(slot, chunk[:n] + bytes(max(0, n - len(chunk))))
        return "ok"

    def insert(self, slot, at, n):
        chunk = self.slots[slot]
        if at > len(chunk):
            return RANGE
        if not self.fits(slot, len(chunk) + n):
            return FULL
        self.put(slot, chunk[:at] + bytes(n) + chunk[at:])
        return "ok"

    def delete(self, slot, at, n):
        chunk = self.slots[slot]
        if at + n > len(chunk):
            return RANGE
        self.put(slot, chunk[:at] + chunk[at + n:])
        return "ok"

    def write(self, slot, at, data):
        chunk = self.slots[slot]
        if at + len(data) > len(chunk):
            return RANGE
        self.put(slot, chunk[:at] + data + chunk[at + len(data):])
        return "ok"

    def free(self, slot):
        self.space -= space(len(self.slots[slot]))
        self.slots[slot] = None
        while self.slots and self.slots[-1] is None:
            self.slots.pop()
        return "ok"


def handle(slot):
    return f"{16 + 2 * slot:04x}"


class Calls(random.Random):
    def __init__(self, seed):
        super().__init__(seed)
        self.heap, self.lines, self.replies = Heap(), ["newheap 7"], ["block 0001"]

    def say(self, line, reply):
        self.lines.append(line)
        self.replies.append(reply)

    def size(self):
        return self.choice([0, 1, 2, 3, 4, self.randrange(20), self.randrange(20), self.randrange(200), self.randrange(3000)])

    def slot(self):
        """One with a chunk, if there is one."""
        slots = [slot for slot in (self.randrange(len(self.heap.slots)) for _ in range(9)) if self.heap.slots[slot] is not None]
        return slots[0] if slots else len(self.heap.slots) - 1

    def room(self):
        """The most bytes that a new chunk can have, or few more."""
        slot = self.heap.gap()
        free = CAPACITY - self.heap.need(max(len(self.heap.slots), slot + 1))
        return max(0, free - 2 + self.choice([0, 0, 1, 2, 3]))

    def alloc(self):
        n = self.room() if self.randrange(20) == 0 else self.size()
        reply = self.heap.alloc(n)
        self.say(f"alloc 0001 {n}", reply)
        if reply == FULL:
            for _ in range(self.randrange(1, 9)):
                if self.heap.slots:
                    self.free(self.slot())
        elif n:
            slot = (int(reply.split()[1], 16) - 16) // 2
            self.write(slot, 0, self.randbytes(min(n, 50)))
            self.write(slot, max(0, n - 5), self.randbytes(min(n, 5)))

    def write(self, slot, at, data):
        self.say(f"write 0001 {handle(slot)} {at} {data.hex()}", self.heap.write(slot, at, data))

    def free(self, slot):
        self.say(f"free 0001 {handle(slot)}", self.heap.free(slot))

    def change(self):
        slot, kind = self.slot(), self.randrange(8)
        length, n = len(self.heap.slots[slot]), self.size()
        at = self.randrange(length + 2)
        if kind == 0:
            self.free(slot)
        elif kind <= 2:
            self.say(f"resize 0001 {handle(slot)} {n}", self.heap.resize(slot, n))
        elif kind <= 4:
            self.say(f"insert 0001 {handle(slot)} {at} {n}", self.heap.insert(slot, at, n))
        elif kind == 5:
            self.say(f"delete 0001 {handle(slot)} {at} {n}", self.heap.delete(slot, at, n))
        else:
            self.write(slot, at, self.randbytes(self.randrange(1, 9)))
        if slot < len(self.heap.slots) and self.heap.slots[slot] is not None:
            self.read(slot)

    def read(self, slot):
        self.say(f"read 0001 {handle(slot)}", "bytes " + (self.heap.slots[slot].hex() or "-"))

    def look(self):
        self.say("info 0001", f"heap 7 {self.heap.need()}")
        there = [slot for slot, chunk in enumerate(self.heap.slots) if chunk is not None]
        self.say("chunks 0001", " ".join(["chunks"] + [handle(slot) for slot in there]))
        for slot in there:
            self.read(slot)
        free = self.heap.gap()
        self.say(f"read 0001 {handle(free)}", NO_CHUNK)

    def make(self, calls):
        for call in range(calls):
            if call % 500 == 0:
                self.look()
            if not self.heap.slots or self.randrange(3) == 0:
                self.alloc()
            else:
                self.change()
        self.look()


def main():
    geosvm = os.path.abspath(sys.argv[1])
    calls = int(sys.argv[2]) if len(sys.argv) > 2 else 20000
    made = Calls(20261123)
    made.make(calls)
    with tempfile.TemporaryDirectory() as folder:
        script = "".join(line + "\n" for line in made.lines)
        done = subprocess.run([geosvm, "--new", os.path.join(folder, "document")], input=script, stdout=subprocess.PIPE, text=True)
    replies = done.stdout.split("\n")
    wrong = [place for place, (wanted, given) in enumerate(zip(made.replies, replies)) if wanted != given]
    for place in wrong[:3]:
        print(f"FAILED  line {place + 1}: {made.lines[place]}: wanted {made.replies[place][:90]}, got {replies[place][:90]}")
    holds = not wrong and done.returncode == 0 and len(replies) == len(made.replies) + 1
    # It was full, and not only that.
    often = 50 < made.replies.count(FULL) < calls // 5
    print(f"        {len(made.lines)} lines, {made.replies.count(FULL)} that are refused as Full")
    print(f"{holds + often} passed, {2 - holds - often} failed")
    sys.exit(not (holds and often))


if __name__ == "__main__":
    main()
