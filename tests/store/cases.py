#!/usr/bin/env python3
"""Writes the commands of crates/cases_store, and what they give: python3 tests/store/cases.py crates/cases_store

A command is a line of fixed columns: a letter, four decimal numbers, and a value in hexadecimal. It acts on three slices, the store, the
pending bytes and the mask, all zero at first; the program keeps them from line to line.

    column  0       2..7  9..14   16..21  23..28  30..93
            letter  at    length  from    count   value

    l  load a part of the store       s  save one          n  are `count` words without spare bits?
    p  save a part of the pending bytes                    c  copy the store onto the pending bytes
    m  mark a part in the mask        q  is a bit of it marked?    z  clear the mask    d  land

What is expected is worked out here on words as numbers, not on bits in bytes."""
import random
import sys

SIZE = 8320
LONGEST = 256
LENGTHS = [1, 2, 7, 8, 9, 12, 16, 17, 31, 63, 64, 65, 100, 128, 129, 192, 193, 255, 256, 257, 300, 513, 700, 4095, 65535, 65536]


def word_bytes(length):
    return (length + 7) // 8


def inside(at, length, start, count):
    return at + word_bytes(length) <= SIZE and start + count <= length and count <= LONGEST


def word(slice, at, length):
    return int.from_bytes(slice[at : at + word_bytes(length)], "big")


def load(slice, at, length, start, count):
    """The length and the number of a part; of one that is not there, of no bits."""
    if not inside(at, length, start, count):
        return 0, 0
    return count, (word(slice, at, length) >> (length - start - count)) % 2**count


def save(slice, at, length, start, count, value):
    if inside(at, length, start, count):
        low = length - start - count
        mask = (2**count - 1) << low
        new = word(slice, at, length) & ~mask | (value << low) & mask
        slice[at : at + word_bytes(length)] = new.to_bytes(word_bytes(length), "big")


def narrow(slice, at, words, length):
    end = at + words * word_bytes(length)
    return end <= SIZE and all(word(slice, p, length) < 2**length for p in range(at, end, word_bytes(length) or 1))


def shown(slice):
    total = 0
    for byte in slice:
        total = (total * 31 + byte) % 2**32
    return f"{total:08x}"


def land(store, pending, mask):
    for i in range(SIZE):
        store[i] = pending[i] & mask[i] | store[i] & ~mask[i] & 255


class Slices:
    def __init__(self):
        self.store, self.pending, self.mask = bytearray(SIZE), bytearray(SIZE), bytearray(SIZE)

    def run(self, letter, at, length, start, count, value):
        """What a command prints."""
        part = at, length, start, count
        if letter == "l":
            return "%d %064x" % load(self.store, *part)
        if letter == "n":
            return "yes" if narrow(self.store, at, count, length) else "no"
        if letter == "q":
            return "yes" if load(self.mask, *part)[1] else "no"
        if letter == "s":
            save(self.store, *part, value)
        elif letter == "p":
            save(self.pending, *part, value)
        elif letter == "m":
            save(self.mask, *part, 2**LONGEST - 1)
        elif letter == "c":
            self.pending[:] = self.store
        elif letter == "z":
            self.mask[:] = bytes(SIZE)
        elif letter == "d":
            land(self.store, self.pending, self.mask)
        return shown({"p": self.pending, "c": self.pending, "m": self.mask, "z": self.mask}.get(letter, self.store))


def parts(r, length):
    """Parts of a word: its ends, the joints of bytes and limbs, and some at random."""
    counts = {c for c in (1, 7, 8, 9, 63, 64, 65, 129, 193, 256, length) if c <= min(length, LONGEST)}
    for count in sorted(counts):
        for start in sorted({0, length - count, r.randint(0, length - count)}):
            yield start, count


def outside():
    """Parts that are not there: past the word, past the slice, too long for a value."""
    for at, length, start, count in [
        (0, 16, 9, 8), (0, 16, 17, 0), (0, 16, 0, 17), (SIZE - 1, 16, 0, 16), (SIZE, 1, 0, 1), (SIZE, 0, 0, 0), (0, 0, 0, 1),
        (0, 300, 0, 257), (0, 65536, 0, 65536), (999999, 8, 0, 8), (SIZE - 8191, 65536, 0, 1), (0, 8, 999999, 1), (0, 8, 0, 999999),
    ]:
        yield at, length, start, count
        yield at, length, start, min(count, 1)


def words_in_turn(r):
    """For each length, parts that are loaded, saved, delayed and marked, and then land together."""
    for length in LENGTHS:
        for start, count in parts(r, length):
            at = r.randint(0, SIZE - word_bytes(length))
            value = r.getrandbits(256)
            for letter in "lslpqm":
                yield letter, at, length, start, count, value
            yield "q", at, length, max(start - 1, 0), 1, 0
            yield "n", at, length, 0, 1, 0
        yield "d", 0, 0, 0, 0, 0
        yield "z", 0, 0, 0, 0, 0


def spare_bits(r):
    """Words of a facility, first without a spare bit and then perhaps with one."""
    for length in LENGTHS[:18]:
        size = word_bytes(length)
        at = r.randint(0, 4000)
        words = r.randint(1, 20)
        for place in range(at, at + words * size, size):
            yield "s", place, size * 8, 0, size * 8, 0
            yield "s", place, length, 0, length, r.getrandbits(256)
        yield "n", at, length, 0, words, 0
        yield "s", at + r.randint(0, words - 1) * size, size * 8, 0, 1, r.randint(0, 1)
        yield "n", at, length, 0, words, 0
        yield "n", SIZE - words * size + 1, length, 0, words, 0
        yield "n", at, length, 0, 0, 0


def commands(r):
    for at in range(0, SIZE, 32):
        yield "s", at, 256, 0, 256, r.getrandbits(256)
    yield from words_in_turn(r)
    for part in outside():
        for letter in "lspmqn":
            yield letter, *part, r.getrandbits(256)
    yield "c", 0, 0, 0, 0, 0
    yield from spare_bits(r)


def main():
    r = random.Random(1977)
    slices = Slices()
    with open(sys.argv[1] + "/stdin", "w") as lines, open(sys.argv[1] + "/stdout", "w") as given:
        for letter, at, length, start, count, value in commands(r):
            lines.write(f"{letter} {at:06d} {length:06d} {start:06d} {count:06d} {value:064x}\n")
            given.write(slices.run(letter, at, length, start, count, value) + "\n")


main()
