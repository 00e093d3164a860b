#!/usr/bin/env python3
"""Writes what the program workfile_run reads and must print: crates/workfile_run/stdin and stdout; and 01's worked example as a work
file, which meshchunk reads: crates/meshchunk/stdin.

A case is its kind and its length as u32, then its bytes. Kinds: 0 a file that is bad; 1 the length of a file that is good, the
file, its grid and its log; 2 a number and its decimal; 3 a refusal's number and place, and its line; 4 a set, and its faces; 5 the
lines of the worked example.
Run it at the repository's root; stored.py says where it writes.
"""
import struct

from entries import BROKEN, ENTRY_BYTES, OUTSIDE, entries_of, entry
from stored import counted, keep
from sure import sure


def words(*numbers):
    return struct.pack("<%dI" % len(numbers), *numbers)


def type_bytes(kind, sides, tile=0):
    return bytes([kind, sides]) + b"".join(words(face, tile, tile) for face in range(6))


ONE = 0x3F800000
NULL, CUBE = type_bytes(0, 0), type_bytes(1, 63)
DIG = entry(0, BROKEN, 1, OUTSIDE, OUTSIDE, 1, OUTSIDE, OUTSIDE, OUTSIDE)
EXAMPLE = b"quads 6 moved 14\n0 1 5\n1 1 4\n2 1 0\n3 1 1\n4 1 2\n5 1 3\n"


def trailer(types, grid, log, size, **other):
    """The 23 words of the trailer; `other` sets a word by its number, as w9=1."""
    body = len(types) + len(grid) + len(log)
    t = [body, body - len(types), len(log), len(types) // 74, len(log) // ENTRY_BYTES, *size, 0, 1]
    t += [ONE, ONE, ONE, 0, 0, 0, 1, 1, 0, 0, 0, 0, 92]
    for name, value in other.items():
        t[int(name[1:])] = value
    return words(*t)


class File:
    """A work file, part by part: a type, the grid, an entry, bytes that belong to nothing, the trailer."""

    def __init__(self, types=(NULL, CUBE), grid=b"\1\1", log=DIG, size=(2, 1, 1), spare=b"", **other):
        self.grid, self.log = grid, log
        self.parts = [("type", one) for one in types] + [("grid", grid)] + [("entry", one) for one in entries_of(log)]
        self.parts += [("bytes", spare), ("trailer", trailer(b"".join(types), grid, log, size, **other))]

    @property
    def text(self):
        return b"".join(data for _, data in self.parts)

    def told(self):
        return words(len(self.text)) + self.text + self.grid + self.log

    def followed(self, *parts):
        """This file with more at its end."""
        self.parts += parts
        return self


class Bytes(File):
    """A file that has none of the parts."""

    def __init__(self, data):
        self.parts = [("bytes", data)]


def good_files():
    yield File()
    yield File(log=b"")
    yield File(w19=1, w9=0, w8=63, w20=0x7FC00000, w21=0xFFFFFFFF)
    yield File(types=(CUBE,) * 8, grid=b"\0" * 512, log=DIG * 7, size=(8, 8, 8))
    yield File(types=(type_bytes(2, 64, 4096),), grid=bytes(range(12)), log=bytes(range(2 * ENTRY_BYTES)), size=(2, 3, 2))
    yield File(types=(CUBE,), grid=b"\0" * 10, log=DIG * 501, size=(10, 1, 1))  # 8,192 bytes


def named_bad_files():
    whole = File().text
    yield "no_bytes", Bytes(b"")
    yield "91_bytes", Bytes(whole[-91:])
    yield "92_bytes", File(types=(), grid=b"", log=b"", size=(0, 0, 0))
    yield "8193_bytes", File(types=(CUBE,), grid=b"\0" * 11, log=DIG * 501, size=(11, 1, 1))
    for number in (91, 93, 0):
        yield "word_22_is_%d" % number, File(w22=number)
    body = len(whole) - 92
    for at, part, distance in ((0, "types", body), (1, "grid", body - 148), (2, "log", ENTRY_BYTES)):
        yield part + "_too_near", File(**{"w%d" % at: distance - 1})
        yield part + "_too_far", File(**{"w%d" % at: distance + 1})
    yield "an_entry_not_counted", File(w4=0)
    yield "an_entry_not_there", File(w4=2)
    yield "an_entry_of_12_bytes", File(log=b"", spare=DIG[:12], w0=body - 4, w1=14, w2=12, w4=1)
    yield "a_type_not_counted", File(w3=1)
    yield "a_byte_before_the_trailer", File(spare=b"\0")
    yield "a_byte_before_the_trailer_again", Bytes(whole[:-92] + b"\0" + whole[-92:])
    yield "a_byte_at_the_end", File().followed(("bytes", b"\0"))
    yield "flag_2", File(w19=2)
    yield "algorithm_2", File(w9=2)
    yield "outer_64", File(w8=64)
    yield "outer_most", File(w8=0xFFFFFFFF)
    yield "9_types", File(types=(CUBE,) * 9)
    yield "513_cells", File(grid=b"\0" * 513, size=(513, 1, 1))
    yield "520_cells", File(grid=b"\0" * 520, size=(1, 26, 20))
    yield "no_types", File(types=())
    for size in ((0, 1, 1), (1, 0, 1), (1, 1, 0), (0, 0, 0)):
        yield "size_%d_%d_%d" % size, File(grid=b"", size=size)
    # a product that is 2 in 32 bits, one that is 512 in 64 bits, and the most
    yield "cells_2_in_32_bits", File(size=(2, 0x80000001, 1))
    yield "cells_512_in_64_bits", File(grid=b"\0" * 512, size=(48912491 * 64, 2971 * 683 * 11, 3 * 11 * 8))
    yield "cells_most", File(size=(0xFFFFFFFF, 0xFFFFFFFF, 0xFFFFFFFF))
    # types and entries so many that the bytes they ask for wrap 32 bits
    yield "types_2_in_31_bits", File(w3=2 + 0x80000000)
    yield "entries_1_in_28_bits", File(w4=1 + 0x10000000)


sure(48912491 * 64 * 2971 * 683 * 11 * 3 * 11 * 8 == 2**64 + 512)


def bad_files():
    return [file.text for _, file in named_bad_files()]


def cases():
    for file in bad_files():
        yield 0, file
    for file in good_files():
        yield 1, file.told()
    for n in (0, 1, 9, 10, 11, 99, 100, 101, 1000, 65535, 999999999, 1000000000, 4294967295):
        yield 2, words(n) + b"%d" % n
    for number, place in ((1, 0), (14, 16777215), (16, 127), (4294967295, 4294967295)):
        yield 3, words(number, place) + b"refused %d at %d\n" % (number, place)
    for sides in range(64):
        yield 4, words(sides) + bytes(f for f in range(6) if sides >> f & 1)
    yield 5, EXAMPLE


def wrong_cases():
    """Each is wrong in one thing, so that a comparison that is left out counts it right."""
    file = File()
    told = file.told()
    parts = len(file.grid) + len(file.log)
    yield 0, file.text
    yield 1, words(len(file.text)) + File(w22=93).text + file.grid + file.log
    for at in (-parts, -len(file.log) - 1, -len(file.log), -1):  # the first and last byte of the grid, and of the log
        yield 1, told[:at] + bytes([told[at] ^ 1]) + told[at:][1:]
    yield 1, told[:-1]
    yield 1, told + b"\0"
    yield 1, told[:-parts]
    yield 1, words(len(told)) + told[4:]
    yield 1, told[:3]
    for kind, right in ((2, words(14) + b"14"), (3, words(14, 2) + b"refused 14 at 2\n"), (4, words(5) + b"\0\2"), (5, EXAMPLE)):
        yield kind, right[:-1] + bytes([right[-1] ^ 1])
        yield kind, right[:-1]
        yield kind, right + right[-1:]
        yield kind, right[:3]
    yield 6, EXAMPLE


def main():
    right, wrong = list(cases()), list(wrong_cases())
    sure(len(File(types=(CUBE,), grid=b"\0" * 10, log=DIG * 501, size=(10, 1, 1)).text) == 8192)
    cut_short = words(5, len(EXAMPLE) + 1) + EXAMPLE
    stored = b"".join(words(kind, len(case)) + case for kind, case in right + wrong) + cut_short
    keep("workfile_run", stored, counted("cases", len(right), len(wrong) + 1))
    keep("meshchunk", File().text)


if __name__ == "__main__":
    main()
