#!/usr/bin/env python3
"""The stored set of work files, examples/workfiles.txt: what meshchunk reads, and what it must print for each.

    tools/workset.py make           writes the set
    tools/workset.py test           runs tools/meshchunk, or what --program names, on every file of the set
    tools/workset.py file NAME      the bytes of one file, on standard output

What must be printed comes from document 01, of Sides entries from 02's Q-6, of Replaced ones from its Q-7: the whole answer by plain_program.py,
and the first line once more by hand, below, but for long logs.
Where 01 itself works a file, its own lines stand here. One file has an answer that is wrong on purpose: a test that does not tell it has failed.

What a file can reach: 1 BAD_FILE, 3 BAD_TYPES at a type, 4, 5, 6, 7 at a texture's entry, 8, 13 at an entry, and 14 at 0 or an entry. What it
can't, since the program lends its own lists and the file's rule comes first:

    2   a size is at most 512, and the grid's bytes are as many as its cells
    3   at 255: there are 1 to 8 types, and a cube is built for each
    7   at 6, or for the outer list: six entries are read for each type, and a set below 64 names faces alone
    9   24 vertices are lent to a cube, and six slots a cell to a mesh
    10, 11, 12   an update is lent the mesh that was made before it
    13  past the limit, or for a ragged end: the log's bytes are 16 an entry, and 8,192 bytes hold 501 at most
    15, 16   the program calls no check
"""
import argparse
import itertools
import os
import random
import struct
import sys

sys.dont_write_bytecode = True  # no folder of bytecode beside the tools
from chunkfile import FACES, ROOT, TRAILER_BYTES, answer_of, chunk_in, read_input
from entries import ADDED, BROKEN, DRAW, HIDE, KEEP, LAYOUT, OUTSIDE, REPLACED, SIDES, entry, replaced
from plain_program import expected
from sure import sure
from workfiles import CUBE, DIG, NULL, ONE, Bytes, File, named_bad_files, trailer, type_bytes, words

SET = "examples/workfiles.txt"
REACHED = {1, 3, 4, 5, 6, 7, 8, 13, 14}
MOST = 0xFFFFFFFF
INF, NAN, MAX, NEG = 0x7F800000, 0x7FC00000, 0x7F7FFFFF, 0x80000000
CUSTOM = type_bytes(2, 63)
NONE_GIVEN = [OUTSIDE] * 6


# ---- how a set is written


HEAD = """\
# Work files, and what meshchunk must print for each. tools/workset.py makes them, and says more.
#
# A file is its parts in their order: `type` has kind, set and six times face, a, b; `entry` has cell, change, type, six neighbours or sides, former
# type and three spare bytes; `trailer` has 23 words; `grid` and `bytes` have bytes. `N times` says that a part comes N times, `n*N` that a byte does.
# A line that starts with > is printed. `wrong` is a file whose lines here are wrong on purpose.
"""
LAYOUTS = {"type": "<BB18I", "entry": LAYOUT, "trailer": "<23I"}
LEAST_RUN = 4


def number_text(number):
    return str(number) if number < 65536 else "0x%08x" % number


def bytes_text(data):
    for number, run in itertools.groupby(data):
        length = len(list(run))
        yield from ["%d*%d" % (number, length)] if length >= LEAST_RUN else [str(number)] * length


def part_text(kind, data, times):
    numbers = map(number_text, struct.unpack(LAYOUTS[kind], data)) if kind in LAYOUTS else bytes_text(data)
    return " ".join([kind, *(["%d times" % times] if times > 1 else []), *numbers])


def parts_text(parts):
    for (kind, data), run in itertools.groupby(part for part in parts if part[1]):
        yield part_text(kind, data, len(list(run)))


def part_bytes(line):
    kind, *told = line.split()
    times = 1
    if told[1:2] == ["times"]:
        times, told = int(told[0]), told[2:]
    numbers = []
    for one in told:
        number, _, length = one.partition("*")
        numbers += [int(number, 0)] * int(length or 1)
    return struct.pack(LAYOUTS.get(kind, "<%dB" % len(numbers)), *numbers) * times


class Stored:
    """A file of the set, as it is written there."""

    def __init__(self, name, is_wrong):
        self.name, self.is_wrong = name, is_wrong
        self.data, self.told = b"", ""


def read_set(text):
    files = []
    for line in text.splitlines():
        key, _, rest = line.partition(" ")
        if key in ("file", "wrong"):
            files.append(Stored(rest, key == "wrong"))
        elif key == ">":
            files[-1].told += rest + "\n"
        elif key not in ("", "#"):
            files[-1].data += part_bytes(line)
    return files


# ---- parts of files


def around(**given):
    """Six neighbours, outside but for those named."""
    return [given.get(face, OUTSIDE) for face in FACES]


def sides(cell, code, **told):
    """A Sides entry that keeps all but the sides named."""
    return entry(cell, SIDES, code, *[told.get(face, KEEP) for face in FACES])


def textured(kind, covering, **entries):
    """A type whose entries are faces 0 to 5 with tile 0,0, but for those given by number, as e3=(6, 0, 0)."""
    told = [entries.get("e%d" % i, (i, 0, 0)) for i in range(6)]
    return bytes([kind, covering]) + words(*itertools.chain(*told))


def grid_file(size, codes, log=b"", **more):
    """A file of that size, its first cells these and the others type 0."""
    w, h, l = size
    return File(grid=bytes(codes) + bytes(w * h * l - len(codes)), size=size, log=log, **more)


def row(*codes, **more):
    return grid_file((len(codes), 1, 1), codes, **more)


def long_row(size):
    """A file of that many bytes: a row of cubes, its first dug 496 times."""
    cells = size - TRAILER_BYTES - len(NULL + CUBE) - 496 * len(DIG)
    return row(*[1] * cells, log=DIG * 496)


# ---- the files, each with the start of its answer


def refused(number, place=0):
    return "refused %d at %d\n" % (number, place)


BAD_FILE = refused(1)


def quads(count, moved=None):
    return "quads %d moved %s" % (count, "" if moved is None else "%d\n" % moved)


WORKED = """\
quads 6 moved 14
0 1 5
1 1 4
2 1 0
3 1 1
4 1 2
5 1 3
"""


# Of ten quads Top is 0 and Back is 3: the last takes the place of Top, then the five after Back close up. Right comes last.
TWO_HIDDEN_ONE_DRAWN = """\
quads 9 moved 6
0 1 5
1 0 1
2 0 3
3 0 5
4 1 0
5 1 1
6 1 2
7 1 4
8 0 2
"""


# As the example, moved 14. Then five sides come; of eleven quads the neighbour's Left is 5, and the five after it close up.
REPLACED_IN_ONE = """\
quads 10 moved 19
0 1 5
1 1 4
2 1 0
3 1 1
4 1 2
5 0 0
6 0 1
7 0 3
8 0 4
9 0 5
"""


def worked_by_hand():
    yield "example", File(), WORKED
    yield "case_1", row(1), quads(6, 0)
    yield "case_2", row(1, 1), quads(10, 0)
    yield "case_2_naive", row(1, 1, w9=0), quads(12, 0)
    yield "case_3", row(1, 1, w8=1), quads(8, 0)
    yield "case_4", grid_file((3, 3, 3), [1] * 27), quads(54, 0)
    yield "case_5", row(1, 0, types=(type_bytes(0, 63), CUBE)), quads(5, 0)
    yield "case_6_shifts", row(1, 1, log=sides(0, 1, forward=HIDE)), quads(9, 5)
    yield "case_6_swaps", row(1, 1, log=sides(0, 1, back=HIDE)), quads(9, 1)
    yield "two_hidden_one_drawn", row(1, 1, log=sides(0, 1, top=HIDE, back=HIDE, right=DRAW)), TWO_HIDDEN_ONE_DRAWN
    gravel, beside = dict(types=(NULL, CUBE, type_bytes(1, 63, 1))), around(right=1)
    yield "clay_to_gravel", row(1, 1, log=replaced(0, 1, 2, *beside), **gravel), REPLACED_IN_ONE
    yield "clay_to_gravel_by_two", row(1, 1, log=entry(0, BROKEN, 1, *beside) + entry(0, ADDED, 2, *beside), **gravel), REPLACED_IN_ONE
    yield "clay_to_air", row(1, 1, log=replaced(0, 1, 0, *beside)), WORKED
    for case, covers, mended, fresh in ((7, 2, 11, 10), (8, 1, 10, 11)):
        types = NULL, CUBE, type_bytes(1, covers)
        yield "case_%d" % case, grid_file((1, 2, 1), [1], entry(1, ADDED, 2, *around(bottom=1)), types=types), quads(mended)
        yield "case_%d_fresh" % case, grid_file((1, 2, 1), [1, 2], types=types), quads(fresh, 0)
    yield "case_9", row(1, 1, log=entry(0, ADDED, 0, *around(right=1))), quads(10, 0)


def at_the_limits():
    """Files that are good, and bad ones just past them."""
    yield "167_bytes", row(0, types=(CUBE,)), quads(6, 0)
    yield "8191_bytes_dug", long_row(8191), quads(58, 5)
    yield "8192_bytes_dug", long_row(8192), quads(62, 5)
    yield "8193_bytes_dug", long_row(8193), BAD_FILE
    yield "8192_bytes_and_0", long_row(8192).followed(("bytes", b"\0")), BAD_FILE
    yield "8192_bytes_and_255", long_row(8192).followed(("bytes", b"\xff")), BAD_FILE
    yield "8192_bytes_and_12000", long_row(8192).followed(("bytes", b"\1" * 12000)), BAD_FILE
    yield "8192_bytes_and_its_trailer", long_row(8192).followed(long_row(8192).parts[-1]), BAD_FILE
    yield "8192_bytes_twice", long_row(8192).followed(*long_row(8192).parts), BAD_FILE
    yield "254_bytes_and_its_trailer", File().followed(File().parts[-1]), BAD_FILE
    for w22 in (92 + 256, 92 << 24, MOST):
        yield "word_22_is_%d" % w22, File(w22=w22), BAD_FILE
    yield "flag_1", File(w19=1), quads(6, 14)
    yield "algorithm_0", File(w9=0), quads(6)
    yield "outer_63", row(1, 1, 1, w8=63), quads(0, 0)
    for name, word in (("flag", "w19"), ("algorithm", "w9"), ("outer", "w8")):
        for number in (256, 65536, NEG, NEG | 1):
            yield "%s_%d" % (name, number), File(**{word: number}), BAD_FILE
    yield "8_types", row(7, 1, types=(CUBE,) * 8), quads(10, 0)
    yield "no_types_counted", File(w3=0), BAD_FILE
    for size in ((512, 1, 1), (1, 512, 1), (1, 1, 512), (8, 16, 4)):
        yield "cells_%dx%dx%d" % size, grid_file(size, [0] * 511 + [1]), quads(6, 0)
    for size in ((1, 513, 1), (1, 1, 513), (27, 19, 1)):
        yield "cells_%dx%dx%d" % size, grid_file(size, [0] * 512 + [1]), BAD_FILE
    for size in ((0, 1, 1), (1, 0, 1), (1, 1, 0)):
        yield "size_%d_%d_%d_and_a_grid" % size, File(size=size), BAD_FILE
    yield "cells_0_in_32_bits", File(grid=b"", size=(65536, 65536, 1)), BAD_FILE
    yield from torn()


def torn():
    """Distances that are true of their parts, in files whose parts do not adjoin, or are not in their order."""
    types, (_, grid), (_, log) = File().parts[:2], File().parts[2], File().parts[3]
    both = b"".join(data for _, data in types)
    orders = {
        "a_byte_at_the_start": [("bytes", b"\0"), *types, ("grid", grid), ("entry", log)],
        "a_byte_after_the_types": [*types, ("bytes", b"\0"), ("grid", grid), ("entry", log)],
        "a_byte_after_the_grid": [*types, ("grid", grid), ("bytes", b"\0"), ("entry", log)],
        "the_log_before_the_grid": [*types, ("entry", log), ("grid", grid)],
        "the_grid_first": [("grid", grid), *types, ("entry", log)],
    }
    for name, parts in orders.items():
        body = b"".join(data for _, data in parts)
        told = {"w%d" % at: len(body) - body.index(part) for at, part in enumerate((both, grid, log))}
        yield name, Bytes(b"").followed(*parts, ("trailer", trailer(both, grid, log, (2, 1, 1), **told))), BAD_FILE


def bad_types():
    null_3 = type_bytes(3, 0)
    yield "kind_2", row(1, 2, types=(NULL, CUBE, CUSTOM)), quads(5, 0)
    yield "kind_3", row(1, 1, types=(null_3, CUBE)), refused(3, 0)
    yield "kind_255_last", row(1, 1, types=(CUBE,) * 7 + (type_bytes(255, 0),)), refused(3, 7)
    yield "set_63", row(1, 1, types=(type_bytes(0, 63), CUBE)), quads(10, 0)
    yield "set_64", row(1, 1, types=(NULL, type_bytes(1, 64))), refused(3, 1)
    yield "set_255_of_a_null", row(1, 1, types=(NULL, CUBE, type_bytes(0, 255))), refused(3, 2)
    yield "two_bad_types", row(1, 1, types=(NULL, type_bytes(1, 64), null_3)), refused(3, 1)


def bad_numbers():
    for at, name in ((10, "d_x"), (11, "d_y"), (12, "d_z"), (13, "centre_x"), (14, "centre_y"), (15, "centre_z"), (18, "padding")):
        for number, word in (("inf", INF), ("minus_inf", NEG | INF), ("nan", NAN)):
            yield "%s_%s" % (name, number), row(1, 1, **{"w%d" % at: word}), refused(4)
    yield "padding_most", row(1, 1, w18=MAX), quads(10, 0)
    yield "colour_nan_unused", row(1, 1, w20=NAN, w21=INF), quads(10, 0)
    yield "colour_nan", row(1, 1, w19=1, w20=NAN, w21=INF), quads(10, 0)


def bad_atlases():
    for at, side in ((16, "across"), (17, "down")):
        for number, answer in ((0, refused(5)), (4096, quads(10, 0)), (4097, refused(5)), (MOST, refused(5))):
            yield "atlas_%s_%d" % (side, number), row(1, 1, **{"w%d" % at: number}), answer
    for i, tile in ((0, (4095, 4095)), (0, (4096, 0)), (5, (0, 4096)), (5, (MOST, 0))):
        answer = quads(10, 0) if max(tile) < 4096 else refused(5)
        yield "entry_%d_tile_%d_%d" % (i, *tile), row(1, 1, types=(NULL, textured(1, 63, **{"e%d" % i: (i, *tile)}))), answer
    yield "tile_4096_of_a_null", row(1, 1, types=(textured(0, 0, e3=(3, 4096, 0)), CUBE)), refused(5)


def not_cubes():
    yield "d_0", row(1, 1, w10=0), refused(6, 1)
    yield "d_below_0", row(1, 1, w11=NEG | ONE), refused(6, 1)
    yield "d_least", row(1, 1, w12=1), quads(10, 0)
    yield "d_most", row(1, 1, w12=MAX), quads(10, 0)
    yield "high_overflows", row(1, 1, w10=MAX, w13=MAX), refused(6, 1)
    yield "low_is_the_centre", row(1, 1, w10=0x32800000, w13=ONE), refused(6, 1)  # d 2^-26, centre 1
    yield "high_is_the_centre", row(1, 1, w10=0x40000000, w13=0x4B800000), quads(10, 0)  # d 2, centre 2^24
    yield "d_0_and_no_cube", row(0, 1, types=(NULL, CUSTOM), w10=0), quads(0, 0)
    yield "d_0_and_a_cube_unused", row(0, 0, types=(NULL, CUSTOM, CUBE, CUBE), w10=0), refused(6, 2)


def bad_faces():
    for i in range(6):
        yield "entry_%d_face_6" % i, row(1, 1, types=(NULL, textured(1, 63, **{"e%d" % i: (6, 0, 0)}))), refused(7, i)
    yield "entry_4_face_most", row(1, 1, types=(textured(0, 0, e4=(MOST, 0, 0)), CUBE)), refused(7, 4)
    yield "entries_2_and_5_face_6", row(1, 1, types=(NULL, textured(1, 63, e2=(6, 0, 0), e5=(7, 0, 0)))), refused(7, 2)
    yield "entries_of_one_face", row(1, 1, types=(NULL, textured(1, 63, **{"e%d" % i: (5, 0, 0) for i in range(6)}))), quads(10, 0)


def bad_cells():
    yield "code_2_of_2_types", row(1, 2), refused(8, 1)
    yield "code_255", row(255, 2), refused(8, 0)
    yield "code_2_in_cell_511", grid_file((8, 8, 8), [0] * 511 + [2]), refused(8, 511)


def bad_entries():
    good = sides(0, 1)
    yield "cell_1", row(1, 1, log=good * 2 + entry(1, BROKEN, 1, *around(left=1))), quads(6)
    bad = {
        "cell_2": entry(2, BROKEN, 1, *NONE_GIVEN),
        "cell_most": entry(MOST, BROKEN, 1, *NONE_GIVEN),
        "change_4": entry(0, 4, 1, *NONE_GIVEN),
        "change_4_of_sides": entry(0, 4, 1, *[HIDE] * 6),
        "change_4_with_a_former_type": entry(0, 4, 1, *NONE_GIVEN, former=1),
        "change_255": entry(0, 255, 1, *NONE_GIVEN),
        "entry_type_2": entry(0, BROKEN, 2, *NONE_GIVEN),
        "entry_type_2_of_replaced": replaced(0, 1, 2, *NONE_GIVEN),
        "entry_type_255": sides(0, 255),
        "entry_type_2_of_sides": sides(0, 2, top=HIDE),
        "neighbour_254": entry(0, ADDED, 0, *around(back=254)),
        "side_255": sides(0, 1, left=OUTSIDE),
        "former_255": replaced(0, OUTSIDE, 1, *NONE_GIVEN),
        "former_2": replaced(0, 2, 1, *NONE_GIVEN),
        "former_0_of_broken_1": entry(0, BROKEN, 1, *NONE_GIVEN, former=0),
        "former_255_of_broken_1": entry(0, BROKEN, 1, *NONE_GIVEN, former=OUTSIDE),
        "former_1_of_added_1": entry(0, ADDED, 1, *NONE_GIVEN, former=1),
        "former_0_of_sides_0": entry(0, SIDES, 0, *[KEEP] * 6, former=0),
        "former_254_of_sides": entry(0, SIDES, 0, *[KEEP] * 6, former=254),
    }
    for face in FACES:
        bad["neighbour_2_" + face] = entry(0, BROKEN, 1, *around(**{face: 2}))
        bad["neighbour_2_of_replaced_" + face] = replaced(0, 1, 0, *around(**{face: 2}))
        bad["side_3_" + face] = sides(0, 1, **{face: 3})
    for byte in (13, 14, 15):
        for name, one in (("broken", entry(0, BROKEN, 1, *NONE_GIVEN)), ("added", entry(0, ADDED, 1, *NONE_GIVEN)), ("sides", good),
                          ("replaced", replaced(0, 1, 1, *NONE_GIVEN))):
            bad["byte_%d_of_%s" % (byte, name)] = one[:byte] + bytes([byte]) + one[byte + 1:]
    for name, one in bad.items():
        yield name, row(1, 1, log=good * 2 + one), refused(13, 2)
    yield "two_bad_entries", row(1, 1, log=good + (good[:4] + b"\4" + good[5:]) * 2), refused(13, 1)
    yield "entry_500", row(*[0] * 10, types=(CUBE,), log=sides(0, 0) * 500 + entry(10, 0, 0, *NONE_GIVEN)), refused(13, 500)
    yield "former_0_of_1_type", row(0, 0, types=(CUBE,), log=replaced(0, 0, 0, *around(right=0))), quads(10, 19)
    yield "former_1_of_1_type", row(0, 0, types=(CUBE,), log=replaced(0, 1, 0, *around(right=0))), refused(13, 0)
    yield "side_2_of_1_type", row(0, 0, types=(CUBE,), log=sides(0, 0, top=HIDE, right=DRAW)), quads(10, 1)
    yield "neighbour_2_of_1_type", row(0, 0, types=(CUBE,), log=sides(0, 0, right=DRAW) + entry(0, ADDED, 0, *around(right=2))), refused(13, 1)


# Four by twelve cubes in one layer have 2·48 + 2·4 + 2·12 = 128 quads. A cube that leaves its Right side open shows one more.
PLATE = (4, 1, 12)
OPEN = type_bytes(1, 63 - 4)


def plate(log=b"", **more):
    return grid_file(PLATE, [1] * 48, log, **more)


def no_room():
    corner = around(right=1, back=1)
    one_more = sides(9, 1, right=DRAW)
    hide, draw = sides(0, 1, top=HIDE), sides(0, 1, top=DRAW)
    yield "128_quads", plate(), quads(128, 0)
    yield "128_quads_with_colour", plate(w19=1, w20=ONE, w21=ONE), quads(128, 0)
    yield "129_quads", grid_file(PLATE, [1] * 5 + [2] + [1] * 42, types=(NULL, CUBE, OPEN)), refused(14)
    yield "126_quads_naive", row(*[1] * 21, w9=0), quads(126, 0)
    yield "132_quads_naive", row(*[1] * 22, w9=0), refused(14)
    yield "129_quads_at_entry_0", plate(one_more), refused(14, 0)
    yield "128_quads_after_127", plate(hide + draw), quads(128, 1)
    yield "129_quads_at_entry_3", plate(hide + draw + draw + one_more + hide), refused(14, 3)
    yield "129_quads_at_entry_2_with_colour", plate(hide + draw + one_more, w19=1), refused(14, 2)
    # the corner has a Top and a Left, but no Right and no Back
    yield "128_quads_one_hidden_one_drawn", plate(sides(0, 1, top=HIDE, right=DRAW, left=DRAW)), quads(128, 1)
    yield "129_quads_one_hidden_two_drawn", plate(sides(0, 1, top=HIDE, right=DRAW, back=DRAW)), refused(14, 0)
    yield "129_quads_one_drawn_that_hides_nothing", plate(sides(0, 1, back=HIDE, right=DRAW)), refused(14, 0)
    yield "127_quads_one_hidden_of_no_cube", plate(sides(0, 0, top=HIDE, right=DRAW, back=DRAW)), quads(127, 1)
    yield "130_quads_at_a_broken", plate(entry(5, BROKEN, 1, *around(right=1, left=1, back=1, forward=1))), refused(14, 0)
    # the corner's four quads go, two show; put back it asks for four more before the two go
    yield "126_quads_at_a_broken", plate(entry(0, BROKEN, 1, *corner)), quads(126, 4)
    yield "130_quads_at_an_added", plate(entry(0, BROKEN, 1, *corner) + entry(0, ADDED, 1, *corner)), refused(14, 1)
    # replaced by air it asks for what it asks for broken; by a cube also for its own four sides, and for as many as are open
    yield "126_quads_replaced_by_air", plate(replaced(0, 1, 0, *corner)), quads(126, 4)
    yield "130_quads_at_a_replaced", plate(hide + draw + replaced(0, 1, 1, *corner)), refused(14, 2)
    yield "129_quads_at_a_replaced", plate(sides(9, 1, top=HIDE) + replaced(0, 1, 1, *corner)), refused(14, 1)
    yield "128_quads_at_a_replaced", plate(sides(9, 1, top=HIDE, bottom=HIDE) + replaced(0, 1, 1, *corner)), quads(126)
    to_air = replaced(5, 1, 0, *around(right=1, left=1, back=1, forward=1))
    yield "130_quads_at_a_replaced_by_air", plate(to_air), refused(14, 0)
    yield "129_quads_at_a_replaced_by_air", plate(sides(9, 1, top=HIDE) + to_air), refused(14, 1)
    yield "128_quads_at_a_replaced_by_air", plate(sides(9, 1, top=HIDE, bottom=HIDE) + to_air), quads(128, 4)
    # what was there hid nothing, so that the first half asks for nothing
    yield "128_quads_replaced_that_hid_nothing", plate(replaced(0, 0, 1, *corner)), quads(128)
    yield "130_quads_replaced_that_hid_nothing", plate(replaced(0, 0, 1, *NONE_GIVEN)), refused(14, 0)


def in_order():
    """Two refusals that apply: the one that is tried first is told."""
    infinite = dict(w10=INF)
    face_6 = textured(0, 0, e1=(6, 0, 0))
    tile_4096 = textured(1, 63, e0=(0, 4096, 0))
    entry_4 = entry(0, 4, 0, *NONE_GIVEN)
    yield "flag_2_before_nan", row(1, 1, w19=2, **infinite), BAD_FILE
    yield "number_before_atlas", row(1, 1, w16=0, **infinite), refused(4)
    yield "atlas_before_face", row(1, 1, types=(face_6, CUBE), w16=0), refused(5)
    yield "tile_before_face", row(1, 1, types=(NULL, textured(1, 63, e0=(6, 0, 0), e5=(5, 4096, 0)))), refused(5)
    yield "type_0_before_type_1", row(1, 1, types=(face_6, tile_4096)), refused(7, 1)
    yield "face_before_kind", row(1, 1, types=(type_bytes(3, 0), textured(1, 63, e1=(6, 0, 0)))), refused(7, 1)
    yield "kind_before_cube", row(1, 1, types=(CUBE, type_bytes(3, 0)), w10=0), refused(3, 1)
    yield "cube_before_cell", row(1, 2, w10=0), refused(6, 1)
    yield "cell_before_room", grid_file(PLATE, [1] * 5 + [2] + [1] * 41 + [3], types=(NULL, CUBE, OPEN)), refused(8, 47)
    yield "mesh_before_entries", row(*[1] * 22, w9=0, log=entry_4), refused(14)
    yield "entries_before_room", plate(sides(9, 1, right=DRAW) + entry_4), refused(13, 1)


def described(text):
    """The file of a description, as chunkfile.py reads it."""
    chunk = chunk_in(text)
    parts = [("type", one.bytes()) for one in chunk.types] + [("grid", chunk.grid)] + [("entry", one) for one in chunk.log]
    return Bytes(b"").followed(*parts, ("trailer", chunk.bytes()[-TRAILER_BYTES:]))


def honest(seed):
    """Cubes and slabs put into a chunk, replaced and broken again, sixty times, each entry true of the ground."""
    rng, standing = random.Random(seed), set()
    lines = ["size 3 2 4", "outer bottom", "colour 0.5 1", "type . null covers none", "type r cube covers all", "type s cube covers bottom",
             "type t cube covers top left back"] + ["layer", "...", "...", "...", "..."] * 2
    for _ in range(60):
        place = "%d %d %d" % (rng.randrange(3), rng.randrange(2), rng.randrange(4))
        key = "replace" if rng.randrange(3) == 0 else "break" if place in standing else "add"
        lines.append("break " + place if key == "break" else "%s %s %s" % (key, rng.choice("rst"), place))
        standing = standing - {place} if key == "break" else standing | {place}
    return described("\n".join(lines).encode())


def foolish(seed):
    """Sixty entries of all four changes, their neighbours, sides and former types drawn by lot."""
    rng, log = random.Random(seed), b""
    types = NULL, CUBE, type_bytes(1, 38), type_bytes(1, 0), type_bytes(0, 21), CUSTOM
    for _ in range(60):
        change = rng.choice((BROKEN, ADDED, SIDES, REPLACED))
        given = [rng.choice((KEEP, HIDE, DRAW) if change == SIDES else (OUTSIDE, rng.randrange(6))) for _ in range(6)]
        log += entry(rng.randrange(12), change, rng.randrange(6), *given, former=rng.randrange(6) if change == REPLACED else None)
    return grid_file((3, 2, 2), [rng.randrange(6) for _ in range(12)], log, types=types)


def answered():
    """More answers: kinds, sides, sizes, numbers, logs."""
    yield "no_cubes", row(0, 0, 0), quads(0, 0)
    yield "custom_is_not_drawn", row(2, 1, 2, types=(NULL, CUBE, CUSTOM)), quads(4, 0)
    yield "custom_that_covers_nothing", row(1, 2, 1, types=(NULL, CUBE, type_bytes(2, 0))), quads(12, 0)
    for face, hidden in enumerate((8, 8, 12, 12, 6, 6)):
        yield "outer_face_%d" % face, grid_file((2, 3, 4), [1] * 24, w8=1 << face), quads(52 - hidden, 0)
        yield "covers_face_%d" % face, grid_file((2, 2, 2), [1] * 8, types=(NULL, type_bytes(1, 1 << face))), quads(48 - 4, 0)
    yield "odd_numbers", row(1, 1, w10=0x3DCCCCCD, w11=0x40400000, w13=0x3F000000, w16=3, w17=5, w18=0x3DCCCCCD, w19=1, w20=ONE), quads(10, 0)
    folder = os.path.join(ROOT, "examples")
    yield "dug", described(read_input(os.path.join(folder, "dug.chunk"))), read_input(os.path.join(folder, "dug.stdout")).decode()
    for seed in (1, 2):
        yield "honest_log_%d" % seed, honest(seed), "quads "
        yield "foolish_log_%d" % seed, foolish(seed), "quads "


def sections():
    yield "worked by hand, most of them in document 01", worked_by_hand()
    yield "BAD_FILE, as crates/workfile_run has it", ((name, file, BAD_FILE) for name, file in named_bad_files())
    yield "at the file's limits, and parts that do not adjoin", at_the_limits()
    yield "3 BAD_TYPES", bad_types()
    yield "4 BAD_NUMBER", bad_numbers()
    yield "5 BAD_ATLAS", bad_atlases()
    yield "6 NOT_A_CUBE", not_cubes()
    yield "7 BAD_FACE", bad_faces()
    yield "8 BAD_CELL", bad_cells()
    yield "13 BAD_ENTRY", bad_entries()
    yield "14 NO_ROOM: the room is 128 quads", no_room()
    yield "two refusals that apply", in_order()
    yield "answers", answered()


# ---- the commands


def file_text(key, name, file, told):
    return "\n".join(["%s %s" % (key, name), *parts_text(file.parts), *("> " + line for line in told.splitlines())]) + "\n\n"


def made():
    """The set's text. A file that stands there already under another name is left out."""
    text, files, reached = HEAD, {}, set()
    for title, cases in sections():
        text += "\n# ---- %s\n\n" % title
        for name, file, start in cases:
            if file.text in files.values():
                continue
            told = expected(file.text)
            sure(told.startswith(start), name, told, start)
            sure(name not in files, name)
            files[name] = file.text
            reached.add(int(told.split()[1]) if told.startswith("refused") else 0)
            text += file_text("file", name, file, told)
    sure(reached == REACHED | {0}, reached)
    text += "\n# ---- wrong on purpose: the last quad is at another face\n\n"
    text += file_text("wrong", "example_told_wrong", File(), WORKED[:-2] + "2\n")
    sure({one.name: one.data for one in read_set(text) if not one.is_wrong} == files)
    return text


def stored():
    return read_set(read_input(os.path.join(ROOT, SET)).decode())


def test(program):
    files, right, told = stored(), 0, 0
    for one in files:
        answer = answer_of(program, one.data)
        if one.is_wrong:
            told += answer != one.told
        elif answer == one.told:
            right += 1
        else:
            print("%s: printed\n%sbut it must be\n%s" % (one.name, answer, one.told))
    count = sum(not one.is_wrong for one in files)
    print("%d work files, %d right, %d wrong on purpose told" % (count, right, told))
    return 0 < count == right and told == 1


def main():
    parser = argparse.ArgumentParser(description=__doc__, formatter_class=argparse.RawDescriptionHelpFormatter)
    commands = parser.add_subparsers(dest="command", required=True)
    commands.add_parser("make")
    commands.add_parser("test").add_argument("--program", default=os.path.join(ROOT, "tools/meshchunk"))
    commands.add_parser("file").add_argument("name")
    given = parser.parse_args()
    if given.command == "make":
        with open(SET, "w") as out:
            out.write(made())
    elif given.command == "test":
        sys.exit(0 if test(given.program) else 1)
    else:
        data = next((one.data for one in stored() if one.name == given.name), None)
        if data is None:
            sys.exit("workset: no file of that name")
        sys.stdout.buffer.write(data)


if __name__ == "__main__":
    main()
