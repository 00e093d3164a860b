#!/usr/bin/env python3
"""Writes a set that the program trials_run reads, crates/trials_run/data/logs, and what it must print for it.

Every expected word comes from trials.py, from the sentences of document 01, of Sides from 02's Q-6, of Replaced from its Q-7; where 01 itself works
a case, its figures stand here, held by `sure`, and so do those of Sides and Replaced entries that were worked by hand.
Run it at the repository's root; stored.py says where it writes.
"""
import random

from cube_vectors import INF, NAN, cube, f, shape
from entries import ADDED, BROKEN, DRAW, ENTRY_BYTES, HIDE, KEEP, OUTSIDE, REPLACED, SIDES, entries_of, entry, entry_of, replaced
from mesh_vectors import some_types
from plain_mesh import EACH, JUNK, LISTS, SLOTS, UNIT, attributes, call, counted, faces, mesh, words_for
from sure import sure
from trials import CHECK, CULLING, NAIVE, NONE, UPDATE, UPDATE_ITSELF, Trials, beside, cell_count, covers, spare

trials = Trials()
add = trials.add
ALONE = (OUTSIDE,) * 6


def base(m, more=12):
    """Keeps the fresh mesh of a scene, with room for so many quads more and a few words past that; answers its count."""
    trials.base(m, spare(mesh(m), *[n + past for n, past in zip(words_for(m, more), (5, 9, 3, 7, 1, 0))], 7))
    return len(faces(m))


def fit(m, quads):
    """Lent lengths for exactly so many quads."""
    return dict(zip(LISTS[:SLOTS], words_for(m, quads)))


def by(face, code):
    """Neighbours of which one is given."""
    return ALONE[:face] + (code,) + ALONE[face + 1:]


def sides(hidden=(), drawn=()):
    """What a Sides entry says of the six: these are hidden, those drawn, the others kept."""
    return tuple(HIDE if face in hidden else DRAW if face in drawn else KEEP for face in range(6))


def around(m, grid, cell):
    """The neighbours as the grid has them."""
    cells = [beside(m, cell, face) for face in range(6)]
    return tuple(OUTSIDE if c is None else grid[c] for c in cells)


def keys():
    """Cell and face of each quad that the last trial left."""
    links = trials.image[trials.at("links"):]
    return [(word & 0x1FFFFFFF, 5 - (word >> 29)) for word in links[:trials.told[2]]]


def check_goes_on(grid):
    """The check of what the last trial left, for another grid."""
    return add(CHECK, trials.told[2], goes_on=True, before=[(trials.at("grid", c), code) for c, code in enumerate(grid)])


# ---- the worked example, and grid 1,1 with its first cube taken and put back
PAIR = call(grid=[1, 1])
BREAK, BUILD = entry(0, BROKEN, 1, *by(2, 1)), entry(0, ADDED, 1, *by(2, 1))
sure(base(PAIR) == 10)
sure(add(UPDATE, 10, BREAK) == (0, 0, 6, 14) and keys() == [(1, face) for face in (5, 4, 0, 1, 2, 3)])
sure(check_goes_on([0, 1]) == (0, 0, 0, 0))
sure(add(UPDATE, 10, BREAK + BUILD, **fit(PAIR, 10)) == (14, 1, 6, 14))
sure(add(UPDATE, 10, BREAK + BUILD, **fit(PAIR, 11))[:3] == (0, 0, 10))
sure(check_goes_on([1, 1]) == (0, 0, 0, 0))
sure(add(UPDATE, 10, BREAK + BUILD)[:3] == (0, 0, 10) and add(UPDATE, 10) == (0, 0, 10, 0))
TINTED_CUBE = cube(shape(coloured=True, colour=NAN, alpha=0xFFC12345))
TINTED = call(grid=[1, 1], coloured=True, cubes=TINTED_CUBE * 2)
for m in (PAIR, TINTED):  # the room is what the shortest list holds, each in its turn
    base(m)
    for k in counted(m):
        for length in (10 * EACH[k], 11 * EACH[k] - 1, 11 * EACH[k]):
            sure(add(UPDATE, 10, BREAK + BUILD, **{LISTS[k]: length})[:2] == ((14, 1) if length < 11 * EACH[k] else (0, 0)))
sure(add(UPDATE, 10, entry(0, SIDES, 1, *sides([0, 4], [2]))) == (0, 0, 9, 6))  # with colour
base(PAIR)
for length in (0, 1, 6, 7):  # without colour any list of colours will do
    sure(add(UPDATE, 10, BREAK + BUILD, colours=length)[:3] == (0, 0, 10))

# ---- sides hidden and drawn by one entry: first those hidden go, in face order, then those drawn come, in face order
def as_two(one):
    """The same by two entries: what is hidden, then what is drawn; of a Replaced Broken, then Added."""
    cell, change, code, given, former, _ = entry_of(one)
    if change == REPLACED:
        return entry(cell, BROKEN, former, *given) + entry(cell, ADDED, code, *given)
    hidden, drawn = ([what if what == told else KEEP for what in given] for told in (HIDE, DRAW))
    return entry(cell, SIDES, code, *hidden) + entry(cell, SIDES, code, *drawn)


def by_one_or_two(count, one, mode=UPDATE, **lent):
    """One entry. As two, in a trial that is not kept, the answer and all words are the same. Answers quads and moved."""
    told, left = add(mode, count, one, **lent), trials.image
    trials.only_made(told, mode, count, as_two(one), **lent)
    sure(told[0] == 0 and trials.image == left)
    return told[2:]


FRESH = [(cell, face) for cell, _, face in faces(PAIR)]
SWAPPED = [(1, 5), (0, 1), (0, 3), (0, 5), (1, 0), (1, 1), (1, 2), (1, 4)]  # the last quad takes Top's place, then Back's is closed up
sure(by_one_or_two(10, entry(0, SIDES, 1, *sides([0, 4], [2]))) == (9, 6) and keys() == SWAPPED + [(0, 2)])
sure(by_one_or_two(10, entry(0, SIDES, 0, *sides([0, 4], [2]))) == (8, 6) and keys() == SWAPPED)  # a Null is not drawn
TOP_IS_THERE, ALL_AS_TOLD = entry(1, SIDES, 1, *sides([1, 4], [0, 3])), entry(0, SIDES, 1, *sides([2], [0, 1, 3, 4, 5]))
sure(by_one_or_two(10, TOP_IS_THERE) == (9, 4) and keys() == FRESH[:6] + [(1, 2), (1, 5), (1, 3)])
sure(by_one_or_two(10, ALL_AS_TOLD) == (10, 0) and keys() == FRESH)  # what is hidden is not there, what is drawn is
sure(add(UPDATE, 10, entry(0, SIDES, 1, *sides())) == (0, 0, 10, 0) and trials.image == trials.kept)
sure(add(UPDATE, 10, entry(1, SIDES, 1, *sides((), range(6)))) == (0, 0, 11, 0) and keys() == FRESH + [(1, 3)])
sure(add(UPDATE, 10, entry(0, SIDES, 1, *sides(range(6)))) == (0, 0, 5, 14) and keys() == [(1, face) for face in (5, 4, 0, 1, 2)])
sure(add(UPDATE, 5, entry(0, SIDES, 1, *sides((), range(6))), goes_on=True) == (0, 0, 11, 0))
sure(keys() == [(1, face) for face in (5, 4, 0, 1, 2)] + [(0, face) for face in range(6)])
told, left = add(UPDATE, 10, entry(0, SIDES, 1, *sides([5, 3], [2]))), trials.image
sure(add(UPDATE_ITSELF, 10, entry(0, SIDES, 1, *sides([5, 3], [2]))) == told and trials.image == left)

ROW = call(grid=[1, 1, 1])  # the one amid has no Right and no Left
sure(base(ROW, 2) == 14)
for given, quads in ((sides([0], [2, 3]), 15), (sides([2], [3]), 15), (sides([0], [1, 2, 3]), 15), (sides([0, 1, 5], [2, 3, 4]), 14),
                     (sides([2, 4], [3, 1]), 14), (sides([2, 3], [0, 1, 4, 5]), 14), (sides([], [2, 3]), 16)):
    sure(by_one_or_two(14, entry(1, SIDES, 1, *given), **fit(ROW, quads))[0] == len(keys()) <= quads)
    if quads > 14:
        sure(add(UPDATE, 14, entry(1, SIDES, 1, *given), **fit(ROW, quads - 1)) == (14, 0, 14, 0) and trials.image == trials.kept)
    sure(add(UPDATE, 14, entry(1, SIDES, 0, *given), **fit(ROW, 14))[:2] == (0, 0))  # a Null asks for no room
FOLLOWING = [entry(2, SIDES, 1, *sides([2, 5])), entry(1, SIDES, 1, *sides([1], [2, 3])), entry(2, SIDES, 1, *sides([4], [2, 3, 5]))]
sure(add(UPDATE, 14, b"".join(FOLLOWING), **fit(ROW, 14)) == (14, 2, 13, 7))  # 12, 13, and 15 are asked for
sure(keys() == [(0, 0), (0, 1), (0, 3), (0, 4), (0, 5), (1, 0), (1, 4), (1, 5), (2, 0), (2, 1), (2, 4), (1, 2), (1, 3)])
sure(add(UPDATE, 14, b"".join(FOLLOWING), **fit(ROW, 15))[:3] == (0, 0, 15))

# ---- a voxel replaced: what Broken with the former type and Added with the new one do, all of it or nothing
GRAVEL = cube(shape(atlas=[2, 2]))
CLAY = call(grid=[1, 1], kinds=[0, 1, 1, 2], covers=[0, 63, 63, 63], cubes=JUNK + UNIT + GRAVEL + JUNK)
DUG = [(1, face) for face in (5, 4, 0, 1, 2, 3)]  # what the worked example leaves
FILLED = DUG[:5] + [(0, face) for face in (0, 1, 3, 4, 5)]
TO_GRAVEL, OVERFULL = replaced(0, 1, 2, *by(2, 1)), replaced(1, 1, 2, *ALONE)
sure(base(CLAY, 3) == 10)
for mode in (UPDATE, UPDATE_ITSELF):
    # as the worked example, moved 14; then five come, and of eleven the sixth goes: the five after it close up
    sure(by_one_or_two(10, TO_GRAVEL, mode, **fit(CLAY, 11)) == (10, 19) and keys() == FILLED and check_goes_on([2, 1])[0] == 0)
    sure(add(mode, 10, TO_GRAVEL, **fit(CLAY, 10)) == (14, 0, 10, 0) and trials.image == trials.kept)
    trials.only_made((14, 1, 6, 14), mode, 10, as_two(TO_GRAVEL), **fit(CLAY, 10))  # the pair does its first half
    for code in (0, 3):  # no cube: the second half does nothing, and asks for no room
        sure(by_one_or_two(10, replaced(0, 1, code, *by(2, 1)), mode, **fit(CLAY, 10)) == (6, 14) and keys() == DUG)
    for former, bares in ((0, False), (3, True)):  # air, and what is no cube but covers
        sure(by_one_or_two(10, replaced(0, former, 2, *by(2, 1)), mode) == (10, 19 if bares else 14) and keys() == FILLED)
        sure(by_one_or_two(10, replaced(1, former, 0, *by(3, 1)), mode) == (6 if bares else 5, 10))
    # eleven quads, and twelve are asked for: what is done stays, and nothing of the last is done
    log = TO_GRAVEL + entry(0, SIDES, 2, *sides((), [2])) + OVERFULL
    sure(add(mode, 10, log, **fit(CLAY, 11)) == (14, 2, 11, 19) and keys() == FILLED + [(0, 2)])
    sure(add(mode, 10, log, **fit(CLAY, 12))[:3] == (0, 0, 11))

# ---- one quad removed, from every place of meshes of 6 to 14: Q - q from 1 to 14
ROWS = [call(grid=[1] * n) for n in (1, 2, 3)] + [TINTED]
for m in ROWS:
    count = base(m, 2)
    for q, (cell, _, face) in enumerate(faces(m)):
        sure(add(UPDATE, count, entry(cell, SIDES, 1, *sides([face]))) == (0, 0, count - 1, count - 1 - q if count - q <= 6 else 1))
base(ROWS[1], 2)
sure(add(UPDATE, 10, entry(0, SIDES, 0, *sides([5])))[3] == 5)  # quad 4
sure(add(UPDATE, 10, entry(0, SIDES, 0, *sides([4])))[3] == 1 and keys()[3] == (1, 5))  # quad 3
for q in range(10):  # bits of no number go with their quad
    places = [trials.at(LISTS[k], EACH[k] * q + i) for k in attributes(PAIR) for i in range(EACH[k])]
    add(UPDATE, 10, entry(0, SIDES, 1, *sides([3])) + BREAK, before=[(at, 0x7F800001 + 977 * i) for i, at in enumerate(places)])

# ---- 01's cases 7, 8 and 9
for covering, quads, fresh in ((2, 11, 10), (1, 10, 11)):
    m = call(dims=[1, 2, 1], grid=[1, 0], kinds=[0, 1, 1], covers=[0, 63, covering], cubes=JUNK + UNIT * 2)
    base(m)
    sure(add(UPDATE, 6, entry(1, ADDED, 2, *by(1, 1)))[2] == quads)
    sure(check_goes_on([1, 2])[0] == 15)
    sure(add(UPDATE_ITSELF, 6, entry(1, ADDED, 2, *by(1, 1)))[2] == fresh)
    sure(check_goes_on([1, 2])[0] == 0)
    sure(add(CULLING, 0, before=[(trials.at("grid", 1), 2)])[2] == fresh and add(NAIVE, 0, before=[(trials.at("grid", 1), 2)])[2] == 12)
base(PAIR)
for cell in (0, 1):
    sure(add(UPDATE, 10, entry(cell, ADDED, 0, 1, 1, 1, 1, 1, 1)) == (0, 0, 10, 0))

# ---- 3x3x3: at each corner and edge cubes broken, added and replaced, and sides told; every cell broken and built again
BOX = call(dims=[3, 3, 3], grid=[1] * 27, kinds=[0, 1, 1], covers=[0, 63, 0], cubes=JUNK + UNIT + GRAVEL)
sure(base(BOX) == 54)
RIM = [c for c in range(27) if sum(k in (0, 2) for k in (c % 3, c // 3 % 3, c // 9)) >= 2]
ALL = (1,) * 6  # neighbours past the edge, too
sure(len(RIM) == 20)
ONCE = [(cell, 2 * (k % 3) + side) for k, cell in enumerate(RIM) for side in (0, 1)]
sure({(face, beside(BOX, cell, face) is None) for cell, face in ONCE} == {(face, is_edge) for face in range(6) for is_edge in (False, True)})
for cell in RIM:
    sure(add(UPDATE, 54, entry(cell, BROKEN, 1, *ALL))[0] == 0)
    by_one_or_two(54, replaced(cell, 1, 2, *ALL))
    sure(by_one_or_two(54, replaced(cell, 1, 1, *around(BOX, BOX["grid"], cell)))[0] == 54 and check_goes_on(BOX["grid"])[0] == 0)
for cell, face in ONCE:
    for one in (entry(cell, BROKEN, 1, *by(face, 1)), entry(cell, ADDED, 1, *by(face, 1)), entry(cell, SIDES, 1, *sides([face], [face ^ 1]))):
        sure(add(UPDATE, 54, one)[0] == 0)
for cell in range(27):
    number, _, quads, _ = add(UPDATE, 54, entry(cell, BROKEN, 1, *around(BOX, BOX["grid"], cell)))
    sure(number == 0)
    sure(check_goes_on([0 if c == cell else 1 for c in range(27)])[0] == 0)
    sure(add(UPDATE, quads, entry(cell, ADDED, 1, *around(BOX, BOX["grid"], cell)), goes_on=True)[:3] == (0, 0, 54))
    sure(check_goes_on([1] * 27)[0] == 0)

CORE = entry(13, BROKEN, 1, 1, 1, 1, 1, 1, 1)  # nothing goes, six come
CUT = [entry(c, SIDES, 1, *sides([1])) for c in (0, 1)]
for quads in range(54, 61):
    full = quads < 60
    sure(add(UPDATE, 54, CORE, **fit(BOX, quads)) == ((14, 0, 54, 0) if full else (0, 0, 60, 0)))
    sure(add(UPDATE, 54, CORE + CUT[0], **fit(BOX, quads))[:2] == ((14, 0) if full else (0, 0)))
    sure(add(UPDATE, 54, CUT[0] + CORE + CUT[1], **fit(BOX, quads))[:2] == ((14, 1) if quads < 59 else (0, 0)))
    sure(add(UPDATE, 54, CUT[0] + CUT[1] + CORE, **fit(BOX, quads))[:2] == ((14, 2) if quads < 58 else (0, 0)))

# The six sides of the one amid are hidden, so nothing of it goes. What the first half asks for past 54, and what the second asks for past that:
NEEDS = {
    replaced(13, 1, 0, *ALL): (6, 0),  # what comes is no cube
    replaced(13, 1, 1, *ALL): (6, 0),  # a cube with no open side
    replaced(13, 1, 1, *by(4, 1)): (1, 5),
    replaced(13, 1, 2, 1, 1, 1, OUTSIDE, 1, 1): (5, 1),
    replaced(13, 1, 2, 1, 2, 2, OUTSIDE, 1, 1): (5, 3),
    replaced(13, 2, 1, *ALL[:5], 0): (0, 1),  # what went hid nothing
    replaced(13, 2, 1, *ALONE): (0, 6),
}
ONE_IS_THERE = entry(4, SIDES, 1, *sides((), [0])) + replaced(13, 1, 0, *ALL)  # the Top beneath it
for mode in (UPDATE, UPDATE_ITSELF):
    for one, (first, second) in NEEDS.items():
        by_one_or_two(54, one, mode, **fit(BOX, 54 + first + second))
        for quads in sorted({54 + first - 1, 54 + first, 54 + first + second - 1} - {53, 54 + first + second}):
            sure(add(mode, 54, one, **fit(BOX, quads)) == (14, 0, 54, 0) and trials.image == trials.kept)
            pair_stops_at = 0 if quads < 54 + first else 1
            trials.only_made((14, pair_stops_at, 54 + pair_stops_at * first, 0), mode, 54, as_two(one), **fit(BOX, quads))
    sure(add(mode, 54, ONE_IS_THERE, **fit(BOX, 60)) == (0, 0, 60, 0) and add(mode, 54, ONE_IS_THERE, **fit(BOX, 59)) == (14, 1, 55, 0))

# ---- the most that an entry moves: twelve go, each the sixth from the end, so that five close up
EMPTY = call(dims=[3, 3, 3], grid=[0] * 27)
GOING = [(13, face) for face in range(6)] + [(beside(EMPTY, 13, face), face ^ 1) for face in range(6)]
DRAWN = b"".join(entry(cell, SIDES, 1, *sides((), [face])) for cell, face in GOING[::-1] + [(0, face) for face in range(5)])
sure(base(EMPTY, 18) == 0)
for one in (replaced(13, 0, 1, *ALL), entry(13, ADDED, 1, *ALL)):
    sure(add(UPDATE, 0, DRAWN + one) == (0, 0, 5, 60) and keys() == [(0, face) for face in range(5)])

# ---- types of every kind: logs of one entry that fit no grid, and of several
KINDS = dict(kinds=[0, 1, 1, 0, 2, 1, 1], covers=[0, 63, 21, 63, 42, 0, 0b001100], cubes=JUNK + UNIT + GRAVEL + JUNK * 2 + GRAVEL + UNIT)
ODD = call(dims=[2, 2, 1], grid=[1, 0, 2, 5], **KINDS)
count = base(ODD, 8)
for change in (BROKEN, ADDED):
    for code in range(7):
        for turn in (0, 2):  # neighbours that cover none, all, some sides, and the others
            add(UPDATE, count, entry(0, change, code, *[(0, 1, 2, 4)[(code + turn + face) % 4] for face in range(6)]))
    for cell in range(4):
        add(UPDATE, count, entry(cell, change, 1, *ALONE))  # as if the cell were alone
        add(UPDATE, count, entry(cell, change, 5, 5, 5, 5, 5, 5, 5))
        add(UPDATE, count, entry(cell, change, 1, *ALONE) * 3)  # over a cube; of nothing
        add(UPDATE, count, entry(cell, change, 1, 1, OUTSIDE, 1, OUTSIDE, 1, OUTSIDE) + entry(cell, change, 2, OUTSIDE, 1, OUTSIDE, 1, OUTSIDE, 1))
for former in range(7):
    for code in range(7):
        given = [(former + 2 * code + face) % 7 for face in range(5)] + [OUTSIDE]
        by_one_or_two(count, replaced((former + code) % 4, former, code, *given), (UPDATE, UPDATE_ITSELF)[former % 2])
EVEN, UNEVEN, EVERY = (0, 2, 4), (1, 3, 5), range(6)
for code in range(7):
    is_cube = KINDS["kinds"][code] == 1  # cell 0 has all six, cell 1 none
    sure(add(UPDATE, count, entry(0, SIDES, code, *sides(EVERY)))[2] == count - 6)
    sure(add(UPDATE, count, entry(1, SIDES, code, *sides((), EVERY)))[2] == count + 6 * is_cube)
    sure(add(UPDATE, count, entry(0, SIDES, code, *sides(EVEN)) + entry(0, SIDES, code, *sides(UNEVEN, EVEN)))[2] == count - 6 + 3 * is_cube)
for cell in range(4):
    sure(add(UPDATE, count, entry(cell, SIDES, 1, *sides())) == (0, 0, count, 0))
    for given in (sides(EVERY), sides((), EVERY)):
        add(UPDATE, count, entry(cell, SIDES, 5, *given))
        add(UPDATE, count, entry(cell, SIDES, 1, *given) * 3)  # of nothing; faces already there
    for first, then in ((sides(EVEN), sides(UNEVEN)), (sides((), EVEN), sides((), UNEVEN)), (sides(EVEN, UNEVEN), sides(UNEVEN, EVEN))):
        add(UPDATE, count, entry(cell, SIDES, 1, *first) + entry(cell, SIDES, 2, *then))
# a neighbour is no word on a side, nor the reverse
sure(add(UPDATE, count, entry(0, BROKEN, 1, 3, 4, 5, 6, 3, OUTSIDE) + entry(1, ADDED, 6, 6, OUTSIDE, 5, 4, 3, 3))[0] == 0)
for change, number in ((BROKEN, 0), (ADDED, 0), (REPLACED, 0), (SIDES, 13)):
    for byte in (3, 6, OUTSIDE):
        sure(add(UPDATE, count, entry(2, change, 1, 0, 1, 2, 1, byte, 0, former=2 if change == REPLACED else None))[0] == number)


# ---- logs at random, and each at every room from the count on
def is_alike(m, code):
    """Whether a type covers opposite sides alike."""
    return all(covers(m, code, k) == covers(m, code, k + 1) for k in (0, 2, 4))


def any_cube(m, code):
    return True


def some_entry(rng, m):
    """An entry in range."""
    types, change = len(m["kinds"]), rng.choice((BROKEN, ADDED, SIDES, REPLACED))
    given = [rng.choice((KEEP, HIDE, DRAW, DRAW) if change == SIDES else (OUTSIDE, rng.randrange(types))) for _ in range(6)]
    return entry(rng.randrange(cell_count(m)), change, rng.randrange(types), *given, former=rng.randrange(types) if change == REPLACED else None)


def honest_entry(rng, m, grid, may_add):
    """One of demand 3's entries, true of a grid, which is kept. Without an empty type in the table it is a Replaced."""
    types, cell = range(len(m["kinds"])), rng.randrange(cell_count(m))
    cubes = [code for code in types if m["kinds"][code] == 1 and may_add(m, code)]
    empty = [code for code in types if m["kinds"][code] == 0 and m["covers"][code] == 0]
    former, given = grid[cell], around(m, grid, cell)
    change = rng.choice((ADDED if former in empty else BROKEN, REPLACED)) if empty else REPLACED
    grid[cell] = empty[0] if change == BROKEN else rng.choice(cubes)
    return entry(cell, change, former if change == BROKEN else grid[cell], *given, former=former if change == REPLACED else None)


def some_log(rng, m, length, honest=None, may_add=is_alike):
    """Entries in range; with `honest`, a grid that is kept, demand 3's entries on it."""
    return b"".join(some_entry(rng, m) if honest is None else honest_entry(rng, m, honest, may_add) for _ in range(length))


rng = random.Random(12)
SMALL = call(dims=[2, 1, 2], grid=[1, 0, 0, 2], **KINDS)
count = base(SMALL, 30)
places = set()
for turn in range(12):
    log = some_log(rng, SMALL, 5)
    for quads in range(count, 24):
        told = add(UPDATE, count, log, **fit(SMALL, quads))
        if told[0] == 14:
            places.add((told[1], entry_of(entries_of(log)[told[1]]).change))
        else:
            break
sure({place for place, _ in places} == {0, 1, 2, 3, 4} and {change for _, change in places} >= {ADDED, SIDES, REPLACED}, places)

for turn in range(10):
    dims = [rng.choice((1, 2, 3)) for _ in range(3)]
    m = call(dims=dims, grid=[rng.randint(0, 6) for _ in range(dims[0] * dims[1] * dims[2])], **some_types(turn % 2 == 1))
    count = base(m, 20)
    for length in (3, 5, 8, 13):
        sure(add(UPDATE, count, some_log(rng, m, length), **(fit(m, count + 3) if length == 3 else {}))[0] in (0, 14))
        check_goes_on(m["grid"])

# ---- long honest logs, in one call and in many, then the check
for coloured in (False, True):
    cubes = [cube(shape(coloured=coloured, d=f(0.5, 1.1, 3), centre=f(0.1, 0.2, -0.3), colour=k, alpha=INF)) for k in range(4)]
    m = call(dims=[3, 2, 4], grid=[rng.choice((0, 1, 2, 3)) for _ in range(24)], kinds=[1, 0, 1, 1], covers=[63, 0, 0b110011, 0b000011],
             coloured=coloured, d=f(0.5, 1.1, 3), centre=f(0.1, 0.2, -0.3), cubes=sum(cubes, []))
    count = base(m, 60)
    for turn in range(2):
        grid = list(m["grid"])
        told = add(UPDATE, count, some_log(rng, m, 200, grid))
        sure(told[0] == 0 and check_goes_on(grid)[0] == 0)
    grid = list(m["grid"])
    told = add(UPDATE, count, some_log(rng, m, 1, grid))
    for turn in range(8):
        told = add(UPDATE, told[2], some_log(rng, m, 1 + 3 * turn, grid), goes_on=True)
        sure(told[0] == 0 and check_goes_on(grid)[0] == 0)
    grid[7] = 1 if grid[7] != 1 else 2
    sure(add(CHECK, told[2], goes_on=True, before=[(trials.at("grid", 7), grid[7])])[0] == 15)

# ---- no type of the table is empty: an honest log replaces, and what was there need be no cube
FULL = call(dims=[2, 2, 2], grid=[2, 0, 1, 3, 4, 2, 1, 3], kinds=[1, 1, 2, 0, 1], covers=[63, 0b001100, 0b100001, 63, 0b000010],
            cubes=UNIT + GRAVEL + JUNK * 2 + UNIT)
count = base(FULL, 24)
for mode, may_add in ((UPDATE, is_alike), (UPDATE_ITSELF, any_cube)):
    grid = list(FULL["grid"])
    log = some_log(rng, FULL, 25, grid, may_add)
    sure({entry_of(one).former for one in entries_of(log)} == {0, 1, 2, 3, 4})
    sure(add(mode, count, log)[0] == 0 and check_goes_on(grid)[0] == 0)

# ---- the side itself: slabs of one side and of several amid six cubes; any covers, honest and foolish; cubes alike, where both modes are one
def either_way(count, log, **lent):
    """The same log by both sides; answers the two answers, and whether they left the same words."""
    by_opposite, left = add(UPDATE, count, log, **lent), trials.image
    return by_opposite, add(UPDATE_ITSELF, count, log, **lent), left == trials.image


SLABS = dict(kinds=[0] + [1] * 9, covers=[0, 63] + [1 << face for face in range(6)] + [0b010110, 0b110011], cubes=JUNK + UNIT * 9)
CROSS = call(dims=[3, 3, 3], grid=[1 if c in (4, 10, 12, 14, 16, 22) else 0 for c in range(27)], **SLABS)
count = base(CROSS, 8)


def amid(code):
    """The ground with this type in its middle."""
    return [code if c == 13 else here for c, here in enumerate(CROSS["grid"])]


for code in range(2, 10):
    told, itself, same = either_way(count, entry(13, ADDED, code, 1, 1, 1, 1, 1, 1))
    sure(told[0] == itself[0] == 0 and same == is_alike(CROSS, code))
    sure(check_goes_on(amid(code))[0] == 0)
    other = 2 + (code + 1) % 8  # the slab is replaced by another one
    itself = add(UPDATE_ITSELF, itself[2], replaced(13, code, other, 1, 1, 1, 1, 1, 1), goes_on=True)
    sure(itself[0] == 0 and check_goes_on(amid(other))[0] == 0)
    for one in (entry(13, ADDED, code, *ALONE), replaced(13, 1, code, *ALONE)):  # room is counted before a facing quad goes
        told, itself, _ = either_way(count, one, **fit(CROSS, count + 5))
        sure(told == itself == (14, 0, count, 0))
    sure(either_way(count, replaced(13, 0, code, 1, 1, 1, 1, 1, 1), **fit(CROSS, count))[2] == is_alike(CROSS, code))
sure(either_way(count, entry(13, ADDED, 1, *ALONE), **fit(CROSS, count + 6))[2] and either_way(count, entry(10, BROKEN, 8, 1, 1, 1, 1, 1, 1))[2])
for turn in range(2):
    m = call(dims=[2, 3, 1], grid=[rng.randrange(10) for _ in range(6)], **SLABS)
    count = base(m, 20)
    for length in (2, 9):
        add(UPDATE_ITSELF, count, some_log(rng, m, length), **(fit(m, count + 2) if length == 9 else {}))
        check_goes_on(m["grid"])
    grid = list(m["grid"])
    sure(either_way(count, some_log(rng, m, 12, grid))[2] and check_goes_on(grid)[0] == 0)
    grid = list(m["grid"])
    told, itself, same = either_way(count, some_log(rng, m, 40, grid, any_cube))
    sure(told[0] == itself[0] == 0 and not same and check_goes_on(grid)[0] == 0)
    for _ in range(2):
        itself = add(UPDATE_ITSELF, itself[2], some_log(rng, m, 3, grid, any_cube), goes_on=True)
        sure(itself[0] == 0 and check_goes_on(grid)[0] == 0)

# ---- refusals: each, and each two; the log would change everything
base(PAIR, 3)
LOG = BREAK + BUILD + entry(1, SIDES, 1, *sides(range(6)))
BAD = entry(2, BROKEN, 1, *ALONE)
T, L, S = (trials.at(name) for name in ("triangles", "links", "slots"))
K, C, R = (trials.at(name) for name in ("kinds", "covers", "cubes"))
FAULTS = [
    (2, 0, [(3, 1025)], {}), (3, 1, [(C + 1, 64)], {}), (4, 0, [(9, NAN)], {}), (6, 1, [(R + 193, 0)], {}), (9, 0, [], dict(slots=11)),
    (10, 0, [], dict(links=9)), (11, 9, [(L + 9, 6 << 29)], {}), (12, 3, [(T + 23, 12)], {}), (13, 3, [], dict(log=LOG + BAD)),
    (14, 1, [], dict(triangles=60, log=LOG))]


def refused(*faults):
    before, more = [], {}
    for _, _, patches, other in faults:
        before += patches
        more = dict(other, **more)
    return add(UPDATE, 10, before=before, **dict(dict(log=LOG), **more))


sure(add(UPDATE, 10, LOG)[0] == 0)
for i, fault in enumerate(FAULTS):
    sure(refused(fault)[:2] == fault[:2], fault)
    for later in FAULTS[i + 1:]:
        sure(refused(fault, later)[:2] == fault[:2], (fault, later))
sure(refused(*FAULTS)[:2] == (2, 0))
sure(add(UPDATE, 10, LOG + BAD, **fit(PAIR, 10))[:2] == (13, 3))  # the entries are tried before the first is done


def refusal(number, place, count=10, log=LOG, **more):
    sure(add(UPDATE, count, log, **more) == (number, place, 0, 0), (number, place, more))


for k in range(3):
    for n in (0, 1025, NONE):
        refusal(2, 0, before=[(1 + k, n)])
    for word in (INF, NAN, NONE):
        refusal(4, 0, before=[(5 + k, word)])
        refusal(4, 0, before=[(8 + k, word)])
refusal(2, 0, before=[(1, 1024), (2, 1024), (3, 2)])
refusal(9, 0, before=[(1, 1024), (2, 32), (3, 32)])
for lent in (dict(kinds=0), dict(covers=1), dict(kinds=1), dict(cubes=383), dict(cubes=0), dict(kinds=0, covers=0, cubes=0)):
    refusal(3, 255, **lent)
refusal(3, 255, before=[(4, 1)])
refusal(3, 0, before=[(K, 3), (K + 1, 3)])
refusal(3, 0, before=[(C, 255)])
refusal(3, 1, before=[(K + 1, 200)])
refusal(6, 0, before=[(K, 1)])
refusal(6, 1, before=[(R + 192, INF)])
refusal(9, 0, slots=0)
refusal(9, 0, before=[(1, 4)])  # a grid of 24 slots
refusal(10, 0, count=14)
refusal(10, 0, count=NONE)
for lent in (dict(positions=119), dict(normals=119), dict(uvs=79), dict(triangles=59), dict(links=9), dict(normals=0), dict(links=0)):
    refusal(10, 0, **lent)
for q in range(10):
    link, slot = trials.kept[L + q], S + 6 * (q // 5) + [0, 1, 3, 4, 5, 0, 1, 2, 4, 5][q]
    for word in (6 << 29, 7 << 29 | 1, link & 7 << 29 | 2, link | 0x10000000, link ^ 1, NONE):
        refusal(11, q, before=[(L + q, word), (T + 6 * q, 9999)])
    for word in (NONE, 4 * q + 1, 4 * q + 4, 0x80000000 | 4 * q):
        refusal(11, q, before=[(slot, word)])
    for k in range(6):
        refusal(12, q, before=[(T + 6 * q + k, trials.kept[T + 6 * q + k] ^ (1 << 3 * k))])
    if q:
        refusal(11, q, before=[(L + q, trials.kept[L + q - 1])])
refusal(11, 10, before=[(S + 2, 40)])  # one more filled than quads
refusal(11, 10, before=[(S + 2, 0), (T, 9)])
refusal(11, 9, count=9)  # its slot is still filled
refusal(11, 9, before=[(L + 9, 7 << 29), (T, 9)])
sure(add(UPDATE, 9, LOG, before=[(S + 11, NONE)])[0] == 0 and add(UPDATE, 10, LOG, before=[(S + 12, 0), (S + 18, 4)])[0] == 0)
refusal(11, 10, count=11)  # what stands in place 10 is no link
refusal(11, 10, count=11, before=[(L + 10, 0), (T + 60, 0)])
# an entry is wrong in one thing: cell, change, type, one of the six, former type, a spare byte
BAD_ENTRIES = [entry(cell, change, 1, *ALONE) for cell in (2, NONE) for change in (BROKEN, ADDED)]
BAD_ENTRIES += [entry(2, SIDES, 1, *sides()), replaced(2, 1, 1, *ALONE)]
BAD_ENTRIES += [entry(0, change, 1, *given, former=former) for change in (4, 5, 255) for given in (ALONE, sides()) for former in (1, OUTSIDE)]
BAD_ENTRIES += [entry(0, change, code, *sides()) for change in (BROKEN, ADDED, SIDES) for code in (2, 255)]
BAD_ENTRIES += [replaced(0, 1, code, *ALONE) for code in (2, 255)]
BAD_ENTRIES += [replaced(0, former, 1, *ALONE) for former in (2, 3, 254, OUTSIDE)]
BAD_ENTRIES += [entry(0, BROKEN, code, *ALONE, former=former) for code, former in ((1, 0), (0, 1), (1, 2), (1, OUTSIDE))]
BAD_ENTRIES += [entry(0, change, 1, *sides(), former=former) for change in (ADDED, SIDES) for former in (0, 1, 2, 254)]
FORMERS = ((BROKEN, 1), (ADDED, OUTSIDE), (SIDES, OUTSIDE), (REPLACED, 1))
BAD_ENTRIES += [entry(0, change, 1, *sides(), former=former, spare=[byte * (i == k) for i in range(3)])
                for change, former in FORMERS for k, byte in enumerate((1, 128, 255))]
BAD_BYTES = [(change, code) for change in (BROKEN, ADDED, REPLACED) for code in (2, 254)] + [(SIDES, what) for what in (3, OUTSIDE)]
BAD_ENTRIES += [entry(0, change, 1, *[byte if i == k else 0 for i in range(6)], former=dict(FORMERS)[change])
                for change, byte in BAD_BYTES for k in range(6)]
for k, one in enumerate(BAD_ENTRIES):
    at = k % 4 * ENTRY_BYTES
    refusal(13, k % 4, log=LOG[:at] + one + LOG[at:] + one)
for change, former in FORMERS:  # right in all things, by both neighbours' bytes and sides'; the last type is one
    sure(add(UPDATE, 10, entry(0, change, 1, 0, 1, 0, 1, 1, 0, former=former))[0] == 0)
TAKEN = entry(0, SIDES, 1, DRAW, DRAW, HIDE, KEEP, DRAW, DRAW)
sure(add(UPDATE, 10, TAKEN + BREAK)[0] == 0)
refusal(13, 1, log=TAKEN + entry(0, BROKEN, 1, 0, 0, 0, 0, DRAW, 0) + TAKEN)
refusal(13, 2, log=TAKEN + BREAK + entry(0, ADDED, 1, DRAW, 0, 0, 0, 0, 0))
refusal(13, 1, log=TAKEN + replaced(0, 1, 1, 0, 0, DRAW, 0, 0, 0))
for n in range(1, ENTRY_BYTES):
    refusal(13, n % 4, log=LOG[:ENTRY_BYTES * (n % 4)] + BAD[:n])
refusal(13, 1, log=BREAK + BAD + b"\1")  # a bad field before the ragged end
refusal(13, 0, log=b"\0")
refusal(13, 3, log=LOG + b"\0", **fit(PAIR, 10))
for times in (1, 2, 3, 4):  # an entry of 12 bytes, as it was before: by its end, or by what is read of the second
    refusal(13, 0, log=BREAK[:12] * times)

# ---- fresh meshes by the same records
for outer in ((), (0,), (5, 3, 3)):
    sure(add(CULLING, 0, outer=outer)[0] == 0 and add(NAIVE, 0, outer=outer) == (0, 0, 12, 0))
sure(add(CULLING, 0, outer=(1, 6)) == (7, 1, 0, 0) and add(CULLING, 0, links=9) == (14, 0, 0, 0) and add(CULLING, 0, grid=1) == (2, 0, 0, 0))

# ---- one type: 2 is no type there, but a side that is drawn
ONE_TYPE = call(grid=[0, 0], kinds=[1], covers=[63], cubes=UNIT)
sure(base(ONE_TYPE, 2) == 10 and add(UPDATE, 10, entry(1, SIDES, 0, *sides([0], [3, 2]))) == (0, 0, 10, 4))
sure(add(UPDATE, 10, entry(1, SIDES, 0, *sides((), range(6))))[:3] == (0, 0, 11))
sure(add(UPDATE, 10, replaced(1, 0, 0, *by(3, 0)))[:3] == (0, 0, 10))
refusal(13, 0, log=replaced(1, 1, 0, *by(3, 0)))
for face in range(6):
    refusal(13, 1, log=entry(0, BROKEN, 0, *ALONE) + entry(1, SIDES, 0, *[3 if k == face else DRAW for k in range(6)]))
    for change in (BROKEN, ADDED):
        refusal(13, 0, log=entry(0, change, 0, *by(face, 1)))

if __name__ == "__main__":
    trials.write("logs")
