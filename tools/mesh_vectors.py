#!/usr/bin/env python3
"""Writes a set that the program trials_run reads, crates/trials_run/data/meshes, and what it must print for it.

Each case is a fresh mesh, into lists full of other words, and where it is made the check of it; with 255 types updates too. Every expected word comes
from plain_mesh.py and trials.py, from document 01's sentences; how many quads there are, or why there are none, stands here, held by `sure`.
Run it at the repository's root; stored.py says where it writes.
"""
import random

from cube_vectors import INF, MAX, NAN, NEG, ONE, bits, cube, f, shape
from entries import OUTSIDE, replaced
from plain_mesh import COLOURS, EACH, JUNK, LINKS, LISTS, NONE, PLENTY, POSITIONS, SLOTS, UNIT, UVS, call, counted, fit, mesh
from sure import sure
from trials import CHECK, CULLING, NAIVE, PARTS, UPDATE, Trials, spare

trials = Trials()


def base(cells, types, cubes, *room):
    """Keeps lists for so many cells and types, for cubes and for a mesh; each case patches its scene in."""
    trials.base(call(grid=[0] * cells, kinds=[0] * types, covers=[0] * types, cubes=cubes), spare(([],) * len(LISTS), *room))


def scene_patches(m):
    """What turns the base's scene and its first four lists into a call's."""
    sure(max(m["grid"] + m["kinds"] + m["covers"] + [0]) < 256)
    words = list(enumerate(m["dims"] + [int(m["coloured"])] + m["d"] + m["centre"], 1))
    for name in PARTS[:4]:
        words += enumerate(m[name], trials.at(name))
    return words


def lengths(m):
    """How much is lent of each list: all the room there is, where none is said."""
    room = trials.size[4:] if m["lent"] == PLENTY else m["lent"]
    return dict(zip(PARTS, [len(m[name]) for name in PARTS[:4]] + list(room)))


def add(m):
    """Adds a mesh and, if it is made, its check; answers number and place, or 0 and the quads."""
    more = dict(lengths(m), outer=m["outer"])
    number, place, quads, _ = trials.add(CULLING if m["culling"] else NAIVE, 0, before=scene_patches(m), **more)
    if number:
        return number, place
    checked = trials.add(CHECK, quads, goes_on=True, **more)
    sure(checked[0] in ((0,) if m["culling"] else (0, 15)))  # a naive mesh may have faces too many
    return 0, quads


def longer(m, *by):
    return dict(m, lent=[n + k for n, k in zip(m["lent"], by)])


def lent_of(m, k, length):
    """The scene with so much of one list, and more than enough of all others, of each another number."""
    lent = longer(m, 60, 55, 43, 39, 32, 7, 5)["lent"]
    return dict(m, lent=lent[:k] + [length] + lent[k + 1:])


# ---- the meshes worked by hand
base(1025, 3, [0] * 576, 660, 657, 447, 199, 330, 60, 6150)
PAIR = call(grid=[1, 1])
sure(add(call()) == (0, 6))
sure(add(PAIR) == (0, 10))
sure(add(call(grid=[1, 1], culling=False)) == (0, 12))
sure(add(call(grid=[1, 1], outer=[0])) == (0, 8))
sure(add(call(dims=[3, 3, 3], grid=[1] * 27)) == (0, 54))
sure(add(call(grid=[1, 0], covers=[63, 63])) == (0, 5))
for covers, quads in ((2, 10), (1, 11)):
    sure(add(call(dims=[1, 2, 1], grid=[1, 2], kinds=[0, 1, 1], covers=[0, 63, covers], cubes=JUNK + UNIT * 2)) == (0, quads))
SIXTH = call(dims=[2, 2, 2], grid=[0, 0, 0, 0, 0, 1, 0, 0])
sure(add(SIXTH) == (0, 6) and mesh(SIXTH)[LINKS][0] == 2684354565 and mesh(call())[LINKS][5] == 0 and mesh(call())[SLOTS][0] == 0)

# ---- room
sure(add(dict(PAIR, lent=fit(PAIR, 9))) == (14, 0) and add(dict(PAIR, lent=fit(PAIR, 10))) == (0, 10))
TINTED = call(grid=[1, 1], coloured=True, cubes=cube(shape(coloured=True, colour=ONE, alpha=bits(0.5))) * 2)
sure(add(TINTED) == (0, 10))
for m in (PAIR, TINTED):
    for k in counted(m):  # each list alone is short, or has just enough, or all but a word of one quad more
        for length in (10 * EACH[k] - 1, 9 * EACH[k], 0):
            sure(add(lent_of(m, k, length)) == (14, 0))
        sure(add(lent_of(m, k, 10 * EACH[k])) == add(lent_of(m, k, 11 * EACH[k] - 1)) == (0, 10))
    sure(add(longer(m, 0, 0, 0, 0, 0, 0, -1)) == add(longer(m, 0, 0, 0, 0, 0, 0, -12)) == (9, 0))
    sure(add(longer(m, 11, 7, 5, 15, 3, 0, 0)) == add(longer(m, 12, 12, 8, 16, 6, 1, 6)) == (0, 10))
for length in (0, 1, 31, 159, 160, 199):  # without colour any list of colours will do
    sure(add(lent_of(PAIR, COLOURS, length)) == (0, 10))
for more in (0, 5):
    sure(add(call(grid=[0, 0, 0], lent=[0] * 6 + [18 + more])) == (0, 0))
sure(add(call(lent=[0] * 6 + [6])) == (14, 0))

# ---- sizes
for n in (2, 5):
    for dims in ([n, 1, 1], [1, n, 1], [1, 1, n]):
        for culling in (True, False):
            sure(add(call(dims=dims, grid=[1] * n, culling=culling)) == (0, 4 * n + 2 if culling else 6 * n))
FAR = [0] * 1023 + [1]
for dims in ([1024, 1, 1], [1, 1024, 1], [1, 1, 1024]):
    sure(add(call(dims=dims, grid=FAR, d=f(1.1, 0.3, 7.7))) == (0, 6))
for dims in ([1025, 1, 1], [1, 1025, 1], [1, 1, 1025]):
    sure(add(call(dims=dims, grid=[1] * 1025)) == (2, 0))
for dims in ([0, 1, 1], [1, 0, 1], [1, 1, 0], [0, 0, 0]):
    sure(add(call(dims=dims, grid=[])) == (2, 0) and add(call(dims=dims, grid=[1])) == (2, 0))
# The last of these keeps the limits; it is refused because its list is too short.
for dims in ([1024, 32, 33], [65536, 65536, 1], [NONE, 1, 1], [NONE] * 3, [1 << 31, 2, 1], [1024, 1024, 2], [1024, 32, 32]):
    sure(add(call(dims=dims, grid=[])) == (2, 0))
for length in (0, 1, 3):
    sure(add(call(dims=[2, 1, 1], grid=[1] * length)) == (2, 0))

# ---- outer lists
BOX = dict(dims=[2, 2, 2], grid=[1] * 8)
sure(add(call(**BOX)) == (0, 24) and add(call(outer=[5, 4, 3, 2, 1, 0], **BOX)) == (0, 0))
for face in range(6):
    sure(add(call(outer=[face], **BOX)) == (0, 20) and add(call(outer=[face] * 3, **BOX)) == (0, 20))
sure(add(call(outer=[0, 3, 0, 0, 3], **BOX)) == (0, 16) and add(call(outer=[2, 1, 0, 3, 4, 5] * 40, **BOX)) == (0, 0))
sure(add(call(outer=[0, 1, 2], culling=False, **BOX)) == (0, 48))
sure(add(call(outer=[6])) == (7, 0) and add(call(outer=[5, 0, 255, 6])) == (7, 2))
sure(add(call(outer=[0, 1, 2, 3, 4, 5, 6])) == (7, 6) and add(call(outer=[1, 1, 8], culling=False)) == (7, 2))

# ---- refusals, each and each two of them in one call
BENT = UNIT[:1] + UNIT[:1] + UNIT[2:]  # one corner of Top is elsewhere
FAULTS = [
    (2, 0, dict(dims=[3, 1, 1])), (3, 1, dict(covers=[0, 64])), (4, 0, dict(d=[ONE, NAN, ONE])), (6, 1, dict(cubes=UNIT + [0] * 192)),
    (7, 2, dict(outer=[0, 1, 6])), (8, 1, dict(grid=[1, 2])), (9, 0, dict(slots=11)), (14, 0, dict(links=9))]


def faulty(*parts):
    m = call(grid=[1, 1])
    lent = list(m["lent"])
    for part in parts:
        m.update({k: x for k, x in part.items() if k not in ("slots", "links")})
        lent[SLOTS], lent[LINKS] = part.get("slots", lent[SLOTS]), part.get("links", lent[LINKS])
    return dict(m, lent=lent)


for i, (number, place, part) in enumerate(FAULTS):
    sure(add(faulty(part)) == (number, place) and add(dict(faulty(part), culling=False)) == (number, place))
    for _, _, later in FAULTS[i + 1:]:
        sure(add(faulty(part, later)) == (number, place))
for more, place in ((dict(kinds=[], covers=[], cubes=[]), 255), (dict(covers=[0]), 255), (dict(cubes=JUNK + UNIT[1:]), 255),
                    (dict(cubes=JUNK + UNIT + [0]), 255), (dict(coloured=True), 255), (dict(kinds=[3, 1], covers=[0]), 255),
                    (dict(kinds=[3, 1], covers=[64, 255]), 0), (dict(kinds=[2, 255]), 1)):
    sure(add(call(**more)) == (3, place))
for k in range(3):
    for bad in (INF, NEG | INF, NAN, NONE):
        for name in ("d", "centre"):
            sure(add(call(**{name: [ONE] * k + [bad] + [ONE] * (2 - k)})) == (4, 0))
for cubes, place in (([0] * 192 + UNIT, 0), (UNIT + BENT, 1), ([INF] + UNIT[1:] + [0] * 192, 0),
                     (UNIT + UNIT[32:64] + UNIT[:32] + UNIT[64:], 1)):
    sure(add(call(kinds=[1, 1], cubes=cubes)) == (6, place))
sure(add(call(kinds=[2, 0], cubes=[NAN] * 384)) == (0, 0))
sure(add(call(grid=[1, 0, 2, 255, 2])) == (8, 2) and add(call(grid=[255])) == (8, 0))

# ---- positions: rounded after the product and after the sum; past the greatest; d that is not the cubes'
TENTH = call(grid=[1] * 4, d=[0x3DCCCCCD] * 3, cubes=JUNK + cube(shape(d=[0x3DCCCCCD] * 3)))
sure(add(TENTH) == (0, 18) and 0x3EB33334 in mesh(TENTH)[POSITIONS] and 0x3EB33333 not in mesh(TENTH)[POSITIONS])
VAST = call(grid=[1, 1, 1], d=[MAX] * 3)
sure(add(VAST) == (0, 14) and INF in mesh(VAST)[POSITIONS])
sure(add(call(dims=[2, 2, 2], grid=[1] * 8, d=[NEG | MAX, NEG, 1])) == (0, 24))
sure(add(call(grid=[1, 1], d=[0] * 3)) == (0, 10))

# ---- 255 types, the registry's floats seven cubes over and over
TILES = [cube(shape(atlas=[8, 8], texture=[w for k in range(6) for w in (k, t, k)])) for t in range(7)]
CUBES = (sum(TILES, []) * 37)[:192 * 256]
base(4, 256, CUBES, 295, 291, 194, 0, 150, 25, 32)


def many(count, **more):
    return call(kinds=[i % 3 for i in range(count)], covers=[63 * (i % 2) for i in range(count)], cubes=CUBES[:192 * count], **more)


sure((254 % 3, 253 % 3) == (2, 1))
SWAPPED = many(255, dims=[2, 1, 2], grid=[254, 253, 253, 254])
SWAPPED["kinds"][254] = 1
SWAPPED["lent"] = fit(SWAPPED, 20, 30)
sure(add(SWAPPED) == (0, 20) and add(dict(SWAPPED, culling=False)) == (14, 0))
sure(add(dict(SWAPPED, culling=False, lent=fit(SWAPPED, 24))) == (0, 24))
sure(mesh(SWAPPED)[UVS][:2] == TILES[254 % 7][6:8] != TILES[253 % 7][6:8])
sure(add(many(255, grid=[254])) == (0, 0) and add(many(255, grid=[253, 254, 252])) == (0, 6))
sure(add(many(255, grid=[254, 255])) == (8, 1) and add(many(254, grid=[253, 254])) == (8, 1))
sure(add(many(256)) == (3, 255))
LAST = many(255)
sure(add(dict(LAST, kinds=LAST["kinds"][:254] + [3])) == (3, 254) and add(dict(LAST, covers=LAST["covers"][:254] + [64])) == (3, 254))


def replaced_by_nothing(m, former):
    """An update of the mesh of two cubes that was made last: a Null takes the place of the first, which was of this type. Answers as `add`."""
    one = replaced(0, former, 252, OUTSIDE, OUTSIDE, 253, OUTSIDE, OUTSIDE, OUTSIDE)
    number, place, quads, _ = trials.add(UPDATE, 10, one, goes_on=True, **lengths(m))
    return number, place if number else quads


for count in (255, 254):  # the last type is a former one, and bares what it covered
    PUT_LAST = many(count, grid=[count - 1, 253], lent=PLENTY)
    PUT_LAST["kinds"][count - 1], PUT_LAST["covers"][count - 1] = 1, 63
    sure(add(PUT_LAST) == (0, 10))
    for former in sorted({count, 255}):
        sure(replaced_by_nothing(PUT_LAST, former) == (13, 0))
    sure(replaced_by_nothing(PUT_LAST, count - 1) == (0, 6))

# ---- grids at random, seven types of four cubes
rng = random.Random(2)


def some(scale):
    return bits(rng.uniform(0.1, 1) * 2.0 ** rng.randint(-scale, scale))


def some_types(coloured):
    d = [some(4) for _ in range(3)]
    centre = [some(2) | rng.choice((0, NEG)) for _ in range(3)]
    given = []
    for _ in range(4):
        given += cube(shape(
            d=d, centre=centre, atlas=[rng.randint(1, 64), rng.randint(1, 64)], padding=some(6), coloured=coloured,
            texture=[w for _ in range(6) for w in (rng.randint(0, 5), rng.randint(0, 63), rng.randint(0, 63))],
            colour=rng.getrandbits(32), alpha=rng.getrandbits(32)))
    kinds = [0, 1, 1, 2, 1, 1, 0]
    rng.shuffle(kinds)
    covers = [rng.choice((0, 63, rng.randint(0, 63), rng.randint(0, 63))) for _ in kinds]
    cubes = (given * 2)[:7 * len(given) // 4]
    return dict(d=d, centre=centre, cubes=cubes, kinds=kinds, covers=covers, coloured=coloured)


base(64, 7, [0] * 2016, 2184, 2184, 1476, 700, 1122, 237, 444)
for turn in range(32):
    dims = [4, 4, 4] if turn in (6, 17) else [rng.choice((1, 1, 2, 2, 3, 4)) for _ in range(3)]
    m = call(dims=dims, grid=[rng.randint(0, 6) for _ in range(dims[0] * dims[1] * dims[2])],
             culling=turn % 4 != 3, outer=[rng.randint(0, 5) for _ in range(rng.choice((0, 0, 1, 2, 9)))], **some_types(turn % 3 == 1))
    number, quads = add(longer(m, *[rng.choice((0, 1, 7, 60)) for _ in range(7)]))
    sure(number == 0)
    if quads and turn % 11 == 0:
        sure(add(dict(m, lent=fit(m, quads - 1))) == (14, 0))

if __name__ == "__main__":
    trials.write("meshes")
