#!/usr/bin/env python3
"""Writes what the program cube_run reads and must print: crates/cube_run/stdin and stdout.

Every expected word is computed here, from document 01's sentences, with no code of the crates. A float operation is done
twice, once on exact fractions rounded to the nearest f32 (ties to even) and once on doubles rounded to f32, which is
exact for a single +, -, * or /; the two must agree. The last cubes are those of oracle/vectors/rust_answers.bin: there the 24
vertices are the Rust's, and nothing is written unless they are also the ones computed here; the two answers are 01's alone.
Run it at the repository's root; stored.py says where it writes.
"""
import math
import random
import struct
from fractions import Fraction

from rust_list import answers
from stored import counted, keep, spoiled
from sure import sure

ONE, MAX, TINY, INF, NAN = 0x3F800000, 0x7F7FFFFF, 1, 0x7F800000, 0x7FC00000
NEG = 0x80000000


def bits(x):
    """The bits of a double that holds an f32."""
    try:
        return struct.unpack("<I", struct.pack("<f", x))[0]
    except OverflowError:
        return INF | (NEG if x < 0 else 0)


def value(b):
    return struct.unpack("<f", struct.pack("<I", b))[0]


def nearest(q, sign):
    """The bits of the f32 nearest to a fraction; sign is that of a zero."""
    if q == 0:
        return NEG if sign else 0
    sign, q = (NEG, -q) if q < 0 else (0, q)
    e = max(q.numerator.bit_length() - q.denominator.bit_length() - 24, -149)
    while q >= Fraction(2) ** (e + 24):
        e += 1
    while e > -149 and q < Fraction(2) ** (e + 23):
        e -= 1
    n = round(q / Fraction(2) ** e)
    if n == 2**24:
        n, e = 2**23, e + 1
    if n >= 2**23:
        biased = e + 150
        return sign | (INF if biased >= 255 else biased << 23 | n - 2**23)
    return sign | n


def op(kind, a, b):
    """a + b, a - b, a * b or a / b of f32s, as bits; b is no zero where it divides."""
    x, y = value(a), value(b)
    d = {"+": lambda: x + y, "-": lambda: x - y, "*": lambda: x * y, "/": lambda: x / y}[kind]()
    sure(not math.isnan(d))
    got = bits(d)
    if math.isfinite(x) and math.isfinite(y):
        p, q = Fraction(x), Fraction(y)
        exact = {"+": lambda: p + q, "-": lambda: p - q, "*": lambda: p * q, "/": lambda: p / q}[kind]()
        sure(nearest(exact, math.copysign(1, d) < 0) == got, (kind, hex(a), hex(b)))
    return got


def finite(b):
    return b & INF != INF


CORNERS = [
    "-++ +++ ++- -+-", "--- +-- +-+ --+",
    "++- +++ +-+ +--", "--- --+ -++ -+-",
    "+++ -++ --+ +-+", "+-- --- -+- ++-",
]
UVS = ["ss es ee se", "ee se ss es"]
AXIS = [1, 1, 0, 0, 2, 2]


def cube(s):
    """The words of the 24 vertices."""
    high = [op("+", op("/", s["d"][k], bits(2.0)), s["centre"][k]) for k in range(3)]
    low = [op("-", high[k], s["d"][k]) for k in range(3)]
    size = [bits(float(n)) for n in s["atlas"]]
    unit = [op("/", ONE, n) for n in size]
    pad = [op("/", s["padding"], n) for n in size]
    start = [[0, 0] for _ in range(6)]
    for face, a, b in zip(*[iter(s["texture"])] * 3):
        start[face] = [op("+", op("*", bits(float(t)), unit[k]), pad[k]) for k, t in enumerate((a, b))]
    end = [[op("-", op("+", f[k], unit[k]), op("*", pad[k], bits(2.0))) for k in range(2)] for f in start]
    out = []
    for face in range(6):
        for corner, uv in zip(CORNERS[face].split(), UVS[face % 2].split()):
            out += [high[k] if corner[k] == "+" else low[k] for k in range(3)]
            out += [(NEG if face % 2 else 0) | ONE if k == AXIS[face] else 0 for k in range(3)]
            out += [(end if uv[k] == "e" else start)[face][k] for k in range(2)]
            if s["coloured"]:
                out += [s["colour"]] * 3 + [s["alpha"]]
    return out


def cube_answer(s, room):
    whole = len(s["texture"]) // 3
    entries = [s["texture"][3 * i:3 * i + 3] for i in range(whole)]
    if not all(map(finite, s["d"] + s["centre"] + [s["padding"]])):
        return 4, 0
    if any(not 1 <= n <= 4096 for n in s["atlas"]) or any(a > 4095 or b > 4095 for _, a, b in entries):
        return 5, 0
    for i, (face, _, _) in enumerate(entries):
        if face > 5:
            return 7, i
    if len(s["texture"]) != 18:
        return 7, 6
    return (9, 0) if room < 24 * (12 if s["coloured"] else 8) else (0, 0)


def classed(words, n, centre, face, corners):
    at = [[value(words[n * (4 * face + c) + k]) for c in corners] for k in range(3)]
    for k, (low, high) in enumerate([(3, 2), (1, 0), (5, 4)]):
        if at[k][0] == at[k][1] == at[k][2]:
            return (low if value(centre[k]) > at[k][0] else high) == face
    return False


def is_cube(words, n, centre):
    if not all(finite(words[n * v + k]) for v in range(24) for k in range(3)):
        return False
    return all(classed(words, n, centre, f, c) for f in range(6) for c in ((0, 1, 3), (2, 3, 1)))


def types_answer(t):
    n = 12 if t["coloured"] else 8
    count = len(t["kinds"])
    if not 1 <= count <= 255 or len(t["covers"]) != count or len(t["cubes"]) != 24 * n * count:
        return 3, 255
    for i in range(count):
        if t["kinds"][i] > 2 or t["covers"][i] > 63:
            return 3, i
    if not all(map(finite, t["d"] + t["centre"])):
        return 4, 0
    for i in range(count):
        if t["kinds"][i] == 1 and not is_cube(t["cubes"][24 * n * i:24 * n * (i + 1)], n, t["centre"]):
            return 6, i
    return 0, 0


# ---- records: how many words follow, the record's kind, and its words

records = []


def record(kind, words):
    sure(len(words) < 1024)
    records.append([1 + len(words), kind] + words)


NAMED = [w for f in range(6) for w in (f, 0, 0)]


def shape(**more):
    s = dict(d=[ONE] * 3, centre=[0] * 3, atlas=[1, 1], texture=NAMED, padding=0, coloured=False, colour=0, alpha=0)
    return dict(s, **more)


def try_cube(s, room=None):
    """A cube, and the types' tests on it as the only type."""
    n = 12 if s["coloured"] else 8
    room = 24 * n if room is None else room
    number, place = cube_answer(s, room)
    words = cube(s) if number == 0 else []
    types = types_answer(dict(s, kinds=[1], covers=[0], cubes=words)) if number == 0 else (0, 0)
    record(0, s["d"] + s["centre"] + s["atlas"] + [s["padding"], int(s["coloured"]), s["colour"], s["alpha"]]
           + [len(s["texture"]), room, number, place] + list(types) + s["texture"] + words)
    return words, types


def try_types(**more):
    t = dict(coloured=False, d=[ONE] * 3, centre=[0] * 3, kinds=[0, 1], covers=[0, 63], cubes=UNIT + UNIT)
    t.update(more)
    number, place = types_answer(t)
    record(1, [len(t["kinds"]), len(t["covers"]), int(t["coloured"])] + t["d"] + t["centre"] + [number, place]
           + t["kinds"] + t["covers"] + t["cubes"])
    return number, place


def try_moved(word, coordinate, d):
    moved = op("+", word, op("*", bits(float(coordinate)), d))
    record(2, [word, coordinate, d, moved])
    return moved


def f(*xs):
    return [bits(x) for x in xs]


# ---- accepted cubes
UNIT, passed = try_cube(shape())
sure(passed == (0, 0) and UNIT[:8] == f(-0.5, 0.5, 0.5, 0, 1, 0, 0, 0))
COLOURED, _ = try_cube(shape(coloured=True, colour=ONE, alpha=bits(0.5)), 300)
ODD = shape(d=f(1.1, 0.3, 7.25), centre=f(0.1, -3.7, 0.001), atlas=[7, 13], padding=bits(0.01))
try_cube(dict(ODD, texture=[0, 6, 12, 3, 1, 2, 0, 2, 3, 1, 5, 5, 5, 0, 4, 5, 3, 1]))  # 0 and 5 twice; 2 and 4 unnamed
try_cube(dict(ODD, texture=[4, 1, 2] * 6, coloured=True, colour=0x7FC00001, alpha=0xFF812345))  # one face named; NaNs with payloads
try_cube(shape(texture=[w for k in range(6) for w in (3, k, 5 - k)], atlas=[6, 6], padding=bits(0.25)), 500)
sure(try_cube(shape(d=f(-1, -2.5, -0.75)))[1] == (6, 0))
sure(try_cube(shape(d=[TINY, TINY + 2, NEG | 5]))[1] == (6, 0))
sure(try_cube(shape(d=[TINY, 2, 0x00800000], centre=[0, 0, 0]))[1] == (0, 0))
sure(try_cube(shape(d=[0, NEG, 0], centre=[NEG, NEG, 0]))[1] == (6, 0))
sure(try_cube(shape(d=f(2, 2, 2), centre=f(2**24, 2**24, 2**24)))[1] == (0, 0))  # high = centre
sure(try_cube(shape(d=f(2**-26, 1, 1), centre=f(1, 0, 0)))[1] == (6, 0))  # low = centre
sure(try_cube(shape(d=[MAX] * 3, centre=[MAX, NEG | MAX, 0]))[1] == (6, 0))  # high overflows
try_cube(shape(padding=MAX))  # p·2 overflows
try_cube(shape(padding=NEG | MAX, atlas=[1, 2]))
try_cube(shape(padding=TINY, atlas=[3, 4096], coloured=True, colour=NAN, alpha=INF))
try_cube(shape(texture=[w for k in range(6) for w in (k, 4095, 4095 - k)]))  # tiles past a small atlas
unfused, _ = try_cube(shape(atlas=[3, 5], padding=0x3DCCCCCD, texture=[w for k in range(6) for w in (k, 3, k)]))
sure(unfused[6] == 0x3F844444)  # fused it would be 0x3f844445

rng = random.Random(1)


def some_float():
    return bits(rng.choice((1, -1)) * rng.random() * 2.0 ** rng.randint(-20, 20))


for turn in range(14):
    try_cube(shape(
        d=[some_float() & ~NEG for _ in range(3)], centre=[some_float() for _ in range(3)], padding=some_float(),
        atlas=[rng.randint(1, 4096), rng.randint(1, 64)],
        texture=[w for _ in range(6) for w in (rng.randint(0, 5), rng.randint(0, 4095), rng.randint(0, 63))],
        coloured=turn % 2 == 1, colour=rng.getrandbits(32), alpha=rng.getrandbits(32)), 300)

# ---- refused cubes: each refusal, then each two
NUMBER = [dict(d=[INF, ONE, ONE]), dict(d=[ONE, NAN, ONE]), dict(d=[ONE, ONE, NEG | INF]), dict(centre=[NAN, 0, 0]),
          dict(centre=[0, 0xFFFFFFFF, 0]), dict(centre=[0, 0, INF]), dict(padding=0x7F800001)]
ATLAS = [dict(atlas=[0, 1]), dict(atlas=[1, 0]), dict(atlas=[4097, 1]), dict(atlas=[1, 0xFFFFFFFF]),
         dict(texture=NAMED[:16] + [4096, 0]), dict(texture=NAMED[:17] + [4096]), dict(texture=NAMED + [0, 0, 9999])]
FACE = [dict(texture=NAMED[:3 * k] + [6 + k, 0, 0] + NAMED[3 * k + 3:]) for k in range(6)]
FACE += [dict(texture=[5, 0, 0, 9, 0, 0, 7, 0, 0]), dict(texture=NAMED + [6, 0, 0]), dict(texture=NAMED + [1, 0, 0, 8, 1, 1])]
FACE += [dict(texture=NAMED[:n]) for n in (0, 1, 15, 17)] + [dict(texture=NAMED + NAMED[:n]) for n in (3, 6, 18)]
FACE += [dict(texture=NAMED + [9]), dict(texture=NAMED + [0, 9999])]  # an entry that is cut short is not looked at
SHORT = [(False, 191), (True, 287), (False, 0)]
for part in NUMBER + ATLAS + FACE:
    try_cube(shape(**part))
for coloured, room in SHORT:
    try_cube(shape(coloured=coloured), room)
BOTH = dict(texture=[9, 4096, 0] + NAMED[3:])
sure(cube_answer(shape(**BOTH), 192) == (5, 0))
for part in (dict(NUMBER[0], **ATLAS[0]), dict(NUMBER[6], **ATLAS[4]), dict(NUMBER[3], **FACE[2]), dict(NUMBER[1], **FACE[9]),
             dict(ATLAS[2], **FACE[0]), dict(ATLAS[3], **FACE[9]), BOTH, dict(NUMBER[0], **BOTH)):
    try_cube(shape(**part))
for part in (NUMBER[2], ATLAS[1], ATLAS[5], FACE[5], FACE[9], FACE[12], dict(NUMBER[4], **BOTH)):
    try_cube(shape(**part), 100)

# ---- the types' tests
sure(try_types() == (0, 0))
sure(try_types(kinds=[], covers=[], cubes=[]) == (3, 255))
sure(try_types(kinds=[3] * 256, covers=[0] * 256, cubes=[]) == (3, 255))
sure(try_types(covers=[0]) == (3, 255))
sure(try_types(cubes=(UNIT + UNIT)[:-1]) == (3, 255))
sure(try_types(cubes=UNIT + UNIT + [0]) == (3, 255))
sure(try_types(coloured=True) == (3, 255))
sure(try_types(kinds=[3, 1], cubes=UNIT) == (3, 255))  # counts before kinds
sure(try_types(kinds=[3, 1], covers=[0, 64]) == (3, 0))
sure(try_types(kinds=[2, 3], covers=[63, 255], d=[INF] * 3) == (3, 1))  # types before numbers
sure(try_types(d=[ONE, ONE, NAN]) == (4, 0))
sure(try_types(centre=[INF, 0, 0], cubes=UNIT + [0] * 192) == (4, 0))  # numbers before cubes
sure(try_types(cubes=UNIT + [0] * 192) == (6, 1))
sure(try_types(kinds=[1, 1], cubes=[0] * 192 + [0] * 192) == (6, 0))
sure(try_types(kinds=[0, 2], cubes=[NAN] * 384) == (0, 0))  # floats of other kinds are ignored
sure(try_types(cubes=[NAN] * 192 + UNIT) == (0, 0))
sure(try_types(d=[0] * 3) == (0, 0))  # d is compared with no shape
sure(try_types(centre=f(0.5, 0.5, 0.5)) == (0, 0))  # centre = high
sure(try_types(centre=f(0, -0.5, 0)) == (6, 1))  # centre = low
sure(try_types(kinds=[1, 1], coloured=True, cubes=COLOURED + COLOURED) == (0, 0))
for at in (0, 9, 18, 184, 186):
    sure(try_types(cubes=UNIT + UNIT[:at] + [INF] + UNIT[at + 1:]) == (6, 1))
sure(try_types(cubes=UNIT + UNIT[:3] + [NAN] + UNIT[4:]) == (0, 0))  # a normal is not looked at
STRADDLE = cube(shape(centre=f(0.5, 0.5, 0.5)))
ZEROS = [w ^ NEG if w == 0 and k // 8 % 3 == 1 and k % 8 < 3 else w for k, w in enumerate(STRADDLE)]
sure(ZEROS != STRADDLE and try_types(centre=f(0.5, 0.5, 0.5), cubes=UNIT + ZEROS) == (0, 0))  # -0.0 equals +0.0
sure(try_types(cubes=UNIT + UNIT[32:64] + UNIT[:32] + UNIT[64:]) == (6, 1))  # Bottom where Top should be

# ---- moved positions
sure(try_moved(0x3D4CCCCD, 3, 0x3DCCCCCD) == 0x3EB33334)  # fused it would be 0x3eb33333
sure(try_moved(MAX, 1023, MAX) == INF and try_moved(NEG | MAX, 1023, NEG | MAX) == NEG | INF)
for word, coordinate, d in ((0, 0, NEG | ONE), (NEG, 0, NEG | ONE), (TINY, 1, TINY), (ONE, 1023, NEG | TINY), (NEG, 1, 0),
                            (bits(-0.5), 1, bits(0.5))):
    try_moved(word, coordinate, d)
for _ in range(40):
    try_moved(some_float(), rng.randint(0, 1023), some_float())



# ---- wrong on purpose, each in one thing: a comparison that is left out counts one of them right

purposely_wrong = []


def wrong(kind, words):
    record(kind, words)
    purposely_wrong.append(kind)


def spoil(kind, words, *places):
    for at in places:
        wrong(kind, spoiled(words, at))


def last():
    """The words of the last record, taken back."""
    return records.pop()[2:]


def wrong_cubes():
    try_cube(shape(coloured=True, colour=ONE, alpha=bits(0.5)), 300)
    made = last()
    spoil(0, made, 14, 36, -1)  # its number; its first and its last word
    wrong(0, made[:13] + [513] + made[14:])  # more room than is lent
    try_cube(shape(texture=NAMED[:6] + [6] + NAMED[7:]))
    refused = last()
    sure(refused[14:16] == [7, 2])
    spoil(0, refused, 14, 15)
    wrong(0, refused + UNIT)  # a refused cube is not written
    try_cube(shape(d=f(-1, -2.5, -0.75)))
    unclassed = last()
    sure(unclassed[16:18] == [6, 0])
    spoil(0, unclassed, 16, 17)
    wrong(0, refused[:12] + [19] + refused[13:])  # a texture that is cut short
    wrong(0, made[:17])


def wrong_types():
    try_types(kinds=[3, 1], covers=[0, 64], d=f(1, 2, 3))
    refused = last()
    spoil(1, refused, 9, 10)
    for kinds, covers in ((257, 0), (0, 257)):
        try_types(kinds=[0] * kinds, covers=[0] * covers, cubes=[])
        wrong(1, last())  # more than the program has room for
    wrong(1, refused[:14])  # sets that are cut short
    wrong(1, refused[:10])


def wrong_moved():
    try_moved(ONE, 3, ONE)
    right = last()
    spoil(2, right, 3)
    for word, coordinate, d in ((INF, 1, ONE), (ONE, 1025, ONE), (ONE, 1, INF)):
        try_moved(word, coordinate, d)
        wrong(2, last())
    wrong(2, right[:3])


if __name__ == "__main__":
    # ---- the Rust's cubes
    for s, vertices in answers()[0]:
        sure(try_cube(s, 300)[0] == vertices)
    wrong_cubes()
    wrong_types()
    wrong_moved()
    data = b"".join(struct.pack("<%dI" % len(r), *r) for r in records)
    told = ""
    for kind, name in enumerate(("cubes", "types", "moved")):
        bad = purposely_wrong.count(kind)
        told += counted(name, sum(r[1] == kind for r in records) - bad, bad)
    keep("cube_run", data, told)
    print(len(data), "bytes;", told.replace("\n", "; "))
