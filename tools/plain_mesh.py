"""Document 01's fresh meshing in plain Python, its attributes apart as document 02's Q-8 has them, and scenes to try it on.

A scene with what is lent is a dictionary, made by `call`. No code of the crates is used; cubes, float steps and the types' tests are those of
cube_vectors.py.
"""
from cube_vectors import INF, NAN, ONE, bits, cube, op, shape, types_answer

NONE = 0xFFFFFFFF
STEPS = [(0, 1, 0), (0, -1, 0), (1, 0, 0), (-1, 0, 0), (0, 0, 1), (0, 0, -1)]  # Top, Bottom, Right, Left, Back, Forward
LISTS = ("positions", "normals", "uvs", "colours", "triangles", "links", "slots")
EACH = (12, 12, 8, 16, 6, 1)  # words a quad of all but the slots
POSITIONS, NORMALS, UVS, COLOURS, TRIANGLES, LINKS, SLOTS = range(7)
PLENTY = (1 << 40,) * 7  # room for any mesh


def floats(m):
    return 12 if m["coloured"] else 8


def counted(m):
    """The lists that the room is counted by: without colour not the colours."""
    return [k for k in range(SLOTS) if k != COLOURS or m["coloured"]]


def attributes(m):
    return [k for k in counted(m) if k < TRIANGLES]


def room(m, lent):
    """How many quads lists of these lengths hold."""
    return min(lent[k] // EACH[k] for k in counted(m))


def words_for(m, quads):
    """How many words of each list but the slots so many quads take."""
    return [EACH[k] * quads if k in counted(m) else 0 for k in range(SLOTS)]


def cells(m):
    """The cells in order, each with its coordinates."""
    w, h, l = m["dims"]
    return [(y * l * w + z * w + x, (x, y, z)) for y in range(h) for z in range(l) for x in range(w)]


def is_drawn(m, at, face):
    """Whether a side of a cell is drawn."""
    w, h, l = m["dims"]

    def code(x, y, z):
        return m["grid"][y * l * w + z * w + x]

    if m["kinds"][code(*at)] != 1:
        return False
    if not m["culling"]:
        return True
    x, y, z = (at[k] + STEPS[face][k] for k in range(3))
    if 0 <= x < w and 0 <= y < h and 0 <= z < l:
        return not m["covers"][code(x, y, z)] >> (face ^ 1) & 1
    return face not in m["outer"]


def faces(m):
    return [(cell, at, face) for cell, at in cells(m) for face in range(6) if is_drawn(m, at, face)]


def answer(m):
    w, h, l = m["dims"]
    if any(not 1 <= n <= 1024 for n in m["dims"]) or w * h * l > 1048576 or len(m["grid"]) != w * h * l:
        return 2, 0
    number, place = types_answer(m)
    if number:
        return number, place
    for i, face in enumerate(m["outer"]):
        if face > 5:
            return 7, i
    for cell, code in enumerate(m["grid"]):
        if code >= len(m["kinds"]):
            return 8, cell
    if m["lent"][SLOTS] < 6 * w * h * l:
        return 9, 0
    return (14, 0) if len(faces(m)) > room(m, m["lent"]) else (0, 0)


def quad(m, code, at, face):
    """The words of each attribute of a quad, drawn from a type's cube: four vertices each. Without colour there are no words of it."""
    n = floats(m)
    apart = [], [], [], []
    for v in (4 * face, 4 * face + 1, 4 * face + 3, 4 * face + 2):
        start = n * (24 * code + v)
        vertex = m["cubes"][start:start + n]
        position = [op("+", vertex[k], op("*", bits(float(at[k])), m["d"][k])) for k in range(3)]
        for words, part in zip(apart, (position, vertex[3:6], vertex[6:8], vertex[8:])):
            words += part
    return apart


def mesh(m):
    """The words of all seven lists."""
    lists = [], [], [], [], [], [], [NONE] * (6 * len(m["grid"]))
    for q, (cell, at, face) in enumerate(faces(m)):
        link = cell | 5 - face << 29
        for words, part in zip(lists, quad(m, m["grid"][cell], at, face) + ([4 * q + k for k in (0, 1, 2, 3, 2, 1)], [link])):
            words += part
        lists[SLOTS][6 * cell + face] = 4 * q
    return lists


# ---- scenes


def fit(m, quads, slots=None):
    """The lent lengths that exactly so many quads fill."""
    return words_for(m, quads) + [6 * len(m["grid"]) if slots is None else slots]


UNIT = cube(shape())
JUNK = [NAN, 0xA5A5A5A5, INF] * 64  # floats of other kinds are ignored


def call(**more):
    """Document 01's types with a grid; as much room as it fills, unless said."""
    m = dict(dims=[len(more.get("grid", [1])), 1, 1], coloured=False, d=[ONE] * 3, centre=[0] * 3, culling=True, outer=[], grid=[1],
             kinds=[0, 1], covers=[0, 63], cubes=JUNK + UNIT, lent=PLENTY)
    m.update(more)
    if "lent" not in more and answer(m)[0] == 0:
        m["lent"] = fit(m, len(faces(m)))
    return m
