#!/usr/bin/env python3
"""Work files for people: from a readable description and back, and as a picture.

    tools/chunkfile.py make [DESCRIPTION]    the work file, on standard output
    tools/chunkfile.py show [WORKFILE]       its description, on standard output
    tools/chunkfile.py picture FILE OUT      OUT.png and OUT.obj of the mesh that the program answers for FILE, either of the two
    tools/chunkfile.py test                  round trips, what is said of a bad description, and the answer to examples/dug.chunk

Without a file, standard input is read. `picture` and `test` run tools/meshchunk, or what --program names; --turn 1, 2 or 3
looks from another corner.

A description has a line for each thing; a line that starts with # is a comment.

    size 5 4 5                    width (x), height (y), length (z)
    algorithm culling             or naive
    outer bottom                  faces not drawn at the grid's edge: names, none or all
    voxel 1 1 1                   a voxel's size, and its centre
    centre 0 0 0
    atlas 4 1                     tiles across and down
    padding 0
    colour 0.8 1                  colour and alpha of every vertex, or none
    type . null covers none       a letter of your choice, null, cube or custom; the sides it covers: names, none or all
    type r cube covers all tile 1 0           and its tile, on all faces
    type t cube covers all tiles top 3 0 ..   or six, each with its face
    layer                         the lowest first: a line for each z, Forward first, with a letter for each x, Left first
    break 4 3 4                   the log: what stands at x y z goes
    add r 0 3 0                   a voxel is put at x y z
    replace r 4 3 4               a voxel is put at x y z in the place of what stands there
    sides 0 0 0 hide top left draw back       sides of what stands at x y z are hidden, others drawn; one of the two may be left out

Left out, a line has the value above, but for outer, none, atlas, 1 1, and colour, none. The log's neighbours, and what is replaced, are taken
from the grid as the lines before left it. What a work file holds beyond that is written by number: `kind 3`, `set 64`, `codes` for a layer,
0x.. for a float's bits, `entry cell change type n n n n n n former 0 0 0`. Of an entry the last four may be left out: the former type is then
Broken's own, else 255.
"""
import argparse
import os
import struct
import subprocess
import sys
import zlib

sys.dont_write_bytecode = True  # no folder of bytecode beside the tools
from entries import ADDED, BROKEN, DRAW, ENTRY_BYTES, HIDE, OUTSIDE, REPLACED, SIDES, Entry, entries_of, entry, entry_of, replaced
from sure import sure
from workfiles import File, good_files, trailer, words

FACES = ["top", "bottom", "right", "left", "back", "forward"]
STEPS = [(0, 1, 0), (0, -1, 0), (1, 0, 0), (-1, 0, 0), (0, 0, 1), (0, 0, -1)]
KINDS = ["null", "cube", "custom"]
ALGORITHMS = ["naive", "culling"]
CHANGES = ["break", "add", "sides", "replace"]
FORMER = ["cull", "draw"]  # what `sides` says by one line
SIDE_WORDS = ["keep", "hide", "draw"]
LETTERS = "rstuvwxyzabcdefghijklmnopq"
TYPE_BYTES, TRAILER_BYTES = 74, 92


class Bad(Exception):
    """What is wrong with a description or a work file."""


# A chunk: what a work file says, part by part.


class Type:
    def __init__(self, letter, kind, sides, tiles):
        self.letter, self.kind, self.sides, self.tiles = letter, kind, sides, tiles

    def bytes(self):
        return bytes([self.kind, self.sides]) + words(*(n for tile in self.tiles for n in tile))


class Chunk:
    def __init__(self):
        self.types, self.grid, self.log = [], b"", []
        self.size, self.outer, self.algorithm = (0, 0, 0), 0, 1
        self.voxel, self.centre, self.padding = [float_bits("1")] * 3, [0] * 3, 0
        self.atlas, self.coloured, self.colour = [1, 1], 0, [0, 0]

    def bytes(self):
        types, log = b"".join(t.bytes() for t in self.types), b"".join(self.log)
        told = [self.outer, self.algorithm, *self.voxel, *self.centre, *self.atlas, self.padding, self.coloured, *self.colour]
        numbered = {"w%d" % (8 + i): word for i, word in enumerate(told)}
        return types + self.grid + log + trailer(types, self.grid, log, self.size, **numbered)

    def cell(self, x, y, z):
        width, height, length = self.size
        return y * length * width + z * width + x if 0 <= x < width and 0 <= y < height and 0 <= z < length else None

    def place(self, cell):
        width, _, length = self.size
        return cell % width, cell // (width * length), cell // width % length

    def neighbours(self, grid, cell):
        x, y, z = self.place(cell)
        around = [self.cell(x + dx, y + dy, z + dz) for dx, dy, dz in STEPS]
        return bytes(OUTSIDE if other is None else grid[other] for other in around)

    def empty(self):
        """What stands where a voxel was broken: the lowest Null type covering nothing."""
        return next((n for n, t in enumerate(self.types) if t.kind == 0 and t.sides == 0), None)

    def after(self, grid, one):
        """The grid after an entry; an entry on a cell outside leaves it."""
        cell, change, voxel = entry_of(one)[:3]
        if cell >= len(grid) or change not in (BROKEN, ADDED, REPLACED) or change == BROKEN and self.empty() is None:
            return grid
        return grid[:cell] + bytes([self.empty() if change == BROKEN else voxel]) + grid[cell + 1 :]

    def dug(self):
        """The grid after the whole log."""
        grid = self.grid
        for one in self.log:
            grid = self.after(grid, one)
        return grid


def float_bits(text):
    try:
        return int(text, 16) if text.startswith("0x") else struct.unpack("<I", struct.pack("<f", float(text)))[0]
    except (ValueError, OverflowError):
        raise Bad("%s is no number" % text)


def float_text(bits):
    """The shortest decimal that gives these bits, or the bits."""
    number = struct.unpack("<f", words(bits))[0]
    for text in ("%.*g" % (digits, number) for digits in range(1, 10)):
        if number == number and abs(number) != float("inf") and float_bits(text) == bits:
            return text
    return "0x%08x" % bits


def face(name):
    if name not in FACES:
        raise Bad("%s is no face" % name)
    return FACES.index(name)


def side_set(names):
    if names in (["none"], ["all"]):
        return 63 if names == ["all"] else 0
    if len(names) == 2 and names[0] == "set":
        return number(names[1], 256)
    return sum(1 << n for n in {face(name) for name in names})


def side_text(sides):
    names = [name for n, name in enumerate(FACES) if sides >> n & 1]
    return {0: "none", 63: "all"}.get(sides, " ".join(names) if sides < 64 else "set %d" % sides)


def faces_named(key, names):
    if names in (["none"], ["all"]):
        return range(6) if names == ["all"] else []
    if not names:
        raise Bad("the faces to %s are asked for" % key)
    return [face(name) for name in names]


def side_bytes(told):
    """A Sides entry's six bytes, of `hide FACE.. draw FACE..`."""
    cut = told.index("draw") if "draw" in told else len(told)
    parts = [part for part in (told[:cut], told[cut:]) if part]
    if not parts or parts[0][0] not in ("hide", "draw"):
        raise Bad("hide or draw is asked for")
    sides = bytearray(6)
    for key, *names in parts:
        for n in faces_named(key, names):
            if sides[n]:
                raise Bad("%s is named twice" % FACES[n])
            sides[n] = SIDE_WORDS.index(key)
    return bytes(sides)


def side_words(sides):
    """What side_bytes reads."""
    hidden, drawn = (sum(1 << n for n in range(6) if sides[n] == what) for what in (HIDE, DRAW))
    parts = ["hide " + side_text(hidden)] if hidden or not drawn else []
    return " ".join(parts + (["draw " + side_text(drawn)] if drawn else []))


def number(text, bound=1 << 32):
    if not text.isdigit() or int(text) >= bound:
        raise Bad("%s is no number below %d" % (text, bound))
    return int(text)


def several(arguments, count):
    if len(arguments) != count:
        raise Bad("%d values are asked for" % count)
    return arguments


# Reading a description.


class Reader:
    def __init__(self, text):
        self.lines, self.at = text.splitlines(), 0
        self.chunk, self.grid = Chunk(), None

    def read(self):
        while self.at < len(self.lines):
            told = self.next_line().split()
            if not told or told[0].startswith("#"):
                continue
            try:
                self.line(told[0], told[1:])
            except Bad as error:
                raise Bad("line %d: %s" % (self.at, error))
        if len(self.chunk.grid) != self.cells():
            raise Bad("the layers hold %d cells, the size asks for %d" % (len(self.chunk.grid), self.cells()))
        return self.chunk

    def next_line(self):
        if self.at == len(self.lines):
            raise Bad("the layer's lines end too early")
        self.at += 1
        return self.lines[self.at - 1]

    def cells(self):
        width, height, length = self.chunk.size
        return width * height * length

    def line(self, key, told):
        chunk = self.chunk
        if key == "size":
            chunk.size = tuple(number(n) for n in several(told, 3))
        elif key == "algorithm":
            if told not in (["naive"], ["culling"]):
                raise Bad("naive or culling is asked for")
            chunk.algorithm = ALGORITHMS.index(told[0])
        elif key == "outer":
            chunk.outer = side_set(told)
        elif key in ("voxel", "centre"):
            setattr(chunk, key, [float_bits(n) for n in several(told, 3)])
        elif key == "atlas":
            chunk.atlas = [number(n) for n in several(told, 2)]
        elif key == "padding":
            chunk.padding = float_bits(*several(told, 1))
        elif key == "colour":
            chunk.coloured = int(told[:1] != ["none"])
            given = told if chunk.coloured else told[1:] or ["0", "0"]
            chunk.colour = [float_bits(n) for n in several(given, 2)]
        elif key == "type":
            self.type(told)
        elif key in ("layer", "codes"):
            several(told, 0)
            self.layer(self.letters if key == "layer" else self.numbers)
        elif key in CHANGES + ["entry"]:
            self.change(key, told)
        elif key in FORMER:
            raise Bad("%s is a line from before level 4, which tools/convert-log converts" % key)
        else:
            raise Bad("%s is unknown" % key)

    def type(self, told):
        letter, kind, rest = told[0] if told else "", *self.kind(told[1:])
        if len(letter) != 1 or letter in [t.letter for t in self.chunk.types]:
            raise Bad("a letter of its own is asked for")
        if rest[:1] != ["covers"]:
            raise Bad("covers is asked for")
        cut = next((i for i, word in enumerate(rest) if word in ("tile", "tiles")), len(rest))
        self.chunk.types.append(Type(letter, kind, side_set(rest[1:cut]), self.tiles(rest[cut:])))

    def kind(self, told):
        if told[:1] == ["kind"]:
            return number(*several(told[1:2], 1), 256), told[2:]
        if told[:1] and told[0] in KINDS:
            return KINDS.index(told[0]), told[1:]
        raise Bad("null, cube or custom is asked for")

    def tiles(self, told):
        if not told:
            return [(n, 0, 0) for n in range(6)]
        if told[0] == "tile":
            a, b = several(told[1:], 2)
            return [(n, number(a), number(b)) for n in range(6)]
        faces = iter(several(told[1:], 18))
        return [(FACES.index(f) if f in FACES else number(f), number(next(faces)), number(next(faces))) for f in faces]

    def layer(self, row):
        width, _, length = self.chunk.size
        for _ in range(length):
            codes = row(self.next_line().strip())
            if len(codes) != width:
                raise Bad("%d voxels are asked for" % width)
            self.chunk.grid += bytes(codes)

    def letters(self, line):
        return [self.voxel(letter) for letter in line]

    def numbers(self, line):
        return [number(n, 256) for n in line.split()]

    def voxel(self, letter):
        code = next((n for n, t in enumerate(self.chunk.types) if t.letter == letter), None)
        if code is None:
            raise Bad("%s is no type" % letter)
        return code

    def change(self, key, told):
        chunk = self.chunk
        if len(chunk.grid) != self.cells() or not chunk.grid:
            raise Bad("the log comes after all layers")
        self.grid = chunk.grid if self.grid is None else self.grid
        one = self.numbered(told) if key == "entry" else self.named(key, told)
        chunk.log.append(one)
        self.grid = chunk.after(self.grid, one)

    def numbered(self, told):
        cell, *rest = several(told, 13 if len(told) > 9 else 9)
        numbers = [number(n, 256) for n in rest]
        return words(number(cell)) + bytes(numbers) if len(numbers) > 8 else entry(number(cell), *numbers)

    def named(self, key, told):
        given = self.voxel(told.pop(0)) if key in ("add", "replace") and told else None
        cell = self.chunk.cell(*(number(n) for n in several(told[:3], 3)))
        if cell is None:
            raise Bad("%s is outside" % " ".join(told[:3]))
        standing, (change, six) = self.grid[cell], self.change_told(key, cell, told[3:])
        return entry(cell, change, standing if given is None else given, *six, former=standing if key == "replace" else None)

    def change_told(self, key, cell, told):
        """The change's number, and its six bytes: what is told of the sides, or an honest entry's neighbours."""
        if key == "sides":
            return CHANGES.index(key), side_bytes(told)
        several(told, 0)
        return CHANGES.index(key), self.chunk.neighbours(self.grid, cell)


# Writing one.


def name_types(chunk):
    """A letter for each type: a point for what a broken voxel leaves, r and on for the others."""
    if len(chunk.types) > len(LETTERS):
        raise Bad("there are more types than letters")
    letters = iter(LETTERS)
    for code, t in enumerate(chunk.types):
        t.letter = "." if code == chunk.empty() else next(letters)


def parts_of(file, entry_bytes=ENTRY_BYTES):
    """The trailer's words of a work file whose parts adjoin and fill it, and where its types, its grid and its log end."""
    if len(file) < TRAILER_BYTES:
        raise Bad("a work file has 92 bytes at least")
    word = struct.unpack("<23I", file[-TRAILER_BYTES:])
    ends = [word[3] * TYPE_BYTES]
    ends.append(ends[0] + word[5] * word[6] * word[7])
    ends.append(ends[1] + word[4] * entry_bytes)
    body = len(file) - TRAILER_BYTES
    if ends[2] != body or word[:3] != (body, body - ends[0], body - ends[1]) or word[22] != TRAILER_BYTES:
        raise Bad("the parts do not adjoin and fill the file")
    return word, ends


def read_workfile(file):
    word, ends = parts_of(file)
    chunk = Chunk()
    chunk.size = word[5:8]
    for at in range(0, ends[0], TYPE_BYTES):
        tiles = struct.unpack("<18I", file[at + 2 : at + TYPE_BYTES])
        chunk.types.append(Type("", file[at], file[at + 1], [tiles[i : i + 3] for i in range(0, 18, 3)]))
    name_types(chunk)
    chunk.grid = file[ends[0] : ends[1]]
    chunk.log = entries_of(file[ends[1] : ends[2]])
    chunk.outer, chunk.algorithm = word[8:10]
    chunk.voxel, chunk.centre, chunk.atlas = list(word[10:13]), list(word[13:16]), list(word[16:18])
    chunk.padding, chunk.coloured, chunk.colour = word[18], word[19], list(word[20:22])
    if chunk.algorithm > 1 or chunk.coloured > 1 or chunk.outer > 63:
        raise Bad("algorithm, colour flag or outer set is out of range")
    return chunk


def description(chunk):
    floats = lambda bits: " ".join(float_text(word) for word in bits)
    colour = floats(chunk.colour) if chunk.coloured else "none" if chunk.colour == [0, 0] else "none " + floats(chunk.colour)
    yield "size %d %d %d" % tuple(chunk.size)
    yield "algorithm " + ALGORITHMS[chunk.algorithm]
    yield "outer " + side_text(chunk.outer)
    yield "voxel " + floats(chunk.voxel)
    yield "centre " + floats(chunk.centre)
    yield "atlas %d %d" % tuple(chunk.atlas)
    yield "padding " + float_text(chunk.padding)
    yield "colour " + colour
    for t in chunk.types:
        kind = KINDS[t.kind] if t.kind < len(KINDS) else "kind %d" % t.kind
        yield "type %s %s covers %s %s" % (t.letter, kind, side_text(t.sides), tiles_text(t.tiles))
    yield from layers_text(chunk)
    grid = chunk.grid
    for one in chunk.log:
        yield entry_text(chunk, grid, one)
        grid = chunk.after(grid, one)


def tiles_text(tiles):
    if all(tile == (n, *tiles[0][1:]) for n, tile in enumerate(tiles)):
        return "tile %d %d" % tuple(tiles[0][1:])
    return "tiles " + " ".join("%s %d %d" % (FACES[f] if f < 6 else f, a, b) for f, a, b in tiles)


def layers_text(chunk):
    width, height, length = chunk.size
    lettered = all(code < len(chunk.types) for code in chunk.grid)
    for y in range(height):
        yield "layer" if lettered else "codes"
        for z in range(length):
            start = chunk.cell(0, y, z)
            codes = chunk.grid[start : start + width]
            yield "".join(chunk.types[code].letter for code in codes) if lettered else " ".join(map(str, codes))


def named_text(chunk, grid, one):
    """The line that says an entry by a place and names, if there is one."""
    cell, _, voxel, given, _, _ = entry_of(one)
    if cell >= len(grid):
        return None
    place, standing, around = "%d %d %d" % chunk.place(cell), grid[cell], chunk.neighbours(grid, cell)
    if one == entry(cell, BROKEN, standing, *around):
        return "break " + place
    if max(given) <= DRAW and one == entry(cell, SIDES, standing, *given):
        return "sides %s %s" % (place, side_words(given))
    for key, plain in (("add", entry(cell, ADDED, voxel, *around)), ("replace", entry(cell, REPLACED, voxel, *around, former=standing))):
        if one == plain and voxel < len(chunk.types):
            return "%s %s %s" % (key, chunk.types[voxel].letter, place)
    return None


def numbered_text(one):
    """The line that says an entry, or its first twelve bytes, by numbers."""
    return "entry %d %s" % (int.from_bytes(one[:4], "little"), " ".join(map(str, one[4:])))


def entry_text(chunk, grid, one):
    """The line whose meaning is the entry, the shortest that there is."""
    cell, change, voxel, given, _, _ = entry_of(one)
    goes_without_saying = one == entry(cell, change, voxel, *given)
    return named_text(chunk, grid, one) or numbered_text(one[:12] if goes_without_saying else one)


# The picture: the quads that the program answers.

PALETTE = [(150, 150, 158), (156, 112, 72), (104, 168, 76), (204, 176, 110), (120, 136, 176), (176, 96, 84), (96, 150, 150), (190, 190, 190)]
LIGHT = {0: 1.0, 2: 0.8, 4: 0.62}
SCALE, MARGIN = 28, 12

# the corners of a face round its edge, as signs of x, y, z
ROUND = [
    [(-1, 1, 1), (1, 1, 1), (1, 1, -1), (-1, 1, -1)],
    [(-1, -1, -1), (1, -1, -1), (1, -1, 1), (-1, -1, 1)],
    [(1, 1, -1), (1, 1, 1), (1, -1, 1), (1, -1, -1)],
    [(-1, -1, -1), (-1, -1, 1), (-1, 1, 1), (-1, 1, -1)],
    [(1, 1, 1), (-1, 1, 1), (-1, -1, 1), (1, -1, 1)],
    [(1, -1, -1), (-1, -1, -1), (-1, 1, -1), (1, 1, -1)],
]


def quads_of(answer):
    """Cell and face of each quad in the program's answer."""
    lines = answer.splitlines()
    if not lines or not lines[0].startswith("quads "):
        raise Bad("the program answers: " + (lines[0] if lines else "nothing"))
    return [tuple(int(n) for n in line.split()[1:]) for line in lines[1:]]


def palette_of(chunk):
    cubes = [n for n, t in enumerate(chunk.types) if t.kind == 1]
    return {code: PALETTE[i % len(PALETTE)] for i, code in enumerate(cubes)}


def obj(chunk, quads):
    size, centre = ([struct.unpack("<f", words(bits))[0] for bits in part] for part in (chunk.voxel, chunk.centre))
    grid, lines = chunk.dug(), ["o chunk"]
    for q, (cell, face) in enumerate(quads):
        for signs in ROUND[face]:
            corner = [at * d + c + sign * d / 2 for at, d, c, sign in zip(chunk.place(cell), size, centre, signs)]
            lines.append("v %g %g %g" % tuple(corner))
        lines.append("g type_%d" % grid[cell])
        lines.append("f %d %d %d %d" % tuple(4 * q + i for i in (1, 2, 3, 4)))
    return "\n".join(lines) + "\n"


def turned(point, turn):
    x, y, z = point
    for _ in range(turn):
        x, z = z, -x
    return x, y, z


def seen(point):
    """Across and down, from +x, +y, +z."""
    x, y, z = point
    return (x - z) * 0.866 * SCALE, (x + z) * 0.5 * SCALE - y * SCALE


def picture(chunk, quads, turn):
    """The PNG: faces that look towards the eye, the farthest cells first."""
    grid, colours = chunk.dug(), palette_of(chunk)
    drawn = []
    for cell, face in quads:
        at = chunk.place(cell)
        outward = STEPS.index(turned(STEPS[face], turn))
        if outward in LIGHT:
            corners = [seen(turned([a + s / 2 for a, s in zip(at, signs)], turn)) for signs in ROUND[face]]
            shade = [int(part * LIGHT[outward]) for part in colours.get(grid[cell], (230, 60, 160))]
            drawn.append((sum(turned(at, turn)), corners, shade))
    points = [point for _, corners, _ in drawn for point in corners] or [(0, 0)]
    left, top = (min(point[axis] for point in points) - MARGIN for axis in (0, 1))
    width, height = (int(max(point[axis] for point in points) - low + MARGIN) + 1 for axis, low in ((0, left), (1, top)))
    rows = [bytearray(b"\xf4\xf4\xf0" * width) for _ in range(height)]
    for _, corners, shade in sorted(drawn, key=lambda quad: quad[0]):
        fill(rows, [(x - left, y - top) for x, y in corners], shade)
    return png(width, height, rows)


def fill(rows, corners, shade):
    """A parallelogram, darker along its edge."""
    (ox, oy), (ax, ay), _, (bx, by) = corners
    ax, ay, bx, by = ax - ox, ay - oy, bx - ox, by - oy
    area = ax * by - ay * bx
    xs, ys = [x for x, _ in corners], [y for _, y in corners]
    for row in range(int(min(ys)), int(max(ys)) + 1):
        for column in range(int(min(xs)), int(max(xs)) + 1):
            x, y = column + 0.5 - ox, row + 0.5 - oy
            s, t = (x * by - y * bx) / area, (ax * y - ay * x) / area
            inmost = min(s, t, 1 - s, 1 - t)
            if inmost >= 0:
                rows[row][3 * column : 3 * column + 3] = bytes(shade if inmost > 0.04 else [part * 3 // 4 for part in shade])


def png(width, height, rows):
    def part(name, body):
        return struct.pack(">I", len(body)) + name + body + struct.pack(">I", zlib.crc32(name + body))

    head = struct.pack(">IIBBBBB", width, height, 8, 2, 0, 0, 0)
    packed = zlib.compress(b"".join(b"\0" + bytes(row) for row in rows), 9)
    return b"\x89PNG\r\n\x1a\n" + part(b"IHDR", head) + part(b"IDAT", packed) + part(b"IEND", b"")


# The commands.


def chunk_in(data):
    """The chunk in a description or a work file. A work file ends in the number 92, so in zero bytes; a text never does."""
    return read_workfile(data) if data[-4:] == words(TRAILER_BYTES) else Reader(data.decode()).read()


def read_input(path):
    if path is None:
        return sys.stdin.buffer.read()
    with open(path, "rb") as file:
        return file.read()


def answer_of(program, file):
    return subprocess.run([program], input=file, stdout=subprocess.PIPE, check=True).stdout.decode()


def write_picture(path, out, program, turn):
    chunk = chunk_in(read_input(path))
    quads = quads_of(answer_of(program, chunk.bytes()))
    with open(out + ".png", "wb") as file:
        file.write(picture(chunk, quads, turn))
    with open(out + ".obj", "w") as file:
        file.write(obj(chunk, quads))
    print("%s.png and %s.obj: %d quads" % (out, out, len(quads)))


ROOT = os.path.dirname(os.path.dirname(os.path.abspath(__file__)))

SMALL = "size 2 1 1\ntype . null covers none\ntype r cube covers all\nlayer\nrr\n"
BAD = {
    SMALL + "break 2 0 0": "line 6: 2 0 0 is outside",
    SMALL + "add x 0 0 0": "line 6: x is no type",
    SMALL + "break 0 0": "line 6: 3 values are asked for",
    SMALL + "layer\nrr": "the layers hold 4 cells, the size asks for 2",
    SMALL.replace("rr\n", "r\n"): "line 5: 2 voxels are asked for",
    SMALL.replace("covers all", "covers roof"): "line 3: roof is no face",
    SMALL.replace("type r", "type ."): "line 3: a letter of its own is asked for",
    SMALL + "dig 0 0 0": "line 6: dig is unknown",
    SMALL[:-3]: "line 4: the layer's lines end too early",
    "break 0 0 0": "line 1: the log comes after all layers",
    SMALL + "sides 0 0 0": "line 6: hide or draw is asked for",
    SMALL + "sides 0 0 0 top": "line 6: hide or draw is asked for",
    SMALL + "sides 0 0 0 keep top draw left": "line 6: hide or draw is asked for",
    SMALL + "sides 0 0 0 hide draw left": "line 6: the faces to hide are asked for",
    SMALL + "sides 0 0 0 hide left draw": "line 6: the faces to draw are asked for",
    SMALL + "sides 0 0 0 hide left draw roof": "line 6: roof is no face",
    SMALL + "sides 0 0 0 draw left hide top": "line 6: hide is no face",
    SMALL + "sides 0 0 0 hide left top left": "line 6: left is named twice",
    SMALL + "sides 0 0 0 draw back back": "line 6: back is named twice",
    SMALL + "sides 0 0 0 hide top left draw back left": "line 6: left is named twice",
    SMALL + "sides 0 0 0 hide all draw top": "line 6: top is named twice",
    SMALL + "sides 0 0 0 hide top all": "line 6: all is no face",
    SMALL + "sides 0 1 0 hide top": "line 6: 0 1 0 is outside",
    SMALL + "cull 0 0 0 top": "line 6: cull is a line from before level 4, which tools/convert-log converts",
    SMALL + "draw 0 0 0 top": "line 6: draw is a line from before level 4, which tools/convert-log converts",
    SMALL + "replace x 0 0 0": "line 6: x is no type",
    SMALL + "replace": "line 6: 3 values are asked for",
    SMALL + "replace . 0 0": "line 6: 3 values are asked for",
    SMALL + "replace . 0 0 1": "line 6: 0 0 1 is outside",
    SMALL + "replace . 0 0 0 r": "line 6: 0 values are asked for",
    SMALL + "entry 0 1 1 0 0 0 0 0": "line 6: 9 values are asked for",
    SMALL + "entry 0 1 1 0 0 0 0 0 0 255 0 0": "line 6: 13 values are asked for",
    SMALL + "entry 0 1 1 0 0 0 0 0 0 255 0 0 0 0": "line 6: 13 values are asked for",
    SMALL + "entry 0 1 1 0 0 0 0 0 0 256 0 0 0": "line 6: 256 is no number below 256",
}
# lines of a log as `show` writes them, and their entries past the cell; below, other words for the same
SHOWN = {
    "sides 1 0 0 hide top forward draw left": (2, 1, 1, 0, 0, 2, 0, 1, 255, 0, 0, 0),
    "sides 1 0 0 hide right": (2, 1, 0, 0, 1, 0, 0, 0, 255, 0, 0, 0),
    "sides 1 0 0 draw bottom back": (2, 1, 0, 2, 0, 0, 2, 0, 255, 0, 0, 0),
    "sides 1 0 0 hide all": (2, 1, 1, 1, 1, 1, 1, 1, 255, 0, 0, 0),
    "sides 1 0 0 draw all": (2, 1, 2, 2, 2, 2, 2, 2, 255, 0, 0, 0),
    "sides 1 0 0 hide none": (2, 1, 0, 0, 0, 0, 0, 0, 255, 0, 0, 0),
    "entry 1 2 0 1 0 0 0 0 2": (2, 0, 1, 0, 0, 0, 0, 2, 255, 0, 0, 0),
    "entry 1 2 1 1 0 3 0 0 2": (2, 1, 1, 0, 3, 0, 0, 2, 255, 0, 0, 0),
    "entry 2 2 1 1 0 0 0 0 2": (2, 1, 1, 0, 0, 0, 0, 2, 255, 0, 0, 0),
    "break 1 0 0": (0, 1, 255, 255, 255, 1, 255, 255, 1, 0, 0, 0),
    "add . 1 0 0": (1, 0, 255, 255, 255, 1, 255, 255, 255, 0, 0, 0),
    "replace . 1 0 0": (3, 0, 255, 255, 255, 1, 255, 255, 1, 0, 0, 0),
    "replace r 1 0 0": (3, 1, 255, 255, 255, 1, 255, 255, 1, 0, 0, 0),
    "entry 1 0 0 255 255 255 1 255 255": (0, 0, 255, 255, 255, 1, 255, 255, 0, 0, 0, 0),
    "entry 1 3 1 255 255 255 1 255 255": (3, 1, 255, 255, 255, 1, 255, 255, 255, 0, 0, 0),
    "entry 1 3 1 255 255 255 1 255 255 0 0 0 0": (3, 1, 255, 255, 255, 1, 255, 255, 0, 0, 0, 0),
    "entry 1 3 2 255 255 255 1 255 255 1 0 0 0": (3, 2, 255, 255, 255, 1, 255, 255, 1, 0, 0, 0),
    "entry 1 3 1 255 255 255 0 255 255 1 0 0 0": (3, 1, 255, 255, 255, 0, 255, 255, 1, 0, 0, 0),
    "entry 1 0 1 255 255 255 1 255 255 0 0 0 0": (0, 1, 255, 255, 255, 1, 255, 255, 0, 0, 0, 0),
    "entry 1 1 0 255 255 255 1 255 255 0 0 0 0": (1, 0, 255, 255, 255, 1, 255, 255, 0, 0, 0, 0),
    "entry 1 2 1 0 0 0 0 0 0 1 0 0 0": (2, 1, 0, 0, 0, 0, 0, 0, 1, 0, 0, 0),
    "entry 1 0 1 255 255 255 1 255 255 1 9 0 0": (0, 1, 255, 255, 255, 1, 255, 255, 1, 9, 0, 0),
    "entry 1 3 0 255 255 255 1 255 255 1 0 8 0": (3, 0, 255, 255, 255, 1, 255, 255, 1, 0, 8, 0),
    "entry 1 2 1 1 1 1 1 1 1 255 0 0 7": (2, 1, 1, 1, 1, 1, 1, 1, 255, 0, 0, 7),
}
ALIKE = {
    "sides 1 0 0 hide forward top draw left": "sides 1 0 0 hide top forward draw left",
    "sides 1 0 0 hide none draw back bottom": "sides 1 0 0 draw bottom back",
    "sides 1 0 0 hide right draw none": "sides 1 0 0 hide right",
    "sides 1 0 0 draw none": "sides 1 0 0 hide none",
    "entry 1 2 1 1 1 1 1 1 1": "sides 1 0 0 hide all",
    "entry 1 2 1 1 1 1 1 1 1 255 0 0 0": "sides 1 0 0 hide all",
    "entry 1 3 1 255 255 255 1 255 255 1 0 0 0": "replace r 1 0 0",
    "entry 1 0 1 255 255 255 1 255 255": "break 1 0 0",
    "entry 1 0 0 255 255 255 1 255 255 0 0 0 0": "entry 1 0 0 255 255 255 1 255 255",
}

# what is replaced is what the lines before have left
FOLLOWING = "replace . 1 0 0", "replace r 1 0 0", "replace r 1 0 0", "break 1 0 0", "replace r 1 0 0"


def said_of(text):
    """What is said of a bad description; nothing of a good one."""
    try:
        Reader(text).read()
    except Bad as error:
        return str(error)


def test_layout():
    """An entry's bytes, written out: cell, change, type, six by face, former type, three zeros. The first is document 01's."""
    worked = bytes([0, 0, 0, 0, 0, 1, 255, 255, 1, 255, 255, 255, 1, 0, 0, 0])
    sure(chunk_in((SMALL + "break 0 0 0\n").encode()).bytes() == File(log=worked).text == File().text, "document 01's file")
    unequal = bytes([0x16, 0x17, 0x18, 0x19, 3, 7, 8, 9, 10, 11, 12, 13, 14, 0, 0, 0])
    sure(replaced(0x19181716, 14, 7, 8, 9, 10, 11, 12, 13) == unequal)
    sure(entry_of(unequal[:13] + bytes([4, 5, 6])) == Entry(0x19181716, 3, 7, [8, 9, 10, 11, 12, 13], 14, [4, 5, 6]))


def test(program):
    test_layout()
    log = chunk_in((SMALL + "\n".join(["add . 1 0 0", "sides 1 0 0 hide top", "break 1 0 0", "add r 1 0 0", *SHOWN]) + "\n").encode())
    folder = os.path.join(ROOT, "examples")
    examples = [read_input(os.path.join(folder, name)) for name in sorted(os.listdir(folder)) if name.endswith(".chunk")]
    files = [file.text for file in good_files()] + [log.bytes()] + [chunk_in(text).bytes() for text in examples]
    for file in files:
        text = "\n".join(description(read_workfile(file)))
        sure(Reader(text).read().bytes() == file, text)
    for line, shown in list(ALIKE.items()) + [(line, line) for line in SHOWN]:
        chunk = chunk_in((SMALL + line).encode())
        sure(chunk.log[0][4:] == bytes(SHOWN[shown]) and list(description(chunk))[-1] == shown, line)
    followed = chunk_in((SMALL + "\n".join(FOLLOWING)).encode())
    sure([entry_of(one).former for one in followed.log] == [1, 0, 1, 1, 0] and tuple(description(followed))[-5:] == FOLLOWING)
    for text, expected in BAD.items():
        sure(said_of(text) == expected, said_of(text), expected)
    print("%d round trips, %d lines of a log, %d bad descriptions" % (len(files), len(SHOWN) + len(ALIKE), len(BAD)))
    dug = chunk_in(read_input(os.path.join(folder, "dug.chunk")))
    sure(answer_of(program, dug.bytes()) == read_input(os.path.join(folder, "dug.stdout")).decode(), "the answer to examples/dug.chunk")
    print("the program answers examples/dug.chunk rightly")


def main():
    parser = argparse.ArgumentParser(description=__doc__, formatter_class=argparse.RawDescriptionHelpFormatter)
    commands = parser.add_subparsers(dest="command", required=True)
    for name in ("make", "show"):
        commands.add_parser(name).add_argument("file", nargs="?")
    drawing = commands.add_parser("picture")
    drawing.add_argument("file")
    drawing.add_argument("out")
    drawing.add_argument("--turn", type=int, choices=range(4), default=0)
    for command in (drawing, commands.add_parser("test")):
        command.add_argument("--program", default=os.path.join(ROOT, "tools/meshchunk"))
    given = parser.parse_args()
    try:
        if given.command == "make":
            sys.stdout.buffer.write(chunk_in(read_input(given.file)).bytes())
        elif given.command == "show":
            print("\n".join(description(chunk_in(read_input(given.file)))))
        elif given.command == "picture":
            write_picture(given.file, given.out, given.program, given.turn)
        else:
            test(given.program)
    except (Bad, OSError, UnicodeDecodeError, subprocess.CalledProcessError) as error:
        sys.exit("chunkfile: %s" % error)


if __name__ == "__main__":
    main()
