"""What meshchunk has to print for the bytes of a work file: a plain reading of document 01 and of 02's Q-6 and Q-7, written from their text and
not from the rules."""
import math
import struct

from entries import ENTRY_BYTES

TOP, BOTTOM, RIGHT, LEFT, BACK, FORWARD = range(6)
STEPS = [(0, 1, 0), (0, -1, 0), (1, 0, 0), (-1, 0, 0), (0, 0, 1), (0, 0, -1)]
CORNERS = ["-++ +++ ++- -+-", "--- +-- +-+ --+", "++- +++ +-+ +--", "--- --+ -++ -+-", "+++ -++ --+ +-+", "+-- --- -+- ++-"]
ROOM = 128


# ---- floats of 32 bits

def of_bits(bits):
    return struct.unpack("<f", struct.pack("<I", bits))[0]


def bits_of(number):
    return struct.unpack("<I", struct.pack("<f", number))[0]


def single(number):
    try:
        return struct.unpack("<f", struct.pack("<f", number))[0]
    except OverflowError:
        return math.copysign(math.inf, number)


# ---- the file

class Refused(Exception):
    pass


def words_at(file, at, count):
    return list(struct.unpack("<%dI" % count, file[at:at + 4 * count]))


class Work:
    def __init__(self, file):
        if len(file) < 92 or len(file) > 8192:
            raise Refused(1, 0)
        body = len(file) - 92
        t = words_at(file, body, 23)
        self.types, self.entries, self.size = t[3], t[4], tuple(t[5:8])
        self.cells = t[5] * t[6] * t[7]
        grid = 74 * self.types
        log = grid + self.cells
        if (t[0], t[1] + grid, t[2] + log, log + ENTRY_BYTES * self.entries) != (body,) * 4:
            raise Refused(1, 0)
        if t[22] != 92 or t[19] > 1 or t[9] > 1 or t[8] > 63 or self.types > 8 or self.cells > 512 or not self.types or not self.cells:
            raise Refused(1, 0)
        self.outer, self.culling = t[8], t[9] == 1
        self.d = [of_bits(b) for b in t[10:13]]
        self.centre = [of_bits(b) for b in t[13:16]]
        self.atlas, self.padding = t[16:18], of_bits(t[18])
        self.kinds = [file[74 * i] for i in range(self.types)]
        self.covers = [file[74 * i + 1] for i in range(self.types)]
        self.textures = [words_at(file, 74 * i + 2, 18) for i in range(self.types)]
        self.grid = file[grid:log]
        self.log = [file[at:at + ENTRY_BYTES] for at in range(log, body, ENTRY_BYTES)]

    # ---- cubes

    def build(self):
        for texture in self.textures:
            if not all(map(math.isfinite, self.d + self.centre + [self.padding])):
                raise Refused(4, 0)
            if not all(1 <= a <= 4096 for a in self.atlas) or any(texture[i] > 4095 for i in range(18) if i % 3):
                raise Refused(5, 0)
            for i in range(6):
                if texture[3 * i] > 5:
                    raise Refused(7, i)

    def is_cube(self):
        high = [single(single(d / 2) + c) for d, c in zip(self.d, self.centre)]
        low = [single(h - d) for h, d in zip(high, self.d)]
        if not all(map(math.isfinite, high + low)):
            return False
        for face in range(6):
            at = [[high[a] if sign == "+" else low[a] for a, sign in enumerate(corner)] for corner in CORNERS[face].split()]
            for triangle in ((0, 1, 3), (2, 3, 1)):
                if self.class_of([at[i] for i in triangle]) != face:
                    return False
        return True

    def class_of(self, corners):
        for axis, (up, down) in enumerate(((RIGHT, LEFT), (TOP, BOTTOM), (BACK, FORWARD))):
            if corners[0][axis] == corners[1][axis] == corners[2][axis]:
                return down if self.centre[axis] > corners[0][axis] else up
        return None

    # ---- the mesh: quads by cell and face

    def neighbour(self, cell, face):
        w, h, l = self.size
        x, z, y = cell % w, cell // w % l, cell // (w * l)
        x, y, z = x + STEPS[face][0], y + STEPS[face][1], z + STEPS[face][2]
        return y * l * w + z * w + x if 0 <= x < w and 0 <= y < h and 0 <= z < l else None

    def is_normal(self, code):
        return self.kinds[code] == 1

    def covering(self, code, face):
        return self.covers[code] >> face & 1 == 1

    def is_drawn(self, cell, face):
        if not self.is_normal(self.grid[cell]):
            return False
        beside = self.neighbour(cell, face)
        if not self.culling:
            return True
        if beside is None:
            return self.outer >> face & 1 == 0
        return not self.covering(self.grid[beside], face ^ 1)

    def mesh(self):
        for i in range(self.types):
            if self.kinds[i] > 2 or self.covers[i] > 63:
                raise Refused(3, i)
        for i in range(self.types):
            if self.is_normal(i) and not self.is_cube():
                raise Refused(6, i)
        for cell, code in enumerate(self.grid):
            if code >= self.types:
                raise Refused(8, cell)
        self.quads = [(c, f) for c in range(self.cells) for f in range(6) if self.is_drawn(c, f)]
        if len(self.quads) > ROOM:
            raise Refused(14, 0)

    # ---- the update

    def update(self):
        self.moved = 0
        for i, e in enumerate(self.log):
            if struct.unpack("<I", e[:4])[0] >= self.cells or e[4] > 3 or e[5] >= self.types:
                raise Refused(13, i)
            if e[4] == 2 and max(e[6:12]) > 2:
                raise Refused(13, i)
            if e[4] != 2 and any(n >= self.types and n != 255 for n in e[6:12]):
                raise Refused(13, i)
            if e[12] not in ([e[5]], [255], [255], range(self.types))[e[4]] or e[13:] != b"\0\0\0":
                raise Refused(13, i)
        for i, e in enumerate(self.log):
            cell, given = struct.unpack("<I", e[:4])[0], e[6:12]
            if e[4] == 3:  # Broken with the former type, then Added; a refusal of either is the entry's
                self.enter(i, cell, 0, e[12], given)
                self.enter(i, cell, 1, e[5], given)
            else:
                self.enter(i, cell, e[4], e[5], given)

    def enter(self, i, cell, change, code, given):
        own, new, facing = [], [], []
        sides = [(cell, f) for f in range(6)]
        if change == 0:
            own = sides
            for f in range(6):
                beside = self.neighbour(cell, f)
                if self.covering(code, f) and given[f] != 255 and self.is_normal(given[f]) and beside is not None:
                    new.append((beside, f ^ 1))
        elif change == 1 and self.is_normal(code):
            own = sides
            new = [(cell, f) for f in range(6) if given[f] == 255 or not self.covering(given[f], f ^ 1)]
            for f in range(6):
                beside = self.neighbour(cell, f)
                if beside is not None and self.covering(code, f ^ 1):
                    facing.append((beside, f ^ 1))
        elif change == 2:
            own = [(cell, f) for f in range(6) if given[f] == 1]
            new = [(cell, f) for f in range(6) if given[f] == 2 and self.is_normal(code)]
        left = [q for q in self.quads if q not in own]
        if new and len(left) + len([q for q in new if q not in left]) > ROOM:
            raise Refused(14, i)
        for quad in own:
            self.remove(quad)
        for quad in new:
            if quad not in self.quads:
                self.quads.append(quad)
        for quad in facing:
            self.remove(quad)

    def remove(self, quad):
        if quad not in self.quads:
            return
        q, count = self.quads.index(quad), len(self.quads)
        if count - q <= 6:
            del self.quads[q]
            self.moved += count - 1 - q
        else:
            self.quads[q] = self.quads[-1]
            del self.quads[-1]
            self.moved += 1


def expected(file):
    try:
        work = Work(file)
        work.build()
        work.mesh()
        work.update()
    except Refused as refused:
        return "refused %d at %d\n" % refused.args
    lines = ["quads %d moved %d" % (len(work.quads), work.moved)]
    lines += ["%d %d %d" % (i, cell, face) for i, (cell, face) in enumerate(work.quads)]
    return "\n".join(lines) + "\n"
