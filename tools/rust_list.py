"""Reads the fixed list of the Rust's answers, oracle/vectors/rust_answers.bin; the head of oracle/src/bin/answers.rs says how it is laid out.

Run what imports it at the repository's root.
"""
import struct

from entries import ENTRY_BYTES
from sure import sure

CUBE, REGISTRY, GRID = 1, 2, 3


class Reader:
    def __init__(self, words):
        self.words, self.at = words, 0

    def many(self, n):
        start, self.at = self.at, self.at + n
        sure(self.at <= len(self.words))
        return self.words[start:self.at]

    def one(self):
        return self.many(1)[0]

    def bytes(self, n):
        words = self.many((n + 3) // 4)
        data = struct.pack("<%dI" % len(words), *words)
        sure(not any(data[n:]))
        return data[:n]

    def is_done(self):
        return self.at == len(self.words)


def floats(coloured):
    return 12 if coloured else 8


def cube(r):
    """What the Rust was given, as cube_vectors.py has it, and the words of the 24 vertices."""
    s = dict(d=r.many(3), atlas=r.many(2), centre=r.many(3), padding=r.one(), coloured=r.one() == 1, colour=r.one(), alpha=r.one())
    s["texture"] = r.many(18)
    return s, r.many(24 * floats(s["coloured"]))


def registry(r):
    n, coloured = r.one(), r.one() == 1
    types = dict(coloured=coloured, d=r.many(3), centre=r.many(3), kinds=list(r.bytes(n)), covers=list(r.bytes(n)))
    return dict(types, cubes=r.many(n * 24 * floats(coloured)))


def mesh(r, m):
    """Positions, normals, uvs, colours, triangles, links and slots."""
    quads = r.one()
    links, triangles = r.many(quads), r.many(6 * quads)
    positions, normals, uvs, colours = r.many(12 * quads), r.many(12 * quads), r.many(8 * quads), r.many(16 * quads if m["coloured"] else 0)
    return positions, normals, uvs, colours, triangles, links, r.many(6 * len(m["grid"]))


def grid(r, types):
    """What the Rust was given, as plain_mesh.py has it, and the log; the mesh after meshing, and after the log."""
    m = dict(types, dims=r.many(3), culling=r.one() == 1)
    outer, cells, entries = r.many(3)
    m.update(outer=list(r.bytes(outer)), grid=list(r.bytes(cells)))
    log = r.bytes(ENTRY_BYTES * entries)
    return m, log, mesh(r, m), mesh(r, m)


def answers():
    """The cubes, and the grids."""
    with open("oracle/vectors/rust_answers.bin", "rb") as file:
        data = file.read()
    words = Reader(list(struct.unpack("<%dI" % (len(data) // 4), data)))
    sure(words.many(2) == [int.from_bytes(b"MSHS", "little"), 4])
    cubes, grids, types = [], [], None
    for _ in range(words.one()):
        tag = words.one()
        record = Reader(words.many(words.one()))
        if tag == CUBE:
            cubes.append(cube(record))
        elif tag == REGISTRY:
            types = registry(record)
        else:
            sure(tag == GRID)
            grids.append(grid(record, types))
        sure(record.is_done())
    sure(words.is_done())
    return cubes, grids
