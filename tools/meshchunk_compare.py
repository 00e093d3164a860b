#!/usr/bin/env python3
"""tools/meshchunk_compare.py [CASES [SEED]]: runs meshchunk on work files made at random and holds each answer to plain_program.py, a plain
reading of the documents. Prints how many agreed, and how often each answer came. Run it at the repository's root; meshchunk is proved and
built first if it is not there.
"""
import collections
import random
import struct
import sys

from chunkfile import answer_of
from entries import ADDED, BROKEN, ENTRY_BYTES, OUTSIDE, REPLACED, SIDES, entry, own_former
from plain_program import bits_of, expected

PROGRAM = "tools/meshchunk"
FULL = 8192
SPARE = FULL - 92  # what types, grid and log may have


# ---- files at random

def rarely(rng, usual, odd, share=40):
    return odd() if rng.randrange(share) == 0 else usual


def random_size(rng):
    while True:
        size = tuple(rng.choice((1, 1, 2, 2, 3, 4, 8)) for _ in range(3))
        if size[0] * size[1] * size[2] <= 512:
            return size


def random_type(rng):
    kind = rarely(rng, rng.choice((0, 1, 1, 1, 2)), lambda: rng.randrange(256), 200)
    sides = rarely(rng, rng.choice((0, 63, 63, rng.randrange(64))), lambda: rng.randrange(256), 200)
    text = bytes([kind, sides])
    for face in range(6):
        face = rarely(rng, face, lambda: rng.randrange(8), 60)
        tile = rarely(rng, rng.randrange(4), lambda: rng.randrange(5000), 300)
        text += struct.pack("<3I", face, tile, rng.randrange(4))
    return text


def random_float(rng):
    return rng.choice((bits_of(1.0), bits_of(1.0), bits_of(0.5), bits_of(2.0), bits_of(0.1), rng.randrange(2**32)))


def random_entry(rng, cells, types):
    cell = rarely(rng, rng.randrange(cells), lambda: rng.randrange(2 * cells), 300)
    change = rarely(rng, rng.choice((BROKEN, ADDED, SIDES, REPLACED)), lambda: rng.choice((4, rng.randrange(256))), 300)
    code = rarely(rng, rng.randrange(types), lambda: rng.randrange(256), 300)
    usual = (lambda: rng.randrange(3)) if change == SIDES else (lambda: rng.choice((OUTSIDE, rng.randrange(types))))
    given = [rarely(rng, usual(), lambda: rng.choice((3, OUTSIDE, rng.randrange(256))), 900) for _ in range(6)]
    former = rng.randrange(types) if change == REPLACED else own_former(change, code)
    former = rarely(rng, former, lambda: rng.choice((types, OUTSIDE, rng.randrange(256))), 900)
    spare = [rarely(rng, 0, lambda: rng.randrange(256), 3000) for _ in range(3)]
    return entry(cell, change, code, *given, former=former, spare=spare)


def usual_shape(rng):
    """How many types, the size of the grid, and how many entries."""
    return rng.randrange(1, 9), random_size(rng), rng.choice((0, 1, 2, 5, 30, 200))


def full_shape(rng):
    """The same for a file of 8,192 bytes."""
    types = rng.randrange(1, 9)
    cells = (SPARE - 74 * types) % ENTRY_BYTES or ENTRY_BYTES
    return types, (cells, 1, 1), (SPARE - 74 * types - cells) // ENTRY_BYTES


def random_file(rng):
    types, size, entries = full_shape(rng) if rng.randrange(40) == 0 else usual_shape(rng)
    cells = size[0] * size[1] * size[2]
    filled = rng.choice((1, 2, 4, 10))
    grid = bytes(rarely(rng, rng.randrange(types) if rng.randrange(filled) == 0 else 0, lambda: rng.randrange(256), 3000) for _ in range(cells))
    texts = b"".join(random_type(rng) for _ in range(types))
    log = b"".join(random_entry(rng, cells, types) for _ in range(entries))
    body = len(texts) + len(grid) + len(log)
    floats = [rarely(rng, bits_of(1.0), lambda: random_float(rng), 6) for _ in range(3)]
    centre = [rarely(rng, 0, lambda: random_float(rng), 6) for _ in range(3)]
    atlas = [rarely(rng, rng.choice((1, 4, 4096)), lambda: rng.randrange(5000), 50) for _ in range(2)]
    t = [body, body - len(texts), len(log), types, entries, *size, rng.choice((0, rng.randrange(64))), rng.choice((0, 1, 1, 1))]
    t += [*floats, *centre, *atlas, rarely(rng, 0, lambda: random_float(rng), 20), rng.randrange(2), rng.randrange(2**32), rng.randrange(2**32), 92]
    if rng.randrange(30) == 0:
        t[rng.randrange(23)] = rng.choice((0, 1, 2, 64, 93, rng.randrange(2**32)))
    file = texts + grid + log + struct.pack("<23I", *t)
    if rng.randrange(200) == 0:
        file = file[:rng.randrange(len(file))]
    return rarely(rng, file, lambda: padded(rng, file), 2 if len(file) == FULL else 100)


def padded(rng, file):
    """The file with bytes too many. Cut at 8,192, read from its end alone or in its first parts alone it would be a file that is answered."""
    more = bytes(rng.randrange(256) for _ in range(rng.choice((1, 2, 12, ENTRY_BYTES, 92, rng.randrange(1, 9000)))))
    return rng.choice((file + more, more + file, file[:-92] + more + file[-92:], file + file[-92:], file + file))


def main():
    cases = int(sys.argv[1]) if len(sys.argv) > 1 else 2000
    rng = random.Random(int(sys.argv[2]) if len(sys.argv) > 2 else 1)
    agreed, answers = 0, collections.Counter()
    for case in range(cases):
        file = random_file(rng)
        told = answer_of(PROGRAM, file)
        if told == expected(file):
            agreed += 1
        else:
            print("case %d: printed\n%sexpected\n%s" % (case, told, expected(file)))
        answers[" ".join(told.split()[:2]) if told.startswith("refused") else "quads"] += 1
    print("files %d agreed %d" % (cases, agreed))
    print(", ".join("%s: %d" % pair for pair in sorted(answers.items())))
    return 0 if agreed == cases else 1


if __name__ == "__main__":
    sys.exit(main())
