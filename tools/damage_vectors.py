#!/usr/bin/env python3
"""Writes a set that the program trials_run reads, crates/trials_run/data/damages, and what it must print for it.

Good meshes are damaged, most of them one word at a time, and checked; every expected answer comes from trials.py's check, from document 01's
sentences, and what 01 says of a kind of damage stands here as `sure`. Run it at the repository's root; stored.py says where it writes.
"""
import random
from collections import Counter

from cube_vectors import INF, MAX, NAN, NEG, cube, f, shape
from entries import DRAW, HIDE, KEEP, SIDES, entry
from plain_mesh import EACH, JUNK, LINKS, LISTS, UNIT, attributes, call, faces, mesh, words_for
from sure import sure
from trials import CHECK, CULLING, NAIVE, NONE, UPDATE, Trials, spare

trials = Trials()
answers = Counter()
rng = random.Random(5)


def base(m, more=2, lists=None):
    """Keeps a scene with its mesh and room for a few quads more; answers the count."""
    lists = mesh(m) if lists is None else lists
    trials.base(m, spare(lists, *[n + past for n, past in zip(words_for(m, more), (3, 7, 5, 9, 1, 0))], 4))
    return len(lists[LINKS])


def check(count, **more):
    number, place, _, _ = trials.add(CHECK, count, **more)
    answers[number] += 1
    return number, place


def damage(count, name, place, words, **more):
    """A word of a list, each of these in its stead; answers the checks' answers."""
    at = trials.at(name, place)
    return {check(count, before=[(at, word)], **more) for word in sorted({word & NONE for word in words} - {trials.kept[at]})}


def others(word):
    return word ^ 1, word ^ NEG, word + 1, 0, NONE


def flipped(word):
    return [word ^ 1 << bit for bit in range(32)]


def kept(name, place):
    return trials.kept[trials.at(name, place)]


def floats_of(m, q):
    """Where the floats of a quad stand: the name of each one's list, and its place there."""
    return [(LISTS[k], EACH[k] * q + i) for k in attributes(m) for i in range(EACH[k])]


# ---- grid 1,1: every word of every list
PAIR = call(grid=[1, 1])
TAKEN = [(0, face) for face in (0, 1, 3, 4, 5)] + [(1, face) for face in (0, 1, 2, 4, 5)]
sure(base(PAIR) == 10 and check(10) == (0, 0))
for q, (cell, face) in enumerate(TAKEN):
    for name, place in floats_of(PAIR, q):
        word = kept(name, place)
        sure(damage(10, name, place, flipped(word) if q == 3 else others(word)) == {(16, q)})
    for k in range(6):
        word = kept("triangles", 6 * q + k)
        sure(damage(10, "triangles", 6 * q + k, others(word) + (word + 4, word - 4)) == {(12, q)})
    links = flipped(kept("links", q)) + [kept("links", other) for other in range(10)] + [cell | code << 29 for cell in (0, 1, 2) for code in range(8)]
    sure(damage(10, "links", q, links) == {(11, q)})
    slots = flipped(4 * q) + [4 * other for other in range(13)] + [NONE]
    sure(damage(10, "slots", 6 * cell + face, slots) == {(11, q)})
for empty in (2, 9):
    sure(damage(10, "slots", empty, flipped(NONE) + [4 * q for q in range(13)]) == {(11, 10)})
for name, taken, length in zip(LISTS, (120, 120, 80, 0, 60, 10, 12), trials.size[4:]):
    for place in range(taken, length):
        sure(damage(10, name, place, (0, 40, NONE)) == {(0, 0)})  # what lies past the mesh is not looked at, nor colours without colour
for cell in (0, 1):
    sure(damage(10, "grid", cell, (2, 3, 254, 255)) == {(8, cell)} and damage(10, "grid", cell, (0,)) == {(15, 0 if cell == 0 else 2)})
for code in (0, 1):
    sure(damage(10, "kinds", code, (3, 255)) == damage(10, "covers", code, (64, 128, 255)) == {(3, code)})
    damage(10, "kinds", code, (0, 1, 2))
    damage(10, "covers", code, [1 << face for face in range(6)] + [63 ^ 1 << face for face in range(6)] + [0, 63])
for k in range(192):
    sure(damage(10, "cubes", k, (0, INF)) == {(0, 0)})  # the floats of a Null
    damage(10, "cubes", 192 + k, others(kept("cubes", 192 + k)) + (INF, NAN))

# ---- the scene's words
for k in range(3):
    for n in (0, 1, 2, 3, 1024, 1025, NONE):
        check(10, before=[(1 + k, n)])
    for word in (0, 1, NEG, MAX, INF, NAN, NONE, NEG | INF, trials.kept[5] + 1):
        check(10, before=[(5 + k, word)])
        check(10, before=[(8 + k, word)])
sure(check(10, before=[(1, 1), (2, 2)])[0] == 15 and check(10, before=[(4, 1)]) == (3, 255))
sure(check(10, before=[(8, f(0.5)[0])]) == (0, 0) and check(10, before=[(8, f(-0.5)[0])]) == (6, 1))

# ---- counts, lengths, outer lists
for count in range(10):
    sure(check(count) == (11, count))
for count in (11, 12):
    sure(check(count) == (11, 10))
for count in (13, 14, 1 << 30, 1 << 31, NONE):
    sure(check(count) == (10, 0))
for short, number in ((dict(grid=1), 2), (dict(grid=0), 2), (dict(kinds=1), 3), (dict(covers=1), 3), (dict(cubes=383), 3), (dict(cubes=192), 3),
                      (dict(slots=11), 9), (dict(slots=0), 9), (dict(positions=119), 10), (dict(normals=119), 10), (dict(uvs=79), 10),
                      (dict(triangles=59), 10), (dict(links=9), 10)):
    sure(check(10, **short)[0] == number)
for colours in range(10):
    sure(check(10, positions=120, normals=120, uvs=80, colours=colours, triangles=60, links=10, slots=12) == (0, 0))
for name, length in (("positions", 120), ("normals", 120), ("uvs", 80), ("triangles", 60), ("links", 10), ("slots", 12)):
    sure(check(10, **{name: length}) == (0, 0))
for face in range(6):
    drawn = [6 * cell + side for cell, side in TAKEN if side == face]
    sure(check(10, outer=(face,)) == check(10, outer=(face, face)) == (15, drawn[0]))
    sure(check(10, outer=(face, 6, 7)) == (7, 1))
sure(check(10, outer=(255,)) == (7, 0) and check(10, outer=(0, 1, 2, 3, 4, 5) * 9 + (8,)) == (7, 54))

# ---- two damages in one call: the order of the refusals
P, N, U, T, L, S, G = (trials.at(name) for name in ("positions", "normals", "uvs", "triangles", "links", "slots", "grid"))
FAULTS = [
    (2, 0, [(3, 1025)], {}), (3, 1, [(trials.at("covers", 1), 64)], {}), (4, 0, [(9, NAN)], {}), (6, 1, [(trials.at("cubes", 193), 0)], {}),
    (7, 2, [], dict(outer=(0, 1, 6))), (8, 1, [(G + 1, 2)], {}), (9, 0, [], dict(slots=11)), (10, 0, [], dict(triangles=59)),
    (11, 9, [(L + 9, 6 << 29)], {}), (12, 8, [(T + 53, 0)], {}), (15, 1, [], dict(outer=(1,))), (16, 4, [(U + 39, 9)], {})]
for i, (number, place, patches, more) in enumerate(FAULTS):
    sure(check(10, before=patches, **more) == (number, place))
    for _, _, later, and_more in FAULTS[i + 1:]:
        sure(check(10, before=patches + later, **dict(and_more, **more)) == (number, place))
for two in ([(P + 12 * 7, 1), (U + 8 * 5 + 7, 1)], [(P + 12 * 5 + 11, 1), (U + 8 * 7, 1)], [(N + 12 * 5, 1), (P + 12 * 7 + 11, 1)],
            [(P + 12 * 7, 1), (P + 12 * 5 + 11, 1)], [(N + 12 * 9, 1), (U + 8 * 5, 1)]):
    sure(check(10, before=two) == (16, 5))
sure(check(10, before=[(T + 6 * 7, 1), (T + 6 * 5 + 5, 1)]) == (12, 5))
sure(check(10, before=[(L + 7, 7 << 29), (L + 5, 7 << 29)]) == (11, 5))

# ---- with colour: every word, and each bit of one quad
TINTED = call(grid=[1, 1], coloured=True, cubes=cube(shape(coloured=True, colour=NAN, alpha=0xFFC12345)) * 2)
sure(base(TINTED) == 10 and check(10) == (0, 0))
for q in range(10):
    for name, place in floats_of(TINTED, q):
        word = kept(name, place)
        sure(damage(10, name, place, flipped(word) if q == 6 else (word ^ 1, word ^ NEG)) == {(16, q)})
# -0.0 for +0.0, one NaN for another: as bits they differ
at = next(k for k in range(12) if kept("normals", k) == 0)
sure(damage(10, "normals", at, (NEG,)) == {(16, 0)} and damage(10, "colours", 0, (NAN | 1, INF)) == {(16, 0)})
for name, length in (("positions", 120), ("normals", 120), ("uvs", 80), ("colours", 160), ("triangles", 60), ("links", 10)):
    sure(check(10, **{name: length}) == (0, 0) and check(10, **{name: length - 1}) == (10, 0))
sure(check(10, before=[(trials.at("colours", 16 * 3 + 15), 1), (trials.at("positions", 12 * 4), 1)]) == (16, 3))
sure(check(10, before=[(trials.at("colours", 16 * 5), 1), (trials.at("uvs", 8 * 4 + 7), 1)]) == (16, 4))

# ---- faces missing, faces too many, quads in another order: meshes whose index is whole
MIXED = call(dims=[2, 2, 2], grid=[1, 0, 2, 3, 1, 1, 4, 2], kinds=[0, 1, 1, 0, 2], covers=[0, 63, 21, 63, 42],
             cubes=JUNK + UNIT + cube(shape(atlas=[2, 2])) + JUNK * 2)
count = base(MIXED)
sure(check(count) == (0, 0))
drawn = {6 * cell + face for cell, _, face in faces(MIXED)}
for cell in range(8):
    for face in range(6):
        other, after = (HIDE, count - 1) if 6 * cell + face in drawn else (DRAW, count + 1)
        sure(trials.add(UPDATE, count, entry(cell, SIDES, 1, *[other if side == face else KEEP for side in range(6)]))[:3] == (0, 0, after))
        sure(check(after, goes_on=True) == (15, 6 * cell + face))
        # The same for a second face of the grid's last cell: the lowest is named.
        sure(trials.add(UPDATE, after, entry(7, SIDES, 1, *[HIDE] * 6), goes_on=True)[0] == 0)
        check(trials.told[2], goes_on=True)
sure(trials.add(NAIVE, 0)[0] == 14 and trials.add(CULLING, 0)[:3] == (0, 0, count) and check(count, goes_on=True) == (0, 0))
for turn in range(12):
    order = list(range(count))
    rng.shuffle(order)
    fresh = mesh(MIXED)
    before = []
    for q, old in enumerate(order):
        cell, _, face = faces(MIXED)[old]
        for k in attributes(MIXED):
            before += [(trials.at(LISTS[k], EACH[k] * q + i), fresh[k][EACH[k] * old + i]) for i in range(EACH[k])]
        before += [(trials.at("links", q), fresh[LINKS][old]), (trials.at("slots", 6 * cell + face), 4 * q)]
    sure(check(count, before=before) == (0, 0))
    q = rng.randrange(count)
    sure(check(count, before=before + [(trials.at(*rng.choice(floats_of(MIXED, q))), 0x12345678)]) == (16, q))
    sure(check(count, before=before + [(trials.at("triangles", 6 * q), 4 * q + 1)]) == (12, q))
    a, b = sorted(rng.sample(range(count), 2))
    swapped = [(trials.at("links", a), fresh[LINKS][order[b]]), (trials.at("links", b), fresh[LINKS][order[a]])]
    sure(check(count, before=before + swapped) == (11, a))
for place, name in [(k, "links") for k in range(count)] + [(k, "slots") for k in range(48)]:
    sure({number for number, _ in damage(count, name, place, (kept(name, place) ^ 1, kept(name, place) ^ 4, NONE, 0))} == {11})
for cell in range(8):
    for code in range(6):
        check(count, before=[(trials.at("grid", cell), code)])
for q in range(count):
    sure(damage(count, *rng.choice(floats_of(MIXED, q)), (0x12345678,)) == {(16, q)})

# ---- no quads at all
sure(base(call(grid=[0, 0])) == 0 and check(0) == (0, 0) and check(1) == (11, 0))
for place in range(12):
    sure(damage(0, "slots", place, (0, 4, NONE - 1)) == {(11, 0)})
sure(check(0, before=[(trials.at("grid"), 1)]) == (15, 0) and check(0, outer=range(6), before=[(trials.at("grid"), 1)]) == (15, 2))
sure(check(0, outer=range(6), before=[(trials.at("grid"), 1), (trials.at("grid", 1), 1)]) == (0, 0))
sure(check(0, positions=0, normals=0, uvs=0, colours=0, triangles=0, links=0) == (0, 0))

sure(set(answers) == {0, 2, 3, 4, 6, 7, 8, 9, 10, 11, 12, 15, 16})

if __name__ == "__main__":
    print(sorted(answers.items()))
    trials.write("damages")
