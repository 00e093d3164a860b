"""Document 01's update, in both modes of document 02's Q-2 and with the changes of its Q-6 and Q-7, and check in plain Python, and the records
that crates/trials_run reads.

A mesh is seven lists of words. An update takes them for a list of quads (cell, face, words by attribute), works on that as 01's sentences say, and
lays it out again. No code of the crates is used; cubes, fresh meshing and the types' tests are those of cube_vectors.py and plain_mesh.py.
The record format stands at the head of crates/trials_run/src/main.rt.
"""
import struct
from collections import namedtuple

import plain_mesh
from cube_vectors import types_answer
from entries import BROKEN, DRAW, ENTRY_BYTES, HIDE, OUTSIDE, REPLACED, SIDES, entries_of, entry_of, own_former, replaced
from plain_mesh import EACH, LINKS, LISTS, NONE, PLENTY, SLOTS, STEPS, TRIANGLES, attributes, call, faces, floats, mesh
from stored import counted, keep_set, spoiled
from sure import sure

NAIVE, CULLING, UPDATE, CHECK, UPDATE_ITSELF = range(5)
HEAD, ROOM = 22, 65536
LENGTHS, TOLD = 11, 17  # where a base has the lengths of its lists, and a trial its answer
PARTS = ("grid", "kinds", "covers", "cubes") + LISTS

known = {}


def quad(m, code, cell, face):
    """A quad's words by attribute, each worked out once."""
    w, _, l = m["dims"]
    at = (cell % w, cell // (w * l), cell // w % l)
    n = 24 * floats(m)
    key = (m["coloured"], at, face, tuple(m["d"]), tuple(m["cubes"][n * code:n * code + n]))
    if key not in known:
        known[key] = plain_mesh.quad(m, code, at, face)
    return known[key]


def cell_count(m):
    w, h, l = m["dims"]
    return w * h * l


def bad_size(m):
    return any(not 1 <= n <= 1024 for n in m["dims"]) or cell_count(m) > 1048576


def room(m, lists):
    return plain_mesh.room(m, [len(words) for words in lists])


def words_of(m, lists, q):
    """A quad's words by attribute, as they stand in a mesh."""
    return [lists[k][EACH[k] * q:EACH[k] * (q + 1)] if k in attributes(m) else [] for k in range(TRIANGLES)]


def beside(m, cell, face):
    """The neighbour's number, or None at the grid's edge."""
    w, h, l = m["dims"]
    x, y, z = (a + b for a, b in zip((cell % w, cell // (w * l), cell // w % l), STEPS[face]))
    return y * l * w + z * w + x if 0 <= x < w and 0 <= y < h and 0 <= z < l else None


def covers(m, code, face):
    return m["covers"][code] >> face & 1 == 1


def pattern(q):
    return [4 * q + k for k in (0, 1, 2, 3, 2, 1)]


# ---- what is tested of a lent mesh


def book_answer(m, lists, count):
    """SHORT_ROOM, BAD_COUNT, BAD_LINKS, BAD_TRIANGLES."""
    triangles, links, slots = lists[TRIANGLES:]
    cells = cell_count(m)
    if len(slots) < 6 * cells:
        return 9, 0
    if count > room(m, lists):
        return 10, 0
    for q in range(count):
        code, cell = links[q] >> 29, links[q] & 0x1FFFFFFF
        if code > 5 or cell >= cells or slots[6 * cell + 5 - code] != 4 * q:
            return 11, q
    if sum(slot != NONE for slot in slots[:6 * cells]) > count:
        return 11, count
    for q in range(count):
        if triangles[6 * q:6 * q + 6] != pattern(q):
            return 12, q
    return 0, 0


def check(m, lists, count):
    """Number and place."""
    plenty = PLENTY[:SLOTS] + (len(lists[SLOTS]),)
    for answer in (plain_mesh.answer(dict(m, lent=plenty)), book_answer(m, lists, count)):
        if answer[0]:
            return answer
    drawn = {6 * cell + face for cell, _, face in faces(m)}
    filled = {k for k in range(6 * cell_count(m)) if lists[SLOTS][k] != NONE}
    if drawn != filled:
        return 15, min(drawn ^ filled)
    for q in range(count):
        cell, face = lists[LINKS][q] & 0x1FFFFFFF, 5 - (lists[LINKS][q] >> 29)
        if words_of(m, lists, q) != list(quad(m, m["grid"][cell], cell, face)):
            return 16, q
    return 0, 0


# ---- the update


def entries(log):
    return [entry_of(one) for one in entries_of(log)]


def is_entry(m, one):
    types = len(m["kinds"])
    if one.cell >= cell_count(m) or one.change > REPLACED or one.code >= types or any(one.spare):
        return False
    if not (one.former < types if one.change == REPLACED else one.former == own_former(one.change, one.code)):
        return False
    return all(byte <= DRAW if one.change == SIDES else byte == OUTSIDE or byte < types for byte in one.given)


def entries_answer(m, log):
    for i, one in enumerate(entries(log)):
        if not is_entry(m, one):
            return 13, i
    return (13, len(log) // ENTRY_BYTES) if len(log) % ENTRY_BYTES else (0, 0)


def opposite(face):
    return face ^ 1


def itself(face):
    return face


def bared(m, cell, code, given):
    """The neighbours' facing quads that a voxel of this type has hidden, and that show when it goes."""
    return [(beside(m, cell, i), i ^ 1, given[i]) for i in range(6)
            if covers(m, code, i) and given[i] != OUTSIDE and m["kinds"][given[i]] == 1 and beside(m, cell, i) is not None]


def shown(m, cell, code, given):
    """The sides of a cube that comes which are drawn."""
    return [(cell, face, code) for face in range(6) if given[face] == OUTSIDE or not covers(m, given[face], face ^ 1)]


def hidden(m, tested, cell, code):
    """The neighbours' facing quads that go when a cube comes: at face i, if it covers the side tested."""
    return [(beside(m, cell, i), i ^ 1) for i in range(6) if beside(m, cell, i) is not None and covers(m, code, tested(i))]


def plan(m, tested, one):
    """What goes first, what is drawn, and what goes after."""
    cell, change, code, given, former, _ = one
    own = [(cell, face) for face in range(6)]
    is_cube = m["kinds"][code] == 1
    if change == SIDES:
        drawn = [(cell, face, code) for face in range(6) if given[face] == DRAW]
        return [(cell, face) for face in range(6) if given[face] == HIDE], drawn if is_cube else [], []
    if change == BROKEN:
        return own, bared(m, cell, code, given), []
    drawn, after = (shown(m, cell, code, given), hidden(m, tested, cell, code)) if is_cube else ([], [])
    if change == REPLACED:
        return own, bared(m, cell, former, given) + drawn, after
    return own if is_cube else [], drawn, after


# How a log is read: its entries, which are refused, and what each does.
Reading = namedtuple("Reading", "entries answer plan")
TODAY = Reading(entries, entries_answer, plan)


def remove(quads, cell, face):
    """Removes a face's quad, if there is one; answers how many others moved."""
    for q, (c, f, _) in enumerate(quads):
        if (c, f) == (cell, face):
            count = len(quads)
            if count - q <= 6:
                del quads[q]
                return count - 1 - q
            quads[q] = quads.pop()
            return 1
    return 0


def laid(m, lists, quads, highest):
    """The lists with these quads, zero up to the highest count there was, and as they were past it."""
    cells = cell_count(m)
    slots = [NONE] * (6 * cells)
    for q, (cell, face, _) in enumerate(quads):
        slots[6 * cell + face] = 4 * q

    def list_laid(k, by_quad):
        return sum(by_quad, []) + [0] * (EACH[k] * (highest - len(quads))) + lists[k][EACH[k] * highest:]

    apart = [list_laid(k, [words[k] for _, _, words in quads]) if k in attributes(m) else lists[k] for k in range(TRIANGLES)]
    return apart + [
        list_laid(TRIANGLES, [pattern(q) for q in range(len(quads))]),
        list_laid(LINKS, [[cell | 5 - face << 29] for cell, face, _ in quads]),
        slots + lists[SLOTS][6 * cells:]]


def update(m, lists, count, log, tested=opposite, reading=TODAY):
    """Number, place, quads and moved; and the lists."""
    for number, place in ((2 if bad_size(m) else 0, 0), types_answer(m)):
        if number:
            return (number, place, 0, 0), lists
    for number, place in (book_answer(m, lists, count), reading.answer(m, log)):
        if number:
            return (number, place, 0, 0), lists
    quads = [(link & 0x1FFFFFFF, 5 - (link >> 29), words_of(m, lists, q)) for q, link in enumerate(lists[LINKS][:count])]
    highest, moved = count, 0
    for i, one in enumerate(reading.entries(log)):
        first, drawn, after = reading.plan(m, tested, one)
        there = {(cell, face) for cell, face, _ in quads}
        gone = there & set(first)
        new = [(cell, face, code) for cell, face, code in drawn if (cell, face) not in there - gone]
        if len(quads) - len(gone) + len(new) > room(m, lists):
            return (14, i, len(quads), moved), laid(m, lists, quads, highest)
        for cell, face in first:
            moved += remove(quads, cell, face)
        quads += [(cell, face, quad(m, code, cell, face)) for cell, face, code in new]
        highest = max(highest, len(quads))
        for cell, face in after:
            moved += remove(quads, cell, face)
    return (0, 0, len(quads), moved), laid(m, lists, quads, highest)


# ---- records


def packed(data):
    data = bytes(data)
    data += bytes(-len(data) % 4)
    return list(struct.unpack("<%dI" % (len(data) // 4), data))


def patches(old, new):
    """The runs of words that turn one list into another; one or two equal words between two runs join them."""
    out, at = [], 0
    while at < len(old):
        if old[at] == new[at]:
            at += 1
            continue
        end = last = at + 1
        while last < len(old) and last - end < 3:
            last += 1
            if old[last - 1] != new[last - 1]:
                end = last
        out += [at, end - at] + new[at:end]
        at = end
    return out


class Trials:
    """Records of one set. After a trial `image` is what it left, and `told` its answer."""

    def __init__(self):
        self.records, self.tried = [], 0

    def base(self, m, lists):
        """Keeps a scene and the lists of a mesh, spare room and all."""
        parts = [m["grid"], m["kinds"], m["covers"], m["cubes"]] + list(lists)
        head = [0] + m["dims"] + [int(m["coloured"])] + m["d"] + m["centre"] + [len(part) for part in parts]
        sure(len(head) == HEAD and max(m["grid"] + m["kinds"] + m["covers"]) < 256)
        self.kept = sum(parts, head)
        self.image = self.kept
        self.size = [len(part) for part in parts]
        self.start = {name: HEAD + sum(self.size[:i]) for i, name in enumerate(PARTS)}
        sure(len(self.kept) <= ROOM)
        self.records.append(self.kept)

    def at(self, name, place=0):
        """Where a word of a list stands in the base's record."""
        return self.start[name] + place

    def lent_parts(self, image, lent):
        return [image[self.start[name]:self.start[name] + n] for name, n in zip(PARTS, lent)]

    def add(self, call, count, log=b"", outer=(), before=(), goes_on=False, **lent):
        """Adds a trial; answers number, place, quads and moved. `before` has (place, word)s, `lent` lengths by the lists' names."""
        lent = [lent.get(name, n) for name, n in zip(PARTS, self.size)]
        sure(all(n <= most for n, most in zip(lent, self.size)))
        old = self.image if goes_on else self.kept
        image = list(old)
        for place, word in before:
            sure(not LENGTHS <= place < HEAD)
            image[place] = word
        grid, kinds, covering, cubes, *lists = self.lent_parts(image, lent)
        m = dict(dims=image[1:4], coloured=image[4] == 1, d=image[5:8], centre=image[8:11], grid=grid, kinds=kinds, covers=covering,
                 cubes=cubes, outer=list(outer), culling=call != NAIVE, lent=[len(part) for part in lists])
        if call in (UPDATE, UPDATE_ITSELF):
            told, lists = update(m, lists, count, log, opposite if call == UPDATE else itself)
        elif call == CHECK:
            told = check(m, lists, count) + (0, 0)
        else:
            number, place = plain_mesh.answer(m)
            fresh = mesh(m) if number == 0 else ([],) * len(LISTS)
            told = number, place, len(fresh[LINKS]), 0
            lists = [new + was[len(new):] for new, was in zip(fresh, lists)]
        after = list(image)
        for name, n, words in zip(PARTS[4:], lent[4:], lists):
            sure(len(words) == n)
            after[self.start[name]:self.start[name] + n] = words
        given, expected = patches(old, image), patches(image, after)
        r = [1, call, int(goes_on), count] + lent + [len(outer), len(log)] + list(told) + [len(given)]
        sure(len(r) == HEAD)
        r += packed(outer) + packed(log) + given + expected
        sure(len(r) <= ROOM and all(0 <= word <= NONE for word in r))
        self.records.append(r)
        self.image, self.told = after, told
        self.tried += 1
        return told

    def only_made(self, told, *what, **more):
        """A trial with this answer that is not kept."""
        sure(self.add(*what, **more) == told)
        self.tried -= 1
        return self.records.pop()

    def write(self, name):
        purposely_wrong = add_wrong(self)
        data = b"".join(struct.pack("<%dI" % (len(r) + 1), len(r), *r) for r in self.records)
        told = counted(name, self.tried, purposely_wrong)
        keep_set("trials_run", name, data, told)
        print(len(data), "bytes;", told, end="")


def spare(lists, *more):
    """The lists with more words each, no two alike."""
    return [words + [0xA5000000 + 65536 * k + i for i in range(n)] for k, (words, n) in enumerate(zip(lists, more))]


# ---- wrong on purpose


def headed(trial, **words):
    """The trial with other words in its head, by their places, as w3=1."""
    trial = list(trial)
    for name, word in words.items():
        trial[int(name[1:])] = word
    return trial


def wrong_answers(trials):
    """An update that stops for want of room, wrong in one thing each: the answer, and the first and last word of each list."""
    beside_1 = OUTSIDE, OUTSIDE, OUTSIDE, 1, OUTSIDE, OUTSIDE
    log = replaced(1, 1, 0, *beside_1) + replaced(1, 0, 1, *beside_1)
    stopped = trials.only_made((14, 1, 6, 10), UPDATE, 10, log)
    ends = [trials.start[name] + k for name, n in zip(PARTS[4:], trials.size[4:]) for k in (0, n - 1)]
    return [spoiled(stopped, TOLD + k) for k in range(4)] + [stopped + [at, 1, trials.image[at] ^ 1] for at in ends]


def ill_formed(trials, fine):
    """Trials that are right but for their form; `fine` is one that is right."""
    outer = trials.only_made((7, 0, 0, 0), CHECK, 10, outer=(6, 0, 0, 0))
    naive = trials.only_made((14, 0, 0, 0), NAIVE, 0)
    last = len(trials.kept) - 1
    return [
        headed(fine, w0=2), headed(naive, w1=5), headed(fine, w2=2),
        headed(outer, w15=5), headed(fine, w16=1), headed(fine + [HEAD, 1, 1], w21=4),  # an outer list, a log and patches that are cut short
        headed(fine, w4=fine[4] + 1), headed(fine, w14=fine[14] + 1),  # more of the first list, and of the last, than there is
        headed(fine + [1], w21=1), fine + [1],  # half a patch, before the call and after
        fine + [HEAD, 2, 1], fine + [last, 2, trials.kept[last], 0],  # a patch of fewer words than it says, and one past the base
        fine + [0, 1, 0], fine + [LENGTHS, 1, trials.kept[LENGTHS]], fine + [HEAD - 1, 1, trials.kept[HEAD - 1]],  # of the tag, of lengths
        fine[:HEAD - 1]]


def add_wrong(trials):
    """Adds trials that are wrong in one thing each: a program that leaves a comparison out counts one of them right. Answers how many."""
    m = call(grid=[1, 1])
    trials.base(m, spare(mesh(m), 5, 4, 3, 6, 1, 2, 3))
    fine = trials.only_made((0, 0, 0, 0), CHECK, 10)
    wrong = wrong_answers(trials) + ill_formed(trials, fine)
    trials.records += wrong
    for base in (trials.kept + [0], trials.kept[:HEAD - 1]):  # with a word too many, and too short
        trials.records += [base, fine]
    return len(wrong) + 2
