"""The bytes of a log's entry: document 01's, with the changes of 02's Q-6 and Q-7."""
import struct
from collections import namedtuple

BROKEN, ADDED, SIDES, REPLACED = range(4)
KEEP, HIDE, DRAW = range(3)  # what the six bytes of a Sides entry say; those of the others are neighbours
OUTSIDE = 255  # a neighbour that is none, and a former type that is none
LAYOUT = "<I12B"  # the cell; change, type, six bytes in face order, former type, three spare bytes
ENTRY_BYTES = struct.calcsize(LAYOUT)

Entry = namedtuple("Entry", "cell change code given former spare")


def own_former(change, code):
    """The former type that goes without saying: Broken repeats its type, Added and Sides have none."""
    return code if change == BROKEN else OUTSIDE


def entry(cell, change, code, *given, former=None, spare=(0, 0, 0)):
    """An entry's bytes, with the former type that goes without saying unless it is said."""
    return struct.pack(LAYOUT, cell, change, code, *given, own_former(change, code) if former is None else former, *spare)


def replaced(cell, former, code, *given):
    return entry(cell, REPLACED, code, *given, former=former)


def entries_of(log, size=ENTRY_BYTES):
    """The bytes of each whole entry."""
    return [log[at:at + size] for at in range(0, len(log) - size + 1, size)]


def entry_of(one):
    cell, change, code, *rest = struct.unpack(LAYOUT, one)
    return Entry(cell, change, code, rest[:6], rest[6], rest[7:])
