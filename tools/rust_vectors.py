#!/usr/bin/env python3
"""Writes a set that the program trials_run reads, crates/trials_run/data/rust_answers, and what it must print for it.

For each grid of oracle/vectors/rust_answers.bin two trials: `mesh_grid` by the algorithm the Rust used, into lists full of other words, and
`update_mesh` with the Rust's log on what that left.

Q, every word of the first Q places of each attribute, of triangles and of links, and all six slots of each cell are the Rust's, in both trials. The
rule in trials.py gives each of them too, and nothing is written unless the two agree. The Rust has no refusal, no `moved` and no lent room, so these
are document 01's alone: the answer's number and place, which are 0; `moved`; the places past Q that are zero after a log; that what lies further is as
it was.
Run it at the repository's root; stored.py says where it writes.
"""
from plain_mesh import LINKS, LISTS, SLOTS, words_for
from rust_list import answers
from sure import sure
from trials import CULLING, NAIVE, UPDATE, Trials, spare, update

trials = Trials()


def room_for(m, lists, log):
    """The least room in quads for a log."""
    count, more = len(lists[LINKS]), 0
    while update(m, spare(lists, *words_for(m, more), 0), count, log)[0][0] == 14:
        more += 1
    return count + more


def are_left(lists):
    """Whether the last trial is answered with these quads, and leaves these lists."""
    starts = [trials.at(name) for name in LISTS]
    return trials.told[:3] == (0, 0, len(lists[LINKS])) and all(trials.image[at:at + len(words)] == words for at, words in zip(starts, lists))


for m, log, fresh, updated in answers()[1]:
    room = [n + more for n, more in zip(words_for(m, room_for(m, fresh, log) + 2), (5, 9, 3, 7, 1, 0))]
    trials.base(m, spare(([],) * len(LISTS), *room, len(fresh[SLOTS]) + 7))
    trials.add(CULLING if m["culling"] else NAIVE, 0, outer=m["outer"])
    sure(are_left(fresh))
    trials.add(UPDATE, len(fresh[LINKS]), log, goes_on=True)
    sure(are_left(updated))

if __name__ == "__main__":
    trials.write("rust answers")
