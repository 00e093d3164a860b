//! Two crews' logs in two orders (document 02, Q-14): where the crews do not touch, the order makes no difference to the faces.

use crate::calls::Answer;
use crate::cases::Case;
use crate::compare::{after_honest_log, agree, agree_ends, agree_list, mends, with_spare, Compared, Comparison, End, MODES};
use crate::crews::{left_by, Crews, Order};
use crate::entries::ENTRY;
use crate::room::faces;
use crate::rust::{self, Registry, Words};
use plain::NO_ROOM;

/// Logs of two crews that do not touch, in two orders, in one mode.
#[derive(Default)]
pub struct Orders {
    /// Done in both orders, with the same faces: logs with an entry each, and longer ones.
    pub pairs: u64,
    pub longer: u64,
    /// Of these the ones that left quads in other places, and that had another `moved`.
    pub other_places: u64,
    pub other_moved: u64,
    /// No room in one order alone, and in both.
    pub one_without_room: u64,
    pub both_without_room: u64,
    /// Pairs that touch: on neighbours across a face, and on one cell.
    pub neighbours: Touching,
    pub one_cell: Touching,
}

/// Entries of two crews that touch, done in both orders.
#[derive(Default)]
pub struct Touching {
    pub pairs: u64,
    /// Of them those that left other faces, and those of which at least one order left a mesh that does not pass for its ground.
    pub other_faces: u64,
    pub not_passing: u64,
}

/// A mesh in its room, and its quads.
type Start = (Words, u64);

/// Two ends have the same faces with the same words, wherever their quads are.
pub fn agree_faces(what: &str, case: &Case, [one, other]: [&End; 2]) -> Compared {
    agree(&format!("{what}: quads"), one.0.quads, other.0.quads)?;
    let [one, other] = [one, other].map(|(answer, room)| faces(room, answer.quads as usize, case.types.coloured));
    agree(&format!("{what}: faces"), one.len(), other.len())?;
    if let Some(((face, words), (other_face, other_words))) = one.iter().zip(&other).find(|(face, other)| face != other) {
        agree(&format!("{what}: cell and face"), face, other_face)?;
        agree_list(&format!("{what}: cell and face {face:?}, word"), words, other_words)?;
    }
    Ok(())
}

/// Each log is honest on the ground that both crews saw, and they touch or not, as they are meant to.
fn are_as_meant(crews: &Crews, touch: bool) -> Compared {
    agree("two crews that touch", crews.touch(), touch)?;
    crews.logs.iter().try_for_each(|log| after_honest_log(&Case { log: log.clone(), ..crews.ground.clone() }).map(drop))
}

/// The crews in each mode in which demand 3 speaks of both logs.
fn in_modes(crews: &Crews) -> impl Iterator<Item = Crews> + '_ {
    let in_mode = |tested| Crews { ground: Case { tested, ..crews.ground.clone() }, ..crews.clone() };
    MODES.into_iter().map(in_mode).filter(|crews| mends(&Case { log: crews.logs.concat(), ..crews.ground.clone() }))
}

/// The Rust's mesh of the ground in room for `spare` quads more, and its quads.
fn fresh(ground: &Case, spare: usize) -> Start {
    let mesh = rust::mesh(ground.dims, &ground.outer, &ground.grid, &Registry::of(&ground.types), ground.naive).words();
    (with_spare(&mesh, ground, spare), mesh.links.len() as u64)
}

impl Comparison<'_> {
    /// Crews that do not touch, in two orders that the seed gives, in each mode in which demand 3 speaks of their logs.
    pub fn either_order(&mut self, crews: &Crews, seed: u64, spare: usize) -> Compared {
        are_as_meant(crews, false)?;
        let (orders, start) = (crews.orders(seed), fresh(&crews.ground, spare));
        in_modes(crews).try_for_each(|crews| self.in_two_orders(&crews, &orders, &start))
    }

    /// Both orders in one call each, and the first in a call for each run of a crew's entries. Of an order that finds no room nothing is claimed.
    fn in_two_orders(&mut self, crews: &Crews, orders: &[Order; 2], start: &Start) -> Compared {
        let tested = crews.ground.tested;
        let what = format!("two crews, {tested:?} tested");
        let cases = orders.each_ref().map(|order| crews.in_order(order));
        let ends = self.ends(&what, &cases, start)?;
        let runs = crews.runs(&orders[0]);
        let by_run = self.in_calls(&crews.ground, runs.iter().map(Vec::as_slice), &start.0, start.1);
        agree_ends(&format!("{what}, a call for each run of a crew's entries"), &by_run, &ends[0])?;
        match ends.each_ref().map(|(answer, _)| answer.number) {
            [0, 0] => self.same_faces(&what, &cases, &ends)?,
            [NO_ROOM, NO_ROOM] => self.tally.orders[tested as usize].both_without_room += 1,
            [0, NO_ROOM] | [NO_ROOM, 0] => self.tally.orders[tested as usize].one_without_room += 1,
            refused => agree(&format!("{what}: refused"), refused, [0, 0])?,
        }
        Ok(())
    }

    /// The update of each case, from one start.
    fn ends(&mut self, what: &str, cases: &[Case; 2], (start, quads): &Start) -> Compared<[End; 2]> {
        let [one, other] = cases.each_ref().map(|case| self.update(what, case, start, *quads));
        Ok([one?, other?])
    }

    /// Both ends have the same faces, and pass for the ground that the logs leave, which is the same in both orders.
    fn same_faces(&mut self, what: &str, cases: &[Case; 2], ends: &[End; 2]) -> Compared {
        agree_faces(&format!("{what}, in two orders"), &cases[0], ends.each_ref())?;
        let [one, other] = cases.each_ref().map(after_honest_log);
        let left = [one?, other?];
        agree(&format!("{what}, the ground left in two orders"), &left[0].grid, &left[1].grid)?;
        for (left, (answer, room)) in left.iter().zip(ends) {
            let checked = self.check(what, left, room, answer.quads)?;
            agree(&format!("{what}, check of what is left"), checked, Answer::default())?;
        }
        self.tally.orders[cases[0].tested as usize].done(cases, ends);
        Ok(())
    }

    /// Two entries on cells that touch, in both orders, in each mode in which demand 3 speaks of them. Nothing is claimed but what holds of any log:
    /// how often the order counts is counted.
    pub fn touching(&mut self, crews: &Crews, spare: usize) -> Compared {
        are_as_meant(crews, true)?;
        let start = fresh(&crews.ground, spare);
        for crews in in_modes(crews) {
            let what = format!("two crews that touch, {:?} tested", crews.ground.tested);
            let cases = [[0, 1], [1, 0]].map(|order| crews.in_order(&order));
            let ends = self.ends(&what, &cases, &start)?;
            if ends.iter().all(|(answer, _)| answer.number == 0) {
                self.touched(&what, &crews, &cases, &ends)?;
            }
        }
        Ok(())
    }

    /// Counts whether the faces differ, and whether a mesh does not pass for the ground that its order leaves.
    fn touched(&mut self, what: &str, crews: &Crews, cases: &[Case; 2], ends: &[End; 2]) -> Compared {
        let mut passing = 0;
        for (case, (answer, room)) in cases.iter().zip(ends) {
            let left = Case { grid: left_by(case), ..case.clone() };
            passing += (self.check(what, &left, room, answer.quads)?.number == 0) as usize;
        }
        let orders = &mut self.tally.orders[crews.ground.tested as usize];
        let touching = if crews.share_a_cell() { &mut orders.one_cell } else { &mut orders.neighbours };
        touching.pairs += 1;
        touching.other_faces += agree_faces(what, &cases[0], ends.each_ref()).is_err() as u64;
        touching.not_passing += (passing < 2) as u64;
        Ok(())
    }
}

impl Orders {
    /// Counts logs that were done in both orders.
    fn done(&mut self, cases: &[Case; 2], [(one, room), (other, other_room)]: &[End; 2]) {
        let pair = cases[0].log.len() == 2 * ENTRY;
        let quads = one.quads as usize;
        self.pairs += pair as u64;
        self.longer += !pair as u64;
        self.other_places += (room.links[..quads] != other_room.links[..quads]) as u64;
        self.other_moved += (one.moved != other.moved) as u64;
    }
}

#[cfg(test)]
mod tests {
    use super::*;
    use crate::calls::{Calls, Plain};
    use crate::cases::{cube_of, paper_types};
    use crate::room::room_of;
    use crate::rust::{CubeParameters, Types};

    /// The mesh of a row of three cubes with colour, the middle one of another type, in room for more.
    fn row() -> (Case, End) {
        let coloured = |tile| CubeParameters { coloured: true, ..cube_of(1.0, tile) };
        let cubes = (0..7).flat_map(|tile| rust::cube(&coloured(tile))).collect();
        let types = Types { cubes, coloured: true, ..paper_types(1.0) };
        let case = Case { dims: [3, 1, 1], grid: vec![1, 6, 1], types, ..Case::default() };
        let mut room = room_of(&case, 18);
        let answer = Plain.mesh_grid(&case, &mut room);
        (case, (answer, room))
    }

    /// Whether a mesh still has the same faces, once it is changed.
    fn agrees(case: &Case, end: &End, change: impl Fn(&mut End)) -> bool {
        let mut changed = end.clone();
        change(&mut changed);
        agree_faces("a row", case, [end, &changed]).is_ok()
    }

    fn attributes(room: &mut Words) -> [(usize, &mut Vec<u32>); 4] {
        [(12, &mut room.positions), (12, &mut room.normals), (8, &mut room.uvs), (16, &mut room.colours)]
    }

    /// Two quads exchange their places, with all that is theirs.
    fn exchange(room: &mut Words, [one, other]: [usize; 2]) {
        for (words, list) in attributes(room) {
            (0..words).for_each(|word| list.swap(words * one + word, words * other + word));
        }
        room.links.swap(one, other);
        let slot_of = |quad: usize| room.slots.iter().position(|&slot| slot as usize == 4 * quad).unwrap();
        let [slot, other_slot] = [one, other].map(slot_of);
        room.slots.swap(slot, other_slot);
    }

    #[test]
    fn a_changed_word_is_told() {
        let (case, end) = row();
        for list in 0..4 {
            let words = end.0.quads as usize * attributes(&mut end.1.clone())[list].0;
            let told = |word: usize| !agrees(&case, &end, |(_, room)| attributes(room)[list].1[word] ^= 1);
            assert!((0..words).all(told) && !told(words));
        }
    }

    #[test]
    fn a_quad_that_is_dropped_is_told() {
        let (case, end) = row();
        assert!(!agrees(&case, &end, |(answer, _)| answer.quads -= 1));
        assert!(!agrees(&case, &end, |(_, room)| room.links[1] = room.links[0]));
    }

    #[test]
    fn links_that_are_exchanged_are_told_and_whole_quads_are_not() {
        let (case, end) = row();
        let quads = end.0.quads as usize;
        for (one, other) in (0..quads).flat_map(|one| (0..one).map(move |other| (one, other))) {
            assert!(!agrees(&case, &end, |(_, room)| room.links.swap(one, other)));
            assert!(agrees(&case, &end, |(_, room)| exchange(room, [one, other])));
            let mut exchanged = end.1.clone();
            exchange(&mut exchanged, [one, other]);
            assert!(exchanged != end.1 && Plain.check_mesh(&case, &exchanged, end.0.quads).number == 0);
        }
    }
}
