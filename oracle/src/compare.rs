//! The library beside the Rust and beside the plain reading. What stands for the library is given, so that a wrong one can be too.

use crate::calls::{Answer, Calls, Plain};
use crate::cases::{added_cubes, made_honest, Case};
use crate::entries::{count_of, is_replaced, split, CHANGE, ENTRY, PAIRED, VOXEL};
use crate::faults::Faulty;
use crate::orders::Orders;
use crate::room::{front, laid, room_for, room_of, SPARE};
use crate::rust::{self, CubeParameters, Registry, Words};
use plain::{Tested, NO_ROOM, REPLACED, WRONG_SET};

/// The source's mode, and the new one.
pub const MODES: [Tested; 2] = [Tested::Opposite, Tested::Itself];

/// The most cells of a grid whose log the Rust does an entry a call too.
const FEW_CELLS: usize = 512;

/// What has been compared with the Rust, and with the plain reading.
#[derive(Default)]
pub struct Tally {
    pub cubes: u64,
    pub grids: u64,
    pub log_entries: u64,
    /// Of them those that are pairs for the Rust, in the order of `PAIRED`.
    pub pairs: [Pairs; 2],
    /// Of the Replaced ones those whose new type is no cube.
    pub replaced_by_no_cube: u64,
    pub quads: u64,
    pub index_entries: u64,
    pub words: u64,
    pub plain_calls: u64,
    pub refusals: [u64; 17],
    /// In the order of `MODES`.
    pub updates: [Updates; 2],
    /// Logs that add cubes, all of which cover opposite sides alike.
    pub same_in_both: u64,
    /// Honest logs that add other cubes, and those of them that the source's mode leaves wrong.
    pub not_alike: u64,
    pub left_wrong: u64,
    /// Mended meshes of registries without an empty type.
    pub mended_without_empty: u64,
    /// Two crews, in the order of `MODES`.
    pub orders: [Orders; 2],
}

/// Entries of a change that is two for the Rust.
#[derive(Default)]
pub struct Pairs {
    pub log_entries: u64,
    /// Of them, on small grids, those by which a quad went and one was drawn.
    pub went_and_drew: u64,
    /// Logs done as they are, and with each such entry in two.
    pub split: u64,
    /// Updates that found no room for one.
    pub without_room: u64,
}

/// Updates compared with the plain reading, in one mode.
#[derive(Default)]
pub struct Updates {
    pub calls: u64,
    /// By the number answered.
    pub answers: [u64; 17],
    pub log_entries: u64,
    pub quads: u64,
    /// Logs after which the mesh passed the check, as demand 3 says.
    pub mended: u64,
    /// Of these the logs with Replaced entries.
    pub mended_replaced: u64,
}

impl Tally {
    /// By the changes that are pairs, with each change's code.
    fn pairs(&mut self) -> impl Iterator<Item = (u8, &mut Pairs)> {
        PAIRED.iter().map(|&(_, change)| change).zip(&mut self.pairs)
    }

    fn call(&mut self, answer: Answer) {
        self.plain_calls += 1;
        self.refusals[answer.number as usize] += 1;
    }

    fn update(&mut self, case: &Case, answer: Answer) {
        self.call(answer);
        if answer.number == NO_ROOM {
            let without_room = case.log[answer.place as usize * ENTRY + CHANGE];
            self.pairs().for_each(|(change, pairs)| pairs.without_room += (change == without_room) as u64);
        }
        let updates = &mut self.updates[case.tested as usize];
        updates.calls += 1;
        updates.answers[answer.number as usize] += 1;
    }
}

pub type Compared<T = ()> = Result<T, String>;

pub(crate) fn agree<T: PartialEq + std::fmt::Debug>(what: &str, library: T, other: T) -> Compared {
    if library == other {
        Ok(())
    } else {
        Err(format!("{what}: library {library:x?}, other {other:x?}"))
    }
}

/// Two lists agree, or their first difference is told.
pub(crate) fn agree_list(what: &str, library: &[u32], other: &[u32]) -> Compared {
    agree(&format!("{what}, length"), library.len(), other.len())?;
    match (0..library.len()).find(|&at| library[at] != other[at]) {
        Some(at) => agree(&format!("{what} {at}"), library[at], other[at]),
        None => Ok(()),
    }
}

fn agree_words(what: &str, library: &Words, other: &Words) -> Compared {
    let mut lists = library.lists().into_iter().zip(other.lists());
    lists.try_for_each(|((word, list), (_, other))| agree_list(&format!("{what}: {word}"), list, other))
}

/// What an update answers, and what it leaves in the room.
pub type End = (Answer, Words);

pub(crate) fn agree_ends(what: &str, library: &End, other: &End) -> Compared {
    agree(what, library.0, other.0)?;
    agree_words(what, &library.1, &other.1)
}

/// How many of the log's entries an update did.
fn entries_done(case: &Case, answer: Answer) -> usize {
    match answer.number {
        0 => case.log.len() / ENTRY,
        NO_ROOM => answer.place as usize,
        _ => 0,
    }
}

/// How many quads a mesh gets more on the way through the log, at most: that many places are no longer as they were.
fn least_spare(case: &Case) -> usize {
    let mesh = rust::mesh(case.dims, &case.outer, &case.grid, &Registry::of(&case.types), case.naive).words();
    let quads = mesh.links.len();
    let mut room = laid(&mesh, room_of(case, quads));
    assert_eq!(Plain.update_mesh(case, &mut room, quads as u64).number, 0, "a log in room to spare");
    room.links[quads..].iter().take_while(|&&link| link != SPARE).count()
}

/// Whether all cubes that the log adds cover opposite sides alike.
fn adds_alike(case: &Case) -> bool {
    added_cubes(case).all(|cube| case.types.covers_alike(cube))
}

/// Whether demand 3 speaks of an honest log in the case's mode.
pub(crate) fn mends(case: &Case) -> bool {
    case.tested == Tested::Itself || adds_alike(case)
}

/// The case with the grid that its log leaves; the log has to be honest.
pub(crate) fn after_honest_log(case: &Case) -> Compared<Case> {
    let (honest, grid) = made_honest(case).ok_or("a log that demand 3 does not speak of")?;
    agree("the log made honest", &case.log, &honest.log)?;
    Ok(Case { grid, ..honest })
}

/// A mesh in room for `spare` quads more, or for all that the grid can have.
pub(crate) fn with_spare(mesh: &Words, case: &Case, spare: usize) -> Words {
    let quads = mesh.links.len().saturating_add(spare).min(6 * case.grid.len());
    laid(mesh, room_for(quads, case))
}

pub struct Comparison<'a> {
    library: &'a dyn Calls,
    pub tally: Tally,
}

impl<'a> Comparison<'a> {
    pub fn of(library: &'a dyn Calls) -> Self {
        Comparison { library, tally: Tally::default() }
    }

    /// A cube's floats, beside the Rust.
    pub fn cube(&mut self, parameters: &CubeParameters) -> Compared {
        let expected = rust::cube(parameters);
        let mut out = vec![SPARE; expected.len() + 3];
        agree("cube", self.library.generate_voxel_mesh(parameters, &mut out), Answer::default())?;
        agree_list("cube, float", &out[..expected.len()], &expected)?;
        agree_list("cube, spare", &out[expected.len()..], &[SPARE; 3])?;
        self.tally.cubes += 1;
        self.tally.words += expected.len() as u64;
        Ok(())
    }

    /// A fresh mesh and the source's mode of the update beside the Rust; the check and both modes beside the plain reading.
    pub fn case(&mut self, case: &Case) -> Compared {
        let registry = Registry::of(&case.types);
        let mut meshed = rust::mesh(case.dims, &case.outer, &case.grid, &registry, case.naive);
        let fresh = meshed.words();
        let empty = room_of(case, fresh.links.len());
        let mut room = empty.clone();
        let answer = self.library.mesh_grid(case, &mut room);
        self.with_the_rust("mesh", case, answer, &room, &fresh)?;
        agree_words("mesh, with spare room", &room, &laid(&fresh, empty.clone()))?;
        self.tally.grids += 1;

        let checked = self.check("check", case, &room, answer.quads)?;
        if !case.naive {
            agree("check of a mesh that the Rust culled", checked, Answer::default())?;
        }

        let ends = self.both_modes(case, &laid(&fresh, empty), answer.quads)?;
        let [(answer, room), _] = &ends;
        meshed.update(&registry, &case.log);
        let updated = meshed.words();
        self.updated_by_the_rust(case, *answer, room, &updated)?;
        if case.grid.len() <= FEW_CELLS {
            self.by_entry(case, &registry, &updated)?;
        }
        for (tested, (answer, room)) in MODES.iter().zip(&ends) {
            self.check(&format!("check after the log, {tested:?} tested"), case, room, answer.quads)?;
        }
        Ok(())
    }

    /// The library's mesh and the Rust's.
    fn with_the_rust(&mut self, what: &str, case: &Case, answer: Answer, room: &Words, expected: &Words) -> Compared {
        agree(&format!("{what}: refusal"), (answer.number, answer.place), (0, 0))?;
        agree(&format!("{what}: quads"), answer.quads, expected.links.len() as u64)?;
        agree_words(what, &front(room, expected.links.len(), case), expected)?;
        let words: usize = expected.lists().iter().map(|(_, list)| list.len()).sum();
        self.tally.quads += answer.quads;
        self.tally.index_entries += expected.slots.len() as u64;
        self.tally.words += (words - expected.slots.len()) as u64;
        Ok(())
    }

    /// The log of a case in the source's mode, and the Rust's.
    fn updated_by_the_rust(&mut self, case: &Case, answer: Answer, room: &Words, expected: &Words) -> Compared {
        self.with_the_rust("update", case, answer, room, expected)?;
        self.tally.log_entries += (case.log.len() / ENTRY) as u64;
        self.tally.pairs().for_each(|(change, pairs)| pairs.log_entries += count_of(change, &case.log));
        let by_no_cube = |entry: &&[u8]| is_replaced(entry) && !case.types.is_cube(entry[VOXEL]);
        self.tally.replaced_by_no_cube += case.log.chunks_exact(ENTRY).filter(by_no_cube).count() as u64;
        Ok(())
    }

    /// The Rust an entry a call, beside itself: what each entry did can be seen.
    fn by_entry(&mut self, case: &Case, registry: &Registry, updated: &Words) -> Compared {
        let mut meshed = rust::mesh(case.dims, &case.outer, &case.grid, registry, case.naive);
        for (entry, both) in case.log.chunks_exact(ENTRY).zip(meshed.update_by_entry(registry, &case.log)) {
            self.tally.pairs().for_each(|(change, pairs)| pairs.went_and_drew += (both && change == entry[CHANGE]) as u64);
        }
        agree_words("the Rust, an entry a call and the log in one", &meshed.words(), updated)
    }

    pub(crate) fn check(&mut self, what: &str, case: &Case, mesh: &Words, count: u64) -> Compared<Answer> {
        let answer = self.library.check_mesh(case, mesh, count);
        agree(what, answer, Plain.check_mesh(case, mesh, count))?;
        self.tally.call(answer);
        Ok(answer)
    }

    /// The log in both modes; cubes that cover opposite sides alike have to give the same in both.
    fn both_modes(&mut self, case: &Case, start: &Words, count: u64) -> Compared<[End; 2]> {
        let [source, new] = MODES.map(|tested| self.log(&Case { tested, ..case.clone() }, start, count));
        let ends = [source?, new?];
        if adds_alike(case) {
            agree_ends("update, the source's mode and the new one", &ends[0], &ends[1])?;
            self.tally.same_in_both += added_cubes(case).next().is_some() as u64;
        }
        Ok(ends)
    }

    /// The log in the case's mode, in one call and in two, and with its pairs split.
    fn log(&mut self, case: &Case, start: &Words, count: u64) -> Compared<End> {
        let what = format!("update, {:?} tested", case.tested);
        let end = self.update(&what, case, start, count)?;
        let (first, then) = case.log.split_at(case.log.len() / ENTRY / 2 * ENTRY);
        agree_ends(&format!("{what}, in two calls"), &self.in_calls(case, [first, then], start, count), &end)?;
        self.split(&what, case, start, count, &end)?;
        let updates = &mut self.tally.updates[case.tested as usize];
        updates.log_entries += entries_done(case, end.0) as u64;
        updates.quads += end.0.quads;
        Ok(end)
    }

    /// Every Sides and every Replaced entry in two leaves the same, where the log as it is was done.
    fn split(&mut self, what: &str, case: &Case, start: &Words, count: u64, end: &End) -> Compared {
        if end.0.number != 0 || PAIRED.iter().all(|&(_, change)| count_of(change, &case.log) == 0) {
            return Ok(());
        }
        let what = format!("{what}, Sides and Replaced split");
        let halves = Case { log: split(&case.log), ..case.clone() };
        let split_end = self.update(&what, &halves, start, count)?;
        self.tally.pairs().for_each(|(change, pairs)| pairs.split += (count_of(change, &case.log) > 0) as u64);
        agree_ends(&what, &split_end, end)
    }

    /// The update in the case's mode beside the plain reading, every list whole.
    pub(crate) fn update(&mut self, what: &str, case: &Case, start: &Words, count: u64) -> Compared<End> {
        let (mut ours, mut plain) = (start.clone(), start.clone());
        let answer = self.library.update_mesh(case, &mut ours, count);
        let end = (answer, ours);
        agree_ends(what, &end, &(Plain.update_mesh(case, &mut plain, count), plain))?;
        self.tally.update(case, answer);
        Ok(end)
    }

    /// A call for each part of a log, up to the first without room, told as one call with the whole log would be.
    pub(crate) fn in_calls<'p>(&self, case: &Case, parts: impl IntoIterator<Item = &'p [u8]>, start: &Words, count: u64) -> End {
        let mut room = start.clone();
        let mut told = Answer { quads: count, ..Answer::default() };
        let mut call = case.clone();
        let mut entries = 0;
        for part in parts {
            call.log = part.to_vec();
            let answer = self.library.update_mesh(&call, &mut room, told.quads);
            told = Answer { moved: told.moved + answer.moved, ..answer };
            if answer.number != 0 {
                told.place += entries;
                break;
            }
            entries += (part.len() / ENTRY) as u64;
        }
        (told, room)
    }

    /// The log in both modes in room for `spare` quads more, or for all that the grid can have; the source's mode beside the Rust too, where it is done.
    /// Tells the lists before it, their quads, and the two ends.
    fn in_room(&mut self, case: &Case, spare: usize) -> Compared<(Words, u64, [End; 2])> {
        let registry = Registry::of(&case.types);
        let mut meshed = rust::mesh(case.dims, &case.outer, &case.grid, &registry, case.naive);
        let mesh = meshed.words();
        let quads = mesh.links.len();
        let start = with_spare(&mesh, case, spare);
        let ends = self.both_modes(case, &start, quads as u64)?;
        let [(answer, room), _] = &ends;
        if answer.number == 0 {
            meshed.update(&registry, &case.log);
            self.updated_by_the_rust(case, *answer, room, &meshed.words())?;
        }
        Ok((start, quads as u64, ends))
    }

    /// The log in the least room in which the source's mode does it, in room for a quad less, and in room for `spare` quads more than there are.
    pub fn in_little_room(&mut self, case: &Case, spare: usize) -> Compared {
        let least = least_spare(case);
        let rooms = [Some(least), least.checked_sub(1), Some(spare)];
        rooms.into_iter().flatten().try_for_each(|spare| self.in_room(case, spare).map(drop))
    }

    /// Demand 3: after a log that it speaks of, the mesh passes for the grid that the log leaves. Where an entry finds no room, those before it are the log.
    pub fn mended(&mut self, case: &Case, spare: usize) -> Compared {
        let (start, quads, ends) = self.in_room(case, spare)?;
        for (tested, end) in MODES.into_iter().zip(&ends) {
            let mut case = Case { tested, ..case.clone() };
            let by_entry = self.in_calls(&case, case.log.chunks_exact(ENTRY), &start, quads);
            agree_ends(&format!("update, {tested:?} tested, a call for each entry"), &by_entry, end)?;
            case.log.truncate(entries_done(&case, end.0) * ENTRY);
            self.left(&case, end)?;
        }
        Ok(())
    }

    /// The check of what a log left. Only the source's mode, with cubes that don't cover opposite sides alike, may leave a wrong set.
    fn left(&mut self, case: &Case, (answer, room): &End) -> Compared {
        let what = format!("check of a mended mesh, {:?} tested", case.tested);
        let number = self.check(&what, &after_honest_log(case)?, room, answer.quads)?.number;
        let mends = mends(case);
        if mends || number != WRONG_SET {
            agree(&what, number, 0)?;
        }
        if !case.log.is_empty() {
            let updates = &mut self.tally.updates[case.tested as usize];
            updates.mended += mends as u64;
            updates.mended_replaced += (mends && count_of(REPLACED, &case.log) > 0) as u64;
            self.tally.mended_without_empty += (mends && case.types.lowest_empty().is_none()) as u64;
            self.tally.not_alike += !mends as u64;
            self.tally.left_wrong += (number == WRONG_SET) as u64;
        }
        Ok(())
    }

    /// Inputs made wrong, or short of room: the four calls beside the plain reading, every buffer whole.
    pub fn faults(&mut self, parameters: &CubeParameters, case: &Case, seed: u64) -> Compared {
        let Faulty { parameters, out, case, room, count } = Faulty::of(parameters, case, seed);

        let (mut ours, mut plain) = (out.clone(), out);
        let answer = self.library.generate_voxel_mesh(&parameters, &mut ours);
        agree("faulty cube", answer, Plain.generate_voxel_mesh(&parameters, &mut plain))?;
        agree_list("faulty cube, word", &ours, &plain)?;
        self.tally.call(answer);

        let (mut ours, mut plain) = (room.clone(), room.clone());
        let answer = self.library.mesh_grid(&case, &mut ours);
        agree("faulty mesh", answer, Plain.mesh_grid(&case, &mut plain))?;
        agree_words("faulty mesh", &ours, &plain)?;
        self.tally.call(answer);

        let end = self.update("faulty update", &case, &room, count)?;
        self.split("faulty update", &case, &room, count, &end)?;
        self.check("faulty check", &case, &room, count)?;
        Ok(())
    }

    /// The update at a limit, beside the plain reading; the mesh is that of one cube.
    pub fn limit(&mut self, case: &Case) -> Compared {
        let mesh = rust::mesh([1; 3], &[], &case.grid, &Registry::of(&case.types), false).words();
        self.update("update", case, &laid(&mesh, room_for(6, case)), 6)?;
        Ok(())
    }
}

#[cfg(test)]
mod tests {
    use super::*;
    use crate::cases::paper_types;
    use crate::entries::{entry, replaced, OUTSIDE};
    use plain::{DRAW, HIDE, KEEP, SIDES};

    /// No reading of `tests/told.rs` gets here: one that is wrong is told beside the plain reading first. The halves speak where both are wrong alike.
    #[test]
    fn an_end_that_its_halves_do_not_leave_is_told() {
        let sides = entry(0, SIDES, 1, &[HIDE, KEEP, DRAW, KEEP, KEEP, HIDE]);
        let swap = replaced(1, 1, 3, &[OUTSIDE, OUTSIDE, 1, 1, OUTSIDE, OUTSIDE]);
        for log in [sides, swap] {
            let case = Case { dims: [3, 1, 1], grid: vec![1; 3], types: paper_types(1.0), log, ..Case::default() };
            let mut start = room_of(&case, 14);
            let count = Plain.mesh_grid(&case, &mut start).quads;
            let mut room = start.clone();
            let answer = Plain.update_mesh(&case, &mut room, count);
            let agrees = |answer, room: &Words| {
                Comparison::of(&Plain).split("update", &case, &start, count, &(answer, room.clone())).is_ok()
            };
            assert!(answer.number == 0 && agrees(answer, &room));
            assert!(!agrees(Answer { moved: answer.moved + 1, ..answer }, &room));
            room.uvs[3] ^= 1;
            assert!(!agrees(answer, &room));
        }
    }
}
