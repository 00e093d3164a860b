//! The comparison can fail: readings that are wrong on purpose stand for the library, and each has to be told.

use oracle::calls::{Answer, Calls, Plain, Reading};
use oracle::cases::{paper_types, Added, Case, Random};
use oracle::compare::{Comparison, MODES};
use oracle::crews::Crews;
use oracle::entries::{
    alone, broken_and_added, cell_of, changed, entry, halves, is_replaced, is_sides, replaced, CHANGE, ENTRY, FORMER, GIVEN,
    OUTSIDE, VOXEL, ZEROS,
};
use oracle::orders::agree_faces;
use oracle::room::room_of;
use oracle::rust::{CubeParameters, Words};
use plain::{Tested, ADDED, BAD_ENTRY, BROKEN, DRAW, HIDE, KEEP, NO_FORMER, NO_ROOM, REPLACED, SIDES};

const RIGHT: Reading = Reading::PLAIN;

type Update = fn(&Case, &mut Words, u64) -> Answer;

/// The new mode never, and always.
const NEVER_NEW: Reading = Reading { update: |case, room, count| in_mode(Tested::Opposite, case, room, count), ..RIGHT };
const ALWAYS_NEW: Reading = Reading { update: |case, room, count| in_mode(Tested::Itself, case, room, count), ..RIGHT };

fn in_mode(tested: Tested, case: &Case, room: &mut Words, count: u64) -> Answer {
    Plain.update_mesh(&Case { tested, ..case.clone() }, room, count)
}

/// The plain reading with some lists longer or shorter than they are lent. What it writes goes back as far as they are.
struct Lent(fn(&Case, &mut Words));

impl Lent {
    fn call(&self, case: &Case, room: &mut Words, call: impl FnOnce(&mut Words) -> Answer) -> Answer {
        let mut other = room.clone();
        self.0(case, &mut other);
        let answer = call(&mut other);
        for (list, (_, words)) in room.lists_mut().into_iter().zip(other.lists()) {
            let both = list.len().min(words.len());
            list[..both].copy_from_slice(&words[..both]);
        }
        answer
    }
}

impl Calls for Lent {
    fn generate_voxel_mesh(&self, parameters: &CubeParameters, out: &mut [u32]) -> Answer {
        Plain.generate_voxel_mesh(parameters, out)
    }
    fn mesh_grid(&self, case: &Case, room: &mut Words) -> Answer {
        self.call(case, room, |room| Plain.mesh_grid(case, room))
    }
    fn update_mesh(&self, case: &Case, room: &mut Words, count: u64) -> Answer {
        self.call(case, room, |room| Plain.update_mesh(case, room, count))
    }
    fn check_mesh(&self, case: &Case, mesh: &Words, count: u64) -> Answer {
        self.call(case, &mut mesh.clone(), |mesh| Plain.check_mesh(case, mesh, count))
    }
}

/// The plain reading of a log whose entries are taken for others. A place is that of the entry as it stands.
fn read_as(case: &Case, room: &mut Words, count: u64, other: impl Fn(&[u8]) -> Vec<u8>) -> Answer {
    let entries = case.log.chunks_exact(ENTRY);
    let ragged = entries.remainder();
    let parts: Vec<Vec<u8>> = entries.map(other).collect();
    let log = [&parts.concat()[..], ragged].concat();
    let answer = Plain.update_mesh(&Case { log, ..case.clone() }, room, count);
    let ends = parts.iter().scan(0, |end, part| {
        *end += part.len() / ENTRY;
        Some(*end as u64)
    });
    match answer.number {
        BAD_ENTRY | NO_ROOM => Answer { place: ends.filter(|&end| end <= answer.place).count() as u64, ..answer },
        _ => answer,
    }
}

/// The plain reading's refusal, if it is another than NO_ROOM.
fn refused(case: &Case, room: &Words, count: u64) -> Option<Answer> {
    let right = Plain.update_mesh(case, &mut room.clone(), count);
    (!matches!(right.number, 0 | NO_ROOM)).then_some(right)
}

/// The plain reading with entries of one change taken for others, in logs that are not refused.
fn change_read_as(change: u8, case: &Case, room: &mut Words, count: u64, other: impl Fn(&[u8]) -> Vec<u8>) -> Answer {
    let taken_for = |entry: &[u8]| if entry[CHANGE] == change { other(entry) } else { entry.to_vec() };
    refused(case, room, count).unwrap_or_else(|| read_as(case, room, count, taken_for))
}

fn sides_read_as(case: &Case, room: &mut Words, count: u64, other: impl Fn(&[u8]) -> Vec<u8>) -> Answer {
    change_read_as(SIDES, case, room, count, other)
}

fn replaced_read_as(case: &Case, room: &mut Words, count: u64, other: impl Fn(&[u8]) -> Vec<u8>) -> Answer {
    change_read_as(REPLACED, case, room, count, other)
}

/// A log that is not refused, an entry at a time, by a reading of one entry that does it or finds no room.
fn by_entry(case: &Case, room: &mut Words, count: u64, one: impl Fn(&Case, &mut Words, u64) -> Answer) -> Answer {
    if let Some(refused) = refused(case, room, count) {
        return refused;
    }
    let mut told = Answer { quads: count, ..Answer::default() };
    for (number, entry) in case.log.chunks_exact(ENTRY).enumerate() {
        let done = one(&Case { log: entry.to_vec(), ..case.clone() }, room, told.quads);
        if done.number != 0 {
            return Answer { number: NO_ROOM, place: number as u64, ..told };
        }
        told = Answer { moved: told.moved + done.moved, ..done };
    }
    told
}

/// An entry that is done if there is room for another.
fn asking_for(asked: Vec<u8>, one: &Case, room: &mut Words, count: u64) -> Answer {
    let asked = Plain.update_mesh(&Case { log: asked, ..one.clone() }, &mut room.clone(), count);
    if asked.number == 0 {
        Plain.update_mesh(one, room, count)
    } else {
        asked
    }
}

/// How many times a case is made wrong.
const FAULTS: usize = 8;

const WHOLE: usize = 0;
const FAULTY: usize = 1;
const MENDED: usize = 2;
const LITTLE_ROOM: usize = 3;
const CREWS: usize = 4;

/// Of how many cases a disagreement is told: whole ones, faulty ones, ones to be mended, foolish ones in little room, two crews.
fn told(reading: &dyn Calls) -> [usize; 5] {
    let (mut random, mut later) = (Random(1), Random(2));
    let mut comparison = Comparison::of(reading);
    let mut told = [0; 5];
    for _ in 0..300 {
        let (parameters, case) = (random.cube(), random.case());
        let mendable = random.mendable(Added::AnyCubes);
        let (foolish, spare) = (random.foolish_case(), random.below(6));
        told[WHOLE] += comparison.case(&case).is_err() as usize;
        for _ in 0..FAULTS {
            let (faulty, fault) = (Case { tested: random.pick(&MODES), ..case.clone() }, random.word() as u64);
            told[FAULTY] += comparison.faults(&parameters, &faulty, fault).is_err() as usize;
        }
        told[MENDED] += comparison.mended(&mendable, usize::MAX).is_err() as usize;
        told[LITTLE_ROOM] += comparison.in_little_room(&foolish, spare).is_err() as usize;
        let (crews, touching, spare) = (later.crews(), later.touching_crews(), later.below(16));
        told[CREWS] += comparison.either_order(&crews, later.word() as u64, spare).is_err() as usize;
        told[CREWS] += comparison.touching(&touching, spare).is_err() as usize;
    }
    told
}

/// By the cases of these kinds, each.
fn assert_told_by(kinds: &[usize], wrong: impl Calls) {
    let told = told(&wrong);
    assert!(kinds.iter().all(|&kind| told[kind] > 0), "{told:?}");
}

fn assert_told(wrong: impl Calls) {
    assert_told_by(&[WHOLE, FAULTY, MENDED], wrong);
}

#[test]
fn nothing_is_told_of_the_right_reading() {
    assert_eq!(told(&RIGHT), [0; 5]);
    assert_eq!(told(&Lent(|_, _| ())), [0; 5]);
    let same: [Update; 2] = [
        |case, room, count| read_as(case, room, count, <[u8]>::to_vec),
        |case, room, count| by_entry(case, room, count, |one, room, quads| Plain.update_mesh(one, room, quads)),
    ];
    for update in same {
        assert_eq!(told(&Reading { update, ..RIGHT }), [0; 5]);
    }
}

#[test]
fn the_wrong_mode_is_told() {
    assert_told(NEVER_NEW);
    assert_told(ALWAYS_NEW);
}

/// Document 01's case 7 is enough, and the mode at fault is named.
#[test]
fn one_slab_in_the_wrong_mode_is_told() {
    let log = entry(1, ADDED, 3, &[OUTSIDE, 1, OUTSIDE, OUTSIDE, OUTSIDE, OUTSIDE]);
    let slab = Case { dims: [1, 2, 1], grid: vec![1, 0], types: paper_types(1.0), log, ..Case::default() };
    for (wrong, named) in [(NEVER_NEW, "update, Itself tested:"), (ALWAYS_NEW, "update, Opposite tested:")] {
        let difference = Comparison::of(&wrong).case(&slab).unwrap_err();
        assert!(difference.starts_with(named), "{difference}");
    }
}

#[test]
fn a_wrong_count_of_moves_is_told() {
    let update = |case: &Case, room: &mut Words, count: u64| {
        let answer = Plain.update_mesh(case, room, count);
        Answer { moved: answer.moved.saturating_sub((case.tested == Tested::Itself) as u64), ..answer }
    };
    assert_told(Reading { update, ..RIGHT });
}

#[test]
fn a_spare_place_that_is_touched_is_told() {
    let update = |case: &Case, room: &mut Words, count: u64| {
        let answer = Plain.update_mesh(case, room, count);
        if let (Tested::Itself, Some(last)) = (case.tested, room.slots.last_mut()) {
            *last = 0;
        }
        answer
    };
    assert_told(Reading { update, ..RIGHT });
}

#[test]
fn a_check_that_passes_everything_is_told() {
    assert_told(Reading { check: |_, _, _| Answer::default(), ..RIGHT });
}

#[test]
fn colours_counted_without_colour_are_told() {
    assert_told(Lent(|case, room| {
        if !case.types.coloured {
            room.links.truncate(room.colours.len() / 16);
        }
    }));
}

#[test]
fn a_colour_list_touched_without_colour_is_told() {
    let update = |case: &Case, room: &mut Words, count: u64| {
        let answer = Plain.update_mesh(case, room, count);
        if let (false, Some(first)) = (case.types.coloured, room.colours.first_mut()) {
            *first = 0;
        }
        answer
    };
    assert_told(Reading { update, ..RIGHT });
}

/// Room for every mesh that is tried here.
const PLENTY: usize = 1 << 14;

/// Finds room for everything.
const ROOMY: Lent = Lent(|_, room| {
    let Words { positions, normals, uvs, colours, triangles, links, slots: _ } = room;
    [positions, normals, uvs, colours, triangles, links].into_iter().for_each(|list| list.resize(PLENTY.max(list.len()), 0));
});

/// Only a room that is short tells of it, and those are among the faulty cases.
#[test]
fn a_list_forgotten_in_the_room_is_told() {
    let forgetful: [fn(&Case, &mut Words); 6] = [
        |_, room| room.positions.resize(PLENTY, 0),
        |_, room| room.normals.resize(PLENTY, 0),
        |_, room| room.uvs.resize(PLENTY, 0),
        |_, room| room.colours.resize(PLENTY, 0),
        |_, room| room.triangles.resize(PLENTY, 0),
        |_, room| room.links.resize(PLENTY, 0),
    ];
    for (list, forgets) in forgetful.into_iter().enumerate() {
        assert!(told(&Lent(forgets))[1] > 0, "list {list}");
    }
}

#[test]
fn drawing_before_hiding_is_told() {
    let update = |case: &Case, room: &mut Words, count: u64| {
        sides_read_as(case, room, count, |entry| [DRAW, HIDE].map(|way| alone(entry, way)).concat())
    };
    assert_told_by(&[WHOLE, FAULTY, LITTLE_ROOM], Reading { update, ..RIGHT });
}

/// Each Sides entry as two: where there is no room, what hides is done, and what draws is not.
fn half_done(case: &Case, room: &mut Words, count: u64) -> Answer {
    sides_read_as(case, room, count, |entry| halves(entry).concat())
}

/// Only a room that is short tells of it.
#[test]
fn sides_that_are_half_done_are_told() {
    assert_told_by(&[LITTLE_ROOM], Reading { update: half_done, ..RIGHT });
}

#[test]
fn a_kept_side_that_is_drawn_is_told() {
    let update = |case: &Case, room: &mut Words, count: u64| {
        sides_read_as(case, room, count, |entry| changed(entry, SIDES, |side| if side == KEEP { DRAW } else { side }))
    };
    assert_told_by(&[WHOLE, FAULTY, LITTLE_ROOM], Reading { update, ..RIGHT });
}

#[test]
fn sides_of_no_cube_that_draw_are_told() {
    let update = |case: &Case, room: &mut Words, count: u64| {
        sides_read_as(case, room, count, |entry| {
            let cube = case.types.kinds.iter().position(|&kind| kind == 1);
            let drawn = cube.filter(|_| case.types.kinds.get(entry[VOXEL] as usize).is_some_and(|&kind| kind != 1));
            [&entry[..VOXEL], &[drawn.map_or(entry[VOXEL], |cube| cube as u8)], &entry[VOXEL + 1..]].concat()
        })
    };
    assert_told_by(&[WHOLE, FAULTY, LITTLE_ROOM], Reading { update, ..RIGHT });
}

/// The former CullFaces, which has the same code: whatever is not outside is hidden.
#[test]
fn sides_read_as_neighbours_are_told() {
    let update =
        |case: &Case, room: &mut Words, count: u64| sides_read_as(case, room, count, |entry| changed(entry, SIDES, |_| HIDE));
    assert_told_by(&[WHOLE, FAULTY, LITTLE_ROOM], Reading { update, ..RIGHT });
}

/// A side that is no type: a registry of one type or two tells of it.
#[test]
fn sides_tested_as_types_are_told() {
    let update = |case: &Case, room: &mut Words, count: u64| {
        let types = case.types.kinds.len();
        sides_read_as(case, room, count, |entry| changed(entry, SIDES, |side| if (side as usize) < types { side } else { 255 }))
    };
    assert_told_by(&[WHOLE, FAULTY, LITTLE_ROOM], Reading { update, ..RIGHT });
}

/// Asks for the room of what a Sides entry draws, whatever it hides.
fn forgets_the_hidden(case: &Case, room: &mut Words, count: u64) -> Answer {
    by_entry(case, room, count, |one, room, quads| {
        let asked = if is_sides(&one.log) { alone(&one.log, DRAW) } else { one.log.clone() };
        asking_for(asked, one, room, quads)
    })
}

/// Only a room that is short tells of it.
#[test]
fn room_without_what_is_hidden_is_told() {
    assert_told_by(&[LITTLE_ROOM], Reading { update: forgets_the_hidden, ..RIGHT });
}

/// The middle one of three cubes hides its Top, and draws the two sides that it lacks: one entry is enough.
#[test]
fn one_sides_entry_in_little_room_is_told() {
    let log = entry(1, SIDES, 1, &[HIDE, KEEP, DRAW, DRAW, KEEP, KEEP]);
    let row = Case { dims: [3, 1, 1], grid: vec![1; 3], types: paper_types(1.0), log, ..Case::default() };
    let compared = |update| Comparison::of(&Reading { update, ..RIGHT }).in_little_room(&row, 0);
    compared(half_done).unwrap_err();
    compared(forgets_the_hidden).unwrap_err();
    compared(RIGHT.update).unwrap();
}

/// Only an entry made wrong tells of these two.
#[test]
fn a_side_of_three_that_is_taken_is_told() {
    let update = |case: &Case, room: &mut Words, count: u64| {
        let keeps = |entry: &[u8]| changed(entry, SIDES, |side| if side == 3 { KEEP } else { side });
        read_as(case, room, count, |entry| if is_sides(entry) { keeps(entry) } else { entry.to_vec() })
    };
    assert_told_by(&[FAULTY], Reading { update, ..RIGHT });
}

#[test]
fn a_change_of_four_that_is_taken_is_told() {
    let update = |case: &Case, room: &mut Words, count: u64| {
        let replaces = |entry: &[u8]| [&entry[..CHANGE], &[REPLACED], &entry[VOXEL..]].concat();
        read_as(case, room, count, |entry| if entry[CHANGE] == REPLACED + 1 { replaces(entry) } else { entry.to_vec() })
    };
    assert_told_by(&[FAULTY], Reading { update, ..RIGHT });
}

/// Broken and then Added, of other types than a Replaced entry says.
fn pair_of(replaced: &[u8], broken: u8, added: u8) -> Vec<u8> {
    let of = |change: u8, voxel: u8| entry(cell_of(replaced), change, voxel, &replaced[GIVEN]);
    [of(BROKEN, broken), of(ADDED, added)].concat()
}

/// The halves alone, the second one first, of the former type both, of the new type both, the two types exchanged.
#[test]
fn replaced_read_as_another_pair_is_told() {
    let wrong: [Update; 6] = [
        |case, room, count| replaced_read_as(case, room, count, |entry| broken_and_added(entry)[0].clone()),
        |case, room, count| replaced_read_as(case, room, count, |entry| broken_and_added(entry)[1].clone()),
        |case, room, count| replaced_read_as(case, room, count, |entry| halves(entry).into_iter().rev().flatten().collect()),
        |case, room, count| replaced_read_as(case, room, count, |entry| pair_of(entry, entry[FORMER], entry[FORMER])),
        |case, room, count| replaced_read_as(case, room, count, |entry| pair_of(entry, entry[VOXEL], entry[VOXEL])),
        |case, room, count| replaced_read_as(case, room, count, |entry| pair_of(entry, entry[VOXEL], entry[FORMER])),
    ];
    for update in wrong {
        assert_told_by(&[WHOLE, FAULTY, MENDED, LITTLE_ROOM], Reading { update, ..RIGHT });
    }
}

/// As Added does nothing of such a type. No honest log of demand 3 has one.
#[test]
fn replaced_by_no_cube_that_does_nothing_is_told() {
    let update = |case: &Case, room: &mut Words, count: u64| {
        replaced_read_as(case, room, count, |entry| if case.types.is_cube(entry[VOXEL]) { entry.to_vec() } else { vec![] })
    };
    assert_told_by(&[WHOLE, FAULTY, LITTLE_ROOM], Reading { update, ..RIGHT });
}

/// Of the moves of a Replaced entry only those of its second half are told.
#[test]
fn moves_of_half_a_replaced_entry_are_told() {
    let update = |case: &Case, room: &mut Words, count: u64| {
        by_entry(case, room, count, |one, room, quads| {
            let first = Case { log: halves(&one.log)[0].clone(), ..one.clone() };
            let moved = if is_replaced(&one.log) { Plain.update_mesh(&first, &mut room.clone(), quads).moved } else { 0 };
            let done = Plain.update_mesh(one, room, quads);
            Answer { moved: done.moved.saturating_sub(moved), ..done }
        })
    };
    assert_told_by(&[WHOLE, FAULTY, MENDED, LITTLE_ROOM], Reading { update, ..RIGHT });
}

/// Each Replaced entry as two: where there is no room, the former type is broken, and the new one is not there.
fn half_replaced(case: &Case, room: &mut Words, count: u64) -> Answer {
    replaced_read_as(case, room, count, |entry| halves(entry).concat())
}

/// Asks for the room of a Replaced entry's first half, and does both.
fn asks_for_the_first_half(case: &Case, room: &mut Words, count: u64) -> Answer {
    by_entry(case, room, count, |one, room, quads| {
        let first = Case { log: halves(&one.log)[0].clone(), ..one.clone() };
        let asked = Plain.update_mesh(&first, &mut room.clone(), quads);
        match asked.number {
            0 if is_replaced(&one.log) => ROOMY.update_mesh(one, room, quads),
            _ => Plain.update_mesh(one, room, quads),
        }
    })
}

/// Asks for the room of a cube's sides, even if the new type is none.
fn asks_for_a_cube(case: &Case, room: &mut Words, count: u64) -> Answer {
    by_entry(case, room, count, |one, room, quads| {
        let cube = one.types.kinds.iter().position(|&kind| kind == 1).filter(|_| is_replaced(&one.log));
        let asked = cube.map(|cube| replaced(cell_of(&one.log), one.log[FORMER], cube as u8, &one.log[GIVEN]));
        asking_for(asked.unwrap_or(one.log.clone()), one, room, quads)
    })
}

/// Only a room that is short tells of these three.
#[test]
fn replaced_without_room_is_told() {
    for update in [half_replaced as Update, asks_for_the_first_half, asks_for_a_cube] {
        assert_told_by(&[LITTLE_ROOM], Reading { update, ..RIGHT });
    }
}

/// The middle one of three cubes, of which two cubes show a side then: one entry is enough, by a cube, and by air.
#[test]
fn one_replaced_entry_in_little_room_is_told() {
    let compared = |voxel: u8, update| {
        let log = replaced(1, 1, voxel, &[OUTSIDE, OUTSIDE, 1, 1, OUTSIDE, OUTSIDE]);
        let row = Case { dims: [3, 1, 1], grid: vec![1; 3], types: paper_types(1.0), log, ..Case::default() };
        Comparison::of(&Reading { update, ..RIGHT }).in_little_room(&row, 0)
    };
    for voxel in [0, 1] {
        compared(voxel, RIGHT.update).unwrap();
    }
    compared(1, half_replaced).unwrap_err();
    compared(1, asks_for_the_first_half).unwrap_err();
    compared(0, asks_for_a_cube).unwrap_err();
}

/// The plain reading that takes any former type of one change for one that it may have.
fn taking_former_types(of: u8, case: &Case, room: &mut Words, count: u64) -> Answer {
    let is_type = |voxel: u8| (voxel as usize) < case.types.kinds.len();
    read_as(case, room, count, |entry| {
        let mut other = entry.to_vec();
        match entry[CHANGE] {
            change if change != of => (),
            BROKEN => other[FORMER] = entry[VOXEL],
            REPLACED if is_type(entry[FORMER]) => (),
            REPLACED => other[FORMER] = entry[VOXEL],
            _ => other[FORMER] = NO_FORMER,
        }
        other
    })
}

/// Only an entry made wrong tells of these.
#[test]
fn a_wrong_former_type_that_is_taken_is_told() {
    let taking: [Update; 4] = [
        |case, room, count| taking_former_types(BROKEN, case, room, count),
        |case, room, count| taking_former_types(ADDED, case, room, count),
        |case, room, count| taking_former_types(SIDES, case, room, count),
        |case, room, count| taking_former_types(REPLACED, case, room, count),
    ];
    for update in taking {
        assert_told_by(&[FAULTY], Reading { update, ..RIGHT });
    }
}

#[test]
fn a_spare_byte_that_is_taken_is_told() {
    let update = |case: &Case, room: &mut Words, count: u64| {
        read_as(case, room, count, |entry| [&entry[..ZEROS.start], &[0; ZEROS.end - ZEROS.start]].concat())
    };
    assert_told_by(&[FAULTY], Reading { update, ..RIGHT });
}

/// A quad that takes another's place takes its uvs too. Where quads come to lie hangs on the order of a log.
fn leaves_uvs_behind(case: &Case, room: &mut Words, count: u64) -> Answer {
    let before = room.clone();
    let answer = Plain.update_mesh(case, room, count);
    for place in 0..answer.quads.min(count) as usize {
        let (link, was_there) = (room.links[place], &before.links[..count as usize]);
        if link != before.links[place] && was_there.contains(&link) {
            room.uvs[8 * place..][..8].copy_from_slice(&before.uvs[8 * place..][..8]);
        }
    }
    answer
}

/// Whether an update leaves the same faces in two orders. Beside the plain reading nothing is compared.
fn leaves_the_same_faces(crews: &Crews, update: Update) -> bool {
    let ends = crews.orders(1).map(|order| {
        let case = Case { tested: Tested::Itself, ..crews.in_order(&order) };
        let mut room = room_of(&case, 6 * case.grid.len());
        let count = Plain.mesh_grid(&case, &mut room).quads;
        (update(&case, &mut room, count), room)
    });
    agree_faces("two crews", &crews.ground, ends.each_ref()).is_ok()
}

/// The comparison beside the plain reading tells of it first. That of two orders does so alone too.
#[test]
fn faces_that_hang_on_the_order_are_told() {
    assert_told_by(&[WHOLE, FAULTY, MENDED, LITTLE_ROOM, CREWS], Reading { update: leaves_uvs_behind, ..RIGHT });
    let mut random = Random(1);
    let crews: Vec<Crews> = (0..300).map(|_| random.crews()).collect();
    assert!(crews.iter().all(|crews| leaves_the_same_faces(crews, RIGHT.update)));
    assert!(crews.iter().any(|crews| !leaves_the_same_faces(crews, leaves_uvs_behind)));
}
