//! The update that is written for speed answers as the plain reading does, word for word, on calls that are done and calls that are refused.

use oracle::calls::{Answer, Calls, Reading};
use oracle::cases::{paper_types, Added, Case, Random};
use oracle::compare::{Compared, Comparison, Pairs, MODES};
use oracle::entries::{entry, replaced, CHANGE, ENTRY, FORMER, PAIRED, ZEROS};
use oracle::faults::limits;
use oracle::rows::mesh_of;
use oracle::rust::{Types, Words};
use plain::{ADDED, BAD_ENTRY, BAD_LINKS, BROKEN, DRAW, KEEP, NO_ROOM, OUTSIDE, REPLACED, SIDES};

/// The numbers that an update answers.
const NUMBERS: [usize; 11] = [0, 2, 3, 4, 6, 9, 10, 11, 12, 13, 14];

/// Whole cases, faulty ones in little room, and ones to be mended and foolish ones in a room from tight to wide. Tells how many had colour.
fn compare(comparison: &mut Comparison, cases: usize) -> Compared<usize> {
    let mut random = Random(3);
    let mut coloured = 0;
    for _ in 0..cases {
        let (parameters, case, fault) = (random.cube(), random.case(), random.word() as u64);
        let faulty = Case { tested: random.pick(&MODES), ..case.clone() };
        let mendable = random.mendable(Added::AnyCubes);
        let foolish = random.foolish_case();
        let spare = random.pick(&[0, 1, 3, 8, usize::MAX]);
        comparison.case(&case)?;
        comparison.faults(&parameters, &faulty, fault)?;
        comparison.mended(&mendable, spare)?;
        comparison.in_little_room(&foolish, spare)?;
        coloured += [case, mendable, foolish].iter().filter(|case| case.types.coloured).count();
    }
    Ok(coloured)
}

#[test]
fn fast_answers_as_the_reading_does() {
    let mut comparison = Comparison::of(&Reading::FAST);
    let coloured = compare(&mut comparison, 8000).unwrap();
    let mut random = Random(4);
    for dims in [[1024, 1, 1], [1, 1024, 1], [1, 1, 1024], [7, 5, 11], [32, 32, 32], [16, 256, 16], [128, 16, 64]] {
        comparison.case(&random.landscape(dims)).unwrap();
    }
    for (name, mut case) in limits() {
        comparison.limit(&case).unwrap_or_else(|difference| panic!("{name}: {difference}"));
        if let Some(entry) = case.log.chunks_exact_mut(ENTRY).last() {
            entry[CHANGE] = REPLACED + 1;
            comparison.limit(&case).unwrap_or_else(|difference| panic!("{name}, the last entry bad: {difference}"));
        }
    }
    println!("{coloured} of 24000 cases with colour");
    for ((change, _), pairs) in PAIRED.iter().zip(&comparison.tally.pairs) {
        let &Pairs { log_entries, went_and_drew, split, without_room } = pairs;
        println!("{log_entries} {change} entries, a quad went and one was drawn by {went_and_drew}, {without_room} without room; {split} logs split");
        assert!([log_entries, went_and_drew, split, without_room].iter().all(|&times| times > 0));
    }
    for (tested, updates) in MODES.iter().zip(&comparison.tally.updates) {
        println!(
            "{tested:?} tested: {} calls, by number {:?}, {} log entries",
            updates.calls, updates.answers, updates.log_entries
        );
        assert!(NUMBERS.iter().all(|&number| updates.answers[number] > 0));
    }
}

/// Cell and code of a link are not looked at as one number: those of the cell after, with a code over 5, would name the same slot.
#[test]
fn a_code_over_five_is_refused() {
    let case = Case { dims: [3, 1, 1], grid: vec![1; 3], types: paper_types(1.0), ..Case::default() };
    let mesh = mesh_of(&case);
    for (code, face) in [(6, 5), (7, 4)] {
        let mut room = mesh.clone();
        let quad = room.slots[face] as usize / 4;
        room.links[quad] = 1 | code << 29;
        let answer = Reading::FAST.update_mesh(&case, &mut room, mesh.links.len() as u64);
        assert_eq!((answer.number, answer.place), (BAD_LINKS, quad as u64));
    }
}

/// Registries with one type to seven, and how many types each has.
fn registries() -> impl Iterator<Item = (Types, u8)> {
    let all = paper_types(1.0);
    (1..=all.kinds.len()).map(move |count| {
        let (kinds, covers) = (all.kinds[..count].to_vec(), all.covers[..count].to_vec());
        (Types { kinds, covers, cubes: all.cubes[..count * 24 * 8].to_vec(), ..all.clone() }, count as u8)
    })
}

/// Both updates take a log of one entry, if there is room for it or not, or refuse it.
fn assert_taken(good: bool, types: &Types, log: Vec<u8>) {
    let case = Case { dims: [1; 3], grid: vec![0], types: types.clone(), log, ..Case::default() };
    let answer = Reading::FAST.update_mesh(&case, &mut mesh_of(&case), 0);
    assert_eq!(answer.number != BAD_ENTRY, good, "{:?}, {} types", case.log, types.kinds.len());
    assert_eq!(answer, Reading::PLAIN.update_mesh(&case, &mut mesh_of(&case), 0));
}

/// Every byte that can be given in Broken, in Sides and in Replaced.
#[test]
fn bytes_given_are_refused_as_the_reading_does() {
    for (types, count) in registries() {
        for byte in 0..=255 {
            let mut given = [KEEP; 6];
            given[byte as usize % 6] = byte;
            let is_neighbour = byte < count || byte == OUTSIDE;
            assert_taken(is_neighbour, &types, entry(0, BROKEN, 0, &given));
            assert_taken(byte <= DRAW, &types, entry(0, SIDES, 0, &given));
            assert_taken(is_neighbour, &types, replaced(0, 0, 0, &given));
        }
    }
}

/// Every former type of every change and of the one past the last, of the lowest voxel and the highest, which are one voxel in a registry of one type.
#[test]
fn former_types_are_refused_as_the_reading_does() {
    for (types, count) in registries() {
        for (voxel, former) in [0, count - 1].into_iter().flat_map(|voxel| (0..=255).map(move |former| (voxel, former))) {
            for (change, good) in [
                (BROKEN, former == voxel),
                (ADDED, former == 255),
                (SIDES, former == 255),
                (REPLACED, former < count),
                (REPLACED + 1, false),
            ] {
                let mut log = entry(0, change, voxel, &[0; 6]);
                log[FORMER] = former;
                assert_taken(good, &types, log);
            }
        }
    }
}

/// Every byte where there has to be a zero.
#[test]
fn spare_bytes_are_refused_as_the_reading_does() {
    let types = paper_types(1.0);
    for entry in
        [entry(0, BROKEN, 1, &[1; 6]), entry(0, ADDED, 1, &[1; 6]), entry(0, SIDES, 1, &[1; 6]), replaced(0, 2, 1, &[1; 6])]
    {
        for (place, byte) in ZEROS.flat_map(|place| (0..=255).map(move |byte| (place, byte))) {
            let mut log = entry.clone();
            log[place] = byte;
            assert_taken(byte == 0, &types, log);
        }
    }
}

/// A copy that is wrong in what it leaves or tells, now and then.
fn assert_told(update: fn(&Case, &mut Words, u64) -> Answer) {
    compare(&mut Comparison::of(&Reading { update, ..Reading::FAST }), 300).unwrap_err();
}

#[test]
fn a_wrong_copy_is_told() {
    assert_told(|case, room, count| {
        let answer = Reading::FAST.update_mesh(case, room, count);
        Answer { moved: answer.moved.min(59), ..answer }
    });
    assert_told(|case, room, count| {
        let answer = Reading::FAST.update_mesh(case, room, count);
        Answer { place: answer.place + (answer.number == NO_ROOM) as u64, ..answer }
    });
    // A freed place keeps the last of its words
    assert_told(|case, room, count| {
        let before = room.triangles.clone();
        let answer = Reading::FAST.update_mesh(case, room, count);
        if answer.number == 0 && answer.quads < count {
            room.triangles[6 * count as usize - 1] = before[6 * count as usize - 1];
        }
        answer
    });
}
