//! The meshes that document 01 works by hand, asked of the Rust and of the plain reading; two crews' edits in either order.

use oracle::calls::{Answer, Calls, Plain};
use oracle::cases::{cube_of, paper_types, Case, Random};
use oracle::compare::{End, MODES};
use oracle::entries::{at_level, entry, replaced, split, ADD_FACES, CULL_FACES, FORMER_ENTRY, MESHEMS_LEVEL};
use oracle::orders::agree_faces;
use oracle::room::{self, joined, laid, parted};
use oracle::rows::mesh_of;
use oracle::rust::{self, Registry, Types, Words};
use plain::{Tested, ADDED, BROKEN, DRAW, HIDE, KEEP, SIDES};

const AIR: u8 = 0;
const CUBE: u8 = 1;
const DARK: u8 = 2;
const BOTTOM: u8 = 3;
const TOP: u8 = 4;
const OUT: u8 = 255;

fn case(dims: [u32; 3], grid: &[u8], log: &[Vec<u8>]) -> Case {
    Case { dims, grid: grid.to_vec(), types: paper_types(1.0), log: log.concat(), ..Case::default() }
}

fn room_for(case: &Case, quads: usize) -> Words {
    Words {
        positions: vec![7; quads * 12],
        normals: vec![7; quads * 12],
        uvs: vec![7; quads * 8],
        colours: vec![],
        triangles: vec![7; quads * 6],
        links: vec![7; quads],
        slots: vec![7; 6 * case.grid.len()],
    }
}

/// Quads after meshing and after the log, on which both sides agree, and `moved`, which only 01 counts.
fn quads(case: &Case) -> (u64, u64, u64) {
    let registry = Registry::of(&case.types);
    let mut meshed = rust::mesh(case.dims, &case.outer, &case.grid, &registry, case.naive);
    let fresh = meshed.words().links.len() as u64;
    meshed.update(&registry, &case.log);
    let after = meshed.words();
    let mut room = room_for(case, 6 * case.grid.len());
    assert_eq!(Plain.mesh_grid(case, &mut room), Answer { quads: fresh, ..Answer::default() });
    let updated = Plain.update_mesh(case, &mut room, fresh);
    assert_eq!((updated.number, updated.place, updated.quads), (0, 0, after.links.len() as u64));
    assert_eq!(room.links[..after.links.len()], after.links);
    (fresh, updated.quads, updated.moved)
}

#[test]
fn the_ten_cases() {
    assert_eq!(quads(&case([1, 1, 1], &[CUBE], &[])).0, 6);
    assert_eq!(quads(&case([2, 1, 1], &[CUBE; 2], &[])).0, 10);
    assert_eq!(quads(&Case { naive: true, ..case([2, 1, 1], &[CUBE; 2], &[]) }).0, 12);
    assert_eq!(quads(&Case { outer: vec![0], ..case([2, 1, 1], &[CUBE; 2], &[]) }).0, 8);
    assert_eq!(quads(&case([3, 3, 3], &[CUBE; 27], &[])).0, 54);
    assert_eq!(quads(&case([2, 1, 1], &[CUBE, DARK], &[])).0, 5);
    let above = [OUT, CUBE, OUT, OUT, OUT, OUT];
    assert_eq!(quads(&case([1, 2, 1], &[CUBE, AIR], &[entry(1, ADDED, BOTTOM, &above)])).1, 11);
    assert_eq!(quads(&case([1, 2, 1], &[CUBE, BOTTOM], &[])).0, 10);
    assert_eq!(quads(&case([1, 2, 1], &[CUBE, AIR], &[entry(1, ADDED, TOP, &above)])).1, 10);
    assert_eq!(quads(&case([1, 2, 1], &[CUBE, TOP], &[])).0, 11);
    assert_eq!(quads(&case([1, 2, 1], &[CUBE, AIR], &[entry(1, ADDED, AIR, &above)])), (6, 6, 0));
    assert_eq!(plain::link(5, 0), 2_684_354_565);
}

/// Quads after the log in the new mode, where the check passes for the grid that it leaves.
fn mended(case: &Case, left: &[u8]) -> u64 {
    let mut room = room_for(case, 6 * case.grid.len());
    let fresh = Plain.mesh_grid(case, &mut room);
    let updated = Plain.update_mesh(&Case { tested: Tested::Itself, ..case.clone() }, &mut room, fresh.quads);
    let after = Case { grid: left.to_vec(), ..case.clone() };
    assert_eq!(updated.number, 0);
    assert_eq!(Plain.check_mesh(&after, &room, updated.quads), Answer::default());
    updated.quads
}

/// Cases 7 and 8 in the new mode: as many quads as fresh.
#[test]
fn slabs() {
    let above = [OUT, CUBE, OUT, OUT, OUT, OUT];
    for (slab, quads_left) in [(BOTTOM, 10), (TOP, 11)] {
        let added = case([1, 2, 1], &[CUBE, AIR], &[entry(1, ADDED, slab, &above)]);
        assert_eq!(mended(&added, &[CUBE, slab]), quads_left);
        assert_eq!(quads(&case([1, 2, 1], &[CUBE, slab], &[])).0, quads_left);
    }
}

/// A slab that covers one side, put beside a cube at each face: the cube loses its facing quad exactly if the side is the one tested.
#[test]
fn the_side_tested() {
    let types = Types {
        kinds: vec![0, 1, 1, 1, 1, 1, 1, 1],
        covers: vec![0, 63, 1, 2, 4, 8, 16, 32],
        cubes: (0..8).flat_map(|_| rust::cube(&cube_of(1.0, 0))).collect(),
        ..paper_types(1.0)
    };
    for face in 0..6 {
        let mut dims = [1; 3];
        dims[[1, 0, 2][face / 2]] = 2;
        let cell = face % 2;
        let mut neighbours = [OUT; 6];
        neighbours[face] = CUBE;
        for side in 0..6 {
            let slab = 2 + side as u8;
            let (mut before, mut after) = ([CUBE; 2], [CUBE; 2]);
            (before[cell], after[cell]) = (AIR, slab);
            let added = Case { types: types.clone(), ..case(dims, &before, &[entry(cell, ADDED, slab, &neighbours)]) };
            assert_eq!(mended(&added, &after), if side == face { 10 } else { 11 });
            assert_eq!(quads(&added).1, if side == plain::opposite(face) { 10 } else { 11 });
        }
    }
}

/// Case 6: of ten quads, removing quad 4 shifts five, quad 3 swaps one. Quad 4 is cell 0 Forward, quad 3 cell 0 Back.
#[test]
fn removing_one_of_ten() {
    let hide = |face: usize| {
        let mut sides = [KEEP; 6];
        sides[face] = HIDE;
        case([2, 1, 1], &[CUBE; 2], &[entry(0, SIDES, AIR, &sides)])
    };
    assert_eq!(quads(&hide(5)), (10, 9, 5));
    assert_eq!(quads(&hide(4)), (10, 9, 1));
}

/// Of ten quads Top and Left of cell 0 go, quads 0 and 2: the last takes the place of each. Right comes, at the end; Back is there already.
/// A Null only hides.
#[test]
fn sides_hidden_and_drawn() {
    let sides = [HIDE, KEEP, DRAW, HIDE, DRAW, KEEP];
    assert_eq!(quads(&case([2, 1, 1], &[CUBE; 2], &[entry(0, SIDES, CUBE, &sides)])), (10, 9, 2));
    assert_eq!(quads(&case([2, 1, 1], &[CUBE; 2], &[entry(0, SIDES, DARK, &sides)])), (10, 8, 2));
    assert_eq!(quads(&case([2, 1, 1], &[CUBE; 2], &[entry(0, SIDES, CUBE, &[KEEP; 6])])), (10, 10, 0));
}

/// A log of four entries as each level takes it, byte for byte.
#[test]
#[rustfmt::skip]
fn a_log_at_each_level() {
    let log = [
        entry(0x0102, BROKEN, 3, &[OUT, 1, 2, 3, 4, 5]),
        entry(7, ADDED, 4, &[OUT; 6]),
        entry(5, SIDES, 6, &[HIDE, KEEP, DRAW, HIDE, DRAW, KEEP]),
        replaced(9, 2, 1, &[3, OUT, 4, 5, 6, 0]),
    ].concat();
    assert_eq!(log, [
        2, 1, 0, 0, 0, 3, OUT, 1, 2, 3, 4, 5, 3, 0, 0, 0,
        7, 0, 0, 0, 1, 4, OUT, OUT, OUT, OUT, OUT, OUT, 255, 0, 0, 0,
        5, 0, 0, 0, 2, 6, 1, 0, 2, 1, 2, 0, 255, 0, 0, 0,
        9, 0, 0, 0, 3, 1, 3, OUT, 4, 5, 6, 0, 2, 0, 0, 0,
    ]);
    let before = [2, 1, 0, 0, 0, 3, OUT, 1, 2, 3, 4, 5, 7, 0, 0, 0, 1, 4, OUT, OUT, OUT, OUT, OUT, OUT];
    let sides = [5, 0, 0, 0, 2, 6, 1, 0, 2, 1, 2, 0];
    let pair = [5, 0, 0, 0, 2, 6, 6, OUT, OUT, 6, OUT, OUT, 5, 0, 0, 0, 3, 6, OUT, OUT, 6, OUT, 6, OUT];
    let both = [9, 0, 0, 0, 0, 2, 3, OUT, 4, 5, 6, 0, 9, 0, 0, 0, 1, 1, 3, OUT, 4, 5, 6, 0];
    assert_eq!(at_level(5, &log), log);
    assert_eq!(at_level(4, &log), [&before[..], &sides, &both].concat());
    for level in [2, 3] {
        assert_eq!(at_level(level, &log), [&before[..], &pair, &both].concat());
    }
    assert_eq!(split(&log), [
        &log[..32],
        &entry(5, SIDES, 6, &[HIDE, KEEP, KEEP, HIDE, KEEP, KEEP]),
        &entry(5, SIDES, 6, &[KEEP, KEEP, DRAW, KEEP, DRAW, KEEP]),
        &entry(9, BROKEN, 2, &[3, OUT, 4, 5, 6, 0]),
        &entry(9, ADDED, 1, &[3, OUT, 4, 5, 6, 0]),
    ].concat());
}

/// Two cubes, ten quads; cell 0 becomes another type. Its five go, by which 14 move. The other's Left comes if the former type covers Right. Cell 0's five open
/// sides come from a cube; its Right is covered. The other's Left goes if the new type covers Right, or, by the source, Left: it is quad 5 of 11, and
/// five move. The former type counts as it is given.
#[test]
fn a_cube_replaced() {
    let beside = [OUT, OUT, CUBE, OUT, OUT, OUT];
    for (former, voxel, due) in [
        (CUBE, CUBE, (10, 10, 19)),
        (CUBE, BOTTOM, (10, 11, 14)),
        (CUBE, DARK, (10, 6, 14)),
        (AIR, CUBE, (10, 10, 14)),
        (TOP, AIR, (10, 5, 14)),
    ] {
        let one = replaced(0, former, voxel, &beside);
        for log in [split(&one), one] {
            assert_eq!(quads(&case([2, 1, 1], &[CUBE; 2], &[log])), due);
        }
    }
}

/// A slab for a slab on a cube: the mesh passes for the new grid where the side itself is tested, and has as many quads as a fresh one.
#[test]
fn a_slab_replaced() {
    let above = [OUT, CUBE, OUT, OUT, OUT, OUT];
    for (former, voxel, quads_left) in [(BOTTOM, TOP, 11), (TOP, BOTTOM, 10), (CUBE, BOTTOM, 10), (TOP, CUBE, 10), (AIR, TOP, 11)]
    {
        let log = replaced(1, former, voxel, &above);
        assert_eq!(mended(&case([1, 2, 1], &[CUBE, former], &[log]), &[CUBE, voxel]), quads_left);
        assert_eq!(quads(&case([1, 2, 1], &[CUBE, voxel], &[])).0, quads_left);
    }
}

/// The middle one of 27 cubes: six that face it come, and go again if it is a cube: five move for the first of them, none for the last.
#[test]
fn the_middle_replaced() {
    let grid = [CUBE; 27];
    assert_eq!(quads(&case([3, 3, 3], &grid, &[replaced(13, CUBE, CUBE, &[CUBE; 6])])), (54, 54, 15));
    assert_eq!(quads(&case([3, 3, 3], &grid, &[replaced(13, CUBE, AIR, &[CUBE; 6])])), (54, 60, 0));
}

/// Room for eight quads: beside the cube's six two are drawn; they go and two others come; then one may not go for two.
#[test]
fn room_for_sides() {
    let log = [
        entry(1, SIDES, TOP, &[DRAW, DRAW, KEEP, KEEP, KEEP, KEEP]),
        entry(1, SIDES, TOP, &[HIDE, HIDE, DRAW, KEEP, DRAW, KEEP]),
        entry(1, SIDES, TOP, &[KEEP, DRAW, HIDE, KEEP, DRAW, DRAW]),
    ];
    for (room, entries, due) in [
        (8, 2, Answer { quads: 8, moved: 1, ..Answer::default() }),
        (8, 3, Answer { number: plain::NO_ROOM, place: 2, quads: 8, moved: 1 }),
        (7, 3, Answer { number: plain::NO_ROOM, place: 0, quads: 6, moved: 0 }),
        (9, 3, Answer { quads: 9, moved: 2, ..Answer::default() }),
    ] {
        let case = case([2, 1, 1], &[CUBE, AIR], &log[..entries]);
        let mut room = room_for(&case, room);
        assert_eq!(Plain.mesh_grid(&case, &mut room).quads, 6);
        assert_eq!(Plain.update_mesh(&case, &mut room, 6), due);
    }
}

/// The middle one of 27 cubes is replaced, after a quad is hidden, by which one moves: 53. Six that face it come. Five of its own come then, from a cube alone;
/// the neighbour below, given as one that covers Top, hides the sixth. Both are asked for before anything is done. Of 64 the six that face it go: the last takes the
/// place of each of three, then four, three and two shift.
#[test]
fn room_for_replaced() {
    let hide = entry(0, SIDES, CUBE, &[KEEP, HIDE, KEEP, KEEP, KEEP, KEEP]);
    let refused = Answer { number: plain::NO_ROOM, place: 1, quads: 53, moved: 1 };
    for (room, voxel, due) in [
        (64, CUBE, Answer { quads: 58, moved: 13, ..Answer::default() }),
        (63, CUBE, refused),
        (59, AIR, Answer { quads: 59, moved: 1, ..Answer::default() }),
        (58, AIR, refused),
    ] {
        let case = case([3, 3, 3], &[CUBE; 27], &[hide.clone(), replaced(13, CUBE, voxel, &[TOP; 6])]);
        let mut lists = room_for(&case, room);
        assert_eq!(Plain.mesh_grid(&case, &mut lists).quads, 54);
        assert_eq!(Plain.update_mesh(&case, &mut lists, 54), due);
    }
}

/// The log in room for so many quads.
fn updated(case: &Case, room: usize) -> End {
    let mut lists = room_for(case, room);
    let fresh = Plain.mesh_grid(case, &mut lists).quads;
    (Plain.update_mesh(case, &mut lists, fresh), lists)
}

/// A column of three cubes, 14 quads. The top one is dug: its five go, and one that faced it comes. The lowest is replaced by the same: its five go, the one that
/// faced it and five come, and the one goes. So on the way that takes a place more than there are quads before it. In one order there is room for it
/// in the places that the digging freed. Then 10 move by the digging, 14 as the lowest one's five go, and 5 as the one goes; in the other order it is 9, 5, and 9 by the digging.
#[test]
fn crews_in_a_column() {
    let dug = entry(2, BROKEN, CUBE, &[OUT, CUBE, OUT, OUT, OUT, OUT]);
    let renewed = replaced(0, CUBE, CUBE, &[CUBE, OUT, OUT, OUT, OUT, OUT]);
    let orders = [[dug.clone(), renewed.clone()], [renewed, dug]].map(|log| case([1, 3, 1], &[CUBE; 3], &log));
    let done = |moved| Answer { quads: 10, moved, ..Answer::default() };
    for tested in MODES {
        let in_room = |room| orders.each_ref().map(|case| updated(&Case { tested, ..case.clone() }, room));
        let refused = Answer { number: plain::NO_ROOM, place: 0, quads: 14, moved: 0 };
        assert_eq!(in_room(14).map(|(answer, _)| answer), [done(29), refused]);

        let ends = in_room(15);
        assert_eq!(ends.each_ref().map(|(answer, _)| *answer), [done(29), done(23)]);
        assert_eq!(agree_faces("a column", &orders[0], ends.each_ref()), Ok(()));
        assert_ne!(ends[0].1.links[..10], ends[1].1.links[..10]);
        let left = Case { grid: vec![CUBE, CUBE, AIR], ..orders[0].clone() };
        for (answer, lists) in &ends {
            assert_eq!(Plain.check_mesh(&left, lists, answer.quads), Answer::default());
        }
    }
}

/// Two cubes side by side, both dug. Each entry names the other cube, as its crew saw it. So the second draws the side of a cube that is gone: cell 0's Right, or
/// cell 1's Left. Of two empty cells that is a wrong set.
#[test]
fn crews_on_neighbours() {
    let dug =
        [entry(0, BROKEN, CUBE, &[OUT, OUT, CUBE, OUT, OUT, OUT]), entry(1, BROKEN, CUBE, &[OUT, OUT, OUT, CUBE, OUT, OUT])];
    for (order, cell, face) in [([0, 1], 0, 2), ([1, 0], 1, 3)] {
        let case = case([2, 1, 1], &[CUBE; 2], &order.map(|crew: usize| dug[crew].clone()));
        assert_eq!(quads(&case).1, 1);
        for tested in MODES {
            let (answer, lists) = updated(&Case { tested, ..case.clone() }, 10);
            assert_eq!((answer.number, answer.quads, lists.links[0]), (0, 1, plain::link(cell, face)));
            let left = Case { grid: vec![AIR; 2], ..case.clone() };
            let wrong = Answer { number: plain::WRONG_SET, place: (6 * cell + face) as u64, ..Answer::default() };
            assert_eq!(Plain.check_mesh(&left, &lists, 1), wrong);
        }
    }
}

/// Of the neighbours in CullFaces and AddFaces Meshem asks whether they are there, and not of what type; without one nothing is done.
#[test]
fn a_pair_with_any_neighbours() {
    let two = case([2, 1, 1], &[CUBE; 2], &[]);
    let registry = Registry::of(&two.types);
    let updated = |log: &[u8]| {
        let mut meshed = rust::mesh(two.dims, &[], &two.grid, &registry, false);
        meshed.update_by_meshems(&registry, log);
        meshed.words()
    };
    let pair = |voxel: u8, neighbour: u8| {
        let cull = entry(0, CULL_FACES, voxel, &[neighbour, OUT, OUT, neighbour, OUT, OUT]);
        let add = entry(0, ADD_FACES, voxel, &[OUT, OUT, neighbour, OUT, neighbour, OUT]);
        [cull, add].map(|entry| entry[..FORMER_ENTRY].to_vec()).concat()
    };
    let sides = [HIDE, KEEP, DRAW, HIDE, DRAW, KEEP];
    for voxel in 0..7 {
        let due = updated(&at_level(MESHEMS_LEVEL, &entry(0, SIDES, voxel, &sides)));
        assert_eq!(due.links.len(), if two.types.is_cube(voxel) { 9 } else { 8 });
        for neighbour in 0..7 {
            assert_eq!(updated(&pair(voxel, neighbour)), due);
        }
        assert_eq!(updated(&pair(voxel, OUT)), updated(&[]));
    }
}

/// The program's example: `quads 6 moved 14`.
#[test]
fn the_example() {
    let broken = entry(0, BROKEN, CUBE, &[OUT, OUT, CUBE, OUT, OUT, OUT]);
    assert_eq!(quads(&case([2, 1, 1], &[CUBE; 2], &[broken])), (10, 6, 14));
}

#[test]
fn room() {
    let two = case([2, 1, 1], &[CUBE; 2], &[]);
    assert_eq!(Plain.mesh_grid(&two, &mut room_for(&two, 9)), Answer { number: plain::NO_ROOM, ..Answer::default() });
    assert_eq!(Plain.mesh_grid(&two, &mut room_for(&two, 10)), Answer { quads: 10, ..Answer::default() });
    let beside = [OUT, OUT, CUBE, OUT, OUT, OUT];
    let dug = Case { log: [entry(0, BROKEN, CUBE, &beside), entry(0, ADDED, CUBE, &beside)].concat(), ..two };
    let mut tight = room_for(&dug, 10);
    Plain.mesh_grid(&dug, &mut tight);
    // Added draws five beside the six before it takes the facing one
    assert_eq!(Plain.update_mesh(&dug, &mut tight, 10), Answer { number: plain::NO_ROOM, place: 1, quads: 6, moved: 14 });
}

#[test]
fn nothing_is_fused() {
    let tenth = 0x3DCC_CCCD;
    let texture = (0..6).flat_map(|face| [face, 3, 3]).collect();
    let cube = rust::CubeParameters { atlas: [3, 3], padding: tenth, texture, ..cube_of(1.0, 0) };
    assert_eq!(rust::cube(&cube)[6], 0x3F84_4444);
    let line = Case { types: paper_types(0.1), ..case([4, 1, 1], &[AIR, AIR, AIR, CUBE], &[]) };
    let words = rust::mesh(line.dims, &[], &line.grid, &Registry::of(&line.types), false).words();
    assert!(words.positions.contains(&0x3EB3_3334));
}

/// Four vertices a quad of as many quads as all attributes have room for, position, normal, uv and colour; and back.
#[test]
fn attributes_joined_and_parted() {
    let mut random = Random(5);
    for case in (0..200).map(|_| random.case()) {
        let coloured = case.types.coloured;
        let mesh = mesh_of(&case);
        let empty = room::room_for(mesh.links.len() + 2, &case);
        let room = laid(&mesh, empty.clone());
        let one = joined(&room, coloured);
        let size = rust::floats(coloured);
        let Words { positions, normals, uvs, colours, .. } = &room;
        for (at, vertex) in one.positions.chunks_exact(size).enumerate() {
            assert_eq!(
                (&vertex[..3], &vertex[3..6], &vertex[6..8]),
                (&positions[3 * at..][..3], &normals[3 * at..][..3], &uvs[2 * at..][..2])
            );
            assert!(!coloured || vertex[8..] == colours[4 * at..][..4]);
        }
        let least = (positions.len() / 12).min(normals.len() / 12).min(uvs.len() / 8);
        let least = if coloured { least.min(colours.len() / 16) } else { least };
        assert_eq!(one.positions.len(), 4 * size * least);
        assert!(one.normals.is_empty() && one.uvs.is_empty() && one.colours.is_empty());
        assert_eq!(parted(&one, empty, coloured), room);
    }
}
