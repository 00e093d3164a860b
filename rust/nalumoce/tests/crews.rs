//! Two crews' logs of one grid, merged: the same faces in any order if the logs touch nowhere, and what comes of it if they do.

mod dice;
mod kept;

use dice::Dice;
use kept::Kept;
use nalumoce::lent::{self, Room, UpdateError};
use nalumoce::*;
use std::collections::HashMap;

const AIR: u8 = 0;
const ROCK: u8 = 1;
const GLASS: u8 = 2;
const BEAM: u8 = 3;
const SLAB: u8 = 4;
const PANEL: u8 = 5;

/// No two types have a texture or a colour in common.
fn cube(code: u8) -> Cube {
    let texture = Face::ALL.map(|face| (face, [face as u32, code.into()]));
    generate_voxel_mesh([1.0; 3], [6, 8], texture, [0.0; 3], 0.0, Some(f32::from(code) / 8.0), 1.0).unwrap()
}

/// Air and five cubes: rock covers all, glass nothing, a beam what is right and left of it, a slab what is below, a panel what is above.
fn registry() -> VoxelRegistry {
    let mut registry = VoxelRegistry::new([1.0; 3], [0.0; 3], true);
    assert_eq!(registry.add(VoxelMesh::Null, Sides::NONE), Ok(AIR));
    for (code, covers) in [
        (ROCK, Sides::ALL),
        (GLASS, Sides::NONE),
        (BEAM, Sides::from_fn(|side| side == Face::Right || side == Face::Left)),
        (SLAB, Sides::from_fn(|side| side == Face::Bottom)),
        (PANEL, Sides::from_fn(|side| side == Face::Top)),
    ] {
        assert_eq!(registry.add(VoxelMesh::NormalCube(&cube(code)), covers), Ok(code));
    }
    registry
}

/// An entry: the cell is dug, a voxel is put into air, or it takes the place of another. At odd cells it takes the place of air too.
fn entry(grid: &[u8], dims: Dimensions, cell: usize, voxel: u8) -> Log {
    let (mut log, around) = (Log::new(), neighboring_voxels(grid, cell, dims));
    match (grid[cell], voxel) {
        (former, AIR) => log.push(VoxelChange::Broken, cell, former, around),
        (AIR, _) if cell % 2 == 0 => log.push(VoxelChange::Added, cell, voxel, around),
        (former, _) => log.push(VoxelChange::Replaced { former }, cell, voxel, around),
    }
    log
}

/// The entries of a crew that knows of no other, a log each.
fn entries(grid: &[u8], dims: Dimensions, changes: &[(usize, u8)]) -> Vec<Log> {
    let mut grid = grid.to_vec();
    let mut logged = |&(cell, voxel): &(usize, u8)| {
        let entry = entry(&grid, dims, cell, voxel);
        grid[cell] = voxel;
        entry
    };
    changes.iter().map(&mut logged).collect()
}

fn joined(logs: &[Log]) -> Log {
    let mut all = Log::new();
    logs.iter().for_each(|log| all.push_all(log));
    all
}

fn crew(grid: &[u8], dims: Dimensions, changes: &[(usize, u8)]) -> Log {
    joined(&entries(grid, dims, changes))
}

fn merged(first: &Log, second: &Log) -> Log {
    joined(&[first.clone(), second.clone()])
}

type Update = fn(&mut Mesh, &mut MeshMD, &VoxelRegistry) -> Result<Updated, Refusal>;

/// A fresh mesh of the grid, updated by these logs, a call each.
fn updated(update: Update, dims: Dimensions, grid: &[u8], calls: &[Log]) -> (Mesh, MeshMD, u64) {
    updated_each(dims, grid, calls.iter().map(|log| (update, log)))
}

fn updated_each<'a>(dims: Dimensions, grid: &[u8], calls: impl IntoIterator<Item = (Update, &'a Log)>) -> (Mesh, MeshMD, u64) {
    let registry = registry();
    let (mut mesh, mut metadata) = mesh_grid(dims, &[], grid, &registry, MeshingAlgorithm::Culling).unwrap();
    let mut moved = 0;
    for (update, log) in calls {
        metadata.log_all(log);
        moved += update(&mut mesh, &mut metadata, &registry).unwrap().moved;
    }
    (mesh, metadata, moved)
}

fn checked(mesh: &Mesh, metadata: &MeshMD, grid: &[u8]) -> Result<(), Refusal> {
    check_mesh(mesh, metadata, &[], grid, &registry())
}

/// Whose face each quad is.
fn places(mesh: &Mesh, metadata: &MeshMD) -> Vec<(usize, Face)> {
    (0..mesh.quads()).map(|quad| metadata.cell_and_face(mesh, quad).unwrap()).collect()
}

/// The vertices of each face, bit for bit, wherever its quad is.
fn faces(mesh: &Mesh, metadata: &MeshMD) -> HashMap<(usize, Face), Vec<u32>> {
    fn of_quad<const N: usize>(rows: &[[f32; N]], quad: usize) -> &[f32] {
        rows[4 * quad..][..4].as_flattened()
    }
    let colours = mesh.colours().unwrap();
    let vertices = |quad: usize| {
        let [positions, normals] = [mesh.positions(), mesh.normals()].map(|rows| of_quad(rows, quad));
        let floats = [positions, normals, of_quad(mesh.uvs(), quad), of_quad(colours, quad)].concat();
        floats.into_iter().map(f32::to_bits).collect()
    };
    let faces: HashMap<_, _> = places(mesh, metadata).into_iter().zip((0..).map(vertices)).collect();
    assert_eq!(faces.len(), mesh.quads());
    faces
}

#[test]
fn a_log_is_logged_after_what_is_logged_already() {
    let (dims, grid) = ((3, 1, 1), [ROCK; 3]);
    let (_, mut metadata, _) = updated(mend_mesh, dims, &grid, &[]);
    let [ours, theirs] = [crew(&grid, dims, &[(0, AIR), (0, SLAB)]), crew(&grid, dims, &[(2, GLASS)])];
    metadata.log_all(&ours);
    metadata.log_all(&theirs);
    assert_eq!(metadata.logged().as_bytes(), [ours.as_bytes(), theirs.as_bytes()].concat());
}

/// Of three rocks one end is dug, the other becomes glass: both show a side of the one between.
#[test]
fn the_same_faces_in_other_places() {
    let (dims, grid, after) = ((3, 1, 1), [ROCK; 3], [AIR, ROCK, GLASS]);
    let [ours, theirs] = [crew(&grid, dims, &[(0, AIR)]), crew(&grid, dims, &[(2, GLASS)])];
    assert_eq!(ours.touching(&theirs, dims), None);
    for update in [update_mesh as Update, mend_mesh] {
        let (mesh, metadata, moved) = updated(update, dims, &grid, &[merged(&ours, &theirs)]);
        let (other, of_other, moved_other) = updated(update, dims, &grid, &[merged(&theirs, &ours)]);
        assert_eq!((mesh.quads(), moved, moved_other), (11, 30, 15));
        assert_eq!((checked(&mesh, &metadata, &after), checked(&other, &of_other, &after)), (Ok(()), Ok(())));
        assert_eq!(faces(&mesh, &metadata), faces(&other, &of_other));
        assert_eq!(places(&mesh, &metadata)[..2], [(1, Face::Top), (1, Face::Bottom)]);
        assert_eq!(places(&other, &of_other)[..2], [(2, Face::Forward), (2, Face::Back)]);
    }
}

/// On three rocks in a row and one on the last, one crew lays a slab, which Meshem's update gets wrong. The other digs, by that update.
#[test]
fn each_call_in_a_mode_of_its_own() {
    let (dims, grid, after) = ((3, 2, 1), [ROCK, ROCK, ROCK, AIR, AIR, ROCK], [ROCK, ROCK, ROCK, SLAB, AIR, AIR]);
    let [ours, theirs] = [crew(&grid, dims, &[(3, SLAB)]), crew(&grid, dims, &[(5, AIR)])];
    assert_eq!(ours.touching(&theirs, dims), None);
    let [laid, dug] = [(mend_mesh as Update, &ours), (update_mesh as Update, &theirs)];
    let (mesh, metadata, _) = updated_each(dims, &grid, [laid, dug]);
    let (other, of_other, _) = updated_each(dims, &grid, [dug, laid]);
    assert_eq!((checked(&mesh, &metadata, &after), checked(&other, &of_other, &after)), (Ok(()), Ok(())));
    assert_eq!(faces(&mesh, &metadata), faces(&other, &of_other));
    let (wrong, of_wrong, _) = updated(update_mesh, dims, &grid, &[merged(&ours, &theirs)]);
    assert_eq!(checked(&wrong, &of_wrong, &after), Err(Refusal { reason: Reason::WrongSet, place: 0 }));
}

const CAVE: Dimensions = (5, 4, 3);

/// A grid, and the changes of two crews that know nothing of each other.
struct Site {
    grid: Vec<u8>,
    ways: [Vec<(usize, u8)>; 2],
}

impl Site {
    fn new(dice: &mut Dice, cubes: &[u8]) -> Site {
        let grid: Vec<u8> = (0..60).map(|_| dice.below(6) as u8).collect();
        let ways = [(); 2].map(|_| way(dice, &grid, cubes));
        Site { grid, ways }
    }

    /// A log for each entry of either crew.
    fn entries(&self) -> [Vec<Log>; 2] {
        self.ways.each_ref().map(|way| entries(&self.grid, CAVE, way))
    }

    /// The grid after this many of the crews, the first one first.
    fn after(&self, crews: usize) -> Vec<u8> {
        let mut after = self.grid.clone();
        self.ways[..crews].iter().flatten().for_each(|&(cell, voxel)| after[cell] = voxel);
        after
    }
}

/// Five changes of a crew on its way from neighbour to neighbour. It puts a cube into air; it digs a cube, or puts another in its place.
fn way(dice: &mut Dice, grid: &[u8], cubes: &[u8]) -> Vec<(usize, u8)> {
    let (mut grid, mut cell) = (grid.to_vec(), dice.below(grid.len()));
    let mut change = || {
        cell = get_neighbor(cell, dice.one_of(&Face::ALL), CAVE).unwrap_or(cell);
        grid[cell] = if grid[cell] != AIR && dice.below(2) == 0 { AIR } else { dice.one_of(cubes) };
        (cell, grid[cell])
    };
    (0..5).map(|_| change()).collect()
}

/// The entries of both by turns, each crew's own order kept, and a log for each call.
fn interleaved(dice: &mut Dice, [ours, theirs]: &[Vec<Log>; 2]) -> Vec<Log> {
    let (mut ours, mut theirs) = (ours.iter(), theirs.iter());
    let mut calls = vec![Log::new()];
    while ours.len() + theirs.len() > 0 {
        let ours_is_next = dice.below(ours.len() + theirs.len()) < ours.len();
        let next = if ours_is_next { ours.next() } else { theirs.next() };
        calls.last_mut().unwrap().push_all(next.unwrap());
        if dice.below(3) == 0 {
            calls.push(Log::new());
        }
    }
    calls
}

/// Nobody keeps the crews apart. If their logs touch nowhere, every merge has the faces of the grid with the changes of both. If they touch, most pairs
/// have other faces in the other order.
#[test]
fn logs_that_touch_nowhere_are_merged_in_any_order() {
    let (mut dice, cubes) = (Dice(4), [ROCK, GLASS, BEAM, SLAB, PANEL]);
    for (update, cubes_put) in [(update_mesh as Update, &cubes[..3]), (mend_mesh, &cubes[..])] {
        let (mut apart, mut torn) = (0, 0);
        for _ in 0..100 {
            let site = Site::new(&mut dice, cubes_put);
            let faces_after = |calls: &[Log]| {
                let (mesh, metadata, _) = updated(update, CAVE, &site.grid, calls);
                (checked(&mesh, &metadata, &site.after(2)), faces(&mesh, &metadata))
            };
            let entries = site.entries();
            let [ours, theirs] = entries.each_ref().map(|entries| joined(entries));
            let both_orders = [merged(&ours, &theirs), merged(&theirs, &ours)].map(|log| faces_after(&[log]));
            if ours.touching(&theirs, CAVE).is_some() {
                torn += usize::from(both_orders[0].1 != both_orders[1].1);
                continue;
            }
            apart += 1;
            let (fresh, of_fresh, _) = updated(update, CAVE, &site.after(2), &[]);
            let due = (Ok(()), faces(&fresh, &of_fresh));
            let by_turns = [(); 3].map(|_| faces_after(&interleaved(&mut dice, &entries)));
            both_orders.iter().chain(&by_turns).for_each(|merge| assert_eq!(merge, &due));
        }
        assert!(apart > 30 && torn > 30, "{apart} pairs apart, {torn} torn");
    }
}

/// The second crew's changes are logged anew, on the grid that the first has left. Only entries that touch the first log come out differently.
#[test]
fn a_log_that_touches_is_logged_anew() {
    let (mut dice, mut differ) = (Dice(5), 0);
    for _ in 0..100 {
        let site = Site::new(&mut dice, &[ROCK, GLASS, BEAM, SLAB, PANEL]);
        let [ours, theirs] = site.entries();
        let (ours, anew) = (joined(&ours), entries(&site.after(1), CAVE, &site.ways[1]));
        for (entry, _) in theirs.iter().zip(&anew).filter(|(entry, anew)| entry != anew) {
            assert!(entry.touching(&ours, CAVE).is_some());
            differ += 1;
        }
        let (mesh, metadata, _) = updated(mend_mesh, CAVE, &site.grid, &[merged(&ours, &joined(&anew))]);
        assert_eq!(checked(&mesh, &metadata, &site.after(2)), Ok(()));
    }
    assert!(differ > 50, "{differ}");
}

/// Two rocks, both dug, each by a crew to which the other rock stands. Whoever is second shows a side of the rock that is gone.
#[test]
fn neighbours_dug_by_two_crews_leave_a_side_of_the_first() {
    let (dims, grid, after) = ((2, 1, 1), [ROCK; 2], [AIR; 2]);
    let [left, right] = [crew(&grid, dims, &[(0, AIR)]), crew(&grid, dims, &[(1, AIR)])];
    assert_eq!((left.touching(&right, dims), right.touching(&left, dims)), (Some((0, 0)), Some((0, 0))));
    for update in [update_mesh as Update, mend_mesh] {
        for (first, second, cell, face) in [(&left, &right, 0, Face::Right), (&right, &left, 1, Face::Left)] {
            let (mesh, metadata, _) = updated(update, dims, &grid, &[merged(first, second)]);
            assert_eq!(places(&mesh, &metadata), [(cell, face)]);
            let place = (6 * cell + face as usize) as u64;
            assert_eq!(checked(&mesh, &metadata, &after), Err(Refusal { reason: Reason::WrongSet, place }));
        }
        let right_anew = crew(&[AIR, ROCK], dims, &[(1, AIR)]);
        let (mesh, metadata, _) = updated(update, dims, &grid, &[merged(&left, &right_anew)]);
        assert_eq!((mesh.quads(), checked(&mesh, &metadata, &after)), (0, Ok(())));
    }
}

type LentUpdate = fn(&mut Room, usize, Dimensions, &Log, &VoxelRegistry) -> Result<Updated, UpdateError>;

/// A fresh mesh of the grid in room for some quads.
fn lent_mesh(dims: Dimensions, grid: &[u8], quads: usize) -> (Kept, usize) {
    let mut kept = Kept::with_colour(quads, grid.len());
    let meshed = lent::mesh_grid(dims, &[], grid, &registry(), MeshingAlgorithm::Culling, &mut kept.room());
    (kept, meshed.unwrap())
}

/// A column of three rocks has fourteen quads. To replace the lowest first takes room for fifteen. If the highest is dug first, ten are left, and
/// eleven suffice.
#[test]
fn one_order_alone_may_find_no_room() {
    let (registry, dims, grid, after) = (registry(), (1, 3, 1), [ROCK; 3], [GLASS, ROCK, AIR]);
    let [replaced, dug] = [crew(&grid, dims, &[(0, GLASS)]), crew(&grid, dims, &[(2, AIR)])];
    assert_eq!(replaced.touching(&dug, dims), None);
    for update in [lent::update_mesh as LentUpdate, lent::mend_mesh] {
        let done = |room: usize, log: &Log| {
            let (mut kept, quads) = lent_mesh(dims, &grid, room);
            assert_eq!(quads, 14);
            let quads = update(&mut kept.room(), quads, dims, log, &registry)?.quads;
            assert_eq!(lent::check_mesh(dims, &[], &after, &registry, kept.lists(), quads), Ok(()));
            Ok(quads)
        };
        let full = UpdateError::NoRoom { entry: 0, kept: Updated { quads: 14, moved: 0 } };
        assert_eq!((done(14, &merged(&dug, &replaced)), done(14, &merged(&replaced, &dug))), (Ok(11), Err(full)));
        assert_eq!((done(15, &merged(&dug, &replaced)), done(15, &merged(&replaced, &dug))), (Ok(11), Ok(11)));
    }
}

/// A column of five rocks has 22 quads, and there is room for no more. Our crew digs the lowest, which leaves 18, and puts it back, for which it needs 23.
/// Once theirs has dug the highest, 14 are left, and it needs 19. Then the side that it covers goes: 18.
#[test]
fn what_found_no_room_is_given_again_after_the_other_crew() {
    let (registry, dims, grid, after) = (registry(), (1, 5, 1), [ROCK; 5], [ROCK, ROCK, ROCK, ROCK, AIR]);
    let [mut ours, theirs] = [crew(&grid, dims, &[(0, AIR), (0, ROCK)]), crew(&grid, dims, &[(4, AIR)])];
    assert_eq!(ours.touching(&theirs, dims), None);
    let (mut kept, quads) = lent_mesh(dims, &grid, 22);
    let mut mended = |quads: usize, log: &Log| lent::mend_mesh(&mut kept.room(), quads, dims, log, &registry);
    let full = UpdateError::NoRoom { entry: 1, kept: Updated { quads: 18, moved: 5 } };
    assert_eq!(mended(quads, &ours), Err(full));
    ours.drop_first(1);
    assert_eq!(mended(18, &theirs).unwrap().quads, 14);
    assert_eq!(mended(14, &ours).unwrap().quads, 18);
    assert_eq!(lent::check_mesh(dims, &[], &after, &registry, kept.lists(), 18), Ok(()));
}
