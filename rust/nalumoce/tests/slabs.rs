//! Voxels that don't cover opposite sides alike, and what the two updates leave of a mesh: Meshem's, and the culling rule's.

mod dice;
mod kept;

use dice::Dice;
use kept::Kept;
use nalumoce::lent::{self, Room, UpdateError};
use nalumoce::*;

const AIR: u8 = 0;
const ROCK: u8 = 1;
const SLAB: u8 = 2;
const PANEL: u8 = 3;

/// A cube from one height to another above the cell's middle.
fn cube_between(low: f32, high: f32, color: Option<f32>) -> Cube {
    let texture = Face::ALL.map(|face| (face, [face as u32, 1]));
    let (dims, center) = ([1.0, high - low, 1.0], [0.0, (low + high) / 2.0, 0.0]);
    generate_voxel_mesh(dims, [6, 2], texture, center, 0.0, color, 0.25).unwrap()
}

fn only(side: Face) -> Sides {
    Sides::from_fn(|other| other == side)
}

/// Air, rock, a slab that is the lower half and covers Bottom, and a panel that is a little over the upper half and covers Top.
fn registry() -> VoxelRegistry {
    let mut registry = VoxelRegistry::new([1.0; 3], [0.0; 3], false);
    assert_eq!(registry.add(VoxelMesh::Null, Sides::NONE), Ok(AIR));
    for (code, low, high, covers) in
        [(ROCK, -0.5, 0.5, Sides::ALL), (SLAB, -0.5, 0.0, only(Face::Bottom)), (PANEL, -0.0625, 0.5, only(Face::Top))]
    {
        assert_eq!(registry.add(VoxelMesh::NormalCube(&cube_between(low, high, None)), covers), Ok(code));
    }
    registry
}

fn meshed(dims: Dimensions, grid: &[u8], registry: &VoxelRegistry) -> (Mesh, MeshMD) {
    mesh_grid(dims, &[], grid, registry, MeshingAlgorithm::Culling).unwrap()
}

/// Logs a voxel for a cell, as the grid is, and puts it there: it is dug, put into air, or takes the place of another.
fn put(metadata: &mut MeshMD, grid: &mut [u8], cell: usize, voxel: u8) {
    let around = neighboring_voxels(grid, cell, metadata.dims);
    match (grid[cell], voxel) {
        (former, AIR) => metadata.log(VoxelChange::Broken, cell, former, around),
        (AIR, _) => metadata.log(VoxelChange::Added, cell, voxel, around),
        (former, _) => metadata.log(VoxelChange::Replaced { former }, cell, voxel, around),
    }
    grid[cell] = voxel;
}

type Update = fn(&mut Mesh, &mut MeshMD, &VoxelRegistry) -> Result<Updated, Refusal>;

#[test]
fn the_library_is_of_this_crates_level() {
    assert_eq!(meshem_abi(), MESHEM_ABI);
}

/// A cube's low sides have to be below the registry's centre, and its high sides not below it. It has no other use: moving it moves
/// no vertex.
#[test]
fn boxes_that_are_taken_for_cubes() {
    let meshed = |center: f32, low: f32, high: f32| {
        let mut registry = VoxelRegistry::new([1.0; 3], [0.0, center, 0.0], false);
        let voxel = registry.add(VoxelMesh::NormalCube(&cube_between(low, high, None)), Sides::NONE).unwrap();
        let mesh = mesh_grid((1, 1, 1), &[], &[voxel], &registry, MeshingAlgorithm::Culling);
        mesh.map(|(mesh, _)| mesh.positions().to_vec()).map_err(|refusal| refusal.reason)
    };
    for (center, low, high, taken, what) in [
        (0.0, -0.5, 0.0, true, "a lower half: its top is at the centre"),
        (0.0, -0.5, -0.25, false, "a lower quarter"),
        (-0.25, -0.5, -0.25, true, "a lower quarter, the centre as low as its top"),
        (0.0, 0.0, 0.5, false, "an upper half: its underside is at the centre"),
        (0.0, -0.0625, 0.5, true, "an upper half and a sixteenth"),
        (0.25, 0.0, 0.5, true, "an upper half, the centre above its underside"),
        (0.25, -0.5, 0.0, false, "a lower half, the centre above its top"),
    ] {
        assert_eq!(meshed(center, low, high).err(), (!taken).then_some(Reason::NotACube), "{what}");
    }
    for center in [-0.25, 0.0, 0.25] {
        assert_eq!(meshed(center, -0.5, 0.5), meshed(0.0, -0.5, 0.5));
    }
}

/// Cases 7 and 8 of document 01.
#[test]
fn a_slab_and_a_panel_added_above_rock() {
    let (registry, dims) = (registry(), (1, 2, 1));
    let above_rock = |voxel: u8, update: Update| {
        let mut grid = [ROCK, AIR];
        let (mut mesh, mut metadata) = meshed(dims, &grid, &registry);
        put(&mut metadata, &mut grid, 1, voxel);
        let quads = update(&mut mesh, &mut metadata, &registry).unwrap().quads;
        (quads, check_mesh(&mesh, &metadata, &[], &grid, &registry))
    };
    let the_rocks_top = Refusal { reason: Reason::WrongSet, place: Face::Top as u64 };
    assert_eq!(meshed(dims, &[ROCK, SLAB], &registry).0.quads(), 10);
    assert_eq!(above_rock(SLAB, update_mesh), (11, Err(the_rocks_top)));
    assert_eq!(above_rock(SLAB, mend_mesh), (10, Ok(())));
    assert_eq!(meshed(dims, &[ROCK, PANEL], &registry).0.quads(), 11);
    assert_eq!(above_rock(PANEL, update_mesh), (10, Err(the_rocks_top)));
    assert_eq!(above_rock(PANEL, mend_mesh), (11, Ok(())));
}

/// A slab for a panel above rock, and the reverse: the rock's top goes and comes.
#[test]
fn a_slab_and_a_panel_replaced_above_rock() {
    let (registry, dims) = (registry(), (1, 2, 1));
    for (former, voxel, quads) in [(PANEL, SLAB, 10), (SLAB, PANEL, 11), (ROCK, PANEL, 11), (ROCK, SLAB, 10), (PANEL, ROCK, 10)] {
        let mut grid = [ROCK, former];
        let (mut mesh, mut metadata) = meshed(dims, &grid, &registry);
        let (mut source, mut of_source) = (mesh.clone(), metadata.clone());
        put(&mut metadata, &mut grid.clone(), 1, voxel);
        put(&mut of_source, &mut grid, 1, voxel);
        assert_eq!(mend_mesh(&mut mesh, &mut metadata, &registry).unwrap().quads, quads);
        assert_eq!(check_mesh(&mesh, &metadata, &[], &grid, &registry), Ok(()));
        // Meshem's rule is right of rock alone
        update_mesh(&mut source, &mut of_source, &registry).unwrap();
        assert_eq!(check_mesh(&source, &of_source, &[], &grid, &registry).is_ok(), voxel == ROCK);
    }
}

#[test]
fn a_mesh_that_has_to_grow_is_mended_too() {
    let (registry, dims) = (registry(), (8, 3, 8));
    let mut grid = [AIR; 192];
    let (mut mesh, mut metadata) = meshed(dims, &grid, &registry);
    for (cell, voxel) in (0..64).map(|cell| (cell, ROCK)).chain((64..128).map(|cell| (cell, SLAB))) {
        put(&mut metadata, &mut grid, cell, voxel);
    }
    let updated = mend_mesh(&mut mesh, &mut metadata, &registry).unwrap();
    // the rock's sides and underside; of each slab all but its underside
    assert_eq!(updated.quads, 4 * 8 + 64 + 5 * 64);
    assert_eq!(check_mesh(&mesh, &metadata, &[], &grid, &registry), Ok(()));
}

type LentUpdate = fn(&mut Room, usize, Dimensions, &Log, &VoxelRegistry) -> Result<Updated, UpdateError>;

#[test]
fn lent_lists_are_mended_either_way_too() {
    let (registry, dims) = (registry(), (1, 2, 1));
    for (voxel, update, quads, right) in [
        (SLAB, lent::update_mesh as LentUpdate, 11, false),
        (SLAB, lent::mend_mesh, 10, true),
        (PANEL, lent::update_mesh, 10, false),
        (PANEL, lent::mend_mesh, 11, true),
    ] {
        let mut kept = Kept::new(12, 2);
        let mut room = kept.room();
        assert_eq!(lent::mesh_grid(dims, &[], &[ROCK, AIR], &registry, MeshingAlgorithm::Culling, &mut room), Ok(6));
        let mut log = Log::new();
        log.push(VoxelChange::Added, 1, voxel, neighboring_voxels(&[ROCK, AIR], 1, dims));
        assert_eq!(update(&mut room, 6, dims, &log, &registry).unwrap().quads, quads);
        assert_eq!(lent::check_mesh(dims, &[], &[ROCK, voxel], &registry, room.lists(), quads).is_ok(), right);
    }
}

/// Sizes, d and centre all differ, and each `tested` meets each `coloured`: two numbers of the update exchanged show.
#[test]
fn what_is_tested_is_told_apart_from_every_other_number() {
    let (dims, center) = ((4, 3, 2), [0.5, 0.375, 2.0]);
    for color in [None, Some(0.125)] {
        let mut registry = VoxelRegistry::new([1.0, 0.75, 4.0], center, color.is_some());
        let texture = Face::ALL.map(|face| (face, [face as u32, 1]));
        let cube = |height, middle| {
            generate_voxel_mesh([1.0, height, 4.0], [6, 2], texture, [center[0], middle, center[2]], 0.0, color, 0.25).unwrap()
        };
        assert_eq!(registry.add(VoxelMesh::Null, Sides::NONE), Ok(AIR));
        assert_eq!(registry.add(VoxelMesh::NormalCube(&cube(0.75, center[1])), Sides::ALL), Ok(ROCK));
        assert_eq!(registry.add(VoxelMesh::NormalCube(&cube(0.375, 0.1875)), only(Face::Bottom)), Ok(SLAB));
        for (update, right) in [(update_mesh as Update, false), (mend_mesh, true)] {
            let mut grid = [[ROCK; 8], [AIR; 8], [AIR; 8]].concat();
            let (mut mesh, mut metadata) = meshed(dims, &grid, &registry);
            for (cell, voxel) in [(8, SLAB), (14, SLAB), (11, ROCK), (19, SLAB), (8, AIR), (9, SLAB)] {
                put(&mut metadata, &mut grid, cell, voxel);
            }
            let updated = update(&mut mesh, &mut metadata, &registry).unwrap();
            let right_count = meshed(dims, &grid, &registry).0.quads();
            assert_eq!(updated.quads, if right { right_count } else { right_count + 3 });
            assert_eq!(check_mesh(&mesh, &metadata, &[], &grid, &registry).is_ok(), right);
        }
    }
}

/// Air, and a cube for every set of sides: code 1 + set.
fn every_set() -> VoxelRegistry {
    let mut registry = VoxelRegistry::new([1.0; 3], [0.0; 3], false);
    registry.add(VoxelMesh::Null, Sides::NONE).unwrap();
    for set in 0..64 {
        let covers = Sides::from_fn(|side| set >> side as u8 & 1 == 1);
        registry.add(VoxelMesh::NormalCube(&cube_between(-0.5, 0.5, None)), covers).unwrap();
    }
    registry
}

/// The codes of `every_set` whose cubes cover 0 as 1, 2 as 3 and 4 as 5.
fn alike() -> Vec<u8> {
    let alike: Vec<u8> = (0..64).filter(|set| set & 21 == set >> 1 & 21).map(|set| 1 + set).collect();
    assert_eq!(alike.len(), 8);
    alike
}

/// Half the entries dig, or put into air; half put another voxel in the place of one, or of air.
#[test]
fn a_true_log_is_mended_of_any_cubes_and_updated_of_those_that_cover_alike() {
    let (registry, dims, mut dice) = (every_set(), (5, 4, 3), Dice(1));
    let any: Vec<u8> = (1..65).collect();
    for (update, cubes) in [(mend_mesh as Update, any), (update_mesh, alike())] {
        for _ in 0..50 {
            let mut grid: Vec<u8> = (0..60).map(|_| dice.below(130).saturating_sub(65) as u8).collect();
            let (mut mesh, mut metadata) = meshed(dims, &grid, &registry);
            for _ in 0..40 {
                let (cell, cube) = (dice.below(60), dice.one_of(&cubes));
                if dice.below(2) == 0 {
                    let former = std::mem::replace(&mut grid[cell], cube);
                    metadata.log(VoxelChange::Replaced { former }, cell, cube, neighboring_voxels(&grid, cell, dims));
                } else {
                    let voxel = if grid[cell] == AIR { cube } else { AIR };
                    put(&mut metadata, &mut grid, cell, voxel);
                }
            }
            update(&mut mesh, &mut metadata, &registry).unwrap();
            assert_eq!(check_mesh(&mesh, &metadata, &[], &grid, &registry), Ok(()));
        }
    }
}

/// No type is empty: what is replaced is true all the same.
#[test]
fn cubes_are_replaced_without_air_in_the_registry() {
    let mut registry = VoxelRegistry::new([1.0; 3], [0.0; 3], false);
    for covers in [Sides::ALL, only(Face::Bottom), Sides::NONE] {
        registry.add(VoxelMesh::NormalCube(&cube_between(-0.5, 0.5, None)), covers).unwrap();
    }
    let (dims, mut grid) = ((2, 3, 2), [0; 12]);
    let (mut mesh, mut metadata) = meshed(dims, &grid, &registry);
    for (cell, voxel) in [(4, 1), (5, 2), (8, 1), (4, 2), (0, 1), (5, 0), (8, 0), (7, 1)] {
        let former = std::mem::replace(&mut grid[cell], voxel);
        metadata.log(VoxelChange::Replaced { former }, cell, voxel, neighboring_voxels(&grid, cell, dims));
    }
    assert_eq!(mend_mesh(&mut mesh, &mut metadata, &registry).unwrap().quads, meshed(dims, &grid, &registry).0.quads());
    assert_eq!(check_mesh(&mesh, &metadata, &[], &grid, &registry), Ok(()));
}

/// Of any log, true of the grid or not, whose added voxels cover 0 as 1, 2 as 3 and 4 as 5.
#[test]
fn what_covers_opposite_sides_alike_is_updated_alike() {
    let (registry, dims, mut dice) = (every_set(), (5, 4, 3), Dice(2));
    let alike = alike();
    for _ in 0..50 {
        let grid: Vec<u8> = (0..60).map(|_| dice.below(65) as u8).collect();
        let mut log = Log::new();
        for _ in 0..40 {
            let around = Face::ALL.map(|_| Some(dice.below(66) as u8).filter(|&voxel| voxel < 65));
            let (change, voxel) = match dice.below(7) {
                0 => (VoxelChange::Broken, dice.below(65) as u8),
                1 => (VoxelChange::CullFaces, dice.below(65) as u8),
                2 => (VoxelChange::AddFaces, dice.below(65) as u8),
                3 | 4 => (VoxelChange::Replaced { former: dice.below(65) as u8 }, dice.one_of(&alike)),
                _ => (VoxelChange::Added, dice.one_of(&alike)),
            };
            log.push(change, dice.below(60), voxel, around);
        }
        let updated = |update: LentUpdate| {
            let mut kept = Kept::new(280, 60);
            let quads = lent::mesh_grid(dims, &[], &grid, &registry, MeshingAlgorithm::Culling, &mut kept.room()).unwrap();
            (update(&mut kept.room(), quads, dims, &log, &registry), kept)
        };
        assert_eq!(updated(lent::update_mesh), updated(lent::mend_mesh));
    }
}

/// Of any log: an entry of sides or one that replaces, and the two that Meshem has for it.
#[test]
fn one_entry_does_what_meshems_two_do() {
    let (registry, dims, mut dice) = (every_set(), (5, 4, 3), Dice(3));
    let mut moved = 0;
    for _ in 0..50 {
        let grid: Vec<u8> = (0..60).map(|_| dice.below(65) as u8).collect();
        let (mut ours, mut meshems) = (Log::new(), Log::new());
        for _ in 0..40 {
            let (cell, voxel) = (dice.below(60), dice.below(65) as u8);
            let around = Face::ALL.map(|_| Some(dice.below(66) as u8).filter(|&voxel| voxel < 65));
            if dice.below(4) == 0 {
                let change = dice.one_of(&[VoxelChange::Broken, VoxelChange::Added]);
                ours.push(change, cell, voxel, around);
                meshems.push(change, cell, voxel, around);
            } else if dice.below(2) == 0 {
                let former = dice.below(65) as u8;
                ours.push(VoxelChange::Replaced { former }, cell, voxel, around);
                meshems.push(VoxelChange::Broken, cell, former, around);
                meshems.push(VoxelChange::Added, cell, voxel, around);
            } else {
                let sides = Face::ALL.map(|_| dice.one_of(&[Side::Keep, Side::Hide, Side::Draw]));
                ours.push_sides(cell, voxel, sides);
                for (change, way) in [(VoxelChange::CullFaces, Side::Hide), (VoxelChange::AddFaces, Side::Draw)] {
                    meshems.push(change, cell, voxel, sides.map(|side| (side == way).then(|| dice.below(65) as u8)));
                }
            }
        }
        for update in [lent::update_mesh as LentUpdate, lent::mend_mesh] {
            let updated = |log: &Log| {
                let mut kept = Kept::new(360, 60);
                let quads = lent::mesh_grid(dims, &[], &grid, &registry, MeshingAlgorithm::Culling, &mut kept.room()).unwrap();
                (update(&mut kept.room(), quads, dims, log, &registry).unwrap(), kept)
            };
            assert_eq!(updated(&ours), updated(&meshems));
            moved += updated(&ours).0.moved;
        }
    }
    assert!(moved > 0);
}
