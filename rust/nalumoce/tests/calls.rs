//! The calls as a user makes them: worked meshes, refusals with their places, and lists lent and owned.

mod kept;

use kept::Kept;
use nalumoce::lent::{self, Lists, Room, UpdateError, NO_QUAD};
use nalumoce::*;

const AIR: u8 = 0;
const ROCK: u8 = 1;
const SLAB: u8 = 2;

fn cube(color: Option<f32>) -> Cube {
    generate_voxel_mesh([1.0; 3], [1, 1], Face::ALL.map(|face| (face, [0, 0])), [0.0; 3], 0.0, color, 1.0).unwrap()
}

/// Air, rock, and a slab that covers its underside.
fn registry() -> VoxelRegistry {
    let mut registry = VoxelRegistry::new([1.0; 3], [0.0; 3], false);
    let cube = cube(None);
    assert_eq!(registry.add(VoxelMesh::Null, Sides::NONE), Ok(AIR));
    assert_eq!(registry.add(VoxelMesh::NormalCube(&cube), Sides::ALL), Ok(ROCK));
    assert_eq!(registry.add(VoxelMesh::NormalCube(&cube), Sides::from_fn(|side| side == Face::Bottom)), Ok(SLAB));
    registry
}

fn meshed(dims: Dimensions, grid: &[u8]) -> (Mesh, MeshMD) {
    mesh_grid(dims, &[], grid, &registry(), MeshingAlgorithm::Culling).unwrap()
}

/// Every float of a mesh, attribute by attribute.
fn attributes(mesh: &Mesh) -> [Vec<f32>; 4] {
    let colours = mesh.colours().unwrap_or_default();
    [mesh.positions().as_flattened(), mesh.normals().as_flattened(), mesh.uvs().as_flattened(), colours.as_flattened()]
        .map(<[f32]>::to_vec)
}

fn refused<T: std::fmt::Debug>(answer: Result<T, Refusal>) -> (Reason, u64) {
    let refusal = answer.unwrap_err();
    (refusal.reason, refusal.place)
}

#[test]
fn meshes_worked_by_hand() {
    let registry = registry();
    let quads =
        |dims, outer: &[Face], grid: &[u8], algorithm| mesh_grid(dims, outer, grid, &registry, algorithm).unwrap().0.quads();
    assert_eq!(quads((1, 1, 1), &[], &[ROCK], MeshingAlgorithm::Culling), 6);
    assert_eq!(quads((2, 1, 1), &[], &[ROCK; 2], MeshingAlgorithm::Culling), 10);
    assert_eq!(quads((2, 1, 1), &[], &[ROCK; 2], MeshingAlgorithm::Naive), 12);
    assert_eq!(quads((2, 1, 1), &[Face::Top], &[ROCK; 2], MeshingAlgorithm::Culling), 8);
    assert_eq!(quads((2, 1, 1), &[Face::Top], &[ROCK; 2], MeshingAlgorithm::Naive), 12);
    assert_eq!(quads((3, 3, 3), &[], &[ROCK; 27], MeshingAlgorithm::Culling), 54);
}

#[test]
fn a_cube_faces_outward() {
    let (mesh, metadata) = meshed((1, 1, 1), &[ROCK]);
    let (positions, normals) = (mesh.positions(), mesh.normals());
    for triangle in mesh.indices().chunks_exact(3) {
        let [a, b, c] = [0, 1, 2].map(|i| positions[triangle[i] as usize]);
        let [p, q] = [b, c].map(|end| [0, 1, 2].map(|axis| end[axis] - a[axis]));
        let across = [p[1] * q[2] - p[2] * q[1], p[2] * q[0] - p[0] * q[2], p[0] * q[1] - p[1] * q[0]];
        assert_eq!(across, normals[triangle[0] as usize]);
    }
    assert_eq!(metadata.cell_and_face(&mesh, 0), Some((0, Face::Top)));
    assert_eq!(metadata.cell_and_face(&mesh, 6), None);
    assert_eq!(metadata.get_quad_index(Face::Forward, 0), Some(20));
    assert_eq!(metadata.get_quad_index(Face::Top, usize::MAX), None);
    assert_eq!(mesh.uvs().len(), 24);
    assert!(mesh.colours().is_none());
}

#[test]
fn dug_and_filled_by_one_log() {
    let (registry, dims) = (registry(), (6, 5, 4));
    let mut grid = vec![ROCK; 120];
    let (mut mesh, mut metadata) = meshed(dims, &grid);
    for cell in (0..120).step_by(3).chain((0..120).step_by(6)) {
        let around = neighboring_voxels(&grid, cell, dims);
        let (change, after) = if grid[cell] == AIR { (VoxelChange::Added, ROCK) } else { (VoxelChange::Broken, AIR) };
        metadata.log(change, cell, ROCK, around);
        grid[cell] = after;
    }
    assert_eq!(metadata.logged().len(), 60);
    let updated = update_mesh(&mut mesh, &mut metadata, &registry).unwrap();
    assert!(metadata.logged().is_empty());
    assert_eq!(updated.quads, mesh.quads());
    assert_eq!(check_mesh(&mesh, &metadata, &[], &grid, &registry), Ok(()));
    assert_eq!(mesh.quads(), meshed(dims, &grid).0.quads());

    grid[60] = AIR + ROCK - grid[60];
    assert!(matches!(check_mesh(&mesh, &metadata, &[], &grid, &registry), Err(Refusal { reason: Reason::WrongSet, .. })));
}

#[test]
fn a_slab_added_above_rock_leaves_the_face_beneath_it() {
    let (registry, mut grid) = (registry(), [ROCK, AIR]);
    let (mut mesh, mut metadata) = meshed((1, 2, 1), &grid);
    metadata.log(VoxelChange::Added, 1, SLAB, neighboring_voxels(&grid, 1, (1, 2, 1)));
    grid[1] = SLAB;
    assert_eq!(update_mesh(&mut mesh, &mut metadata, &registry).unwrap().quads, 11);
    assert_eq!(refused(check_mesh(&mesh, &metadata, &[], &grid, &registry)), (Reason::WrongSet, 0));
}

#[test]
fn an_update_draws_sides_at_the_edge_that_a_fresh_mesh_was_told_to_leave_out() {
    let (registry, outer) = (registry(), [Face::Top]);
    let (mut mesh, mut metadata) = mesh_grid((1, 1, 1), &outer, &[AIR], &registry, MeshingAlgorithm::Culling).unwrap();
    metadata.log(VoxelChange::Added, 0, ROCK, [None; 6]);
    assert_eq!(update_mesh(&mut mesh, &mut metadata, &registry).unwrap().quads, 6);
    assert_eq!(refused(check_mesh(&mesh, &metadata, &outer, &[ROCK], &registry)), (Reason::WrongSet, 0));
    assert_eq!(check_mesh(&mesh, &metadata, &[], &[ROCK], &registry), Ok(()));
}

/// Whose face each quad is.
fn links(mesh: &Mesh, metadata: &MeshMD) -> Vec<Option<(usize, Face)>> {
    (0..mesh.quads()).map(|quad| metadata.cell_and_face(mesh, quad)).collect()
}

/// Where the quad of each face starts.
fn starts(metadata: &MeshMD) -> Vec<Option<u32>> {
    let (width, height, length) = metadata.dims;
    let of_cell = |cell| Face::ALL.map(|face| metadata.get_quad_index(face, cell));
    (0..width * height * length).flat_map(of_cell).collect()
}

/// All there is of a mesh.
fn whole(mesh: &Mesh, metadata: &MeshMD) -> impl PartialEq + std::fmt::Debug {
    (attributes(mesh), mesh.indices().to_vec(), links(mesh, metadata), starts(metadata))
}

/// Of ten quads Top and Left of cell 0 go, each for the last one. Right comes from a cube alone; Back is there already.
#[test]
fn sides_in_one_entry_are_cull_faces_and_then_add_faces() {
    use Side::*;
    let (registry, dims, grid) = (registry(), (2, 1, 1), [ROCK; 2]);
    let sides = [Hide, Keep, Draw, Hide, Draw, Keep];
    let given = |way: Side| sides.map(|side| (side == way).then_some(SLAB));
    for (voxel, quads) in [(ROCK, 9), (SLAB, 9), (AIR, 8)] {
        let (mut mesh, mut metadata) = meshed(dims, &grid);
        metadata.log_sides(0, voxel, sides);
        assert_eq!(metadata.logged().len(), 1);
        assert_eq!(update_mesh(&mut mesh, &mut metadata, &registry), Ok(Updated { quads, moved: 2 }));
        assert_eq!(metadata.get_quad_index(Face::Right, 0).is_some(), voxel != AIR);

        for calls in [1, 2] {
            let (mut other, mut of_other) = meshed(dims, &grid);
            let mut moved = 0;
            for (change, way) in [(VoxelChange::CullFaces, Hide), (VoxelChange::AddFaces, Draw)] {
                of_other.log(change, 0, voxel, given(way));
                if calls == 2 || way == Draw {
                    moved += update_mesh(&mut other, &mut of_other, &registry).unwrap().moved;
                }
            }
            assert_eq!(moved, 2);
            assert_eq!(whole(&other, &of_other), whole(&mesh, &metadata));
        }
    }
}

type Update = fn(&mut Mesh, &mut MeshMD, &VoxelRegistry) -> Result<Updated, Refusal>;

/// The middle one of three in a column, of any type that it is said to have been, becomes any other. Each update does it as it does the two entries.
#[test]
fn a_voxel_replaced_in_one_entry_is_broken_and_then_added() {
    let (registry, dims, grid) = (registry(), (1, 3, 1), [ROCK, ROCK, SLAB]);
    let around = neighboring_voxels(&grid, 1, dims);
    let updated = |update: Update, log: &[(VoxelChange, u8)]| {
        let (mut mesh, mut metadata) = meshed(dims, &grid);
        log.iter().for_each(|&(change, voxel)| metadata.log(change, 1, voxel, around));
        assert_eq!(metadata.logged().len(), log.len());
        (update(&mut mesh, &mut metadata, &registry).unwrap(), whole(&mesh, &metadata))
    };
    for update in [update_mesh as Update, mend_mesh] {
        for former in [AIR, ROCK, SLAB] {
            for voxel in [AIR, ROCK, SLAB] {
                let one = [(VoxelChange::Replaced { former }, voxel)];
                let two = [(VoxelChange::Broken, former), (VoxelChange::Added, voxel)];
                assert_eq!(updated(update, &one), updated(update, &two));
            }
        }
    }
}

/// Of ten quads of two rocks cell 0's five go, by which 14 move; the other's Left comes; five come if cell 0 is a cube then; the other's Left goes if it is
/// rock, and five move. Each time the mesh is the new grid's.
#[test]
fn rock_replaced_by_each_type() {
    let (registry, dims) = (registry(), (2, 1, 1));
    for (voxel, quads, moved) in [(AIR, 6, 14), (ROCK, 10, 19), (SLAB, 11, 14)] {
        for update in [update_mesh as Update, mend_mesh] {
            let mut grid = [ROCK; 2];
            let (mut mesh, mut metadata) = meshed(dims, &grid);
            metadata.log(VoxelChange::Replaced { former: ROCK }, 0, voxel, neighboring_voxels(&grid, 0, dims));
            grid[0] = voxel;
            assert_eq!(update(&mut mesh, &mut metadata, &registry), Ok(Updated { quads, moved }));
            assert_eq!(check_mesh(&mesh, &metadata, &[], &grid, &registry), Ok(()));
        }
    }
}

#[test]
fn sides_that_are_all_kept_change_nothing() {
    let registry = registry();
    let (mut mesh, mut metadata) = meshed((2, 1, 1), &[ROCK; 2]);
    let before = whole(&mesh, &metadata);
    metadata.log_sides(1, ROCK, [Side::Keep; 6]);
    metadata.log(VoxelChange::CullFaces, 1, ROCK, [None; 6]);
    metadata.log(VoxelChange::AddFaces, 1, ROCK, [None; 6]);
    assert_eq!(mend_mesh(&mut mesh, &mut metadata, &registry), Ok(Updated { quads: 10, moved: 0 }));
    assert_eq!(whole(&mesh, &metadata), before);
}

/// The middle one of three has four quads of fourteen. One that goes makes room for one, and not for two; then it stays.
#[test]
fn sides_are_done_completely_or_not_at_all() {
    use Side::*;
    let (registry, dims, grid) = (registry(), (3, 1, 1), [ROCK; 3]);
    let mut kept = Kept::new(14, 3);
    assert_eq!(lent::mesh_grid(dims, &[], &grid, &registry, MeshingAlgorithm::Culling, &mut kept.room()), Ok(14));
    let before = kept.clone();
    let mut log = Log::new();
    log.push_sides(1, ROCK, [Hide, Keep, Draw, Draw, Keep, Keep]);
    let full = UpdateError::NoRoom { entry: 0, kept: Updated { quads: 14, moved: 0 } };
    assert_eq!(lent::update_mesh(&mut kept.room(), 14, dims, &log, &registry), Err(full));
    assert_eq!(kept, before);
    log.clear();
    log.push_sides(1, ROCK, [Hide, Keep, Draw, Keep, Keep, Keep]);
    let done = Updated { quads: 14, moved: 1 };
    assert_eq!(lent::update_mesh(&mut kept.room(), 14, dims, &log, &registry), Ok(done));
}

/// Three rocks, fourteen quads, and room for that many. One is hidden: the last takes its place, thirteen. The middle one is replaced: its four go, and
/// two come, for which there is room; four more, if it is a cube, are one too many.
#[test]
fn replaced_is_done_completely_or_not_at_all() {
    use Side::*;
    let (registry, dims, grid) = (registry(), (3, 1, 1), [ROCK; 3]);
    let updated = |room: usize, voxel: Option<u8>| {
        let mut kept = Kept::new(room, 3);
        assert_eq!(lent::mesh_grid(dims, &[], &grid, &registry, MeshingAlgorithm::Culling, &mut kept.room()), Ok(14));
        let mut log = Log::new();
        log.push_sides(0, ROCK, [Hide, Keep, Keep, Keep, Keep, Keep]);
        if let Some(voxel) = voxel {
            log.push(VoxelChange::Replaced { former: ROCK }, 1, voxel, neighboring_voxels(&grid, 1, dims));
        }
        (lent::update_mesh(&mut kept.room(), 14, dims, &log, &registry), kept)
    };
    let (first, left) = updated(14, None);
    let kept = Updated { quads: 13, moved: 1 };
    assert_eq!(first, Ok(kept));
    for voxel in [ROCK, SLAB] {
        assert_eq!(updated(14, Some(voxel)), (Err(UpdateError::NoRoom { entry: 1, kept }), left.clone()));
    }
    let quads = |room, voxel| updated(room, Some(voxel)).0.map(|updated| updated.quads);
    assert_eq!((quads(15, ROCK), quads(15, SLAB), quads(14, AIR)), (Ok(13), Ok(15), Ok(11)));
}

#[test]
fn a_mesh_grows_as_it_needs() {
    let (registry, dims) = (registry(), (16, 16, 16));
    let mut grid = vec![AIR; 4096];
    let (mut mesh, mut metadata) = meshed(dims, &grid);
    assert_eq!(mesh.quads(), 0);
    for cell in (0..4096).filter(|cell| (cell + cell / 16 + cell / 256) % 2 == 0) {
        metadata.log(VoxelChange::Added, cell, ROCK, neighboring_voxels(&grid, cell, dims));
        grid[cell] = ROCK;
    }
    assert_eq!(update_mesh(&mut mesh, &mut metadata, &registry), Ok(Updated { quads: 6 * 2048, moved: 0 }));
    assert_eq!(check_mesh(&mesh, &metadata, &[], &grid, &registry), Ok(()));
    assert_eq!(attributes(&mesh), attributes(&meshed(dims, &grid).0));
}

#[test]
fn refusals_of_meshing() {
    let registry = registry();
    let refusal = |dims, grid: &[u8]| refused(mesh_grid(dims, &[], grid, &registry, MeshingAlgorithm::Culling));
    assert_eq!(refusal((2, 1, 1), &[ROCK]), (Reason::BadSize, 0));
    assert_eq!(refusal((0, 1, 1), &[]), (Reason::BadSize, 0));
    assert_eq!(refusal((1025, 1, 1), &[ROCK; 1025]), (Reason::BadSize, 0));
    assert_eq!(refusal((1 << 32, 1, 1), &[]), (Reason::BadSize, 0));
    assert_eq!(refusal((3, 1, 1), &[ROCK, 3, 9]), (Reason::BadCell, 1));
    let empty = VoxelRegistry::new([1.0; 3], [0.0; 3], false);
    assert_eq!(refused(mesh_grid((1, 1, 1), &[], &[0], &empty, MeshingAlgorithm::Culling)), (Reason::BadTypes, 255));
    let mut endless = VoxelRegistry::new([1.0, f32::INFINITY, 1.0], [0.0; 3], false);
    endless.add(VoxelMesh::Null, Sides::NONE).unwrap();
    assert_eq!(refused(mesh_grid((1, 1, 1), &[], &[0], &endless, MeshingAlgorithm::Culling)), (Reason::BadNumber, 0));
    let mut apart = VoxelRegistry::new([1.0; 3], [2.0; 3], false);
    apart.add(VoxelMesh::Null, Sides::NONE).unwrap();
    apart.add(VoxelMesh::NormalCube(&cube(None)), Sides::ALL).unwrap();
    assert_eq!(refused(mesh_grid((1, 1, 1), &[], &[0], &apart, MeshingAlgorithm::Culling)), (Reason::NotACube, 1));
}

#[test]
fn refusals_of_cubes_and_types() {
    let texture = Face::ALL.map(|face| (face, [0, 4096]));
    assert_eq!(refused(generate_voxel_mesh([1.0; 3], [1, 1], texture, [0.0; 3], 0.0, None, 1.0)), (Reason::BadAtlas, 0));
    assert_eq!(refused(generate_voxel_mesh([f32::NAN; 3], [1, 1], texture, [0.0; 3], 0.0, None, 1.0)), (Reason::BadNumber, 0));
    let mut registry = registry();
    assert_eq!(refused(registry.add(VoxelMesh::NormalCube(&cube(Some(1.0))), Sides::ALL)), (Reason::BadTypes, 255));
    while registry.len() < 255 {
        registry.add(VoxelMesh::CustomMesh, Sides::NONE).unwrap();
    }
    assert_eq!(refused(registry.add(VoxelMesh::Null, Sides::NONE)), (Reason::BadTypes, 255));
}

#[test]
fn a_refused_log_is_kept_and_nothing_is_done() {
    let (registry, grid) = (registry(), [ROCK; 2]);
    let (mut mesh, mut metadata) = meshed((2, 1, 1), &grid);
    let before = attributes(&mesh);
    let bad: [(usize, u8, [Option<u8>; 6]); 4] = [
        (2, ROCK, [None; 6]),
        (usize::MAX, ROCK, [None; 6]),
        (0, 3, [None; 6]),
        (0, ROCK, [None, None, Some(255), None, None, None]),
    ];
    let changes = [VoxelChange::Broken, VoxelChange::Added, VoxelChange::Replaced { former: SLAB }];
    let mut bad: Vec<_> = bad.iter().flat_map(|&bad| changes.map(|change| (change, bad))).collect();
    bad.extend([3, 254, 255].map(|former| (VoxelChange::Replaced { former }, (0, ROCK, [None; 6]))));
    let kept_sides = |metadata: &mut MeshMD, cell: usize, voxel: u8| metadata.log_sides(cell, voxel, [Side::Keep; 6]);
    for (cell, voxel) in [(2, ROCK), (usize::MAX, ROCK), (0, 3), (0, 255)] {
        kept_sides(&mut metadata, 1, SLAB);
        kept_sides(&mut metadata, cell, voxel);
        assert_eq!(refused(update_mesh(&mut mesh, &mut metadata, &registry)), (Reason::BadEntry, 1));
        metadata.clear_log();
    }
    for (change, (cell, voxel, around)) in bad {
        metadata.log(VoxelChange::Broken, 0, ROCK, neighboring_voxels(&grid, 0, (2, 1, 1)));
        metadata.log(change, cell, voxel, around);
        assert_eq!(refused(update_mesh(&mut mesh, &mut metadata, &registry)), (Reason::BadEntry, 1));
        assert_eq!((attributes(&mesh), metadata.logged().len()), (before.clone(), 2));
        metadata.clear_log();
    }
}

/// What the documentation of `update_mesh` says of another mesh's metadata.
#[test]
fn metadata_of_another_mesh_is_noticed_by_the_number_of_quads_alone() {
    let registry = registry();
    let (mut two, _) = meshed((2, 1, 1), &[ROCK; 2]);
    let (mut one, mut of_one) = meshed((2, 1, 1), &[ROCK, AIR]);
    let (_, mut of_two) = meshed((2, 1, 1), &[ROCK; 2]);
    assert_eq!(refused(update_mesh(&mut two, &mut of_one, &registry)), (Reason::BadLinks, 6));
    assert_eq!(refused(update_mesh(&mut one, &mut of_two, &registry)), (Reason::BadLinks, 6));
    let (mut many, _) = meshed((3, 3, 3), &[ROCK; 27]);
    assert_eq!(refused(update_mesh(&mut many, &mut of_one, &registry)), (Reason::BadCount, 0));

    // six quads both, of cell 0 and of cell 1
    let (_, mut of_other) = meshed((2, 1, 1), &[AIR, ROCK]);
    assert_eq!(refused(check_mesh(&one, &of_other, &[], &[ROCK, AIR], &registry)), (Reason::WrongSet, 0));
    assert_eq!(refused(check_mesh(&one, &of_other, &[], &[AIR, ROCK], &registry)), (Reason::WrongVertex, 0));
    of_other.log(VoxelChange::CullFaces, 1, ROCK, [Some(ROCK), None, None, None, None, None]);
    assert_eq!(update_mesh(&mut one, &mut of_other, &registry), Ok(Updated { quads: 5, moved: 5 }));
    assert!(check_mesh(&one, &of_other, &[], &[AIR, ROCK], &registry).is_err());
}

/// The same codes as in [`registry`], with or without colour.
fn registry_in(color: Option<f32>) -> VoxelRegistry {
    let mut registry = VoxelRegistry::new([1.0; 3], [0.0; 3], color.is_some());
    assert_eq!(registry.add(VoxelMesh::Null, Sides::NONE), Ok(AIR));
    assert_eq!(registry.add(VoxelMesh::NormalCube(&cube(color)), Sides::ALL), Ok(ROCK));
    registry
}

#[test]
fn a_registry_with_colour_does_not_fit_a_mesh_without_nor_the_reverse() {
    let (dims, grid) = ((2, 1, 1), [ROCK; 2]);
    for (of_the_mesh, other) in [(None, Some(0.5)), (Some(0.5), None)] {
        let (own, other) = (registry_in(of_the_mesh), registry_in(other));
        let (mut mesh, mut metadata) = mesh_grid(dims, &[], &grid, &own, MeshingAlgorithm::Culling).unwrap();
        let (vertices, indices) = (attributes(&mesh), mesh.indices().to_vec());
        assert_eq!(refused(check_mesh(&mesh, &metadata, &[], &grid, &other)), (Reason::BadTypes, 255));

        metadata.log(VoxelChange::Broken, 0, ROCK, neighboring_voxels(&grid, 0, dims));
        assert_eq!(refused(update_mesh(&mut mesh, &mut metadata, &other)), (Reason::BadTypes, 255));
        assert_eq!((mesh.quads(), attributes(&mesh), mesh.indices()), (10, vertices, &indices[..]));
        assert_eq!(metadata.logged().len(), 1);
        assert_eq!(check_mesh(&mesh, &metadata, &[], &grid, &own), Ok(()));

        assert_eq!(update_mesh(&mut mesh, &mut metadata, &own), Ok(Updated { quads: 6, moved: 14 }));
        assert_eq!(check_mesh(&mesh, &metadata, &[], &[AIR, ROCK], &own), Ok(()));
    }
}

#[test]
fn a_mesh_without_a_quad_has_its_colour_all_the_same() {
    for (of_the_mesh, other) in [(None, Some(0.5)), (Some(0.5), None)] {
        let (own, other) = (registry_in(of_the_mesh), registry_in(other));
        let (mut mesh, mut metadata) = mesh_grid((1, 1, 1), &[], &[AIR], &own, MeshingAlgorithm::Culling).unwrap();
        assert_eq!(refused(check_mesh(&mesh, &metadata, &[], &[AIR], &other)), (Reason::BadTypes, 255));
        assert_eq!(refused(update_mesh(&mut mesh, &mut metadata, &other)), (Reason::BadTypes, 255));
        assert_eq!(mesh.colours().is_some(), of_the_mesh.is_some());
    }
}

/// Each list alone a vertex short, or a word, of ten quads: there is no room. The others have another number each.
#[test]
fn the_room_is_what_the_shortest_list_holds() {
    for color in [None, Some(0.5)] {
        let registry = registry_in(color);
        let shorten: [fn(&mut Kept); 6] = [
            |kept| kept.positions.truncate(39),
            |kept| kept.normals.truncate(39),
            |kept| kept.uvs.truncate(39),
            |kept| kept.triangles.truncate(59),
            |kept| kept.links.truncate(9),
            |kept| kept.colours.truncate(39),
        ];
        let mesh =
            |kept: &mut Kept| lent::mesh_grid((2, 1, 1), &[], &[ROCK; 2], &registry, MeshingAlgorithm::Culling, &mut kept.room());
        let check = |kept: &Kept| lent::check_mesh((2, 1, 1), &[], &[ROCK; 2], &registry, kept.lists(), 10);
        let update = |kept: &mut Kept| lent::mend_mesh(&mut kept.room(), 10, (2, 1, 1), &Log::new(), &registry);
        for (number, shorten) in shorten.into_iter().enumerate() {
            let mut kept = Kept::with_colour(10 + number, 2);
            assert_eq!(mesh(&mut kept), Ok(10));
            assert_eq!(check(&kept), Ok(()));
            shorten(&mut kept);
            let before = kept.clone();
            let counts = number < 5 || color.is_some();
            let due = |reason| if counts { Err(Refusal { reason, place: 0 }) } else { Ok(()) };
            assert_eq!(check(&kept), due(Reason::BadCount));
            assert_eq!(update(&mut kept).map(|_| ()), due(Reason::BadCount).map_err(UpdateError::Refused));
            assert_eq!(mesh(&mut kept).map(|_| ()), due(Reason::NoRoom));
            assert_eq!(kept, before);
        }
    }
}

#[test]
fn lent_room_is_refused_whole_and_left_alone() {
    let registry = registry();
    let mut kept = Kept::new(9, 2);
    let before = kept.clone();
    let mesh =
        |kept: &mut Kept| lent::mesh_grid((2, 1, 1), &[], &[ROCK; 2], &registry, MeshingAlgorithm::Culling, &mut kept.room());
    assert_eq!(refused(mesh(&mut kept)), (Reason::NoRoom, 0));
    assert_eq!(kept, before);
    kept.slots.pop();
    assert_eq!(refused(mesh(&mut kept)), (Reason::ShortRoom, 0));
    let mut kept = Kept::new(11, 2);
    assert_eq!(mesh(&mut kept), Ok(10));
    assert_eq!(
        (&kept.positions[40..], &kept.normals[40..], &kept.uvs[40..]),
        (&[[7.0; 3]; 4][..], &[[7.0; 3]; 4][..], &[[7.0; 2]; 4][..])
    );
    assert_eq!(kept.colours, [[7.0; 4]; 3]);
    let lists = kept.room();
    assert_eq!(lent::check_mesh((2, 1, 1), &[], &[ROCK; 2], &registry, lists.lists(), 10), Ok(()));
    assert_eq!(refused(lent::check_mesh((2, 1, 1), &[], &[ROCK; 2], &registry, lists.lists(), 12)), (Reason::BadCount, 0));
}

#[test]
fn a_lent_update_out_of_room_keeps_what_it_did() {
    let (registry, dims, grid) = (registry(), (5, 1, 1), [AIR; 5]);
    let mut kept = Kept::new(13, 5);
    assert_eq!(lent::mesh_grid(dims, &[], &grid, &registry, MeshingAlgorithm::Culling, &mut kept.room()), Ok(0));
    let mut log = Log::new();
    for cell in [0, 2, 4] {
        log.push(VoxelChange::Added, cell, ROCK, neighboring_voxels(&grid, cell, dims));
    }
    let answer = lent::update_mesh(&mut kept.room(), 0, dims, &log, &registry);
    assert_eq!(answer, Err(UpdateError::NoRoom { entry: 2, kept: Updated { quads: 12, moved: 0 } }));
    assert_eq!(answer.unwrap_err().to_string(), "NO_ROOM at 2 (the entries before it are done, and left 12 quads)");
    assert_eq!(lent::check_mesh(dims, &[], &[ROCK, AIR, ROCK, AIR, AIR], &registry, kept.room().lists(), 12), Ok(()));
}

#[test]
fn damaged_lists_are_refused_where_they_are_damaged() {
    let (registry, dims, grid) = (registry(), (2, 1, 1), [ROCK; 2]);
    let mut right = Kept::new(10, 2);
    assert_eq!(lent::mesh_grid(dims, &[], &grid, &registry, MeshingAlgorithm::Culling, &mut right.room()), Ok(10));
    let told = |damage: fn(&mut Kept)| {
        let mut kept = right.clone();
        damage(&mut kept);
        let checked = lent::check_mesh(dims, &[], &grid, &registry, kept.lists(), 10);
        (checked, lent::update_mesh(&mut kept.room(), 10, dims, &Log::new(), &registry))
    };
    let both = |reason, place| {
        let refusal = Refusal { reason, place };
        (Err(refusal), Err(UpdateError::Refused(refusal)))
    };
    assert_eq!(told(|kept| kept.links[4] ^= 1), both(Reason::BadLinks, 4));
    assert_eq!(told(|kept| kept.slots[2] = 0), both(Reason::BadLinks, 10));
    assert_eq!(told(|kept| kept.triangles[6 * 3 + 2] ^= 1), both(Reason::BadTriangles, 3));
    // no update reads a vertex
    let unread = Ok(Updated { quads: 10, moved: 0 });
    let wrong = Refusal { reason: Reason::WrongVertex, place: 5 };
    assert_eq!(told(|kept| kept.positions[4 * 5 + 3][2] += 1.0), (Err(wrong), unread));
    assert_eq!(told(|kept| kept.normals[4 * 5][0] += 1.0), (Err(wrong), unread));
    assert_eq!(told(|kept| kept.uvs[4 * 5 + 2][1] += 1.0), (Err(wrong), unread));
    assert_eq!(told(|kept| kept.colours[2][3] += 1.0), (Ok(()), unread));
    assert_eq!(told(|_| ()), (Ok(()), unread));
}

fn no_room<'a>() -> Room<'a> {
    Room {
        positions: &mut [],
        normals: &mut [],
        uvs: &mut [],
        colours: &mut [],
        triangles: &mut [],
        links: &mut [],
        slots: &mut [],
    }
}

#[test]
fn empty_lists_are_lists_too() {
    let (registry, dims) = (registry(), (1, 1, 1));
    let mut slots = [7; 6];
    let mut room = Room { slots: &mut slots, ..no_room() };
    let mesh =
        |grid: &[u8], registry, room: &mut Room| lent::mesh_grid(dims, &[], grid, registry, MeshingAlgorithm::Culling, room);
    assert_eq!(refused(mesh(&[ROCK], &registry, &mut room)), (Reason::NoRoom, 0));
    assert_eq!(room.slots, [7; 6]);
    assert_eq!(mesh(&[AIR], &registry, &mut room), Ok(0));
    assert_eq!(lent::update_mesh(&mut room, 0, dims, &Log::new(), &registry), Ok(Updated { quads: 0, moved: 0 }));
    assert_eq!(lent::check_mesh(dims, &[], &[AIR], &registry, room.lists(), 0), Ok(()));
    assert_eq!(slots, [NO_QUAD; 6]);

    let mut none = no_room();
    let empty = VoxelRegistry::new([1.0; 3], [0.0; 3], false);
    assert_eq!(refused(mesh(&[], &empty, &mut none)), (Reason::BadSize, 0));
    assert_eq!(refused(mesh(&[AIR], &empty, &mut none)), (Reason::BadTypes, 255));
    assert_eq!(refused(mesh(&[AIR], &registry, &mut none)), (Reason::ShortRoom, 0));
    let no_types = UpdateError::Refused(Refusal { reason: Reason::BadTypes, place: 255 });
    assert_eq!(lent::update_mesh(&mut none, 0, dims, &Log::new(), &empty), Err(no_types));
    assert_eq!(refused(lent::check_mesh(dims, &[], &[AIR], &registry, none.lists(), 0)), (Reason::ShortRoom, 0));
}

#[test]
fn lists_that_are_only_read_may_be_one_list() {
    let registry = registry();
    let mut kept = Kept::new(6, 1);
    assert_eq!(lent::mesh_grid((1, 1, 1), &[], &[ROCK], &registry, MeshingAlgorithm::Culling, &mut kept.room()), Ok(6));
    let words: Vec<u32> = [&kept.links[..], &kept.slots, &kept.triangles].concat();
    let check = |lists| lent::check_mesh((1, 1, 1), &[], &[ROCK], &registry, lists, 6);
    let parts = Lists { triangles: &words[12..], links: &words, slots: &words[6..], ..kept.lists() };
    assert_eq!(check(parts), Ok(()));
    assert_eq!(refused(check(Lists { slots: &words, ..parts })), (Reason::BadLinks, 0));
    let one = Lists { triangles: &kept.triangles, links: &kept.triangles, slots: &kept.triangles, ..parts };
    assert_eq!(refused(check(one)), (Reason::BadLinks, 0));
}

#[test]
fn colours_keep_every_bit() {
    let nan = f32::from_bits(0x7F80_0001);
    let mut registry = VoxelRegistry::new([1.0; 3], [0.0; 3], true);
    let rock = registry.add(VoxelMesh::NormalCube(&cube(Some(nan))), Sides::ALL).unwrap();
    let (mesh, metadata) = mesh_grid((1, 1, 1), &[], &[rock], &registry, MeshingAlgorithm::Culling).unwrap();
    let colours: Vec<_> = mesh.colours().unwrap().iter().map(|colour| colour.map(f32::to_bits)).collect();
    let [n, one] = [nan, 1.0].map(f32::to_bits);
    assert_eq!(colours, [[n, n, n, one]; 24]);
    assert_eq!(check_mesh(&mesh, &metadata, &[], &[rock], &registry), Ok(()));
}
