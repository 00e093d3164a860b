//! Every word of the four calls, held to document 01's formulas. Sizes, d, centre, atlas, padding, colour and alpha all differ. So no
//! two numbers can change places on their way to the library without a word or an answer that shows it.

mod kept;

use kept::Kept;
use nalumoce::lent::{self, UpdateError, NO_QUAD};
use nalumoce::*;
use Face::*;

const AIR: u8 = 0;
const ROCK: u8 = 1;
const SLAB: u8 = 2;

/// x, y, z: a cell's number is y · 12 + z · 3 + x.
const DIMS: Dimensions = (3, 2, 4);
const CELLS: usize = 24;
const D: [f32; 3] = [1.0, 0.75, 4.0];
const CENTRE: [f32; 3] = [10.0, 20.0, 30.0];
/// What the updates below need at their highest.
const QUADS: usize = 20;

/// What a cube is made of.
struct Shape {
    d: [f32; 3],
    centre: [f32; 3],
    atlas: [u32; 2],
    texture: [(Face, [u32; 2]); 6],
    padding: f32,
    color: Option<f32>,
    alpha: f32,
}

impl Shape {
    fn cube(&self) -> Cube {
        generate_voxel_mesh(self.d, self.atlas, self.texture, self.centre, self.padding, self.color, self.alpha).unwrap()
    }
}

/// A cube that fills its cell, or the lower half of one. The slab names Top twice, so that the last tile wins, and Forward never.
fn shape(voxel: u8, coloured: bool) -> Shape {
    match voxel {
        ROCK => Shape {
            d: D,
            centre: CENTRE,
            atlas: [8, 4],
            texture: [(Top, [0, 9]), (Bottom, [1, 7]), (Right, [2, 5]), (Left, [3, 6]), (Back, [4, 8]), (Forward, [5, 1])],
            padding: 0.125,
            color: coloured.then_some(0.25),
            alpha: 0.5,
        },
        _ => Shape {
            d: [1.0, 0.375, 4.0],
            centre: [10.0, 19.8125, 30.0],
            atlas: [2, 16],
            texture: [(Top, [6, 5]), (Bottom, [1, 4]), (Right, [2, 7]), (Left, [3, 0]), (Back, [4, 2]), (Top, [5, 3])],
            padding: 0.0625,
            color: coloured.then_some(0.375),
            alpha: 0.75,
        },
    }
}

fn registry_of(d: [f32; 3], centre: [f32; 3], coloured: bool) -> VoxelRegistry {
    let mut registry = VoxelRegistry::new(d, centre, coloured);
    assert_eq!(registry.add(VoxelMesh::Null, Sides::NONE), Ok(AIR));
    assert_eq!(registry.add(VoxelMesh::NormalCube(&shape(ROCK, coloured).cube()), Sides::ALL), Ok(ROCK));
    let underside = Sides::from_fn(|side| side == Bottom);
    assert_eq!(registry.add(VoxelMesh::NormalCube(&shape(SLAB, coloured).cube()), underside), Ok(SLAB));
    registry
}

fn grid_of(voxels: &[(usize, u8)]) -> Vec<u8> {
    let mut grid = vec![AIR; CELLS];
    for &(cell, voxel) in voxels {
        grid[cell] = voxel;
    }
    grid
}

fn ground() -> Vec<u8> {
    grid_of(&[(7, ROCK), (8, ROCK), (15, SLAB)])
}

// Document 01's words.

/// Cube corners, by sign per axis, four a face.
const CORNERS: [[&str; 4]; 6] = [
    ["-++", "+++", "++-", "-+-"],
    ["---", "+--", "+-+", "--+"],
    ["++-", "+++", "+-+", "+--"],
    ["---", "--+", "-++", "-+-"],
    ["+++", "-++", "--+", "+-+"],
    ["+--", "---", "-+-", "++-"],
];

const NORMALS: [[f32; 3]; 6] =
    [[0.0, 1.0, 0.0], [0.0, -1.0, 0.0], [1.0, 0.0, 0.0], [-1.0, 0.0, 0.0], [0.0, 0.0, 1.0], [0.0, 0.0, -1.0]];

/// A tile's start and end: of Top, Right and Back; of Bottom, Left and Forward.
const TILES: [[&str; 4]; 2] = [["ss", "es", "ee", "se"], ["ee", "se", "ss", "es"]];

fn uv_due(shape: &Shape, face: Face, axis: usize, which: char) -> f32 {
    let size = shape.atlas[axis] as f32;
    let (u, p) = (1.0 / size, shape.padding / size);
    let named = shape.texture.iter().rev().find(|(named, _)| *named == face);
    let start = named.map_or(0.0, |(_, tile)| tile[axis] as f32 * u + p);
    if which == 's' {
        start
    } else {
        (start + u) - p * 2.0
    }
}

struct Vertex {
    position: [f32; 3],
    normal: [f32; 3],
    uv: [f32; 2],
    colour: Option<[f32; 4]>,
}

impl Vertex {
    /// Of a cube, the attributes together.
    fn floats(&self) -> Vec<f32> {
        let colour = self.colour.iter().flatten();
        self.position.iter().chain(&self.normal).chain(&self.uv).chain(colour).copied().collect()
    }
}

fn vertex_due(shape: &Shape, face: Face, corner: usize) -> Vertex {
    let signs: Vec<char> = CORNERS[face as usize][corner].chars().collect();
    let ends: Vec<char> = TILES[face as usize % 2][corner].chars().collect();
    let position = [0, 1, 2].map(|axis| {
        let high = shape.d[axis] / 2.0 + shape.centre[axis];
        if signs[axis] == '+' {
            high
        } else {
            high - shape.d[axis]
        }
    });
    let uv = [0, 1].map(|axis| uv_due(shape, face, axis, ends[axis]));
    let colour = shape.color.map(|color| [color, color, color, shape.alpha]);
    Vertex { position, normal: NORMALS[face as usize], uv, colour }
}

fn quad_due((cell, face): (usize, Face), grid: &[u8], coloured: bool) -> [Vertex; 4] {
    let shape = shape(grid[cell], coloured);
    let (width, _, length) = DIMS;
    let at = [cell % width, cell / (width * length), cell / width % length];
    [0, 1, 3, 2].map(|corner| {
        let vertex = vertex_due(&shape, face, corner);
        let position = [0, 1, 2].map(|axis| vertex.position[axis] + at[axis] as f32 * D[axis]);
        Vertex { position, ..vertex }
    })
}

fn kept(coloured: bool) -> Kept {
    if coloured {
        Kept::with_colour(QUADS, CELLS)
    } else {
        Kept::new(QUADS, CELLS)
    }
}

/// The lists of a mesh: its quads, zeros from there to the highest count that there was, then what was there before.
fn lists_due(sides: &[(usize, Face)], highest: usize, grid: &[u8], coloured: bool) -> Kept {
    let mut due = kept(coloured);
    due.positions[..4 * highest].fill([0.0; 3]);
    due.normals[..4 * highest].fill([0.0; 3]);
    due.uvs[..4 * highest].fill([0.0; 2]);
    if coloured {
        due.colours[..4 * highest].fill([0.0; 4]);
    }
    due.triangles[..6 * highest].fill(0);
    due.links[..highest].fill(0);
    due.slots.fill(NO_QUAD);
    for (q, &(cell, face)) in sides.iter().enumerate() {
        let word = |n: usize| u32::try_from(n).unwrap();
        for (vertex, at) in quad_due((cell, face), grid, coloured).iter().zip(4 * q..) {
            due.positions[at] = vertex.position;
            due.normals[at] = vertex.normal;
            due.uvs[at] = vertex.uv;
            if let Some(colour) = vertex.colour {
                due.colours[at] = colour;
            }
        }
        due.triangles[6 * q..6 * (q + 1)].copy_from_slice(&[0, 1, 2, 3, 2, 1].map(|n| word(4 * q + n)));
        due.links[q] = word(cell) | (5 - face as u32) << 29;
        due.slots[6 * cell + face as usize] = word(4 * q);
    }
    due
}

/// As bits: −0.0 is not 0.0.
fn words(floats: &[f32]) -> Vec<u32> {
    floats.iter().map(|float| float.to_bits()).collect()
}

fn hold(kept: &Kept, due: &Kept) {
    assert_eq!(words(kept.positions.as_flattened()), words(due.positions.as_flattened()));
    assert_eq!(words(kept.normals.as_flattened()), words(due.normals.as_flattened()));
    assert_eq!(words(kept.uvs.as_flattened()), words(due.uvs.as_flattened()));
    assert_eq!(words(kept.colours.as_flattened()), words(due.colours.as_flattened()));
    assert_eq!((&kept.triangles, &kept.links, &kept.slots), (&due.triangles, &due.links, &due.slots));
}

// The calls.

/// What shows of the ground where the outer layer names Right, by cell, then face.
#[rustfmt::skip]
const FRESH: [(usize, Face); 15] = [
    (7, Top), (7, Bottom), (7, Left), (7, Back), (7, Forward),
    (8, Top), (8, Bottom), (8, Back), (8, Forward),
    (15, Top), (15, Bottom), (15, Right), (15, Left), (15, Back), (15, Forward),
];

fn meshed(algorithm: MeshingAlgorithm, registry: &VoxelRegistry) -> (Kept, Result<usize, Refusal>) {
    let mut kept = kept(registry.is_coloured());
    let answer = lent::mesh_grid(DIMS, &[Right], &ground(), registry, algorithm, &mut kept.room());
    (kept, answer)
}

#[test]
fn a_cubes_words() {
    for (voxel, coloured) in [(ROCK, false), (ROCK, true), (SLAB, false), (SLAB, true)] {
        let shape = shape(voxel, coloured);
        let due = Face::ALL.map(|face| [0, 1, 2, 3].map(|corner| vertex_due(&shape, face, corner).floats()).concat());
        assert_eq!(due.concat().len(), 24 * if coloured { 12 } else { 8 });
        assert_eq!(words(shape.cube().vertices()), words(&due.concat()));
    }
}

#[test]
fn a_fresh_meshs_words() {
    let naive = [7, 8, 15].map(|cell| Face::ALL.map(|face| (cell, face))).concat();
    for coloured in [false, true] {
        let registry = registry_of(D, CENTRE, coloured);
        for (algorithm, sides) in [(MeshingAlgorithm::Culling, &FRESH[..]), (MeshingAlgorithm::Naive, &naive)] {
            let (kept, answer) = meshed(algorithm, &registry);
            assert_eq!(answer, Ok(sides.len()));
            hold(&kept, &lists_due(sides, sides.len(), &ground(), coloured));
        }
    }
}

#[test]
fn a_mesh_hands_out_its_lists() {
    let registry = registry_of(D, CENTRE, true);
    let (mesh, metadata) = mesh_grid(DIMS, &[Right], &ground(), &registry, MeshingAlgorithm::Culling).unwrap();
    let due = lists_due(&FRESH, FRESH.len(), &ground(), true);
    let vertices = 4 * FRESH.len();
    assert_eq!(mesh.quads(), FRESH.len());
    assert_eq!(mesh.positions(), &due.positions[..vertices]);
    assert_eq!(mesh.normals(), &due.normals[..vertices]);
    assert_eq!(mesh.uvs(), &due.uvs[..vertices]);
    assert_eq!(mesh.colours(), Some(&due.colours[..vertices]));
    assert_eq!(mesh.indices(), &due.triangles[..6 * FRESH.len()]);
    for (quad, &(cell, face)) in FRESH.iter().enumerate() {
        assert_eq!(metadata.cell_and_face(&mesh, quad), Some((cell, face)));
        assert_eq!(metadata.get_quad_index(face, cell), Some(4 * quad as u32));
    }
    assert_eq!(metadata.get_quad_index(Right, 8), None);
}

/// A slab is laid on rock. Its five sides come last, 20 quads by then. Testing the side itself, the rock loses its Top, quad 0, and the
/// last quad takes that place. The rock beside it is dug: the last takes the place of each of its four. Then the Right behind it comes.
/// The third entry finds no room.
fn log_of(entries: usize) -> Log {
    let mut log = Log::new();
    let all = [
        (VoxelChange::Added, 19, SLAB, [None, Some(ROCK), Some(AIR), Some(AIR), Some(AIR), Some(AIR)]),
        (VoxelChange::Broken, 8, ROCK, [Some(AIR), None, None, Some(ROCK), Some(AIR), Some(AIR)]),
        (VoxelChange::Added, 0, ROCK, [Some(AIR), None, Some(AIR), None, Some(AIR), None]),
    ];
    for (change, cell, voxel, around) in &all[..entries] {
        log.push(*change, *cell, *voxel, *around);
    }
    log
}

fn after() -> Vec<u8> {
    grid_of(&[(7, ROCK), (15, SLAB), (19, SLAB)])
}

#[rustfmt::skip]
const BY_THE_OPPOSITE: [(usize, Face); 17] = [
    (7, Top), (7, Bottom), (7, Left), (7, Back), (7, Forward), (19, Forward), (19, Back), (19, Left), (19, Right),
    (15, Top), (15, Bottom), (15, Right), (15, Left), (15, Back), (15, Forward), (19, Top), (7, Right),
];

#[rustfmt::skip]
const BY_THE_SIDE_ITSELF: [(usize, Face); 16] = [
    (19, Forward), (7, Bottom), (7, Left), (7, Back), (7, Forward), (19, Back), (19, Left), (19, Right), (19, Top),
    (15, Top), (15, Bottom), (15, Right), (15, Left), (15, Back), (15, Forward), (7, Right),
];

type LentUpdate = fn(&mut lent::Room, usize, Dimensions, &Log, &VoxelRegistry) -> Result<Updated, UpdateError>;

/// What is tested meets each of coloured and not; place, quads and moved all differ where the room ends.
#[test]
fn an_updates_words() {
    for coloured in [false, true] {
        let registry = registry_of(D, CENTRE, coloured);
        for (update, sides, moved, right) in [
            (lent::update_mesh as LentUpdate, &BY_THE_OPPOSITE[..], 4, Err(Refusal { reason: Reason::WrongSet, place: 6 * 7 })),
            (lent::mend_mesh, &BY_THE_SIDE_ITSELF, 5, Ok(())),
        ] {
            let updated = Updated { quads: sides.len(), moved };
            for (entries, due) in [(2, Ok(updated)), (3, Err(UpdateError::NoRoom { entry: 2, kept: updated }))] {
                let mut kept = meshed(MeshingAlgorithm::Culling, &registry).0;
                assert_eq!(update(&mut kept.room(), FRESH.len(), DIMS, &log_of(entries), &registry), due);
                hold(&kept, &lists_due(sides, QUADS, &after(), coloured));
                assert_eq!(lent::check_mesh(DIMS, &[Right], &after(), &registry, kept.lists(), sides.len()), right);
            }
        }
    }
}

/// The rock at the edge becomes a slab. Its four quads, 5 to 8, go: the last takes the place of two, then five and four shift. The Right behind it comes. The slab's five
/// come last, Right too, which the fresh mesh was told to leave out. Its Bottom, which it covers, has no neighbour, nor a quad above it.
#[rustfmt::skip]
const WITH_THE_EDGE_REPLACED: [(usize, Face); 17] = [
    (7, Top), (7, Bottom), (7, Left), (7, Back), (7, Forward), (15, Forward), (15, Back),
    (15, Top), (15, Bottom), (15, Right), (15, Left), (7, Right),
    (8, Top), (8, Bottom), (8, Right), (8, Back), (8, Forward),
];

/// In the room that it needs, and in one less, in which nothing changes.
#[test]
fn a_replaced_voxels_words() {
    let (sides, grid) = (WITH_THE_EDGE_REPLACED, grid_of(&[(7, ROCK), (8, SLAB), (15, SLAB)]));
    let mut log = Log::new();
    let around = [Some(AIR), None, None, Some(ROCK), Some(AIR), Some(AIR)];
    log.push(VoxelChange::Replaced { former: ROCK }, 8, SLAB, around);
    for coloured in [false, true] {
        let registry = registry_of(D, CENTRE, coloured);
        for update in [lent::update_mesh as LentUpdate, lent::mend_mesh] {
            let fresh = meshed(MeshingAlgorithm::Culling, &registry).0;
            for room in [sides.len(), sides.len() - 1] {
                let mut kept = fresh.clone();
                kept.links.truncate(room);
                let mut due = if room < sides.len() { fresh.clone() } else { lists_due(&sides, sides.len(), &grid, coloured) };
                due.links.truncate(room);
                let answer = update(&mut kept.room(), FRESH.len(), DIMS, &log, &registry);
                hold(&kept, &due);
                if room < sides.len() {
                    let kept = Updated { quads: FRESH.len(), moved: 0 };
                    assert_eq!(answer, Err(UpdateError::NoRoom { entry: 0, kept }));
                } else {
                    assert_eq!(answer, Ok(Updated { quads: sides.len(), moved: 11 }));
                    assert_eq!(lent::check_mesh(DIMS, &[], &grid, &registry, kept.lists(), sides.len()), Ok(()));
                }
            }
        }
    }
}

fn exchanged<T: Copy>(numbers: [T; 3], i: usize) -> [T; 3] {
    let mut numbers = numbers;
    numbers.swap(i, (i + 1) % 3);
    numbers
}

fn refused<T>(reason: Reason, place: u64) -> Result<T, Refusal> {
    Err(Refusal { reason, place })
}

fn checked(dims: Dimensions, outer: &[Face], registry: &VoxelRegistry, kept: &Kept) -> Result<(), Refusal> {
    lent::check_mesh(dims, outer, &ground(), registry, kept.lists(), FRESH.len())
}

/// The check takes the ground's mesh, and neither one that was made by other numbers nor other numbers for it.
#[test]
fn the_check_takes_the_right_numbers_alone() {
    for coloured in [false, true] {
        let registry = registry_of(D, CENTRE, coloured);
        let kept = meshed(MeshingAlgorithm::Culling, &registry).0;
        assert_eq!(checked(DIMS, &[Right], &registry, &kept), Ok(()));
        assert_eq!(checked(DIMS, &[], &registry, &kept), refused(Reason::WrongSet, 6 * 8 + Right as u64));
        for i in 0..3 {
            let other = registry_of(exchanged(D, i), CENTRE, coloured);
            let of_other = meshed(MeshingAlgorithm::Culling, &other).0;
            assert_eq!(checked(DIMS, &[Right], &other, &kept), refused(Reason::WrongVertex, 0));
            assert_eq!(checked(DIMS, &[Right], &registry, &of_other), refused(Reason::WrongVertex, 0));
            assert_eq!(checked(DIMS, &[Right], &other, &of_other), Ok(()));

            let apart = registry_of(D, exchanged(CENTRE, i), coloured);
            assert_eq!(checked(DIMS, &[Right], &apart, &kept), refused(Reason::NotACube, 1));
            assert_eq!(meshed(MeshingAlgorithm::Culling, &apart).1, refused(Reason::NotACube, 1));

            let [width, height, length] = exchanged([DIMS.0, DIMS.1, DIMS.2], i);
            assert!(checked((width, height, length), &[Right], &registry, &kept).is_err());
        }
    }
}
