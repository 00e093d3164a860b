//! Lays half-height slabs and roof panels on benches of rock, digs some of both and fills again, all in one log; mends the mesh by it,
//! and checks it. Then the same log by Meshem's rule, which the check finds fault with.
//!
//!     cargo run --example slabs [FOLDER]
//!
//! Writes slabs.png, slabs_source.png and slabs.obj into FOLDER, the current one if none is named. The second picture is of Meshem's
//! rule: faces that should not be there shine through in red, and where one is missing there is a hole.

mod picture;

use nalumoce::*;
use std::error::Error;
use std::path::Path;

const DIMS: Dimensions = (14, 7, 10);

const AIR: u8 = 0;
const ROCK: u8 = 1;
/// The lower half of its cell; covers Bottom.
const SLAB: u8 = 2;
/// The upper half of its cell and a little more; covers Top.
const PANEL: u8 = 3;
const COLOURS: [[u8; 3]; 4] = [[255, 255, 255], [150, 150, 158], [214, 178, 112], [96, 140, 190]];

/// A box as wide and long as its cell, between two heights above the cell's middle.
fn between(low: f32, high: f32) -> Result<Cube, Refusal> {
    let texture = Face::ALL.map(|face| (face, [0, 0]));
    generate_voxel_mesh([1.0, high - low, 1.0], [1, 1], texture, [0.0, (low + high) / 2.0, 0.0], 0.0, None, 1.0)
}

fn types() -> Result<VoxelRegistry, Refusal> {
    let only = |side| Sides::from_fn(move |other| other == side);
    let mut registry = VoxelRegistry::new([1.0; 3], [0.0; 3], false);
    assert_eq!(registry.add(VoxelMesh::Null, Sides::NONE)?, AIR);
    assert_eq!(registry.add(VoxelMesh::NormalCube(&between(-0.5, 0.5)?), Sides::ALL)?, ROCK);
    assert_eq!(registry.add(VoxelMesh::NormalCube(&between(-0.5, 0.0)?), only(Face::Bottom))?, SLAB);
    // from 0.0 it would be no cube: a side at the centre is a high one
    assert_eq!(registry.add(VoxelMesh::NormalCube(&between(-0.0625, 0.5)?), only(Face::Top))?, PANEL);
    Ok(registry)
}

/// Four benches of rock, each a cube higher than the one before it.
fn benches() -> Vec<u8> {
    let height = |x: usize| [5, 4, 3, 2][(x + 1) / 4];
    let (width, layers, length) = DIMS;
    let cells = (0..layers).flat_map(|y| (0..length).flat_map(move |_| (0..width).map(move |x| (x, y))));
    cells.map(|(x, y)| if y < height(x) { ROCK } else { AIR }).collect()
}

/// What is put where, AIR for what is dug, in order.
fn works() -> Vec<([usize; 3], u8)> {
    let mut works = vec![];
    // a haul road of slabs, two before each bench and three wide: half a cube up every other cube
    for (x, y) in [(12, 2), (11, 2), (8, 3), (7, 3), (4, 4), (3, 4)] {
        works.extend([2, 3, 4].map(|z| ([x, y, z], SLAB)));
    }
    // a ditch along it, half filled
    works.extend([13, 12, 11].map(|x| ([x, 1, 6], AIR)));
    works.extend([12, 11].map(|x| ([x, 1, 6], SLAB)));
    // an adit, with panels beneath its roof
    works.extend([9, 8, 7].map(|z| ([5, 2, z], AIR)));
    works.extend([9, 8, 7].map(|z| ([5, 2, z], PANEL)));
    // a shelter: panels from the bench's wall to a post
    works.push(([10, 3, 7], ROCK));
    works.extend([9, 8, 7].map(|x| ([x, 3, 7], PANEL)));
    // a slab is lifted, the rock beneath it dug, and both are put back; another slab is lifted for good
    works.extend([([8, 3, 3], AIR), ([8, 2, 3], AIR), ([8, 2, 3], ROCK), ([8, 3, 3], SLAB), ([12, 2, 4], AIR)]);
    works
}

fn put(metadata: &mut MeshMD, grid: &mut [u8], place: [usize; 3], voxel: u8) {
    let cell = one_d_cords_safe(place, DIMS).expect("a place in the chunk");
    let (change, of) = if voxel == AIR { (VoxelChange::Broken, grid[cell]) } else { (VoxelChange::Added, voxel) };
    metadata.log(change, cell, of, neighboring_voxels(grid, cell, DIMS));
    grid[cell] = voxel;
}

fn main() -> Result<(), Box<dyn Error>> {
    let folder = std::env::args().nth(1).unwrap_or(".".into());
    let folder = Path::new(&folder);
    let registry = types()?;
    let mut grid = benches();
    let (mut mesh, mut metadata) = mesh_grid(DIMS, &[], &grid, &registry, MeshingAlgorithm::Culling)?;
    println!("meshed: {} quads", mesh.quads());
    for (place, voxel) in works() {
        put(&mut metadata, &mut grid, place, voxel);
    }
    let entries = metadata.logged().len();
    let (mut source, mut of_source) = (mesh.clone(), metadata.clone());

    let mended = mend_mesh(&mut mesh, &mut metadata, &registry)?;
    println!("mended by {entries}: {} quads, {} moved", mended.quads, mended.moved);
    check_mesh(&mesh, &metadata, &[], &grid, &registry)?;
    println!("checked: the mesh of the new ground");
    draw(&mesh, &metadata, &grid, &[], &folder.join("slabs.png"))?;
    std::fs::write(folder.join("slabs.obj"), picture::obj(&mesh))?;

    let updated = update_mesh(&mut source, &mut of_source, &registry)?;
    println!("the same log by Meshem's rule: {} quads, not {}", updated.quads, mended.quads);
    if let Err(refusal) = check_mesh(&source, &of_source, &[], &grid, &registry) {
        println!("checked: {} at {}, the {}", refusal.reason.name(), refusal.place, named(refusal.place as usize));
    }
    let too_many = drawn_here_alone(&source, &of_source, &metadata);
    let missing = drawn_here_alone(&mesh, &metadata, &of_source);
    println!("{} faces are too many, {} are missing", too_many.len(), missing.len());
    draw(&source, &of_source, &grid, &too_many, &folder.join("slabs_source.png"))?;
    Ok(())
}

/// A face by WRONG_SET's place, 6 · cell + face.
fn named(place: usize) -> String {
    let at = three_d_cords_arr_safe(place / 6, DIMS).unwrap_or_default();
    format!("{:?} at x, y, z {at:?}", Face::ALL[place % 6])
}

/// The quads of a mesh whose faces another one does not draw.
fn drawn_here_alone(mesh: &Mesh, metadata: &MeshMD, other: &MeshMD) -> Vec<usize> {
    let is_other = |(cell, face)| other.get_quad_index(face, cell).is_some();
    (0..mesh.quads()).filter(|&quad| !metadata.cell_and_face(mesh, quad).is_some_and(is_other)).collect()
}

fn draw(mesh: &Mesh, metadata: &MeshMD, grid: &[u8], marked: &[usize], path: &Path) -> std::io::Result<()> {
    let colour = |quad| metadata.cell_and_face(mesh, quad).map_or(COLOURS[0], |(cell, _)| COLOURS[grid[cell] as usize]);
    std::fs::write(path, picture::png(mesh, 40.0, colour, marked))
}
