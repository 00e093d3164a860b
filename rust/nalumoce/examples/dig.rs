//! Builds a chunk, digs twenty voxels of it and lays gravel in the place of some clay, all in one log, checks the mended mesh, and draws it.
//!
//!     cargo run --example dig [FOLDER]
//!
//! Writes before.png, dug.png and dug.obj into FOLDER, the current one if none is named.

mod picture;

use nalumoce::*;
use std::error::Error;
use std::path::Path;

const DIMS: Dimensions = (12, 8, 12);

/// Five types by their codes: air, rock, clay, turf, gravel. Each cube has its own tile of an atlas of five.
const COLOURS: [[u8; 3]; 5] = [[255, 255, 255], [150, 150, 158], [156, 112, 72], [104, 168, 76], [206, 196, 178]];
const AIR: u8 = 0;
const GRAVEL: u8 = 4;

fn types() -> Result<VoxelRegistry, Refusal> {
    let mut registry = VoxelRegistry::new([1.0; 3], [0.0; 3], false);
    assert_eq!(registry.add(VoxelMesh::Null, Sides::NONE)?, AIR);
    for tile in 1..COLOURS.len() as u32 {
        let texture = Face::ALL.map(|face| (face, [tile, 0]));
        let cube = generate_voxel_mesh([1.0; 3], [5, 1], texture, [0.0; 3], 0.0, None, 1.0)?;
        registry.add(VoxelMesh::NormalCube(&cube), Sides::ALL)?;
    }
    Ok(registry)
}

/// Layers from below: five of rock, one of clay, one of turf, one of air.
fn ground() -> Vec<u8> {
    let (width, _, length) = DIMS;
    [1, 1, 1, 1, 1, 2, 3, AIR].iter().flat_map(|&voxel| vec![voxel; width * length]).collect()
}

/// A bench of sixteen at the near corner, and four of a tunnel into the Right side.
fn to_dig() -> Vec<[usize; 3]> {
    let bench = (0..16).map(|i| [8 + i % 4, 6, 8 + i / 4]);
    let tunnel = (0..4).map(|i| [11 - i, 2, 4]);
    bench.chain(tunnel).collect()
}

/// A path of six over the bench's floor, which is clay once the turf is dug.
fn to_gravel() -> Vec<[usize; 3]> {
    let along = (8..11).map(|x| [x, 5, 9]);
    let across = (9..12).map(|z| [11, 5, z]);
    along.chain(across).collect()
}

fn cell_at(place: [usize; 3]) -> Result<usize, &'static str> {
    one_d_cords_safe(place, DIMS).ok_or("a place outside the chunk")
}

fn main() -> Result<(), Box<dyn Error>> {
    let folder = std::env::args().nth(1).unwrap_or(".".into());
    let folder = Path::new(&folder);
    let registry = types()?;
    let mut grid = ground();
    let (mut mesh, mut metadata) = mesh_grid(DIMS, &[], &grid, &registry, MeshingAlgorithm::Culling)?;
    println!("meshed: {} quads", mesh.quads());
    draw(&mesh, &metadata, &grid, &folder.join("before.png"))?;

    for place in to_dig() {
        let cell = cell_at(place)?;
        metadata.log(VoxelChange::Broken, cell, grid[cell], neighboring_voxels(&grid, cell, DIMS));
        grid[cell] = AIR;
    }
    let dug = metadata.logged().len();
    for place in to_gravel() {
        let cell = cell_at(place)?;
        metadata.log(VoxelChange::Replaced { former: grid[cell] }, cell, GRAVEL, neighboring_voxels(&grid, cell, DIMS));
        grid[cell] = GRAVEL;
    }
    let replaced = metadata.logged().len() - dug;
    let updated = update_mesh(&mut mesh, &mut metadata, &registry)?;
    println!("dug {dug}, replaced {replaced}: {} quads, {} moved", updated.quads, updated.moved);

    check_mesh(&mesh, &metadata, &[], &grid, &registry)?;
    println!("checked: the mesh of the dug ground");
    if let Err(refusal) = check_mesh(&mesh, &metadata, &[], &ground(), &registry) {
        println!("of the ground before: {} at {}", refusal.reason.name(), refusal.place);
    }

    draw(&mesh, &metadata, &grid, &folder.join("dug.png"))?;
    std::fs::write(folder.join("dug.obj"), picture::obj(&mesh))?;
    Ok(())
}

fn draw(mesh: &Mesh, metadata: &MeshMD, grid: &[u8], path: &Path) -> std::io::Result<()> {
    let colour = |quad| metadata.cell_and_face(mesh, quad).map_or(COLOURS[0], |(cell, _)| COLOURS[grid[cell] as usize]);
    std::fs::write(path, picture::png(mesh, 24.0, colour, &[]))
}
