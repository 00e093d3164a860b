//! Grounds to mesh and logs to mend them by, from a seed: what the benches time.

use crate::cases::{coordinates, cube_of, paper_types, true_entry, Case, Random};
use crate::entries::entry;
use crate::rust::{cube, Types};
use plain::{ADDED, BROKEN, REPLACED, SIDES};

const AIR: u8 = 0;
/// The ground that fills air.
pub const ROCK: u8 = 1;

/// Air, and three kinds of ground that cover all sides.
fn ground_types() -> Types {
    let cubes = (0..4).flat_map(|tile| cube(&cube_of(1.0, tile))).collect();
    Types {
        kinds: vec![0, 1, 1, 1],
        covers: vec![0, 63, 63, 63],
        cubes,
        coloured: false,
        d: [1.0f32.to_bits(); 3],
        centre: [0; 3],
    }
}

/// Rolling ground between a quarter and three quarters of the height: heights drawn at every eighth column, joined by straight
/// lines; rock, two cells of soil, one of turf.
pub fn terrain(random: &mut Random, dims: [u32; 3]) -> Case {
    const STEP: u32 = 8;
    let [width, height, length] = dims;
    let posts = width / STEP + 2;
    let drawn: Vec<u32> = (0..posts * (length / STEP + 2)).map(|_| random.below(1 + height as usize / 2) as u32).collect();
    let top = |x: u32, z: u32| {
        let (post, (across, along)) = (z / STEP * posts + x / STEP, (x % STEP, z % STEP));
        let at = |step: u32| drawn[(post + step) as usize];
        let near = at(0) * (STEP - across) + at(1) * across;
        let far = at(posts) * (STEP - across) + at(posts + 1) * across;
        height / 4 + (near * (STEP - along) + far * along) / (STEP * STEP)
    };
    let voxel = |cell: usize| {
        let [x, y, z] = coordinates(dims, cell);
        match top(x, z) as i64 - y as i64 {
            i64::MIN..=-1 => 0,
            0 => 3,
            1 | 2 => 2,
            _ => 1,
        }
    };
    let grid = (0..(width * height * length) as usize).map(voxel).collect();
    Case { dims, grid, types: ground_types(), ..Case::default() }
}

/// Air or rock in each cell, as a coin falls.
pub fn half_full(random: &mut Random, dims: [u32; 3]) -> Case {
    let grid = random.bytes(dims.iter().product::<u32>() as usize, 2);
    Case { dims, grid, types: ground_types(), ..Case::default() }
}

/// Any of document 01's seven types in each cell. Three of them don't cover opposite sides alike.
pub fn noise(random: &mut Random, dims: [u32; 3]) -> Case {
    let types = paper_types(1.0);
    let grid = random.bytes(dims.iter().product::<u32>() as usize, types.kinds.len());
    Case { dims, grid, types, ..Case::default() }
}

/// The cubes among a ground's types.
pub fn cubes_of(case: &Case) -> Vec<u8> {
    (0..case.types.kinds.len() as u8).filter(|&voxel| case.types.is_cube(voxel)).collect()
}

/// An honest log on cells drawn from the whole grid: what isn't air is dug, air is filled with one of the cubes, as its cell says.
pub fn edits(random: &mut Random, case: &Case, cubes: &[u8], entries: usize) -> Vec<u8> {
    let mut grid = case.grid.clone();
    let mut log = vec![];
    for _ in 0..entries {
        let cell = random.below(grid.len());
        let (change, after) = if grid[cell] == AIR { (ADDED, cubes[cell % cubes.len()]) } else { (BROKEN, AIR) };
        log.extend(true_entry(cell, change, after, case.dims, &mut grid));
    }
    log
}

/// An honest log that replaces cubes, drawn from the whole grid, by the next of the cubes.
pub fn replacements(random: &mut Random, case: &Case, entries: usize) -> Vec<u8> {
    let (cubes, mut grid) = (cubes_of(case), case.grid.clone());
    let cells = cube_cells(case);
    let mut log = vec![];
    for _ in 0..entries {
        let cell = random.pick(&cells);
        let next = cubes.iter().copied().find(|&cube| cube > grid[cell]).unwrap_or(cubes[0]);
        log.extend(true_entry(cell, REPLACED, next, case.dims, &mut grid));
    }
    log
}

/// The cells with a cube.
fn cube_cells(case: &Case) -> Vec<usize> {
    (0..case.grid.len()).filter(|&cell| case.types.is_cube(case.grid[cell])).collect()
}

/// Sides of cubes drawn from the whole grid, each side kept, hidden or drawn as a die falls.
pub fn sides(random: &mut Random, case: &Case, entries: usize) -> Vec<u8> {
    let cells = cube_cells(case);
    let mut log = vec![];
    for _ in 0..entries {
        let cell = random.pick(&cells);
        log.extend(entry(cell, SIDES, case.grid[cell], &random.bytes(6, 3)));
    }
    log
}
