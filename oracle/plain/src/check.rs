//! `check_mesh`.

use crate::mesh::{linked, write_quad, Grid};
use crate::*;

pub fn check_mesh(sizes: Sizes, outer: &[u8], grid: &[u8], types: &Types, mesh: Held, count: u64) -> Result<(), Refusal> {
    let grid = Grid { sizes, cells: grid, outer, naive: false };
    grid.verdict(types)?;
    mesh.verdict(sizes.cells(), types.coloured, count)?;
    let wrong_side = |(cell, face)| (mesh.slots[6 * cell + face] != NONE) != grid.draws(types, cell, face);
    refuse_lowest(WRONG_SET, grid.sides().map(wrong_side))?;
    let wrong_quad = |quad: usize| {
        let (cell, face) = linked(mesh.links[quad]);
        mesh.attributes(types.coloured).any(|(attribute, list)| {
            let words = 4 * attribute.len();
            let fresh = &mut [0; 16][..words];
            write_quad(fresh, attribute, cell, face, grid.cells[cell], sizes, types);
            list[quad * words..][..words] != *fresh
        })
    };
    refuse_lowest(WRONG_VERTEX, (0..count as usize).map(wrong_quad))
}
