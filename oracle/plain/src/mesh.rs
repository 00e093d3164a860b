//! A mesh in its buffers, and `mesh_grid`.

use crate::*;
use std::ops::Range;

/// The lent room of a mesh.
pub struct Buffers<'a> {
    pub positions: &'a mut [u32],
    pub normals: &'a mut [u32],
    pub uvs: &'a mut [u32],
    pub colours: &'a mut [u32],
    pub triangles: &'a mut [u32],
    pub links: &'a mut [u32],
    pub slots: &'a mut [u32],
}

/// A mesh that is only read.
#[derive(Clone, Copy)]
pub struct Held<'a> {
    pub positions: &'a [u32],
    pub normals: &'a [u32],
    pub uvs: &'a [u32],
    pub colours: &'a [u32],
    pub triangles: &'a [u32],
    pub links: &'a [u32],
    pub slots: &'a [u32],
}

/// Which floats of a cube's vertex are its position, its normal, its uv and its colour.
const ATTRIBUTES: [Range<usize>; 4] = [0..3, 3..6, 6..8, 8..12];

/// The attributes that a vertex has.
const fn attributes(coloured: bool) -> usize {
    if coloured {
        4
    } else {
        3
    }
}

impl Buffers<'_> {
    pub(crate) fn held(&self) -> Held<'_> {
        Held {
            positions: self.positions,
            normals: self.normals,
            uvs: self.uvs,
            colours: self.colours,
            triangles: self.triangles,
            links: self.links,
            slots: self.slots,
        }
    }

    /// The list of each attribute, with its floats of a cube's vertex.
    pub(crate) fn attributes(&mut self, coloured: bool) -> impl Iterator<Item = (Range<usize>, &mut [u32])> {
        let lists = [&mut *self.positions, &mut *self.normals, &mut *self.uvs, &mut *self.colours];
        ATTRIBUTES.into_iter().zip(lists).take(attributes(coloured))
    }
}

/// 4q + 0,1,2,3,2,1
pub(crate) fn pattern(quad: usize) -> [u32; 6] {
    [0, 1, 2, 3, 2, 1].map(|corner| 4 * quad as u32 + corner)
}

impl Held<'_> {
    /// The list of each attribute, with its floats of a cube's vertex.
    pub(crate) fn attributes(&self, coloured: bool) -> impl Iterator<Item = (Range<usize>, &[u32])> {
        let lists = [self.positions, self.normals, self.uvs, self.colours];
        ATTRIBUTES.into_iter().zip(lists).take(attributes(coloured))
    }

    /// Room in quads: the least over all lists, the colour list counted only with colour.
    pub(crate) fn room(&self, coloured: bool) -> usize {
        let quads = self.attributes(coloured).map(|(floats, list)| list.len() / (4 * floats.len()));
        quads.fold(self.links.len().min(self.triangles.len() / 6), usize::min)
    }

    /// SHORT_ROOM, BAD_COUNT, BAD_LINKS, BAD_TRIANGLES.
    pub(crate) fn verdict(&self, cells: usize, coloured: bool, count: u64) -> Result<(), Refusal> {
        refuse_if(self.slots.len() < 6 * cells, SHORT_ROOM, 0)?;
        refuse_if(count > self.room(coloured) as u64, BAD_COUNT, 0)?;
        let quads = count as usize;
        refuse_lowest(BAD_LINKS, (0..quads).map(|quad| !self.links_back(quad, cells)))?;
        let filled = self.slots[..6 * cells].iter().filter(|&&slot| slot != NONE).count();
        refuse_if(filled > quads, BAD_LINKS, count)?;
        refuse_lowest(BAD_TRIANGLES, (0..quads).map(|quad| self.triangles[6 * quad..][..6] != pattern(quad)))
    }

    fn links_back(&self, quad: usize, cells: usize) -> bool {
        let (cell, code) = ((self.links[quad] & OFFSET_MASK) as usize, self.links[quad] >> 29);
        code <= 5 && cell < cells && self.slots[6 * cell + 5 - code as usize] == 4 * quad as u32
    }
}

/// Cell and face of a link.
pub(crate) fn linked(link: u32) -> (usize, usize) {
    ((link & OFFSET_MASK) as usize, 5 - (link >> 29) as usize)
}

/// The words of an attribute of one quad: the cube's 4f, 4f+1, 4f+3, 4f+2, each position plus (coordinate as f32 · d).
pub(crate) fn write_quad(
    out: &mut [u32],
    attribute: Range<usize>,
    cell: usize,
    face: usize,
    voxel: u8,
    sizes: Sizes,
    types: &Types,
) {
    let at = sizes.coordinates(cell);
    for (vertex, corner) in out.chunks_exact_mut(attribute.len()).zip([0, 1, 3, 2]) {
        vertex.copy_from_slice(&types.vertex(voxel, 4 * face + corner)[attribute.clone()]);
        if attribute == ATTRIBUTES[0] {
            for axis in 0..3 {
                let offset = at[axis] as f32 * f32::from_bits(types.d[axis]);
                vertex[axis] = (f32::from_bits(vertex[axis]) + offset).to_bits();
            }
        }
    }
}

impl Buffers<'_> {
    /// Quad and slot as a fresh mesh writes them.
    pub(crate) fn write(&mut self, quad: usize, cell: usize, face: usize, voxel: u8, sizes: Sizes, types: &Types) {
        for (attribute, list) in self.attributes(types.coloured) {
            let words = 4 * attribute.len();
            write_quad(&mut list[quad * words..][..words], attribute, cell, face, voxel, sizes, types);
        }
        self.triangles[6 * quad..][..6].copy_from_slice(&pattern(quad));
        self.links[quad] = link(cell, face);
        self.slots[6 * cell + face] = 4 * quad as u32;
    }
}

/// What is asked to be drawn: a grid and the faces not drawn at its edge.
#[derive(Clone, Copy)]
pub(crate) struct Grid<'a> {
    pub sizes: Sizes,
    pub cells: &'a [u8],
    pub outer: &'a [u8],
    pub naive: bool,
}

impl Grid<'_> {
    /// BAD_SIZE; the types' refusals; BAD_FACE, BAD_CELL.
    pub(crate) fn verdict(&self, types: &Types) -> Result<(), Refusal> {
        self.sizes.verdict()?;
        refuse_if(self.cells.len() != self.sizes.cells(), BAD_SIZE, 0)?;
        types.verdict()?;
        refuse_lowest(BAD_FACE, self.outer.iter().map(|&face| face > 5))?;
        refuse_lowest(BAD_CELL, self.cells.iter().map(|&voxel| !types.is_type(voxel)))
    }

    pub(crate) fn draws(&self, types: &Types, cell: usize, face: usize) -> bool {
        let shown = || match self.sizes.neighbour(cell, face) {
            Some(neighbour) => !types.covers(self.cells[neighbour], opposite(face)),
            None => !self.outer.contains(&(face as u8)),
        };
        types.is_cube(self.cells[cell]) && (self.naive || shown())
    }

    pub(crate) fn sides(&self) -> impl Iterator<Item = (usize, usize)> {
        (0..FACES * self.cells.len()).map(|key| (key / FACES, key % FACES))
    }
}

pub fn mesh_grid(
    sizes: Sizes,
    outer: &[u8],
    grid: &[u8],
    types: &Types,
    naive: bool,
    buffers: &mut Buffers,
) -> Result<u64, Refusal> {
    let grid = Grid { sizes, cells: grid, outer, naive };
    grid.verdict(types)?;
    refuse_if(buffers.slots.len() < 6 * sizes.cells(), SHORT_ROOM, 0)?;
    let needed = grid.sides().filter(|&(cell, face)| grid.draws(types, cell, face)).count();
    refuse_if(needed > buffers.held().room(types.coloured), NO_ROOM, 0)?;
    let mut quads = 0;
    for (cell, face) in grid.sides() {
        if grid.draws(types, cell, face) {
            buffers.write(quads, cell, face, grid.cells[cell], sizes, types);
            quads += 1;
        } else {
            buffers.slots[6 * cell + face] = NONE;
        }
    }
    Ok(quads as u64)
}
