//! Sizes and cells; the types and their refusals.

use crate::*;

#[derive(Clone, Copy)]
pub struct Sizes {
    pub width: u32,
    pub height: u32,
    pub length: u32,
}

impl Sizes {
    pub(crate) fn verdict(self) -> Result<(), Refusal> {
        let sizes = [self.width, self.height, self.length];
        let each = sizes.iter().all(|size| (1..=1024).contains(size));
        refuse_if(!each || self.cells() > 1_048_576, BAD_SIZE, 0)
    }

    /// The number of cells; of sizes within the limits it can't wrap.
    pub(crate) fn cells(self) -> usize {
        (self.width as usize).saturating_mul(self.height as usize).saturating_mul(self.length as usize)
    }

    /// x, y, z of a cell.
    pub(crate) fn coordinates(self, cell: usize) -> [usize; 3] {
        let (width, length) = (self.width as usize, self.length as usize);
        [cell % width, cell / (length * width), cell / width % length]
    }

    pub(crate) fn neighbour(self, cell: usize, face: usize) -> Option<usize> {
        let axis = [1, 0, 2][face / 2];
        let step = [1, self.width as usize * self.length as usize, self.width as usize][axis];
        let size = [self.width, self.height, self.length][axis] as usize;
        let at = self.coordinates(cell)[axis];
        if face % 2 == 0 {
            (at + 1 < size).then_some(cell + step)
        } else {
            (at > 0).then(|| cell - step)
        }
    }
}

/// The types, their cubes and the numbers that all of them share, floats as bits.
#[derive(Clone, Copy)]
pub struct Types<'a> {
    pub kinds: &'a [u8],
    pub covers: &'a [u8],
    pub cubes: &'a [u32],
    pub coloured: bool,
    pub d: [u32; 3],
    pub centre: [u32; 3],
}

impl<'a> Types<'a> {
    /// BAD_TYPES, BAD_NUMBER, NOT_A_CUBE.
    pub fn verdict(&self) -> Result<(), Refusal> {
        let count = self.kinds.len();
        let lengths = self.covers.len() == count && self.cubes.len() == 24 * floats(self.coloured) * count;
        refuse_if(!(1..=255).contains(&count) || !lengths, BAD_TYPES, 255)?;
        refuse_lowest(BAD_TYPES, self.kinds.iter().zip(self.covers).map(|(&kind, &set)| kind > 2 || set > 63))?;
        refuse_if(!all_finite(&self.d) || !all_finite(&self.centre), BAD_NUMBER, 0)?;
        refuse_lowest(NOT_A_CUBE, (0..count).map(|voxel| self.is_cube(voxel as u8) && !self.classes_right(voxel as u8)))
    }

    pub(crate) fn is_type(&self, voxel: u8) -> bool {
        (voxel as usize) < self.kinds.len()
    }

    pub(crate) fn is_cube(&self, voxel: u8) -> bool {
        self.kinds[voxel as usize] == 1
    }

    pub(crate) fn covers(&self, voxel: u8, face: usize) -> bool {
        covers(self.covers[voxel as usize], face)
    }

    /// One of the 24 vertices of a type.
    pub(crate) fn vertex(&self, voxel: u8, vertex: usize) -> &'a [u32] {
        let words = floats(self.coloured);
        &self.cubes[(24 * voxel as usize + vertex) * words..][..words]
    }

    fn classes_right(&self, voxel: u8) -> bool {
        let position = |vertex: usize| &self.vertex(voxel, vertex)[..3];
        let triangle = |face: usize, corners: [usize; 3]| {
            let [a, b, c] = corners.map(|corner| position(4 * face + corner));
            self.class(a, b, c) == Some(face)
        };
        (0..24).all(|vertex| all_finite(position(vertex)))
            && (0..FACES).all(|face| triangle(face, [0, 1, 3]) && triangle(face, [2, 3, 1]))
    }

    /// The first axis on which the corners are equal; the low face if the centre is above that coordinate, else the high one.
    fn class(&self, a: &[u32], b: &[u32], c: &[u32]) -> Option<usize> {
        let at = |corner: &[u32], axis: usize| f32::from_bits(corner[axis]);
        let axis = (0..3).find(|&axis| at(a, axis) == at(b, axis) && at(b, axis) == at(c, axis))?;
        let high = [2, 0, 4][axis];
        Some(if f32::from_bits(self.centre[axis]) > at(a, axis) { high + 1 } else { high })
    }
}
