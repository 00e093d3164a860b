//! `generate_voxel_mesh`.

use crate::*;

/// The cube's parameters, floats as bits.
pub struct Cube<'a> {
    pub d: [u32; 3],
    pub atlas: [u32; 2],
    /// Face, a, b; six times.
    pub texture: &'a [u32],
    pub centre: [u32; 3],
    pub padding: u32,
    pub coloured: bool,
    pub colour: u32,
    pub alpha: u32,
}

/// Four corners a face, each its sign per axis.
#[rustfmt::skip]
const CORNERS: [&str; 6] = [
    "-++ +++ ++- -+-",
    "--- +-- +-+ --+",
    "++- +++ +-+ +--",
    "--- --+ -++ -+-",
    "+++ -++ --+ +-+",
    "+-- --- -+- ++-",
];

pub fn generate_voxel_mesh(cube: &Cube, out: &mut [u32]) -> Result<(), Refusal> {
    cube.verdict(out.len())?;
    let starts = cube.starts();
    let vertices = out.chunks_exact_mut(floats(cube.coloured)).take(24);
    for (number, vertex) in vertices.enumerate() {
        let (face, corner) = (number / 4, number % 4);
        vertex[..3].copy_from_slice(&cube.position(face, corner).map(f32::to_bits));
        vertex[3..6].copy_from_slice(&normal(face).map(f32::to_bits));
        vertex[6..8].copy_from_slice(&cube.uv(starts[face], face, corner).map(f32::to_bits));
        vertex[8..].fill(cube.colour);
        vertex[8..].iter_mut().skip(3).for_each(|word| *word = cube.alpha);
    }
    Ok(())
}

impl Cube<'_> {
    fn verdict(&self, room: usize) -> Result<(), Refusal> {
        let numbers = all_finite(&self.d) && all_finite(&self.centre) && all_finite(&[self.padding]);
        refuse_if(!numbers, BAD_NUMBER, 0)?;
        let entries = || self.texture.chunks_exact(3);
        let atlas = self.atlas.iter().all(|size| (1..=4096).contains(size));
        let tiles = entries().all(|entry| entry[1] <= 4095 && entry[2] <= 4095);
        refuse_if(!atlas || !tiles, BAD_ATLAS, 0)?;
        refuse_lowest(BAD_FACE, entries().map(|entry| entry[0] > 5))?;
        refuse_if(self.texture.len() != 18, BAD_FACE, 6)?;
        refuse_if(room < 24 * floats(self.coloured), SHORT_ROOM, 0)
    }

    /// The tile's share of the atlas, and the padding's, along u and v.
    fn steps(&self) -> [(f32, f32); 2] {
        self.atlas.map(|size| (1.0 / size as f32, f32::from_bits(self.padding) / size as f32))
    }

    /// Where the uv of each face starts: the last entry for a face wins.
    fn starts(&self) -> [[f32; 2]; 6] {
        let mut starts = [[0.0; 2]; 6];
        let steps = self.steps();
        for entry in self.texture.chunks_exact(3) {
            starts[entry[0] as usize] = [0, 1].map(|axis| {
                let (step, padding) = steps[axis];
                entry[1 + axis] as f32 * step + padding
            });
        }
        starts
    }

    fn position(&self, face: usize, corner: usize) -> [f32; 3] {
        let signs = &CORNERS[face].as_bytes()[4 * corner..];
        [0, 1, 2].map(|axis| {
            let d = f32::from_bits(self.d[axis]);
            let high = d / 2.0 + f32::from_bits(self.centre[axis]);
            if signs[axis] == b'+' {
                high
            } else {
                high - d
            }
        })
    }

    fn uv(&self, start: [f32; 2], face: usize, corner: usize) -> [f32; 2] {
        let steps = self.steps();
        // Top, Right, Back take (s,s) (e,s) (e,e) (s,e); the others (e,e) (s,e) (s,s) (e,s), two corners on.
        let (at_end_u, at_end_v) = [(false, false), (true, false), (true, true), (false, true)][(corner + face % 2 * 2) % 4];
        let along = |axis: usize, at_end: bool| {
            let (step, padding) = steps[axis];
            if at_end {
                (start[axis] + step) - padding * 2.0
            } else {
                start[axis]
            }
        };
        [along(0, at_end_u), along(1, at_end_v)]
    }
}

fn normal(face: usize) -> [f32; 3] {
    let axis = [1, 0, 2][face / 2];
    let mut normal = [0.0; 3];
    normal[axis] = if face % 2 == 0 { 1.0 } else { -1.0 };
    normal
}
