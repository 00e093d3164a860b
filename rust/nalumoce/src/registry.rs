//! Cubes, and the types a grid's bytes stand for.

use crate::raw;
use crate::{Face, Reason, Refusal, Sides};

/// The vertices of one voxel, four a face, face by face: position 3, normal 3, uv 2, and colour 4 if it has one.
#[derive(Clone, Debug, PartialEq)]
pub struct Cube {
    vertices: Vec<f32>,
    coloured: bool,
}

impl Cube {
    /// The triangles' words, the same for every cube.
    pub const INDICES: [u32; 36] = indices();

    /// 24 vertices of 8 or 12 floats.
    pub fn vertices(&self) -> &[f32] {
        &self.vertices
    }

    /// Whether each vertex has a colour.
    pub fn is_coloured(&self) -> bool {
        self.coloured
    }
}

const fn indices() -> [u32; 36] {
    const CORNERS: [u32; 6] = [0, 1, 3, 2, 3, 1];
    let mut words = [0; 36];
    let mut i = 0;
    while i < 36 {
        words[i] = 4 * (i as u32 / 6) + CORNERS[i % 6];
        i += 1;
    }
    words
}

/// The floats of a vertex.
const fn floats(coloured: bool) -> usize {
    if coloured {
        12
    } else {
        8
    }
}

/// The mesh of a voxel, argument for argument as in Meshem: its size, the atlas in tiles, a tile for each face, its centre, the
/// padding of a tile, a colour if its vertices are to have one, and that colour's alpha. A face named twice has the later tile.
///
/// ```
/// use nalumoce::{generate_voxel_mesh, Face};
/// let texture = Face::ALL.map(|face| (face, [0, 0]));
/// let cube = generate_voxel_mesh([1.0; 3], [1, 1], texture, [0.0; 3], 0.0, None, 1.0)?;
/// assert_eq!(cube.vertices().len(), 24 * 8);
/// # Ok::<(), nalumoce::Refusal>(())
/// ```
///
/// A slab is half as high, and its centre is a quarter lower, so that it reaches from the floor of its cell to the middle. It covers
/// its underside alone.
///
/// ```
/// # use nalumoce::{generate_voxel_mesh, Face, Sides, VoxelMesh, VoxelRegistry};
/// # let texture = Face::ALL.map(|face| (face, [0, 0]));
/// # let mut registry = VoxelRegistry::new([1.0; 3], [0.0; 3], false);
/// let half = generate_voxel_mesh([1.0, 0.5, 1.0], [1, 1], texture, [0.0, -0.25, 0.0], 0.0, None, 1.0)?;
/// let slab = registry.add(VoxelMesh::NormalCube(&half), Sides::from_fn(|side| side == Face::Bottom))?;
/// # Ok::<(), nalumoce::Refusal>(())
/// ```
///
/// Not every box is taken for a cube: [`VoxelRegistry::new`] says which. Logs that put slabs are for [`mend_mesh`](crate::mend_mesh).
///
/// # Errors
///
/// BAD_NUMBER or BAD_ATLAS.
pub fn generate_voxel_mesh(
    voxel_dims: [f32; 3],
    texture_atlas_dims: [u32; 2],
    texture: [(Face, [u32; 2]); 6],
    voxel_center: [f32; 3],
    padding: f32,
    default_color_intensity: Option<f32>,
    alpha: f32,
) -> Result<Cube, Refusal> {
    let coloured = default_color_intensity.is_some();
    let mut words = [0; 18];
    for (entry, (face, [a, b])) in words.chunks_exact_mut(3).zip(texture) {
        entry.copy_from_slice(&[face as u32, a, b]);
    }
    let parameters = raw::CubeParameters {
        voxel_dims,
        texture_atlas_dims,
        texture: &words,
        voxel_center,
        padding,
        default_color_intensity,
        alpha,
    };
    let mut vertices = vec![0.0; 24 * floats(coloured)];
    raw::generate_voxel_mesh(&parameters, &mut vertices).refusal().map_or(Ok(()), Err)?;
    Ok(Cube { vertices, coloured })
}

/// What a type is drawn as.
#[derive(Clone, Copy, Debug)]
pub enum VoxelMesh<T> {
    /// A cube, or a box that fills part of its cell, as a slab does.
    NormalCube(T),
    /// Some other mesh; it covers, but is not drawn, as in Meshem.
    CustomMesh,
    /// Nothing, as air.
    Null,
}

/// The types. Meshem asks a trait of this name at every voxel; here it is a table, filled once.
///
/// ```
/// use nalumoce::{generate_voxel_mesh, Face, Sides, VoxelMesh, VoxelRegistry};
/// let mut registry = VoxelRegistry::new([1.0; 3], [0.0; 3], false);
/// let texture = Face::ALL.map(|face| (face, [0, 0]));
/// let cube = generate_voxel_mesh([1.0; 3], [1, 1], texture, [0.0; 3], 0.0, None, 1.0)?;
/// let air = registry.add(VoxelMesh::Null, Sides::NONE)?;
/// let rock = registry.add(VoxelMesh::NormalCube(&cube), Sides::ALL)?;
/// assert_eq!((air, rock), (0, 1));
/// # Ok::<(), nalumoce::Refusal>(())
/// ```
#[derive(Clone, Debug)]
pub struct VoxelRegistry {
    pub(crate) kinds: Vec<u8>,
    pub(crate) covers: Vec<u8>,
    pub(crate) cubes: Vec<f32>,
    pub(crate) coloured: bool,
    pub(crate) voxel_dims: [f32; 3],
    pub(crate) center: [f32; 3],
}

impl VoxelRegistry {
    /// No types yet; the size and centre of every cell, and whether vertices have a colour.
    ///
    /// The centre serves to tell a cube's sides apart. The low sides of each type's cube have to be below it, and the high sides at it or
    /// above; else the calls refuse that type, NOT_A_CUBE. So a lower half is taken, its top being at the centre, but an upper half is
    /// not, unless it reaches a little below the centre. For other boxes the centre can be put elsewhere: it moves no vertex.
    pub fn new(voxel_dims: [f32; 3], center: [f32; 3], coloured: bool) -> VoxelRegistry {
        VoxelRegistry { kinds: vec![], covers: vec![], cubes: vec![], coloured, voxel_dims, center }
    }

    /// Adds a type and answers its code, 0 first.
    ///
    /// # Errors
    ///
    /// BAD_TYPES, place 255, if there are 255 types already, or if the cube has a colour and the registry none, or the reverse.
    /// Whether it is a cube about the centre is tested by each call that meshes, mends or checks.
    pub fn add(&mut self, mesh: VoxelMesh<&Cube>, covers: Sides) -> Result<u8, Refusal> {
        let code = self.kinds.len();
        let (kind, cube) = match mesh {
            VoxelMesh::Null => (0, None),
            VoxelMesh::NormalCube(cube) => (1, Some(cube)),
            VoxelMesh::CustomMesh => (2, None),
        };
        if code >= 255 || cube.is_some_and(|cube| cube.coloured != self.coloured) {
            return Err(Refusal { reason: Reason::BadTypes, place: 255 });
        }
        self.kinds.push(kind);
        self.covers.push(covers.bits());
        match cube {
            Some(cube) => self.cubes.extend(&cube.vertices),
            None => self.cubes.resize(self.cubes.len() + 24 * floats(self.coloured), 0.0),
        }
        Ok(code as u8)
    }

    /// How many types there are.
    pub fn len(&self) -> usize {
        self.kinds.len()
    }

    /// Whether there are none.
    pub fn is_empty(&self) -> bool {
        self.kinds.is_empty()
    }

    /// Whether vertices have a colour.
    pub fn is_coloured(&self) -> bool {
        self.coloured
    }
}

#[cfg(test)]
mod tests {
    use super::*;

    /// As document 01 has them: of face f, 4f + 0, 1, 3 and 2, 3, 1.
    #[test]
    #[rustfmt::skip]
    fn the_36_words() {
        assert_eq!(Cube::INDICES, [
            0, 1, 3, 2, 3, 1,
            4, 5, 7, 6, 7, 5,
            8, 9, 11, 10, 11, 9,
            12, 13, 15, 14, 15, 13,
            16, 17, 19, 18, 19, 17,
            20, 21, 23, 22, 23, 21,
        ]);
    }

    /// Each triangle is half of its face, and runs counter-clockwise as seen from outside.
    #[test]
    fn the_words_go_with_the_vertices() {
        let texture = Face::ALL.map(|face| (face, [0, 0]));
        for color in [None, Some(0.5)] {
            let cube = generate_voxel_mesh([1.0; 3], [1, 1], texture, [0.0; 3], 0.0, color, 1.0).unwrap();
            let vertices: Vec<&[f32]> = cube.vertices().chunks_exact(floats(cube.is_coloured())).collect();
            assert_eq!(vertices.len(), 24);
            for (number, triangle) in Cube::INDICES.chunks_exact(3).enumerate() {
                let [a, b, c] = [0, 1, 2].map(|i| vertices[triangle[i] as usize]);
                let [p, q] = [b, c].map(|end| [0, 1, 2].map(|axis| end[axis] - a[axis]));
                let across = [p[1] * q[2] - p[2] * q[1], p[2] * q[0] - p[0] * q[2], p[0] * q[1] - p[1] * q[0]];
                let outward = match Face::ALL[number / 2] {
                    Face::Top => [0.0, 1.0, 0.0],
                    Face::Bottom => [0.0, -1.0, 0.0],
                    Face::Right => [1.0, 0.0, 0.0],
                    Face::Left => [-1.0, 0.0, 0.0],
                    Face::Back => [0.0, 0.0, 1.0],
                    Face::Forward => [0.0, 0.0, -1.0],
                };
                assert_eq!(across, outward);
                assert_eq!(a[3..6], outward);
            }
        }
    }
}
