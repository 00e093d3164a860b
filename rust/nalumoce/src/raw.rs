//! The C interface of `include/meshem.h`, and the only unsafe code. It is sound because the header's rules hold of whatever a safe caller
//! lends:
//!
//! - Each slice is passed as its own pointer and length, so it is that long and aligned. An empty one dangles, as the header allows.
//! - What is written comes by `&mut`, the outputs too, which are fields of a [`Told`] made for the call. So it overlaps nothing.
//! - What is only read comes by `&`. Safe code may lend one list twice, as links and as slots say, and the header allows that.
//! - An f32 and its bits are one word, and a [`Face`] is its number.
//! - The library is of the level of these declarations. The build compares the two, but for a machine that isn't its own; so each
//!   call compares them too.

use crate::lent::{Lists, Room};
use crate::{Dimensions, Face, MeshingAlgorithm, Reason, Refusal, VoxelRegistry, MESHEM_ABI};
use std::mem::{align_of, size_of};

#[rustfmt::skip]
extern "C" {
    fn meshem_generate_voxel_mesh(
        dx: u32, dy: u32, dz: u32,
        atlas_width: u32, atlas_height: u32,
        texture: *const u32, texture_len: usize,
        cx: u32, cy: u32, cz: u32,
        padding: u32,
        coloured: u32,
        colour: u32, alpha: u32,
        out: *mut u32, out_len: usize,
        place: *mut u64,
    ) -> u32;

    fn meshem_mesh_grid(
        width: u32, height: u32, length: u32,
        outer: *const u8, outer_len: usize,
        grid: *const u8, grid_len: usize,
        kinds: *const u8, kinds_len: usize,
        covers: *const u8, covers_len: usize,
        cubes: *const u32, cubes_len: usize,
        coloured: u32,
        dx: u32, dy: u32, dz: u32, cx: u32, cy: u32, cz: u32,
        algorithm: u32,
        positions: *mut u32, positions_len: usize, normals: *mut u32, normals_len: usize,
        uvs: *mut u32, uvs_len: usize, colours: *mut u32, colours_len: usize,
        triangles: *mut u32, triangles_len: usize,
        links: *mut u32, links_len: usize, slots: *mut u32, slots_len: usize,
        place: *mut u64, quads: *mut u64,
    ) -> u32;

    fn meshem_update_mesh(
        positions: *mut u32, positions_len: usize, normals: *mut u32, normals_len: usize,
        uvs: *mut u32, uvs_len: usize, colours: *mut u32, colours_len: usize,
        triangles: *mut u32, triangles_len: usize,
        links: *mut u32, links_len: usize, slots: *mut u32, slots_len: usize,
        count: u64,
        width: u32, height: u32, length: u32,
        log: *const u8, log_len: usize,
        tested: u32,
        kinds: *const u8, kinds_len: usize, covers: *const u8, covers_len: usize,
        cubes: *const u32, cubes_len: usize, coloured: u32,
        dx: u32, dy: u32, dz: u32, cx: u32, cy: u32, cz: u32,
        place: *mut u64, quads: *mut u64, moved: *mut u64,
    ) -> u32;

    fn meshem_check_mesh(
        width: u32, height: u32, length: u32,
        outer: *const u8, outer_len: usize, grid: *const u8, grid_len: usize,
        kinds: *const u8, kinds_len: usize, covers: *const u8, covers_len: usize,
        cubes: *const u32, cubes_len: usize, coloured: u32,
        dx: u32, dy: u32, dz: u32, cx: u32, cy: u32, cz: u32,
        positions: *const u32, positions_len: usize, normals: *const u32, normals_len: usize,
        uvs: *const u32, uvs_len: usize, colours: *const u32, colours_len: usize,
        triangles: *const u32, triangles_len: usize,
        links: *const u32, links_len: usize, slots: *const u32, slots_len: usize,
        count: u64,
        place: *mut u64,
    ) -> u32;
}

/// The level of the library that is linked. If it is not [`MESHEM_ABI`] the build stops, or the first call panics where the build can't ask.
pub fn meshem_abi() -> u32 {
    extern "C" {
        fn meshem_abi() -> u32;
    }
    unsafe { meshem_abi() }
}

/// The side of an Added or Replaced voxel that decides whether the neighbour at a face loses its facing quad.
#[derive(Clone, Copy)]
pub(crate) enum Tested {
    /// The opposite of the face, as Meshem does.
    Opposite = 0,
    /// The face itself, as the culling rule does.
    Itself = 1,
}

pub(crate) struct CubeParameters<'a> {
    pub voxel_dims: [f32; 3],
    pub texture_atlas_dims: [u32; 2],
    pub texture: &'a [u32],
    pub voxel_center: [f32; 3],
    pub padding: f32,
    pub default_color_intensity: Option<f32>,
    pub alpha: f32,
}

/// What a call told: 0 or a refusal's number, its place, and the counts.
#[derive(Default)]
pub(crate) struct Told {
    number: u32,
    pub place: u64,
    pub quads: u64,
    pub moved: u64,
}

impl Told {
    /// Nothing yet, for a call to write into. A library of another level would misread what the call is given.
    fn nothing() -> Told {
        assert_eq!(meshem_abi(), MESHEM_ABI, "libexports.a is of another MESHEM_ABI than this crate");
        Told::default()
    }

    pub fn refusal(&self) -> Option<Refusal> {
        (self.number != 0).then(|| {
            let reason = Reason::from_number(self.number).expect("the library names 1 to 16");
            Refusal { reason, place: self.place }
        })
    }
}

const _: () = assert!(size_of::<f32>() == size_of::<u32>() && align_of::<f32>() == align_of::<u32>());
const _: () = assert!(size_of::<Face>() == size_of::<u8>());

/// The floats' own words, without a copy. Every bit pattern is an f32 and a u32, and size and alignment are one, as asserted above.
fn words(floats: &[f32]) -> &[u32] {
    unsafe { std::slice::from_raw_parts(floats.as_ptr().cast(), floats.len()) }
}

fn words_mut(floats: &mut [f32]) -> &mut [u32] {
    unsafe { std::slice::from_raw_parts_mut(floats.as_mut_ptr().cast(), floats.len()) }
}

/// The words of an attribute, vertex by vertex: an array has no gaps.
fn rows<const N: usize>(rows: &[[f32; N]]) -> &[u32] {
    words(rows.as_flattened())
}

fn rows_mut<const N: usize>(rows: &mut [[f32; N]]) -> &mut [u32] {
    words_mut(rows.as_flattened_mut())
}

/// The faces' numbers: `Face` is `repr(u8)`.
fn numbers(faces: &[Face]) -> &[u8] {
    unsafe { std::slice::from_raw_parts(faces.as_ptr().cast(), faces.len()) }
}

/// A size that a u32 can't hold is over the limit, as u32::MAX is.
fn sizes((width, height, length): Dimensions) -> [u32; 3] {
    [width, height, length].map(|size| u32::try_from(size).unwrap_or(u32::MAX))
}

#[rustfmt::skip]
pub(crate) fn generate_voxel_mesh(p: &CubeParameters, out: &mut [f32]) -> Told {
    let mut told = Told::nothing();
    let out = words_mut(out);
    let [d, c] = [p.voxel_dims, p.voxel_center].map(|floats| floats.map(f32::to_bits));
    let colour = p.default_color_intensity.unwrap_or(0.0);
    told.number = unsafe {
        meshem_generate_voxel_mesh(
            d[0], d[1], d[2],
            p.texture_atlas_dims[0], p.texture_atlas_dims[1],
            p.texture.as_ptr(), p.texture.len(),
            c[0], c[1], c[2],
            p.padding.to_bits(),
            p.default_color_intensity.is_some() as u32,
            colour.to_bits(), p.alpha.to_bits(),
            out.as_mut_ptr(), out.len(),
            &mut told.place,
        )
    };
    told
}

#[rustfmt::skip]
pub(crate) fn mesh_grid(
    dims: Dimensions, outer: &[Face], grid: &[u8], reg: &VoxelRegistry, algorithm: MeshingAlgorithm, room: &mut Room,
) -> Told {
    let mut told = Told::nothing();
    let [width, height, length] = sizes(dims);
    let outer = numbers(outer);
    let cubes = words(&reg.cubes);
    let [d, c] = [reg.voxel_dims, reg.center].map(|floats| floats.map(f32::to_bits));
    let (positions, normals) = (rows_mut(room.positions), rows_mut(room.normals));
    let (uvs, colours) = (rows_mut(room.uvs), rows_mut(room.colours));
    told.number = unsafe {
        meshem_mesh_grid(
            width, height, length,
            outer.as_ptr(), outer.len(),
            grid.as_ptr(), grid.len(),
            reg.kinds.as_ptr(), reg.kinds.len(),
            reg.covers.as_ptr(), reg.covers.len(),
            cubes.as_ptr(), cubes.len(),
            reg.coloured as u32,
            d[0], d[1], d[2], c[0], c[1], c[2],
            algorithm as u32,
            positions.as_mut_ptr(), positions.len(), normals.as_mut_ptr(), normals.len(),
            uvs.as_mut_ptr(), uvs.len(), colours.as_mut_ptr(), colours.len(),
            room.triangles.as_mut_ptr(), room.triangles.len(),
            room.links.as_mut_ptr(), room.links.len(), room.slots.as_mut_ptr(), room.slots.len(),
            &mut told.place, &mut told.quads,
        )
    };
    told
}

#[rustfmt::skip]
pub(crate) fn update_mesh(
    room: &mut Room, quads: usize, dims: Dimensions, log: &[u8], tested: Tested, reg: &VoxelRegistry,
) -> Told {
    let mut told = Told::nothing();
    let [width, height, length] = sizes(dims);
    let cubes = words(&reg.cubes);
    let [d, c] = [reg.voxel_dims, reg.center].map(|floats| floats.map(f32::to_bits));
    let (positions, normals) = (rows_mut(room.positions), rows_mut(room.normals));
    let (uvs, colours) = (rows_mut(room.uvs), rows_mut(room.colours));
    told.number = unsafe {
        meshem_update_mesh(
            positions.as_mut_ptr(), positions.len(), normals.as_mut_ptr(), normals.len(),
            uvs.as_mut_ptr(), uvs.len(), colours.as_mut_ptr(), colours.len(),
            room.triangles.as_mut_ptr(), room.triangles.len(),
            room.links.as_mut_ptr(), room.links.len(), room.slots.as_mut_ptr(), room.slots.len(),
            quads as u64,
            width, height, length,
            log.as_ptr(), log.len(),
            tested as u32,
            reg.kinds.as_ptr(), reg.kinds.len(), reg.covers.as_ptr(), reg.covers.len(),
            cubes.as_ptr(), cubes.len(), reg.coloured as u32,
            d[0], d[1], d[2], c[0], c[1], c[2],
            &mut told.place, &mut told.quads, &mut told.moved,
        )
    };
    told
}

#[rustfmt::skip]
pub(crate) fn check_mesh(
    dims: Dimensions, outer: &[Face], grid: &[u8], reg: &VoxelRegistry, lists: &Lists, quads: usize,
) -> Told {
    let mut told = Told::nothing();
    let [width, height, length] = sizes(dims);
    let outer = numbers(outer);
    let cubes = words(&reg.cubes);
    let [d, c] = [reg.voxel_dims, reg.center].map(|floats| floats.map(f32::to_bits));
    let (positions, normals) = (rows(lists.positions), rows(lists.normals));
    let (uvs, colours) = (rows(lists.uvs), rows(lists.colours));
    told.number = unsafe {
        meshem_check_mesh(
            width, height, length,
            outer.as_ptr(), outer.len(), grid.as_ptr(), grid.len(),
            reg.kinds.as_ptr(), reg.kinds.len(), reg.covers.as_ptr(), reg.covers.len(),
            cubes.as_ptr(), cubes.len(), reg.coloured as u32,
            d[0], d[1], d[2], c[0], c[1], c[2],
            positions.as_ptr(), positions.len(), normals.as_ptr(), normals.len(),
            uvs.as_ptr(), uvs.len(), colours.as_ptr(), colours.len(),
            lists.triangles.as_ptr(), lists.triangles.len(),
            lists.links.as_ptr(), lists.links.len(), lists.slots.as_ptr(), lists.slots.len(),
            quads as u64,
            &mut told.place,
        )
    };
    told
}
