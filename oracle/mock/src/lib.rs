//! The C interface over the plain reading.
#![allow(clippy::missing_safety_doc, clippy::too_many_arguments)]

use plain::{Buffers, Cube, Held, Refusal, Sizes, Tested, Types};

/// The level of the C interface that this stands for.
#[no_mangle]
pub extern "C" fn meshem_abi() -> u32 {
    5
}

unsafe fn lent<'a, T>(data: *const T, len: usize) -> &'a [T] {
    if len == 0 {
        &[]
    } else {
        std::slice::from_raw_parts(data, len)
    }
}

unsafe fn lent_mut<'a, T>(data: *mut T, len: usize) -> &'a mut [T] {
    if len == 0 {
        &mut []
    } else {
        std::slice::from_raw_parts_mut(data, len)
    }
}

#[no_mangle]
#[rustfmt::skip]
pub unsafe extern "C" fn meshem_generate_voxel_mesh(
    dx: u32, dy: u32, dz: u32,
    atlas_width: u32, atlas_height: u32,
    texture: *const u32, texture_len: usize,
    cx: u32, cy: u32, cz: u32,
    padding: u32,
    coloured: u32,
    colour: u32, alpha: u32,
    out: *mut u32, out_len: usize,
    place: *mut u64,
) -> u32 {
    let cube = Cube {
        d: [dx, dy, dz],
        atlas: [atlas_width, atlas_height],
        texture: lent(texture, texture_len),
        centre: [cx, cy, cz],
        padding,
        coloured: coloured != 0,
        colour,
        alpha,
    };
    let Refusal(number, at) = plain::generate_voxel_mesh(&cube, lent_mut(out, out_len)).err().unwrap_or(Refusal(0, 0));
    *place = at;
    number
}

#[no_mangle]
#[rustfmt::skip]
pub unsafe extern "C" fn meshem_mesh_grid(
    width: u32, height: u32, length: u32,
    outer: *const u8, outer_len: usize,
    grid: *const u8, grid_len: usize,
    kinds: *const u8, kinds_len: usize,
    covers: *const u8, covers_len: usize,
    cubes: *const u32, cubes_len: usize,
    coloured: u32,
    dx: u32, dy: u32, dz: u32, cx: u32, cy: u32, cz: u32,
    algorithm: u32,
    positions: *mut u32, positions_len: usize, normals: *mut u32, normals_len: usize,
    uvs: *mut u32, uvs_len: usize, colours: *mut u32, colours_len: usize,
    triangles: *mut u32, triangles_len: usize,
    links: *mut u32, links_len: usize, slots: *mut u32, slots_len: usize,
    place: *mut u64, quads: *mut u64,
) -> u32 {
    let types = Types {
        kinds: lent(kinds, kinds_len),
        covers: lent(covers, covers_len),
        cubes: lent(cubes, cubes_len),
        coloured: coloured != 0,
        d: [dx, dy, dz],
        centre: [cx, cy, cz],
    };
    let mut buffers = Buffers {
        positions: lent_mut(positions, positions_len),
        normals: lent_mut(normals, normals_len),
        uvs: lent_mut(uvs, uvs_len),
        colours: lent_mut(colours, colours_len),
        triangles: lent_mut(triangles, triangles_len),
        links: lent_mut(links, links_len),
        slots: lent_mut(slots, slots_len),
    };
    let sizes = Sizes { width, height, length };
    let answer =
        plain::mesh_grid(sizes, lent(outer, outer_len), lent(grid, grid_len), &types, algorithm == 0, &mut buffers);
    let (Refusal(number, at), count) = match answer {
        Ok(count) => (Refusal(0, 0), count),
        Err(refusal) => (refusal, 0),
    };
    *place = at;
    *quads = count;
    number
}

#[no_mangle]
#[rustfmt::skip]
pub unsafe extern "C" fn meshem_update_mesh(
    positions: *mut u32, positions_len: usize, normals: *mut u32, normals_len: usize,
    uvs: *mut u32, uvs_len: usize, colours: *mut u32, colours_len: usize,
    triangles: *mut u32, triangles_len: usize,
    links: *mut u32, links_len: usize, slots: *mut u32, slots_len: usize,
    count: u64,
    width: u32, height: u32, length: u32,
    log: *const u8, log_len: usize,
    tested: u32,
    kinds: *const u8, kinds_len: usize, covers: *const u8, covers_len: usize,
    cubes: *const u32, cubes_len: usize, coloured: u32,
    dx: u32, dy: u32, dz: u32, cx: u32, cy: u32, cz: u32,
    place: *mut u64, quads: *mut u64, moved: *mut u64,
) -> u32 {
    let types = Types {
        kinds: lent(kinds, kinds_len),
        covers: lent(covers, covers_len),
        cubes: lent(cubes, cubes_len),
        coloured: coloured != 0,
        d: [dx, dy, dz],
        centre: [cx, cy, cz],
    };
    let mut buffers = Buffers {
        positions: lent_mut(positions, positions_len),
        normals: lent_mut(normals, normals_len),
        uvs: lent_mut(uvs, uvs_len),
        colours: lent_mut(colours, colours_len),
        triangles: lent_mut(triangles, triangles_len),
        links: lent_mut(links, links_len),
        slots: lent_mut(slots, slots_len),
    };
    let sizes = Sizes { width, height, length };
    let side = if tested == 0 { Tested::Opposite } else { Tested::Itself };
    let answer = plain::update_mesh(&mut buffers, count, sizes, lent(log, log_len), side, &types);
    let (Refusal(number, at), left, changed) = match answer {
        Ok(updated) => (updated.no_room.unwrap_or(Refusal(0, 0)), updated.quads, updated.moved),
        Err(refusal) => (refusal, 0, 0),
    };
    *place = at;
    *quads = left;
    *moved = changed;
    number
}

#[no_mangle]
#[rustfmt::skip]
pub unsafe extern "C" fn meshem_check_mesh(
    width: u32, height: u32, length: u32,
    outer: *const u8, outer_len: usize, grid: *const u8, grid_len: usize,
    kinds: *const u8, kinds_len: usize, covers: *const u8, covers_len: usize,
    cubes: *const u32, cubes_len: usize, coloured: u32,
    dx: u32, dy: u32, dz: u32, cx: u32, cy: u32, cz: u32,
    positions: *const u32, positions_len: usize, normals: *const u32, normals_len: usize,
    uvs: *const u32, uvs_len: usize, colours: *const u32, colours_len: usize,
    triangles: *const u32, triangles_len: usize,
    links: *const u32, links_len: usize, slots: *const u32, slots_len: usize,
    count: u64,
    place: *mut u64,
) -> u32 {
    let types = Types {
        kinds: lent(kinds, kinds_len),
        covers: lent(covers, covers_len),
        cubes: lent(cubes, cubes_len),
        coloured: coloured != 0,
        d: [dx, dy, dz],
        centre: [cx, cy, cz],
    };
    let mesh = Held {
        positions: lent(positions, positions_len),
        normals: lent(normals, normals_len),
        uvs: lent(uvs, uvs_len),
        colours: lent(colours, colours_len),
        triangles: lent(triangles, triangles_len),
        links: lent(links, links_len),
        slots: lent(slots, slots_len),
    };
    let sizes = Sizes { width, height, length };
    let answer = plain::check_mesh(sizes, lent(outer, outer_len), lent(grid, grid_len), &types, mesh, count);
    let Refusal(number, at) = answer.err().unwrap_or(Refusal(0, 0));
    *place = at;
    number
}
