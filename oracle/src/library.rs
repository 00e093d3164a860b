//! The static library, called through the C interface.

use crate::calls::{Answer, Calls};
use crate::cases::Case;
use crate::entries::{ENTRY, LEVEL};
use crate::rust::{CubeParameters, Words};
use plain::Tested;

/// Words for the side itself: any but 0 is one.
const ITSELF: [u32; 6] = [1, 2, 0x100, 0x1_0000, 0x8000_0000, u32::MAX];

/// The side tested as a word. The first entry of the log picks the word for the side itself.
fn tested_word(case: &Case) -> u32 {
    let picked = case.log.iter().take(ENTRY).map(|&byte| byte as usize).sum::<usize>() % ITSELF.len();
    match case.tested {
        Tested::Opposite => 0,
        Tested::Itself => ITSELF[picked],
    }
}

/// What the outputs hold before a call: the call has to write each.
const UNWRITTEN: u64 = 0xDEAD_DEAD_DEAD_DEAD;

/// The library of an archive whose calls have a prefix before their names, and lists of these attributes: `joined` with one of vertices, as up
/// to level 2, which stands for the positions.
#[rustfmt::skip]
macro_rules! linked {
    ($library:ident, $archive:literal, $prefix:literal) => {
        linked!($library, $archive, $prefix, false, positions normals uvs colours);
    };
    (joined $library:ident, $archive:literal, $prefix:literal) => {
        linked!($library, $archive, $prefix, true, positions);
    };
    ($library:ident, $archive:literal, $prefix:literal, $joined:literal, $($attribute:ident)+) => {
        pub struct $library;

        const _: () = {
            #[allow(clashing_extern_declarations, reason = "an archive is called as its level says")]
            #[link(name = $archive, kind = "static", modifiers = "-bundle")]
            extern "C" {
                #[link_name = concat!($prefix, "meshem_abi")]
                fn meshem_abi() -> u32;

                #[link_name = concat!($prefix, "meshem_generate_voxel_mesh")]
                fn meshem_generate_voxel_mesh(
                    dx: u32, dy: u32, dz: u32,
                    atlas_width: u32, atlas_height: u32,
                    texture: *const u32, texture_len: usize,
                    cx: u32, cy: u32, cz: u32,
                    padding: u32,
                    coloured: u32,
                    colour: u32, alpha: u32,
                    out: *mut u32, out_len: usize,
                    place: *mut u64,
                ) -> u32;

                #[link_name = concat!($prefix, "meshem_mesh_grid")]
                fn meshem_mesh_grid(
                    width: u32, height: u32, length: u32,
                    outer: *const u8, outer_len: usize,
                    grid: *const u8, grid_len: usize,
                    kinds: *const u8, kinds_len: usize,
                    covers: *const u8, covers_len: usize,
                    cubes: *const u32, cubes_len: usize,
                    coloured: u32,
                    dx: u32, dy: u32, dz: u32, cx: u32, cy: u32, cz: u32,
                    algorithm: u32,
                    $($attribute: *mut u32, _: usize,)+ triangles: *mut u32, triangles_len: usize,
                    links: *mut u32, links_len: usize, slots: *mut u32, slots_len: usize,
                    place: *mut u64, quads: *mut u64,
                ) -> u32;

                #[link_name = concat!($prefix, "meshem_update_mesh")]
                fn meshem_update_mesh(
                    $($attribute: *mut u32, _: usize,)+ triangles: *mut u32, triangles_len: usize,
                    links: *mut u32, links_len: usize, slots: *mut u32, slots_len: usize,
                    count: u64,
                    width: u32, height: u32, length: u32,
                    log: *const u8, log_len: usize,
                    tested: u32,
                    kinds: *const u8, kinds_len: usize, covers: *const u8, covers_len: usize,
                    cubes: *const u32, cubes_len: usize, coloured: u32,
                    dx: u32, dy: u32, dz: u32, cx: u32, cy: u32, cz: u32,
                    place: *mut u64, quads: *mut u64, moved: *mut u64,
                ) -> u32;

                #[link_name = concat!($prefix, "meshem_check_mesh")]
                fn meshem_check_mesh(
                    width: u32, height: u32, length: u32,
                    outer: *const u8, outer_len: usize, grid: *const u8, grid_len: usize,
                    kinds: *const u8, kinds_len: usize, covers: *const u8, covers_len: usize,
                    cubes: *const u32, cubes_len: usize, coloured: u32,
                    dx: u32, dy: u32, dz: u32, cx: u32, cy: u32, cz: u32,
                    $($attribute: *const u32, _: usize,)+ triangles: *const u32, triangles_len: usize,
                    links: *const u32, links_len: usize, slots: *const u32, slots_len: usize,
                    count: u64,
                    place: *mut u64,
                ) -> u32;
            }

            impl $library {
                pub fn level() -> u32 {
                    unsafe { meshem_abi() }
                }

                /// A library of level 1 lacks `meshem_abi`, and does not link.
                pub fn assert_level() {
                    assert_eq!(Self::level(), LEVEL, "the level of the C interface of {}", stringify!($library));
                }
            }

            // Each slice is passed as its own pointer and length, and no two of one call overlap, so the calls are sound if the library is.
            impl Calls for $library {
                fn generate_voxel_mesh(&self, p: &CubeParameters, out: &mut [u32]) -> Answer {
                    let mut place = UNWRITTEN;
                    let number = unsafe {
                        meshem_generate_voxel_mesh(
                            p.d[0], p.d[1], p.d[2],
                            p.atlas[0], p.atlas[1],
                            p.texture.as_ptr(), p.texture.len(),
                            p.centre[0], p.centre[1], p.centre[2],
                            p.padding,
                            p.coloured as u32,
                            p.colour, p.alpha,
                            out.as_mut_ptr(), out.len(),
                            &mut place,
                        )
                    };
                    Answer { number, place, ..Answer::default() }
                }

                fn mesh_grid(&self, case: &Case, room: &mut Words) -> Answer {
                    let (mut place, mut quads) = (UNWRITTEN, UNWRITTEN);
                    let t = &case.types;
                    let number = unsafe {
                        meshem_mesh_grid(
                            case.dims[0], case.dims[1], case.dims[2],
                            case.outer.as_ptr(), case.outer.len(),
                            case.grid.as_ptr(), case.grid.len(),
                            t.kinds.as_ptr(), t.kinds.len(),
                            t.covers.as_ptr(), t.covers.len(),
                            t.cubes.as_ptr(), t.cubes.len(),
                            t.coloured as u32,
                            t.d[0], t.d[1], t.d[2], t.centre[0], t.centre[1], t.centre[2],
                            !case.naive as u32,
                            $(room.$attribute.as_mut_ptr(), room.$attribute.len(),)+ room.triangles.as_mut_ptr(), room.triangles.len(),
                            room.links.as_mut_ptr(), room.links.len(), room.slots.as_mut_ptr(), room.slots.len(),
                            &mut place, &mut quads,
                        )
                    };
                    Answer { number, place, quads, ..Answer::default() }
                }

                fn update_mesh(&self, case: &Case, room: &mut Words, count: u64) -> Answer {
                    let (mut place, mut quads, mut moved) = (UNWRITTEN, UNWRITTEN, UNWRITTEN);
                    let t = &case.types;
                    let number = unsafe {
                        meshem_update_mesh(
                            $(room.$attribute.as_mut_ptr(), room.$attribute.len(),)+ room.triangles.as_mut_ptr(), room.triangles.len(),
                            room.links.as_mut_ptr(), room.links.len(), room.slots.as_mut_ptr(), room.slots.len(),
                            count,
                            case.dims[0], case.dims[1], case.dims[2],
                            case.log.as_ptr(), case.log.len(),
                            tested_word(case),
                            t.kinds.as_ptr(), t.kinds.len(), t.covers.as_ptr(), t.covers.len(),
                            t.cubes.as_ptr(), t.cubes.len(), t.coloured as u32,
                            t.d[0], t.d[1], t.d[2], t.centre[0], t.centre[1], t.centre[2],
                            &mut place, &mut quads, &mut moved,
                        )
                    };
                    Answer { number, place, quads, moved }
                }

                fn check_mesh(&self, case: &Case, mesh: &Words, count: u64) -> Answer {
                    let mut place = UNWRITTEN;
                    let t = &case.types;
                    let number = unsafe {
                        meshem_check_mesh(
                            case.dims[0], case.dims[1], case.dims[2],
                            case.outer.as_ptr(), case.outer.len(), case.grid.as_ptr(), case.grid.len(),
                            t.kinds.as_ptr(), t.kinds.len(), t.covers.as_ptr(), t.covers.len(),
                            t.cubes.as_ptr(), t.cubes.len(), t.coloured as u32,
                            t.d[0], t.d[1], t.d[2], t.centre[0], t.centre[1], t.centre[2],
                            $(mesh.$attribute.as_ptr(), mesh.$attribute.len(),)+ mesh.triangles.as_ptr(), mesh.triangles.len(),
                            mesh.links.as_ptr(), mesh.links.len(), mesh.slots.as_ptr(), mesh.slots.len(),
                            count,
                            &mut place,
                        )
                    };
                    Answer { number, place, ..Answer::default() }
                }

                fn takes_joined(&self) -> bool {
                    $joined
                }

                fn log_level(&self) -> u32 {
                    Self::level()
                }
            }
        };
    };
}

linked!(Library, "exports", "");

/// This library four times: tools/bench has laid its code at four offsets within the 64 bytes of a cache line.
#[cfg(feature = "placed")]
pub mod placed {
    use super::*;

    linked!(Now0, "placed", "now0_");
    linked!(Now16, "placed", "now16_");
    linked!(Now32, "placed", "now32_");
    linked!(Now48, "placed", "now48_");
}

/// A former one likewise, called as its level says, and the two at each place. Levels 3 to 5 differ in the log's entries alone.
#[cfg(feature = "beside")]
pub mod former {
    use super::placed::*;
    use super::*;
    use crate::rows::Places;

    pub mod joined {
        use super::*;

        linked!(joined Former0, "placed", "former0_");
        linked!(joined Former16, "placed", "former16_");
        linked!(joined Former32, "placed", "former32_");
        linked!(joined Former48, "placed", "former48_");
    }

    pub mod apart {
        use super::*;

        linked!(Former0, "placed", "former0_");
        linked!(Former16, "placed", "former16_");
        linked!(Former32, "placed", "former32_");
        linked!(Former48, "placed", "former48_");
    }

    pub fn level() -> u32 {
        apart::Former0::level()
    }

    pub fn places() -> Places<'static> {
        let formers: [&dyn Calls; 4] = match level() {
            2 => [&joined::Former0, &joined::Former16, &joined::Former32, &joined::Former48],
            3..=LEVEL => [&apart::Former0, &apart::Former16, &apart::Former32, &apart::Former48],
            level => panic!("the former library is of level {level}, and this program knows 2 to {LEVEL}"),
        };
        let now: [&dyn Calls; 4] = [&Now0, &Now16, &Now32, &Now48];
        std::array::from_fn(|place| [now[place], formers[place]])
    }
}
