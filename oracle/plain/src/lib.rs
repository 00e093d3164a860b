//! Document 01's four calls, with document 02's second mode of the update, its attributes apart, its Sides and its Replaced, in plain safe Rust, written from their text alone.
//! It has no proof: it is the second reading that the differential holds refusals, `moved` and zeroed places to, where the Rust says nothing.
//! `fast` has the update once more, written for speed.
#![forbid(unsafe_code)]

mod check;
mod cube;
pub mod fast;
mod mesh;
mod tables;
mod update;

pub use check::check_mesh;
pub use cube::{generate_voxel_mesh, Cube};
pub use mesh::{mesh_grid, Buffers, Held};
pub use tables::{Sizes, Types};
pub use update::{update_mesh, Tested, Updated, ADDED, BROKEN, DRAW, HIDE, KEEP, NO_FORMER, REPLACED, SIDES};

/// A refusal: its number and place.
#[derive(Clone, Copy, Debug, PartialEq, Eq)]
pub struct Refusal(pub u32, pub u64);

pub const BAD_SIZE: u32 = 2;
pub const BAD_TYPES: u32 = 3;
pub const BAD_NUMBER: u32 = 4;
pub const BAD_ATLAS: u32 = 5;
pub const NOT_A_CUBE: u32 = 6;
pub const BAD_FACE: u32 = 7;
pub const BAD_CELL: u32 = 8;
pub const SHORT_ROOM: u32 = 9;
pub const BAD_COUNT: u32 = 10;
pub const BAD_LINKS: u32 = 11;
pub const BAD_TRIANGLES: u32 = 12;
pub const BAD_ENTRY: u32 = 13;
pub const NO_ROOM: u32 = 14;
pub const WRONG_SET: u32 = 15;
pub const WRONG_VERTEX: u32 = 16;

pub const NONE: u32 = u32::MAX;
pub const OUTSIDE: u8 = 255;
const FACES: usize = 6;
const OFFSET_MASK: u32 = (1 << 29) - 1;

pub const fn opposite(face: usize) -> usize {
    face ^ 1
}

pub const fn covers(set: u8, face: usize) -> bool {
    set >> face & 1 == 1
}

pub const fn link(cell: usize, face: usize) -> u32 {
    cell as u32 | (5 - face as u32) << 29
}

pub const fn floats(coloured: bool) -> usize {
    if coloured {
        12
    } else {
        8
    }
}

fn refuse_if(bad: bool, number: u32, place: u64) -> Result<(), Refusal> {
    if bad {
        Err(Refusal(number, place))
    } else {
        Ok(())
    }
}

/// Refuses at the lowest place that is bad.
fn refuse_lowest(number: u32, mut bad: impl Iterator<Item = bool>) -> Result<(), Refusal> {
    match bad.position(|bad| bad) {
        Some(place) => Err(Refusal(number, place as u64)),
        None => Ok(()),
    }
}

fn all_finite(words: &[u32]) -> bool {
    words.iter().all(|&word| f32::from_bits(word).is_finite())
}
