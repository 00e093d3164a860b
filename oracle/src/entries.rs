//! Log entries, and Sides and Replaced as the two entries that each equals.

use plain::{ADDED, BROKEN, DRAW, HIDE, KEEP, NO_FORMER, REPLACED, SIDES};
use std::ops::Range;

/// The bytes of a log entry.
pub const ENTRY: usize = 16;
/// Where an entry has its change, the voxel's type, what is given by face, the former type, and bytes that are zero.
pub const CHANGE: usize = 4;
pub const VOXEL: usize = 5;
pub const GIVEN: Range<usize> = 6..12;
pub const FORMER: usize = 12;
pub const ZEROS: Range<usize> = 13..ENTRY;
/// A neighbour outside.
pub const OUTSIDE: u8 = 255;

/// The level of the C interface that has these entries.
pub const LEVEL: u32 = 5;
/// The bytes of an entry up to level 4, which end before the former type.
pub const FORMER_ENTRY: usize = FORMER;
/// The last level with Meshem's changes.
pub const MESHEMS_LEVEL: u32 = 3;
pub const CULL_FACES: u8 = 2;
pub const ADD_FACES: u8 = 3;
/// The changes that are two entries for Meshem.
pub const PAIRED: [(&str, u8); 2] = [("Sides", SIDES), ("Replaced", REPLACED)];

/// An entry of any change but Replaced; what is given by face are the neighbours' types, or what Sides does.
pub fn entry(cell: usize, change: u8, voxel: u8, given: &[u8]) -> Vec<u8> {
    bytes(cell, change, voxel, given, if change == BROKEN { voxel } else { NO_FORMER })
}

/// A Replaced entry.
pub fn replaced(cell: usize, former: u8, voxel: u8, neighbours: &[u8]) -> Vec<u8> {
    bytes(cell, REPLACED, voxel, neighbours, former)
}

fn bytes(cell: usize, change: u8, voxel: u8, given: &[u8], former: u8) -> Vec<u8> {
    [&(cell as u32).to_le_bytes()[..], &[change, voxel], given, &[former, 0, 0, 0]].concat()
}

/// How many entries of a log have a change.
pub fn count_of(change: u8, log: &[u8]) -> u64 {
    log.chunks_exact(ENTRY).filter(|entry| entry[CHANGE] == change).count() as u64
}

pub fn cell_of(entry: &[u8]) -> usize {
    u32::from_le_bytes(entry[..4].try_into().unwrap()) as usize
}

pub fn is_sides(entry: &[u8]) -> bool {
    entry[CHANGE] == SIDES
}

pub fn is_replaced(entry: &[u8]) -> bool {
    entry[CHANGE] == REPLACED
}

/// The entry with another change, and other bytes given by face.
pub fn changed(other: &[u8], change: u8, given: impl Fn(u8) -> u8) -> Vec<u8> {
    let given: Vec<u8> = other[GIVEN].iter().map(|&byte| given(byte)).collect();
    entry(cell_of(other), change, other[VOXEL], &given)
}

/// The Sides entry that hides alone, or draws alone.
pub fn alone(sides: &[u8], way: u8) -> Vec<u8> {
    changed(sides, SIDES, |side| if side == way { side } else { KEEP })
}

/// The two that a Replaced entry equals.
pub fn broken_and_added(replaced: &[u8]) -> [Vec<u8>; 2] {
    let of = |change: u8, voxel: u8| entry(cell_of(replaced), change, voxel, &replaced[GIVEN]);
    [of(BROKEN, replaced[FORMER]), of(ADDED, replaced[VOXEL])]
}

/// The entry in two, if it is Sides, which hides and then draws, or Replaced. Any other stays one.
pub fn halves(entry: &[u8]) -> Vec<Vec<u8>> {
    match entry[CHANGE] {
        SIDES => [HIDE, DRAW].map(|way| alone(entry, way)).into(),
        REPLACED => broken_and_added(entry).into(),
        _ => vec![entry.to_vec()],
    }
}

/// The log with every Sides and every Replaced entry in two.
pub fn split(log: &[u8]) -> Vec<u8> {
    log.chunks_exact(ENTRY).flat_map(halves).flatten().collect()
}

/// The two that Sides is for Meshem: CullFaces with a neighbour given where it hides, then AddFaces with one given where it draws. The neighbour is of
/// the entry's own type: only that there is one counts.
fn cull_and_add(sides: &[u8]) -> Vec<Vec<u8>> {
    let pair = [(HIDE, CULL_FACES), (DRAW, ADD_FACES)];
    pair.map(|(way, change)| changed(sides, change, |side| if side == way { sides[VOXEL] } else { OUTSIDE })).into()
}

/// The log as a library of a level takes it. Meshem takes the one of its level.
pub fn at_level(level: u32, log: &[u8]) -> Vec<u8> {
    if level >= LEVEL {
        return log.to_vec();
    }
    let of_one = |entry: &[u8]| match is_sides(entry) {
        true if level > MESHEMS_LEVEL => vec![entry.to_vec()],
        true => cull_and_add(entry),
        false => halves(entry),
    };
    let shortened = |entry: Vec<u8>| entry.into_iter().take(FORMER_ENTRY);
    log.chunks_exact(ENTRY).flat_map(of_one).flat_map(shortened).collect()
}
