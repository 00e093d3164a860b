//! Inputs made wrong, short of room, or at a limit.

use crate::cases::{paper_types, Case, Random};
use crate::entries::{entry, is_sides, CHANGE, ENTRY, FORMER, GIVEN, OUTSIDE, VOXEL, ZEROS};
use crate::room::{laid, room_for, SPARE};
use crate::rust::{self, floats, CubeParameters, Registry, Words, NONE};
use plain::{DRAW, KEEP, NO_FORMER, REPLACED, SIDES};

const MOST_ENTRIES: usize = 16_777_216;

/// One cube, and sizes or a log at the limit or one past it; each log is made when it is asked for.
pub fn limits() -> impl Iterator<Item = (String, Case)> {
    let one = Case { dims: [1; 3], grid: vec![1], types: paper_types(1.0), ..Case::default() };
    let sizes =
        [[1024, 32, 32], [1024, 32, 33], [1024, 1024, 1], [1, 1024, 1025], [65_536, 65_536, 1], [1 << 31, 2, 1], [0, 1, 1]];
    let lengths = [MOST_ENTRIES * ENTRY, MOST_ENTRIES * ENTRY + 1, (MOST_ENTRIES + 1) * ENTRY, (MOST_ENTRIES + 2) * ENTRY - 1];
    let sized = sizes.map(|dims| (format!("sizes {dims:?}"), Case { dims, ..one.clone() }));
    let idle = entry(0, SIDES, 0, &[KEEP; 6]);
    let logged = lengths.into_iter().map(move |length| {
        let log = idle.iter().copied().cycle().take(length).collect();
        (format!("a log of {length} bytes"), Case { log, ..one.clone() })
    });
    sized.into_iter().chain(logged)
}

pub struct Faulty {
    pub parameters: CubeParameters,
    pub out: Vec<u32>,
    pub case: Case,
    pub room: Words,
    pub count: u64,
}

fn any<'a, T>(random: &mut Random, list: &'a mut [T]) -> Option<&'a mut T> {
    let length = list.len();
    (length > 0).then(|| &mut list[random.below(length)])
}

fn set<T>(place: Option<&mut T>, value: T) {
    if let Some(place) = place {
        *place = value;
    }
}

/// An entry of the log.
fn any_entry<'a>(random: &mut Random, log: &'a mut [u8]) -> Option<&'a mut [u8]> {
    let entries = log.len() / ENTRY;
    (entries > 0).then(|| log.chunks_exact_mut(ENTRY).nth(random.below(entries)).unwrap())
}

/// A change at the edge of those that there are, or past it, with a former type that it may have.
fn spoil_change(random: &mut Random, entry: &mut [u8]) {
    entry[CHANGE] = random.pick(&[SIDES, REPLACED, 4, 5, 255]);
    entry[FORMER] = match entry[CHANGE] {
        SIDES => NO_FORMER,
        REPLACED => entry[VOXEL],
        _ => random.pick(&[entry[VOXEL], NO_FORMER]),
    };
}

/// A byte given by face: a side at the edge of what Sides does or past it, a neighbour at the edge of the types.
fn spoil_given(random: &mut Random, entry: &mut [u8], types: usize) {
    let spoiled = match is_sides(entry) {
        true => random.pick(&[DRAW, 3, 4, 254, 255]),
        false => random.pick(&[types.wrapping_sub(1) as u8, types as u8, 254, OUTSIDE]),
    };
    set(any(random, &mut entry[GIVEN]), spoiled);
}

/// A former type at the edge of those that the change may have: its own, the one beside it, the last and what is past that.
fn spoil_former(random: &mut Random, entry: &mut [u8], types: usize) {
    let voxel = entry[VOXEL];
    entry[FORMER] = random.pick(&[voxel, voxel ^ 1, types.wrapping_sub(1) as u8, types as u8, 254, NO_FORMER]);
}

/// One of the bytes that have to be zero.
fn spoil_zero(random: &mut Random, entry: &mut [u8]) {
    let spoiled = random.pick(&[1, 2, 128, 255]);
    set(any(random, &mut entry[ZEROS]), spoiled);
}

fn attribute<'a>(random: &mut Random, room: &'a mut Words) -> &'a mut Vec<u32> {
    match random.below(4) {
        0 => &mut room.positions,
        1 => &mut room.normals,
        2 => &mut room.uvs,
        _ => &mut room.colours,
    }
}

impl Faulty {
    /// A cube, and a mesh that the Rust built in little room, with one to three things made wrong.
    pub fn of(parameters: &CubeParameters, case: &Case, seed: u64) -> Faulty {
        let mut random = Random(seed);
        let mesh = rust::mesh(case.dims, &case.outer, &case.grid, &Registry::of(&case.types), case.naive).words();
        let quads = mesh.links.len();
        let mut faulty = Faulty {
            parameters: parameters.clone(),
            out: vec![SPARE; 24 * floats(parameters.coloured)],
            case: case.clone(),
            room: laid(&mesh, room_for(quads + random.below(8), case)),
            count: quads as u64,
        };
        for _ in 0..1 + random.below(3) {
            faulty.spoil(&mut random);
        }
        faulty
    }

    /// One thing wrong, or at the edge of being wrong.
    #[rustfmt::skip]
    fn spoil(&mut self, random: &mut Random) {
        let Faulty { parameters, out, case, room, count } = self;
        let r = random;
        let not_finite = r.pick(&[0x7F80_0000, 0xFF80_0000, 0x7FC0_0000, 0x7F80_0001]);
        match r.below(39) {
            0 => set(any(r, &mut parameters.d), not_finite),
            1 => set(any(r, &mut parameters.centre), not_finite),
            2 => parameters.padding = not_finite,
            3 => { let size = r.pick(&[0, 4096, 4097, u32::MAX]); set(any(r, &mut parameters.atlas), size) }
            4 => { let word = r.pick(&[5, 6, 4095, 4096, u32::MAX]); set(any(r, &mut parameters.texture), word) }
            5 => parameters.texture.truncate(r.below(19)),
            6 => { let more = r.below(7); parameters.texture.extend((0..more).map(|_| r.pick(&[0, 5, 6, 4096]))) }
            7 => out.truncate(out.len() - 1),
            8 => { let size = r.pick(&[0, 1, 2, 1024, 1025, u32::MAX]); set(any(r, &mut case.dims), size) }
            9 => { case.grid.pop(); }
            10 => { let voxel = r.below(256) as u8; set(any(r, &mut case.grid), voxel) }
            11 => { let kind = r.below(5) as u8; set(any(r, &mut case.types.kinds), kind) }
            12 => { let sides = r.pick(&[0, 63, 64, 255]); set(any(r, &mut case.types.covers), sides) }
            13 => { case.types.covers.pop(); }
            14 => { case.types.cubes.pop(); }
            15 => { case.types.kinds.clear(); case.types.covers.clear(); case.types.cubes.clear() }
            16 => set(any(r, &mut case.types.d), not_finite),
            17 => { let number = r.pick(&[not_finite, 0x4000_0000]); set(any(r, &mut case.types.centre), number) }
            18 => { let word = r.any_float(); set(any(r, &mut case.types.cubes), word) }
            19 => case.types.coloured = !case.types.coloured,
            20 => { let face = r.below(8) as u8; case.outer.push(face) }
            21 => { let fewer = r.below(room.slots.len() + 1); room.slots.truncate(room.slots.len() - fewer.min(3)) }
            22 => { let list = attribute(r, room); list.truncate(list.len().saturating_sub(r.below(40))) }
            23 => { let fewer = r.below(16).min(room.triangles.len()); room.triangles.truncate(room.triangles.len() - fewer) }
            24 => { let fewer = r.below(3).min(room.links.len()); room.links.truncate(room.links.len() - fewer) }
            25 => *count = r.pick(&[0, count.wrapping_sub(1), count.wrapping_add(1), u64::MAX, 1 << 32]),
            26 => { let word = r.pick(&[0, NONE, 0xC000_0000, 1, 1 << 29]); set(any(r, &mut room.links), word) }
            27 => { let word = r.pick(&[0, NONE, 4, 5]); set(any(r, &mut room.slots), word) }
            28 => { let word = r.below(8) as u32; set(any(r, &mut room.triangles), word) }
            29 => { let byte = r.pick(&[0, 1, 3, 4, 5, 254, 255]); set(any(r, &mut case.log), byte) }
            30 | 31 => { if let Some(entry) = any_entry(r, &mut case.log) { spoil_change(r, entry) } }
            32 | 33 => { if let Some(entry) = any_entry(r, &mut case.log) { spoil_given(r, entry, case.types.kinds.len()) } }
            34 | 35 => { if let Some(entry) = any_entry(r, &mut case.log) { spoil_former(r, entry, case.types.kinds.len()) } }
            36 => { if let Some(entry) = any_entry(r, &mut case.log) { spoil_zero(r, entry) } }
            37 => { let ragged = r.below(ENTRY); case.log.extend(r.bytes(ragged, 256)) }
            _ => { let (list, word) = (attribute(r, room), r.word()); set(any(r, list), word) }
        }
    }
}
