//! `update_mesh` once more, written for speed: what the library's time is held against. It answers as the reading in `update.rs` does, word for word.
//!
//! What is lent is tested in one pass a list. Then every entry is done on links, slots and attributes at once; what it changes is found before anything
//! is. Triangle words and freed places depend on the counts alone, and are written last.

use crate::mesh::pattern;
use crate::update::{ADDED, BROKEN, DRAW, ENTRY, HIDE, MOST_ENTRIES, NO_FORMER, REPLACED, SIDES};
use crate::*;

/// What a neighbour's coordinates have more than a cell's, by face; the fourth is none.
const BESIDE: [[i32; 4]; FACES] = [[0, 1, 0, 0], [0, -1, 0, 0], [1, 0, 0, 0], [-1, 0, 0, 0], [0, 0, 1, 0], [0, 0, -1, 0]];

/// A log, and the side that its Added and Replaced voxels are tested by.
#[derive(Clone, Copy)]
pub struct Log<'a> {
    pub entries: &'a [u8],
    pub tested: Tested,
}

pub fn update_mesh(buffers: &mut Buffers, count: u64, sizes: Sizes, log: Log, types: &Types) -> Result<Updated, Refusal> {
    sizes.verdict()?;
    types.verdict()?;
    let keys = FACES * sizes.cells();
    refuse_if(buffers.slots.len() < keys, SHORT_ROOM, 0)?;
    let room = buffers.held().room(types.coloured);
    refuse_if(count > room as u64, BAD_COUNT, 0)?;
    let quads = count as usize;
    links_verdict(&buffers.links[..quads], &buffers.slots[..keys])?;
    triangles_verdict(&buffers.triangles[..6 * quads])?;
    log_verdict(log.entries, sizes.cells(), types.kinds.len())?;
    let rules = Rules::of(sizes, types, log.tested, room);
    Ok(match types.coloured {
        false => mend::<8>(buffers, quads, log.entries, &rules),
        true => mend::<12>(buffers, quads, log.entries, &rules),
    })
}

/// BAD_LINKS. A code of at most 5 and a slot within the grid's are a face within it.
fn links_verdict(links: &[u32], slots: &[u32]) -> Result<(), Refusal> {
    let links_back =
        |(quad, &link): (usize, &u32)| link >> 29 <= 5 && slots.get(key_of(link)).is_some_and(|&slot| slot as usize == 4 * quad);
    refuse_lowest(BAD_LINKS, links.iter().enumerate().map(|link| !links_back(link)))?;
    let empty: u32 = slots.iter().map(|&slot| (slot == NONE) as u32).sum();
    refuse_if(slots.len() > links.len() + empty as usize, BAD_LINKS, links.len() as u64)
}

/// BAD_TRIANGLES. Each word is four less than the one a quad on: without an early exit several are compared at once.
fn triangles_verdict(triangles: &[u32]) -> Result<(), Refusal> {
    let is_pattern = |(quad, words): (usize, &[u32])| words == pattern(quad);
    let mut quads = triangles.chunks_exact(6).enumerate();
    let rows = triangles.iter().zip(triangles.get(6..).unwrap_or(&[]));
    let go_on = rows.fold(true, |good, (word, next)| good & (*next == word.wrapping_add(4)));
    if go_on && quads.clone().next().map_or(true, is_pattern) {
        return Ok(());
    }
    refuse_lowest(BAD_TRIANGLES, quads.by_ref().map(|quad| !is_pattern(quad)))
}

/// BAD_ENTRY.
fn log_verdict(log: &[u8], cells: usize, types: usize) -> Result<(), Refusal> {
    let entries = log.len() / ENTRY;
    let is_bad = |bytes: &[u8]| {
        let (cell, rest) = bytes.split_at(4);
        // Of a neighbour, 255 and 1 wrap to 0, which is over no number of types
        let (more, most) = if rest[0] == SIDES { (0, DRAW) } else { (1, types as u8) };
        let given = rest[2..8].iter().fold(false, |bad, given| bad | (given.wrapping_add(more) > most));
        let (former, spare) = (rest[8], u32_of(&rest[8..]) >> 8);
        let wrong_former = match rest[0] {
            BROKEN => former != rest[1],
            REPLACED => former as usize >= types,
            _ => former != NO_FORMER,
        };
        (u32_of(cell) as usize >= cells)
            | (rest[0] > REPLACED)
            | (rest[1] as usize >= types)
            | given
            | wrong_former
            | (spare != 0)
    };
    refuse_lowest(BAD_ENTRY, log.chunks_exact(ENTRY).take(MOST_ENTRIES).map(is_bad))?;
    refuse_if(entries > MOST_ENTRIES, BAD_ENTRY, MOST_ENTRIES as u64)?;
    refuse_if(log.len() % ENTRY != 0, BAD_ENTRY, entries as u64)
}

fn u32_of(bytes: &[u8]) -> u32 {
    u32::from_le_bytes([bytes[0], bytes[1], bytes[2], bytes[3]])
}

/// The slot that a link names: six a cell.
fn key_of(link: u32) -> usize {
    FACES * (link & OFFSET_MASK) as usize + 5 - (link >> 29) as usize
}

/// The set of the faces of which something is true.
fn set_of(holds: impl Fn(usize) -> bool) -> u8 {
    (0..FACES).fold(0, |set, face| set | (holds(face) as u8) << face)
}

/// The faces of a set, in order.
fn faces_of(set: u8) -> impl Iterator<Item = usize> {
    let next = move |&left: &u8| Some(left & left.wrapping_sub(1));
    std::iter::successors(Some(set), next).take_while(|&left| left != 0).map(|left| left.trailing_zeros() as usize)
}

/// A set with every two opposite sides exchanged.
fn exchanged(set: u8) -> u8 {
    (set & 0b01_0101) << 1 | set >> 1 & 0b01_0101
}

/// Divides by a size: 2³² over it, rounded up, multiplies. It is exact for numbers of cells.
#[derive(Clone, Copy)]
struct Inverse(u64);

impl Inverse {
    fn of(size: u32) -> Self {
        Inverse((1u64 << 32).div_ceil(size as u64))
    }

    fn divides(self, number: u32) -> u32 {
        ((number as u64 * self.0) >> 32) as u32
    }
}

/// What a log is done by: the grid, and the types by code, nothing for a code that is no type's.
struct Rules<'a> {
    sizes: Sizes,
    width: Inverse,
    length: Inverse,
    /// From the first key of a cell to the keys that face its sides.
    facing: [usize; FACES],
    is_cube: [bool; 256],
    covers: [u8; 256],
    cubes: &'a [u32],
    d: [f32; 3],
    tested: Tested,
    room: usize,
}

impl<'a> Rules<'a> {
    fn of(sizes: Sizes, types: &Types<'a>, tested: Tested, room: usize) -> Self {
        let (mut is_cube, mut covers) = ([false; 256], [0; 256]);
        is_cube.iter_mut().zip(types.kinds).for_each(|(is_cube, &kind)| *is_cube = kind == 1);
        covers[..types.covers.len()].copy_from_slice(types.covers);
        let row = sizes.width as usize;
        let steps = [sizes.length as usize * row, 1, row].map(|step| FACES * step);
        let facing = std::array::from_fn(|face| match face % 2 {
            0 => steps[face / 2] + opposite(face),
            _ => opposite(face).wrapping_sub(steps[face / 2]),
        });
        let (width, length) = (Inverse::of(sizes.width), Inverse::of(sizes.length));
        let d = types.d.map(f32::from_bits);
        Rules { sizes, width, length, facing, is_cube, covers, cubes: types.cubes, d, tested, room }
    }

    /// x, y, z of a cell, without a division; the fourth is 0.
    fn coordinates(&self, cell: u32) -> [i32; 4] {
        let row = self.width.divides(cell);
        let y = self.length.divides(row);
        [cell - row * self.sizes.width, y, row - y * self.sizes.length, 0].map(|along| along as i32)
    }

    /// The sides at which the grid has a neighbour.
    fn within(&self, [x, y, z, _]: [i32; 4]) -> u8 {
        let Sizes { width, height, length } = self.sizes;
        let ahead = |at: i32, size: u32| (at + 1 < size as i32) as u8;
        let behind = |at: i32| (at > 0) as u8;
        ahead(y, height) | behind(y) << 1 | ahead(x, width) << 2 | behind(x) << 3 | ahead(z, length) << 4 | behind(z) << 5
    }

    /// The sides of an Added or Replaced voxel's neighbours that are hidden, where they face it.
    fn hides(&self, cover: u8) -> u8 {
        match self.tested {
            Tested::Opposite => exchanged(cover),
            Tested::Itself => cover,
        }
    }
}

/// Side sets of what an entry changes, done in this order: own quads cut, neighbours' facing quads drawn, own drawn, neighbours' facing cut.
#[derive(Default)]
struct Due {
    own: u8,
    shown: u8,
    drawn: u8,
    hidden: u8,
}

/// The words of an attribute of a quad, from a cube's face: of its vertices 0, 1, 3, 2, in each from the same float on.
#[inline(always)]
fn attribute<const FLOATS: usize, const WORDS: usize>(face: &[u32], from: usize) -> [u32; WORDS] {
    let floats = WORDS / 4;
    std::array::from_fn(|word| face[[0, 1, 3, 2][word / floats] * FLOATS + from + word % floats])
}

/// Lays the words of a quad into a list.
#[inline(always)]
fn put<const WORDS: usize>(list: &mut [u32], quad: usize, words: [u32; WORDS]) {
    list[quad * WORDS..][..WORDS].copy_from_slice(&words);
}

/// Copies the words of a quad to an earlier place.
#[inline(always)]
fn bring<const WORDS: usize>(list: &mut [u32], from: usize, to: usize) {
    list.copy_within(from * WORDS..from * WORDS + WORDS, to * WORDS);
}

/// A mesh that is mended, its cubes' vertices of so many floats.
struct Mesh<'a, const FLOATS: usize> {
    positions: &'a mut [u32],
    normals: &'a mut [u32],
    uvs: &'a mut [u32],
    colours: &'a mut [u32],
    links: &'a mut [u32],
    slots: &'a mut [u32],
    quads: usize,
    moved: u64,
}

fn mend<const FLOATS: usize>(buffers: &mut Buffers, before: usize, log: &[u8], rules: &Rules) -> Updated {
    let mut mesh = Mesh::<FLOATS> {
        positions: buffers.positions,
        normals: buffers.normals,
        uvs: buffers.uvs,
        colours: buffers.colours,
        links: buffers.links,
        slots: &mut buffers.slots[..FACES * rules.sizes.cells()],
        quads: before,
        moved: 0,
    };
    let mut highest = before;
    let mut no_room = None;
    for (number, entry) in log.chunks_exact(ENTRY).enumerate() {
        let Some(top) = mesh.apply(entry, rules) else {
            no_room = Some(Refusal(NO_ROOM, number as u64));
            break;
        };
        highest = highest.max(top);
    }
    let Mesh { quads, moved, .. } = mesh;
    for (attribute, list) in buffers.attributes(FLOATS == floats(true)) {
        let words = 4 * attribute.len();
        list[words * quads..words * highest].fill(0);
    }
    buffers.links[quads..highest].fill(0);
    buffers.triangles[6 * quads..6 * highest].fill(0);
    for quad in before..quads {
        buffers.triangles[6 * quad..][..6].copy_from_slice(&pattern(quad));
    }
    Updated { quads: quads as u64, moved, no_room }
}

impl<const FLOATS: usize> Mesh<'_, FLOATS> {
    const COLOURED: bool = FLOATS == floats(true);

    /// Does an entry, and tells the highest number of quads on the way; nothing, if it finds no room.
    #[inline(always)]
    fn apply(&mut self, entry: &[u8], rules: &Rules) -> Option<usize> {
        let cell = u32_of(entry);
        let (change, voxel, former) = (entry[4], entry[5], entry[12]);
        let given: [u8; 6] = std::array::from_fn(|face| entry[6 + face]);
        let at = rules.coordinates(cell);
        let within = rules.within(at);
        let first = FACES * cell as usize;
        let facing: [usize; 6] = std::array::from_fn(|face| match covers(within, face) {
            true => first.wrapping_add(rules.facing[face]),
            false => first,
        });
        let own = &self.slots[first..][..6];
        let filled = set_of(|face| own[face] != NONE);
        let faced = within & set_of(|face| self.slots[facing[face]] != NONE);
        let cover = rules.covers[voxel as usize];
        let uncovered = |broken: u8| {
            let cubes = set_of(|face| rules.is_cube[given[face] as usize]);
            rules.covers[broken as usize] & cubes & within & !faced
        };
        let open = || set_of(|face| !covers(rules.covers[given[face] as usize], opposite(face)));
        let due = match (change, rules.is_cube[voxel as usize]) {
            (BROKEN, _) => Due { own: filled, shown: uncovered(voxel), ..Due::default() },
            (ADDED, true) => Due { own: filled, drawn: open(), hidden: rules.hides(cover) & faced, ..Due::default() },
            (REPLACED, false) => Due { own: filled, shown: uncovered(former), ..Due::default() },
            (REPLACED, true) => {
                let shown = uncovered(former);
                Due { own: filled, shown, drawn: open(), hidden: rules.hides(cover) & (faced | shown) }
            }
            (SIDES, is_cube) => {
                let drawn = set_of(|face| is_cube & (given[face] == DRAW));
                Due { own: filled & set_of(|face| given[face] == HIDE), drawn: drawn & !filled, ..Due::default() }
            }
            _ => Due::default(),
        };
        if self.quads + 12 > rules.room {
            let come = (due.shown.count_ones() + due.drawn.count_ones()) as usize;
            if self.quads + come > rules.room + due.own.count_ones() as usize {
                return None;
            }
        }
        faces_of(due.own).for_each(|face| self.remove(first + face));
        for face in faces_of(due.shown) {
            let beside = std::array::from_fn(|axis| at[axis] + BESIDE[face][axis]);
            self.draw(facing[face], opposite(face), beside, given[face], rules);
        }
        faces_of(due.drawn).for_each(|face| self.draw(first + face, face, at, voxel, rules));
        let top = self.quads;
        faces_of(due.hidden).for_each(|face| self.remove(facing[face]));
        Some(top)
    }

    /// Draws the quad of a face after the last one, its positions moved to the cell.
    #[inline(always)]
    fn draw(&mut self, key: usize, face: usize, at: [i32; 4], voxel: u8, rules: &Rules) {
        let quad = self.quads;
        let offset: [f32; 3] = std::array::from_fn(|axis| at[axis] as f32 * rules.d[axis]);
        let cube = &rules.cubes[(FACES * voxel as usize + face) * 4 * FLOATS..][..4 * FLOATS];
        let positions = attribute::<FLOATS, 12>(cube, 0);
        let moved = std::array::from_fn(|word| (f32::from_bits(positions[word]) + offset[word % 3]).to_bits());
        put::<12>(self.positions, quad, moved);
        put::<12>(self.normals, quad, attribute::<FLOATS, 12>(cube, 3));
        put::<8>(self.uvs, quad, attribute::<FLOATS, 8>(cube, 6));
        if Self::COLOURED {
            put::<16>(self.colours, quad, attribute::<FLOATS, 16>(cube, 8));
        }
        self.links[quad] = link(key / FACES, face);
        self.slots[key] = 4 * quad as u32;
        self.quads = quad + 1;
    }

    /// Removes the quad of a face: one of the last six lets the later ones shift down, else the last takes its place.
    #[inline(always)]
    fn remove(&mut self, key: usize) {
        let quad = self.slots[key] as usize / 4;
        let last = self.quads - 1;
        self.slots[key] = NONE;
        self.quads = last;
        if last - quad > 5 {
            self.bring(last, quad);
            self.moved += 1;
        } else {
            (quad..last).for_each(|place| self.bring(place + 1, place));
            self.moved += (last - quad) as u64;
        }
    }

    /// A quad brings its attributes and link, and its slot names the new place.
    #[inline(always)]
    fn bring(&mut self, from: usize, to: usize) {
        bring::<12>(self.positions, from, to);
        bring::<12>(self.normals, from, to);
        bring::<8>(self.uvs, from, to);
        if Self::COLOURED {
            bring::<16>(self.colours, from, to);
        }
        let link = self.links[from];
        self.links[to] = link;
        self.slots[key_of(link)] = 4 * to as u32;
    }
}
