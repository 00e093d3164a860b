//! `update_mesh`.

use crate::mesh::{linked, pattern};
use crate::*;

pub(crate) const ENTRY: usize = 16;
pub(crate) const MOST_ENTRIES: usize = 16_777_216;

/// The changes of a log.
pub const BROKEN: u8 = 0;
pub const ADDED: u8 = 1;
pub const SIDES: u8 = 2;
pub const REPLACED: u8 = 3;

/// The former type of a change that has none.
pub const NO_FORMER: u8 = 255;

/// What Sides does to a side.
pub const KEEP: u8 = 0;
pub const HIDE: u8 = 1;
pub const DRAW: u8 = 2;

/// The side of an Added or Replaced voxel that decides whether the neighbour at a face loses its facing quad.
#[derive(Clone, Copy, Debug, Default, PartialEq, Eq)]
pub enum Tested {
    /// The opposite of the face, as the source does.
    #[default]
    Opposite,
    /// The face itself.
    Itself,
}

impl Tested {
    fn side(self, face: usize) -> usize {
        match self {
            Tested::Opposite => opposite(face),
            Tested::Itself => face,
        }
    }
}

/// What an update leaves: the quads, the quads moved, and whether an entry found no room.
#[derive(Clone, Copy, Debug, PartialEq, Eq)]
pub struct Updated {
    pub quads: u64,
    pub moved: u64,
    pub no_room: Option<Refusal>,
}

#[derive(Clone, Copy)]
struct Entry<'a> {
    cell: usize,
    change: u8,
    voxel: u8,
    /// By face: the neighbours' types, or what Sides does.
    given: &'a [u8],
    former: u8,
    spare: &'a [u8],
}

impl<'a> Entry<'a> {
    fn read(bytes: &'a [u8]) -> Self {
        let cell = u32::from_le_bytes([bytes[0], bytes[1], bytes[2], bytes[3]]) as usize;
        Entry { cell, change: bytes[4], voxel: bytes[5], given: &bytes[6..12], former: bytes[12], spare: &bytes[13..ENTRY] }
    }

    fn is_good(&self, cells: usize, types: &Types) -> bool {
        let given = |&byte: &u8| match self.change {
            SIDES => byte <= DRAW,
            _ => byte == OUTSIDE || types.is_type(byte),
        };
        let former = match self.change {
            BROKEN => self.former == self.voxel,
            REPLACED => types.is_type(self.former),
            _ => self.former == NO_FORMER,
        };
        self.cell < cells
            && self.change <= REPLACED
            && types.is_type(self.voxel)
            && self.given.iter().all(given)
            && former
            && self.spare.iter().all(|&byte| byte == 0)
    }

    /// The neighbour's type, in all changes but Sides.
    fn neighbour(&self, face: usize) -> Option<u8> {
        Some(self.given[face]).filter(|&voxel| voxel != OUTSIDE)
    }

    /// The sides that Sides keeps, hides or draws.
    fn sides(&self, way: u8) -> impl Iterator<Item = usize> + 'a {
        let given = self.given;
        (0..FACES).filter(move |&face| given[face] == way)
    }
}

/// One thing an entry does.
#[derive(Clone, Copy)]
enum Step {
    Draw { cell: usize, face: usize, voxel: u8 },
    Remove { cell: usize, face: usize },
}

struct Update<'a, 'b> {
    buffers: &'a mut Buffers<'b>,
    sizes: Sizes,
    tested: Tested,
    types: &'a Types<'a>,
    quads: usize,
    moved: u64,
}

pub fn update_mesh(
    buffers: &mut Buffers,
    count: u64,
    sizes: Sizes,
    log: &[u8],
    tested: Tested,
    types: &Types,
) -> Result<Updated, Refusal> {
    sizes.verdict()?;
    types.verdict()?;
    let cells = sizes.cells();
    buffers.held().verdict(cells, types.coloured, count)?;
    let entries = || log.chunks_exact(ENTRY).map(Entry::read);
    let bad = |(number, entry): (usize, Entry)| number >= MOST_ENTRIES || !entry.is_good(cells, types);
    refuse_lowest(BAD_ENTRY, entries().enumerate().map(bad))?;
    refuse_if(log.len() % ENTRY != 0, BAD_ENTRY, (log.len() / ENTRY) as u64)?;

    let room = buffers.held().room(types.coloured);
    let mut update = Update { buffers, sizes, tested, types, quads: count as usize, moved: 0 };
    for (number, entry) in entries().enumerate() {
        if update.needed(&entry) > room {
            return Ok(update.left(Some(Refusal(NO_ROOM, number as u64))));
        }
        update.apply(&entry);
    }
    Ok(update.left(None))
}

impl Update<'_, '_> {
    fn left(&self, no_room: Option<Refusal>) -> Updated {
        Updated { quads: self.quads as u64, moved: self.moved, no_room }
    }

    fn is_there(&self, cell: usize, face: usize) -> bool {
        self.buffers.slots[6 * cell + face] != NONE
    }

    /// The steps of an entry, in order, up to the last it draws.
    fn own_steps(&self, entry: &Entry) -> Vec<Step> {
        let Entry { cell, voxel, .. } = *entry;
        let remove = |face| Step::Remove { cell, face };
        let draw = |face| Step::Draw { cell, face, voxel };
        let is_cube = self.types.is_cube(voxel);
        let own = || (0..FACES).map(remove);
        let uncovered = |broken| (0..FACES).filter_map(move |face| self.uncovered(entry, broken, face));
        let is_open = |&face: &usize| entry.neighbour(face).map_or(true, |other| !self.types.covers(other, opposite(face)));
        let open = || (0..FACES).filter(|face| is_cube && is_open(face)).map(draw);
        match entry.change {
            BROKEN => own().chain(uncovered(voxel)).collect(),
            ADDED if is_cube => own().chain(open()).collect(),
            REPLACED => own().chain(uncovered(entry.former)).chain(open()).collect(),
            SIDES => entry.sides(HIDE).map(remove).chain(entry.sides(DRAW).filter(|_| is_cube).map(draw)).collect(),
            _ => vec![],
        }
    }

    /// What shows at a side when a voxel is broken: the neighbour cell's opposite face, from the neighbour's type as given.
    fn uncovered(&self, entry: &Entry, broken: u8, face: usize) -> Option<Step> {
        let voxel = entry.neighbour(face)?;
        let cell = self.sizes.neighbour(entry.cell, face)?;
        let drawn = self.types.covers(broken, face) && self.types.is_cube(voxel);
        drawn.then_some(Step::Draw { cell, face: opposite(face), voxel })
    }

    /// What Added and Replaced remove last: the neighbours' facing quads, where the voxel covers the side tested.
    fn facing_steps(&self, entry: &Entry) -> Vec<Step> {
        if !matches!(entry.change, ADDED | REPLACED) || !self.types.is_cube(entry.voxel) {
            return vec![];
        }
        let facing = |face: usize| {
            let cell = self.sizes.neighbour(entry.cell, face)?;
            self.types.covers(entry.voxel, self.tested.side(face)).then_some(Step::Remove { cell, face: opposite(face) })
        };
        (0..FACES).filter_map(facing).collect()
    }

    /// Q, less the entry's own removed quads, plus the new ones it draws.
    fn needed(&self, entry: &Entry) -> usize {
        let steps = self.own_steps(entry);
        let removes = |cell: usize, face: usize| {
            steps.iter().any(|step| matches!(step, Step::Remove { cell: c, face: f } if (*c, *f) == (cell, face)))
        };
        let counts = |step: &Step| match *step {
            Step::Remove { cell, face } => (self.is_there(cell, face) as usize, 0),
            Step::Draw { cell, face, .. } => (0, (removes(cell, face) || !self.is_there(cell, face)) as usize),
        };
        let (removed, drawn) = steps.iter().map(counts).fold((0, 0), |(r, d), (r1, d1)| (r + r1, d + d1));
        self.quads - removed + drawn
    }

    fn apply(&mut self, entry: &Entry) {
        for step in self.own_steps(entry) {
            self.step(step);
        }
        for step in self.facing_steps(entry) {
            self.step(step);
        }
    }

    fn step(&mut self, step: Step) {
        match step {
            Step::Draw { cell, face, voxel } => {
                if !self.is_there(cell, face) {
                    self.buffers.write(self.quads, cell, face, voxel, self.sizes, self.types);
                    self.quads += 1;
                }
            }
            Step::Remove { cell, face } => {
                if self.is_there(cell, face) {
                    self.remove(self.buffers.slots[6 * cell + face] as usize / 4);
                }
            }
        }
    }

    fn remove(&mut self, quad: usize) {
        let (cell, face) = linked(self.buffers.links[quad]);
        self.buffers.slots[6 * cell + face] = NONE;
        let last = self.quads - 1;
        if self.quads - quad <= 6 {
            for place in quad..last {
                self.bring(place + 1, place);
            }
        } else {
            self.bring(last, quad);
        }
        self.clear(last);
        self.quads = last;
    }

    /// A quad brings its attributes and link, and its slot names the new place.
    fn bring(&mut self, from: usize, to: usize) {
        for (attribute, list) in self.buffers.attributes(self.types.coloured) {
            let words = 4 * attribute.len();
            list.copy_within(from * words..(from + 1) * words, to * words);
        }
        self.buffers.links[to] = self.buffers.links[from];
        let (cell, face) = linked(self.buffers.links[to]);
        self.buffers.slots[6 * cell + face] = 4 * to as u32;
        self.buffers.triangles[6 * to..][..6].copy_from_slice(&pattern(to));
        self.moved += 1;
    }

    fn clear(&mut self, quad: usize) {
        for (attribute, list) in self.buffers.attributes(self.types.coloured) {
            let words = 4 * attribute.len();
            list[quad * words..][..words].fill(0);
        }
        self.buffers.triangles[6 * quad..][..6].fill(0);
        self.buffers.links[quad] = 0;
    }
}
