//! Cases, made from a seed and nothing else: cubes, types, grids and logs, all of them accepted by document 01.

use crate::calls::accepted;
use crate::entries::{cell_of, entry, halves, is_replaced, is_sides, replaced, CHANGE, ENTRY, FORMER, GIVEN, OUTSIDE, VOXEL};
use crate::rust::{cube, floats, CubeParameters, Types};
use plain::{Tested, ADDED, BROKEN, KEEP, REPLACED, SIDES};

/// A grid to mesh and a log to apply to its mesh.
#[derive(Clone, Debug, Default, PartialEq)]
pub struct Case {
    pub dims: [u32; 3],
    pub outer: Vec<u8>,
    pub grid: Vec<u8>,
    pub types: Types,
    pub naive: bool,
    pub log: Vec<u8>,
    /// The side of an Added or Replaced voxel that the update tests; the Rust knows the opposite alone.
    pub tested: Tested,
}

/// A cube of one edge about a centre of zero, every face with the same tile of an atlas of one.
pub fn cube_of(edge: f32, tile: u32) -> CubeParameters {
    let texture = (0..6).flat_map(|face| [face, tile, 0]).collect();
    CubeParameters { d: [edge.to_bits(); 3], atlas: [1, 1], texture, ..CubeParameters::default() }
}

/// Document 01's two types, a Null covering nothing and a cube covering all, and five more: a Null covering all, cubes covering
/// only Bottom, only Top and an odd set, a CustomMesh covering all. Each has its number as its tile, but for cube 1, which has 0.
pub fn paper_types(edge: f32) -> Types {
    let kinds = vec![0, 1, 0, 1, 1, 2, 1];
    let cubes = [0, 0, 2, 3, 4, 5, 6].iter().flat_map(|&tile| cube(&cube_of(edge, tile))).collect();
    Types { covers: vec![0, 63, 63, 2, 1, 63, 0b01_0110], kinds, cubes, coloured: false, d: [edge.to_bits(); 3], centre: [0; 3] }
}

/// Whether a log's entries are true of the grid: all, none on purpose, or every other.
#[derive(Clone, Copy, PartialEq)]
pub enum Candour {
    Honest,
    Foolish,
    Mixed,
}

/// What the Added and Replaced entries of a mendable log put: any cubes, or those that cover opposite sides alike.
#[derive(Clone, Copy, PartialEq)]
pub enum Added {
    AnyCubes,
    AlikeCubes,
}

/// SplitMix64.
pub struct Random(pub u64);

impl Random {
    pub fn word(&mut self) -> u32 {
        self.0 = self.0.wrapping_add(0x9E37_79B9_7F4A_7C15);
        let mut z = self.0;
        z = (z ^ (z >> 30)).wrapping_mul(0xBF58_476D_1CE4_E5B9);
        z = (z ^ (z >> 27)).wrapping_mul(0x94D0_49BB_1331_11EB);
        ((z ^ (z >> 31)) >> 32) as u32
    }
    pub fn below(&mut self, bound: usize) -> usize {
        self.word() as usize % bound
    }
    pub fn one_in(&mut self, times: usize) -> bool {
        self.below(times) == 0
    }
    pub fn pick<T: Copy>(&mut self, list: &[T]) -> T {
        list[self.below(list.len())]
    }
    pub fn bytes(&mut self, length: usize, bound: usize) -> Vec<u8> {
        (0..length).map(|_| self.below(bound) as u8).collect()
    }

    fn float_between(&mut self, low: f32, high: f32) -> f32 {
        low + (high - low) * (self.word() >> 8) as f32 / (1 << 24) as f32
    }

    /// A finite float, as bits: plain ones, negative ones, edges of the format, any.
    pub fn finite(&mut self) -> u32 {
        const EDGES: [f32; 14] =
            [0.0, -0.0, 1.0, -1.0, 0.5, 0.1, -0.3, 3.0, 16_777_216.0, 1e-45, -1e-40, f32::MIN_POSITIVE, f32::MAX, f32::MIN];
        let float = match self.below(4) {
            0 => self.pick(&EDGES),
            1 => f32::from_bits(self.word()),
            _ => self.float_between(-8.0, 8.0),
        };
        if float.is_finite() {
            float.to_bits()
        } else {
            1.0f32.to_bits()
        }
    }

    /// Anything a colour may be: NaN and infinity too.
    pub fn any_float(&mut self) -> u32 {
        match self.below(6) {
            0 => self.word(),
            1 => self.pick(&[0x7FC0_0000, 0x7F80_0001, 0xFFFF_FFFF, 0x7F80_0000, 0xFF80_0000]),
            _ => self.finite(),
        }
    }

    fn texture(&mut self) -> Vec<u32> {
        let in_order = self.one_in(2);
        let tile = self.pick(&[2, 16, 4096]);
        let entry = |face: u32| {
            let face = if in_order { face } else { self.below(6) as u32 };
            [face, self.below(tile) as u32, self.below(tile) as u32]
        };
        (0..6).flat_map(entry).collect()
    }

    fn atlas(&mut self) -> [u32; 2] {
        [(); 2].map(|()| match self.below(3) {
            0 => self.pick(&[1, 3, 4096]),
            1 => 1 + self.below(16) as u32,
            _ => 1 + self.below(4096) as u32,
        })
    }

    /// Any cube the cube call accepts.
    pub fn cube(&mut self) -> CubeParameters {
        CubeParameters {
            d: [(); 3].map(|()| self.finite()),
            atlas: self.atlas(),
            texture: self.texture(),
            centre: [(); 3].map(|()| self.finite()),
            padding: if self.one_in(2) { 0 } else { self.finite() },
            coloured: self.one_in(2),
            colour: self.any_float(),
            alpha: self.any_float(),
        }
    }

    /// A side set: nothing, all, one side, two facing sides, any.
    fn set(&mut self) -> u8 {
        match self.below(7) {
            0 | 1 => 0,
            2 | 3 => 63,
            4 => 1 << self.below(6),
            5 => self.pick(&[3, 12, 48, 15, 51, 60]),
            _ => self.below(64) as u8,
        }
    }

    /// A slab's side set for the most part: one side, any, opposite sides alike.
    fn slab_set(&mut self) -> u8 {
        match self.below(3) {
            0 => 1 << self.below(6),
            1 => self.below(64) as u8,
            _ => self.pick(&[0, 3, 12, 15, 48, 51, 60, 63]),
        }
    }

    /// Up to `most` types of every kind, which together pass 01's tests.
    pub fn types(&mut self, most: usize) -> Types {
        let count = 1 + self.below(most);
        self.types_of(count, |random, number| {
            let kind = if number == 0 { random.pick(&[0, 0, 1]) } else { random.pick(&[1, 1, 1, 0, 2]) };
            (kind, random.set())
        })
    }

    /// Slabs for the most part, and an empty type in most registries.
    fn slab_types(&mut self) -> Types {
        let count = 3 + self.below(7);
        let empty = self.below(count + 1);
        self.types_of(count, |random, number| match number == empty {
            true => (0, 0),
            false => (random.pick(&[1, 1, 1, 1, 1, 0, 2]), random.slab_set()),
        })
    }

    /// Types of the kinds and side sets given. Every second registry has cubes that no cube call wrote.
    fn types_of(&mut self, count: usize, kind_and_set: impl Fn(&mut Random, usize) -> (u8, u8)) -> Types {
        let coloured = self.one_in(3);
        loop {
            let centre = [(); 3].map(|()| self.small_centre());
            let d = [(); 3].map(|()| self.small_edge());
            let mut types = Types { coloured, d, centre, ..Types::default() };
            for number in 0..count {
                let (kind, set) = kind_and_set(self, number);
                types.kinds.push(kind);
                types.covers.push(set);
                types.cubes.extend(cube(&CubeParameters { d, centre, coloured, ..self.cube() }));
            }
            if self.one_in(2) {
                self.distort(&mut types);
            }
            if accepted(&types) {
                return types;
            }
        }
    }

    fn small_centre(&mut self) -> u32 {
        match self.below(5) {
            0 => self.float_between(-3.0, 3.0).to_bits(),
            1 => self.pick(&[0.5f32, -0.0, 16_777_216.0]).to_bits(),
            _ => 0,
        }
    }

    fn small_edge(&mut self) -> u32 {
        match self.below(5) {
            0 => self.float_between(0.01, 6.0).to_bits(),
            1 => self.pick(&[0x3DCC_CCCDu32, 2.0f32.to_bits(), 1e-40f32.to_bits(), 1e30f32.to_bits()]),
            _ => 1.0f32.to_bits(),
        }
    }

    /// Moves the corners of a face within its plane, changes what isn't a position into anything, and the shared d into any finite one.
    fn distort(&mut self, types: &mut Types) {
        let words = floats(types.coloured);
        for (number, vertex) in types.cubes.chunks_exact_mut(words).enumerate() {
            let own_axis = [1, 0, 2][number % 24 / 8];
            for axis in (0..3).filter(|&axis| axis != own_axis) {
                if self.one_in(8) {
                    vertex[axis] = self.float_between(-2.0, 2.0).to_bits();
                }
            }
            for word in &mut vertex[3..] {
                if self.one_in(4) {
                    *word = self.any_float();
                }
            }
        }
        if self.one_in(2) {
            types.d = [(); 3].map(|()| self.finite());
        }
    }

    pub fn dims(&mut self) -> [u32; 3] {
        match self.below(12) {
            0 => {
                let mut line = [1; 3];
                line[self.below(3)] = 1 + self.below(24) as u32;
                line
            }
            1 => [(); 3].map(|()| 1 + self.below(7) as u32),
            2..=5 => [(); 3].map(|()| 1 + self.below(2) as u32),
            _ => [(); 3].map(|()| 1 + self.below(4) as u32),
        }
    }

    /// A grid: one type for the most part, any for the rest.
    pub fn grid(&mut self, cells: usize, types: usize) -> Vec<u8> {
        let (often, rare) = (self.below(types) as u8, self.pick(&[1, 2, 4, 10]));
        (0..cells).map(|_| if self.one_in(rare) { self.below(types) as u8 } else { often }).collect()
    }

    pub fn outer(&mut self) -> Vec<u8> {
        let length = if self.one_in(2) { 0 } else { self.below(8) };
        self.bytes(length, 6)
    }

    /// A whole case.
    pub fn case(&mut self) -> Case {
        let most = if self.one_in(400) { 255 } else { 5 };
        let (dims, types) = (self.dims(), self.types(most));
        let grid = self.grid(dims.iter().product::<u32>() as usize, types.kinds.len());
        let mut case = Case { dims, outer: self.outer(), grid, types, naive: self.one_in(4), ..Case::default() };
        let most = self.pick(&[1, 4, 12, 40]);
        let entries = self.below(most + 1);
        let candour = self.pick(&[Candour::Honest, Candour::Foolish, Candour::Mixed]);
        case.log = self.log(&case, entries, candour);
        case
    }

    /// A case with a log that need not be true of anything.
    pub fn foolish_case(&mut self) -> Case {
        let mut case = self.case();
        let entries = 1 + self.below(8);
        case.log = self.log(&case, entries, Candour::Foolish);
        case
    }

    /// A case that demand 3 speaks of: a ground, and a log that it mends.
    pub fn mendable(&mut self, added: Added) -> Case {
        let dims = self.dims();
        let mut case = self.mendable_ground(dims);
        let most = if self.one_in(16) { 300 } else { self.pick(&[4, 12, 40]) };
        let entries = 1 + self.below(most);
        let near: Vec<usize> = (0..1 + self.below(case.grid.len())).collect();
        case.log = self.mendable_log(&case, &near, entries, added);
        case
    }

    /// A ground that demand 3 speaks of: culled, with no outer face named.
    pub fn mendable_ground(&mut self, dims: [u32; 3]) -> Case {
        let types = self.slab_types();
        let grid = self.grid(dims.iter().product::<u32>() as usize, types.kinds.len());
        Case { dims, grid, types, ..Case::default() }
    }

    /// Hilly ground of document 01's types, as large as the limits allow, with a log.
    pub fn landscape(&mut self, dims: [u32; 3]) -> Case {
        let [width, height, length] = dims;
        let tops: Vec<u32> = (0..width * length).map(|_| height / 4 + self.below(1 + height as usize / 2) as u32).collect();
        let voxel = |cell: usize| {
            let [x, y, z] = coordinates(dims, cell);
            (y <= tops[(z * width + x) as usize]) as u8
        };
        let grid = (0..(width * height * length) as usize).map(voxel).collect();
        let mut case = Case { dims, grid, types: paper_types(0.1), outer: self.outer(), ..Case::default() };
        case.log = self.log(&case, 200, Candour::Mixed);
        case
    }

    /// A log of entries in range.
    pub fn log(&mut self, case: &Case, entries: usize, candour: Candour) -> Vec<u8> {
        let mut grid = case.grid.clone();
        let near = 1 + self.below(grid.len());
        let mut log = vec![];
        for _ in 0..entries {
            let cell = self.below(near);
            let foolish = candour == Candour::Foolish || candour == Candour::Mixed && self.one_in(2);
            log.extend(match foolish {
                true => self.foolish(cell, case.types.kinds.len()),
                false => self.honest(cell, case, &mut grid),
            });
        }
        log
    }

    /// An entry true of the grid, which it then changes.
    fn honest(&mut self, cell: usize, case: &Case, grid: &mut [u8]) -> Vec<u8> {
        let t = &case.types;
        let (voxel, change) = (self.below(t.kinds.len()) as u8, self.pick(&[BROKEN, ADDED, REPLACED]));
        let (change, after) = match (change, t.lowest_empty()) {
            (BROKEN, Some(empty)) => (BROKEN, empty),
            (BROKEN, None) => (ADDED, voxel),
            _ => (change, voxel),
        };
        true_entry(cell, change, after, case.dims, grid)
    }

    /// An honest log on some of the cells. A third of it replaces what stands in a cell by a cube; the others put cubes into empty cells, and break what
    /// stands in others, now and then nothing. Without an empty type all replace.
    pub fn mendable_log(&mut self, case: &Case, cells: &[usize], entries: usize, added: Added) -> Vec<u8> {
        let t = &case.types;
        let fit = |cube: &u8| t.is_cube(*cube) && (added == Added::AnyCubes || t.covers_alike(*cube));
        let cubes: Vec<u8> = (0..t.kinds.len() as u8).filter(fit).collect();
        let mut grid = case.grid.clone();
        let mut log = vec![];
        for _ in 0..entries {
            let cell = self.pick(cells);
            let cube = (!cubes.is_empty()).then(|| self.pick(&cubes));
            let (change, after) = match (self.below(3), cube, t.lowest_empty()) {
                (0, Some(cube), _) | (_, Some(cube), None) => (REPLACED, cube),
                (_, Some(cube), _) if t.is_empty(grid[cell]) && !self.one_in(8) => (ADDED, cube),
                (_, _, Some(empty)) => (BROKEN, empty),
                (_, None, None) => break,
            };
            log.extend(true_entry(cell, change, after, case.dims, &mut grid));
        }
        log
    }

    /// An entry in range that need not be true of anything. A third are Sides and a third Replaced, of any types.
    fn foolish(&mut self, cell: usize, types: usize) -> Vec<u8> {
        let (change, voxel) = (self.pick(&[BROKEN, ADDED, SIDES, SIDES, REPLACED, REPLACED]), self.below(types) as u8);
        match change {
            SIDES => entry(cell, SIDES, voxel, &self.bytes(6, 3)),
            REPLACED => replaced(cell, self.below(types) as u8, voxel, &self.neighbours(types)),
            _ => entry(cell, change, voxel, &self.neighbours(types)),
        }
    }

    fn neighbours(&mut self, types: usize) -> Vec<u8> {
        let outside = self.pick(&[2, 4, 100]);
        (0..6).map(|_| if self.one_in(outside) { OUTSIDE } else { self.below(types) as u8 }).collect()
    }
}

/// x, y, z of a cell.
pub fn coordinates([width, _, length]: [u32; 3], cell: usize) -> [u32; 3] {
    let cell = cell as u32;
    [cell % width, cell / (length * width), cell / width % length]
}

fn cell_at([width, height, length]: [u32; 3], [x, y, z]: [u32; 3]) -> Option<usize> {
    let within = x < width && y < height && z < length;
    within.then(|| (y * length * width + z * width + x) as usize)
}

/// The cell on a side.
pub fn neighbour(dims: [u32; 3], cell: usize, face: usize) -> Option<usize> {
    let mut at = coordinates(dims, cell);
    let along = &mut at[[1, 0, 2][face / 2]];
    *along = if face % 2 == 0 { *along + 1 } else { along.wrapping_sub(1) };
    cell_at(dims, at)
}

/// The voxels on the six sides of a cell.
pub fn beside(dims: [u32; 3], cell: usize, grid: &[u8]) -> Vec<u8> {
    (0..6).map(|face| neighbour(dims, cell, face).map_or(OUTSIDE, |other| grid[other])).collect()
}

/// An entry that is true of the grid, which has the voxel `after` in its cell then.
pub fn true_entry(cell: usize, change: u8, after: u8, dims: [u32; 3], grid: &mut [u8]) -> Vec<u8> {
    let neighbours = beside(dims, cell, grid);
    let before = std::mem::replace(&mut grid[cell], after);
    match change {
        BROKEN => entry(cell, BROKEN, before, &neighbours),
        REPLACED => replaced(cell, before, after, &neighbours),
        _ => entry(cell, change, after, &neighbours),
    }
}

/// The cubes that the log adds, in place of others too.
pub fn added_cubes(case: &Case) -> impl Iterator<Item = u8> + '_ {
    let adds = |entry: &&[u8]| matches!(entry[CHANGE], ADDED | REPLACED);
    let added = case.log.chunks_exact(ENTRY).filter(adds).map(|entry| entry[VOXEL]);
    added.filter(|&voxel| case.types.is_cube(voxel))
}

/// The case with its log made true of its grid, and the grid that the log leaves, if all it does is to break, to put cubes into empty cells, and to replace
/// by cubes. Of these logs demand 3 speaks in the new mode; in the source's the cubes have to cover opposite sides alike too.
pub fn made_honest(case: &Case) -> Option<(Case, Vec<u8>)> {
    let t = &case.types;
    let (mut honest, mut grid) = (case.clone(), case.grid.clone());
    for entry in honest.log.chunks_exact_mut(ENTRY) {
        let (cell, change, voxel) = (cell_of(entry), entry[CHANGE], entry[VOXEL]);
        let after = match change {
            BROKEN => t.lowest_empty()?,
            ADDED if t.is_cube(voxel) && t.is_empty(grid[cell]) => voxel,
            REPLACED if t.is_cube(voxel) => voxel,
            _ => return None,
        };
        entry.copy_from_slice(&true_entry(cell, change, after, case.dims, &mut grid));
    }
    Some((honest, grid))
}

/// The case without one layer of its grid, if its log names no cell there.
fn without_layer(case: &Case, axis: usize, layer: u32) -> Option<Case> {
    let mut small = case.clone();
    small.dims[axis] -= 1;
    let kept = |cell: &usize| coordinates(case.dims, *cell)[axis] != layer;
    small.grid = (0..case.grid.len()).filter(kept).map(|cell| case.grid[cell]).collect();
    for entry in small.log.chunks_exact_mut(ENTRY) {
        let cell = cell_of(entry);
        let mut at = coordinates(case.dims, cell);
        if at[axis] == layer {
            return None;
        }
        at[axis] -= (at[axis] > layer) as u32;
        entry[..4].copy_from_slice(&(cell_at(small.dims, at)? as u32).to_le_bytes());
    }
    (small.dims[axis] > 0).then_some(small)
}

/// Cases a step simpler than this one, simplest first.
pub fn simpler(case: &Case) -> Vec<Case> {
    let mut list = vec![];
    let entries = case.log.len() / ENTRY;
    let mut add = |change: &dyn Fn(&mut Case)| {
        let mut simple = case.clone();
        change(&mut simple);
        if simple != *case {
            list.push(simple);
        }
    };
    add(&|c| c.log.truncate(entries / 2 * ENTRY));
    for dropped in 0..entries {
        add(&|c| drop(c.log.drain(dropped * ENTRY..(dropped + 1) * ENTRY)));
    }
    add(&|c| c.outer.clear());
    add(&|c| c.naive = false);
    add(&|c| c.tested = Tested::Opposite);
    add(&|c| c.grid.fill(0));
    for cell in 0..case.grid.len() {
        add(&|c| c.grid[cell] = 0);
    }
    for (number, entry) in case.log.chunks_exact(ENTRY).enumerate() {
        let at = number * ENTRY;
        for half in halves(entry) {
            add(&|c| c.log[at..at + ENTRY].copy_from_slice(&half));
        }
        for byte in GIVEN {
            add(&|c| c.log[at + byte] = if is_sides(entry) { KEEP } else { OUTSIDE });
        }
        if is_replaced(entry) {
            add(&|c| c.log[at + FORMER] = 0);
        }
    }
    for axis in 0..3 {
        for layer in [case.dims[axis] - 1, 0] {
            add(&|c| *c = without_layer(c, axis, layer).unwrap_or_else(|| c.clone()));
        }
    }
    let last = case.types.kinds.len() - 1;
    let voxels = |entry: &[u8]| if is_sides(entry) { vec![entry[VOXEL]] } else { entry[VOXEL..=FORMER].to_vec() };
    let logged: Vec<u8> = case.log.chunks_exact(ENTRY).flat_map(voxels).collect();
    if last > 0 && case.grid.iter().chain(&logged).all(|&voxel| voxel as usize != last) {
        add(&|c| {
            c.types.kinds.pop();
            c.types.covers.pop();
            c.types.cubes.truncate(last * 24 * floats(c.types.coloured));
        });
    }
    list
}

/// The same for a log that demand 3 speaks of: what is left of it is made true again.
pub fn simpler_to_mend(case: &Case) -> Vec<Case> {
    let honest = simpler(case).into_iter().filter_map(|simple| Some(made_honest(&simple)?.0));
    honest.filter(|simple| simple != case).collect()
}
