//! A fixed list of the Rust's answers, for replaying without the Rust.
//!
//!     answers FILE
//!
//! The file is little-endian u32 words. A list of bytes is packed four to a word, lowest byte first, and filled up with zeros to a
//! whole word, so that it also lies in the file as bytes in order. Floats are their bits.
//!
//! The file is its head, then records one after another:
//!
//!     head      0x5348534D, version 4, number of records
//!     record    tag, number of words that follow, those words
//!
//! Tag 1, a cube: `generate_voxel_mesh` and its answer.
//!
//!     d (3), atlas width and height, centre (3), padding, coloured (0 or 1), colour, alpha, texture (18: face, a, b six times),
//!     the 24 vertices (8 words each, 12 if coloured)
//!
//! Tag 2, a registry: it holds for the grids that follow, up to the next one.
//!
//!     types n, coloured, d (3), centre (3), kinds (n bytes), covers (n bytes), cubes (n times 24 vertices)
//!
//! Tag 3, a grid: `mesh_grid`, then `update_mesh` on that mesh.
//!
//!     width, height, length, algorithm (0 Naive, 1 Culling), outer faces o, cells c, log entries e,
//!     outer (o bytes), grid (c bytes), log (16·e bytes),
//!     the mesh after meshing, the mesh after the log
//!
//! A Sides entry of the log was two for the Rust: CullFaces with a neighbour given where it hides, then AddFaces with one given where it draws. A Replaced
//! one was Broken of the former type, then Added of the new one.
//!
//! A mesh:
//!
//!     quads Q, links (Q), triangle words (6·Q), positions (12·Q), normals (12·Q), uvs (8·Q), colours (16·Q if coloured, else none),
//!     slots (6·c; 4,294,967,295 for none)
//!
//! Everything is accepted by document 01. `moved` is not in it: the Rust doesn't count.

use oracle::cases::{cube_of, paper_types, Candour, Case, Random};
use oracle::entries::{entry, replaced, CHANGE, ENTRY, PAIRED};
use oracle::rust::{cube, mesh, CubeParameters, Registry, Types, Words};
use plain::{ADDED, BROKEN, DRAW, HIDE, KEEP, SIDES};

const MAGIC: u32 = u32::from_le_bytes(*b"MSHS");
const VERSION: u32 = 4;
const SEED: u64 = 2_026;
/// The most words of the file: 400,000 bytes.
const MOST_WORDS: usize = 100_000;

const OUT: u8 = 255;

fn main() {
    let path = std::env::args().nth(1).expect("usage: answers FILE");
    let mut file = File::default();
    let mut random = Random(SEED);
    cubes(&mut file, &mut random);
    unfused_grids(&mut file);
    worked_grids(&mut file);
    paper_grids(&mut file, &mut random);
    other_registries(&mut file, &mut random);
    let bytes = file.bytes();
    println!(
        "{path}: {} bytes; {} cubes, {} registries, {} grids, {} quads",
        bytes.len(),
        file.cubes,
        file.registries,
        file.grids,
        file.quads
    );
    for ((change, _), [entries, went_and_drew]) in PAIRED.iter().zip(file.pairs) {
        println!("{entries} {change} entries; a quad went and one was drawn by {went_and_drew}");
        assert!(went_and_drew > 0, "the list is meant to have {change}");
    }
    assert!(file.words.len() <= MOST_WORDS, "the list is meant to be small");
    std::fs::write(path, bytes).expect("the file to write");
}

#[derive(Default)]
struct File {
    words: Vec<u32>,
    cubes: u32,
    registries: u32,
    grids: u32,
    quads: usize,
    /// In the order of `PAIRED`: entries, and those by which a quad went and one was drawn.
    pairs: [[u64; 2]; 2],
}

impl File {
    fn bytes(&self) -> Vec<u8> {
        let head = [MAGIC, VERSION, self.cubes + self.registries + self.grids];
        head.iter().chain(&self.words).flat_map(|word| word.to_le_bytes()).collect()
    }

    fn record(&mut self, tag: u32, words: Vec<u32>) {
        self.words.extend([tag, words.len() as u32]);
        self.words.extend(words);
    }

    fn cube(&mut self, p: &CubeParameters) {
        let mut words = [&p.d[..], &p.atlas, &p.centre, &[p.padding, p.coloured as u32, p.colour, p.alpha], &p.texture].concat();
        words.extend(cube(p));
        self.record(1, words);
        self.cubes += 1;
    }

    fn registry(&mut self, t: &Types) {
        let mut words = [&[t.kinds.len() as u32, t.coloured as u32][..], &t.d, &t.centre].concat();
        words.extend(packed(&t.kinds));
        words.extend(packed(&t.covers));
        words.extend(&t.cubes);
        self.record(2, words);
        self.registries += 1;
    }

    /// The grid's record, if it takes no more than `most` words.
    fn grid(&mut self, case: &Case, most: usize) -> bool {
        let lengths = [case.outer.len(), case.grid.len(), case.log.len() / ENTRY].map(|length| length as u32);
        let mut words = [&case.dims[..], &[!case.naive as u32], &lengths].concat();
        for list in [&case.outer, &case.grid, &case.log] {
            words.extend(packed(list));
        }
        let registry = Registry::of(&case.types);
        let mut meshed = mesh(case.dims, &case.outer, &case.grid, &registry, case.naive);
        let fresh = meshed.words();
        meshed.update(&registry, &case.log);
        let updated = meshed.words();
        words.extend(mesh_words(&fresh));
        words.extend(mesh_words(&updated));
        if words.len() > most {
            return false;
        }
        self.record(3, words);
        self.grids += 1;
        self.quads += fresh.links.len() + updated.links.len();
        let mut again = mesh(case.dims, &case.outer, &case.grid, &registry, case.naive);
        for (entry, both) in case.log.chunks_exact(ENTRY).zip(again.update_by_entry(&registry, &case.log)) {
            if let Some(pair) = PAIRED.iter().position(|&(_, change)| change == entry[CHANGE]) {
                self.pairs[pair][0] += 1;
                self.pairs[pair][1] += both as u64;
            }
        }
        true
    }
}

fn packed(bytes: &[u8]) -> impl Iterator<Item = u32> + '_ {
    bytes.chunks(4).map(|four| (0..4).rev().fold(0, |word, i| word << 8 | four.get(i).copied().unwrap_or(0) as u32))
}

fn mesh_words(mesh: &Words) -> Vec<u32> {
    let Words { positions, normals, uvs, colours, triangles, links, slots } = mesh;
    [&[links.len() as u32][..], links, triangles, positions, normals, uvs, colours, slots].concat()
}

/// Cubes with something to say, then any.
fn cubes(file: &mut File, random: &mut Random) {
    let tenth = 0x3DCC_CCCD;
    let all_top: Vec<u32> = (0..6).flat_map(|tile| [0, tile, 5 - tile]).collect();
    let named_twice = vec![2, 1, 1, 3, 9, 9, 2, 7, 0, 5, 4095, 4095, 3, 0, 2, 2, 3, 3];
    let same_tile: Vec<u32> = (0..6).flat_map(|face| [face, 3, 3]).collect();
    let chosen = [
        cube_of(1.0, 0),
        // products and sums are not fused
        CubeParameters { atlas: [3, 3], texture: same_tile, padding: tenth, ..cube_of(1.0, 0) },
        CubeParameters { d: [tenth; 3], ..cube_of(1.0, 0) },
        CubeParameters { atlas: [16, 9], texture: all_top, padding: tenth, ..cube_of(1.0, 0) },
        CubeParameters { atlas: [16, 16], texture: named_twice, padding: 0xBE80_0000, ..cube_of(1.0, 0) },
        // high equals the centre
        CubeParameters { d: [0x4000_0000; 3], centre: [0x4B80_0000; 3], ..cube_of(1.0, 0) },
        CubeParameters { d: [0, 0x8000_0000, 0xBF80_0000], centre: [0x8000_0000, 0, 0xBF00_0000], ..cube_of(1.0, 0) },
        CubeParameters { d: [0x7F7F_FFFF; 3], centre: [0x7F7F_FFFF, 0xFF7F_FFFF, 0], padding: 0x7F7F_FFFF, ..cube_of(1.0, 0) },
        CubeParameters { coloured: true, colour: 0x3F80_0000, alpha: 0x3F00_0000, ..cube_of(1.0, 0) },
        CubeParameters { coloured: true, colour: 0x7F80_0001, alpha: 0xFFC0_1234, ..cube_of(1.0, 0) },
    ];
    chosen.iter().for_each(|parameters| file.cube(parameters));
    (0..30).for_each(|_| file.cube(&random.cube()));
}

const AIR: u8 = 0;
const CUBE: u8 = 1;
const DARK: u8 = 2;
const BOTTOM: u8 = 3;
const TOP: u8 = 4;
const CUSTOM: u8 = 5;
const ODD: u8 = 6;

/// The meshes worked by hand, and edges of the update's rules.
fn worked_grids(file: &mut File) {
    file.registry(&paper_types(1.0));
    let mut put = |dims: [u32; 3], outer: &[u8], grid: &[u8], naive: bool, log: &[Vec<u8>]| {
        let case = Case {
            dims,
            outer: outer.to_vec(),
            grid: grid.to_vec(),
            types: paper_types(1.0),
            naive,
            log: log.concat(),
            ..Case::default()
        };
        assert!(file.grid(&case, MOST_WORDS));
    };
    let beside = [OUT, OUT, CUBE, OUT, OUT, OUT];
    put([1, 1, 1], &[], &[CUBE], false, &[]);
    put([2, 1, 1], &[], &[CUBE, CUBE], false, &[entry(0, BROKEN, CUBE, &beside)]);
    put([2, 1, 1], &[], &[CUBE, CUBE], false, &[entry(0, BROKEN, CUBE, &beside), entry(0, ADDED, CUBE, &beside)]);
    put([2, 1, 1], &[], &[CUBE, CUBE], true, &[]);
    put([2, 1, 1], &[0], &[CUBE, CUBE], false, &[]);
    put([3, 3, 3], &[], &[CUBE; 27], false, &[entry(13, BROKEN, CUBE, &[CUBE; 6])]);
    put([2, 1, 1], &[], &[CUBE, DARK], false, &[]);
    let above = [OUT, CUBE, OUT, OUT, OUT, OUT];
    put([1, 2, 1], &[], &[CUBE, AIR], false, &[entry(1, ADDED, BOTTOM, &above)]);
    put([1, 2, 1], &[], &[CUBE, BOTTOM], false, &[]);
    put([1, 2, 1], &[], &[CUBE, AIR], false, &[entry(1, ADDED, TOP, &above)]);
    put([1, 2, 1], &[], &[CUBE, TOP], false, &[]);
    put([1, 2, 1], &[], &[CUBE, AIR], false, &[entry(1, ADDED, AIR, &above), entry(1, ADDED, CUSTOM, &above)]);
    // a cube over a cube; nothing broken, twice; broken as another type; a neighbour given where the grid ends, and the other way
    put([2, 1, 1], &[], &[CUBE, CUBE], false, &[entry(0, ADDED, ODD, &beside)]);
    put([2, 1, 1], &[], &[AIR, CUBE], false, &[entry(0, BROKEN, AIR, &beside), entry(0, BROKEN, CUBE, &beside)]);
    put([2, 1, 1], &[], &[CUBE, CUBE], false, &[entry(1, BROKEN, DARK, &[OUT, OUT, OUT, ODD, OUT, OUT])]);
    put([2, 1, 1], &[], &[CUBE, AIR], false, &[entry(1, ADDED, CUBE, &[CUBE; 6]), entry(1, BROKEN, CUBE, &[CUBE; 6])]);
    put([2, 1, 1], &[], &[CUBE, AIR], false, &[entry(1, ADDED, CUBE, &[OUT; 6]), entry(1, BROKEN, CUBE, &[OUT; 6])]);
    // sides hidden, then drawn; both in one entry; of no cube, which only hides
    let [hidden, drawn] = [HIDE, DRAW].map(|way| [KEEP, way, way, KEEP, way, way]);
    let log = [entry(0, SIDES, AIR, &hidden), entry(1, SIDES, CUBE, &drawn), entry(0, SIDES, BOTTOM, &drawn)];
    put([2, 1, 1], &[], &[CUBE, CUBE], true, &log);
    let log = [entry(1, SIDES, TOP, &[DRAW; 6]), entry(0, SIDES, ODD, &[HIDE; 6]), entry(1, SIDES, CUSTOM, &[DRAW; 6])];
    put([1, 1, 2], &[], &[CUBE, AIR], false, &log);
    let both = [HIDE, KEEP, DRAW, HIDE, DRAW, KEEP];
    put([2, 1, 1], &[], &[CUBE, CUBE], false, &[entry(0, SIDES, ODD, &both), entry(1, SIDES, DARK, &both)]);
    // a cube for a cube, in the middle of others too; slabs for each other; a cube for air, and twice; what is no cube for a cube, and the other way
    put([2, 1, 1], &[], &[CUBE, CUBE], false, &[replaced(0, CUBE, ODD, &beside)]);
    put([3, 3, 3], &[], &[CUBE; 27], false, &[replaced(13, CUBE, BOTTOM, &[CUBE; 6])]);
    put([1, 2, 1], &[], &[CUBE, BOTTOM], false, &[replaced(1, BOTTOM, TOP, &above), replaced(1, TOP, BOTTOM, &above)]);
    put([1, 2, 1], &[], &[CUBE, AIR], false, &[replaced(1, AIR, CUBE, &above), replaced(1, AIR, ODD, &above)]);
    put([2, 1, 1], &[], &[CUBE, CUBE], false, &[replaced(0, CUBE, CUSTOM, &beside), replaced(0, CUSTOM, CUBE, &beside)]);
    put([2, 1, 1], &[], &[DARK, CUBE], false, &[replaced(0, DARK, DARK, &beside), replaced(0, DARK, AIR, &beside)]);
    // as another type than it is; neighbours given where the grid ends, and the other way
    put([2, 1, 1], &[], &[CUBE, CUBE], false, &[replaced(1, AIR, TOP, &[OUT, OUT, OUT, ODD, OUT, OUT])]);
    put([2, 1, 1], &[], &[AIR, CUBE], false, &[replaced(0, CUBE, BOTTOM, &[TOP; 6]), replaced(1, ODD, CUBE, &[OUT; 6])]);
}

/// Three times a tenth, which isn't exact, plus a corner: the product is rounded first.
fn unfused_grids(file: &mut File) {
    let types = paper_types(0.1);
    file.registry(&types);
    for axis in 0..3 {
        let mut dims = [1; 3];
        dims[axis] = 4;
        let log = [entry(3, BROKEN, CUBE, &[CUBE; 6]), entry(3, ADDED, ODD, &[CUBE; 6])].concat();
        let case = Case { dims, grid: vec![AIR, AIR, BOTTOM, CUBE], types: types.clone(), log, ..Case::default() };
        assert!(file.grid(&case, MOST_WORDS));
    }
}

/// Grids of the same types: one of 64 cells, many small.
fn paper_grids(file: &mut File, random: &mut Random) {
    let types = paper_types(1.0);
    let mut chunk = Case { dims: [4, 4, 4], outer: vec![1, 3], types: types.clone(), ..Case::default() };
    chunk.grid = (0..64).map(|cell| if cell < 32 { CUBE } else { AIR }).collect();
    chunk.log = random.log(&chunk, 12, Candour::Honest);
    assert!(file.grid(&chunk, MOST_WORDS));
    small_grids(file, random, &types, 24);
}

/// Registries of any floats, coloured or not, with a few grids each.
fn other_registries(file: &mut File, random: &mut Random) {
    let last = file.registries + 9;
    while file.registries < last {
        let types = random.types(4);
        if types.kinds.contains(&1) {
            file.registry(&types);
            small_grids(file, random, &types, 7);
        }
    }
}

/// Small grids with a log each; every sixth may be larger.
fn small_grids(file: &mut File, random: &mut Random, types: &Types, grids: u32) {
    let last = file.grids + grids;
    while file.grids < last {
        let dims = [(); 3].map(|()| 1 + random.pick(&[0, 0, 1, 1, 2]));
        let grid = random.grid(dims.iter().product::<u32>() as usize, types.kinds.len());
        let mut case =
            Case { dims, outer: random.outer(), grid, types: types.clone(), naive: random.one_in(5), ..Case::default() };
        let entries = 1 + random.below(8);
        let candour = random.pick(&[Candour::Honest, Candour::Foolish, Candour::Mixed]);
        case.log = random.log(&case, entries, candour);
        file.grid(&case, if file.grids % 6 == 0 { 1_800 } else { 900 });
    }
}
