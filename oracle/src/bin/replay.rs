//! Replays the list of the Rust's answers through the library: what the Rattle program does under `rt ci`, from Rust.
//!
//!     replay FILE
//!
//! `answers` says how the file is laid out. Every word of every answer is compared, with room to spare that has to stay as it was.

use oracle::calls::{Answer, Calls};
use oracle::cases::Case;
use oracle::entries::ENTRY;
use oracle::library::Library;
use oracle::room::{laid, room_for, SPARE};
use oracle::rust::{floats, CubeParameters, Types, Words};

fn main() {
    Library::assert_level();
    let path = std::env::args().nth(1).expect("usage: replay FILE");
    let bytes = std::fs::read(path).expect("the file to read");
    assert_eq!(bytes.len() % 4, 0, "whole words");
    let words: Vec<u32> = bytes.chunks(4).map(|four| u32::from_le_bytes(four.try_into().unwrap())).collect();
    let mut file = Reader(&words);
    assert_eq!(file.many(2), [u32::from_le_bytes(*b"MSHS"), 4], "the head");
    let records = file.one();
    let mut types = Types::default();
    let mut counts = [0; 4];
    for number in 0..records {
        let (tag, length) = (file.one(), file.one() as usize);
        let mut record = Reader(file.many(length));
        match tag {
            1 => replay_cube(number, &mut record),
            2 => types = record.types(),
            3 => replay_grid(number, &mut record, &types),
            _ => panic!("record {number}: tag {tag}"),
        }
        assert!(record.0.is_empty(), "record {number}: words left over");
        counts[tag as usize] += 1;
    }
    assert!(file.0.is_empty(), "words after the last record");
    println!("replayed {} cubes, {} registries, {} grids: all agree", counts[1], counts[2], counts[3]);
}

struct Reader<'a>(&'a [u32]);

impl<'a> Reader<'a> {
    fn many(&mut self, count: usize) -> &'a [u32] {
        let (front, rest) = self.0.split_at(count);
        self.0 = rest;
        front
    }
    fn one(&mut self) -> u32 {
        self.many(1)[0]
    }
    fn three(&mut self) -> [u32; 3] {
        self.many(3).try_into().unwrap()
    }
    fn bytes(&mut self, count: usize) -> Vec<u8> {
        let mut bytes: Vec<u8> = self.many(count.div_ceil(4)).iter().flat_map(|word| word.to_le_bytes()).collect();
        assert!(bytes[count..].iter().all(|&byte| byte == 0), "filled up with zeros");
        bytes.truncate(count);
        bytes
    }
    fn types(&mut self) -> Types {
        let (count, coloured) = (self.one() as usize, self.one() == 1);
        let (d, centre) = (self.three(), self.three());
        let (kinds, covers) = (self.bytes(count), self.bytes(count));
        let cubes = self.many(count * 24 * floats(coloured)).to_vec();
        Types { kinds, covers, cubes, coloured, d, centre }
    }
    fn mesh(&mut self, case: &Case) -> Words {
        let quads = self.one() as usize;
        Words {
            links: self.many(quads).to_vec(),
            triangles: self.many(6 * quads).to_vec(),
            positions: self.many(12 * quads).to_vec(),
            normals: self.many(12 * quads).to_vec(),
            uvs: self.many(8 * quads).to_vec(),
            colours: self.many(16 * quads * case.types.coloured as usize).to_vec(),
            slots: self.many(6 * case.grid.len()).to_vec(),
        }
    }
}

fn replay_cube(number: u32, record: &mut Reader) {
    let d = record.three();
    let atlas = record.many(2).try_into().unwrap();
    let centre = record.three();
    let (padding, coloured, colour, alpha) = (record.one(), record.one() == 1, record.one(), record.one());
    let texture = record.many(18).to_vec();
    let parameters = CubeParameters { d, atlas, texture, centre, padding, coloured, colour, alpha };
    let expected = record.many(24 * floats(coloured));
    let mut out = vec![SPARE; expected.len()];
    assert_eq!(Library.generate_voxel_mesh(&parameters, &mut out), Answer::default(), "record {number}");
    assert_eq!(out, expected, "record {number}");
}

fn replay_grid(number: u32, record: &mut Reader, types: &Types) {
    let dims = record.three();
    let naive = record.one() == 0;
    let [outer, cells, entries] = record.three().map(|length| length as usize);
    let (outer, grid, log) = (record.bytes(outer), record.bytes(cells), record.bytes(entries * ENTRY));
    let case = Case { dims, outer, grid, types: types.clone(), naive, log, ..Case::default() };
    let (fresh, updated) = (record.mesh(&case), record.mesh(&case));

    let empty = room_for(6 * cells, &case);
    let mut room = empty.clone();
    let answer = Library.mesh_grid(&case, &mut room);
    assert_mesh(number, answer, &room, &fresh);
    assert!(room == laid(&fresh, empty), "record {number}: a word of the spare room has changed");
    let answer = Library.update_mesh(&case, &mut room, answer.quads);
    assert_mesh(number, answer, &room, &updated);
}

fn assert_mesh(number: u32, answer: Answer, room: &Words, expected: &Words) {
    assert_eq!((answer.number, answer.quads), (0, expected.links.len() as u64), "record {number}: refusal, quads");
    for ((word, list), (_, due)) in room.lists().into_iter().zip(expected.lists()) {
        assert_eq!(list[..due.len()], *due, "record {number}: each {word}");
    }
}
