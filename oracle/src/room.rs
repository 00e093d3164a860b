//! Lent lists: a mesh at the front, what no call has written after it.

use crate::cases::Case;
use crate::entries::ENTRY;
use crate::rust::{floats, Words};
use std::collections::BTreeMap;

/// What a place holds that no call has written.
pub const SPARE: u32 = 0xA5A5_A5A5;

/// The bits of a link that are its cell's number.
const CELL_OF_LINK: u32 = (1 << 29) - 1;

/// The most quads that an entry draws: Replaced, six of its own and six that face them.
pub const MOST_DRAWN: usize = 12;

/// Room for a mesh of `quads` and all that the case's log can draw, and for one more.
pub fn room_of(case: &Case, quads: usize) -> Words {
    let most = (quads + MOST_DRAWN * (case.log.len() / ENTRY)).min(6 * case.grid.len());
    room_for(most + 1, case)
}

/// Room for so many quads. One list, each in its turn, has just that; the others have room for six more. Past them are words that are no quad.
/// Without colour the colour list has any length, and is empty now and then.
pub fn room_for(quads: usize, case: &Case) -> Words {
    let coloured = case.types.coloured;
    let scarce = [0, 1, 2, 4, 5, 3][quads % if coloured { 6 } else { 5 }];
    let room = |list: usize, each: usize, more: usize| vec![SPARE; each * (quads + if list == scarce { 0 } else { 6 }) + more];
    Words {
        positions: room(0, 12, 5),
        normals: room(1, 12, 11),
        uvs: room(2, 8, 3),
        colours: if coloured { room(3, 16, 7) } else { vec![SPARE; quads % 23] },
        triangles: room(4, 6, 2),
        links: room(5, 1, 0),
        slots: vec![SPARE; 6 * case.grid.len() + 1],
    }
}

/// A mesh laid into room.
pub fn laid(mesh: &Words, mut room: Words) -> Words {
    for (list, (_, words)) in room.lists_mut().into_iter().zip(mesh.lists()) {
        list[..words.len()].copy_from_slice(words);
    }
    room
}

/// The mesh that lies at the front of the room.
pub fn front(room: &Words, quads: usize, case: &Case) -> Words {
    Words {
        positions: room.positions[..quads * 12].to_vec(),
        normals: room.normals[..quads * 12].to_vec(),
        uvs: room.uvs[..quads * 8].to_vec(),
        colours: if case.types.coloured { room.colours[..quads * 16].to_vec() } else { vec![] },
        triangles: room.triangles[..quads * 6].to_vec(),
        links: room.links[..quads].to_vec(),
        slots: room.slots[..6 * case.grid.len()].to_vec(),
    }
}

/// The faces of the mesh at the front of the room, by cell and number: the words of each one's quad in all attributes.
pub fn faces(room: &Words, quads: usize, coloured: bool) -> BTreeMap<(u32, u32), Vec<u32>> {
    let lists = attributes(room, coloured);
    let words = |quad: usize| lists.iter().flat_map(|(floats, list)| &list[4 * floats * quad..][..4 * floats]).copied().collect();
    let linked = |link: u32| (link & CELL_OF_LINK, 5u32.wrapping_sub(link >> 29));
    room.links[..quads].iter().enumerate().map(|(quad, &link)| (linked(link), words(quad))).collect()
}

/// Lists as a library of level 2 takes them: one of vertices, which stands for the positions, and no others of attributes. All vertices
/// of as many quads as every attribute has room for.
pub fn joined(room: &Words, coloured: bool) -> Words {
    let lists = attributes(room, coloured);
    let vertices = lists.iter().map(|(floats, list)| list.len() / (4 * floats) * 4).min().unwrap_or(0);
    let vertex = |at: usize| lists.iter().flat_map(move |(floats, list)| &list[at * floats..][..*floats]);
    Words {
        positions: (0..vertices).flat_map(vertex).copied().collect(),
        triangles: room.triangles.clone(),
        links: room.links.clone(),
        slots: room.slots.clone(),
        ..Words::default()
    }
}

/// The lists that `joined` made one of, with its words in them; past their room they are as they were.
pub fn parted(joined: &Words, mut room: Words, coloured: bool) -> Words {
    let mut from = 0;
    let size = floats(coloured);
    for (floats, list) in attributes_mut(&mut room, coloured) {
        for (row, vertex) in list.chunks_exact_mut(floats).zip(joined.positions.chunks_exact(size)) {
            row.copy_from_slice(&vertex[from..from + floats]);
        }
        from += floats;
    }
    let Words { triangles, links, slots, .. } = joined.clone();
    Words { triangles, links, slots, ..room }
}

/// The lists of the attributes that there are, each with its floats a vertex.
fn attributes(room: &Words, coloured: bool) -> Vec<(usize, &[u32])> {
    let mut lists: Vec<(usize, &[u32])> = vec![(3, &room.positions), (3, &room.normals), (2, &room.uvs)];
    lists.extend(coloured.then_some((4, &room.colours[..])));
    lists
}

fn attributes_mut(room: &mut Words, coloured: bool) -> Vec<(usize, &mut [u32])> {
    let mut lists: Vec<(usize, &mut [u32])> = vec![(3, &mut room.positions), (3, &mut room.normals), (2, &mut room.uvs)];
    lists.extend(coloured.then_some((4, &mut room.colours[..])));
    lists
}
