//! Lists that a test keeps and lends.
#![allow(dead_code, reason = "a file of tests uses what it needs of it")]

use nalumoce::lent::{Lists, Room};

#[derive(Clone, PartialEq, Debug)]
pub struct Kept {
    pub positions: Vec<[f32; 3]>,
    pub normals: Vec<[f32; 3]>,
    pub uvs: Vec<[f32; 2]>,
    pub colours: Vec<[f32; 4]>,
    pub triangles: Vec<u32>,
    pub links: Vec<u32>,
    pub slots: Vec<u32>,
}

impl Kept {
    /// Without colour, and a few colours all the same: no call touches them.
    pub fn new(quads: usize, cells: usize) -> Kept {
        Kept { colours: vec![[7.0; 4]; 3], ..Kept::with_colour(quads, cells) }
    }
    pub fn with_colour(quads: usize, cells: usize) -> Kept {
        Kept {
            positions: vec![[7.0; 3]; 4 * quads],
            normals: vec![[7.0; 3]; 4 * quads],
            uvs: vec![[7.0; 2]; 4 * quads],
            colours: vec![[7.0; 4]; 4 * quads],
            triangles: vec![7; 6 * quads],
            links: vec![7; quads],
            slots: vec![7; 6 * cells],
        }
    }
    pub fn room(&mut self) -> Room<'_> {
        Room {
            positions: &mut self.positions,
            normals: &mut self.normals,
            uvs: &mut self.uvs,
            colours: &mut self.colours,
            triangles: &mut self.triangles,
            links: &mut self.links,
            slots: &mut self.slots,
        }
    }
    pub fn lists(&self) -> Lists<'_> {
        Lists {
            positions: &self.positions,
            normals: &self.normals,
            uvs: &self.uvs,
            colours: &self.colours,
            triangles: &self.triangles,
            links: &self.links,
            slots: &self.slots,
        }
    }
}
