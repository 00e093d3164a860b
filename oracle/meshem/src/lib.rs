//! Meshem's own crate root; its modules are found beside it.
#![allow(warnings)]
include!(concat!(env!("OUT_DIR"), "/meshem/lib.rs"));

/// The index, which Meshem keeps to itself, read and not changed.
pub mod index {
    use crate::prelude::{Face, MeshMD};

    pub fn quad_of<T>(metadata: &MeshMD<T>, cell: usize, face: Face) -> Option<u32> {
        metadata.vivi.get_quad_index(face, cell)
    }

    /// Cell | face code of the quad that starts at a vertex.
    pub fn link_of<T>(metadata: &MeshMD<T>, vertex: u32) -> Option<u32> {
        metadata.vivi.map.get(&vertex).copied()
    }

    /// How many quads each half of the index holds: by vertex, and by cell.
    pub fn counts<T>(metadata: &MeshMD<T>) -> (usize, usize) {
        (metadata.vivi.map.len(), metadata.vivi.vivi.iter().map(Vec::len).sum())
    }
}
