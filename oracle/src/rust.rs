//! The Rust's answers, in document 01's layout: Meshem run on byte-coded voxels over type tables.

use crate::cases::neighbour;
use crate::entries::{
    at_level, cell_of, ADD_FACES, CHANGE, CULL_FACES, ENTRY, FORMER_ENTRY, GIVEN, MESHEMS_LEVEL, OUTSIDE, VOXEL,
};
use bevy::mesh::{Indices, MeshVertexAttribute, VertexAttributeValues};
use bevy::prelude::Mesh;
use meshem::prelude::{
    generate_voxel_mesh, mesh_grid, update_mesh, Face, MeshMD, MeshingAlgorithm, VoxelChange, VoxelMesh, VoxelRegistry,
};
use meshem::{index, Dimensions};
use plain::{ADDED, BROKEN};

/// A slot without a quad.
pub const NONE: u32 = u32::MAX;

/// The parameters of a cube, its floats as bits.
#[derive(Clone, Debug, Default, PartialEq)]
pub struct CubeParameters {
    pub d: [u32; 3],
    pub atlas: [u32; 2],
    /// Six times face, a, b.
    pub texture: Vec<u32>,
    pub centre: [u32; 3],
    pub padding: u32,
    pub coloured: bool,
    pub colour: u32,
    pub alpha: u32,
}

/// The types of a registry: kind, covering set, and 24 vertices each.
#[derive(Clone, Debug, Default, PartialEq)]
pub struct Types {
    pub kinds: Vec<u8>,
    pub covers: Vec<u8>,
    pub cubes: Vec<u32>,
    pub coloured: bool,
    pub d: [u32; 3],
    pub centre: [u32; 3],
}

impl Types {
    pub fn is_cube(&self, voxel: u8) -> bool {
        self.kinds[voxel as usize] == 1
    }

    /// A Null that covers nothing.
    pub fn is_empty(&self, voxel: u8) -> bool {
        self.kinds[voxel as usize] == 0 && self.covers[voxel as usize] == 0
    }

    pub fn lowest_empty(&self) -> Option<u8> {
        (0..self.kinds.len() as u8).find(|&voxel| self.is_empty(voxel))
    }

    /// Whether it covers both or neither of every two opposite sides.
    pub fn covers_alike(&self, voxel: u8) -> bool {
        let set = self.covers[voxel as usize];
        (set ^ set >> 1) & 0b01_0101 == 0
    }
}

/// A mesh as documents 01 and 02 lay it out: per quad four times position, normal, uv and, with colour, colour, then its triangle words and link;
/// per cell six slots.
#[derive(Clone, Debug, Default, PartialEq)]
pub struct Words {
    pub positions: Vec<u32>,
    pub normals: Vec<u32>,
    pub uvs: Vec<u32>,
    pub colours: Vec<u32>,
    pub triangles: Vec<u32>,
    pub links: Vec<u32>,
    pub slots: Vec<u32>,
}

impl Words {
    /// Every list, and what one word of it is. The index comes first: where it differs, so do most of the others.
    pub fn lists(&self) -> [(&'static str, &[u32]); 7] {
        let Words { positions, normals, uvs, colours, triangles, links, slots } = self;
        [
            ("link", links),
            ("slot", slots),
            ("triangle word", triangles),
            ("float of positions", positions),
            ("float of normals", normals),
            ("float of uvs", uvs),
            ("float of colours", colours),
        ]
    }

    /// The same lists in the same order.
    pub fn lists_mut(&mut self) -> [&mut [u32]; 7] {
        let Words { positions, normals, uvs, colours, triangles, links, slots } = self;
        [links, slots, triangles, positions, normals, uvs, colours]
    }
}

/// A mesh that the Rust built, with its metadata.
pub struct Meshed {
    mesh: Mesh,
    metadata: MeshMD<u8>,
    coloured: bool,
}

pub const fn floats(coloured: bool) -> usize {
    if coloured {
        12
    } else {
        8
    }
}

/// `generate_voxel_mesh`.
pub fn voxel_mesh(p: &CubeParameters) -> Mesh {
    let entry = |i: usize| (Face::from(p.texture[3 * i] as usize), [p.texture[3 * i + 1], p.texture[3 * i + 2]]);
    generate_voxel_mesh(
        p.d.map(f32::from_bits),
        p.atlas,
        std::array::from_fn(entry),
        p.centre.map(f32::from_bits),
        f32::from_bits(p.padding),
        p.coloured.then_some(f32::from_bits(p.colour)),
        f32::from_bits(p.alpha),
    )
}

/// The 24 vertices of `generate_voxel_mesh`, whose 36 indices have to be 01's constant.
pub fn cube(p: &CubeParameters) -> Vec<u32> {
    let mesh = voxel_mesh(p);
    assert_eq!(indices_of(&mesh), &cube_indices(), "the cube's indices");
    vertices_of(&mesh, p.coloured)
}

/// `mesh_grid`, without smooth lighting.
pub fn mesh(dims: [u32; 3], outer: &[u8], grid: &[u8], registry: &Registry, naive: bool) -> Meshed {
    let outer: Vec<Face> = outer.iter().map(|&face| Face::from(face as usize)).collect();
    let algorithm = if naive { MeshingAlgorithm::Naive } else { MeshingAlgorithm::Culling };
    let (mesh, metadata) = mesh_grid(dimensions(dims), &outer, grid, registry, algorithm, None).unwrap();
    Meshed { mesh, metadata, coloured: registry.types.coloured }
}

impl Meshed {
    /// `update_mesh` with the entries of a log, Sides and Replaced as the pairs that they equal.
    pub fn update(&mut self, registry: &Registry, log: &[u8]) {
        self.update_by_meshems(registry, &at_level(MESHEMS_LEVEL, log));
    }

    /// `update_mesh` with a log that has Meshem's entries.
    pub fn update_by_meshems(&mut self, registry: &Registry, log: &[u8]) {
        for entry in log.chunks_exact(FORMER_ENTRY) {
            let change = match entry[CHANGE] {
                BROKEN => VoxelChange::Broken,
                ADDED => VoxelChange::Added,
                CULL_FACES => VoxelChange::CullFaces,
                ADD_FACES => VoxelChange::AddFaces,
                other => panic!("change {other}"),
            };
            let neighbours = std::array::from_fn(|face| Some(entry[GIVEN][face]).filter(|&voxel| voxel != OUTSIDE));
            self.metadata.log(change, cell_of(entry), entry[VOXEL], neighbours);
        }
        update_mesh(&mut self.mesh, &mut self.metadata, registry);
    }

    /// `update_mesh` with a log, one of Meshem's entries a call. Tells of each of the log's whether a quad went by it and one was drawn.
    pub fn update_by_entry(&mut self, registry: &Registry, log: &[u8]) -> Vec<bool> {
        let mut went_and_drew = |entry: &[u8]| {
            let (mut went, mut drew) = (0, 0);
            for meshems in at_level(MESHEMS_LEVEL, entry).chunks_exact(FORMER_ENTRY) {
                let before = self.quads_around(cell_of(entry));
                self.update_by_meshems(registry, meshems);
                let after = self.quads_around(cell_of(entry));
                went |= before & !after;
                drew |= after & !before;
            }
            went != 0 && drew != 0
        };
        log.chunks_exact(ENTRY).map(&mut went_and_drew).collect()
    }

    /// Which sides of a cell have a quad, and which sides of its neighbours that face it: a set of twelve.
    fn quads_around(&self, cell: usize) -> u16 {
        let (width, height, length) = self.metadata.dims;
        let dims = [width, height, length].map(|size| size as u32);
        let is_there = |cell: usize, face: usize| index::quad_of(&self.metadata, cell, Face::from(face)).is_some();
        let faced = |face: usize| neighbour(dims, cell, face).is_some_and(|other| is_there(other, plain::opposite(face)));
        (0..6).fold(0, |set, face| set << 2 | (is_there(cell, face) as u16) << 1 | faced(face) as u16)
    }

    /// Everything there is to compare. Panics where the index contradicts itself or the mesh.
    pub fn words(&self) -> Words {
        let quads = self.mesh.count_vertices() / 4;
        assert_eq!(index::counts(&self.metadata), (quads, quads), "the index holds each quad twice");
        let link = |quad: usize| index::link_of(&self.metadata, 4 * quad as u32).expect("a quad without a link");
        let (width, height, length) = self.metadata.dims;
        let slot = |key: usize| index::quad_of(&self.metadata, key / 6, Face::from(key % 6)).unwrap_or(NONE);
        Words {
            positions: column(&self.mesh, Mesh::ATTRIBUTE_POSITION),
            normals: column(&self.mesh, Mesh::ATTRIBUTE_NORMAL),
            uvs: column(&self.mesh, Mesh::ATTRIBUTE_UV_0),
            colours: if self.coloured { column(&self.mesh, Mesh::ATTRIBUTE_COLOR) } else { vec![] },
            triangles: indices_of(&self.mesh).clone(),
            links: (0..quads).map(link).collect(),
            slots: (0..6 * width * height * length).map(slot).collect(),
        }
    }
}

fn dimensions([width, height, length]: [u32; 3]) -> Dimensions {
    (width as usize, height as usize, length as usize)
}

fn cube_indices() -> Vec<u32> {
    (0..6).flat_map(|face| [0, 1, 3, 2, 3, 1].map(|corner| 4 * face + corner)).collect()
}

fn indices_of(mesh: &Mesh) -> &Vec<u32> {
    match mesh.indices() {
        Some(Indices::U32(indices)) => indices,
        _ => panic!("a mesh without u32 indices"),
    }
}

fn attributes(coloured: bool) -> Vec<MeshVertexAttribute> {
    let mut list = vec![Mesh::ATTRIBUTE_POSITION, Mesh::ATTRIBUTE_NORMAL, Mesh::ATTRIBUTE_UV_0];
    list.extend(coloured.then_some(Mesh::ATTRIBUTE_COLOR));
    list
}

/// An attribute's floats, vertex by vertex.
fn column(mesh: &Mesh, attribute: MeshVertexAttribute) -> Vec<u32> {
    let values = mesh.attribute(attribute).expect("an attribute");
    assert_eq!(values.len(), mesh.count_vertices(), "attributes of one length");
    let floats = match values {
        VertexAttributeValues::Float32x2(rows) => rows.as_flattened(),
        VertexAttributeValues::Float32x3(rows) => rows.as_flattened(),
        VertexAttributeValues::Float32x4(rows) => rows.as_flattened(),
        _ => panic!("an attribute of another format"),
    };
    floats.iter().map(|float| float.to_bits()).collect()
}

/// All attributes, vertex by vertex.
fn vertices_of(mesh: &Mesh, coloured: bool) -> Vec<u32> {
    let columns: Vec<_> = attributes(coloured).into_iter().map(|attribute| column(mesh, attribute)).collect();
    let count = mesh.count_vertices();
    let row = |vertex: usize, column: &[u32]| {
        let floats = column.len() / count;
        column[floats * vertex..][..floats].to_vec()
    };
    (0..count).flat_map(|vertex| columns.iter().flat_map(move |column| row(vertex, column))).collect()
}

/// The registry that Meshem asks, over the tables.
pub struct Registry<'a> {
    types: &'a Types,
    meshes: Vec<Mesh>,
}

impl Registry<'_> {
    pub fn of(types: &Types) -> Registry<'_> {
        let words = 24 * floats(types.coloured);
        let meshes = types.cubes.chunks_exact(words).map(|cube| mesh_of_words(cube, types.coloured)).collect();
        Registry { types, meshes }
    }
}

impl VoxelRegistry for Registry<'_> {
    type Voxel = u8;

    fn get_mesh(&self, voxel: &u8) -> VoxelMesh<&Mesh> {
        let mesh = &self.meshes[*voxel as usize];
        match self.types.kinds[*voxel as usize] {
            0 => VoxelMesh::Null,
            1 => VoxelMesh::NormalCube(mesh),
            _ => VoxelMesh::CustomMesh(mesh),
        }
    }
    fn is_covering(&self, voxel: &u8, side: Face) -> bool {
        self.types.covers[*voxel as usize] >> (side as u8) & 1 == 1
    }
    fn get_center(&self) -> [f32; 3] {
        self.types.centre.map(f32::from_bits)
    }
    fn get_voxel_dimensions(&self) -> [f32; 3] {
        self.types.d.map(f32::from_bits)
    }
    fn all_attributes(&self) -> Vec<MeshVertexAttribute> {
        attributes(self.types.coloured)
    }
}

/// A cube's mesh from its words, with 01's constant indices.
fn mesh_of_words(words: &[u32], coloured: bool) -> Mesh {
    let mut mesh = Mesh::new(bevy::render::render_resource::PrimitiveTopology::TriangleList, Default::default());
    mesh.insert_attribute(Mesh::ATTRIBUTE_POSITION, rows::<3>(words, coloured, 0));
    mesh.insert_attribute(Mesh::ATTRIBUTE_NORMAL, rows::<3>(words, coloured, 3));
    mesh.insert_attribute(Mesh::ATTRIBUTE_UV_0, rows::<2>(words, coloured, 6));
    if coloured {
        mesh.insert_attribute(Mesh::ATTRIBUTE_COLOR, rows::<4>(words, coloured, 8));
    }
    mesh.insert_indices(Indices::U32(cube_indices()));
    mesh
}

fn rows<const N: usize>(words: &[u32], coloured: bool, from: usize) -> Vec<[f32; N]> {
    let row = |vertex: &[u32]| std::array::from_fn(|i| f32::from_bits(vertex[from + i]));
    words.chunks_exact(floats(coloured)).map(row).collect()
}
