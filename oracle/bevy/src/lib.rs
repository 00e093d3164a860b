//! What Meshem names of Bevy, and no more. A mesh keeps its attributes ordered by id and never looks into their rows.
#![allow(clippy::len_without_is_empty, clippy::new_without_default)]

pub mod prelude {
    pub use crate::math::Vec3;
    pub use crate::mesh::Mesh;
}

pub mod log {
    pub use crate::warn;
}

#[macro_export]
macro_rules! warn {
    ($($message:tt)*) => { eprintln!($($message)*) };
}

pub mod asset {
    #[derive(Default)]
    pub struct RenderAssetUsages;
}

pub mod render {
    pub mod render_resource {
        pub use crate::mesh::VertexFormat;

        pub enum PrimitiveTopology {
            TriangleList,
        }
    }
}

pub mod math {
    #[derive(Clone, Copy, Debug, PartialEq)]
    pub struct Vec3 {
        pub x: f32,
        pub y: f32,
        pub z: f32,
    }

    impl Vec3 {
        pub const fn new(x: f32, y: f32, z: f32) -> Self {
            Vec3 { x, y, z }
        }
    }

    impl From<[f32; 3]> for Vec3 {
        fn from([x, y, z]: [f32; 3]) -> Self {
            Vec3 { x, y, z }
        }
    }

    impl std::ops::Sub for Vec3 {
        type Output = Vec3;
        fn sub(self, other: Vec3) -> Vec3 {
            Vec3::new(self.x - other.x, self.y - other.y, self.z - other.z)
        }
    }
}

pub mod platform {
    pub mod collections {
        use std::hash::{BuildHasherDefault, Hash, Hasher};

        /// Bevy's map hashes quickly and without a random seed; so does this one.
        #[derive(Clone, Default)]
        pub struct QuickHasher(u64);

        impl Hasher for QuickHasher {
            fn finish(&self) -> u64 {
                self.0 ^ (self.0 >> 32)
            }
            fn write(&mut self, bytes: &[u8]) {
                bytes.iter().for_each(|&byte| self.write_u32(byte as u32));
            }
            fn write_u32(&mut self, word: u32) {
                self.0 = (self.0.rotate_left(5) ^ word as u64).wrapping_mul(0x9E37_79B9_7F4A_7C15);
            }
        }

        #[derive(Clone)]
        pub struct HashMap<K, V>(std::collections::HashMap<K, V, BuildHasherDefault<QuickHasher>>);

        impl<K: Eq + Hash, V> HashMap<K, V> {
            pub fn new() -> Self {
                HashMap(Default::default())
            }
            pub fn insert(&mut self, key: K, value: V) -> Option<V> {
                self.0.insert(key, value)
            }
            pub fn remove(&mut self, key: &K) -> Option<V> {
                self.0.remove(key)
            }
            pub fn get(&self, key: &K) -> Option<&V> {
                self.0.get(key)
            }
            pub fn len(&self) -> usize {
                self.0.len()
            }
        }
    }
}

pub mod mesh {
    use crate::{asset::RenderAssetUsages, render::render_resource::PrimitiveTopology};
    use std::collections::BTreeMap;

    macro_rules! vertex_formats {
        ($($name:ident: $row:ty),* $(,)?) => {
            /// Float64 stands for the formats that Meshem doesn't name.
            #[derive(Clone, Copy, Debug, PartialEq)]
            pub enum VertexFormat { $($name,)* Float64 }

            #[derive(Clone, Debug, PartialEq)]
            pub enum VertexAttributeValues { $($name(Vec<$row>),)* }

            impl VertexAttributeValues {
                pub fn len(&self) -> usize {
                    match self { $(Self::$name(rows) => rows.len(),)* }
                }
            }
        };
    }

    vertex_formats! {
        Float32: f32, Sint32: i32, Uint32: u32,
        Float32x2: [f32; 2], Sint32x2: [i32; 2], Uint32x2: [u32; 2],
        Float32x3: [f32; 3], Sint32x3: [i32; 3], Uint32x3: [u32; 3],
        Float32x4: [f32; 4], Sint32x4: [i32; 4], Uint32x4: [u32; 4],
        Sint16x2: [i16; 2], Snorm16x2: [i16; 2], Uint16x2: [u16; 2], Unorm16x2: [u16; 2],
        Sint16x4: [i16; 4], Snorm16x4: [i16; 4], Uint16x4: [u16; 4], Unorm16x4: [u16; 4],
        Sint8x2: [i8; 2], Snorm8x2: [i8; 2], Uint8x2: [u8; 2], Unorm8x2: [u8; 2],
        Sint8x4: [i8; 4], Snorm8x4: [i8; 4], Uint8x4: [u8; 4], Unorm8x4: [u8; 4],
    }

    impl From<Vec<[f32; 2]>> for VertexAttributeValues {
        fn from(rows: Vec<[f32; 2]>) -> Self {
            Self::Float32x2(rows)
        }
    }
    impl From<Vec<[f32; 3]>> for VertexAttributeValues {
        fn from(rows: Vec<[f32; 3]>) -> Self {
            Self::Float32x3(rows)
        }
    }
    impl From<Vec<[f32; 4]>> for VertexAttributeValues {
        fn from(rows: Vec<[f32; 4]>) -> Self {
            Self::Float32x4(rows)
        }
    }

    #[derive(Clone, Copy, Debug, PartialEq, Eq, PartialOrd, Ord)]
    pub struct MeshVertexAttributeId(u64);

    #[derive(Clone, Debug)]
    pub struct MeshVertexAttribute {
        pub id: MeshVertexAttributeId,
        pub format: VertexFormat,
    }

    impl From<MeshVertexAttribute> for MeshVertexAttributeId {
        fn from(attribute: MeshVertexAttribute) -> Self {
            attribute.id
        }
    }

    #[derive(Clone, Debug)]
    pub enum Indices {
        U16(Vec<u16>),
        U32(Vec<u32>),
    }

    #[derive(Clone, Debug)]
    pub struct Mesh {
        attributes: BTreeMap<MeshVertexAttributeId, (MeshVertexAttribute, VertexAttributeValues)>,
        indices: Option<Indices>,
    }

    const fn attribute(id: u64, format: VertexFormat) -> MeshVertexAttribute {
        MeshVertexAttribute { id: MeshVertexAttributeId(id), format }
    }

    impl Mesh {
        pub const ATTRIBUTE_POSITION: MeshVertexAttribute = attribute(0, VertexFormat::Float32x3);
        pub const ATTRIBUTE_NORMAL: MeshVertexAttribute = attribute(1, VertexFormat::Float32x3);
        pub const ATTRIBUTE_UV_0: MeshVertexAttribute = attribute(2, VertexFormat::Float32x2);
        pub const ATTRIBUTE_COLOR: MeshVertexAttribute = attribute(5, VertexFormat::Float32x4);

        pub fn new(_: PrimitiveTopology, _: RenderAssetUsages) -> Self {
            Mesh { attributes: BTreeMap::new(), indices: None }
        }
        pub fn insert_attribute(&mut self, attribute: MeshVertexAttribute, values: impl Into<VertexAttributeValues>) {
            self.attributes.insert(attribute.id, (attribute, values.into()));
        }
        pub fn attribute(&self, id: impl Into<MeshVertexAttributeId>) -> Option<&VertexAttributeValues> {
            self.attributes.get(&id.into()).map(|(_, values)| values)
        }
        pub fn attribute_mut(&mut self, id: impl Into<MeshVertexAttributeId>) -> Option<&mut VertexAttributeValues> {
            self.attributes.get_mut(&id.into()).map(|(_, values)| values)
        }
        pub fn attributes_mut(&mut self) -> impl Iterator<Item = (&MeshVertexAttribute, &mut VertexAttributeValues)> {
            self.attributes.values_mut().map(|(attribute, values)| (&*attribute, values))
        }
        /// The shortest attribute decides, as in Bevy.
        pub fn count_vertices(&self) -> usize {
            self.attributes.values().map(|(_, values)| values.len()).min().unwrap_or(0)
        }
        pub fn insert_indices(&mut self, indices: Indices) {
            self.indices = Some(indices);
        }
        pub fn indices(&self) -> Option<&Indices> {
            self.indices.as_ref()
        }
        pub fn indices_mut(&mut self) -> Option<&mut Indices> {
            self.indices.as_mut()
        }
    }
}
