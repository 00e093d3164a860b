#![doc = include_str!("../../README.md")]
#![deny(missing_docs, unsafe_code)]

mod abi;
mod face;
pub mod lent;
mod log;
mod mesh;
#[expect(unsafe_code, reason = "calls C, and lends floats as their bits")]
mod raw;
mod refusal;
mod registry;

pub use abi::MESHEM_ABI;
pub use face::{get_neighbor, neighboring_voxels, one_d_cords_safe, three_d_cords_arr_safe, Dimensions, Face, Sides};
pub use lent::Updated;
pub use log::{Log, Side, VoxelChange};
pub use mesh::{check_mesh, mend_mesh, mesh_grid, update_mesh, Mesh, MeshMD, MeshingAlgorithm};
pub use raw::meshem_abi;
pub use refusal::{Reason, Refusal};
pub use registry::{generate_voxel_mesh, Cube, VoxelMesh, VoxelRegistry};

#[cfg(doctest)]
#[doc = include_str!("../../../README.md")]
struct Readme;
