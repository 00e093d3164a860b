//! The calls on lists that you lend: a mapped graphics buffer, a part of a larger list, a list kept from frame to frame. Nothing is
//! allocated or copied; the lists have the library's layout.
//!
//! Per quad: the attributes of four vertices, a list each; six triangle words; one link (which cell and face it is). Per cell: six slots
//! (which vertex each face's quad starts at, [`NO_QUAD`] for none). The room in quads is what the shortest list but the slots holds. The
//! colours count only if the registry has colour. If it has none, they are neither read nor written, and may be `&mut []`.
//!
//! Nothing in the lists says whether they have colour. A registry without colour leaves the colours of a mesh that has them where they
//! are, out of step with what moves. One with colour takes what stands in the list for colours.
//!
//! ```
//! use nalumoce::lent::{self, Room, UpdateError};
//! # use nalumoce::*;
//! # let mut registry = VoxelRegistry::new([1.0; 3], [0.0; 3], false);
//! # let texture = Face::ALL.map(|face| (face, [0, 0]));
//! # let cube = generate_voxel_mesh([1.0; 3], [1, 1], texture, [0.0; 3], 0.0, None, 1.0)?;
//! # let air = registry.add(VoxelMesh::Null, Sides::NONE)?;
//! # let rock = registry.add(VoxelMesh::NormalCube(&cube), Sides::ALL)?;
//! let (dims, grid) = ((2, 1, 1), [rock, rock]);
//! let (mut positions, mut normals, mut uvs) = ([[0.0; 3]; 16 * 4], [[0.0; 3]; 16 * 4], [[0.0; 2]; 16 * 4]);
//! let (mut triangles, mut links, mut slots) = ([0; 16 * 6], [0; 16], [0; 2 * 6]);
//! let mut room = Room {
//!     positions: &mut positions,
//!     normals: &mut normals,
//!     uvs: &mut uvs,
//!     colours: &mut [],
//!     triangles: &mut triangles,
//!     links: &mut links,
//!     slots: &mut slots,
//! };
//! let quads = lent::mesh_grid(dims, &[], &grid, &registry, MeshingAlgorithm::Culling, &mut room)?;
//! assert_eq!(quads, 10);
//!
//! let mut log = Log::new();
//! log.push(VoxelChange::Broken, 0, rock, neighboring_voxels(&grid, 0, dims));
//! match lent::update_mesh(&mut room, quads, dims, &log, &registry) {
//!     Ok(updated) => lent::check_mesh(dims, &[], &[air, rock], &registry, room.lists(), updated.quads)?,
//!     // nothing has changed
//!     Err(UpdateError::Refused(refusal)) => return Err(refusal),
//!     // the entries before are done: the count of quads from before the call is no longer the mesh's
//!     Err(UpdateError::NoRoom { entry, kept }) => panic!("no room at entry {entry}, {} quads now", kept.quads),
//! }
//! # Ok::<(), Refusal>(())
//! ```

use crate::raw::{self, Tested, Told};
use crate::{Dimensions, Face, Log, MeshingAlgorithm, Reason, Refusal, VoxelRegistry};
use std::fmt;

/// A slot without a quad.
pub const NO_QUAD: u32 = u32::MAX;

/// The lists of a mesh, lent to be written.
#[derive(Debug)]
pub struct Room<'a> {
    /// Per quad four.
    pub positions: &'a mut [[f32; 3]],
    /// Per quad four.
    pub normals: &'a mut [[f32; 3]],
    /// Per quad four.
    pub uvs: &'a mut [[f32; 2]],
    /// Per quad four; without colour anything.
    pub colours: &'a mut [[f32; 4]],
    /// Per quad six words.
    pub triangles: &'a mut [u32],
    /// Per quad one word.
    pub links: &'a mut [u32],
    /// Per cell six words.
    pub slots: &'a mut [u32],
}

impl Room<'_> {
    /// The same lists, to be read.
    pub fn lists(&self) -> Lists<'_> {
        Lists {
            positions: self.positions,
            normals: self.normals,
            uvs: self.uvs,
            colours: self.colours,
            triangles: self.triangles,
            links: self.links,
            slots: self.slots,
        }
    }
}

/// The lists of a mesh, lent to be read.
#[derive(Clone, Copy, Debug)]
pub struct Lists<'a> {
    /// Per quad four.
    pub positions: &'a [[f32; 3]],
    /// Per quad four.
    pub normals: &'a [[f32; 3]],
    /// Per quad four.
    pub uvs: &'a [[f32; 2]],
    /// Per quad four; without colour anything.
    pub colours: &'a [[f32; 4]],
    /// Per quad six words.
    pub triangles: &'a [u32],
    /// Per quad one word.
    pub links: &'a [u32],
    /// Per cell six words.
    pub slots: &'a [u32],
}

/// What an update did.
#[derive(Clone, Copy, Debug, PartialEq, Eq)]
pub struct Updated {
    /// The quads of the mesh after it.
    pub quads: usize,
    /// How many times a quad was given another place.
    pub moved: u64,
}

/// Why an update stopped. It is no [`Refusal`], which would say that nothing has changed: after `NoRoom` the mesh has `kept.quads`
/// quads, and goes by no other count.
#[derive(Clone, Copy, Debug, PartialEq, Eq)]
pub enum UpdateError {
    /// Refused: nothing has changed.
    Refused(Refusal),
    /// NO_ROOM: the entries before `entry` are done, completely; that one and those after it are not. [`Log::drop_first`] leaves these.
    NoRoom {
        /// The entry that asks for more room than there is.
        entry: usize,
        /// The mesh as the entries before it left it.
        kept: Updated,
    },
}

impl fmt::Display for UpdateError {
    fn fmt(&self, f: &mut fmt::Formatter) -> fmt::Result {
        match self {
            UpdateError::Refused(refusal) => refusal.fmt(f),
            UpdateError::NoRoom { entry, kept } => {
                write!(f, "{} at {entry} (the entries before it are done, and left {} quads)", Reason::NoRoom.name(), kept.quads)
            }
        }
    }
}

impl std::error::Error for UpdateError {}

/// Meshes a grid and answers its number of quads. Spare room stays as it was.
///
/// # Errors
///
/// BAD_SIZE, BAD_TYPES, BAD_NUMBER, NOT_A_CUBE, BAD_CELL, SHORT_ROOM, NO_ROOM, tried in this order; nothing has changed then.
pub fn mesh_grid(
    dims: Dimensions,
    outer_layer: &[Face],
    grid: &[u8],
    reg: &VoxelRegistry,
    meshing_algorithm: MeshingAlgorithm,
    room: &mut Room,
) -> Result<usize, Refusal> {
    let told = raw::mesh_grid(dims, outer_layer, grid, reg, meshing_algorithm, room);
    told.refusal().map_or(Ok(told.quads as usize), Err)
}

/// Mends a mesh of `quads` quads by a log, as Meshem does. The places freed at its end are zeroed; other spare room stays as it was.
/// For logs that put slabs see [`mend_mesh`].
///
/// # Errors
///
/// BAD_SIZE, BAD_TYPES, BAD_NUMBER, NOT_A_CUBE, SHORT_ROOM, BAD_COUNT, BAD_LINKS, BAD_TRIANGLES, BAD_ENTRY, tried in this order, and
/// then nothing has changed; or [`UpdateError::NoRoom`].
pub fn update_mesh(
    room: &mut Room,
    quads: usize,
    dims: Dimensions,
    log: &Log,
    reg: &VoxelRegistry,
) -> Result<Updated, UpdateError> {
    update_by_bytes(room, quads, dims, log.as_bytes(), Tested::Opposite, reg)
}

/// Mends a mesh of `quads` quads by a log, slabs too. [`mend_mesh`](crate::mend_mesh) says what sets it apart from [`update_mesh`], and
/// what is proved of it.
///
/// # Errors
///
/// Those of [`update_mesh`].
pub fn mend_mesh(
    room: &mut Room,
    quads: usize,
    dims: Dimensions,
    log: &Log,
    reg: &VoxelRegistry,
) -> Result<Updated, UpdateError> {
    update_by_bytes(room, quads, dims, log.as_bytes(), Tested::Itself, reg)
}

pub(crate) fn update_by_bytes(
    room: &mut Room,
    quads: usize,
    dims: Dimensions,
    log: &[u8],
    tested: Tested,
    reg: &VoxelRegistry,
) -> Result<Updated, UpdateError> {
    let told = raw::update_mesh(room, quads, dims, log, tested, reg);
    let updated = |told: &Told| Updated { quads: told.quads as usize, moved: told.moved };
    match told.refusal() {
        None => Ok(updated(&told)),
        Some(Refusal { reason: Reason::NoRoom, place }) => {
            Err(UpdateError::NoRoom { entry: place as usize, kept: updated(&told) })
        }
        Some(refusal) => Err(UpdateError::Refused(refusal)),
    }
}

/// Says whether lists hold the culled mesh of a grid with `quads` quads: exactly the faces that show, each once, every float bit for
/// bit, and an index that agrees. Their order is free.
///
/// # Errors
///
/// What is wrong: BAD_SIZE, BAD_TYPES, BAD_NUMBER, NOT_A_CUBE, BAD_CELL, SHORT_ROOM, BAD_COUNT, BAD_LINKS, BAD_TRIANGLES, WRONG_SET,
/// WRONG_VERTEX, tried in this order.
pub fn check_mesh(
    dims: Dimensions,
    outer_layer: &[Face],
    grid: &[u8],
    reg: &VoxelRegistry,
    lists: Lists,
    quads: usize,
) -> Result<(), Refusal> {
    raw::check_mesh(dims, outer_layer, grid, reg, &lists, quads).refusal().map_or(Ok(()), Err)
}
