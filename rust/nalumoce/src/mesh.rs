//! Meshes that own their lists and grow as they need.

use crate::lent::{self, Lists, Room, UpdateError, Updated, NO_QUAD};
use crate::raw::Tested;
use crate::{Dimensions, Face, Log, Reason, Refusal, Side, VoxelChange, VoxelRegistry};

/// The variants of the meshing algorithm.
#[derive(Clone, Copy, Debug, PartialEq, Eq)]
pub enum MeshingAlgorithm {
    /// All six faces of every cube.
    Naive,
    /// The faces that show.
    Culling,
}

/// A mesh: the attributes of its vertices, and triangles. The [`MeshMD`] made with it belongs to it, and no other does.
#[derive(Clone, Debug)]
pub struct Mesh {
    positions: Vec<[f32; 3]>,
    normals: Vec<[f32; 3]>,
    uvs: Vec<[f32; 2]>,
    /// None without colour.
    colours: Option<Vec<[f32; 4]>>,
    triangles: Vec<u32>,
    quads: usize,
}

impl Mesh {
    fn without_room(coloured: bool) -> Mesh {
        let colours = coloured.then(Vec::new);
        Mesh { positions: vec![], normals: vec![], uvs: vec![], colours, triangles: vec![], quads: 0 }
    }

    /// How many quads there are, of four vertices and two triangles each.
    pub fn quads(&self) -> usize {
        self.quads
    }

    /// The triangles, three vertex numbers each.
    pub fn indices(&self) -> &[u32] {
        &self.triangles[..6 * self.quads]
    }

    /// The position of each vertex.
    pub fn positions(&self) -> &[[f32; 3]] {
        &self.positions[..4 * self.quads]
    }

    /// The normal of each vertex.
    pub fn normals(&self) -> &[[f32; 3]] {
        &self.normals[..4 * self.quads]
    }

    /// The place in the atlas of each vertex.
    pub fn uvs(&self) -> &[[f32; 2]] {
        &self.uvs[..4 * self.quads]
    }

    /// The colour of each vertex, if they have one.
    pub fn colours(&self) -> Option<&[[f32; 4]]> {
        self.colours.as_ref().map(|colours| &colours[..4 * self.quads])
    }

    fn is_coloured(&self) -> bool {
        self.colours.is_some()
    }
}

/// What has to be kept beside a mesh to mend it: the index of its quads (their links and slots), and the log of changes.
#[derive(Clone, Debug)]
pub struct MeshMD {
    /// The dimensions of the grid, to be left as they are.
    pub dims: Dimensions,
    links: Vec<u32>,
    slots: Vec<u32>,
    log: Log,
}

impl MeshMD {
    /// Logs a change, as in Meshem: the cell, the voxel that was broken or put there, and what stands around it by face as the
    /// grid is at that moment ([`neighboring_voxels`](crate::neighboring_voxels)). [`update_mesh`] or [`mend_mesh`] does it.
    ///
    /// Meshem has no [`Replaced`](VoxelChange::Replaced). There a voxel that takes the place of another is `Broken` and then `Added`. Here one
    /// entry says it, with the former voxel:
    ///
    /// ```
    /// # use nalumoce::*;
    /// # let mut registry = VoxelRegistry::new([1.0; 3], [0.0; 3], false);
    /// # let texture = Face::ALL.map(|face| (face, [0, 0]));
    /// # let cube = generate_voxel_mesh([1.0; 3], [1, 1], texture, [0.0; 3], 0.0, None, 1.0)?;
    /// let clay = registry.add(VoxelMesh::NormalCube(&cube), Sides::ALL)?;
    /// let gravel = registry.add(VoxelMesh::NormalCube(&cube), Sides::NONE)?;
    /// let mut grid = [clay, clay];
    /// let (mut mesh, mut metadata) = mesh_grid((2, 1, 1), &[], &grid, &registry, MeshingAlgorithm::Culling)?;
    /// metadata.log(VoxelChange::Replaced { former: clay }, 0, gravel, neighboring_voxels(&grid, 0, metadata.dims));
    /// grid[0] = gravel;
    /// assert_eq!(update_mesh(&mut mesh, &mut metadata, &registry)?.quads, 11); // gravel covers nothing here: the clay's Left shows
    /// check_mesh(&mesh, &metadata, &[], &grid, &registry)?;
    /// # Ok::<(), Refusal>(())
    /// ```
    pub fn log(&mut self, voxel_change: VoxelChange, voxel_index: usize, voxel: u8, neighboring_voxels: [Option<u8>; 6]) {
        self.log.push(voxel_change, voxel_index, voxel, neighboring_voxels);
    }

    /// Logs what becomes of a cell's own sides, by face. First the quads of those to [`Hide`](Side::Hide) go, then those to [`Draw`](Side::Draw)
    /// get one from the voxel, if it is a cube; what stands around is not asked. It is `CullFaces` and then `AddFaces`, in one entry, which
    /// is done completely or not at all.
    ///
    /// ```
    /// # use nalumoce::*;
    /// # let mut registry = VoxelRegistry::new([1.0; 3], [0.0; 3], false);
    /// # let texture = Face::ALL.map(|face| (face, [0, 0]));
    /// # let cube = generate_voxel_mesh([1.0; 3], [1, 1], texture, [0.0; 3], 0.0, None, 1.0)?;
    /// # registry.add(VoxelMesh::Null, Sides::NONE)?;
    /// # let rock = registry.add(VoxelMesh::NormalCube(&cube), Sides::ALL)?;
    /// let (mut mesh, mut metadata) = mesh_grid((2, 1, 1), &[], &[rock, rock], &registry, MeshingAlgorithm::Culling)?;
    /// let mut sides = [Side::Keep; 6];
    /// sides[Face::Left as usize] = Side::Hide; // the chunk on the left has come
    /// sides[Face::Right as usize] = Side::Draw;
    /// metadata.log_sides(0, rock, sides);
    /// assert_eq!(update_mesh(&mut mesh, &mut metadata, &registry)?.quads, 10);
    /// assert_eq!(metadata.get_quad_index(Face::Left, 0), None);
    /// assert_eq!(metadata.get_quad_index(Face::Right, 0), Some(36)); // the last of ten
    /// # Ok::<(), Refusal>(())
    /// ```
    pub fn log_sides(&mut self, voxel_index: usize, voxel: u8, sides: [Side; 6]) {
        self.log.push_sides(voxel_index, voxel, sides);
    }

    /// Logs all changes of another log, in their order, after those logged already. [`Log::touching`] says when the logs of two may be logged in
    /// any order.
    pub fn log_all(&mut self, log: &Log) {
        self.log.push_all(log);
    }

    /// The changes logged and not yet done.
    pub fn logged(&self) -> &Log {
        &self.log
    }

    /// Forgets the changes logged.
    pub fn clear_log(&mut self) {
        self.log.clear();
    }

    /// The first vertex of a cell's quad on a face, if it is drawn.
    pub fn get_quad_index(&self, face: Face, voxel_index: usize) -> Option<u32> {
        let slot = voxel_index.checked_mul(6)?.checked_add(face as usize)?;
        self.slots.get(slot).copied().filter(|&vertex| vertex != NO_QUAD)
    }

    /// Whose face a quad is.
    pub fn cell_and_face(&self, mesh: &Mesh, quad: usize) -> Option<(usize, Face)> {
        let link = *self.links[..mesh.quads.min(self.links.len())].get(quad)?;
        let face = Face::try_from(5usize.checked_sub((link >> 29) as usize)?).ok()?;
        Some(((link & 0x1FFF_FFFF) as usize, face))
    }
}

/// The lists of a mesh and its index as one room.
fn room<'a>(mesh: &'a mut Mesh, metadata: &'a mut MeshMD) -> Room<'a> {
    Room {
        positions: &mut mesh.positions,
        normals: &mut mesh.normals,
        uvs: &mut mesh.uvs,
        colours: mesh.colours.as_deref_mut().unwrap_or_default(),
        triangles: &mut mesh.triangles,
        links: &mut metadata.links,
        slots: &mut metadata.slots,
    }
}

fn set_room(mesh: &mut Mesh, metadata: &mut MeshMD, quads: usize) {
    mesh.positions.resize(4 * quads, [0.0; 3]);
    mesh.normals.resize(4 * quads, [0.0; 3]);
    mesh.uvs.resize(4 * quads, [0.0; 2]);
    if let Some(colours) = &mut mesh.colours {
        colours.resize(4 * quads, [0.0; 4]);
    }
    mesh.triangles.resize(6 * quads, 0);
    metadata.links.resize(quads, 0);
}

/// The most cells that a grid may have.
const MOST_CELLS: usize = 1 << 20;

/// Meshes a grid of type codes. Culling does not draw the faces of the grid's edge that `outer_layer` names; naive meshing draws all.
///
/// ```
/// # use nalumoce::*;
/// # let mut registry = VoxelRegistry::new([1.0; 3], [0.0; 3], false);
/// # let texture = Face::ALL.map(|face| (face, [0, 0]));
/// # let cube = generate_voxel_mesh([1.0; 3], [1, 1], texture, [0.0; 3], 0.0, None, 1.0)?;
/// # registry.add(VoxelMesh::Null, Sides::NONE)?;
/// # let rock = registry.add(VoxelMesh::NormalCube(&cube), Sides::ALL)?;
/// let (mesh, metadata) = mesh_grid((2, 1, 1), &[], &[rock, rock], &registry, MeshingAlgorithm::Culling)?;
/// assert_eq!(mesh.quads(), 10);
/// assert_eq!(metadata.get_quad_index(Face::Right, 0), None);
/// # Ok::<(), Refusal>(())
/// ```
///
/// # Errors
///
/// BAD_SIZE, BAD_TYPES, BAD_NUMBER, NOT_A_CUBE, BAD_CELL, tried in this order.
pub fn mesh_grid(
    dims: Dimensions,
    outer_layer: &[Face],
    grid: &[u8],
    reg: &VoxelRegistry,
    meshing_algorithm: MeshingAlgorithm,
) -> Result<(Mesh, MeshMD), Refusal> {
    let cells = grid.len().min(MOST_CELLS);
    let mut mesh = Mesh::without_room(reg.coloured);
    let mut metadata = MeshMD { dims, links: vec![], slots: vec![0; 6 * cells], log: Log::new() };
    let mut quads = 16 + cells / 4;
    loop {
        set_room(&mut mesh, &mut metadata, quads);
        match lent::mesh_grid(dims, outer_layer, grid, reg, meshing_algorithm, &mut room(&mut mesh, &mut metadata)) {
            Ok(quads) => {
                mesh.quads = quads;
                return Ok((mesh, metadata));
            }
            Err(Refusal { reason: Reason::NoRoom, .. }) => quads *= 2,
            Err(refusal) => return Err(refusal),
        }
    }
}

/// Refuses a registry with colour for a mesh without, and the reverse: the registry's cubes have the wrong length for the mesh.
fn same_attributes(mesh: &Mesh, reg: &VoxelRegistry) -> Result<(), Refusal> {
    let fits = mesh.is_coloured() == reg.coloured;
    fits.then_some(()).ok_or(Refusal { reason: Reason::BadTypes, place: 255 })
}

/// Mends a mesh by the changes logged, as Meshem does, and empties the log. The lists grow if they must.
///
/// Added and Replaced take the neighbour's quad at a face if the new voxel covers the opposite of that face. That is Meshem's rule, and wrong
/// for slabs: [`mend_mesh`] has the right one.
///
/// ```
/// # use nalumoce::*;
/// # let mut registry = VoxelRegistry::new([1.0; 3], [0.0; 3], false);
/// # let texture = Face::ALL.map(|face| (face, [0, 0]));
/// # let cube = generate_voxel_mesh([1.0; 3], [1, 1], texture, [0.0; 3], 0.0, None, 1.0)?;
/// # let air = registry.add(VoxelMesh::Null, Sides::NONE)?;
/// # let rock = registry.add(VoxelMesh::NormalCube(&cube), Sides::ALL)?;
/// let mut grid = [rock, rock];
/// let (mut mesh, mut metadata) = mesh_grid((2, 1, 1), &[], &grid, &registry, MeshingAlgorithm::Culling)?;
/// metadata.log(VoxelChange::Broken, 0, rock, neighboring_voxels(&grid, 0, metadata.dims));
/// grid[0] = air;
/// let updated = update_mesh(&mut mesh, &mut metadata, &registry)?;
/// assert_eq!((updated.quads, updated.moved), (6, 14));
/// check_mesh(&mesh, &metadata, &[], &grid, &registry)?;
/// # Ok::<(), Refusal>(())
/// ```
///
/// Metadata, registry and mesh have to belong together, and an update notices only some that don't. It compares the numbers of quads
/// and reads no vertex: metadata of another mesh with as many quads, or a registry with other cubes, is taken, and the mesh is then
/// ruined. [`check_mesh`] finds that out, and the mesh has to be made again.
///
/// A side that a log shows at the grid's edge is drawn, whatever outer layer the mesh was made with.
///
/// # Errors
///
/// BAD_TYPES, place 255, for a registry with colour and a mesh without, or the reverse, tried first; BAD_TYPES, BAD_NUMBER or
/// NOT_A_CUBE for a registry that would not mesh; BAD_COUNT or BAD_LINKS for metadata of a mesh with another number of quads; BAD_ENTRY
/// for a log that names what isn't there; BAD_SIZE, SHORT_ROOM or BAD_LINKS if [`MeshMD::dims`] were changed to what can't be. Mesh and
/// log are then as they were.
pub fn update_mesh(mesh: &mut Mesh, metadata: &mut MeshMD, reg: &VoxelRegistry) -> Result<Updated, Refusal> {
    update_testing(mesh, metadata, Tested::Opposite, reg)
}

/// Mends a mesh by the changes logged, slabs too, and empties the log.
///
/// It is [`update_mesh`] but for one thing: Added and Replaced take the neighbour's quad at a face if the new voxel covers that face itself. So
/// a slab that covers its underside hides the ground beneath it, and nothing above it.
///
/// ```
/// # use nalumoce::*;
/// # let texture = Face::ALL.map(|face| (face, [0, 0]));
/// # let cube = generate_voxel_mesh([1.0; 3], [1, 1], texture, [0.0; 3], 0.0, None, 1.0)?;
/// # let half = generate_voxel_mesh([1.0, 0.5, 1.0], [1, 1], texture, [0.0, -0.25, 0.0], 0.0, None, 1.0)?;
/// # let mut registry = VoxelRegistry::new([1.0; 3], [0.0; 3], false);
/// # let air = registry.add(VoxelMesh::Null, Sides::NONE)?;
/// # let rock = registry.add(VoxelMesh::NormalCube(&cube), Sides::ALL)?;
/// # let slab = registry.add(VoxelMesh::NormalCube(&half), Sides::from_fn(|side| side == Face::Bottom))?;
/// let mut grid = [rock, air];
/// let (mut mesh, mut metadata) = mesh_grid((1, 2, 1), &[], &grid, &registry, MeshingAlgorithm::Culling)?;
/// metadata.log(VoxelChange::Added, 1, slab, neighboring_voxels(&grid, 1, metadata.dims));
/// grid[1] = slab;
/// assert_eq!(mend_mesh(&mut mesh, &mut metadata, &registry)?.quads, 10); // update_mesh leaves 11
/// check_mesh(&mesh, &metadata, &[], &grid, &registry)?;
/// # Ok::<(), Refusal>(())
/// ```
///
/// Use this one, unless you have to get Meshem's meshes quad for quad. If every cube that a log puts covers opposite sides alike, as
/// full cubes do, the two do the same.
///
/// It has a name of its own, and is no setting of the metadata or the registry, so that Meshem's name does what Meshem does, and a
/// call shows which of the two it is. A setting would have to be made again for each chunk, and one forgotten would not be noticed.
///
/// What is proved of the library: a mesh that passes [`check_mesh`] with no outer layer passes it again for the new grid, if the log is
/// of Added, Broken and Replaced alone, each entry true of the grid at its moment, where Added puts a cube into a cell that held a Null covering
/// nothing, Broken leaves the lowest such type, and Replaced names what the cell held and puts a cube. Of [`update_mesh`] that is proved if the
/// cubes put cover opposite sides alike.
///
/// # Errors
///
/// Those of [`update_mesh`].
pub fn mend_mesh(mesh: &mut Mesh, metadata: &mut MeshMD, reg: &VoxelRegistry) -> Result<Updated, Refusal> {
    update_testing(mesh, metadata, Tested::Itself, reg)
}

fn update_testing(mesh: &mut Mesh, metadata: &mut MeshMD, tested: Tested, reg: &VoxelRegistry) -> Result<Updated, Refusal> {
    same_attributes(mesh, reg)?;
    let log = std::mem::take(&mut metadata.log);
    let (mut done, mut moved) = (0, 0);
    loop {
        let (dims, quads, rest) = (metadata.dims, mesh.quads, &log.as_bytes()[Log::ENTRY * done..]);
        match lent::update_by_bytes(&mut room(mesh, metadata), quads, dims, rest, tested, reg) {
            Ok(updated) => {
                mesh.quads = updated.quads;
                return Ok(Updated { moved: moved + updated.moved, ..updated });
            }
            Err(UpdateError::NoRoom { entry, kept }) => {
                mesh.quads = kept.quads;
                done += entry;
                moved += kept.moved;
                set_room(mesh, metadata, 2 * kept.quads + 16);
            }
            Err(UpdateError::Refused(refusal)) => {
                metadata.log = log;
                return Err(refusal);
            }
        }
    }
}

/// Says whether a mesh is the culled mesh of a grid; [`lent::check_mesh`] says what that means.
///
/// # Errors
///
/// BAD_TYPES, place 255, for a registry with colour and a mesh without, or the reverse, tried first; then what is wrong, and where.
pub fn check_mesh(mesh: &Mesh, metadata: &MeshMD, outer_layer: &[Face], grid: &[u8], reg: &VoxelRegistry) -> Result<(), Refusal> {
    same_attributes(mesh, reg)?;
    let lists = Lists {
        positions: &mesh.positions,
        normals: &mesh.normals,
        uvs: &mesh.uvs,
        colours: mesh.colours.as_deref().unwrap_or_default(),
        triangles: &mesh.triangles,
        links: &metadata.links,
        slots: &metadata.slots,
    };
    lent::check_mesh(metadata.dims, outer_layer, grid, reg, lists, mesh.quads)
}
