//! The four calls of the C interface, as the library and the plain reading of document 01 both answer them.

use crate::cases::Case;
use crate::entries::LEVEL;
use crate::rust::{CubeParameters, Types, Words};

/// 0 or the number of a refusal, its place, and the counts.
#[derive(Clone, Copy, Debug, Default, PartialEq, Eq)]
pub struct Answer {
    pub number: u32,
    pub place: u64,
    pub quads: u64,
    pub moved: u64,
}

pub trait Calls {
    fn generate_voxel_mesh(&self, parameters: &CubeParameters, out: &mut [u32]) -> Answer;
    fn mesh_grid(&self, case: &Case, room: &mut Words) -> Answer;
    fn update_mesh(&self, case: &Case, room: &mut Words, count: u64) -> Answer;
    fn check_mesh(&self, case: &Case, mesh: &Words, count: u64) -> Answer;

    /// Whether it takes the attributes in one list, as `room::joined` lays them out.
    fn takes_joined(&self) -> bool {
        false
    }

    /// The level whose log entries it takes, as `entries::at_level` has them.
    fn log_level(&self) -> u32 {
        LEVEL
    }
}

/// Document 01 in plain Rust.
pub struct Plain;

impl Calls for Plain {
    fn generate_voxel_mesh(&self, p: &CubeParameters, out: &mut [u32]) -> Answer {
        let cube = plain::Cube {
            d: p.d,
            atlas: p.atlas,
            texture: &p.texture,
            centre: p.centre,
            padding: p.padding,
            coloured: p.coloured,
            colour: p.colour,
            alpha: p.alpha,
        };
        plain::generate_voxel_mesh(&cube, out).map_or_else(refused, |()| Answer::default())
    }

    fn mesh_grid(&self, case: &Case, room: &mut Words) -> Answer {
        plain::mesh_grid(sizes(case), &case.outer, &case.grid, &types(&case.types), case.naive, &mut buffers(room))
            .map_or_else(refused, |quads| Answer { quads, ..Answer::default() })
    }

    fn update_mesh(&self, case: &Case, room: &mut Words, count: u64) -> Answer {
        updated(plain::update_mesh(&mut buffers(room), count, sizes(case), &case.log, case.tested, &types(&case.types)))
    }

    fn check_mesh(&self, case: &Case, mesh: &Words, count: u64) -> Answer {
        let held = plain::Held {
            positions: &mesh.positions,
            normals: &mesh.normals,
            uvs: &mesh.uvs,
            colours: &mesh.colours,
            triangles: &mesh.triangles,
            links: &mesh.links,
            slots: &mesh.slots,
        };
        plain::check_mesh(sizes(case), &case.outer, &case.grid, &types(&case.types), held, count)
            .map_or_else(refused, |()| Answer::default())
    }
}

/// The plain reading with another update, or another check.
pub struct Reading {
    pub update: fn(&Case, &mut Words, u64) -> Answer,
    pub check: fn(&Case, &Words, u64) -> Answer,
}

impl Reading {
    pub const PLAIN: Reading = Reading {
        update: |case, room, count| Plain.update_mesh(case, room, count),
        check: |case, mesh, count| Plain.check_mesh(case, mesh, count),
    };

    /// The update that is written for speed.
    pub const FAST: Reading = Reading {
        update: |case, room, count| {
            let log = plain::fast::Log { entries: &case.log, tested: case.tested };
            updated(plain::fast::update_mesh(&mut buffers(room), count, sizes(case), log, &types(&case.types)))
        },
        ..Reading::PLAIN
    };
}

impl Calls for Reading {
    fn generate_voxel_mesh(&self, parameters: &CubeParameters, out: &mut [u32]) -> Answer {
        Plain.generate_voxel_mesh(parameters, out)
    }
    fn mesh_grid(&self, case: &Case, room: &mut Words) -> Answer {
        Plain.mesh_grid(case, room)
    }
    fn update_mesh(&self, case: &Case, room: &mut Words, count: u64) -> Answer {
        (self.update)(case, room, count)
    }
    fn check_mesh(&self, case: &Case, mesh: &Words, count: u64) -> Answer {
        (self.check)(case, mesh, count)
    }
}

/// Whether the types are accepted.
pub fn accepted(t: &Types) -> bool {
    types(t).verdict().is_ok()
}

fn updated(answer: Result<plain::Updated, plain::Refusal>) -> Answer {
    answer.map_or_else(refused, |updated| {
        let number = updated.no_room.map_or(Answer::default(), refused);
        Answer { quads: updated.quads, moved: updated.moved, ..number }
    })
}

fn refused(plain::Refusal(number, place): plain::Refusal) -> Answer {
    Answer { number, place, ..Answer::default() }
}

fn sizes(case: &Case) -> plain::Sizes {
    let [width, height, length] = case.dims;
    plain::Sizes { width, height, length }
}

fn types(t: &Types) -> plain::Types<'_> {
    plain::Types { kinds: &t.kinds, covers: &t.covers, cubes: &t.cubes, coloured: t.coloured, d: t.d, centre: t.centre }
}

fn buffers(room: &mut Words) -> plain::Buffers<'_> {
    plain::Buffers {
        positions: &mut room.positions,
        normals: &mut room.normals,
        uvs: &mut room.uvs,
        colours: &mut room.colours,
        triangles: &mut room.triangles,
        links: &mut room.links,
        slots: &mut room.slots,
    }
}
