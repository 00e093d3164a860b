//! Lays Meshem's sources out under OUT_DIR as they lie in its repository. They are read from the folder MESHEM_SRC, where
//! `src--src--util--mod.rs.txt` is `src/util/mod.rs`, and no byte of them is changed. One file is cut from that folder,
//! `src/util/compressed_voxel_grid.rs`; a stand-in takes its place.

use std::path::{Path, PathBuf};
use std::{env, fs};

const SOURCES: [&str; 11] = [
    "lib.rs",
    "adj.rs",
    "face.rs",
    "mesh_metadata.rs",
    "meshem.rs",
    "pbs.rs",
    "update.rs",
    "voxel_mesh.rs",
    "util/mod.rs",
    "util/direction.rs",
    "util/vav.rs",
];

fn main() {
    println!("cargo:rerun-if-env-changed=MESHEM_SRC");
    println!("cargo:rerun-if-changed=build.rs");
    let here = PathBuf::from(env::var("CARGO_MANIFEST_DIR").unwrap());
    let from = env::var("MESHEM_SRC").map_or(here.join("../../../shared/docs/src"), PathBuf::from);
    let to = PathBuf::from(env::var("OUT_DIR").unwrap()).join("meshem");
    for source in SOURCES {
        lay(&from.join(format!("src--src--{}.txt", source.replace('/', "--"))), &to.join(source));
    }
    lay(&here.join("src/compressed_voxel_grid.rs"), &to.join("util/compressed_voxel_grid.rs"));
}

fn lay(from: &Path, to: &Path) {
    println!("cargo:rerun-if-changed={}", from.display());
    let text = fs::read(from).unwrap_or_else(|error| panic!("MESHEM_SRC has no {}: {error}", from.display()));
    fs::create_dir_all(to.parent().unwrap()).unwrap();
    fs::write(to, text).unwrap();
}
