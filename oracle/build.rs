//! Links libexports.a from the folder MESHEM_LIB with the feature `library`, libplaced.a from MESHEM_PLACED with `placed`.

use std::env;

fn main() {
    println!("cargo:rerun-if-changed=build.rs");
    link("library", "MESHEM_LIB", "libexports.a");
    link("placed", "MESHEM_PLACED", "libplaced.a");
}

fn link(feature: &str, variable: &str, archive: &str) {
    println!("cargo:rerun-if-env-changed={variable}");
    if env::var_os(format!("CARGO_FEATURE_{}", feature.to_uppercase())).is_some() {
        let folder = env::var(variable).unwrap_or_else(|_| panic!("`{feature}` needs {variable}, the folder of {archive}"));
        println!("cargo:rustc-link-search=native={folder}");
        println!("cargo:rerun-if-changed={folder}/{archive}");
    }
}
