//! Links libexports.a: from the folder NALUMOCE_LIB if that is set, else from the repository's target/staticlib/native, where
//! tools/staticlib puts it if it isn't there yet. A library or a header of another level than this crate's stops the build.

#[path = "src/abi.rs"]
mod abi;

use abi::MESHEM_ABI;
use std::path::{Path, PathBuf};
use std::process::Command;
use std::{env, fs};

fn main() {
    println!("cargo:rerun-if-changed=build.rs");
    println!("cargo:rerun-if-changed=src/abi.rs");
    println!("cargo:rerun-if-env-changed=NALUMOCE_LIB");
    let folder = env::var_os("NALUMOCE_LIB").map_or_else(of_the_repository, PathBuf::from);
    let archive = folder.join("libexports.a");
    assert!(archive.is_file(), "there is no {}", archive.display());
    println!("cargo:rerun-if-changed={}", archive.display());
    println!("cargo:rustc-link-search=native={}", folder.display());
    println!("cargo:rustc-link-lib=static=exports");

    let header = manifest().join("../../include/meshem.h");
    if header.is_file() {
        println!("cargo:rerun-if-changed={}", header.display());
        stop_unless_ours(level_of_header(&header), &header);
    }
    if env::var("HOST") == env::var("TARGET") {
        stop_unless_ours(level_of_library(&folder), &archive);
    }
}

fn manifest() -> PathBuf {
    PathBuf::from(env::var_os("CARGO_MANIFEST_DIR").unwrap())
}

fn of_the_repository() -> PathBuf {
    let root = fs::canonicalize(manifest().join("../..")).expect("the repository's root");
    let folder = root.join("target/staticlib/native");
    if !folder.join("libexports.a").is_file() {
        let made = Command::new(root.join("tools/staticlib")).arg("exports").status();
        assert!(
            made.is_ok_and(|status| status.success()),
            "tools/staticlib failed: it needs the Rattle kit's rt, or set NALUMOCE_LIB"
        );
    }
    folder
}

fn stop_unless_ours(level: u32, whose: &Path) {
    assert!(level == MESHEM_ABI, "{} is of MESHEM_ABI {level}, and this crate of {MESHEM_ABI}", whose.display());
}

/// The number that the header defines; one that defines none is of level 1.
fn level_of_header(header: &Path) -> u32 {
    let text = fs::read_to_string(header).expect("the header");
    let number = text.lines().find_map(|line| line.strip_prefix("#define MESHEM_ABI "));
    number.map_or(1, |number| number.trim_end_matches('u').parse().expect("a number and u after MESHEM_ABI"))
}

/// What `meshem_abi` answers, asked by a program that is linked with the library as this crate will be.
fn level_of_library(folder: &Path) -> u32 {
    const ASK: &str = r#"extern "C" { fn meshem_abi() -> u32; } fn main() { print!("{}", unsafe { meshem_abi() }) }"#;
    let out = PathBuf::from(env::var_os("OUT_DIR").unwrap());
    let (source, program) = (out.join("level.rs"), out.join("level").with_extension(env::consts::EXE_EXTENSION));
    fs::write(&source, ASK).expect("a file in OUT_DIR");
    let linked = Command::new(env::var_os("RUSTC").unwrap())
        .args(env::var("CARGO_ENCODED_RUSTFLAGS").unwrap_or_default().split_terminator('\x1f'))
        .args(env::var("RUSTC_LINKER").map(|linker| format!("-Clinker={linker}")))
        .args(["--edition=2021", "-lstatic=exports", &format!("-Lnative={}", folder.display()), "-o"])
        .args([&program, &source])
        .output()
        .expect("rustc");
    assert!(
        linked.status.success(),
        "{}/libexports.a does not link, or lacks meshem_abi as one of MESHEM_ABI 1 does, and this crate is of {MESHEM_ABI}; \
         tools/staticlib makes the repository's anew\n{}",
        folder.display(),
        String::from_utf8_lossy(&linked.stderr)
    );
    let told = Command::new(program).output().expect("the program that asks for the level");
    String::from_utf8_lossy(&told.stdout).parse().expect("a level")
}
