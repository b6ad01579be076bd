//! Finds `libtablegull.a` and has it linked.
//!
//! The folder is the one that `TABLEGULL_LIB` names, or else
//! `../target/staticlib`. With the archive found, the cfg `has_archive` is set
//! and the crate has its safe calls. Without it the crate still builds, with
//! the reference implementation alone, so that the reference can be tested
//! before there is an archive.

use std::env;
use std::path::{Path, PathBuf};

const ARCHIVE: &str = "libtablegull.a";

fn main() {
    println!("cargo:rerun-if-changed=build.rs");
    println!("cargo:rerun-if-env-changed=TABLEGULL_LIB");
    println!("cargo:rustc-check-cfg=cfg(has_archive)");

    find_programs();

    let named = env::var_os("TABLEGULL_LIB").map(PathBuf::from);
    let folder = named.clone().unwrap_or_else(default_folder);
    let archive = folder.join(ARCHIVE);

    // Cargo takes a watched file that is missing for changed, so an archive
    // that arrives later is noticed by the next build.
    println!("cargo:rerun-if-changed={}", archive.display());

    if archive.is_file() {
        link(&folder);
    } else if named.is_some() {
        // Whoever names a folder wants the archive: leaving it out quietly
        // would pass for a comparison that never ran.
        eprintln!(
            "TABLEGULL_LIB names {}, and there is no {ARCHIVE} in it.",
            folder.display()
        );
        std::process::exit(1);
    } else {
        println!(
            "cargo:warning=There is no {ARCHIVE} in {}: the crate is built with its reference \
             implementation alone, and nothing is compared with the archive. Make the archive \
             with `tools/archive`, or name its folder in TABLEGULL_LIB.",
            folder.display()
        );
    }
}

fn default_folder() -> PathBuf {
    in_repository("target/staticlib")
}

fn in_repository(path: &str) -> PathBuf {
    let package = env::var_os("CARGO_MANIFEST_DIR").expect("cargo names the package's folder");
    Path::new(&package).join("..").join(path)
}

/// Sets the cfg `has_programs` where one of the proved programs is there, which the
/// tests run: in the folder that `TABLEGULL_BIN` names, or else where each is built,
/// as `../crates/trail_report/out/trail_report`.
fn find_programs() {
    println!("cargo:rerun-if-env-changed=TABLEGULL_BIN");
    println!("cargo:rustc-check-cfg=cfg(has_programs)");
    let named = env::var_os("TABLEGULL_BIN").map(PathBuf::from);
    let programs = ["trail_report", "trail_clauses"].map(|name| match &named {
        Some(folder) => folder.join(name),
        None => in_repository(&format!("crates/{name}/out/{name}")),
    });
    for program in &programs {
        println!("cargo:rerun-if-changed={}", program.display());
    }
    if programs.iter().any(|program| program.is_file()) {
        println!("cargo:rustc-cfg=has_programs");
    }
}

fn link(folder: &Path) {
    println!("cargo:rustc-cfg=has_archive");
    println!("cargo:rustc-link-search=native={}", folder.display());
    println!("cargo:rustc-link-lib=static=tablegull");
}
