//! Links libmesh3d.a from the folder MESH3D_LIB_DIR, by default from target/lib of
//! the repository.

use std::{env, path::PathBuf};

const DEFAULT_FOLDER: &str = "../target/lib";

fn main() {
    println!("cargo::rerun-if-changed=build.rs");
    println!("cargo::rerun-if-env-changed=MESH3D_LIB_DIR");
    let here = PathBuf::from(env::var_os("CARGO_MANIFEST_DIR").unwrap_or_default());
    let folder = env::var_os("MESH3D_LIB_DIR").map_or(here.join(DEFAULT_FOLDER), PathBuf::from);
    let folder = folder.canonicalize().unwrap_or(folder);
    let archive = folder.join("libmesh3d.a");
    if !archive.is_file() {
        println!(
            "cargo::error=there is no {}: run `make` in the repository, or let MESH3D_LIB_DIR \
             name the folder that libmesh3d.a lies in",
            archive.display()
        );
        return;
    }
    println!("cargo::rerun-if-changed={}", archive.display());
    println!("cargo::rustc-link-search=native={}", folder.display());
    println!("cargo::rustc-link-lib=static=mesh3d");
}
