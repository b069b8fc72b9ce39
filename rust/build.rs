//! Finds libplanner.a in the folder that `ROLLBACK_LIB` names, or where `c/archive.sh` puts it.

use std::env;
use std::path::PathBuf;

fn main() {
    println!("cargo:rerun-if-env-changed=ROLLBACK_LIB");
    // As cargo says it now: a copied tree may run this as it was built in another folder.
    let manifest = env::var_os("CARGO_MANIFEST_DIR").map_or_else(PathBuf::new, PathBuf::from);
    let usual = manifest.join("../target/staticlib");
    let folder = env::var_os("ROLLBACK_LIB").map_or(usual, PathBuf::from);
    let archive = folder.join("libplanner.a");
    println!("cargo:rerun-if-changed={}", archive.display());
    if !archive.is_file() {
        eprintln!("{} is missing.", archive.display());
        eprintln!("Run `c/archive.sh` in the repository's root,");
        eprintln!("or set ROLLBACK_LIB to the archive's folder.");
        std::process::exit(1);
    }
    println!("cargo:rustc-link-search=native={}", folder.display());
    println!("cargo:rustc-link-lib=static=planner");
    // The benchmark links the archive to a C program too.
    println!("cargo:rustc-env=ROLLBACK_ARCHIVE={}", archive.display());
}
