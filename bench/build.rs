//! Links the proved library: libexports.a of the folder `FLEECELATCH_LIB`, else of ../crates/exports/out.

use std::{env, path::PathBuf};

fn main() {
    println!("cargo::rerun-if-env-changed=FLEECELATCH_LIB");
    let folder = env::var_os("FLEECELATCH_LIB").map_or_else(
        || PathBuf::from(env!("CARGO_MANIFEST_DIR")).join("../crates/exports/out"),
        PathBuf::from,
    );
    let archive = folder.join("libexports.a");
    println!("cargo::rerun-if-changed={}", archive.display());
    if !archive.exists() {
        println!(
            "cargo::error={} is absent: run `rt lib` in the repository's folder crates/exports, or name the archive's folder in FLEECELATCH_LIB",
            archive.display()
        );
        return;
    }
    println!("cargo::rustc-link-search=native={}", folder.display());
    println!("cargo::rustc-link-lib=static=exports");
}
