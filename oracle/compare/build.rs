//! Links the proved library: libexports.a of the folder `FLEECELATCH_LIB`, else of
//! ../../crates/exports/out, where `rt lib` writes it.

use std::{env, path::PathBuf};

fn main() {
    println!("cargo::rerun-if-env-changed=FLEECELATCH_LIB");
    let folder = env::var_os("FLEECELATCH_LIB").map_or_else(
        || PathBuf::from(env!("CARGO_MANIFEST_DIR")).join("../../crates/exports/out"),
        PathBuf::from,
    );
    let archive = folder.join("libexports.a");
    println!("cargo::rerun-if-changed={}", archive.display());

    if !archive.exists() {
        println!(
            "cargo::error=there is no {}: run `rt lib` in the folder crates/exports of the \
             repository, or name the archive's folder in FLEECELATCH_LIB",
            archive.display()
        );
        return;
    }
    println!("cargo::rustc-link-search=native={}", folder.display());
    println!("cargo::rustc-link-lib=static=exports");
}
