//! Links the proved archive, which `rt lib` writes in the repository's folder crates/exports.
use std::{env, fs, path::PathBuf};

fn main() {
    let package = PathBuf::from(env::var_os("CARGO_MANIFEST_DIR").expect("cargo names the package"));
    let out = PathBuf::from(env::var_os("OUT_DIR").expect("cargo names a folder to write to"));
    let archive = package.join("../../crates/exports/out/libexports.a");
    println!("cargo::rerun-if-changed={}", archive.display());
    if env::var("CARGO_CFG_TARGET_ARCH").as_deref() != Ok("x86_64") || env::var("CARGO_CFG_TARGET_OS").as_deref() != Ok("linux") {
        println!("cargo::error=the proved archive is built for x86-64 Linux only");
        return;
    }
    match fs::copy(&archive, out.join("libfleecelatch.a")) {
        Ok(_) => {
            println!("cargo::rustc-link-search=native={}", out.display());
            println!("cargo::rustc-link-lib=static=fleecelatch");
        }
        Err(why) => println!(
            "cargo::error=cannot read {} ({why}): run `rt lib` in the repository's folder crates/exports, which proves and builds it",
            archive.display()
        ),
    }
}
