//! Writes the vector files of overlap, elongate, merge and outputs, and the answer at the merge's limits, under `vectors/`.

use oracle::vectors::{accepted, folder};

fn main() -> std::io::Result<()> {
    for (name, vectors) in accepted::files() {
        vectors.save(&folder(), name)?;
        println!("{name}: {} bytes", vectors.len());
    }

    Ok(())
}
