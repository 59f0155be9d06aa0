//! Writes the vector files that hold the answers of `oracle::paper`.

use oracle::{paper::cases, vectors};

fn main() -> std::io::Result<()> {
    let folder = vectors::folder();
    let mut total = 0;
    for (name, file) in cases::files() {
        file.save(&folder, name)?;
        println!("{name}: {} bytes", file.len());
        total += file.len();
    }
    println!("{total} bytes in all");
    Ok(())
}
