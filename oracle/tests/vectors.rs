//! The stored vectors are the ones the generator writes, byte for byte.

use oracle::vectors::{accepted, folder};

#[test]
fn stored_vectors_are_the_generators() {
    let mut bytes = 0;
    for (name, vectors) in accepted::files() {
        let stored = std::fs::read_to_string(folder().join(name)).expect("the file is stored");
        assert!(
            stored == vectors.as_str(),
            "{name} differs: run the binary `vectors`"
        );
        let longest = match name {
            "overlap.txt" => accepted::LONGEST_OVERLAP,
            _ => accepted::LONGEST,
        };
        assert!(vectors.longest_line() <= longest);
        bytes += vectors.len();
    }
    assert!(bytes < 700_000);
}

/// A program's input may not be a link, so two programs have their own copy of one input.
#[test]
fn the_programs_of_outputs_have_the_stored_vectors() {
    let read =
        |path: std::path::PathBuf| std::fs::read_to_string(path).expect("the file is stored");
    let outputs = read(folder().join("outputs.txt")) + &read(folder().join("outputs_refused.txt"));
    for program in ["apply_vectors", "to_diff_vectors"] {
        let input = folder().join("../../crates").join(program).join("stdin");
        assert!(read(input) == outputs, "{program} differs");
    }
}
