//! The proved library beside the Rust: `bench` prints ratios, `bench growth` how cost grows with size.

mod clock;
mod contests;
mod edit_file;
mod growth;
mod inputs;
mod library;
mod ours;
mod rust;
mod speed;

use std::{env, process::ExitCode};

fn main() -> ExitCode {
    clock::keep_memory();
    let words: Vec<String> = env::args().skip(1).collect();
    match words.iter().map(String::as_str).collect::<Vec<_>>()[..] {
        [] => speed::print(""),
        ["growth"] => growth::print(),
        ["only", part] => speed::print(part),
        _ => {
            eprintln!("usage: bench [growth | only PART-OF-A-NAME]");
            return ExitCode::FAILURE;
        }
    }

    ExitCode::SUCCESS
}
