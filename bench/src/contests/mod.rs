//! The contests. Each is made at an eighth to all of its call's limits; `small` have what people write.

pub mod checks;
pub mod edit_files;
pub mod encoding;
pub mod lists;
pub mod overlap;
pub mod views;

use crate::clock::Contest;

/// Every contest whose input grows, at so many eighths of the limits; another seed gives other inputs.
pub fn growing(eighths: usize, seed: u64) -> Vec<Contest> {
    [
        overlap::contests(eighths, seed),
        encoding::contests(eighths, seed),
        lists::contests(eighths, seed),
        views::contests(eighths, seed),
        edit_files::contests(eighths, seed),
        checks::contests(eighths, seed),
    ]
    .into_iter()
    .flatten()
    .collect()
}

/// Contests on inputs of one size.
pub fn small() -> Vec<Contest> {
    [
        encoding::small(),
        lists::small(),
        views::small(),
        edit_files::small(),
    ]
    .into_iter()
    .flatten()
    .collect()
}

/// A number as people write it.
fn number(number: usize) -> String {
    let digits = number.to_string();
    let mut written = String::new();
    for (place, digit) in digits.chars().enumerate() {
        if place > 0 && (digits.len() - place).is_multiple_of(3) {
            written.push(',');
        }
        written.push(digit);
    }

    written
}

/// What a contest borrows lives as long as the program.
fn keep<T>(value: T) -> &'static T {
    Box::leak(Box::new(value))
}
