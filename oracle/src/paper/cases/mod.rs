//! The cases of the stored vector files, with this reading's answers. Everything is made from
//! fixed seeds, so that making the files again gives the same bytes.

pub mod diffs;
pub mod edit_files;
pub mod lists;
pub mod programs;
mod utf8;

use std::fmt::Display;

use super::refusal::Refusal;
use crate::vectors::Vectors;

/// Numbers that are no code points.
const NO_CODE_POINTS: [u32; 4] = [0xD800, 0xDFFF, 0x11_0000, u32::MAX];

/// A range of this length, so many times, is 131,070 code points.
const PIECE: usize = 771;
const PIECES: usize = 170;

/// Every stored file with its name.
pub fn files() -> Vec<(&'static str, Vectors)> {
    vec![
        ("replay.txt", diffs::replay()),
        ("read.txt", edit_files::read()),
        ("write.txt", edit_files::write()),
        ("utf8_read.txt", utf8::read()),
        ("utf8_pairs.txt", utf8::pairs()),
        ("utf8_write.txt", utf8::write()),
        ("merge_files.txt", programs::merge_files()),
        ("outputs_refused.txt", lists::outputs_refused()),
        ("checks.txt", lists::checks()),
    ]
}

/// The line of an answer: 0 and its counts, or the refusal's number and values.
fn answer(vectors: &mut Vectors, counts: Result<Vec<usize>, Refusal>) {
    match counts {
        Ok(counts) => vectors.line(&[&[0], &counts[..]].concat()),
        Err(refusal) => vectors.line(&[&[refusal.number()], &refusal.values()[..]].concat()),
    }
}

/// An answer of one part, and the part; a refused one has an empty line.
fn one_part<A: Display>(vectors: &mut Vectors, outcome: Result<Vec<A>, Refusal>) {
    let count = outcome.as_ref().map(|part| vec![part.len()]);
    answer(vectors, count.map_err(|refusal| *refusal));
    vectors.line(&outcome.unwrap_or_default());
}

/// An answer of two parts, records of these strides, and the parts.
fn two_parts<A: Display, B: Display>(
    vectors: &mut Vectors,
    outcome: Result<(Vec<A>, Vec<B>), Refusal>,
    strides: [usize; 2],
) {
    let counts = outcome
        .as_ref()
        .map(|(first, second)| vec![first.len() / strides[0], second.len() / strides[1]]);
    answer(vectors, counts.map_err(|refusal| *refusal));
    let (first, second) = outcome.unwrap_or_default();
    vectors.line(&first);
    vectors.line(&second);
}

/// Copies with one number replaced: each place by each of the values that it does not hold.
fn replaced<'a, N: Copy + PartialEq>(
    numbers: &'a [N],
    values: &'a [N],
) -> impl Iterator<Item = Vec<N>> + 'a {
    (0..numbers.len()).flat_map(move |place| {
        let others = values.iter().filter(move |&&value| value != numbers[place]);
        others.map(move |&value| {
            let mut copy = numbers.to_vec();
            copy[place] = value;
            copy
        })
    })
}

/// The code points of a plain text.
fn points(text: &str) -> Vec<u32> {
    text.chars().map(u32::from).collect()
}
