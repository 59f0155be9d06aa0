//! Inputs of any size, from fixed seeds.

use oracle::{
    flat::{DELETE, INSERT, RETAIN},
    generate::{JOINABLE, Merge, Raw, Tokens, text_length},
    random::Random,
};

/// What one list has.
#[derive(Debug, Clone, Copy)]
pub struct Sizes {
    pub original: usize,
    pub operations: usize,
    /// Of the operations, those that insert.
    pub inserts: usize,
    pub tokens: usize,
    pub text: usize,
    pub cursors: usize,
    /// Different keys: few make many overlaps.
    pub keys: u64,
}

impl Sizes {
    /// The limits of one list of a merge, an eighth to all of them.
    pub fn merging(eighths: usize) -> Self {
        Self {
            original: 65_535 * eighths / 8,
            operations: 512 * eighths,
            inserts: 128 * eighths,
            tokens: 1_024 * eighths,
            text: 65_535 * eighths / 8,
            cursors: 32 * eighths,
            keys: 2,
        }
    }

    /// The limits of a list for text, history and diff.
    pub fn otherwise(eighths: usize) -> Self {
        let Self { original, .. } = Self::merging(eighths);
        Self {
            original,
            ..Self::merging(2 * eighths)
        }
    }
}

/// Two lists of one original.
pub fn merge(seed: u64, left: Sizes, right: Sizes) -> Merge {
    assert_eq!(left.original, right.original);
    let random = &mut Random::new(seed);
    let mut case = Merge {
        original: letters(random, left.original, 26),
        ..Merge::default()
    };
    case.left = list(random, &mut case.tokens, left);
    case.right = list(random, &mut case.tokens, right);
    case.left_cursors = cursors(random, &case.tokens, &case.left, left.cursors);
    case.right_cursors = cursors(random, &case.tokens, &case.right, right.cursors);

    case
}

/// One list, as the left one.
pub fn single(seed: u64, sizes: Sizes) -> Merge {
    let nothing = Sizes {
        operations: 0,
        inserts: 0,
        tokens: 0,
        text: 0,
        cursors: 0,
        ..sizes
    };

    merge(seed, sizes, nothing)
}

/// A raw list of so many operations, a third of each kind, all of its tokens joinable or none.
pub fn raw(seed: u64, operations: usize, tokens: usize, text: usize, joins: u8) -> Raw {
    let random = &mut Random::new(seed);
    let mut list = Raw::default();
    for place in 0..operations {
        let first = list.tokens.count();
        push_tokens(
            random,
            &mut list.tokens,
            share(tokens, place, operations),
            tokens,
            text,
            26,
            joins,
        );
        list.operations
            .extend([random.below(3) as usize, first, list.tokens.count() - first]);
    }

    list
}

fn list(random: &mut Random, tokens: &mut Tokens, sizes: Sizes) -> Vec<usize> {
    let tiles = sizes.operations - sizes.inserts;
    let mut operations = Vec::new();
    let (mut tiled, mut inserted, mut consumed) = (0, 0, 0);
    while tiled + inserted < sizes.operations {
        let left = sizes.operations - tiled - inserted;
        if (random.below(left as u64) as usize) < sizes.inserts - inserted {
            let first = tokens.count();
            push_tokens(
                random,
                tokens,
                share(sizes.tokens, inserted, sizes.inserts),
                sizes.tokens,
                sizes.text,
                sizes.keys,
                JOINABLE,
            );
            operations.extend([INSERT, 0, 0, 0, first, tokens.count() - first]);
            inserted += 1;
        } else {
            tiled += 1;
            let end = share(sizes.original, tiled - 1, tiles).end;
            let end = match tiled == tiles {
                true => end,
                false => end - random.below((sizes.original / tiles) as u64) as usize,
            };
            let kind = match random.below(3) {
                0 => DELETE,
                _ => RETAIN,
            };
            operations.extend([kind, consumed, end - consumed, 0, 0, 0]);
            consumed = end;
        }
    }

    operations
}

/// These tokens out of `all`, which share `text` code points.
fn push_tokens(
    random: &mut Random,
    tokens: &mut Tokens,
    places: std::ops::Range<usize>,
    all: usize,
    text: usize,
    keys: u64,
    joins: u8,
) {
    for place in places {
        let spelling = letters(random, share(text, place, all).len(), 26);
        tokens.push(&spelling, random.below(keys) as u32, joins);
    }
}

fn share(whole: usize, place: usize, places: usize) -> std::ops::Range<usize> {
    whole * place / places..whole * (place + 1) / places
}

pub fn letters(random: &mut Random, count: usize, letters: u64) -> Vec<u32> {
    (0..count)
        .map(|_| u32::from('a') + random.below(letters) as u32)
        .collect()
}

/// Cursors anywhere in a list's text, unsorted.
fn cursors(random: &mut Random, tokens: &Tokens, list: &[usize], count: usize) -> Vec<usize> {
    let places = text_length(tokens, list) as u64 + 1;

    (0..count)
        .flat_map(|identity| [identity, random.below(places) as usize])
        .collect()
}
