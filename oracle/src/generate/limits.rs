//! Lists at document 01's size limits. They are not stored as vectors; the tests run them, and
//! `built` is built again by a program.

use crate::{
    flat::{DELETE, INSERT, OPERATION_STRIDE, RETAIN},
    generate::{JOINABLE, Merge, Raw, Tokens, lists::interleaved, text_length},
    random::Random,
};

pub const ORIGINAL: usize = 65_535;

/// What one list may have.
#[derive(Debug, Clone, Copy)]
pub struct Sizes {
    pub operations: usize,
    pub tokens: usize,
    pub text: usize,
    pub cursors: usize,
}

pub const MERGING: Sizes = Sizes {
    operations: 4_096,
    tokens: 8_192,
    text: 65_535,
    cursors: 256,
};

pub const OTHERWISE: Sizes = Sizes {
    operations: 8_192,
    tokens: 16_384,
    text: 131_070,
    cursors: 512,
};

/// Pairs that have all sizes at their limits, with a quarter inserts, with inserts alone, and
/// with one insert against many.
pub fn merges(random: &mut Random) -> Vec<Merge> {
    let inserts = [(1_024, 1_024), (4_096, 4_096), (1, 4_096), (4_095, 1)];
    let merge = |(left_inserts, right_inserts): (usize, usize)| {
        let tiled = left_inserts.max(right_inserts) < MERGING.operations;
        let original: Vec<u32> = match tiled {
            true => (0..ORIGINAL).map(|_| letter(random, 26)).collect(),
            false => Vec::new(),
        };
        let mut tokens = Tokens::default();
        let left = list(random, &mut tokens, original.len(), left_inserts, MERGING);
        let right = list(random, &mut tokens, original.len(), right_inserts, MERGING);
        let left_cursors = cursors(random, text_length(&tokens, &left), MERGING);
        let right_cursors = cursors(random, text_length(&tokens, &right), MERGING);

        Merge {
            original,
            tokens,
            left,
            right,
            left_cursors,
            right_cursors,
        }
    };

    inserts.map(merge).into()
}

/// A list for text, history and diff, with all sizes at their limits; it stands as `left`.
pub fn single(random: &mut Random) -> Merge {
    let original: Vec<u32> = (0..ORIGINAL).map(|_| letter(random, 26)).collect();
    let mut tokens = Tokens::default();
    let left = list(random, &mut tokens, original.len(), 4_096, OTHERWISE);
    let left_cursors = cursors(random, text_length(&tokens, &left), OTHERWISE);

    Merge {
        original,
        tokens,
        left,
        left_cursors,
        ..Merge::default()
    }
}

/// A raw list of 8,192 operations, 16,384 tokens and 131,070 code points.
pub fn raw(random: &mut Random) -> Raw {
    let mut tokens = Tokens::default();
    let mut operations = Vec::new();
    for place in 0..OTHERWISE.operations {
        let first = tokens.count();
        push_tokens(random, &mut tokens, place, OTHERWISE.operations, OTHERWISE);
        operations.extend([random.below(3) as usize, first, tokens.count() - first]);
    }

    Raw { operations, tokens }
}

pub fn list(
    random: &mut Random,
    tokens: &mut Tokens,
    length: usize,
    inserts: usize,
    sizes: Sizes,
) -> Vec<usize> {
    let tiles = (sizes.operations - inserts).min(length);
    let mut operations = Vec::new();
    let (mut consumed, mut inserted) = (0, 0);

    for (kind, length) in interleaved(random, length as u64, tiles as u64, inserts as u64) {
        if kind == INSERT {
            let first = tokens.count();
            push_tokens(random, tokens, inserted, inserts, sizes);
            operations.extend([kind, 0, 0, 0, first, tokens.count() - first]);
            inserted += 1;
        } else {
            operations.extend([kind, consumed, length, 0, 0, 0]);
            consumed += length;
        }
    }

    operations
}

/// The tokens of the insert at `place` out of `inserts`, when these share all tokens and all
/// text that a list may have. Two keys, so that overlaps are many.
fn push_tokens(
    random: &mut Random,
    tokens: &mut Tokens,
    place: usize,
    inserts: usize,
    sizes: Sizes,
) {
    for token in share(sizes.tokens, place, inserts) {
        let spelling: Vec<u32> = share(sizes.text, token, sizes.tokens)
            .map(|_| letter(random, 2))
            .collect();
        tokens.push(&spelling, random.below(2) as u32, JOINABLE);
    }
}

fn share(whole: usize, place: usize, places: usize) -> std::ops::Range<usize> {
    whole * place / places..whole * (place + 1) / places
}

fn letter(random: &mut Random, letters: u64) -> u32 {
    u32::from('a') + random.below(letters) as u32
}

pub fn cursors(random: &mut Random, text_length: usize, sizes: Sizes) -> Vec<usize> {
    (0..sizes.cursors)
        .flat_map(|identity| [identity, random.below(text_length as u64 + 1) as usize])
        .collect()
}

/// A pair with all sizes at their limits that a loop can build without a generator: half of the
/// operations are inserts of four tokens, the others are deletes and retains.
pub fn built() -> Merge {
    let tokens = built_tokens();
    let [left, right] = [0, 1].map(built_list);
    let [left_cursors, right_cursors] = [(0, &left), (1, &right)]
        .map(|(side, list)| built_cursors(side, text_length(&tokens, list)));

    Merge {
        original: vec![u32::from('a'); ORIGINAL],
        tokens,
        left,
        right,
        left_cursors,
        right_cursors,
    }
}

/// A number that looks like chance, below 2^31.
fn noise(place: usize) -> usize {
    const PRIME: usize = 2_147_483_647;
    let first = place % PRIME * 48_271 % PRIME;
    let second = (first ^ (first >> 15)) % PRIME;

    second * 69_621 % PRIME
}

/// Eight code points for each token, seven for the last of each list; two letters, so that
/// spellings are often alike for a while, and three keys.
fn built_tokens() -> Tokens {
    let mut tokens = Tokens {
        text: (0..2 * MERGING.text)
            .map(|place| u32::from(if noise(place) % 64 < 32 { 'a' } else { 'b' }))
            .collect(),
        ..Tokens::default()
    };
    let mut start = 0;
    for place in 0..2 * MERGING.tokens {
        let length = match place % MERGING.tokens == MERGING.tokens - 1 {
            true => 7,
            false => 8,
        };
        let key = noise(place + 200_000) / 64 % 3;
        tokens.over(start, length, key as u32, JOINABLE);
        start += length;
    }

    tokens
}

const BUILT_INSERTS: usize = MERGING.operations / 2;

fn built_list(side: usize) -> Vec<usize> {
    let mut operations = Vec::new();
    let (mut inserted, mut tiled) = (0, 0);
    for place in 0..MERGING.operations {
        let chance = noise(place + side * 10_000 + 400_000);
        if chance / 64 % (MERGING.operations - place) < BUILT_INSERTS - inserted {
            let first = side * MERGING.tokens + inserted * 4;
            operations.extend([INSERT, 0, 0, 0, first, 4]);
            inserted += 1;
        } else {
            let start = boundary(side, tiled);
            let length = boundary(side, tiled + 1) - start;
            let kind = if chance % 3 == 0 { DELETE } else { RETAIN };
            operations.extend([kind, start, length, 0, 0, 0]);
            tiled += 1;
        }
    }
    assert_eq!(operations.len(), OPERATION_STRIDE * MERGING.operations);

    operations
}

/// Where a delete or retain ends: every fourth at the same place in both lists.
fn boundary(side: usize, tile: usize) -> usize {
    match tile {
        0 => 0,
        2_048 => ORIGINAL,
        _ => {
            let of = match tile % 4 {
                0 => tile,
                _ => tile + side * 10_000 + 10_000,
            };
            tile * 32 - noise(of + 300_000) / 64 % 30 - 1
        }
    }
}

/// Cursors anywhere in the text of a list, unsorted.
fn built_cursors(side: usize, text_length: usize) -> Vec<usize> {
    (0..MERGING.cursors)
        .flat_map(|place| {
            let index = noise(place + side * 1_000 + 500_000) % (text_length + 1);
            [place + side * MERGING.cursors, index]
        })
        .collect()
}
