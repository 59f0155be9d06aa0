//! Random lists: elongated ones, made from raw lists, and free ones with an insert before a
//! delete, neighbouring inserts and split retains; equal keys with other spelling and other
//! length; tokens that do not join; cursors at every place.

use crate::{
    flat::{DELETE, INSERT, OPERATION_STRIDE, RETAIN, SPAN_STRIDE},
    generate::{JOINABLE, Merge, Raw, Tokens, text_length},
    random::Random,
};

/// How large a case may get.
#[derive(Debug, Clone, Copy)]
pub struct Shape {
    pub original: u64,
    /// Operations of the left and of the right list.
    pub operations: [u64; 2],
    pub tokens_an_insert: u64,
    pub keys: u64,
    pub cursors: u64,
}

pub const SMALL: Shape = Shape {
    original: 12,
    operations: [8, 8],
    tokens_an_insert: 3,
    keys: 3,
    cursors: 5,
};

/// Two lists whose merge still has at most 166 operations, a thousand numbers.
pub const MIDDLE: Shape = Shape {
    original: 150,
    operations: [100, 60],
    tokens_an_insert: 2,
    keys: 4,
    cursors: 20,
};

/// Long runs of inserts at one place or two, of few keys.
pub const DEEP: Shape = Shape {
    original: 1,
    operations: [36, 36],
    tokens_an_insert: 2,
    keys: 2,
    cursors: 30,
};

/// Both ends of each UTF-8 length and of the surrogates, and plain letters.
const CODE_POINTS: [u32; 14] = [
    0x61, 0x62, 0x63, 0x20, 0x0A, 0x00, 0x7F, 0x80, 0x7FF, 0x800, 0xD7FF, 0xE000, 0x1_0000,
    0x10_FFFF,
];

/// A merge whose lists are each elongated or free.
pub fn merge(random: &mut Random, shape: Shape) -> Merge {
    let mut case = Merge {
        original: original(random, shape),
        ..Merge::default()
    };
    // Raw retains and deletes spell themselves, so the lent text begins with the original.
    case.tokens.text = case.original.clone();

    case.left = list(random, shape, 0, &mut case.tokens, case.original.len());
    case.right = if random.below(8) == 0 {
        case.left.clone()
    } else {
        list(random, shape, 1, &mut case.tokens, case.original.len())
    };
    case.left_cursors = cursors(random, shape, text_length(&case.tokens, &case.left));
    case.right_cursors = cursors(random, shape, text_length(&case.tokens, &case.right));

    case
}

/// A raw list.
pub fn raw(random: &mut Random, shape: Shape) -> Raw {
    let mut tokens = Tokens {
        text: original(random, shape),
        ..Tokens::default()
    };
    let length = tokens.text.len();

    Raw {
        operations: raw_list(random, shape, 0, &mut tokens, length),
        tokens,
    }
}

fn original(random: &mut Random, shape: Shape) -> Vec<u32> {
    (0..random.below(shape.original + 1))
        .map(|_| code_point(random))
        .collect()
}

fn list(
    random: &mut Random,
    shape: Shape,
    side: usize,
    tokens: &mut Tokens,
    length: usize,
) -> Vec<usize> {
    if random.below(2) == 0 {
        elongated_list(random, shape, side, tokens, length)
    } else {
        free_list(random, shape, side, tokens, length)
    }
}

/// A list as elongating leaves it. Its retains and deletes carry their tokens' range, which a
/// merge does not look at.
fn elongated_list(
    random: &mut Random,
    shape: Shape,
    side: usize,
    tokens: &mut Tokens,
    length: usize,
) -> Vec<usize> {
    let raw = raw_list(random, shape, side, tokens, length);
    let elongated = tokens.elongated(&raw);

    let offset = tokens.count();
    tokens.spans.extend(elongated.spans);
    tokens.keys.extend(elongated.keys);
    tokens.joins.extend(elongated.joins);

    let mut operations = elongated.operations;
    for record in operations.chunks_exact_mut(OPERATION_STRIDE) {
        record[4] += offset;
    }

    operations
}

fn free_list(
    random: &mut Random,
    shape: Shape,
    side: usize,
    tokens: &mut Tokens,
    length: usize,
) -> Vec<usize> {
    let mut operations = Vec::new();
    let mut consumed = 0;

    for (kind, length) in skeleton(random, shape, side, length) {
        let side = random.below(2) as usize;
        if kind == INSERT {
            let (first, count) = insert_tokens(random, shape, tokens);
            operations.extend([kind, ignored(random), ignored(random), side, first, count]);
        } else {
            operations.extend([
                kind,
                consumed,
                length,
                side,
                ignored(random),
                ignored(random),
            ]);
            consumed += length;
        }
    }

    operations
}

fn raw_list(
    random: &mut Random,
    shape: Shape,
    side: usize,
    tokens: &mut Tokens,
    length: usize,
) -> Vec<usize> {
    let mut operations = Vec::new();
    let mut consumed = 0;

    for (kind, length) in skeleton(random, shape, side, length) {
        let (first, count) = if kind == INSERT {
            insert_tokens(random, shape, tokens)
        } else {
            let first = tokens.count();
            let cut = random.below(length as u64) as usize;
            for (start, length) in [(consumed, cut), (consumed + cut, length - cut)] {
                if length > 0 {
                    let key = random.below(shape.keys) as u32;
                    tokens.over(start, length, key, joins(random));
                }
            }
            consumed += length;

            (first, tokens.count() - first)
        };
        operations.extend([kind, first, count]);
    }

    operations
}

/// A random number of operations, retains and deletes first, the rest inserts.
fn skeleton(random: &mut Random, shape: Shape, side: usize, length: usize) -> Vec<(usize, usize)> {
    let length = length as u64;
    let operations = random.below(shape.operations[side] + 1);
    let tiles = match operations.min(length) {
        0 => length.min(1),
        most => 1 + random.below(most),
    };

    interleaved(random, length, tiles, operations.saturating_sub(tiles))
}

/// Kinds with lengths: as many retains and deletes as `tiles` says, which tile the original,
/// and inserts anywhere between.
pub(super) fn interleaved(
    random: &mut Random,
    length: u64,
    tiles: u64,
    inserts: u64,
) -> Vec<(usize, usize)> {
    let deletes_in_six = random.below(6);
    let (mut tiles_left, mut inserts_left) = (tiles, inserts);
    let mut consumed = 0;

    let mut answer = Vec::new();
    while inserts_left + tiles_left > 0 {
        if random.below(inserts_left + tiles_left) < inserts_left {
            answer.push((INSERT, 0));
            inserts_left -= 1;
            continue;
        }
        tiles_left -= 1;
        let rest = length - consumed - tiles_left;
        let taken = match tiles_left {
            0 => rest,
            _ => 1 + random.below(rest.min(2 * length / tiles)),
        };
        consumed += taken;
        let kind = if random.below(6) < deletes_in_six {
            DELETE
        } else {
            RETAIN
        };
        answer.push((kind, taken as usize));
    }

    answer
}

/// A run of tokens, new or, one time in three, lent before.
fn insert_tokens(random: &mut Random, shape: Shape, tokens: &mut Tokens) -> (usize, usize) {
    let count = 1 + random.below(shape.tokens_an_insert) as usize;
    if tokens.count() >= count && random.below(3) == 0 {
        let first = random.below((tokens.count() - count + 1) as u64) as usize;
        return (first, count);
    }

    let first = tokens.count();
    for _ in 0..count {
        insert_token(random, shape, tokens);
    }

    (first, count)
}

/// A token that spells what its key usually does, or else something of another length, or
/// what another token spells.
fn insert_token(random: &mut Random, shape: Shape, tokens: &mut Tokens) {
    let key = random.below(shape.keys) as u32;
    let joins = joins(random);
    match random.below(6) {
        0 => {
            let spelling: Vec<u32> = (0..1 + random.below(3))
                .map(|_| code_point(random))
                .collect();
            tokens.push(&spelling, key, joins);
        }
        1 if tokens.count() > 0 => {
            let span = SPAN_STRIDE * random.below(tokens.count() as u64) as usize;
            let (start, length) = (tokens.spans[span], tokens.spans[span + 1]);
            tokens.over(start as usize, length as usize, key, joins);
        }
        _ => tokens.push(&[u32::from('a') + key], key, joins),
    }
}

fn joins(random: &mut Random) -> u8 {
    match random.below(4) {
        0 => random.below(4) as u8,
        _ => JOINABLE,
    }
}

fn code_point(random: &mut Random) -> u32 {
    CODE_POINTS[random.below(CODE_POINTS.len() as u64) as usize]
}

/// What stands in a field that means nothing.
fn ignored(random: &mut Random) -> usize {
    match random.below(12) {
        0 => usize::MAX,
        1 | 2 => random.below(20) as usize,
        _ => 0,
    }
}

/// None, some anywhere, or one at each place; unsorted, identities in any order and repeated.
fn cursors(random: &mut Random, shape: Shape, text_length: usize) -> Vec<usize> {
    let places = text_length as u64 + 1;
    let mut indexes: Vec<u64> = match random.below(4) {
        0 => Vec::new(),
        1 if places <= 2 * shape.cursors => (0..places).collect(),
        _ => (0..random.below(shape.cursors + 1))
            .map(|_| random.below(places))
            .collect(),
    };
    for place in (1..indexes.len()).rev() {
        indexes.swap(place, random.below(place as u64 + 1) as usize);
    }

    indexes
        .into_iter()
        .flat_map(|index| {
            let identity = match random.below(8) {
                0 => random.next(),
                _ => random.below(10),
            };
            [identity as usize, index as usize]
        })
        .collect()
}
