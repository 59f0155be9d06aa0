//! Lists and pairs of lists: good, damaged, at their limits, garbage.

use oracle::{
    flat::{CURSOR_STRIDE, OPERATION_STRIDE, SPAN_STRIDE},
    generate::{
        Merge, Tokens,
        limits::{self, ORIGINAL, Sizes},
        lists::{self, DEEP, MIDDLE, SMALL, Shape},
        sheets::{self, Cut},
        text_length,
    },
    paper::refusal::size,
    random::Random,
};

use crate::{
    damage::{damage, garbage, near_u32, near_usize},
    family::Part,
};

const LITTLE: Shape = Shape {
    original: 4,
    operations: [4, 4],
    tokens_an_insert: 2,
    keys: 2,
    cursors: 3,
};

const WORDS: sheets::Shape = sheets::Shape {
    cut: Cut::Words,
    items: (2, 8),
    vocabulary: 6,
    edits: 3,
    cursors: 4,
};

const LINES: sheets::Shape = sheets::Shape {
    cut: Cut::Lines,
    items: (3, 12),
    vocabulary: 8,
    edits: 3,
    cursors: 4,
};

/// A good pair.
pub fn good(random: &mut Random) -> Merge {
    match random.below(64) {
        0..=29 => lists::merge(random, LITTLE),
        30..=57 => lists::merge(random, SMALL),
        58 | 59 => sheets::merge(random, WORDS),
        60 | 61 => sheets::merge(random, LINES),
        62 => lists::merge(random, DEEP),
        _ => match random.below(8) {
            0 => lists::merge(random, MIDDLE),
            _ => lists::merge(random, SMALL),
        },
    }
}

/// One thing changed in what the left list uses, or the right one too.
pub fn spoil(random: &mut Random, merge: &mut Merge, both: bool) {
    let tokens = &mut merge.tokens;
    match random.below(if both { 13 } else { 9 }) {
        0..=3 => damage(random, &mut merge.left, OPERATION_STRIDE, near_usize),
        4 => damage(random, &mut merge.left_cursors, CURSOR_STRIDE, near_usize),
        5 => damage(random, &mut tokens.spans, SPAN_STRIDE, near_u32),
        6 => damage(random, &mut tokens.keys, 1, near_u32),
        7 => damage(random, &mut tokens.text, 1, near_u32),
        8 => damage(random, &mut merge.original, 1, near_u32),
        9..=11 => damage(random, &mut merge.right, OPERATION_STRIDE, near_usize),
        _ => damage(random, &mut merge.right_cursors, CURSOR_STRIDE, near_usize),
    }
}

/// A good pair with some things changed.
pub fn damaged(random: &mut Random, both: bool) -> Merge {
    let mut merge = match random.below(3) {
        0 => lists::merge(random, SMALL),
        _ => lists::merge(random, LITTLE),
    };
    for _ in 0..=random.below(3) {
        spoil(random, &mut merge, both);
    }
    merge
}

/// Numbers that were never a list.
pub fn nonsense(random: &mut Random) -> Merge {
    let number = |number| number as u32;
    let size = |number| number as usize;
    let mut merge = Merge {
        original: garbage(random, 5, number, near_u32),
        left: garbage(random, 20, size, near_usize),
        right: garbage(random, 20, size, near_usize),
        left_cursors: garbage(random, 6, size, near_usize),
        right_cursors: garbage(random, 6, size, near_usize),
        ..Merge::default()
    };
    merge.tokens.text = garbage(random, 6, number, near_u32);
    merge.tokens.spans = garbage(random, 12, number, near_u32);
    merge.tokens.keys = garbage(random, 6, number, near_u32);
    merge
}

/// Each size is small, or at its limit, one less or one more.
pub fn at_limits(random: &mut Random, limit: Sizes, both: bool) -> Merge {
    fn near(random: &mut Random, limit: usize, small: u64) -> usize {
        match random.below(3) {
            0 => limit - 1 + random.below(3) as usize,
            _ => random.below(small) as usize,
        }
    }

    let length = near(random, ORIGINAL, 60);
    let mut merge = Merge {
        original: (0..length).map(|_| 0x61 + random.below(3) as u32).collect(),
        ..Merge::default()
    };
    for left in [true, false] {
        if !left && !both {
            continue;
        }
        let operations = near(random, limit.operations, 40);
        let tokens = near(random, limit.tokens, 80);
        let sizes = Sizes {
            operations,
            tokens,
            text: near(random, limit.text, 200).max(tokens),
            cursors: near(random, limit.cursors, 8),
        };
        let most = operations.min(tokens);
        let inserts = match most {
            0 => 0,
            _ => (1 + random.below(most as u64) as usize)
                .max(operations.saturating_sub(length).min(most)),
        };
        let list = limits::list(random, &mut merge.tokens, length, inserts, sizes);
        let cursors = limits::cursors(random, text_length(&merge.tokens, &list), sizes);
        if left {
            (merge.left, merge.left_cursors) = (list, cursors);
        } else {
            (merge.right, merge.right_cursors) = (list, cursors);
        }
    }
    if random.below(2) == 0 {
        fold(random, &mut merge.tokens);
    }
    let text = &mut merge.tokens.text;
    if random.below(6) == 0 {
        // Text that no token spells.
        let lent = size::INSERTED_TEXT_LENT - 1 + random.below(3) as usize;
        text.resize(lent.max(text.len()), 0x7A);
    }
    if random.below(3) == 0 {
        spoil(random, &mut merge, both);
    }
    merge
}

/// Lets tokens spell the same text again and again, so that more is used than is lent.
pub fn fold(random: &mut Random, tokens: &mut Tokens) {
    let longest = tokens.spans.iter().skip(1).step_by(SPAN_STRIDE).max();
    let lent = longest.copied().unwrap_or(0) + random.below(100) as u32;
    for span in tokens.spans.chunks_exact_mut(SPAN_STRIDE) {
        span[0] %= lent - span[1] + 1;
    }
    tokens.text.truncate(lent as usize);
}

/// The parts of a pair.
pub fn parts(merge: &mut Merge) -> Vec<(&'static str, &mut dyn Part)> {
    vec![
        ("original", &mut merge.original),
        ("text", &mut merge.tokens.text),
        ("spans", &mut merge.tokens.spans),
        ("keys", &mut merge.tokens.keys),
        ("left", &mut merge.left),
        ("right", &mut merge.right),
        ("left cursors", &mut merge.left_cursors),
        ("right cursors", &mut merge.right_cursors),
    ]
}
