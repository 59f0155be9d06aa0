//! All small lists over an original, for searches that leave nothing out.

use crate::{
    flat::{DELETE, INSERT, RETAIN},
    generate::{JOINABLE, Tokens},
};

/// An insert as a range of `tokens()`.
pub type Insert = (usize, usize);

pub const A: Insert = (0, 1);
pub const B: Insert = (1, 1);
/// The key of a with another spelling and length.
pub const A_AS_XY: Insert = (2, 1);
/// a and b in one insert.
pub const A_B: Insert = (0, 2);

pub fn tokens() -> Tokens {
    let mut tokens = Tokens::default();
    for (spelling, key) in [("a", 1), ("b", 2), ("xy", 1)] {
        let spelling: Vec<u32> = spelling.chars().map(u32::from).collect();
        tokens.push(&spelling, key, JOINABLE);
    }

    tokens
}

/// All lists of at most `operations` operations that tile an original of `length` code points,
/// shorter lists first.
pub fn lists(length: usize, operations: usize, inserts: &[Insert]) -> Vec<Vec<usize>> {
    let mut answer = Vec::new();
    for count in 0..=operations {
        extend(&mut Vec::new(), 0, length, count, inserts, &mut answer);
    }

    answer
}

fn extend(
    list: &mut Vec<usize>,
    consumed: usize,
    length: usize,
    operations: usize,
    inserts: &[Insert],
    answer: &mut Vec<Vec<usize>>,
) {
    if operations == 0 {
        if consumed == length {
            answer.push(list.clone());
        }
        return;
    }

    let before = list.len();
    for taken in 1..=length - consumed {
        for kind in [RETAIN, DELETE] {
            list.extend([kind, consumed, taken, 0, 0, 0]);
            extend(
                list,
                consumed + taken,
                length,
                operations - 1,
                inserts,
                answer,
            );
            list.truncate(before);
        }
    }
    for (first, count) in inserts {
        list.extend([INSERT, 0, 0, 0, *first, *count]);
        extend(list, consumed, length, operations - 1, inserts, answer);
        list.truncate(before);
    }
}
