//! Replay, plain and covering: the bench sheets, every refusal, extreme numbers, damaged copies.

use super::super::diff;
use super::super::refusal::AMPLE;
use super::{NO_CODE_POINTS, PIECE, PIECES, one_part, points, replaced};
use crate::flat::{NUMBER, TEXT};
use crate::random::Random;
use crate::vectors::Vectors;

/// Numbers at the edges of what an item may hold.
const EXTREMES: [i64; 14] = [
    i64::MIN,
    i64::MIN + 1,
    -(1 << 32),
    -6,
    -1,
    0,
    1,
    2,
    3,
    5,
    6,
    1 << 32,
    i64::MAX - 1,
    i64::MAX,
];

pub fn replay() -> Vectors {
    let mut vectors = Vectors::new();
    let mut case = |original: &[u32], items: &[i64], text: &[u32]| {
        vectors.line(original);
        vectors.line(items);
        vectors.line(text);
        for call in [diff::replay, diff::covering_replay] {
            one_part(&mut vectors, call(original, items, text, AMPLE));
        }
    };
    let number = |number| [NUMBER, number, 0];

    // The bench sheets, and nothing at all.
    let abcde = points("abcde");
    case(
        &abcde,
        &[number(2), [TEXT, 0, 1], number(-2)].concat(),
        &points("X"),
    );
    case(&abcde, &[number(3), number(-3)].concat(), &[]);
    case(&abcde, &number(i64::MIN), &[]);
    case(&[], &[], &[]);

    // Numbers alone and in pairs.
    let five = [1, 2, 3, 4, 5];
    for first in (-6..=6).chain(EXTREMES) {
        case(&five, &number(first), &[]);
        case(&[], &number(first), &[]);
    }
    for first in [-3, -1, 0, 2, 5] {
        for second in [i64::MIN, -3, -2, 0, 1, 3, 5, i64::MAX] {
            case(&five, &[number(first), number(second)].concat(), &[]);
        }
    }

    // Ranges in and outside of a text of 3.
    for start in EXTREMES {
        for length in EXTREMES {
            case(&[], &[TEXT, start, length], &[6, 7, 8]);
        }
    }

    // Each number of a diff replaced by each extreme; each number of its texts by no code point.
    let items = [number(2), [TEXT, 0, 1], number(-2), [TEXT, 1, 2], number(1)].concat();
    let text = [6, 7, 8];
    let values = [i64::MIN, -1, 0, 1, 2, 4, 6, i64::MAX];
    for damaged in replaced(&items, &values) {
        case(&five, &damaged, &text);
    }
    for damaged in replaced(&five, &NO_CODE_POINTS) {
        case(&damaged, &items, &text);
    }
    for damaged in replaced(&text, &NO_CODE_POINTS) {
        case(&five, &items, &damaged);
    }

    // What is left of a slice past its whole items is not lent.
    for length in 0..items.len() {
        case(&five, &items[..length], &text);
    }

    // The order 3, 4, 1, 6, 9: all five at once, then one less each time.
    let too_much = [TEXT, 0, PIECE as i64].repeat(PIECES);
    let bad_texts = [[0xD800].to_vec(), vec![9; PIECE - 1]].concat();
    let good_texts = vec![9; PIECE];
    let one_more = [TEXT, 0, 1];
    let unknown = [2, 0, 0];
    let asks = number(6);
    case(
        &five,
        &[&too_much[..], &one_more, &unknown, &asks].concat(),
        &bad_texts,
    );
    case(
        &five,
        &[&too_much[..], &unknown, &asks].concat(),
        &bad_texts,
    );
    case(
        &five,
        &[&too_much[..], &unknown, &asks].concat(),
        &good_texts,
    );
    case(&five, &[&too_much[..], &asks].concat(), &good_texts);
    case(&[0x61, 0], &[asks, unknown].concat(), &[]);
    case(
        &[0x61, 0xDC00, 0x110000],
        &[asks, unknown].concat(),
        &[0xDFFF],
    );
    case(&[0x61], &[asks, unknown].concat(), &[0x61, 0xDFFF]);
    case(&five, &[number(1), asks, number(i64::MIN)].concat(), &[]);

    // Ranges outside and unknown kinds add no text, so these pass no size.
    case(
        &[],
        &[[TEXT, 0, 131_071], [TEXT, 131_070, 1]].concat(),
        &text,
    );
    case(&[], &[[2, 0, 131_071], [TEXT, 0, 3]].concat(), &text);

    let mut random = Random::new(51);
    for _ in 0..70 {
        let (original, items, text) = good(&mut random);
        case(&original, &items, &text);
    }
    for _ in 0..70 {
        let (original, mut items, text) = good(&mut random);
        if !items.is_empty() {
            let place = random.below(items.len() as u64) as usize;
            items[place] = pick(&mut random);
        }
        case(&original, &items, &text);
    }
    // Nothing but extremes.
    for _ in 0..50 {
        let items: Vec<i64> = (0..random.below(13)).map(|_| pick(&mut random)).collect();
        case(&five, &items, &text);
    }
    vectors
}

fn pick(random: &mut Random) -> i64 {
    EXTREMES[random.below(EXTREMES.len() as u64) as usize]
}

/// A diff that asks no more than there is; it may leave some of the original.
pub fn good(random: &mut Random) -> (Vec<u32>, Vec<i64>, Vec<u32>) {
    let original: Vec<u32> = (0..random.below(10)).map(|_| letter(random)).collect();
    let text: Vec<u32> = (0..random.below(6)).map(|_| letter(random)).collect();
    let mut left = original.len() as u64;
    let mut items = Vec::new();
    for _ in 0..random.below(7) {
        if random.below(3) == 0 {
            let start = random.below(text.len() as u64 + 1);
            let length = random.below(text.len() as u64 - start + 1);
            items.extend([TEXT, start as i64, length as i64]);
        } else {
            let magnitude = random.below(left.min(4) + 1);
            left -= magnitude;
            let sign = 1 - 2 * random.below(2) as i64;
            items.extend([NUMBER, sign * magnitude as i64, 0]);
        }
    }
    if random.below(2) == 0 {
        items.extend([NUMBER, left as i64, 0]);
    }
    (original, items, text)
}

fn letter(random: &mut Random) -> u32 {
    match random.below(8) {
        0 => 0x10_FFFF,
        1 => 0xE000,
        other => 0x61 + other as u32,
    }
}
