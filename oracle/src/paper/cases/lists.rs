//! Lists that are refused: every refusal at every position of small lists, damaged copies,
//! claims past every size, sizes that a claim alone passes, and two refusals at once.

use super::super::calls;
use super::super::lists::{ElongateRooms, List, MergeRooms, RawList, check_list, check_merge};
use super::super::refusal::AMPLE;
use super::{NO_CODE_POINTS, PIECE, PIECES, answer, replaced, two_parts};
use crate::flat::{
    CURSOR_STRIDE, DELETE, HISTORY_STRIDE, INSERT, ITEM_STRIDE, OPERATION_STRIDE, RETAIN, RIGHT,
    SPAN_STRIDE,
};
use crate::generate::{JOINABLE, Merge, Raw, Tokens};
use crate::random::Random;
use crate::vectors::Vectors;

/// Replacements for a number of an operation or a cursor.
const NUMBERS: [usize; 8] = [0, 1, 2, 3, 5, 1 << 32, 1 << 63, usize::MAX];

/// Replacements for a number of a token.
const SPANS: [u32; 6] = [0, 1, 2, 4, 1 << 31, u32::MAX];

/// The tokens: four that are good over their text, then one of length 0 and one outside it.
fn tokens() -> Tokens {
    let mut tokens = Tokens {
        text: vec![7, 8, 9],
        ..Tokens::default()
    };
    for (start, length) in [(0, 1), (1, 2), (0, 3), (2, 1), (1, 0), (2, 2)] {
        tokens.over(start, length, length as u32, JOINABLE);
    }
    tokens
}

const LENGTH_0: usize = 4;
const OUTSIDE: usize = 5;

/// The lists of a delete of 1, a retain of 2 and an insert of two tokens, in every order.
fn small_lists() -> Vec<Vec<usize>> {
    let delete = [DELETE, 0, 1, 0, 0, 0];
    let retain = [RETAIN, 0, 2, RIGHT, 0, 0];
    let insert = [INSERT, 0, 0, 0, 0, 2];
    [
        [delete, retain, insert],
        [delete, insert, retain],
        [retain, delete, insert],
        [retain, insert, delete],
        [insert, delete, retain],
        [insert, retain, delete],
    ]
    .into_iter()
    .map(|mut list| {
        let mut consumed = 0;
        for operation in list.iter_mut().filter(|operation| operation[0] != INSERT) {
            operation[1] = consumed;
            consumed += operation[2];
        }
        list.concat()
    })
    .collect()
}

/// Copies of an accepted list with one operation spoiled, each operation in each way: refusal 1,
/// refusal 2, and claims of tokens. `tokens` is the limit of claimed tokens.
fn spoiled(list: &[usize], tokens: usize) -> Vec<Vec<usize>> {
    let mut lists = Vec::new();
    for start in (0..list.len()).step_by(OPERATION_STRIDE) {
        let mut with = |changes: &[(usize, usize)]| {
            let mut copy = list.to_vec();
            for (field, value) in changes {
                copy[start + field] = *value;
            }
            lists.push(copy);
        };
        with(&[(0, 3)]);
        with(&[(0, usize::MAX), (5, usize::MAX)]);
        with(&[(3, 2)]);
        if list[start] == INSERT {
            with(&[(5, 0)]);
            with(&[(4, LENGTH_0), (5, 1)]);
            with(&[(4, OUTSIDE), (5, 1)]);
            with(&[(4, 6), (5, 1)]);
            with(&[(4, 3), (5, 4)]);
            with(&[(4, usize::MAX), (5, 2)]);
            for claim in [tokens, tokens + 1, 1 << 32, usize::MAX] {
                with(&[(4, 1), (5, claim)]);
            }
        } else {
            with(&[(2, 0)]);
            with(&[(1, list[start + 1] + 1)]);
            with(&[(2, list[start + 2] + 1)]);
            with(&[(2, usize::MAX)]);
            with(&[(2, 0usize.wrapping_sub(list[start + 1]))]);
        }
    }
    // An operation missing, and one twice.
    for start in (0..list.len()).step_by(OPERATION_STRIDE) {
        let (before, after) = list.split_at(start);
        lists.push([before, &after[OPERATION_STRIDE..]].concat());
        lists.push([before, &after[..OPERATION_STRIDE], after].concat());
    }
    // What is left past the whole operations is not lent.
    lists.extend(
        (0..list.len())
            .step_by(5)
            .map(|length| list[..length].to_vec()),
    );
    lists
}

/// Inserts that claim these numbers of tokens, before the list.
fn claims(counts: &[usize], list: &[usize]) -> Vec<usize> {
    let inserts: Vec<[usize; 6]> = counts
        .iter()
        .map(|&count| [INSERT, 0, 0, 0, 0, count])
        .collect();
    [&inserts.concat(), list].concat()
}

/// Claims whose sum is past the limit though no claim is, or is small only when it wraps.
fn sums_past(tokens: usize) -> [Vec<usize>; 6] {
    let half = 1 << 63;
    [
        vec![tokens - 2, 1],
        vec![tokens - 1, 2],
        vec![tokens / 2, tokens / 2, 1],
        vec![half, half],
        vec![usize::MAX, 1],
        vec![1 << 32, usize::MAX - (1 << 32) + 1],
    ]
}

fn merge_base() -> Merge {
    let lists = small_lists();
    Merge {
        original: vec![1, 2, 3],
        tokens: tokens(),
        left: lists[1].clone(),
        right: lists[3].clone(),
        left_cursors: vec![7, 5, 6, 0],
        right_cursors: vec![6, 1, 8, 5],
    }
}

pub fn merge_refused() -> Vectors {
    let mut vectors = Vectors::new();
    for merge in merges() {
        let outcome = calls::merge(
            &merge.lent(),
            List::left(&merge),
            List::right(&merge),
            MergeRooms::AMPLE,
        );
        let Err(refusal) = outcome else {
            continue;
        };
        merge_lines(&mut vectors, &merge);
        answer(&mut vectors, Err(refusal));
        blank(&mut vectors, 2);
    }
    vectors
}

/// Merges of which most are refused.
pub fn merges() -> Vec<Merge> {
    let mut merges = Vec::new();
    let mut case = |merge: &Merge| merges.push(merge.clone());

    let base = merge_base();
    let lists = small_lists();
    for (place, list) in lists.iter().enumerate() {
        for spoiled in spoiled(list, 8_192) {
            let mut merge = base.clone();
            // Three orders on the left, three on the right.
            *(if place % 2 == 0 {
                &mut merge.left
            } else {
                &mut merge.right
            }) = spoiled;
            case(&merge);
        }
    }
    for counts in sums_past(8_192) {
        case(&Merge {
            left: claims(&counts, &base.left),
            ..base.clone()
        });
        case(&Merge {
            right: claims(&counts, &base.right),
            ..base.clone()
        });
    }
    for damaged in damaged_lent(&base) {
        case(&damaged);
    }
    for cursors in replaced(&base.left_cursors, &[5, 6, 1 << 32, usize::MAX]) {
        case(&Merge {
            left_cursors: cursors.clone(),
            ..base.clone()
        });
        case(&Merge {
            right_cursors: cursors.clone(),
            ..base.clone()
        });
        case(&Merge {
            left_cursors: [&base.left_cursors[..], &cursors].concat(),
            right_cursors: cursors,
            ..base.clone()
        });
    }
    // Cursors: the last of 256 is past the end; one more is past the size.
    for count in [255, 256] {
        let cursors = [[1, 0].repeat(count), vec![2, 6]].concat();
        case(&Merge {
            left_cursors: cursors.clone(),
            ..base.clone()
        });
        case(&Merge {
            right_cursors: cursors,
            ..base.clone()
        });
    }
    // Inserted text: at the limit the list does not tile, past it the size is refused first.
    for more in [0, 1] {
        case(&Merge {
            left: much_text(PIECES / 2, more),
            ..merge_of_long_text()
        });
        case(&Merge {
            right: much_text(PIECES / 2, more),
            ..merge_of_long_text()
        });
    }

    // Two refusals at once, each pair.
    let defects: [fn(&mut Merge); 10] = [
        |merge| merge.left = claims(&[8_193], &merge.left),
        |merge| merge.right = claims(&[usize::MAX], &merge.right),
        |merge| merge.original[2] = 0xD800,
        |merge| merge.tokens.text[1] = 0x11_0000,
        |merge| merge.left[OPERATION_STRIDE + 3] = 2,
        |merge| merge.right[2 * OPERATION_STRIDE + 3] = 2,
        |merge| merge.left.truncate(2 * OPERATION_STRIDE),
        |merge| merge.right[2 * OPERATION_STRIDE + 1] = 3,
        |merge| merge.left_cursors[1] = 6,
        |merge| merge.right_cursors[3] = 6,
    ];
    for (place, first) in defects.iter().enumerate() {
        for second in &defects[..=place] {
            let mut merge = base.clone();
            first(&mut merge);
            second(&mut merge);
            case(&merge);
        }
    }

    let mut random = Random::new(71);
    for _ in 0..35 {
        let mut merge = base.clone();
        merge.left = lists[random.below(6) as usize].clone();
        merge.right = lists[random.below(6) as usize].clone();
        for _ in 0..=random.below(3) {
            let numbers = match random.below(4) {
                0 => &mut merge.left,
                1 => &mut merge.right,
                2 => &mut merge.left_cursors,
                _ => &mut merge.right_cursors,
            };
            damage(&mut random, numbers);
        }
        case(&merge);
    }
    merges
}

pub fn outputs_refused() -> Vectors {
    let mut vectors = Vectors::new();
    for merge in outputs() {
        let lent = merge.lent();
        let applied = calls::apply(&lent, List::left(&merge), AMPLE, AMPLE);
        if applied.is_ok() {
            continue;
        }
        let history = calls::apply_with_history(&lent, &merge.left, AMPLE, AMPLE);
        let diff = calls::to_diff(&lent, &merge.left, AMPLE, AMPLE);

        shared_lines(&mut vectors, &merge);
        vectors.line(&merge.left);
        vectors.line(&merge.left_cursors);
        two_parts(
            &mut vectors,
            applied.map(|applied| (applied.text, applied.cursors)),
            [1, CURSOR_STRIDE],
        );
        two_parts(
            &mut vectors,
            history.map(|history| (history.spans, history.text)),
            [HISTORY_STRIDE, 1],
        );
        two_parts(
            &mut vectors,
            diff.map(|diff| (diff.items, diff.text)),
            [ITEM_STRIDE, 1],
        );
    }
    vectors
}

/// Lists of which most are refused: the left ones, with their cursors.
pub fn outputs() -> Vec<Merge> {
    let mut outputs = Vec::new();
    let mut case = |merge: &Merge| outputs.push(merge.clone());

    let base = merge_base();
    let lists = small_lists();
    for list in &lists {
        for spoiled in spoiled(list, 16_384) {
            case(&Merge {
                left: spoiled,
                ..base.clone()
            });
        }
    }
    for counts in sums_past(16_384) {
        case(&Merge {
            left: claims(&counts, &base.left),
            ..base.clone()
        });
    }
    for damaged in damaged_lent(&base) {
        case(&damaged);
    }
    for (list, cursors) in lists
        .iter()
        .zip(replaced(&base.left_cursors, &[6, usize::MAX]))
    {
        case(&Merge {
            left: list.clone(),
            left_cursors: cursors,
            ..base.clone()
        });
    }
    for count in [511, 512] {
        case(&Merge {
            left_cursors: [[1, 0].repeat(count), vec![2, 6]].concat(),
            ..base.clone()
        });
    }
    for more in [0, 1] {
        case(&Merge {
            left: much_text(PIECES, more),
            ..merge_of_long_text()
        });
    }
    let mut random = Random::new(72);
    for _ in 0..50 {
        let mut merge = base.clone();
        merge.left = lists[random.below(6) as usize].clone();
        for _ in 0..=random.below(2) {
            damage(&mut random, &mut merge.left);
        }
        case(&merge);
    }
    outputs
}

/// The verdicts on two lists for merging, then on one list otherwise, by the same cases and the
/// accepted lists that they are made from. Sizes that take long lists are not stored.
pub fn checks() -> Vectors {
    let mut vectors = Vectors::new();
    let short = |merge: &Merge| {
        let longest = [
            merge.tokens.text.len(),
            merge.left_cursors.len(),
            merge.right_cursors.len(),
        ];
        longest.into_iter().all(|length| length < 100)
    };
    let base = merge_base();
    let two = [base.clone()].into_iter().chain(merges());
    for merge in two.filter(short) {
        vectors.line(&[2]);
        merge_lines(&mut vectors, &merge);
        let verdict = check_merge(
            &merge.lent(),
            List::left(&merge),
            List::right(&merge),
            MergeRooms::AMPLE,
        );
        answer(&mut vectors, verdict.map(|()| vec![]));
    }
    let good = small_lists().into_iter().map(|left| Merge {
        left,
        ..base.clone()
    });
    for mut merge in good.chain(outputs()).filter(short) {
        merge.right.clear();
        merge.right_cursors.clear();
        vectors.line(&[1]);
        merge_lines(&mut vectors, &merge);
        let verdict = check_list(&merge.lent(), List::left(&merge));
        answer(&mut vectors, verdict.map(|()| vec![]));
    }
    vectors
}

fn merge_lines(vectors: &mut Vectors, merge: &Merge) {
    shared_lines(vectors, merge);
    for numbers in [
        &merge.left,
        &merge.right,
        &merge.left_cursors,
        &merge.right_cursors,
    ] {
        vectors.line(numbers);
    }
}

/// The lines that all lists of a call share.
fn shared_lines(vectors: &mut Vectors, merge: &Merge) {
    for numbers in [
        &merge.original,
        &merge.tokens.text,
        &merge.tokens.spans,
        &merge.tokens.keys,
    ] {
        vectors.line(numbers);
    }
}

fn blank(vectors: &mut Vectors, lines: usize) {
    for _ in 0..lines {
        vectors.line::<usize>(&[]);
    }
}

/// One number replaced.
fn damage(random: &mut Random, numbers: &mut [usize]) {
    let place = random.below(numbers.len() as u64) as usize;
    numbers[place] = NUMBERS[random.below(NUMBERS.len() as u64) as usize];
}

/// Copies whose texts hold no code point, whose used tokens are others, or that lend fewer.
fn damaged_lent(base: &Merge) -> Vec<Merge> {
    let originals = replaced(&base.original, &NO_CODE_POINTS).map(|original| Merge {
        original,
        ..base.clone()
    });
    let tokens = damaged_tokens(&base.tokens, 2).into_iter();
    originals
        .chain(tokens.map(|tokens| Merge {
            tokens,
            ..base.clone()
        }))
        .collect()
}

/// The same for tokens alone; the first `used` of them are used.
fn damaged_tokens(base: &Tokens, used: usize) -> Vec<Tokens> {
    let mut damaged = Vec::new();
    let mut with = |change: &dyn Fn(&mut Tokens)| {
        let mut tokens = base.clone();
        change(&mut tokens);
        damaged.push(tokens);
    };
    for text in replaced(&base.text, &NO_CODE_POINTS) {
        with(&|tokens| tokens.text.clone_from(&text));
    }
    for spans in replaced(&base.spans[..used * SPAN_STRIDE], &SPANS) {
        with(&|tokens| tokens.spans.clone_from(&spans));
    }
    for count in 0..used * SPAN_STRIDE {
        with(&|tokens| tokens.spans.truncate(count));
    }
    for count in 0..used {
        with(&|tokens| tokens.keys.truncate(count));
        with(&|tokens| tokens.joins.truncate(count));
        with(&|tokens| tokens.text.truncate(count));
    }
    damaged
}

/// A token over all of a long text, and one over its first code point.
fn long_tokens() -> Tokens {
    let mut tokens = Tokens {
        text: vec![9; PIECE],
        ..Tokens::default()
    };
    tokens.over(0, PIECE, 1, JOINABLE);
    tokens.over(0, 1, 2, JOINABLE);
    tokens
}

fn merge_of_long_text() -> Merge {
    Merge {
        original: vec![1, 2, 3],
        tokens: long_tokens(),
        ..Merge::default()
    }
}

/// Inserts of the long token, then some of the short one.
fn much_text(long: usize, short: usize) -> Vec<usize> {
    [
        [INSERT, 0, 0, 0, 0, 1].repeat(long),
        [INSERT, 0, 0, 0, 1, 1].repeat(short),
    ]
    .concat()
}

pub fn elongate_refused() -> Vectors {
    let mut vectors = Vectors::new();
    let mut case = |raw: &Raw| {
        let tokens = &raw.tokens;
        let lent = RawList {
            operations: &raw.operations,
            spans: &tokens.spans,
            keys: &tokens.keys,
            joins: &tokens.joins,
            text: &tokens.text,
        };
        let Err(refusal) = calls::elongate(lent, ElongateRooms::AMPLE) else {
            return;
        };
        vectors.line(&raw.operations);
        vectors.line(&tokens.spans);
        vectors.line(&tokens.keys);
        vectors.line(&tokens.joins);
        vectors.line(&tokens.text);
        answer(&mut vectors, Err(refusal));
        blank(&mut vectors, 4);
    };

    let base = Raw {
        operations: [[DELETE, 0, 1], [INSERT, 1, 2], [RETAIN, 3, 1]].concat(),
        tokens: tokens(),
    };
    let with_operations = |operations| Raw {
        operations,
        ..base.clone()
    };
    for operations in replaced(&base.operations, &NUMBERS) {
        case(&with_operations(operations));
    }
    // At every place: an unknown kind with a claim, no tokens, bad tokens, claims at the limit.
    for start in [0, 3, 6] {
        for record in [
            [3, 0, usize::MAX],
            [DELETE, 0, 0],
            [RETAIN, LENGTH_0, 1],
            [DELETE, OUTSIDE, 1],
            [INSERT, 6, 1],
            [INSERT, usize::MAX, 1],
            [DELETE, 0, 7],
            [RETAIN, 0, 16_381],
            [RETAIN, 0, 16_384],
            [DELETE, 0, 16_385],
            [INSERT, 3, 1 << 32],
            [RETAIN, 3, usize::MAX],
        ] {
            let mut operations = base.operations.clone();
            operations[start..start + 3].copy_from_slice(&record);
            case(&with_operations(operations));
        }
    }
    for counts in sums_past(16_384) {
        let kinds = [DELETE, INSERT, RETAIN].into_iter().cycle();
        let records: Vec<[usize; 3]> = counts
            .iter()
            .zip(kinds)
            .map(|(&count, kind)| [kind, 0, count])
            .collect();
        case(&with_operations(records.concat()));
    }

    for tokens in damaged_tokens(&base.tokens, 4) {
        case(&Raw {
            tokens,
            ..base.clone()
        });
    }

    // Text: at the limit the last operation is unknown, past it the size is refused first.
    for more in [0, 1] {
        let operations = [
            [RETAIN, 0, 1].repeat(PIECES),
            [DELETE, 1, 1].repeat(more),
            vec![3, 0, 1],
        ];
        case(&Raw {
            operations: operations.concat(),
            tokens: long_tokens(),
        });
    }

    // Two refusals at once, each pair.
    let defects: [fn(&mut Raw); 4] = [
        |raw| raw.operations.extend([DELETE, 0, 16_384]),
        |raw| raw.tokens.text[2] = 0xDFFF,
        |raw| raw.operations[3] = 4,
        |raw| raw.operations[8] = 0,
    ];
    for (place, first) in defects.iter().enumerate() {
        for second in &defects[..=place] {
            let mut raw = base.clone();
            first(&mut raw);
            second(&mut raw);
            case(&raw);
        }
    }

    let mut random = Random::new(73);
    for _ in 0..50 {
        let mut raw = base.clone();
        for _ in 0..=random.below(2) {
            damage(&mut random, &mut raw.operations);
        }
        case(&raw);
    }
    vectors
}

pub fn overlap_refused() -> Vectors {
    let mut vectors = Vectors::new();
    let past = vec![0; 8_193];
    for (old, new) in [(&past, &vec![]), (&vec![], &past)] {
        vectors.line(old);
        vectors.line(new);
        let range = calls::overlap(old, new, AMPLE);
        answer(
            &mut vectors,
            range.map(|range| vec![range.start, range.end]),
        );
    }
    vectors
}
