//! Accepted cases of the Rust's calls, with document 01's rules: small ones mostly, a few of
//! middle size. Limit cases are not stored. Behind the overlaps, the raw lists and the merges stand
//! the refused ones, so that one program replays both.

use crate::{
    completed::Completed,
    flat::{self, CURSOR_STRIDE, DELETE, HISTORY_STRIDE, INSERT, ITEM_STRIDE, OPERATION_STRIDE},
    generate::{
        Merge, RIGHT_IDENTITIES, Raw, everywhere,
        limits::{self, MERGING},
        lists::{self, DEEP, MIDDLE, SMALL, Shape},
    },
    notation,
    paper::cases::lists::{elongate_refused, merge_refused, overlap_refused},
    random::Random,
    vectors::Vectors,
};

/// The numbers a line may have; a refused overlap's, one more than a side may have.
pub const LONGEST: usize = 1_000;
pub const LONGEST_OVERLAP: usize = 8_193;

/// All files of this module, by name.
pub fn files() -> [(&'static str, Vectors); 5] {
    [
        ("overlap.txt", overlap()),
        ("elongate.txt", elongate()),
        ("merge.txt", merge()),
        ("merge_limits.txt", merge_at_the_limits()),
        ("outputs.txt", outputs()),
    ]
}

/// All pairs of up to three of two keys, random pairs, long runs with much falling back; then
/// refused pairs.
fn overlap() -> Vectors {
    let mut random = Random::new(10);
    let mut vectors = Vectors::new();
    let mut case = |old: &[u32], new: &[u32]| {
        let range = flat::overlap(old, new);
        vectors.line(old);
        vectors.line(new);
        vectors.line(&[0, range.start, range.end]);
    };

    let tiny: Vec<Vec<u32>> = (0..=3)
        .flat_map(|length| {
            (0..1_u32 << length)
                .map(move |bits| (0..length).map(|place| bits >> place & 1).collect())
        })
        .collect();
    for old in &tiny {
        for new in &tiny {
            case(old, new);
        }
    }

    for (count, longest, keys) in [(150, 12, 2), (100, 12, 3), (20, 40, 2), (10, 300, 2)] {
        for _ in 0..count {
            let old = keys_below(&mut random, longest, keys);
            let new = keys_below(&mut random, longest, keys);
            case(&old, &new);
        }
    }
    for period in 1..=6 {
        let new: Vec<u32> = (0..120)
            .map(|place| u32::from(place % period == 0))
            .collect();
        let mut old = new.clone();
        old[119] = u32::MAX;
        old.extend(&new);
        case(&old, &new);
        case(&new, &old);
    }
    vectors.append(&overlap_refused());

    vectors
}

fn keys_below(random: &mut Random, longest: u64, keys: u64) -> Vec<u32> {
    (0..random.below(longest + 1))
        .map(|_| random.below(keys) as u32)
        .collect()
}

/// Accepted raw lists, then refused ones.
fn elongate() -> Vectors {
    let mut random = Random::new(11);
    let mut vectors = Vectors::new();
    elongate_case(&Raw::default(), &mut vectors);
    for (count, shape) in [(260, SMALL), (4, MIDDLE)] {
        collect(&mut vectors, count, |vectors| {
            elongate_case(&lists::raw(&mut random, shape), vectors);
        });
    }
    vectors.append(&elongate_refused());

    vectors
}

fn elongate_case(raw: &Raw, vectors: &mut Vectors) {
    let tokens = &raw.tokens;
    let answer = raw.elongated();
    vectors.line(&raw.operations);
    vectors.line(&tokens.spans);
    vectors.line(&tokens.keys);
    vectors.line(&tokens.joins);
    vectors.line(&tokens.text);
    vectors.line(&[
        0,
        answer.operations.len() / OPERATION_STRIDE,
        answer.keys.len(),
    ]);
    vectors.line(&answer.operations);
    vectors.line(&answer.spans);
    vectors.line(&answer.keys);
    vectors.line(&answer.joins);
}

/// Original, inserted text, spans and keys.
fn lent(case: &Merge, vectors: &mut Vectors) {
    vectors.line(&case.original);
    vectors.line(&case.tokens.text);
    vectors.line(&case.tokens.spans);
    vectors.line(&case.tokens.keys);
}

/// Empty everything; cursors left over; the bench sheets; where document 01 and the Rust as
/// published part ways; what merging does to lists that are not elongated.
const WRITTEN: [[&str; 3]; 17] = [
    ["", "", ""],
    ["A", "D1", "D1"],
    ["AB", "D2", "D1 D1"],
    ["abcdef", "R2 D2 I[X] R2", "R3 D2 I[Y] R1"],
    ["", "I[p|q]", "I[q|r]"],
    ["a", "D1 I[b]", "D1 I[b]"],
    ["", "I[a] I[a]", "I[b]"],
    ["a ", "I[mat| ] R1 R1 I[a| ]", "R1 R1 I[cat| ]"],
    ["ABC", "R1 D1 R1", "D1 D2"],
    ["", "I[a] I[b]", "I[b]"],
    ["A", "R1 I[a]", "D1 I[a|b]"],
    ["A", "I[b] R1 I[b]", "I[b] I[a|b] D1 I[a|b]"],
    ["A", "I[a] D1", "I[a] D1"],
    ["AB", "I[a] R2", "D1 D1"],
    ["AB", "R1 R1", "R2"],
    ["AB", "R2", "R1 R1"],
    ["A", "I[a] R1", "D1"],
];

/// Accepted pairs, then refused ones.
fn merge() -> Vectors {
    let mut random = Random::new(12);
    let mut vectors = Vectors::new();
    for [original, left, right] in WRITTEN {
        let mut case = notation::merge(original, left, right);
        merge_case(&case, &mut vectors);
        case.left_cursors = everywhere(&case.tokens, &case.left, 0);
        case.right_cursors = everywhere(&case.tokens, &case.right, RIGHT_IDENTITIES);
        merge_case(&case, &mut vectors);
        leave_rests(&mut case);
        merge_case(&case, &mut vectors);
    }
    for (count, shape) in [(380, SMALL), (24, DEEP), (6, MIDDLE)] {
        collect(&mut vectors, count, |vectors| {
            merge_case(&lists::merge(&mut random, shape), vectors);
        });
    }
    vectors.append(&merge_refused());

    vectors
}

/// Numbers behind the last whole record of each slice, which are not lent.
fn leave_rests(case: &mut Merge) {
    case.left.extend([INSERT, 0, 0, 0, 0]);
    case.right.extend([DELETE, 0, 1]);
    case.left_cursors.push(0);
    case.right_cursors.push(0);
    case.tokens.spans.push(0);
    case.tokens.keys.extend([0, 0]);
}

/// What the replaying program fills its rooms with.
const FILLED: usize = 165;

/// One line for the pair at the limits: the counts, and a sum over each room.
fn merge_at_the_limits() -> Vectors {
    let mut vectors = Vectors::new();
    let case = limits::built();
    let answer = case.merged::<Completed>();
    let sum = |answer: &[usize], room: usize| {
        let past = std::iter::repeat_n(FILLED, room - answer.len());
        answer.iter().copied().chain(past).fold(0, |sum, number| {
            (sum * 31 + number % 4_294_967_291) % 4_294_967_291
        })
    };
    vectors.line(&[
        0,
        answer.operations.len() / OPERATION_STRIDE,
        answer.cursors.len() / CURSOR_STRIDE,
        sum(
            &answer.operations,
            2 * OPERATION_STRIDE * MERGING.operations,
        ),
        sum(&answer.cursors, 2 * CURSOR_STRIDE * MERGING.cursors),
    ]);

    vectors
}

fn merge_case(case: &Merge, vectors: &mut Vectors) {
    let answer = case.merged::<Completed>();
    lent(case, vectors);
    vectors.line(&case.left);
    vectors.line(&case.right);
    vectors.line(&case.left_cursors);
    vectors.line(&case.right_cursors);
    vectors.line(&[
        0,
        answer.operations.len() / OPERATION_STRIDE,
        answer.cursors.len() / CURSOR_STRIDE,
    ]);
    vectors.line(&answer.operations);
    vectors.line(&answer.cursors);
}

/// Lent lists and merged ones by turns.
fn outputs() -> Vectors {
    let mut random = Random::new(13);
    let mut vectors = Vectors::new();
    let mut case = |shape: Shape, merge: bool, vectors: &mut Vectors| {
        let case = lists::merge(&mut random, shape);
        if merge {
            let merged = case.merged::<Completed>();
            outputs_case(&case, &merged.operations, &merged.cursors, vectors);
        } else {
            outputs_case(&case, &case.left, &case.left_cursors, vectors);
        }
    };

    outputs_case(&Merge::default(), &[], &[], &mut vectors);
    for (count, shape) in [(110, SMALL), (2, MIDDLE)] {
        for merge in [false, true] {
            collect(&mut vectors, count, |vectors| case(shape, merge, vectors));
        }
    }

    vectors
}

fn outputs_case(case: &Merge, operations: &[usize], cursors: &[usize], vectors: &mut Vectors) {
    lent(case, vectors);
    vectors.line(operations);
    vectors.line(cursors);

    let applied = flat::apply(&case.lent(), operations, cursors);
    vectors.line(&[0, applied.text.len(), applied.cursors.len() / CURSOR_STRIDE]);
    vectors.line(&applied.text);
    vectors.line(&applied.cursors);

    let history = flat::apply_with_history(&case.lent(), operations);
    vectors.line(&[0, history.spans.len() / HISTORY_STRIDE, history.text.len()]);
    vectors.line(&history.spans);
    vectors.line(&history.text);

    let diff = flat::to_diff(&case.lent(), operations);
    vectors.line(&[0, diff.items.len() / ITEM_STRIDE, diff.text.len()]);
    vectors.line(&diff.items);
    vectors.line(&diff.text);
}

/// Appends `count` cases whose lines all have at most `LONGEST` numbers.
fn collect(vectors: &mut Vectors, count: usize, mut case: impl FnMut(&mut Vectors)) {
    let mut taken = 0;
    while taken < count {
        let mut one = Vectors::new();
        case(&mut one);
        if one.longest_line() <= LONGEST {
            vectors.append(&one);
            taken += 1;
        }
    }
}
