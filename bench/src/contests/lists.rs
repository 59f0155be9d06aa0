//! Elongating and merging. The Rust's lists are used up by its calls, so copies are made before the time begins; it sorts
//! the cursors when a list is made, so before the time begins as well.

use oracle::{
    completed::Completed,
    flat::{CURSOR_STRIDE, OPERATION_STRIDE, SPAN_STRIDE},
    generate::{
        JOINABLE, Merge, Raw,
        sheets::{self, Cut, Shape},
    },
    published::{cook_operations, elongate_operations},
    random::Random,
};

use super::{keep, number};
use crate::{
    clock::{Contest, calls, consuming},
    inputs::{self, Sizes},
    ours::{Elongating, Merging},
    rust,
};

pub fn contests(eighths: usize, seed: u64) -> Vec<Contest> {
    let limits = Sizes::merging(eighths);
    let half = Sizes {
        inserts: limits.operations / 2,
        ..limits
    };
    let at_one_place = Sizes {
        original: 0,
        inserts: limits.operations,
        ..limits
    };
    let other_keys = Sizes {
        keys: 1_000_000,
        ..at_one_place
    };
    let one_insert = Sizes {
        operations: 1,
        inserts: 1,
        ..at_one_place
    };
    let raw = |joins| {
        inputs::raw(
            seed,
            1_024 * eighths,
            2_048 * eighths,
            131_070 * eighths / 8,
            joins,
        )
    };

    vec![
        elongate("all joinable", raw(JOINABLE)),
        elongate("none joinable", raw(0)),
        merge("a quarter inserts", inputs::merge(seed, limits, limits)),
        merge("half inserts", inputs::merge(seed, half, half)),
        merge(
            "inserts at one place, two keys",
            inputs::merge(seed, at_one_place, at_one_place),
        ),
        merge(
            "inserts at one place, all keys different",
            inputs::merge(seed, other_keys, other_keys),
        ),
        merge(
            "one insert against many",
            inputs::merge(seed, one_insert, at_one_place),
        ),
    ]
}

/// Ten operations.
pub const TEN: Sizes = Sizes {
    original: 240,
    operations: 10,
    inserts: 4,
    tokens: 12,
    text: 40,
    cursors: 2,
    keys: 20,
};

pub fn small() -> Vec<Contest> {
    vec![
        elongate("few", inputs::raw(8, 10, 20, 80, JOINABLE)),
        merge("few", inputs::merge(6, TEN, TEN)),
        merge("a sheet of words", words()),
        merge("a sheet of lines", lines()),
    ]
}

/// 600 words, up to 60 edits by each side.
pub fn words() -> Merge {
    sheet(9, Cut::Words, 600, 400)
}

fn lines() -> Merge {
    sheet(11, Cut::Lines, 400, 1_000)
}

fn sheet(seed: u64, cut: Cut, items: u64, vocabulary: u64) -> Merge {
    let shape = Shape {
        cut,
        items: (items, items),
        vocabulary,
        edits: 60,
        cursors: 2,
    };

    sheets::merge(&mut Random::new(seed), shape)
}

fn elongate(kind: &str, raw: Raw) -> Contest {
    let raw = keep(raw);
    let list = rust::raw_operations(raw);
    let input = format!(
        "{kind}, {} operations, {} tokens",
        number(list.len()),
        number(raw.tokens.count())
    );
    let mut ours = Elongating::new(raw);

    let [operations, tokens, _] = ours.run().counts();
    let elongated = raw.elongated();
    assert_eq!(
        ours.operations[..OPERATION_STRIDE * operations],
        elongated.operations
    );
    assert_eq!(ours.spans[..SPAN_STRIDE * tokens], elongated.spans);
    assert_eq!(ours.keys[..tokens], elongated.keys);
    assert_eq!(ours.joins[..tokens], elongated.joins);

    Contest {
        call: "elongate",
        input,
        ours: calls(move || ours.run()),
        rust: consuming(
            move || list.clone(),
            |list| cook_operations(elongate_operations(list)).collect::<Vec<_>>(),
        ),
    }
}

fn merge(kind: &str, case: Merge) -> Contest {
    let case = keep(case);
    let original = rust::original(case);
    let list = |operations, cursors| rust::edited_text(original, &case.tokens, operations, cursors);
    let left = list(&case.left, &case.left_cursors);
    let right = list(&case.right, &case.right_cursors);
    let input = format!(
        "{kind}, {} and {} operations",
        number(left.operations().count()),
        number(right.operations().count())
    );
    let mut ours = Merging::new(case);

    let [operations, cursors, _] = ours.run().counts();
    let merged = list(
        &ours.operations[..OPERATION_STRIDE * operations],
        &ours.cursors[..CURSOR_STRIDE * cursors],
    );
    let rust_merged = left.clone().merge::<Completed>(right.clone());
    assert!(merged == rust_merged && merged.apply() == rust_merged.apply());

    Contest {
        call: "merge",
        input,
        ours: calls(move || ours.run()),
        rust: consuming(
            move || (left.clone(), right.clone()),
            |(left, right)| left.merge::<Completed>(right),
        ),
    }
}
