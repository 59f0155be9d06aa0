//! Document 01's sheets on the bench, as far as they concern the calls of the Rust.

use oracle::{
    completed::Completed,
    flat::{self, ADDED, DELETE, INSERT, LEFT, NUMBER, REMOVED, RIGHT, TEXT, UNCHANGED},
    generate::Merge,
    notation::{code_points, merge, string},
    published::DiffError,
};

fn merged_text(case: &Merge) -> String {
    string(&flat::apply(&case.lent(), &case.merged::<Completed>().operations, &[]).text)
}

#[test]
fn overlap() {
    let old = [0, 1, 9, 0, 2, 5];
    let table: [(&[u32], _); 4] = [
        (&[9, 0, 2, 5, 1], 2..6),
        (&[0, 2], 3..5),
        (&[0, 4], 0..1),
        (&[], 0..0),
    ];
    for (new, range) in table {
        assert_eq!(flat::overlap(&old, new), range);
    }
}

#[test]
fn replay() {
    let original = code_points("abcde");
    assert_eq!(
        flat::replay(
            &original,
            &[NUMBER, 2, 0, TEXT, 0, 1, NUMBER, -2, 0],
            &code_points("X")
        ),
        Ok(code_points("abX"))
    );
    for (items, position, requested, available) in [
        (vec![NUMBER, 3, 0, NUMBER, -3, 0], 3, 3, 2),
        (vec![NUMBER, i64::MIN, 0], 0, 9_223_372_036_854_775_808, 5),
    ] {
        assert_eq!(
            flat::replay(&original, &items, &[]),
            Err(DiffError::LengthExceedsOriginal {
                position,
                requested,
                available
            })
        );
    }
}

#[test]
fn abcdef() {
    let mut case = merge("abcdef", "R2 D2 I[X] R2", "R3 D2 I[Y] R1");
    case.left_cursors = vec![1, 3];
    case.right_cursors = vec![2, 3, 3, 4];
    let merged = case.merged::<Completed>();

    assert_eq!(merged_text(&case), "abXYf");
    assert_eq!(merged.cursors, [2, 2, 1, 3, 3, 4]);

    let history = flat::apply_with_history(&case.lent(), &merged.operations);
    assert_eq!(history.text, code_points("abcdeXYf"));
    assert_eq!(
        history.spans,
        [
            [UNCHANGED, 0, 0, 2],
            [REMOVED, LEFT, 2, 2],
            [REMOVED, RIGHT, 4, 1],
            [ADDED, LEFT, 5, 1],
            [ADDED, RIGHT, 6, 1],
            [UNCHANGED, 0, 7, 1],
        ]
        .concat()
    );

    let diff = flat::to_diff(&case.lent(), &merged.operations);
    assert_eq!(diff.text, code_points("XY"));
    assert_eq!(
        diff.items,
        [
            [NUMBER, 2, 0],
            [NUMBER, -2, 0],
            [NUMBER, -1, 0],
            [TEXT, 0, 1],
            [TEXT, 1, 1],
            [NUMBER, 1, 0],
        ]
        .concat()
    );
}

#[test]
fn pq_and_qr() {
    let mut case = merge("", "I[p|q]", "I[q|r]");
    case.right_cursors = vec![7, 0, 8, 1, 9, 2];
    let merged = case.merged::<Completed>();

    assert_eq!(merged_text(&case), "pqr");
    assert_eq!(merged.cursors, [7, 1, 8, 2, 9, 3]);
}

#[test]
fn both_drop_a_and_add_b() {
    let case = merge("a", "D1 I[b]", "D1 I[b]");
    let merged = case.merged::<Completed>();

    assert_eq!(merged_text(&case), "b");
    assert_eq!(
        merged.operations,
        [[DELETE, 0, 1, RIGHT, 0, 0], [INSERT, 1, 1, RIGHT, 1, 1]].concat()
    );
}

#[test]
fn empty_everything() {
    let case = merge("", "", "");
    let merged = case.merged::<Completed>();

    assert_eq!(merged.operations, []);
    assert_eq!(merged.cursors, []);
    assert_eq!(flat::to_diff(&case.lent(), &merged.operations).items, []);
}
