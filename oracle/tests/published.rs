//! The published Rust's own examples, with lists in the place of its tokenisers, under its own
//! rules; and the smallest pairs in which the paper's rules give something else.

use oracle::{
    completed::Completed,
    flat::{self, ADDED, LEFT, Merged, NUMBER, REMOVED, RIGHT, TEXT, UNCHANGED},
    generate::Merge,
    notation::{code_points, merge, string, written},
    published::Published,
};

fn text(case: &Merge, merged: &Merged) -> String {
    string(&flat::apply(&case.lent(), &merged.operations, &[]).text)
}

/// From the crate's documentation, "Change provenance".
#[test]
fn change_provenance() {
    let case = merge(
        "Merging text is hard!",
        "R7 R1 R4 R1 R2 D6 I[ |easy!]",
        "D12 I[With| |reconcile,| |merging| |documents] R1 R2 R1 R5",
    );
    let merged = case.merged::<Published>();
    assert_eq!(
        text(&case, &merged),
        "With reconcile, merging documents is easy!"
    );

    let history = flat::apply_with_history(&case.lent(), &merged.operations);
    let spans: Vec<(usize, usize, String)> = history
        .spans
        .chunks_exact(4)
        .map(|span| {
            let text = string(&history.text[span[2]..span[2] + span[3]]);
            (span[0], span[1], text)
        })
        .collect();
    let expected = [
        (REMOVED, RIGHT, "Merging text"),
        (ADDED, RIGHT, "With reconcile, merging documents"),
        (UNCHANGED, 0, " "),
        (UNCHANGED, 0, "is"),
        (REMOVED, LEFT, " hard!"),
        (ADDED, LEFT, " easy!"),
    ];
    assert_eq!(
        spans,
        expected.map(|(kind, side, text)| (kind, side, text.to_owned()))
    );
}

/// From the crate's documentation, "Cursor tracking".
#[test]
fn cursor_tracking() {
    let mut case = merge("Hello world", "R5 R1 I[beautiful| ] R5", "D5 I[Hi] R1 R5");
    case.left_cursors = vec![1, 6];
    case.right_cursors = vec![2, 0];
    let merged = case.merged::<Published>();

    assert_eq!(text(&case, &merged), "Hi beautiful world");
    assert_eq!(merged.cursors, [2, 0, 1, 3]);
}

/// From the crate's documentation, "Tokenisation strategies": both replace the same line.
#[test]
fn line_tokens() {
    let case = merge(
        "The quick brown fox\njumps over the lazy dog",
        "D20 I[The very quick brown fox\n] R23",
        "D20 I[The quick red fox\n] R23",
    );

    assert_eq!(
        text(&case, &case.merged::<Published>()),
        "The quick red fox\nThe very quick brown fox\njumps over the lazy dog"
    );
}

/// From the crate's documentation, "Tokenisation strategies" and "Custom tokenisation".
#[test]
fn word_and_sentence_tokens() {
    let words = merge(
        "The quick brown fox\njumps over the lazy dog",
        "R4 I[very| ] R39",
        "R10 D5 I[red] R28",
    );
    assert_eq!(
        text(&words, &words.merged::<Published>()),
        "The very quick red fox\njumps over the lazy dog"
    );

    let sentences = merge(
        "Hello world. This is a test.",
        "D13 I[Hello beautiful world. ] R15",
        "R13 D15 I[This is a great test.]",
    );
    assert_eq!(
        text(&sentences, &sentences.merged::<Published>()),
        "Hello beautiful world. This is a great test."
    );
}

/// From the crate's documentation, "Compact change serialization".
#[test]
fn compact_change_serialization() {
    let case = merge(
        "Merging text is hard!",
        "R7 R1 R4 R1 R2 D6 I[ |easy| |with| |reconcile!]",
        "",
    );
    let diff = flat::to_diff(&case.lent(), &case.left);
    assert_eq!(
        diff.items,
        [[NUMBER, 15, 0], [NUMBER, -6, 0], [TEXT, 0, 21]].concat()
    );
    assert_eq!(string(&diff.text), " easy with reconcile!");
    assert_eq!(
        flat::replay(&case.original, &diff.items, &diff.text),
        Ok(code_points("Merging text is easy with reconcile!"))
    );
}

/// What document 01 refuses as 5.
#[test]
#[should_panic(expected = "must be contained within the text")]
fn a_cursor_past_its_text_panics() {
    let case = merge("A", "R1", "");
    flat::apply(&case.lent(), &case.left, &[0, 2]);
}

/// What document 01 refuses as 2.
#[test]
fn a_retain_past_the_end_stops_there() {
    let case = merge("A", "R2", "");
    assert_eq!(
        string(&flat::apply(&case.lent(), &case.left, &[]).text),
        "A"
    );
}

#[test]
#[should_panic(expected = "out of range")]
fn the_history_of_a_delete_past_the_end_panics() {
    let case = merge("A", "D2", "");
    flat::apply_with_history(&case.lent(), &case.left);
}

/// Original, left, right, and what the published rules and the paper's make of them.
const TEXTS: [[&str; 5]; 3] = [
    ["", "I[a] I[a]", "I[b]", "aba", "aab"],
    ["A", "R1 I[a]", "D1 I[b]", "ba", "ab"],
    [
        "a ",
        "I[mat| ] R1 R1 I[a| ]",
        "R1 R1 I[cat| ]",
        "mat a cat a ",
        "mat a a cat ",
    ],
];

#[test]
fn another_text() {
    for [original, left, right, published, paper] in TEXTS {
        let case = merge(original, left, right);
        assert_eq!(text(&case, &case.merged::<Published>()), published);
        assert_eq!(text(&case, &case.merged::<Completed>()), paper);
    }
}

#[test]
fn another_diff() {
    let case = merge("ABC", "R1 D1 R1", "D1 D2");
    let numbers = |merged: &Merged| {
        let items = flat::to_diff(&case.lent(), &merged.operations).items;
        assert!(items.chunks_exact(3).all(|item| item[0] == NUMBER));
        items
            .chunks_exact(3)
            .map(|item| item[1])
            .collect::<Vec<_>>()
    };
    assert_eq!(numbers(&case.merged::<Published>()), [-1, -2]);
    assert_eq!(numbers(&case.merged::<Completed>()), [-1, -1, -1]);
}

/// Original, left, right; operations with their sides, published and the paper's.
const SIDES: [[&str; 5]; 4] = [
    [
        "A",
        "R1 I[a]",
        "D1 I[a|b]",
        "D1r I[a|b]r",
        "D1r I[a]l I[b]r",
    ],
    ["", "I[b]", "I[a] I[b]", "I[a]r I[b]l", "I[a]r I[b]r"],
    [
        "AB",
        "R1 D1",
        "I[a] R1 D1",
        "I[a]r R1l D1l",
        "I[a]r R1r D1r",
    ],
    ["A", "R1", "I[a] R1", "I[a]r R1l", "I[a]r R1r"],
];

#[test]
fn other_operations_with_the_same_text() {
    for [original, left, right, published, paper] in SIDES {
        let case = merge(original, left, right);
        let merges = [case.merged::<Published>(), case.merged::<Completed>()];
        assert_eq!(text(&case, &merges[0]), text(&case, &merges[1]));
        let operations = merges.map(|merged| written(&case, &merged.operations, true));
        assert_eq!(operations, [published, paper]);
    }
}

/// The left's one b is lost, and its other b stays: published the first, the paper's the second.
#[test]
fn other_cursors_with_the_same_history() {
    let mut case = merge("A", "I[b] R1 I[b]", "I[b] I[a|b] D1 I[a|b]");
    case.left_cursors = vec![0, 0, 1, 1, 2, 2, 3, 3];
    let [published, paper] = [case.merged::<Published>(), case.merged::<Completed>()];

    let history = |merged: &Merged| flat::apply_with_history(&case.lent(), &merged.operations);

    assert_eq!(history(&published), history(&paper));
    assert_eq!(published.cursors, [0, 0, 1, 1, 2, 3, 3, 4]);
    assert_eq!(paper.cursors, [0, 3, 1, 4, 2, 4, 3, 6]);
}

#[test]
fn cursors_in_another_order_alone() {
    let mut case = merge("A", "R1", "I[a] R1");
    case.left_cursors = vec![1, 1];
    case.right_cursors = vec![2, 2];

    assert_eq!(case.merged::<Published>().cursors, [1, 2, 2, 2]);
    assert_eq!(case.merged::<Completed>().cursors, [2, 2, 1, 2]);
}
