//! The Rust as published against document 01's rules: how often their merges differ, on sheets
//! and over all pairs of tiny lists, with the smallest pairs that do.

use std::{cmp::Ordering, fmt::Debug};

use oracle::{
    completed::{Completed, meet_rule, order_rule},
    flat::{self, CURSOR_STRIDE, Merged, NUMBER, OPERATION_STRIDE, RETAIN},
    generate::{
        Merge, RIGHT_IDENTITIES, everywhere,
        sheets::{self, Cut, Shape},
        tiny,
    },
    laws,
    notation::{string, written},
    published::{Operation, Published, Rules},
    random::Random,
};

/// What two merges may differ in. An earlier one is worse; the last is the side beside a
/// retain, which no output shows.
const DIFFERENCES: [&str; 6] = [
    "text",
    "diff",
    "history",
    "cursor indexes",
    "cursors' order alone",
    "operations",
];

/// The paper's order rule with the published meet rule.
struct PaperOrder;

/// The published order rule with the paper's meet rule.
struct PaperMeet;

impl Rules for PaperOrder {
    fn cmp_priority<T: PartialEq + Clone + Debug>(
        operation: &Operation<T>,
        _index: usize,
        other: &Operation<T>,
        _other_index: usize,
    ) -> Ordering {
        order_rule(operation, other)
    }

    fn merge_operations<T: PartialEq + Clone + Debug>(
        operation: Operation<T>,
        previous_operation: Option<&Operation<T>>,
    ) -> Operation<T> {
        operation.merge_operations(previous_operation)
    }
}

impl Rules for PaperMeet {
    fn cmp_priority<T: PartialEq + Clone + Debug>(
        operation: &Operation<T>,
        index: usize,
        other: &Operation<T>,
        other_index: usize,
    ) -> Ordering {
        operation.cmp_priority(index, other, other_index)
    }

    fn merge_operations<T: PartialEq + Clone + Debug>(
        operation: Operation<T>,
        previous_operation: Option<&Operation<T>>,
    ) -> Operation<T> {
        meet_rule(operation, previous_operation)
    }
}

fn differences(case: &Merge, one: &Merged, other: &Merged) -> [bool; DIFFERENCES.len()] {
    if one == other {
        return Default::default();
    }
    let lent = case.lent();
    let text = |merged: &Merged| flat::apply(&lent, &merged.operations, &[]);
    let diff = |merged: &Merged| flat::to_diff(&lent, &merged.operations);
    let history = |merged: &Merged| flat::apply_with_history(&lent, &merged.operations);
    let by_identity = |merged: &Merged| {
        let mut cursors: Vec<Vec<usize>> = merged
            .cursors
            .chunks_exact(CURSOR_STRIDE)
            .map(<[usize]>::to_vec)
            .collect();
        cursors.sort_unstable();
        cursors
    };
    let indexes = by_identity(one) != by_identity(other);

    [
        text(one) != text(other),
        diff(one) != diff(other),
        history(one) != history(other),
        indexes,
        !indexes && one.cursors != other.cursors,
        one.operations != other.operations,
    ]
}

/// Pairs seen, and how many differ in what.
#[derive(Debug, Default)]
struct Tally {
    pairs: usize,
    differing: [usize; DIFFERENCES.len()],
}

impl Tally {
    fn add(&mut self, differences: [bool; DIFFERENCES.len()]) {
        self.pairs += 1;
        for (count, differs) in self.differing.iter_mut().zip(differences) {
            *count += usize::from(differs);
        }
    }

    fn print(&self, name: &str) {
        print!("| {name} | {} |", self.pairs);
        for count in self.differing {
            print!(
                " {count} ({:.2}%) |",
                100.0 * count as f64 / self.pairs.max(1) as f64
            );
        }
        println!();
    }
}

fn print_head(first: &str) {
    print!("| {first} | pairs |");
    for name in DIFFERENCES {
        print!(" {name} |");
    }
    println!("\n|---|---|{}", "---|".repeat(DIFFERENCES.len()));
}

fn main() {
    on_sheets();
    println!();
    on_tiny_lists();
}

fn on_sheets() {
    let shape = |cut, items, vocabulary, edits| Shape {
        cut,
        items,
        vocabulary,
        edits,
        cursors: 4,
    };
    let rows = [
        (
            "2 to 8 words of 6, up to 3 edits a side",
            shape(Cut::Words, (2, 8), 6, 3),
            100_000,
        ),
        (
            "10 to 40 words of 60, up to 4 edits a side",
            shape(Cut::Words, (10, 40), 60, 4),
            100_000,
        ),
        (
            "50 to 200 words of 1,000, up to 6 edits a side",
            shape(Cut::Words, (50, 200), 1_000, 6),
            10_000,
        ),
        (
            "3 to 12 lines of 8, up to 3 edits a side",
            shape(Cut::Lines, (3, 12), 8, 3),
            100_000,
        ),
        (
            "20 to 60 lines of 200, up to 4 edits a side",
            shape(Cut::Lines, (20, 60), 200, 4),
            100_000,
        ),
    ];

    println!("Sheets: the published rules against the paper's\n");
    print_head("sheets");
    let (mut pairs, mut by_order, mut by_meet) = (0, 0, 0);
    for (seed, (name, shape, count)) in rows.into_iter().enumerate() {
        let mut random = Random::new(100 + seed as u64);
        let mut tally = Tally::default();
        for _ in 0..count {
            let case = sheets::merge(&mut random, shape);
            let completed = case.merged::<Completed>();
            let published = case.merged::<Published>();
            tally.add(differences(&case, &published, &completed));

            pairs += 1;
            by_meet += usize::from(case.merged::<PaperOrder>() != completed);
            by_order += usize::from(case.merged::<PaperMeet>() != published);
            for merged in [&completed, &published] {
                if let Err(sentence) = laws::of_a_merge(&case, merged) {
                    println!("BROKEN: {sentence}: {case:?}");
                }
            }
        }
        tally.print(name);
    }
    println!("\nOf these {pairs} pairs, the choice of meet rule changes:");
    println!("{by_meet} under the paper's order rule, {by_order} under the published one.");
}

/// What elongating leaves: nothing at all, only deletes before inserts (tokens that do not
/// join), or besides no neighbours of one kind but retains (tokens that join).
const CLASSES: [&str; 3] = [
    "all lists",
    "no insert before a delete",
    "elongated, all tokens joinable",
];

fn class(list: &[usize]) -> usize {
    let kinds: Vec<usize> = list
        .chunks_exact(OPERATION_STRIDE)
        .map(|record| record[0])
        .collect();
    let neighbours = kinds
        .windows(2)
        .any(|pair| pair[0] == pair[1] && pair[0] != RETAIN);

    if laws::insert_before_delete(list) {
        0
    } else if neighbours {
        1
    } else {
        2
    }
}

fn on_tiny_lists() {
    let inserts = [tiny::A, tiny::B, tiny::A_B];
    let mut tallies: [Tally; CLASSES.len()] = Default::default();
    let mut smallest: [[Option<(usize, String)>; DIFFERENCES.len()]; CLASSES.len()] =
        Default::default();
    let mut by_meet = 0;

    for length in 0..=3 {
        let lists = tiny::lists(length, 4, &inserts);
        let mut case = Merge {
            original: (0..length as u32)
                .map(|place| u32::from('A') + place)
                .collect(),
            tokens: tiny::tokens(),
            ..Merge::default()
        };
        for left in &lists {
            case.left.clone_from(left);
            case.left_cursors = everywhere(&case.tokens, left, 0);
            for right in &lists {
                case.right.clone_from(right);
                case.right_cursors = everywhere(&case.tokens, right, RIGHT_IDENTITIES);
                let completed = case.merged::<Completed>();
                let published = case.merged::<Published>();
                by_meet += usize::from(case.merged::<PaperOrder>() != completed);
                by_meet += usize::from(case.merged::<PaperMeet>() != published);

                let differences = differences(&case, &published, &completed);
                let worst = differences.iter().position(|differs| *differs);
                for class in 0..=class(left).min(class(right)) {
                    tallies[class].add(differences);
                    let Some(worst) = worst else {
                        continue;
                    };
                    let size = size(&case);
                    let place = &mut smallest[class][worst];
                    if place.as_ref().is_none_or(|(found, _)| size < *found) {
                        *place = Some((size, told(&case, &published, &completed)));
                    }
                }
            }
        }
    }

    println!("All pairs of lists of up to 4 operations over originals of 0 to 3,");
    println!("inserts a, b and ab, a cursor at every place of each list's text\n");
    print_head("lists");
    for (tally, name) in tallies.iter().zip(CLASSES) {
        tally.print(name);
    }
    println!("\nPairs in which the choice of meet rule changes anything: {by_meet}\n");
    for (class, found) in CLASSES.iter().zip(&smallest) {
        println!("Smallest that differ in this and in nothing named before it, {class}:");
        for (name, found) in DIFFERENCES.iter().zip(found) {
            let found = found.as_ref().map_or("none", |(_, told)| told.as_str());
            println!("- {name}: {found}");
        }
    }
}

/// Code points of the original, operations and inserted tokens.
fn size(case: &Merge) -> usize {
    let of_list = |list: &[usize]| -> usize {
        list.chunks_exact(OPERATION_STRIDE)
            .map(|record| 1 + record[5])
            .sum()
    };

    case.original.len() + of_list(&case.left) + of_list(&case.right)
}

fn told(case: &Merge, published: &Merged, completed: &Merged) -> String {
    format!(
        "original \"{}\", left {}, right {}. Published: {}. Paper: {}",
        string(&case.original),
        written(case, &case.left, false),
        written(case, &case.right, false),
        merge_told(case, published),
        merge_told(case, completed),
    )
}

fn merge_told(case: &Merge, merged: &Merged) -> String {
    let diff = flat::to_diff(&case.lent(), &merged.operations);
    let items: Vec<String> = diff
        .items
        .chunks_exact(3)
        .map(|item| match item[0] {
            NUMBER => item[1].to_string(),
            _ => format!(
                "\"{}\"",
                string(&diff.text[item[1] as usize..(item[1] + item[2]) as usize])
            ),
        })
        .collect();
    let cursors: Vec<String> = merged
        .cursors
        .chunks_exact(CURSOR_STRIDE)
        .map(|cursor| match cursor[0] {
            left @ 0..RIGHT_IDENTITIES => format!("l{left}>{}", cursor[1]),
            right => format!("r{}>{}", right - RIGHT_IDENTITIES, cursor[1]),
        })
        .collect();

    format!(
        "text \"{}\", diff {}, operations {}, cursors {}",
        string(&flat::apply(&case.lent(), &merged.operations, &[]).text),
        items.join(" "),
        written(case, &merged.operations, true),
        cursors.join(" "),
    )
}
