//! Two lists merged.

use oracle::{
    flat::{CURSOR_STRIDE, INSERT, OPERATION_STRIDE},
    generate::{Merge, RIGHT_IDENTITIES, everywhere, limits, tiny},
    paper::{
        calls, cases,
        lists::{List, MergeRooms},
    },
    random::Random,
};

use super::lists;
use crate::{
    family::{Family, Kind, Part, Tally, call, fitted, rooms},
    memory::{Lent, Room, Style},
    plan::Plan,
};

pub struct Merging {
    original: Lent<u32>,
    text: Lent<u32>,
    spans: Lent<u32>,
    keys: Lent<u32>,
    left: Lent<usize>,
    right: Lent<usize>,
    left_cursors: Lent<usize>,
    right_cursors: Lent<usize>,
    operations: Room<usize>,
    cursors: Room<usize>,
    work: Room<u32>,
}

/// All pairs of lists of up to so many operations on originals of 0 to 3, with a cursor of each
/// list at every place of its text.
fn tiny_pairs(operations: usize, each: &mut dyn FnMut(Merge)) {
    for length in 0..=3 {
        let lists = tiny::lists(length, operations, &[tiny::A, tiny::A_AS_XY, tiny::A_B]);
        let mut merge = Merge {
            original: (0..length as u32).map(|place| 0x41 + place).collect(),
            tokens: tiny::tokens(),
            ..Merge::default()
        };
        for left in &lists {
            merge.left.clone_from(left);
            merge.left_cursors = everywhere(&merge.tokens, left, 0);
            for right in &lists {
                merge.right.clone_from(right);
                merge.right_cursors = everywhere(&merge.tokens, right, RIGHT_IDENTITIES);
                each(merge.clone());
            }
        }
    }
}

/// "operations, as many as both lists have together; cursors, both counts together; work, twice
/// the insert tokens of both lists", in numbers.
fn asked(merge: &Merge) -> [usize; 3] {
    let operations = [&merge.left, &merge.right].map(|list| list.chunks_exact(OPERATION_STRIDE));
    let cursors =
        merge.left_cursors.len() / CURSOR_STRIDE + merge.right_cursors.len() / CURSOR_STRIDE;
    let tokens: usize = operations
        .iter()
        .flat_map(|list| list.clone())
        .filter(|operation| operation[0] == INSERT)
        .map(|insert| insert[5])
        .sum();
    let count: usize = operations.iter().map(|list| list.len()).sum();
    [
        count * OPERATION_STRIDE,
        cursors * CURSOR_STRIDE,
        2 * tokens,
    ]
}

impl Family for Merging {
    type Input = Merge;

    const CALLS: &'static [&'static str] = &["merge"];
    const FULL: u64 = 4_000_000;
    const LIMITS: u64 = 1_500;

    fn new(style: Style) -> Self {
        Self {
            original: Lent::new(style),
            text: Lent::new(style),
            spans: Lent::new(style),
            keys: Lent::new(style),
            left: Lent::new(style),
            right: Lent::new(style),
            left_cursors: Lent::new(style),
            right_cursors: Lent::new(style),
            operations: Room::new(style),
            cursors: Room::new(style),
            work: Room::new(style),
        }
    }

    fn inputs(plan: &Plan, each: &mut dyn FnMut(Kind, Merge)) {
        tiny_pairs(plan.depth(1, 3, 4), &mut |merge| each(Kind::Tiny, merge));

        for merge in limits::merges(&mut plan.random(Kind::Limits)) {
            each(Kind::Limits, merge);
        }
        each(Kind::Limits, limits::built());
        plan.make(Kind::Limits, each, |random| {
            lists::at_limits(random, limits::MERGING, true)
        });

        plan.make(Kind::Random, each, lists::good);
        for merge in cases::lists::merges() {
            each(Kind::Damaged, merge);
        }
        plan.make(Kind::Damaged, each, |random| lists::damaged(random, true));
        plan.make(Kind::Garbage, each, lists::nonsense);
    }

    fn compare(&mut self, input: &Merge, salt: u64, tally: &mut Tally) -> Result<(), String> {
        let answer = calls::merge(
            &input.lent(),
            List::left(input),
            List::right(input),
            MergeRooms::AMPLE,
        );
        let asked = answer.is_ok().then(|| asked(input));
        let lent = rooms(&mut Random::new(salt), asked);

        let original = self.original.lend(&input.original, salt);
        let text = self.text.lend(&input.tokens.text, salt);
        let spans = self.spans.lend(&input.tokens.spans, salt);
        let keys = self.keys.lend(&input.tokens.keys, salt);
        let left = self.left.lend(&input.left, salt);
        let right = self.right.lend(&input.right, salt);
        let left_cursors = self.left_cursors.lend(&input.left_cursors, salt);
        let right_cursors = self.right_cursors.lend(&input.right_cursors, salt);
        let operations = self.operations.lend(lent[0], salt);
        let cursors = self.cursors.lend(lent[1], salt);
        let work = self.work.lend(lent[2], salt);
        let got = call!(fleecelatch_merge(
            original,
            text,
            spans,
            keys,
            left,
            right,
            left_cursors,
            right_cursors,
            operations,
            cursors,
            work
        ));

        let answer = fitted(&answer, asked, lent);
        let counts = answer.map(|merged| {
            [
                merged.operations.len() / OPERATION_STRIDE,
                merged.cursors.len() / CURSOR_STRIDE,
            ]
        });
        tally.answer(0, got, counts)?;
        let (operations, cursors): (&[usize], &[usize]) = match answer {
            Ok(merged) => (&merged.operations, &merged.cursors),
            Err(_) => (&[], &[]),
        };
        self.operations.holds("operations", operations)?;
        self.cursors.holds("cursors", cursors)?;
        // "only the work room is unspecified"
        self.work.is_kept("work", answer.map_or(0, |_| lent[2]))
    }

    fn parts(input: &mut Merge) -> Vec<(&'static str, &mut dyn Part)> {
        lists::parts(input)
    }
}
