//! Text, history and diff of a list.

use oracle::{
    completed::Completed,
    flat::{Applied, CURSOR_STRIDE, Diff, HISTORY_STRIDE, ITEM_STRIDE, Spans},
    generate::{Merge, everywhere, limits, tiny},
    paper::{
        calls, cases,
        lists::List,
        refusal::{AMPLE, Refusal},
    },
    random::Random,
};

use super::lists;
use crate::{
    family::{Family, Kind, Part, Tally, call, fitted, rooms},
    memory::{Lent, Room, Style},
    plan::Plan,
};

/// The list is the pair's left one; the right one is not looked at.
pub struct Views {
    original: Lent<u32>,
    text: Lent<u32>,
    spans: Lent<u32>,
    keys: Lent<u32>,
    operations: Lent<usize>,
    cursors: Lent<usize>,
    out: Room<u32>,
    moved: Room<usize>,
    history: Room<usize>,
    history_text: Room<u32>,
    items: Room<i64>,
}

/// All lists of up to so many operations on originals of 0 to 3, each operation of either side by
/// chance, with a cursor at every place.
fn tiny_lists(random: &mut Random, operations: usize, each: &mut dyn FnMut(Merge)) {
    let inserts = [tiny::A, tiny::B, tiny::A_AS_XY, tiny::A_B];
    for length in 0..=3 {
        for mut left in tiny::lists(length, operations, &inserts) {
            for side in left.iter_mut().skip(3).step_by(6) {
                *side = random.below(2) as usize;
            }
            let tokens = tiny::tokens();
            each(Merge {
                original: (0..length as u32).map(|place| 0x41 + place).collect(),
                left_cursors: everywhere(&tokens, &left, 0),
                tokens,
                left,
                ..Merge::default()
            });
        }
    }
}

/// A good list, or a merged one, which is a list too.
fn good(random: &mut Random) -> Merge {
    let mut merge = lists::good(random);
    if random.below(8) == 0 {
        let merged = merge.merged::<Completed>();
        merge.left = merged.operations;
        merge.left_cursors = merged.cursors;
    }
    merge
}

impl Family for Views {
    type Input = Merge;

    const CALLS: &'static [&'static str] = &[
        "apply_lengths",
        "apply",
        "apply_with_history_lengths",
        "apply_with_history",
        "apply_with_all_lengths",
        "apply_with_all",
        "to_diff_lengths",
        "to_diff",
    ];
    const FULL: u64 = 10_000_000;
    const LIMITS: u64 = 1_500;

    fn new(style: Style) -> Self {
        Self {
            original: Lent::new(style),
            text: Lent::new(style),
            spans: Lent::new(style),
            keys: Lent::new(style),
            operations: Lent::new(style),
            cursors: Lent::new(style),
            out: Room::new(style),
            moved: Room::new(style),
            history: Room::new(style),
            history_text: Room::new(style),
            items: Room::new(style),
        }
    }

    fn inputs(plan: &Plan, each: &mut dyn FnMut(Kind, Merge)) {
        let mut random = plan.random(Kind::Tiny);
        tiny_lists(&mut random, plan.depth(2, 4, 5), &mut |merge| {
            each(Kind::Tiny, merge);
        });

        each(Kind::Limits, limits::single(&mut random));
        plan.make(Kind::Limits, each, |random| {
            lists::at_limits(random, limits::OTHERWISE, false)
        });

        plan.make(Kind::Random, each, good);
        for merge in cases::lists::outputs() {
            each(Kind::Damaged, merge);
        }
        plan.make(Kind::Damaged, each, |random| lists::damaged(random, false));
        plan.make(Kind::Garbage, each, lists::nonsense);
    }

    fn compare(&mut self, input: &Merge, salt: u64, tally: &mut Tally) -> Result<(), String> {
        let mut random = Random::new(salt);
        let slices = self.lend(input, salt);
        self.compare_text(input, slices, &mut random, tally)?;
        self.compare_history(input, slices, &mut random, tally)?;
        self.compare_all(input, slices, &mut random, tally)?;
        self.compare_diff(input, slices, &mut random, tally)
    }

    fn parts(input: &mut Merge) -> Vec<(&'static str, &mut dyn Part)> {
        let mut parts = lists::parts(input);
        parts.retain(|(name, _)| !name.starts_with("right"));
        parts
    }
}

type Slice<T> = (*const T, usize);

/// What is lent to all calls of a case.
#[derive(Clone, Copy)]
struct Slices {
    original: Slice<u32>,
    text: Slice<u32>,
    spans: Slice<u32>,
    keys: Slice<u32>,
    operations: Slice<usize>,
    cursors: Slice<usize>,
    salt: u64,
}

/// Calls the library with a list, and with what follows it.
macro_rules! of_list {
    ($function:ident($slices:ident $(, $($more:ident).+)*)) => {
        call!($function(
            $slices.original,
            $slices.text,
            $slices.spans,
            $slices.keys,
            $slices.operations
            $(, $($more).+)*
        ))
    };
}

impl Views {
    fn lend(&mut self, input: &Merge, salt: u64) -> Slices {
        Slices {
            original: self.original.lend(&input.original, salt),
            text: self.text.lend(&input.tokens.text, salt),
            spans: self.spans.lend(&input.tokens.spans, salt),
            keys: self.keys.lend(&input.tokens.keys, salt),
            operations: self.operations.lend(&input.left, salt),
            cursors: self.cursors.lend(&input.left_cursors, salt),
            salt,
        }
    }

    fn compare_text(
        &mut self,
        input: &Merge,
        slices: Slices,
        random: &mut Random,
        tally: &mut Tally,
    ) -> Result<(), String> {
        let answer = calls::apply(&input.lent(), List::left(input), AMPLE, AMPLE);
        let counts =
            |applied: &Applied| [applied.text.len(), applied.cursors.len() / CURSOR_STRIDE];
        let asked = |applied: &Applied| [applied.text.len(), applied.cursors.len()];

        let got = of_list!(fleecelatch_apply_lengths(slices, slices.cursors));
        tally.answer(0, got, fitted(&answer, None, [0; 2]).map(counts))?;

        let asked = answer.as_ref().ok().map(asked);
        let lent = rooms(random, asked);
        let out = self.out.lend(lent[0], slices.salt);
        let moved = self.moved.lend(lent[1], slices.salt);
        let got = of_list!(fleecelatch_apply(slices, slices.cursors, out, moved));
        let answer = fitted(&answer, asked, lent);
        tally.answer(1, got, answer.map(counts))?;
        self.holds_applied(answer)
    }

    fn holds_applied(&mut self, answer: Result<&Applied, Refusal>) -> Result<(), String> {
        self.out
            .holds("out", answer.map_or(&[], |applied| &applied.text))?;
        self.moved
            .holds("moved", answer.map_or(&[], |applied| &applied.cursors))
    }

    fn compare_history(
        &mut self,
        input: &Merge,
        slices: Slices,
        random: &mut Random,
        tally: &mut Tally,
    ) -> Result<(), String> {
        let answer = calls::apply_with_history(&input.lent(), &input.left, AMPLE, AMPLE);
        let counts = |history: &Spans| [history.spans.len() / HISTORY_STRIDE, history.text.len()];
        let asked = |history: &Spans| [history.spans.len(), history.text.len()];

        let got = of_list!(fleecelatch_apply_with_history_lengths(slices));
        tally.answer(2, got, fitted(&answer, None, [0; 2]).map(counts))?;

        let asked = answer.as_ref().ok().map(asked);
        let lent = rooms(random, asked);
        let history = self.history.lend(lent[0], slices.salt);
        let out = self.out.lend(lent[1], slices.salt);
        let got = of_list!(fleecelatch_apply_with_history(slices, history, out));
        let answer = fitted(&answer, asked, lent);
        tally.answer(3, got, answer.map(counts))?;
        self.history
            .holds("history", answer.map_or(&[], |history| &history.spans))?;
        self.out
            .holds("out", answer.map_or(&[], |history| &history.text))
    }

    fn compare_all(
        &mut self,
        input: &Merge,
        slices: Slices,
        random: &mut Random,
        tally: &mut Tally,
    ) -> Result<(), String> {
        let list = List::left(input);
        let answer = calls::apply_with_all(&input.lent(), list, AMPLE, AMPLE, AMPLE, AMPLE);
        // The cursors are as many as are lent, and not counted.
        let counts = |(applied, history): &(Applied, Spans)| {
            let spans = history.spans.len() / HISTORY_STRIDE;
            [applied.text.len(), spans, history.text.len()]
        };
        let asked = |(applied, history): &(Applied, Spans)| {
            [
                applied.text.len(),
                applied.cursors.len(),
                history.spans.len(),
                history.text.len(),
            ]
        };

        let got = of_list!(fleecelatch_apply_with_all_lengths(slices, slices.cursors));
        tally.answer(4, got, fitted(&answer, None, [0; 4]).map(counts))?;

        let asked = answer.as_ref().ok().map(asked);
        let lent = rooms(random, asked);
        let out = self.out.lend(lent[0], slices.salt);
        let moved = self.moved.lend(lent[1], slices.salt);
        let history = self.history.lend(lent[2], slices.salt);
        let history_text = self.history_text.lend(lent[3], slices.salt);
        let got = of_list!(fleecelatch_apply_with_all(
            slices,
            slices.cursors,
            out,
            moved,
            history,
            history_text
        ));
        let answer = fitted(&answer, asked, lent);
        tally.answer(5, got, answer.map(counts))?;
        self.holds_applied(answer.map(|(applied, _)| applied))?;
        let history = answer.map(|(_, history)| history);
        self.history
            .holds("history", history.map_or(&[], |history| &history.spans))?;
        self.history_text
            .holds("history text", history.map_or(&[], |history| &history.text))
    }

    fn compare_diff(
        &mut self,
        input: &Merge,
        slices: Slices,
        random: &mut Random,
        tally: &mut Tally,
    ) -> Result<(), String> {
        let answer = calls::to_diff(&input.lent(), &input.left, AMPLE, AMPLE);
        let counts = |diff: &Diff| [diff.items.len() / ITEM_STRIDE, diff.text.len()];
        let asked = |diff: &Diff| [diff.items.len(), diff.text.len()];

        let got = of_list!(fleecelatch_to_diff_lengths(slices));
        tally.answer(6, got, fitted(&answer, None, [0; 2]).map(counts))?;

        let asked = answer.as_ref().ok().map(asked);
        let lent = rooms(random, asked);
        let items = self.items.lend(lent[0], slices.salt);
        let out = self.out.lend(lent[1], slices.salt);
        let got = of_list!(fleecelatch_to_diff(slices, items, out));
        let answer = fitted(&answer, asked, lent);
        tally.answer(7, got, answer.map(counts))?;
        self.items
            .holds("room", answer.map_or(&[], |diff| &diff.items))?;
        self.out.holds("out", answer.map_or(&[], |diff| &diff.text))
    }
}
