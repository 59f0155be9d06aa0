//! Text, history and diff of a list, and the diff replayed.

use oracle::{
    flat::{HISTORY_STRIDE, ITEM_STRIDE, OPERATION_STRIDE, RETAIN},
    generate::Merge,
    published::{EditedText, Operation, Side, TextWithCursors},
    random::Random,
};

use super::{keep, lists, number};
use crate::{
    clock::{Contest, calls, consuming},
    inputs::{self, Sizes},
    library,
    ours::{Merging, Viewing},
    rust,
};

/// The two replays take the same: original, items, text, and the room.
type Replay = fn(&[u32], &[i64], &[u32], &mut [u32]) -> library::Answer;

pub fn contests(eighths: usize, seed: u64) -> Vec<Contest> {
    let limits = Sizes::otherwise(eighths);
    let few_inserts = Sizes {
        inserts: limits.operations / 64,
        tokens: limits.operations / 64,
        text: limits.operations / 16,
        ..limits
    };

    [
        views("a quarter inserts", inputs::single(seed, limits)),
        views("few inserts", inputs::single(seed, few_inserts)),
        vec![cursors(eighths, seed)],
    ]
    .into_iter()
    .flatten()
    .collect()
}

pub fn small() -> Vec<Contest> {
    [
        views("few", inputs::single(23, lists::TEN)),
        views("a merged sheet of words", merged(lists::words())),
    ]
    .into_iter()
    .flatten()
    .collect()
}

/// Cursors alone: one retain and cursors at chance places, which the Rust sorts when the list is made.
fn cursors(eighths: usize, seed: u64) -> Contest {
    const LENGTH: usize = 1_000;
    let random = &mut Random::new(seed);
    let case = keep(Merge {
        original: inputs::letters(random, LENGTH, 26),
        left: vec![RETAIN, 0, LENGTH, 0, 0, 0],
        left_cursors: (0..64 * eighths)
            .flat_map(|identity| [identity, random.below(LENGTH as u64 + 1) as usize])
            .collect(),
        ..Merge::default()
    });
    let original = rust::original(case);
    let positions = rust::positions(&case.left_cursors);
    let sorted = |positions| {
        let retain = Operation::<u32>::create_equal(0, LENGTH);
        EditedText::new(original, vec![retain], vec![Side::Left], positions).apply()
    };
    let mut ours = Viewing::new(case);

    ours.apply().counts();
    assert!(rust::positions(&ours.cursors) == sorted(positions.clone()).cursors());

    Contest {
        call: "apply",
        input: format!("{} unsorted cursors, 1 operation", number(positions.len())),
        ours: calls(move || ours.apply()),
        rust: consuming(move || positions.clone(), sorted),
    }
}

/// What a merge gives, as the left list.
fn merged(case: Merge) -> Merge {
    let case = keep(case);
    let mut merging = Merging::new(case);
    let [operations, _, _] = merging.run().counts();
    merging.operations.truncate(OPERATION_STRIDE * operations);

    Merge {
        left: merging.operations,
        left_cursors: merging.cursors,
        ..case.clone()
    }
}

fn views(kind: &str, case: Merge) -> Vec<Contest> {
    let case = keep(case);
    let original = rust::original(case);
    let edited: &EditedText<u32> = keep(rust::edited_text(
        original,
        &case.tokens,
        &case.left,
        &case.left_cursors,
    ));
    let input = format!("{kind}, {} operations", number(edited.operations().count()));
    let ours = || Viewing::new(case);
    let contest = |call, ours, rust| Contest {
        call,
        input: input.clone(),
        ours,
        rust,
    };

    let mut apply = ours();
    let [text, _, _] = apply.apply().counts();
    let applied = |ours: &Viewing| {
        TextWithCursors::new(
            rust::string(&ours.text[..text]),
            rust::positions(&ours.cursors),
        )
    };
    assert!(applied(&apply) == edited.apply());

    let mut history = ours();
    let [spans, text, _] = history.apply_with_history().counts();
    let told = |ours: &Viewing| {
        rust::history(
            &ours.history[..HISTORY_STRIDE * spans],
            &ours.history_text[..text],
        )
    };
    assert!(told(&history) == edited.apply_with_history());

    let mut all = ours();
    all.apply_with_all().counts();
    assert!((applied(&all), told(&all)) == edited.apply_with_all());

    let mut to_diff = ours();
    let [items, text, _] = to_diff.diff().counts();
    let (items, text) = (
        keep(to_diff.items[..ITEM_STRIDE * items].to_vec()),
        keep(to_diff.history_text[..text].to_vec()),
    );
    let diff = rust::diff(items, text);
    assert_eq!(Ok(&diff), edited.to_diff().as_ref());

    let mut replayed = vec![0; apply.text.len()];
    library::from_diff(&case.original, items, text, &mut replayed).counts();
    assert_eq!(
        Ok(rust::string(&replayed)),
        EditedText::<u32>::from_diff(original, diff.clone())
    );
    let replay = |call, ours: Replay| {
        let (mut room, diff) = (replayed.clone(), diff.clone());
        contest(
            call,
            calls(move || ours(&case.original, items, text, &mut room)),
            consuming(
                move || diff.clone(),
                move |diff| EditedText::<u32>::from_diff(original, diff),
            ),
        )
    };

    vec![
        contest(
            "apply",
            calls(move || apply.apply()),
            calls(|| edited.apply()),
        ),
        contest(
            "apply_with_history",
            calls(move || history.apply_with_history()),
            calls(|| edited.apply_with_history()),
        ),
        contest(
            "apply_with_all",
            calls(move || all.apply_with_all()),
            calls(|| edited.apply_with_all()),
        ),
        contest(
            "to_diff",
            calls(move || to_diff.diff()),
            calls(|| edited.to_diff()),
        ),
        replay("from_diff", library::from_diff),
        replay("from_covering_diff", library::from_covering_diff),
    ]
}
