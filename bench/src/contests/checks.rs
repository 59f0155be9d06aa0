//! The checks alone, beside the oracle's reading of document 01 over the same flat records.

use oracle::{
    generate::Merge,
    paper::{
        lists::{List, MergeRooms, check_list, check_merge},
        refusal::Refusal,
    },
};

use super::keep;
use crate::{
    clock::{Contest, calls},
    inputs::{self, Sizes},
    ours::{Merging, Viewing},
};

const NO_ROOMS: MergeRooms = MergeRooms {
    operations: 0,
    cursors: 0,
    work: 0,
};

pub fn contests(eighths: usize, seed: u64) -> Vec<Contest> {
    let merging = Sizes::merging(eighths);

    vec![
        of_two(inputs::merge(seed, merging, merging)),
        of_one(inputs::single(seed, Sizes::otherwise(eighths))),
    ]
}

/// A merge with no rooms is checked and then refused.
fn of_two(case: Merge) -> Contest {
    let case = keep(case);
    let rust = || check_merge(&case.lent(), List::left(case), List::right(case), NO_ROOMS);
    let mut ours = Merging::checking(case);
    assert_eq!(ours.run().refusal, Refusal::Room.number());
    assert_eq!(rust(), Err(Refusal::Room));

    Contest {
        call: "checks of a merge",
        input: "a quarter inserts".to_owned(),
        ours: calls(move || ours.run()),
        rust: calls(rust),
    }
}

/// The lengths of a list's text and cursors are told after its checks.
fn of_one(case: Merge) -> Contest {
    let case = keep(case);
    let rust = || check_list(&case.lent(), List::left(case));
    let ours = Viewing::new(case);
    assert_eq!(ours.check().counts()[0], ours.text.len());
    assert_eq!(rust(), Ok(()));

    Contest {
        call: "checks of a list",
        input: "a quarter inserts".to_owned(),
        ours: calls(move || ours.check()),
        rust: calls(rust),
    }
}
