//! What the generators make is accepted by the reading of document 01, at the limits too, and so
//! is every merged list.

use oracle::{
    completed::Completed,
    generate::{
        Merge, Raw, limits,
        lists::{self, MIDDLE, SMALL},
        sheets::{self, Cut},
    },
    paper::lists::{ElongateRooms, List, MergeRooms, RawList, check_list, check_merge},
    random::Random,
};

fn assert_merge_accepted(case: &Merge) {
    let lent = case.lent();
    let verdict = check_merge(
        &lent,
        List::left(case),
        List::right(case),
        MergeRooms::AMPLE,
    );
    assert!(verdict.is_ok(), "{verdict:?}: {case:?}");

    let merged = case.merged::<Completed>();
    let merged = List {
        operations: &merged.operations,
        cursors: &merged.cursors,
    };
    let verdict = check_list(&lent, merged);
    assert!(verdict.is_ok(), "{verdict:?}: {case:?}");
}

fn assert_raw_accepted(raw: &Raw) {
    let list = RawList {
        operations: &raw.operations,
        spans: &raw.tokens.spans,
        keys: &raw.tokens.keys,
        joins: &raw.tokens.joins,
        text: &raw.tokens.text,
    };
    let verdict = list.check(ElongateRooms::AMPLE);
    assert!(verdict.is_ok(), "{verdict:?}: {raw:?}");
}

#[test]
fn lists() {
    let mut random = Random::new(20);
    for (count, shape) in [(50_000, SMALL), (500, MIDDLE)] {
        for _ in 0..count {
            assert_merge_accepted(&lists::merge(&mut random, shape));
            assert_raw_accepted(&lists::raw(&mut random, shape));
        }
    }
}

#[test]
fn sheets() {
    let mut random = Random::new(21);
    for cut in [Cut::Words, Cut::Lines] {
        let shape = sheets::Shape {
            cut,
            items: (0, 20),
            vocabulary: 10,
            edits: 4,
            cursors: 4,
        };
        for _ in 0..5_000 {
            assert_merge_accepted(&sheets::merge(&mut random, shape));
        }
    }
}

#[test]
fn limits() {
    let mut random = Random::new(22);
    for case in limits::merges(&mut random) {
        assert_merge_accepted(&case);
    }
    let single = limits::single(&mut random);
    assert!(check_list(&single.lent(), List::left(&single)).is_ok());
    assert_raw_accepted(&limits::raw(&mut random));
}
