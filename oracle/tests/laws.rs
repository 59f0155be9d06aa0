//! Laws that need no model of the merge, over random pairs, all pairs of tiny lists, and lists
//! at the limits; for document 01's rules and for the published ones.

use oracle::{
    completed::Completed,
    flat::{self, CURSOR_STRIDE, OPERATION_STRIDE, RETAIN},
    generate::{
        Merge, RIGHT_IDENTITIES, everywhere, limits,
        lists::{self, MIDDLE, SMALL},
        tiny,
    },
    laws,
    published::{Published, Rules},
    random::Random,
};

fn assert_laws<R: Rules>(case: &Merge) -> flat::Merged {
    let merged = case.merged::<R>();
    if let Err(sentence) = laws::of_a_merge(case, &merged) {
        panic!("not true that {sentence}: {case:?}");
    }

    merged
}

#[test]
fn random_pairs() {
    let mut random = Random::new(1);
    for _ in 0..200_000 {
        let case = lists::merge(&mut random, SMALL);
        assert_laws::<Completed>(&case);
        assert_laws::<Published>(&case);
    }
    for _ in 0..2_000 {
        assert_laws::<Completed>(&lists::merge(&mut random, MIDDLE));
    }
}

/// Originals of 0 to 3, lists of up to 4 operations, a cursor of each list at every place of
/// its text.
#[test]
fn all_tiny_pairs() {
    let tokens = tiny::tokens();
    let mut pairs = 0;
    for length in 0..=3 {
        let lists = tiny::lists(length, 4, &[tiny::A, tiny::A_AS_XY, tiny::A_B]);
        let mut case = Merge {
            original: (0..length as u32)
                .map(|place| u32::from('A') + place)
                .collect(),
            tokens: tokens.clone(),
            ..Merge::default()
        };
        for left in &lists {
            case.left.clone_from(left);
            case.left_cursors = everywhere(&case.tokens, left, 0);
            for right in &lists {
                case.right.clone_from(right);
                case.right_cursors = everywhere(&case.tokens, right, RIGHT_IDENTITIES);
                let merged = assert_laws::<Completed>(&case);
                assert!(sides_keep_their_order(&merged.cursors), "{case:?}");
                pairs += 1;
            }
        }
    }
    assert_eq!(pairs, 1_196_897);
}

fn sides_keep_their_order(cursors: &[usize]) -> bool {
    let identities = cursors.chunks_exact(CURSOR_STRIDE).map(|cursor| cursor[0]);
    let (left, right): (Vec<usize>, Vec<usize>) =
        identities.partition(|identity| *identity < RIGHT_IDENTITIES);

    left.is_sorted() && right.is_sorted()
}

/// A list merged with one that retains the whole original, on either side, keeps its text; and
/// two equal lists without an insert directly before a delete merge to their own text.
#[test]
fn whole_retain_and_equal_lists() {
    let mut random = Random::new(2);
    let mut equal_lists = 0;
    for _ in 0..100_000 {
        let mut case = lists::merge(&mut random, SMALL);
        let text = flat::apply(&case.lent(), &case.left, &[]).text;
        let merged_text = |case: &Merge| {
            flat::apply(&case.lent(), &case.merged::<Completed>().operations, &[]).text
        };

        if !laws::insert_before_delete(&case.left) {
            case.right.clone_from(&case.left);
            case.right_cursors.clear();
            assert_eq!(merged_text(&case), text, "{case:?}");
            equal_lists += 1;
        }

        case.right = match case.original.len() {
            0 => Vec::new(),
            length => vec![RETAIN, 0, length, 0, 0, 0],
        };
        assert_eq!(merged_text(&case), text, "{case:?}");
        std::mem::swap(&mut case.left, &mut case.right);
        case.left_cursors.clear();
        assert_eq!(merged_text(&case), text, "{case:?}");
    }
    assert!(equal_lists > 20_000);
}

#[test]
fn elongating() {
    let mut random = Random::new(3);
    for _ in 0..100_000 {
        let raw = lists::raw(&mut random, SMALL);
        let tokens = &raw.tokens;
        let once = raw.elongated();
        assert!(!laws::insert_before_delete(&once.operations));
        assert!(once.operations.len() / OPERATION_STRIDE <= raw.operations.len() / 3);

        let again: Vec<usize> = once
            .operations
            .chunks_exact(OPERATION_STRIDE)
            .flat_map(|record| [record[0], record[4], record[5]])
            .collect();
        let twice = flat::elongate(&again, &once.spans, &once.keys, &once.joins, &tokens.text);
        assert_eq!(twice, once, "{raw:?}");
    }
}

#[test]
fn limits() {
    let mut random = Random::new(4);
    for case in limits::merges(&mut random) {
        assert_laws::<Completed>(&case);
    }

    let single = limits::single(&mut random);
    assert_eq!(
        single.left.len(),
        limits::OTHERWISE.operations * OPERATION_STRIDE
    );
    assert_eq!(single.tokens.count(), limits::OTHERWISE.tokens);
    assert_eq!(single.tokens.text.len(), limits::OTHERWISE.text);
    assert_eq!(laws::of_a_list(&single.lent(), &single.left), Ok(()));

    let raw = limits::raw(&mut random);
    assert_eq!(raw.tokens.count(), limits::OTHERWISE.tokens);
    assert_eq!(raw.tokens.text.len(), limits::OTHERWISE.text);
    let elongated = raw.elongated();
    assert_eq!(elongated.keys.len(), raw.tokens.count());
}
