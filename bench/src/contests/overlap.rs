//! The overlap of inserts, on the three inputs of request P13 and on one that falls back at every token.

use oracle::{published::find_longest_prefix_contained_within, random::Random};

use super::{keep, number};
use crate::{
    clock::{Contest, calls},
    library, rust,
};

pub fn contests(eighths: usize, seed: u64) -> Vec<Contest> {
    let tokens = 1_024 * eighths;
    let random = &mut Random::new(seed);
    let mut two_keys = || (0..tokens).map(|_| random.below(2) as u32).collect();
    let (old, new): (Vec<u32>, Vec<u32>) = (two_keys(), two_keys());
    let mut broken = vec![0; tokens];
    broken[tokens / 2] = 1;

    vec![
        contest("all equal", vec![0; tokens], vec![0; tokens]),
        contest("random from two keys", old, new),
        contest("no match", vec![0; tokens], vec![1; tokens]),
        contest("equal but for one in the middle", vec![0; tokens], broken),
    ]
}

fn contest(input: &str, old: Vec<u32>, new: Vec<u32>) -> Contest {
    let (old_tokens, new_tokens) = (keep(rust::keys(&old)), keep(rust::keys(&new)));
    let mut work = vec![0; new.len()];
    let input = format!("{input}, {} tokens a side", number(new.len()));

    let [start, end, _] = library::overlap(&old, &new, &mut work).counts();
    assert_eq!(
        start..end,
        find_longest_prefix_contained_within(old_tokens, new_tokens)
    );

    Contest {
        call: "overlap",
        input,
        ours: calls(move || library::overlap(&old, &new, &mut work)),
        rust: calls(move || find_longest_prefix_contained_within(old_tokens, new_tokens)),
    }
}
