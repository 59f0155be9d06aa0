//! How cost grows: every contest at an eighth, a quarter, a half and all of its call's limits. Eight different inputs of an
//! eighth are taken in turn, four of a quarter, two of a half: so caches and branch predictors meet as much in each
//! column, and a cost that is linear is the same in each.

use crate::{clock::Contest, contests};

const ROUNDS: usize = 101;
/// What is called worse than linear.
const LINEAR: f64 = 1.25;

pub fn print() {
    println!("| call | input at the limit | 1/4 | 1/2 | all | Rust, all | |");
    println!("|---|---|---:|---:|---:|---:|---|");
    let mut columns = [1, 2, 4, 8].map(|eighths| {
        let inputs = 8 / eighths;
        let mut made: Vec<_> = (1..=inputs)
            .map(|seed| contests::growing(eighths, seed as u64).into_iter())
            .collect();
        std::iter::from_fn(move || {
            made.iter_mut()
                .map(Iterator::next)
                .collect::<Option<Vec<_>>>()
        })
    });

    while let [Some(eighth), Some(quarter), Some(half), Some(all)] =
        columns.each_mut().map(Iterator::next)
    {
        let (call, input) = (all[0].call, all[0].input.clone());
        let [eighth, quarter, half, all] = medians([eighth, quarter, half, all]);
        let [quarter, half, ours] = [quarter, half, all].map(|took| took.0 / eighth.0);
        println!(
            "| {call} | {input} | {quarter:.2} | {half:.2} | {ours:.2} | {:.2} | {} |",
            all.1 / eighth.1,
            if ours > LINEAR {
                "worse than linear"
            } else {
                ""
            }
        );
    }
}

/// For each group of inputs, what all of them take together, ours and the Rust's.
fn medians(mut groups: [Vec<Contest>; 4]) -> [(f64, f64); 4] {
    let mut took = [const { (Vec::new(), Vec::new()) }; 4];
    for _ in 0..ROUNDS {
        for (group, (ours, rust)) in groups.iter_mut().zip(&mut took) {
            ours.push(
                group
                    .iter_mut()
                    .map(|contest| (contest.ours)(1))
                    .sum::<u64>(),
            );
            rust.push(
                group
                    .iter_mut()
                    .map(|contest| (contest.rust)(1))
                    .sum::<u64>(),
            );
        }
    }

    let median = |took: &mut Vec<u64>| {
        took.sort_unstable();
        took[ROUNDS / 2] as f64
    };
    took.each_mut()
        .map(|(ours, rust)| (median(ours), median(rust)))
}
