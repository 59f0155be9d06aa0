//! Ratios, as a table in Markdown.

use crate::{clock::contend, contests};

const BUDGET: u64 = 1_000_000_000;

/// Every contest whose call or input has `part` in its name.
pub fn print(part: &str) {
    println!("| call | input | ours, µs | Rust, µs | ratio |");
    println!("|---|---|---:|---:|---:|");
    let mut contests = contests::growing(8, 1);
    contests.extend(contests::small());
    // Rows of one call stand together, in the order in which the calls are first met.
    let calls: Vec<_> = contests.iter().map(|contest| contest.call).collect();
    contests.sort_by_key(|contest| calls.iter().position(|call| *call == contest.call));
    for mut contest in contests {
        if !(contest.call.contains(part) || contest.input.contains(part)) {
            continue;
        }
        let medians = contend(&mut contest, BUDGET);
        println!(
            "| {} | {} | {:.2} | {:.2} | {:.2} |",
            contest.call,
            contest.input,
            medians.ours / 1_000.0,
            medians.rust / 1_000.0,
            medians.ratio()
        );
    }
}
