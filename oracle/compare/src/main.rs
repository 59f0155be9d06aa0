//! Compares the static library with the oracle, call by call: what is answered, every room, what
//! stands around the rooms. Ends with 1 at the first difference, with the smallest input found.

mod damage;
mod families;
mod family;
mod library;
mod memory;
mod pages;
mod plan;
mod trap;

use std::{
    process::exit,
    time::{Duration, Instant},
};

use oracle::random::Random;

use families::{diffs, edit_files, elongate, merge, overlap, program, utf8, views};
use family::{Family, KINDS, Tally};
use memory::Style;
use plan::{Level, Plan};

const USAGE: &str = "usage: compare quick|full|pages|memcheck [CALL..] [--seed N] [--cases N]

quick     a few inputs for every call, under two minutes
full      ten million inputs for the cheap calls, a million and more merges
pages     rooms and inputs end at an unreadable page
memcheck  rooms and inputs of exactly their length, few inputs: for valgrind
CALL      compare this call, with those that share its inputs; else all
--seed    the seed of all inputs, 1 if not given
--cases   how many random, damaged and garbage inputs to make for a group of calls";

struct Options {
    level: Level,
    calls: Vec<String>,
    seed: u64,
    cases: Option<u64>,
}

impl Options {
    fn parse(mut arguments: impl Iterator<Item = String>) -> Option<Self> {
        let level = match arguments.next()?.as_str() {
            "quick" => Level::Quick,
            "full" => Level::Full,
            "pages" => Level::Pages,
            "memcheck" => Level::Memcheck,
            _ => return None,
        };
        let mut options = Self {
            level,
            calls: Vec::new(),
            seed: 1,
            cases: None,
        };
        while let Some(argument) = arguments.next() {
            match argument.as_str() {
                "--seed" => options.seed = arguments.next()?.parse().ok()?,
                "--cases" => options.cases = Some(arguments.next()?.parse().ok()?),
                call if CALLS.concat().contains(&call) => options.calls.push(call.into()),
                _ => return None,
            }
        }
        Some(options)
    }

    fn style(&self) -> Style {
        match self.level {
            Level::Quick | Level::Full => Style::Guards,
            Level::Pages => Style::Pages,
            Level::Memcheck => Style::Exact,
        }
    }
}

/// Compares a group of calls, if it is asked for. Ends the process at the first difference.
fn compare<F: Family>(options: &Options) {
    let asked = |call: &&str| options.calls.iter().any(|asked| asked == call);
    if !options.calls.is_empty() && !F::CALLS.iter().any(asked) {
        return;
    }

    let begun = Instant::now();
    let plan = Plan::of::<F>(options.level, options.seed, options.cases);
    let mut family = F::new(options.style());
    let mut tally = Tally::new(F::CALLS);
    let mut salts = Random::new(options.seed);
    let mut kinds = [0; KINDS.len()];
    F::inputs(&plan, &mut |kind, input| {
        let salt = salts.next();
        kinds[kind as usize] += 1;
        trap::at(F::CALLS[0], kinds.iter().sum());
        if family.compare(&input, salt, &mut tally).is_err() {
            let (made, kind) = (kinds.iter().sum::<u64>(), KINDS[kind as usize]);
            println!("input {made}, {kind}, seed {}:", options.seed);
            tell(&mut family, input, salt);
            exit(1);
        }
    });
    print(&tally, kinds, begun.elapsed().as_secs_f64());
}

/// How long an input is made smaller at most.
const PATIENCE: Duration = Duration::from_secs(20);

/// Drops parts of an input as long as it still fails, then prints it.
fn tell<F: Family>(family: &mut F, mut input: F::Input, salt: u64) {
    let mut fails = |input: &F::Input| {
        let mut tally = Tally::new(F::CALLS);
        let compared = family.compare(input, salt, &mut tally);
        compared.err().map(|what| format!("{}: {what}", tally.last))
    };
    let begun = Instant::now();
    let mut dropped = true;
    while dropped {
        dropped = false;
        for part in 0..F::parts(&mut input).len() {
            let mut count = F::parts(&mut input)[part].1.length();
            while count > 0 {
                let mut start = 0;
                while start + count <= F::parts(&mut input)[part].1.length()
                    && begun.elapsed() < PATIENCE
                {
                    let mut smaller = input.clone();
                    F::parts(&mut smaller)[part].1.remove(start, count);
                    if fails(&smaller).is_some() {
                        input = smaller;
                        dropped = true;
                    } else {
                        start += count;
                    }
                }
                count /= 2;
            }
        }
    }
    println!("{}", fails(&input).unwrap_or_default());
    for (name, part) in F::parts(&mut input) {
        println!("  {name}: {part:?}");
    }
}

fn print(tally: &Tally, kinds: [u64; KINDS.len()], seconds: f64) {
    let inputs: u64 = kinds.iter().sum();
    let by_kind: Vec<String> = KINDS
        .iter()
        .zip(kinds)
        .map(|(name, count)| format!("{name} {count}"))
        .collect();
    println!("{inputs} inputs: {}; {seconds:.1} s", by_kind.join(", "));
    for (call, by_number) in &tally.rows {
        print!("{call:<37}{:>10}", by_number.iter().sum::<u64>());
        for cases in by_number {
            print!(" {cases:>9}");
        }
        println!();
    }
}

macro_rules! families {
    ($($family:ty),* $(,)?) => {
        const CALLS: &[&[&str]] = &[$(<$family>::CALLS),*];

        fn compare_all(options: &Options) {
            $(compare::<$family>(options);)*
        }
    };
}

families!(
    utf8::Read,
    utf8::Write,
    overlap::Overlap,
    diffs::Replays,
    edit_files::Read,
    edit_files::Write,
    elongate::Elongate,
    views::Views,
    merge::Merging,
    program::MergeFiles,
);

fn main() {
    let Some(options) = Options::parse(std::env::args().skip(1)) else {
        eprintln!("{USAGE}");
        exit(2);
    };
    trap::set();
    print!(
        "seed {}\n{:<37}{:>10} {:>9}",
        options.seed, "call", "cases", "accepted"
    );
    (1..=10).for_each(|number| print!(" {:>9}", format!("no. {number}")));
    println!();

    compare_all(&options);
    println!("no difference");
}
