//! The overlap of inserts, called alone.

use oracle::{
    paper::{
        calls,
        refusal::{AMPLE, size},
    },
    random::Random,
};

use crate::{
    damage::{damage, garbage, near_u32},
    family::{Family, Kind, Part, Tally, call, fitted, rooms},
    memory::{Lent, Room, Style},
    plan::Plan,
};

#[derive(Clone, Default)]
pub struct Keys {
    old: Vec<u32>,
    new: Vec<u32>,
}

fn keys(random: &mut Random, length: u64, of: u64) -> Vec<u32> {
    (0..length).map(|_| random.below(of) as u32).collect()
}

/// Keys of which new often continues a part of old.
fn alike(random: &mut Random, most: u64) -> Keys {
    let of = 1 + random.below(4);
    let length = random.below(most + 1);
    let old = keys(random, length, of);
    let start = random.below(length + 1) as usize;
    let part = random.below((old.len() - start) as u64 + 1) as usize;
    let rest = random.below(most / 4 + 1);
    let new = [&old[start..start + part], &keys(random, rest, of)].concat();
    Keys { old, new }
}

/// Repeated pieces, on which a search falls back often.
fn repeated(random: &mut Random, most: usize) -> Keys {
    let period = 1 + random.below(6);
    let piece = keys(random, period, 2);
    let mut side = || {
        let length = random.below(most as u64 + 1) as usize;
        let mut side: Vec<u32> = piece.iter().copied().cycle().take(length).collect();
        for _ in 0..random.below(3) {
            damage(random, &mut side, 1, |random, _| random.below(2) as u32);
        }
        side
    };
    Keys {
        old: side(),
        new: side(),
    }
}

/// All strings of keys below `of` of at most this length.
fn all(of: u32, most: usize) -> Vec<Vec<u32>> {
    let mut strings = vec![vec![]];
    let mut last = 0;
    for _ in 0..most {
        let end = strings.len();
        for place in last..end {
            for key in 0..of {
                strings.push([&strings[place][..], &[key]].concat());
            }
        }
        last = end;
    }
    strings
}

pub struct Overlap {
    old: Lent<u32>,
    new: Lent<u32>,
    work: Room<u32>,
}

impl Family for Overlap {
    type Input = Keys;

    const CALLS: &'static [&'static str] = &["find_longest_prefix_contained_within"];
    const FULL: u64 = 10_000_000;
    const LIMITS: u64 = 1_000;

    fn new(style: Style) -> Self {
        Self {
            old: Lent::new(style),
            new: Lent::new(style),
            work: Room::new(style),
        }
    }

    fn inputs(plan: &Plan, each: &mut dyn FnMut(Kind, Keys)) {
        for (of, most) in [(2, plan.depth(3, 7, 9)), (3, plan.depth(2, 4, 5))] {
            let strings = all(of, most);
            for old in &strings {
                for new in &strings {
                    let (old, new) = (old.clone(), new.clone());
                    each(Kind::Tiny, Keys { old, new });
                }
            }
        }

        plan.make(Kind::Limits, each, |random| {
            let limit = size::OVERLAP_TOKENS;
            let mut input = match random.below(2) {
                0 => alike(random, limit as u64 + 2),
                _ => repeated(random, limit + 2),
            };
            for side in [&mut input.old, &mut input.new] {
                if random.below(3) > 0 {
                    let last = side.last().copied().unwrap_or(0);
                    side.resize(limit - 1 + random.below(3) as usize, last);
                }
            }
            input
        });

        plan.make(Kind::Random, each, |random| match random.below(2) {
            0 => alike(random, 24),
            _ => repeated(random, 24),
        });
        plan.make(Kind::Damaged, each, |random| {
            let mut input = alike(random, 24);
            damage(random, &mut input.new, 1, near_u32);
            damage(random, &mut input.old, 1, |random, _| {
                random.below(4) as u32
            });
            input
        });
        plan.make(Kind::Garbage, each, |random| Keys {
            old: garbage(random, 30, |number| number as u32, near_u32),
            new: garbage(random, 12, |number| number as u32, near_u32),
        });
    }

    fn compare(&mut self, input: &Keys, salt: u64, tally: &mut Tally) -> Result<(), String> {
        let Keys { old, new } = input;
        let answer = calls::overlap(old, new, AMPLE);
        let asked = answer.as_ref().ok().map(|_| [new.len()]);
        let (lent_old, lent_new) = (self.old.lend(old, salt), self.new.lend(new, salt));

        let lent = rooms(&mut Random::new(salt), asked);
        let work = self.work.lend(lent[0], salt);
        let got = call!(fleecelatch_find_longest_prefix_contained_within(
            lent_old, lent_new, work
        ));
        let answer = fitted(&answer, asked, lent);
        tally.answer(0, got, answer.map(|range| [range.start, range.end]))?;
        self.work.is_kept("work", answer.map_or(0, |_| new.len()))
    }

    fn parts(input: &mut Keys) -> Vec<(&'static str, &mut dyn Part)> {
        vec![("old", &mut input.old), ("new", &mut input.new)]
    }
}
