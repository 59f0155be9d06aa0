//! Diffs replayed, plain and covering.

use oracle::{
    flat::{self, ITEM_STRIDE, NUMBER, TEXT},
    paper::{
        cases::diffs::good,
        diff,
        refusal::{AMPLE, Refusal, size},
    },
    random::Random,
};

use crate::{
    damage::{damage, garbage, near_i64, near_u32},
    family::{Family, Kind, OneRoom, Part, Tally, call},
    memory::{Lent, Room, Style},
    plan::Plan,
};

#[derive(Clone)]
pub struct Diff {
    pub original: Vec<u32>,
    pub items: Vec<i64>,
    pub text: Vec<u32>,
}

/// Items for all tiny diffs, over a text of 2: numbers, ranges inside and outside, an unknown kind.
pub const ITEMS: [[i64; 3]; 16] = [
    [NUMBER, 0, 0],
    [NUMBER, 1, 7],
    [NUMBER, 2, 0],
    [NUMBER, 3, 0],
    [NUMBER, -1, 0],
    [NUMBER, -2, -9],
    [NUMBER, i64::MIN, 0],
    [NUMBER, i64::MAX, 0],
    [TEXT, 0, 0],
    [TEXT, 0, 1],
    [TEXT, 1, 1],
    [TEXT, 0, 2],
    [TEXT, 2, 0],
    [TEXT, 1, 2],
    [TEXT, -1, 1],
    [2, 0, 0],
];

/// All lists of so many of these items.
pub fn tiny(count: usize, each: &mut dyn FnMut(Vec<i64>)) {
    for list in 0..ITEMS.len().pow(count as u32) {
        let item = |place: usize| ITEMS[list / ITEMS.len().pow(place as u32) % ITEMS.len()];
        each((0..count).flat_map(item).collect());
    }
}

/// Sizes of a diff: each small, or at its limit, one less or one more.
pub fn at_limits(random: &mut Random) -> Diff {
    fn near(random: &mut Random, limit: usize, small: u64) -> usize {
        match random.below(2) {
            0 => limit - 1 + random.below(3) as usize,
            _ => random.below(small) as usize,
        }
    }
    let length = near(random, size::ORIGINAL, 40);
    let count = near(random, size::DIFF_ITEMS, 40);
    let used = near(random, size::DIFF_TEXT, 100);
    // The text is lent once for all, or used again and again.
    let lent = match random.below(2) {
        0 => used,
        _ => near(random, size::DIFF_TEXT, 100),
    };
    let letters = |random: &mut Random, count: usize| -> Vec<u32> {
        (0..count).map(|_| 0x61 + random.below(26) as u32).collect()
    };
    let original = letters(random, length);
    let text = letters(random, lent);

    let share = |whole: usize, place: usize, places: usize| {
        whole * (place + 1) / places - whole * place / places
    };
    let texts = random.below(count as u64 + 1) as usize;
    let (mut mentioned, mut spelled) = (0, 0);
    let mut items = Vec::new();
    let mut after_keep = false;
    for left in (1..=count).rev() {
        if random.below(left as u64) < (texts - spelled) as u64 {
            let range = share(used, spelled, texts).min(lent);
            let start = random.below((lent - range) as u64 + 1);
            items.extend([TEXT, start as i64, range as i64]);
            spelled += 1;
            after_keep = false;
        } else {
            // Neighbouring keeps could not be written.
            let magnitude = share(length, mentioned, count - texts) as i64;
            after_keep = !after_keep && random.below(2) == 0;
            items.extend([NUMBER, if after_keep { magnitude } else { -magnitude }, 0]);
            mentioned += 1;
        }
    }
    let mut diff = Diff {
        original,
        items,
        text,
    };
    if random.below(3) == 0 {
        spoil(random, &mut diff);
    }
    diff
}

pub fn spoil(random: &mut Random, diff: &mut Diff) {
    match random.below(6) {
        0 => damage(random, &mut diff.original, 1, near_u32),
        1 => damage(random, &mut diff.text, 1, near_u32),
        _ => damage(random, &mut diff.items, ITEM_STRIDE, near_i64),
    }
}

pub fn nonsense(random: &mut Random) -> Diff {
    Diff {
        original: garbage(random, 8, |number| number as u32, near_u32),
        items: garbage(random, 12, |number| number as i64 - 1, near_i64),
        text: garbage(random, 6, |number| number as u32, near_u32),
    }
}

pub struct Replays {
    original: Lent<u32>,
    items: Lent<i64>,
    text: Lent<u32>,
    out: Room<u32>,
}

/// That the completed Rust replays as the paper is read, where the two have the same checks.
fn agree(input: &Diff, plain: &Result<Vec<u32>, Refusal>) -> Result<(), String> {
    let Diff {
        original,
        items,
        text,
    } = input;
    let agree = match plain {
        Ok(replayed) => flat::replay(original, items, text).is_ok_and(|text| text == *replayed),
        Err(Refusal::Short { .. }) => flat::replay(original, items, text).is_err(),
        Err(_) => true,
    };
    if agree {
        return Ok(());
    }
    Err("the Rust's replay is not the paper's".into())
}

impl Family for Replays {
    type Input = Diff;

    const CALLS: &'static [&'static str] = &[
        "from_diff_length",
        "from_diff",
        "from_covering_diff_length",
        "from_covering_diff",
    ];
    const FULL: u64 = 10_000_000;
    const LIMITS: u64 = 2_000;

    fn new(style: Style) -> Self {
        Self {
            original: Lent::new(style),
            items: Lent::new(style),
            text: Lent::new(style),
            out: Room::new(style),
        }
    }

    fn inputs(plan: &Plan, each: &mut dyn FnMut(Kind, Diff)) {
        for count in 0..=plan.depth(1, 3, 4) {
            tiny(count, &mut |items| {
                for length in 0..=3 {
                    each(
                        Kind::Tiny,
                        Diff {
                            original: (1..=length).collect(),
                            items: items.clone(),
                            text: vec![8, 9],
                        },
                    );
                }
            });
        }
        plan.make(Kind::Limits, each, at_limits);

        let good = |random: &mut Random| {
            let (original, items, text) = good(random);
            Diff {
                original,
                items,
                text,
            }
        };
        plan.make(Kind::Random, each, good);
        plan.make(Kind::Damaged, each, |random| {
            let mut diff = good(random);
            for _ in 0..=random.below(2) {
                spoil(random, &mut diff);
            }
            diff
        });
        plan.make(Kind::Garbage, each, nonsense);
    }

    fn compare(&mut self, input: &Diff, salt: u64, tally: &mut Tally) -> Result<(), String> {
        let mut room = OneRoom::new(salt);
        let original = self.original.lend(&input.original, salt);
        let items = self.items.lend(&input.items, salt);
        let text = self.text.lend(&input.text, salt);

        let answer = diff::replay(&input.original, &input.items, &input.text, AMPLE);
        agree(input, &answer)?;
        let length = call!(fleecelatch_from_diff_length(original, items, text));
        room.compare(tally, 0, &answer, length, &mut self.out, |out| {
            call!(fleecelatch_from_diff(original, items, text, out))
        })?;

        let answer = diff::covering_replay(&input.original, &input.items, &input.text, AMPLE);
        let length = call!(fleecelatch_from_covering_diff_length(original, items, text));
        room.compare(tally, 2, &answer, length, &mut self.out, |out| {
            call!(fleecelatch_from_covering_diff(original, items, text, out))
        })
    }

    fn parts(input: &mut Diff) -> Vec<(&'static str, &mut dyn Part)> {
        vec![
            ("original", &mut input.original),
            ("items", &mut input.items),
            ("text", &mut input.text),
        ]
    }
}
