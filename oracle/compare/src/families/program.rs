//! The program's work, from the bytes of three files.

use oracle::{
    flat::{NUMBER, TEXT},
    paper::{
        cases::programs::{Triple, largest_edit_file, triple},
        edit_file,
        program::program,
        refusal::{AMPLE, Refusal, size},
    },
    random::Random,
};

use super::edit_files;
use crate::{
    damage::{damage, near_byte},
    family::{Family, Kind, Part, Tally, call, rooms},
    memory::{Lent, Room, Style},
    plan::Plan,
};

pub struct MergeFiles {
    original: Lent<u8>,
    left: Lent<u8>,
    right: Lent<u8>,
    out: Room<u8>,
}

fn written(items: &[i64], text: &[u32]) -> Vec<u8> {
    edit_file::write(items, text, AMPLE).expect("the diff can be written")
}

/// The edit files of up to so many items for an original of this length.
fn edits(length: i64, most: usize) -> Vec<Vec<u8>> {
    fn extend(items: &mut Vec<[i64; 3]>, left: i64, most: usize, files: &mut Vec<Vec<u8>>) {
        if left == 0 {
            files.push(written(&items.concat(), &[0x61, 0x62]));
        }
        if items.len() == most {
            return;
        }
        let after_keep = matches!(items.last(), Some([NUMBER, number, _]) if *number > 0);
        let keeps = (1..=left)
            .filter(|_| !after_keep)
            .map(|keep| [NUMBER, keep, 0]);
        let drops = (1..=left).map(|drop| [NUMBER, -drop, 0]);
        let adds = [[TEXT, 0, 1], [TEXT, 1, 1], [TEXT, 0, 2]];
        for item in keeps.chain(drops).chain(adds).collect::<Vec<_>>() {
            let taken = if item[0] == NUMBER { item[1].abs() } else { 0 };
            items.push(item);
            extend(items, left - taken, most, files);
            items.pop();
        }
    }
    let mut files = Vec::new();
    extend(&mut Vec::new(), length, most, &mut files);
    files
}

/// Edits of an original until the file is nearly as large as may be, or just larger.
fn large(random: &mut Random, original: usize) -> Vec<u8> {
    let mut items = Vec::new();
    let mut text = Vec::new();
    let mut left = original as u64;
    let mut bytes = 60;
    let most = size::PROGRAM_FILE as u64 - random.below(80);
    let mut after_keep = false;
    while left > 0 && bytes < most {
        let taken = 1 + random.below(left.min(30));
        let kind = random.below(if after_keep { 2 } else { 3 });
        after_keep = kind == 2;
        match kind {
            0 => {
                let count = 1 + random.below(12);
                items.extend([TEXT, text.len() as i64, count as i64]);
                text.extend((0..count).map(|_| 0x61 + random.below(3) as u32));
                bytes += 4 + 3 * count;
                continue;
            }
            1 => items.extend([NUMBER, -(taken as i64), 0]),
            _ => items.extend([NUMBER, taken as i64, 0]),
        }
        left -= taken;
        bytes += 7;
    }
    if left > 0 {
        items.extend([NUMBER, -(left as i64), 0]);
    }
    written(&items, &text)
}

/// Files at the largest size, one byte less or more, or with as much as they may hold.
fn at_limits(random: &mut Random) -> Triple {
    let length = match random.below(3) {
        0 => random.below(40) as usize,
        1 => size::PROGRAM_FILE - 1 + random.below(3) as usize,
        _ => random.below(size::PROGRAM_FILE as u64) as usize,
    };
    let original = (0..length).map(|_| b'a' + random.below(3) as u8).collect();
    let mut files = [original, large(random, length), large(random, length)];
    match random.below(6) {
        0 => files[1] = largest_edit_file(),
        1 => {
            let place = random.below(3) as usize;
            let size = size::PROGRAM_FILE - 1 + random.below(3) as usize;
            files[place].resize(size, b'7');
        }
        _ => {}
    }
    files
}

impl Family for MergeFiles {
    type Input = Triple;

    const CALLS: &'static [&'static str] = &["merge_files"];
    const FULL: u64 = 1_000_000;
    const LIMITS: u64 = 3_000;

    fn new(style: Style) -> Self {
        Self {
            original: Lent::new(style),
            left: Lent::new(style),
            right: Lent::new(style),
            out: Room::new(style),
        }
    }

    fn inputs(plan: &Plan, each: &mut dyn FnMut(Kind, Triple)) {
        for original in ["", "a", "a\u{1F411}"] {
            let edits = edits(original.chars().count() as i64, plan.depth(1, 2, 3));
            for left in &edits {
                for right in &edits {
                    each(Kind::Tiny, [original.into(), left.clone(), right.clone()]);
                }
            }
        }
        plan.make(Kind::Limits, each, at_limits);
        plan.make(Kind::Random, each, triple);
        plan.make(Kind::Damaged, each, |random| {
            let mut files = triple(random);
            for _ in 0..=random.below(2) {
                match random.below(5) {
                    0 => damage(random, &mut files[0], 1, near_byte),
                    place => edit_files::spoil(random, &mut files[1 + place as usize % 2]),
                }
            }
            files
        });
        plan.make(Kind::Garbage, each, |random| {
            [0; 3].map(|_| match random.below(3) {
                0 => edit_files::good_file(random),
                _ => edit_files::nonsense(random),
            })
        });
    }

    fn compare(&mut self, input: &Triple, salt: u64, tally: &mut Tally) -> Result<(), String> {
        let [original, left, right] = input;
        let written = program(Some(original), Some(left), Some(right));
        let refused = std::str::from_utf8(&written)
            .ok()
            .and_then(|line| line.strip_prefix("refused=")?.trim_end().parse().ok());
        let asked = [written.len()];
        let lent = rooms(&mut Random::new(salt), Some(asked));

        let original = self.original.lend(original, salt);
        let left = self.left.lend(left, salt);
        let right = self.right.lend(right, salt);
        let out = self.out.lend(lent[0], salt);
        let got = call!(fleecelatch_merge_files(original, left, right, out));
        let short = lent[0] < written.len();
        if short {
            tally.answer::<1>(0, got, Err(Refusal::Room))?;
        } else {
            let counts = [written.len(), usize::from(refused.is_some())];
            tally.answer_as(0, got, Ok(counts), refused)?;
        }
        self.out.holds("out", if short { &[] } else { &written })
    }

    fn parts(input: &mut Triple) -> Vec<(&'static str, &mut dyn Part)> {
        let [original, left, right] = input;
        vec![("original", original), ("left", left), ("right", right)]
    }
}
