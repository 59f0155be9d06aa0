//! Edit files, read, believed and written.

use oracle::{
    flat::ITEM_STRIDE,
    paper::{
        cases::edit_files::{WHOLE, good, limits},
        edit_file::{self, EditFile},
        refusal::AMPLE,
    },
    random::Random,
};

use super::diffs::{self, Diff};
use crate::{
    damage::{damage, near_byte},
    family::{Family, Kind, OneRoom, Part, Tally, call, fitted, rooms},
    memory::{Lent, Room, Style},
    plan::Plan,
};

/// Item lines of all tiny files, each with what it keeps, drops and adds.
const LINES: [(&[u8], [usize; 3]); 12] = [
    (b"keep=1", [1, 0, 0]),
    (b"keep=12", [12, 0, 0]),
    (b"drop=1", [0, 1, 0]),
    (b"drop=3", [0, 3, 0]),
    (b"add=a", [0, 0, 1]),
    (b"add=0 10ffff", [0, 0, 2]),
    (b"keep=0", [0, 0, 0]),
    (b"drop=01", [0, 1, 0]),
    (b"add=", [0, 0, 0]),
    (b"add=d800", [0, 0, 1]),
    (b"end=1", [0, 0, 0]),
    (b"", [0, 0, 0]),
];

/// All files of so many of these items: the sums right, or one of the header's numbers or the
/// end's one more.
fn tiny(count: usize, each: &mut dyn FnMut(Vec<u8>)) {
    for list in 0..LINES.len().pow(count as u32) {
        let line = |place: usize| LINES[list / LINES.len().pow(place as u32) % LINES.len()];
        let lines: Vec<_> = (0..count).map(line).collect();
        let sum = |which: usize| lines.iter().map(|(_, sums)| sums[which]).sum::<usize>();
        let right = [sum(0) + sum(1), sum(0) + sum(2), count, count];
        for wrong in 0..=right.len() {
            let mut numbers = right;
            if let Some(number) = numbers.get_mut(wrong) {
                *number += 1;
            }
            let [original, result, items, end] = numbers;
            let mut file = format!("form=1\noriginal={original}\nresult={result}\nitems={items}\n")
                .into_bytes();
            for (line, _) in &lines {
                file.extend(*line);
                file.push(b'\n');
            }
            file.extend(format!("end={end}\n").bytes());
            each(file);
        }
    }
}

pub fn good_file(random: &mut Random) -> Vec<u8> {
    let (items, text) = good(random);
    edit_file::write(&items, &text, AMPLE).expect("the diff can be written")
}

/// A byte, or a whole line: missing, repeated, exchanged, or from another file.
pub fn spoil(random: &mut Random, file: &mut Vec<u8>) {
    if random.below(2) == 0 {
        return damage(random, file, 1, near_byte);
    }
    let mut lines: Vec<Vec<u8>> = file
        .split_inclusive(|&byte| byte == b'\n')
        .map(Vec::from)
        .collect();
    if lines.is_empty() {
        return;
    }
    let other = good_file(random);
    let others: Vec<&[u8]> = other.split_inclusive(|&byte| byte == b'\n').collect();
    let place = random.below(lines.len() as u64) as usize;
    let second = random.below(lines.len() as u64) as usize;
    match random.below(4) {
        0 => drop(lines.remove(place)),
        1 => lines.insert(second, lines[place].clone()),
        2 => lines.swap(place, second),
        _ => lines[place] = others[random.below(others.len() as u64) as usize].to_vec(),
    }
    *file = lines.concat();
}

/// Pieces of lines in any order, or any bytes.
pub fn nonsense(random: &mut Random) -> Vec<u8> {
    const PIECES: [&[u8]; 16] = [
        b"form=1\n",
        b"original=",
        b"result=",
        b"items=",
        b"keep=",
        b"drop=",
        b"add=",
        b"end=",
        b"\n",
        b"0",
        b"1",
        b"1\n",
        b"2\n",
        b" ",
        b"a",
        b"99999999999999999999",
    ];
    match random.below(4) {
        0 => (0..random.below(40)).map(|_| random.next() as u8).collect(),
        begun => {
            let mut file = Vec::new();
            if begun > 1 {
                let mut good = good_file(random);
                good.truncate(random.below(good.len() as u64) as usize);
                file = good;
            }
            for _ in 0..random.below(12) {
                file.extend(PIECES[random.below(16) as usize]);
            }
            file
        }
    }
}

pub struct Read {
    bytes: Lent<u8>,
    items: Room<i64>,
    text: Room<u32>,
}

impl Family for Read {
    type Input = Vec<u8>;

    const CALLS: &'static [&'static str] = &[
        "edit_file_read_lengths",
        "edit_file_read",
        "edit_file_believed",
    ];
    const FULL: u64 = 10_000_000;
    const LIMITS: u64 = 600;

    fn new(style: Style) -> Self {
        Self {
            bytes: Lent::new(style),
            items: Room::new(style),
            text: Room::new(style),
        }
    }

    fn inputs(plan: &Plan, each: &mut dyn FnMut(Kind, Vec<u8>)) {
        for count in 0..=plan.depth(1, 2, 4) {
            tiny(count, &mut |file| each(Kind::Tiny, file));
        }
        // Each beginning of good files, and each byte of them replaced.
        for (file, _) in WHOLE {
            let file = file.as_bytes();
            for place in 0..file.len() {
                each(Kind::Damaged, file[..place].to_vec());
                for byte in (0..=u8::MAX).step_by(plan.depth(51, 1, 1)) {
                    let mut file = file.to_vec();
                    file[place] = byte;
                    each(Kind::Damaged, file);
                }
            }
        }

        let limits = limits();
        let whole = limits
            .iter()
            .take(plan.depth(3, limits.len(), limits.len()));
        whole.for_each(|file| each(Kind::Limits, file.clone().into_bytes()));
        plan.make(Kind::Limits, each, |random| {
            let place = random.below(limits.len() as u64) as usize;
            let mut file = limits[place].clone().into_bytes();
            damage(random, &mut file, 1, near_byte);
            file
        });

        plan.make(Kind::Random, each, good_file);
        plan.make(Kind::Damaged, each, |random| {
            let mut file = good_file(random);
            for _ in 0..=random.below(2) {
                spoil(random, &mut file);
            }
            file
        });
        plan.make(Kind::Garbage, each, nonsense);
    }

    fn compare(&mut self, input: &Vec<u8>, salt: u64, tally: &mut Tally) -> Result<(), String> {
        let mut random = Random::new(salt);
        let answer = edit_file::read(input, AMPLE, AMPLE);
        let counts = |file: &EditFile| [file.items.len() / ITEM_STRIDE, file.text.len()];
        let asked = |file: &EditFile| [file.items.len(), file.text.len()];
        let asked = answer.as_ref().ok().map(asked);
        let bytes = self.bytes.lend(input, salt);

        let got = call!(fleecelatch_edit_file_read_lengths(bytes));
        tally.answer(0, got, fitted(&answer, None, [0; 2]).map(counts))?;

        let lent = rooms(&mut random, asked);
        let items = self.items.lend(lent[0], salt);
        let text = self.text.lend(lent[1], salt);
        let got = call!(fleecelatch_edit_file_read(bytes, items, text));
        let file = fitted(&answer, asked, lent);
        tally.answer(1, got, file.map(counts))?;
        self.items
            .holds("items", file.map_or(&[], |file| &file.items))?;
        self.text
            .holds("text", file.map_or(&[], |file| &file.text))?;

        // For the file's own original, one beside it, and any.
        let own = answer.map_or(0, |file| file.original);
        let original = match random.below(4) {
            0 | 1 => own,
            2 => own.wrapping_add(random.below(3) as usize).wrapping_sub(1),
            _ => random.next() as usize >> random.below(64),
        };
        let believed = usize::from(edit_file::believed(input, original));
        // SAFETY: the bytes are lent.
        let got =
            unsafe { crate::library::fleecelatch_edit_file_believed(bytes.0, bytes.1, original) };
        tally.answer(2, got, Ok([believed]))
    }

    fn parts(input: &mut Vec<u8>) -> Vec<(&'static str, &mut dyn Part)> {
        vec![("bytes", input)]
    }
}

pub struct Write {
    items: Lent<i64>,
    text: Lent<u32>,
    out: Room<u8>,
}

/// A diff that can be written; writing takes no original.
fn good_diff(random: &mut Random) -> Diff {
    let (items, text) = good(random);
    Diff {
        original: vec![],
        items,
        text,
    }
}

impl Family for Write {
    type Input = Diff;

    const CALLS: &'static [&'static str] = &["edit_file_write_length", "edit_file_write"];
    const FULL: u64 = 10_000_000;
    const LIMITS: u64 = 1_000;

    fn new(style: Style) -> Self {
        Self {
            items: Lent::new(style),
            text: Lent::new(style),
            out: Room::new(style),
        }
    }

    fn inputs(plan: &Plan, each: &mut dyn FnMut(Kind, Diff)) {
        for count in 0..=plan.depth(1, 3, 4) {
            diffs::tiny(count, &mut |items| {
                let diff = Diff {
                    original: vec![],
                    items,
                    text: vec![0xA, 0x10_FFFF],
                };
                each(Kind::Tiny, diff);
            });
        }
        plan.make(Kind::Limits, each, diffs::at_limits);
        plan.make(Kind::Random, each, good_diff);
        plan.make(Kind::Damaged, each, |random| {
            let mut diff = good_diff(random);
            for _ in 0..=random.below(2) {
                diffs::spoil(random, &mut diff);
            }
            diff
        });
        plan.make(Kind::Garbage, each, diffs::nonsense);
    }

    fn compare(&mut self, input: &Diff, salt: u64, tally: &mut Tally) -> Result<(), String> {
        let answer = edit_file::write(&input.items, &input.text, AMPLE);
        let items = self.items.lend(&input.items, salt);
        let text = self.text.lend(&input.text, salt);
        let length = call!(fleecelatch_edit_file_write_length(items, text));
        OneRoom::new(salt).compare(tally, 0, &answer, length, &mut self.out, |out| {
            call!(fleecelatch_edit_file_write(items, text, out))
        })
    }

    fn parts(input: &mut Diff) -> Vec<(&'static str, &mut dyn Part)> {
        vec![("items", &mut input.items), ("text", &mut input.text)]
    }
}
