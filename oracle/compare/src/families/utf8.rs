//! UTF-8, read and written.

use oracle::{
    paper::{refusal::AMPLE, utf8},
    random::Random,
};

use crate::{
    damage::{damage, near_byte, near_u32},
    family::{Family, Kind, OneRoom, Part, Tally, call},
    memory::{Lent, Room, Style},
    plan::Plan,
};

/// Both sides of each change of length or of goodness.
const POINTS: [u32; 14] = [
    0, 0x7F, 0x80, 0x7FF, 0x800, 0xD7FF, 0xD800, 0xDFFF, 0xE000, 0xFFFD, 0xFFFF, 0x1_0000,
    0x10_FFFF, 0x11_0000,
];

/// The edges of the RFC's ranges of bytes.
const BYTES: [u8; 22] = [
    0x00, 0x7F, 0x80, 0x8F, 0x90, 0x9F, 0xA0, 0xBF, 0xC0, 0xC1, 0xC2, 0xDF, 0xE0, 0xE1, 0xEC, 0xED,
    0xEF, 0xF0, 0xF3, 0xF4, 0xF5, 0xFF,
];

/// A good sequence of each length and each way to be bad.
const SEQUENCES: [&[u8]; 14] = [
    b"\x7F",
    b"\xC3\xA9",
    b"\xE2\x82\xAC",
    b"\xF0\x9F\x90\x91",
    b"\x80",
    b"\xC1\xBF",
    b"\xC3",
    b"\xE0\x9F\xBF",
    b"\xE2\x82",
    b"\xED\xA0\x80",
    b"\xF0\x8F\xBF\xBF",
    b"\xF0\x9F\x90",
    b"\xF4\x90\x80\x80",
    b"\xF8\x88\x80\x80\x80",
];

/// A code point; those of one text have mostly the same number of bytes.
fn point(random: &mut Random, bits: u64) -> u32 {
    let bits = match random.below(6) {
        0 => 1 + random.below(21),
        _ => bits,
    };
    match random.below(1 << bits) as u32 {
        0xD800..=0xDFFF => 0xFFFD,
        point => point.min(0x10_FFFF),
    }
}

fn text(random: &mut Random, most: u64) -> Vec<u32> {
    let bits = [7, 7, 11, 16, 21][random.below(5) as usize];
    (0..random.below(most + 1))
        .map(|_| point(random, bits))
        .collect()
}

fn bytes(random: &mut Random, most: u64) -> Vec<u8> {
    utf8::write(&text(random, most), AMPLE).expect("these are code points")
}

/// All strings of so many of these.
fn all<T: Copy>(of: &[T], length: usize, each: &mut dyn FnMut(Vec<T>)) {
    let mut places = vec![0; length];
    loop {
        each(places.iter().map(|&place: &usize| of[place]).collect());
        let Some(next) = places.iter().rposition(|&place| place + 1 < of.len()) else {
            return;
        };
        places[next] += 1;
        places[next + 1..].fill(0);
    }
}

pub struct Read {
    bytes: Lent<u8>,
    out: Room<u32>,
}

impl Family for Read {
    type Input = Vec<u8>;

    const CALLS: &'static [&'static str] = &["utf8_read_length", "utf8_read"];
    const FULL: u64 = 10_000_000;
    const LIMITS: u64 = 3_000;

    fn new(style: Style) -> Self {
        Self {
            bytes: Lent::new(style),
            out: Room::new(style),
        }
    }

    fn inputs(plan: &Plan, each: &mut dyn FnMut(Kind, Vec<u8>)) {
        let every: Vec<u8> = (0..=u8::MAX).collect();
        for length in 0..=plan.depth(1, 2, 3) {
            all(&every, length, &mut |input| each(Kind::Tiny, input));
        }
        all(&BYTES, plan.depth(2, 4, 4), &mut |input| {
            each(Kind::Tiny, input)
        });

        // A sequence at each place of texts around the lengths at which many bytes are taken.
        for length in 0..plan.depth(10, 70, 140) {
            for (place, sequence) in (0..=length).zip(SEQUENCES.iter().cycle().skip(length)) {
                let mut input = vec![b'7'; length];
                input.splice(place..place, sequence.iter().copied());
                each(Kind::Limits, input);
            }
        }
        plan.make(Kind::Limits, each, |random| {
            let mut input = bytes(random, 66_000);
            if random.below(2) == 0 {
                damage(random, &mut input, 1, near_byte);
            }
            input
        });

        plan.make(Kind::Random, each, |random| bytes(random, 40));
        plan.make(Kind::Damaged, each, |random| {
            let mut input = bytes(random, 40);
            for _ in 0..=random.below(2) {
                damage(random, &mut input, 1, near_byte);
            }
            input
        });
        plan.make(Kind::Garbage, each, |random| {
            (0..random.below(20)).map(|_| random.next() as u8).collect()
        });
    }

    fn compare(&mut self, input: &Vec<u8>, salt: u64, tally: &mut Tally) -> Result<(), String> {
        let answer = utf8::read(input, AMPLE);
        let bytes = self.bytes.lend(input, salt);
        let length = call!(fleecelatch_utf8_read_length(bytes));
        OneRoom::new(salt).compare(tally, 0, &answer, length, &mut self.out, |out| {
            call!(fleecelatch_utf8_read(bytes, out))
        })
    }

    fn parts(input: &mut Vec<u8>) -> Vec<(&'static str, &mut dyn Part)> {
        vec![("bytes", input)]
    }
}

pub struct Write {
    text: Lent<u32>,
    out: Room<u8>,
}

impl Family for Write {
    type Input = Vec<u32>;

    const CALLS: &'static [&'static str] = &["utf8_write_length", "utf8_write"];
    const FULL: u64 = 10_000_000;
    const LIMITS: u64 = 3_000;

    fn new(style: Style) -> Self {
        Self {
            text: Lent::new(style),
            out: Room::new(style),
        }
    }

    fn inputs(plan: &Plan, each: &mut dyn FnMut(Kind, Vec<u32>)) {
        // Every number up to past the last code point, and boundaries side by side.
        for number in (0..0x11_0100).step_by(plan.depth(5_003, 1, 1)) {
            each(Kind::Tiny, vec![number]);
        }
        for length in 0..=plan.depth(2, 3, 5) {
            all(&POINTS, length, &mut |input| each(Kind::Tiny, input));
        }

        // A number at each place of texts around the lengths at which many are taken.
        for length in 1..plan.depth(10, 70, 140) {
            for place in 0..length {
                let mut input = vec![0x37; length];
                input[place] = POINTS[(place + length) % POINTS.len()];
                each(Kind::Limits, input);
            }
        }
        plan.make(Kind::Limits, each, |random| {
            let mut input = text(random, 66_000);
            if random.below(2) == 0 {
                damage(random, &mut input, 1, near_u32);
            }
            input
        });

        plan.make(Kind::Random, each, |random| text(random, 40));
        plan.make(Kind::Damaged, each, |random| {
            let mut input = text(random, 40);
            for _ in 0..=random.below(2) {
                damage(random, &mut input, 1, near_u32);
            }
            input
        });
        plan.make(Kind::Garbage, each, |random| {
            let bits = 20 + random.below(13);
            (0..random.below(20))
                .map(|_| random.below(1 << bits) as u32)
                .collect()
        });
    }

    fn compare(&mut self, input: &Vec<u32>, salt: u64, tally: &mut Tally) -> Result<(), String> {
        let answer = utf8::write(input, AMPLE);
        let text = self.text.lend(input, salt);
        let length = call!(fleecelatch_utf8_write_length(text));
        OneRoom::new(salt).compare(tally, 0, &answer, length, &mut self.out, |out| {
            call!(fleecelatch_utf8_write(text, out))
        })
    }

    fn parts(input: &mut Vec<u32>) -> Vec<(&'static str, &mut dyn Part)> {
        vec![("text", input)]
    }
}
