//! Raw lists elongated.

use oracle::{
    flat::{OPERATION_STRIDE, RAW_STRIDE, SPAN_STRIDE},
    generate::{
        Raw, Tokens, limits,
        lists::{self, MIDDLE, SMALL},
    },
    paper::{
        calls,
        lists::{ElongateRooms, RawList},
        refusal::size,
    },
    random::Random,
};

use super::lists::fold;
use crate::{
    damage::{damage, garbage, near_byte, near_u32, near_usize},
    family::{Family, Kind, Part, Tally, call, fitted, rooms},
    memory::{Lent, Room, Style},
    plan::Plan,
};

pub struct Elongate {
    raw: Lent<usize>,
    spans: Lent<u32>,
    keys: Lent<u32>,
    joins: Lent<u8>,
    text: Lent<u32>,
    operations: Room<usize>,
    spanned: Room<u32>,
    keyed: Room<u32>,
    joined: Room<u8>,
}

/// All raw lists of so many operations over two tokens, with each way in which these join.
fn tiny(count: usize, each: &mut dyn FnMut(Raw)) {
    for joins in 0..16u8 {
        let mut tokens = Tokens::default();
        tokens.push(&[0x61], 1, joins % 4);
        tokens.push(&[0x62, 0x63], 2, joins / 4);
        for list in 0..9usize.pow(count as u32) {
            let operations = (0..count).flat_map(|place| {
                let operation = list / 9usize.pow(place as u32) % 9;
                let (first, count) = [(0, 1), (1, 1), (0, 2)][operation / 3];
                [operation % 3, first, count]
            });
            each(Raw {
                operations: operations.collect(),
                tokens: tokens.clone(),
            });
        }
    }
}

fn good(random: &mut Random) -> Raw {
    match random.below(200) {
        0 => lists::raw(random, MIDDLE),
        _ => lists::raw(random, SMALL),
    }
}

fn spoil(random: &mut Random, raw: &mut Raw) {
    let tokens = &mut raw.tokens;
    match random.below(8) {
        0..=3 => damage(random, &mut raw.operations, RAW_STRIDE, near_usize),
        4 => damage(random, &mut tokens.spans, SPAN_STRIDE, near_u32),
        5 => damage(random, &mut tokens.keys, 1, near_u32),
        6 => damage(random, &mut tokens.joins, 1, near_byte),
        _ => damage(random, &mut tokens.text, 1, near_u32),
    }
}

/// Each size is small, or at its limit, one less or one more.
fn at_limits(random: &mut Random) -> Raw {
    let near = |random: &mut Random, limit: usize, small: u64| match random.below(2) {
        0 => limit - 1 + random.below(3) as usize,
        _ => 1 + random.below(small) as usize,
    };
    let operations = near(random, size::RAW_OPERATIONS, 40);
    let count = near(random, size::RAW_TOKENS, 80).max(operations);
    let text = near(random, size::RAW_TEXT, 200).max(count);

    let mut raw = Raw::default();
    for token in 0..count {
        let length = text * (token + 1) / count - text * token / count;
        let spelling: Vec<u32> = (0..length).map(|_| 0x61 + random.below(2) as u32).collect();
        raw.tokens
            .push(&spelling, random.below(3) as u32, random.below(4) as u8);
    }
    for place in 0..operations {
        let (first, end) = (count * place / operations, count * (place + 1) / operations);
        raw.operations
            .extend([random.below(3) as usize, first, end - first]);
    }
    if random.below(2) == 0 {
        fold(random, &mut raw.tokens);
    }
    if random.below(4) == 0 {
        // Text that no token spells.
        let lent = size::RAW_TEXT - 1 + random.below(3) as usize;
        raw.tokens
            .text
            .resize(lent.max(raw.tokens.text.len()), 0x7A);
    }
    if random.below(3) == 0 {
        spoil(random, &mut raw);
    }
    raw
}

impl Family for Elongate {
    type Input = Raw;

    const CALLS: &'static [&'static str] = &["elongate"];
    const FULL: u64 = 10_000_000;
    const LIMITS: u64 = 1_500;

    fn new(style: Style) -> Self {
        Self {
            raw: Lent::new(style),
            spans: Lent::new(style),
            keys: Lent::new(style),
            joins: Lent::new(style),
            text: Lent::new(style),
            operations: Room::new(style),
            spanned: Room::new(style),
            keyed: Room::new(style),
            joined: Room::new(style),
        }
    }

    fn inputs(plan: &Plan, each: &mut dyn FnMut(Kind, Raw)) {
        for count in 0..=plan.depth(1, 3, 5) {
            tiny(count, &mut |raw| each(Kind::Tiny, raw));
        }

        each(Kind::Limits, limits::raw(&mut plan.random(Kind::Limits)));
        plan.make(Kind::Limits, each, at_limits);

        plan.make(Kind::Random, each, good);
        plan.make(Kind::Damaged, each, |random| {
            let mut raw = lists::raw(random, SMALL);
            for _ in 0..=random.below(3) {
                spoil(random, &mut raw);
            }
            raw
        });
        plan.make(Kind::Garbage, each, |random| Raw {
            operations: garbage(random, 12, |number| number as usize, near_usize),
            tokens: Tokens {
                text: garbage(random, 6, |number| number as u32, near_u32),
                spans: garbage(random, 12, |number| number as u32, near_u32),
                keys: garbage(random, 6, |number| number as u32, near_u32),
                joins: garbage(random, 6, |number| number as u8, near_byte),
            },
        });
    }

    fn compare(&mut self, input: &Raw, salt: u64, tally: &mut Tally) -> Result<(), String> {
        let Raw { operations, tokens } = input;
        let raw = RawList {
            operations,
            spans: &tokens.spans,
            keys: &tokens.keys,
            joins: &tokens.joins,
            text: &tokens.text,
        };
        let answer = calls::elongate(raw, ElongateRooms::AMPLE);
        // "as many operations, and as many tokens, as the raw list has"
        let asked = answer.is_ok().then(|| {
            let records = operations.chunks_exact(RAW_STRIDE);
            let count: usize = records.clone().map(|record| record[2]).sum();
            [
                records.len() * OPERATION_STRIDE,
                count * SPAN_STRIDE,
                count,
                count,
            ]
        });
        let lent = rooms(&mut Random::new(salt), asked);

        let raw = self.raw.lend(operations, salt);
        let spans = self.spans.lend(&tokens.spans, salt);
        let keys = self.keys.lend(&tokens.keys, salt);
        let joins = self.joins.lend(&tokens.joins, salt);
        let text = self.text.lend(&tokens.text, salt);
        let operations = self.operations.lend(lent[0], salt);
        let spanned = self.spanned.lend(lent[1], salt);
        let keyed = self.keyed.lend(lent[2], salt);
        let joined = self.joined.lend(lent[3], salt);
        let got = call!(fleecelatch_elongate(
            raw, spans, keys, joins, text, operations, spanned, keyed, joined
        ));

        let answer = fitted(&answer, asked, lent);
        let counts = answer.map(|elongated| {
            [
                elongated.operations.len() / OPERATION_STRIDE,
                elongated.keys.len(),
            ]
        });
        tally.answer(0, got, counts)?;
        let answer = answer.ok();
        self.operations.holds(
            "operations",
            answer.map_or(&[], |answer| &answer.operations),
        )?;
        self.spanned
            .holds("spanned", answer.map_or(&[], |answer| &answer.spans))?;
        self.keyed
            .holds("keyed", answer.map_or(&[], |answer| &answer.keys))?;
        self.joined
            .holds("joined", answer.map_or(&[], |answer| &answer.joins))
    }

    fn parts(input: &mut Raw) -> Vec<(&'static str, &mut dyn Part)> {
        let tokens = &mut input.tokens;
        vec![
            ("raw", &mut input.operations),
            ("spans", &mut tokens.spans),
            ("keys", &mut tokens.keys),
            ("joins", &mut tokens.joins),
            ("text", &mut tokens.text),
        ]
    }
}
