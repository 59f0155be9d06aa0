//! Calls that share their inputs: how these are made, what is expected, how it is compared.

use std::fmt::Debug;

use oracle::{paper::refusal::Refusal, random::Random};

use crate::{
    library::Answer,
    memory::{Number, Room, Style},
    plan::Plan,
};

/// Calls the library with slices, each a name or a field that holds a pointer and a length.
macro_rules! call {
    ($function:ident($($($slice:ident).+),*)) => {
        // SAFETY: pointers and lengths are of what was lent for this call.
        unsafe { $crate::library::$function($($($slice).+.0, $($slice).+.1),*) }
    };
}
pub(crate) use call;

/// How an input was made.
#[derive(Clone, Copy)]
pub enum Kind {
    Tiny,
    Random,
    Limits,
    Damaged,
    Garbage,
}

pub const KINDS: [&str; 5] = ["tiny", "random", "limits", "damaged", "garbage"];

pub trait Family {
    type Input: Clone;

    const CALLS: &'static [&'static str];

    /// How many inputs a full comparison makes, beside the tiny ones and those at the limits; and
    /// how many at the limits.
    const FULL: u64;
    const LIMITS: u64;

    fn new(style: Style) -> Self;

    /// Makes the inputs of all kinds.
    fn inputs(plan: &Plan, each: &mut dyn FnMut(Kind, Self::Input));

    /// Calls the library and compares; what differs is told. The salt chooses the rooms.
    fn compare(&mut self, input: &Self::Input, salt: u64, tally: &mut Tally) -> Result<(), String>;

    /// The input's parts, by name.
    fn parts(input: &mut Self::Input) -> Vec<(&'static str, &mut dyn Part)>;
}

/// A part of an input, for printing and for making it smaller.
pub trait Part: Debug {
    fn length(&self) -> usize;
    fn remove(&mut self, start: usize, count: usize);
}

impl<T: Debug> Part for Vec<T> {
    fn length(&self) -> usize {
        self.len()
    }

    fn remove(&mut self, start: usize, count: usize) {
        self.drain(start..start + count);
    }
}

/// The cases of each call, by what was answered: 0 or the refusal's number.
pub struct Tally {
    pub rows: Vec<(&'static str, [u64; 11])>,
    /// The call that was compared last.
    pub last: &'static str,
}

impl Tally {
    pub fn new(calls: &'static [&'static str]) -> Self {
        Self {
            rows: calls.iter().map(|call| (*call, [0; 11])).collect(),
            last: calls[0],
        }
    }

    /// Counts a case and compares the answer with what is expected.
    pub fn answer<const N: usize>(
        &mut self,
        call: usize,
        answer: Answer,
        expected: Result<[usize; N], Refusal>,
    ) -> Result<(), String> {
        self.answer_as(call, answer, expected, None)
    }

    /// The same, counted under another number.
    pub fn answer_as<const N: usize>(
        &mut self,
        call: usize,
        answer: Answer,
        expected: Result<[usize; N], Refusal>,
        counted: Option<u64>,
    ) -> Result<(), String> {
        let (refusal, values) = match expected {
            Ok(counts) => (0, counts.map(|count| count as u64).to_vec()),
            Err(refusal) => (refusal.number(), refusal.values()),
        };
        let value = |place: usize| values.get(place).copied().unwrap_or(0);
        let expected = Answer {
            refusal,
            first: value(0),
            second: value(1),
            third: value(2),
        };
        let (name, cases) = &mut self.rows[call];
        self.last = name;
        cases[counted.unwrap_or(refusal) as usize] += 1;
        if answer != expected {
            return Err(format!("answers {answer:?}, not {expected:?}"));
        }
        Ok(())
    }
}

/// Lengths of rooms for a call that asks these: exact, ample, one too short, empty, or any. For a
/// call that is refused anyway: any.
pub fn rooms<const N: usize>(random: &mut Random, asked: Option<[usize; N]>) -> [usize; N] {
    let Some(asked) = asked else {
        return [0; N].map(|_| random.below(12) as usize);
    };
    match random.below(8) {
        0..=2 => asked,
        3 | 4 => asked.map(|asked| asked + random.below(9) as usize),
        5 => {
            let mut rooms = asked;
            let short = random.below(N as u64) as usize;
            rooms[short] = asked[short].saturating_sub(1);
            rooms
        }
        6 => [0; N],
        _ => asked.map(|asked| random.below(2 * asked as u64 + 3) as usize),
    }
}

/// The answer in these rooms: "7: a lent room is shorter than asked", after all other refusals.
pub fn fitted<T, const N: usize>(
    answer: &Result<T, Refusal>,
    asked: Option<[usize; N]>,
    lent: [usize; N],
) -> Result<&T, Refusal> {
    let short =
        asked.is_some_and(|asked| asked.iter().zip(lent).any(|(asked, lent)| *asked > lent));
    match answer {
        Ok(_) if short => Err(Refusal::Room),
        answer => answer.as_ref().map_err(|refusal| *refusal),
    }
}

/// Chooses the room of calls that answer with one.
pub struct OneRoom {
    random: Random,
    salt: u64,
}

impl OneRoom {
    pub fn new(salt: u64) -> Self {
        Self {
            random: Random::new(salt),
            salt,
        }
    }

    /// Compares the call on the length, by what it answered, and the one after it, which fills the
    /// room.
    pub fn compare<T: Number>(
        &mut self,
        tally: &mut Tally,
        call: usize,
        answer: &Result<Vec<T>, Refusal>,
        length: Answer,
        room: &mut Room<T>,
        fill: impl FnOnce((*mut T, usize)) -> Answer,
    ) -> Result<(), String> {
        let counts = |numbers: &Vec<T>| [numbers.len()];
        tally.answer(call, length, fitted(answer, None, [0]).map(counts))?;

        let asked = answer.as_ref().ok().map(counts);
        let lent = rooms(&mut self.random, asked);
        let got = fill(room.lend(lent[0], self.salt));
        let answer = fitted(answer, asked, lent);
        tally.answer(call + 1, got, answer.map(counts))?;
        room.holds("out", answer.map_or(&[], |numbers| numbers))
    }
}
