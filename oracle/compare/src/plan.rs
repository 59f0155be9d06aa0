//! How many inputs are made, and from which seeds.

use oracle::random::Random;

use crate::family::{Family, Kind};

#[derive(Clone, Copy)]
pub enum Level {
    Memcheck,
    Quick,
    Pages,
    Full,
}

pub struct Plan {
    level: Level,
    seed: u64,
    /// Inputs of the kinds random, damaged and garbage together.
    cases: u64,
    limits: u64,
}

impl Plan {
    pub fn of<F: Family>(level: Level, seed: u64, cases: Option<u64>) -> Self {
        let (most, limits) = match level {
            Level::Memcheck => (3_000, 4),
            Level::Quick => (F::FULL / 200, F::LIMITS / 8),
            Level::Pages => (F::FULL / 20, F::LIMITS / 4),
            Level::Full => (F::FULL, F::LIMITS),
        };
        Self {
            level,
            seed,
            cases: cases.unwrap_or(most),
            limits,
        }
    }

    /// A generator for the inputs of a kind.
    pub fn random(&self, kind: Kind) -> Random {
        Random::new(Random::new(self.seed).next() ^ kind as u64)
    }

    /// How many inputs of a kind are made at random.
    pub fn count(&self, kind: Kind) -> u64 {
        match kind {
            Kind::Tiny => 0,
            Kind::Random => self.cases - self.cases / 2,
            Kind::Limits => self.limits,
            Kind::Damaged => self.cases / 2 - self.cases / 8,
            Kind::Garbage => self.cases / 8,
        }
    }

    /// Makes the inputs of a kind.
    pub fn make<I>(
        &self,
        kind: Kind,
        each: &mut dyn FnMut(Kind, I),
        mut input: impl FnMut(&mut Random) -> I,
    ) {
        let mut random = self.random(kind);
        for _ in 0..self.count(kind) {
            each(kind, input(&mut random));
        }
    }

    /// The depth of what is exhaustive, by level.
    pub fn depth(&self, memcheck: usize, quick: usize, full: usize) -> usize {
        match self.level {
            Level::Memcheck => memcheck,
            Level::Quick | Level::Pages => quick,
            Level::Full => full,
        }
    }
}
