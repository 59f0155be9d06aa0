//! Accepted input of every kind, from fixed seeds.
//!
//! `lists`: random lists, elongated and not. `tiny`: all small lists. `sheets`: texts of words
//! or lines and their differences. `limits`: lists at the size limits.

pub mod limits;
pub mod lists;
pub mod sheets;
pub mod tiny;

use crate::{
    flat::{
        self, DELETE, Elongated, INSERT, LEFT_JOINABLE, Lent, Merged, OPERATION_STRIDE,
        RIGHT_JOINABLE, SPAN_STRIDE,
    },
    published::Rules,
};

pub const JOINABLE: u8 = LEFT_JOINABLE | RIGHT_JOINABLE;

/// Lent tokens with the text that they spell, growing.
#[derive(Debug, Clone, Default)]
pub struct Tokens {
    pub text: Vec<u32>,
    pub spans: Vec<u32>,
    pub keys: Vec<u32>,
    pub joins: Vec<u8>,
}

impl Tokens {
    /// A token over text that is already lent.
    pub fn over(&mut self, start: usize, length: usize, key: u32, joins: u8) {
        self.spans.extend([start as u32, length as u32]);
        self.keys.push(key);
        self.joins.push(joins);
    }

    /// A token over its own new text.
    pub fn push(&mut self, spelling: &[u32], key: u32, joins: u8) {
        self.over(self.text.len(), spelling.len(), key, joins);
        self.text.extend(spelling);
    }

    pub fn count(&self) -> usize {
        self.keys.len()
    }

    /// A raw list of these tokens, elongated and cooked.
    pub fn elongated(&self, raw_operations: &[usize]) -> Elongated {
        flat::elongate(
            raw_operations,
            &self.spans,
            &self.keys,
            &self.joins,
            &self.text,
        )
    }

    /// The code points that `count` tokens from `first` spell.
    pub fn length(&self, first: usize, count: usize) -> usize {
        (first..first + count)
            .map(|index| self.spans[SPAN_STRIDE * index + 1] as usize)
            .sum()
    }
}

/// A raw list over its tokens.
#[derive(Debug, Clone, Default)]
pub struct Raw {
    pub operations: Vec<usize>,
    pub tokens: Tokens,
}

impl Raw {
    pub fn elongated(&self) -> Elongated {
        self.tokens.elongated(&self.operations)
    }
}

/// A merge: what both lists share, the lists, their cursors.
#[derive(Debug, Clone, Default)]
pub struct Merge {
    pub original: Vec<u32>,
    pub tokens: Tokens,
    pub left: Vec<usize>,
    pub right: Vec<usize>,
    pub left_cursors: Vec<usize>,
    pub right_cursors: Vec<usize>,
}

impl Merge {
    pub fn lent(&self) -> Lent<'_> {
        Lent {
            original: &self.original,
            inserted: &self.tokens.text,
            spans: &self.tokens.spans,
            keys: &self.tokens.keys,
        }
    }

    pub fn merged<R: Rules>(&self) -> Merged {
        flat::merge::<R>(
            &self.lent(),
            &self.left,
            &self.right,
            &self.left_cursors,
            &self.right_cursors,
        )
    }
}

/// Identities from here on are the right's, where `everywhere` gave them.
pub const RIGHT_IDENTITIES: usize = 100;

/// A cursor at every place of a list's text, with ascending identities.
pub fn everywhere(tokens: &Tokens, operations: &[usize], identities: usize) -> Vec<usize> {
    (0..=text_length(tokens, operations))
        .flat_map(|place| [identities + place, place])
        .collect()
}

/// The length of a list's text.
pub fn text_length(tokens: &Tokens, operations: &[usize]) -> usize {
    operations
        .chunks_exact(OPERATION_STRIDE)
        .map(|record| match record[0] {
            DELETE => 0,
            INSERT => tokens.length(record[4], record[5]),
            _ => record[2],
        })
        .sum()
}
