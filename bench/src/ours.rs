//! The calls on lists with the rooms that they are lent, as long as asked.

use oracle::{
    flat::{HISTORY_STRIDE, ITEM_STRIDE, OPERATION_STRIDE},
    generate::{Merge, Raw, text_length},
};

use crate::library::{self, Answer};

pub struct Elongating {
    pub raw: &'static Raw,
    pub operations: Vec<usize>,
    pub spans: Vec<u32>,
    pub keys: Vec<u32>,
    pub joins: Vec<u8>,
}

impl Elongating {
    pub fn new(raw: &'static Raw) -> Self {
        let tokens = raw.tokens.count();
        Self {
            raw,
            operations: vec![0; 2 * raw.operations.len()],
            spans: vec![0; 2 * tokens],
            keys: vec![0; tokens],
            joins: vec![0; tokens],
        }
    }

    pub fn run(&mut self) -> Answer {
        let tokens = &self.raw.tokens;
        library::elongate(
            &self.raw.operations,
            &tokens.spans,
            &tokens.keys,
            &tokens.joins,
            &tokens.text,
            &mut self.operations,
            &mut self.spans,
            &mut self.keys,
            &mut self.joins,
        )
    }
}

pub struct Merging {
    pub case: &'static Merge,
    pub operations: Vec<usize>,
    pub cursors: Vec<usize>,
    pub work: Vec<u32>,
}

impl Merging {
    pub fn new(case: &'static Merge) -> Self {
        let inserted: usize = [&case.left, &case.right]
            .into_iter()
            .flat_map(|list| list.chunks_exact(OPERATION_STRIDE))
            .map(|record| record[5])
            .sum();
        Self {
            case,
            operations: vec![0; case.left.len() + case.right.len()],
            cursors: vec![0; case.left_cursors.len() + case.right_cursors.len()],
            work: vec![0; 2 * inserted],
        }
    }

    /// With no rooms: all is checked, and then refused.
    pub fn checking(case: &'static Merge) -> Self {
        Self {
            case,
            operations: Vec::new(),
            cursors: Vec::new(),
            work: Vec::new(),
        }
    }

    pub fn run(&mut self) -> Answer {
        let Merge {
            original,
            tokens,
            left,
            right,
            left_cursors,
            right_cursors,
        } = self.case;
        library::merge(
            original,
            &tokens.text,
            &tokens.spans,
            &tokens.keys,
            left,
            right,
            left_cursors,
            right_cursors,
            &mut self.operations,
            &mut self.cursors,
            &mut self.work,
        )
    }
}

/// Text, history and diff of a case's left list.
pub struct Viewing {
    pub case: &'static Merge,
    pub text: Vec<u32>,
    pub cursors: Vec<usize>,
    pub history: Vec<usize>,
    pub history_text: Vec<u32>,
    pub items: Vec<i64>,
}

impl Viewing {
    pub fn new(case: &'static Merge) -> Self {
        let operations = case.left.len() / OPERATION_STRIDE;
        let text = text_length(&case.tokens, &case.left);
        Self {
            case,
            text: vec![0; text],
            cursors: vec![0; case.left_cursors.len()],
            history: vec![0; HISTORY_STRIDE * operations],
            history_text: vec![0; text + case.original.len()],
            items: vec![0; ITEM_STRIDE * operations],
        }
    }

    pub fn check(&self) -> Answer {
        let Merge {
            original,
            tokens,
            left,
            left_cursors,
            ..
        } = self.case;
        library::apply_lengths(
            original,
            &tokens.text,
            &tokens.spans,
            &tokens.keys,
            left,
            left_cursors,
        )
    }

    pub fn apply(&mut self) -> Answer {
        let Merge {
            original,
            tokens,
            left,
            left_cursors,
            ..
        } = self.case;
        library::apply(
            original,
            &tokens.text,
            &tokens.spans,
            &tokens.keys,
            left,
            left_cursors,
            &mut self.text,
            &mut self.cursors,
        )
    }

    pub fn apply_with_history(&mut self) -> Answer {
        let Merge {
            original,
            tokens,
            left,
            ..
        } = self.case;
        library::apply_with_history(
            original,
            &tokens.text,
            &tokens.spans,
            &tokens.keys,
            left,
            &mut self.history,
            &mut self.history_text,
        )
    }

    pub fn apply_with_all(&mut self) -> Answer {
        let Merge {
            original,
            tokens,
            left,
            left_cursors,
            ..
        } = self.case;
        library::apply_with_all(
            original,
            &tokens.text,
            &tokens.spans,
            &tokens.keys,
            left,
            left_cursors,
            &mut self.text,
            &mut self.cursors,
            &mut self.history,
            &mut self.history_text,
        )
    }

    pub fn diff(&mut self) -> Answer {
        let Merge {
            original,
            tokens,
            left,
            ..
        } = self.case;
        library::to_diff(
            original,
            &tokens.text,
            &tokens.spans,
            &tokens.keys,
            left,
            &mut self.items,
            &mut self.history_text,
        )
    }
}
