//! From the flat records of the vector files to the Rust's types and back, for accepted
//! input: nothing is checked here, and a list that a check would refuse may panic.
//!
//! Strides: operations 6 (kind, order, length, side, first token, token count), raw
//! operations 3 (kind, first token, token count), token spans 2 (start, length), cursors 2
//! (identity, index), diff items 3 (kind, number or start, length), history spans 4 (kind,
//! side, start, length). A field that means nothing is ignored going in and 0 coming out.

use std::{iter::zip, ops::Range};

use crate::published::{
    CursorPosition, DiffError, EditedText, History, NumberOrText, Operation, RawOperation, Rules,
    Side, SpanWithHistory, TextWithCursors, Token, cook_operations, elongate_operations,
    find_longest_prefix_contained_within,
};

pub const DELETE: usize = 0;
pub const INSERT: usize = 1;
pub const RETAIN: usize = 2;

pub const LEFT: usize = 0;
pub const RIGHT: usize = 1;

pub const UNCHANGED: usize = 0;
pub const ADDED: usize = 1;
pub const REMOVED: usize = 2;

pub const NUMBER: i64 = 0;
pub const TEXT: i64 = 1;

pub const LEFT_JOINABLE: u8 = 1;
pub const RIGHT_JOINABLE: u8 = 2;

pub const OPERATION_STRIDE: usize = 6;
pub const RAW_STRIDE: usize = 3;
pub const SPAN_STRIDE: usize = 2;
pub const CURSOR_STRIDE: usize = 2;
pub const ITEM_STRIDE: usize = 3;
pub const HISTORY_STRIDE: usize = 4;

/// A key that knows which lent token it belongs to. Only the key takes part in equality, so
/// that tokens are equal when their keys are, whatever they spell.
#[derive(Debug, Clone, Copy)]
pub struct Key {
    pub key: u32,
    pub index: usize,
}

impl PartialEq for Key {
    fn eq(&self, other: &Self) -> bool {
        self.key == other.key
    }
}

/// What all lists of one call share.
#[derive(Debug, Clone, Copy)]
pub struct Lent<'a> {
    pub original: &'a [u32],
    pub inserted: &'a [u32],
    pub spans: &'a [u32],
    pub keys: &'a [u32],
}

#[derive(Debug, Clone, PartialEq, Eq)]
pub struct Merged {
    pub operations: Vec<usize>,
    pub cursors: Vec<usize>,
}

#[derive(Debug, Clone, PartialEq, Eq)]
pub struct Elongated {
    pub operations: Vec<usize>,
    pub spans: Vec<u32>,
    pub keys: Vec<u32>,
    pub joins: Vec<u8>,
}

#[derive(Debug, Clone, PartialEq, Eq)]
pub struct Applied {
    pub text: Vec<u32>,
    pub cursors: Vec<usize>,
}

#[derive(Debug, Clone, PartialEq, Eq)]
pub struct Spans {
    pub spans: Vec<usize>,
    pub text: Vec<u32>,
}

#[derive(Debug, Clone, PartialEq, Eq)]
pub struct Diff {
    pub items: Vec<i64>,
    pub text: Vec<u32>,
}

/// The longest beginning of `new` that occurs in `old`, at its first occurrence.
pub fn overlap(old: &[u32], new: &[u32]) -> Range<usize> {
    let tokens = |keys: &[u32]| -> Vec<Token<u32>> {
        keys.iter()
            .map(|key| Token::new(*key, String::new(), true, true))
            .collect()
    };

    find_longest_prefix_contained_within(&tokens(old), &tokens(new))
}

/// Elongates and cooks a raw list. All tokens come out in the order of the operations given
/// back, and each record, of whatever kind, carries its range there.
pub fn elongate(
    raw_operations: &[usize],
    spans: &[u32],
    keys: &[u32],
    joins: &[u8],
    text: &[u32],
) -> Elongated {
    let raw = raw_operations.chunks_exact(RAW_STRIDE).map(|record| {
        let tokens = (record[1]..record[1] + record[2])
            .map(|index| token(text, spans, keys, index, joins[index]))
            .collect();

        match record[0] {
            DELETE => RawOperation::Delete(tokens),
            INSERT => RawOperation::Insert(tokens),
            _ => RawOperation::Equal(tokens),
        }
    });

    let elongated = elongate_operations(raw);
    let mut answer = Elongated {
        operations: Vec::new(),
        spans: Vec::new(),
        keys: Vec::new(),
        joins: Vec::new(),
    };

    for (raw, cooked) in zip(&elongated, cook_operations(elongated.clone())) {
        let first = answer.keys.len();
        for Key { key, index } in raw.tokens().iter().map(Token::normalized) {
            answer
                .spans
                .extend(&spans[SPAN_STRIDE * index..][..SPAN_STRIDE]);
            answer.keys.push(*key);
            answer.joins.push(joins[*index]);
        }

        answer.operations.extend([
            kind(&cooked),
            cooked.order(),
            cooked.len(),
            LEFT,
            first,
            raw.tokens().len(),
        ]);
    }

    answer
}

/// Merges two lists with their cursors under the rules `R`. A merged insert comes out as a
/// range of the lent tokens.
pub fn merge<R: Rules>(
    lent: &Lent,
    left: &[usize],
    right: &[usize],
    left_cursors: &[usize],
    right_cursors: &[usize],
) -> Merged {
    let original = string(lent.original);
    let merged = edited_text(&original, lent, left, left_cursors).merge::<R>(edited_text(
        &original,
        lent,
        right,
        right_cursors,
    ));

    let mut operations = Vec::new();
    for (operation, from) in merged.operations() {
        let (first, count) = match operation {
            Operation::Insert { text, .. } => (text[0].normalized().index, text.len()),
            _ => (0, 0),
        };

        operations.extend([
            kind(operation),
            operation.order(),
            operation.len(),
            side_number(from),
            first,
            count,
        ]);
    }

    Merged {
        operations,
        cursors: cursor_records(merged.cursors()),
    }
}

/// The list's text and its cursors, sorted.
pub fn apply(lent: &Lent, operations: &[usize], cursors: &[usize]) -> Applied {
    let original = string(lent.original);

    applied(&edited_text(&original, lent, operations, cursors).apply())
}

/// One span for each operation, in order; their texts stand behind each other.
pub fn apply_with_history(lent: &Lent, operations: &[usize]) -> Spans {
    let original = string(lent.original);

    history(&edited_text(&original, lent, operations, &[]).apply_with_history())
}

pub fn apply_with_all(lent: &Lent, operations: &[usize], cursors: &[usize]) -> (Applied, Spans) {
    let original = string(lent.original);
    let (text, spans) = edited_text(&original, lent, operations, cursors).apply_with_all();

    (applied(&text), history(&spans))
}

/// The list's diff; the texts of its items stand behind each other.
pub fn to_diff(lent: &Lent, operations: &[usize]) -> Diff {
    let original = string(lent.original);
    let diff = edited_text(&original, lent, operations, &[])
        .to_diff()
        .expect("no accepted list is longer than i64::MAX");

    let mut answer = Diff {
        items: Vec::new(),
        text: Vec::new(),
    };
    for item in diff {
        match item {
            NumberOrText::Number(number) => answer.items.extend([NUMBER, number, 0]),
            NumberOrText::Text(text) => {
                let start = answer.text.len();
                answer.text.extend(text.chars().map(u32::from));
                answer
                    .items
                    .extend([TEXT, start as i64, (answer.text.len() - start) as i64]);
            }
        }
    }

    answer
}

/// The text that a diff gives over `original`: plain replay, which drops what is unmentioned.
pub fn replay(original: &[u32], items: &[i64], text: &[u32]) -> Result<Vec<u32>, DiffError> {
    let diff = items
        .chunks_exact(ITEM_STRIDE)
        .map(|item| match item[0] {
            NUMBER => NumberOrText::Number(item[1]),
            _ => NumberOrText::Text(string(&text[item[1] as usize..][..item[2] as usize])),
        })
        .collect();

    EditedText::<u32>::from_diff(&string(original), diff).map(|text| code_points(&text))
}

/// The list as the Rust has it, with its cursors sorted.
fn edited_text<'a>(
    original: &'a str,
    lent: &Lent,
    operations: &[usize],
    cursors: &[usize],
) -> EditedText<'a, Key> {
    let records = operations.chunks_exact(OPERATION_STRIDE);
    let sides = records
        .clone()
        .map(|record| match record[3] {
            LEFT => Side::Left,
            _ => Side::Right,
        })
        .collect();
    let operations = records
        .map(|record| match record[0] {
            DELETE => Operation::create_delete(record[1], record[2]),
            INSERT => Operation::create_insert(
                0, // `EditedText::new` anchors inserts
                (record[4]..record[4] + record[5])
                    .map(|index| token(lent.inserted, lent.spans, lent.keys, index, 0))
                    .collect(),
            ),
            _ => Operation::create_equal(record[1], record[2]),
        })
        .collect();
    let cursors = cursors
        .chunks_exact(CURSOR_STRIDE)
        .map(|cursor| CursorPosition::new(cursor[0], cursor[1]))
        .collect();

    EditedText::new(original, operations, sides, cursors)
}

fn token(text: &[u32], spans: &[u32], keys: &[u32], index: usize, joins: u8) -> Token<Key> {
    let span = &spans[SPAN_STRIDE * index..][..SPAN_STRIDE];
    let spelling = &text[span[0] as usize..][..span[1] as usize];

    Token::new(
        Key {
            key: keys[index],
            index,
        },
        string(spelling),
        joins & LEFT_JOINABLE != 0,
        joins & RIGHT_JOINABLE != 0,
    )
}

fn kind(operation: &Operation<Key>) -> usize {
    match operation {
        Operation::Delete { .. } => DELETE,
        Operation::Insert { .. } => INSERT,
        Operation::Equal { .. } => RETAIN,
    }
}

fn side_number(side: Side) -> usize {
    match side {
        Side::Left => LEFT,
        Side::Right => RIGHT,
    }
}

fn cursor_records(cursors: &[CursorPosition]) -> Vec<usize> {
    cursors
        .iter()
        .flat_map(|cursor| [cursor.id(), cursor.char_index()])
        .collect()
}

fn applied(text: &TextWithCursors) -> Applied {
    Applied {
        text: code_points(text.text_ref()),
        cursors: cursor_records(&text.cursors()),
    }
}

fn history(spans: &[SpanWithHistory]) -> Spans {
    let mut answer = Spans {
        spans: Vec::new(),
        text: Vec::new(),
    };
    for span in spans {
        let start = answer.text.len();
        answer.text.extend(span.text().chars().map(u32::from));
        let (kind, side) = match span.history() {
            History::Unchanged => (UNCHANGED, 0),
            History::AddedFromLeft => (ADDED, LEFT),
            History::AddedFromRight => (ADDED, RIGHT),
            History::RemovedFromLeft => (REMOVED, LEFT),
            History::RemovedFromRight => (REMOVED, RIGHT),
        };
        answer
            .spans
            .extend([kind, side, start, answer.text.len() - start]);
    }

    answer
}

fn string(text: &[u32]) -> String {
    text.iter()
        .map(|number| char::from_u32(*number).expect("an accepted text holds code points only"))
        .collect()
}

fn code_points(text: &str) -> Vec<u32> {
    text.chars().map(u32::from).collect()
}
