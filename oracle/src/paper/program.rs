//! Document 01, "The program": from three files to the bytes it writes.

use super::edit_file::{self, EditFile};
use super::lists::{ElongateRooms, List, MergeRooms, RawList};
use super::refusal::{AMPLE, Refusal, size, within};
use super::{calls, utf8};
use crate::flat::{
    DELETE, Elongated, INSERT, ITEM_STRIDE, LEFT_JOINABLE, Lent, NUMBER, OPERATION_STRIDE, RETAIN,
    RIGHT_JOINABLE,
};

/// What the program writes; `None` is a file that can't be read.
pub fn program(original: Option<&[u8]>, left: Option<&[u8]>, right: Option<&[u8]>) -> Vec<u8> {
    let (Some(original), Some(left), Some(right)) = (original, left, right) else {
        return b"unreadable\n".to_vec();
    };
    merge_files(original, left, right)
        .unwrap_or_else(|refusal| format!("refused={}\n", refusal.number()).into_bytes())
}

/// "It checks in this order, original, left, right each time"
fn merge_files(original: &[u8], left: &[u8], right: &[u8]) -> Result<Vec<u8>, Refusal> {
    // "an oversize file is 3"
    for file in [original, left, right] {
        within(file.len() as u128, size::PROGRAM_FILE)?;
    }
    // "bad UTF-8 is 10"
    let original = utf8::read(original, AMPLE)?;
    for file in [left, right] {
        utf8::read(file, AMPLE)?;
    }
    // "a bad edit file is 8"
    let left = edit_file::read(left, AMPLE, AMPLE)?;
    let right = edit_file::read(right, AMPLE, AMPLE)?;

    // One text for both lists: code points for the longest keep or drop, then what is added.
    let items = [&left.items[..], &right.items].concat();
    let numbers = items
        .chunks_exact(ITEM_STRIDE)
        .filter(|item| item[0] == NUMBER);
    let longest = numbers.map(|item| item[1].unsigned_abs()).max();
    let mut text = vec![0; longest.unwrap_or(0) as usize];
    let left_start = text.len();
    text.extend(&left.text);
    let right_start = text.len();
    text.extend(&right.text);

    let left = elongated(&left, &text, left_start)?;
    let mut right = elongated(&right, &text, right_start)?;

    // One token slice for both lists, the left's tokens first.
    for operation in right.operations.chunks_exact_mut(OPERATION_STRIDE) {
        operation[4] += left.keys.len();
    }
    let spans = [left.spans, right.spans].concat();
    let keys = [left.keys, right.keys].concat();

    // "then the merge's refusals"
    let lent = Lent {
        original: &original,
        inserted: &text,
        spans: &spans,
        keys: &keys,
    };
    let without_cursors = |operations| List {
        operations,
        cursors: &[],
    };
    let merged = calls::merge(
        &lent,
        without_cursors(&left.operations),
        without_cursors(&right.operations),
        MergeRooms::AMPLE,
    )?;
    let diff = calls::to_diff(&lent, &merged.operations, AMPLE, AMPLE)?;
    edit_file::write(&diff.items, &diff.text, AMPLE)
}

/// "makes each added code point a joinable token keyed by itself, each keep or drop one joinable
/// token, elongates". The file's own text stands in `text` from `start` on.
fn elongated(file: &EditFile, text: &[u32], start: usize) -> Result<Elongated, Refusal> {
    let mut operations = Vec::new();
    let mut spans = Vec::new();
    let mut keys = Vec::new();
    for item in file.items.chunks_exact(ITEM_STRIDE) {
        let first = keys.len();
        let kind = if item[0] == NUMBER {
            spans.extend([0, item[1].unsigned_abs() as u32]);
            keys.push(0);
            if item[1] > 0 { RETAIN } else { DELETE }
        } else {
            for place in item[1]..item[1] + item[2] {
                spans.extend([(start + place as usize) as u32, 1]);
                keys.push(file.text[place as usize]);
            }
            INSERT
        };
        operations.extend([kind, first, keys.len() - first]);
    }
    let joins = vec![LEFT_JOINABLE | RIGHT_JOINABLE; keys.len()];
    let raw = RawList {
        operations: &operations,
        spans: &spans,
        keys: &keys,
        joins: &joins,
        text,
    };
    calls::elongate(raw, ElongateRooms::AMPLE)
}
