//! Every call of the library, over rooms that the caller lends: nothing is allocated, and nothing is copied but what the call writes.
//!
//! A refusal writes nothing. On success a room past its answer is unchanged; only a work room is left holding nothing in particular.
//! How long a room must be is said with each call; one that is shorter is [`Refusal::Room`].

use crate::ffi;
use crate::records::{Cursor, Item, Lent, Operation, RawOperation, Span, Token, numbers, numbers_mut};
use crate::refusal::{Refusal, counts};
use std::ops::Range;

// Calls the archive with slices lent for reading; and, behind the semicolon, slices lent for writing.
macro_rules! call {
    ($name:ident($($read:ident),*; $($room:ident),*)) => {
        // SAFETY: each pointer is a live slice's, with its length beside it; a room is a `&mut` slice, so it overlaps no other. The library asks no
        // more: no call of it has a `requires`.
        counts(unsafe { ffi::$name($($read.as_ptr(), $read.len(),)* $($room.as_mut_ptr(), $room.len(),)*) })
    };
}

fn one([first, _, _]: [usize; 3]) -> usize {
    first
}

fn two([first, second, _]: [usize; 3]) -> (usize, usize) {
    (first, second)
}

fn three([first, second, third]: [usize; 3]) -> (usize, usize, usize) {
    (first, second, third)
}

/// How many code points bytes hold: the room of [`utf8_read`].
pub fn utf8_read_length(bytes: &[u8]) -> Result<usize, Refusal> {
    call!(fleecelatch_utf8_read_length(bytes;)).map(one)
}

/// Reads UTF-8 into `out`: how many code points.
pub fn utf8_read(bytes: &[u8], out: &mut [u32]) -> Result<usize, Refusal> {
    call!(fleecelatch_utf8_read(bytes; out)).map(one)
}

/// How many bytes code points take: the room of [`utf8_write`].
pub fn utf8_write_length(text: &[u32]) -> Result<usize, Refusal> {
    call!(fleecelatch_utf8_write_length(text;)).map(one)
}

/// Writes code points as UTF-8 into `out`: how many bytes.
pub fn utf8_write(text: &[u32], out: &mut [u8]) -> Result<usize, Refusal> {
    call!(fleecelatch_utf8_write(text; out)).map(one)
}

/// The longest beginning of `new` that occurs in `old`, at its first occurrence; `0..0` if none. `work` is as long as `new`.
///
/// ```
/// let mut work = [0; 5];
/// assert_eq!(fleecelatch::rooms::find_longest_prefix_contained_within(&[0, 1, 9, 0, 2, 5], &[9, 0, 2, 5, 1], &mut work), Ok(2..6));
/// ```
pub fn find_longest_prefix_contained_within(old: &[u32], new: &[u32], work: &mut [u32]) -> Result<Range<usize>, Refusal> {
    call!(fleecelatch_find_longest_prefix_contained_within(old, new; work)).map(|[start, end, _]| start..end)
}

/// Elongates a raw list and gives each operation its order and length: how many operations and tokens. The rooms take as many operations, and each of
/// the three last as many tokens, as the raw list has.
#[allow(clippy::too_many_arguments)]
pub fn elongate(
    raw: &[RawOperation],
    tokens: &[Token],
    keys: &[u32],
    joins: &[u8],
    text: &[u32],
    operations: &mut [Operation],
    spanned: &mut [Token],
    keyed: &mut [u32],
    joined: &mut [u8],
) -> Result<(usize, usize), Refusal> {
    let (raw, tokens) = (numbers(raw), numbers(tokens));
    let (operations, spanned) = (numbers_mut(operations), numbers_mut(spanned));
    call!(fleecelatch_elongate(raw, tokens, keys, joins, text; operations, spanned, keyed, joined)).map(two)
}

/// Merges two lists of edits of one original, with their cursors: how many operations and cursors. `operations` and `cursors` take as many as both lists
/// have, `work` twice the insert tokens of both.
#[allow(clippy::too_many_arguments)]
pub fn merge(
    lent: Lent<'_>,
    left: &[Operation],
    right: &[Operation],
    left_cursors: &[Cursor],
    right_cursors: &[Cursor],
    operations: &mut [Operation],
    cursors: &mut [Cursor],
    work: &mut [u32],
) -> Result<(usize, usize), Refusal> {
    let Lent { original, text, tokens, keys } = lent;
    let (tokens, left, right) = (numbers(tokens), numbers(left), numbers(right));
    let (left_cursors, right_cursors) = (numbers(left_cursors), numbers(right_cursors));
    let (operations, cursors) = (numbers_mut(operations), numbers_mut(cursors));
    call!(fleecelatch_merge(original, text, tokens, keys, left, right, left_cursors, right_cursors; operations, cursors, work)).map(two)
}

/// How many code points and cursors [`apply`] writes.
pub fn apply_lengths(lent: Lent<'_>, operations: &[Operation], cursors: &[Cursor]) -> Result<(usize, usize), Refusal> {
    let Lent { original, text, tokens, keys } = lent;
    let (tokens, operations, cursors) = (numbers(tokens), numbers(operations), numbers(cursors));
    call!(fleecelatch_apply_lengths(original, text, tokens, keys, operations, cursors;)).map(two)
}

/// A list's text into `out` and its cursors, sorted by index, into `moved`: how many of each.
pub fn apply(lent: Lent<'_>, operations: &[Operation], cursors: &[Cursor], out: &mut [u32], moved: &mut [Cursor]) -> Result<(usize, usize), Refusal> {
    let Lent { original, text, tokens, keys } = lent;
    let (tokens, operations, cursors) = (numbers(tokens), numbers(operations), numbers(cursors));
    let moved = numbers_mut(moved);
    call!(fleecelatch_apply(original, text, tokens, keys, operations, cursors; out, moved)).map(two)
}

/// How many spans and code points [`apply_with_history`] writes.
pub fn apply_with_history_lengths(lent: Lent<'_>, operations: &[Operation]) -> Result<(usize, usize), Refusal> {
    let Lent { original, text, tokens, keys } = lent;
    let (tokens, operations) = (numbers(tokens), numbers(operations));
    call!(fleecelatch_apply_with_history_lengths(original, text, tokens, keys, operations;)).map(two)
}

/// A list's history: one span for each operation into `history`, the text of all spans into `out`: how many of each.
pub fn apply_with_history(lent: Lent<'_>, operations: &[Operation], history: &mut [Span], out: &mut [u32]) -> Result<(usize, usize), Refusal> {
    let Lent { original, text, tokens, keys } = lent;
    let (tokens, operations) = (numbers(tokens), numbers(operations));
    let history = numbers_mut(history);
    call!(fleecelatch_apply_with_history(original, text, tokens, keys, operations; history, out)).map(two)
}

/// How many code points of text, spans and code points of the history [`apply_with_all`] writes; its cursors are as many as are lent.
pub fn apply_with_all_lengths(lent: Lent<'_>, operations: &[Operation], cursors: &[Cursor]) -> Result<(usize, usize, usize), Refusal> {
    let Lent { original, text, tokens, keys } = lent;
    let (tokens, operations, cursors) = (numbers(tokens), numbers(operations), numbers(cursors));
    call!(fleecelatch_apply_with_all_lengths(original, text, tokens, keys, operations, cursors;)).map(three)
}

/// What [`apply`] and [`apply_with_history`] write: how many code points of text, spans and code points of the history.
#[allow(clippy::too_many_arguments)]
pub fn apply_with_all(
    lent: Lent<'_>,
    operations: &[Operation],
    cursors: &[Cursor],
    out: &mut [u32],
    moved: &mut [Cursor],
    history: &mut [Span],
    history_text: &mut [u32],
) -> Result<(usize, usize, usize), Refusal> {
    let Lent { original, text, tokens, keys } = lent;
    let (tokens, operations, cursors) = (numbers(tokens), numbers(operations), numbers(cursors));
    let (moved, history) = (numbers_mut(moved), numbers_mut(history));
    call!(fleecelatch_apply_with_all(original, text, tokens, keys, operations, cursors; out, moved, history, history_text)).map(three)
}

/// How many items and code points [`to_diff`] writes.
pub fn to_diff_lengths(lent: Lent<'_>, operations: &[Operation]) -> Result<(usize, usize), Refusal> {
    let Lent { original, text, tokens, keys } = lent;
    let (tokens, operations) = (numbers(tokens), numbers(operations));
    call!(fleecelatch_to_diff_lengths(original, text, tokens, keys, operations;)).map(two)
}

/// A list's diff: its items into `items`, their text into `out`: how many of each.
pub fn to_diff(lent: Lent<'_>, operations: &[Operation], items: &mut [Item], out: &mut [u32]) -> Result<(usize, usize), Refusal> {
    let Lent { original, text, tokens, keys } = lent;
    let (tokens, operations) = (numbers(tokens), numbers(operations));
    let items = numbers_mut(items);
    call!(fleecelatch_to_diff(original, text, tokens, keys, operations; items, out)).map(two)
}

/// The length of the text that [`from_diff`] writes.
pub fn from_diff_length(original: &[u32], items: &[Item], text: &[u32]) -> Result<usize, Refusal> {
    let items = numbers(items);
    call!(fleecelatch_from_diff_length(original, items, text;)).map(one)
}

/// Replays a diff into `out`, dropping original text that it leaves unmentioned: how many code points.
pub fn from_diff(original: &[u32], items: &[Item], text: &[u32], out: &mut [u32]) -> Result<usize, Refusal> {
    let items = numbers(items);
    call!(fleecelatch_from_diff(original, items, text; out)).map(one)
}

/// The length of the text that [`from_covering_diff`] writes.
pub fn from_covering_diff_length(original: &[u32], items: &[Item], text: &[u32]) -> Result<usize, Refusal> {
    let items = numbers(items);
    call!(fleecelatch_from_covering_diff_length(original, items, text;)).map(one)
}

/// Replays a diff into `out`, refusing one that leaves original text unmentioned: how many code points.
pub fn from_covering_diff(original: &[u32], items: &[Item], text: &[u32], out: &mut [u32]) -> Result<usize, Refusal> {
    let items = numbers(items);
    call!(fleecelatch_from_covering_diff(original, items, text; out)).map(one)
}

/// How many items and code points [`edit_file_read`] writes.
pub fn edit_file_read_lengths(bytes: &[u8]) -> Result<(usize, usize), Refusal> {
    call!(fleecelatch_edit_file_read_lengths(bytes;)).map(two)
}

/// Reads an edit file: its items into `items`, their text into `text`: how many of each.
pub fn edit_file_read(bytes: &[u8], items: &mut [Item], text: &mut [u32]) -> Result<(usize, usize), Refusal> {
    let items = numbers_mut(items);
    call!(fleecelatch_edit_file_read(bytes; items, text)).map(two)
}

/// Whether an edit file is believed for an original of so many code points: it is accepted, and `original=` is that number.
///
/// ```
/// let empty = b"form=1\noriginal=0\nresult=0\nitems=0\nend=0\n";
/// assert!(fleecelatch::believed(empty, 0));
/// assert!(!fleecelatch::believed(empty, 1));
/// assert!(!fleecelatch::believed(&empty[..39], 0), "a file cut by one byte");
/// ```
pub fn believed(bytes: &[u8], original: usize) -> bool {
    // SAFETY: the pointer is a live slice's, with its length.
    let answer = unsafe { ffi::fleecelatch_edit_file_believed(bytes.as_ptr(), bytes.len(), original) };
    answer.first == 1
}

/// How many bytes [`edit_file_write`] writes.
pub fn edit_file_write_length(items: &[Item], text: &[u32]) -> Result<usize, Refusal> {
    let items = numbers(items);
    call!(fleecelatch_edit_file_write_length(items, text;)).map(one)
}

/// Writes a diff as an edit file into `out`: how many bytes.
pub fn edit_file_write(items: &[Item], text: &[u32], out: &mut [u8]) -> Result<usize, Refusal> {
    let items = numbers(items);
    call!(fleecelatch_edit_file_write(items, text; out)).map(one)
}

/// The program's work, on three files of at most 2,048 bytes each: the merged edit file into `out`, or a line `refused=` with the number; how many bytes,
/// and whether they are that line. The only refusal is [`Refusal::Room`].
pub fn merge_files(original: &[u8], left: &[u8], right: &[u8], out: &mut [u8]) -> Result<(usize, bool), Refusal> {
    call!(fleecelatch_merge_files(original, left, right; out)).map(|[bytes, refused, _]| (bytes, refused == 1))
}
