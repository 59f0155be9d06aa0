//! Document 01's checks of lists, raw lists and the overlap's keys, in the paper's order.

use super::refusal::{AMPLE, Refusal, code_points, inside, room, size, within};
use crate::flat::{
    CURSOR_STRIDE, DELETE, INSERT, Lent, OPERATION_STRIDE, RAW_STRIDE, RETAIN, RIGHT, SPAN_STRIDE,
};
use crate::generate::Merge;

/// The sizes of a list, which differ by what it is lent for.
struct Sizes {
    operations: usize,
    tokens: usize,
    text: usize,
    cursors: usize,
}

/// "4,096 a list for merging", "8,192 a list for merging", "65,535 for merging", "256 a list
/// for merging"
const MERGING: Sizes = Sizes {
    operations: 4_096,
    tokens: 8_192,
    text: 65_535,
    cursors: 256,
};

/// "8,192 for text, history and diff", "16,384 otherwise", "131,070 otherwise", "512 otherwise"
const OTHERWISE: Sizes = Sizes {
    operations: 8_192,
    tokens: 16_384,
    text: 131_070,
    cursors: 512,
};

/// One list: flat operations and cursors.
#[derive(Clone, Copy)]
pub struct List<'a> {
    pub operations: &'a [usize],
    pub cursors: &'a [usize],
}

impl<'a> List<'a> {
    pub fn left(merge: &'a Merge) -> Self {
        Self {
            operations: &merge.left,
            cursors: &merge.left_cursors,
        }
    }

    pub fn right(merge: &'a Merge) -> Self {
        Self {
            operations: &merge.right,
            cursors: &merge.right_cursors,
        }
    }
}

/// The tokens that one operation claims.
#[derive(Clone, Copy)]
struct Tokens<'a> {
    first: usize,
    count: usize,
    /// The tokens that were lent, and how many.
    spans: &'a [u32],
    lent: usize,
    /// The text they spell from.
    text: &'a [u32],
}

impl<'a> Tokens<'a> {
    fn are_lent(self) -> bool {
        inside(self.first as u128, self.count as u128, self.lent)
    }

    /// The spans of the claimed tokens; none when their range is outside.
    fn spans(self) -> impl Iterator<Item = &'a [u32]> {
        let count = if self.are_lent() { self.count } else { 0 };
        self.spans
            .chunks_exact(SPAN_STRIDE)
            .skip(self.first)
            .take(count)
    }

    fn is_in_text(self, span: &[u32]) -> bool {
        inside(span[0].into(), span[1].into(), self.text.len())
    }

    /// "parts outside what was lent add no text"
    fn text_length(self) -> u128 {
        self.spans()
            .filter(|span| self.is_in_text(span))
            .map(|span| u128::from(span[1]))
            .sum()
    }

    /// "token of length 0; insert or raw operation with no tokens; token or range outside what
    /// was lent"
    fn are_malformed(self) -> bool {
        self.count == 0
            || !self.are_lent()
            || self
                .spans()
                .any(|span| span[1] == 0 || !self.is_in_text(span))
    }
}

/// An insert's tokens. A token is lent when both slices reach it.
fn tokens<'a>(lent: &Lent<'a>, insert: &[usize]) -> Tokens<'a> {
    Tokens {
        first: insert[4],
        count: insert[5],
        spans: lent.spans,
        lent: (lent.spans.len() / SPAN_STRIDE).min(lent.keys.len()),
        text: lent.inserted,
    }
}

/// The sum of numbers of any size.
fn sum(numbers: impl Iterator<Item = usize>) -> u128 {
    numbers.map(|number| number as u128).sum()
}

/// Refusal 1 at the first of these records that is malformed.
fn records<'a>(
    mut records: impl Iterator<Item = &'a [usize]>,
    malformed: impl FnMut(&'a [usize]) -> bool,
) -> Result<(), Refusal> {
    match records.position(malformed) {
        Some(index) => Err(Refusal::Record { index }),
        None => Ok(()),
    }
}

impl<'a> List<'a> {
    fn operations(self) -> impl ExactSizeIterator<Item = &'a [usize]> {
        self.operations.chunks_exact(OPERATION_STRIDE)
    }

    fn cursors(self) -> impl ExactSizeIterator<Item = &'a [usize]> {
        self.cursors.chunks_exact(CURSOR_STRIDE)
    }

    fn of_kind(self, kind: usize) -> impl Iterator<Item = &'a [usize]> {
        self.operations()
            .filter(move |operation| operation[0] == kind)
    }

    /// "token counts stand as claimed; an unknown kind adds none"
    fn claimed_tokens(self) -> u128 {
        sum(self.of_kind(INSERT).map(|insert| insert[5]))
    }

    /// "a list's inserted text is the sum of its tokens' lengths"
    fn inserted_length(self, lent: &Lent) -> u128 {
        self.of_kind(INSERT)
            .map(|insert| tokens(lent, insert).text_length())
            .sum()
    }

    /// Refusal 3.
    fn check_sizes(self, lent: &Lent, sizes: &Sizes) -> Result<(), Refusal> {
        within(self.operations().len() as u128, sizes.operations)?;
        within(self.claimed_tokens(), sizes.tokens)?;
        within(self.inserted_length(lent), sizes.text)?;
        within(self.cursors().len() as u128, sizes.cursors)
    }

    /// Refusal 1: "unknown kind or side; in a list, a retain, delete or (raw lists too) token of
    /// length 0; insert or raw operation with no tokens; token or range outside what was lent"
    fn check_records(self, lent: &Lent) -> Result<(), Refusal> {
        records(self.operations(), |operation| {
            let malformed = match operation[0] {
                DELETE | RETAIN => operation[2] == 0,
                INSERT => tokens(lent, operation).are_malformed(),
                _ => true,
            };
            malformed || operation[3] > RIGHT
        })
    }

    /// Refusal 2: "index of first whose order isn't the length consumed before it or that passes
    /// the end; else the list's length"
    fn check_tiling(self, original: &[u32]) -> Result<(), Refusal> {
        let mut consumed = 0;
        for (index, operation) in self.operations().enumerate() {
            if operation[0] == INSERT {
                continue;
            }
            if operation[1] != consumed || operation[2] > original.len() - consumed {
                return Err(Refusal::Tiling { index });
            }
            consumed += operation[2];
        }
        if consumed < original.len() {
            return Err(Refusal::Tiling {
                index: self.operations().len(),
            });
        }
        Ok(())
    }

    /// Refusal 5. "A list's text: retained original and insert tokens' spelling"
    fn check_cursors(self, lent: &Lent) -> Result<(), Refusal> {
        let retained = sum(self.of_kind(RETAIN).map(|retain| retain[2]));
        let length = retained + self.inserted_length(lent);
        match self.cursors().position(|cursor| cursor[1] as u128 > length) {
            Some(place) => Err(Refusal::Cursor { place }),
            None => Ok(()),
        }
    }
}

/// Refusals 3, 4, 1, 2, 5, "each check on original, left, right before the next"; the lent
/// inserted text is "checked after the original".
fn check(lent: &Lent, lists: &[List], sizes: &Sizes) -> Result<(), Refusal> {
    let each = |check: &dyn Fn(&List) -> Result<(), Refusal>| lists.iter().try_for_each(check);

    within(lent.original.len() as u128, size::ORIGINAL)?;
    within(lent.inserted.len() as u128, size::INSERTED_TEXT_LENT)?;
    each(&|list| list.check_sizes(lent, sizes))?;

    code_points(lent.original)?;
    code_points(lent.inserted)?;

    each(&|list| list.check_records(lent))?;
    each(&|list| list.check_tiling(lent.original))?;
    each(&|list| list.check_cursors(lent))
}

/// One list for its text, history or diff; history and diff lend no cursors.
pub fn check_list(lent: &Lent, list: List) -> Result<(), Refusal> {
    check(lent, &[list], &OTHERWISE)
}

/// The lengths of the slices lent as a merge's rooms.
#[derive(Clone, Copy)]
pub struct MergeRooms {
    pub operations: usize,
    pub cursors: usize,
    pub work: usize,
}

impl MergeRooms {
    pub const AMPLE: Self = Self {
        operations: AMPLE,
        cursors: AMPLE,
        work: AMPLE,
    };
}

/// The two lists of a merge, then its rooms: "operations, as many as both lists have together;
/// cursors, both counts together; work, twice the insert tokens of both lists".
pub fn check_merge(lent: &Lent, left: List, right: List, rooms: MergeRooms) -> Result<(), Refusal> {
    check(lent, &[left, right], &MERGING)?;

    let operations = left.operations().len() + right.operations().len();
    let cursors = left.cursors().len() + right.cursors().len();
    let tokens = left.claimed_tokens() + right.claimed_tokens();
    room(operations, OPERATION_STRIDE, rooms.operations)?;
    room(cursors, CURSOR_STRIDE, rooms.cursors)?;
    room(2 * tokens as usize, 1, rooms.work)
}

/// A raw list with its tokens and the text they spell from.
#[derive(Clone, Copy)]
pub struct RawList<'a> {
    pub operations: &'a [usize],
    pub spans: &'a [u32],
    pub keys: &'a [u32],
    pub joins: &'a [u8],
    pub text: &'a [u32],
}

/// The lengths of the slices lent as elongating's rooms.
#[derive(Clone, Copy)]
pub struct ElongateRooms {
    pub operations: usize,
    pub spans: usize,
    pub keys: usize,
    pub joins: usize,
}

impl ElongateRooms {
    pub const AMPLE: Self = Self {
        operations: AMPLE,
        spans: AMPLE,
        keys: AMPLE,
        joins: AMPLE,
    };
}

impl<'a> RawList<'a> {
    fn operations(self) -> impl ExactSizeIterator<Item = &'a [usize]> {
        self.operations.chunks_exact(RAW_STRIDE)
    }

    /// "A raw operation is a kind and its tokens, for all three kinds", so all three count.
    fn known(self) -> impl Iterator<Item = &'a [usize]> {
        self.operations().filter(|operation| is_known(operation[0]))
    }

    /// A token is "a range of lent code points, a key, and two flags": it is lent when all three
    /// slices reach it.
    fn tokens(self, operation: &[usize]) -> Tokens<'a> {
        let spans = self.spans.len() / SPAN_STRIDE;
        Tokens {
            first: operation[1],
            count: operation[2],
            spans: self.spans,
            lent: spans.min(self.keys.len()).min(self.joins.len()),
            text: self.text,
        }
    }

    /// Raw lists: 3, 4, 1, 7. The rooms: "as many operations, and as many tokens, as the raw
    /// list has".
    pub fn check(self, rooms: ElongateRooms) -> Result<(), Refusal> {
        let claimed = sum(self.known().map(|operation| operation[2]));
        within(self.operations().len() as u128, size::RAW_OPERATIONS)?;
        within(claimed, size::RAW_TOKENS)?;
        within(self.text.len() as u128, size::RAW_TEXT)?;
        let length = self
            .known()
            .map(|operation| self.tokens(operation).text_length())
            .sum();
        within(length, size::RAW_TEXT)?;

        code_points(self.text)?;

        records(self.operations(), |operation| {
            !is_known(operation[0]) || self.tokens(operation).are_malformed()
        })?;

        let tokens = claimed as usize;
        room(self.operations().len(), OPERATION_STRIDE, rooms.operations)?;
        room(tokens, SPAN_STRIDE, rooms.spans)?;
        room(tokens, 1, rooms.keys)?;
        room(tokens, 1, rooms.joins)
    }
}

fn is_known(kind: usize) -> bool {
    matches!(kind, DELETE | INSERT | RETAIN)
}

/// "Called alone: 8,192 tokens a side, work as long as new; 3 then 7."
pub fn check_overlap(old: &[u32], new: &[u32], work: usize) -> Result<(), Refusal> {
    within(old.len() as u128, size::OVERLAP_TOKENS)?;
    within(new.len() as u128, size::OVERLAP_TOKENS)?;
    room(new.len(), 1, work)
}
