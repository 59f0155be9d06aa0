//! The calls with rooms of their own: each lends vectors of the right length and hands them back.

use crate::records::{Cursor, Item, Lent, Operation, RawOperation, Span, Token};
use crate::refusal::Refusal;
use crate::rooms;
use std::ops::Range;

// What the calls accept at most. Past it they refuse, so rooms need not grow with what a list claims.
const MERGE_TOKENS_MOST: usize = 8192;
const TOKENS_MOST: usize = 16384;

fn room<T: Clone + Default>(length: usize) -> Vec<T> {
    vec![T::default(); length]
}

/// The code points of a string.
pub fn code_points(text: &str) -> Vec<u32> {
    text.chars().map(u32::from).collect()
}

/// The string of code points; none where one of them is no code point.
pub fn string(text: &[u32]) -> Option<String> {
    text.iter().map(|&point| char::from_u32(point)).collect()
}

/// Reads UTF-8.
///
/// ```
/// use fleecelatch::{read_utf8, write_utf8, Refusal};
/// assert_eq!(read_utf8("né".as_bytes()), Ok(vec![0x6e, 0xe9]));
/// assert_eq!(read_utf8(b"n\xff"), Err(Refusal::Utf8 { offset: 1 }));
/// assert_eq!(write_utf8(&[0x6e, 0xe9]), Ok("né".as_bytes().to_vec()));
/// assert_eq!(write_utf8(&[0xd800]), Err(Refusal::CodePoint { index: 0 }));
/// ```
pub fn read_utf8(bytes: &[u8]) -> Result<Vec<u32>, Refusal> {
    let mut out = room(rooms::utf8_read_length(bytes)?);
    rooms::utf8_read(bytes, &mut out)?;
    Ok(out)
}

/// Writes code points as UTF-8.
pub fn write_utf8(text: &[u32]) -> Result<Vec<u8>, Refusal> {
    let mut out = room(rooms::utf8_write_length(text)?);
    rooms::utf8_write(text, &mut out)?;
    Ok(out)
}

/// The longest beginning of `new` that occurs in `old`, at its first occurrence; `0..0` if none. At most 8,192 keys each.
pub fn overlap(old: &[u32], new: &[u32]) -> Result<Range<usize>, Refusal> {
    rooms::find_longest_prefix_contained_within(old, new, &mut room(new.len()))
}

/// A raw list, elongated and cooked: its operations, and the tokens that their ranges speak of.
#[derive(Clone, Debug, Default, PartialEq, Eq)]
pub struct Elongated {
    /// The operations, each with its order, length and tokens.
    pub operations: Vec<Operation>,
    /// All tokens, in the order of the operations.
    pub tokens: Vec<Token>,
    /// Their keys.
    pub keys: Vec<u32>,
    /// Their joins.
    pub joins: Vec<u8>,
}

/// Elongates a raw list: in each stretch without a retain all deletes come first, then all inserts, and neighbours that may join do.
pub fn elongate(raw: &[RawOperation], tokens: &[Token], keys: &[u32], joins: &[u8], text: &[u32]) -> Result<Elongated, Refusal> {
    let most = raw.iter().fold(0, |sum: usize, o| sum.saturating_add(o.count)).min(TOKENS_MOST);
    let mut made = Elongated { operations: room(raw.len()), tokens: room(most), keys: room(most), joins: room(most) };
    let Elongated { operations, tokens: spanned, keys: keyed, joins: joined } = &mut made;
    let (operation_count, token_count) = rooms::elongate(raw, tokens, keys, joins, text, operations, spanned, keyed, joined)?;
    made.operations.truncate(operation_count);
    made.tokens.truncate(token_count);
    made.keys.truncate(token_count);
    made.joins.truncate(token_count);
    Ok(made)
}

/// A merged list, over the same tokens as the two lists, and the cursors of both in the merged text, sorted by index.
#[derive(Clone, Debug, Default, PartialEq, Eq)]
pub struct Merged {
    /// The operations.
    pub operations: Vec<Operation>,
    /// The cursors.
    pub cursors: Vec<Cursor>,
}

/// Merges two lists of edits of one original, with their cursors.
///
/// ```
/// use fleecelatch::{apply, code_points, merge, string, Cursor, Lent, Operation, Token};
/// # fn main() -> Result<(), fleecelatch::Refusal> {
/// let (original, text) = (code_points("abcdef"), code_points("XY"));
/// let tokens = [Token { start: 0, length: 1 }, Token { start: 1, length: 1 }];
/// let lent = Lent { original: &original, text: &text, tokens: &tokens, keys: &[88, 89] };
/// let left = [Operation::retain(0, 2), Operation::delete(2, 2), Operation::insert(0, 1), Operation::retain(4, 2)];
/// let right = [Operation::retain(0, 3), Operation::delete(3, 2), Operation::insert(1, 1), Operation::retain(5, 1)];
///
/// let merged = merge(lent, &left, &right, &[], &[Cursor { identity: 7, index: 3 }])?;
/// assert_eq!(merged.cursors, [Cursor { identity: 7, index: 2 }]);
/// assert_eq!(string(&apply(lent, &merged.operations, &[])?.text).unwrap(), "abXYf");
/// # Ok(())
/// # }
/// ```
pub fn merge(lent: Lent<'_>, left: &[Operation], right: &[Operation], left_cursors: &[Cursor], right_cursors: &[Cursor]) -> Result<Merged, Refusal> {
    let inserted = |list: &[Operation]| {
        let counts = list.iter().filter(|o| o.kind == Operation::INSERT).map(|o| o.count);
        counts.fold(0, usize::saturating_add).min(MERGE_TOKENS_MOST)
    };
    let mut made = Merged { operations: room(left.len() + right.len()), cursors: room(left_cursors.len() + right_cursors.len()) };
    let mut work = room(2 * (inserted(left) + inserted(right)));
    let (operations, cursors) = rooms::merge(lent, left, right, left_cursors, right_cursors, &mut made.operations, &mut made.cursors, &mut work)?;
    made.operations.truncate(operations);
    made.cursors.truncate(cursors);
    Ok(made)
}

/// A list's text, and its cursors, sorted by index.
#[derive(Clone, Debug, Default, PartialEq, Eq)]
pub struct Applied {
    /// The text.
    pub text: Vec<u32>,
    /// The cursors.
    pub cursors: Vec<Cursor>,
}

/// A list's text, with cursors that lie in it.
pub fn apply(lent: Lent<'_>, operations: &[Operation], cursors: &[Cursor]) -> Result<Applied, Refusal> {
    let (text, count) = rooms::apply_lengths(lent, operations, cursors)?;
    let mut made = Applied { text: room(text), cursors: room(count) };
    rooms::apply(lent, operations, cursors, &mut made.text, &mut made.cursors)?;
    Ok(made)
}

/// A list's history: a span for each operation, and the text of all spans.
#[derive(Clone, Debug, Default, PartialEq, Eq)]
pub struct History {
    /// The spans, in the order of the operations.
    pub spans: Vec<Span>,
    /// Their text, one behind the other.
    pub text: Vec<u32>,
}

impl History {
    /// The text of a span of this history.
    pub fn text_of(&self, span: &Span) -> &[u32] {
        &self.text[span.start..][..span.length]
    }
}

/// A list's history: which text is unchanged, and which was added and removed by which side.
pub fn history(lent: Lent<'_>, operations: &[Operation]) -> Result<History, Refusal> {
    let (spans, text) = rooms::apply_with_history_lengths(lent, operations)?;
    let mut made = History { spans: room(spans), text: room(text) };
    rooms::apply_with_history(lent, operations, &mut made.spans, &mut made.text)?;
    Ok(made)
}

/// Text, cursors and history of a list.
#[derive(Clone, Debug, Default, PartialEq, Eq)]
pub struct All {
    /// Text and cursors.
    pub applied: Applied,
    /// The history.
    pub history: History,
}

/// Text, cursors and history of a list, in one pass over its operations.
pub fn apply_with_all(lent: Lent<'_>, operations: &[Operation], cursors: &[Cursor]) -> Result<All, Refusal> {
    let (text, spans, history_text) = rooms::apply_with_all_lengths(lent, operations, cursors)?;
    let mut applied = Applied { text: room(text), cursors: room(cursors.len()) };
    let mut history = History { spans: room(spans), text: room(history_text) };
    rooms::apply_with_all(lent, operations, cursors, &mut applied.text, &mut applied.cursors, &mut history.spans, &mut history.text)?;
    Ok(All { applied, history })
}

/// A diff: its items, and the text that its text items are ranges of.
#[derive(Clone, Debug, Default, PartialEq, Eq)]
pub struct Diff {
    /// The items.
    pub items: Vec<Item>,
    /// The text.
    pub text: Vec<u32>,
}

/// The diff of a list.
pub fn to_diff(lent: Lent<'_>, operations: &[Operation]) -> Result<Diff, Refusal> {
    let (items, text) = rooms::to_diff_lengths(lent, operations)?;
    let mut made = Diff { items: room(items), text: room(text) };
    rooms::to_diff(lent, operations, &mut made.items, &mut made.text)?;
    Ok(made)
}

/// Replays a diff; original text that it leaves unmentioned is dropped.
///
/// ```
/// use fleecelatch::{code_points, replay, replay_covering, Diff, Item, Refusal};
/// let original = code_points("abcde");
/// let diff = Diff { items: vec![Item::number(2), Item::text(0, 1), Item::number(-2)], text: code_points("X") };
/// assert_eq!(replay(&original, &diff), Ok(code_points("abX")));
/// assert_eq!(replay_covering(&original, &diff), Err(Refusal::Unmentioned { left: 1 }));
/// ```
pub fn replay(original: &[u32], diff: &Diff) -> Result<Vec<u32>, Refusal> {
    let mut out = room(rooms::from_diff_length(original, &diff.items, &diff.text)?);
    rooms::from_diff(original, &diff.items, &diff.text, &mut out)?;
    Ok(out)
}

/// Replays a diff that mentions all of the original; another is [`Refusal::Unmentioned`].
pub fn replay_covering(original: &[u32], diff: &Diff) -> Result<Vec<u32>, Refusal> {
    let mut out = room(rooms::from_covering_diff_length(original, &diff.items, &diff.text)?);
    rooms::from_covering_diff(original, &diff.items, &diff.text, &mut out)?;
    Ok(out)
}

/// Reads an edit file. No proper beginning of an accepted file is accepted.
///
/// ```
/// use fleecelatch::{read_edit_file, write_edit_file, Refusal};
/// let file = b"form=1\noriginal=2\nresult=1\nitems=2\nkeep=1\ndrop=1\nend=2\n";
/// let diff = read_edit_file(file)?;
/// assert_eq!(write_edit_file(&diff)?, file);
/// assert_eq!(read_edit_file(&file[..file.len() - 9]), Err(Refusal::Line { line: 6 }));
/// # Ok::<(), Refusal>(())
/// ```
pub fn read_edit_file(bytes: &[u8]) -> Result<Diff, Refusal> {
    let (items, text) = rooms::edit_file_read_lengths(bytes)?;
    let mut made = Diff { items: room(items), text: room(text) };
    rooms::edit_file_read(bytes, &mut made.items, &mut made.text)?;
    Ok(made)
}

/// Writes a diff as an edit file.
pub fn write_edit_file(diff: &Diff) -> Result<Vec<u8>, Refusal> {
    let mut out = room(rooms::edit_file_write_length(&diff.items, &diff.text)?);
    rooms::edit_file_write(&diff.items, &diff.text, &mut out)?;
    Ok(out)
}

/// What the program writes.
#[derive(Clone, Debug, PartialEq, Eq)]
pub enum Files {
    /// The merged edit file.
    Merged(Vec<u8>),
    /// A line `refused=` with the number of a refusal.
    Refused(Vec<u8>),
}

/// Merges two edit files of a text in UTF-8, each of the three of at most 2,048 bytes, as the program `fleecelatch` does.
///
/// ```
/// use fleecelatch::{merge_files, Files};
/// let same = b"form=1\noriginal=1\nresult=1\nitems=1\nkeep=1\nend=1\n";
/// assert_eq!(merge_files(b"a", same, same), Files::Merged(same.to_vec()));
/// assert_eq!(merge_files(b"a", same, b"form=1\n"), Files::Refused(b"refused=8\n".to_vec()));
/// ```
pub fn merge_files(original: &[u8], left: &[u8], right: &[u8]) -> Files {
    let mut length = 65536;
    loop {
        let mut out = room(length);
        match rooms::merge_files(original, left, right, &mut out) {
            Ok((bytes, refused)) => {
                out.truncate(bytes);
                return if refused { Files::Refused(out) } else { Files::Merged(out) };
            }
            Err(_) => length *= 2,
        }
    }
}

/// The text that two edit files of a text merge to; or what is refused, as [`merge`] and [`read_edit_file`] refuse it.
///
/// ```
/// let left = b"form=1\noriginal=6\nresult=5\nitems=4\nkeep=2\ndrop=2\nadd=58\nkeep=2\nend=4\n";
/// let right = b"form=1\noriginal=6\nresult=5\nitems=4\nkeep=3\ndrop=2\nadd=59\nkeep=1\nend=4\n";
/// assert_eq!(fleecelatch::merge_text("abcdef", left, right), Ok("abXYf".to_string()));
/// ```
pub fn merge_text(original: &str, left: &[u8], right: &[u8]) -> Result<String, Refusal> {
    let original = code_points(original);
    let lists = crate::Lists::from_diffs(&read_edit_file(left)?, &read_edit_file(right)?)?;
    let lent = lists.lent(&original);
    let merged = merge(lent, &lists.left, &lists.right, &[], &[])?;
    let text = apply(lent, &merged.operations, &[])?.text;
    Ok(string(&text).expect("the library hands out code points alone"))
}
