//! Two diffs as two lists over shared tokens, made as the program makes them.

use crate::owned::{Diff, Elongated, elongate};
use crate::records::{Item, LEFT_JOINABLE, Lent, Operation, RIGHT_JOINABLE, RawOperation, Token};
use crate::refusal::Refusal;

/// Two lists for [`merge`](crate::merge), with the text, tokens and keys that they share.
///
/// Each added code point is a joinable token keyed by itself, each keep or drop one joinable token; the lists are elongated. Whether they tile an
/// original is for the merge to say.
#[derive(Clone, Debug, Default, PartialEq, Eq)]
pub struct Lists {
    /// The code points that tokens are ranges of.
    pub text: Vec<u32>,
    /// The tokens of both lists, the left's first.
    pub tokens: Vec<Token>,
    /// Their keys.
    pub keys: Vec<u32>,
    /// The left list.
    pub left: Vec<Operation>,
    /// The right list.
    pub right: Vec<Operation>,
}

impl Lists {
    /// The lists of two diffs, as [`read_edit_file`](crate::read_edit_file) gives them.
    pub fn from_diffs(left: &Diff, right: &Diff) -> Result<Lists, Refusal> {
        // A keep's or drop's token ranges over the one lent text too, so that text is as long as the longest.
        let longest =
            left.items.iter().chain(&right.items).filter(|item| item.kind == Item::NUMBER).map(|item| item.value.unsigned_abs() as usize).max();
        let mut text: Vec<u32> = left.text.iter().chain(&right.text).copied().collect();
        text.resize(text.len().max(longest.unwrap_or(0).min(131_070)), 0);

        let first = list(left, 0, &text)?;
        let mut second = list(right, left.text.len(), &text)?;
        for operation in &mut second.operations {
            operation.first += first.tokens.len();
        }
        let tokens = first.tokens.into_iter().chain(second.tokens).collect();
        let keys = first.keys.into_iter().chain(second.keys).collect();
        Ok(Lists { text, tokens, keys, left: first.operations, right: second.operations })
    }

    /// What a call over these lists is lent, for an original.
    pub fn lent<'a>(&'a self, original: &'a [u32]) -> Lent<'a> {
        Lent { original, text: &self.text, tokens: &self.tokens, keys: &self.keys }
    }
}

// The list of a diff whose text stands in `text` from `at` on.
fn list(diff: &Diff, at: usize, text: &[u32]) -> Result<Elongated, Refusal> {
    let (mut raw, mut tokens, mut keys) = (Vec::new(), Vec::new(), Vec::new());
    for (index, item) in diff.items.iter().enumerate() {
        let first = tokens.len();
        let kind = match *item {
            Item { kind: Item::NUMBER, value, .. } => {
                let length = u32::try_from(value.unsigned_abs()).map_err(|_| Refusal::Record { index })?;
                tokens.push(Token { start: 0, length });
                keys.push(0);
                if value < 0 { Operation::DELETE } else { Operation::RETAIN }
            }
            Item { kind: Item::TEXT, value, length } => {
                let added = range(diff, value, length).ok_or(Refusal::Record { index })?;
                for place in added {
                    tokens.push(Token { start: (at + place) as u32, length: 1 });
                    keys.push(diff.text[place]);
                }
                Operation::INSERT
            }
            _ => return Err(Refusal::Record { index }),
        };
        raw.push(RawOperation { kind, first, count: tokens.len() - first });
    }
    let joins = vec![LEFT_JOINABLE | RIGHT_JOINABLE; tokens.len()];
    elongate(&raw, &tokens, &keys, &joins, text)
}

// A text item's range of its diff's text.
fn range(diff: &Diff, start: i64, length: i64) -> Option<std::ops::Range<usize>> {
    let (start, length) = (usize::try_from(start).ok()?, usize::try_from(length).ok()?);
    let end = start.checked_add(length).filter(|&end| end <= diff.text.len())?;
    Some(start..end)
}
