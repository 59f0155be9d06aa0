//! Document 01, "Diffs and the builder": plain and covering replay over flat items.

use std::ops::Range;

use super::refusal::{Refusal, code_points, inside, room, size, within};
use crate::flat::{ITEM_STRIDE, NUMBER, TEXT};

/// A lent item, its kind told apart.
#[derive(Clone, Debug, PartialEq, Eq)]
pub enum Item {
    Number(i64),
    /// The range it uses of the lent text, if that lies in it.
    Text(Option<Range<usize>>),
    Unknown,
}

/// The whole items of a flat slice, over a text of `lent` code points.
pub fn items(flat: &[i64], lent: usize) -> Vec<Item> {
    flat.chunks_exact(ITEM_STRIDE)
        .map(|item| match item[0] {
            NUMBER => Item::Number(item[1]),
            TEXT => Item::Text(range(item[1], item[2], lent)),
            _ => Item::Unknown,
        })
        .collect()
}

/// A range with a negative start or length is a range of nothing that was lent.
fn range(start: i64, length: i64, lent: usize) -> Option<Range<usize>> {
    let (start, length) = (u64::try_from(start).ok()?, u64::try_from(length).ok()?);
    inside(start.into(), length.into(), lent).then(|| start as usize..(start + length) as usize)
}

/// Refusal 3 of a diff: its items, the lent text, and the text that its items use.
pub fn sizes(items: &[Item], text: &[u32]) -> Result<(), Refusal> {
    within(items.len() as u128, size::DIFF_ITEMS)?;
    within(text.len() as u128, size::DIFF_TEXT)?;
    within(used(items), size::DIFF_TEXT)
}

/// "parts outside what was lent add no text", "an unknown kind adds none"
fn used(items: &[Item]) -> u128 {
    items
        .iter()
        .map(|item| match item {
            Item::Text(Some(range)) => range.len() as u128,
            Item::Text(None) | Item::Number(_) | Item::Unknown => 0,
        })
        .sum()
}

/// Refusal 1 of a diff: "unknown kind", "range outside what was lent".
pub fn is_malformed(item: &Item) -> bool {
    matches!(item, Item::Unknown | Item::Text(None))
}

/// What a replay gives when neither 3, 4, 1 nor 6 refuses it.
struct Replayed {
    text: Vec<u32>,
    left: usize,
}

fn replayed(original: &[u32], flat: &[i64], text: &[u32]) -> Result<Replayed, Refusal> {
    let items = items(flat, text.len());

    within(original.len() as u128, size::ORIGINAL)?;
    sizes(&items, text)?;

    code_points(original)?;
    code_points(text)?;

    if let Some(index) = items.iter().position(is_malformed) {
        return Err(Refusal::Record { index });
    }

    let mut position = 0;
    let mut out = Vec::new();
    for item in items {
        match item {
            Item::Number(number) => {
                let requested = number.unsigned_abs();
                let available = original.len() - position;
                if u128::from(requested) > available as u128 {
                    return Err(Refusal::Short {
                        position,
                        requested,
                        available,
                    });
                }
                let end = position + requested as usize;
                if number > 0 {
                    out.extend_from_slice(&original[position..end]);
                }
                position = end;
            }
            Item::Text(Some(range)) => out.extend_from_slice(&text[range]),
            Item::Text(None) | Item::Unknown => unreachable!("refused as a record"),
        }
    }
    Ok(Replayed {
        text: out,
        left: original.len() - position,
    })
}

/// "Plain replay drops unmentioned text": 3, 4, 1, 6, 7.
pub fn replay(
    original: &[u32],
    items: &[i64],
    text: &[u32],
    lent: usize,
) -> Result<Vec<u32>, Refusal> {
    let replayed = replayed(original, items, text)?;
    room(replayed.text.len(), 1, lent)?;
    Ok(replayed.text)
}

/// "covering replay refuses 9": 3, 4, 1, 6, 9, 7.
pub fn covering_replay(
    original: &[u32],
    items: &[i64],
    text: &[u32],
    lent: usize,
) -> Result<Vec<u32>, Refusal> {
    let replayed = replayed(original, items, text)?;
    if replayed.left > 0 {
        return Err(Refusal::Unmentioned {
            left: replayed.left,
        });
    }
    room(replayed.text.len(), 1, lent)?;
    Ok(replayed.text)
}
