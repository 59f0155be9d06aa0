//! Document 01, "Edit files", sentence by sentence.

use super::diff::{self, Item};
use super::refusal::{Refusal, code_points, is_code_point, room, size, within};
use crate::flat::{ITEM_STRIDE, NUMBER, TEXT};

/// What an accepted file says.
#[derive(Clone, Debug, PartialEq, Eq)]
pub struct EditFile {
    pub original: usize,
    /// Flat diff items: a keep is positive, a drop negative, an add a range of `text`.
    pub items: Vec<i64>,
    pub text: Vec<u32>,
}

/// Reading: 8, then 7.
pub fn read(bytes: &[u8], items_lent: usize, text_lent: usize) -> Result<EditFile, Refusal> {
    let file = judge(bytes).map_err(|line| Refusal::Line { line })?;
    room(file.items.len() / ITEM_STRIDE, ITEM_STRIDE, items_lent)?;
    room(file.text.len(), 1, text_lent)?;
    Ok(file)
}

/// "A file is believed for an original when it is accepted and its counts fit, `original=`
/// being its length."
pub fn believed(bytes: &[u8], length: usize) -> bool {
    judge(bytes).is_ok_and(|file| file.original == length)
}

/// The lines of a file, taken one by one.
struct Lines<'a> {
    rest: &'a [u8],
    /// The number of the line last asked for, from 1.
    number: usize,
}

impl<'a> Lines<'a> {
    /// The next line without its LF. "An early end is charged to the line cut or missing."
    fn next(&mut self) -> Result<&'a [u8], usize> {
        self.number += 1;
        let Some(end) = self.rest.iter().position(|&byte| byte == b'\n') else {
            return Err(self.number);
        };
        let line = &self.rest[..end];
        self.rest = &self.rest[end + 1..];
        Ok(line)
    }

    /// The digits of the next line, which must be this key and a decimal number.
    fn next_number(&mut self, key: &[u8]) -> Result<&'a [u8], usize> {
        let line = self.next()?;
        decimal(line, key).ok_or(self.number)
    }
}

/// The file's contents, or its first bad line.
fn judge(bytes: &[u8]) -> Result<EditFile, usize> {
    let mut lines = Lines {
        rest: bytes,
        number: 0,
    };

    // "Lines end in LF, in this order: `form=1`, `original=`, `result=`, `items=`,"
    if lines.next()? != b"form=1" {
        return Err(lines.number);
    }
    let original = lines.next_number(b"original=")?;
    let original = at_most(original, size::ORIGINAL).ok_or(lines.number)?;
    // "`result=` has no size."
    let result = lines.next_number(b"result=")?;
    let count = lines.next_number(b"items=")?;
    let count = at_most(count, size::DIFF_ITEMS).ok_or(lines.number)?;

    // "that many of `keep=`, `drop=` or `add=`,"
    let mut items = Vec::new();
    let mut text = Vec::new();
    let (mut kept, mut dropped) = (0, 0);
    let mut after_keep = false;
    for _ in 0..count {
        let line = lines.next()?;
        let bad = lines.number;
        // "a total over its size to the line that passes it"
        let original_left = size::ORIGINAL - kept - dropped;
        let text_left = size::DIFF_TEXT - text.len();
        if let Some(digits) = decimal(line, b"keep=") {
            let length = at_most(digits, original_left).ok_or(bad)?;
            // "keep and drop are at least 1; two keeps never follow each other."
            if length == 0 || after_keep {
                return Err(bad);
            }
            kept += length;
            items.extend([NUMBER, length as i64, 0]);
            after_keep = true;
        } else if let Some(digits) = decimal(line, b"drop=") {
            let length = at_most(digits, original_left).ok_or(bad)?;
            if length == 0 {
                return Err(bad);
            }
            dropped += length;
            items.extend([NUMBER, -(length as i64), 0]);
            after_keep = false;
        } else if let Some(points) = added(line) {
            if points.len() > text_left {
                return Err(bad);
            }
            items.extend([TEXT, text.len() as i64, points.len() as i64]);
            text.extend(points);
            after_keep = false;
        } else {
            return Err(bad);
        }
    }

    // "then `end=` with the item count, and nothing after."
    let end = lines.next_number(b"end=")?;
    if !writes(end, count) {
        return Err(lines.number);
    }
    // "bytes after the end to the line after"
    if !lines.rest.is_empty() {
        return Err(lines.number + 1);
    }

    // "Keep plus drop is original, keep plus added is result; with all lines good a false sum
    // is charged to line 2, then 3."
    if kept + dropped != original {
        return Err(2);
    }
    if !writes(result, kept + text.len()) {
        return Err(3);
    }
    Ok(EditFile {
        original,
        items,
        text,
    })
}

/// The digits behind a key: "Numbers are decimal", "no leading zeros".
fn decimal<'a>(line: &'a [u8], key: &[u8]) -> Option<&'a [u8]> {
    let digits = line.strip_prefix(key)?;
    let good = digits.iter().all(u8::is_ascii_digit) && !digits.is_empty();
    (good && !has_leading_zero(digits)).then_some(digits)
}

fn has_leading_zero(digits: &[u8]) -> bool {
    digits.len() > 1 && digits[0] == b'0'
}

/// The number that good digits write, of any length, if it is no more than the limit.
fn at_most(digits: &[u8], limit: usize) -> Option<usize> {
    let mut number = 0;
    for digit in digits {
        number = number * 10 + usize::from(digit - b'0');
        if number > limit {
            return None;
        }
    }
    Some(number)
}

/// Whether good digits write this number.
fn writes(digits: &[u8], number: usize) -> bool {
    digits == number.to_string().as_bytes()
}

/// "`add=` one or more code points in lower-case hex, one space between; no leading zeros."
fn added(line: &[u8]) -> Option<Vec<u32>> {
    let points = line.strip_prefix(b"add=")?;
    points.split(|&byte| byte == b' ').map(code_point).collect()
}

/// "Code points outside refusal 4's rule only."
fn code_point(digits: &[u8]) -> Option<u32> {
    if digits.is_empty() || has_leading_zero(digits) {
        return None;
    }
    let mut number = 0;
    for digit in digits {
        let value = match digit {
            b'0'..=b'9' => digit - b'0',
            b'a'..=b'f' => digit - b'a' + 10,
            _ => return None,
        };
        number = number * 16 + u32::from(value);
        if number > 0x10_FFFF {
            return None;
        }
    }
    is_code_point(number).then_some(number)
}

/// Writing a diff: 3, 4, 1, 7.
pub fn write(flat: &[i64], text: &[u32], lent: usize) -> Result<Vec<u8>, Refusal> {
    let items = diff::items(flat, text.len());

    // "`original=` is keep plus drop, refusal 3 past 65,535"
    diff::sizes(&items, text)?;
    let (mut kept, mut dropped, mut added) = (0u128, 0u128, 0u128);
    for item in &items {
        match item {
            Item::Number(number) if *number > 0 => kept += u128::from(number.unsigned_abs()),
            Item::Number(number) => dropped += u128::from(number.unsigned_abs()),
            Item::Text(Some(range)) => added += range.len() as u128,
            Item::Text(None) | Item::Unknown => {}
        }
    }
    within(kept + dropped, size::ORIGINAL)?;

    code_points(text)?;

    if let Some(index) = first_unwritable(&items) {
        return Err(Refusal::Record { index });
    }

    let mut out = format!(
        "form=1\noriginal={}\nresult={}\nitems={}\n",
        kept + dropped,
        kept + added,
        items.len()
    );
    for item in &items {
        match item {
            Item::Number(number) if *number > 0 => out += &format!("keep={number}\n"),
            Item::Number(number) => out += &format!("drop={}\n", number.unsigned_abs()),
            Item::Text(Some(range)) => {
                let points: Vec<String> = text[range.clone()]
                    .iter()
                    .map(|point| format!("{point:x}"))
                    .collect();
                out += &format!("add={}\n", points.join(" "));
            }
            Item::Text(None) | Item::Unknown => unreachable!("refused as a record"),
        }
    }
    out += &format!("end={}\n", items.len());

    room(out.len(), 1, lent)?;
    Ok(out.into_bytes())
}

/// "it refuses 1 at a zero, an empty text or a second neighbouring keep", beside what every
/// diff refuses.
fn first_unwritable(items: &[Item]) -> Option<usize> {
    let mut after_keep = false;
    for (index, item) in items.iter().enumerate() {
        let keep = matches!(item, Item::Number(number) if *number > 0);
        let empty = match item {
            Item::Number(number) => *number == 0,
            Item::Text(Some(range)) => range.is_empty(),
            Item::Text(None) | Item::Unknown => false,
        };
        if diff::is_malformed(item) || empty || (keep && after_keep) {
            return Some(index);
        }
        after_keep = keep;
    }
    None
}
