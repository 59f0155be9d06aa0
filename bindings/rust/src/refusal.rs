//! The ten refusals.

use crate::ffi::Answer;
use std::fmt;

/// Why a call did nothing: document 01's numbers, with what each carries.
#[derive(Clone, Copy, Debug, PartialEq, Eq, Hash)]
pub enum Refusal {
    /// 1: an operation or a diff item that is no record of its kind.
    Record {
        /// The index of the first such operation or item.
        index: usize,
    },
    /// 2: retains and deletes do not tile the original in order.
    Tiling {
        /// The index of the first that is out of order or passes the end, else the number of operations.
        index: usize,
    },
    /// 3: a size limit is passed.
    Size,
    /// 4: a lent text holds a number that is no code point.
    CodePoint {
        /// Its index in the text.
        index: usize,
    },
    /// 5: a cursor lies past the end of its own list's text.
    Cursor {
        /// Its place among the cursors lent.
        place: usize,
    },
    /// 6: a diff number asks more than is left of the original.
    Short {
        /// Where in the original.
        position: usize,
        /// How many code points it asks.
        requested: u64,
        /// How many are left.
        available: usize,
    },
    /// 7: a lent room is shorter than asked.
    Room,
    /// 8: an edit file breaks a rule.
    Line {
        /// The first bad line, from 1.
        line: usize,
    },
    /// 9: a covering replay ends with original text unmentioned.
    Unmentioned {
        /// How many code points are left.
        left: usize,
    },
    /// 10: bytes are no UTF-8.
    Utf8 {
        /// The offset of the first byte of the first bad sequence.
        offset: usize,
    },
}

impl Refusal {
    /// Document 01's number.
    pub fn number(self) -> u8 {
        match self {
            Refusal::Record { .. } => 1,
            Refusal::Tiling { .. } => 2,
            Refusal::Size => 3,
            Refusal::CodePoint { .. } => 4,
            Refusal::Cursor { .. } => 5,
            Refusal::Short { .. } => 6,
            Refusal::Room => 7,
            Refusal::Line { .. } => 8,
            Refusal::Unmentioned { .. } => 9,
            Refusal::Utf8 { .. } => 10,
        }
    }
}

impl fmt::Display for Refusal {
    fn fmt(&self, f: &mut fmt::Formatter<'_>) -> fmt::Result {
        write!(f, "refusal {}: ", self.number())?;
        match self {
            Refusal::Record { index } => write!(f, "operation or item {index} is no record of its kind"),
            Refusal::Tiling { index } => write!(f, "operation {index} does not tile the original"),
            Refusal::Size => write!(f, "a size limit is passed"),
            Refusal::CodePoint { index } => write!(f, "the text holds no code point at {index}"),
            Refusal::Cursor { place } => write!(f, "cursor {place} lies past the end of its text"),
            Refusal::Short { position, requested, available } => {
                write!(f, "a diff asks {requested} code points at {position}, where {available} are left")
            }
            Refusal::Room => write!(f, "a lent room is too short"),
            Refusal::Line { line } => write!(f, "line {line} of the edit file breaks a rule"),
            Refusal::Unmentioned { left } => write!(f, "the diff leaves {left} code points of the original unmentioned"),
            Refusal::Utf8 { offset } => write!(f, "no UTF-8 at byte {offset}"),
        }
    }
}

impl std::error::Error for Refusal {}

/// The counts of an accepted call, or the refusal.
pub(crate) fn counts(answer: Answer) -> Result<[usize; 3], Refusal> {
    let Answer { refusal, first, second, third } = answer;
    // No cast loses a bit: the archive is linked on 64-bit machines alone, and second is a u64 where it may pass usize.
    let (a, c) = (first as usize, third as usize);
    Err(match refusal {
        0 => return Ok([a, second as usize, c]),
        1 => Refusal::Record { index: a },
        2 => Refusal::Tiling { index: a },
        3 => Refusal::Size,
        4 => Refusal::CodePoint { index: a },
        5 => Refusal::Cursor { place: a },
        6 => Refusal::Short { position: a, requested: second, available: c },
        7 => Refusal::Room,
        8 => Refusal::Line { line: a },
        9 => Refusal::Unmentioned { left: a },
        10 => Refusal::Utf8 { offset: a },
        other => unreachable!("the library has no refusal {other}"),
    })
}
