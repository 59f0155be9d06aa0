//! Document 01, "Refusal numbers": the ten refusals, the sizes, and the two checks that every
//! call shares, code points and rooms.

/// A refusal with what it carries.
#[derive(Clone, Copy, Debug, PartialEq, Eq)]
pub enum Refusal {
    Record {
        index: usize,
    },
    Tiling {
        index: usize,
    },
    Size,
    CodePoint {
        index: usize,
    },
    Cursor {
        place: usize,
    },
    Short {
        position: usize,
        requested: u64,
        available: usize,
    },
    Room,
    Line {
        line: usize,
    },
    Unmentioned {
        left: usize,
    },
    Utf8 {
        offset: usize,
    },
}

impl Refusal {
    /// The paper's number.
    pub fn number(self) -> u64 {
        match self {
            Refusal::Record { .. } => 1,
            Refusal::Tiling { .. } => 2,
            Refusal::Size => 3,
            Refusal::CodePoint { .. } => 4,
            Refusal::Cursor { .. } => 5,
            Refusal::Short { .. } => 6,
            Refusal::Room => 7,
            Refusal::Line { .. } => 8,
            Refusal::Unmentioned { .. } => 9,
            Refusal::Utf8 { .. } => 10,
        }
    }

    /// What it carries, in the paper's order.
    pub fn values(self) -> Vec<u64> {
        match self {
            Refusal::Size | Refusal::Room => vec![],
            Refusal::Record { index }
            | Refusal::Tiling { index }
            | Refusal::CodePoint { index } => vec![index as u64],
            Refusal::Cursor { place } => vec![place as u64],
            Refusal::Short {
                position,
                requested,
                available,
            } => vec![position as u64, requested, available as u64],
            Refusal::Line { line } => vec![line as u64],
            Refusal::Unmentioned { left } => vec![left as u64],
            Refusal::Utf8 { offset } => vec![offset as u64],
        }
    }
}

/// The sizes that no setting changes. "The limit itself passes."
pub mod size {
    pub const ORIGINAL: usize = 65_535;
    pub const INSERTED_TEXT_LENT: usize = 131_070;
    pub const DIFF_ITEMS: usize = 8_192;
    pub const DIFF_TEXT: usize = 131_070;
    pub const RAW_OPERATIONS: usize = 8_192;
    pub const RAW_TOKENS: usize = 16_384;
    pub const RAW_TEXT: usize = 131_070;
    pub const OVERLAP_TOKENS: usize = 8_192;
    pub const PROGRAM_FILE: usize = 2_048;
}

/// A room that is never too short.
pub const AMPLE: usize = usize::MAX;

/// Refusal 3 for one number against its limit; sums are exact in 128 bits.
pub fn within(number: u128, limit: usize) -> Result<(), Refusal> {
    if number > limit as u128 {
        return Err(Refusal::Size);
    }
    Ok(())
}

/// "above 10FFFF hex or in D800 to DFFF"
pub fn is_code_point(number: u32) -> bool {
    number <= 0x10_FFFF && !(0xD800..=0xDFFF).contains(&number)
}

/// Refusal 4 for one lent text.
pub fn code_points(text: &[u32]) -> Result<(), Refusal> {
    match text.iter().position(|&number| !is_code_point(number)) {
        Some(index) => Err(Refusal::CodePoint { index }),
        None => Ok(()),
    }
}

/// Refusal 7 for one room: `asked` records of `stride` numbers in a slice of `lent` numbers.
pub fn room(asked: usize, stride: usize, lent: usize) -> Result<(), Refusal> {
    if asked > lent / stride {
        return Err(Refusal::Room);
    }
    Ok(())
}

/// Whether a range lies in `lent` places, empty ranges too.
pub fn inside(start: u128, length: u128, lent: usize) -> bool {
    start + length <= lent as u128
}
