//! The records that are lent, as the library lays them out: each is as many numbers as it has fields, in their order.

/// The number of the left side.
pub const LEFT: usize = 0;
/// The number of the right side.
pub const RIGHT: usize = 1;
/// The bit of a token's joins that says left joinable.
pub const LEFT_JOINABLE: u8 = 1;
/// The bit of a token's joins that says right joinable.
pub const RIGHT_JOINABLE: u8 = 2;

/// An operation of a list. Its fields are numbers and not enums, since a lent list may hold anything: what is unknown is [`Refusal::Record`].
///
/// [`Refusal::Record`]: crate::Refusal::Record
#[repr(C)]
#[derive(Clone, Copy, Debug, Default, PartialEq, Eq, Hash)]
pub struct Operation {
    /// [`Operation::DELETE`], [`Operation::INSERT`] or [`Operation::RETAIN`].
    pub kind: usize,
    /// How much of the original is consumed before it; not looked at in an insert that is lent.
    pub order: usize,
    /// How many code points it has; not looked at in an insert that is lent.
    pub length: usize,
    /// [`LEFT`] or [`RIGHT`].
    pub side: usize,
    /// An insert's first token.
    pub first: usize,
    /// How many tokens an insert has.
    pub count: usize,
}

impl Operation {
    /// The kind of a delete.
    pub const DELETE: usize = 0;
    /// The kind of an insert.
    pub const INSERT: usize = 1;
    /// The kind of a retain.
    pub const RETAIN: usize = 2;

    /// Retains `length` code points of the original from `order` on.
    pub fn retain(order: usize, length: usize) -> Self {
        Operation { kind: Self::RETAIN, order, length, ..Self::default() }
    }

    /// Deletes `length` code points of the original from `order` on.
    pub fn delete(order: usize, length: usize) -> Self {
        Operation { kind: Self::DELETE, order, length, ..Self::default() }
    }

    /// Inserts `count` tokens from `first` on.
    pub fn insert(first: usize, count: usize) -> Self {
        Operation { kind: Self::INSERT, first, count, ..Self::default() }
    }
}

/// An operation of a raw list: of any kind, with its tokens.
#[repr(C)]
#[derive(Clone, Copy, Debug, Default, PartialEq, Eq, Hash)]
pub struct RawOperation {
    /// [`Operation::DELETE`], [`Operation::INSERT`] or [`Operation::RETAIN`].
    pub kind: usize,
    /// Its first token.
    pub first: usize,
    /// How many tokens it has.
    pub count: usize,
}

/// A token's range of the lent text. Its key stands at the same place of the lent keys, and tokens are equal when their keys are.
#[repr(C)]
#[derive(Clone, Copy, Debug, Default, PartialEq, Eq, Hash)]
pub struct Token {
    /// Where its text starts.
    pub start: u32,
    /// How many code points it has.
    pub length: u32,
}

/// A cursor: an identity number, which no call looks at, and an index in a text.
#[repr(C)]
#[derive(Clone, Copy, Debug, Default, PartialEq, Eq, Hash)]
pub struct Cursor {
    /// What the caller knows it by.
    pub identity: usize,
    /// Its place, in code points.
    pub index: usize,
}

/// A span of a history.
#[repr(C)]
#[derive(Clone, Copy, Debug, Default, PartialEq, Eq, Hash)]
pub struct Span {
    /// [`Span::UNCHANGED`], [`Span::ADDED`] or [`Span::REMOVED`].
    pub kind: usize,
    /// The side that added or removed it; 0 where it is unchanged.
    pub side: usize,
    /// Where its text starts in the history's text.
    pub start: usize,
    /// How many code points it has.
    pub length: usize,
}

impl Span {
    /// Original text that is kept.
    pub const UNCHANGED: usize = 0;
    /// Text that a side added.
    pub const ADDED: usize = 1;
    /// Original text that a side removed.
    pub const REMOVED: usize = 2;
}

/// An item of a diff: a number of code points to keep, or to drop where it is negative; or a range of the diff's text to add.
#[repr(C)]
#[derive(Clone, Copy, Debug, Default, PartialEq, Eq, Hash)]
pub struct Item {
    /// [`Item::NUMBER`] or [`Item::TEXT`].
    pub kind: i64,
    /// The number, or where the text starts.
    pub value: i64,
    /// How many code points the text has; it means nothing beside a number.
    pub length: i64,
}

impl Item {
    /// The kind of a number.
    pub const NUMBER: i64 = 0;
    /// The kind of a text.
    pub const TEXT: i64 = 1;

    /// Keeps so many code points of the original, or drops them where the number is negative.
    pub fn number(value: i64) -> Self {
        Item { kind: Self::NUMBER, value, length: 0 }
    }

    /// Adds `length` code points of the diff's text, from `start` on.
    pub fn text(start: i64, length: i64) -> Self {
        Item { kind: Self::TEXT, value: start, length }
    }
}

/// What the lists of a call share: the original, and the inserted text with its tokens and their keys.
#[derive(Clone, Copy, Debug, Default)]
pub struct Lent<'a> {
    /// The text that the lists edit, in code points.
    pub original: &'a [u32],
    /// The code points that tokens are ranges of.
    pub text: &'a [u32],
    /// The tokens' ranges.
    pub tokens: &'a [Token],
    /// The tokens' keys.
    pub keys: &'a [u32],
}

/// A record that is nothing but numbers of one type, so that a slice of it may be lent as a slice of them.
///
/// # Safety
/// The type is `repr(C)`, and each of its fields is a `Number`.
pub(crate) unsafe trait Record: Copy {
    type Number: Copy;
    const NUMBERS: usize = {
        assert!(size_of::<Self>().is_multiple_of(size_of::<Self::Number>()) && align_of::<Self>() == align_of::<Self::Number>());
        size_of::<Self>() / size_of::<Self::Number>()
    };
}

// SAFETY: each is `repr(C)` with fields of the one type named.
unsafe impl Record for Operation {
    type Number = usize;
}
unsafe impl Record for RawOperation {
    type Number = usize;
}
unsafe impl Record for Token {
    type Number = u32;
}
unsafe impl Record for Cursor {
    type Number = usize;
}
unsafe impl Record for Span {
    type Number = usize;
}
unsafe impl Record for Item {
    type Number = i64;
}

const _: () = {
    assert!(Operation::NUMBERS == 6);
    assert!(RawOperation::NUMBERS == 3);
    assert!(Token::NUMBERS == 2);
    assert!(Cursor::NUMBERS == 2);
    assert!(Span::NUMBERS == 4);
    assert!(Item::NUMBERS == 3);
    assert!(size_of::<usize>() == 8);
};

/// The numbers of a slice of records: the same memory.
pub(crate) fn numbers<R: Record>(records: &[R]) -> &[R::Number] {
    // SAFETY: a record is `NUMBERS` numbers with no padding and their alignment.
    unsafe { std::slice::from_raw_parts(records.as_ptr().cast(), records.len() * R::NUMBERS) }
}

/// The numbers of a room of records: the same memory. Any numbers are a record.
pub(crate) fn numbers_mut<R: Record>(records: &mut [R]) -> &mut [R::Number] {
    // SAFETY: as above, and what is written is valid as fields.
    unsafe { std::slice::from_raw_parts_mut(records.as_mut_ptr().cast(), records.len() * R::NUMBERS) }
}
