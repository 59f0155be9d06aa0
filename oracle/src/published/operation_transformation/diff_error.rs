/// Why a diff cannot be made or replayed.
#[derive(Debug, Clone, PartialEq, Eq)]
pub enum DiffError {
    /// A character count is above `i64::MAX`.
    IntegerOverflow { value: usize },

    /// A number's size cannot be represented as usize.
    LengthOverflow { value: u64 },

    /// A number asks more than is left of the original.
    LengthExceedsOriginal {
        position: usize,
        requested: usize,
        available: usize,
    },
}
