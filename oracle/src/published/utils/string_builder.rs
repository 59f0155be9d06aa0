use std::str::Chars;

/// A helper for building a string sequentially from an original string via
/// insertions, deletions, and copies. All operations use character counts,
/// safe for UTF-8. Methods must be called in-order.
#[derive(Debug)]
pub struct StringBuilder<'a> {
    original: Chars<'a>,
    buffer: String,
}

impl StringBuilder<'_> {
    pub fn new(original: &str) -> StringBuilder<'_> {
        StringBuilder {
            original: original.chars(),
            buffer: String::with_capacity(original.len()),
        }
    }

    /// Insert a string at the end of the built buffer
    pub fn insert(&mut self, text: &str) {
        self.buffer.push_str(text);
    }

    /// Skip copying `length` characters from the original string to the built
    /// buffer
    pub fn delete(&mut self, length: usize) {
        if length == 0 {
            return;
        }

        self.original.nth(length - 1);
    }

    /// Copy `length` characters from the original string to the built buffer
    pub fn retain(&mut self, length: usize) {
        self.buffer.extend(self.original.by_ref().take(length));
    }

    /// Returns the currently built buffer and clears it to allow consuming
    /// the result incrementally.
    pub fn take(&mut self) -> String {
        std::mem::take(&mut self.buffer)
    }
}
