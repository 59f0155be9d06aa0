use super::cursor_position::CursorPosition;

#[derive(Debug, Clone, PartialEq, Default)]
pub struct TextWithCursors {
    text: String,
    cursors: Vec<CursorPosition>,
}

impl TextWithCursors {
    /// # Panics
    ///
    /// Panics if any cursor's `char_index` exceeds the text's character length.
    #[must_use]
    pub fn new(text: String, cursors: Vec<CursorPosition>) -> Self {
        let length = text.chars().count();
        for cursor in &cursors {
            assert!(
                cursor.char_index <= length,
                // cursor.char_index == length means that the cursor is at the end
                "Cursor positions ({}) must be contained within the text (of length {length}) or \
                 just after the end",
                cursor.char_index
            );
        }

        Self { text, cursors }
    }

    #[must_use]
    pub fn text(&self) -> String {
        self.text.clone()
    }

    #[must_use]
    pub fn cursors(&self) -> Vec<CursorPosition> {
        self.cursors.clone()
    }
}

impl TextWithCursors {
    #[must_use]
    pub fn text_ref(&self) -> &str {
        &self.text
    }
}

impl<'a> From<&'a str> for TextWithCursors {
    fn from(text: &'a str) -> Self {
        Self {
            text: text.into(),
            cursors: Vec::new(),
        }
    }
}

impl From<&String> for TextWithCursors {
    fn from(text: &String) -> Self {
        Self {
            text: text.to_owned(),
            cursors: Vec::new(),
        }
    }
}

impl From<String> for TextWithCursors {
    fn from(text: String) -> Self {
        Self {
            text,
            cursors: Vec::new(),
        }
    }
}
