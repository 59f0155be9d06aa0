/// `CursorPosition` represents the position of an identifiable cursor in a text
/// document based on its (UTF-8) character index
#[derive(Debug, Clone, PartialEq, Default)]
pub struct CursorPosition {
    pub(crate) id: usize,
    pub(crate) char_index: usize,
}

impl CursorPosition {
    #[must_use]
    pub fn new(id: usize, char_index: usize) -> Self {
        Self { id, char_index }
    }

    #[must_use]
    pub fn with_index(&self, index: usize) -> Self {
        CursorPosition {
            id: self.id,
            char_index: index,
        }
    }

    #[must_use]
    pub fn id(&self) -> usize {
        self.id
    }

    #[must_use]
    pub fn char_index(&self) -> usize {
        self.char_index
    }
}
