use super::history::History;

/// A span of text with its provenance.
#[derive(Debug, Clone, PartialEq, Eq)]
pub struct SpanWithHistory {
    text: String,
    history: History,
}

impl SpanWithHistory {
    #[must_use]
    pub fn new(text: String, history: History) -> Self {
        Self { text, history }
    }

    #[must_use]
    pub fn text(&self) -> &str {
        &self.text
    }

    #[must_use]
    pub fn history(&self) -> History {
        self.history
    }
}
