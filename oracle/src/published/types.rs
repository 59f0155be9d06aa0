pub mod cursor_position;
pub mod history;
pub mod number_or_text;
pub mod side;
pub mod span_with_history;
pub mod text_with_cursors;
