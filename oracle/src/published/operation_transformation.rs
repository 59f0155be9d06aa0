mod diff_error;
mod edited_text;
mod operation;
pub mod utils;

pub use diff_error::DiffError;
pub use edited_text::EditedText;
pub use operation::Operation;
