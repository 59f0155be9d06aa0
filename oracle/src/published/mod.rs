//! The published Rust, carried over file by file: release behaviour, without serialising,
//! the browser's glue and `Debug` printing. Its own `cmp_priority` and `merge_operations`
//! are the rules [`Published`]; `merge` takes its rules as a type, so that the completed
//! oracle shares every other line.
//!
//! Not held, hence not here: `myers_diff`, the tokenisers and what calls them
//! (`RawOperation::vec_from`, `reconcile`, `EditedText::from_strings`). Supplied as plain
//! types: `Side`, `History`, `SpanWithHistory`, `NumberOrText`, `DiffError`.

pub mod operation_transformation;
pub mod raw_operation;
pub mod rules;
pub mod tokenizer;
pub mod types;
pub mod utils;

pub use operation_transformation::{
    DiffError, EditedText, Operation,
    utils::{cook_operations::cook_operations, elongate_operations::elongate_operations},
};
pub use raw_operation::RawOperation;
pub use rules::{Published, Rules};
pub use tokenizer::token::Token;
pub use types::{
    cursor_position::CursorPosition, history::History, number_or_text::NumberOrText, side::Side,
    span_with_history::SpanWithHistory, text_with_cursors::TextWithCursors,
};
pub use utils::find_longest_prefix_contained_within::find_longest_prefix_contained_within;
