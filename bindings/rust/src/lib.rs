//! A text merge that cannot lie: Fleecelatch for Rust.
//!
//! The work is done by a library written in Rattle, in which every function is proved to meet its contract: whatever comes in, each call
//! checks it, ends, writes only into what it was lent, and answers bad input with a numbered [`Refusal`]. This crate lends slices to it and
//! adds no rules of its own.
//!
//! - [`merge_files`] merges two edit files of a text, as the program `fleecelatch` does.
//! - [`merge`], [`apply`], [`history`], [`apply_with_all`] and [`to_diff`] work on lists of [`Operation`]s over what is [`Lent`]; [`Lists`] makes
//!   two such lists from two diffs.
//! - [`read_edit_file`], [`write_edit_file`], [`replay`] and [`replay_covering`] work on a [`Diff`].
//! - [`rooms`] has every call of the library over rooms that you lend: nothing is allocated.
//!
//! Text is a slice of code points, as `u32`; [`code_points`] and [`string`] turn it from and to a string.
//!
//! # Example
//!
//! ```
//! use fleecelatch::{code_points, history, merge, read_edit_file, string, Lists, Span};
//!
//! # fn main() -> Result<(), fleecelatch::Refusal> {
//! let original = code_points("flush 5 min\n");
//! let left = read_edit_file(b"form=1\noriginal=12\nresult=12\nitems=4\nkeep=6\ndrop=1\nadd=38\nkeep=5\nend=4\n")?;
//! let right = read_edit_file(b"form=1\noriginal=12\nresult=14\nitems=3\nkeep=7\nadd=20 78\nkeep=5\nend=3\n")?;
//!
//! let lists = Lists::from_diffs(&left, &right)?;
//! let lent = lists.lent(&original);
//! let merged = merge(lent, &lists.left, &lists.right, &[], &[])?;
//!
//! let history = history(lent, &merged.operations)?;
//! let removed: Vec<String> = history.spans.iter().filter(|s| s.kind == Span::REMOVED).map(|s| string(history.text_of(s)).unwrap()).collect();
//! assert_eq!(removed, ["5"]);
//! # Ok(())
//! # }
//! ```

mod ffi;
mod lists;
mod owned;
mod records;
mod refusal;
pub mod rooms;

pub use lists::Lists;
pub use owned::{
    All, Applied, Diff, Elongated, Files, History, Merged, apply, apply_with_all, code_points, elongate, history, merge, merge_files, merge_text,
    overlap, read_edit_file, read_utf8, replay, replay_covering, string, to_diff, write_edit_file, write_utf8,
};
pub use records::{Cursor, Item, LEFT, LEFT_JOINABLE, Lent, Operation, RIGHT, RIGHT_JOINABLE, RawOperation, Span, Token};
pub use refusal::Refusal;
pub use rooms::believed;
