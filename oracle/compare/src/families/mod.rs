//! A file for each group of calls that share their inputs; `lists` makes lists for two of them.

pub mod diffs;
pub mod edit_files;
pub mod elongate;
mod lists;
pub mod merge;
pub mod overlap;
pub mod program;
pub mod utf8;
pub mod views;
