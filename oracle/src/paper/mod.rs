//! An independent reading of document 01, written from its sentences over the flat records:
//! plain and careful, correctness before speed. With the carried-over Rust it shares the
//! records' layout; only `calls` and `program` ask the completed Rust for the answers to lists
//! that this reading accepts.
//!
//! A slice whose length is no multiple of its records' stride lends the whole records only.
//! Rooms are given as the lengths of the slices that are lent for them.

pub mod calls;
pub mod cases;
pub mod diff;
pub mod edit_file;
pub mod lists;
pub mod program;
pub mod refusal;
pub mod utf8;
