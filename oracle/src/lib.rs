//! The oracle: the published Rust carried over, the same with document 01's rules in
//! place, and the writers of the fixed vectors that the proved programs are compared with.

pub mod completed;
pub mod flat;
pub mod generate;
pub mod laws;
pub mod notation;
pub mod paper;
pub mod published;
pub mod random;
pub mod vectors;
