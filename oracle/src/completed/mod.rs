//! The oracle: the published Rust with document 01's order rule and meet rule in place.
//! Everything else is `published`'s, by the same lines.

mod meet_rule;
mod order_rule;

use std::{cmp::Ordering, fmt::Debug};

use crate::published::{Operation, Rules};

pub use meet_rule::meet_rule;
pub use order_rule::order_rule;

/// Document 01's two rules.
#[derive(Debug, Clone, Copy)]
pub struct Completed;

impl Rules for Completed {
    fn cmp_priority<T>(
        operation: &Operation<T>,
        _index: usize,
        other: &Operation<T>,
        _other_index: usize,
    ) -> Ordering
    where
        T: PartialEq + Clone + Debug,
    {
        order_rule(operation, other)
    }

    fn merge_operations<T>(
        operation: Operation<T>,
        previous_operation: Option<&Operation<T>>,
    ) -> Operation<T>
    where
        T: PartialEq + Clone + Debug,
    {
        meet_rule(operation, previous_operation)
    }
}
