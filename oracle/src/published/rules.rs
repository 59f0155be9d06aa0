use std::{cmp::Ordering, fmt::Debug};

use super::Operation;

/// The two places where document 01 supplies rules of its own: the order in which a merge
/// takes operations, and what an operation loses to the other side's last one.
pub trait Rules {
    /// Compares two operations; the indexes are the lengths of own text seen so far.
    fn cmp_priority<T>(
        operation: &Operation<T>,
        index: usize,
        other: &Operation<T>,
        other_index: usize,
    ) -> Ordering
    where
        T: PartialEq + Clone + Debug;

    /// Adjusts `operation` to the other side's last one. Insert after insert does not come
    /// here: `merge_operations_consuming_insert` has that case.
    fn merge_operations<T>(
        operation: Operation<T>,
        previous_operation: Option<&Operation<T>>,
    ) -> Operation<T>
    where
        T: PartialEq + Clone + Debug;
}

/// The rules of the Rust as published.
#[derive(Debug, Clone, Copy)]
pub struct Published;

impl Rules for Published {
    fn cmp_priority<T>(
        operation: &Operation<T>,
        index: usize,
        other: &Operation<T>,
        other_index: usize,
    ) -> Ordering
    where
        T: PartialEq + Clone + Debug,
    {
        operation.cmp_priority(index, other, other_index)
    }

    fn merge_operations<T>(
        operation: Operation<T>,
        previous_operation: Option<&Operation<T>>,
    ) -> Operation<T>
    where
        T: PartialEq + Clone + Debug,
    {
        operation.merge_operations(previous_operation)
    }
}
