use std::{cmp::Ordering, fmt::Debug};

use crate::published::Operation;

/// "Order rule: smaller order first; then delete, insert, retain; then inserts by spelling,
/// code point by code point with a beginning first, retains and deletes by shorter length;
/// else equal."
pub fn order_rule<T>(operation: &Operation<T>, other: &Operation<T>) -> Ordering
where
    T: PartialEq + Clone + Debug,
{
    operation
        .order()
        .cmp(&other.order())
        .then_with(|| operation.type_priority().cmp(&other.type_priority()))
        .then_with(|| operation.deterministic_content_cmp(other))
}
