use std::fmt::Debug;

use crate::published::Operation;

/// "Meet rule, an operation against the other side's last remembered one: delete after
/// delete, retain after retain, retain after delete lose from the front the part before the
/// earlier one's end, so order grows and length shrinks alike. All other pairs but insert
/// after insert are unchanged."
pub fn meet_rule<T>(
    operation: Operation<T>,
    previous_operation: Option<&Operation<T>>,
) -> Operation<T>
where
    T: PartialEq + Clone + Debug,
{
    use Operation::{Delete, Equal};

    match (&operation, previous_operation) {
        (Delete { .. }, Some(previous @ Delete { .. })) => {
            let (order, length) = rest_after(&operation, previous);
            Operation::create_delete(order, length)
        }
        (Equal { .. }, Some(previous @ (Equal { .. } | Delete { .. }))) => {
            let (order, length) = rest_after(&operation, previous);
            Operation::create_equal(order, length)
        }
        _ => operation,
    }
}

/// Order and length of what is left of `operation` past the end of `previous`.
fn rest_after<T>(operation: &Operation<T>, previous: &Operation<T>) -> (usize, usize)
where
    T: PartialEq + Clone + Debug,
{
    let previous_end = previous.order() + previous.len();
    let lost = previous_end
        .saturating_sub(operation.order())
        .min(operation.len());

    (operation.order() + lost, operation.len() - lost)
}
