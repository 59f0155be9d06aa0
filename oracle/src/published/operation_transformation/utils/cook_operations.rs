use std::fmt::Debug;

use crate::published::{operation_transformation::Operation, raw_operation::RawOperation};

/// Turn raw operations into ordered operations while keeping track of the
/// original token's indexes
pub fn cook_operations<I, T>(raw_operations: I) -> impl Iterator<Item = Operation<T>>
where
    I: IntoIterator<Item = RawOperation<T>>,
    T: PartialEq + Clone + Debug,
{
    let mut original_text_index = 0; // this is the start index of the operation on the original text

    raw_operations.into_iter().map(move |raw_operation| {
        let length = raw_operation.original_text_length();

        match raw_operation {
            RawOperation::Equal(..) => {
                let op = Operation::create_equal(original_text_index, length);

                original_text_index += length;

                op
            }
            RawOperation::Insert(tokens) => Operation::create_insert(original_text_index, tokens),
            RawOperation::Delete(..) => {
                let op = Operation::create_delete(original_text_index, length);

                original_text_index += length;

                op
            }
        }
    })
}
