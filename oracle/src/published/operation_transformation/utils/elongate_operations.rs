use std::fmt::Debug;

use crate::published::raw_operation::RawOperation;

/// Elongates the operations by merging adjacent insertions and deletions that
/// can be joined. This makes the subsequent merging of operations more
/// intuitive.
pub fn elongate_operations<I, T>(raw_operations: I) -> Vec<RawOperation<T>>
where
    I: IntoIterator<Item = RawOperation<T>>,
    T: PartialEq + Clone + Debug,
{
    let mut inserts: Vec<RawOperation<T>> = Vec::new();
    let mut deletes: Vec<RawOperation<T>> = Vec::new();
    let mut result = Vec::new();

    // Emit all deletions before insertions within each changed span, even
    // when tokens cannot be joined. Otherwise an insertion followed by a
    // deletion at the same offset can separate identical insertions during
    // merging and prevent their deduplication.
    for next in raw_operations {
        let pending = match next {
            RawOperation::Insert(..) => &mut inserts,
            RawOperation::Delete(..) => &mut deletes,
            RawOperation::Equal(..) => {
                result.append(&mut deletes);
                result.append(&mut inserts);

                // Keep retains separate for cursor positioning
                result.push(next);

                continue;
            }
        };

        match pending.pop() {
            Some(prev) if prev.is_right_joinable() && next.is_left_joinable() => {
                pending.push(prev.join(next));
            }
            Some(prev) => pending.extend([prev, next]),
            None => pending.push(next),
        }
    }

    result.append(&mut deletes);
    result.append(&mut inserts);

    result
}
