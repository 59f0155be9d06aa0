use std::{cmp::Ordering, fmt::Debug};

use crate::published::{
    CursorPosition, Rules, TextWithCursors, Token,
    operation_transformation::{DiffError, Operation},
    types::{
        history::History, number_or_text::NumberOrText, side::Side,
        span_with_history::SpanWithHistory,
    },
    utils::string_builder::StringBuilder,
};

/// A text document with a sequence of operations derived from diffing it
/// against an updated version. Supports merging two `EditedText` instances
/// (from the same original) via Operational Transformation.
///
/// Also tracks cursor positions from the updated text, repositioning them
/// when operations are applied.
#[derive(Debug, Clone, PartialEq)]
pub struct EditedText<'a, T>
where
    T: PartialEq + Clone + Debug,
{
    text: &'a str,
    operations: Vec<Operation<T>>,
    operation_sides: Vec<Side>,
    cursors: Vec<CursorPosition>,
}

impl<'a, T> EditedText<'a, T>
where
    T: PartialEq + Clone + Debug,
{
    /// Create a new `EditedText` with the given operations.
    /// The operations must be in the order in which they are meant to be
    /// applied. The operations must not overlap.
    pub fn new(
        text: &'a str,
        mut operations: Vec<Operation<T>>,
        operation_sides: Vec<Side>,
        mut cursors: Vec<CursorPosition>,
    ) -> Self {
        // Inserts are anchored after the parent text consumed by earlier operations.
        let mut parent_index = 0;
        for operation in &mut operations {
            if let Operation::Insert { order, .. } = operation {
                *order = parent_index;
            } else {
                parent_index += operation.len();
            }
        }
        cursors.sort_by_key(|cursor| cursor.char_index);

        Self {
            text,
            operations,
            operation_sides,
            cursors,
        }
    }

    /// The operations with the side each came from.
    pub fn operations(&self) -> impl Iterator<Item = (&Operation<T>, Side)> {
        self.operations
            .iter()
            .zip(self.operation_sides.iter().copied())
    }

    #[must_use]
    pub fn cursors(&self) -> &[CursorPosition] {
        &self.cursors
    }

    fn remember_operation(previous: &mut Option<Operation<T>>, operation: &Operation<T>) {
        // Consecutive insertions can all contribute to a later overlap match.
        // Preserve their unconsumed tokens even when the latest result is empty.
        if let (
            Some(Operation::Insert {
                order: previous_order,
                text: previous_text,
            }),
            Operation::Insert { order, text },
        ) = (previous.as_mut(), operation)
            && previous_order == order
        {
            previous_text.extend_from_slice(text);
            return;
        }

        *previous = Some(operation.clone());
    }

    /// Merge two `EditedText` instances. The two instances must be derived
    /// from the same original text. The operations are merged using the
    /// principles of Operational Transformation. The cursors are updated
    /// accordingly to reflect the changes made by the merged operations.
    #[must_use]
    #[allow(clippy::too_many_lines)]
    pub fn merge<R: Rules>(self, other: Self) -> Self {
        // Identical current operations can have different continuations (for
        // example, Markdown whitespace followed by a newline). Break those ties.
        let stream_priority = self
            .operations
            .iter()
            .zip(&other.operations)
            .map(|(left, right)| R::cmp_priority(left, 0, right, 0))
            .find(|order| !order.is_eq())
            .unwrap_or_else(|| self.operations.len().cmp(&other.operations.len()));

        let mut merged_cursors = Vec::with_capacity(self.cursors.len() + other.cursors.len());
        let mut left_cursors = self.cursors.into_iter().peekable();
        let mut right_cursors = other.cursors.into_iter().peekable();

        let mut merged_operations: Vec<Operation<T>> =
            Vec::with_capacity(self.operations.len() + other.operations.len());
        let mut merged_operation_sides: Vec<Side> =
            Vec::with_capacity(self.operations.len() + other.operations.len());

        let mut left_iter = self.operations.into_iter();
        let mut right_iter = other.operations.into_iter();

        let mut maybe_left_op = left_iter.next();
        let mut maybe_right_op = right_iter.next();

        let mut seen_left_length: usize = 0;
        let mut seen_right_length: usize = 0;
        let mut merged_length: usize = 0;

        let mut last_left_op = None;
        let mut last_right_op = None;

        loop {
            let (side, mut operation) = match (maybe_left_op.as_ref(), maybe_right_op.as_ref()) {
                (Some(left_op), Some(right_op)) => {
                    if R::cmp_priority(left_op, seen_left_length, right_op, seen_right_length)
                        .then(stream_priority)
                        == Ordering::Less
                    {
                        (Side::Left, maybe_left_op.take().unwrap())
                    } else {
                        (Side::Right, maybe_right_op.take().unwrap())
                    }
                }

                (Some(_), None) => (Side::Left, maybe_left_op.take().unwrap()),
                (None, Some(_)) => (Side::Right, maybe_right_op.take().unwrap()),
                (None, None) => break,
            };

            // Process a broad retain only up to the other input's next boundary.
            let remainder = match side {
                Side::Left => maybe_right_op.as_ref(),
                Side::Right => maybe_left_op.as_ref(),
            }
            .and_then(|next| operation.split_retain_before(next));

            let is_advancing_operation = matches!(
                operation,
                Operation::Insert { .. } | Operation::Equal { .. }
            );

            let original_length = operation.len();
            let previous_operation = match side {
                Side::Left => &mut last_right_op,
                Side::Right => &mut last_left_op,
            };
            let previous_is_equal = matches!(previous_operation, Some(Operation::Equal { .. }));
            let (result, insertion_overlap) =
                operation.merge_operations_consuming_insert::<R>(previous_operation.as_mut());

            if let ref op @ (Operation::Insert { .. } | Operation::Equal { .. }) = result {
                let (cursors, seen_length) = match side {
                    Side::Left => (&mut left_cursors, seen_left_length),
                    Side::Right => (&mut right_cursors, seen_right_length),
                };
                let removed_prefix_length = original_length - op.len();
                let prefix_position = match insertion_overlap {
                    Some(overlap) => {
                        let start = merged_length - overlap.offset_from_end;
                        start..start + overlap.length
                    }
                    None if previous_is_equal => {
                        merged_length - removed_prefix_length..merged_length
                    }
                    // Deleted text collapses to the current output boundary.
                    _ => merged_length..merged_length,
                };

                while let Some(cursor) =
                    cursors.next_if(|cursor| cursor.char_index <= seen_length + original_length)
                {
                    // Shared text stays at its matched location; the remaining suffix
                    // is appended at the current end of the merged text.
                    let offset = cursor.char_index.saturating_sub(seen_length);
                    let index = if offset <= removed_prefix_length {
                        // Normalized tokens can have different original lengths.
                        prefix_position.start + offset.min(prefix_position.len())
                    } else {
                        merged_length + offset - removed_prefix_length
                    };
                    merged_cursors.push(cursor.with_index(index));
                }
            }

            match side {
                Side::Left => {
                    if is_advancing_operation {
                        seen_left_length += original_length;
                    }

                    maybe_left_op = remainder.or_else(|| left_iter.next());
                    Self::remember_operation(&mut last_left_op, &result);
                }
                Side::Right => {
                    if is_advancing_operation {
                        seen_right_length += original_length;
                    }

                    maybe_right_op = remainder.or_else(|| right_iter.next());
                    Self::remember_operation(&mut last_right_op, &result);
                }
            }

            if result.len() == 0 {
                continue;
            }

            if is_advancing_operation {
                merged_length += result.len();
            }

            merged_operations.push(result);
            merged_operation_sides.push(side);
        }

        for cursor in left_cursors.chain(right_cursors) {
            merged_cursors.push(cursor.with_index(merged_length));
        }

        Self::new(
            self.text,
            merged_operations,
            merged_operation_sides,
            merged_cursors,
        )
    }

    /// Apply the operations to the text and return the resulting text
    #[must_use]
    pub fn apply(&self) -> TextWithCursors {
        let mut builder: StringBuilder<'_> = StringBuilder::new(self.text);

        for operation in &self.operations {
            builder = operation.apply(builder);
        }

        TextWithCursors::new(builder.take(), self.cursors.clone())
    }

    /// Apply the operations to the text and return the resulting text in chunks
    /// together with the provenance describing where each chunk came from.
    ///
    /// Returns all spans including deletions (not present in the merged text).
    #[must_use]
    pub fn apply_with_history(&self) -> Vec<SpanWithHistory> {
        let chars: Vec<char> = self.text.chars().collect();
        let mut builder: StringBuilder<'_> = StringBuilder::new(self.text);

        let mut history = Vec::with_capacity(self.operations.len());

        for (operation, side) in self.operations.iter().zip(self.operation_sides.iter()) {
            builder = operation.apply(builder);

            match operation {
                Operation::Equal { .. } => {
                    history.push(SpanWithHistory::new(builder.take(), History::Unchanged));
                }
                Operation::Insert { .. } => {
                    let h = match side {
                        Side::Left => History::AddedFromLeft,
                        Side::Right => History::AddedFromRight,
                    };
                    history.push(SpanWithHistory::new(builder.take(), h));
                }
                Operation::Delete {
                    deleted_character_count,
                    order,
                    ..
                } => {
                    let deleted: String = chars[*order..*order + *deleted_character_count]
                        .iter()
                        .collect();
                    let h = match side {
                        Side::Left => History::RemovedFromLeft,
                        Side::Right => History::RemovedFromRight,
                    };
                    history.push(SpanWithHistory::new(deleted, h));
                }
            }
        }

        history
    }

    /// Apply the operations and return both the merged text with cursors and
    /// the provenance history in a single pass
    #[must_use]
    pub fn apply_with_all(&self) -> (TextWithCursors, Vec<SpanWithHistory>) {
        let chars: Vec<char> = self.text.chars().collect();
        let mut builder: StringBuilder<'_> = StringBuilder::new(self.text);
        let mut history = Vec::with_capacity(self.operations.len());
        let mut full_text = String::new();

        for (operation, side) in self.operations.iter().zip(self.operation_sides.iter()) {
            builder = operation.apply(builder);

            match operation {
                Operation::Equal { .. } => {
                    let span = builder.take();
                    full_text.push_str(&span);
                    history.push(SpanWithHistory::new(span, History::Unchanged));
                }
                Operation::Insert { .. } => {
                    let span = builder.take();
                    full_text.push_str(&span);
                    let h = match side {
                        Side::Left => History::AddedFromLeft,
                        Side::Right => History::AddedFromRight,
                    };
                    history.push(SpanWithHistory::new(span, h));
                }
                Operation::Delete {
                    deleted_character_count,
                    order,
                    ..
                } => {
                    let deleted: String = chars[*order..*order + *deleted_character_count]
                        .iter()
                        .collect();
                    let h = match side {
                        Side::Left => History::RemovedFromLeft,
                        Side::Right => History::RemovedFromRight,
                    };
                    history.push(SpanWithHistory::new(deleted, h));
                }
            }
        }

        (
            TextWithCursors::new(full_text, self.cursors.clone()),
            history,
        )
    }

    /// Convert the `EditedText` into a terse representation ready for
    /// serialization. The result omits cursor positions and the original text.
    /// This is useful for sending text diffs over the network if there's a
    /// clear consensus on the original text.
    ///
    /// Inserts are strings, deletes are negative integers (character count),
    /// and retained spans are positive integers (character count).
    ///
    /// # Errors
    ///
    /// Returns `DiffError::IntegerOverflow` if a character count exceeds
    /// `i64::MAX`.
    pub fn to_diff(&self) -> Result<Vec<NumberOrText>, DiffError> {
        let mut result: Vec<NumberOrText> = Vec::with_capacity(self.operations.len());
        let mut previous_equal: Option<usize> = None;

        for operation in &self.operations {
            match operation {
                Operation::Equal { length, .. } => {
                    if let Some(prev_length) = previous_equal {
                        previous_equal = Some(prev_length + *length);
                    } else {
                        previous_equal = Some(*length);
                    }
                }

                Operation::Insert { text, .. } => {
                    if let Some(prev_length) = previous_equal {
                        result
                            .push(NumberOrText::Number(i64::try_from(prev_length).map_err(
                                |_| DiffError::IntegerOverflow { value: prev_length },
                            )?));
                        previous_equal = None;
                    }

                    let text: String = text.iter().map(Token::original).collect();
                    result.push(NumberOrText::Text(text));
                }

                Operation::Delete {
                    deleted_character_count,
                    ..
                } => {
                    if let Some(prev_length) = previous_equal {
                        result
                            .push(NumberOrText::Number(i64::try_from(prev_length).map_err(
                                |_| DiffError::IntegerOverflow { value: prev_length },
                            )?));
                        previous_equal = None;
                    }

                    let count = i64::try_from(*deleted_character_count).map_err(|_| {
                        DiffError::IntegerOverflow {
                            value: *deleted_character_count,
                        }
                    })?;
                    result.push(NumberOrText::Number(-count));
                }
            }
        }

        if let Some(prev_length) = previous_equal {
            result
                .push(NumberOrText::Number(i64::try_from(prev_length).map_err(
                    |_| DiffError::IntegerOverflow { value: prev_length },
                )?));
        }

        Ok(result)
    }

    /// Reconstruct the edited text from a diff: the Rust's `from_diff` up to
    /// the replayed text.
    ///
    /// # Errors
    ///
    /// Returns `DiffError::LengthExceedsOriginal` if the diff references a
    /// range that exceeds the original text length, or `DiffError::LengthOverflow`
    /// if a character count cannot be represented as usize.
    pub fn from_diff(original_text: &'a str, diff: Vec<NumberOrText>) -> Result<String, DiffError> {
        let mut builder = StringBuilder::new(original_text);
        let mut order = 0;
        let text_length = original_text.chars().count();

        for item in diff {
            match item {
                NumberOrText::Number(length) => {
                    let count = usize::try_from(length.unsigned_abs()).map_err(|_| {
                        DiffError::LengthOverflow {
                            value: length.unsigned_abs(),
                        }
                    })?;
                    let available = text_length - order;
                    if count > available {
                        return Err(DiffError::LengthExceedsOriginal {
                            position: order,
                            requested: count,
                            available,
                        });
                    }

                    if length >= 0 {
                        builder.retain(count);
                    } else {
                        builder.delete(count);
                    }
                    order += count;
                }
                NumberOrText::Text(text) => builder.insert(&text),
            }
        }

        Ok(builder.take())
    }
}
