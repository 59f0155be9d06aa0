use std::fmt::Debug;

use crate::published::{
    Rules, Token,
    utils::{
        find_longest_prefix_contained_within::find_longest_prefix_contained_within,
        string_builder::StringBuilder,
    },
};

/// Represents a change that can be applied on a `StringBuilder`
#[derive(Debug, Clone, PartialEq)]
pub enum Operation<T>
where
    T: PartialEq + Clone + Debug,
{
    Equal {
        order: usize,
        length: usize,
    },

    Insert {
        order: usize,
        text: Vec<Token<T>>,
    },

    Delete {
        order: usize,
        deleted_character_count: usize,
    },
}

/// Character bounds of a matched prefix within the cached insertion.
#[derive(Debug)]
pub(crate) struct InsertionOverlap {
    pub offset_from_end: usize,
    pub length: usize,
}

impl<T> Operation<T>
where
    T: PartialEq + Clone + Debug,
{
    /// Creates an equal (retain) operation starting at the given character
    /// offset in the original text
    pub fn create_equal(order: usize, length: usize) -> Self {
        Operation::Equal { order, length }
    }

    /// Creates an insert operation at the given character offset with the
    /// given tokens
    pub fn create_insert(order: usize, text: Vec<Token<T>>) -> Self {
        Operation::Insert { order, text }
    }

    /// Creates a delete operation at the given character offset for the
    /// specified number of characters
    pub fn create_delete(order: usize, deleted_character_count: usize) -> Self {
        Operation::Delete {
            order,
            deleted_character_count,
        }
    }

    pub fn order(&self) -> usize {
        match self {
            Operation::Equal { order, .. }
            | Operation::Insert { order, .. }
            | Operation::Delete { order, .. } => *order,
        }
    }

    /// Split a retain where the next operation starts or ends, returning its tail.
    pub(super) fn split_retain_before(&mut self, next: &Self) -> Option<Self> {
        let Self::Equal { order, length, .. } = self else {
            return None;
        };

        let boundary = if next.order() > *order {
            next.order()
        } else if !matches!(next, Self::Insert { .. }) {
            next.order() + next.len()
        } else {
            return None;
        };

        if boundary <= *order || boundary >= *order + *length {
            return None;
        }
        let tail = Self::create_equal(boundary, *order + *length - boundary);
        let prefix_length = boundary - *order;
        *length = prefix_length;

        Some(tail)
    }

    pub(crate) fn type_priority(&self) -> u8 {
        match self {
            Operation::Delete { .. } => 1,
            Operation::Insert { .. } => 2,
            Operation::Equal { .. } => 3,
        }
    }

    /// Compare two operations for processing order during merging. Uses
    /// (order, type, `insertion_index`) with a deterministic content
    /// tiebreaker that avoids allocating.
    pub fn cmp_priority(
        &self,
        self_index: usize,
        other: &Self,
        other_index: usize,
    ) -> std::cmp::Ordering {
        self.order()
            .cmp(&other.order())
            .then_with(|| self.type_priority().cmp(&other.type_priority()))
            .then_with(|| self_index.cmp(&other_index))
            .then_with(|| self.deterministic_content_cmp(other))
    }

    /// Deterministic tiebreaker based on operation content, so that merge
    /// results are identical regardless of which side is left vs right
    pub(crate) fn deterministic_content_cmp(&self, other: &Self) -> std::cmp::Ordering {
        match (self, other) {
            (Operation::Insert { text: t1, .. }, Operation::Insert { text: t2, .. }) => {
                let s1 = t1.iter().flat_map(|t| t.original().chars());
                let s2 = t2.iter().flat_map(|t| t.original().chars());
                s1.cmp(s2)
            }
            (Operation::Equal { length: l1, .. }, Operation::Equal { length: l2, .. }) => {
                l1.cmp(l2)
            }
            (
                Operation::Delete {
                    deleted_character_count: c1,
                    ..
                },
                Operation::Delete {
                    deleted_character_count: c2,
                    ..
                },
            ) => c1.cmp(c2),
            // Different types are already ordered by type_priority
            _ => std::cmp::Ordering::Equal,
        }
    }

    /// Applies the operation to the given `StringBuilder`, returning the
    /// modified `StringBuilder`.
    pub fn apply<'a>(&self, mut builder: StringBuilder<'a>) -> StringBuilder<'a> {
        match self {
            Operation::Equal { length, .. } => {
                builder.retain(*length);
            }
            Operation::Insert { text, .. } => {
                builder.insert(&text.iter().map(Token::original).collect::<String>());
            }
            Operation::Delete {
                deleted_character_count,
                ..
            } => {
                builder.delete(*deleted_character_count);
            }
        }

        builder
    }

    /// Returns the number of affected characters. May be 0 after
    /// `merge_operations`.
    #[allow(clippy::len_without_is_empty)]
    pub fn len(&self) -> usize {
        match self {
            Operation::Equal { length, .. } => *length,
            Operation::Insert { text, .. } => text.iter().map(Token::get_original_length).sum(),
            Operation::Delete {
                deleted_character_count,
                ..
            } => *deleted_character_count,
        }
    }

    /// Merges operations while consuming the matched part of a cached insertion.
    /// Keeps its suffix for later matches until new text is emitted after it.
    /// Also returns the matched prefix's position within the cached insertion,
    /// for positioning cursors in deduplicated text.
    pub(crate) fn merge_operations_consuming_insert<R: Rules>(
        self,
        previous_operation: Option<&mut Self>,
    ) -> (Self, Option<InsertionOverlap>) {
        match (self, previous_operation) {
            (
                Operation::Insert { order, text },
                Some(Operation::Insert {
                    text: previous_inserted_text,
                    ..
                }),
            ) => {
                let overlap = find_longest_prefix_contained_within(previous_inserted_text, &text);
                let insertion_overlap = (!overlap.is_empty()).then(|| {
                    let length = previous_inserted_text[overlap.clone()]
                        .iter()
                        .map(Token::get_original_length)
                        .sum::<usize>();
                    let trailing_length = previous_inserted_text[overlap.end..]
                        .iter()
                        .map(Token::get_original_length)
                        .sum::<usize>();

                    InsertionOverlap {
                        offset_from_end: length + trailing_length,
                        length,
                    }
                });
                if overlap.len() == text.len() {
                    previous_inserted_text.drain(..overlap.end);
                } else {
                    previous_inserted_text.clear();
                }
                (
                    Operation::create_insert(order, text[overlap.len()..].to_vec()),
                    insertion_overlap,
                )
            }
            (operation, previous_operation) => (
                R::merge_operations(operation, previous_operation.as_deref()),
                None,
            ),
        }
    }

    /// Adjusts this operation based on `previous_operation` from the other side
    /// to avoid duplicating or conflicting changes
    #[allow(clippy::too_many_lines)]
    pub fn merge_operations(self, previous_operation: Option<&Self>) -> Operation<T> {
        let operation = self;

        match (operation, previous_operation) {
            (
                Operation::Insert { order, text },
                Some(Operation::Insert {
                    text: previous_inserted_text,
                    ..
                }),
            ) => {
                // In case the current insert's prefix appears in the previously inserted text,
                // we can trim the current insert to only include the non-overlapping part.
                // This way, we don't end up duplicating text.
                let overlap = find_longest_prefix_contained_within(previous_inserted_text, &text);

                Operation::create_insert(order, text[overlap.len()..].to_vec())
            }

            (
                Operation::Delete {
                    order,
                    deleted_character_count,
                },
                Some(Operation::Delete {
                    order: last_delete_order,
                    deleted_character_count: last_delete_deleted_character_count,
                    ..
                }),
            ) => {
                let operation_end_index = order + deleted_character_count;
                let last_delete_end_index =
                    *last_delete_order + *last_delete_deleted_character_count;

                let new_length = deleted_character_count
                    .min(operation_end_index.saturating_sub(last_delete_end_index));

                let overlap = deleted_character_count - new_length;

                Operation::create_delete(order + overlap, new_length)
            }

            (
                Operation::Equal { order, length },
                Some(Operation::Delete {
                    order: last_delete_order,
                    deleted_character_count: last_delete_deleted_character_count,
                    ..
                }),
            ) => {
                let last_delete_end_index =
                    *last_delete_order + *last_delete_deleted_character_count;

                let overlap = length.min(last_delete_end_index.saturating_sub(order));

                Operation::create_equal(order + overlap, length - overlap)
            }

            (
                ref operation @ Operation::Equal { ref order, .. },
                Some(Operation::Equal {
                    order: last_equal_order,
                    length: last_equal_length,
                }),
            ) => {
                if operation.len() == *last_equal_length && *order == *last_equal_order {
                    // Both sides retained the same span from the original text,
                    // so we deduplicate by zeroing one out. This is safe because
                    // both EditedTexts are derived from the same original, and
                    // matching (order, length) means they cover the same substring
                    Operation::create_equal(*order, 0)
                } else {
                    operation.clone()
                }
            }

            (operation, _) => operation,
        }
    }
}
