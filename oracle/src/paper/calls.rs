//! The calls over lists as a caller meets them: this reading's refusals, the completed Rust's
//! answers, then the rooms whose length only the answer tells.

use std::ops::Range;

use super::lists::{
    ElongateRooms, List, MergeRooms, RawList, check_list, check_merge, check_overlap,
};
use super::refusal::{Refusal, room};
use crate::completed::Completed;
use crate::flat::{
    self, Applied, CURSOR_STRIDE, Diff, Elongated, HISTORY_STRIDE, ITEM_STRIDE, Lent, Merged, Spans,
};

pub fn overlap(old: &[u32], new: &[u32], work: usize) -> Result<Range<usize>, Refusal> {
    check_overlap(old, new, work)?;
    Ok(flat::overlap(old, new))
}

pub fn elongate(raw: RawList, rooms: ElongateRooms) -> Result<Elongated, Refusal> {
    raw.check(rooms)?;
    Ok(flat::elongate(
        raw.operations,
        raw.spans,
        raw.keys,
        raw.joins,
        raw.text,
    ))
}

pub fn merge(lent: &Lent, left: List, right: List, rooms: MergeRooms) -> Result<Merged, Refusal> {
    check_merge(lent, left, right, rooms)?;
    Ok(flat::merge::<Completed>(
        lent,
        left.operations,
        right.operations,
        left.cursors,
        right.cursors,
    ))
}

pub fn apply(
    lent: &Lent,
    list: List,
    text_room: usize,
    cursors_room: usize,
) -> Result<Applied, Refusal> {
    check_list(lent, list)?;
    let applied = flat::apply(lent, list.operations, list.cursors);
    applied_rooms(&applied, text_room, cursors_room)?;
    Ok(applied)
}

pub fn apply_with_history(
    lent: &Lent,
    operations: &[usize],
    spans_room: usize,
    text_room: usize,
) -> Result<Spans, Refusal> {
    check_list(lent, without_cursors(operations))?;
    let history = flat::apply_with_history(lent, operations);
    history_rooms(&history, spans_room, text_room)?;
    Ok(history)
}

pub fn apply_with_all(
    lent: &Lent,
    list: List,
    text_room: usize,
    cursors_room: usize,
    spans_room: usize,
    history_room: usize,
) -> Result<(Applied, Spans), Refusal> {
    check_list(lent, list)?;
    let (applied, history) = flat::apply_with_all(lent, list.operations, list.cursors);
    applied_rooms(&applied, text_room, cursors_room)?;
    history_rooms(&history, spans_room, history_room)?;
    Ok((applied, history))
}

pub fn to_diff(
    lent: &Lent,
    operations: &[usize],
    items_room: usize,
    text_room: usize,
) -> Result<Diff, Refusal> {
    check_list(lent, without_cursors(operations))?;
    let diff = flat::to_diff(lent, operations);
    room(diff.items.len() / ITEM_STRIDE, ITEM_STRIDE, items_room)?;
    room(diff.text.len(), 1, text_room)?;
    Ok(diff)
}

fn applied_rooms(applied: &Applied, text: usize, cursors: usize) -> Result<(), Refusal> {
    room(applied.text.len(), 1, text)?;
    room(
        applied.cursors.len() / CURSOR_STRIDE,
        CURSOR_STRIDE,
        cursors,
    )
}

fn history_rooms(history: &Spans, spans: usize, text: usize) -> Result<(), Refusal> {
    room(history.spans.len() / HISTORY_STRIDE, HISTORY_STRIDE, spans)?;
    room(history.text.len(), 1, text)
}

fn without_cursors(operations: &[usize]) -> List<'_> {
    List {
        operations,
        cursors: &[],
    }
}
