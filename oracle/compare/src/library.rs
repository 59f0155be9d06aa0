//! The static library's calls, as C sees them. A slice is a pointer and a number of elements.

#[repr(C)]
#[derive(Clone, Copy, Debug, PartialEq, Eq)]
pub struct Answer {
    /// 0, or document 01's number.
    pub refusal: u64,
    /// The counts, or what the refusal carries; 0 after the last.
    pub first: u64,
    pub second: u64,
    pub third: u64,
}

#[rustfmt::skip]
unsafe extern "C" {
    pub fn fleecelatch_utf8_read_length(
        bytes: *const u8, bytes_length: usize,
    ) -> Answer;
    pub fn fleecelatch_utf8_read(
        bytes: *const u8, bytes_length: usize,
        out: *mut u32, out_length: usize,
    ) -> Answer;
    pub fn fleecelatch_utf8_write_length(
        text: *const u32, text_length: usize,
    ) -> Answer;
    pub fn fleecelatch_utf8_write(
        text: *const u32, text_length: usize,
        out: *mut u8, out_length: usize,
    ) -> Answer;

    pub fn fleecelatch_find_longest_prefix_contained_within(
        old: *const u32, old_length: usize,
        new: *const u32, new_length: usize,
        work: *mut u32, work_length: usize,
    ) -> Answer;

    pub fn fleecelatch_elongate(
        raw: *const usize, raw_length: usize,
        spans: *const u32, spans_length: usize,
        keys: *const u32, keys_length: usize,
        joins: *const u8, joins_length: usize,
        text: *const u32, text_length: usize,
        operations: *mut usize, operations_length: usize,
        spanned: *mut u32, spanned_length: usize,
        keyed: *mut u32, keyed_length: usize,
        joined: *mut u8, joined_length: usize,
    ) -> Answer;

    pub fn fleecelatch_merge(
        original: *const u32, original_length: usize,
        text: *const u32, text_length: usize,
        spans: *const u32, spans_length: usize,
        keys: *const u32, keys_length: usize,
        left: *const usize, left_length: usize,
        right: *const usize, right_length: usize,
        left_cursors: *const usize, left_cursors_length: usize,
        right_cursors: *const usize, right_cursors_length: usize,
        operations: *mut usize, operations_length: usize,
        cursors: *mut usize, cursors_length: usize,
        work: *mut u32, work_length: usize,
    ) -> Answer;

    pub fn fleecelatch_apply_lengths(
        original: *const u32, original_length: usize,
        text: *const u32, text_length: usize,
        spans: *const u32, spans_length: usize,
        keys: *const u32, keys_length: usize,
        operations: *const usize, operations_length: usize,
        cursors: *const usize, cursors_length: usize,
    ) -> Answer;
    pub fn fleecelatch_apply(
        original: *const u32, original_length: usize,
        text: *const u32, text_length: usize,
        spans: *const u32, spans_length: usize,
        keys: *const u32, keys_length: usize,
        operations: *const usize, operations_length: usize,
        cursors: *const usize, cursors_length: usize,
        out: *mut u32, out_length: usize,
        moved: *mut usize, moved_length: usize,
    ) -> Answer;
    pub fn fleecelatch_apply_with_history_lengths(
        original: *const u32, original_length: usize,
        text: *const u32, text_length: usize,
        spans: *const u32, spans_length: usize,
        keys: *const u32, keys_length: usize,
        operations: *const usize, operations_length: usize,
    ) -> Answer;
    pub fn fleecelatch_apply_with_history(
        original: *const u32, original_length: usize,
        text: *const u32, text_length: usize,
        spans: *const u32, spans_length: usize,
        keys: *const u32, keys_length: usize,
        operations: *const usize, operations_length: usize,
        history: *mut usize, history_length: usize,
        out: *mut u32, out_length: usize,
    ) -> Answer;
    pub fn fleecelatch_apply_with_all_lengths(
        original: *const u32, original_length: usize,
        text: *const u32, text_length: usize,
        spans: *const u32, spans_length: usize,
        keys: *const u32, keys_length: usize,
        operations: *const usize, operations_length: usize,
        cursors: *const usize, cursors_length: usize,
    ) -> Answer;
    pub fn fleecelatch_apply_with_all(
        original: *const u32, original_length: usize,
        text: *const u32, text_length: usize,
        spans: *const u32, spans_length: usize,
        keys: *const u32, keys_length: usize,
        operations: *const usize, operations_length: usize,
        cursors: *const usize, cursors_length: usize,
        out: *mut u32, out_length: usize,
        moved: *mut usize, moved_length: usize,
        history: *mut usize, history_length: usize,
        history_text: *mut u32, history_text_length: usize,
    ) -> Answer;

    pub fn fleecelatch_to_diff_lengths(
        original: *const u32, original_length: usize,
        text: *const u32, text_length: usize,
        spans: *const u32, spans_length: usize,
        keys: *const u32, keys_length: usize,
        operations: *const usize, operations_length: usize,
    ) -> Answer;
    pub fn fleecelatch_to_diff(
        original: *const u32, original_length: usize,
        text: *const u32, text_length: usize,
        spans: *const u32, spans_length: usize,
        keys: *const u32, keys_length: usize,
        operations: *const usize, operations_length: usize,
        room: *mut i64, room_length: usize,
        out: *mut u32, out_length: usize,
    ) -> Answer;

    pub fn fleecelatch_from_diff_length(
        original: *const u32, original_length: usize,
        items: *const i64, items_length: usize,
        text: *const u32, text_length: usize,
    ) -> Answer;
    pub fn fleecelatch_from_diff(
        original: *const u32, original_length: usize,
        items: *const i64, items_length: usize,
        text: *const u32, text_length: usize,
        out: *mut u32, out_length: usize,
    ) -> Answer;
    pub fn fleecelatch_from_covering_diff_length(
        original: *const u32, original_length: usize,
        items: *const i64, items_length: usize,
        text: *const u32, text_length: usize,
    ) -> Answer;
    pub fn fleecelatch_from_covering_diff(
        original: *const u32, original_length: usize,
        items: *const i64, items_length: usize,
        text: *const u32, text_length: usize,
        out: *mut u32, out_length: usize,
    ) -> Answer;

    pub fn fleecelatch_edit_file_read_lengths(
        bytes: *const u8, bytes_length: usize,
    ) -> Answer;
    pub fn fleecelatch_edit_file_read(
        bytes: *const u8, bytes_length: usize,
        items: *mut i64, items_length: usize,
        text: *mut u32, text_length: usize,
    ) -> Answer;
    pub fn fleecelatch_edit_file_believed(
        bytes: *const u8, bytes_length: usize,
        original: usize,
    ) -> Answer;
    pub fn fleecelatch_edit_file_write_length(
        items: *const i64, items_length: usize,
        text: *const u32, text_length: usize,
    ) -> Answer;
    pub fn fleecelatch_edit_file_write(
        items: *const i64, items_length: usize,
        text: *const u32, text_length: usize,
        out: *mut u8, out_length: usize,
    ) -> Answer;

    pub fn fleecelatch_merge_files(
        original: *const u8, original_length: usize,
        left: *const u8, left_length: usize,
        right: *const u8, right_length: usize,
        out: *mut u8, out_length: usize,
    ) -> Answer;
}
