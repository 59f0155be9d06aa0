//! The archive's calls, as include/fleecelatch.h has them.

/// `fleecelatch_answer`: the counts of a call, or a refusal's number with what it carries.
#[repr(C)]
#[derive(Clone, Copy, Debug)]
pub struct Answer {
    pub refusal: u64,
    pub first: u64,
    pub second: u64,
    pub third: u64,
}

unsafe extern "C" {
    pub fn fleecelatch_utf8_read_length(bytes: *const u8, bytes_len: usize) -> Answer;
    pub fn fleecelatch_utf8_read(bytes: *const u8, bytes_len: usize, out: *mut u32, out_len: usize) -> Answer;
    pub fn fleecelatch_utf8_write_length(text: *const u32, text_len: usize) -> Answer;
    pub fn fleecelatch_utf8_write(text: *const u32, text_len: usize, out: *mut u8, out_len: usize) -> Answer;
    pub fn fleecelatch_find_longest_prefix_contained_within(
        old: *const u32,
        old_len: usize,
        new: *const u32,
        new_len: usize,
        work: *mut u32,
        work_len: usize,
    ) -> Answer;
    pub fn fleecelatch_elongate(
        raw: *const usize,
        raw_len: usize,
        spans: *const u32,
        spans_len: usize,
        keys: *const u32,
        keys_len: usize,
        joins: *const u8,
        joins_len: usize,
        text: *const u32,
        text_len: usize,
        operations: *mut usize,
        operations_len: usize,
        spanned: *mut u32,
        spanned_len: usize,
        keyed: *mut u32,
        keyed_len: usize,
        joined: *mut u8,
        joined_len: usize,
    ) -> Answer;
    pub fn fleecelatch_merge(
        original: *const u32,
        original_len: usize,
        text: *const u32,
        text_len: usize,
        spans: *const u32,
        spans_len: usize,
        keys: *const u32,
        keys_len: usize,
        left: *const usize,
        left_len: usize,
        right: *const usize,
        right_len: usize,
        left_cursors: *const usize,
        left_cursors_len: usize,
        right_cursors: *const usize,
        right_cursors_len: usize,
        operations: *mut usize,
        operations_len: usize,
        cursors: *mut usize,
        cursors_len: usize,
        work: *mut u32,
        work_len: usize,
    ) -> Answer;
    pub fn fleecelatch_apply_lengths(
        original: *const u32,
        original_len: usize,
        text: *const u32,
        text_len: usize,
        spans: *const u32,
        spans_len: usize,
        keys: *const u32,
        keys_len: usize,
        operations: *const usize,
        operations_len: usize,
        cursors: *const usize,
        cursors_len: usize,
    ) -> Answer;
    pub fn fleecelatch_apply(
        original: *const u32,
        original_len: usize,
        text: *const u32,
        text_len: usize,
        spans: *const u32,
        spans_len: usize,
        keys: *const u32,
        keys_len: usize,
        operations: *const usize,
        operations_len: usize,
        cursors: *const usize,
        cursors_len: usize,
        out: *mut u32,
        out_len: usize,
        moved: *mut usize,
        moved_len: usize,
    ) -> Answer;
    pub fn fleecelatch_apply_with_history_lengths(
        original: *const u32,
        original_len: usize,
        text: *const u32,
        text_len: usize,
        spans: *const u32,
        spans_len: usize,
        keys: *const u32,
        keys_len: usize,
        operations: *const usize,
        operations_len: usize,
    ) -> Answer;
    pub fn fleecelatch_apply_with_history(
        original: *const u32,
        original_len: usize,
        text: *const u32,
        text_len: usize,
        spans: *const u32,
        spans_len: usize,
        keys: *const u32,
        keys_len: usize,
        operations: *const usize,
        operations_len: usize,
        history: *mut usize,
        history_len: usize,
        out: *mut u32,
        out_len: usize,
    ) -> Answer;
    pub fn fleecelatch_apply_with_all_lengths(
        original: *const u32,
        original_len: usize,
        text: *const u32,
        text_len: usize,
        spans: *const u32,
        spans_len: usize,
        keys: *const u32,
        keys_len: usize,
        operations: *const usize,
        operations_len: usize,
        cursors: *const usize,
        cursors_len: usize,
    ) -> Answer;
    pub fn fleecelatch_apply_with_all(
        original: *const u32,
        original_len: usize,
        text: *const u32,
        text_len: usize,
        spans: *const u32,
        spans_len: usize,
        keys: *const u32,
        keys_len: usize,
        operations: *const usize,
        operations_len: usize,
        cursors: *const usize,
        cursors_len: usize,
        out: *mut u32,
        out_len: usize,
        moved: *mut usize,
        moved_len: usize,
        history: *mut usize,
        history_len: usize,
        history_text: *mut u32,
        history_text_len: usize,
    ) -> Answer;
    pub fn fleecelatch_to_diff_lengths(
        original: *const u32,
        original_len: usize,
        text: *const u32,
        text_len: usize,
        spans: *const u32,
        spans_len: usize,
        keys: *const u32,
        keys_len: usize,
        operations: *const usize,
        operations_len: usize,
    ) -> Answer;
    pub fn fleecelatch_to_diff(
        original: *const u32,
        original_len: usize,
        text: *const u32,
        text_len: usize,
        spans: *const u32,
        spans_len: usize,
        keys: *const u32,
        keys_len: usize,
        operations: *const usize,
        operations_len: usize,
        room: *mut i64,
        room_len: usize,
        out: *mut u32,
        out_len: usize,
    ) -> Answer;
    pub fn fleecelatch_from_diff_length(
        original: *const u32,
        original_len: usize,
        items: *const i64,
        items_len: usize,
        text: *const u32,
        text_len: usize,
    ) -> Answer;
    pub fn fleecelatch_from_diff(
        original: *const u32,
        original_len: usize,
        items: *const i64,
        items_len: usize,
        text: *const u32,
        text_len: usize,
        out: *mut u32,
        out_len: usize,
    ) -> Answer;
    pub fn fleecelatch_from_covering_diff_length(
        original: *const u32,
        original_len: usize,
        items: *const i64,
        items_len: usize,
        text: *const u32,
        text_len: usize,
    ) -> Answer;
    pub fn fleecelatch_from_covering_diff(
        original: *const u32,
        original_len: usize,
        items: *const i64,
        items_len: usize,
        text: *const u32,
        text_len: usize,
        out: *mut u32,
        out_len: usize,
    ) -> Answer;
    pub fn fleecelatch_edit_file_read_lengths(bytes: *const u8, bytes_len: usize) -> Answer;
    pub fn fleecelatch_edit_file_read(
        bytes: *const u8,
        bytes_len: usize,
        items: *mut i64,
        items_len: usize,
        text: *mut u32,
        text_len: usize,
    ) -> Answer;
    pub fn fleecelatch_edit_file_believed(bytes: *const u8, bytes_len: usize, original: usize) -> Answer;
    pub fn fleecelatch_edit_file_write_length(items: *const i64, items_len: usize, text: *const u32, text_len: usize) -> Answer;
    pub fn fleecelatch_edit_file_write(
        items: *const i64,
        items_len: usize,
        text: *const u32,
        text_len: usize,
        out: *mut u8,
        out_len: usize,
    ) -> Answer;
    pub fn fleecelatch_merge_files(
        original: *const u8,
        original_len: usize,
        left: *const u8,
        left_len: usize,
        right: *const u8,
        right_len: usize,
        out: *mut u8,
        out_len: usize,
    ) -> Answer;
}
