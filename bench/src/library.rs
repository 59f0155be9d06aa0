//! The proved library, through its static archive: a slice is pointer and length, the answer one struct by value.

/// Refusal 0 is accepted, with the call's counts; else document 01's number, with what it carries.
#[repr(C)]
#[derive(Debug, Clone, Copy, PartialEq, Eq)]
pub struct Answer {
    pub refusal: u64,
    pub first: u64,
    pub second: u64,
    pub third: u64,
}

impl Answer {
    /// The counts of a call that must have been accepted.
    pub fn counts(self) -> [usize; 3] {
        assert_eq!(self.refusal, 0, "{self:?}");
        [self.first, self.second, self.third].map(|count| count as usize)
    }
}

/// Declares each call of the archive and a function over slices: those that are read, then those that are written.
macro_rules! calls {
    ($($symbol:ident as $name:ident($($read:ident: $r:ty),*; $($written:ident: $w:ty),*);)*) => {
        unsafe extern "C" {
            $(fn $symbol($($read: *const $r, _: usize,)* $($written: *mut $w, _: usize),*) -> Answer;)*
        }
        $(#[allow(clippy::too_many_arguments)]
        pub fn $name($($read: &[$r],)* $($written: &mut [$w]),*) -> Answer {
            // Sound: pointers and lengths are those of slices, and the call keeps none of them.
            unsafe { $symbol($($read.as_ptr(), $read.len(),)* $($written.as_mut_ptr(), $written.len()),*) }
        })*
    };
}

calls! {
    fleecelatch_utf8_read as utf8_read(bytes: u8; out: u32);
    fleecelatch_utf8_write as utf8_write(text: u32; out: u8);
    fleecelatch_find_longest_prefix_contained_within as overlap(old: u32, new: u32; work: u32);
    fleecelatch_elongate as elongate(raw: usize, spans: u32, keys: u32, joins: u8, text: u32; operations: usize, spanned: u32, keyed: u32, joined: u8);
    fleecelatch_merge as merge(original: u32, text: u32, spans: u32, keys: u32, left: usize, right: usize, left_cursors: usize, right_cursors: usize; operations: usize, cursors: usize, work: u32);
    fleecelatch_apply_lengths as apply_lengths(original: u32, text: u32, spans: u32, keys: u32, operations: usize, cursors: usize;);
    fleecelatch_apply as apply(original: u32, text: u32, spans: u32, keys: u32, operations: usize, cursors: usize; out: u32, moved: usize);
    fleecelatch_apply_with_history as apply_with_history(original: u32, text: u32, spans: u32, keys: u32, operations: usize; history: usize, out: u32);
    fleecelatch_apply_with_all as apply_with_all(original: u32, text: u32, spans: u32, keys: u32, operations: usize, cursors: usize; out: u32, moved: usize, history: usize, history_text: u32);
    fleecelatch_to_diff as to_diff(original: u32, text: u32, spans: u32, keys: u32, operations: usize; room: i64, out: u32);
    fleecelatch_from_diff as from_diff(original: u32, items: i64, text: u32; out: u32);
    fleecelatch_from_covering_diff as from_covering_diff(original: u32, items: i64, text: u32; out: u32);
    fleecelatch_edit_file_read_lengths as edit_file_read_lengths(bytes: u8;);
    fleecelatch_edit_file_read as edit_file_read(bytes: u8; items: i64, text: u32);
    fleecelatch_edit_file_write_length as edit_file_write_length(items: i64, text: u32;);
    fleecelatch_edit_file_write as edit_file_write(items: i64, text: u32; out: u8);
    fleecelatch_merge_files as merge_files(original: u8, left: u8, right: u8; out: u8);
}
