/* Fleecelatch: a text merge that cannot lie. Every call takes any input, checks it, and answers what is wrong with a numbered refusal.

   A lent array is two arguments, a pointer and a length in elements of the pointer's type: a list of three operations is a pointer to its 18
   numbers, and 18. A length that is no multiple of the record's size lends the whole records before it; the rest is not looked at.
   An array that is only read is `const`; the others are rooms, which a call may write.

   What a caller owes, and nothing can check: each pointer is aligned for its type and points to as many elements as its length says, and a room
   overlaps no other array of the call. NULL with length 0 is fine, for every array. No call keeps a pointer, allocates or has a state, so calls
   may run at the same time on rooms of their own.

   A refusal writes nothing. On success a room past its answer is unchanged; only a work room is left holding nothing in particular. */
#ifndef FLEECELATCH_H
#define FLEECELATCH_H

#include <stddef.h>
#include <stdint.h>

#ifdef __cplusplus
extern "C" {
#endif

#if SIZE_MAX != UINT64_MAX
#error "fleecelatch is built for x86-64, where size_t has 64 bits"
#endif

/* The answer of every call. refusal 0: accepted, and the others are the counts named with the call, 0 after the last. Else one of the numbers
   below, and the others are what the refusal carries, 0 after the last. */
typedef struct {
    uint64_t refusal, first, second, third;
} fleecelatch_answer;

enum {
    FLEECELATCH_ACCEPTED = 0,
    /* unknown kind or side; a retain, delete or token of length 0; an insert or raw operation with no tokens; a token or range outside what was
       lent; in writing an edit file also a zero, an empty text and a second neighbouring keep. Carries the index of the first such operation or item */
    FLEECELATCH_REFUSED_RECORD = 1,
    /* retains and deletes do not tile the original in order. Carries the index of the first whose order is not the length consumed before it or
       that passes the end; else the number of operations */
    FLEECELATCH_REFUSED_TILING = 2,
    /* a size limit is passed. Carries nothing */
    FLEECELATCH_REFUSED_SIZE = 3,
    /* a text holds a number above 10FFFF hex or in D800 to DFFF. Carries its index */
    FLEECELATCH_REFUSED_CODE_POINT = 4,
    /* a cursor lies past the end of its own list's text. Carries its place among the cursors lent */
    FLEECELATCH_REFUSED_CURSOR = 5,
    /* a diff number asks more than is left of the original. Carries position, requested, available */
    FLEECELATCH_REFUSED_SHORT = 6,
    /* a room is shorter than asked. Carries nothing */
    FLEECELATCH_REFUSED_ROOM = 7,
    /* an edit file breaks a rule. Carries the first bad line, from 1 */
    FLEECELATCH_REFUSED_LINE = 8,
    /* a covering replay ends with original text unmentioned. Carries the code points left */
    FLEECELATCH_REFUSED_UNMENTIONED = 9,
    /* bad UTF-8. Carries the offset of the first byte of the first bad sequence */
    FLEECELATCH_REFUSED_UTF8 = 10
};

/* Sizes; the limit itself passes. */
enum {
    FLEECELATCH_ORIGINAL_MOST = 65535,          /* code points of an original */
    FLEECELATCH_TEXT_MOST = 131070,             /* code points lent as inserted text, and used by one list, diff or raw list */
    FLEECELATCH_MERGE_TEXT_MOST = 65535,        /* inserted code points of one list of a merge */
    FLEECELATCH_OPERATIONS_MOST = 8192,         /* operations of a list or raw list, items of a diff */
    FLEECELATCH_MERGE_OPERATIONS_MOST = 4096,   /* operations of one list of a merge */
    FLEECELATCH_TOKENS_MOST = 16384,            /* insert tokens of a list, tokens of a raw list */
    FLEECELATCH_MERGE_TOKENS_MOST = 8192,       /* insert tokens of one list of a merge; tokens of one side of an overlap */
    FLEECELATCH_CURSORS_MOST = 512,             /* cursors of a list */
    FLEECELATCH_MERGE_CURSORS_MOST = 256,       /* cursors of one list of a merge */
    FLEECELATCH_FILE_MOST = 2048                /* bytes of each file of fleecelatch_merge_files */
};

/* Kinds of operations, sides, kinds of history spans, kinds of diff items. All other numbers are unknown. */
enum { FLEECELATCH_DELETE = 0, FLEECELATCH_INSERT = 1, FLEECELATCH_RETAIN = 2 };
enum { FLEECELATCH_LEFT = 0, FLEECELATCH_RIGHT = 1 };
enum { FLEECELATCH_UNCHANGED = 0, FLEECELATCH_ADDED = 1, FLEECELATCH_REMOVED = 2 };
enum { FLEECELATCH_NUMBER = 0, FLEECELATCH_TEXT = 1 };

/* Records, and how many numbers each is. An array of n of them is lent as its numbers: `(const size_t *)operations, n * FLEECELATCH_OPERATION_WORDS`. */
enum {
    FLEECELATCH_OPERATION_WORDS = 6,
    FLEECELATCH_RAW_OPERATION_WORDS = 3,
    FLEECELATCH_TOKEN_WORDS = 2,
    FLEECELATCH_CURSOR_WORDS = 2,
    FLEECELATCH_SPAN_WORDS = 4,
    FLEECELATCH_ITEM_WORDS = 3
};

/* An operation of a list: kind, side, and for an insert count tokens from first on. order is the original text consumed before it, length its own;
   an insert's are not looked at going in, nor are the tokens of a retain or delete. */
typedef struct {
    size_t kind, order, length, side, first, count;
} fleecelatch_operation;

/* An operation of a raw list, of any kind: count tokens from first on. */
typedef struct {
    size_t kind, first, count;
} fleecelatch_raw_operation;

/* The text of a token, a range of the lent text; its key stands in an array of keys, at the same place. Tokens are equal when their keys are.
   As many tokens are lent as both arrays reach; of a raw list, as all three (with joins) reach. */
typedef struct {
    uint32_t start, length;
} fleecelatch_token;

/* The joins of a raw list's token. */
enum { FLEECELATCH_LEFT_JOINABLE = 1, FLEECELATCH_RIGHT_JOINABLE = 2 };

/* A cursor: its identity number, which no call looks at, and its index in a text. */
typedef struct {
    size_t identity, index;
} fleecelatch_cursor;

/* A span of a history: its kind, the side that added or removed it (0 where it is unchanged), and its range of the history's text. */
typedef struct {
    size_t kind, side, start, length;
} fleecelatch_span;

/* An item of a diff. FLEECELATCH_NUMBER: value code points of the original are kept, or -value dropped where it is negative; length means nothing.
   FLEECELATCH_TEXT: length code points of the diff's text, from value on, are added. */
typedef struct {
    int64_t kind, value, length;
} fleecelatch_item;

/* ---- UTF-8 ---- */

/* The code points that bytes hold: what to lend to fleecelatch_utf8_read. Counts: code points. Refusal 10. */
fleecelatch_answer fleecelatch_utf8_read_length(const uint8_t *bytes, size_t bytes_len);

/* Reads bytes into out. Counts: code points. Refusals 10, 7. */
fleecelatch_answer fleecelatch_utf8_read(const uint8_t *bytes, size_t bytes_len, uint32_t *out, size_t out_len);

/* The bytes that code points take: what to lend to fleecelatch_utf8_write. Counts: bytes. Refusal 4. */
fleecelatch_answer fleecelatch_utf8_write_length(const uint32_t *text, size_t text_len);

/* Writes code points as UTF-8 into out. Counts: bytes. Refusals 4, 7. */
fleecelatch_answer fleecelatch_utf8_write(const uint32_t *text, size_t text_len, uint8_t *out, size_t out_len);

/* ---- The overlap of inserts ---- */

/* The longest beginning of new_keys that occurs in old_keys, at its first occurrence; 0..0 if none. Room: work as long as new_keys. Counts: start,
   end. Refusals 3, 7. */
fleecelatch_answer fleecelatch_find_longest_prefix_contained_within(const uint32_t *old_keys, size_t old_keys_len, const uint32_t *new_keys,
    size_t new_keys_len, uint32_t *work, size_t work_len);

/* ---- Lists ---- */

/* Elongates a raw list and gives each operation its order and length. Rooms: as many operations, and in spanned, keyed and joined as many tokens,
   as the raw list has. Counts: operations, tokens. Refusals 3, 4, 1, 7. */
fleecelatch_answer fleecelatch_elongate(const size_t *raw, size_t raw_len, const uint32_t *spans, size_t spans_len, const uint32_t *keys,
    size_t keys_len, const uint8_t *joins, size_t joins_len, const uint32_t *text, size_t text_len, size_t *operations, size_t operations_len,
    uint32_t *spanned, size_t spanned_len, uint32_t *keyed, size_t keyed_len, uint8_t *joined, size_t joined_len);

/* Merges two lists of edits of one original, with their cursors. Both lists share text, spans and keys. Rooms: operations, as many as both lists
   have; cursors, as many as both have; work, twice the insert tokens of both. Counts: operations, cursors. Refusals 3, 4, 1, 2, 5, 7. */
fleecelatch_answer fleecelatch_merge(const uint32_t *original, size_t original_len, const uint32_t *text, size_t text_len, const uint32_t *spans,
    size_t spans_len, const uint32_t *keys, size_t keys_len, const size_t *left, size_t left_len, const size_t *right, size_t right_len,
    const size_t *left_cursors, size_t left_cursors_len, const size_t *right_cursors, size_t right_cursors_len, size_t *operations,
    size_t operations_len, size_t *cursors, size_t cursors_len, uint32_t *work, size_t work_len);

/* ---- Text, history and diff of a list ----
   Refusals 3, 4, 1, 2, 5 (where cursors are lent), 7 (where rooms are). Rooms: the exact length of the answer, which the call `.._lengths` gives. */

/* Counts: code points of the text, cursors. */
fleecelatch_answer fleecelatch_apply_lengths(const uint32_t *original, size_t original_len, const uint32_t *text, size_t text_len,
    const uint32_t *spans, size_t spans_len, const uint32_t *keys, size_t keys_len, const size_t *operations, size_t operations_len,
    const size_t *cursors, size_t cursors_len);

/* The list's text into out, its cursors, sorted by index, into moved. Counts: code points, cursors. */
fleecelatch_answer fleecelatch_apply(const uint32_t *original, size_t original_len, const uint32_t *text, size_t text_len, const uint32_t *spans,
    size_t spans_len, const uint32_t *keys, size_t keys_len, const size_t *operations, size_t operations_len, const size_t *cursors,
    size_t cursors_len, uint32_t *out, size_t out_len, size_t *moved, size_t moved_len);

/* Counts: spans, code points of their text. */
fleecelatch_answer fleecelatch_apply_with_history_lengths(const uint32_t *original, size_t original_len, const uint32_t *text, size_t text_len,
    const uint32_t *spans, size_t spans_len, const uint32_t *keys, size_t keys_len, const size_t *operations, size_t operations_len);

/* One span for each operation into history, the text of all spans, one behind the other, into out. Counts: spans, code points. */
fleecelatch_answer fleecelatch_apply_with_history(const uint32_t *original, size_t original_len, const uint32_t *text, size_t text_len,
    const uint32_t *spans, size_t spans_len, const uint32_t *keys, size_t keys_len, const size_t *operations, size_t operations_len,
    size_t *history, size_t history_len, uint32_t *out, size_t out_len);

/* Counts: code points of the text, spans, code points of the history. There are as many cursors as were lent. */
fleecelatch_answer fleecelatch_apply_with_all_lengths(const uint32_t *original, size_t original_len, const uint32_t *text, size_t text_len,
    const uint32_t *spans, size_t spans_len, const uint32_t *keys, size_t keys_len, const size_t *operations, size_t operations_len,
    const size_t *cursors, size_t cursors_len);

/* What fleecelatch_apply and fleecelatch_apply_with_history write. Counts: code points of the text, spans, code points of the history. */
fleecelatch_answer fleecelatch_apply_with_all(const uint32_t *original, size_t original_len, const uint32_t *text, size_t text_len,
    const uint32_t *spans, size_t spans_len, const uint32_t *keys, size_t keys_len, const size_t *operations, size_t operations_len,
    const size_t *cursors, size_t cursors_len, uint32_t *out, size_t out_len, size_t *moved, size_t moved_len, size_t *history,
    size_t history_len, uint32_t *history_text, size_t history_text_len);

/* Counts: items, code points of their text. */
fleecelatch_answer fleecelatch_to_diff_lengths(const uint32_t *original, size_t original_len, const uint32_t *text, size_t text_len,
    const uint32_t *spans, size_t spans_len, const uint32_t *keys, size_t keys_len, const size_t *operations, size_t operations_len);

/* The list's diff: its items into items, their text into out. Counts: items, code points. */
fleecelatch_answer fleecelatch_to_diff(const uint32_t *original, size_t original_len, const uint32_t *text, size_t text_len,
    const uint32_t *spans, size_t spans_len, const uint32_t *keys, size_t keys_len, const size_t *operations, size_t operations_len,
    int64_t *items, size_t items_len, uint32_t *out, size_t out_len);

/* ---- Diffs replayed ----
   Refusals 3, 4, 1, 6, 9 (covering), 7 (where a room is lent). Room: the exact length of the answer. Counts: code points. */

/* Plain: original text that the diff leaves unmentioned is dropped. */
fleecelatch_answer fleecelatch_from_diff_length(const uint32_t *original, size_t original_len, const int64_t *items, size_t items_len,
    const uint32_t *text, size_t text_len);
fleecelatch_answer fleecelatch_from_diff(const uint32_t *original, size_t original_len, const int64_t *items, size_t items_len,
    const uint32_t *text, size_t text_len, uint32_t *out, size_t out_len);

/* Covering: original text that the diff leaves unmentioned is refusal 9. */
fleecelatch_answer fleecelatch_from_covering_diff_length(const uint32_t *original, size_t original_len, const int64_t *items, size_t items_len,
    const uint32_t *text, size_t text_len);
fleecelatch_answer fleecelatch_from_covering_diff(const uint32_t *original, size_t original_len, const int64_t *items, size_t items_len,
    const uint32_t *text, size_t text_len, uint32_t *out, size_t out_len);

/* ---- Edit files ---- */

/* What fleecelatch_edit_file_read must be lent. Counts: items, code points of their text. Refusal 8. */
fleecelatch_answer fleecelatch_edit_file_read_lengths(const uint8_t *bytes, size_t bytes_len);

/* Reads an edit file: its items into items, their text into text. Counts: items, code points. Refusals 8, 7. */
fleecelatch_answer fleecelatch_edit_file_read(const uint8_t *bytes, size_t bytes_len, int64_t *items, size_t items_len, uint32_t *text,
    size_t text_len);

/* Whether an edit file is believed for an original of so many code points: it is accepted, and `original=` is that number. Counts: 1 if it is, else
   0. Never refused. */
fleecelatch_answer fleecelatch_edit_file_believed(const uint8_t *bytes, size_t bytes_len, size_t original);

/* What fleecelatch_edit_file_write must be lent. Counts: bytes. Refusals 3, 4, 1. */
fleecelatch_answer fleecelatch_edit_file_write_length(const int64_t *items, size_t items_len, const uint32_t *text, size_t text_len);

/* Writes a diff as an edit file. Counts: bytes. Refusals 3, 4, 1, 7. */
fleecelatch_answer fleecelatch_edit_file_write(const int64_t *items, size_t items_len, const uint32_t *text, size_t text_len, uint8_t *out,
    size_t out_len);

/* ---- The program ---- */

/* Merges two edit files of an original, a text in UTF-8. Writes the merged edit file, and counts: bytes, 0; or a line `refused=` with one of the
   numbers above, and counts: bytes, 1. Room: the exact length of the answer. Refusal 7, and no other. It takes half a megabyte of stack. */
fleecelatch_answer fleecelatch_merge_files(const uint8_t *original, size_t original_len, const uint8_t *left, size_t left_len,
    const uint8_t *right, size_t right_len, uint8_t *out, size_t out_len);

#ifdef __cplusplus
}
#endif

#endif
