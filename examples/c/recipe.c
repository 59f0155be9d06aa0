/* Merges two edits of a recipe sheet and prints the merged text's history and the merged edit file.

   usage: recipe ORIGINAL LEFT RIGHT

   An edit file is read as a diff, the diff is made a raw list (each added code point a token keyed by itself, each keep or drop one token), the raw
   list is elongated, and the two lists are merged. */
#include <stdio.h>
#include <stdlib.h>
#include "fleecelatch.h"

/* A token takes two bytes of its file at least, so a file has fewer tokens than bytes. */
enum { FILE_ROOM = 4096, TOKENS = FILE_ROOM, TEXT = 65536 + 2 * TOKENS };

/* What both lists share. Zeros stand behind the added code points: a keep's token, too, is a range of the text. */
static uint32_t text[TEXT], keys[2 * TOKENS];
static fleecelatch_token spans[2 * TOKENS];
static size_t text_len, token_len;

/* The counts of an accepted call; a refusal ends the program. */
static fleecelatch_answer accepted(const char *call, fleecelatch_answer answer) {
    if (answer.refusal != FLEECELATCH_ACCEPTED) {
        fprintf(stderr, "%s: refused %llu\n", call, (unsigned long long)answer.refusal);
        exit(1);
    }
    return answer;
}

static size_t read_file(const char *name, uint8_t *bytes) {
    FILE *file = fopen(name, "rb");
    size_t length = file ? fread(bytes, 1, FILE_ROOM, file) : 0;
    if (!file || length == FILE_ROOM || ferror(file)) {
        fprintf(stderr, "%s: unreadable, or longer than this example takes\n", name);
        exit(2);
    }
    fclose(file);
    return length;
}

/* The list of an edit file, its tokens and text behind those that are there: how many operations. */
static size_t read_list(const char *name, fleecelatch_operation *operations) {
    static uint8_t bytes[FILE_ROOM], joins[TOKENS], joined[TOKENS];
    static fleecelatch_item items[FILE_ROOM];
    static fleecelatch_raw_operation raw[FILE_ROOM];
    static fleecelatch_token raw_spans[TOKENS];
    static uint32_t raw_keys[TOKENS];
    size_t length = read_file(name, bytes), tokens = 0;
    fleecelatch_answer file = accepted("edit_file_read",
        fleecelatch_edit_file_read(bytes, length, (int64_t *)items, FILE_ROOM * FLEECELATCH_ITEM_WORDS, text + text_len, TOKENS));

    for (size_t i = 0; i < file.first; i++) {
        fleecelatch_item item = items[i];
        raw[i].first = tokens;
        if (item.kind == FLEECELATCH_NUMBER) {
            raw[i].kind = item.value < 0 ? FLEECELATCH_DELETE : FLEECELATCH_RETAIN;
            raw_keys[tokens] = 0;
            raw_spans[tokens++] = (fleecelatch_token){0, (uint32_t)(item.value < 0 ? -item.value : item.value)};
        } else {
            raw[i].kind = FLEECELATCH_INSERT;
            for (size_t at = text_len + (size_t)item.value, end = at + (size_t)item.length; at < end; at++) {
                raw_keys[tokens] = text[at];
                raw_spans[tokens++] = (fleecelatch_token){(uint32_t)at, 1};
            }
        }
        raw[i].count = tokens - raw[i].first;
    }
    for (size_t i = 0; i < tokens; i++) joins[i] = FLEECELATCH_LEFT_JOINABLE | FLEECELATCH_RIGHT_JOINABLE;

    fleecelatch_answer list = accepted("elongate",
        fleecelatch_elongate((const size_t *)raw, file.first * FLEECELATCH_RAW_OPERATION_WORDS, (const uint32_t *)raw_spans,
            tokens * FLEECELATCH_TOKEN_WORDS, raw_keys, tokens, joins, tokens, text, TEXT, (size_t *)operations,
            FILE_ROOM * FLEECELATCH_OPERATION_WORDS, (uint32_t *)(spans + token_len), TOKENS * FLEECELATCH_TOKEN_WORDS, keys + token_len, TOKENS,
            joined, TOKENS));
    for (size_t i = 0; i < list.first; i++) operations[i].first += token_len;
    text_len += file.second;
    token_len += list.second;
    return list.first;
}

static void print_history(const fleecelatch_span *history, size_t count, const uint32_t *points) {
    static const char *const kinds[] = {"unchanged", "added", "removed"}, *const sides[] = {"left", "right"};
    for (size_t i = 0; i < count; i++) {
        fleecelatch_span span = history[i];
        if (span.kind == FLEECELATCH_UNCHANGED)
            printf("%s", kinds[span.kind]);
        else
            printf("%s %s", kinds[span.kind], sides[span.side]);
        printf(" \"");
        for (size_t at = span.start; at < span.start + span.length; at++) {
            uint8_t bytes[4];
            if (points[at] == '\n') {
                printf("\\n");
                continue;
            }
            fleecelatch_answer one = accepted("utf8_write", fleecelatch_utf8_write(points + at, 1, bytes, sizeof bytes));
            fwrite(bytes, 1, one.first, stdout);
        }
        printf("\"\n");
    }
}

int main(int count, char **names) {
    static uint8_t bytes[FILE_ROOM], file[65536];
    static uint32_t original[FILE_ROOM], work[4 * TOKENS], points[TEXT], added[TEXT];
    static fleecelatch_operation left[FILE_ROOM], right[FILE_ROOM], merged[2 * FILE_ROOM];
    static fleecelatch_span history[2 * FILE_ROOM];
    static fleecelatch_item items[2 * FILE_ROOM];
    if (count != 4) {
        fprintf(stderr, "usage: recipe ORIGINAL LEFT RIGHT\n");
        return 2;
    }
    size_t length = read_file(names[1], bytes);
    size_t original_len = accepted("utf8_read", fleecelatch_utf8_read(bytes, length, original, FILE_ROOM)).first;
    size_t left_len = read_list(names[2], left);
    size_t right_len = read_list(names[3], right);

    const uint32_t *flat_spans = (const uint32_t *)spans;
    size_t flat_spans_len = token_len * FLEECELATCH_TOKEN_WORDS;
    fleecelatch_answer merge = accepted("merge",
        fleecelatch_merge(original, original_len, text, TEXT, flat_spans, flat_spans_len, keys, token_len, (const size_t *)left,
            left_len * FLEECELATCH_OPERATION_WORDS, (const size_t *)right, right_len * FLEECELATCH_OPERATION_WORDS, NULL, 0, NULL, 0,
            (size_t *)merged, 2 * FILE_ROOM * FLEECELATCH_OPERATION_WORDS, NULL, 0, work, 4 * TOKENS));
    const size_t *list = (const size_t *)merged;
    size_t list_len = merge.first * FLEECELATCH_OPERATION_WORDS;

    fleecelatch_answer told = accepted("apply_with_history",
        fleecelatch_apply_with_history(original, original_len, text, TEXT, flat_spans, flat_spans_len, keys, token_len, list, list_len,
            (size_t *)history, 2 * FILE_ROOM * FLEECELATCH_SPAN_WORDS, points, TEXT));
    print_history(history, told.first, points);

    fleecelatch_answer diff = accepted("to_diff",
        fleecelatch_to_diff(original, original_len, text, TEXT, flat_spans, flat_spans_len, keys, token_len, list, list_len, (int64_t *)items,
            2 * FILE_ROOM * FLEECELATCH_ITEM_WORDS, added, TEXT));
    fleecelatch_answer written = accepted("edit_file_write",
        fleecelatch_edit_file_write((const int64_t *)items, diff.first * FLEECELATCH_ITEM_WORDS, added, diff.second, file, sizeof file));
    fwrite(file, 1, written.first, stdout);
    return 0;
}
