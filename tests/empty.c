/* Every call with NULL and length 0 for each array: what it answers. */
#include <stdio.h>
#include "fleecelatch.h"

static void say(const char *call, fleecelatch_answer a) {
    printf("%s %llu %llu %llu %llu\n", call, (unsigned long long)a.refusal, (unsigned long long)a.first, (unsigned long long)a.second,
        (unsigned long long)a.third);
}

#define NO NULL, 0
#define LENT NO, NO, NO, NO
#define SAY(call, ...) say(#call, fleecelatch_##call(__VA_ARGS__))

int main(void) {
    SAY(utf8_read_length, NO);
    SAY(utf8_read, NO, NO);
    SAY(utf8_write_length, NO);
    SAY(utf8_write, NO, NO);
    SAY(find_longest_prefix_contained_within, NO, NO, NO);
    SAY(elongate, NO, NO, NO, NO, NO, NO, NO, NO, NO);
    SAY(merge, LENT, NO, NO, NO, NO, NO, NO, NO);
    SAY(apply_lengths, LENT, NO, NO);
    SAY(apply, LENT, NO, NO, NO, NO);
    SAY(apply_with_history_lengths, LENT, NO);
    SAY(apply_with_history, LENT, NO, NO, NO);
    SAY(apply_with_all_lengths, LENT, NO, NO);
    SAY(apply_with_all, LENT, NO, NO, NO, NO, NO, NO);
    SAY(to_diff_lengths, LENT, NO);
    SAY(to_diff, LENT, NO, NO, NO);
    SAY(from_diff_length, NO, NO, NO);
    SAY(from_diff, NO, NO, NO, NO);
    SAY(from_covering_diff_length, NO, NO, NO);
    SAY(from_covering_diff, NO, NO, NO, NO);
    SAY(edit_file_read_lengths, NO);
    SAY(edit_file_read, NO, NO, NO);
    SAY(edit_file_believed, NO, 0);
    SAY(edit_file_write_length, NO, NO);
    SAY(edit_file_write, NO, NO, NO);
    SAY(merge_files, NO, NO, NO, NO);
    return 0;
}
