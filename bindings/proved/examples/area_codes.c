/* Each code of an area in lembokuj_try.h once, but LK_NO_MEMORY and LK_WOULD_BLOCK. */
#include "lembokuj_try.h"

#include <stdio.h>

static int line_of_failure;

#define IS(call, code) \
    do { \
        if ((call) != (code) && !line_of_failure) line_of_failure = __LINE__; \
    } while (0)

int main(void) {
    lk_area_try one = LK_BLANK, two = LK_BLANK, three = LK_BLANK;
    uint64_t number = 9, other = 9, bytes = 9, words[4] = {1, 2, 3, 4};
    uint32_t used = 9, largest = 9;

    IS(lk_area_new_try(2, 32, NULL), LK_NULL);
    IS(lk_area_new_try(0, 32, &one), LK_BAD_CALLERS);
    IS(lk_area_new_try(4097, 32, &one), LK_BAD_CALLERS);
    IS(lk_area_new_try(2, 65537, &one), LK_BAD_SIZE);
    IS(lk_area_alloc_try(&one, 8, &number, &bytes), LK_NULL);
    IS(lk_area_new_try(2, 32, &one), LK_OK);
    IS(lk_area_new_try(2, 32, &one), LK_IN_USE);
    IS(lk_area_share_try(&one, &one), LK_IN_USE);
    IS(lk_area_share_try(&two, &three), LK_NULL);
    IS(lk_area_share_try(&one, &two), LK_OK);
    IS(lk_area_share_try(&one, &two), LK_IN_USE);
    IS(lk_area_share_try(&one, &three), LK_BAD_CALLERS);

    /* A chunk of each kind; its numbers are its caller's own. */
    IS(lk_area_alloc_try(&one, 0, &number, &bytes), LK_BAD_SIZE);
    IS(lk_area_alloc_try(&one, (UINT64_C(1) << 30) + 1, &number, &bytes), LK_BAD_SIZE);
    IS(lk_area_alloc_try(&one, 8, NULL, &bytes), LK_NULL);
    IS(number, 9);
    IS(lk_area_alloc_try(&one, 100, &number, &bytes), LK_OK);
    IS(bytes, 112);
    IS(lk_area_alloc_try(&two, 10000, &other, NULL), LK_OK);
    IS(lk_area_bytes_of(&two, other, &bytes), LK_OK);
    IS(bytes, 12288);
    IS(lk_area_bytes_of(&two, other + 1, &bytes), LK_STRANGER);
    IS(lk_area_usage_try(&one, &used, &largest), LK_OK);
    IS(used, 19);
    IS(largest, 13);
    IS(lk_area_alloc_try(&one, 14 * 4096, &number, &bytes), LK_NO_SPACE);
    IS(lk_area_size(&two, &bytes), LK_OK);
    IS(bytes, 32 * 4096);

    /* Words. */
    IS(lk_area_write(&one, number, 10, words, 4), LK_OK);
    IS(lk_area_write(&one, number, 11, words, 4), LK_NO_WORD);
    IS(lk_area_write(&one, number, UINT64_MAX, words, 4), LK_NO_WORD);
    IS(lk_area_write(&one, number + 1, 0, words, 1), LK_STRANGER);
    IS(lk_area_write(&one, number, 0, NULL, 1), LK_NULL);
    IS(lk_area_read(&one, number, 12, words, 2), LK_OK);
    IS(words[0], 3);
    IS(words[1], 4);
    IS(words[2], 3);
    IS(lk_area_read(&one, number, 13, words, 2), LK_NO_WORD);
    IS(lk_area_read(&two, 7, 0, words, 0), LK_STRANGER);
    IS(lk_area_read(&one, number, 14, NULL, 0), LK_OK);

    /* The last object of a class keeps its 16 pages, until a trim. */
    IS(lk_area_close_try(&one), LK_STILL_IN);
    IS(lk_area_trim_try(&two, 12), LK_ABSENT);
    IS(lk_area_trim_try(&two, 1), LK_BAD_SIZE);
    IS(lk_area_trim_try(&two, LK_END_CLASS), LK_BAD_SIZE);
    IS(lk_area_next(&one, 0, &number), LK_OK);
    IS(lk_area_free_try(&one, number), LK_OK);
    IS(lk_area_free_try(&one, number), LK_STRANGER);
    IS(lk_area_next(&one, 0, &number), LK_ABSENT);
    IS(lk_area_trim_try(&two, 12), LK_OK);
    IS(lk_area_usage_try(&two, &used, NULL), LK_OK);
    IS(used, 3);
    IS(lk_area_close_try(&one), LK_OK);
    IS(lk_area_close_try(&one), LK_NULL);
    IS(lk_area_usage_try(&one, &used, &largest), LK_NULL);
    IS(lk_area_close_wait(&two), LK_OK);

    if (line_of_failure) {
        fprintf(stderr, "area_codes: line %d of area_codes.c\n", line_of_failure);
        return 1;
    }
    printf("area_codes: each once\n");
    return 0;
}
