/* Each code of a barrier in lembokuj_try.h once, but LK_NO_MEMORY and LK_WOULD_BLOCK. */
#include "lembokuj_try.h"

#include <stdio.h>

static int line_of_failure;

#define IS(call, code) \
    do { \
        if ((call) != (code) && !line_of_failure) line_of_failure = __LINE__; \
    } while (0)

int main(void) {
    lk_barrier_try one = LK_BLANK, two = LK_BLANK, three = LK_BLANK;
    lk_phase told = {9, 9};

    IS(lk_barrier_new_try(2, NULL), LK_NULL);
    IS(lk_barrier_new_try(0, &one), LK_BAD_CALLERS);
    IS(lk_barrier_new_try(4097, &one), LK_BAD_CALLERS);
    IS(lk_barrier_attach_try(&one, &told), LK_NULL);
    IS(told.phase, 9);
    IS(lk_barrier_new_try(2, &one), LK_OK);
    IS(lk_barrier_new_try(2, &one), LK_IN_USE);
    IS(lk_barrier_share_try(&one, &one), LK_IN_USE);
    IS(lk_barrier_share_try(&two, &three), LK_NULL);
    IS(lk_barrier_share_try(&one, &two), LK_OK);
    IS(lk_barrier_share_try(&one, &two), LK_IN_USE);
    IS(lk_barrier_share_try(&one, &three), LK_BAD_CALLERS);

    /* Both take part; the second one to arrive ends the phase and is elected. */
    IS(lk_barrier_arrive_try(&one, &told), LK_NOT_IN);
    IS(told.phase, 0);
    IS(told.flag, 0);
    IS(lk_barrier_attach_try(&one, &told), LK_OK);
    IS(lk_barrier_attach_try(&one, NULL), LK_ALREADY_IN);
    IS(lk_barrier_attach_try(&two, &told), LK_OK);
    IS(lk_barrier_arrive_try(&one, &told), LK_WAITING);
    IS(lk_barrier_arrive_try(&one, &told), LK_TWICE);
    IS(lk_barrier_look_try(&one, &told), LK_WAITING);
    IS(lk_barrier_arrive_try(&two, &told), LK_OK);
    IS(told.phase, 1);
    IS(told.flag, 1);
    IS(lk_barrier_look_try(&one, &told), LK_OK);
    IS(told.phase, 1);
    IS(told.flag, 0);

    /* One goes by which the phase of the other ends, and elects it. */
    IS(lk_barrier_arrive_try(&two, &told), LK_WAITING);
    IS(lk_barrier_detach_try(&one, &told), LK_OK);
    IS(told.phase, 2);
    IS(told.flag, 0);
    IS(lk_barrier_look_try(&one, &told), LK_NOT_IN);
    IS(lk_barrier_look_try(&two, &told), LK_OK);
    IS(told.flag, 1);

    /* By itself, it stays as the last one, or goes. */
    IS(lk_barrier_arrive_and_detach_except_last_try(&two, &told), LK_OK);
    IS(told.phase, 3);
    IS(told.flag, 1);
    IS(lk_barrier_attach_try(&one, NULL), LK_OK);
    IS(lk_barrier_arrive_and_detach_except_last_try(&one, &told), LK_OK);
    IS(told.phase, 3);
    IS(told.flag, 0);
    IS(lk_barrier_arrive_and_detach_try(&two, &told), LK_OK);
    IS(told.phase, 4);
    IS(told.flag, 1);
    IS(lk_barrier_detach_try(&two, &told), LK_NOT_IN);

    /* A close detaches. */
    IS(lk_barrier_attach_try(&one, NULL), LK_OK);
    IS(lk_barrier_attach_try(&two, NULL), LK_OK);
    IS(lk_barrier_arrive_try(&one, NULL), LK_WAITING);
    IS(lk_barrier_close_try(&two), LK_OK);
    IS(lk_barrier_close_try(&two), LK_NULL);
    IS(lk_barrier_look_try(&one, &told), LK_OK);
    IS(told.phase, 5);
    IS(lk_barrier_close_try(&one), LK_OK);

    if (line_of_failure) {
        fprintf(stderr, "barrier_codes: line %d of barrier_codes.c\n", line_of_failure);
        return 1;
    }
    printf("barrier_codes: each once\n");
    return 0;
}
