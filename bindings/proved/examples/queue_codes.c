/* Each code of a queue in lembokuj_try.h once, but LK_NO_MEMORY. */
#include "lembokuj_try.h"

#include <stdio.h>
#include <string.h>

static int line_of_failure;

#define IS(call, code) \
    do { \
        if ((call) != (code) && !line_of_failure) line_of_failure = __LINE__; \
    } while (0)

int main(void) {
    lk_handle tx = LK_BLANK, rx = LK_BLANK;
    uint8_t out[64], longest[64] = {7};
    size_t len = 9;

    IS(lk_queue_new_try(8, 64, NULL, &rx), LK_NULL);
    IS(lk_queue_new_try(8, 64, &tx, &tx), LK_IN_USE);
    IS(lk_queue_new_try(7, 64, &tx, &rx), LK_BAD_SIZE);
    IS(lk_queue_new_try(8, (1u << 20) + 1, &tx, &rx), LK_BAD_SIZE);
    IS(lk_queue_send_try(&tx, "a", 1, 0), LK_NULL);
    IS(lk_queue_send_whole_try(&tx, "a", 1, 0), LK_NULL);
    IS(lk_queue_new_try(8, 64, &tx, &rx), LK_OK);
    IS(lk_queue_new_try(8, 64, &tx, &rx), LK_IN_USE);

    IS(lk_queue_send_try(&rx, "a", 1, 0), LK_KIND);
    IS(lk_queue_send_whole_try(&rx, "a", 1, 0), LK_KIND);
    IS(lk_queue_receive_try(&tx, out, sizeof out, &len), LK_KIND);
    IS(lk_queue_flush_try(&rx), LK_KIND);
    IS(lk_queue_send_try(&tx, NULL, 1, 0), LK_NULL);
    IS(lk_queue_send_whole_try(&tx, NULL, 1, 0), LK_NULL);
    IS(lk_queue_receive_try(&rx, out, sizeof out, NULL), LK_NULL);
    IS(lk_queue_receive_try(&rx, out, 63, &len), LK_SHORT_BUFFER);
    IS(len, 64);
    IS(lk_queue_receive_try(&rx, out, sizeof out, &len), LK_WOULD_BLOCK);

    /* Nine words of a message of eight; then nothing but that message, until it is through. */
    char more[65] = {0};
    IS(lk_queue_send_try(&tx, more, 65, 0), LK_TOO_LONG);
    IS(lk_queue_send_try(&tx, longest, 64, 0), LK_WOULD_BLOCK);
    IS(lk_queue_send_try(&tx, "b", 1, 0), LK_OTHER_MESSAGE);
    IS(lk_queue_send_whole_try(&tx, "b", 1, 0), LK_OTHER_MESSAGE);
    IS(lk_queue_send_whole_try(&tx, longest, 64, 0), LK_TOO_LONG);
    IS(lk_queue_receive_try(&rx, out, sizeof out, &len), LK_WOULD_BLOCK);
    IS(lk_queue_send_try(&tx, longest, 64, 0), LK_OK);
    IS(lk_queue_receive_try(&rx, out, sizeof out, &len), LK_OK);
    if (len != 64 || memcmp(out, longest, 64) != 0) line_of_failure = __LINE__;

    /* An empty message, and one that is shown by the flush. */
    IS(lk_queue_send_try(&tx, NULL, 0, LK_LATER), LK_OK);
    IS(lk_queue_receive_try(&rx, out, sizeof out, &len), LK_WOULD_BLOCK);
    IS(lk_queue_flush_try(&tx), LK_OK);
    IS(lk_queue_receive_try(&rx, out, sizeof out, &len), LK_OK);
    IS(len, 0);

    /* Whole or not at all. 56 bytes take all eight words; where one message has left no room for them, another may come. */
    IS(lk_queue_send_whole_try(&tx, longest, 57, 0), LK_TOO_LONG);
    IS(lk_queue_send_whole_try(&tx, "d", 1, LK_LATER), LK_OK);
    IS(lk_queue_send_whole_try(&tx, longest, 56, 0), LK_WOULD_BLOCK);
    IS(lk_queue_send_whole_try(&tx, "ef", 2, 0), LK_OK);
    IS(lk_queue_receive_try(&rx, out, sizeof out, &len), LK_OK);
    if (len != 1 || out[0] != 'd') line_of_failure = __LINE__;
    IS(lk_queue_receive_try(&rx, out, sizeof out, &len), LK_OK);
    if (len != 2 || memcmp(out, "ef", 2) != 0) line_of_failure = __LINE__;
    IS(lk_queue_receive_try(&rx, out, sizeof out, &len), LK_WOULD_BLOCK);
    IS(lk_queue_send_whole_try(&tx, longest, 56, 0), LK_OK);
    IS(lk_queue_receive_try(&rx, out, sizeof out, &len), LK_OK);
    if (len != 56 || memcmp(out, longest, 56) != 0) line_of_failure = __LINE__;

    IS(lk_raw_queue_close(&rx), LK_STILL_IN);
    IS(lk_queue_leave_try(&rx), LK_OK);
    IS(lk_queue_leave_try(&rx), LK_GONE);
    IS(lk_queue_receive_try(&rx, out, sizeof out, &len), LK_GONE);
    IS(lk_queue_send_try(&tx, "c", 1, 0), LK_DETACHED);
    IS(lk_queue_send_whole_try(&tx, "c", 1, 0), LK_DETACHED);
    IS(lk_queue_leave_try(&tx), LK_OK);
    IS(lk_queue_send_whole_try(&tx, "c", 1, 0), LK_GONE);
    IS(lk_queue_close_try(&rx), LK_OK);
    IS(lk_queue_close_try(&tx), LK_OK);
    IS(lk_queue_close_try(&tx), LK_NULL);

    if (line_of_failure) {
        fprintf(stderr, "queue_codes: line %d of queue_codes.c\n", line_of_failure);
        return 1;
    }
    printf("queue_codes: each once\n");
    return 0;
}
