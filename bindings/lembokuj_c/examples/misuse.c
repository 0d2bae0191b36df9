/* Each code of the library once, and each call: what a wrong call is answered, and that it changed nothing. */
#include "lembokuj.h"

#include <stdio.h>
#include <string.h>

static int wrong;

#define WANT(call, code)                                                                                    \
    do {                                                                                                    \
        int got_ = (call);                                                                                  \
        if (got_ != (code)) {                                                                               \
            fprintf(stderr, "misuse: line %d: %s, not %s\n", __LINE__, lk_message(got_), lk_message(code)); \
            wrong = 1;                                                                                      \
        }                                                                                                   \
    } while (0)

#define HOLDS(fact)                                                                \
    do {                                                                           \
        if (!(fact)) {                                                             \
            fprintf(stderr, "misuse: line %d: %s does not hold\n", __LINE__, #fact); \
            wrong = 1;                                                             \
        }                                                                          \
    } while (0)

static int ask_twice(void *asked) { return ++*(int *)asked < 2; }

static void several(void) {
    lk_sender *tx[2];
    lk_receiver *rx[2], *same[2];
    lk_limit soon = {20, NULL, NULL};
    const uint8_t *bytes;
    size_t len, which = 9;
    WANT(lk_queue_new(8, 8, &tx[0], &rx[0]), LK_OK);
    WANT(lk_queue_new(8, 8, &tx[1], &rx[1]), LK_OK);
    WANT(lk_wait_any(rx, 2, &soon, &which), LK_WOULD_BLOCK);
    WANT(lk_queue_send(tx[1], "one", 3, 0), LK_OK);
    WANT(lk_wait_any(rx, 2, NULL, &which), LK_OK);
    HOLDS(which == 1);
    WANT(lk_queue_try_receive(rx[which], &bytes, &len), LK_OK);
    HOLDS(len == 3 && memcmp(bytes, "one", 3) == 0);
    WANT(lk_queue_close_sender(&tx[0]), LK_OK);
    WANT(lk_wait_any(rx, 2, NULL, &which), LK_OK);
    HOLDS(which == 0);
    WANT(lk_queue_try_receive(rx[which], &bytes, &len), LK_DETACHED);
    same[0] = same[1] = rx[1];
    WANT(lk_wait_any(same, 2, &soon, &which), LK_TWICE);
    same[1] = NULL;
    WANT(lk_wait_any(same, 2, &soon, &which), LK_NULL);
    same[1] = (lk_receiver *)tx[1];
    WANT(lk_wait_any(same, 2, &soon, &which), LK_KIND);
    WANT(lk_wait_any(rx, 0, &soon, &which), LK_BAD_SIZE);
    WANT(lk_wait_any(rx, 2, &soon, NULL), LK_NULL);
    WANT(lk_queue_close_sender(&tx[1]), LK_OK);
    WANT(lk_queue_close_receiver(&rx[0]), LK_OK);
    WANT(lk_queue_close_receiver(&rx[1]), LK_OK);
}

static void queues(void) {
    lk_sender *tx;
    lk_receiver *rx;
    const uint8_t *bytes;
    size_t len;
    char big[2049];
    int code, asked = 0;
    lk_limit soon = {20, NULL, NULL}, stopped = {-1, ask_twice, &asked};
    lk_slice slices[3] = {{"three", 5}, {NULL, 0}, {" part", 5}};
    memset(big, 7, sizeof big);
    WANT(lk_queue_new(100, 8, &tx, &rx), LK_BAD_SIZE);
    WANT(lk_queue_new(64, (1u << 20) + 1, &tx, &rx), LK_BAD_SIZE);
    WANT(lk_queue_new(64, 8, NULL, &rx), LK_NULL);
    WANT(lk_queue_new(64, 2048, &tx, &rx), LK_OK);
    WANT(lk_queue_try_send(NULL, big, 1, 0), LK_NULL);
    WANT(lk_queue_try_send((lk_sender *)rx, big, 1, 0), LK_KIND);
    WANT(lk_queue_try_send(tx, NULL, 1, 0), LK_NULL);
    WANT(lk_queue_try_receive((lk_receiver *)tx, &bytes, &len), LK_KIND);
    WANT(lk_queue_try_receive(rx, NULL, &len), LK_NULL);
    WANT(lk_queue_try_receive(rx, &bytes, &len), LK_WOULD_BLOCK);
    WANT(lk_queue_try_send(tx, big, 2049, 0), LK_TOO_LONG);
    WANT(lk_queue_try_send(tx, NULL, 0, LK_LATER), LK_OK);
    WANT(lk_queue_flush(tx), LK_OK);
    WANT(lk_queue_receive(rx, &bytes, &len), LK_OK);
    HOLDS(len == 0);
    WANT(lk_queue_try_send(tx, big, 440, 0), LK_OK);
    WANT(lk_queue_try_send(tx, big, 440, 0), LK_WOULD_BLOCK);
    WANT(lk_queue_send_within(tx, big, 440, &soon), LK_WOULD_BLOCK);
    WANT(lk_queue_receive(rx, &bytes, &len), LK_OK);
    WANT(lk_queue_try_send(tx, "other", 5, 0), LK_OK);
    WANT(lk_queue_receive(rx, &bytes, &len), LK_OK);
    HOLDS(len == 5 && memcmp(bytes, "other", 5) == 0);
    WANT(lk_queue_receive_within(rx, &soon, &bytes, &len), LK_WOULD_BLOCK);
    WANT(lk_queue_receive_within(rx, &stopped, &bytes, &len), LK_WOULD_BLOCK);
    HOLDS(asked > 0);
    WANT(lk_queue_sendv(tx, slices, 3), LK_OK);
    WANT(lk_queue_try_sendv(tx, slices, 0), LK_OK);
    WANT(lk_queue_try_sendv(tx, NULL, 1), LK_NULL);
    WANT(lk_queue_sendv(tx, slices, 65), LK_BAD_SIZE);
    WANT(lk_queue_receive_within(rx, NULL, &bytes, &len), LK_OK);
    HOLDS(len == 10 && memcmp(bytes, "three part", len) == 0);
    WANT(lk_queue_receive(rx, &bytes, &len), LK_OK);
    HOLDS(len == 0);
    WANT(lk_queue_try_send(tx, big, 2048, 0), LK_TOO_LONG);
    WANT(lk_queue_try_send_part(tx, big, 2048), LK_BEGUN);
    WANT(lk_queue_try_send(tx, "other", 5, 0), LK_OTHER_MESSAGE);
    WANT(lk_queue_send_within(tx, big, 2048, &soon), LK_BEGUN);
    for (code = LK_BEGUN; code == LK_BEGUN;) {
        code = lk_queue_try_send_part(tx, big, 2048);
        int found = lk_queue_try_receive(rx, &bytes, &len);
        HOLDS(found == (code == LK_BEGUN ? LK_WOULD_BLOCK : LK_OK));
    }
    WANT(code, LK_OK);
    HOLDS(len == 2048 && memcmp(bytes, big, len) == 0);
    WANT(lk_queue_close_receiver(&rx), LK_OK);
    HOLDS(rx == NULL);
    WANT(lk_queue_close_receiver(&rx), LK_OK);
    WANT(lk_queue_receive(rx, &bytes, &len), LK_NULL);
    WANT(lk_queue_send(tx, "x", 1, 0), LK_DETACHED);
    WANT(lk_queue_close_sender(&tx), LK_OK);
    WANT(lk_queue_close_sender(NULL), LK_NULL);
}

static void areas(void) {
    lk_area *one[2], *other[1], *third;
    uint64_t words[3] = {1, 2, 3};
    char text[6];
    lk_chunk *chunk, *copy, *more;
    void *memory;
    size_t bytes;
    uint64_t value;
    WANT(lk_area_new(65537, 1, one), LK_BAD_SIZE);
    WANT(lk_area_new(4, 0, one), LK_BAD_CALLERS);
    WANT(lk_area_new(1, 1, NULL), LK_NULL);
    WANT(lk_area_new(4, 2, one), LK_OK);
    WANT(lk_area_new(4, 1, other), LK_OK);
    WANT(lk_area_alloc(one[0], UINT64_MAX, &chunk), LK_NO_SPACE);
    WANT(lk_area_alloc(one[0], 16384, &chunk), LK_OK);
    WANT(lk_area_alloc(one[0], 12288, &more), LK_NO_SPACE);
    WANT(lk_area_alloc((lk_area *)chunk, 12288, &more), LK_KIND);
    WANT(lk_area_alloc(one[0], 12288, NULL), LK_NULL);
    WANT(lk_chunk_words(chunk, &value), LK_OK);
    HOLDS(value == 2048);
    WANT(lk_chunk_store(chunk, 2047, 9), LK_OK);
    WANT(lk_chunk_store(chunk, 2048, 9), LK_NO_WORD);
    WANT(lk_chunk_load(chunk, UINT64_MAX, &value), LK_NO_WORD);
    WANT(lk_chunk_load(chunk, 2047, NULL), LK_NULL);
    WANT(lk_chunk_load((lk_chunk *)one[0], 0, &value), LK_KIND);
    WANT(lk_chunk_write(chunk, 5, words, 3), LK_OK);
    WANT(lk_chunk_write(chunk, 2046, words, 3), LK_NO_WORD);
    WANT(lk_chunk_write(chunk, 0, NULL, 1), LK_NULL);
    WANT(lk_chunk_read(chunk, 6, words, 2), LK_OK);
    HOLDS(words[0] == 2 && words[1] == 3);
    WANT(lk_chunk_read(chunk, UINT64_MAX, words, 2), LK_NO_WORD);
    WANT(lk_chunk_write_bytes(chunk, 13, "bytes", 6), LK_OK);
    WANT(lk_chunk_write_bytes(chunk, 16384 - 5, "bytes", 6), LK_NO_WORD);
    WANT(lk_chunk_read_bytes(chunk, 13, text, 6), LK_OK);
    HOLDS(strcmp(text, "bytes") == 0);
    WANT(lk_chunk_read_bytes(chunk, 0, NULL, 6), LK_NULL);
    WANT(lk_chunk_read_bytes(NULL, 0, text, 6), LK_NULL);
    WANT(lk_area_handle(one[0], &third), LK_NO_HANDLE);
    WANT(lk_chunk_memory(chunk, &memory, &bytes), LK_OK);
    HOLDS(bytes == 16384 && strcmp((char *)memory + 13, "bytes") == 0);
    ((uint64_t *)memory)[2046] = 77;
    WANT(lk_chunk_load(chunk, 2046, &value), LK_OK);
    HOLDS(value == 77);
    WANT(lk_chunk_memory(chunk, NULL, &bytes), LK_NULL);
    WANT(lk_chunk_memory(chunk, &memory, NULL), LK_NULL);
    WANT(lk_chunk_memory(NULL, &memory, &bytes), LK_NULL);
    WANT(lk_chunk_memory((lk_chunk *)one[0], &memory, &bytes), LK_KIND);
    copy = chunk;
    WANT(lk_area_free(other[0], &chunk), LK_OTHER_AREA);
    WANT(lk_chunk_load(chunk, 2047, &value), LK_OK);
    HOLDS(value == 9);
    WANT(lk_area_free(one[1], &chunk), LK_OK);
    HOLDS(chunk == NULL);
    WANT(lk_chunk_load(chunk, 0, &value), LK_NULL);
    WANT(lk_chunk_load(copy, 0, &value), LK_FREED);
    WANT(lk_chunk_store(copy, 0, 1), LK_FREED);
    WANT(lk_chunk_memory(copy, &memory, &bytes), LK_FREED);
    WANT(lk_area_free(one[0], &copy), LK_FREED);
    WANT(lk_chunk_close(&copy), LK_FREED);
    WANT(lk_area_alloc_zeroed(one[0], 16384, &chunk), LK_OK);
    WANT(lk_chunk_load(chunk, 2047, &value), LK_OK);
    HOLDS(value == 0);
    WANT(lk_area_close(&one[0]), LK_OK);
    WANT(lk_area_handle(one[1], &third), LK_OK);
    WANT(lk_area_alloc(third, 16384, &more), LK_NO_SPACE);
    WANT(lk_area_close(&third), LK_OK);
    WANT(lk_area_close(&one[1]), LK_OK);
    WANT(lk_chunk_load(chunk, 2047, &value), LK_OK);
    WANT(lk_chunk_close(&chunk), LK_OK);
    WANT(lk_area_close(&other[0]), LK_OK);
}

static void tables(void) {
    lk_table *table[1], *more;
    uint64_t value, key;
    int code = LK_ABSENT;
    WANT(lk_table_new(65537, 1, table), LK_BAD_SIZE);
    WANT(lk_table_new(64, 5000, table), LK_BAD_CALLERS);
    WANT(lk_table_new(1, 1, table), LK_NO_SPACE);
    WANT(lk_table_new(64, 1, NULL), LK_NULL);
    WANT(lk_table_new_with_seed(64, 5000, 7, &more), LK_BAD_CALLERS);
    WANT(lk_table_new_with_seed(64, 1, 7, NULL), LK_NULL);
    WANT(lk_table_new_with_seed(64, 1, 7, &more), LK_OK);
    WANT(lk_table_add(more, 3, 5, &value), LK_ABSENT);
    WANT(lk_table_get(more, 3, &value), LK_OK);
    HOLDS(value == 5);
    WANT(lk_table_close(&more), LK_OK);
    WANT(lk_table_new(64, 1, table), LK_OK);
    for (key = 0; code == LK_ABSENT; key++) code = lk_table_put(table[0], key, 2 * key, NULL);
    WANT(code, LK_NO_SPACE);
    HOLDS(lk_table_pages(key) > 64 && lk_table_pages(0) <= 64);
    WANT(lk_table_count(table[0], &value), LK_OK);
    HOLDS(value == key - 1);
    WANT(lk_table_count(table[0], NULL), LK_NULL);
    WANT(lk_table_count(NULL, &value), LK_NULL);
    WANT(lk_table_get(table[0], key - 1, &value), LK_ABSENT);
    WANT(lk_table_get(table[0], key - 2, &value), LK_OK);
    HOLDS(value == 2 * (key - 2));
    WANT(lk_table_delete(table[0], 0, &value), LK_OK);
    WANT(lk_table_delete(table[0], 0, &value), LK_ABSENT);
    WANT(lk_table_add(table[0], 0, 5, &value), LK_ABSENT);
    WANT(lk_table_add(table[0], 0, UINT64_MAX, &value), LK_OK);
    HOLDS(value == 5);
    WANT(lk_table_get(table[0], 0, &value), LK_OK);
    HOLDS(value == 4);
    WANT(lk_table_handle(table[0], &more), LK_NO_HANDLE);
    WANT(lk_table_handle(NULL, &more), LK_NULL);
    WANT(lk_table_each(table[0], NULL, NULL), LK_NULL);
    WANT(lk_table_get(NULL, 0, &value), LK_NULL);
    WANT(lk_table_close(&table[0]), LK_OK);
}

static void add_up(const uint64_t *key, const uint64_t *value, void *with) {
    *(uint64_t *)with += key[0] + key[1] + value[0] + value[1] + value[2];
}

static void words(void) {
    lk_words *table, *second, *third;
    uint64_t key[2] = {1, 2}, value[3] = {5, 6, 7}, next[3] = {8, 9, 10}, old[3] = {0, 0, 0}, sum = 0;
    WANT(lk_table_new_words(64, 2, 0, 3, &table), LK_BAD_SIZE);
    WANT(lk_table_new_words(64, 2, 65, 3, &table), LK_BAD_SIZE);
    WANT(lk_table_new_words(64, 2, 2, 257, &table), LK_BAD_SIZE);
    WANT(lk_table_new_words(64, 0, 2, 3, &table), LK_BAD_CALLERS);
    WANT(lk_table_new_words(1, 1, 2, 3, &table), LK_NO_SPACE);
    WANT(lk_table_new_words(lk_table_pages_words(100, 2, 3), 2, 2, 3, NULL), LK_NULL);
    WANT(lk_table_new_words_with_seed(lk_table_pages_words(100, 2, 3), 2, 2, 3, 7, &table), LK_OK);
    WANT(lk_words_put(table, key, value, old), LK_ABSENT);
    WANT(lk_words_get(table, key, old), LK_OK);
    HOLDS(memcmp(old, value, sizeof old) == 0);
    WANT(lk_words_close(&table), LK_OK);
    WANT(lk_table_new_words(lk_table_pages_words(100, 2, 3), 2, 2, 3, &table), LK_OK);
    WANT(lk_words_handle(table, &second), LK_OK);
    WANT(lk_words_handle(table, &third), LK_NO_HANDLE);
    WANT(lk_words_put(table, key, value, old), LK_ABSENT);
    WANT(lk_words_put(table, NULL, value, old), LK_NULL);
    WANT(lk_words_put(table, key, NULL, old), LK_NULL);
    WANT(lk_words_get(second, key, old), LK_OK);
    HOLDS(memcmp(old, value, sizeof old) == 0);
    WANT(lk_words_compare_and_put(second, key, next, value, old), LK_OTHER_VALUE);
    WANT(lk_words_compare_and_put(second, key, value, next, old), LK_OK);
    HOLDS(memcmp(old, value, sizeof old) == 0);
    WANT(lk_words_put(table, key, next, next), LK_OK);
    WANT(lk_words_count(table, &sum), LK_OK);
    HOLDS(sum == 1);
    WANT(lk_words_each(table, add_up, &sum), LK_OK);
    HOLDS(sum == 1 + 1 + 2 + 8 + 9 + 10);
    WANT(lk_words_each(table, NULL, &sum), LK_NULL);
    key[0] = 9;
    WANT(lk_words_compare_and_put(table, key, value, next, old), LK_ABSENT);
    WANT(lk_words_compare_and_put(table, key, NULL, next, old), LK_OK);
    WANT(lk_words_compare_and_put(table, key, next, NULL, NULL), LK_OK);
    WANT(lk_words_delete(table, key, NULL), LK_ABSENT);
    WANT(lk_words_get((lk_words *)&key, key, old), LK_KIND);
    WANT(lk_words_close(&table), LK_OK);
    WANT(lk_words_close(&second), LK_OK);
}

static void barriers(void) {
    lk_barrier *third;
    lk_limit soon = {20, NULL, NULL};
    lk_barrier *two[2];
    uint64_t phase;
    int flag;
    WANT(lk_barrier_new(0, two), LK_BAD_CALLERS);
    WANT(lk_barrier_new(2, two), LK_OK);
    WANT(lk_barrier_attach(two[0]), LK_ALREADY_IN);
    WANT(lk_barrier_arrive(two[0], &phase, &flag), LK_WOULD_BLOCK);
    WANT(lk_barrier_arrive(two[0], &phase, &flag), LK_TWICE);
    WANT(lk_barrier_look(two[0], &phase, &flag), LK_WOULD_BLOCK);
    WANT(lk_barrier_wait(two[1], &phase, &flag), LK_OK);
    HOLDS(phase == 1);
    WANT(lk_barrier_look(two[0], &phase, &flag), LK_OK);
    WANT(lk_barrier_detach(two[1], &flag), LK_OK);
    HOLDS(flag == 0);
    WANT(lk_barrier_detach(two[1], NULL), LK_NOT_IN);
    WANT(lk_barrier_wait(two[0], &phase, NULL), LK_OK);
    HOLDS(phase == 2);
    WANT(lk_barrier_wait((lk_barrier *)NULL, NULL, NULL), LK_NULL);
    WANT(lk_barrier_handle(two[0], &third), LK_NO_HANDLE);
    WANT(lk_barrier_close(&two[1]), LK_OK);
    WANT(lk_barrier_handle(two[0], &third), LK_OK);
    WANT(lk_barrier_wait_within(two[0], &soon, &phase, &flag), LK_WOULD_BLOCK);
    WANT(lk_barrier_wait_within(two[0], &soon, &phase, &flag), LK_TWICE);
    WANT(lk_barrier_wait_within(third, NULL, &phase, &flag), LK_OK);
    WANT(lk_barrier_look(two[0], NULL, NULL), LK_OK);
    WANT(lk_barrier_close(&third), LK_OK);
    WANT(lk_barrier_close(&two[0]), LK_OK);
}

static void contents(void) {
    lk_toc *toc, *second;
    lk_toc_chunk *chunk;
    lk_toc_share *share, *again;
    uint64_t value;
    WANT(lk_toc_new(0, &toc), LK_BAD_SIZE);
    WANT(lk_toc_new(128, &toc), LK_OK);
    WANT(lk_toc_new(128, &second), LK_OK);
    WANT(lk_toc_allocate(toc, 0, &chunk), LK_BAD_SIZE);
    WANT(lk_toc_allocate(toc, 16, &chunk), LK_OK);
    WANT(lk_toc_store(chunk, 3, 7), LK_OK);
    WANT(lk_toc_store(chunk, 4, 7), LK_NO_WORD);
    WANT(lk_toc_keep(toc, 1, &chunk), LK_OK);
    WANT(lk_toc_keep(toc, 2, &chunk), LK_NULL);
    WANT(lk_toc_allocate(toc, 1, &chunk), LK_OK);
    WANT(lk_toc_keep(toc, 1, &chunk), LK_KEY_THERE);
    HOLDS(chunk == NULL);
    WANT(lk_toc_allocate(toc, 1, &chunk), LK_FULL);
    WANT(lk_toc_allocate(second, 8, &chunk), LK_OK);
    WANT(lk_toc_keep(toc, 3, &chunk), LK_OTHER_AREA);
    WANT(lk_toc_allocate(second, 8, &chunk), LK_OK);
    WANT(lk_toc_chunk_close(&chunk), LK_OK);
    WANT(lk_toc_freeze(&second, &share), LK_OK);
    WANT(lk_toc_close(&share), LK_OK);
    WANT(lk_toc_freeze(&toc, &share), LK_OK);
    WANT(lk_toc_freeze(&toc, &share), LK_NULL);
    WANT(lk_toc_share_again(share, &again), LK_OK);
    WANT(lk_toc_close(&share), LK_OK);
    WANT(lk_toc_words(again, 1, &value), LK_OK);
    HOLDS(value == 4);
    WANT(lk_toc_load(again, 1, 3, &value), LK_OK);
    HOLDS(value == 7);
    WANT(lk_toc_load(again, 1, 4, &value), LK_NO_WORD);
    WANT(lk_toc_load(again, 2, 0, &value), LK_ABSENT);
    WANT(lk_toc_close(&again), LK_OK);
}

/* Calls of which the functions above have only right uses: no handle, or one of another kind, or nothing to write to. */
static void no_handles(void) {
    lk_sender *tx;
    lk_receiver *rx;
    lk_area *area[1];
    lk_chunk *chunk;
    lk_toc_share *share;
    uint64_t number;
    WANT(lk_queue_new(8, 8, &tx, &rx), LK_OK);
    WANT(lk_queue_flush(NULL), LK_NULL);
    WANT(lk_queue_flush((lk_sender *)rx), LK_KIND);
    WANT(lk_queue_close_receiver(NULL), LK_NULL);
    WANT(lk_queue_close_receiver((lk_receiver **)&tx), LK_KIND);
    HOLDS(tx != NULL);
    WANT(lk_area_new(20, 1, area), LK_OK);
    WANT(lk_area_alloc_zeroed(NULL, 8, &chunk), LK_NULL);
    WANT(lk_area_alloc_zeroed((lk_area *)tx, 8, &chunk), LK_KIND);
    WANT(lk_area_alloc_zeroed(area[0], (uint64_t)1 << 40, &chunk), LK_NO_SPACE);
    WANT(lk_area_alloc_zeroed(area[0], 8, &chunk), LK_OK);
    WANT(lk_chunk_words(NULL, &number), LK_NULL);
    WANT(lk_chunk_words((lk_chunk *)tx, &number), LK_KIND);
    WANT(lk_chunk_words(chunk, NULL), LK_NULL);
    WANT(lk_chunk_close(&chunk), LK_OK);
    WANT(lk_area_close(NULL), LK_NULL);
    WANT(lk_area_close((lk_area **)&tx), LK_KIND);
    WANT(lk_table_close(NULL), LK_NULL);
    WANT(lk_table_close((lk_table **)area), LK_KIND);
    WANT(lk_words_count(NULL, &number), LK_NULL);
    WANT(lk_words_count((lk_words *)tx, &number), LK_KIND);
    WANT(lk_words_close(NULL), LK_NULL);
    WANT(lk_words_close((lk_words **)area), LK_KIND);
    WANT(lk_barrier_close(NULL), LK_NULL);
    WANT(lk_barrier_close((lk_barrier **)area), LK_KIND);
    WANT(lk_toc_share_again(NULL, &share), LK_NULL);
    WANT(lk_toc_share_again((lk_toc_share *)tx, &share), LK_KIND);
    WANT(lk_toc_words(NULL, 1, &number), LK_NULL);
    WANT(lk_toc_words((lk_toc_share *)tx, 1, &number), LK_KIND);
    WANT(lk_toc_chunk_close(NULL), LK_NULL);
    WANT(lk_toc_chunk_close((lk_toc_chunk **)area), LK_KIND);
    WANT(lk_toc_close(NULL), LK_NULL);
    WANT(lk_toc_close((lk_toc_share **)area), LK_KIND);
    HOLDS(strcmp(lk_message(1000), "no code of this library") == 0);
    WANT(lk_area_close(area), LK_OK);
    WANT(lk_queue_close_sender(&tx), LK_OK);
    WANT(lk_queue_close_receiver(&rx), LK_OK);
}

int main(void) {
    HOLDS(strcmp(lk_version(), LK_VERSION) == 0);
    queues();
    several();
    areas();
    tables();
    words();
    barriers();
    contents();
    no_handles();
    if (!wrong) puts("misuse: each wrong call is told");
    return wrong;
}
