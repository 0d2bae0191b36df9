/* Each wrong call once, and the code that it has. */
#include <lembokuj.h>

#include <stdio.h>
#include <string.h>

static int failed;
#define IS(call, code)                                                                                   \
    do {                                                                                                 \
        int is_code = (call);                                                                            \
        if (is_code != (code)) {                                                                         \
            fprintf(stderr, "processes_misuse: %s: %d (%s), not %s\n", #call, is_code, lk_message(is_code), #code); \
            failed = 1;                                                                                  \
        }                                                                                                \
    } while (0)

static void laying_out(void) {
    lk_region *region = NULL, *other = NULL;
    uint64_t words[2] = {17, 42};
    int fd;
    IS(lk_region_create(10, &region), LK_BAD_SIZE);
    IS(lk_region_create(1 << 16, NULL), LK_NULL);
    IS(lk_region_create_named(NULL, 1 << 16, &region), LK_NULL);
    IS(lk_region_create_named("a/b", 1 << 16, &region), LK_SYSTEM);
    IS(lk_region_attach(-1, &other), LK_SYSTEM);
    IS(lk_region_attach(1000000, &other), LK_SYSTEM);
    IS(lk_region_attach_named("lk.nobody.has.this", &other), LK_SYSTEM);
    IS(lk_region_create(1 << 16, &region), LK_OK);
    IS(lk_region_add_queue(region, 1, 63, 8), LK_BAD_SIZE);
    IS(lk_region_add_queue(region, 1, 1 << 17, 8), LK_FULL);
    IS(lk_region_add_barrier(region, 1, 64), LK_BAD_CALLERS);
    IS(lk_region_add_area(region, 1, 0, 1), LK_BAD_SIZE);
    IS(lk_region_add_area(region, 1, 20, 0), LK_BAD_CALLERS);
    IS(lk_region_add_area(NULL, 1, 20, 1), LK_NULL);
    IS(lk_region_add_table(region, 1, 1, 1), LK_NO_SPACE);
    IS(lk_region_add_words(region, 1, NULL, 2), LK_NULL);
    IS(lk_region_add_words(region, 1, words, 2), LK_OK);
    IS(lk_region_add_words(region, 1, words, 2), LK_KEY_THERE);
    IS(lk_region_fd(region, &fd), LK_NOT_OPEN);
    IS(lk_region_open(NULL), LK_NULL);
    IS(lk_region_open(region), LK_OK);
    IS(lk_region_open(region), LK_KIND);
    IS(lk_region_add_words(region, 2, words, 2), LK_KIND);
    IS(lk_region_fd(region, &fd), LK_OK);
    IS(lk_region_attach(fd, &other), LK_OK);
    IS(lk_region_load(other, 1, 1, &words[0]), LK_OK);
    IS(words[0] == 42 ? LK_OK : LK_DAMAGED, LK_OK);
    IS(lk_region_load(other, 1, 2, &words[0]), LK_NO_WORD);
    IS(lk_region_load(other, 2, 0, &words[0]), LK_NO_KEY);
    IS(lk_region_reap(other, NULL), LK_OK);
    IS(lk_region_open((lk_region *)0), LK_NULL);
    IS(lk_region_unlink(NULL), LK_NULL);
    IS(lk_region_unlink("lk.nobody.has.this"), LK_SYSTEM);
    IS(lk_region_reap(NULL, NULL), LK_NULL);
    IS(lk_region_close(&other), LK_OK);
    IS(lk_region_close(&other), LK_OK);
    IS(lk_region_close(NULL), LK_NULL);
    IS(lk_region_close(&region), LK_OK);
}

static lk_region *with_objects(void) {
    lk_region *region = NULL;
    IS(lk_region_create(1 << 18, &region), LK_OK);
    IS(lk_region_add_queue(region, 1, 64, 100), LK_OK);
    IS(lk_region_add_table(region, 2, 40, 1), LK_OK);
    IS(lk_region_add_area(region, 3, 40, 1), LK_OK);
    IS(lk_region_add_area(region, 4, 20, 1), LK_OK);
    IS(lk_region_add_barrier(region, 5, 1), LK_OK);
    IS(lk_region_open(region), LK_OK);
    return region;
}

static void queues(const lk_region *region) {
    lk_sender *tx = NULL, *other = NULL;
    lk_receiver *rx = NULL;
    const uint8_t *bytes;
    char text[200] = "hello";
    lk_slice slices[2] = {{"hel", 3}, {"lo", 2}};
    lk_limit soon = {5, NULL, NULL};
    size_t len, which;
    IS(lk_region_sender(region, 2, &tx), LK_NO_KEY);
    IS(lk_region_sender(NULL, 1, &tx), LK_NULL);
    IS(lk_region_sender(region, 1, NULL), LK_NULL);
    IS(lk_region_sender(region, 1, &tx), LK_OK);
    IS(lk_region_sender(region, 1, &other), LK_TAKEN);
    IS(lk_region_receiver(region, 1, &rx), LK_OK);
    IS(lk_queue_send((lk_sender *)rx, text, 5, 0), LK_KIND);
    IS(lk_queue_send(tx, NULL, 5, 0), LK_NULL);
    IS(lk_queue_send(tx, text, 101, 0), LK_TOO_LONG);
    IS(lk_queue_try_receive(rx, &bytes, &len), LK_WOULD_BLOCK);
    IS(lk_queue_send(tx, NULL, 0, 0), LK_OK);
    IS(lk_queue_sendv(tx, slices, 2), LK_OK);
    IS(lk_queue_send(tx, text, 100, 0), LK_OK);
    IS(lk_queue_receive(rx, &bytes, NULL), LK_NULL);
    IS(lk_queue_receive_within(rx, &soon, NULL, &len), LK_NULL);
    IS(lk_wait_any(&rx, 1, &soon, &which), LK_OK);
    IS(lk_queue_receive(rx, &bytes, &len), LK_OK);
    IS(len == 0 ? LK_OK : LK_DAMAGED, LK_OK);
    IS(lk_queue_receive(rx, &bytes, &len), LK_OK);
    IS(len == 5 && !memcmp(bytes, "hello", 5) ? LK_OK : LK_DAMAGED, LK_OK);
    IS(lk_queue_receive(rx, &bytes, &len), LK_OK);
    IS(lk_wait_any(&rx, 1, &soon, &which), LK_WOULD_BLOCK);
    IS(lk_queue_receive_within(rx, &soon, &bytes, &len), LK_WOULD_BLOCK);
    int sent = 0;
    while (lk_queue_send_within(tx, text, 100, &soon) == LK_OK) sent++;
    IS(sent > 0 ? LK_OK : LK_DAMAGED, LK_OK);
    IS(lk_queue_try_sendv(tx, slices, 2), LK_OK);
    while (lk_queue_try_sendv(tx, slices, 2) == LK_OK) sent++;
    IS(lk_queue_send_within(tx, text, 100, &soon), LK_WOULD_BLOCK);
    for (sent++; sent > 0; sent--) IS(lk_queue_receive_within(rx, &soon, &bytes, &len), LK_OK);
    IS(lk_queue_close_sender(&tx), LK_OK);
    IS(lk_queue_receive(rx, &bytes, &len), LK_DETACHED);
    IS(lk_queue_close_receiver(&rx), LK_OK);
    IS(lk_queue_close_receiver(&rx), LK_OK);
    IS(lk_region_receiver(region, 1, &rx), LK_TAKEN);
}

static void chunks(const lk_region *region, const lk_table *table) {
    lk_area *area = NULL, *small = NULL, *threads = NULL;
    lk_chunk *chunk = NULL;
    lk_ticket ticket;
    uint64_t word = 0;
    void *memory;
    size_t len;
    IS(lk_region_area(region, 2, &area), LK_NO_KEY);
    IS(lk_region_area(region, 3, NULL), LK_NULL);
    IS(lk_region_area(region, 3, &area), LK_OK);
    IS(lk_region_area(region, 3, &small), LK_TAKEN);
    IS(lk_region_area(region, 4, &small), LK_OK);
    IS(lk_area_handle(area, &threads), LK_NO_HANDLE);
    IS(lk_area_new(20, 1, &threads), LK_OK);
    IS(lk_area_alloc(area, (uint64_t)1 << 40, &chunk), LK_NO_SPACE);
    IS(lk_area_alloc(area, 0, &chunk), LK_OK);
    IS(lk_area_free(area, &chunk), LK_OK);
    IS(lk_area_alloc((lk_area *)table, 8, &chunk), LK_KIND);
    IS(lk_area_alloc_zeroed(area, 80, &chunk), LK_OK);
    IS(lk_chunk_load(chunk, 9, &word), LK_OK);
    IS(word == 0 ? LK_OK : LK_DAMAGED, LK_OK);
    IS(lk_chunk_store(chunk, 9, 99), LK_OK);
    IS(lk_chunk_store(chunk, 1000, 99), LK_NO_WORD);
    IS(lk_chunk_memory(chunk, &memory, &len), LK_OK);
    IS(len >= 80 && ((uint64_t *)memory)[9] == 99 ? LK_OK : LK_DAMAGED, LK_OK);
    IS(lk_chunk_memory(chunk, NULL, &len), LK_NULL);
    IS(lk_chunk_post((lk_chunk **)&area, &ticket), LK_KIND);
    IS(lk_chunk_post(&chunk, NULL), LK_NULL);
    IS(lk_chunk_post(&chunk, &ticket), LK_OK);
    IS(lk_chunk_post(&chunk, &ticket), LK_NULL);
    IS(lk_area_fetch(small, &ticket, &chunk), LK_STRANGER);
    IS(lk_area_fetch(threads, &ticket, &chunk), LK_KIND);
    IS(lk_area_fetch(area, NULL, &chunk), LK_NULL);
    IS(lk_area_fetch(area, &ticket, &chunk), LK_OK);
    IS(lk_chunk_load(chunk, 9, &word), LK_OK);
    IS(word == 99 ? LK_OK : LK_DAMAGED, LK_OK);
    IS(lk_area_free(area, &chunk), LK_OK);
    IS(lk_area_fetch(area, &ticket, &chunk), LK_STRANGER);
    IS(lk_area_alloc(small, 80, &chunk), LK_OK);
    IS(lk_area_free(area, &chunk), LK_OTHER_AREA);
    IS(lk_area_free(threads, &chunk), LK_OTHER_AREA);
    IS(lk_area_free(small, &chunk), LK_OK);
    IS(lk_area_alloc(threads, 80, &chunk), LK_OK);
    IS(lk_chunk_post(&chunk, &ticket), LK_KIND);
    IS(lk_area_free(threads, &chunk), LK_OK);
    lk_area_close(&threads);
    lk_area_close(&small);
    lk_area_close(&area);
}

static void the_others(const lk_region *region) {
    lk_table *table = NULL, *more = NULL;
    lk_barrier *barrier = NULL, *second = NULL;
    lk_limit soon = {5, NULL, NULL};
    uint64_t word = 0;
    int elected = 0;
    IS(lk_region_table(region, 3, &table), LK_NO_KEY);
    IS(lk_region_table(region, 2, &table), LK_OK);
    IS(lk_table_handle(table, &more), LK_NO_HANDLE);
    IS(lk_table_get(table, 7, &word), LK_ABSENT);
    IS(lk_table_put(table, 7, 70, NULL), LK_ABSENT);
    IS(lk_table_add(table, 7, 5, &word), LK_OK);
    IS(lk_table_count(table, &word), LK_OK);
    IS(word == 1 ? LK_OK : LK_DAMAGED, LK_OK);
    IS(lk_table_each(table, NULL, NULL), LK_NULL);
    IS(lk_table_delete(table, 7, &word), LK_OK);
    IS(word == 75 ? LK_OK : LK_DAMAGED, LK_OK);
    chunks(region, table);
    IS(lk_region_barrier(region, 5, &barrier), LK_OK);
    IS(lk_region_barrier(region, 5, &second), LK_TAKEN);
    IS(lk_barrier_wait(barrier, &word, &elected), LK_OK);
    IS(word == 1 && elected == 1 ? LK_OK : LK_DAMAGED, LK_OK);
    IS(lk_barrier_wait((lk_barrier *)table, NULL, NULL), LK_KIND);
    IS(lk_barrier_wait_within(barrier, &soon, &word, NULL), LK_OK);
    IS(lk_barrier_look(barrier, &word, NULL), LK_OK);
    IS(lk_barrier_attach(barrier), LK_ALREADY_IN);
    IS(lk_barrier_detach(barrier, &elected), LK_OK);
    IS(elected == 1 ? LK_OK : LK_DAMAGED, LK_OK);
    IS(lk_barrier_wait(barrier, NULL, NULL), LK_NOT_IN);
    lk_barrier_close(&barrier);
    lk_table_close(&table);
    IS(lk_region_table(region, 2, &table), LK_OK);
    lk_table_close(&table);
}

int main(void) {
    laying_out();
    lk_region *region = with_objects();
    queues(region);
    the_others(region);
    IS(lk_region_close(&region), LK_OK);
    if (!failed) printf("processes_misuse: each wrong call has its code\n");
    return failed;
}
