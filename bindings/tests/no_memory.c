/* What the calls for C do if there is no memory. Each request for memory of each call is refused in turn: a call that makes or
 * lists something answers LK_NO_MEMORY, the process goes on, and what was made before is as it was; the other calls ask for
 * none. It is linked so that the library's own requests come here (-Wl,--wrap=..): they are granted while the memory that
 * the call has taken stays below a limit, which grows to the least that was refused before. */
#include "lembokuj.h"

#include <malloc.h>
#include <stdio.h>
#include <stdlib.h>
#include <string.h>

static int armed;
static size_t live, limit, least;
static long blocks;

void *__real_malloc(size_t bytes);
void *__real_calloc(size_t count, size_t bytes);
void *__real_realloc(void *at, size_t bytes);
int __real_posix_memalign(void **at, size_t align, size_t bytes);
void __real_free(void *at);

static int granted(size_t more) {
    if (!armed || live + more <= limit) return 1;
    if (live + more < least) least = live + more;
    return 0;
}

static void *taken(void *at) {
    if (at != NULL) {
        live += malloc_usable_size(at);
        blocks++;
    }
    return at;
}

void *__wrap_malloc(size_t bytes) { return granted(bytes) ? taken(__real_malloc(bytes)) : NULL; }

void *__wrap_calloc(size_t count, size_t bytes) { return granted(count * bytes) ? taken(__real_calloc(count, bytes)) : NULL; }

int __wrap_posix_memalign(void **at, size_t align, size_t bytes) {
    int refused = granted(bytes) ? __real_posix_memalign(at, align, bytes) : 12;
    if (!refused) taken(*at);
    return refused;
}

void __wrap_free(void *at) {
    if (at == NULL) return;
    size_t bytes = malloc_usable_size(at);
    live = live < bytes ? 0 : live - bytes;
    blocks--;
    __real_free(at);
}

void *__wrap_realloc(void *at, size_t bytes) {
    size_t before = at == NULL ? 0 : malloc_usable_size(at);
    if (bytes > before && !granted(bytes - before)) return NULL;
    void *moved = __real_realloc(at, bytes);
    if (moved == NULL) return NULL;
    live = live < before ? 0 : live - before;
    if (at != NULL) blocks--;
    return taken(moved);
}

/* What the calls are made with. */
static lk_sender *tx;
static lk_receiver *rx;
static lk_area *areas[3];
static lk_chunk *chunk;
static lk_table *tables[3];
static lk_words *words[2];
static lk_barrier *barriers[3];
static lk_toc *toc;
static lk_toc_chunk *toc_chunk;
static lk_toc_share *shares[2];

static void must(int code, const char *what) {
    if (code < 0) {
        fprintf(stderr, "no_memory: %s: %s\n", what, lk_message(code));
        exit(1);
    }
}

static void make_all(void) {
    uint64_t key[2] = {1, 2}, value[3] = {3, 4, 5};
    must(lk_queue_new(64, 1000, &tx, &rx), "queue");
    must(lk_area_new(64, 3, areas), "area");
    must(lk_area_close(&areas[2]), "close");
    must(lk_area_alloc(areas[1], 100, &chunk), "alloc");
    must(lk_table_new(lk_table_pages(100), 3, tables), "table");
    must(lk_table_close(&tables[2]), "close");
    for (uint64_t n = 0; n < 20; n++) must(lk_table_put(tables[0], n, n, NULL), "put");
    must(lk_table_new_words(lk_table_pages_words(100, 2, 3), 2, 2, 3, &words[0]), "words");
    must(lk_words_put(words[0], key, value, NULL), "put");
    must(lk_barrier_new(3, barriers), "barrier");
    must(lk_barrier_close(&barriers[2]), "close");
    must(lk_toc_new(1000, &toc), "toc");
    must(lk_toc_allocate(toc, 16, &toc_chunk), "allocate");
}

static void close_all(void) {
    lk_queue_close_sender(&tx);
    lk_queue_close_receiver(&rx);
    lk_chunk_close(&chunk);
    for (int n = 0; n < 3; n++) {
        lk_area_close(&areas[n]);
        lk_table_close(&tables[n]);
        lk_barrier_close(&barriers[n]);
    }
    lk_words_close(&words[0]);
    lk_words_close(&words[1]);
    lk_toc_chunk_close(&toc_chunk);
    if (toc != NULL) must(lk_toc_freeze(&toc, &shares[0]), "freeze");
    lk_toc_close(&shares[0]);
    lk_toc_close(&shares[1]);
}

/* Calls that make or list something; each begins with what make_all made. */
static int queue_new(void) {
    lk_queue_close_sender(&tx);
    lk_queue_close_receiver(&rx);
    return lk_queue_new(64, 1000, &tx, &rx);
}
static int area_new(void) {
    lk_area *more[3] = {NULL};
    int code = lk_area_new(16, 3, more);
    for (int n = 0; n < 3; n++) lk_area_close(&more[n]);
    return code;
}
static int area_handle(void) { return lk_area_handle(areas[0], &areas[2]); }
static int area_alloc(void) {
    lk_chunk_close(&chunk);
    return lk_area_alloc(areas[0], 500, &chunk);
}
static int area_alloc_zeroed(void) {
    lk_chunk_close(&chunk);
    return lk_area_alloc_zeroed(areas[0], 9000, &chunk);
}
static int table_new(void) {
    lk_table *more[3] = {NULL};
    int code = lk_table_new(32, 3, more);
    for (int n = 0; n < 3; n++) lk_table_close(&more[n]);
    return code;
}
static int table_handle(void) { return lk_table_handle(tables[0], &tables[2]); }
static void add_up(uint64_t key, uint64_t value, void *sum) { *(uint64_t *)sum += key == value; }
static int table_each(void) {
    uint64_t sum = 0;
    int code = lk_table_each(tables[0], add_up, &sum);
    return code == LK_OK && sum != 20 ? 1000 : code;
}
static int words_new(void) {
    lk_words_close(&words[0]);
    return lk_table_new_words(32, 2, 2, 3, &words[0]);
}
static int words_handle(void) { return lk_words_handle(words[0], &words[1]); }
static void count(const uint64_t *key, const uint64_t *value, void *with) { *(uint64_t *)with += key[1] + value[2]; }
static int words_each(void) {
    uint64_t sum = 0;
    int code = lk_words_each(words[0], count, &sum);
    return code == LK_OK && sum != 7 ? 1000 : code;
}
static int barrier_new(void) {
    lk_barrier *more[3] = {NULL};
    int code = lk_barrier_new(3, more);
    for (int n = 0; n < 3; n++) lk_barrier_close(&more[n]);
    return code;
}
static int barrier_handle(void) { return lk_barrier_handle(barriers[0], &barriers[2]); }
static int wait_any(void) {
    const lk_limit soon = {1, NULL, NULL};
    size_t which;
    return lk_wait_any(&rx, 1, &soon, &which);
}
static int toc_new(void) {
    lk_toc *more = NULL;
    int code = lk_toc_new(1000, &more);
    if (code == LK_OK) {
        code = lk_toc_freeze(&more, &shares[1]);
        /* Frozen or not, nothing of it stays. */
        lk_toc_close(&shares[1]);
    }
    return code;
}
static int toc_allocate(void) {
    lk_toc_chunk_close(&toc_chunk);
    return lk_toc_allocate(toc, 32, &toc_chunk);
}
static int toc_keep(void) { return lk_toc_keep(toc, 1, &toc_chunk); }
static int toc_share(void) {
    int code = lk_toc_freeze(&toc, &shares[0]);
    return code == LK_OK ? lk_toc_share_again(shares[0], &shares[1]) : code;
}

static const struct {
    const char *name;
    int (*call)(void);
} calls[] = {
    {"lk_queue_new", queue_new},          {"lk_area_new", area_new},
    {"lk_area_handle", area_handle},      {"lk_area_alloc", area_alloc},
    {"lk_area_alloc_zeroed", area_alloc_zeroed}, {"lk_table_new", table_new},
    {"lk_table_handle", table_handle},    {"lk_table_each", table_each},
    {"lk_table_new_words", words_new},    {"lk_words_handle", words_handle},
    {"lk_words_each", words_each},        {"lk_barrier_new", barrier_new},
    {"lk_barrier_handle", barrier_handle}, {"lk_wait_any", wait_any},
    {"lk_toc_new and _freeze", toc_new},  {"lk_toc_allocate", toc_allocate},
    {"lk_toc_keep", toc_keep},            {"lk_toc_freeze and _share_again", toc_share},
};

/* One call under a limit: whether a request was refused. */
static int refused(const char *name, int (*call)(void), size_t bytes) {
    live = 0, limit = bytes, least = SIZE_MAX, armed = 1;
    int code = call();
    armed = 0;
    int was = least < SIZE_MAX;
    if (was ? code != LK_NO_MEMORY : code < 0 || code >= 1000) {
        fprintf(stderr, "no_memory: %s with %zu bytes: %s\n", name, bytes, lk_message(code));
        exit(1);
    }
    return was;
}

/* How many requests a call made, each of which was refused once. */
static int each_refused(const char *name, int (*call)(void)) {
    size_t bytes = 0;
    for (int times = 0;; times++) {
        make_all();
        int again = refused(name, call, bytes);
        bytes = least;
        close_all();
        if (!again) return times;
    }
}

/* The others, which ask for nothing. */
static int others(void) {
    const lk_limit soon = {1, NULL, NULL};
    const lk_slice slices[2] = {{"tw", 2}, {"o", 1}};
    const uint64_t key[2] = {1, 2}, value[3] = {6, 7, 8};
    const uint8_t *bytes;
    uint64_t number, found[3];
    void *memory;
    size_t len;
    int flag, bad = 0;
    bad |= lk_queue_try_send(tx, "one", 3, 0) | lk_queue_sendv(tx, slices, 2) | lk_queue_send(tx, "three", 5, LK_LATER);
    bad |= lk_queue_flush(tx) | lk_queue_try_receive(rx, &bytes, &len) | lk_queue_receive(rx, &bytes, &len);
    bad |= lk_queue_receive(rx, &bytes, &len) | (lk_queue_receive_within(rx, &soon, &bytes, &len) != LK_WOULD_BLOCK);
    for (uint64_t n = 0; n < 80; n++) bad |= (lk_table_add(tables[1], n, 1, NULL) != (n < 20 ? LK_OK : LK_ABSENT));
    bad |= lk_table_get(tables[1], 5, &number) | lk_table_delete(tables[0], 5, &number) | lk_table_count(tables[0], &number);
    bad |= lk_words_put(words[0], key, value, found) | lk_words_get(words[0], key, found) | lk_words_count(words[0], &number);
    bad |= lk_words_compare_and_put(words[0], key, value, NULL, NULL) | lk_chunk_memory(chunk, &memory, &len);
    bad |= lk_chunk_store(chunk, 1, 2) | lk_chunk_load(chunk, 1, &number) | lk_area_free(areas[0], &chunk);
    bad |= (lk_barrier_arrive(barriers[0], NULL, NULL) != LK_WOULD_BLOCK) | lk_barrier_wait(barriers[1], NULL, &flag);
    bad |= lk_barrier_look(barriers[0], NULL, NULL) | lk_barrier_detach(barriers[1], &flag) | lk_barrier_attach(barriers[1]);
    return bad ? 1000 : LK_OK;
}

int main(void) {
    int all = 0, number = sizeof calls / sizeof calls[0];
    make_all();
    close_all();
    long before = blocks;
    for (int n = 0; n < number; n++) {
        int times = each_refused(calls[n].name, calls[n].call);
        if (times == 0 || blocks != before) {
            fprintf(stderr, "no_memory: %s asked for nothing, or %ld blocks stay\n", calls[n].name, blocks - before);
            return 1;
        }
        all += times;
    }
    make_all();
    if (refused("the others", others, 0)) {
        fprintf(stderr, "no_memory: the others ask for %zu bytes\n", least);
        return 1;
    }
    close_all();
    printf("no_memory: %d calls, each of their %d requests refused; the others ask for none\n", number, all);
    return 0;
}
