/* One area, four threads: each keeps a list of chunks of many sizes, of which it gives back the oldest ones as it takes new ones,
 * and finds in each what it wrote there; then all give back all, and no page is granted. Takes how many chunks each takes. */
#include "lembokuj_try.h"

#include <inttypes.h>
#include <pthread.h>
#include <stdio.h>
#include <stdlib.h>

enum { THREADS = 4, KEPT = 64, PAGES = 4096 };

static uint64_t chunks = 20000;
static lk_area_try handles[THREADS];

static void must(int right, const char *what, int code) {
    if (!right) {
        fprintf(stderr, "area: %s: code %d\n", what, code);
        exit(1);
    }
}

/* Sizes from 8 to 8,192 bytes, and now and then some pages. */
static uint64_t size_of(uint64_t n) {
    uint64_t mixed = n * 0x9E3779B97F4A7C15u >> 40;
    return n % 100 == 99 ? 8193 + mixed % 20000 : 1 + mixed % 8192;
}

/* The first and the last word of a chunk are the owner's and the chunk's. */
static void fill(lk_area_try *area, uint64_t number, uint64_t bytes, uint64_t me, uint64_t n) {
    uint64_t words[2] = {me, n};
    int code = lk_area_write(area, number, 0, &words[0], 1);
    must(code == LK_OK, "write", code);
    if (bytes > 8) code = lk_area_write(area, number, bytes / 8 - 1, &words[1], 1);
    must(code == LK_OK, "write of the last word", code);
}

static void look_and_free(lk_area_try *area, uint64_t number, uint64_t me, uint64_t n) {
    uint64_t word = UINT64_MAX, bytes = 0;
    int code = lk_area_bytes_of(area, number, &bytes);
    must(code == LK_OK && bytes >= size_of(n), "size", code);
    code = lk_area_read(area, number, 0, &word, 1);
    must(code == LK_OK && word == me, "read", code);
    if (bytes > 8) {
        code = lk_area_read(area, number, bytes / 8 - 1, &word, 1);
        must(code == LK_OK && word == n, "read of the last word", code);
    }
    code = lk_area_free_wait(area, number);
    must(code == LK_OK, "free", code);
}

static void *take_and_give(void *at) {
    uint64_t me = (uint64_t)((lk_area_try *)at - handles), numbers[KEPT], bytes;
    for (uint64_t n = 0; n < chunks; n++) {
        uint64_t *number = &numbers[n % KEPT];
        if (n >= KEPT) look_and_free(at, *number, me, n - KEPT);
        int code = lk_area_alloc_wait(at, size_of(n), number, &bytes);
        must(code == LK_OK && bytes >= size_of(n), "alloc", code);
        fill(at, *number, bytes, me, n);
    }
    return NULL;
}

int main(int argc, char **argv) {
    if (argc > 1) chunks = strtoull(argv[1], NULL, 10);
    pthread_t threads[THREADS];
    uint32_t used, largest;
    uint64_t bytes;
    int code = lk_area_new_try(THREADS, PAGES, &handles[0]);
    must(code == LK_OK, "new", code);
    for (int i = 1; i < THREADS; i++) {
        code = lk_area_share_try(&handles[0], &handles[i]);
        must(code == LK_OK, "share", code);
    }
    for (int i = 0; i < THREADS; i++) must(!pthread_create(&threads[i], NULL, take_and_give, &handles[i]), "start", 0);
    for (int i = 0; i < THREADS; i++) pthread_join(threads[i], NULL);
    code = lk_area_usage_wait(&handles[0], &used, NULL);
    must(code == LK_OK && used > 0, "usage", code);
    for (int i = 1; i < THREADS; i++) {
        code = lk_area_close_wait(&handles[i]);
        must(code == LK_OK, "close", code);
    }
    for (uint64_t number = 0; (code = lk_area_next(&handles[0], number, &number)) == LK_OK;) {
        code = lk_area_free_wait(&handles[0], number);
        must(code == LK_OK, "free of what was left", code);
    }
    must(code == LK_ABSENT, "next", code);
    for (uint32_t size_class = LK_FIRST_CLASS; size_class < LK_END_CLASS; size_class++) {
        do code = lk_area_trim_wait(&handles[0], size_class);
        while (code == LK_OK);
        must(code == LK_ABSENT, "trim", code);
    }
    code = lk_area_usage_wait(&handles[0], &used, &largest);
    must(code == LK_OK && used == 0 && largest == PAGES, "usage at the end", code);
    code = lk_area_size(&handles[0], &bytes);
    must(code == LK_OK && bytes == 4096u * PAGES, "size of all", code);
    code = lk_area_close_try(&handles[0]);
    must(code == LK_OK, "close of the last", code);
    printf("area: %d threads, %" PRIu64 " chunks\n", THREADS, THREADS * chunks);
    return 0;
}
