/* One table, four threads: each adds 1 to each of the keys in turn, from a place of its own on, so that the table grows under
 * them; then one reads all sums, all add 1 to one of them by compare-and-swap, and all take the keys out. Then all put the keys
 * in again if they are not there, and list partitions meanwhile; at last one counts and lists them all. Takes how many keys
 * there are. */
#include "lembokuj_try.h"

#include <inttypes.h>
#include <pthread.h>
#include <stdio.h>
#include <stdlib.h>

enum { THREADS = 4, ROUNDS = 5, ROOM = 10000 };

static uint64_t keys = 50000;
static lk_table_try handles[THREADS];
static uint64_t taken[THREADS], put[THREADS];

static void must(int right, const char *what, int code) {
    if (!right) {
        fprintf(stderr, "table: %s: code %d\n", what, code);
        exit(1);
    }
}

/* Keys that lie apart. */
static uint64_t key_of(uint64_t i) {
    return i * 0x9E3779B97F4A7C15u;
}

static void *add_all(void *at) {
    uint64_t me = (uint64_t)((lk_table_try *)at - handles), from = me * keys / THREADS, old;
    for (uint64_t n = 0; n < ROUNDS * keys; n++) {
        int code = lk_table_add_wait(at, key_of((from + n) % keys), 1, &old);
        must(code == LK_ABSENT || (code == LK_OK && old < THREADS * ROUNDS), "add", code);
    }
    return NULL;
}

/* Each thread adds 1 to one key, as often as there are keys. */
static void *swap_all(void *at) {
    for (uint64_t n = 0; n < keys; n++) {
        uint64_t seen = 0, old;
        for (;;) {
            int code = lk_table_compare_and_swap_wait(at, key_of(0), seen, seen + 1, &old);
            must(code == LK_OK, "compare and swap", code);
            if (old == seen) break;
            seen = old;
        }
    }
    return NULL;
}

/* Lists a partition while keys come and none goes or changes: each that is listed has its value. Answers how many there are. */
static uint64_t list(lk_table_try *table, uint32_t partition) {
    static _Thread_local uint64_t listed[ROOM], values[ROOM];
    uint64_t count, value;
    int code = lk_table_list_wait(table, partition, listed, values, ROOM, &count);
    must(code == LK_OK, "list", code);
    for (uint64_t n = 0; n < count; n++) {
        code = lk_table_get_wait(table, listed[n], &value);
        must(code == LK_OK && value == values[n], "get of a key that was listed", code);
    }
    return count;
}

/* Each key is put in by one of the threads, and the others find its value. */
static void *put_all(void *at) {
    uint64_t me = (uint64_t)((lk_table_try *)at - handles), old;
    for (uint64_t n = 0; n < keys; n++) {
        int code = lk_table_put_absent_wait(at, key_of(n), me, &old);
        must(code == LK_ABSENT || (code == LK_OK && old < THREADS), "put if absent", code);
        put[me] += code == LK_ABSENT;
        if (n % 500 == 0) list(at, (uint32_t)(n / 500 % LK_PARTITIONS));
    }
    return NULL;
}

/* Each key is taken out by one of the threads: what it had is added up. */
static void *take_all(void *at) {
    uint64_t me = (uint64_t)((lk_table_try *)at - handles), old;
    for (uint64_t n = 0; n < keys; n++) {
        int code = lk_table_delete_wait(at, key_of(n), &old);
        must(code == LK_OK || code == LK_ABSENT, "delete", code);
        if (code == LK_OK) taken[me] += old;
    }
    return NULL;
}

static void in_threads(void *(*work)(void *)) {
    pthread_t threads[THREADS];
    for (int i = 0; i < THREADS; i++) must(!pthread_create(&threads[i], NULL, work, &handles[i]), "start", 0);
    for (int i = 0; i < THREADS; i++) pthread_join(threads[i], NULL);
}

int main(int argc, char **argv) {
    if (argc > 1) keys = strtoull(argv[1], NULL, 10);
    uint64_t words = 14 * keys + 1000, value, sum = 0, puts = 0, lists = 0;
    int code = lk_table_new_try(THREADS, THREADS * words, &handles[0]);
    must(code == LK_OK, "new", code);
    for (int i = 1; i < THREADS; i++) {
        code = lk_table_share_try(&handles[0], words, &handles[i]);
        must(code == LK_OK, "share", code);
    }
    in_threads(add_all);
    for (uint64_t n = 0; n < keys; n++) {
        code = lk_table_get_wait(&handles[n % THREADS], key_of(n), &value);
        must(code == LK_OK && value == THREADS * ROUNDS, "get", code);
    }
    code = lk_table_put_wait(&handles[0], key_of(0), 0, &value);
    must(code == LK_OK && value == THREADS * ROUNDS, "put", code);
    in_threads(swap_all);
    in_threads(take_all);
    code = lk_table_count_wait(&handles[0], &value);
    must(code == LK_OK && value == 0, "count of no keys", code);
    in_threads(put_all);
    code = lk_table_count_wait(&handles[0], &value);
    must(code == LK_OK && value == keys, "count", code);
    for (uint32_t partition = 0; partition < LK_PARTITIONS; partition++) lists += list(&handles[1], partition);
    must(lists == keys, "keys that were listed", (int)lists);
    for (int i = 0; i < THREADS; i++) puts += put[i];
    must(puts == keys, "keys that were put in", (int)puts);
    for (uint64_t n = 0; n < keys; n++) {
        code = lk_table_delete_wait(&handles[n % THREADS], key_of(n), &value);
        must(code == LK_OK, "delete", code);
        put[value]--;
    }
    for (int i = 0; i < THREADS; i++) {
        must(put[i] == 0, "keys of a thread", (int)put[i]);
        sum += taken[i];
        code = lk_table_get_wait(&handles[i], key_of(0), &value);
        must(code == LK_ABSENT, "get of a key that was taken out", code);
        code = lk_table_close_try(&handles[i]);
        must(code == LK_OK, "close", code);
    }
    must(sum == THREADS * ROUNDS * (keys - 1) + THREADS * keys, "sum", (int)sum);
    printf("table: %d threads, %" PRIu64 " keys, %" PRIu64 " in all\n", THREADS, keys, sum);
    return 0;
}
