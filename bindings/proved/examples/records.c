/* One table of records, four threads: each puts records of its own under all keys in turn, whose 16 words are all one number, and
 * reads others meanwhile: the words that it reads are always those of one record. Then each takes keys out, and all are counted and
 * listed. Takes how many keys there are. */
#include "lembokuj_try.h"

#include <inttypes.h>
#include <pthread.h>
#include <stdio.h>
#include <stdlib.h>

enum { THREADS = 4, ROUNDS = 4, ROOM = 10000 };

static uint64_t keys = 20000;
static lk_records_try handles[THREADS];
static uint64_t news[THREADS], gone[THREADS];

static void must(int right, const char *what, int code) {
    if (!right) {
        fprintf(stderr, "records: %s: code %d\n", what, code);
        exit(1);
    }
}

/* Keys that lie apart. */
static uint64_t key_of(uint64_t i) {
    return i * 0x9E3779B97F4A7C15u;
}

/* The record of a number: that many words, at most 16, and all 16 are the number. */
static lk_record record_of(uint64_t number) {
    lk_record made = {number % (LK_RECORD_WORDS + 1), {0}};
    for (int n = 0; n < LK_RECORD_WORDS; n++) made.words[n] = number;
    return made;
}

/* Whether it is the record of some number. */
static bool is_whole(const lk_record *value) {
    for (int n = 1; n < LK_RECORD_WORDS; n++)
        if (value->words[n] != value->words[0]) return false;
    return value->count == value->words[0] % (LK_RECORD_WORDS + 1);
}

static void *put_all(void *at) {
    uint64_t me = (uint64_t)((lk_records_try *)at - handles), from = me * keys / THREADS;
    for (uint64_t n = 0; n < ROUNDS * keys; n++) {
        lk_record value = record_of(n * THREADS + me), old;
        int code = lk_records_put_wait(at, key_of((from + n) % keys), &value, &old);
        must(code == LK_ABSENT || (code == LK_OK && is_whole(&old)), "put", code);
        news[me] += code == LK_ABSENT;
        code = lk_records_get_wait(at, key_of(n * 7 % keys), &value);
        must(code == LK_ABSENT || (code == LK_OK && is_whole(&value)), "get", code);
    }
    return NULL;
}

static void *take_half(void *at) {
    uint64_t me = (uint64_t)((lk_records_try *)at - handles);
    for (uint64_t n = 0; n < keys; n += 2) {
        lk_record old;
        int code = lk_records_delete_wait(at, key_of(n), &old);
        must(code == LK_ABSENT || (code == LK_OK && is_whole(&old)), "delete", code);
        gone[me] += code == LK_OK;
    }
    return NULL;
}

static void in_threads(void *(*work)(void *)) {
    pthread_t threads[THREADS];
    for (int i = 0; i < THREADS; i++) must(!pthread_create(&threads[i], NULL, work, &handles[i]), "start", 0);
    for (int i = 0; i < THREADS; i++) pthread_join(threads[i], NULL);
}

int main(int argc, char **argv) {
    static uint64_t listed[ROOM];
    static lk_record values[ROOM];
    if (argc > 1) keys = strtoull(argv[1], NULL, 10);
    uint64_t words = 30 * keys + 1000, count, all = 0, taken = 0, lists = 0;
    int code = lk_records_new_try(THREADS, THREADS * words, &handles[0]);
    must(code == LK_OK, "new", code);
    for (int i = 1; i < THREADS; i++) {
        code = lk_records_share_try(&handles[0], words, &handles[i]);
        must(code == LK_OK, "share", code);
    }
    in_threads(put_all);
    for (int i = 0; i < THREADS; i++) all += news[i];
    must(all == keys, "keys that came", (int)all);
    in_threads(take_half);
    for (int i = 0; i < THREADS; i++) taken += gone[i];
    must(taken == (keys + 1) / 2, "keys that went", (int)taken);
    code = lk_records_count_wait(&handles[0], &count);
    must(code == LK_OK && count == keys - taken, "count", code);
    for (uint32_t partition = 0; partition < LK_PARTITIONS; partition++) {
        code = lk_records_list_wait(&handles[1], partition, listed, values, ROOM, &count);
        must(code == LK_OK, "list", code);
        lists += count;
        for (uint64_t n = 0; n < count; n++) {
            lk_record found;
            code = lk_records_get_wait(&handles[2], listed[n], &found);
            must(code == LK_OK && is_whole(&values[n]) && found.words[0] == values[n].words[0], "get of a key that was listed", code);
        }
    }
    must(lists == keys - taken, "keys that were listed", (int)lists);
    for (int i = 0; i < THREADS; i++) {
        code = lk_records_close_try(&handles[i]);
        must(code == LK_OK, "close", code);
    }
    printf("records: %d threads, %" PRIu64 " keys, %" PRIu64 " of them gone\n", THREADS, keys, taken);
    return 0;
}
