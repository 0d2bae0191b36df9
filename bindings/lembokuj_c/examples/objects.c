/* Four threads at one table, one area and one barrier: in each of three phases all work at once, and the barrier elects
 * one. The sums of the table and the words of the chunks are checked. Takes how many calls each thread makes. */
#include "lembokuj.h"

#include <pthread.h>
#include <stdio.h>
#include <stdlib.h>

enum { THREADS = 4 };

static uint64_t count = 200000, keys = 50000;

struct worker {
    uint64_t id;
    lk_table *table;
    lk_area *area;
    lk_barrier *barrier;
    int elected;
};

static void must(int code, const char *what) {
    if (code < 0) {
        fprintf(stderr, "objects: %s: %s\n", what, lk_message(code));
        exit(1);
    }
}

static void next_phase(struct worker *me) {
    int elected;
    must(lk_barrier_wait(me->barrier, NULL, &elected), "wait");
    me->elected += elected;
}

/* What lies in a large chunk, which is plain memory. */
struct record {
    uint64_t id;
    char text[64];
};

static void use_chunks(struct worker *me, uint64_t n) {
    lk_chunk *small, *large;
    struct record *record;
    void *memory;
    size_t bytes;
    uint64_t seen, also;
    must(lk_area_alloc(me->area, 24, &small), "alloc");
    must(lk_area_alloc(me->area, 200, &large), "alloc");
    must(lk_chunk_store(small, 2, n ^ me->id), "store");
    must(lk_chunk_memory(large, &memory, &bytes), "memory");
    if (bytes < 200 || (uintptr_t)memory % 8 != 0) exit(2);
    record = memory;
    record->id = me->id;
    snprintf(record->text, sizeof record->text, "%llu", (unsigned long long)n);
    must(lk_chunk_load(small, 2, &seen), "load");
    must(lk_chunk_load(large, 0, &also), "load");
    if (seen != (n ^ me->id) || also != me->id || strtoull(record->text, NULL, 10) != n) exit(2);
    must(lk_area_free(me->area, &small), "free");
    must(lk_area_free(me->area, &large), "free");
}

static void *work(void *given) {
    struct worker *me = given;
    next_phase(me);
    for (uint64_t n = 0; n < count; n++) must(lk_table_add(me->table, (n * 7919 + me->id) % keys, 1, NULL), "add");
    next_phase(me);
    for (uint64_t n = 0; n < count / 4; n++) use_chunks(me, n);
    next_phase(me);
    must(lk_table_close(&me->table), "close");
    must(lk_area_close(&me->area), "close");
    must(lk_barrier_close(&me->barrier), "close");
    return NULL;
}

struct totals {
    uint64_t entries, sum;
};

static void sum_up(uint64_t key, uint64_t value, void *with) {
    struct totals *totals = with;
    (void)key;
    totals->entries++;
    totals->sum += value;
}

int main(int argc, char **argv) {
    if (argc > 1) {
        count = strtoull(argv[1], NULL, 10);
        keys = count / 4 + 1;
    }
    lk_table *tables[THREADS + 1];
    lk_area *areas[THREADS];
    lk_barrier *barriers[THREADS];
    struct worker workers[THREADS];
    pthread_t threads[THREADS];
    must(lk_table_new(lk_table_pages(keys), THREADS + 1, tables), "table");
    must(lk_area_new(2048, THREADS, areas), "area");
    must(lk_barrier_new(THREADS, barriers), "barrier");
    for (int n = 0; n < THREADS; n++) {
        workers[n] = (struct worker){(uint64_t)n, tables[n], areas[n], barriers[n], 0};
        pthread_create(&threads[n], NULL, work, &workers[n]);
    }
    int elected = 0;
    for (int n = 0; n < THREADS; n++) {
        pthread_join(threads[n], NULL);
        elected += workers[n].elected;
    }
    struct totals totals = {0, 0};
    uint64_t found = 0;
    must(lk_table_each(tables[THREADS], sum_up, &totals), "each");
    must(lk_table_count(tables[THREADS], &found), "count");
    must(lk_table_close(&tables[THREADS]), "close");
    if (totals.sum != THREADS * count || totals.entries != found || elected != 3) {
        fprintf(stderr, "objects: the sum is %llu, of %llu keys %llu were seen, %d were elected\n", (unsigned long long)totals.sum,
                (unsigned long long)found, (unsigned long long)totals.entries, elected);
        return 1;
    }
    printf("objects: %llu adds, 3 phases, no chunk twice\n", (unsigned long long)totals.sum);
    return 0;
}
