/* The proved table between four processes: each adds 1 to each key in turn, and the parent counts the keys and reads the sums.
 * Takes how many additions there are in all. */
#define _GNU_SOURCE
#include "lembokuj_try.h"
#include "shared_heap.h"

#include <inttypes.h>
#include <stdio.h>
#include <stdlib.h>
#include <sys/wait.h>
#include <unistd.h>

enum { CHILDREN = 4, KEYS = 1000, HEAP_BYTES = 1 << 24, WORDS = 100000 };

/* A child uses its own handle and forgets the others. */
static int add_all(lk_table_try *table, uint64_t count) {
    for (uint64_t n = 0; n < count; n++) {
        int code = lk_table_add_wait(table, n % KEYS, 1, NULL);
        if (code != LK_OK && code != LK_ABSENT) return 3;
    }
    return lk_table_close_try(table);
}

int main(int argc, char **argv) {
    uint64_t count = argc > 1 ? strtoull(argv[1], NULL, 10) : 200000, sum = 0, keys = 0, value;
    lk_table_try first = LK_BLANK, tables[CHILDREN];
    if (lk_heap_share(HEAP_BYTES) || lk_table_new_try(CHILDREN + 1, WORDS, &first)) return 1;
    for (int child = 0; child < CHILDREN; child++) {
        tables[child] = (lk_table_try)LK_BLANK;
        if (lk_table_share_try(&first, WORDS / (CHILDREN + 1), &tables[child])) return 2;
    }
    for (int child = 0; child < CHILDREN; child++) {
        pid_t made = fork();
        if (made < 0) return 1;
        if (made == 0) _exit(add_all(&tables[child], count / CHILDREN));
    }
    int status, bad = 0;
    while (wait(&status) > 0) bad |= status;
    if (lk_table_count_wait(&first, &keys) != LK_OK || keys != (count / CHILDREN < KEYS ? count / CHILDREN : KEYS)) return 5;
    for (uint64_t key = 0; key < KEYS; key++)
        if (lk_table_get_wait(&first, key, &value) == LK_OK) sum += value;
    if (bad || sum != count / CHILDREN * CHILDREN || lk_table_close_try(&first)) return 4;
    printf("forked_table: %" PRIu64 " additions by %d processes\n", sum, CHILDREN);
    return 0;
}
