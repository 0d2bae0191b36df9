/* One barrier, four threads: in each phase all of them write, and after it one that was elected reads what all wrote. Then
 * they leave one after another, and the last one does what is left. Takes how many phases there are. */
#include "lembokuj_try.h"

#include <inttypes.h>
#include <pthread.h>
#include <stdio.h>
#include <stdlib.h>

enum { THREADS = 4 };

static uint64_t phases = 5000;
static lk_barrier_try handles[THREADS];
static uint64_t written[THREADS], sum, elections, lasts;

static void must(int right, const char *what, int code) {
    if (!right) {
        fprintf(stderr, "barrier: %s: code %d\n", what, code);
        exit(1);
    }
}

static void *go_through(void *at) {
    uint64_t me = (uint64_t)((lk_barrier_try *)at - handles);
    lk_phase told;
    for (uint64_t n = 0; n < phases; n++) {
        written[me] = n;
        int code = lk_barrier_wait_all(at, &told);
        must(code == LK_OK && told.phase == 2 * n + 1, "all have written", code);
        if (told.flag) {
            for (int i = 0; i < THREADS; i++) sum += written[i];
            elections++;
        }
        code = lk_barrier_wait_all(at, &told);
        must(code == LK_OK && told.phase == 2 * n + 2, "one has read", code);
    }
    int code = lk_barrier_arrive_and_detach_except_last_wait(at, &told);
    must(code == LK_OK, "leave", code);
    if (told.flag) lasts++;
    code = lk_barrier_close_wait(at);
    must(code == LK_OK, "close", code);
    return NULL;
}

int main(int argc, char **argv) {
    if (argc > 1) phases = strtoull(argv[1], NULL, 10);
    pthread_t threads[THREADS];
    int code = lk_barrier_new_try(THREADS, &handles[0]);
    must(code == LK_OK, "new", code);
    for (int i = 1; i < THREADS; i++) {
        code = lk_barrier_share_try(&handles[0], &handles[i]);
        must(code == LK_OK, "share", code);
    }
    /* All take part before the first one arrives. */
    for (int i = 0; i < THREADS; i++) {
        code = lk_barrier_attach_wait(&handles[i], NULL);
        must(code == LK_OK, "attach", code);
    }
    for (int i = 0; i < THREADS; i++) must(!pthread_create(&threads[i], NULL, go_through, &handles[i]), "start", 0);
    for (int i = 0; i < THREADS; i++) pthread_join(threads[i], NULL);
    must(elections == phases && sum == THREADS * phases * (phases - 1) / 2 && lasts == 1, "sum", (int)sum);
    printf("barrier: %d threads, %" PRIu64 " phases\n", THREADS, 2 * phases);
    return 0;
}
