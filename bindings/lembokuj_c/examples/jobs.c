/* A job queue: four workers square numbers. Each has a queue for its jobs and one for its results; the boss gives a job to whoever
 * has room, and sleeps while nobody has and no result is there. Takes how many jobs there are. */
#include <lembokuj.h>

#include <inttypes.h>
#include <pthread.h>
#include <stdio.h>
#include <stdlib.h>
#include <string.h>

enum { WORKERS = 4, RING_WORDS = 64 };

struct result {
    uint64_t job, square;
};

struct worker {
    lk_receiver *jobs;
    lk_sender *results;
    int code;
};

static void *work(void *given) {
    struct worker *me = given;
    const uint8_t *bytes;
    size_t len;
    while ((me->code = lk_queue_receive(me->jobs, &bytes, &len)) == LK_OK) {
        uint64_t job;
        memcpy(&job, bytes, sizeof job);
        struct result result = {job, job * job};
        me->code = lk_queue_send(me->results, &result, sizeof result, 0);
        if (me->code != LK_OK) break;
    }
    lk_queue_close_receiver(&me->jobs);
    lk_queue_close_sender(&me->results);
    return NULL;
}

/* Takes a result that is there, by a receiver that lk_wait_any named. */
static int take(lk_receiver *from, uint64_t *done, uint64_t *wrong) {
    const uint8_t *bytes;
    size_t len;
    struct result result;
    int code = lk_queue_try_receive(from, &bytes, &len);
    if (code != LK_OK) return code;
    memcpy(&result, bytes, sizeof result);
    *done += 1;
    *wrong += result.square != result.job * result.job;
    return LK_OK;
}

/* Gives all jobs out and takes all results in. */
static int boss(lk_sender **jobs, lk_receiver **results, uint64_t count, uint64_t *wrong) {
    uint64_t given = 0, done = 0;
    int code = LK_OK;
    while (done < count) {
        int stuck = 0;
        /* A try that has no room stores nothing: the job goes to another worker. */
        for (int n = 0; given < count && stuck < WORKERS; n = (n + 1) % WORKERS) {
            code = lk_queue_try_send(jobs[n], &given, sizeof given, 0);
            if (code == LK_OK) given++, stuck = 0;
            else if (code == LK_WOULD_BLOCK) stuck++;
            else return code;
        }
        size_t which;
        code = lk_wait_any(results, WORKERS, NULL, &which);
        if (code == LK_OK) code = take(results[which], &done, wrong);
        if (code != LK_OK) return code;
    }
    return code;
}

int main(int argc, char **argv) {
    uint64_t count = argc > 1 ? strtoull(argv[1], NULL, 10) : 20000, wrong = 0;
    lk_sender *jobs[WORKERS] = {NULL};
    lk_receiver *results[WORKERS] = {NULL};
    struct worker workers[WORKERS] = {{NULL, NULL, LK_OK}};
    pthread_t threads[WORKERS];
    int started = 0, code = LK_OK;
    for (int n = 0; n < WORKERS && code == LK_OK; n++) {
        code = lk_queue_new(RING_WORDS, sizeof(uint64_t), &jobs[n], &workers[n].jobs);
        if (code == LK_OK) code = lk_queue_new(RING_WORDS, sizeof(struct result), &workers[n].results, &results[n]);
        if (code == LK_OK && pthread_create(&threads[n], NULL, work, &workers[n]) == 0) started++;
        else if (code == LK_OK) code = LK_NO_MEMORY;
    }
    if (code == LK_OK) code = boss(jobs, results, count, &wrong);
    /* A worker whose jobs are closed ends when it has done what is there; one that can't send ends too. */
    for (int n = 0; n < WORKERS; n++) {
        lk_queue_close_sender(&jobs[n]);
        lk_queue_close_receiver(&results[n]);
    }
    for (int n = 0; n < started; n++) pthread_join(threads[n], NULL);
    for (int n = started; n < WORKERS; n++) {
        lk_queue_close_receiver(&workers[n].jobs);
        lk_queue_close_sender(&workers[n].results);
    }
    if (code != LK_OK || wrong != 0) {
        fprintf(stderr, "jobs: %s, %" PRIu64 " wrong\n", lk_message(code), wrong);
        return 1;
    }
    printf("jobs: %" PRIu64 " squares\n", count);
    return 0;
}
