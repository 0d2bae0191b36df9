/* The proved queue between two processes that sleep while they wait, and of which one may be killed.
 *
 * forked_queue [COUNT]            the child receives what the parent sends, and all comes in order
 * forked_queue COUNT receiver     the child receives and is killed half way: the parent's sends end
 * forked_queue COUNT sender       the child sends and kills itself half way: a prefix of its messages comes, in order
 * forked_queue COUNT idle         the child waits a second before each of COUNT messages: what it used of the processor, and how
 *                                 long a message took to wake it. It fails if that is a tenth of the time: one that waits awake
 *                                 uses all of it */
#define _GNU_SOURCE
#include "lembokuj_try.h"
#include "shared_heap.h"

#include <inttypes.h>
#include <signal.h>
#include <stdio.h>
#include <stdlib.h>
#include <string.h>
#include <sys/mman.h>
#include <sys/resource.h>
#include <sys/wait.h>

enum { RING_WORDS = 1024, MOST = 64, HEAP_BYTES = 1 << 20 };

/* The system tells it once; asked again, the answer has to be the same. */
static bool child_ended(void *of) {
    static bool ended;
    if (!ended) ended = waitpid(*(pid_t *)of, NULL, WNOHANG) == *(pid_t *)of;
    return ended;
}

static bool parent_ended(void *of) {
    return getppid() != *(pid_t *)of;
}

static uint64_t nanoseconds(void) {
    struct timespec now;
    clock_gettime(CLOCK_MONOTONIC, &now);
    return (uint64_t)now.tv_sec * 1000000000u + (uint64_t)now.tv_nsec;
}

/* Receives until the other side has left or is dead. Of a process that was killed a prefix of its messages comes. */
static int receive_all(lk_handle *rx, lk_bell *bell, uint64_t count, lk_ends ends, void *of) {
    uint8_t bytes[MOST];
    size_t len;
    uint64_t next = 0, got[2], longest = 0;
    int code;
    while ((code = lk_queue_receive_park(rx, bell, bytes, sizeof bytes, &len, ends, of)) == LK_OK) {
        memcpy(got, bytes, sizeof got);
        if (len != sizeof got || got[0] != next++) return 2;
        uint64_t late = nanoseconds() - got[1];
        if (late > longest) longest = late;
    }
    lk_queue_close_park(rx, bell);
    if (code == LK_ENDED) {
        printf("forked_queue: the sender was killed: %" PRIu64 " messages came, in order\n", next);
        return next > count;
    }
    if (count < 100) fprintf(stderr, "forked_queue: a message woke the receiver within %" PRIu64 " us\n", longest / 1000);
    return code == LK_DETACHED && next == count ? 0 : 3;
}

static int send_all(lk_handle *tx, lk_bell *bell, uint64_t count, lk_ends ends, void *of, pid_t killed, bool idle) {
    for (uint64_t n = 0; n < count; n++) {
        if (n == count / 2 && killed) kill(killed, SIGKILL);
        if (idle) sleep(1);
        uint64_t message[2] = {n, nanoseconds()};
        int code = lk_queue_send_park(tx, bell, message, sizeof message, 0, ends, of);
        if (code == LK_ENDED) {
            printf("forked_queue: the receiver was killed: the sender was told at message %" PRIu64 "\n", n);
            return n < count / 2;
        }
        if (code != LK_OK) return 4;
    }
    return lk_queue_close_park(tx, bell);
}

int main(int argc, char **argv) {
    uint64_t count = argc > 1 ? strtoull(argv[1], NULL, 10) : 200000;
    const char *how = argc > 2 ? argv[2] : "";
    bool idle = !strcmp(how, "idle");
    lk_handle tx = LK_BLANK, rx = LK_BLANK;
    if (lk_heap_share(HEAP_BYTES) || lk_queue_new_try(RING_WORDS, MOST, &tx, &rx)) return 1;
    void *shared = mmap(NULL, sizeof(lk_bell), PROT_READ | PROT_WRITE, MAP_SHARED | MAP_ANONYMOUS, -1, 0);
    if (shared == MAP_FAILED) return 1;
    lk_bell *bell = (lk_bell *)shared;
    uint64_t begun = nanoseconds();
    pid_t me = getpid(), child = fork();
    if (child < 0) return 1;
    if (!strcmp(how, "sender")) {
        if (child == 0) _exit(send_all(&tx, bell, count, parent_ended, &me, getpid(), false));
        return receive_all(&rx, bell, count, child_ended, &child);
    }
    if (child == 0) _exit(receive_all(&rx, bell, count, parent_ended, &me));
    int code = send_all(&tx, bell, count, child_ended, &child, !strcmp(how, "receiver") ? child : 0, idle);
    if (code || !strcmp(how, "receiver")) return code;
    int status;
    struct rusage used;
    if (wait4(child, &status, 0, &used) != child || status) return 5;
    printf("forked_queue: %" PRIu64 " messages to another process, in order\n", count);
    if (!idle) return 0;
    double seconds = (double)(used.ru_utime.tv_sec + used.ru_stime.tv_sec) + 1e-6 * (double)(used.ru_utime.tv_usec + used.ru_stime.tv_usec);
    double took = 1e-9 * (double)(nanoseconds() - begun);
    fprintf(stderr, "forked_queue: the receiver used %.4f s of processor in %.0f s\n", seconds, took);
    return seconds < 0.1 * took ? 0 : 6;
}
