/* A leader and worker processes, each a program of its own that attaches to the leader's region by name. The leader hands out
 * the parts of a file; a worker adds up the numbers that begin in a part, one a line, and sends the sum over its queue. If a
 * worker ends without having answered, its part goes to another one.
 *
 * partial_sums FILE [WORKERS [kill]]     with kill, the leader kills one worker after its first answer, and once it has the next
 *                                        part */
#define _GNU_SOURCE
#include <lembokuj.h>

#include <inttypes.h>
#include <signal.h>
#include <stdbool.h>
#include <stdio.h>
#include <stdlib.h>
#include <string.h>
#include <sys/stat.h>
#include <sys/wait.h>
#include <time.h>
#include <unistd.h>

enum { MOST_WORKERS = 16, PARTS = 64, RING_WORDS = 64, NO_PART = -1, TASKS = 100, ANSWERS = 200 };

/* A part of the file: the lines that begin in these bytes. */
typedef struct { uint64_t number, from, to; } task;
typedef struct { uint64_t number, lines; int64_t sum; } answer;

#define MUST(call)                                                                           \
    do {                                                                                     \
        int must_code = (call);                                                              \
        if (must_code != LK_OK) {                                                            \
            fprintf(stderr, "partial_sums: %s: %s\n", #call, lk_message(must_code)); \
            exit(1);                                                                         \
        }                                                                                    \
    } while (0)

static bool sum_of(FILE *file, const task *part, answer *out) {
    char line[64];
    *out = (answer){part->number, 0, 0};
    /* The line that began in the part before is that part's: it is passed over from the byte before this part. */
    if (fseek(file, part->from ? (long)part->from - 1 : 0, SEEK_SET) != 0) return false;
    if (part->from && !fgets(line, sizeof line, file)) return feof(file);
    while ((uint64_t)ftell(file) < part->to && fgets(line, sizeof line, file)) {
        out->sum += strtoll(line, NULL, 10);
        out->lines++;
    }
    return !ferror(file);
}

static int work(const char *name, const char *path, uint64_t number) {
    lk_region *region;
    lk_receiver *tasks;
    lk_sender *answers;
    task part;
    answer sum;
    const uint8_t *bytes;
    size_t len;
    int code;
    FILE *file = fopen(path, "r");
    if (!file) return 1;
    MUST(lk_region_attach_named(name, &region));
    MUST(lk_region_receiver(region, TASKS + number, &tasks));
    MUST(lk_region_sender(region, ANSWERS + number, &answers));
    while ((code = lk_queue_receive(tasks, &bytes, &len)) == LK_OK) {
        memcpy(&part, bytes, sizeof part);
        if (!sum_of(file, &part, &sum)) return 1;
        MUST(lk_queue_send(answers, &sum, sizeof sum, 0));
    }
    fclose(file);
    lk_queue_close_sender(&answers);
    lk_queue_close_receiver(&tasks);
    lk_region_close(&region);
    return code == LK_DETACHED ? 0 : 1;
}

/* A worker, as the leader sees it. */
typedef struct {
    pid_t pid;
    int status;
    lk_sender *tasks;
    lk_receiver *answers;
    int part; /* the one that it has, or NO_PART */
    int answered;
    bool ended; /* the system says so */
    bool gone;  /* and nothing more comes of it */
} worker;

typedef struct {
    lk_region *region;
    worker workers[MOST_WORKERS];
    int count;
    task parts[PARTS];
    int waiting[PARTS], waits; /* the parts that nobody has */
    int64_t sum;
    uint64_t lines;
    int done, killed;
} leader;

static void hand_out(leader *all, int at) {
    worker *one = &all->workers[at];
    if (one->gone || one->part != NO_PART || all->waits == 0) return;
    int part = all->waiting[--all->waits];
    int code = lk_queue_send(one->tasks, &all->parts[part], sizeof(task), 0);
    if (code == LK_OK) {
        one->part = part;
    } else {
        all->waiting[all->waits++] = part;
        if (code == LK_PEER_DIED || code == LK_DETACHED) one->gone = true;
    }
}

/* Takes an answer of a worker, or learns that it has ended. Whether there was either. */
static bool hear(leader *all, int at) {
    worker *one = &all->workers[at];
    answer sum;
    const uint8_t *bytes;
    size_t len;
    if (one->gone) return false;
    int code = lk_queue_try_receive(one->answers, &bytes, &len);
    /* One that ended before it took its ends leaves nobody who could be missed at them. */
    if (code == LK_WOULD_BLOCK && !one->ended) return false;
    if (code == LK_OK) {
        memcpy(&sum, bytes, sizeof sum);
        all->sum += sum.sum;
        all->lines += sum.lines;
        all->done++;
        one->part = NO_PART;
        one->answered++;
        return true;
    }
    one->gone = true;
    if (one->part != NO_PART) {
        printf("partial_sums: worker %d has ended: part %d goes to another\n", at, one->part);
        all->waiting[all->waits++] = one->part;
    }
    return true;
}

static void start(leader *all, const char *me, const char *name, const char *path, int at) {
    char number[16];
    worker *one = &all->workers[at];
    MUST(lk_region_sender(all->region, TASKS + at, &one->tasks));
    MUST(lk_region_receiver(all->region, ANSWERS + at, &one->answers));
    one->part = NO_PART;
    snprintf(number, sizeof number, "%d", at);
    one->pid = fork();
    if (one->pid == 0) {
        execl(me, me, "worker", name, path, number, (char *)NULL);
        _exit(127);
    }
}

static void lay_out(leader *all, const char *name, uint64_t bytes) {
    MUST(lk_region_create_named(name, 1 << 16, &all->region));
    for (int at = 0; at < all->count; at++) {
        MUST(lk_region_add_queue(all->region, TASKS + at, RING_WORDS, sizeof(task)));
        MUST(lk_region_add_queue(all->region, ANSWERS + at, RING_WORDS, sizeof(answer)));
    }
    MUST(lk_region_open(all->region));
    for (int part = 0; part < PARTS; part++) {
        all->parts[part] = (task){(uint64_t)part, bytes * part / PARTS, bytes * (part + 1) / PARTS};
        all->waiting[all->waits++] = part;
    }
}

/* Asks which of the children have ended. */
static void see_ended(leader *all) {
    for (int at = 0; at < all->count; at++) {
        worker *one = &all->workers[at];
        if (!one->ended) one->ended = waitpid(one->pid, &one->status, WNOHANG) == one->pid;
    }
}

static void lead(leader *all, bool kills) {
    while (all->done < PARTS) {
        bool heard = false, alive = false;
        for (int at = 0; at < all->count; at++) {
            heard |= hear(all, at);
            hand_out(all, at);
            alive |= !all->workers[at].gone;
        }
        worker *victim = &all->workers[0];
        if (kills && !all->killed && victim->answered > 0 && victim->part != NO_PART) {
            kill(victim->pid, SIGKILL);
            all->killed = 1;
        }
        if (!alive) {
            fprintf(stderr, "partial_sums: all workers have ended\n");
            exit(1);
        }
        if (!heard) {
            /* Nothing came: asks the system whether somebody has ended, and naps. */
            lk_region_reap(all->region, NULL);
            see_ended(all);
            nanosleep(&(struct timespec){0, 500000}, NULL);
        }
    }
}

static int finish(leader *all, const char *name) {
    int bad = 0;
    for (int at = 0; at < all->count; at++) {
        lk_queue_close_sender(&all->workers[at].tasks);
        lk_queue_close_receiver(&all->workers[at].answers);
        worker *one = &all->workers[at];
        if (!one->ended) waitpid(one->pid, &one->status, 0);
        if (one->status != 0 && !(all->killed && at == 0)) bad = 1;
    }
    lk_region_close(&all->region);
    lk_region_unlink(name);
    return bad;
}

int main(int argc, char **argv) {
    if (argc == 5 && !strcmp(argv[1], "worker")) return work(argv[2], argv[3], strtoull(argv[4], NULL, 10));
    struct stat about;
    leader all = {.count = argc > 2 ? atoi(argv[2]) : 4};
    if (argc < 2 || argc > 4 || all.count < 1 || all.count > MOST_WORKERS || stat(argv[1], &about) != 0) {
        fprintf(stderr, "usage: partial_sums FILE [WORKERS [kill]]\n");
        return 2;
    }
    char name[64];
    /* A leader with the same id may have been killed, and its region is there still: so the time is in the name too. */
    snprintf(name, sizeof name, "lk.partial_sums.%d.%lld", (int)getpid(), (long long)time(NULL));
    lay_out(&all, name, (uint64_t)about.st_size);
    for (int at = 0; at < all.count; at++) start(&all, argv[0], name, argv[1], at);
    lead(&all, argc == 4);
    int bad = finish(&all, name);
    printf("partial_sums: %" PRIu64 " lines, sum %" PRId64 "\n", all.lines, all.sum);
    return bad;
}
