/* The proved queue in memory that the program maps, at another address in each process.
 *
 * placed_queue [COUNT]    makes a file in memory and a queue in it, and starts two programs, which map the file where the system
 *                         puts it: one receives COUNT messages, and of the other one and this program each sends half of them */
#define _GNU_SOURCE
#include "lembokuj_at.h"

#include <inttypes.h>
#include <stdio.h>
#include <stdlib.h>
#include <string.h>
#include <sys/mman.h>
#include <sys/wait.h>
#include <unistd.h>

enum { FILE_BYTES = 2 * LK_AT_BYTES, QUEUE_AT = LK_AT_BYTES }; /* the queue need not be at the front of the file */

/* Messages are numbers; those of the second sender are odd. */
static int send_all(lk_site site, uint64_t count, uint64_t from) {
    lk_handle tx = LK_BLANK;
    int code = lk_queue_sender_at(site, &tx);
    for (uint64_t n = from; code == LK_OK && n < count; n += 2) code = lk_queue_send_at_wait(site, &tx, &n, sizeof n);
    int closed = lk_queue_close_at(site, &tx);
    return code == LK_OK ? closed : code;
}

/* Those of each sender have to come in order. */
static int receive_all(lk_site site, uint64_t count) {
    lk_handle rx = LK_BLANK;
    uint64_t next[2] = {0, 1}, n, came = 0;
    uint8_t bytes[LK_AT_MESSAGE];
    size_t len;
    int code = lk_queue_receiver_at(site, &rx);
    while (code == LK_OK && (code = lk_queue_receive_at_wait(site, &rx, bytes, sizeof bytes, &len)) == LK_OK) {
        memcpy(&n, bytes, sizeof n);
        if (len != sizeof n || n != next[n % 2]) return 20;
        next[n % 2] = n + 2;
        came++;
    }
    lk_queue_close_at(site, &rx);
    return code == LK_DETACHED && came == count ? LK_OK : 21;
}

/* A new program that has the file at an address of its own. */
static pid_t start(char *self, const char *how, uint64_t count, int file, const void *here) {
    char numbers[3][32];
    snprintf(numbers[0], 32, "%" PRIu64, count);
    snprintf(numbers[1], 32, "%d", file);
    snprintf(numbers[2], 32, "%p", here);
    pid_t child = fork();
    if (child == 0) {
        execl(self, self, how, numbers[0], numbers[1], numbers[2], (char *)NULL);
        _exit(30);
    }
    return child;
}

/* Maps the file, and not at the address at which the first program has it. */
static uint8_t *map_elsewhere(int file, const void *there) {
    uint8_t *first = mmap(NULL, FILE_BYTES, PROT_READ | PROT_WRITE, MAP_SHARED, file, 0);
    if (first == MAP_FAILED || first != there) return first;
    uint8_t *second = mmap(NULL, FILE_BYTES, PROT_READ | PROT_WRITE, MAP_SHARED, file, 0);
    munmap(first, FILE_BYTES);
    return second;
}

int main(int argc, char **argv) {
    if (argc == 5) {
        void *there = NULL;
        sscanf(argv[4], "%p", &there);
        uint8_t *map = map_elsewhere(atoi(argv[3]), there);
        if (map == MAP_FAILED || map == there) return 31;
        lk_site site = lk_queue_site(map + QUEUE_AT);
        uint64_t count = strtoull(argv[2], NULL, 10);
        return strcmp(argv[1], "receive") ? send_all(site, count, 1) : receive_all(site, count);
    }
    uint64_t count = argc > 1 ? strtoull(argv[1], NULL, 10) : 200000;
    alarm(1000); /* nobody waits longer for a program that could not be started */
    int file = (int)syscall(SYS_memfd_create, "lk", 0);
    if (file < 0 || ftruncate(file, FILE_BYTES)) return 1;
    uint8_t *map = mmap(NULL, FILE_BYTES, PROT_READ | PROT_WRITE, MAP_SHARED, file, 0);
    if (map == MAP_FAILED) return 2;
    lk_site site;
    lk_handle rx = LK_BLANK, tx = LK_BLANK;
    uint8_t bytes[LK_AT_MESSAGE];
    size_t len;
    if (lk_queue_new_at(map + QUEUE_AT, LK_AT_BYTES - 16, &site) != LK_BAD_SIZE) return 3;
    if (lk_queue_new_at(map + QUEUE_AT, LK_AT_BYTES, &site) != LK_OK || site.at != map + QUEUE_AT) return 4;
    /* The receiving end is taken once, and comes back when it is closed. */
    if (lk_queue_receiver_at(site, &rx) != LK_OK || lk_queue_receiver_at(site, &tx) != LK_RECEIVER_TAKEN) return 5;
    if (lk_queue_receive_at(site, &rx, bytes, sizeof bytes, &len) != LK_WOULD_BLOCK) return 6;
    if (lk_queue_send_at(site, &rx, "x", 1) != LK_KIND || lk_queue_send_at(site, &tx, "x", 1) != LK_NULL) return 7;
    if (lk_queue_receive_at(site, &rx, bytes, 8, &len) != LK_SHORT_BUFFER || len != LK_AT_MESSAGE) return 8;
    if (lk_queue_close_at(site, &rx) != LK_OK) return 9;
    pid_t receiver = start(argv[0], "receive", count, file, map);
    pid_t sender = start(argv[0], "send", count, file, map);
    int code = send_all(site, count, 0), status;
    if (code != LK_OK) return 10;
    if (waitpid(sender, &status, 0) != sender || status) return 11;
    if (lk_queue_sender_at(site, &tx) != LK_OK || lk_queue_finish_at_wait(site, &tx) != LK_OK) return 12;
    if (lk_queue_send_at(site, &tx, "x", 1) != LK_GONE || lk_queue_close_at(site, &tx) != LK_OK) return 13;
    if (waitpid(receiver, &status, 0) != receiver || status) return 14;
    printf("placed_queue: %" PRIu64 " messages from two processes to a third, each with the queue at an address of its own\n", count);
    return 0;
}
