/* The proved queue in memory that the program maps, at another address in each process.
 *
 * given_queue [COUNT]     makes a file in memory and a queue in it, and starts a second program, which maps the file at another
 *                         address: it receives COUNT messages of 8 to 100 bytes, which this program sends */
#define _GNU_SOURCE
#include "lembokuj_try.h"

#include <inttypes.h>
#include <signal.h>
#include <stdio.h>
#include <stdlib.h>
#include <string.h>
#include <sys/mman.h>
#include <sys/syscall.h>
#include <sys/wait.h>
#include <unistd.h>

enum { RING_WORDS = 256, MAX_BYTES = 100, QUEUE_AT = 4096, FILE_BYTES = 16384 }; /* the queue need not be at the front */

/* Message n is its number, and then bytes by which it is known again. */
static size_t write_message(uint64_t n, uint8_t *bytes) {
    size_t len = 8 + (size_t)(n % (MAX_BYTES - 7));
    memcpy(bytes, &n, sizeof n);
    for (size_t at = 8; at < len; at++) bytes[at] = (uint8_t)(n * 31 + at);
    return len;
}

/* They have to come in order, whole, and all; the sum of the numbers is what both programs print. */
static int receive_all(lk_place place, uint64_t count) {
    lk_handle rx = LK_BLANK, other = LK_BLANK;
    uint8_t bytes[MAX_BYTES], wanted[MAX_BYTES];
    uint64_t came = 0, sum = 0, n;
    size_t len;
    int code = lk_queue_receiver_try(place, &rx);
    if (code == LK_OK && lk_queue_receiver_try(place, &other) != LK_SIDE_TAKEN) return 20;
    while (code == LK_OK && (code = lk_queue_receive_wait(&rx, bytes, sizeof bytes, &len)) == LK_OK) {
        if (len != write_message(came, wanted) || memcmp(bytes, wanted, len)) return 21;
        memcpy(&n, bytes, sizeof n);
        sum += n;
        came++;
    }
    if (code != LK_DETACHED || came != count || sum != count * (count - 1) / 2) return 22;
    return lk_queue_close_try(&rx) == LK_OK ? 0 : 23;
}

static int send_all(lk_place place, uint64_t count) {
    lk_handle tx = LK_BLANK, other = LK_BLANK;
    uint8_t bytes[MAX_BYTES];
    int code = lk_queue_sender_wait(place, &tx);
    if (code == LK_OK && lk_queue_sender_try(place, &other) != LK_SIDE_TAKEN) return 10;
    for (uint64_t n = 0; code == LK_OK && n < count; n++) {
        size_t len = write_message(n, bytes);
        code = lk_queue_send_wait(&tx, bytes, len, LK_LATER);
    }
    if (code != LK_OK) return 11;
    return lk_queue_close_try(&tx) == LK_OK ? 0 : 12;
}

/* Maps the file, and not at the address at which the first program has it. */
static uint8_t *map_elsewhere(int file, const void *there) {
    uint8_t *first = mmap(NULL, FILE_BYTES, PROT_READ | PROT_WRITE, MAP_SHARED, file, 0);
    if (first == MAP_FAILED || first != there) return first;
    uint8_t *second = mmap(NULL, FILE_BYTES, PROT_READ | PROT_WRITE, MAP_SHARED, file, 0);
    munmap(first, FILE_BYTES);
    return second;
}

int main(int argc, char **argv) {
    uint64_t count = argc > 1 ? strtoull(argv[1], NULL, 10) : 100000;
    alarm(1000); /* nobody waits longer for a program that could not be started */
    if (argc == 4) {
        void *there = NULL;
        sscanf(argv[3], "%p", &there);
        uint8_t *map = map_elsewhere(atoi(argv[2]), there);
        if (map == MAP_FAILED || map == there) return 31;
        return receive_all(lk_place_at(map + QUEUE_AT, RING_WORDS), count);
    }
    int file = (int)syscall(SYS_memfd_create, "lk", 0);
    if (file < 0 || ftruncate(file, FILE_BYTES)) return 1;
    uint8_t *map = mmap(NULL, FILE_BYTES, PROT_READ | PROT_WRITE, MAP_SHARED, file, 0);
    if (map == MAP_FAILED) return 2;
    size_t room = FILE_BYTES - QUEUE_AT;
    if (lk_queue_new_in(map + QUEUE_AT, room, 100, MAX_BYTES) != LK_BAD_SIZE) return 3; /* no power of two */
    if (lk_queue_new_in(map + QUEUE_AT, 2048, RING_WORDS, MAX_BYTES) != LK_BAD_SIZE) return 4;
    if (lk_queue_new_in(map + QUEUE_AT, room, RING_WORDS, MAX_BYTES) != LK_OK) return 5;
    lk_place place = lk_place_at(map + QUEUE_AT, RING_WORDS);
    lk_handle tx = LK_BLANK;
    if (lk_queue_sender_try(place, &tx) != LK_WOULD_BLOCK) return 6; /* no receiver has come */
    pid_t child = fork();
    if (child == 0) {
        char numbers[3][32];
        snprintf(numbers[0], 32, "%" PRIu64, count);
        snprintf(numbers[1], 32, "%d", file);
        snprintf(numbers[2], 32, "%p", (void *)map);
        execl(argv[0], argv[0], numbers[0], numbers[1], numbers[2], (char *)NULL);
        _exit(30);
    }
    if (child < 0) return 7;
    int code = send_all(place, count), status;
    if (code) kill(child, SIGKILL); /* it would wait for the rest */
    if (waitpid(child, &status, 0) != child || (!code && status)) return 13;
    if (code) return code;
    printf("given_queue: %" PRIu64 " messages to another program, which has the queue at another address\n", count);
    return 0;
}
