/* One queue, two threads: the sender sends its numbers in order, the receiver checks order and count; every fourth message
 * is longer than the ring. Takes how many messages are sent. */
#include "lembokuj_try.h"

#include <inttypes.h>
#include <pthread.h>
#include <stdio.h>
#include <stdlib.h>
#include <string.h>

/* The ring has 64 words, which are 512 bytes. */
enum { RING_WORDS = 64, MOST = 600 };

static uint64_t count = 1000000;

static void must(int code, int wanted, const char *what) {
    if (code != wanted) {
        fprintf(stderr, "queue: %s: code %d\n", what, code);
        exit(1);
    }
}

/* The length of the message with this number: its 8 bytes, and every fourth thousand as long as a message may be. */
static size_t length_of(uint64_t n) {
    return n % 4000 == 3 ? MOST : sizeof n;
}

/* Its bytes: the number, and behind it the number's low byte. */
static void write_message(uint8_t *bytes, uint64_t n) {
    memset(bytes, (int)(n & 255), length_of(n));
    memcpy(bytes, &n, sizeof n);
}

static void *talk(void *end) {
    lk_handle *tx = end;
    uint8_t bytes[MOST];
    for (uint64_t n = 0; n < count; n++) {
        write_message(bytes, n);
        must(lk_queue_send_wait(tx, bytes, length_of(n), n % 16 ? LK_LATER : 0), LK_OK, "send");
    }
    must(lk_queue_leave_try(tx), LK_OK, "leave");
    must(lk_queue_send_try(tx, bytes, 1, 0), LK_GONE, "send behind leave");
    must(lk_queue_close_try(tx), LK_OK, "close the sender");
    return NULL;
}

static void *listen_to(void *end) {
    lk_handle *rx = end;
    uint8_t bytes[MOST], wanted[MOST];
    size_t len;
    uint64_t n = 0;
    int code;
    while ((code = lk_queue_receive_wait(rx, bytes, sizeof bytes, &len)) == LK_OK) {
        write_message(wanted, n);
        if (len != length_of(n) || memcmp(bytes, wanted, len) != 0) {
            fprintf(stderr, "queue: message %" PRIu64 " is another\n", n);
            exit(1);
        }
        n++;
    }
    must(code, LK_DETACHED, "receive");
    if (n != count) {
        fprintf(stderr, "queue: %" PRIu64 " messages of %" PRIu64 "\n", n, count);
        exit(1);
    }
    must(lk_queue_close_try(rx), LK_OK, "close the receiver");
    return NULL;
}

int main(int argc, char **argv) {
    if (argc > 1) count = strtoull(argv[1], NULL, 10);
    lk_handle tx = LK_BLANK, rx = LK_BLANK;
    pthread_t sender, receiver;
    must(lk_queue_new_try(RING_WORDS, MOST, &tx, &rx), LK_OK, "new");
    if (pthread_create(&sender, NULL, talk, &tx) || pthread_create(&receiver, NULL, listen_to, &rx)) return 1;
    pthread_join(sender, NULL);
    pthread_join(receiver, NULL);
    must(lk_queue_close_try(&tx), LK_NULL, "close a blank handle");
    printf("queue: %" PRIu64 " messages, in order\n", count);
    return 0;
}
