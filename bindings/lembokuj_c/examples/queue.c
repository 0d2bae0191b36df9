/* Two queues, four threads: each sender sends its numbers in order, each receiver checks order and count, in batches of
 * messages that are shown together. Takes how many messages each sends. */
#include "lembokuj.h"

#include <pthread.h>
#include <stdio.h>
#include <stdlib.h>
#include <string.h>

static uint64_t count = 1000000;

static void must(int code, const char *what) {
    if (code != LK_OK) {
        fprintf(stderr, "queue: %s: %s\n", what, lk_message(code));
        exit(1);
    }
}

static void *talk(void *end) {
    lk_sender *tx = end;
    for (uint64_t n = 0; n < count; n++) must(lk_queue_send(tx, &n, sizeof n, n % 64 == 0 ? 0 : LK_LATER), "send");
    must(lk_queue_close_sender(&tx), "close");
    return NULL;
}

static void *listen_to(void *end) {
    lk_receiver *rx = end;
    const uint8_t *bytes;
    size_t len;
    uint64_t wanted = 0, got;
    int code;
    while ((code = lk_queue_receive(rx, &bytes, &len)) == LK_OK) {
        if (len != sizeof got) exit(2);
        memcpy(&got, bytes, len);
        if (got != wanted++) exit(3);
    }
    if (code != LK_DETACHED || wanted != count) exit(4);
    must(lk_queue_close_receiver(&rx), "close");
    return NULL;
}

int main(int argc, char **argv) {
    if (argc > 1) count = strtoull(argv[1], NULL, 10);
    pthread_t threads[4];
    for (int pair = 0; pair < 2; pair++) {
        lk_sender *tx;
        lk_receiver *rx;
        must(lk_queue_new(4096, 64, &tx, &rx), "new");
        pthread_create(&threads[2 * pair], NULL, talk, tx);
        pthread_create(&threads[2 * pair + 1], NULL, listen_to, rx);
    }
    for (int n = 0; n < 4; n++) pthread_join(threads[n], NULL);
    printf("queue: 2 times %llu messages, in order\n", (unsigned long long)count);
    return 0;
}
