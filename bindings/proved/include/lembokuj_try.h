/* lembokuj_try.h: queues of messages, and hash tables, barriers and areas of memory that many threads share, over the proved
 * libraries liblk_queue.a, liblk_table.a, liblk_records.a, liblk_barrier.a and liblk_area.a.
 *
 * The calls of the libraries try once and never wait. Those with _wait are loops over them here: they spin for a moment,
 * then yield the processor, then nap, half a millisecond at the most. Those with _park sleep until the other side rings a
 * bell that both share (Linux; elsewhere they nap too).
 * Link with the library of what is used, or with several, and the toolchain's liblibc_c.a; or, for several processes, with
 * shared_heap.c. lembokuj.h has more objects; it is built without the proofs. A program that takes both headers includes
 * lembokuj.h first.
 *
 * Handles. An lk_handle (one side of a queue), an lk_table_try or an lk_records_try (one caller of a table), an lk_barrier_try (one
 * caller of a barrier) and an lk_area_try (one caller of an area) are the program's own memory: two words, all zero (LK_BLANK)
 * before the call that fills them and after the one that closes them. A handle owns what it stands for. Do not copy it, but to move it: of two
 * copies one has to be forgotten. The memory of a queue goes with its second side, that of a table, a barrier or an area
 * with its last caller.
 *
 * Threads. A handle is used by one call at a time; different handles of one object are used at once, each in its thread. A
 * handle may go to another thread by whatever orders the two: a start or join of a thread, a lock, an atomic.
 *
 * Processes. With shared_heap.c a program may fork after it has made its objects. Of the two copies of a handle that there
 * are then, one process uses its own and the other forgets its.
 *
 * Wrong use. A null pointer and a blank handle are LK_NULL, a handle of a queue's other side LK_KIND, a side that has left
 * LK_GONE, a number of no chunk of the caller LK_STRANGER. A handle whose words are anything else than the last call left there is not found out. No call keeps a pointer
 * of the program's.
 *
 * Codes. 0 is done, above 0 is an answer, below 0 nothing was sent, received, done to a key or changed at a
 * barrier or of an area. Those that lembokuj.h has too have its numbers. */
#ifndef LEMBOKUJ_TRY_H
#define LEMBOKUJ_TRY_H

#include <limits.h>
#include <sched.h>
#include <stdbool.h>
#include <stddef.h>
#include <stdint.h>
#include <time.h>
#ifdef __linux__
#include <sys/syscall.h>
#endif

#ifdef __cplusplus
extern "C" {
#endif

#ifdef SYS_futex
/* The C library's `syscall`, which its own header declares only for programs that ask for more than C11. */
extern long lk_system_call(long number, ...) __asm__("syscall");
#endif

#ifndef LEMBOKUJ_H
enum {
    LK_OK = 0,
    LK_WOULD_BLOCK = 1,    /* a queue: full (send the same message again), or no whole message yet; else: another caller is there */
    LK_DETACHED = 2,       /* the other side has left; a receiver: and all was received */
    LK_ABSENT = 3,         /* it is done, and the key was not there */
    LK_NULL = -1,          /* a pointer is null, or a handle blank */
    LK_KIND = -2,          /* a handle of the other side */
    LK_NO_MEMORY = -4,     /* the system gave no memory */
    LK_BAD_SIZE = -5,      /* a size out of range */
    LK_BAD_CALLERS = -6,   /* no callers, more than 4,096, or all of them have handles */
    LK_TOO_LONG = -7,      /* the message is longer than the queue's greatest, or, to be sent whole, than the ring */
    LK_OTHER_MESSAGE = -8, /* a part of another message is on the ring: send that one again first */
    LK_NO_SPACE = -9,      /* the caller's own words are used up; an area: its pages are */
    LK_NO_WORD = -10,      /* the chunk has no such words */
    LK_ALREADY_IN = -12,   /* the caller takes part in the barrier already */
    LK_NOT_IN = -13,       /* the caller takes no part in the barrier */
    LK_TWICE = -14,        /* the caller has arrived in this phase already */
    LK_STRANGER = -32,     /* the caller has no chunk of this number */
};

/* A flag of the sends: the receiver may see the message only after a later call. At most a quarter of the ring stays
 * unseen. */
enum { LK_LATER = 1 };
#endif

enum {
    LK_ENDED = 5,          /* a wait that the program ended: lk_ends answered true */
    LK_WAITING = 7,        /* the caller has arrived at the barrier, and another has yet to */
    LK_GROWN = 4,          /* the key's partition has grown first, and nothing was done to the key: call again */
    LK_GONE = -17,         /* this side has left */
    LK_SHORT_BUFFER = -18, /* the program's bytes have no room for the queue's greatest message, or its rows for all entries */
    LK_IN_USE = -19,       /* a handle is not blank, or both pointers are one */
    LK_STILL_IN = -20,     /* lk_raw_queue_close: this side has not left yet; a close of an area: the caller has chunks */
    LK_SIDE_TAKEN = -21,   /* somebody else has this side of a queue in given memory */
};

#define LK_BLANK {NULL, 0}

/* ---- Waiting ----
 *
 * What is in the words of a bell, or is answered by lk_ends, decides when a call looks again, and never what it
 * answers: that is the answer of its last try. */

enum {
    LK_SPINS = 64,         /* tries one after the other, before the processor is yielded between them */
    LK_YIELDS = 96,        /* tries before a wait naps or sleeps */
    LK_NAP_MICROS = 500,   /* the longest nap */
    LK_SLEEP_MILLIS = 50   /* the longest sleep at a bell, after which lk_ends is asked */
};

/* A bell of a queue: all zero at first, in memory that both sides have (for processes: that both map). Each side has
 * a word on its own cache line, and says there that it is about to sleep. */
typedef struct lk_bell {
    uint32_t sender __attribute__((aligned(64)));
    uint32_t receiver __attribute__((aligned(64)));
} lk_bell;

/* Asked each time a wait at a bell wakes; true ends the wait with LK_ENDED. A program asks here whether the other side is
 * still alive, or whether it was interrupted itself. Once it was true it has to stay so: a message that was there first is
 * received before the wait ends. It may be NULL. */
typedef bool (*lk_ends)(void *of);

/* Sleeps while a word has this value, and no longer than these microseconds. It may wake for no reason. */
static inline void lk_sleep_while(uint32_t *word, uint32_t value, long micros) {
    struct timespec most = {0, 1000L * micros};
#ifdef SYS_futex
    lk_system_call(SYS_futex, word, 0 /* FUTEX_WAIT, of all processes */, value, &most, NULL, 0);
#else
    (void)word;
    (void)value;
    nanosleep(&most, NULL);
#endif
}

/* What a wait does between two tries. */
static inline void lk_between(unsigned tries) {
    uint32_t nobody = 0;
    if (tries < LK_SPINS) return;
    if (tries < LK_YIELDS) {
        sched_yield();
        return;
    }
    long micros = 50L * (long)(tries - LK_YIELDS + 1);
    lk_sleep_while(&nobody, 0, tries < LK_YIELDS + 10 && micros < (long)LK_NAP_MICROS ? micros : (long)LK_NAP_MICROS);
}

/* Wakes who sleeps at a word of a bell. If nobody does it is one load. */
static inline void lk_bell_ring(uint32_t *word) {
    if (__atomic_load_n(word, __ATOMIC_SEQ_CST)) {
        __atomic_store_n(word, 0, __ATOMIC_SEQ_CST);
#ifdef SYS_futex
        lk_system_call(SYS_futex, word, 1 /* FUTEX_WAKE */, INT_MAX, NULL, NULL, 0);
#endif
    }
}

/* ---- Queues: messages from one sender to one receiver ---- */

typedef struct lk_handle {
    void *at;
    uint64_t full;
} lk_handle;

/* What liblk_queue.a exports. Each pointer has to be good, and the two handles of lk_raw_queue_new have to differ. */
int32_t lk_raw_queue_new(uint64_t ring_words, uint32_t max_bytes, lk_handle *tx, lk_handle *rx);
int32_t lk_raw_queue_send(lk_handle *tx, const uint8_t *bytes, size_t len, bool now);
int32_t lk_raw_queue_send_whole(lk_handle *tx, const uint8_t *bytes, size_t len, bool now);
int32_t lk_raw_queue_flush(lk_handle *tx);
int32_t lk_raw_queue_receive(lk_handle *rx, uint8_t *out, size_t room, size_t *len);
int32_t lk_raw_queue_leave(lk_handle *handle);
int32_t lk_raw_queue_close(lk_handle *handle);

/* A queue over a ring of ring_words words of 8 bytes, a power of two up to 2^20, for messages of at most max_bytes bytes,
 * 2^20 at most. A message may be longer than the ring, and then needs a receiver at work. Both handles have to be blank.
 * LK_BAD_SIZE, LK_NO_MEMORY, LK_IN_USE. */
static inline int lk_queue_new_try(uint64_t ring_words, uint32_t max_bytes, lk_handle *tx, lk_handle *rx) {
    if (!tx || !rx) return LK_NULL;
    if (tx == rx) return LK_IN_USE;
    return lk_raw_queue_new(ring_words, max_bytes, tx, rx);
}

/* Sends a message, or answers LK_WOULD_BLOCK; then a part of it may be on the ring, and until it is sent no other may be
 * (LK_OTHER_MESSAGE). LK_DETACHED if the receiver has left, LK_TOO_LONG. The bytes are copied. */
static inline int lk_queue_send_try(lk_handle *tx, const void *bytes, size_t len, int flags) {
    if (!tx || (!bytes && len)) return LK_NULL;
    return lk_raw_queue_send(tx, bytes ? (const uint8_t *)bytes : (const uint8_t *)"", len, !(flags & LK_LATER));
}

/* Sends a message whole or not at all: after LK_WOULD_BLOCK nothing of it is on the ring, and the next message may be any
 * other. But one that lk_queue_send_try has begun has to be sent first (LK_OTHER_MESSAGE); this call sends the rest of it
 * too. LK_TOO_LONG also if the ring is too short: there a message takes a word and its bytes, rounded up to 8. LK_DETACHED
 * if the receiver has left. The bytes are copied. */
static inline int lk_queue_send_whole_try(lk_handle *tx, const void *bytes, size_t len, int flags) {
    if (!tx || (!bytes && len)) return LK_NULL;
    return lk_raw_queue_send_whole(tx, bytes ? (const uint8_t *)bytes : (const uint8_t *)"", len, !(flags & LK_LATER));
}

/* As lk_queue_send_try, and waits while the ring is full. */
static inline int lk_queue_send_wait(lk_handle *tx, const void *bytes, size_t len, int flags) {
    int code;
    for (unsigned tries = 0; (code = lk_queue_send_try(tx, bytes, len, flags)) == LK_WOULD_BLOCK; tries++) lk_between(tries);
    return code;
}

/* The same, asleep while the ring is full, and it wakes a receiver that sleeps. Both sides have to use the bell. Every step
 * here and in the libraries is sequentially consistent: a side that is about to sleep says so and then tries once more, the
 * other one acts and then looks; so one of the two sees the other. LK_ENDED: a part of the message may be on the ring. */
static inline int lk_queue_send_park(lk_handle *tx, lk_bell *bell, const void *bytes, size_t len, int flags, lk_ends ends, void *of) {
    if (!bell) return LK_NULL;
    for (unsigned tries = 0;; tries++) {
        bool sleeps = tries >= LK_SPINS;
        if (sleeps) __atomic_store_n(&bell->sender, 1, __ATOMIC_SEQ_CST);
        int code = lk_queue_send_try(tx, bytes, len, flags);
        lk_bell_ring(&bell->receiver); /* also for a part of a message that is longer than the ring */
        if (code != LK_WOULD_BLOCK) {
            if (sleeps) __atomic_store_n(&bell->sender, 0, __ATOMIC_SEQ_CST);
            return code;
        }
        if (!sleeps) continue;
        lk_sleep_while(&bell->sender, 1, 1000L * LK_SLEEP_MILLIS);
        if (ends && ends(of)) {
            code = lk_queue_send_try(tx, bytes, len, flags); /* the other side may have made room before it went */
            lk_bell_ring(&bell->receiver);
            return code == LK_WOULD_BLOCK ? LK_ENDED : code;
        }
    }
}

/* Shows the receiver all that was sent. */
static inline int lk_queue_flush_try(lk_handle *tx) {
    return tx ? lk_raw_queue_flush(tx) : LK_NULL;
}

/* At LK_OK the next message is in out[0 .. *len]. The room has to be the queue's max_bytes at least: else
 * LK_SHORT_BUFFER, and *len is how much it has to be. LK_WOULD_BLOCK if no whole message is there, LK_DETACHED if
 * the sender has left and all was received. */
static inline int lk_queue_receive_try(lk_handle *rx, void *out, size_t room, size_t *len) {
    uint8_t none = 0;
    if (!rx || !len || (!out && room)) return LK_NULL;
    return lk_raw_queue_receive(rx, out ? (uint8_t *)out : &none, room, len);
}

/* The same, and waits while no whole message is there. */
static inline int lk_queue_receive_wait(lk_handle *rx, void *out, size_t room, size_t *len) {
    int code;
    for (unsigned tries = 0; (code = lk_queue_receive_try(rx, out, room, len)) == LK_WOULD_BLOCK; tries++) lk_between(tries);
    return code;
}

/* The same, asleep while no whole message is there, and it wakes a sender that sleeps. Both sides have to use the bell. */
static inline int lk_queue_receive_park(lk_handle *rx, lk_bell *bell, void *out, size_t room, size_t *len, lk_ends ends, void *of) {
    if (!bell) return LK_NULL;
    for (unsigned tries = 0;; tries++) {
        bool sleeps = tries >= LK_SPINS;
        if (sleeps) __atomic_store_n(&bell->receiver, 1, __ATOMIC_SEQ_CST);
        int code = lk_queue_receive_try(rx, out, room, len);
        lk_bell_ring(&bell->sender);
        if (code != LK_WOULD_BLOCK) {
            if (sleeps) __atomic_store_n(&bell->receiver, 0, __ATOMIC_SEQ_CST);
            return code;
        }
        if (!sleeps) continue;
        lk_sleep_while(&bell->receiver, 1, 1000L * LK_SLEEP_MILLIS);
        if (ends && ends(of)) {
            code = lk_queue_receive_try(rx, out, room, len); /* a message may have come before the other side went */
            return code == LK_WOULD_BLOCK ? LK_ENDED : code;
        }
    }
}

/* Leaves the queue on one side, and lets the other know. What was sent can still be received. A second time: LK_GONE. */
static inline int lk_queue_leave_try(lk_handle *handle) {
    return handle ? lk_raw_queue_leave(handle) : LK_NULL;
}

/* Leaves, if that was not done, and gives the side's memory back; the handle is blank then. */
static inline int lk_queue_close_try(lk_handle *handle) {
    if (!handle) return LK_NULL;
    lk_raw_queue_leave(handle);
    return lk_raw_queue_close(handle);
}

/* The same calls, and they wake a side that sleeps at the bell. */
static inline int lk_queue_flush_park(lk_handle *tx, lk_bell *bell) {
    if (!bell) return LK_NULL;
    int code = lk_queue_flush_try(tx);
    lk_bell_ring(&bell->receiver);
    return code;
}

static inline int lk_queue_close_park(lk_handle *handle, lk_bell *bell) {
    if (!bell) return LK_NULL;
    int code = lk_queue_close_try(handle);
    lk_bell_ring(&bell->sender);
    lk_bell_ring(&bell->receiver);
    return code;
}

/* ---- Queues in memory that the program brings ----
 *
 * The program gives memory once, for good, at an address that 16 divides, and the library makes a queue in it. Nothing
 * that it stores there is an address. So processes may map this memory at different addresses: each calls with a place,
 * which is its three addresses of the queue's parts.
 *
 * A process takes a side of the queue into a handle in its memory, and that is a handle as any other: all calls above
 * serve it. The side that receives is taken first, and the side that sends once a receiver has come; each is taken once.
 *
 * What the program owes: the memory is its own, is used for nothing else, and is mapped as long as there are handles; a
 * place is that of a queue which was made there. No call finds out if it is otherwise. */

enum { LK_HEAD_BYTES = 1024, LK_PLACE_ALIGNMENT = 16 };

/* Memory that the program gives away. */
typedef struct lk_given {
    void *at;
    size_t size;
} lk_given;

/* A queue in this process: the addresses of its head, and of the words and the slots of its ring. */
typedef struct lk_site {
    void *at;
} lk_site;

typedef struct lk_rows {
    void *words;
    void *slots;
} lk_rows;

typedef struct lk_place {
    lk_site site;
    lk_rows rows;
} lk_place;

/* What liblk_queue.a exports for it. */
int32_t lk_raw_queue_given(lk_given head, lk_given words, lk_given slots, uint64_t ring_words, uint32_t max_bytes, lk_site *site, lk_rows *rows);
int32_t lk_raw_queue_receiver(lk_site site, lk_rows rows, lk_handle *rx);
int32_t lk_raw_queue_sender(lk_site site, lk_rows rows, lk_handle *tx);

/* The bytes of one row, and of all that a queue takes. */
static inline size_t lk_row_bytes(uint64_t ring_words) {
    return (((size_t)ring_words + 4) * 8 + 15) & ~(size_t)15;
}

static inline size_t lk_place_bytes(uint64_t ring_words) {
    return LK_HEAD_BYTES + 2 * lk_row_bytes(ring_words);
}

/* The place of the queue that was made at the front of this memory, which may be another process's mapping of it. */
static inline lk_place lk_place_at(void *memory, uint64_t ring_words) {
    uint8_t *head = (uint8_t *)memory, *words = head + LK_HEAD_BYTES, *slots = words + lk_row_bytes(ring_words);
    lk_place place = {{head}, {words, slots}};
    return place;
}

/* Makes a queue in lk_place_bytes(ring_words) bytes of memory. One process does it, before any other takes a side. The
 * sizes are those of lk_queue_new_try. LK_NULL, LK_BAD_SIZE, LK_NO_MEMORY. */
static inline int lk_queue_new_in(void *memory, size_t bytes, uint64_t ring_words, uint32_t max_bytes) {
    if (!memory) return LK_NULL;
    if ((uintptr_t)memory % LK_PLACE_ALIGNMENT || ring_words > 1u << 20 || bytes < lk_place_bytes(ring_words)) return LK_BAD_SIZE;
    lk_place place = lk_place_at(memory, ring_words), made = {{NULL}, {NULL, NULL}};
    lk_given head = {place.site.at, LK_HEAD_BYTES};
    lk_given words = {place.rows.words, lk_row_bytes(ring_words)}, slots = {place.rows.slots, lk_row_bytes(ring_words)};
    int code = lk_raw_queue_given(head, words, slots, ring_words, max_bytes, &made.site, &made.rows);
    if (code != LK_OK) return code;
    bool there = made.site.at == place.site.at && made.rows.words == place.rows.words && made.rows.slots == place.rows.slots;
    return there ? LK_OK : LK_BAD_SIZE;
}

/* The side that receives, into a blank handle. LK_SIDE_TAKEN, LK_IN_USE, LK_NO_MEMORY. */
static inline int lk_queue_receiver_try(lk_place place, lk_handle *rx) {
    return place.site.at && rx ? lk_raw_queue_receiver(place.site, place.rows, rx) : LK_NULL;
}

/* The side that sends, into a blank handle. LK_WOULD_BLOCK while no receiver has come, or while another process is just at
 * the queue's head; LK_SIDE_TAKEN, LK_IN_USE, LK_NO_MEMORY. */
static inline int lk_queue_sender_try(lk_place place, lk_handle *tx) {
    return place.site.at && tx ? lk_raw_queue_sender(place.site, place.rows, tx) : LK_NULL;
}

/* The same, and waits for a receiver. */
static inline int lk_queue_sender_wait(lk_place place, lk_handle *tx) {
    int code;
    for (unsigned tries = 0; (code = lk_queue_sender_try(place, tx)) == LK_WOULD_BLOCK; tries++) lk_between(tries);
    return code;
}

/* ---- Hash tables: 64-bit words under 64-bit keys, for many callers ----
 *
 * Words. Each caller brings words of 8 bytes. A new key takes 4 of its caller's, and a caller that takes a key out has them for
 * a key of its own. The table has 128 partitions; one that has more keys than three quarters of its buckets (1, 2, 4 ..)
 * doubles them before a new key comes in, and takes as many words as it has buckets then, of the caller who brings the
 * key. For n keys whose hashes are spread that makes 7 n to 10 n words in all. */

typedef struct lk_table_try {
    void *at;
    uint64_t full;
} lk_table_try;

/* What liblk_table.a exports. Each pointer has to be good, the two handles of lk_raw_table_share have to differ, and what
 * lk_raw_table_list writes has to lie apart: both rows and the count. */
int32_t lk_raw_table_new(uint32_t callers, uint64_t words, lk_table_try *first);
int32_t lk_raw_table_new_with_seed(uint32_t callers, uint64_t words, uint64_t seed, lk_table_try *first);
int32_t lk_raw_table_share(uint64_t words, lk_table_try *from, lk_table_try *next);
int32_t lk_raw_table_put(lk_table_try *table, uint64_t key, uint64_t word, uint64_t *old);
int32_t lk_raw_table_add(lk_table_try *table, uint64_t key, uint64_t more, uint64_t *old);
int32_t lk_raw_table_put_absent(lk_table_try *table, uint64_t key, uint64_t word, uint64_t *old);
int32_t lk_raw_table_compare_and_swap(lk_table_try *table, uint64_t key, uint64_t expected, uint64_t word, uint64_t *old);
int32_t lk_raw_table_get(lk_table_try *table, uint64_t key, uint64_t *word);
int32_t lk_raw_table_delete(lk_table_try *table, uint64_t key, uint64_t *old);
int32_t lk_raw_table_count(lk_table_try *table, uint32_t partition, uint64_t *keys);
int32_t lk_raw_table_list(lk_table_try *table, uint32_t partition, uint64_t *keys, size_t keys_room, uint64_t *values, size_t values_room, uint64_t *count);
int32_t lk_raw_table_close(lk_table_try *table);

/* An empty table for this number of callers, and a handle of the first one, which has all words. The handle has to be blank.
 * LK_BAD_SIZE (above 67,108,735 words), LK_BAD_CALLERS, LK_NO_MEMORY, LK_IN_USE. */
static inline int lk_table_new_try(uint32_t callers, uint64_t words, lk_table_try *first) {
    return first ? lk_raw_table_new(callers, words, first) : LK_NULL;
}

/* The same with a seed, for keys that strangers choose: draw one, from getrandom for example, and keep it from them. Without one
 * (0) the hash is known, and keys can be chosen that all lie in one chain, which each call then walks. With one, each call hashes its
 * key once more, by SipHash-1-3. */
static inline int lk_table_new_with_seed_try(uint32_t callers, uint64_t words, uint64_t seed, lk_table_try *first) {
    return first ? lk_raw_table_new_with_seed(callers, words, seed, first) : LK_NULL;
}

/* A handle of a further caller, which gets this number of its words, at least 1. It has to be blank. LK_BAD_CALLERS if
 * all callers have handles, LK_NO_SPACE, LK_IN_USE; LK_NO_MEMORY, and then the further caller may be lost with its words. */
static inline int lk_table_share_try(lk_table_try *from, uint64_t words, lk_table_try *next) {
    if (!from || !next) return LK_NULL;
    if (from == next) return LK_IN_USE;
    return lk_raw_table_share(words, from, next);
}

/* Puts a value under a key. LK_OK: the key was there, and *old (which may be NULL) is its value before. LK_ABSENT: it was
 * not. LK_WOULD_BLOCK and LK_GROWN: call again. LK_NO_SPACE: a new key, or its partition, has no room. LK_NO_MEMORY: none for
 * the places of what the caller keeps, and nothing was done. */
static inline int lk_table_put_try(lk_table_try *table, uint64_t key, uint64_t value, uint64_t *old) {
    uint64_t none = 0;
    return table ? lk_raw_table_put(table, key, value, old ? old : &none) : LK_NULL;
}

/* Adds to the value of a key, modulo 2^64; a key that is not there has it then. The same codes. */
static inline int lk_table_add_try(lk_table_try *table, uint64_t key, uint64_t more, uint64_t *old) {
    uint64_t none = 0;
    return table ? lk_raw_table_add(table, key, more, old ? old : &none) : LK_NULL;
}

/* Puts a value under a key that is not there. LK_ABSENT: it was not, and has this value now. LK_OK: it was there, and keeps
 * its value, which is *old (which may be NULL). The other codes as above. */
static inline int lk_table_put_absent_try(lk_table_try *table, uint64_t key, uint64_t value, uint64_t *old) {
    uint64_t none = 0;
    return table ? lk_raw_table_put_absent(table, key, value, old ? old : &none) : LK_NULL;
}

/* If a key has the value `expected`, it has `value` then, in one step for all callers. LK_OK: the key was there, and *old is
 * its value before: it was changed exactly if that is `expected`. LK_ABSENT: there is no such key. The other codes as
 * above, but never LK_GROWN or LK_NO_SPACE. */
static inline int lk_table_compare_and_swap_try(lk_table_try *table, uint64_t key, uint64_t expected, uint64_t value, uint64_t *old) {
    return table && old ? lk_raw_table_compare_and_swap(table, key, expected, value, old) : LK_NULL;
}

/* LK_OK: *value is the key's. LK_ABSENT: there is no such key. LK_WOULD_BLOCK. */
static inline int lk_table_get_try(lk_table_try *table, uint64_t key, uint64_t *value) {
    return table && value ? lk_raw_table_get(table, key, value) : LK_NULL;
}

/* Takes a key out. LK_OK: it was there, and *old (which may be NULL) was its value. LK_ABSENT, LK_WOULD_BLOCK, LK_NO_MEMORY. */
static inline int lk_table_delete_try(lk_table_try *table, uint64_t key, uint64_t *old) {
    uint64_t none = 0;
    return table ? lk_raw_table_delete(table, key, old ? old : &none) : LK_NULL;
}

enum { LK_PARTITIONS = 128 };

/* LK_OK: *keys is how many keys a partition has, from 0 to LK_PARTITIONS - 1. LK_WOULD_BLOCK, LK_BAD_SIZE. */
static inline int lk_table_count_try(lk_table_try *table, uint32_t partition, uint64_t *keys) {
    return table && keys ? lk_raw_table_count(table, partition, keys) : LK_NULL;
}

/* LK_OK: keys[0 .. *count] are the keys of a partition, in no stated order, and values[0 .. *count] the values under them, each
 * key once, all as they were at one moment; what follows in the two rows is as before. Each row has `room` places, and they lie
 * apart. LK_SHORT_BUFFER: the partition has *count keys, more than the rows have places, and nothing was written to them. After
 * LK_WOULD_BLOCK, LK_BAD_SIZE and LK_NO_MEMORY *count is 0 and the rows are as before; the library takes memory for the entries,
 * 48 bytes each, until the call ends. A key has the same partition always, so a program that lists each partition once gets no
 * key twice. */
static inline int lk_table_list_try(lk_table_try *table, uint32_t partition, uint64_t *keys, uint64_t *values, size_t room, uint64_t *count) {
    uint64_t none = 0;
    if (!table || !count || ((!keys || !values) && room)) return LK_NULL;
    return lk_raw_table_list(table, partition, keys ? keys : &none, room, values ? values : &none, room, count);
}

/* The caller goes, and the handle is blank. */
static inline int lk_table_close_try(lk_table_try *table) {
    return table ? lk_raw_table_close(table) : LK_NULL;
}

/* Whether a call that answered so is to be made again: another caller had the partition, or it had to grow. `tries` counts
 * the times that another had it, and decides how long is waited. */
static inline bool lk_table_again(int code, unsigned *tries) {
    if (code == LK_WOULD_BLOCK) lk_between((*tries)++);
    return code == LK_WOULD_BLOCK || code == LK_GROWN;
}

/* The same calls, again and again as long as that is so. */
static inline int lk_table_put_wait(lk_table_try *table, uint64_t key, uint64_t value, uint64_t *old) {
    unsigned tries = 0;
    int code;
    while (lk_table_again(code = lk_table_put_try(table, key, value, old), &tries)) continue;
    return code;
}

static inline int lk_table_add_wait(lk_table_try *table, uint64_t key, uint64_t more, uint64_t *old) {
    unsigned tries = 0;
    int code;
    while (lk_table_again(code = lk_table_add_try(table, key, more, old), &tries)) continue;
    return code;
}

static inline int lk_table_put_absent_wait(lk_table_try *table, uint64_t key, uint64_t value, uint64_t *old) {
    unsigned tries = 0;
    int code;
    while (lk_table_again(code = lk_table_put_absent_try(table, key, value, old), &tries)) continue;
    return code;
}

static inline int lk_table_compare_and_swap_wait(lk_table_try *table, uint64_t key, uint64_t expected, uint64_t value, uint64_t *old) {
    unsigned tries = 0;
    int code;
    while (lk_table_again(code = lk_table_compare_and_swap_try(table, key, expected, value, old), &tries)) continue;
    return code;
}

static inline int lk_table_get_wait(lk_table_try *table, uint64_t key, uint64_t *value) {
    unsigned tries = 0;
    int code;
    while (lk_table_again(code = lk_table_get_try(table, key, value), &tries)) continue;
    return code;
}

static inline int lk_table_delete_wait(lk_table_try *table, uint64_t key, uint64_t *old) {
    unsigned tries = 0;
    int code;
    while (lk_table_again(code = lk_table_delete_try(table, key, old), &tries)) continue;
    return code;
}

/* LK_OK: *keys is how many keys the table has, partition by partition, each at its own moment. */
static inline int lk_table_count_wait(lk_table_try *table, uint64_t *keys) {
    uint64_t sum = 0, some = 0;
    if (!table || !keys) return LK_NULL;
    for (uint32_t partition = 0; partition < LK_PARTITIONS; partition++) {
        unsigned tries = 0;
        int code;
        while (lk_table_again(code = lk_table_count_try(table, partition, &some), &tries)) continue;
        if (code != LK_OK) return code;
        sum += some;
    }
    *keys = sum;
    return LK_OK;
}

static inline int lk_table_list_wait(lk_table_try *table, uint32_t partition, uint64_t *keys, uint64_t *values, size_t room, uint64_t *count) {
    unsigned tries = 0;
    int code;
    while (lk_table_again(code = lk_table_list_try(table, partition, keys, values, room, count), &tries)) continue;
    return code;
}

/* ---- Hash tables of records: up to 16 words under a 64-bit key, for many callers ----
 *
 * Words. As those of the tables above, but a new key takes 20 of them. For n keys whose hashes are spread that makes 23 n to
 * 26 n words in all.
 *
 * A record is put and read as a whole, all of its 136 bytes, in one step for all callers. The library does not look at its
 * count, which says how many of its words the program means. */

enum { LK_RECORD_WORDS = 16 };

typedef struct lk_record {
    uint64_t count;
    uint64_t words[LK_RECORD_WORDS];
} lk_record;

typedef struct lk_records_try {
    void *at;
    uint64_t full;
} lk_records_try;

/* What liblk_records.a exports. Each pointer has to be good, the two handles of lk_raw_records_share and the two records of a put
 * have to differ, and what lk_raw_records_list writes has to lie apart: both rows and the count. */
int32_t lk_raw_records_new(uint32_t callers, uint64_t words, lk_records_try *first);
int32_t lk_raw_records_new_with_seed(uint32_t callers, uint64_t words, uint64_t seed, lk_records_try *first);
int32_t lk_raw_records_share(uint64_t words, lk_records_try *from, lk_records_try *next);
int32_t lk_raw_records_put(lk_records_try *table, uint64_t key, const lk_record *value, lk_record *old);
int32_t lk_raw_records_put_absent(lk_records_try *table, uint64_t key, const lk_record *value, lk_record *old);
int32_t lk_raw_records_get(lk_records_try *table, uint64_t key, lk_record *value);
int32_t lk_raw_records_delete(lk_records_try *table, uint64_t key, lk_record *old);
int32_t lk_raw_records_count(lk_records_try *table, uint32_t partition, uint64_t *keys);
int32_t lk_raw_records_list(lk_records_try *table, uint32_t partition, uint64_t *keys, size_t keys_room, lk_record *values, size_t values_room, uint64_t *count);
int32_t lk_raw_records_close(lk_records_try *table);

/* A record of these words, of which there are at most 16: else LK_BAD_SIZE. Its further words are 0. */
static inline int lk_record_of(const uint64_t *words, size_t count, lk_record *value) {
    if (!value || (!words && count)) return LK_NULL;
    if (count > LK_RECORD_WORDS) return LK_BAD_SIZE;
    lk_record made = {count, {0}};
    for (size_t n = 0; n < count; n++) made.words[n] = words[n];
    *value = made;
    return LK_OK;
}

/* As lk_table_new_try, lk_table_new_with_seed_try and lk_table_share_try. */
static inline int lk_records_new_try(uint32_t callers, uint64_t words, lk_records_try *first) {
    return first ? lk_raw_records_new(callers, words, first) : LK_NULL;
}

static inline int lk_records_new_with_seed_try(uint32_t callers, uint64_t words, uint64_t seed, lk_records_try *first) {
    return first ? lk_raw_records_new_with_seed(callers, words, seed, first) : LK_NULL;
}

static inline int lk_records_share_try(lk_records_try *from, uint64_t words, lk_records_try *next) {
    if (!from || !next) return LK_NULL;
    if (from == next) return LK_IN_USE;
    return lk_raw_records_share(words, from, next);
}

/* Puts a record under a key. LK_OK: the key was there, and *old (which may be NULL) is its record before. LK_ABSENT: it was not.
 * LK_WOULD_BLOCK and LK_GROWN: call again. LK_NO_SPACE: a new key, or its partition, has no room. LK_NO_MEMORY: none for the
 * places of what the caller keeps, and nothing was done. LK_BAD_SIZE: its count is above 16. LK_IN_USE: both pointers are one. */
static inline int lk_records_put_try(lk_records_try *table, uint64_t key, const lk_record *value, lk_record *old) {
    lk_record none = {0, {0}};
    if (!table || !value) return LK_NULL;
    if (value == old) return LK_IN_USE;
    if (value->count > LK_RECORD_WORDS) return LK_BAD_SIZE;
    return lk_raw_records_put(table, key, value, old ? old : &none);
}

/* Puts a record under a key that is not there. LK_ABSENT: it was not, and has this record now. LK_OK: it was there, and keeps its
 * record, which is *old (which may be NULL). The other codes as above. */
static inline int lk_records_put_absent_try(lk_records_try *table, uint64_t key, const lk_record *value, lk_record *old) {
    lk_record none = {0, {0}};
    if (!table || !value) return LK_NULL;
    if (value == old) return LK_IN_USE;
    if (value->count > LK_RECORD_WORDS) return LK_BAD_SIZE;
    return lk_raw_records_put_absent(table, key, value, old ? old : &none);
}

/* LK_OK: *value is the key's record. LK_ABSENT: there is no such key. LK_WOULD_BLOCK. */
static inline int lk_records_get_try(lk_records_try *table, uint64_t key, lk_record *value) {
    return table && value ? lk_raw_records_get(table, key, value) : LK_NULL;
}

/* Takes a key out. LK_OK: it was there, and *old (which may be NULL) was its record. LK_ABSENT, LK_WOULD_BLOCK, LK_NO_MEMORY. */
static inline int lk_records_delete_try(lk_records_try *table, uint64_t key, lk_record *old) {
    lk_record none = {0, {0}};
    return table ? lk_raw_records_delete(table, key, old ? old : &none) : LK_NULL;
}

/* As lk_table_count_try and lk_table_list_try; the library takes 176 bytes for each entry of a listing, until the call ends. */
static inline int lk_records_count_try(lk_records_try *table, uint32_t partition, uint64_t *keys) {
    return table && keys ? lk_raw_records_count(table, partition, keys) : LK_NULL;
}

static inline int lk_records_list_try(lk_records_try *table, uint32_t partition, uint64_t *keys, lk_record *values, size_t room, uint64_t *count) {
    uint64_t no_key = 0;
    lk_record none = {0, {0}};
    if (!table || !count || ((!keys || !values) && room)) return LK_NULL;
    return lk_raw_records_list(table, partition, keys ? keys : &no_key, room, values ? values : &none, room, count);
}

/* The caller goes, and the handle is blank. */
static inline int lk_records_close_try(lk_records_try *table) {
    return table ? lk_raw_records_close(table) : LK_NULL;
}

/* The same calls, again and again as long as another caller had the partition, or it had to grow. */
static inline int lk_records_put_wait(lk_records_try *table, uint64_t key, const lk_record *value, lk_record *old) {
    unsigned tries = 0;
    int code;
    while (lk_table_again(code = lk_records_put_try(table, key, value, old), &tries)) continue;
    return code;
}

static inline int lk_records_put_absent_wait(lk_records_try *table, uint64_t key, const lk_record *value, lk_record *old) {
    unsigned tries = 0;
    int code;
    while (lk_table_again(code = lk_records_put_absent_try(table, key, value, old), &tries)) continue;
    return code;
}

static inline int lk_records_get_wait(lk_records_try *table, uint64_t key, lk_record *value) {
    unsigned tries = 0;
    int code;
    while (lk_table_again(code = lk_records_get_try(table, key, value), &tries)) continue;
    return code;
}

static inline int lk_records_delete_wait(lk_records_try *table, uint64_t key, lk_record *old) {
    unsigned tries = 0;
    int code;
    while (lk_table_again(code = lk_records_delete_try(table, key, old), &tries)) continue;
    return code;
}

/* LK_OK: *keys is how many keys the table has, partition by partition, each at its own moment. */
static inline int lk_records_count_wait(lk_records_try *table, uint64_t *keys) {
    uint64_t sum = 0, some = 0;
    if (!table || !keys) return LK_NULL;
    for (uint32_t partition = 0; partition < LK_PARTITIONS; partition++) {
        unsigned tries = 0;
        int code;
        while (lk_table_again(code = lk_records_count_try(table, partition, &some), &tries)) continue;
        if (code != LK_OK) return code;
        sum += some;
    }
    *keys = sum;
    return LK_OK;
}

static inline int lk_records_list_wait(lk_records_try *table, uint32_t partition, uint64_t *keys, lk_record *values, size_t room, uint64_t *count) {
    unsigned tries = 0;
    int code;
    while (lk_table_again(code = lk_records_list_try(table, partition, keys, values, room, count), &tries)) continue;
    return code;
}

/* ---- Barriers: phases that end when all who take part have arrived ----
 *
 * Callers attach and detach at will. A phase ends when all who take part have arrived, and its end elects one of them. Let
 * all of them attach before the first one arrives: else that one ends a phase by itself. */

typedef struct lk_barrier_try {
    void *at;
    uint64_t full;
} lk_barrier_try;

/* What a call writes: the phase that is on, from 0 on, and 1 or 0, of which the calls say what it means. */
typedef struct lk_phase {
    uint64_t phase;
    uint32_t flag;
} lk_phase;

/* What liblk_barrier.a exports. Each pointer has to be good, and the two handles of lk_raw_barrier_share have to differ. */
int32_t lk_raw_barrier_new(uint32_t callers, lk_barrier_try *first);
int32_t lk_raw_barrier_share(lk_barrier_try *from, lk_barrier_try *next);
int32_t lk_raw_barrier_attach(lk_barrier_try *barrier, uint64_t *phase, uint32_t *flag);
int32_t lk_raw_barrier_arrive(lk_barrier_try *barrier, uint64_t *phase, uint32_t *flag);
int32_t lk_raw_barrier_look(lk_barrier_try *barrier, uint64_t *phase, uint32_t *flag);
int32_t lk_raw_barrier_detach(lk_barrier_try *barrier, uint64_t *phase, uint32_t *flag);
int32_t lk_raw_barrier_arrive_and_detach(lk_barrier_try *barrier, uint64_t *phase, uint32_t *flag);
int32_t lk_raw_barrier_arrive_and_detach_except_last(lk_barrier_try *barrier, uint64_t *phase, uint32_t *flag);
int32_t lk_raw_barrier_close(lk_barrier_try *barrier);

/* A barrier for this number of callers, of whom nobody takes part yet, and a handle of the first one. The handle has to be
 * blank. LK_BAD_CALLERS, LK_NO_MEMORY, LK_IN_USE. */
static inline int lk_barrier_new_try(uint32_t callers, lk_barrier_try *first) {
    return first ? lk_raw_barrier_new(callers, first) : LK_NULL;
}

/* A handle of a further caller. It has to be blank. LK_BAD_CALLERS if all callers have handles, LK_IN_USE; LK_NO_MEMORY,
 * and then the further caller may be lost. */
static inline int lk_barrier_share_try(lk_barrier_try *from, lk_barrier_try *next) {
    if (!from || !next) return LK_NULL;
    if (from == next) return LK_IN_USE;
    return lk_raw_barrier_share(from, next);
}

/* All calls from here on: LK_WOULD_BLOCK if another caller is at the barrier at this moment; then nothing was done. `told`
 * may be NULL, and is written after LK_OK, LK_ALREADY_IN, LK_NOT_IN and LK_TWICE: the phase that is on. After the last three
 * the flag is 0 and nothing was changed. */

/* The caller takes part from now on. LK_ALREADY_IN. */
static inline int lk_barrier_attach_try(lk_barrier_try *barrier, lk_phase *told) {
    lk_phase none = {0, 0}, *to = told ? told : &none;
    return barrier ? lk_raw_barrier_attach(barrier, &to->phase, &to->flag) : LK_NULL;
}

/* The caller arrives. LK_OK: it was the last one, so the phase has ended, and the flag is 1: it is elected. LK_WAITING: another
 * has yet to arrive; then look. LK_NOT_IN, LK_TWICE. */
static inline int lk_barrier_arrive_try(lk_barrier_try *barrier, lk_phase *told) {
    lk_phase none = {0, 0}, *to = told ? told : &none;
    return barrier ? lk_raw_barrier_arrive(barrier, &to->phase, &to->flag) : LK_NULL;
}

/* Changes nothing. LK_OK: the phase in which the caller arrived has ended; the flag is 1 if it is elected. LK_WAITING: it has
 * not. LK_NOT_IN. */
static inline int lk_barrier_look_try(lk_barrier_try *barrier, lk_phase *told) {
    lk_phase none = {0, 0}, *to = told ? told : &none;
    return barrier ? lk_raw_barrier_look(barrier, &to->phase, &to->flag) : LK_NULL;
}

/* The caller takes part no more. If all who stay have arrived, the phase ends, and one of them is elected. The flag is 1 if
 * nobody takes part any more. LK_NOT_IN. */
static inline int lk_barrier_detach_try(lk_barrier_try *barrier, lk_phase *told) {
    lk_phase none = {0, 0}, *to = told ? told : &none;
    return barrier ? lk_raw_barrier_detach(barrier, &to->phase, &to->flag) : LK_NULL;
}

/* The caller arrives and takes part no more; the flag as above. LK_NOT_IN, LK_TWICE. */
static inline int lk_barrier_arrive_and_detach_try(lk_barrier_try *barrier, lk_phase *told) {
    lk_phase none = {0, 0}, *to = told ? told : &none;
    return barrier ? lk_raw_barrier_arrive_and_detach(barrier, &to->phase, &to->flag) : LK_NULL;
}

/* The same, unless it is the last one that takes part: then the flag is 1, the phase has ended, and the caller is elected and
 * takes part still. LK_NOT_IN, LK_TWICE. */
static inline int lk_barrier_arrive_and_detach_except_last_try(lk_barrier_try *barrier, lk_phase *told) {
    lk_phase none = {0, 0}, *to = told ? told : &none;
    return barrier ? lk_raw_barrier_arrive_and_detach_except_last(barrier, &to->phase, &to->flag) : LK_NULL;
}

/* The caller detaches, if it takes part, and goes; the handle is blank then. */
static inline int lk_barrier_close_try(lk_barrier_try *barrier) {
    return barrier ? lk_raw_barrier_close(barrier) : LK_NULL;
}

/* The same calls, again and again as long as another caller is at the barrier. */
static inline int lk_barrier_attach_wait(lk_barrier_try *barrier, lk_phase *told) {
    int code;
    for (unsigned tries = 0; (code = lk_barrier_attach_try(barrier, told)) == LK_WOULD_BLOCK; tries++) lk_between(tries);
    return code;
}

static inline int lk_barrier_arrive_wait(lk_barrier_try *barrier, lk_phase *told) {
    int code;
    for (unsigned tries = 0; (code = lk_barrier_arrive_try(barrier, told)) == LK_WOULD_BLOCK; tries++) lk_between(tries);
    return code;
}

static inline int lk_barrier_detach_wait(lk_barrier_try *barrier, lk_phase *told) {
    int code;
    for (unsigned tries = 0; (code = lk_barrier_detach_try(barrier, told)) == LK_WOULD_BLOCK; tries++) lk_between(tries);
    return code;
}

static inline int lk_barrier_arrive_and_detach_wait(lk_barrier_try *barrier, lk_phase *told) {
    int code;
    for (unsigned tries = 0; (code = lk_barrier_arrive_and_detach_try(barrier, told)) == LK_WOULD_BLOCK; tries++) lk_between(tries);
    return code;
}

static inline int lk_barrier_arrive_and_detach_except_last_wait(lk_barrier_try *barrier, lk_phase *told) {
    int code;
    for (unsigned tries = 0; (code = lk_barrier_arrive_and_detach_except_last_try(barrier, told)) == LK_WOULD_BLOCK; tries++) lk_between(tries);
    return code;
}

static inline int lk_barrier_close_wait(lk_barrier_try *barrier) {
    int code;
    for (unsigned tries = 0; (code = lk_barrier_close_try(barrier)) == LK_WOULD_BLOCK; tries++) lk_between(tries);
    return code;
}

/* Looks again and again until the phase has ended in which the caller arrived: forever, if another who takes part neither
 * arrives nor detaches nor closes. */
static inline int lk_barrier_await_wait(lk_barrier_try *barrier, lk_phase *told) {
    int code;
    for (unsigned tries = 0; (code = lk_barrier_look_try(barrier, told)) == LK_WOULD_BLOCK || code == LK_WAITING; tries++) lk_between(tries);
    return code;
}

/* Arrives, and waits so until the phase has ended. LK_NOT_IN, LK_TWICE. */
static inline int lk_barrier_wait_all(lk_barrier_try *barrier, lk_phase *told) {
    int code = lk_barrier_arrive_wait(barrier, told);
    return code == LK_WAITING ? lk_barrier_await_wait(barrier, told) : code;
}

/* ---- Areas: memory that many callers take and give back, in chunks of words ----
 *
 * A caller names its chunks by numbers, which the area gives out: a number may come again once its chunk was freed. The words of
 * a chunk are its caller's own, and are read and written by the calls here: no call ever touches another caller's chunk. An
 * area has pages of 4,096 bytes. Chunks of up to 8,192 bytes are cut from 16 pages at a time for each of 36 size classes;
 * such 16 pages go back when all of their chunks have, but for the last ones of each class, which go back by a trim. Larger
 * chunks are whole pages. */

typedef struct lk_area_try {
    void *at;
    uint64_t full;
} lk_area_try;

/* The numbers of the size classes: from LK_FIRST_CLASS on, below LK_END_CLASS. */
enum { LK_FIRST_CLASS = 2, LK_END_CLASS = 38 };

/* What liblk_area.a exports. Each pointer has to be good, and the two handles of lk_raw_area_share have to differ. */
int32_t lk_raw_area_new(uint32_t callers, uint32_t pages, lk_area_try *first);
int32_t lk_raw_area_share(lk_area_try *from, lk_area_try *next);
int32_t lk_raw_area_alloc(lk_area_try *area, uint64_t wanted, uint64_t *number, uint64_t *bytes);
int32_t lk_raw_area_free(lk_area_try *area, uint64_t number);
int32_t lk_raw_area_trim(lk_area_try *area, uint32_t size_class);
int32_t lk_raw_area_usage(lk_area_try *area, uint32_t *used, uint32_t *largest);
int32_t lk_raw_area_read(lk_area_try *area, uint64_t number, uint64_t from, uint64_t *out, size_t count);
int32_t lk_raw_area_write(lk_area_try *area, uint64_t number, uint64_t from, const uint64_t *words, size_t count);
int32_t lk_raw_area_bytes_of(lk_area_try *area, uint64_t number, uint64_t *bytes);
int32_t lk_raw_area_next(lk_area_try *area, uint64_t from, uint64_t *number);
int32_t lk_raw_area_size(lk_area_try *area, uint64_t *bytes);
int32_t lk_raw_area_close(lk_area_try *area);

/* An area of this number of pages, 65,536 at most, for this number of callers, and a handle of the first one. The handle has
 * to be blank. It takes some 8.1 KiB a page, and half as much again while it is made. LK_BAD_SIZE, LK_BAD_CALLERS,
 * LK_NO_MEMORY, LK_IN_USE. */
static inline int lk_area_new_try(uint32_t callers, uint32_t pages, lk_area_try *first) {
    return first ? lk_raw_area_new(callers, pages, first) : LK_NULL;
}

/* A handle of a further caller. It has to be blank. LK_BAD_CALLERS if all callers have handles, LK_IN_USE; LK_NO_MEMORY,
 * and then the further caller may be lost. */
static inline int lk_area_share_try(lk_area_try *from, lk_area_try *next) {
    if (!from || !next) return LK_NULL;
    if (from == next) return LK_IN_USE;
    return lk_raw_area_share(from, next);
}

/* A chunk of at least this number of bytes, 1 to 2^30, whatever its words hold: *number is its number, and *bytes (which may be
 * NULL) is how many bytes it has: of a size class, above 24 bytes at most a third more than was wanted, and above 8,192 of
 * whole pages. LK_WOULD_BLOCK: call again. LK_NO_SPACE: no such pages are free. LK_BAD_SIZE. LK_NO_MEMORY: none for the
 * chunk's number, and nothing was done. */
static inline int lk_area_alloc_try(lk_area_try *area, uint64_t wanted, uint64_t *number, uint64_t *bytes) {
    uint64_t none = 0;
    return area && number ? lk_raw_area_alloc(area, wanted, number, bytes ? bytes : &none) : LK_NULL;
}

/* Gives a chunk back. LK_WOULD_BLOCK: call again. LK_STRANGER: the caller has no chunk of this number. */
static inline int lk_area_free_try(lk_area_try *area, uint64_t number) {
    return area ? lk_raw_area_free(area, number) : LK_NULL;
}

/* Gives the last 16 pages of a size class back, if no chunk of them is in use. LK_ABSENT: there are none such.
 * LK_WOULD_BLOCK: call again. LK_BAD_SIZE: no such class. */
static inline int lk_area_trim_try(lk_area_try *area, uint32_t size_class) {
    return area ? lk_raw_area_trim(area, size_class) : LK_NULL;
}

/* How many pages are granted, those from which chunks are cut among them, and the longest run of free ones. Either pointer
 * may be NULL. LK_WOULD_BLOCK: call again. */
static inline int lk_area_usage_try(lk_area_try *area, uint32_t *used, uint32_t *largest) {
    uint32_t none = 0, nothing = 0;
    return area ? lk_raw_area_usage(area, used ? used : &none, largest ? largest : &nothing) : LK_NULL;
}

/* The same calls, again and again as long as another caller is at the area. */
static inline int lk_area_alloc_wait(lk_area_try *area, uint64_t wanted, uint64_t *number, uint64_t *bytes) {
    int code;
    for (unsigned tries = 0; (code = lk_area_alloc_try(area, wanted, number, bytes)) == LK_WOULD_BLOCK; tries++) lk_between(tries);
    return code;
}

static inline int lk_area_free_wait(lk_area_try *area, uint64_t number) {
    int code;
    for (unsigned tries = 0; (code = lk_area_free_try(area, number)) == LK_WOULD_BLOCK; tries++) lk_between(tries);
    return code;
}

static inline int lk_area_trim_wait(lk_area_try *area, uint32_t size_class) {
    int code;
    for (unsigned tries = 0; (code = lk_area_trim_try(area, size_class)) == LK_WOULD_BLOCK; tries++) lk_between(tries);
    return code;
}

static inline int lk_area_usage_wait(lk_area_try *area, uint32_t *used, uint32_t *largest) {
    int code;
    for (unsigned tries = 0; (code = lk_area_usage_try(area, used, largest)) == LK_WOULD_BLOCK; tries++) lk_between(tries);
    return code;
}

/* The calls from here on never meet another caller, and so never answer LK_WOULD_BLOCK. */

/* Reads or writes words of a chunk, from its word `from` on. LK_STRANGER: the caller has no chunk of this number. LK_NO_WORD:
 * the chunk has no such words. After any code but LK_OK nothing was read or written. */
static inline int lk_area_read(lk_area_try *area, uint64_t number, uint64_t from, uint64_t *out, size_t count) {
    uint64_t none = 0;
    return area && (out || !count) ? lk_raw_area_read(area, number, from, out ? out : &none, count) : LK_NULL;
}

static inline int lk_area_write(lk_area_try *area, uint64_t number, uint64_t from, const uint64_t *words, size_t count) {
    uint64_t none = 0;
    return area && (words || !count) ? lk_raw_area_write(area, number, from, words ? words : &none, count) : LK_NULL;
}

/* How many bytes a chunk has. LK_STRANGER. */
static inline int lk_area_bytes_of(lk_area_try *area, uint64_t number, uint64_t *bytes) {
    return area && bytes ? lk_raw_area_bytes_of(area, number, bytes) : LK_NULL;
}

/* The number of the caller's next chunk, from a number on. LK_ABSENT: it has none from there on. */
static inline int lk_area_next(lk_area_try *area, uint64_t from, uint64_t *number) {
    return area && number ? lk_raw_area_next(area, from, number) : LK_NULL;
}

/* The bytes of all pages of the area. */
static inline int lk_area_size(lk_area_try *area, uint64_t *bytes) {
    return area && bytes ? lk_raw_area_size(area, bytes) : LK_NULL;
}

/* The caller goes, and the handle is blank then. LK_STILL_IN: it has chunks, and stays. */
static inline int lk_area_close_try(lk_area_try *area) {
    return area ? lk_raw_area_close(area) : LK_NULL;
}

/* Gives all of the caller's chunks back, and then closes. LK_STRANGER: the area handed one back, and the caller stays. */
static inline int lk_area_close_wait(lk_area_try *area) {
    uint64_t number = 0;
    int code;
    while ((code = lk_area_next(area, number, &number)) == LK_OK) {
        if ((code = lk_area_free_wait(area, number)) != LK_OK) return code;
    }
    return code == LK_ABSENT ? lk_area_close_try(area) : code;
}

#ifdef __cplusplus
}
#endif

#endif
