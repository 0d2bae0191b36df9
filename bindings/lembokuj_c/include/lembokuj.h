/* SPDX-License-Identifier: PostgreSQL
 *
 * lembokuj.h: objects that the threads of one process share, over regions of words: queues, areas, hash tables, barriers,
 * tables of contents. Other processes can't see them. Those that several processes share, on Linux, are laid out in a file
 * in memory: the last section, lk_region_... The handles that it gives are used by the calls of the sections before.
 *
 * Handles. A call that makes something gives a handle for each of its callers; lk_.._handle makes one more instead of one that
 * was closed. What is shared lives until its last handle is closed. A close takes the place of the handle and makes it NULL;
 * closing NULL is LK_OK. There is no global state: different objects have nothing to do with one another.
 *
 * Threads. A handle is used by one call at a time. Different handles of one object are used at once, each in its thread.
 * A handle may go to another thread by whatever orders the two: a start or join of a thread, a lock, a queue.
 *
 * Waiting. lk_queue_send, lk_queue_sendv, lk_queue_receive, lk_wait_any and lk_barrier_wait stay awake for some microseconds and
 * then sleep until another caller has done something; the calls with a limit end at a time, or when a function says so. Calls of
 * tables and areas, and a try at a barrier, may wait for a lock that another call holds for a short while.
 *
 * Wrong use. A null pointer is LK_NULL, a handle of another kind LK_KIND. A chunk that was freed is LK_FREED until 64 more chunks
 * were freed through the same area's handle, or that handle was closed; after that it is a wild pointer. Any other handle is a wild
 * pointer once it was closed: the copies of it are yours to forget.
 *
 * Callbacks. They run in the thread of the call, with no lock held. They may call this library, but not on the handle of the call
 * that they run in. They must not leave it by longjmp or by an exception of C++: that is undefined.
 *
 * Codes. 0 is done, above 0 is an answer, below 0 nothing was changed, unless a call says so. lk_message has a text for each.
 * Compilers that know it warn if a code is not looked at. */
#ifndef LEMBOKUJ_H
#define LEMBOKUJ_H

#include <stddef.h>
#include <stdint.h>

#define LK_VERSION "0.3.0"
#define LK_VERSION_MAJOR 0
#define LK_VERSION_MINOR 3
#define LK_VERSION_PATCH 0

/* Its code is to be looked at. */
#if defined(__GNUC__) || defined(__clang__)
#define LK_TELLS __attribute__((warn_unused_result))
#else
#define LK_TELLS
#endif

#ifdef __cplusplus
extern "C" {
#endif

enum {
    LK_OK = 0,
    LK_WOULD_BLOCK = 1,       /* a sender: no room, and nothing was stored; a receiver: no whole message yet; a barrier: not all there */
    LK_DETACHED = 2,          /* the other end is gone; a receiver: and all was received */
    LK_ABSENT = 3,            /* the key was not there */
    LK_BEGUN = 4,             /* a part of the message is on the ring: send the same message again */
    LK_OTHER_VALUE = 5,       /* the key has another value than the one expected */
    LK_PEER_DIED = 6,         /* between processes: the other end's process ended before it left; a receiver: and all that came was received */
    LK_NULL = -1,             /* a pointer is null */
    LK_KIND = -2,             /* a handle of another kind; a region that is open already */
    LK_FREED = -3,            /* a chunk that was freed */
    LK_NO_MEMORY = -4,        /* the system gave no memory */
    LK_BAD_SIZE = -5,         /* a size out of range */
    LK_BAD_CALLERS = -6,      /* no callers, or more than 4,096 */
    LK_TOO_LONG = -7,         /* the message is longer than the queue's greatest, or than the ring if it may not go by parts */
    LK_OTHER_MESSAGE = -8,    /* a part of another message is on the ring: send that one again first */
    LK_NO_SPACE = -9,         /* the pages are used up */
    LK_NO_WORD = -10,         /* the chunk has no such word */
    LK_OTHER_AREA = -11,      /* a chunk of another area, or of another table of contents */
    LK_ALREADY_IN = -12,      /* the caller takes part in the barrier already */
    LK_NOT_IN = -13,          /* the caller takes no part in the barrier */
    LK_TWICE = -14,           /* the caller has arrived in this phase already; a receiver that is twice in a list */
    LK_FULL = -15,            /* the table of contents is full, or the region */
    LK_KEY_THERE = -16,       /* the table of contents has the key already, or the region */
    LK_NO_HANDLE = -17,       /* all handles that the object was made for are out */
    LK_SYSTEM = -21,          /* the system refused: no file under the name, or it is taken, or no leave to use it, or no memory */
    LK_NOT_REGION = -22,      /* the file is no region */
    LK_OTHER_VERSION = -23,   /* the region is of another version */
    LK_OTHER_BUILD = -24,     /* the region is of another build of this library */
    LK_OTHER_SIZE = -25,      /* the file is not as long as its head says */
    LK_DAMAGED = -26,         /* the region is damaged */
    LK_NOT_OPEN = -27,        /* the region is not open yet */
    LK_OTHER_SYSTEM = -28,    /* the region is of another start of the system, or another space of process ids */
    LK_NO_KEY = -29,          /* no object of this kind has the key */
    LK_TAKEN = -30,           /* all handles are with processes */
    LK_OWNER_DIED = -31,      /* between processes: one ended while it had the lock, and what that guards is lost */
    LK_STRANGER = -32,        /* no chunk of this area, or no ticket of one */
};

/* The text of a code, and the version of the library that runs, to be compared with LK_VERSION. They live forever. */
const char *lk_message(int code);
const char *lk_version(void);

/* How long a wait may last: a time, below 0 none; and a function (which may be NULL) that is asked with its pointer when the wait
 * begins to sleep, and then about every 10 ms, and ends it by 0. With a function the time is looked at as often. A wait whose limit
 * comes answers LK_WOULD_BLOCK. A limit that is NULL never comes. */
typedef struct lk_limit {
    int64_t milliseconds;
    int (*go_on)(void *with);
    void *with;
} lk_limit;

/* ---- Queues: messages from one sender to one receiver ---- */

typedef struct lk_sender lk_sender;
typedef struct lk_receiver lk_receiver;

/* A flag of the sends: the receiver may see the message only after a later call. At most a quarter of the ring stays
 * unseen. Without it a message is shown at once, which costs a store more. */
enum { LK_LATER = 1 };

/* A queue over a ring of ring_words words of 8 bytes, a power of two up to 2^20, for messages of at most max_bytes bytes,
 * 2^20 at most. On the ring a message takes a word and its bytes, rounded up to 8. LK_BAD_SIZE, LK_NO_MEMORY. */
LK_TELLS int lk_queue_new(uint64_t ring_words, uint32_t max_bytes, lk_sender **tx, lk_receiver **rx);

/* Sends a message as a whole, or stores nothing: LK_WOULD_BLOCK if it has no room now, LK_TOO_LONG if it never has, since it is
 * longer than the queue's greatest or than the ring (lk_queue_send and lk_queue_try_send_part take the latter), LK_DETACHED if the
 * receiver is gone. The bytes are copied. The receiver gives room back when it has taken a quarter of the ring, or finds nothing
 * there: so a message of more than three quarters may have to wait for the latter. */
LK_TELLS int lk_queue_try_send(lk_sender *tx, const void *bytes, size_t len, int flags);

/* The same, but waits while the ring is full. A message that is longer than the ring needs a receiver at work. */
LK_TELLS int lk_queue_send(lk_sender *tx, const void *bytes, size_t len, int flags);

/* The same with a limit. A message that is longer than the ring may have begun when it comes: LK_BEGUN. */
LK_TELLS int lk_queue_send_within(lk_sender *tx, const void *bytes, size_t len, const lk_limit *limit);

/* Stores as much of a message as has room. After LK_BEGUN the message belongs to this queue: until a call with the same message
 * has answered LK_OK, any other is LK_OTHER_MESSAGE. */
LK_TELLS int lk_queue_try_send_part(lk_sender *tx, const void *bytes, size_t len);

/* Up to 64 slices as one message, their bytes in a row: waits without a limit, or stores the whole message or nothing, as
 * lk_queue_try_send does. LK_BAD_SIZE for more slices. */
typedef struct lk_slice {
    const void *bytes;
    size_t len;
} lk_slice;
LK_TELLS int lk_queue_sendv(lk_sender *tx, const lk_slice *slices, size_t count);
LK_TELLS int lk_queue_try_sendv(lk_sender *tx, const lk_slice *slices, size_t count);

/* Shows the receiver all that was sent. */
int lk_queue_flush(lk_sender *tx);

/* At LK_OK *bytes are the next message, *len of them, lent from the receiver's memory up to its next call or its close.
 * LK_WOULD_BLOCK if no whole message is there, LK_DETACHED if the sender is gone and all was received. They are aligned as bytes
 * only: copy what is read as a larger type. */
LK_TELLS int lk_queue_try_receive(lk_receiver *rx, const uint8_t **bytes, size_t *len);

/* The same, but waits while no whole message is there; with a limit or without. */
LK_TELLS int lk_queue_receive(lk_receiver *rx, const uint8_t **bytes, size_t *len);
LK_TELLS int lk_queue_receive_within(lk_receiver *rx, const lk_limit *limit, const uint8_t **bytes, size_t *len);

/* Waits until one of 1 to 256 receivers has a message, or its sender is gone: *which is its place in the list, and the next
 * receive there does not wait. Of several that are ready it is the one that was chosen longest ago. What a receiver has lent is
 * given up. LK_TWICE, LK_BAD_SIZE, LK_NO_MEMORY. */
LK_TELLS int lk_wait_any(lk_receiver *const *rx, size_t count, const lk_limit *limit, size_t *which);

/* Ends the queue on one side, and lets the other know. What was sent can still be received. */
int lk_queue_close_sender(lk_sender **tx);
int lk_queue_close_receiver(lk_receiver **rx);

/* ---- Areas: chunks of words for many callers ---- */

typedef struct lk_area lk_area;
typedef struct lk_chunk lk_chunk; /* its words are only its holder's */

/* An area of pages of 4 KiB, 65,536 at most; writes a handle for each caller to out[0 .. callers]. Chunks of up
 * to 8,192 bytes are cut from 16 pages at a time for each of 36 size classes. Such 16 pages go back when all of their chunks have,
 * except those that the class used last. LK_BAD_SIZE, LK_BAD_CALLERS, LK_NO_MEMORY. */
LK_TELLS int lk_area_new(uint32_t pages, uint32_t callers, lk_area **out);

/* One more handle, if fewer are out than the area was made for. LK_NO_HANDLE, LK_NO_MEMORY. */
LK_TELLS int lk_area_handle(const lk_area *area, lk_area **out);

/* A chunk of at least this number of bytes: of a size class, above 24 bytes at most a third more, and above 8,192 of whole pages of
 * 4 KiB. Its words hold whatever their last owner left there; those of the second call are 0. It may
 * wait for the lock of one size class and for that of the pages. LK_NO_SPACE, LK_NO_MEMORY. */
LK_TELLS int lk_area_alloc(lk_area *area, uint64_t bytes, lk_chunk **out);
LK_TELLS int lk_area_alloc_zeroed(lk_area *area, uint64_t bytes, lk_chunk **out);

/* Gives a chunk back, through any handle of its area, and makes *chunk NULL. LK_OTHER_AREA: the chunk stays. */
int lk_area_free(lk_area *area, lk_chunk **chunk);

/* Gives a chunk back without a handle of its area, which may be closed by then. */
int lk_chunk_close(lk_chunk **chunk);

/* How many words of 8 bytes it has; a word of it; a change of a word. LK_NO_WORD. */
LK_TELLS int lk_chunk_words(const lk_chunk *chunk, uint64_t *out);
LK_TELLS int lk_chunk_load(lk_chunk *chunk, uint64_t at, uint64_t *out);
LK_TELLS int lk_chunk_store(lk_chunk *chunk, uint64_t at, uint64_t value);

/* The address of its words, which 8 divides, and how many bytes they have: plain memory that the chunk's holder may read and
 * change as any other, until the chunk is freed or closed. Nothing looks whether a store stays within these bytes: past them
 * lie other chunks, and the records of the area. If the chunk goes to another thread, its memory goes with it. */
LK_TELLS int lk_chunk_memory(lk_chunk *chunk, void **memory, size_t *bytes);

/* Copies count of its words, or bytes, from the place at on: out of it and into it. LK_NO_WORD: it has fewer, and nothing
 * was changed. */
LK_TELLS int lk_chunk_read(lk_chunk *chunk, uint64_t at, uint64_t *words, size_t count);
LK_TELLS int lk_chunk_write(lk_chunk *chunk, uint64_t at, const uint64_t *words, size_t count);
LK_TELLS int lk_chunk_read_bytes(lk_chunk *chunk, uint64_t at, void *bytes, size_t count);
LK_TELLS int lk_chunk_write_bytes(lk_chunk *chunk, uint64_t at, const void *bytes, size_t count);

int lk_area_close(lk_area **area);

/* ---- Hash tables, for many callers: from numbers to numbers ---- */

typedef struct lk_table lk_table;

/* How many pages a table takes for this number of keys whose hashes are well distributed. 1,000 keys take 112, a million 12,000. The hash
 * is fixed and known: a caller that chooses the keys can choose them in one chain, so a table of strangers' keys takes a seed (below). */
uint32_t lk_table_pages(uint64_t keys);

/* A table in an area of pages of 4 KiB, 65,536 at most, of which an empty one takes 16; writes a handle for each
 * caller to out[0 .. callers]. LK_BAD_SIZE, LK_BAD_CALLERS, LK_NO_MEMORY, LK_NO_SPACE. */
LK_TELLS int lk_table_new(uint32_t pages, uint32_t callers, lk_table **out);

/* The same with a seed, for keys that strangers choose: draw one for each table, from getrandom for example, and keep it from them.
 * Keys that were chosen without knowing it lie in one chain no more than others. Each call hashes its key once more, by
 * SipHash-1-3. The seed 0 is none. It writes one handle; lk_table_handle makes the others. */
LK_TELLS int lk_table_new_with_seed(uint32_t pages, uint32_t callers, uint64_t seed, lk_table **out);

/* One more handle, if fewer are out than the table was made for. LK_NO_HANDLE, LK_NO_MEMORY. */
LK_TELLS int lk_table_handle(const lk_table *table, lk_table **out);

/* LK_OK: the key was there, and *old (which may be NULL) is its value before. LK_ABSENT: it was not. LK_NO_SPACE: a new
 * key found no room, which only put and add can meet; get takes nothing of the pages. A call takes the lock of one of 128
 * partitions. add wraps around at 2^64. */
LK_TELLS int lk_table_put(lk_table *table, uint64_t key, uint64_t value, uint64_t *old);
LK_TELLS int lk_table_add(lk_table *table, uint64_t key, uint64_t more, uint64_t *old);
LK_TELLS int lk_table_get(lk_table *table, uint64_t key, uint64_t *value);
int lk_table_delete(lk_table *table, uint64_t key, uint64_t *old);

/* How many keys there are: it adds up the partitions one after another, so it is not a snapshot. It costs 128 looks at a number,
 * whatever the table holds. */
LK_TELLS int lk_table_count(lk_table *table, uint64_t *out);

/* Calls each(key, value, with) at each entry, in no order. The entries of one partition are those of one moment; they are
 * copied before the first call, so the table may change meanwhile. LK_NO_MEMORY: each was not called. */
LK_TELLS int lk_table_each(lk_table *table, void (*each)(uint64_t key, uint64_t value, void *with), void *with);

int lk_table_close(lk_table **table);

/* ---- The same, from keys of several words to values of several words ---- */

typedef struct lk_words lk_words;

/* How many pages such a table takes, and the table, without a seed or with: keys of 1 to 64 words, values of 0 to 256, which take the
 * next power of two.
 * It writes one handle; lk_words_handle makes the others, up to callers at a time. LK_BAD_SIZE, LK_BAD_CALLERS,
 * LK_NO_MEMORY, LK_NO_SPACE. */
uint32_t lk_table_pages_words(uint64_t keys, uint32_t key_words, uint32_t value_words);
LK_TELLS int lk_table_new_words(uint32_t pages, uint32_t callers, uint32_t key_words, uint32_t value_words, lk_words **out);
LK_TELLS int lk_table_new_words_with_seed(uint32_t pages, uint32_t callers, uint32_t key_words, uint32_t value_words, uint64_t seed,
                                          lk_words **out);
LK_TELLS int lk_words_handle(const lk_words *table, lk_words **out);

/* As the calls of lk_table above; key has the words of a key, value and old (which may be NULL) those of a value. */
LK_TELLS int lk_words_get(lk_words *table, const uint64_t *key, uint64_t *value);
LK_TELLS int lk_words_put(lk_words *table, const uint64_t *key, const uint64_t *value, uint64_t *old);
int lk_words_delete(lk_words *table, const uint64_t *key, uint64_t *old);

/* If the value of the key is the one at expected (NULL: there is no such key), it becomes the one at value (NULL: the key is taken
 * out), in one step for all callers: LK_OK. LK_OTHER_VALUE: it is another one, LK_ABSENT: one was expected, and the key is not
 * there; nothing was changed. If there was a value, it is written to found, which may be NULL. LK_NO_SPACE. */
LK_TELLS int lk_words_compare_and_put(lk_words *table, const uint64_t *key, const uint64_t *expected, const uint64_t *value,
                                      uint64_t *found);

/* As lk_table_count, and as lk_table_each, but the entries of one partition are copied at a time: at LK_NO_MEMORY some entries
 * were reached. The words are lent for the call. */
LK_TELLS int lk_words_count(lk_words *table, uint64_t *out);
LK_TELLS int lk_words_each(lk_words *table, void (*each)(const uint64_t *key, const uint64_t *value, void *with), void *with);

int lk_words_close(lk_words **table);

/* ---- Barriers: phases that end when all have arrived ---- */

typedef struct lk_barrier lk_barrier;

/* A barrier in phase 0; writes a handle for each caller to out[0 .. callers]. All take part. LK_BAD_CALLERS,
 * LK_NO_MEMORY. */
LK_TELLS int lk_barrier_new(uint32_t callers, lk_barrier **out);

/* One more handle, whose caller takes part from now on, if fewer are out than the barrier was made for. LK_NO_HANDLE,
 * LK_NO_MEMORY. */
LK_TELLS int lk_barrier_handle(const lk_barrier *barrier, lk_barrier **out);

/* Arrives, and waits until all who take part have: forever if one of them neither arrives, detaches nor closes. *phase
 * is the phase that is on then, *elected 1 for one of those who arrived and 0 for the others; both may be NULL. LK_NOT_IN,
 * LK_TWICE. */
LK_TELLS int lk_barrier_wait(lk_barrier *barrier, uint64_t *phase, int *elected);

/* The same with a limit. If that comes, the caller has arrived all the same: look. */
LK_TELLS int lk_barrier_wait_within(lk_barrier *barrier, const lk_limit *limit, uint64_t *phase, int *elected);

/* Arrives without waiting: LK_WOULD_BLOCK if somebody has still to. Then look, which changes nothing. LK_TWICE. */
LK_TELLS int lk_barrier_arrive(lk_barrier *barrier, uint64_t *phase, int *elected);
LK_TELLS int lk_barrier_look(lk_barrier *barrier, uint64_t *phase, int *elected);

/* Takes part no more; *last (which may be NULL) is 1 if nobody is left. Takes part again. A close detaches. */
LK_TELLS int lk_barrier_detach(lk_barrier *barrier, int *last);
LK_TELLS int lk_barrier_attach(lk_barrier *barrier);
int lk_barrier_close(lk_barrier **barrier);

/* ---- Tables of contents: chunks by keys, which all threads read ---- */

typedef struct lk_toc lk_toc;             /* while its one holder fills it */
typedef struct lk_toc_chunk lk_toc_chunk; /* a chunk of it that is not entered yet */
typedef struct lk_toc_share lk_toc_share; /* a reader's share once it is frozen */

/* An empty table of this number of bytes, below 2^29: 32 for its head, 16 for each key, and each chunk rounded up to 32.
 * LK_BAD_SIZE, LK_NO_MEMORY. */
LK_TELLS int lk_toc_new(uint64_t bytes, lk_toc **out);

/* A chunk of at least this number of bytes, and a change of a word of it. LK_FULL, LK_BAD_SIZE; LK_NO_WORD. */
LK_TELLS int lk_toc_allocate(lk_toc *toc, uint64_t bytes, lk_toc_chunk **out);
LK_TELLS int lk_toc_store(lk_toc_chunk *chunk, uint64_t at, uint64_t value);

/* Enters the chunk under a key, and makes *chunk NULL. LK_KEY_THERE, LK_FULL, LK_OTHER_AREA, LK_NO_MEMORY: the chunk
 * is lost. */
LK_TELLS int lk_toc_keep(lk_toc *toc, uint64_t key, lk_toc_chunk **chunk);

/* Forgets a chunk that is not entered; its words stay used up. */
int lk_toc_chunk_close(lk_toc_chunk **chunk);

/* From now on nothing in it changes; *toc becomes NULL. To drop a table, freeze it and close the share. */
LK_TELLS int lk_toc_freeze(lk_toc **toc, lk_toc_share **out);

/* A share for another thread; how many words the chunk under a key has; a word of it. LK_ABSENT, LK_NO_WORD. */
LK_TELLS int lk_toc_share_again(lk_toc_share *toc, lk_toc_share **out);
LK_TELLS int lk_toc_words(lk_toc_share *toc, uint64_t key, uint64_t *out);
LK_TELLS int lk_toc_load(lk_toc_share *toc, uint64_t key, uint64_t at, uint64_t *out);
int lk_toc_close(lk_toc_share **toc);

/* ---- Regions that processes share: Linux, x86-64 and aarch64 ----
 *
 * The maker: lk_region_create or lk_region_create_named, lk_region_add_.., lk_region_open. The others: lk_region_attach (a descriptor)
 * or lk_region_attach_named. Then each takes handles by key. A handle is with one process at a time, and is used by one call at a
 * time; an end of a queue and a place at a barrier are taken once. After a fork the child attaches anew and does not use its parent's
 * handles. A region may be closed before the handles that were taken of it. If there is no memory, a call of this section may end
 * the process, as other calls don't.
 *
 * A process that ends without leaving is to the others a thread that stops. Nobody takes a lock from it: the calls that need what it
 * guarded answer LK_OWNER_DIED, those of its keys, of its size of chunks, or of its barrier. The other end of its queue answers
 * LK_PEER_DIED, after all whole messages; an end that nobody has taken yet is waited for. A barrier goes on without it. lk_wait_any
 * looks every millisecond if a sender is another process. All that may write the file can spoil it for all: LK_DAMAGED. */

typedef struct lk_region lk_region;

/* A region of this many words of 8 bytes, from 64 to fewer than 2^26, without a name: programs that the maker starts inherit its file.
 * Or under a name of shm_open's, without the slash, until lk_region_unlink. What nobody stores to takes no memory. A table or an
 * area takes about 521 of the words for each page and 110 more, a queue its ring and about 30. LK_BAD_SIZE, LK_SYSTEM, LK_NO_MEMORY. */
LK_TELLS int lk_region_create(uint64_t words, lk_region **out);
LK_TELLS int lk_region_create_named(const char *name, uint64_t words, lk_region **out);
int lk_region_unlink(const char *name);

/* Lays an object out under a key: a queue as lk_queue_new's, with messages of up to 2^26 bytes; a table of numbers and an area, each
 * in pages of 4 KiB that nothing else has, up to 65,536, for up to 4,096 callers; a barrier of up to 63 callers, who all take part; words that nobody changes.
 * LK_KEY_THERE, LK_FULL, LK_BAD_SIZE, LK_BAD_CALLERS, LK_NO_SPACE: the table's pages are too few for an empty one. */
LK_TELLS int lk_region_add_queue(lk_region *region, uint64_t key, uint64_t ring_words, uint32_t max_bytes);
LK_TELLS int lk_region_add_table(lk_region *region, uint64_t key, uint32_t pages, uint32_t callers);
LK_TELLS int lk_region_add_area(lk_region *region, uint64_t key, uint32_t pages, uint32_t callers);
LK_TELLS int lk_region_add_barrier(lk_region *region, uint64_t key, uint32_t callers);
LK_TELLS int lk_region_add_words(lk_region *region, uint64_t key, const uint64_t *words, size_t count);

/* Nothing is added from now on, and others may attach. LK_KIND: it is open. */
LK_TELLS int lk_region_open(lk_region *region);

/* The region in a file, by a descriptor, which is duplicated, or by a name. LK_SYSTEM, LK_NOT_REGION, LK_OTHER_VERSION, LK_OTHER_BUILD,
 * LK_OTHER_SIZE, LK_DAMAGED, LK_NOT_OPEN, LK_OTHER_SYSTEM, LK_NO_MEMORY. */
LK_TELLS int lk_region_attach(int fd, lk_region **out);
LK_TELLS int lk_region_attach_named(const char *name, lk_region **out);

/* The descriptor of an open region, which lives as long as it; a word of the words under a key. LK_NOT_OPEN; LK_NO_KEY, LK_NO_WORD. */
LK_TELLS int lk_region_fd(const lk_region *region, int *fd);
LK_TELLS int lk_region_load(const lk_region *region, uint64_t key, uint64_t at, uint64_t *word);

/* Handles, which the calls of the other sections use and close. LK_NO_KEY, LK_TAKEN, LK_NOT_OPEN, LK_NO_MEMORY. */
LK_TELLS int lk_region_sender(const lk_region *region, uint64_t key, lk_sender **out);
LK_TELLS int lk_region_receiver(const lk_region *region, uint64_t key, lk_receiver **out);
LK_TELLS int lk_region_table(const lk_region *region, uint64_t key, lk_table **out);
LK_TELLS int lk_region_area(const lk_region *region, uint64_t key, lk_area **out);
LK_TELLS int lk_region_barrier(const lk_region *region, uint64_t key, lk_barrier **out);

/* A chunk of an area in a region goes to another process by a ticket, plain numbers that are good for one fetch. A post makes *chunk
 * NULL; nobody has the chunk then. One that is closed without either stays live. LK_KIND for an area of threads, LK_STRANGER. */
typedef struct lk_ticket {
    uint64_t place, bytes, number;
} lk_ticket;
LK_TELLS int lk_chunk_post(lk_chunk **chunk, lk_ticket *ticket);
LK_TELLS int lk_area_fetch(lk_area *area, const lk_ticket *ticket, lk_chunk **out);

/* What processes had that have ended is given back, so far as no lock was in their hands: handles of tables and areas that may be taken
 * again, ends of queues and callers of barriers that were detached, handles that are lost with a lock, chunks that went back.
 * `reaped` may be NULL. It asks the system for each handle that is taken, and reads each word of the areas. */
typedef struct lk_reaped {
    uint64_t freed, detached, lost, chunks;
} lk_reaped;
int lk_region_reap(const lk_region *region, lk_reaped *reaped);

int lk_region_close(lk_region **region);

#ifdef __cplusplus
}
#endif
#endif
