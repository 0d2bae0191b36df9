/* lembokuj_at.h: a queue in memory that the program brings, over the proved library liblk_placed.a.
 *
 * The program gives 8,192 bytes of memory, at an address that 16 divides, and the library makes a queue there that stays
 * for good. Nothing that it stores there is an address. So processes that map this memory may each have it at an address of
 * its own: each calls with a site, which is its own address of the queue.
 *
 * A sender or the receiver is a handle, two words of the process's own memory, all zero (LK_BLANK) at first, and takes a
 * little of the process's own heap (liblibc_c.a). A queue has one receiving end, which lies in the queue until a process
 * takes it (lk_queue_receiver_at), and lies there again when it is closed. It may have several senders: what they send
 * is in one history, and a sender that another was ahead of answers LK_OVERTAKEN and may send the same message again.
 * A queue has room for 16 messages of up to 240 bytes.
 *
 * The calls try once and never wait; those with _wait are loops over them. Codes as in lembokuj_try.h, and those below.
 *
 * What the program owes: the memory is its own, is used for nothing else, and is mapped as long as there are handles; a site is
 * the address of a queue that was made there; each call of a handle has the site of its queue; what lembokuj_try.h says of
 * handles. No call finds out if it is otherwise. */
#ifndef LEMBOKUJ_AT_H
#define LEMBOKUJ_AT_H

#include "lembokuj_try.h"

#ifdef __cplusplus
extern "C" {
#endif

enum {
    LK_OVERTAKEN = 6,         /* another sender was first: send again */
    LK_RECEIVER_TAKEN = -21,  /* somebody else has the receiving end, or asks for it at this moment */
    LK_OUT_OF_ORDER = -22     /* the message in the next place was not the next one, and is lost */
};

enum { LK_AT_BYTES = 8192, LK_AT_ALIGNMENT = 16, LK_AT_MESSAGE = 240 };

/* What liblk_placed.a exports. Each pointer has to be good. */
int32_t lk_raw_queue_new_at(lk_given memory, lk_site *site);
int32_t lk_raw_queue_sender_at(lk_site site, lk_handle *tx);
int32_t lk_raw_queue_receiver_at(lk_site site, lk_handle *rx);
int32_t lk_raw_queue_send_at(lk_site site, lk_handle *tx, const uint8_t *bytes, size_t len);
int32_t lk_raw_queue_receive_at(lk_site site, lk_handle *rx, uint8_t *out, size_t room, size_t *len);
int32_t lk_raw_queue_finish_at(lk_site site, lk_handle *tx);
int32_t lk_raw_queue_close_at(lk_site site, lk_handle *handle);

/* Makes a queue in LK_AT_BYTES bytes of memory. One process does it, before any other has its site. LK_NULL, LK_BAD_SIZE. */
static inline int lk_queue_new_at(void *memory, size_t bytes, lk_site *site) {
    lk_given given = {memory, bytes / LK_AT_ALIGNMENT * LK_AT_ALIGNMENT};
    if (!memory || !site) return LK_NULL;
    if ((uintptr_t)memory % LK_AT_ALIGNMENT) return LK_BAD_SIZE;
    site->at = NULL;
    return lk_raw_queue_new_at(given, site);
}

/* The site of a queue that was made at the front of this memory, which may be another process's mapping of it. */
static inline lk_site lk_queue_site(void *memory) {
    lk_site site = {memory};
    return site;
}

/* A sender. LK_IN_USE, LK_NO_MEMORY. */
static inline int lk_queue_sender_at(lk_site site, lk_handle *tx) {
    return site.at && tx ? lk_raw_queue_sender_at(site, tx) : LK_NULL;
}

/* The receiving end. LK_RECEIVER_TAKEN, LK_IN_USE, LK_NO_MEMORY. */
static inline int lk_queue_receiver_at(lk_site site, lk_handle *rx) {
    return site.at && rx ? lk_raw_queue_receiver_at(site, rx) : LK_NULL;
}

/* Sends a message, or answers LK_WOULD_BLOCK or LK_OVERTAKEN, and then nothing was sent. LK_TOO_LONG, LK_GONE. */
static inline int lk_queue_send_at(lk_site site, lk_handle *tx, const void *bytes, size_t len) {
    if (!site.at || !tx || (!bytes && len)) return LK_NULL;
    return lk_raw_queue_send_at(site, tx, bytes ? (const uint8_t *)bytes : (const uint8_t *)"", len);
}

/* The same, and waits while there is no room, and while others are ahead. */
static inline int lk_queue_send_at_wait(lk_site site, lk_handle *tx, const void *bytes, size_t len) {
    int code;
    for (unsigned tries = 0; (code = lk_queue_send_at(site, tx, bytes, len)) == LK_WOULD_BLOCK || code == LK_OVERTAKEN; tries++)
        if (code == LK_WOULD_BLOCK) lk_between(tries);
    return code;
}

/* At LK_OK the next message is in out[0 .. *len]; the room has to be LK_AT_MESSAGE bytes. LK_WOULD_BLOCK if none is there,
 * LK_DETACHED if the sender has left and all was received. */
static inline int lk_queue_receive_at(lk_site site, lk_handle *rx, void *out, size_t room, size_t *len) {
    uint8_t none = 0;
    if (!site.at || !rx || !len || (!out && room)) return LK_NULL;
    return lk_raw_queue_receive_at(site, rx, out ? (uint8_t *)out : &none, room, len);
}

/* The same, and waits while none is there. */
static inline int lk_queue_receive_at_wait(lk_site site, lk_handle *rx, void *out, size_t room, size_t *len) {
    int code;
    for (unsigned tries = 0; (code = lk_queue_receive_at(site, rx, out, room, len)) == LK_WOULD_BLOCK; tries++) lk_between(tries);
    return code;
}

/* The sender leaves, and waits until there is room to say so. */
static inline int lk_queue_finish_at_wait(lk_site site, lk_handle *tx) {
    int code = LK_NULL;
    if (!site.at || !tx) return code;
    for (unsigned tries = 0; (code = lk_raw_queue_finish_at(site, tx)) == LK_WOULD_BLOCK || code == LK_OVERTAKEN; tries++)
        if (code == LK_WOULD_BLOCK) lk_between(tries);
    return code;
}

/* The handle is blank afterwards. */
static inline int lk_queue_close_at(lk_site site, lk_handle *handle) {
    return site.at && handle ? lk_raw_queue_close_at(site, handle) : LK_NULL;
}

#ifdef __cplusplus
}
#endif

#endif
