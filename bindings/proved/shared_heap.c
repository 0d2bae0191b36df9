/* The memory of the proved libraries, in one mapping that a process shares with the children that it forks afterwards.
 *
 * Linked in place of the toolchain's liblibc_c.a: liblk_queue.a and liblk_table.a get memory only by rattle_alloc,
 * rattle_realloc and rattle_dealloc, which that library defines over malloc, realloc and free. Here they are a counter in the
 * mapping that only goes up, so a process that is killed in the middle of a call leaves no lock of the memory taken; what is
 * freed is not used again. */
#define _GNU_SOURCE
#include "shared_heap.h"

#include <stddef.h>
#include <string.h>
#include <sys/mman.h>

/* The alignment of what is granted: no more is asked for. */
enum { ALIGNED = 16 };

typedef struct {
    uint64_t next;
    uint64_t bytes;
} heap_head;

static heap_head *heap;

int lk_heap_share(uint64_t bytes) {
    if (heap) return -19;
    if (bytes < 4096) return -5;
    void *at = mmap(NULL, bytes, PROT_READ | PROT_WRITE, MAP_SHARED | MAP_ANONYMOUS, -1, 0);
    if (at == MAP_FAILED) return -4;
    heap = (heap_head *)at;
    heap->bytes = bytes;
    __atomic_store_n(&heap->next, 64, __ATOMIC_SEQ_CST);
    return 0;
}

static unsigned char *take(size_t length) {
    if (!heap || length > heap->bytes) return NULL;
    uint64_t room = ((uint64_t)length + ALIGNED - 1) / ALIGNED * ALIGNED;
    uint64_t at = __atomic_fetch_add(&heap->next, room, __ATOMIC_SEQ_CST);
    return at <= heap->bytes && room <= heap->bytes - at ? (unsigned char *)heap + at : NULL;
}

/* As the toolchain's library has them: whether there was memory, and a pointer that is good in either case. */
typedef struct {
    bool ok;
    unsigned char *at;
} granted;

static unsigned char none[ALIGNED];

granted rattle_alloc(size_t length, size_t align);
granted rattle_realloc(unsigned char *at, size_t kept, size_t length, size_t align);
void rattle_dealloc(unsigned char *at);

granted rattle_alloc(size_t length, size_t align) {
    (void)align;
    unsigned char *at = take(length ? length : 1);
    return at ? (granted){true, at} : (granted){false, none};
}

granted rattle_realloc(unsigned char *at, size_t kept, size_t length, size_t align) {
    granted got = rattle_alloc(length, align);
    if (got.ok) memcpy(got.at, at, kept < length ? kept : length);
    return got;
}

void rattle_dealloc(unsigned char *at) {
    (void)at;
}
