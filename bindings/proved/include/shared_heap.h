/* shared_heap.h: the memory of the proved libraries for a program that forks (shared_heap.c). */
#ifndef LEMBOKUJ_SHARED_HEAP_H
#define LEMBOKUJ_SHARED_HEAP_H

#include <stdbool.h>
#include <stdint.h>

#ifdef __cplusplus
extern "C" {
#endif

/* Makes the mapping from which the libraries get all their memory: once, before the first object is made and before the first
 * fork, by a process with one thread. What is freed is not used again, so give as much as all objects take together. 0 if it
 * is done; LK_BAD_SIZE (below 4,096), LK_NO_MEMORY, LK_IN_USE (it was made before). Without it every call that makes an object
 * answers LK_NO_MEMORY. */
int lk_heap_share(uint64_t bytes);

#ifdef __cplusplus
}
#endif

#endif
