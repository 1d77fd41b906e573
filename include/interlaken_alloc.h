/* The memory of the library: three functions that it calls and does not define. examples/c/alloc.c
 * has them over malloc, realloc and free. The libraries that tools/library makes have that file in
 * them. A program that defines the three itself and links libinterlaken.a uses its own. The shared
 * library always uses the functions inside it.
 *
 * Functions of your own keep three rules:
 *
 * - Several threads may call them at once, if calls on different handles run at the same time.
 * - They return. They do not leave a call by longjmp or by an exception of C++: while a call runs
 *   its handle is empty.
 * - They make no call of the library on the handle whose call they serve. */
#ifndef INTERLAKEN_ALLOC_H
#define INTERLAKEN_ALLOC_H

#include <stddef.h>
#include <stdint.h>

#ifdef __cplusplus
extern "C" {
#endif

/* Whether memory was allocated, and where. Without memory `at` is not null, but points to nothing
 * usable. */
struct rattle_tried {
  uint8_t memory; /* 1 if memory was allocated; otherwise 0 */
  void *at;
};

/* Allocates a block of `size` bytes, aligned to `align`, which is at most 16. If `size` is 0, the
 * block has `align` bytes. */
struct rattle_tried rattle_alloc(size_t size, size_t align);

/* Resizes a block to `size` bytes and keeps its first `kept` bytes. Without memory the block stays
 * as it was. */
struct rattle_tried rattle_realloc(void *at, size_t kept, size_t size, size_t align);

/* Frees a block. */
void rattle_dealloc(void *at);

#ifdef __cplusplus
}
#endif
#endif
