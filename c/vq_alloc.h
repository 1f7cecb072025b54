/* The memory of libvq_c.a and libvq_live_c.a: three functions that the program has once, for all of these libraries.
 * The kit's liblibc_c.a has them over malloc, realloc and free; own_allocator.c is an example of own ones.
 *
 * What whoever writes them owes: they may be called from each thread that calls the libraries, and at the same time;
 * blocks are aligned as asked, don't overlap, and stay until they are freed. They call none of the libraries. */
#ifndef VQ_ALLOC_H
#define VQ_ALLOC_H

#include <stdbool.h>
#include <stddef.h>

#ifdef __cplusplus
extern "C" {
#endif

/* Whether there was memory, and where. The pointer isn't null, also where there was none; then nothing reads it. */
struct rattle_tried {
    bool ok;
    void *block;
};

/* A new block of so many bytes, perhaps 0, aligned to a power of two up to 16. What is in it doesn't matter. */
struct rattle_tried rattle_alloc(size_t size, size_t align);

/* The block made one of so many bytes, perhaps 0, whose first `kept` bytes are as they were; it may move. Where there
 * is no memory, the block stays as it is. */
struct rattle_tried rattle_realloc(void *block, size_t kept, size_t size, size_t align);

/* Frees a block. */
void rattle_dealloc(void *block);

#ifdef __cplusplus
}
#endif

#endif
