/* What the tests of the C libraries share: allocations that are refused, what the sanitizer for threads is told, and
 * the end of a test that fails. Included once in a test. */
#ifndef TESTING_H
#define TESTING_H

#include <inttypes.h>
#include <stdio.h>
#include <stdlib.h>

#ifndef WITHOUT_REFUSALS /* the linker sends malloc and realloc here */

/* Allocations of this thread until one is refused; none while this is 0. */
static _Thread_local unsigned long left;

void *__real_malloc(size_t size);
void *__real_realloc(void *block, size_t size);
void *__wrap_malloc(size_t size);
void *__wrap_realloc(void *block, size_t size);

static int refused(void)
{
    return left != 0 && --left == 0;
}

void *__wrap_malloc(size_t size)
{
    return refused() ? NULL : __real_malloc(size);
}

void *__wrap_realloc(void *block, size_t size)
{
    return refused() ? NULL : __real_realloc(block, size);
}
#endif

#ifdef __SANITIZE_THREAD__
/* The libraries aren't compiled with the sanitizer for threads, which so doesn't see the atomic steps by which they
 * order their copies of bytes. What a program does between two calls is seen. */
const char *__tsan_default_suppressions(void);

const char *__tsan_default_suppressions(void)
{
    return "race:vq_\n";
}
#endif

static inline _Noreturn void fail(const char *name, const char *what)
{
    printf("%s: %s\n", name, what);
    exit(1);
}

/* What came is what was wanted; else the line is named where it is asked. */
#define IS(got, wanted) is(__FILE__, __LINE__, (uint64_t)(got), (uint64_t)(wanted))

static inline void is(const char *file, int line, uint64_t got, uint64_t wanted)
{
    if (got == wanted)
        return;
    printf("%s:%d: got %" PRIu64 ", wanted %" PRIu64 "\n", file, line, got, wanted);
    exit(1);
}

#endif
