/* Linked into the layer for a test: the N-th allocation of a process is refused, as VQ_REFUSE=N says. The linker sends
 * malloc, calloc and realloc here. */
#include <stdatomic.h>
#include <stdlib.h>

void *__real_malloc(size_t size);
void *__real_calloc(size_t count, size_t size);
void *__real_realloc(void *block, size_t size);
void *__wrap_malloc(size_t size);
void *__wrap_calloc(size_t count, size_t size);
void *__wrap_realloc(void *block, size_t size);

static int refused(void)
{
    static atomic_ulong count;
    const char *said = getenv("VQ_REFUSE");
    return said && atomic_fetch_add(&count, 1) + 1 == strtoul(said, NULL, 10);
}

void *__wrap_malloc(size_t size)
{
    return refused() ? NULL : __real_malloc(size);
}

void *__wrap_calloc(size_t count, size_t size)
{
    return refused() ? NULL : __real_calloc(count, size);
}

void *__wrap_realloc(void *block, size_t size)
{
    return refused() ? NULL : __real_realloc(block, size);
}
