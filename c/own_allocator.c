/* An allocator of a program's own, for the timelines of libvq_live_c.a: blocks of a fixed pool, each with its length
 * before it, given again once they are freed. It prints how many bytes were in use at most, and how many are left. */
#include <inttypes.h>
#include <stdio.h>
#include <string.h>

#include "vq_alloc.h"
#include "vq_live.h"

enum { POOL = 1 << 16, HEAD = 16 };

/* Every block begins at a multiple of 16, and so does what a caller gets. */
static _Alignas(16) unsigned char pool[POOL];
static size_t end, in_use, most;

struct head {
    size_t room; /* the bytes behind the head */
    bool taken;
};

/* The first free block that is large enough, or a new one at the end of those there are; NULL where the pool is full. A
 * program with threads holds a mutex in these three functions. */
static void *taken(size_t size)
{
    size_t room = (size + 15) / 16 * 16, at = 0;
    struct head head;
    for (; at < end; at += HEAD + head.room) {
        memcpy(&head, pool + at, sizeof head);
        if (!head.taken && head.room >= room)
            break;
    }
    if (at == end) {
        if (room > POOL - HEAD || end > POOL - HEAD - room)
            return NULL;
        head.room = room;
        end += HEAD + room;
    }
    head.taken = true;
    memcpy(pool + at, &head, sizeof head);
    in_use += head.room;
    most = in_use > most ? in_use : most;
    return pool + at + HEAD;
}

static struct rattle_tried tried(void *block)
{
    return (struct rattle_tried){block != NULL, block != NULL ? block : pool};
}

struct rattle_tried rattle_alloc(size_t size, size_t align)
{
    (void)align; /* all blocks are aligned to 16 bytes, the most that is asked for */
    return tried(taken(size));
}

struct rattle_tried rattle_realloc(void *block, size_t kept, size_t size, size_t align)
{
    (void)align;
    void *other = taken(size);
    if (other != NULL) {
        memcpy(other, block, kept < size ? kept : size);
        rattle_dealloc(block);
    }
    return tried(other);
}

void rattle_dealloc(void *block)
{
    struct head head;
    unsigned char *at = (unsigned char *)block - HEAD;
    memcpy(&head, at, sizeof head);
    head.taken = false;
    in_use -= head.room;
    memcpy(at, &head, sizeof head);
}

int main(void)
{
    struct vq_live timeline = VQ_LIVE_NONE;
    struct vq_live_given given;
    if (vq_live_open(0, &timeline) != VQ_LIVE_DONE)
        return 1;
    uint64_t value = 0;
    enum vq_live_code code;
    while ((code = vq_live_take(&timeline, value + 1, &given)) == VQ_LIVE_DONE)
        value++; /* until the pool is used up */
    printf("%s\n", vq_live_words(code));
    if (most == 0 || most > POOL || value == 0)
        return 1;
    vq_live_close(&timeline);
    printf("%zu bytes are left in use\n", in_use);
    return 0;
}
