/* Runs a lawful script, each actor on a thread of its own through a handle of its own, and prints what it left. */
#include <pthread.h>
#include <sched.h>
#include <stdio.h>

#include "vq.h"

/* The turns of an actor until it has ended. Nothing is held round a call; who is blocked looks again. */
static void *turns(void *of)
{
    struct vq_handle *actor = of;
    struct vq_turn_result turn;
    enum vq_code code;
    while ((code = vq_turn(actor, &turn)) != VQ_ENDED) {
        if (code == VQ_MOVED) {
            /* here a driver makes the step that turn.kind names; others may know of it already (docs/C.md) */
        } else {
            sched_yield(); /* or waits for what turn.kind names */
        }
    }
    while (vq_finished(actor) == VQ_UNFINISHED) /* VQ_NOT_HOST, but for the host */
        sched_yield();
    return NULL;
}

int main(void)
{
    static uint8_t text[1 << 22], bytes[1 << 16];
    static struct vq_handle actors[VQ_MOST_ACTORS];
    pthread_t threads[VQ_MOST_ACTORS];
    size_t count, needed;
    struct vq_verdict verdict =
        vq_share(text, fread(text, 1, sizeof text, stdin), actors, VQ_MOST_ACTORS, &count);
    if (verdict.code != VQ_LAWFUL) {
        printf("error %u at line %u\n", (unsigned)verdict.code, (unsigned)verdict.first);
        return 2;
    }
    for (size_t i = 0; i < count; i++)
        if (actors[i].at != NULL && pthread_create(&threads[i], NULL, turns, &actors[i]) != 0)
            return 3;
    for (size_t i = 0; i < count; i++)
        if (actors[i].at != NULL)
            pthread_join(threads[i], NULL);
    for (size_t i = 1; i < count; i++)
        if (actors[i].at != NULL)
            vq_close(&actors[i]);
    for (uint32_t buffer = 0; vq_bytes(&actors[0], buffer, bytes, sizeof bytes, &needed) == VQ_DONE; buffer++)
        printf("buffer %u begins with %02x\n", (unsigned)buffer, bytes[0]);
    vq_close(&actors[0]);
    return 0;
}
