/* Drives all actors of a lawful script, each on a thread of its own, and prints what they make. */
#include <pthread.h>
#include <stdio.h>
#include <stdlib.h>

#include "vq.h"

static struct vq_handle run;
static pthread_mutex_t mutex = PTHREAD_MUTEX_INITIALIZER; /* held round each call on the run */
static pthread_cond_t moved = PTHREAD_COND_INITIALIZER;

/* The turns of an actor until it has ended. Who is blocked waits until another actor has moved. */
static void *turns(void *of)
{
    uint32_t actor = *(uint32_t *)of;
    enum vq_code code;
    struct vq_turn_result turn;
    pthread_mutex_lock(&mutex);
    while ((code = vq_turn_of(&run, actor, &turn)) == VQ_MOVED || code == VQ_BLOCKED) {
        if (code == VQ_MOVED) {
            /* here a driver makes the step that the event names, before the others see it */
            printf("actor %u made event %u\n", (unsigned)actor, (unsigned)turn.kind);
            pthread_cond_broadcast(&moved);
        } else {
            pthread_cond_wait(&moved, &mutex);
        }
    }
    pthread_mutex_unlock(&mutex);
    return NULL;
}

int main(void)
{
    static uint8_t text[1 << 22], bytes[1 << 16];
    struct vq_verdict verdict = vq_open(text, fread(text, 1, sizeof text, stdin), &run);
    if (verdict.code != VQ_LAWFUL) {
        printf("error %u at line %u\n", (unsigned)verdict.code, (unsigned)verdict.first);
        return 2;
    }
    uint32_t count = (uint32_t)vq_actors(&run), *numbers = malloc(count * sizeof *numbers);
    pthread_t *threads = malloc(count * sizeof *threads);
    if (numbers == NULL || threads == NULL)
        return 3;
    for (uint32_t i = 0; i < count; i++) {
        numbers[i] = i;
        if (pthread_create(&threads[i], NULL, turns, &numbers[i]) != 0)
            return 3;
    }
    for (uint32_t i = 0; i < count; i++)
        pthread_join(threads[i], NULL);
    size_t needed;
    for (uint32_t buffer = 0; vq_bytes(&run, buffer, bytes, sizeof bytes, &needed) == VQ_DONE; buffer++)
        printf("buffer %u begins with %02x\n", (unsigned)buffer, bytes[0]);
    vq_close(&run);
    free(numbers);
    free(threads);
    return 0;
}
