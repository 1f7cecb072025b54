/* Queues and timelines as Vulkan drivers keep them over binary sync objects, for the comparison with vq_layer
 * (bench/live): a batch is a block of its own in its queue's list, a timeline is a list of points by value that is
 * scanned from the oldest one, and a batch's references are given back once it is handed over. The sync object of a
 * point is a flag here. On one thread, without a lock.
 *
 * listed_layer batch|held|host ROUNDS FLIGHT 0
 *
 * The rounds are those of layer.c: a batch of three waits and a signal is submitted, released and handed over, and the
 * oldest operation of its queue's timeline is completed; or a value is looked up for the host, which holds its point
 * and gives it back.
 */
#include <stdbool.h>
#include <stdint.h>
#include <stdio.h>
#include <stdlib.h>
#include <string.h>

enum { QUEUES = 4 };

struct point {
    struct point *next;
    uint64_t value;
    int refs;
    bool signaled;
};

struct timeline {
    uint64_t past, pending;
    struct point *oldest, *newest, *free;
};

struct wait {
    struct timeline *timeline;
    uint64_t value;
    struct point *point;
};

struct batch {
    struct batch *next;
    uint64_t token;
    uint32_t wait_count, signal_count;
    struct wait *waits, *signals; /* behind the batch, in its block */
};

struct queue {
    struct batch *first, *last;
};

static struct timeline timelines[QUEUES];
static struct queue queues[QUEUES];
static uint64_t sum;

/* Completes what is signaled and not referred to, from the oldest point on. */
static void collect(struct timeline *t)
{
    while (t->oldest && t->oldest->refs == 0 && t->oldest->signaled) {
        struct point *done = t->oldest;
        t->past = done->value;
        t->oldest = done->next;
        if (!t->oldest)
            t->newest = NULL;
        done->next = t->free;
        t->free = done;
    }
}

static struct point *take(struct timeline *t, uint64_t value)
{
    collect(t);
    struct point *given = t->free;
    if (given)
        t->free = given->next;
    else if (!(given = malloc(sizeof *given)))
        exit(1);
    *given = (struct point){.value = value};
    return given;
}

static void install(struct timeline *t, struct point *given)
{
    if (t->newest)
        t->newest->next = given;
    else
        t->oldest = given;
    t->newest = given;
    t->pending = given->value;
}

/* The first point at or above a value, with a reference; none where the value is past. */
static struct point *refer(struct timeline *t, uint64_t value)
{
    if (t->past >= value)
        return NULL;
    for (struct point *p = t->oldest; p; p = p->next)
        if (p->value >= value) {
            p->refs++;
            return p;
        }
    exit(1);
}

static void submit(struct queue *q, uint64_t token, const struct wait *waits, uint32_t wait_count,
                   const struct wait *signals, uint32_t signal_count)
{
    struct batch *batch = malloc(sizeof *batch + (wait_count + signal_count) * sizeof *waits);
    if (!batch)
        exit(1);
    *batch = (struct batch){.token = token, .wait_count = wait_count, .signal_count = signal_count};
    batch->waits = (struct wait *)(batch + 1);
    batch->signals = batch->waits + wait_count;
    memcpy(batch->waits, waits, wait_count * sizeof *waits);
    memcpy(batch->signals, signals, signal_count * sizeof *signals);
    for (uint32_t i = 0; i < signal_count; i++)
        batch->signals[i].point = take(batch->signals[i].timeline, batch->signals[i].value);
    if (q->last)
        q->last->next = batch;
    else
        q->first = batch;
    q->last = batch;
}

/* Hands over the first batch, if each value that it waits for is past or pending; then the batch is gone. */
static void release(struct queue *q)
{
    struct batch *batch = q->first;
    for (uint32_t i = 0; i < batch->wait_count; i++)
        if (batch->waits[i].timeline->pending < batch->waits[i].value)
            exit(1);
    for (uint32_t i = 0; i < batch->wait_count; i++)
        batch->waits[i].point = refer(batch->waits[i].timeline, batch->waits[i].value);
    for (uint32_t i = 0; i < batch->signal_count; i++)
        install(batch->signals[i].timeline, batch->signals[i].point);
    q->first = batch->next;
    if (!q->first)
        q->last = NULL;
    sum += batch->token;
    for (uint32_t i = 0; i < batch->wait_count; i++)
        if (batch->waits[i].point)
            batch->waits[i].point->refs--;
    free(batch);
}

static uint64_t wanted(uint64_t last, uint64_t flight)
{
    uint64_t back = flight / QUEUES / 2;
    return last > back ? last - back : 0;
}

int main(int argc, char **argv)
{
    if (argc != 5)
        return 1;
    int is_held = strcmp(argv[1], "held") == 0;
    uint64_t rounds = strtoull(argv[2], NULL, 10), flight = strtoull(argv[3], NULL, 10);
    for (uint64_t i = 0; i < rounds + flight; i++) {
        uint32_t q = (uint32_t)(i % QUEUES);
        if (strcmp(argv[1], "host") == 0 && i >= flight) {
            struct point *at = refer(&timelines[q], wanted(flight / QUEUES, flight));
            at->refs--;
            sum += at->value;
            continue;
        }
        struct wait waits[QUEUES - 1], signal = {&timelines[q], i / QUEUES + 1, NULL};
        for (uint32_t j = 1; j < QUEUES; j++)
            waits[j - 1] = (struct wait){&timelines[(q + j) % QUEUES], wanted(i / QUEUES, flight), NULL};
        submit(&queues[q], i, waits, QUEUES - 1, &signal, 1);
        if (!is_held || i >= flight)
            release(&queues[q]);
        if (i >= flight) {
            timelines[q].oldest->signaled = true;
            collect(&timelines[q]);
        }
    }
    puts(sum == 0 ? "nothing" : "done");
    return 0;
}
