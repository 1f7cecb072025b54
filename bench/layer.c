/* Takes batches through a live layer by the calls of c/vq_layer.h, on one thread and without a lock: bench/live.
 *
 * layer batch|held|host ROUNDS FLIGHT 0
 *
 * A round submits a batch to one of four queues, which waits for a value of each of three timelines, in the middle of
 * what is in flight there, and signals one of its queue's; reads its points; releases it and reads the points that it
 * waits for; completes the oldest operation of its queue's timeline and finishes its queue's oldest batch. So FLIGHT
 * batches are in flight, released and with their operations pending, once there are so many. `held` releases a batch
 * only when FLIGHT others were submitted behind it: so many are held back. `host` only takes so many batches there, and a
 * round looks a value up in the middle of a timeline, holds its point, and gives it back, as a wait of the host does. A
 * round of `bare-cas` is a compare-exchange and nothing else.
 */
#include <stdio.h>
#include <stdlib.h>
#include <string.h>

#include "vq_layer.h"

enum { QUEUES = 4 };

static struct vq_layer layer;
static uint64_t sum;

static uint64_t must(struct vq_layer_answer answer)
{
    if (answer.code != VQ_LAYER_DONE)
        exit(1);
    return answer.value;
}

/* The value of a timeline in the middle of its last so many. */
static uint64_t wanted(uint64_t last, uint64_t flight)
{
    uint64_t back = flight / QUEUES / 2;
    return last > back ? last - back : 0;
}

static void submit(uint32_t q, uint64_t value, uint64_t flight)
{
    struct vq_layer_value waits[QUEUES - 1], signal = {q, value};
    struct vq_layer_point points[1];
    for (uint32_t i = 1; i < QUEUES; i++)
        waits[i - 1] = (struct vq_layer_value){(q + i) % QUEUES, wanted(value - 1, flight)};
    uint64_t place = must(vq_layer_submit(&layer, q, value, waits, QUEUES - 1, &signal, 1));
    must(vq_layer_signals(&layer, q, place, points, 1));
    sum += points[0].point;
}

static void release(uint32_t q)
{
    struct vq_layer_point points[QUEUES - 1];
    uint64_t place = must(vq_layer_release(&layer, q));
    must(vq_layer_waits(&layer, q, place, points, QUEUES - 1));
    sum += points[0].point;
}

static void finish(uint32_t q)
{
    sum += must(vq_layer_complete(&layer, q));
    sum += must(vq_layer_finish(&layer, q));
}

static void exchange(uint64_t rounds)
{
    for (uint64_t i = 0; i < rounds; i++) {
        uint64_t wanted_sum = i;
        if (!__atomic_compare_exchange_n(&sum, &wanted_sum, i + 1, 0, __ATOMIC_SEQ_CST, __ATOMIC_SEQ_CST))
            exit(1);
    }
}

static void look(uint32_t timeline, uint64_t value)
{
    struct vq_layer_answer at = vq_layer_find(&layer, timeline, value);
    must(vq_layer_refer(&layer, timeline, at.number));
    must(vq_layer_unref(&layer, timeline, at.number));
    sum += at.value;
}

int main(int argc, char **argv)
{
    if (argc != 5 || vq_layer_open(&layer) != VQ_LAYER_DONE)
        return 1;
    int is_held = strcmp(argv[1], "held") == 0;
    uint64_t rounds = strtoull(argv[2], NULL, 10), flight = strtoull(argv[3], NULL, 10);
    if (strcmp(argv[1], "bare-cas") == 0) {
        exchange(rounds);
        rounds = 0;
    }
    for (uint32_t q = 0; q < QUEUES; q++) {
        must(vq_layer_open_timeline(&layer, 0));
        must(vq_layer_open_queue(&layer));
    }
    for (uint64_t i = 0; i < rounds + flight; i++) {
        uint32_t q = (uint32_t)(i % QUEUES);
        if (strcmp(argv[1], "host") == 0 && i >= flight) {
            look(q, wanted(flight / QUEUES, flight));
            continue;
        }
        submit(q, i / QUEUES + 1, flight);
        if (!is_held || i >= flight)
            release(q);
        if (i >= flight)
            finish(q);
    }
    vq_layer_close(&layer);
    puts(sum == 0 ? "nothing" : "done");
    return 0;
}
