/* A driver over the live layer, in both of Mesa's modes, with sixteen threads: submitters, simulated devices whose
 * batches are done out of order and that are held for a while now and then, threads that wait, and in threaded mode one
 * for each queue that hands its batches over. A batch's work is a sum over those of the batches that it waits for. What is printed is the same in each mode
 * and however the threads take turns; the sums are made once more in order, without a layer, and have to be the same.
 *
 * layer_driver deferred|threaded BATCHES
 */
#include <inttypes.h>
#include <pthread.h>
#include <stdio.h>
#include <stdlib.h>
#include <string.h>
#include <threads.h>
#include <time.h>

#include "vq_layer.h"

/* Timelines by number: one for each queue, a binary semaphore and a fence for each, and one that the host signals. */
enum { QUEUES = 4, BINARIES = QUEUES, FENCES = 2 * QUEUES, HOST = 3 * QUEUES, TIMELINES };
enum { WINDOW = 4, AHEAD = 32, POINTS = 4096, ROOM = 4 };

/* A batch, which is its own token: number k of its queue signals k on the queue's timeline. */
struct batch {
    uint32_t queue, number;
    struct vq_layer_point waits[ROOM], signals[ROOM];
    size_t wait_count, signal_count;
    int is_running, is_done;
    uint64_t sum;
};

static uint32_t most; /* the number of the last batch of each queue */
static int is_threaded;
static struct batch *batches[QUEUES]; /* by number */

/* The layer, and what is kept under its lock; `changed` stands for submits, releases, completes and finishes. */
static pthread_mutex_t lock = PTHREAD_MUTEX_INITIALIZER;
static pthread_cond_t changed = PTHREAD_COND_INITIALIZER;
static struct vq_layer layer;
static uint32_t submitted[QUEUES], finished[QUEUES];
static int is_closing;

/* The devices, whose lock is taken after the layer's: the binary syncs by timeline and point, and how many batches of
 * each queue were handed over and are finished. */
static pthread_mutex_t device_lock = PTHREAD_MUTEX_INITIALIZER;
static pthread_cond_t device_changed = PTHREAD_COND_INITIALIZER;
static unsigned char syncs[TIMELINES][POINTS];
static uint32_t handed[QUEUES], gone[QUEUES];
static int is_shut;

static _Noreturn void fail(const char *what, uint64_t number)
{
    printf("layer_driver: %s: %" PRIu64 "\n", what, number);
    exit(1);
}

static uint64_t done(struct vq_layer_answer answer, const char *what)
{
    if (answer.code != VQ_LAYER_DONE)
        fail(what, answer.code);
    return answer.value;
}

static unsigned char *sync_of(uint32_t timeline, uint32_t point)
{
    if (point >= POINTS)
        fail("more points than a driver has syncs", point);
    return &syncs[timeline][point];
}

static int is_signaled(uint32_t timeline, uint32_t point)
{
    pthread_mutex_lock(&device_lock);
    int is_set = *sync_of(timeline, point);
    pthread_mutex_unlock(&device_lock);
    return is_set;
}

/* What the batches wait for. */

static uint32_t before(uint32_t queue)
{
    return (queue + QUEUES - 1) % QUEUES;
}

static int signals_binary(uint32_t queue, uint32_t number)
{
    return queue + 1 < QUEUES && number % 3 == 0;
}

static int waits_for_binary(uint32_t queue, uint32_t number)
{
    return queue > 0 && number % 3 == 0;
}

static int signals_fence(uint32_t number)
{
    return number % 5 == 0;
}

static uint64_t mixed(uint64_t sum, uint64_t more)
{
    sum = (sum ^ more) * UINT64_C(0x9E3779B97F4A7C15);
    return sum ^ sum >> 29;
}

/* The sum of a batch, by those of the batches that it waits for; 0 stands for none yet. */
static uint64_t sum_of(uint32_t queue, uint32_t number)
{
    uint32_t others[3] = {0, 0, 0}, of[3] = {(queue + 1) % QUEUES, (queue + 2) % QUEUES, before(queue)};
    if (number % 2 == 0)
        others[0] = number - 1;
    if (number % 7 == 0)
        others[1] = number / 2;
    if (waits_for_binary(queue, number))
        others[2] = number;
    uint64_t sum = mixed(queue + 1, number);
    for (int i = 0; i < 3; i++) {
        if (others[i] == 0)
            continue;
        if (batches[of[i]][others[i]].sum == 0)
            fail("a batch ran before one that it waits for", number);
        sum = mixed(sum, batches[of[i]][others[i]].sum);
    }
    return sum | 1;
}

/* The driver. Its functions down to `wait_for` are called with the layer's lock. */

/* Mesa's gc_locked, for all timelines. */
static void collect(void)
{
    for (uint32_t t = 0; t < TIMELINES; t++) {
        struct vq_layer_answer first;
        while ((first = vq_layer_first(&layer, t)).code == VQ_LAYER_DONE && is_signaled(t, first.number)) {
            vq_layer_complete(&layer, t);
            pthread_cond_broadcast(&changed);
        }
    }
}

/* Hands one ready batch of a queue to the device. Whether there was one. */
static int flush_one(uint32_t queue)
{
    struct vq_layer_answer released = vq_layer_release(&layer, queue);
    if (released.code != VQ_LAYER_DONE)
        return 0; /* another queue's release, or the host's signal, comes first */
    struct batch *b = (struct batch *)(uintptr_t)done(vq_layer_token(&layer, queue, released.value), "token");
    b->wait_count = (size_t)done(vq_layer_waits(&layer, queue, released.value, b->waits, ROOM), "waits");
    b->signal_count = (size_t)done(vq_layer_signals(&layer, queue, released.value, b->signals, ROOM), "signals");
    /* under the layer's lock, so that batches of a queue reach the device in order */
    pthread_mutex_lock(&device_lock);
    if (++handed[queue] != b->number)
        fail("a batch is released out of order", b->number);
    pthread_cond_broadcast(&device_changed);
    pthread_mutex_unlock(&device_lock);
    pthread_cond_broadcast(&changed);
    return 1;
}

/* Deferred mode: who submits or signals flushes until no queue is ready (vk_device_flush). */
static void flush(void)
{
    struct vq_layer_answer ready;
    while (!is_threaded && (ready = vq_layer_next(&layer)).code == VQ_LAYER_DONE)
        flush_one(ready.number);
    pthread_cond_broadcast(&changed);
}

/* vkWaitSemaphores for one value; the lock is left meanwhile. */
static void wait_for(uint32_t timeline, uint64_t value)
{
    for (;;) {
        collect();
        struct vq_layer_answer at = vq_layer_find(&layer, timeline, value);
        if (at.code == VQ_LAYER_PAST)
            return;
        if (at.code == VQ_LAYER_NOT_YET) {
            pthread_cond_wait(&changed, &lock);
            continue;
        }
        done(vq_layer_refer(&layer, timeline, at.number), "refer");
        pthread_mutex_unlock(&lock);
        pthread_mutex_lock(&device_lock);
        while (!*sync_of(timeline, at.number))
            pthread_cond_wait(&device_changed, &device_lock);
        pthread_mutex_unlock(&device_lock);
        pthread_mutex_lock(&lock);
        done(vq_layer_unref(&layer, timeline, at.number), "unref");
    }
}

/* What the application waits for before it submits a batch: rooms, binary semaphores in use, its fence. */
static void wait_to_submit(uint32_t queue, uint32_t number)
{
    while (number > finished[queue] + AHEAD || (waits_for_binary(queue, number) && submitted[queue - 1] < number)
           || (signals_binary(queue, number) && number > 3 && submitted[queue + 1] < number - 3))
        pthread_cond_wait(&changed, &lock);
    struct vq_layer_answer signal;
    if (signals_fence(number) && (signal = vq_layer_untaken(&layer, FENCES + queue)).code == VQ_LAYER_DONE) {
        wait_for(FENCES + queue, signal.value);
        done(vq_layer_reset(&layer, FENCES + queue), "reset");
    }
}

/* Resets the syncs of a batch's points. It fails for some batches, at the first try. */
static int reset(const struct batch *b, int tries)
{
    if (b->number % 11 == 0 && tries == 1)
        return 0;
    pthread_mutex_lock(&device_lock);
    for (size_t i = 0; i < b->signal_count; i++)
        *sync_of(b->signals[i].timeline, b->signals[i].point) = 0;
    pthread_mutex_unlock(&device_lock);
    return 1;
}

/* vkQueueSubmit. A batch whose syncs can't be reset is taken back, and here submitted again. */
static void submit(struct batch *b)
{
    struct vq_layer_value waits[ROOM], signals[ROOM];
    size_t wait_count = 0, signal_count = 0;
    uint32_t q = b->queue, k = b->number;
    if (k % 2 == 0)
        waits[wait_count++] = (struct vq_layer_value){(q + 1) % QUEUES, k - 1};
    if (k % 7 == 0)
        waits[wait_count++] = (struct vq_layer_value){(q + 2) % QUEUES, k / 2};
    if (waits_for_binary(q, k))
        waits[wait_count++] = (struct vq_layer_value){BINARIES + q - 1, 0};
    if (k % 8 == 0)
        waits[wait_count++] = (struct vq_layer_value){HOST, k / 8};
    signals[signal_count++] = (struct vq_layer_value){q, k};
    if (signals_binary(q, k))
        signals[signal_count++] = (struct vq_layer_value){BINARIES + q, 0};
    if (signals_fence(k))
        signals[signal_count++] = (struct vq_layer_value){FENCES + q, 0};
    for (int tries = 1;; tries++) {
        struct vq_layer_answer place =
            vq_layer_submit(&layer, q, (uintptr_t)b, waits, wait_count, signals, signal_count);
        done(place, "submit");
        b->signal_count = (size_t)done(vq_layer_signals(&layer, q, place.value, b->signals, ROOM), "signals");
        if (reset(b, tries))
            break;
        if (done(vq_layer_take_back(&layer, q), "take back") != (uintptr_t)b)
            fail("another batch is taken back", k);
    }
    submitted[q] = k;
    flush();
}

/* The threads. */

static void *submitter(void *of)
{
    uint32_t queue = *(uint32_t *)of;
    pthread_mutex_lock(&lock);
    for (uint32_t k = 1; k <= most; k++) {
        wait_to_submit(queue, k);
        collect();
        submit(&batches[queue][k]);
        pthread_mutex_unlock(&lock);
        pthread_mutex_lock(&lock);
    }
    pthread_mutex_unlock(&lock);
    return NULL;
}

/* Threaded mode: a thread a queue (vk_queue_submit_thread_func). */
static void *queue_thread(void *of)
{
    uint32_t queue = *(uint32_t *)of;
    pthread_mutex_lock(&lock);
    while (!is_closing)
        if (!flush_one(queue))
            pthread_cond_wait(&changed, &lock);
    pthread_mutex_unlock(&lock);
    return NULL;
}

static int may_run(const struct batch *b)
{
    for (size_t i = 0; i < b->wait_count; i++)
        if (b->waits[i].point != VQ_LAYER_NO_POINT && !*sync_of(b->waits[i].timeline, b->waits[i].point))
            return 0;
    return !b->is_running;
}

/* One of the first few batches of a queue whose waits are signaled, at random: so they are done out of order. */
static struct batch *picked(uint32_t queue, uint32_t *random)
{
    uint32_t count = handed[queue] - gone[queue];
    if (count > WINDOW)
        count = WINDOW;
    *random = *random * 1664525u + 1013904223u;
    for (uint32_t i = 0; i < count; i++) {
        struct batch *b = &batches[queue][gone[queue] + 1 + (i + (*random >> 16)) % count];
        if (may_run(b))
            return b;
    }
    return NULL;
}

/* The oldest batches of a queue that are done are finished. */
static void finish(uint32_t queue)
{
    pthread_mutex_lock(&lock);
    collect();
    pthread_mutex_lock(&device_lock);
    while (gone[queue] < handed[queue] && batches[queue][gone[queue] + 1].is_done) {
        uint64_t token = done(vq_layer_finish(&layer, queue), "finish");
        if (token != (uintptr_t)&batches[queue][++gone[queue]])
            fail("another batch is finished", gone[queue]);
        finished[queue] = gone[queue];
    }
    pthread_mutex_unlock(&device_lock);
    pthread_cond_broadcast(&changed);
    pthread_mutex_unlock(&lock);
}

/* Some batches hold their device for a while: other queues go on, until what waits for it is all that is left. */
static void hold(const struct batch *b)
{
    struct timespec while_held = {0, 3000000};
    if (b->number % 97 == 0)
        thrd_sleep(&while_held, NULL);
}

static void *device(void *of)
{
    uint32_t queue = *(uint32_t *)of, random = queue;
    pthread_mutex_lock(&device_lock);
    while (!is_shut) {
        struct batch *b = picked(queue, &random);
        if (b == NULL) {
            pthread_cond_wait(&device_changed, &device_lock);
            continue;
        }
        b->is_running = 1;
        pthread_mutex_unlock(&device_lock);
        hold(b);
        b->sum = sum_of(queue, b->number);
        pthread_mutex_lock(&device_lock);
        for (size_t i = 0; i < b->signal_count; i++)
            *sync_of(b->signals[i].timeline, b->signals[i].point) = 1;
        b->is_done = 1;
        pthread_cond_broadcast(&device_changed);
        pthread_mutex_unlock(&device_lock);
        finish(queue);
        pthread_mutex_lock(&device_lock);
    }
    pthread_mutex_unlock(&device_lock);
    return NULL;
}

/* The host waits for values of a queue's timeline, and finds the work done. */
static void *waiter(void *of)
{
    uint32_t number = *(uint32_t *)of, queue = number % QUEUES;
    for (uint32_t k = number + 1;; k = k + number < most ? k + number + 1 : most) {
        pthread_mutex_lock(&lock);
        wait_for(queue, k);
        pthread_mutex_unlock(&lock);
        for (uint32_t i = 1; i <= k; i++)
            if (batches[queue][i].sum == 0)
                fail("a value is reached whose work isn't done", i);
        if (k == most)
            return NULL;
    }
}

/* The host signals its timeline, as far as the batches have come. */
static void signal_values(void)
{
    for (uint32_t value = 1; value <= most / 8; value++) {
        pthread_mutex_lock(&lock);
        wait_for(value % QUEUES, 4 * (value - 1));
        done(vq_layer_signal(&layer, HOST, value), "signal");
        flush();
        pthread_mutex_unlock(&lock);
    }
}

static void open_all(void)
{
    if (vq_layer_open(&layer) != VQ_LAYER_DONE)
        fail("open", 0);
    for (uint32_t t = 0; t < TIMELINES; t++) {
        int is_binary = t >= BINARIES && t < HOST;
        done(is_binary ? vq_layer_open_binary(&layer, false) : vq_layer_open_timeline(&layer, 0), "open");
    }
    for (uint32_t q = 0; q < QUEUES; q++) {
        done(vq_layer_open_queue(&layer), "open");
        batches[q] = calloc(most + 1, sizeof **batches);
        if (batches[q] == NULL)
            fail("memory", q);
        for (uint32_t k = 1; k <= most; k++) {
            batches[q][k].queue = q;
            batches[q][k].number = k;
        }
    }
}

/* All sums, in order and without a layer, and whether those of the threads are the same. */
static uint64_t checked_sum(void)
{
    uint64_t all = 0;
    for (uint32_t k = 1; k <= most; k++)
        for (uint32_t q = 0; q < QUEUES; q++) {
            if (batches[q][k].sum != sum_of(q, k))
                fail("a sum is another one in order", k);
            all = mixed(all, batches[q][k].sum);
        }
    return all;
}

int main(int argc, char **argv)
{
    static uint32_t numbers[QUEUES] = {0, 1, 2, 3};
    pthread_t threads[4 * QUEUES];
    if (argc != 3 || (most = (uint32_t)strtoul(argv[2], NULL, 10)) < 2 * QUEUES)
        return 2;
    is_threaded = strcmp(argv[1], "threaded") == 0;
    open_all();
    for (uint32_t i = 0; i < 4 * QUEUES; i++) {
        uint32_t kind = i / QUEUES;
        void *(*body)(void *) = kind == 0 ? submitter : kind == 1 ? waiter : kind == 2 ? device : queue_thread;
        if (kind == 3 && !is_threaded)
            body = waiter;
        if (pthread_create(&threads[i], NULL, body, &numbers[i % QUEUES]) != 0)
            fail("a thread", i);
    }
    signal_values();
    for (uint32_t i = 0; i < 2 * QUEUES; i++) /* those that submit and that wait */
        pthread_join(threads[i], NULL);
    pthread_mutex_lock(&lock);
    for (uint32_t q = 0; q < QUEUES; q++)
        while (finished[q] < most)
            pthread_cond_wait(&changed, &lock);
    is_closing = 1;
    pthread_cond_broadcast(&changed);
    pthread_mutex_unlock(&lock);
    pthread_mutex_lock(&device_lock);
    is_shut = 1;
    pthread_cond_broadcast(&device_changed);
    pthread_mutex_unlock(&device_lock);
    for (uint32_t i = 2 * QUEUES; i < 4 * QUEUES; i++)
        pthread_join(threads[i], NULL);
    printf("%" PRIu32 " batches on %d queues: sum %016" PRIx64 "\n", most * QUEUES, QUEUES, checked_sum());
    for (uint32_t t = 0; t < TIMELINES; t++)
        done(vq_layer_close_timeline(&layer, t), "close");
    vq_layer_close(&layer);
    for (uint32_t q = 0; q < QUEUES; q++)
        free(batches[q]);
    return 0;
}
