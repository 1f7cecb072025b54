/* Drives one live timeline by eight threads over simulated binary syncs, one of each point: two submit, two are the
 * device, three wait and one is the host. A sync is a flag that the device signals, in order or not. Stops with a
 * line and status 1 where the payload falls, a point is given that carries an operation or is held, or a value isn't
 * reached.
 *
 * live_threads ROUNDS late|first
 *
 * A round is a batch of one or two operations. With `first` an operation is installed before it is handed to the
 * device, with `late` after it; then one thread alone submits, and whoever looks helps.
 */
#include <inttypes.h>
#include <pthread.h>
#include <stdatomic.h>
#include <stdio.h>
#include <stdlib.h>
#include <string.h>

#include "vq_live.h"

enum { POINTS = 1 << 14, VALUES = 1 << 17, ROOM = 64, WAITERS = 3, AHEAD = 12 };

struct sync {
    pthread_mutex_t mutex;
    pthread_cond_t signaled;
    int is_signaled;
};

/* A device's queue: operations that were handed over. */
struct ring {
    pthread_mutex_t mutex;
    pthread_cond_t changed;
    struct vq_live_given room[ROOM];
    unsigned count;
    int is_closed;
};

static struct sync syncs[POINTS];
static struct ring rings[2];
static atomic_uchar is_done[VALUES]; /* by value: the device's work is done */
static unsigned long rounds;
static int is_late;

/* What the lock guards: the timeline, and beside it what it should say of its points. */
static pthread_mutex_t lock = PTHREAD_MUTEX_INITIALIZER;
static pthread_cond_t changed = PTHREAD_COND_INITIALIZER;
static struct vq_live timeline;
static uint64_t carries[POINTS];
static uint32_t held[POINTS];
static uint64_t last_taken, last_value, final_value;
static uint32_t points_made;
static unsigned long cancelled, waited, slept, host_signals;

static void fail(const char *what, uint64_t number)
{
    printf("live_threads: %s: %" PRIu64 "\n", what, number);
    exit(1);
}

static void must(uint32_t code, uint32_t wanted, const char *what)
{
    if (code != wanted)
        fail(what, code);
}

static uint32_t random_below(uint32_t *state, uint32_t bound)
{
    *state = *state * 1664525u + 1013904223u;
    return (*state >> 8) % bound;
}

static void set(struct sync *sync, int is_signaled)
{
    pthread_mutex_lock(&sync->mutex);
    sync->is_signaled = is_signaled;
    pthread_cond_broadcast(&sync->signaled);
    pthread_mutex_unlock(&sync->mutex);
}

static int is_set(struct sync *sync)
{
    pthread_mutex_lock(&sync->mutex);
    int is_signaled = sync->is_signaled;
    pthread_mutex_unlock(&sync->mutex);
    return is_signaled;
}

static void wait_for(struct sync *sync)
{
    pthread_mutex_lock(&sync->mutex);
    while (!sync->is_signaled)
        pthread_cond_wait(&sync->signaled, &sync->mutex);
    pthread_mutex_unlock(&sync->mutex);
}

/* The functions from here to `take_point` are called with the lock held. */

static void look_at_value(void)
{
    uint64_t value = vq_live_value(&timeline);
    if (value < last_value)
        fail("the payload fell to", value);
    last_value = value;
}

static void complete_first(struct vq_live_given first)
{
    struct vq_live_given given;
    must(vq_live_complete(&timeline, &given), VQ_LIVE_DONE, "complete");
    if (given.value != first.value || given.point != first.point || carries[given.point] != given.value)
        fail("another operation was completed", given.value);
    if (!is_done[given.value])
        fail("an operation was completed whose work isn't done", given.value);
    carries[given.point] = 0;
    look_at_value();
    if (last_value != given.value)
        fail("the payload isn't the completed value", last_value);
}

/* The loop of gc_locked: what is pending and signaled; with help then what is taken and signaled. */
static void collect(void)
{
    struct vq_live_given first, next;
    while (vq_live_first(&timeline, &first) == VQ_LIVE_DONE) {
        if (!is_set(&syncs[first.point]))
            return;
        complete_first(first);
        pthread_cond_broadcast(&changed);
    }
    while (is_late && vq_live_least_taken(&timeline, &first) == VQ_LIVE_DONE && is_set(&syncs[first.point])) {
        must(vq_live_install(&timeline, &first, &next), VQ_LIVE_DONE, "a helper's install");
        complete_first(first);
        pthread_cond_broadcast(&changed);
    }
}

/* Takes a point for a value. */
static struct vq_live_given take_point(uint64_t value)
{
    struct vq_live_given given;
    collect();
    must(vq_live_take(&timeline, value, &given), VQ_LIVE_DONE, "take");
    if (given.value != value || given.point >= POINTS)
        fail("another operation was given", given.value);
    if (carries[given.point] != 0 || held[given.point] != 0)
        fail("a point was given that is in use", given.point);
    carries[given.point] = value;
    if (given.point >= points_made)
        points_made = given.point + 1;
    if (is_late) /* a helper may look at the sync as soon as the point is taken */
        set(&syncs[given.point], 0);
    return given;
}

/* The next so many values, each with a point, the greater value first. Others may take points between the two. */
static void take_points(unsigned count, struct vq_live_given *given)
{
    pthread_mutex_lock(&lock);
    uint64_t value = last_taken + 2;
    last_taken += 2 * count;
    while (count-- > 0) {
        given[count] = take_point(value + 2 * count);
        pthread_mutex_unlock(&lock);
        if (!is_late)
            set(&syncs[given[count].point], 0);
        pthread_mutex_lock(&lock);
    }
    pthread_mutex_unlock(&lock);
}

/* Installs an operation, when those below it are. Before the device has it, it can't have been installed by anybody. */
static void install(struct vq_live_given given)
{
    struct vq_live_given next;
    pthread_mutex_lock(&lock);
    uint32_t code;
    while ((code = vq_live_install(&timeline, &given, &next)) == VQ_LIVE_NOT_NEXT) {
        if (is_late || next.value >= given.value)
            fail("another operation is next", next.value);
        pthread_cond_wait(&changed, &lock);
    }
    if (code != VQ_LIVE_DONE && !(is_late && code == VQ_LIVE_ALREADY))
        fail("install", code);
    pthread_cond_broadcast(&changed);
    pthread_mutex_unlock(&lock);
}

/* The submission failed. */
static void cancel(struct vq_live_given given)
{
    pthread_mutex_lock(&lock);
    carries[given.point] = 0;
    must(vq_live_cancel(&timeline, &given), VQ_LIVE_DONE, "cancel");
    must(vq_live_cancel(&timeline, &given), VQ_LIVE_NOT_TAKEN, "cancel again");
    cancelled++;
    pthread_cond_broadcast(&changed);
    pthread_mutex_unlock(&lock);
}

static void hand_over(struct ring *ring, struct vq_live_given given)
{
    pthread_mutex_lock(&ring->mutex);
    while (ring->count == ROOM)
        pthread_cond_wait(&ring->changed, &ring->mutex);
    ring->room[ring->count++] = given;
    pthread_cond_broadcast(&ring->changed);
    pthread_mutex_unlock(&ring->mutex);
}

static void submit(struct ring *ring, struct vq_live_given given)
{
    if (is_late) {
        hand_over(ring, given);
        install(given);
    } else {
        install(given);
        hand_over(ring, given);
    }
}

/* Rounds of a submitting thread: a batch of one operation or of two, whose first submission may fail. */
static void *submits(void *of)
{
    struct ring *ring = of;
    uint32_t state = ring == rings ? 1 : 2;
    for (unsigned long round = 0; round < rounds; round++) {
        struct vq_live_given given[2];
        unsigned count = 1 + random_below(&state, 2);
        take_points(count, given);
        if (random_below(&state, 16) == 0)
            cancel(given[0]);
        else
            submit(ring, given[0]);
        if (count == 2)
            submit(ring, given[1]);
    }
    return NULL;
}

/* The device signals what it was handed over, the second before the first where there is an odd number of them. */
static void *runs(void *of)
{
    struct ring *ring = of;
    for (;;) {
        pthread_mutex_lock(&ring->mutex);
        while (ring->count == 0 && !ring->is_closed)
            pthread_cond_wait(&ring->changed, &ring->mutex);
        if (ring->count == 0) {
            pthread_mutex_unlock(&ring->mutex);
            return NULL;
        }
        unsigned place = ring->count > 1 ? ring->count % 2 : 0;
        struct vq_live_given given = ring->room[place];
        ring->count--;
        memmove(ring->room + place, ring->room + place + 1, (ring->count - place) * sizeof given);
        pthread_cond_broadcast(&ring->changed);
        pthread_mutex_unlock(&ring->mutex);
        is_done[given.value] = 1;
        set(&syncs[given.point], 1);
    }
}

/* Waits until a value is reached: for the sync of the point that it needs, which it holds; where that is signaled
 * before those below it, for the first of these. The lock is held before and after. */
static void wait_until(uint64_t value)
{
    struct vq_live_given at;
    for (;;) {
        collect();
        enum vq_live_code code = vq_live_find(&timeline, value, &at);
        if (code == VQ_LIVE_PAST)
            break;
        if (code == VQ_LIVE_NOT_YET) {
            pthread_cond_wait(&changed, &lock);
            continue;
        }
        must(code, VQ_LIVE_PENDING, "find");
        if (at.value < value || carries[at.point] != at.value)
            fail("another operation was found", at.value);
        if (is_set(&syncs[at.point]))
            must(vq_live_first(&timeline, &at), VQ_LIVE_DONE, "first");
        must(vq_live_refer(&timeline, at.point), VQ_LIVE_DONE, "refer");
        held[at.point]++;
        slept++;
        pthread_mutex_unlock(&lock);
        wait_for(&syncs[at.point]);
        pthread_mutex_lock(&lock);
        held[at.point]--;
        must(vq_live_unref(&timeline, at.point), VQ_LIVE_DONE, "unref");
    }
    look_at_value();
    if (last_value < value)
        fail("a value was past that isn't reached", value);
    waited++;
}

/* Waits for values a little ahead, until the last one is reached. */
static void *waits(void *of)
{
    uint32_t state = *(uint32_t *)of;
    pthread_mutex_lock(&lock);
    while (last_value < final_value || final_value == 0) {
        uint64_t value = last_value + random_below(&state, AHEAD);
        if (final_value != 0 && value > final_value)
            value = final_value;
        else if (value > last_taken)
            value = last_taken;
        int is_past = value <= last_value;
        wait_until(value);
        if (is_past && final_value == 0)
            pthread_cond_wait(&changed, &lock);
    }
    pthread_mutex_unlock(&lock);
    return NULL;
}

/* The host reads, and signals the odd value behind an even one that is reached: no operation has it. */
static void *hosts(void *of)
{
    (void)of;
    pthread_mutex_lock(&lock);
    while (last_value < final_value || final_value == 0) {
        struct vq_live_given first;
        uint64_t known = 0;
        collect();
        look_at_value();
        if (vq_live_first(&timeline, &first) == VQ_LIVE_DONE) {
            must(vq_live_signal(&timeline, first.value, &known), VQ_LIVE_OUTSTANDING, "a signal of what is pending");
            if (known != first.value)
                fail("another operation is outstanding", known);
        }
        must(vq_live_signal(&timeline, last_value, &known), VQ_LIVE_NOT_ABOVE, "a signal of what is reached");
        if (last_value % 2 == 0) {
            must(vq_live_signal(&timeline, last_value + 1, &known), VQ_LIVE_DONE, "the host's signal");
            host_signals++;
            pthread_cond_broadcast(&changed);
        }
        look_at_value();
        if (last_value < final_value || final_value == 0)
            pthread_cond_wait(&changed, &lock);
    }
    pthread_mutex_unlock(&lock);
    return NULL;
}

static void begin(void)
{
    must(vq_live_open(0, &timeline), VQ_LIVE_DONE, "open");
    for (uint32_t i = 0; i < POINTS; i++) {
        pthread_mutex_init(&syncs[i].mutex, NULL);
        pthread_cond_init(&syncs[i].signaled, NULL);
        syncs[i].is_signaled = 1; /* it is to be reset before it is used */
    }
    for (int i = 0; i < 2; i++) {
        pthread_mutex_init(&rings[i].mutex, NULL);
        pthread_cond_init(&rings[i].changed, NULL);
    }
}

static void end(void)
{
    struct vq_live_given given;
    must(vq_live_first(&timeline, &given), VQ_LIVE_NOTHING_PENDING, "something is pending at the end");
    must(vq_live_least_taken(&timeline, &given), VQ_LIVE_NOTHING_TAKEN, "something is taken at the end");
    for (uint32_t i = 0; i < POINTS; i++)
        if (carries[i] != 0 || held[i] != 0)
            fail("a point is in use at the end", i);
    vq_live_close(&timeline);
}

/* One more operation, so that the last value is one that is reached; the waiters and the host end there. */
static void finish(void)
{
    struct vq_live_given last;
    take_points(1, &last);
    submit(&rings[0], last);
    pthread_mutex_lock(&lock);
    final_value = last.value;
    wait_until(final_value);
    pthread_cond_broadcast(&changed);
    pthread_mutex_unlock(&lock);
    for (int i = 0; i < 2; i++) {
        pthread_mutex_lock(&rings[i].mutex);
        rings[i].is_closed = 1;
        pthread_cond_broadcast(&rings[i].changed);
        pthread_mutex_unlock(&rings[i].mutex);
    }
}

static void start(pthread_t *thread, void *(*work)(void *), void *of)
{
    if (pthread_create(thread, NULL, work, of) != 0)
        fail("no thread", 0);
}

int main(int argc, char **argv)
{
    if (argc != 3)
        fail("live_threads ROUNDS late|first", (uint64_t)argc);
    is_late = strcmp(argv[2], "late") == 0;
    unsigned submitters = is_late ? 1 : 2;
    rounds = strtoul(argv[1], NULL, 10) / submitters;
    if (rounds * submitters >= VALUES / 4 - 1)
        fail("too many rounds", rounds);
    begin();
    pthread_t submitting[2], devices[2], waiting[WAITERS + 1], host;
    uint32_t seeds[WAITERS + 1] = {11, 12, 13, 14};
    unsigned waiters = WAITERS + 2 - submitters; /* eight threads in both orders */
    for (unsigned i = 0; i < 2; i++)
        start(&devices[i], runs, &rings[i]);
    for (unsigned i = 0; i < waiters; i++)
        start(&waiting[i], waits, &seeds[i]);
    start(&host, hosts, NULL);
    for (unsigned i = 0; i < submitters; i++)
        start(&submitting[i], submits, &rings[i]);
    for (unsigned i = 0; i < submitters; i++)
        pthread_join(submitting[i], NULL);
    finish();
    for (unsigned i = 0; i < waiters; i++)
        pthread_join(waiting[i], NULL);
    pthread_join(host, NULL);
    for (unsigned i = 0; i < 2; i++)
        pthread_join(devices[i], NULL);
    printf("value %" PRIu64 ", %lu cancelled, %lu waits, %lu of them for a sync, %lu signals of the host, %u points\n",
           vq_live_value(&timeline), cancelled, waited, slept, host_signals, points_made);
    end();
    return 0;
}
