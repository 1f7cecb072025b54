/* A timeline as Vulkan drivers keep it over binary sync objects: a list of points by value, a mutex, a scan from the
 * oldest point. It is written for the comparison with vq_live, and makes the same steps with as many locks. The sync
 * object of a point is a flag here, and waits sleep on one condition variable, which each install wakes.
 *
 * listed_timeline KIND ROUNDS FLIGHT THREADS
 *     wake, value, find, refer, cancel, turn, whole, signal
 */
#include <pthread.h>
#include <stdbool.h>
#include <stdint.h>
#include <stdio.h>
#include <stdlib.h>
#include <string.h>

struct point {
    struct point *next;
    uint64_t value;
    int refs;
    bool signaled;
};

struct timeline {
    pthread_mutex_t lock;
    pthread_cond_t changed;
    uint64_t past, pending;
    struct point *oldest, *newest, *free;
    struct point *running; /* the oldest that isn't signaled */
};

struct work {
    struct timeline *timeline;
    bool (*step)(struct work *w, uint64_t round);
    uint64_t rounds, flight, thread;
    bool is_right;
};

static void give_back(struct timeline *t, struct point *left)
{
    left->next = t->free;
    t->free = left;
}

/* Completes what is signaled and not referred to, from the oldest point on. */
static void collect(struct timeline *t)
{
    while (t->oldest && t->oldest->refs == 0 && t->oldest->signaled) {
        struct point *done = t->oldest;
        t->past = done->value;
        t->oldest = done->next;
        if (!t->oldest)
            t->newest = NULL;
        give_back(t, done);
    }
}

static struct point *take(struct timeline *t, uint64_t value)
{
    collect(t);
    struct point *given = t->free;
    if (given)
        t->free = given->next;
    else if (!(given = malloc(sizeof *given)))
        return NULL;
    *given = (struct point){ .value = value };
    return given;
}

static void install(struct timeline *t, struct point *given)
{
    if (t->newest)
        t->newest->next = given;
    else
        t->oldest = given;
    t->newest = given;
    if (!t->running)
        t->running = given;
    t->pending = given->value;
    pthread_cond_broadcast(&t->changed);
}

/* The first point whose value is at least this one, or NULL where the value is past or not installed. */
static struct point *find(struct timeline *t, uint64_t value)
{
    collect(t);
    if (value <= t->past || value > t->pending)
        return NULL;
    struct point *known = t->oldest;
    while (known && known->value < value)
        known = known->next;
    return known;
}

static bool value_step(struct work *w, uint64_t round)
{
    struct timeline *t = w->timeline;
    pthread_mutex_lock(&t->lock);
    collect(t);
    uint64_t value = t->past;
    pthread_mutex_unlock(&t->lock);
    return value <= round;
}

static bool signal_step(struct work *w, uint64_t round)
{
    struct timeline *t = w->timeline;
    pthread_mutex_lock(&t->lock);
    collect(t);
    t->past = t->pending = t->past + 1;
    bool is_right = t->past > round;
    pthread_mutex_unlock(&t->lock);
    return is_right;
}

static bool find_step(struct work *w, uint64_t round)
{
    struct timeline *t = w->timeline;
    (void)round;
    pthread_mutex_lock(&t->lock);
    struct point *found = find(t, w->flight / 2 + 1);
    pthread_mutex_unlock(&t->lock);
    return found;
}

/* Refers to the point at which a value is pending, and gives the reference back. */
static bool looked_up(struct timeline *t, uint64_t value)
{
    pthread_mutex_lock(&t->lock);
    struct point *held = find(t, value);
    bool is_past = value <= t->past;
    if (held)
        held->refs++;
    pthread_mutex_unlock(&t->lock);
    if (!held)
        return is_past;
    pthread_mutex_lock(&t->lock);
    held->refs--;
    pthread_mutex_unlock(&t->lock);
    return true;
}

static bool refer_step(struct work *w, uint64_t round)
{
    (void)round;
    return looked_up(w->timeline, 1);
}

static bool cancel_step(struct work *w, uint64_t round)
{
    struct timeline *t = w->timeline;
    (void)round;
    pthread_mutex_lock(&t->lock);
    struct point *given = take(t, w->flight + w->thread);
    pthread_mutex_unlock(&t->lock);
    if (!given)
        return false;
    pthread_mutex_lock(&t->lock);
    give_back(t, given);
    pthread_mutex_unlock(&t->lock);
    return true;
}

/* A submission, and the device's signal of the oldest that runs. It answers the value, or 0. */
static uint64_t turned(struct timeline *t)
{
    pthread_mutex_lock(&t->lock);
    uint64_t value = t->pending + 1;
    struct point *given = take(t, value);
    if (given) {
        install(t, given);
        t->running->signaled = true;
        t->running = t->running->next;
        collect(t);
    }
    pthread_mutex_unlock(&t->lock);
    return given ? value : 0;
}

static bool turn_step(struct work *w, uint64_t round)
{
    (void)round;
    return turned(w->timeline);
}

static bool whole_step(struct work *w, uint64_t round)
{
    (void)round;
    uint64_t value = turned(w->timeline);
    bool is_right = value;
    for (int i = 0; i < 3; i++)
        is_right = looked_up(w->timeline, value) && is_right;
    return is_right;
}

static void wait_for(struct timeline *t, uint64_t value)
{
    pthread_mutex_lock(&t->lock);
    while (t->past < value)
        pthread_cond_wait(&t->changed, &t->lock);
    pthread_mutex_unlock(&t->lock);
}

/* A turn, which reaches the value that the other thread waits for, and a wait for what that thread reaches. */
static bool wake_step(struct work *w, uint64_t round)
{
    if (w->thread == 2)
        wait_for(w->timeline, 2 * round + 1);
    bool is_right = turned(w->timeline);
    if (w->thread == 1)
        wait_for(w->timeline, 2 * round + 2);
    return is_right;
}

static const struct {
    const char *kind;
    bool (*step)(struct work *w, uint64_t round);
} steps[] = {
    { "wake", wake_step },     { "value", value_step }, { "find", find_step },   { "refer", refer_step },
    { "cancel", cancel_step }, { "turn", turn_step },   { "whole", whole_step }, { "signal", signal_step },
};

static void *make_all(void *given)
{
    struct work *w = given;
    bool is_right = true;
    for (uint64_t round = 0; round < w->rounds; round++)
        is_right = w->step(w, round) && is_right;
    w->is_right = is_right;
    return NULL;
}

int main(int count, char **words)
{
    struct timeline t = { .lock = PTHREAD_MUTEX_INITIALIZER, .changed = PTHREAD_COND_INITIALIZER };
    struct work first = { .timeline = &t, .thread = 1 };
    for (size_t i = 0; count == 5 && i < sizeof steps / sizeof *steps; i++)
        if (!strcmp(words[1], steps[i].kind))
            first.step = steps[i].step;
    if (!first.step)
        return 2;
    first.rounds = strtoull(words[2], NULL, 10);
    first.flight = strtoull(words[3], NULL, 10);
    for (uint64_t value = 1; value <= first.flight; value++) {
        struct point *given = take(&t, value);
        if (!given)
            return 1;
        install(&t, given);
    }
    /* there is a second thread always: in a process that has had but one, the C library's mutex is cheaper */
    struct work second = first;
    second.thread = 2;
    if (strcmp(words[4], "2"))
        second.rounds = 0;
    pthread_t other;
    if (pthread_create(&other, NULL, make_all, &second))
        return 1;
    make_all(&first);
    pthread_join(other, NULL);
    puts(first.is_right && second.is_right ? "done" : "failed");
    return 0;
}
