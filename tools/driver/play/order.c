#include "order.h"

#include <stdlib.h>
#include <string.h>

/* Scripts of more jobs are played in the slow order, where the lines' own isn't possible. */
enum { MOST_TRIED = 128, NONE = UINT32_MAX };

/* How far everything is, once all that was submitted has gone as far as it can without the rest. */
struct progress {
    const struct script *script;
    const uint32_t *shared;
    /* For each semaphore the greatest value made, and how many waits for it are placed. */
    uint64_t made[MOST_SEMAPHORES], waits[MOST_SEMAPHORES];
    bool is_placed[MOST_JOBS];
    /* The jobs that are placed, in their order, and for each queue of the device its batches and how many are done. */
    uint32_t order[MOST_JOBS], placed;
    uint32_t batches[MOST_QUEUES][MOST_JOBS], submitted[MOST_QUEUES], done[MOST_QUEUES];
    /* For each queue of the script, and for the host behind them, the number of the next job that isn't placed. */
    uint32_t next[MOST_QUEUES + 1];
};

static bool is_reached(const struct progress *p, const struct job *job)
{
    uint32_t reached = 0;

    for (uint32_t n = 0; n < job->wait_count; n++)
        reached += p->made[job->waits[n].semaphore] >= job->waits[n].value;
    return job->kind == HOST_WAIT_ANY ? reached > 0 : reached == job->wait_count;
}

static void make(struct progress *p, struct mark mark)
{
    if (p->made[mark.semaphore] < mark.value)
        p->made[mark.semaphore] = mark.value;
}

/* Lets the device go on with what is submitted. */
static void advance(struct progress *p)
{
    bool has_moved = true;

    while (has_moved) {
        has_moved = false;
        for (uint32_t q = 0; q < MOST_QUEUES; q++) {
            const struct job *job;
            if (p->done[q] == p->submitted[q])
                continue;
            job = &p->script->jobs[p->batches[q][p->done[q]]];
            if (!is_reached(p, job))
                continue;
            for (uint32_t n = 0; n < job->signal_count; n++)
                make(p, job->signals[n]);
            if (job->has_fence)
                make(p, job->fence);
            p->done[q]++;
            has_moved = true;
        }
    }
}

/* The signals and waits of a binary semaphore keep their order. A batch that waits for one comes only when nothing that
   its signal depends on is still to be submitted, as Vulkan asks. */
static bool has_binaries(const struct progress *p, const struct job *job)
{
    for (uint32_t n = 0; n < job->wait_count; n++) {
        uint32_t t = job->waits[n].semaphore;
        if (p->script->semaphores[t].kind == BINARY &&
            (p->waits[t] + 1 != job->waits[n].value || p->made[t] < job->waits[n].value))
            return false;
    }
    for (uint32_t n = 0; n < job->signal_count; n++) {
        uint32_t t = job->signals[n].semaphore;
        uint64_t waits = p->waits[t];
        for (uint32_t w = 0; w < job->wait_count; w++)
            waits += job->waits[w].semaphore == t;
        if (p->script->semaphores[t].kind == BINARY && (waits + 1 < job->signals[n].value))
            return false;
    }
    return true;
}

static bool is_idle(const struct progress *p, uint32_t step)
{
    for (uint32_t q = 0; q < MOST_QUEUES; q++)
        if (p->done[q] != p->submitted[q])
            return false;
    for (uint32_t j = 0; j < step; j++)
        if (!p->is_placed[j])
            return false;
    return true;
}

/* Whether the host may come to this job now, and won't wait there for what is still to come. */
static bool may_place(const struct progress *p, uint32_t j)
{
    const struct job *job = &p->script->jobs[j];

    if (job->kind == BATCH)
        return p->next[job->queue] == j && p->next[MOST_QUEUES] > j && has_binaries(p, job);
    if (p->next[MOST_QUEUES] != j)
        return false;
    switch (job->kind) {
    case HOST_WAIT_ALL:
    case HOST_WAIT_ANY:
    case HOST_FENCE_WAIT:
        return is_reached(p, job);
    case HOST_IDLE:
        return is_idle(p, j);
    default:
        return true;
    }
}

/* Whether the job is done at once where it is placed now. */
static bool is_free(const struct progress *p, uint32_t j)
{
    const struct job *job = &p->script->jobs[j];
    uint32_t q;

    if (job->kind != BATCH)
        return true;
    q = p->shared[job->queue];
    return p->done[q] == p->submitted[q] && is_reached(p, job);
}

static bool is_in_lane(const struct job *job, uint32_t lane)
{
    return lane == MOST_QUEUES ? job->kind != BATCH : job->kind == BATCH && job->queue == lane;
}

static uint32_t next_in_lane(const struct script *script, uint32_t lane, uint32_t from)
{
    while (from < script->job_count && !is_in_lane(&script->jobs[from], lane))
        from++;
    return from < script->job_count ? from : NONE;
}

static void place(struct progress *p, uint32_t j)
{
    const struct job *job = &p->script->jobs[j];
    uint32_t lane = job->kind == BATCH ? job->queue : MOST_QUEUES;

    p->is_placed[j] = true;
    p->order[p->placed++] = j;
    p->next[lane] = next_in_lane(p->script, lane, j + 1);
    if (job->kind == BATCH) {
        uint32_t q = p->shared[job->queue];
        p->batches[q][p->submitted[q]++] = j;
        for (uint32_t n = 0; n < job->wait_count; n++)
            p->waits[job->waits[n].semaphore]++;
    } else if (job->kind == HOST_SIGNAL) {
        make(p, job->signals[0]);
    }
    advance(p);
}

static bool is_over(const struct progress *p)
{
    for (uint32_t q = 0; q < MOST_QUEUES; q++)
        if (p->done[q] != p->submitted[q])
            return false;
    return p->placed == p->script->job_count;
}

/* Goes on in the order of the lines. */
static bool complete_as_written(struct progress *p)
{
    for (uint32_t j = 0; j < p->script->job_count; j++) {
        if (!may_place(p, j))
            return false;
        place(p, j);
    }
    return is_over(p);
}

/* Goes on with the slow order: always the lowest job that is done at once. */
static bool complete_slowly(struct progress *p)
{
    while (p->placed < p->script->job_count) {
        uint32_t least = NONE;
        for (uint32_t lane = 0; lane <= MOST_QUEUES; lane++) {
            uint32_t j = p->next[lane];
            if (j != NONE && j < least && may_place(p, j) && is_free(p, j))
                least = j;
        }
        if (least == NONE)
            return false;
        place(p, least);
    }
    return is_over(p);
}

/* Goes on with always the lowest job behind which the slow order still comes to an end. */
static bool complete_early(struct progress *p, struct progress *tried)
{
    while (p->placed < p->script->job_count) {
        uint32_t j = 0;
        for (; j < p->script->job_count; j++) {
            if (p->is_placed[j] || !may_place(p, j))
                continue;
            *tried = *p;
            place(tried, j);
            if (complete_slowly(tried))
                break;
        }
        if (j == p->script->job_count)
            return false;
        place(p, j);
    }
    return is_over(p);
}

static void begin(struct progress *p, const struct script *script, const uint32_t *shared)
{
    memset(p, 0, sizeof *p);
    p->script = script;
    p->shared = shared;
    for (uint32_t t = 0; t < script->semaphore_count; t++)
        p->made[t] = script->semaphores[t].initial;
    for (uint32_t lane = 0; lane <= MOST_QUEUES; lane++)
        p->next[lane] = next_in_lane(script, lane, 0);
}

bool find_order(const struct script *script, const uint32_t shared[MOST_QUEUES], uint32_t order[MOST_JOBS],
                bool *is_moved)
{
    struct progress *p = malloc(sizeof *p), *tried = malloc(sizeof *tried);
    bool is_found = p != NULL && tried != NULL;

    if (is_found) {
        begin(p, script, shared);
        *is_moved = !complete_as_written(p);
        if (*is_moved) {
            begin(p, script, shared);
            is_found = script->job_count <= MOST_TRIED ? complete_early(p, tried) : complete_slowly(p);
        }
        memcpy(order, p->order, sizeof p->order);
    }
    free(p);
    free(tried);
    return is_found;
}
