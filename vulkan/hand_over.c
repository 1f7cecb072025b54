/* Submits: batches go to the live layer, which holds them back, says when each is ready, and which points it waits for;
 * then to the driver. Under the device's `core`, which is left while the driver is called. */
#include "device.h"

#include <stdlib.h>

enum { FIRST_SYNCS = 8 };

/* Submits ------------------------------------------------------------------------------------------------------- */

/* A binary semaphore of the client's, which the live layer knows from now on, since a batch signals it. */
static struct timeline *know_binary(struct device *d, VkSemaphore semaphore)
{
    struct timeline *t = calloc(1, sizeof *t);
    if (!t)
        return NULL;
    t->handle = semaphore;
    t->is_binary = true;
    struct vq_layer_answer opened = vq_layer_open_binary(&d->layer, false);
    if (opened.code == VQ_LAYER_DONE && know(d, t, opened.number)) {
        trace_timeline(d, t, 0);
        return t;
    }
    if (opened.code == VQ_LAYER_DONE)
        vq_layer_close_timeline(&d->layer, opened.number);
    free(t);
    return NULL;
}

static bool is_signaled(struct device *d, const struct timeline *t)
{
    return vq_layer_untaken(&d->layer, t->number).code == VQ_LAYER_DONE;
}

/* The waits that a batch names to the live layer: timelines, and binary semaphores whose signal the layer has seen.
 * What another thing signals, as the acquiring of an image, is the driver's alone. */
static void name_waits(struct device *d, struct batch *b, struct vq_layer_value *values)
{
    for (uint32_t i = 0; i < b->wait_count; i++) {
        struct mark *m = &b->waits[i];
        m->timeline = table_get(&d->semaphores, KEY(m->semaphore));
        m->is_named = m->timeline && (!m->timeline->is_binary || is_signaled(d, m->timeline));
        if (!m->is_named)
            continue;
        values[b->named_waits++] = (struct vq_layer_value){m->timeline->number, m->value};
        b->timeline_waits += !m->timeline->is_binary;
    }
}

static bool waits_for(const struct batch *b, const struct timeline *t)
{
    for (uint32_t i = 0; i < b->wait_count; i++)
        if (b->waits[i].timeline == t && b->waits[i].is_named)
            return true;
    return false;
}

/* The signals that a batch names: false for want of memory. */
static bool name_signals(struct device *d, struct batch *b, struct vq_layer_value *values)
{
    for (uint32_t i = 0; i < b->signal_count; i++) {
        struct mark *m = &b->signals[i];
        m->timeline = table_get(&d->semaphores, KEY(m->semaphore));
        if (!m->timeline)
            m->timeline = know_binary(d, m->semaphore);
        if (!m->timeline)
            return false;
        m->is_named = true;
        if (m->timeline->is_binary && is_signaled(d, m->timeline) && !waits_for(b, m->timeline)) {
            /* its signal was taken by what the layer doesn't see: so it came, and may be forgotten */
            collect(d, m->timeline);
            m->is_named = vq_layer_reset(&d->layer, m->timeline->number).code == VQ_LAYER_DONE;
            d->trace.is_cut = true;
        }
        if (m->is_named)
            values[b->named_signals++] = (struct vq_layer_value){m->timeline->number, m->value};
        b->timeline_signals += !m->timeline->is_binary;
    }
    return true;
}

/* Sees to it that a queue whose batches wait for timelines has its barrier: false for want of memory. */
static bool prepare_barrier(struct device *d, const struct batch *b)
{
    struct queue *q = b->queue;
    q->has_waited = q->has_waited || b->timeline_waits > 0;
    return !d->bars_dropped || !q->has_waited || !takes_barrier(b) || has_barrier(d, q);
}

/* All that handing the batch over will want: false for want of memory. */
static bool prepare(struct device *d, struct batch *b)
{
    if (!prepare_barrier(d, b))
        return false;
    bool is_relayed = d->settings.way == WAY_RELAY;
    uint32_t relays = is_relayed && b->timeline_waits < d->queue_count ? b->timeline_waits : d->queue_count;
    relays = is_relayed ? relays : 0;
    bool takes_clients = b->fence && !table_get(&d->shared_fences, KEY(b->fence));
    bool wants_fence = b->timeline_signals > 0 || relays > 0 || b->wants_fence;
    b->flight = take_flight(d, b->queue, wants_fence && !takes_clients);
    if (!b->flight)
        return false;
    if (takes_clients) {
        b->flight->fence = b->fence;
        if (!table_put(&d->client_fences, KEY(b->fence), b->flight))
            return false;
    }
    if (relays > b->flight->relay_room) {
        VkSemaphore *larger = realloc(b->flight->relays, relays * sizeof *larger);
        if (!larger)
            return false;
        b->flight->relays = larger;
        b->flight->relay_room = relays;
    }
    if (!promise_relays(d, relays))
        return false;
    b->promised = relays;
    return true;
}

/* Places for the points that were given to a batch: false for want of memory. */
static bool make_syncs(struct device *d, const struct batch *b, uint64_t place)
{
    struct vq_layer_answer told =
        vq_layer_signals(&d->layer, b->queue->number, place, b->points, b->named_signals);
    for (uint64_t i = 0; i < told.value; i++) {
        struct timeline *t = d->numbers[b->points[i].timeline];
        uint32_t room = t->sync_room ? t->sync_room : FIRST_SYNCS;
        while (room <= b->points[i].point)
            room *= 2;
        if (room == t->sync_room)
            continue;
        struct sync *larger = realloc(t->syncs, room * sizeof *larger);
        if (!larger)
            return false;
        for (uint32_t k = t->sync_room; k < room; k++)
            larger[k].flight = NULL;
        t->syncs = larger;
        t->sync_room = room;
    }
    return true;
}

/* Forgets a batch that isn't held back, or no longer. */
static void drop_batch(struct device *d, struct batch *b)
{
    d->promised -= b->promised;
    if (b->flight) {
        if (b->flight->fence && b->flight->fence != b->flight->own)
            table_take(&d->client_fences, KEY(b->flight->fence));
        unrefer_flight(d, b->flight);
    }
    free(b);
}

static VkResult refused(struct device *d, enum vq_layer_code code)
{
    if (code == VQ_LAYER_NO_MEMORY)
        return VK_ERROR_OUT_OF_HOST_MEMORY;
    if (code == VQ_LAYER_FULL || code == VQ_LAYER_TOO_MANY_WAITS)
        return VK_ERROR_OUT_OF_DEVICE_MEMORY;
    complain(vq_layer_words(code), code);
    d->is_lost = true;
    return VK_ERROR_DEVICE_LOST;
}

static VkResult submit_one(struct device *d, struct batch *b)
{
    struct vq_layer_value values[b->wait_count + b->signal_count + 1];
    name_waits(d, b, values);
    struct vq_layer_value *signals = values + b->named_waits;
    if (!name_signals(d, b, signals) || !prepare(d, b))
        return VK_ERROR_OUT_OF_HOST_MEMORY;
    struct vq_layer_answer answer = vq_layer_submit(&d->layer, b->queue->number, (uint64_t)(uintptr_t)b, values,
                                                    b->named_waits, signals, b->named_signals);
    if (answer.code != VQ_LAYER_DONE)
        return refused(d, answer.code);
    if (!make_syncs(d, b, answer.value)) {
        (void)vq_layer_take_back(&d->layer, b->queue->number);
        return VK_ERROR_OUT_OF_HOST_MEMORY;
    }
    trace_submit(d, b, vq_layer_signals(&d->layer, b->queue->number, answer.value, b->points, b->named_signals).value);
    if (b->keeps_flight) {
        *b->keeps_flight = b->flight;
        refer_flight(b->flight);
    }
    b->queue->held_back++;
    b->queue->since_fence = b->flight->fence ? 0 : b->queue->since_fence + 1;
    return VK_SUCCESS;
}

VkResult submit_all(struct device *d, struct batch **batches, uint32_t count)
{
    VkResult result = d->is_lost ? VK_ERROR_DEVICE_LOST : VK_SUCCESS;
    uint32_t done = 0;
    while (result == VK_SUCCESS && done < count)
        if ((result = submit_one(d, batches[done])) == VK_SUCCESS)
            done++;
    if (result == VK_SUCCESS)
        return result;
    for (uint32_t i = count; i-- > 0;) {
        if (i < done) {
            trace_refused(d);
            (void)vq_layer_take_back(&d->layer, batches[i]->queue->number);
            batches[i]->queue->held_back--;
        }
        drop_batch(d, batches[i]);
    }
    return result;
}

/* Handing over -------------------------------------------------------------------------------------------------- */

/* What a batch waits for on the other queues, by their numbers. */
struct plan {
    uint64_t handed[MOST_QUEUES]; /* the driver has to have this batch of the queue before */
    uint64_t wanted[MOST_QUEUES]; /* a relay is wanted behind this one, */
    VkPipelineStageFlags2 stages[MOST_QUEUES]; /* which these stages wait for */
};

/* The first held-back batch of a queue, released: its points stand for its flight from now on. */
static struct batch *release(struct device *d, struct queue *q)
{
    uint64_t first = vq_layer_released(&d->layer, q->number).value;
    struct batch *b = (struct batch *)(uintptr_t)vq_layer_token(&d->layer, q->number, first).value;
    /* this may finish batches of the queue, after which the places are others */
    for (uint32_t i = 0; i < b->wait_count; i++)
        if (b->waits[i].is_named)
            collect(d, b->waits[i].timeline);
    struct vq_layer_answer released = vq_layer_release(&d->layer, q->number);
    if (released.code != VQ_LAYER_DONE)
        return NULL;
    uint64_t place = released.value;
    q->held_back--;
    struct vq_layer_answer told = vq_layer_signals(&d->layer, q->number, place, b->points, b->named_signals);
    for (uint64_t i = 0; i < told.value; i++) {
        struct sync *sync = &d->numbers[b->points[i].timeline]->syncs[b->points[i].point];
        unrefer_flight(d, sync->flight);
        sync->flight = b->flight;
        refer_flight(b->flight);
    }
    trace_release(d, b, told.value);
    append_flight(q, b->flight);
    vq_layer_waits(&d->layer, q->number, place, b->points, b->named_waits);
    d->counts.batches++;
    return b;
}

static void plan_wait(struct device *d, struct batch *b, const struct mark *m, const struct vq_layer_point *point,
                      struct plan *plan)
{
    struct queue *q = b->queue;
    d->counts.waits++;
    if (point->point == VQ_LAYER_NO_POINT) {
        d->counts.past++;
        q->owes_barrier = q->owes_barrier || !m->timeline->is_binary;
        return;
    }
    struct flight *f = d->numbers[point->timeline]->syncs[point->point].flight;
    uint32_t from = f->queue->number;
    if (f->queue != q && f->number > plan->handed[from])
        plan->handed[from] = f->number;
    trace_awaits(d, b, f);
    if (m->timeline->is_binary)
        return;
    bool is_covered = f->number <= q->seen[from] && (m->stages & ~q->seen_stages[from]) == 0;
    if (is_covered || (f->queue == q && d->drops_same_queue)) {
        d->counts.covered++;
        q->owes_barrier = q->owes_barrier || !is_covered;
        return;
    }
    q->owes_barrier = q->owes_barrier || d->settings.way == WAY_FENCE;
    if (f->number > plan->wanted[from])
        plan->wanted[from] = f->number;
    plan->stages[from] |= m->stages;
}

/* Waits on the host for what the batch would have waited for on the device. */
static void wait_for_fences(struct device *d, const struct batch *b)
{
    for (uint32_t i = 0; i < b->named_waits && !d->is_lost; i++) {
        const struct vq_layer_point *point = &b->points[i];
        struct timeline *t = d->numbers[point->timeline];
        if (point->point == VQ_LAYER_NO_POINT || t->is_binary)
            continue;
        struct flight *f = t->syncs[point->point].flight;
        if (f->queue != b->queue || !d->drops_same_queue)
            (void)wait_for_flight(d, f, UINT64_MAX);
    }
}

/* Waits until the driver has all that the batch waits for, which was released before it. */
static void wait_until_handed(struct device *d, const struct plan *plan)
{
    for (uint32_t i = 0; i < d->queue_count; i++)
        while (d->queues[i].handed < plan->handed[i] && !d->is_lost)
            pthread_cond_wait(&d->changed, &d->core);
}

/* The relays that a batch waits for, from the promised ones: their semaphores come back when the batch is done. */
static uint32_t take_relays(struct device *d, struct batch *b, const struct plan *plan, struct mark *relays)
{
    uint32_t count = 0;
    for (uint32_t i = 0; i < d->queue_count && d->settings.way == WAY_RELAY; i++) {
        if (plan->wanted[i] == 0)
            continue;
        VkSemaphore semaphore = take_relay(d);
        b->flight->relays[b->flight->relay_count++] = semaphore;
        relays[count++] = (struct mark){.semaphore = semaphore, .value = i, .stages = plan->stages[i]};
    }
    d->promised -= b->promised;
    b->promised = 0;
    d->counts.relays += count;
    return count;
}

/* Lets a batch pay what its queue owes, where it can. */
static void pay_barrier(struct device *d, struct batch *b)
{
    struct queue *q = b->queue;
    b->begins_with_barrier = d->bars_dropped && q->owes_barrier && q->barrier && takes_barrier(b);
    if (!b->begins_with_barrier)
        return;
    q->owes_barrier = false;
    d->counts.barriers++;
}

/* The driver's calls for a batch, with `core` left. The `value` of a relay is the number of its queue. */
static VkResult call_for(struct device *d, struct batch *b, struct mark *relays, uint32_t relay_count)
{
    struct queue *q = b->queue;
    VkResult result = VK_SUCCESS;
    for (uint32_t i = 0; i < relay_count && result == VK_SUCCESS; i++) {
        struct queue *from = &d->queues[relays[i].value];
        pthread_mutex_lock(&from->driver);
        result = call_relay(d, from, b->form, relays[i].semaphore);
        q->seen[from->number] = from->given;
        q->seen_stages[from->number] = relays[i].stages;
        pthread_mutex_unlock(&from->driver);
    }
    pthread_mutex_lock(&q->driver);
    if (result == VK_SUCCESS)
        result = call_driver(d, b, relays, relay_count, b->flight->fence);
    if (result == VK_SUCCESS && b->fence && b->fence != b->flight->fence)
        result = d->next.QueueSubmit(q->handle, 0, NULL, b->fence);
    q->given = b->flight->number;
    pthread_mutex_unlock(&q->driver);
    return result;
}

static void hand_over(struct device *d, struct queue *q)
{
    struct batch *b = release(d, q);
    if (!b)
        return;
    q->busy = true;
    struct plan plan = {0};
    for (uint32_t i = 0, k = 0; i < b->wait_count; i++)
        if (b->waits[i].is_named)
            plan_wait(d, b, &b->waits[i], &b->points[k++], &plan);
    wait_until_handed(d, &plan);
    if (d->settings.way == WAY_FENCE)
        wait_for_fences(d, b);
    pay_barrier(d, b);
    struct mark relays[MOST_QUEUES];
    uint32_t relay_count = take_relays(d, b, &plan, relays);
    VkResult result = VK_ERROR_DEVICE_LOST;
    if (!d->is_lost) {
        pthread_mutex_unlock(&d->core);
        result = call_for(d, b, relays, relay_count);
        pthread_mutex_lock(&d->core);
    }
    /* other queues may have been released on the strength of this batch's signals, so nothing can be taken back */
    if (result < 0 && b->form != FORM_PRESENT) {
        complain("the driver refuses a batch", result);
        d->is_lost = true;
    }
    q->handed = b->flight->number;
    q->busy = false;
    if (b->result)
        *b->result = result;
    if (b->is_handed)
        *b->is_handed = true;
    free(b);
    pthread_cond_broadcast(&d->changed);
}

/* A queue that is ready, and that nobody hands a batch of over. */
static struct queue *ready_queue(struct device *d)
{
    for (uint32_t i = 0; i < d->queue_count; i++) {
        struct queue *q = &d->queues[i];
        if (!q->busy && q->held_back > 0 && vq_layer_blocked(&d->layer, q->number).code == VQ_LAYER_DONE)
            return q;
    }
    return NULL;
}

void flush(struct device *d)
{
    struct queue *q;
    while (!d->is_lost && (q = ready_queue(d)))
        hand_over(d, q);
}
