/* Flights: batches that the driver has, the fences by which they are known to be done, and the binary semaphores of
 * relays, which are used again. All under the device's `core`. */
#include "device.h"

#include <stdlib.h>

/* A batch without a fence is done when a later one of its queue is; so each queue has one at least as often as this. */
enum { MOST_WITHOUT_FENCE = 16, FIRST_ROOM = 8 };

static bool give_fence(struct device *d, struct flight *f)
{
    if (f->own)
        return d->next.ResetFences(d->handle, 1, &f->own) == VK_SUCCESS;
    VkFenceCreateInfo info = {.sType = VK_STRUCTURE_TYPE_FENCE_CREATE_INFO};
    if (d->next.CreateFence(d->handle, &info, NULL, &f->own) != VK_SUCCESS) {
        f->own = VK_NULL_HANDLE;
        return false;
    }
    d->counts.fences++;
    return true;
}

struct flight *take_flight(struct device *d, struct queue *q, bool with_fence)
{
    struct flight *f = d->spare_flights;
    if (f)
        d->spare_flights = f->next;
    else
        f = calloc(1, sizeof *f);
    if (!f)
        return NULL;
    f->queue = q;
    f->next = NULL;
    f->number = 0;
    f->fence = VK_NULL_HANDLE;
    f->references = 1;
    f->done = false;
    f->relay_count = 0;
    if (q->since_fence + 1 >= MOST_WITHOUT_FENCE)
        with_fence = true;
    if (with_fence) {
        if (!give_fence(d, f)) {
            unrefer_flight(d, f);
            return NULL;
        }
        f->fence = f->own;
    }
    return f;
}

void refer_flight(struct flight *f)
{
    f->references++;
}

void unrefer_flight(struct device *d, struct flight *f)
{
    if (f && --f->references == 0) {
        free(f->told ? f->told->awaited : NULL);
        free(f->told);
        f->told = NULL;
        f->next = d->spare_flights;
        d->spare_flights = f;
    }
}

void append_flight(struct queue *q, struct flight *f)
{
    f->number = ++q->released;
    if (q->newest)
        q->newest->next = f;
    else
        q->oldest = f;
    q->newest = f;
}

/* The fence that is signaled when a flight is done: its own, or that of a later one of its queue. */
static struct flight *fenced(struct flight *f)
{
    while (f && !f->fence)
        f = f->next;
    return f;
}

void done_up_to(struct device *d, struct flight *f)
{
    struct queue *q = f->queue;
    while (q->oldest && !f->done) {
        struct flight *o = q->oldest;
        q->oldest = o->next;
        if (!q->oldest)
            q->newest = NULL;
        o->done = true;
        trace_done(d, o);
        for (uint32_t i = 0; i < o->relay_count; i++)
            d->spare[d->spare_count++] = o->relays[i];
        o->relay_count = 0;
        if (o->fence && o->fence != o->own)
            table_take(&d->client_fences, KEY(o->fence));
        if (vq_layer_finish(&d->layer, q->number).code != VQ_LAYER_DONE)
            complain("a batch that is done was not released", q->number);
        unrefer_flight(d, o);
    }
}

/* A fence isn't asked for while its batch is being submitted: Vulkan wants that synchronized. */
bool is_handed(const struct flight *f)
{
    return f->done || (f->number > 0 && f->queue->handed >= f->number);
}

bool is_done(struct device *d, struct flight *f)
{
    if (f->done)
        return true;
    struct flight *with = fenced(f);
    struct queue *q = f->queue;
    if (!with || !is_handed(with) || (q->asked == d->question && with->number >= q->not_done))
        return false;
    VkResult result = d->next.GetFenceStatus(d->handle, with->fence);
    if (result == VK_ERROR_DEVICE_LOST)
        d->is_lost = true;
    if (result != VK_SUCCESS) {
        q->asked = d->question;
        q->not_done = with->number;
        return false;
    }
    done_up_to(d, with);
    return true;
}

void reap(struct device *d, struct queue *q)
{
    while (q->oldest && is_done(d, q->oldest))
        ;
}

VkResult wait_for_flight(struct device *d, struct flight *f, uint64_t nanoseconds)
{
    refer_flight(f);
    while (!is_handed(f) && !d->is_lost)
        pthread_cond_wait(&d->changed, &d->core);
    if (f->done || d->is_lost) {
        VkResult result = f->done ? VK_SUCCESS : VK_ERROR_DEVICE_LOST;
        unrefer_flight(d, f);
        return result;
    }
    f->waiting++;
    VkFence fence = f->fence;
    d->counts.host_waits++;
    pthread_mutex_unlock(&d->core);
    VkResult result = d->next.WaitForFences(d->handle, 1, &fence, VK_TRUE, nanoseconds);
    pthread_mutex_lock(&d->core);
    if (--f->waiting == 0)
        pthread_cond_broadcast(&d->changed);
    if (result == VK_SUCCESS)
        done_up_to(d, f);
    else if (f->done)
        result = VK_SUCCESS;
    else if (result == VK_ERROR_DEVICE_LOST)
        d->is_lost = true;
    unrefer_flight(d, f);
    return result;
}

void collect(struct device *d, struct timeline *t)
{
    for (;;) {
        struct vq_layer_answer first = vq_layer_first(&d->layer, t->number);
        if (first.code != VQ_LAYER_DONE || !is_done(d, t->syncs[first.number].flight))
            return;
        trace_complete(d, t, first.number, first.value);
        vq_layer_complete(&d->layer, t->number);
    }
}

/* One more binary semaphore, with a place for it among the spare ones whenever it comes back. */
static bool make_relay(struct device *d)
{
    if (d->counts.binaries == d->spare_room) {
        uint32_t room = d->spare_room ? 2 * d->spare_room : FIRST_ROOM;
        VkSemaphore *larger = realloc(d->spare, room * sizeof *larger);
        if (!larger)
            return false;
        d->spare = larger;
        d->spare_room = room;
    }
    VkSemaphoreCreateInfo info = {.sType = VK_STRUCTURE_TYPE_SEMAPHORE_CREATE_INFO};
    if (d->next.CreateSemaphore(d->handle, &info, NULL, &d->spare[d->spare_count]) != VK_SUCCESS)
        return false;
    d->spare_count++;
    d->counts.binaries++;
    return true;
}

bool promise_relays(struct device *d, uint32_t count)
{
    while (d->spare_count < d->promised + count)
        if (!make_relay(d))
            return false;
    d->promised += count;
    return true;
}

VkSemaphore take_relay(struct device *d)
{
    return d->spare[--d->spare_count];
}
