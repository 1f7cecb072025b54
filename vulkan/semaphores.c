/* Semaphores, and what the host does with timelines (Vulkan 1.3, "Semaphores"). */
#include "layer.h"

#include <errno.h>
#include <stdlib.h>
#include <time.h>

enum { MOST_TRACED = 16 }; /* pairs of a wait in a trace */
enum { SLICE = 1000000 }; /* nanoseconds between two looks of a wait for any, where the watcher has others to watch */

bool know(struct device *d, struct timeline *t, uint32_t number)
{
    if (!table_reserve(&d->semaphores))
        return false;
    if (number >= d->number_room) {
        uint32_t room = d->number_room ? 2 * d->number_room : 64;
        while (room <= number)
            room *= 2;
        struct timeline **larger = realloc(d->numbers, room * sizeof *larger);
        if (!larger)
            return false;
        d->numbers = larger;
        d->number_room = room;
    }
    t->number = number;
    d->numbers[number] = t;
    return table_put(&d->semaphores, KEY(t->handle), t);
}

/* The timeline itself is the live layer's. Its handle is a binary semaphore of the driver's, which nothing signals: so
 * names, private data and calls that this layer doesn't know get an object of the driver's. */
static VkResult create_timeline(struct device *d, uint64_t initial, const VkAllocationCallbacks *allocator,
                                VkSemaphore *semaphore)
{
    struct timeline *t = calloc(1, sizeof *t);
    if (!t)
        return VK_ERROR_OUT_OF_HOST_MEMORY;
    VkSemaphoreCreateInfo plain = {.sType = VK_STRUCTURE_TYPE_SEMAPHORE_CREATE_INFO};
    VkResult result = d->next.CreateSemaphore(d->handle, &plain, allocator, &t->handle);
    if (result != VK_SUCCESS) {
        free(t);
        return result;
    }
    pthread_mutex_lock(&d->core);
    struct vq_layer_answer opened = vq_layer_open_timeline(&d->layer, initial);
    bool is_known = opened.code == VQ_LAYER_DONE && know(d, t, opened.number);
    if (is_known)
        trace_timeline(d, t, initial);
    if (opened.code == VQ_LAYER_DONE && !is_known)
        vq_layer_close_timeline(&d->layer, opened.number);
    pthread_mutex_unlock(&d->core);
    *semaphore = t->handle;
    if (is_known)
        return VK_SUCCESS;
    d->next.DestroySemaphore(d->handle, t->handle, allocator);
    free(t);
    return VK_ERROR_OUT_OF_HOST_MEMORY;
}

VKAPI_ATTR VkResult VKAPI_CALL layer_CreateSemaphore(VkDevice device, const VkSemaphoreCreateInfo *info,
                                                     const VkAllocationCallbacks *allocator, VkSemaphore *semaphore)
{
    struct device *d = device_of(device);
    const VkSemaphoreTypeCreateInfo *type = in_chain(info->pNext, VK_STRUCTURE_TYPE_SEMAPHORE_TYPE_CREATE_INFO);
    if (!d->is_active || !type || type->semaphoreType != VK_SEMAPHORE_TYPE_TIMELINE)
        return d->next.CreateSemaphore(device, info, allocator, semaphore);
    return create_timeline(d, type->initialValue, allocator, semaphore);
}

/* Waits until no batch that names a semaphore is unfinished. A client destroys one only when those that it submitted
 * are done, so a fence that tells it is signaled, or about to be. */
static bool close_number(struct device *d, struct timeline *t)
{
    for (;;) {
        d->question++;
        collect(d, t);
        struct vq_layer_answer closed = vq_layer_close_timeline(&d->layer, t->number);
        if (closed.code != VQ_LAYER_NAMED)
            return closed.code == VQ_LAYER_DONE;
        struct queue *q = &d->queues[closed.number];
        if (!q->oldest || d->is_lost)
            return false;
        if (is_done(d, q->oldest))
            continue;
        struct flight *with = q->oldest;
        while (with && !with->fence)
            with = with->next;
        if (with ? wait_for_flight(d, with, UINT64_MAX) != VK_SUCCESS : idle(d, q) != VK_SUCCESS)
            return false;
    }
}

VKAPI_ATTR void VKAPI_CALL layer_DestroySemaphore(VkDevice device, VkSemaphore semaphore,
                                                  const VkAllocationCallbacks *allocator)
{
    struct device *d = device_of(device);
    if (d->is_active && semaphore) {
        pthread_mutex_lock(&d->core);
        struct timeline *t = table_get(&d->semaphores, KEY(semaphore));
        if (t && !close_number(d, t))
            complain("a semaphore is destroyed that is in use", (int64_t)t->number);
        if (t) {
            table_take(&d->semaphores, KEY(semaphore));
            for (uint32_t i = 0; i < t->sync_room; i++)
                unrefer_flight(d, t->syncs[i].flight);
            free(t->free_points);
            free(t->syncs);
            free(t);
        }
        pthread_mutex_unlock(&d->core);
    }
    d->next.DestroySemaphore(device, semaphore, allocator);
}

VKAPI_ATTR VkResult VKAPI_CALL layer_GetSemaphoreCounterValue(VkDevice device, VkSemaphore semaphore, uint64_t *value)
{
    struct device *d = device_of(device);
    if (!d->is_active)
        return d->next.GetSemaphoreCounterValue(device, semaphore, value);
    pthread_mutex_lock(&d->core);
    struct timeline *t = table_get(&d->semaphores, KEY(semaphore));
    d->question++;
    collect(d, t);
    *value = vq_layer_value(&d->layer, t->number).value;
    trace_host_read(d, t, *value);
    VkResult result = d->is_lost ? VK_ERROR_DEVICE_LOST : VK_SUCCESS;
    pthread_mutex_unlock(&d->core);
    return result;
}

VKAPI_ATTR VkResult VKAPI_CALL layer_SignalSemaphore(VkDevice device, const VkSemaphoreSignalInfo *info)
{
    struct device *d = device_of(device);
    if (!d->is_active)
        return d->next.SignalSemaphore(device, info);
    pthread_mutex_lock(&d->core);
    struct timeline *t = table_get(&d->semaphores, KEY(info->semaphore));
    d->question++;
    collect(d, t);
    struct vq_layer_answer answer = vq_layer_signal(&d->layer, t->number, info->value);
    if (answer.code != VQ_LAYER_DONE) {
        complain(vq_layer_words(answer.code), (int64_t)info->value);
        d->is_lost = true;
    } else {
        trace_host_signal(d, t, info->value);
    }
    pthread_cond_broadcast(&d->changed);
    flush(d);
    VkResult result = d->is_lost ? VK_ERROR_DEVICE_LOST : VK_SUCCESS;
    pthread_mutex_unlock(&d->core);
    return result;
}

/* Waits of the host --------------------------------------------------------------------------------------------- */

static uint64_t now(void)
{
    struct timespec time;
    clock_gettime(CLOCK_MONOTONIC, &time);
    return (uint64_t)time.tv_sec * 1000000000u + (uint64_t)time.tv_nsec;
}

/* What a look at the pairs of a wait found. */
struct look {
    uint32_t reached;
    uint32_t handed;
    struct flight *flights[]; /* of those that are pending, and at the driver */
};

static void look_at(struct device *d, const VkSemaphoreWaitInfo *info, struct look *look)
{
    look->reached = look->handed = 0;
    d->question++;
    for (uint32_t i = 0; i < info->semaphoreCount; i++) {
        struct timeline *t = table_get(&d->semaphores, KEY(info->pSemaphores[i]));
        collect(d, t);
        struct vq_layer_answer found = vq_layer_find(&d->layer, t->number, info->pValues[i]);
        if (found.code == VQ_LAYER_PAST)
            look->reached++;
        struct flight *f = found.code == VQ_LAYER_PENDING ? t->syncs[found.number].flight : NULL;
        if (f && is_handed(f))
            look->flights[look->handed++] = f;
    }
}

/* Waits until the first of some flights is done, or for so long. */
static void wait_for_any(struct device *d, struct look *look, uint64_t nanoseconds)
{
    uint32_t count = look->handed;
    VkFence fences[count];
    for (uint32_t i = 0; i < count; i++) {
        refer_flight(look->flights[i]);
        look->flights[i]->waiting++;
        fences[i] = look->flights[i]->fence;
    }
    d->counts.host_waits++;
    pthread_mutex_unlock(&d->core);
    VkResult result = d->next.WaitForFences(d->handle, count, fences, VK_FALSE, nanoseconds);
    pthread_mutex_lock(&d->core);
    if (result == VK_ERROR_DEVICE_LOST)
        d->is_lost = true;
    for (uint32_t i = 0; i < count; i++) {
        if (--look->flights[i]->waiting == 0)
            pthread_cond_broadcast(&d->changed);
        unrefer_flight(d, look->flights[i]);
    }
}

/* Waits until something changes, or until a time of the monotonic clock. */
static void wait_for_change(struct device *d, uint64_t end)
{
    if (end == UINT64_MAX) {
        pthread_cond_wait(&d->changed, &d->core);
        return;
    }
    struct timespec until = {.tv_sec = (time_t)(end / 1000000000u), .tv_nsec = (long)(end % 1000000000u)};
    pthread_cond_timedwait(&d->changed, &d->core, &until);
}

static void trace_wait(struct device *d, const VkSemaphoreWaitInfo *info, bool is_any)
{
    if (!d->trace.is_on || info->semaphoreCount > MOST_TRACED)
        return;
    struct timeline *timelines[MOST_TRACED];
    for (uint32_t i = 0; i < info->semaphoreCount; i++)
        timelines[i] = table_get(&d->semaphores, KEY(info->pSemaphores[i]));
    trace_host_wait(d, is_any, info->semaphoreCount, timelines, info->pValues);
}

static VkResult wait_until(struct device *d, const VkSemaphoreWaitInfo *info, uint64_t end, struct look *look)
{
    bool is_any = (info->flags & VK_SEMAPHORE_WAIT_ANY_BIT) != 0;
    uint32_t wanted = is_any ? 1 : info->semaphoreCount;
    for (;;) {
        look_at(d, info, look);
        if (look->reached >= wanted || info->semaphoreCount == 0) {
            trace_wait(d, info, is_any);
            return VK_SUCCESS;
        }
        if (d->is_lost)
            return VK_ERROR_DEVICE_LOST;
        uint64_t at = end == 0 || end == UINT64_MAX ? 0 : now();
        if (at >= end)
            return VK_TIMEOUT;
        uint64_t left = end == UINT64_MAX ? UINT64_MAX : end - at;
        bool is_mixed = look->reached + look->handed < info->semaphoreCount;
        if (look->handed == 0 || (is_any && is_mixed && watch_flights(d, look->flights, look->handed)))
            wait_for_change(d, end);
        else if (is_any)
            wait_for_any(d, look, is_mixed && left > SLICE ? SLICE : left);
        else
            (void)wait_for_flight(d, look->flights[0], left);
    }
}

VKAPI_ATTR VkResult VKAPI_CALL layer_WaitSemaphores(VkDevice device, const VkSemaphoreWaitInfo *info, uint64_t timeout)
{
    struct device *d = device_of(device);
    if (!d->is_active)
        return d->next.WaitSemaphores(device, info, timeout);
    uint64_t end = timeout;
    if (timeout != 0 && timeout != UINT64_MAX) {
        uint64_t start = now();
        end = timeout > UINT64_MAX - start ? UINT64_MAX : start + timeout;
    }
    struct look *look = malloc(sizeof *look + info->semaphoreCount * sizeof *look->flights);
    if (!look)
        return VK_ERROR_OUT_OF_HOST_MEMORY;
    pthread_mutex_lock(&d->core);
    VkResult result = wait_until(d, info, end, look);
    pthread_mutex_unlock(&d->core);
    free(look);
    return result;
}
