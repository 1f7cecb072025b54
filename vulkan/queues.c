/* The calls on queues (Vulkan 1.3, "Queue Submission", "Sparse Resource Memory Binding"; VK_KHR_swapchain). */
#include "layer.h"

#include <stdlib.h>

struct queue *queue_of(struct device *d, VkQueue handle)
{
    for (uint32_t i = 0; i < d->queue_count; i++)
        if (d->queues[i].handle == handle)
            return &d->queues[i];
    return NULL;
}

/* Submits copies, which are freed; the fence stands behind the last one. */
static VkResult submit_copies(struct device *d, struct queue *q, struct batch **batches, uint32_t count, VkFence fence)
{
    struct batch *alone = NULL;
    if (fence && count > 0)
        batches[count - 1]->fence = fence;
    else if (fence && !(alone = new_fence(q, fence)))
        return VK_ERROR_OUT_OF_HOST_MEMORY;
    if (alone) {
        batches = &alone;
        count = 1;
    }
    pthread_mutex_lock(&d->core);
    d->question++;
    reap(d, q);
    VkResult result = submit_all(d, batches, count);
    flush(d);
    d->counts.held_back += q->held_back > 0;
    if (result == VK_SUCCESS && d->is_lost)
        result = VK_ERROR_DEVICE_LOST;
    pthread_mutex_unlock(&d->core);
    return result;
}

/* Copies of the infos of one call, by the function that copies one, submitted. */
#define SUBMIT(copy, queue, count, infos, fence)                                                                       \
    do {                                                                                                               \
        struct batch **batches_ = calloc((count) + 1, sizeof *batches_);                                               \
        uint32_t copied_ = 0;                                                                                          \
        while (batches_ && copied_ < (count) && (batches_[copied_] = copy(queue, &(infos)[copied_])))                  \
            copied_++;                                                                                                 \
        VkResult result_ = VK_ERROR_OUT_OF_HOST_MEMORY;                                                                \
        if (batches_ && copied_ == (count))                                                                            \
            result_ = submit_copies(d, queue, batches_, count, fence);                                                 \
        else                                                                                                           \
            for (uint32_t i_ = 0; batches_ && i_ < copied_; i_++)                                                      \
                free(batches_[i_]);                                                                                    \
        free(batches_);                                                                                                \
        return result_;                                                                                                \
    } while (0)

VKAPI_ATTR VkResult VKAPI_CALL layer_QueueSubmit(VkQueue queue, uint32_t count, const VkSubmitInfo *infos,
                                                 VkFence fence)
{
    struct device *d = device_of(queue);
    struct queue *q = d->is_active ? queue_of(d, queue) : NULL;
    if (!q)
        return d->next.QueueSubmit(queue, count, infos, fence);
    SUBMIT(copy_submit, q, count, infos, fence);
}

VKAPI_ATTR VkResult VKAPI_CALL layer_QueueSubmit2(VkQueue queue, uint32_t count, const VkSubmitInfo2 *infos,
                                                  VkFence fence)
{
    struct device *d = device_of(queue);
    struct queue *q = d->is_active ? queue_of(d, queue) : NULL;
    if (!q)
        return d->next.QueueSubmit2(queue, count, infos, fence);
    SUBMIT(copy_submit_2, q, count, infos, fence);
}

VKAPI_ATTR VkResult VKAPI_CALL layer_QueueBindSparse(VkQueue queue, uint32_t count, const VkBindSparseInfo *infos,
                                                     VkFence fence)
{
    struct device *d = device_of(queue);
    struct queue *q = d->is_active ? queue_of(d, queue) : NULL;
    if (!q)
        return d->next.QueueBindSparse(queue, count, infos, fence);
    SUBMIT(copy_sparse, q, count, infos, fence);
}

/* Submits one batch whose caller waits until the driver has it: what the driver said. */
static VkResult submit_and_wait(struct device *d, struct batch *b)
{
    VkResult said = VK_SUCCESS;
    bool is_handed = false;
    b->result = &said;
    b->is_handed = &is_handed;
    VkResult result = submit_all(d, &b, 1);
    if (result != VK_SUCCESS)
        return result;
    flush(d);
    while (!is_handed && !d->is_lost)
        pthread_cond_wait(&d->changed, &d->core);
    return is_handed ? said : VK_ERROR_DEVICE_LOST;
}

VKAPI_ATTR VkResult VKAPI_CALL layer_QueuePresentKHR(VkQueue queue, const VkPresentInfoKHR *info)
{
    struct device *d = device_of(queue);
    struct queue *q = d->is_active ? queue_of(d, queue) : NULL;
    if (!q)
        return d->next.QueuePresentKHR(queue, info);
    struct batch *b = new_present(q, info);
    if (!b)
        return VK_ERROR_OUT_OF_HOST_MEMORY;
    pthread_mutex_lock(&d->core);
    d->question++;
    reap(d, q);
    VkResult result = submit_and_wait(d, b);
    flush(d);
    pthread_mutex_unlock(&d->core);
    return result;
}

/* A fence behind all that the queue was given, which is waited for without the queue: another thread may have to hand
 * something over on it meanwhile. */
VkResult idle(struct device *d, struct queue *q)
{
    struct batch *b = new_fence(q, VK_NULL_HANDLE);
    if (!b)
        return VK_ERROR_OUT_OF_HOST_MEMORY;
    b->wants_fence = true;
    struct flight *f = NULL;
    b->keeps_flight = &f;
    VkResult result = submit_and_wait(d, b);
    if (f) {
        if (result == VK_SUCCESS)
            result = wait_for_flight(d, f, UINT64_MAX);
        unrefer_flight(d, f);
    }
    return result;
}

VKAPI_ATTR VkResult VKAPI_CALL layer_QueueWaitIdle(VkQueue queue)
{
    struct device *d = device_of(queue);
    struct queue *q = d->is_active ? queue_of(d, queue) : NULL;
    if (!q)
        return d->next.QueueWaitIdle(queue);
    pthread_mutex_lock(&d->core);
    VkResult result = idle(d, q);
    pthread_mutex_unlock(&d->core);
    return result;
}

VKAPI_ATTR VkResult VKAPI_CALL layer_DeviceWaitIdle(VkDevice device)
{
    struct device *d = device_of(device);
    if (!d->is_active)
        return d->next.DeviceWaitIdle(device);
    VkResult result = VK_SUCCESS;
    pthread_mutex_lock(&d->core);
    for (uint32_t i = 0; i < d->queue_count && result == VK_SUCCESS; i++)
        if (d->queues[i].handle)
            result = idle(d, &d->queues[i]);
    pthread_mutex_unlock(&d->core);
    if (result != VK_SUCCESS)
        return result;
    for (uint32_t i = 0; i < d->queue_count; i++)
        pthread_mutex_lock(&d->queues[i].driver);
    result = d->next.DeviceWaitIdle(device);
    for (uint32_t i = d->queue_count; i-- > 0;)
        pthread_mutex_unlock(&d->queues[i].driver);
    return result;
}

/* The client's fences: one may be what a flight is known to be done by, until it is reset or destroyed. --------- */

/* Takes a fence from the flight that it is of, which is done, and lets those who wait for it leave. */
static void take_from_flight(struct device *d, VkFence fence)
{
    struct flight *f = table_get(&d->client_fences, KEY(fence));
    if (!f)
        return;
    d->question++;
    refer_flight(f);
    if (!is_done(d, f))
        complain("a fence is reset or destroyed that is in use", 0);
    while (f->waiting > 0)
        pthread_cond_wait(&d->changed, &d->core);
    unrefer_flight(d, f);
}

VKAPI_ATTR VkResult VKAPI_CALL layer_CreateFence(VkDevice device, const VkFenceCreateInfo *info,
                                                 const VkAllocationCallbacks *allocator, VkFence *fence)
{
    struct device *d = device_of(device);
    VkResult result = d->next.CreateFence(device, info, allocator, fence);
    if (result != VK_SUCCESS || !d->is_active || !in_chain(info->pNext, VK_STRUCTURE_TYPE_EXPORT_FENCE_CREATE_INFO))
        return result;
    pthread_mutex_lock(&d->core);
    bool is_known = table_put(&d->shared_fences, KEY(*fence), d);
    pthread_mutex_unlock(&d->core);
    if (is_known)
        return result;
    d->next.DestroyFence(device, *fence, allocator);
    return VK_ERROR_OUT_OF_HOST_MEMORY;
}

VKAPI_ATTR void VKAPI_CALL layer_DestroyFence(VkDevice device, VkFence fence, const VkAllocationCallbacks *allocator)
{
    struct device *d = device_of(device);
    if (d->is_active && fence) {
        pthread_mutex_lock(&d->core);
        take_from_flight(d, fence);
        table_take(&d->shared_fences, KEY(fence));
        pthread_mutex_unlock(&d->core);
    }
    d->next.DestroyFence(device, fence, allocator);
}

VKAPI_ATTR VkResult VKAPI_CALL layer_ResetFences(VkDevice device, uint32_t count, const VkFence *fences)
{
    struct device *d = device_of(device);
    if (d->is_active) {
        pthread_mutex_lock(&d->core);
        for (uint32_t i = 0; i < count; i++)
            take_from_flight(d, fences[i]);
        pthread_mutex_unlock(&d->core);
    }
    return d->next.ResetFences(device, count, fences);
}
