/* Submissions and the host's waits and signals. */
#include "capture.h"

static void refused(VkResult result, const char *call)
{
    if (result == VK_SUCCESS)
        return;
    lock_recorder();
    count_unseen(UNSEEN_REFUSED);
    write_host_line("cut # %s was refused\n", call); /* the batches above may not have run, and may be given again */
    unlock_recorder();
}

static uint64_t value_of(uint32_t count, const uint64_t *values, uint32_t i)
{
    return values && i < count ? values[i] : 0;
}

static void hand_submit(struct device *d, struct thing *queue, const VkSubmitInfo *info, VkFence fence)
{
    struct batch *b = new_batch("vkQueueSubmit");
    static const VkTimelineSemaphoreSubmitInfo none;
    const VkTimelineSemaphoreSubmitInfo *values =
        info ? in_chain(info->pNext, VK_STRUCTURE_TYPE_TIMELINE_SEMAPHORE_SUBMIT_INFO) : NULL;
    values = values ? values : &none;
    for (uint32_t i = 0; info && i < info->waitSemaphoreCount; i++)
        add_wait(b, find(d, KEY(info->pWaitSemaphores[i])),
                 value_of(values->waitSemaphoreValueCount, values->pWaitSemaphoreValues, i),
                 second_stages(info->pWaitDstStageMask[i]));
    for (uint32_t i = 0; info && i < info->commandBufferCount; i++)
        add_commands(d, b, info->pCommandBuffers[i], queue);
    for (uint32_t i = 0; info && i < info->signalSemaphoreCount; i++)
        add_signal(b, find(d, KEY(info->pSignalSemaphores[i])),
                   value_of(values->signalSemaphoreValueCount, values->pSignalSemaphoreValues, i), EVERY);
    add_fence(b, find(d, KEY(fence)));
    hand_on(queue, b);
}

VKAPI_ATTR VkResult VKAPI_CALL capture_QueueSubmit(VkQueue queue, uint32_t count, const VkSubmitInfo *infos,
                                                   VkFence fence)
{
    struct device *d = device_of(queue);
    lock_recorder();
    if (is_recording()) {
        struct thing *q = queue_of(d, queue);
        for (uint32_t i = 0; i < count; i++)
            hand_submit(d, q, &infos[i], i + 1 == count ? fence : VK_NULL_HANDLE);
        if (count == 0 && fence)
            hand_submit(d, q, NULL, fence);
    }
    unlock_recorder();
    VkResult result = d->calls.QueueSubmit(queue, count, infos, fence);
    refused(result, "vkQueueSubmit");
    return result;
}

static void hand_submit2(struct device *d, struct thing *queue, const VkSubmitInfo2 *info, VkFence fence)
{
    struct batch *b = new_batch("vkQueueSubmit2");
    for (uint32_t i = 0; info && i < info->waitSemaphoreInfoCount; i++) {
        const VkSemaphoreSubmitInfo *s = &info->pWaitSemaphoreInfos[i];
        add_wait(b, find(d, KEY(s->semaphore)), s->value, second_stages(s->stageMask));
    }
    for (uint32_t i = 0; info && i < info->commandBufferInfoCount; i++)
        add_commands(d, b, info->pCommandBufferInfos[i].commandBuffer, queue);
    for (uint32_t i = 0; info && i < info->signalSemaphoreInfoCount; i++) {
        const VkSemaphoreSubmitInfo *s = &info->pSignalSemaphoreInfos[i];
        add_signal(b, find(d, KEY(s->semaphore)), s->value, first_stages(s->stageMask));
    }
    add_fence(b, find(d, KEY(fence)));
    hand_on(queue, b);
}

VKAPI_ATTR VkResult VKAPI_CALL capture_QueueSubmit2(VkQueue queue, uint32_t count, const VkSubmitInfo2 *infos,
                                                    VkFence fence)
{
    struct device *d = device_of(queue);
    lock_recorder();
    if (is_recording()) {
        struct thing *q = queue_of(d, queue);
        for (uint32_t i = 0; i < count; i++)
            hand_submit2(d, q, &infos[i], i + 1 == count ? fence : VK_NULL_HANDLE);
        if (count == 0 && fence)
            hand_submit2(d, q, NULL, fence);
    }
    unlock_recorder();
    VkResult result = d->calls.QueueSubmit2(queue, count, infos, fence);
    refused(result, "vkQueueSubmit2");
    return result;
}

static void hand_binds(struct device *d, struct thing *queue, const VkBindSparseInfo *info, VkFence fence)
{
    struct batch *b = new_batch("vkQueueBindSparse");
    static const VkTimelineSemaphoreSubmitInfo none;
    const VkTimelineSemaphoreSubmitInfo *values =
        info ? in_chain(info->pNext, VK_STRUCTURE_TYPE_TIMELINE_SEMAPHORE_SUBMIT_INFO) : NULL;
    values = values ? values : &none;
    for (uint32_t i = 0; info && i < info->waitSemaphoreCount; i++)
        add_wait(b, find(d, KEY(info->pWaitSemaphores[i])),
                 value_of(values->waitSemaphoreValueCount, values->pWaitSemaphoreValues, i), EVERY);
    for (uint32_t i = 0; info && i < info->signalSemaphoreCount; i++)
        add_signal(b, find(d, KEY(info->pSignalSemaphores[i])),
                   value_of(values->signalSemaphoreValueCount, values->pSignalSemaphoreValues, i), EVERY);
    add_fence(b, find(d, KEY(fence)));
    count_unseen(UNSEEN_SPARSE);
    hand_on(queue, b);
}

VKAPI_ATTR VkResult VKAPI_CALL capture_QueueBindSparse(VkQueue queue, uint32_t count, const VkBindSparseInfo *infos,
                                                       VkFence fence)
{
    struct device *d = device_of(queue);
    lock_recorder();
    if (is_recording()) {
        struct thing *q = queue_of(d, queue);
        for (uint32_t i = 0; i < count; i++)
            hand_binds(d, q, &infos[i], i + 1 == count ? fence : VK_NULL_HANDLE);
        if (count == 0 && fence)
            hand_binds(d, q, NULL, fence);
    }
    unlock_recorder();
    VkResult result = d->calls.QueueBindSparse(queue, count, infos, fence);
    refused(result, "vkQueueBindSparse");
    return result;
}

/* What the host sees: what it saw before says nothing new, as each thread is told all, so that polls are one line. */

static void saw_value(struct device *d, VkSemaphore semaphore, uint64_t value, const char *call)
{
    lock_recorder();
    struct thing *t = find(d, KEY(semaphore));
    if (t && t->is_imported)
        write_host_line("cut # %s\n", call);
    else if (t && t->letter == TIMELINE && t->top >= value && value > t->seen) {
        write_host_line("saw T%u %llu # %s\n", t->number, (unsigned long long)value, call);
        t->seen = value;
    }
    flush_capture();
    unlock_recorder();
}

static void saw_fence(struct device *d, VkFence fence, const char *call)
{
    lock_recorder();
    struct thing *t = find(d, KEY(fence));
    if (t && t->is_imported)
        write_host_line("cut # %s\n", call);
    else if (t && t->is_used && t->seen == 0) {
        write_host_line("saw F%u # %s\n", t->number, call);
        t->seen = 1;
    }
    flush_capture();
    unlock_recorder();
}

VKAPI_ATTR VkResult VKAPI_CALL capture_WaitSemaphores(VkDevice device, const VkSemaphoreWaitInfo *info,
                                                      uint64_t timeout)
{
    struct device *d = device_of(device);
    VkResult result = d->calls.WaitSemaphores(device, info, timeout);
    bool is_any = info->flags & VK_SEMAPHORE_WAIT_ANY_BIT && info->semaphoreCount > 1;
    for (uint32_t i = 0; result == VK_SUCCESS && i < info->semaphoreCount; i++) {
        uint64_t value = info->pValues[i];
        if (!is_any || d->calls.GetSemaphoreCounterValue(device, info->pSemaphores[i], &value) == VK_SUCCESS)
            saw_value(d, info->pSemaphores[i], value, "vkWaitSemaphores");
    }
    return result;
}

VKAPI_ATTR VkResult VKAPI_CALL capture_GetSemaphoreCounterValue(VkDevice device, VkSemaphore semaphore, uint64_t *value)
{
    struct device *d = device_of(device);
    VkResult result = d->calls.GetSemaphoreCounterValue(device, semaphore, value);
    if (result == VK_SUCCESS)
        saw_value(d, semaphore, *value, "vkGetSemaphoreCounterValue");
    return result;
}

VKAPI_ATTR VkResult VKAPI_CALL capture_SignalSemaphore(VkDevice device, const VkSemaphoreSignalInfo *info)
{
    struct device *d = device_of(device);
    lock_recorder();
    struct thing *t = find(d, KEY(info->semaphore));
    if (t && t->letter == TIMELINE) {
        write_host_line("signal T%u %llu # vkSignalSemaphore\n", t->number, (unsigned long long)info->value);
        t->top = t->top < info->value ? info->value : t->top;
        write_ready();
    }
    unlock_recorder();
    return d->calls.SignalSemaphore(device, info);
}

VKAPI_ATTR VkResult VKAPI_CALL capture_WaitForFences(VkDevice device, uint32_t count, const VkFence *fences,
                                                     VkBool32 all, uint64_t timeout)
{
    struct device *d = device_of(device);
    VkResult result = d->calls.WaitForFences(device, count, fences, all, timeout);
    for (uint32_t i = 0; result == VK_SUCCESS && i < count; i++)
        if (all || count == 1 || d->calls.GetFenceStatus(device, fences[i]) == VK_SUCCESS)
            saw_fence(d, fences[i], "vkWaitForFences");
    return result;
}

VKAPI_ATTR VkResult VKAPI_CALL capture_GetFenceStatus(VkDevice device, VkFence fence)
{
    struct device *d = device_of(device);
    VkResult result = d->calls.GetFenceStatus(device, fence);
    if (result == VK_SUCCESS)
        saw_fence(d, fence, "vkGetFenceStatus");
    return result;
}

VKAPI_ATTR VkResult VKAPI_CALL capture_ResetFences(VkDevice device, uint32_t count, const VkFence *fences)
{
    struct device *d = device_of(device);
    lock_recorder();
    for (uint32_t i = 0; i < count; i++) {
        struct thing *t = find(d, KEY(fences[i]));
        if (t)
            t->is_used = t->is_imported = false;
    }
    unlock_recorder();
    return d->calls.ResetFences(device, count, fences);
}

VKAPI_ATTR VkResult VKAPI_CALL capture_QueueWaitIdle(VkQueue queue)
{
    struct device *d = device_of(queue);
    VkResult result = d->calls.QueueWaitIdle(queue);
    lock_recorder();
    struct thing *q = result == VK_SUCCESS && is_recording() ? queue_of(d, queue) : NULL;
    if (q)
        write_host_line("idle Q%u # vkQueueWaitIdle\n", q->number);
    flush_capture();
    unlock_recorder();
    return result;
}

VKAPI_ATTR VkResult VKAPI_CALL capture_DeviceWaitIdle(VkDevice device)
{
    struct device *d = device_of(device);
    VkResult result = d->calls.DeviceWaitIdle(device);
    lock_recorder();
    for (struct thing *t = result == VK_SUCCESS ? d->things : NULL; t; t = t->next)
        if (t->letter == QUEUE)
            write_host_line("idle Q%u # vkDeviceWaitIdle\n", t->number);
    flush_capture();
    unlock_recorder();
    return result;
}

/* What comes from outside ---------------------------------------------------------------------------------------- */

static void imported(struct device *d, uint64_t key)
{
    lock_recorder();
    struct thing *t = find(d, key);
    if (t)
        t->is_imported = true;
    unlock_recorder();
}

VKAPI_ATTR VkResult VKAPI_CALL capture_ImportSemaphoreFdKHR(VkDevice device, const VkImportSemaphoreFdInfoKHR *info)
{
    struct device *d = device_of(device);
    VkResult result = d->calls.ImportSemaphoreFdKHR(device, info);
    if (result == VK_SUCCESS)
        imported(d, KEY(info->semaphore));
    return result;
}

VKAPI_ATTR VkResult VKAPI_CALL capture_ImportFenceFdKHR(VkDevice device, const VkImportFenceFdInfoKHR *info)
{
    struct device *d = device_of(device);
    VkResult result = d->calls.ImportFenceFdKHR(device, info);
    if (result == VK_SUCCESS)
        imported(d, KEY(info->fence));
    return result;
}

/* Who has the exported payload may tell the host by other ways that work has ended. */
static void exported(void)
{
    lock_recorder();
    if (is_recording())
        distrust_ends();
    unlock_recorder();
}

VKAPI_ATTR VkResult VKAPI_CALL capture_GetSemaphoreFdKHR(VkDevice device, const VkSemaphoreGetFdInfoKHR *info, int *fd)
{
    exported();
    return device_of(device)->calls.GetSemaphoreFdKHR(device, info, fd);
}

VKAPI_ATTR VkResult VKAPI_CALL capture_GetFenceFdKHR(VkDevice device, const VkFenceGetFdInfoKHR *info, int *fd)
{
    exported();
    return device_of(device)->calls.GetFenceFdKHR(device, info, fd);
}

/* An event that is set tells the host of what stood before it. */
VKAPI_ATTR VkResult VKAPI_CALL capture_GetEventStatus(VkDevice device, VkEvent event)
{
    VkResult result = device_of(device)->calls.GetEventStatus(device, event);
    lock_recorder();
    if (result == VK_EVENT_SET)
        write_host_line("cut # vkGetEventStatus\n");
    unlock_recorder();
    return result;
}
