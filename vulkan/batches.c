/* Batches, copied as the client gave them, and the driver's calls for them. */
#include "device.h"

#include <stdlib.h>
#include <string.h>

/* A block of memory that is cut into pieces from its front. */
struct block {
    char *at;
    size_t left;
};

static size_t aligned(size_t size)
{
    return (size + 15) & ~(size_t)15;
}

static void *cut(struct block *block, size_t size)
{
    void *piece = block->at;
    block->at += aligned(size);
    block->left -= aligned(size);
    return piece;
}

/* How large a struct of a batch's chain is that is kept; 0 for those that aren't. The values of timelines aren't: the
 * driver has none. These are all of Vulkan 1.3.239 but those of Windows; which devices of a group a batch runs on is
 * kept elsewhere. */
static size_t size_in_chain(VkStructureType type)
{
    switch (type) {
    case VK_STRUCTURE_TYPE_PROTECTED_SUBMIT_INFO:
        return sizeof(VkProtectedSubmitInfo);
    case VK_STRUCTURE_TYPE_PERFORMANCE_QUERY_SUBMIT_INFO_KHR:
        return sizeof(VkPerformanceQuerySubmitInfoKHR);
    case VK_STRUCTURE_TYPE_AMIGO_PROFILING_SUBMIT_INFO_SEC:
        return sizeof(VkAmigoProfilingSubmitInfoSEC);
    default:
        return 0;
    }
}

static size_t size_of_chain(const void *chain)
{
    size_t size = 0;
    for (const VkBaseInStructure *at = chain; at; at = at->pNext)
        size += aligned(size_in_chain(at->sType));
    return size;
}

static const void *copy_chain(struct block *block, const void *chain)
{
    const VkBaseInStructure *head = NULL, **link = &head;
    for (const VkBaseInStructure *at = chain; at; at = at->pNext) {
        size_t size = size_in_chain(at->sType);
        if (size == 0) {
            if (at->sType != VK_STRUCTURE_TYPE_TIMELINE_SEMAPHORE_SUBMIT_INFO
                && at->sType != VK_STRUCTURE_TYPE_DEVICE_GROUP_SUBMIT_INFO)
                complain("a struct in the chain of a batch isn't known, and left out", at->sType);
            continue;
        }
        VkBaseInStructure *copy = cut(block, size);
        memcpy(copy, at, size);
        copy->pNext = NULL;
        *link = copy;
        link = (const VkBaseInStructure **)&copy->pNext;
    }
    return head;
}

/* The sizes of what a batch leads to. */
struct sizes {
    uint32_t waits;
    uint32_t commands;
    uint32_t signals;
    size_t chain;
};

static struct batch *new_batch(struct queue *q, enum form form, struct sizes sizes, struct block *block)
{
    size_t marks = ((size_t)sizes.waits + sizes.signals) * sizeof(struct mark);
    size_t points = ((size_t)sizes.waits + sizes.signals) * sizeof(struct vq_layer_point);
    size_t commands = sizes.commands * sizeof(VkCommandBufferSubmitInfo);
    size_t whole =
        aligned(sizeof(struct batch)) + 2 * aligned(marks) + aligned(points) + aligned(commands) + sizes.chain;
    char *memory = calloc(1, whole);
    if (!memory)
        return NULL;
    *block = (struct block){memory, whole};
    struct batch *b = cut(block, sizeof *b);
    b->form = form;
    b->queue = q;
    b->wait_count = sizes.waits;
    b->command_count = sizes.commands;
    b->signal_count = sizes.signals;
    b->waits = cut(block, sizes.waits * sizeof *b->waits);
    b->signals = cut(block, sizes.signals * sizeof *b->signals);
    b->points = cut(block, points);
    b->commands = cut(block, commands);
    return b;
}

/* Which devices of a group a batch of vkQueueSubmit runs on, in the marks and commands, as vkQueueSubmit2 has it. */
static void spread_group(struct batch *b, const VkDeviceGroupSubmitInfo *group)
{
    for (uint32_t i = 0; i < b->wait_count && i < group->waitSemaphoreCount; i++)
        b->waits[i].device_index = group->pWaitSemaphoreDeviceIndices[i];
    for (uint32_t i = 0; i < b->signal_count && i < group->signalSemaphoreCount; i++)
        b->signals[i].device_index = group->pSignalSemaphoreDeviceIndices[i];
    for (uint32_t i = 0; i < b->command_count && i < group->commandBufferCount; i++)
        b->commands[i].deviceMask = group->pCommandBufferDeviceMasks[i];
}

struct batch *copy_submit(struct queue *q, const VkSubmitInfo *info)
{
    const VkTimelineSemaphoreSubmitInfo *values =
        in_chain(info->pNext, VK_STRUCTURE_TYPE_TIMELINE_SEMAPHORE_SUBMIT_INFO);
    const VkDeviceGroupSubmitInfo *group = in_chain(info->pNext, VK_STRUCTURE_TYPE_DEVICE_GROUP_SUBMIT_INFO);
    struct sizes sizes = {info->waitSemaphoreCount, info->commandBufferCount, info->signalSemaphoreCount,
                          size_of_chain(info->pNext)};
    struct block block;
    struct batch *b = new_batch(q, FORM_SUBMIT, sizes, &block);
    if (!b)
        return NULL;
    for (uint32_t i = 0; i < b->wait_count; i++) {
        b->waits[i].semaphore = info->pWaitSemaphores[i];
        b->waits[i].stages = info->pWaitDstStageMask[i];
        if (values && i < values->waitSemaphoreValueCount)
            b->waits[i].value = values->pWaitSemaphoreValues[i];
    }
    for (uint32_t i = 0; i < b->signal_count; i++) {
        b->signals[i].semaphore = info->pSignalSemaphores[i];
        b->signals[i].stages = VK_PIPELINE_STAGE_2_ALL_COMMANDS_BIT;
        if (values && i < values->signalSemaphoreValueCount)
            b->signals[i].value = values->pSignalSemaphoreValues[i];
    }
    for (uint32_t i = 0; i < b->command_count; i++)
        b->commands[i] = (VkCommandBufferSubmitInfo){.sType = VK_STRUCTURE_TYPE_COMMAND_BUFFER_SUBMIT_INFO,
                                                     .commandBuffer = info->pCommandBuffers[i]};
    if (group)
        spread_group(b, group);
    b->is_group = group != NULL;
    b->chain = copy_chain(&block, info->pNext);
    return b;
}

static void copy_marks(struct mark *marks, uint32_t count, const VkSemaphoreSubmitInfo *infos)
{
    for (uint32_t i = 0; i < count; i++)
        marks[i] = (struct mark){.semaphore = infos[i].semaphore,
                                 .value = infos[i].value,
                                 .stages = infos[i].stageMask,
                                 .device_index = infos[i].deviceIndex};
}

struct batch *copy_submit_2(struct queue *q, const VkSubmitInfo2 *info)
{
    struct sizes sizes = {info->waitSemaphoreInfoCount, info->commandBufferInfoCount, info->signalSemaphoreInfoCount,
                          size_of_chain(info->pNext)};
    struct block block;
    struct batch *b = new_batch(q, FORM_SUBMIT_2, sizes, &block);
    if (!b)
        return NULL;
    b->flags = info->flags;
    copy_marks(b->waits, b->wait_count, info->pWaitSemaphoreInfos);
    copy_marks(b->signals, b->signal_count, info->pSignalSemaphoreInfos);
    for (uint32_t i = 0; i < b->command_count; i++) {
        b->commands[i] = info->pCommandBufferInfos[i];
        b->commands[i].pNext = NULL; /* Vulkan 1.3 has nothing that stands there */
    }
    b->chain = copy_chain(&block, info->pNext);
    return b;
}

struct batch *new_present(struct queue *q, const VkPresentInfoKHR *info)
{
    struct block block;
    struct batch *b = new_batch(q, FORM_PRESENT, (struct sizes){info->waitSemaphoreCount, 0, 0, 0}, &block);
    if (!b)
        return NULL;
    for (uint32_t i = 0; i < b->wait_count; i++)
        b->waits[i].semaphore = info->pWaitSemaphores[i];
    b->present = info;
    return b;
}

struct batch *new_fence(struct queue *q, VkFence fence)
{
    struct block block;
    struct batch *b = new_batch(q, FORM_FENCE, (struct sizes){0, 0, 0, 0}, &block);
    if (b)
        b->fence = fence;
    return b;
}

/* The semaphores of a batch that the driver is to know: those of the client's that are binary, and for waits also the
 * relays'. How many they are. */
static uint32_t driver_marks(const struct mark *own, uint32_t own_count, const struct mark *more, uint32_t more_count,
                             VkSemaphoreSubmitInfo *to)
{
    uint32_t count = 0;
    for (uint32_t i = 0; i < own_count + more_count; i++) {
        const struct mark *m = i < own_count ? &own[i] : &more[i - own_count];
        if (m->timeline && !m->timeline->is_binary)
            continue;
        to[count++] = (VkSemaphoreSubmitInfo){.sType = VK_STRUCTURE_TYPE_SEMAPHORE_SUBMIT_INFO,
                                              .semaphore = m->semaphore,
                                              .stageMask = m->stages,
                                              .deviceIndex = m->device_index};
    }
    return count;
}

/* vkQueueSubmit for a batch that is told as for vkQueueSubmit2. A driver of Vulkan 1.2 has no other. */
static VkResult submit_1(struct device *d, VkQueue queue, const VkSubmitInfo2 *info, bool is_group, VkFence fence)
{
    uint32_t waits = info->waitSemaphoreInfoCount, signals = info->signalSemaphoreInfoCount;
    uint32_t commands = info->commandBufferInfoCount;
    VkSemaphore semaphores[waits + signals + 1];
    VkPipelineStageFlags stages[waits + 1];
    VkCommandBuffer buffers[commands + 1];
    uint32_t devices[waits + signals + 1], masks[commands + 1];
    for (uint32_t i = 0; i < waits + signals; i++) {
        const VkSemaphoreSubmitInfo *m =
            i < waits ? &info->pWaitSemaphoreInfos[i] : &info->pSignalSemaphoreInfos[i - waits];
        semaphores[i] = m->semaphore;
        devices[i] = m->deviceIndex;
        if (i < waits)
            stages[i] = (VkPipelineStageFlags)m->stageMask;
    }
    for (uint32_t i = 0; i < commands; i++) {
        buffers[i] = info->pCommandBufferInfos[i].commandBuffer;
        masks[i] = info->pCommandBufferInfos[i].deviceMask;
    }
    VkDeviceGroupSubmitInfo group = {VK_STRUCTURE_TYPE_DEVICE_GROUP_SUBMIT_INFO, info->pNext, waits, devices, commands,
                                     masks, signals, devices + waits};
    VkSubmitInfo old = {VK_STRUCTURE_TYPE_SUBMIT_INFO, is_group ? &group : info->pNext, waits, semaphores, stages,
                        commands, buffers, signals, semaphores + waits};
    return d->next.QueueSubmit(queue, 1, &old, fence);
}

/* The commands of a batch, behind its queue's barrier where they begin with that. How many they are. */
static uint32_t driver_commands(const struct batch *b, VkCommandBufferSubmitInfo *to)
{
    uint32_t count = 0;
    if (b->begins_with_barrier)
        to[count++] = (VkCommandBufferSubmitInfo){.sType = VK_STRUCTURE_TYPE_COMMAND_BUFFER_SUBMIT_INFO,
                                                  .commandBuffer = b->queue->barrier};
    for (uint32_t i = 0; i < b->command_count; i++)
        to[count++] = b->commands[i];
    return count;
}

VkResult call_driver(struct device *d, const struct batch *b, const struct mark *waits, uint32_t wait_count,
                     VkFence fence)
{
    if (b->form == FORM_PRESENT)
        return d->next.QueuePresentKHR(b->queue->handle, b->present);
    if (b->form == FORM_SPARSE)
        return call_sparse(d, b, waits, wait_count, fence);
    VkSemaphoreSubmitInfo before[b->wait_count + wait_count + 1], after[b->signal_count + 1];
    VkCommandBufferSubmitInfo commands[b->command_count + 1];
    VkSubmitInfo2 info = {.sType = VK_STRUCTURE_TYPE_SUBMIT_INFO_2,
                          .pNext = b->chain,
                          .flags = b->flags,
                          .waitSemaphoreInfoCount = driver_marks(b->waits, b->wait_count, waits, wait_count, before),
                          .pWaitSemaphoreInfos = before,
                          .commandBufferInfoCount = driver_commands(b, commands),
                          .pCommandBufferInfos = commands,
                          .signalSemaphoreInfoCount = driver_marks(b->signals, b->signal_count, NULL, 0, after),
                          .pSignalSemaphoreInfos = after};
    if (b->form == FORM_SUBMIT_2)
        return d->next.QueueSubmit2(b->queue->handle, 1, &info, fence);
    return submit_1(d, b->queue->handle, &info, b->is_group, fence);
}

VkResult call_relay(struct device *d, struct queue *q, enum form form, VkSemaphore semaphore)
{
    VkSemaphoreSubmitInfo after = {.sType = VK_STRUCTURE_TYPE_SEMAPHORE_SUBMIT_INFO,
                                   .semaphore = semaphore,
                                   .stageMask = VK_PIPELINE_STAGE_2_ALL_COMMANDS_BIT};
    VkSubmitInfo2 info = {.sType = VK_STRUCTURE_TYPE_SUBMIT_INFO_2,
                          .signalSemaphoreInfoCount = 1,
                          .pSignalSemaphoreInfos = &after};
    if (form == FORM_SUBMIT_2)
        return d->next.QueueSubmit2(q->handle, 1, &info, VK_NULL_HANDLE);
    return submit_1(d, q->handle, &info, false, VK_NULL_HANDLE);
}
