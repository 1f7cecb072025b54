/* Pipeline barriers, layout transitions and changes of owner, events. */
#include "capture.h"

/* A transition writes its range: whether it is one. Of a change of owner each side ignores the stages of the other
 * one, and which side it is isn't known here: it stands between all stages. */
static bool transit(struct commands *l, const VkImageMemoryBarrier2 *b, uint32_t from, uint32_t to)
{
    bool is_one = b->oldLayout != b->newLayout || b->srcQueueFamilyIndex != b->dstQueueFamilyIndex;
    struct thing *t = l && is_one ? find(l->device, KEY(b->image)) : NULL;
    if (!t)
        return false;
    VkImageSubresourceRange range = b->subresourceRange;
    if (t->extent.depth > 1) {
        range.baseArrayLayer = 0;
        range.layerCount = 1;
    }
    bool is_moved = b->srcQueueFamilyIndex != b->dstQueueFamilyIndex;
    put_transition(l, t, &range, is_moved ? EVERY | from : from, is_moved ? EVERY | to : to);
    return true;
}

/* The barriers of a call, each a memory dependency of its own, for all resources: a barrier with the scopes of the one
 * that was said before it says nothing new. */
struct barriers {
    struct commands *l;
    bool is_any;
    uint32_t from, to;
};

static void add_barrier(struct barriers *s, uint32_t from, uint32_t to)
{
    if (s->is_any && s->from == from && s->to == to)
        return;
    put_barrier(s->l, from, to);
    *s = (struct barriers){s->l, true, from, to};
}

static VkImageMemoryBarrier2 newer(const VkImageMemoryBarrier *b)
{
    return (VkImageMemoryBarrier2){.oldLayout = b->oldLayout,
                                   .newLayout = b->newLayout,
                                   .srcQueueFamilyIndex = b->srcQueueFamilyIndex,
                                   .dstQueueFamilyIndex = b->dstQueueFamilyIndex,
                                   .image = b->image,
                                   .subresourceRange = b->subresourceRange};
}

VKAPI_ATTR void VKAPI_CALL capture_CmdPipelineBarrier(VkCommandBuffer handle, VkPipelineStageFlags from,
                                                      VkPipelineStageFlags to, VkDependencyFlags flags,
                                                      uint32_t memory_count, const VkMemoryBarrier *memory,
                                                      uint32_t buffer_count, const VkBufferMemoryBarrier *buffers,
                                                      uint32_t image_count, const VkImageMemoryBarrier *images)
{
    struct device *d = device_of(handle);
    struct barriers s = {.l = begin_state(d, handle, "vkCmdPipelineBarrier")};
    bool is_any = memory_count > 0 || buffer_count > 0;
    for (uint32_t i = 0; i < memory_count; i++)
        add_barrier(&s, first_scope(from, memory[i].srcAccessMask), second_scope(to, memory[i].dstAccessMask));
    for (uint32_t i = 0; i < buffer_count; i++)
        add_barrier(&s, first_scope(from, buffers[i].srcAccessMask), second_scope(to, buffers[i].dstAccessMask));
    for (uint32_t i = 0; i < image_count; i++) {
        const VkImageMemoryBarrier2 b = newer(&images[i]);
        uint32_t source = first_scope(from, images[i].srcAccessMask),
                 target = second_scope(to, images[i].dstAccessMask);
        if (!transit(s.l, &b, source, target))
            add_barrier(&s, source, target);
        is_any = true;
    }
    if (!is_any)
        put_barrier(s.l, first_scope(from, 0), second_scope(to, 0));
    end_command();
    d->calls.CmdPipelineBarrier(handle, from, to, flags, memory_count, memory, buffer_count, buffers, image_count,
                                images);
}

VKAPI_ATTR void VKAPI_CALL capture_CmdPipelineBarrier2(VkCommandBuffer handle, const VkDependencyInfo *info)
{
    struct device *d = device_of(handle);
    struct barriers s = {.l = begin_state(d, handle, "vkCmdPipelineBarrier2")};
    for (uint32_t i = 0; i < info->memoryBarrierCount; i++) {
        const VkMemoryBarrier2 *b = &info->pMemoryBarriers[i];
        add_barrier(&s, first_scope(b->srcStageMask, b->srcAccessMask),
                    second_scope(b->dstStageMask, b->dstAccessMask));
    }
    for (uint32_t i = 0; i < info->bufferMemoryBarrierCount; i++) {
        const VkBufferMemoryBarrier2 *b = &info->pBufferMemoryBarriers[i];
        add_barrier(&s, first_scope(b->srcStageMask, b->srcAccessMask),
                    second_scope(b->dstStageMask, b->dstAccessMask));
    }
    for (uint32_t i = 0; i < info->imageMemoryBarrierCount; i++) {
        const VkImageMemoryBarrier2 *b = &info->pImageMemoryBarriers[i];
        uint32_t source = first_scope(b->srcStageMask, b->srcAccessMask);
        uint32_t target = second_scope(b->dstStageMask, b->dstAccessMask);
        if (!transit(s.l, b, source, target))
            add_barrier(&s, source, target);
    }
    end_command();
    d->calls.CmdPipelineBarrier2(handle, info);
}

/* Events --------------------------------------------------------------------------------------------------------- */

/* Which accesses it makes available only the wait says: it is taken for all. */
VKAPI_ATTR void VKAPI_CALL capture_CmdSetEvent(VkCommandBuffer handle, VkEvent event, VkPipelineStageFlags stages)
{
    struct device *d = device_of(handle);
    struct commands *l = begin_state(d, handle, "vkCmdSetEvent");
    put_mark(l, l ? find(d, KEY(event)) : NULL, true,
             first_scope(stages, VK_ACCESS_2_MEMORY_READ_BIT | VK_ACCESS_2_MEMORY_WRITE_BIT));
    end_command();
    d->calls.CmdSetEvent(handle, event, stages);
}

/* The first or the second scope of all barriers of a dependency. */
static uint32_t scope_of(const VkDependencyInfo *info, bool is_first)
{
    uint64_t stages = 0, accesses = 0;
    for (uint32_t i = 0; i < info->memoryBarrierCount; i++) {
        const VkMemoryBarrier2 *b = &info->pMemoryBarriers[i];
        stages |= is_first ? b->srcStageMask : b->dstStageMask;
        accesses |= is_first ? b->srcAccessMask : b->dstAccessMask;
    }
    for (uint32_t i = 0; i < info->bufferMemoryBarrierCount; i++) {
        const VkBufferMemoryBarrier2 *b = &info->pBufferMemoryBarriers[i];
        stages |= is_first ? b->srcStageMask : b->dstStageMask;
        accesses |= is_first ? b->srcAccessMask : b->dstAccessMask;
    }
    for (uint32_t i = 0; i < info->imageMemoryBarrierCount; i++) {
        const VkImageMemoryBarrier2 *b = &info->pImageMemoryBarriers[i];
        stages |= is_first ? b->srcStageMask : b->dstStageMask;
        accesses |= is_first ? b->srcAccessMask : b->dstAccessMask;
    }
    return is_first ? first_scope(stages, accesses) : second_scope(stages, accesses);
}

VKAPI_ATTR void VKAPI_CALL capture_CmdSetEvent2(VkCommandBuffer handle, VkEvent event, const VkDependencyInfo *info)
{
    struct device *d = device_of(handle);
    struct commands *l = begin_state(d, handle, "vkCmdSetEvent2");
    put_mark(l, l ? find(d, KEY(event)) : NULL, true, scope_of(info, true));
    end_command();
    d->calls.CmdSetEvent2(handle, event, info);
}

/* A transition comes behind the waits: it begins at the stages that they hold back, or at all where these are none.
 * What it writes over was made available where the events were set. */
static uint32_t behind(uint32_t to)
{
    return (to & STAGES ? to & STAGES : EVERY) | READ;
}

VKAPI_ATTR void VKAPI_CALL capture_CmdWaitEvents(VkCommandBuffer handle, uint32_t count, const VkEvent *events,
                                                 VkPipelineStageFlags from, VkPipelineStageFlags to,
                                                 uint32_t memory_count, const VkMemoryBarrier *memory,
                                                 uint32_t buffer_count, const VkBufferMemoryBarrier *buffers,
                                                 uint32_t image_count, const VkImageMemoryBarrier *images)
{
    struct device *d = device_of(handle);
    struct commands *l = begin_state(d, handle, "vkCmdWaitEvents");
    uint64_t accesses = 0;
    for (uint32_t i = 0; i < memory_count; i++)
        accesses |= memory[i].dstAccessMask;
    for (uint32_t i = 0; i < buffer_count; i++)
        accesses |= buffers[i].dstAccessMask;
    for (uint32_t i = 0; i < image_count; i++)
        accesses |= images[i].dstAccessMask;
    for (uint32_t i = 0; l && i < count; i++)
        put_mark(l, find(d, KEY(events[i])), false, second_scope(to, accesses));
    for (uint32_t i = 0; l && i < image_count; i++) {
        const VkImageMemoryBarrier2 b = newer(&images[i]);
        uint32_t target = second_scope(to, images[i].dstAccessMask);
        transit(l, &b, behind(target), target);
    }
    end_command();
    d->calls.CmdWaitEvents(handle, count, events, from, to, memory_count, memory, buffer_count, buffers, image_count,
                           images);
}

VKAPI_ATTR void VKAPI_CALL capture_CmdWaitEvents2(VkCommandBuffer handle, uint32_t count, const VkEvent *events,
                                                  const VkDependencyInfo *infos)
{
    struct device *d = device_of(handle);
    struct commands *l = begin_state(d, handle, "vkCmdWaitEvents2");
    for (uint32_t i = 0; l && i < count; i++)
        put_mark(l, find(d, KEY(events[i])), false, scope_of(&infos[i], false));
    for (uint32_t i = 0; l && i < count; i++)
        for (uint32_t k = 0; k < infos[i].imageMemoryBarrierCount; k++) {
            uint32_t to = scope_of(&infos[i], false);
            transit(l, &infos[i].pImageMemoryBarriers[k], behind(to), to);
        }
    end_command();
    d->calls.CmdWaitEvents2(handle, count, events, infos);
}
