/* What a wait that isn't handed over would have made visible: the device's caches are told by a barrier. A wait for a
 * value that is reached is dropped, since the work is done and its writes are available (its fence was seen); that they
 * are visible to what the queue runs from then on is the wait's second half (Vulkan 1.3, "Semaphore Operations"), and a
 * barrier of all memory says it in its place, as the first command of the next batch. */
#include "device.h"

bool takes_barrier(const struct batch *b)
{
    const VkProtectedSubmitInfo *is_protected = in_chain(b->chain, VK_STRUCTURE_TYPE_PROTECTED_SUBMIT_INFO);
    return (b->form == FORM_SUBMIT || b->form == FORM_SUBMIT_2) && b->command_count > 0 && !b->is_group
           && !(is_protected && is_protected->protectedSubmit) && !(b->flags & VK_SUBMIT_PROTECTED_BIT);
}

static VkResult record(struct device *d, VkCommandBuffer commands)
{
    VkCommandBufferBeginInfo begun = {.sType = VK_STRUCTURE_TYPE_COMMAND_BUFFER_BEGIN_INFO,
                                      .flags = VK_COMMAND_BUFFER_USAGE_SIMULTANEOUS_USE_BIT};
    VkMemoryBarrier all = {.sType = VK_STRUCTURE_TYPE_MEMORY_BARRIER,
                           .srcAccessMask = VK_ACCESS_MEMORY_WRITE_BIT,
                           .dstAccessMask = VK_ACCESS_MEMORY_READ_BIT | VK_ACCESS_MEMORY_WRITE_BIT};
    VkResult result = d->next.BeginCommandBuffer(commands, &begun);
    if (result != VK_SUCCESS)
        return result;
    d->next.CmdPipelineBarrier(commands, VK_PIPELINE_STAGE_ALL_COMMANDS_BIT, VK_PIPELINE_STAGE_ALL_COMMANDS_BIT, 0, 1,
                               &all, 0, NULL, 0, NULL);
    return d->next.EndCommandBuffer(commands);
}

static VkResult make(struct device *d, struct queue *q, VkCommandPool pool)
{
    VkCommandBufferAllocateInfo info = {.sType = VK_STRUCTURE_TYPE_COMMAND_BUFFER_ALLOCATE_INFO,
                                        .commandPool = pool,
                                        .level = VK_COMMAND_BUFFER_LEVEL_PRIMARY,
                                        .commandBufferCount = 1};
    VkCommandBuffer commands;
    VkResult result = d->next.AllocateCommandBuffers(d->handle, &info, &commands);
    if (result == VK_SUCCESS)
        result = d->set_loader_data(d->handle, commands);
    if (result == VK_SUCCESS)
        result = record(d, commands);
    if (result == VK_SUCCESS)
        q->barrier = commands;
    return result;
}

bool has_barrier(struct device *d, struct queue *q)
{
    if (q->barrier)
        return true;
    VkCommandPoolCreateInfo info = {.sType = VK_STRUCTURE_TYPE_COMMAND_POOL_CREATE_INFO, .queueFamilyIndex = q->family};
    VkCommandPool pool;
    if (d->next.CreateCommandPool(d->handle, &info, NULL, &pool) != VK_SUCCESS)
        return false;
    if (make(d, q, pool) == VK_SUCCESS) {
        q->pool = pool;
        return true;
    }
    d->next.DestroyCommandPool(d->handle, pool, NULL);
    return false;
}
