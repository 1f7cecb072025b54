#include "play.h"

#include <stdlib.h>
#include <string.h>

#include "result.h"

static void make_semaphores(struct play *play)
{
    const struct script *script = play->script;
    VkFenceCreateInfo fence = {.sType = VK_STRUCTURE_TYPE_FENCE_CREATE_INFO};

    for (uint32_t t = 0; t < script->semaphore_count; t++) {
        bool is_timeline = script->semaphores[t].kind == TIMELINE;
        VkSemaphoreTypeCreateInfo type = {
            .sType = VK_STRUCTURE_TYPE_SEMAPHORE_TYPE_CREATE_INFO,
            .semaphoreType = is_timeline ? VK_SEMAPHORE_TYPE_TIMELINE : VK_SEMAPHORE_TYPE_BINARY,
            .initialValue = script->semaphores[t].initial};
        VkSemaphoreCreateInfo info = {.sType = VK_STRUCTURE_TYPE_SEMAPHORE_CREATE_INFO, .pNext = &type};
        VkDevice device = play->device.device;

        if (script->semaphores[t].kind == FENCE)
            look_at(play, vkCreateFence(device, &fence, NULL, &play->fences[t]), "vkCreateFence", 0);
        else
            look_at(play, vkCreateSemaphore(device, &info, NULL, &play->semaphores[t]), "vkCreateSemaphore", 0);
    }
}

static uint32_t host_memory(const struct play *play, uint32_t types)
{
    VkMemoryPropertyFlags wanted = VK_MEMORY_PROPERTY_HOST_VISIBLE_BIT | VK_MEMORY_PROPERTY_HOST_COHERENT_BIT;
    VkPhysicalDeviceMemoryProperties memory;

    vkGetPhysicalDeviceMemoryProperties(play->device.physical, &memory);
    for (uint32_t type = 0; type < memory.memoryTypeCount; type++)
        if ((types >> type & 1) != 0 && (memory.memoryTypes[type].propertyFlags & wanted) == wanted)
            return type;
    look_at(play, VK_ERROR_FEATURE_NOT_PRESENT, "vkGetPhysicalDeviceMemoryProperties", 0);
    return 0;
}

static void make_buffer(struct play *play, uint32_t b)
{
    const struct device *device = &play->device;
    VkBufferCreateInfo info = {
        .sType = VK_STRUCTURE_TYPE_BUFFER_CREATE_INFO, .size = play->script->buffers[b].size,
        .usage = VK_BUFFER_USAGE_TRANSFER_SRC_BIT | VK_BUFFER_USAGE_TRANSFER_DST_BIT};

    /* queues of several families go over the same bytes */
    if (device->family_count > 1) {
        info.sharingMode = VK_SHARING_MODE_CONCURRENT;
        info.queueFamilyIndexCount = device->family_count;
        info.pQueueFamilyIndices = device->families;
    }
    look_at(play, vkCreateBuffer(device->device, &info, NULL, &play->buffers[b]), "vkCreateBuffer", 0);
}

/* All buffers lie in one piece of memory that the host sees, and hold zeros. */
static void make_buffers(struct play *play)
{
    VkDevice device = play->device.device;
    VkMemoryAllocateInfo info = {.sType = VK_STRUCTURE_TYPE_MEMORY_ALLOCATE_INFO};
    uint32_t types = UINT32_MAX;
    void *bytes = NULL;

    if (play->script->buffer_count == 0)
        return;
    for (uint32_t b = 0; b < play->script->buffer_count; b++) {
        VkMemoryRequirements needed;
        make_buffer(play, b);
        vkGetBufferMemoryRequirements(device, play->buffers[b], &needed);
        play->offsets[b] = (info.allocationSize + needed.alignment - 1) / needed.alignment * needed.alignment;
        info.allocationSize = play->offsets[b] + needed.size;
        types &= needed.memoryTypeBits;
    }
    info.memoryTypeIndex = host_memory(play, types);
    look_at(play, vkAllocateMemory(device, &info, NULL, &play->memory), "vkAllocateMemory", 0);
    for (uint32_t b = 0; b < play->script->buffer_count; b++)
        look_at(play, vkBindBufferMemory(device, play->buffers[b], play->memory, play->offsets[b]),
                "vkBindBufferMemory", 0);
    look_at(play, vkMapMemory(device, play->memory, 0, VK_WHOLE_SIZE, 0, &bytes), "vkMapMemory", 0);
    play->bytes = bytes;
    memset(play->bytes, 0, info.allocationSize);
}

/* Between commands of one queue, and behind its batches, for the host too. */
static void put_barrier(VkCommandBuffer buffer, bool is_last)
{
    VkAccessFlags2 accesses = VK_ACCESS_2_MEMORY_READ_BIT | VK_ACCESS_2_MEMORY_WRITE_BIT;
    VkMemoryBarrier2 memory = {
        .sType = VK_STRUCTURE_TYPE_MEMORY_BARRIER_2,
        .srcStageMask = VK_PIPELINE_STAGE_2_ALL_COMMANDS_BIT,
        .srcAccessMask = accesses,
        .dstStageMask = VK_PIPELINE_STAGE_2_ALL_COMMANDS_BIT | (is_last ? VK_PIPELINE_STAGE_2_HOST_BIT : 0),
        .dstAccessMask = accesses | (is_last ? VK_ACCESS_2_HOST_READ_BIT : 0)};
    VkDependencyInfo dependency = {
        .sType = VK_STRUCTURE_TYPE_DEPENDENCY_INFO, .memoryBarrierCount = 1, .pMemoryBarriers = &memory};

    vkCmdPipelineBarrier2(buffer, &dependency);
}

static void put_command(const struct play *play, VkCommandBuffer buffer, const struct command *command)
{
    VkBuffer target = play->buffers[command->target];
    VkBufferCopy region = {
        .srcOffset = command->source_offset, .dstOffset = command->target_offset, .size = command->size};

    switch (command->kind) {
    case FILL:
        vkCmdFillBuffer(buffer, target, command->target_offset,
                        command->size == WHOLE ? VK_WHOLE_SIZE : command->size, command->word);
        break;
    case UPDATE:
        vkCmdUpdateBuffer(buffer, target, command->target_offset, command->size, command->bytes);
        break;
    case COPY:
        vkCmdCopyBuffer(buffer, play->buffers[command->source], target, 1, &region);
        break;
    }
}

static void record(struct play *play, uint32_t j)
{
    const struct job *job = &play->script->jobs[j];
    VkCommandBufferAllocateInfo info = {
        .sType = VK_STRUCTURE_TYPE_COMMAND_BUFFER_ALLOCATE_INFO,
        .commandPool = play->pools[play->shared[job->queue]],
        .level = VK_COMMAND_BUFFER_LEVEL_PRIMARY,
        .commandBufferCount = 1};
    /* --timing submits a batch twice */
    VkCommandBufferBeginInfo begin = {.sType = VK_STRUCTURE_TYPE_COMMAND_BUFFER_BEGIN_INFO};
    VkCommandBuffer buffer = NULL;

    look_at(play, vkAllocateCommandBuffers(play->device.device, &info, &buffer), "vkAllocateCommandBuffers", job->line);
    play->commands[j] = buffer;
    look_at(play, vkBeginCommandBuffer(buffer, &begin), "vkBeginCommandBuffer", job->line);
    for (uint32_t c = 0; c < job->command_count; c++) {
        put_barrier(buffer, false);
        put_command(play, buffer, &play->script->commands[job->first_command + c]);
    }
    put_barrier(buffer, true);
    look_at(play, vkEndCommandBuffer(buffer), "vkEndCommandBuffer", job->line);
}

void make_objects(struct play *play)
{
    make_semaphores(play);
    make_buffers(play);
    for (uint32_t q = 0; q < play->device.queue_count; q++) {
        VkCommandPoolCreateInfo info = {
            .sType = VK_STRUCTURE_TYPE_COMMAND_POOL_CREATE_INFO, .queueFamilyIndex = play->device.family_of[q]};
        look_at(play, vkCreateCommandPool(play->device.device, &info, NULL, &play->pools[q]), "vkCreateCommandPool", 0);
    }
    for (uint32_t j = 0; j < play->script->job_count; j++)
        if (play->script->jobs[j].kind == BATCH)
            record(play, j);
}

void free_objects(struct play *play)
{
    VkDevice device = play->device.device;

    for (uint32_t q = 0; q < play->device.queue_count; q++)
        vkDestroyCommandPool(device, play->pools[q], NULL);
    for (uint32_t b = 0; b < play->script->buffer_count; b++)
        vkDestroyBuffer(device, play->buffers[b], NULL);
    if (play->script->buffer_count > 0)
        vkFreeMemory(device, play->memory, NULL);
    for (uint32_t t = 0; t < play->script->semaphore_count; t++) {
        if (play->script->semaphores[t].kind == FENCE)
            vkDestroyFence(device, play->fences[t], NULL);
        else
            vkDestroySemaphore(device, play->semaphores[t], NULL);
    }
}
