/* Memory: where buffers are bound, and what the host says of mapped memory. A flush says that the host wrote, an
 * invalidation that it reads; coherent memory that stays mapped isn't seen. With VQ_CAPTURE_MAPS=1 an unmapping is
 * taken for a read of all buffers of the memory, which is more than the host may have read. */
#include "capture.h"

#include <stdlib.h>

static void bind(struct device *d, VkBuffer buffer, VkDeviceMemory memory, VkDeviceSize offset)
{
    struct thing *t = find(d, KEY(buffer));
    if (!t)
        return;
    t->memory = KEY(memory);
    t->offset = offset;
}

VKAPI_ATTR VkResult VKAPI_CALL capture_BindBufferMemory(VkDevice device, VkBuffer buffer, VkDeviceMemory memory,
                                                        VkDeviceSize offset)
{
    struct device *d = device_of(device);
    lock_recorder();
    bind(d, buffer, memory, offset);
    unlock_recorder();
    return d->calls.BindBufferMemory(device, buffer, memory, offset);
}

VKAPI_ATTR VkResult VKAPI_CALL capture_BindBufferMemory2(VkDevice device, uint32_t count,
                                                         const VkBindBufferMemoryInfo *infos)
{
    struct device *d = device_of(device);
    lock_recorder();
    for (uint32_t i = 0; i < count; i++)
        bind(d, infos[i].buffer, infos[i].memory, infos[i].memoryOffset);
    unlock_recorder();
    return d->calls.BindBufferMemory2(device, count, infos);
}

VKAPI_ATTR VkResult VKAPI_CALL capture_MapMemory(VkDevice device, VkDeviceMemory memory, VkDeviceSize offset,
                                                 VkDeviceSize size, VkMemoryMapFlags flags, void **data)
{
    struct device *d = device_of(device);
    lock_recorder();
    if (is_recording())
        count_unseen(UNSEEN_MAPPED);
    unlock_recorder();
    return d->calls.MapMemory(device, memory, offset, size, flags, data);
}

/* The host touches a range of a memory: the parts of the buffers that are bound there. */
static void touch_memory(struct device *d, VkDeviceMemory memory, uint64_t offset, uint64_t size, const char *word,
                         const char *call)
{
    if (!is_recording())
        return;
    uint64_t end = size == VK_WHOLE_SIZE || size > UINT64_MAX - offset ? UINT64_MAX : offset + size;
    for (struct thing *t = d->things; t; t = t->next) {
        if (t->is_image || t->memory != KEY(memory) || !t->memory || end <= t->offset)
            continue;
        uint64_t from = offset > t->offset ? offset - t->offset : 0;
        uint64_t to = end - t->offset < t->size ? end - t->offset : t->size;
        if (from < to)
            write_host_line("%s R%u %llu %llu # %s\n", word, t->number, (unsigned long long)from,
                            (unsigned long long)(to - from), call);
    }
}

VKAPI_ATTR void VKAPI_CALL capture_UnmapMemory(VkDevice device, VkDeviceMemory memory)
{
    struct device *d = device_of(device);
    lock_recorder();
    const char *setting = getenv("VQ_CAPTURE_MAPS");
    if (setting && setting[0] == '1')
        touch_memory(d, memory, 0, VK_WHOLE_SIZE, "read", "vkUnmapMemory");
    unlock_recorder();
    d->calls.UnmapMemory(device, memory);
}

VKAPI_ATTR void VKAPI_CALL capture_FreeMemory(VkDevice device, VkDeviceMemory memory,
                                              const VkAllocationCallbacks *allocator)
{
    struct device *d = device_of(device);
    lock_recorder();
    for (struct thing *t = memory ? d->things : NULL; t; t = t->next)
        if (t->memory == KEY(memory))
            t->memory = 0;
    unlock_recorder();
    d->calls.FreeMemory(device, memory, allocator);
}

VKAPI_ATTR VkResult VKAPI_CALL capture_FlushMappedMemoryRanges(VkDevice device, uint32_t count,
                                                               const VkMappedMemoryRange *ranges)
{
    struct device *d = device_of(device);
    lock_recorder();
    for (uint32_t i = 0; i < count; i++)
        touch_memory(d, ranges[i].memory, ranges[i].offset, ranges[i].size, "write", "vkFlushMappedMemoryRanges");
    unlock_recorder();
    return d->calls.FlushMappedMemoryRanges(device, count, ranges);
}

VKAPI_ATTR VkResult VKAPI_CALL capture_InvalidateMappedMemoryRanges(VkDevice device, uint32_t count,
                                                                    const VkMappedMemoryRange *ranges)
{
    struct device *d = device_of(device);
    lock_recorder();
    for (uint32_t i = 0; i < count; i++)
        touch_memory(d, ranges[i].memory, ranges[i].offset, ranges[i].size, "read", "vkInvalidateMappedMemoryRanges");
    unlock_recorder();
    return d->calls.InvalidateMappedMemoryRanges(device, count, ranges);
}
