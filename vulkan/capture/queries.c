/* Queries, as units of their pool. Commands on queries are ordered among themselves on a queue (Vulkan 1.3, "Queries"),
 * so each is taken for a read of them: what the host does to a pool that is in use is found, and races of queries
 * between queues aren't. */
#include "capture.h"

static void use_queries(struct device *d, VkCommandBuffer handle, VkQueryPool pool, uint32_t first, uint32_t count,
                        uint32_t scope, const char *call)
{
    struct commands *l = begin_command(d, handle, call);
    touch(l, l ? find(d, KEY(pool)) : NULL, false, first, count, scope);
    end_command();
}

VKAPI_ATTR void VKAPI_CALL capture_CmdResetQueryPool(VkCommandBuffer handle, VkQueryPool pool, uint32_t first,
                                                     uint32_t count)
{
    struct device *d = device_of(handle);
    use_queries(d, handle, pool, first, count, COPY, "vkCmdResetQueryPool");
    d->calls.CmdResetQueryPool(handle, pool, first, count);
}

VKAPI_ATTR void VKAPI_CALL capture_CmdBeginQuery(VkCommandBuffer handle, VkQueryPool pool, uint32_t query,
                                                 VkQueryControlFlags flags)
{
    struct device *d = device_of(handle);
    use_queries(d, handle, pool, query, 1, LATE, "vkCmdBeginQuery");
    d->calls.CmdBeginQuery(handle, pool, query, flags);
}

VKAPI_ATTR void VKAPI_CALL capture_CmdEndQuery(VkCommandBuffer handle, VkQueryPool pool, uint32_t query)
{
    struct device *d = device_of(handle);
    use_queries(d, handle, pool, query, 1, LATE, "vkCmdEndQuery");
    d->calls.CmdEndQuery(handle, pool, query);
}

VKAPI_ATTR void VKAPI_CALL capture_CmdWriteTimestamp(VkCommandBuffer handle, VkPipelineStageFlagBits stage,
                                                     VkQueryPool pool, uint32_t query)
{
    struct device *d = device_of(handle);
    use_queries(d, handle, pool, query, 1, COPY, "vkCmdWriteTimestamp");
    d->calls.CmdWriteTimestamp(handle, stage, pool, query);
}

VKAPI_ATTR void VKAPI_CALL capture_CmdWriteTimestamp2(VkCommandBuffer handle, VkPipelineStageFlags2 stage,
                                                      VkQueryPool pool, uint32_t query)
{
    struct device *d = device_of(handle);
    use_queries(d, handle, pool, query, 1, COPY, "vkCmdWriteTimestamp2");
    d->calls.CmdWriteTimestamp2(handle, stage, pool, query);
}

VKAPI_ATTR void VKAPI_CALL capture_CmdCopyQueryPoolResults(VkCommandBuffer handle, VkQueryPool pool, uint32_t first,
                                                           uint32_t count, VkBuffer buffer, VkDeviceSize offset,
                                                           VkDeviceSize stride, VkQueryResultFlags flags)
{
    struct device *d = device_of(handle);
    struct commands *l = begin_command(d, handle, "vkCmdCopyQueryPoolResults");
    uint64_t size = flags & VK_QUERY_RESULT_64_BIT ? sizeof(uint64_t) : sizeof(uint32_t);
    if (l && count > 0) {
        touch(l, find(d, KEY(pool)), false, first, count, COPY);
        touch(l, find(d, KEY(buffer)), true, offset, stride == size ? count * size : size, COPY | WRITE);
        if (stride != size)
            count_unseen(UNSEEN_PARTS);
    }
    end_command();
    d->calls.CmdCopyQueryPoolResults(handle, pool, first, count, buffer, offset, stride, flags);
}
