/* Dispatches and draws: shaders through descriptors, and vertex, index and indirect buffers.
 *
 * The vertices of a draw without indices are those that it names; which ones indices name isn't known. */
#include "capture.h"

#include <stdlib.h>

VKAPI_ATTR void VKAPI_CALL capture_CmdBindPipeline(VkCommandBuffer handle, VkPipelineBindPoint point,
                                                   VkPipeline pipeline)
{
    struct device *d = device_of(handle);
    struct commands *l = begin_state(d, handle, "vkCmdBindPipeline");
    if (l && (unsigned)point < POINTS)
        l->pipeline[point] = KEY(pipeline);
    end_command();
    d->calls.CmdBindPipeline(handle, point, pipeline);
}

static void bind_vertices(struct commands *l, uint32_t first, uint32_t count, const VkBuffer *buffers,
                          const VkDeviceSize *offsets, const VkDeviceSize *strides)
{
    for (uint32_t i = 0; l && i < count && first + i < MOST_VERTEX_BUFFERS; i++) {
        struct vertex_buffer *b = &l->vertex_buffers[first + i];
        b->thing = find(l->device, KEY(buffers[i]));
        b->offset = offsets[i];
        if (strides)
            b->stride = strides[i];
    }
}

VKAPI_ATTR void VKAPI_CALL capture_CmdBindVertexBuffers(VkCommandBuffer handle, uint32_t first, uint32_t count,
                                                        const VkBuffer *buffers, const VkDeviceSize *offsets)
{
    struct device *d = device_of(handle);
    bind_vertices(begin_state(d, handle, "vkCmdBindVertexBuffers"), first, count, buffers, offsets, NULL);
    end_command();
    d->calls.CmdBindVertexBuffers(handle, first, count, buffers, offsets);
}

VKAPI_ATTR void VKAPI_CALL capture_CmdBindVertexBuffers2(VkCommandBuffer handle, uint32_t first, uint32_t count,
                                                         const VkBuffer *buffers, const VkDeviceSize *offsets,
                                                         const VkDeviceSize *sizes, const VkDeviceSize *strides)
{
    struct device *d = device_of(handle);
    bind_vertices(begin_state(d, handle, "vkCmdBindVertexBuffers2"), first, count, buffers, offsets, strides);
    end_command();
    d->calls.CmdBindVertexBuffers2(handle, first, count, buffers, offsets, sizes, strides);
}

VKAPI_ATTR void VKAPI_CALL capture_CmdSetVertexInputEXT(VkCommandBuffer handle, uint32_t count,
                                                        const VkVertexInputBindingDescription2EXT *bindings,
                                                        uint32_t attribute_count,
                                                        const VkVertexInputAttributeDescription2EXT *attributes)
{
    struct device *d = device_of(handle);
    struct commands *l = begin_state(d, handle, "vkCmdSetVertexInputEXT");
    if (l) {
        free(l->inputs);
        l->inputs = get(count, sizeof *l->inputs);
        l->input_count = l->inputs ? count : 0;
        for (uint32_t i = 0; i < l->input_count; i++)
            l->inputs[i] = (struct vertex_input){bindings[i].binding, bindings[i].stride,
                                                 bindings[i].inputRate == VK_VERTEX_INPUT_RATE_INSTANCE, true};
    }
    end_command();
    d->calls.CmdSetVertexInputEXT(handle, count, bindings, attribute_count, attributes);
}

VKAPI_ATTR void VKAPI_CALL capture_CmdBindIndexBuffer(VkCommandBuffer handle, VkBuffer buffer, VkDeviceSize offset,
                                                      VkIndexType type)
{
    struct device *d = device_of(handle);
    struct commands *l = begin_state(d, handle, "vkCmdBindIndexBuffer");
    uint64_t size = type == VK_INDEX_TYPE_UINT32 ? 4 : type == VK_INDEX_TYPE_UINT16 ? 2 : 1;
    if (l)
        l->index = (struct vertex_buffer){find(d, KEY(buffer)), offset, size};
    end_command();
    d->calls.CmdBindIndexBuffer(handle, buffer, offset, type);
}

/* What a draw reads of the bound buffers: `count` vertices from `first` on, or none where that isn't known. */
static void read_vertices(struct commands *l, uint32_t first, uint32_t count)
{
    const struct pipeline *p = l && l->pipeline[0] ? table_get(&l->device->tables[PIPELINES], l->pipeline[0]) : NULL;
    const struct vertex_input *inputs = p && p->inputs ? p->inputs : l ? l->inputs : NULL;
    uint32_t input_count = p && p->inputs ? p->input_count : l ? l->input_count : 0;
    for (uint32_t i = 0; i < input_count; i++) {
        if (inputs[i].binding >= MOST_VERTEX_BUFFERS || inputs[i].is_instanced)
            continue;
        const struct vertex_buffer *b = &l->vertex_buffers[inputs[i].binding];
        uint64_t stride = inputs[i].has_stride ? inputs[i].stride : b->stride;
        touch(l, b->thing, false, b->offset + first * stride, count * stride, INPUT | ATTRIBUTE);
    }
}

static void read_indices(struct commands *l, uint32_t first, uint32_t count)
{
    if (!l)
        return;
    touch(l, l->index.thing, false, l->index.offset + first * l->index.stride, count * l->index.stride, INPUT | INDEX);
    count_unseen(UNSEEN_VERTICES);
}

VKAPI_ATTR void VKAPI_CALL capture_CmdDraw(VkCommandBuffer handle, uint32_t vertices, uint32_t instances,
                                           uint32_t first_vertex, uint32_t first_instance)
{
    struct device *d = device_of(handle);
    struct commands *l = begin_command(d, handle, "vkCmdDraw");
    if (vertices > 0 && instances > 0) {
        read_vertices(l, first_vertex, vertices);
        run_shaders(l, VK_PIPELINE_BIND_POINT_GRAPHICS);
    }
    end_command();
    d->calls.CmdDraw(handle, vertices, instances, first_vertex, first_instance);
}

VKAPI_ATTR void VKAPI_CALL capture_CmdDrawIndexed(VkCommandBuffer handle, uint32_t indices, uint32_t instances,
                                                  uint32_t first_index, int32_t vertex, uint32_t first_instance)
{
    struct device *d = device_of(handle);
    struct commands *l = begin_command(d, handle, "vkCmdDrawIndexed");
    if (indices > 0 && instances > 0) {
        read_indices(l, first_index, indices);
        run_shaders(l, VK_PIPELINE_BIND_POINT_GRAPHICS);
    }
    end_command();
    d->calls.CmdDrawIndexed(handle, indices, instances, first_index, vertex, first_instance);
}

VKAPI_ATTR void VKAPI_CALL capture_CmdDrawMultiEXT(VkCommandBuffer handle, uint32_t count,
                                                   const VkMultiDrawInfoEXT *draws, uint32_t instances,
                                                   uint32_t first_instance, uint32_t stride)
{
    struct device *d = device_of(handle);
    struct commands *l = begin_command(d, handle, "vkCmdDrawMultiEXT");
    for (uint32_t i = 0; instances > 0 && i < count; i++) {
        const VkMultiDrawInfoEXT *draw = (const void *)((const char *)draws + (size_t)i * stride);
        read_vertices(l, draw->firstVertex, draw->vertexCount);
    }
    if (count > 0 && instances > 0)
        run_shaders(l, VK_PIPELINE_BIND_POINT_GRAPHICS);
    end_command();
    d->calls.CmdDrawMultiEXT(handle, count, draws, instances, first_instance, stride);
}

VKAPI_ATTR void VKAPI_CALL capture_CmdDrawMultiIndexedEXT(VkCommandBuffer handle, uint32_t count,
                                                          const VkMultiDrawIndexedInfoEXT *draws, uint32_t instances,
                                                          uint32_t first_instance, uint32_t stride,
                                                          const int32_t *offset)
{
    struct device *d = device_of(handle);
    struct commands *l = begin_command(d, handle, "vkCmdDrawMultiIndexedEXT");
    for (uint32_t i = 0; instances > 0 && i < count; i++) {
        const VkMultiDrawIndexedInfoEXT *draw = (const void *)((const char *)draws + (size_t)i * stride);
        read_indices(l, draw->firstIndex, draw->indexCount);
    }
    if (count > 0 && instances > 0)
        run_shaders(l, VK_PIPELINE_BIND_POINT_GRAPHICS);
    end_command();
    d->calls.CmdDrawMultiIndexedEXT(handle, count, draws, instances, first_instance, stride, offset);
}

/* Indirect draws: `size` bytes at `offset`, and again after each `stride` of them. */
static void read_indirect(struct commands *l, VkBuffer buffer, uint64_t offset, uint64_t size, uint32_t count,
                          uint32_t stride)
{
    const struct thing *t = l ? find(l->device, KEY(buffer)) : NULL;
    if (l && count > 0)
        touch(l, t, false, offset, stride == size ? count * size : size, INDIRECT | READ);
    if (l && count > 1 && stride != size)
        count_unseen(UNSEEN_PARTS);
    if (l && count > 0) {
        count_unseen(UNSEEN_VERTICES);
        run_shaders(l, VK_PIPELINE_BIND_POINT_GRAPHICS);
    }
}

VKAPI_ATTR void VKAPI_CALL capture_CmdDrawIndirect(VkCommandBuffer handle, VkBuffer buffer, VkDeviceSize offset,
                                                   uint32_t count, uint32_t stride)
{
    struct device *d = device_of(handle);
    read_indirect(begin_command(d, handle, "vkCmdDrawIndirect"), buffer, offset, sizeof(VkDrawIndirectCommand), count,
                  stride);
    end_command();
    d->calls.CmdDrawIndirect(handle, buffer, offset, count, stride);
}

VKAPI_ATTR void VKAPI_CALL capture_CmdDrawIndexedIndirect(VkCommandBuffer handle, VkBuffer buffer, VkDeviceSize offset,
                                                          uint32_t count, uint32_t stride)
{
    struct device *d = device_of(handle);
    read_indirect(begin_command(d, handle, "vkCmdDrawIndexedIndirect"), buffer, offset,
                  sizeof(VkDrawIndexedIndirectCommand), count, stride);
    end_command();
    d->calls.CmdDrawIndexedIndirect(handle, buffer, offset, count, stride);
}

static void read_count(struct commands *l, VkBuffer buffer, uint64_t offset)
{
    if (!l)
        return;
    touch(l, find(l->device, KEY(buffer)), false, offset, sizeof(uint32_t), INDIRECT | READ);
    count_unseen(UNSEEN_COUNTS);
}

VKAPI_ATTR void VKAPI_CALL capture_CmdDrawIndirectCount(VkCommandBuffer handle, VkBuffer buffer, VkDeviceSize offset,
                                                        VkBuffer counts, VkDeviceSize at, uint32_t most,
                                                        uint32_t stride)
{
    struct device *d = device_of(handle);
    read_count(begin_command(d, handle, "vkCmdDrawIndirectCount"), counts, at);
    end_command();
    d->calls.CmdDrawIndirectCount(handle, buffer, offset, counts, at, most, stride);
}

VKAPI_ATTR void VKAPI_CALL capture_CmdDrawIndexedIndirectCount(VkCommandBuffer handle, VkBuffer buffer,
                                                               VkDeviceSize offset, VkBuffer counts, VkDeviceSize at,
                                                               uint32_t most, uint32_t stride)
{
    struct device *d = device_of(handle);
    read_count(begin_command(d, handle, "vkCmdDrawIndexedIndirectCount"), counts, at);
    end_command();
    d->calls.CmdDrawIndexedIndirectCount(handle, buffer, offset, counts, at, most, stride);
}

VKAPI_ATTR void VKAPI_CALL capture_CmdDrawMeshTasksEXT(VkCommandBuffer handle, uint32_t x, uint32_t y, uint32_t z)
{
    struct device *d = device_of(handle);
    struct commands *l = begin_command(d, handle, "vkCmdDrawMeshTasksEXT");
    if (x > 0 && y > 0 && z > 0)
        run_shaders(l, VK_PIPELINE_BIND_POINT_GRAPHICS);
    end_command();
    d->calls.CmdDrawMeshTasksEXT(handle, x, y, z);
}

VKAPI_ATTR void VKAPI_CALL capture_CmdDrawMeshTasksIndirectEXT(VkCommandBuffer handle, VkBuffer buffer,
                                                               VkDeviceSize offset, uint32_t count, uint32_t stride)
{
    struct device *d = device_of(handle);
    read_indirect(begin_command(d, handle, "vkCmdDrawMeshTasksIndirectEXT"), buffer, offset,
                  sizeof(VkDrawMeshTasksIndirectCommandEXT), count, stride);
    end_command();
    d->calls.CmdDrawMeshTasksIndirectEXT(handle, buffer, offset, count, stride);
}

VKAPI_ATTR void VKAPI_CALL capture_CmdDrawIndirectByteCountEXT(VkCommandBuffer handle, uint32_t instances,
                                                               uint32_t first_instance, VkBuffer counter,
                                                               VkDeviceSize at, uint32_t offset, uint32_t stride)
{
    struct device *d = device_of(handle);
    read_count(begin_command(d, handle, "vkCmdDrawIndirectByteCountEXT"), counter, at);
    end_command();
    d->calls.CmdDrawIndirectByteCountEXT(handle, instances, first_instance, counter, at, offset, stride);
}

/* Dispatches ----------------------------------------------------------------------------------------------------- */

VKAPI_ATTR void VKAPI_CALL capture_CmdDispatch(VkCommandBuffer handle, uint32_t x, uint32_t y, uint32_t z)
{
    struct device *d = device_of(handle);
    struct commands *l = begin_command(d, handle, "vkCmdDispatch");
    if (x > 0 && y > 0 && z > 0)
        run_shaders(l, VK_PIPELINE_BIND_POINT_COMPUTE);
    end_command();
    d->calls.CmdDispatch(handle, x, y, z);
}

VKAPI_ATTR void VKAPI_CALL capture_CmdDispatchBase(VkCommandBuffer handle, uint32_t first_x, uint32_t first_y,
                                                   uint32_t first_z, uint32_t x, uint32_t y, uint32_t z)
{
    struct device *d = device_of(handle);
    struct commands *l = begin_command(d, handle, "vkCmdDispatchBase");
    if (x > 0 && y > 0 && z > 0)
        run_shaders(l, VK_PIPELINE_BIND_POINT_COMPUTE);
    end_command();
    d->calls.CmdDispatchBase(handle, first_x, first_y, first_z, x, y, z);
}

VKAPI_ATTR void VKAPI_CALL capture_CmdDispatchIndirect(VkCommandBuffer handle, VkBuffer buffer, VkDeviceSize offset)
{
    struct device *d = device_of(handle);
    struct commands *l = begin_command(d, handle, "vkCmdDispatchIndirect");
    touch(l, find(d, KEY(buffer)), false, offset, sizeof(VkDispatchIndirectCommand), INDIRECT | READ);
    run_shaders(l, VK_PIPELINE_BIND_POINT_COMPUTE);
    end_command();
    d->calls.CmdDispatchIndirect(handle, buffer, offset);
}

VKAPI_ATTR void VKAPI_CALL capture_CmdTraceRaysKHR(VkCommandBuffer handle,
                                                   const VkStridedDeviceAddressRegionKHR *generation,
                                                   const VkStridedDeviceAddressRegionKHR *miss,
                                                   const VkStridedDeviceAddressRegionKHR *hit,
                                                   const VkStridedDeviceAddressRegionKHR *callable, uint32_t width,
                                                   uint32_t height, uint32_t depth)
{
    struct device *d = device_of(handle);
    if (begin_command(d, handle, "vkCmdTraceRaysKHR"))
        count_unseen(UNSEEN_TRACING);
    end_command();
    d->calls.CmdTraceRaysKHR(handle, generation, miss, hit, callable, width, height, depth);
}

VKAPI_ATTR void VKAPI_CALL capture_CmdBuildAccelerationStructuresKHR(
    VkCommandBuffer handle, uint32_t count, const VkAccelerationStructureBuildGeometryInfoKHR *infos,
    const VkAccelerationStructureBuildRangeInfoKHR *const *ranges)
{
    struct device *d = device_of(handle);
    if (begin_command(d, handle, "vkCmdBuildAccelerationStructuresKHR"))
        count_unseen(UNSEEN_TRACING);
    end_command();
    d->calls.CmdBuildAccelerationStructuresKHR(handle, count, infos, ranges);
}
