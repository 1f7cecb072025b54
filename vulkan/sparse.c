/* Sparse binds: copied as the client gave them, and the driver's call for one. */
#include "device.h"

#include <stdlib.h>
#include <string.h>

/* Memory for a copy that is measured first: with no memory a piece is only counted. */
struct measure {
    char *memory;
    size_t size;
};

static void *piece(struct measure *m, const void *from, size_t size)
{
    void *to = m->memory ? m->memory + m->size : NULL;
    m->size += (size + 15) & ~(size_t)15;
    if (to && from)
        memcpy(to, from, size);
    return to;
}

/* The whole of an info but its semaphores; NULL while it is measured. */
static VkBindSparseInfo *copy_info(struct measure *m, const VkBindSparseInfo *info)
{
    VkBindSparseInfo *to = piece(m, info, sizeof *info);
    VkSparseBufferMemoryBindInfo *buffers =
        piece(m, info->pBufferBinds, info->bufferBindCount * sizeof *info->pBufferBinds);
    for (uint32_t i = 0; i < info->bufferBindCount; i++) {
        const VkSparseBufferMemoryBindInfo *from = &info->pBufferBinds[i];
        void *binds = piece(m, from->pBinds, from->bindCount * sizeof *from->pBinds);
        if (buffers)
            buffers[i].pBinds = binds;
    }
    VkSparseImageOpaqueMemoryBindInfo *opaque =
        piece(m, info->pImageOpaqueBinds, info->imageOpaqueBindCount * sizeof *info->pImageOpaqueBinds);
    for (uint32_t i = 0; i < info->imageOpaqueBindCount; i++) {
        const VkSparseImageOpaqueMemoryBindInfo *from = &info->pImageOpaqueBinds[i];
        void *binds = piece(m, from->pBinds, from->bindCount * sizeof *from->pBinds);
        if (opaque)
            opaque[i].pBinds = binds;
    }
    VkSparseImageMemoryBindInfo *images =
        piece(m, info->pImageBinds, info->imageBindCount * sizeof *info->pImageBinds);
    for (uint32_t i = 0; i < info->imageBindCount; i++) {
        const VkSparseImageMemoryBindInfo *from = &info->pImageBinds[i];
        void *binds = piece(m, from->pBinds, from->bindCount * sizeof *from->pBinds);
        if (images)
            images[i].pBinds = binds;
    }
    VkDeviceGroupBindSparseInfo *group = in_chain(info->pNext, VK_STRUCTURE_TYPE_DEVICE_GROUP_BIND_SPARSE_INFO);
    VkDeviceGroupBindSparseInfo *kept = group ? piece(m, group, sizeof *group) : NULL;
    if (!to)
        return NULL;
    if (kept)
        kept->pNext = NULL;
    to->pNext = kept;
    to->pBufferBinds = buffers;
    to->pImageOpaqueBinds = opaque;
    to->pImageBinds = images;
    return to;
}

static void value_marks(struct mark *marks, uint32_t count, const VkSemaphore *semaphores, const uint64_t *values,
                        uint32_t value_count)
{
    for (uint32_t i = 0; i < count; i++) {
        marks[i].semaphore = semaphores[i];
        marks[i].stages = VK_PIPELINE_STAGE_2_ALL_COMMANDS_BIT;
        if (i < value_count)
            marks[i].value = values[i];
    }
}

struct batch *copy_sparse(struct queue *q, const VkBindSparseInfo *info)
{
    const VkTimelineSemaphoreSubmitInfo *values =
        in_chain(info->pNext, VK_STRUCTURE_TYPE_TIMELINE_SEMAPHORE_SUBMIT_INFO);
    struct measure m = {NULL, 0};
    uint32_t waits = info->waitSemaphoreCount, signals = info->signalSemaphoreCount;
    for (;;) {
        m.size = 0;
        struct batch *b = piece(&m, NULL, sizeof *b);
        struct mark *marks = piece(&m, NULL, (waits + signals) * sizeof *marks);
        struct vq_layer_point *points = piece(&m, NULL, (waits + signals) * sizeof *points);
        const VkBindSparseInfo *copy = copy_info(&m, info);
        if (!m.memory) {
            m.memory = calloc(1, m.size);
            if (!m.memory)
                return NULL;
            continue;
        }
        *b = (struct batch){.form = FORM_SPARSE, .queue = q, .waits = marks, .signals = marks + waits,
                            .wait_count = waits, .signal_count = signals, .points = points, .sparse = copy};
        value_marks(b->waits, waits, info->pWaitSemaphores, values ? values->pWaitSemaphoreValues : NULL,
                    values ? values->waitSemaphoreValueCount : 0);
        value_marks(b->signals, signals, info->pSignalSemaphores, values ? values->pSignalSemaphoreValues : NULL,
                    values ? values->signalSemaphoreValueCount : 0);
        return b;
    }
}

static uint32_t binary_ones(const struct mark *marks, uint32_t count, VkSemaphore *to)
{
    uint32_t found = 0;
    for (uint32_t i = 0; i < count; i++)
        if (!marks[i].timeline || marks[i].timeline->is_binary)
            to[found++] = marks[i].semaphore;
    return found;
}

VkResult call_sparse(struct device *d, const struct batch *b, const struct mark *waits, uint32_t wait_count,
                     VkFence fence)
{
    VkSemaphore before[b->wait_count + wait_count + 1], after[b->signal_count + 1];
    VkBindSparseInfo info = *b->sparse;
    uint32_t own = binary_ones(b->waits, b->wait_count, before);
    info.waitSemaphoreCount = own + binary_ones(waits, wait_count, before + own);
    info.pWaitSemaphores = before;
    info.signalSemaphoreCount = binary_ones(b->signals, b->signal_count, after);
    info.pSignalSemaphores = after;
    return d->next.QueueBindSparse(b->queue->handle, 1, &info, fence);
}
