/* Command buffers: how they come, begin and go. */
#include "capture.h"

#include <stdlib.h>
#include <string.h>

static struct commands *commands_of(struct device *d, VkCommandBuffer handle)
{
    static uint32_t numbers;
    struct commands *l = is_recording() ? table_get(&d->tables[COMMANDS], KEY(handle)) : NULL;
    if (l || !is_recording())
        return l;
    l = get(1, sizeof *l);
    if (!l)
        return NULL;
    if (!table_put(&d->tables[COMMANDS], KEY(handle), l)) {
        free(l);
        lose_capture("no memory");
        return NULL;
    }
    l->device = d;
    l->number = numbers++;
    l->is_fresh = true;
    return l;
}

static void free_parts(struct commands *l)
{
    for (int point = 0; point < POINTS; point++)
        for (int i = 0; i < MOST_SETS; i++)
            if (l->pushed[point][i])
                free_set(l->pushed[point][i]);
    free(l->attached);
    free(l->inputs);
}

static void reset_commands(struct commands *l)
{
    if (!l)
        return;
    struct commands kept = *l;
    free_parts(l);
    *l = (struct commands){.device = kept.device,
                           .number = kept.number,
                           .pool = kept.pool,
                           .text = kept.text,
                           .marks = kept.marks,
                           .mark_room = kept.mark_room,
                           .is_fresh = true};
    l->text.size = 0;
}

void free_commands(struct commands *l)
{
    if (!l)
        return;
    free_parts(l);
    free(l->text.bytes);
    free(l->marks);
    free(l);
}

struct commands *begin_state(struct device *d, VkCommandBuffer handle, const char *call)
{
    lock_recorder();
    struct commands *l = commands_of(d, handle);
    if (l)
        l->call = call;
    return l;
}

struct commands *begin_command(struct device *d, VkCommandBuffer handle, const char *call)
{
    struct commands *l = begin_state(d, handle, call);
    if (l)
        begin_other_command(l);
    return l;
}

void end_command(void)
{
    unlock_recorder();
}

VKAPI_ATTR VkResult VKAPI_CALL capture_AllocateCommandBuffers(VkDevice device, const VkCommandBufferAllocateInfo *info,
                                                              VkCommandBuffer *handles)
{
    struct device *d = device_of(device);
    VkResult result = d->calls.AllocateCommandBuffers(device, info, handles);
    lock_recorder();
    for (uint32_t i = 0; result == VK_SUCCESS && i < info->commandBufferCount; i++) {
        struct commands *l = commands_of(d, handles[i]);
        reset_commands(l);
        if (l)
            l->pool = KEY(info->commandPool);
    }
    unlock_recorder();
    return result;
}

VKAPI_ATTR void VKAPI_CALL capture_FreeCommandBuffers(VkDevice device, VkCommandPool pool, uint32_t count,
                                                      const VkCommandBuffer *handles)
{
    struct device *d = device_of(device);
    lock_recorder();
    for (uint32_t i = 0; i < count; i++)
        free_commands(handles[i] ? table_take(&d->tables[COMMANDS], KEY(handles[i])) : NULL);
    unlock_recorder();
    d->calls.FreeCommandBuffers(device, pool, count, handles);
}

VKAPI_ATTR void VKAPI_CALL capture_DestroyCommandPool(VkDevice device, VkCommandPool pool,
                                                      const VkAllocationCallbacks *allocator)
{
    struct device *d = device_of(device);
    struct table *table = &d->tables[COMMANDS];
    lock_recorder();
    for (size_t i = 0; pool && i < table->room; i++) {
        struct commands *l = table->keys[i] > 1 ? table->values[i] : NULL;
        if (l && l->pool == KEY(pool))
            free_commands(table_take(table, table->keys[i]));
    }
    unlock_recorder();
    d->calls.DestroyCommandPool(device, pool, allocator);
}

VKAPI_ATTR VkResult VKAPI_CALL capture_ResetCommandPool(VkDevice device, VkCommandPool pool,
                                                        VkCommandPoolResetFlags flags)
{
    struct device *d = device_of(device);
    struct table *table = &d->tables[COMMANDS];
    lock_recorder();
    for (size_t i = 0; i < table->room; i++) {
        struct commands *l = table->keys[i] > 1 ? table->values[i] : NULL;
        if (l && l->pool == KEY(pool))
            reset_commands(l);
    }
    unlock_recorder();
    return d->calls.ResetCommandPool(device, pool, flags);
}

VKAPI_ATTR VkResult VKAPI_CALL capture_BeginCommandBuffer(VkCommandBuffer handle, const VkCommandBufferBeginInfo *info)
{
    struct device *d = device_of(handle);
    reset_commands(begin_state(d, handle, "vkBeginCommandBuffer"));
    end_command();
    return d->calls.BeginCommandBuffer(handle, info);
}

VKAPI_ATTR VkResult VKAPI_CALL capture_ResetCommandBuffer(VkCommandBuffer handle, VkCommandBufferResetFlags flags)
{
    struct device *d = device_of(handle);
    reset_commands(begin_state(d, handle, "vkResetCommandBuffer"));
    end_command();
    return d->calls.ResetCommandBuffer(handle, flags);
}

/* The secondary buffer's text comes behind what the primary one has. */
static void execute(struct commands *l, const struct commands *other)
{
    begin_other_command(l);
    for (size_t i = 0; i < other->mark_count; i++) {
        if (!has_room((void **)&l->marks, &l->mark_room, l->mark_count, sizeof *l->marks))
            return;
        l->marks[l->mark_count] = other->marks[i];
        l->marks[l->mark_count++].at += l->text.size;
    }
    append(&l->text, other->text.bytes, other->text.size);
    l->is_fresh = false;
    l->recent_count = 0;
}

VKAPI_ATTR void VKAPI_CALL capture_CmdExecuteCommands(VkCommandBuffer handle, uint32_t count,
                                                      const VkCommandBuffer *others)
{
    struct device *d = device_of(handle);
    struct commands *l = begin_state(d, handle, "vkCmdExecuteCommands");
    for (uint32_t i = 0; l && i < count; i++) {
        const struct commands *other = commands_of(d, others[i]);
        if (other && other != l)
            execute(l, other);
    }
    end_command();
    d->calls.CmdExecuteCommands(handle, count, others);
}
