/* What the capture has names for: how they come and go. */
#include "capture.h"

#include <stdlib.h>
#include <string.h>

/* Names whose end isn't written yet: a batch that is held back may have them. */
static struct text ends;
static bool are_distrusted;

struct thing *new_thing(struct device *d, enum letter letter, uint64_t key, uint64_t value, const char *call)
{
    static unsigned numbers[128];
    struct thing *t = is_recording() ? get(1, sizeof *t) : NULL;
    if (!t)
        return NULL;
    if (key && !table_put(&d->tables[THINGS], key, t)) {
        free(t);
        lose_capture("no memory");
        return NULL;
    }
    t->letter = letter;
    t->number = numbers[letter]++;
    t->size = value;
    t->top = value;
    t->seen = value;
    t->next = d->things;
    if (t->next)
        t->next->previous = t;
    d->things = t;
    static const char *const words[128] = {[RESOURCE] = "resource", [TIMELINE] = "timeline", [BINARY] = "binary",
                                           [FENCE] = "fence",       [EVENT] = "event",       [QUEUE] = "queue"};
    if (letter == RESOURCE || letter == TIMELINE)
        write_line("%s %c%u %llu # %s\n", words[letter], letter, t->number, (unsigned long long)value, call);
    else
        write_line("%s %c%u # %s\n", words[letter], letter, t->number, call);
    return t;
}

static uint32_t aspects_of(VkFormat format)
{
    if (format >= VK_FORMAT_G8B8G8R8_422_UNORM && format <= VK_FORMAT_G16_B16_R16_3PLANE_444_UNORM)
        return 3;
    bool is_both = format == VK_FORMAT_D16_UNORM_S8_UINT || format == VK_FORMAT_D24_UNORM_S8_UINT
                   || format == VK_FORMAT_D32_SFLOAT_S8_UINT;
    return is_both ? 2 : 1;
}

struct thing *new_image(struct device *d, uint64_t key, VkFormat format, VkExtent3D extent, uint32_t levels,
                        uint32_t layers, const char *call)
{
    uint32_t aspects = aspects_of(format);
    uint64_t units = (uint64_t)extent.width * extent.height * extent.depth * levels * layers * aspects;
    struct thing *t = new_thing(d, RESOURCE, key, units, call);
    if (!t)
        return NULL;
    t->is_image = true;
    t->format = format;
    t->extent = extent;
    t->levels = levels;
    t->layers = layers;
    t->aspects = aspects;
    write_line("# R%u is an image of %u x %u x %u, format %d, %u levels, %u layers\n", t->number, extent.width,
               extent.height, extent.depth, (int)format, levels, layers);
    return t;
}

struct thing *find(struct device *d, uint64_t key)
{
    return key ? table_get(&d->tables[THINGS], key) : NULL;
}

struct thing *queue_of(struct device *d, VkQueue queue)
{
    struct thing *t = find(d, KEY(queue));
    return t ? t : new_thing(d, QUEUE, KEY(queue), 0, "a queue");
}

/* Takes a thing out of those that are there. */
static void put_by(struct device *d, struct thing *t)
{
    if (t->previous)
        t->previous->next = t->next;
    else
        d->things = t->next;
    if (t->next)
        t->next->previous = t->previous;
    t->next = d->gone;
    d->gone = t;
    t->is_gone = true;
}

void end_thing(struct device *d, uint64_t key, const char *call)
{
    struct thing *t = key ? table_take(&d->tables[THINGS], key) : NULL;
    if (!t)
        return;
    put_by(d, t);
    if (!is_recording())
        return;
    if (t->letter == RESOURCE && !t->is_swapped && !are_distrusted)
        write_host_line("write R%u 0 %llu # %s\n", t->number, (unsigned long long)t->size, call);
    say(&ends, "gone %c%u # %s\n", t->letter, t->number, call);
    write_ends();
}

void distrust_ends(void)
{
    are_distrusted = true;
    count_unseen(UNSEEN_EXPORTS);
}

void write_ends(void)
{
    if (held_batches() > 0)
        return;
    if (ends.size > 0)
        write_text(&ends);
    ends.size = 0;
}

static void free_all(struct device *d, enum kind kind)
{
    struct table *table = &d->tables[kind];
    for (size_t i = 0; i < table->room; i++) {
        if (table->keys[i] <= 1)
            continue;
        if (kind == COMMANDS)
            free_commands(table->values[i]);
        else if (kind == SETS || kind == SET_LAYOUTS)
            free_set(table->values[i]);
        else if (kind == MODULES || kind == PIPELINES)
            free_pipeline(table->values[i]);
        else if (kind == PASSES)
            free_pass(table->values[i]);
        else if (kind != THINGS)
            free(table->values[i]);
    }
    table_free(table);
}

void free_device(struct device *d)
{
    for (enum kind kind = 0; kind < KINDS; kind++)
        free_all(d, kind);
    for (struct thing *t = d->things, *next; t; t = next) {
        next = t->next;
        free(t);
    }
    for (struct thing *t = d->gone, *next; t; t = next) {
        next = t->next;
        free(t);
    }
}

/* Calls ---------------------------------------------------------------------------------------------------------- */

/* What a call made, where the driver made it. */
static void made(struct device *d, VkResult result, enum letter letter, uint64_t key, uint64_t value, const char *call)
{
    lock_recorder();
    if (result == VK_SUCCESS)
        new_thing(d, letter, key, value, call);
    unlock_recorder();
}

static void ended(struct device *d, uint64_t key, const char *call)
{
    lock_recorder();
    end_thing(d, key, call);
    unlock_recorder();
}

VKAPI_ATTR VkResult VKAPI_CALL capture_CreateBuffer(VkDevice device, const VkBufferCreateInfo *info,
                                                    const VkAllocationCallbacks *allocator, VkBuffer *buffer)
{
    struct device *d = device_of(device);
    VkResult result = d->calls.CreateBuffer(device, info, allocator, buffer);
    made(d, result, RESOURCE, result ? 0 : KEY(*buffer), info->size, "vkCreateBuffer");
    return result;
}

VKAPI_ATTR VkResult VKAPI_CALL capture_CreateImage(VkDevice device, const VkImageCreateInfo *info,
                                                   const VkAllocationCallbacks *allocator, VkImage *image)
{
    struct device *d = device_of(device);
    VkResult result = d->calls.CreateImage(device, info, allocator, image);
    lock_recorder();
    if (result == VK_SUCCESS)
        new_image(d, KEY(*image), info->format, info->extent, info->mipLevels, info->arrayLayers, "vkCreateImage");
    unlock_recorder();
    return result;
}

VKAPI_ATTR VkResult VKAPI_CALL capture_CreateSemaphore(VkDevice device, const VkSemaphoreCreateInfo *info,
                                                       const VkAllocationCallbacks *allocator, VkSemaphore *semaphore)
{
    struct device *d = device_of(device);
    VkResult result = d->calls.CreateSemaphore(device, info, allocator, semaphore);
    const VkSemaphoreTypeCreateInfo *type = in_chain(info->pNext, VK_STRUCTURE_TYPE_SEMAPHORE_TYPE_CREATE_INFO);
    bool is_timeline = type && type->semaphoreType == VK_SEMAPHORE_TYPE_TIMELINE;
    made(d, result, is_timeline ? TIMELINE : BINARY, result ? 0 : KEY(*semaphore), is_timeline ? type->initialValue : 0,
         "vkCreateSemaphore");
    return result;
}

VKAPI_ATTR VkResult VKAPI_CALL capture_CreateFence(VkDevice device, const VkFenceCreateInfo *info,
                                                   const VkAllocationCallbacks *allocator, VkFence *fence)
{
    struct device *d = device_of(device);
    VkResult result = d->calls.CreateFence(device, info, allocator, fence);
    made(d, result, FENCE, result ? 0 : KEY(*fence), 0, "vkCreateFence");
    return result;
}

VKAPI_ATTR VkResult VKAPI_CALL capture_CreateEvent(VkDevice device, const VkEventCreateInfo *info,
                                                   const VkAllocationCallbacks *allocator, VkEvent *event)
{
    struct device *d = device_of(device);
    VkResult result = d->calls.CreateEvent(device, info, allocator, event);
    made(d, result, EVENT, result ? 0 : KEY(*event), 0, "vkCreateEvent");
    return result;
}

VKAPI_ATTR VkResult VKAPI_CALL capture_CreateQueryPool(VkDevice device, const VkQueryPoolCreateInfo *info,
                                                       const VkAllocationCallbacks *allocator, VkQueryPool *pool)
{
    struct device *d = device_of(device);
    VkResult result = d->calls.CreateQueryPool(device, info, allocator, pool);
    made(d, result, RESOURCE, result ? 0 : KEY(*pool), info->queryCount, "vkCreateQueryPool");
    return result;
}

#define ENDS(name, type)                                                                                            \
    VKAPI_ATTR void VKAPI_CALL capture_##name(VkDevice device, type handle, const VkAllocationCallbacks *allocator) \
    {                                                                                                               \
        struct device *d = device_of(device);                                                                       \
        ended(d, KEY(handle), "vk" #name);                                                                          \
        d->calls.name(device, handle, allocator);                                                                   \
    }
ENDS(DestroyBuffer, VkBuffer)
ENDS(DestroyImage, VkImage)
ENDS(DestroySemaphore, VkSemaphore)
ENDS(DestroyFence, VkFence)
ENDS(DestroyEvent, VkEvent)
ENDS(DestroyQueryPool, VkQueryPool)

/* Views ---------------------------------------------------------------------------------------------------------- */

static void keep_view(struct device *d, uint64_t key, struct view view)
{
    struct view *v = is_recording() && view.thing ? get(1, sizeof *v) : NULL;
    if (!v)
        return;
    *v = view;
    free(table_take(&d->tables[VIEWS], key));
    if (!table_put(&d->tables[VIEWS], key, v))
        free(v);
}

static void end_view(struct device *d, uint64_t key)
{
    lock_recorder();
    free(key ? table_take(&d->tables[VIEWS], key) : NULL);
    unlock_recorder();
}

VKAPI_ATTR VkResult VKAPI_CALL capture_CreateImageView(VkDevice device, const VkImageViewCreateInfo *info,
                                                       const VkAllocationCallbacks *allocator, VkImageView *view)
{
    struct device *d = device_of(device);
    VkResult result = d->calls.CreateImageView(device, info, allocator, view);
    if (result != VK_SUCCESS)
        return result;
    lock_recorder();
    struct view v = {.thing = find(d, KEY(info->image)), .range = info->subresourceRange};
    if (v.thing && v.thing->extent.depth > 1) {
        v.is_slice = info->viewType != VK_IMAGE_VIEW_TYPE_3D;
        v.range.baseArrayLayer = 0;
        v.range.layerCount = 1;
    }
    keep_view(d, KEY(*view), v);
    unlock_recorder();
    return result;
}

VKAPI_ATTR VkResult VKAPI_CALL capture_CreateBufferView(VkDevice device, const VkBufferViewCreateInfo *info,
                                                        const VkAllocationCallbacks *allocator, VkBufferView *view)
{
    struct device *d = device_of(device);
    VkResult result = d->calls.CreateBufferView(device, info, allocator, view);
    if (result != VK_SUCCESS)
        return result;
    lock_recorder();
    keep_view(d, KEY(*view),
              (struct view){.thing = find(d, KEY(info->buffer)), .offset = info->offset, .size = info->range});
    unlock_recorder();
    return result;
}

VKAPI_ATTR void VKAPI_CALL capture_DestroyImageView(VkDevice device, VkImageView view,
                                                    const VkAllocationCallbacks *allocator)
{
    struct device *d = device_of(device);
    end_view(d, KEY(view));
    d->calls.DestroyImageView(device, view, allocator);
}

VKAPI_ATTR void VKAPI_CALL capture_DestroyBufferView(VkDevice device, VkBufferView view,
                                                     const VkAllocationCallbacks *allocator)
{
    struct device *d = device_of(device);
    end_view(d, KEY(view));
    d->calls.DestroyBufferView(device, view, allocator);
}
