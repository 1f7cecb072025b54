/* Descriptor sets: their layouts, and what is written into them. What a set has is read when a command that uses it is
 * recorded; what is written into it afterwards isn't seen by that command. */
#include "capture.h"

#include <stdlib.h>
#include <string.h>

/* The descriptors of longer arrays aren't kept. */
enum { MOST_SLOTS = 16 };

void free_set(struct set *set)
{
    if (!set)
        return;
    for (size_t i = 0; i < set->count; i++)
        free(set->bindings[i].slots);
    free(set->bindings);
    free(set);
}

static int by_number(const void *a, const void *b)
{
    uint32_t x = ((const struct binding *)a)->number, y = ((const struct binding *)b)->number;
    return (x > y) - (x < y);
}

/* A layout is a set without slots. */
VKAPI_ATTR VkResult VKAPI_CALL capture_CreateDescriptorSetLayout(VkDevice device,
                                                                 const VkDescriptorSetLayoutCreateInfo *info,
                                                                 const VkAllocationCallbacks *allocator,
                                                                 VkDescriptorSetLayout *layout)
{
    struct device *d = device_of(device);
    VkResult result = d->calls.CreateDescriptorSetLayout(device, info, allocator, layout);
    if (result != VK_SUCCESS)
        return result;
    lock_recorder();
    struct set *s = is_recording() ? get(1, sizeof *s) : NULL;
    if (s)
        s->bindings = get(info->bindingCount, sizeof *s->bindings);
    if (s && s->bindings) {
        s->count = s->room = info->bindingCount;
        for (uint32_t i = 0; i < info->bindingCount; i++) {
            const VkDescriptorSetLayoutBinding *b = &info->pBindings[i];
            bool is_inline = b->descriptorType == VK_DESCRIPTOR_TYPE_INLINE_UNIFORM_BLOCK;
            s->bindings[i] = (struct binding){b->binding, is_inline ? 0 : b->descriptorCount, b->descriptorType, NULL};
        }
        qsort(s->bindings, s->count, sizeof *s->bindings, by_number);
        free_set(table_take(&d->tables[SET_LAYOUTS], KEY(*layout)));
    }
    if (!s || !s->bindings || !table_put(&d->tables[SET_LAYOUTS], KEY(*layout), s))
        free_set(s);
    unlock_recorder();
    return result;
}

VKAPI_ATTR void VKAPI_CALL capture_DestroyDescriptorSetLayout(VkDevice device, VkDescriptorSetLayout layout,
                                                              const VkAllocationCallbacks *allocator)
{
    struct device *d = device_of(device);
    lock_recorder();
    free_set(layout ? table_take(&d->tables[SET_LAYOUTS], KEY(layout)) : NULL);
    unlock_recorder();
    d->calls.DestroyDescriptorSetLayout(device, layout, allocator);
}

/* Sets ----------------------------------------------------------------------------------------------------------- */

static size_t slots_of(const struct binding *b)
{
    return b->count < MOST_SLOTS ? b->count : MOST_SLOTS;
}

static struct set *new_set(const struct set *layout, uint64_t pool)
{
    struct set *s = layout ? get(1, sizeof *s) : NULL;
    if (!s)
        return NULL;
    s->pool = pool;
    s->bindings = get(layout->count, sizeof *s->bindings);
    for (size_t i = 0; s->bindings && i < layout->count; i++) {
        s->bindings[i] = layout->bindings[i];
        s->bindings[i].slots = get(slots_of(&layout->bindings[i]), sizeof(struct slot));
        s->count = i + 1;
        if (!s->bindings[i].slots)
            break;
    }
    if (s->bindings && s->count == layout->count && is_recording())
        return s;
    free_set(s);
    return NULL;
}

VKAPI_ATTR VkResult VKAPI_CALL capture_AllocateDescriptorSets(VkDevice device, const VkDescriptorSetAllocateInfo *info,
                                                              VkDescriptorSet *sets)
{
    struct device *d = device_of(device);
    VkResult result = d->calls.AllocateDescriptorSets(device, info, sets);
    lock_recorder();
    for (uint32_t i = 0; result == VK_SUCCESS && is_recording() && i < info->descriptorSetCount; i++) {
        struct set *s =
            new_set(table_get(&d->tables[SET_LAYOUTS], KEY(info->pSetLayouts[i])), KEY(info->descriptorPool));
        free_set(table_take(&d->tables[SETS], KEY(sets[i])));
        if (s && !table_put(&d->tables[SETS], KEY(sets[i]), s))
            free_set(s);
    }
    unlock_recorder();
    return result;
}

VKAPI_ATTR VkResult VKAPI_CALL capture_FreeDescriptorSets(VkDevice device, VkDescriptorPool pool, uint32_t count,
                                                          const VkDescriptorSet *sets)
{
    struct device *d = device_of(device);
    lock_recorder();
    for (uint32_t i = 0; i < count; i++)
        free_set(sets[i] ? table_take(&d->tables[SETS], KEY(sets[i])) : NULL);
    unlock_recorder();
    return d->calls.FreeDescriptorSets(device, pool, count, sets);
}

static void free_sets_of(struct device *d, uint64_t pool)
{
    struct table *table = &d->tables[SETS];
    lock_recorder();
    for (size_t i = 0; pool && i < table->room; i++) {
        const struct set *s = table->keys[i] > 1 ? table->values[i] : NULL;
        if (s && s->pool == pool)
            free_set(table_take(table, table->keys[i]));
    }
    unlock_recorder();
}

VKAPI_ATTR VkResult VKAPI_CALL capture_ResetDescriptorPool(VkDevice device, VkDescriptorPool pool,
                                                           VkDescriptorPoolResetFlags flags)
{
    struct device *d = device_of(device);
    free_sets_of(d, KEY(pool));
    return d->calls.ResetDescriptorPool(device, pool, flags);
}

VKAPI_ATTR void VKAPI_CALL capture_DestroyDescriptorPool(VkDevice device, VkDescriptorPool pool,
                                                         const VkAllocationCallbacks *allocator)
{
    struct device *d = device_of(device);
    free_sets_of(d, KEY(pool));
    d->calls.DestroyDescriptorPool(device, pool, allocator);
}

/* Writes --------------------------------------------------------------------------------------------------------- */

/* What is written: one of these, by the type of the binding. */
struct written {
    const VkDescriptorImageInfo *image;
    const VkDescriptorBufferInfo *buffer;
    const VkBufferView *texels;
};

static struct view view_of(struct device *d, VkDescriptorType type, struct written w)
{
    const struct view *v = NULL;
    switch (type) {
    case VK_DESCRIPTOR_TYPE_COMBINED_IMAGE_SAMPLER:
    case VK_DESCRIPTOR_TYPE_SAMPLED_IMAGE:
    case VK_DESCRIPTOR_TYPE_STORAGE_IMAGE:
    case VK_DESCRIPTOR_TYPE_INPUT_ATTACHMENT:
        v = w.image && w.image->imageView ? table_get(&d->tables[VIEWS], KEY(w.image->imageView)) : NULL;
        break;
    case VK_DESCRIPTOR_TYPE_UNIFORM_TEXEL_BUFFER:
    case VK_DESCRIPTOR_TYPE_STORAGE_TEXEL_BUFFER:
        v = w.texels && *w.texels ? table_get(&d->tables[VIEWS], KEY(*w.texels)) : NULL;
        break;
    case VK_DESCRIPTOR_TYPE_UNIFORM_BUFFER:
    case VK_DESCRIPTOR_TYPE_STORAGE_BUFFER:
    case VK_DESCRIPTOR_TYPE_UNIFORM_BUFFER_DYNAMIC:
    case VK_DESCRIPTOR_TYPE_STORAGE_BUFFER_DYNAMIC:
        if (w.buffer)
            return (struct view){
                .thing = find(d, KEY(w.buffer->buffer)), .offset = w.buffer->offset, .size = w.buffer->range};
        break;
    default:
        break;
    }
    return v ? *v : (struct view){0};
}

/* An element behind the end of a binding's is one of the next binding (Vulkan 1.3, "Descriptor Set Updates"). */
static struct slot *slot_of(struct set *s, uint32_t number, uint32_t element)
{
    for (size_t i = 0; s && i < s->count; i++) {
        struct binding *b = &s->bindings[i];
        if (b->number < number)
            continue;
        if (element < b->count)
            return element < slots_of(b) ? &b->slots[element] : NULL;
        element -= b->count;
    }
    return NULL;
}

static void write_slot(struct device *d, struct set *s, uint32_t number, uint32_t element, VkDescriptorType type,
                       struct written w)
{
    struct slot *slot = slot_of(s, number, element);
    if (!slot)
        return;
    slot->view = view_of(d, type, w);
    slot->is_set = slot->view.thing != NULL;
}

/* `pushed` or, where it is NULL, the sets that are named. */
static void write_sets(struct device *d, struct set *pushed, uint32_t count, const VkWriteDescriptorSet *writes)
{
    for (uint32_t i = 0; i < count; i++) {
        const VkWriteDescriptorSet *w = &writes[i];
        struct set *s = pushed ? pushed : table_get(&d->tables[SETS], KEY(w->dstSet));
        bool is_inline = w->descriptorType == VK_DESCRIPTOR_TYPE_INLINE_UNIFORM_BLOCK;
        for (uint32_t k = 0; !is_inline && k < w->descriptorCount; k++)
            write_slot(d, s, w->dstBinding, w->dstArrayElement + k, w->descriptorType,
                       (struct written){w->pImageInfo ? w->pImageInfo + k : NULL,
                                        w->pBufferInfo ? w->pBufferInfo + k : NULL,
                                        w->pTexelBufferView ? w->pTexelBufferView + k : NULL});
    }
}

VKAPI_ATTR void VKAPI_CALL capture_UpdateDescriptorSets(VkDevice device, uint32_t count,
                                                        const VkWriteDescriptorSet *writes, uint32_t copy_count,
                                                        const VkCopyDescriptorSet *copies)
{
    struct device *d = device_of(device);
    lock_recorder();
    write_sets(d, NULL, count, writes);
    for (uint32_t i = 0; i < copy_count; i++) {
        const VkCopyDescriptorSet *c = &copies[i];
        struct set *from = table_get(&d->tables[SETS], KEY(c->srcSet)),
                   *to = table_get(&d->tables[SETS], KEY(c->dstSet));
        for (uint32_t k = 0; k < c->descriptorCount; k++) {
            const struct slot *source = slot_of(from, c->srcBinding, c->srcArrayElement + k);
            struct slot *target = slot_of(to, c->dstBinding, c->dstArrayElement + k);
            if (source && target)
                *target = *source;
        }
    }
    unlock_recorder();
    d->calls.UpdateDescriptorSets(device, count, writes, copy_count, copies);
}

/* Templates ------------------------------------------------------------------------------------------------------ */

struct template
{
    uint32_t count;
    VkPipelineBindPoint point;
    VkDescriptorUpdateTemplateEntry entries[];
};

VKAPI_ATTR VkResult VKAPI_CALL capture_CreateDescriptorUpdateTemplate(VkDevice device,
                                                                      const VkDescriptorUpdateTemplateCreateInfo *info,
                                                                      const VkAllocationCallbacks *allocator,
                                                                      VkDescriptorUpdateTemplate *handle)
{
    struct device *d = device_of(device);
    VkResult result = d->calls.CreateDescriptorUpdateTemplate(device, info, allocator, handle);
    if (result != VK_SUCCESS)
        return result;
    lock_recorder();
    size_t size = info->descriptorUpdateEntryCount * sizeof info->pDescriptorUpdateEntries[0];
    struct template *t = is_recording() ? get(1, sizeof *t + size) : NULL;
    if (t) {
        t->count = info->descriptorUpdateEntryCount;
        t->point = info->pipelineBindPoint;
        memcpy(t->entries, info->pDescriptorUpdateEntries, size);
        free(table_take(&d->tables[TEMPLATES], KEY(*handle)));
        if (!table_put(&d->tables[TEMPLATES], KEY(*handle), t))
            free(t);
    }
    unlock_recorder();
    return result;
}

VKAPI_ATTR void VKAPI_CALL capture_DestroyDescriptorUpdateTemplate(VkDevice device, VkDescriptorUpdateTemplate handle,
                                                                   const VkAllocationCallbacks *allocator)
{
    struct device *d = device_of(device);
    lock_recorder();
    free(handle ? table_take(&d->tables[TEMPLATES], KEY(handle)) : NULL);
    unlock_recorder();
    d->calls.DestroyDescriptorUpdateTemplate(device, handle, allocator);
}

static void write_template(struct device *d, struct set *s, const struct template *t, const char *data)
{
    for (uint32_t i = 0; t && i < t->count; i++) {
        const VkDescriptorUpdateTemplateEntry *e = &t->entries[i];
        bool is_inline = e->descriptorType == VK_DESCRIPTOR_TYPE_INLINE_UNIFORM_BLOCK;
        for (uint32_t k = 0; !is_inline && k < e->descriptorCount; k++) {
            const void *at = data + e->offset + k * e->stride;
            write_slot(d, s, e->dstBinding, e->dstArrayElement + k, e->descriptorType, (struct written){at, at, at});
        }
    }
}

VKAPI_ATTR void VKAPI_CALL capture_UpdateDescriptorSetWithTemplate(VkDevice device, VkDescriptorSet set,
                                                                   VkDescriptorUpdateTemplate handle, const void *data)
{
    struct device *d = device_of(device);
    lock_recorder();
    write_template(d, table_get(&d->tables[SETS], KEY(set)), table_get(&d->tables[TEMPLATES], KEY(handle)), data);
    unlock_recorder();
    d->calls.UpdateDescriptorSetWithTemplate(device, set, handle, data);
}

/* Pushed sets: their layouts aren't known here, so their bindings grow as they are written. -------------------------
 */

static struct set *pushed(struct commands *l, VkPipelineBindPoint point, uint32_t number)
{
    if (!l || (unsigned)point >= POINTS || number >= MOST_SETS)
        return NULL;
    struct set **s = &l->pushed[point][number];
    if (!*s)
        *s = get(1, sizeof **s);
    l->sets[point][number] = 0;
    return *s;
}

static void grow(struct set *s, uint32_t number, uint32_t count, VkDescriptorType type)
{
    for (size_t i = 0; s && i < s->count; i++)
        if (s->bindings[i].number == number)
            return;
    if (!s || type == VK_DESCRIPTOR_TYPE_INLINE_UNIFORM_BLOCK
        || !has_room((void **)&s->bindings, &s->room, s->count, sizeof *s->bindings))
        return;
    struct binding b = {number, count, type, get(count < MOST_SLOTS ? count : MOST_SLOTS, sizeof(struct slot))};
    if (!b.slots)
        return;
    s->bindings[s->count++] = b;
    qsort(s->bindings, s->count, sizeof *s->bindings, by_number);
}

VKAPI_ATTR void VKAPI_CALL capture_CmdPushDescriptorSetKHR(VkCommandBuffer handle, VkPipelineBindPoint point,
                                                           VkPipelineLayout layout, uint32_t number, uint32_t count,
                                                           const VkWriteDescriptorSet *writes)
{
    struct device *d = device_of(handle);
    struct set *s = pushed(begin_state(d, handle, "vkCmdPushDescriptorSetKHR"), point, number);
    for (uint32_t i = 0; s && i < count; i++)
        grow(s, writes[i].dstBinding, writes[i].dstArrayElement + writes[i].descriptorCount, writes[i].descriptorType);
    if (s)
        write_sets(d, s, count, writes);
    end_command();
    d->calls.CmdPushDescriptorSetKHR(handle, point, layout, number, count, writes);
}

VKAPI_ATTR void VKAPI_CALL capture_CmdPushDescriptorSetWithTemplateKHR(VkCommandBuffer handle,
                                                                       VkDescriptorUpdateTemplate key,
                                                                       VkPipelineLayout layout, uint32_t number,
                                                                       const void *data)
{
    struct device *d = device_of(handle);
    struct commands *l = begin_state(d, handle, "vkCmdPushDescriptorSetWithTemplateKHR");
    const struct template *t = table_get(&d->tables[TEMPLATES], KEY(key));
    struct set *s = t ? pushed(l, t->point, number) : NULL;
    for (uint32_t i = 0; s && i < t->count; i++)
        grow(s, t->entries[i].dstBinding, t->entries[i].dstArrayElement + t->entries[i].descriptorCount,
             t->entries[i].descriptorType);
    if (s)
        write_template(d, s, t, data);
    end_command();
    d->calls.CmdPushDescriptorSetWithTemplateKHR(handle, key, layout, number, data);
}

/* Bound sets ----------------------------------------------------------------------------------------------------- */

static bool is_dynamic(VkDescriptorType type)
{
    return type == VK_DESCRIPTOR_TYPE_UNIFORM_BUFFER_DYNAMIC || type == VK_DESCRIPTOR_TYPE_STORAGE_BUFFER_DYNAMIC;
}

static bool is_stored(VkDescriptorType type)
{
    return type == VK_DESCRIPTOR_TYPE_STORAGE_IMAGE || type == VK_DESCRIPTOR_TYPE_STORAGE_TEXEL_BUFFER
           || type == VK_DESCRIPTOR_TYPE_STORAGE_BUFFER || type == VK_DESCRIPTOR_TYPE_STORAGE_BUFFER_DYNAMIC;
}

/* The kind of what a shader does with a descriptor. */
static uint32_t kind_of(VkDescriptorType type, bool is_write)
{
    if (is_stored(type))
        return is_write ? STORAGE_WRITE : STORAGE_READ;
    if (type == VK_DESCRIPTOR_TYPE_UNIFORM_BUFFER || type == VK_DESCRIPTOR_TYPE_UNIFORM_BUFFER_DYNAMIC)
        return UNIFORM;
    return type == VK_DESCRIPTOR_TYPE_INPUT_ATTACHMENT ? ATTACHMENT : SAMPLED;
}

VKAPI_ATTR void VKAPI_CALL capture_CmdBindDescriptorSets(VkCommandBuffer handle, VkPipelineBindPoint point,
                                                         VkPipelineLayout layout, uint32_t first, uint32_t count,
                                                         const VkDescriptorSet *sets, uint32_t offset_count,
                                                         const uint32_t *offsets)
{
    struct device *d = device_of(handle);
    struct commands *l = begin_state(d, handle, "vkCmdBindDescriptorSets");
    uint32_t used = 0;
    for (uint32_t i = 0; l && (unsigned)point < POINTS && i < count && first + i < MOST_SETS; i++) {
        const struct set *s = sets[i] ? table_get(&d->tables[SETS], KEY(sets[i])) : NULL;
        uint32_t own = 0;
        l->sets[point][first + i] = KEY(sets[i]);
        free_set(l->pushed[point][first + i]);
        l->pushed[point][first + i] = NULL;
        for (size_t b = 0; s && b < s->count; b++)
            for (uint32_t k = 0; is_dynamic(s->bindings[b].type) && k < s->bindings[b].count; k++) {
                if (own < MOST_DYNAMIC && used < offset_count)
                    l->dynamic[point][first + i][own] = offsets[used];
                own++;
                used++;
            }
    }
    end_command();
    d->calls.CmdBindDescriptorSets(handle, point, layout, first, count, sets, offset_count, offsets);
}

/* Whether a use is of an element of a binding. */
static bool is_used(const struct use *u, uint32_t element)
{
    return u->element == ANY_ELEMENT || u->element == element;
}

/* One use of a binding, with the dynamic offsets from the first one of the binding on. */
static void touch_slots(struct commands *l, const struct binding *b, const struct use *u, bool is_write,
                        const uint32_t *offsets, uint32_t offset_count)
{
    bool is_image = b->type != VK_DESCRIPTOR_TYPE_UNIFORM_BUFFER && b->type != VK_DESCRIPTOR_TYPE_STORAGE_BUFFER
                    && !is_dynamic(b->type);
    bool does = is_write ? is_stored(b->type) && (is_image ? u->writes : u->stores) : is_image ? u->reads : u->loads;
    bool is_kept = b->count <= MOST_SLOTS || (u->element != ANY_ELEMENT && u->element < slots_of(b));
    if (does && !is_kept)
        count_unseen(UNSEEN_DESCRIPTORS);
    for (uint32_t i = 0; does && is_kept && i < slots_of(b); i++) {
        struct view v = b->slots[i].view;
        if (!b->slots[i].is_set || !is_used(u, i))
            continue;
        if (is_dynamic(b->type) && i < offset_count)
            v.offset += offsets[i];
        touch_view(l, &v, is_write, u->stage | kind_of(b->type, is_write));
    }
}

static void run_use(struct commands *l, VkPipelineBindPoint point, const struct use *u, bool is_write)
{
    if (u->set >= MOST_SETS)
        return;
    const struct set *s = l->pushed[point][u->set];
    if (!s && l->sets[point][u->set])
        s = table_get(&l->device->tables[SETS], l->sets[point][u->set]);
    if (!s && !is_write && (u->reads || u->loads))
        count_unseen(UNSEEN_DESCRIPTORS);
    uint32_t dynamic = 0;
    for (size_t i = 0; s && i < s->count; i++) {
        const struct binding *b = &s->bindings[i];
        uint32_t at = dynamic < MOST_DYNAMIC ? dynamic : MOST_DYNAMIC;
        if (b->number == u->binding)
            touch_slots(l, b, u, is_write, l->dynamic[point][u->set] + at, MOST_DYNAMIC - at);
        dynamic += is_dynamic(b->type) ? b->count : 0;
    }
}

void run_shaders(struct commands *l, VkPipelineBindPoint point)
{
    const struct pipeline *p =
        l && l->pipeline[point] ? table_get(&l->device->tables[PIPELINES], l->pipeline[point]) : NULL;
    for (int is_write = 0; is_write < 2; is_write++)
        for (size_t i = 0; p && i < p->count; i++)
            run_use(l, point, &p->uses[i], is_write);
}
