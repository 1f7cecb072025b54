/* The loader's chains, and tables of handles. */
#include "loader.h"

#include <stdlib.h>

void *in_chain(const void *chain, VkStructureType type)
{
    for (const VkBaseInStructure *at = chain; at; at = at->pNext)
        if (at->sType == type)
            return (void *)at;
    return NULL;
}

VkLayerInstanceCreateInfo *instance_link(const VkInstanceCreateInfo *info)
{
    for (const VkBaseInStructure *at = info->pNext; at; at = at->pNext) {
        VkLayerInstanceCreateInfo *link = (VkLayerInstanceCreateInfo *)at;
        if (at->sType == VK_STRUCTURE_TYPE_LOADER_INSTANCE_CREATE_INFO && link->function == VK_LAYER_LINK_INFO)
            return link;
    }
    return NULL;
}

static VkLayerDeviceCreateInfo *device_info(const VkDeviceCreateInfo *info, VkLayerFunction function)
{
    for (const VkBaseInStructure *at = info->pNext; at; at = at->pNext) {
        VkLayerDeviceCreateInfo *link = (VkLayerDeviceCreateInfo *)at;
        if (at->sType == VK_STRUCTURE_TYPE_LOADER_DEVICE_CREATE_INFO && link->function == function)
            return link;
    }
    return NULL;
}

VkLayerDeviceCreateInfo *device_link(const VkDeviceCreateInfo *info)
{
    return device_info(info, VK_LAYER_LINK_INFO);
}

PFN_vkSetDeviceLoaderData loader_data(const VkDeviceCreateInfo *info)
{
    const VkLayerDeviceCreateInfo *found = device_info(info, VK_LOADER_DATA_CALLBACK);
    return found ? found->u.pfnSetDeviceLoaderData : NULL;
}

enum { EMPTY = 0, TAKEN_OUT = 1, LEAST_ROOM = 64 };

static size_t first_place(uint64_t key, size_t room)
{
    key ^= key >> 31;
    key *= 0x9e3779b97f4a7c15u;
    key ^= key >> 29;
    return (size_t)key & (room - 1);
}

/* The place of a handle, or that where it would go; the table has an empty place. */
static size_t place_of(const struct table *table, uint64_t key)
{
    size_t free_place = SIZE_MAX;
    size_t at = first_place(key, table->room);
    for (; table->keys[at] != EMPTY; at = (at + 1) & (table->room - 1)) {
        if (table->keys[at] == key)
            return at;
        if (table->keys[at] == TAKEN_OUT && free_place == SIZE_MAX)
            free_place = at;
    }
    return free_place != SIZE_MAX ? free_place : at;
}

void *table_get(const struct table *table, uint64_t key)
{
    if (table->room == 0)
        return NULL;
    size_t at = place_of(table, key);
    return table->keys[at] == key ? table->values[at] : NULL;
}

bool table_reserve(struct table *table)
{
    if (2 * (table->used + 1) <= table->room)
        return true;
    size_t room = LEAST_ROOM;
    while (room < 4 * (table->live + 1))
        room *= 2;
    struct table larger = {calloc(room, sizeof *larger.keys), calloc(room, sizeof *larger.values), room, 0, 0};
    if (!larger.keys || !larger.values) {
        table_free(&larger);
        return false;
    }
    for (size_t i = 0; i < table->room; i++)
        if (table->keys[i] > TAKEN_OUT)
            table_put(&larger, table->keys[i], table->values[i]);
    table_free(table);
    *table = larger;
    return true;
}

bool table_put(struct table *table, uint64_t key, void *value)
{
    if (!table_reserve(table))
        return false;
    size_t at = place_of(table, key);
    if (table->keys[at] != key) {
        table->used += table->keys[at] == EMPTY;
        table->live++;
    }
    table->keys[at] = key;
    table->values[at] = value;
    return true;
}

void *table_take(struct table *table, uint64_t key)
{
    if (table->room == 0)
        return NULL;
    size_t at = place_of(table, key);
    if (table->keys[at] != key)
        return NULL;
    table->keys[at] = TAKEN_OUT;
    table->live--;
    return table->values[at];
}

void table_free(struct table *table)
{
    free(table->keys);
    free(table->values);
    *table = (struct table){0};
}
