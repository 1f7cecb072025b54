/* What a layer needs of the Vulkan loader (loader interface version 2), and a table of handles. */
#ifndef LOADER_H
#define LOADER_H

#include <stdbool.h>
#include <stddef.h>
#include <stdint.h>
#include <vulkan/vk_layer.h>
#include <vulkan/vulkan.h>

/* A dispatchable handle begins with a word of the loader's, the same for a device, its queues and command buffers. */
static inline uint64_t loader_word(const void *handle)
{
    return (uint64_t)(uintptr_t) * (void *const *)handle;
}

/* A handle as a key of a table: it may be a pointer or a number. */
#define KEY(handle) ((uint64_t)(uintptr_t)(handle))

/* The struct of this type in a chain, or NULL. */
void *in_chain(const void *chain, VkStructureType type);

/* The loader's links in the chains of vkCreateInstance and vkCreateDevice, or NULL. */
VkLayerInstanceCreateInfo *instance_link(const VkInstanceCreateInfo *info);
VkLayerDeviceCreateInfo *device_link(const VkDeviceCreateInfo *info);

/* What makes a command buffer of a layer's own one of the loader's, or NULL. */
PFN_vkSetDeviceLoaderData loader_data(const VkDeviceCreateInfo *info);

/* A table from handles, which aren't 0 or 1, to pointers: open addressing, a power of two of places, at most half of
 * them used. Zeroed, it is empty. */
struct table {
    uint64_t *keys; /* 0: an empty place; 1: one whose handle was taken out */
    void **values;
    size_t room;
    size_t used; /* with those taken out */
    size_t live;
};

void *table_get(const struct table *table, uint64_t key);

/* Makes room for one more: false for want of memory, and nothing is changed. */
bool table_reserve(struct table *table);

/* Puts a handle in, in the place of an older one with its number: false for want of memory, after which nothing is
 * changed. */
bool table_put(struct table *table, uint64_t key, void *value);

/* Takes a handle out: what it led to, or NULL. */
void *table_take(struct table *table, uint64_t key);

void table_free(struct table *table);

#endif
