/* What the parts of the recorder's client share. */
#ifndef CAPTURE_CLIENT_H
#define CAPTURE_CLIENT_H

#include <stdbool.h>
#include <stdio.h>
#include <stdlib.h>
#include <vulkan/vulkan.h>

#define CHECK(call)                                \
    do {                                           \
        if ((call) != VK_SUCCESS) {                \
            fprintf(stderr, "%s failed\n", #call); \
            exit(1);                               \
        }                                          \
    } while (0)

struct gpu {
    VkDevice device;
    VkQueue queues[2];
    VkCommandPool pool;
    uint32_t memory_type;
};

struct buffer {
    VkBuffer handle;
    VkDeviceMemory memory;
};

/* What orders the work is left out; or a mask lacks what the work needs. */
extern bool is_missing, is_unseen;

VkCommandBuffer begin(const struct gpu *g, VkCommandBufferLevel level);

/* Ends a command buffer, and waits until it has run. */
void finish(const struct gpu *g, VkCommandBuffer c);

VkImage new_image(const struct gpu *g, VkFormat format, uint32_t layers, VkImageUsageFlags usage,
                  VkDeviceMemory *memory);

/* Two render passes on the same attachments, and a copy of one of them. */
void do_passes(const struct gpu *g, struct buffer a, struct buffer b);

/* Two subpasses: the second one has an input that the first one rendered to. */
void do_subpasses(const struct gpu *g, struct buffer a, struct buffer b);

/* Two dynamic renderings: the second one loads what the first one wrote. */
void do_rendering(const struct gpu *g, struct buffer a, struct buffer b);

#endif
