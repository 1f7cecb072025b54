/* The instance, the device and its queues. */
#ifndef DEVICE_H
#define DEVICE_H

#include <stdbool.h>
#include <stdint.h>

#include <vulkan/vulkan.h>

#include "script.h"

struct device {
    VkInstance instance;
    VkPhysicalDevice physical;
    VkDevice device;
    /* Its name, and that of its driver with its version. */
    char name[VK_MAX_PHYSICAL_DEVICE_NAME_SIZE], driver[2 * VK_MAX_DRIVER_NAME_SIZE + 2];
    uint64_t most_difference;
    /* Queues that can copy, at most as many as a script may name, from all families in turn; and the families. */
    uint32_t queue_count, family_count;
    VkQueue queues[MOST_QUEUES];
    uint32_t family_of[MOST_QUEUES], families[MOST_QUEUES];
};

/* Opens the first device that has all that is needed, and `wanted` in its name where that isn't NULL. Answers NULL, or
   one line that says why there is none. */
const char *open_device(struct device *device, const char *wanted);

void close_device(struct device *device);

#endif
