/* The results of Vulkan's calls by name. */
#ifndef RESULT_H
#define RESULT_H

#include <vulkan/vulkan.h>

const char *result_name(VkResult result);

#endif
