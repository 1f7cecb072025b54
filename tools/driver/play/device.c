#include "device.h"

#include <stdio.h>
#include <stdlib.h>
#include <string.h>

#include "result.h"

enum { MOST_DEVICES = 16, MOST_FAMILIES = 32 };

static char reason[512];

static const char *because(const char *call, VkResult result)
{
    snprintf(reason, sizeof reason, "%s: %s", call, result_name(result));
    return reason;
}

static const char *open_instance(struct device *device)
{
    VkApplicationInfo application = {
        .sType = VK_STRUCTURE_TYPE_APPLICATION_INFO, .pApplicationName = "play", .apiVersion = VK_API_VERSION_1_3};
    VkInstanceCreateInfo info = {
        .sType = VK_STRUCTURE_TYPE_INSTANCE_CREATE_INFO, .pApplicationInfo = &application};
    VkResult result = vkCreateInstance(&info, NULL, &device->instance);

    return result == VK_SUCCESS ? NULL : because("no Vulkan driver: vkCreateInstance", result);
}

/* What a physical device lacks, or NULL. */
static const char *lack_of(struct device *device, const char *wanted)
{
    VkPhysicalDeviceDriverProperties driver = {.sType = VK_STRUCTURE_TYPE_PHYSICAL_DEVICE_DRIVER_PROPERTIES};
    VkPhysicalDeviceTimelineSemaphoreProperties timelines = {
        .sType = VK_STRUCTURE_TYPE_PHYSICAL_DEVICE_TIMELINE_SEMAPHORE_PROPERTIES, .pNext = &driver};
    VkPhysicalDeviceProperties2 properties = {
        .sType = VK_STRUCTURE_TYPE_PHYSICAL_DEVICE_PROPERTIES_2, .pNext = &timelines};
    VkPhysicalDeviceVulkan13Features newer = {.sType = VK_STRUCTURE_TYPE_PHYSICAL_DEVICE_VULKAN_1_3_FEATURES};
    VkPhysicalDeviceVulkan12Features older = {
        .sType = VK_STRUCTURE_TYPE_PHYSICAL_DEVICE_VULKAN_1_2_FEATURES, .pNext = &newer};
    VkPhysicalDeviceFeatures2 features = {.sType = VK_STRUCTURE_TYPE_PHYSICAL_DEVICE_FEATURES_2, .pNext = &older};

    vkGetPhysicalDeviceProperties(device->physical, &properties.properties);
    snprintf(device->name, sizeof device->name, "%s", properties.properties.deviceName);
    if (wanted != NULL && strstr(device->name, wanted) == NULL)
        return "has another name";
    if (properties.properties.apiVersion < VK_API_VERSION_1_3)
        return "has no Vulkan 1.3";
    vkGetPhysicalDeviceProperties2(device->physical, &properties);
    vkGetPhysicalDeviceFeatures2(device->physical, &features);
    snprintf(device->driver, sizeof device->driver, "%s, %s", driver.driverName, driver.driverInfo);
    device->most_difference = timelines.maxTimelineSemaphoreValueDifference;
    if (!older.timelineSemaphore)
        return "has no timeline semaphores";
    return newer.synchronization2 ? NULL : "has no synchronization2";
}

static const char *find_physical(struct device *device, const char *wanted)
{
    VkPhysicalDevice found[MOST_DEVICES];
    uint32_t count = MOST_DEVICES;
    size_t length;
    VkResult result = vkEnumeratePhysicalDevices(device->instance, &count, found);

    if (result != VK_SUCCESS && result != VK_INCOMPLETE)
        return because("no Vulkan driver: vkEnumeratePhysicalDevices", result);
    length = (size_t)snprintf(reason, sizeof reason, "no device that fits");
    for (uint32_t number = 0; number < count; number++) {
        const char *lack;
        device->physical = found[number];
        lack = lack_of(device, wanted);
        if (lack == NULL)
            return NULL;
        if (length < sizeof reason)
            length += (size_t)snprintf(reason + length, sizeof reason - length, "%s %s %s",
                                       number == 0 ? ":" : ";", device->name, lack);
    }
    return reason;
}

/* Takes queues of all families that can copy, one of each in turn, and says how many of each family are wanted. */
static void choose_queues(struct device *device, uint32_t indices[MOST_QUEUES], uint32_t wanted[MOST_FAMILIES])
{
    VkQueueFamilyProperties families[MOST_FAMILIES];
    uint32_t count = MOST_FAMILIES;
    bool has_more = true;

    vkGetPhysicalDeviceQueueFamilyProperties(device->physical, &count, families);
    while (has_more && device->queue_count < MOST_QUEUES) {
        has_more = false;
        for (uint32_t f = 0; f < count && device->queue_count < MOST_QUEUES; f++) {
            VkQueueFlags copying = VK_QUEUE_GRAPHICS_BIT | VK_QUEUE_COMPUTE_BIT | VK_QUEUE_TRANSFER_BIT;
            if ((families[f].queueFlags & copying) == 0 || wanted[f] == families[f].queueCount)
                continue;
            if (wanted[f] == 0)
                device->families[device->family_count++] = f;
            device->family_of[device->queue_count] = f;
            indices[device->queue_count++] = wanted[f]++;
            has_more = true;
        }
    }
}

static const char *open_queues(struct device *device)
{
    static const float priorities[MOST_QUEUES] = {1, 1, 1, 1, 1, 1, 1, 1, 1, 1, 1, 1, 1, 1, 1, 1};
    uint32_t indices[MOST_QUEUES] = {0}, wanted[MOST_FAMILIES] = {0};
    VkDeviceQueueCreateInfo queues[MOST_QUEUES];
    VkPhysicalDeviceVulkan13Features newer = {
        .sType = VK_STRUCTURE_TYPE_PHYSICAL_DEVICE_VULKAN_1_3_FEATURES, .synchronization2 = VK_TRUE};
    VkPhysicalDeviceVulkan12Features older = {
        .sType = VK_STRUCTURE_TYPE_PHYSICAL_DEVICE_VULKAN_1_2_FEATURES, .pNext = &newer,
        .timelineSemaphore = VK_TRUE};
    VkDeviceCreateInfo info = {
        .sType = VK_STRUCTURE_TYPE_DEVICE_CREATE_INFO, .pNext = &older, .pQueueCreateInfos = queues};
    VkResult result;

    choose_queues(device, indices, wanted);
    if (device->queue_count == 0)
        return "the device has no queue that copies";
    for (uint32_t n = 0; n < device->family_count; n++)
        queues[n] = (VkDeviceQueueCreateInfo){
            .sType = VK_STRUCTURE_TYPE_DEVICE_QUEUE_CREATE_INFO, .queueFamilyIndex = device->families[n],
            .queueCount = wanted[device->families[n]], .pQueuePriorities = priorities};
    info.queueCreateInfoCount = device->family_count;
    result = vkCreateDevice(device->physical, &info, NULL, &device->device);
    if (result != VK_SUCCESS)
        return because("no device: vkCreateDevice", result);
    for (uint32_t q = 0; q < device->queue_count; q++)
        vkGetDeviceQueue(device->device, device->family_of[q], indices[q], &device->queues[q]);
    return NULL;
}

const char *open_device(struct device *device, const char *wanted)
{
    const char *lack;

    memset(device, 0, sizeof *device);
    lack = open_instance(device);
    if (lack == NULL)
        lack = find_physical(device, wanted);
    if (lack == NULL)
        lack = open_queues(device);
    return lack;
}

void close_device(struct device *device)
{
    vkDestroyDevice(device->device, NULL);
    vkDestroyInstance(device->instance, NULL);
}
