/* A layer for tests, between the layer and the driver (VK_LAYER_VQ_below). By the environment:
 *
 * VQ_BELOW_QUEUES=N   shows N queues in each family over one of the driver's
 * VQ_BELOW_HIDE=1     hides the driver's timelines
 * VQ_BELOW_SPARSE=1   sparse binds bind nothing, and are batches with their semaphores
 * VQ_BELOW_FAIL=N     the N-th call that may fail is refused: memory for the host, or for submits a lost device
 * VQ_BELOW_COUNTS=F   appends to the file F, as each device ends: how many timelines were made below, how many calls of
 *                     timelines came, and how many calls that may fail */
#include "../loader.h"

#include <pthread.h>
#include <stdatomic.h>
#include <stdio.h>
#include <stdlib.h>
#include <string.h>

#define LAYER_NAME "VK_LAYER_VQ_below"
#define QUEUE_CALLS(X) X(QueueSubmit) X(QueueSubmit2) X(QueueBindSparse) X(QueuePresentKHR) X(QueueWaitIdle)
#define FAILING(X) X(CreateFence) X(ResetFences) X(GetFenceStatus) X(WaitForFences) X(CreateCommandPool)                \
    X(AllocateCommandBuffers) X(BeginCommandBuffer) X(EndCommandBuffer)
#define DEVICE_CALLS(X)                                                                                                \
    QUEUE_CALLS(X)                                                                                                     \
    FAILING(X)                                                                                                         \
    X(DestroyDevice)                                                                                                   \
    X(GetDeviceQueue) X(GetDeviceQueue2) X(CreateSemaphore) X(WaitSemaphores) X(SignalSemaphore)                       \
    X(GetSemaphoreCounterValue)
#define PHYSICAL_CALLS(X)                                                                                              \
    X(GetPhysicalDeviceFeatures2)                                                                                      \
    X(GetPhysicalDeviceQueueFamilyProperties)                                                                          \
    X(GetPhysicalDeviceQueueFamilyProperties2) X(EnumerateDeviceExtensionProperties)

struct shown {
    void *loader;
    VkQueue queue;
    pthread_mutex_t *lock;
};

enum { FAMILIES = 8, SHOWN = 16 };

struct device {
    VkDevice handle;
    PFN_vkGetDeviceProcAddr next;
    pthread_mutex_t locks[FAMILIES];
    struct shown shown[FAMILIES][SHOWN];
#define X(name) PFN_vk##name name;
    DEVICE_CALLS(X)
#undef X
    atomic_ulong timelines, calls;
};

struct instance {
    VkInstance handle;
    PFN_vkGetInstanceProcAddr next;
    PFN_vkDestroyInstance DestroyInstance;
#define X(name) PFN_vk##name name;
    PHYSICAL_CALLS(X)
#undef X
};

static pthread_mutex_t known = PTHREAD_MUTEX_INITIALIZER;
static struct table devices, instances;
static atomic_ulong may_fail;

static void *of(struct table *table, const void *handle)
{
    pthread_mutex_lock(&known);
    void *value = table_get(table, loader_word(handle));
    pthread_mutex_unlock(&known);
    return value;
}

static struct device *device_of(const void *handle)
{
    return of(&devices, handle);
}

static unsigned long number_of(const char *variable)
{
    const char *said = getenv(variable);
    return said ? strtoul(said, NULL, 10) : 0;
}

static bool fails(void)
{
    return atomic_fetch_add(&may_fail, 1) + 1 == number_of("VQ_BELOW_FAIL");
}

static uint32_t queues_shown(void)
{
    unsigned long count = number_of("VQ_BELOW_QUEUES");
    return count > SHOWN ? SHOWN : (uint32_t)count;
}

/* Queues -------------------------------------------------------------------------------------------------------- */

static VkQueue real(struct device *d, VkQueue queue, pthread_mutex_t **lock)
{
    *lock = &d->locks[0];
    if (queues_shown() == 0)
        return queue;
    struct shown *shown = (struct shown *)queue;
    *lock = shown->lock;
    return shown->queue;
}

static VkQueue show(struct device *d, VkQueue queue, uint32_t family, uint32_t index)
{
    if (queues_shown() == 0 || !queue)
        return queue;
    struct shown *shown = &d->shown[family][index];
    if (!shown->queue)
        *shown = (struct shown){*(void **)d->handle, queue, &d->locks[family]};
    return (VkQueue)shown;
}

static VKAPI_ATTR void VKAPI_CALL x_GetDeviceQueue(VkDevice device, uint32_t family, uint32_t index, VkQueue *queue)
{
    struct device *d = device_of(device);
    d->GetDeviceQueue(device, family, queues_shown() ? 0 : index, queue);
    *queue = show(d, *queue, family, index);
}

static VKAPI_ATTR void VKAPI_CALL x_GetDeviceQueue2(VkDevice device, const VkDeviceQueueInfo2 *info, VkQueue *queue)
{
    struct device *d = device_of(device);
    VkDeviceQueueInfo2 own = *info;
    if (queues_shown())
        own.queueIndex = 0;
    d->GetDeviceQueue2(device, &own, queue);
    *queue = show(d, *queue, info->queueFamilyIndex, info->queueIndex);
}

static VKAPI_ATTR VkResult VKAPI_CALL x_QueueSubmit(VkQueue queue, uint32_t count, const VkSubmitInfo *infos,
                                                    VkFence fence)
{
    struct device *d = device_of(queue);
    for (uint32_t i = 0; i < count; i++)
        d->calls += in_chain(infos[i].pNext, VK_STRUCTURE_TYPE_TIMELINE_SEMAPHORE_SUBMIT_INFO) != NULL;
    if (fails())
        return VK_ERROR_DEVICE_LOST;
    pthread_mutex_t *lock;
    VkQueue under = real(d, queue, &lock);
    pthread_mutex_lock(lock);
    VkResult result = d->QueueSubmit(under, count, infos, fence);
    pthread_mutex_unlock(lock);
    return result;
}

static VKAPI_ATTR VkResult VKAPI_CALL x_QueueSubmit2(VkQueue queue, uint32_t count, const VkSubmitInfo2 *infos,
                                                     VkFence fence)
{
    struct device *d = device_of(queue);
    if (fails())
        return VK_ERROR_DEVICE_LOST;
    pthread_mutex_t *lock;
    VkQueue under = real(d, queue, &lock);
    pthread_mutex_lock(lock);
    VkResult result = d->QueueSubmit2(under, count, infos, fence);
    pthread_mutex_unlock(lock);
    return result;
}

/* Binds whose offsets are counted from 0, as empty batches with their semaphores; others are refused. */
static VkResult stand_in_for_binds(struct device *d, VkQueue queue, uint32_t count, const VkBindSparseInfo *infos,
                                   VkFence fence)
{
    VkResult result = VK_SUCCESS;
    for (uint32_t i = 0; i < count && result == VK_SUCCESS; i++) {
        for (uint32_t k = 0; k < infos[i].bufferBindCount; k++)
            for (uint32_t n = 0; n < infos[i].pBufferBinds[k].bindCount; n++)
                if (infos[i].pBufferBinds[k].pBinds[n].resourceOffset != n)
                    return VK_ERROR_DEVICE_LOST;
        VkPipelineStageFlags stages[16];
        for (uint32_t k = 0; k < 16; k++)
            stages[k] = VK_PIPELINE_STAGE_ALL_COMMANDS_BIT;
        if (infos[i].waitSemaphoreCount > 16)
            return VK_ERROR_DEVICE_LOST;
        VkSubmitInfo empty = {.sType = VK_STRUCTURE_TYPE_SUBMIT_INFO,
                              .waitSemaphoreCount = infos[i].waitSemaphoreCount,
                              .pWaitSemaphores = infos[i].pWaitSemaphores,
                              .pWaitDstStageMask = stages,
                              .signalSemaphoreCount = infos[i].signalSemaphoreCount,
                              .pSignalSemaphores = infos[i].pSignalSemaphores};
        result = d->QueueSubmit(queue, 1, &empty, i + 1 == count ? fence : VK_NULL_HANDLE);
    }
    return result;
}

static VKAPI_ATTR VkResult VKAPI_CALL x_QueueBindSparse(VkQueue queue, uint32_t count, const VkBindSparseInfo *infos,
                                                        VkFence fence)
{
    struct device *d = device_of(queue);
    for (uint32_t i = 0; i < count; i++)
        d->calls += in_chain(infos[i].pNext, VK_STRUCTURE_TYPE_TIMELINE_SEMAPHORE_SUBMIT_INFO) != NULL;
    if (fails())
        return VK_ERROR_DEVICE_LOST;
    pthread_mutex_t *lock;
    VkQueue under = real(d, queue, &lock);
    pthread_mutex_lock(lock);
    VkResult result = getenv("VQ_BELOW_SPARSE") ? stand_in_for_binds(d, under, count, infos, fence)
                                                : d->QueueBindSparse(under, count, infos, fence);
    pthread_mutex_unlock(lock);
    return result;
}

static VKAPI_ATTR VkResult VKAPI_CALL x_QueuePresentKHR(VkQueue queue, const VkPresentInfoKHR *info)
{
    struct device *d = device_of(queue);
    if (fails())
        return VK_ERROR_DEVICE_LOST;
    pthread_mutex_t *lock;
    VkQueue under = real(d, queue, &lock);
    pthread_mutex_lock(lock);
    VkResult result = d->QueuePresentKHR(under, info);
    pthread_mutex_unlock(lock);
    return result;
}

static VKAPI_ATTR VkResult VKAPI_CALL x_QueueWaitIdle(VkQueue queue)
{
    struct device *d = device_of(queue);
    pthread_mutex_t *lock;
    VkQueue under = real(d, queue, &lock);
    pthread_mutex_lock(lock);
    VkResult result = d->QueueWaitIdle(under);
    pthread_mutex_unlock(lock);
    return result;
}

/* Calls that are counted or refused ----------------------------------------------------------------------------- */

static VKAPI_ATTR VkResult VKAPI_CALL x_CreateFence(VkDevice device, const VkFenceCreateInfo *info,
                                                    const VkAllocationCallbacks *allocator, VkFence *fence)
{
    return fails() ? VK_ERROR_OUT_OF_HOST_MEMORY : device_of(device)->CreateFence(device, info, allocator, fence);
}

static VKAPI_ATTR VkResult VKAPI_CALL x_ResetFences(VkDevice device, uint32_t count, const VkFence *fences)
{
    return fails() ? VK_ERROR_OUT_OF_DEVICE_MEMORY : device_of(device)->ResetFences(device, count, fences);
}

static VKAPI_ATTR VkResult VKAPI_CALL x_GetFenceStatus(VkDevice device, VkFence fence)
{
    return fails() ? VK_ERROR_DEVICE_LOST : device_of(device)->GetFenceStatus(device, fence);
}

static VKAPI_ATTR VkResult VKAPI_CALL x_WaitForFences(VkDevice device, uint32_t count, const VkFence *fences,
                                                      VkBool32 all, uint64_t timeout)
{
    return fails() ? VK_ERROR_DEVICE_LOST : device_of(device)->WaitForFences(device, count, fences, all, timeout);
}

static VKAPI_ATTR VkResult VKAPI_CALL x_CreateCommandPool(VkDevice device, const VkCommandPoolCreateInfo *info,
                                                          const VkAllocationCallbacks *allocator,
                                                          VkCommandPool *pool)
{
    return fails() ? VK_ERROR_OUT_OF_HOST_MEMORY : device_of(device)->CreateCommandPool(device, info, allocator, pool);
}

static VKAPI_ATTR VkResult VKAPI_CALL x_AllocateCommandBuffers(VkDevice device,
                                                               const VkCommandBufferAllocateInfo *info,
                                                               VkCommandBuffer *commands)
{
    return fails() ? VK_ERROR_OUT_OF_HOST_MEMORY : device_of(device)->AllocateCommandBuffers(device, info, commands);
}

static VKAPI_ATTR VkResult VKAPI_CALL x_BeginCommandBuffer(VkCommandBuffer commands,
                                                           const VkCommandBufferBeginInfo *info)
{
    return fails() ? VK_ERROR_OUT_OF_HOST_MEMORY : device_of(commands)->BeginCommandBuffer(commands, info);
}

static VKAPI_ATTR VkResult VKAPI_CALL x_EndCommandBuffer(VkCommandBuffer commands)
{
    return fails() ? VK_ERROR_OUT_OF_HOST_MEMORY : device_of(commands)->EndCommandBuffer(commands);
}

static VKAPI_ATTR VkResult VKAPI_CALL x_CreateSemaphore(VkDevice device, const VkSemaphoreCreateInfo *info,
                                                        const VkAllocationCallbacks *allocator, VkSemaphore *semaphore)
{
    struct device *d = device_of(device);
    const VkSemaphoreTypeCreateInfo *type = in_chain(info->pNext, VK_STRUCTURE_TYPE_SEMAPHORE_TYPE_CREATE_INFO);
    d->timelines += type && type->semaphoreType == VK_SEMAPHORE_TYPE_TIMELINE;
    return fails() ? VK_ERROR_OUT_OF_HOST_MEMORY : d->CreateSemaphore(device, info, allocator, semaphore);
}

static VKAPI_ATTR VkResult VKAPI_CALL x_WaitSemaphores(VkDevice device, const VkSemaphoreWaitInfo *info,
                                                       uint64_t timeout)
{
    struct device *d = device_of(device);
    d->calls++;
    return d->WaitSemaphores(device, info, timeout);
}

static VKAPI_ATTR VkResult VKAPI_CALL x_SignalSemaphore(VkDevice device, const VkSemaphoreSignalInfo *info)
{
    struct device *d = device_of(device);
    d->calls++;
    return d->SignalSemaphore(device, info);
}

static VKAPI_ATTR VkResult VKAPI_CALL x_GetSemaphoreCounterValue(VkDevice device, VkSemaphore semaphore,
                                                                 uint64_t *value)
{
    struct device *d = device_of(device);
    d->calls++;
    return d->GetSemaphoreCounterValue(device, semaphore, value);
}

/* Devices ------------------------------------------------------------------------------------------------------- */

static VKAPI_ATTR VkResult VKAPI_CALL x_CreateDevice(VkPhysicalDevice physical, const VkDeviceCreateInfo *info,
                                                     const VkAllocationCallbacks *allocator, VkDevice *device)
{
    struct instance *i = of(&instances, physical);
    VkLayerDeviceCreateInfo *link = device_link(info);
    PFN_vkGetInstanceProcAddr next = link->u.pLayerInfo->pfnNextGetInstanceProcAddr;
    PFN_vkGetDeviceProcAddr next_device = link->u.pLayerInfo->pfnNextGetDeviceProcAddr;
    link->u.pLayerInfo = link->u.pLayerInfo->pNext;
    VkDeviceCreateInfo own = *info;
    VkDeviceQueueCreateInfo queues[FAMILIES];
    for (uint32_t k = 0; queues_shown() && k < info->queueCreateInfoCount && k < FAMILIES; k++) {
        queues[k] = info->pQueueCreateInfos[k];
        queues[k].queueCount = 1;
        own.pQueueCreateInfos = queues;
    }
    VkResult result = ((PFN_vkCreateDevice)next(i->handle, "vkCreateDevice"))(physical, &own, allocator, device);
    if (result != VK_SUCCESS)
        return result;
    struct device *d = calloc(1, sizeof *d);
    d->handle = *device;
    d->next = next_device;
    for (uint32_t k = 0; k < FAMILIES; k++)
        pthread_mutex_init(&d->locks[k], NULL);
#define X(name)                                                                                                        \
    d->name = (PFN_vk##name)next_device(*device, "vk" #name);                                                          \
    if (!d->name)                                                                                                      \
        d->name = (PFN_vk##name)next_device(*device, "vk" #name "KHR");
    DEVICE_CALLS(X)
#undef X
    pthread_mutex_lock(&known);
    table_put(&devices, loader_word(*device), d);
    pthread_mutex_unlock(&known);
    return result;
}

static VKAPI_ATTR void VKAPI_CALL x_DestroyDevice(VkDevice device, const VkAllocationCallbacks *allocator)
{
    if (!device)
        return;
    pthread_mutex_lock(&known);
    struct device *d = table_take(&devices, loader_word(device));
    if (devices.live == 0)
        table_free(&devices);
    pthread_mutex_unlock(&known);
    FILE *to = getenv("VQ_BELOW_COUNTS") ? fopen(getenv("VQ_BELOW_COUNTS"), "a") : NULL;
    if (to) {
        fprintf(to, "timelines %lu calls %lu may_fail %lu\n", (unsigned long)d->timelines, (unsigned long)d->calls,
                (unsigned long)may_fail);
        fclose(to);
    }
    d->DestroyDevice(device, allocator);
    free(d);
}

/* Physical devices and instances -------------------------------------------------------------------------------- */

static VKAPI_ATTR void VKAPI_CALL x_GetPhysicalDeviceFeatures2(VkPhysicalDevice physical,
                                                               VkPhysicalDeviceFeatures2 *features)
{
    ((struct instance *)of(&instances, physical))->GetPhysicalDeviceFeatures2(physical, features);
    if (!getenv("VQ_BELOW_HIDE"))
        return;
    VkPhysicalDeviceTimelineSemaphoreFeatures *alone =
        in_chain(features->pNext, VK_STRUCTURE_TYPE_PHYSICAL_DEVICE_TIMELINE_SEMAPHORE_FEATURES);
    VkPhysicalDeviceVulkan12Features *all =
        in_chain(features->pNext, VK_STRUCTURE_TYPE_PHYSICAL_DEVICE_VULKAN_1_2_FEATURES);
    if (alone)
        alone->timelineSemaphore = VK_FALSE;
    if (all)
        all->timelineSemaphore = VK_FALSE;
}

static VKAPI_ATTR void VKAPI_CALL x_GetPhysicalDeviceQueueFamilyProperties(VkPhysicalDevice physical, uint32_t *count,
                                                                           VkQueueFamilyProperties *properties)
{
    ((struct instance *)of(&instances, physical))
        ->GetPhysicalDeviceQueueFamilyProperties(physical, count, properties);
    for (uint32_t i = 0; queues_shown() && properties && i < *count; i++)
        properties[i].queueCount = queues_shown();
}

static VKAPI_ATTR void VKAPI_CALL x_GetPhysicalDeviceQueueFamilyProperties2(VkPhysicalDevice physical, uint32_t *count,
                                                                            VkQueueFamilyProperties2 *properties)
{
    ((struct instance *)of(&instances, physical))
        ->GetPhysicalDeviceQueueFamilyProperties2(physical, count, properties);
    for (uint32_t i = 0; queues_shown() && properties && i < *count; i++)
        properties[i].queueFamilyProperties.queueCount = queues_shown();
}

static VKAPI_ATTR VkResult VKAPI_CALL x_EnumerateDeviceExtensionProperties(VkPhysicalDevice physical, const char *layer,
                                                                           uint32_t *count,
                                                                           VkExtensionProperties *properties)
{
    if (layer && strcmp(layer, LAYER_NAME) == 0) {
        *count = 0;
        return VK_SUCCESS;
    }
    struct instance *i = of(&instances, physical);
    VkResult result = i->EnumerateDeviceExtensionProperties(physical, layer, count, properties);
    if (!getenv("VQ_BELOW_HIDE") || !properties)
        return result;
    uint32_t left = 0;
    for (uint32_t k = 0; k < *count; k++)
        if (strcmp(properties[k].extensionName, VK_KHR_TIMELINE_SEMAPHORE_EXTENSION_NAME) != 0)
            properties[left++] = properties[k];
    *count = left;
    return result;
}

static VKAPI_ATTR VkResult VKAPI_CALL x_CreateInstance(const VkInstanceCreateInfo *info,
                                                       const VkAllocationCallbacks *allocator, VkInstance *instance)
{
    VkLayerInstanceCreateInfo *link = instance_link(info);
    PFN_vkGetInstanceProcAddr next = link->u.pLayerInfo->pfnNextGetInstanceProcAddr;
    link->u.pLayerInfo = link->u.pLayerInfo->pNext;
    VkResult result = ((PFN_vkCreateInstance)next(NULL, "vkCreateInstance"))(info, allocator, instance);
    if (result != VK_SUCCESS)
        return result;
    struct instance *i = calloc(1, sizeof *i);
    i->handle = *instance;
    i->next = next;
    i->DestroyInstance = (PFN_vkDestroyInstance)next(*instance, "vkDestroyInstance");
#define X(name)                                                                                                        \
    i->name = (PFN_vk##name)next(*instance, "vk" #name);                                                               \
    if (!i->name)                                                                                                      \
        i->name = (PFN_vk##name)next(*instance, "vk" #name "KHR");
    PHYSICAL_CALLS(X)
#undef X
    pthread_mutex_lock(&known);
    table_put(&instances, loader_word(*instance), i);
    pthread_mutex_unlock(&known);
    return result;
}

static VKAPI_ATTR void VKAPI_CALL x_DestroyInstance(VkInstance instance, const VkAllocationCallbacks *allocator)
{
    if (!instance)
        return;
    pthread_mutex_lock(&known);
    struct instance *i = table_take(&instances, loader_word(instance));
    if (instances.live == 0)
        table_free(&instances);
    pthread_mutex_unlock(&known);
    i->DestroyInstance(instance, allocator);
    free(i);
}

static bool is_named(const char *name, const char *call)
{
    size_t length = strlen(call);
    return strncmp(name, call, length) == 0 && (name[length] == '\0' || strcmp(name + length, "KHR") == 0);
}

static VKAPI_ATTR PFN_vkVoidFunction VKAPI_CALL device_proc(VkDevice device, const char *name);

static PFN_vkVoidFunction device_call(const char *name)
{
    if (strcmp(name, "vkGetDeviceProcAddr") == 0)
        return (PFN_vkVoidFunction)device_proc;
#define X(call)                                                                                                        \
    if (is_named(name, "vk" #call))                                                                                    \
        return (PFN_vkVoidFunction)x_##call;
    DEVICE_CALLS(X)
#undef X
    return NULL;
}

static VKAPI_ATTR PFN_vkVoidFunction VKAPI_CALL device_proc(VkDevice device, const char *name)
{
    PFN_vkVoidFunction own = device_call(name), next = device_of(device)->next(device, name);
    return own && next ? own : next;
}

static VKAPI_ATTR PFN_vkVoidFunction VKAPI_CALL instance_proc(VkInstance instance, const char *name)
{
    if (strcmp(name, "vkGetInstanceProcAddr") == 0)
        return (PFN_vkVoidFunction)instance_proc;
    if (strcmp(name, "vkCreateInstance") == 0)
        return (PFN_vkVoidFunction)x_CreateInstance;
    if (strcmp(name, "vkDestroyInstance") == 0)
        return (PFN_vkVoidFunction)x_DestroyInstance;
    if (strcmp(name, "vkCreateDevice") == 0)
        return (PFN_vkVoidFunction)x_CreateDevice;
#define X(call)                                                                                                        \
    if (is_named(name, "vk" #call))                                                                                    \
        return (PFN_vkVoidFunction)x_##call;
    PHYSICAL_CALLS(X)
#undef X
    PFN_vkVoidFunction own = device_call(name);
    if (own || !instance)
        return own;
    return ((struct instance *)of(&instances, instance))->next(instance, name);
}

VKAPI_ATTR VkResult VKAPI_CALL vkNegotiateLoaderLayerInterfaceVersion(VkNegotiateLayerInterface *interface);

__attribute__((visibility("default"))) VKAPI_ATTR VkResult VKAPI_CALL
vkNegotiateLoaderLayerInterfaceVersion(VkNegotiateLayerInterface *interface)
{
    interface->loaderLayerInterfaceVersion = 2;
    interface->pfnGetInstanceProcAddr = instance_proc;
    interface->pfnGetDeviceProcAddr = device_proc;
    interface->pfnGetPhysicalDeviceProcAddr = NULL;
    return VK_SUCCESS;
}
