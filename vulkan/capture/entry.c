/* The loader's side: how instances and devices come and go (loader interface version 2). Each call that the recorder
 * answers is one that the driver has; the recorder shows nothing that isn't there, and changes no call. */
#include "capture.h"

#include <stdlib.h>
#include <string.h>

/* Lists, as one that was made can't be given back where there is no memory for a table: the loader frees it again. */
struct instance {
    struct instance *next;
    uint64_t word; /* the loader's */
    VkInstance handle;
    PFN_vkGetInstanceProcAddr next_proc;
    PFN_vkDestroyInstance DestroyInstance;
};

static pthread_rwlock_t known = PTHREAD_RWLOCK_INITIALIZER;
static struct instance *instances;
static struct device *devices;

static struct instance *instance_of(const void *handle)
{
    pthread_rwlock_rdlock(&known);
    struct instance *i = instances;
    while (i && i->word != loader_word(handle))
        i = i->next;
    pthread_rwlock_unlock(&known);
    return i;
}

struct device *device_of(const void *handle)
{
    pthread_rwlock_rdlock(&known);
    struct device *d = devices;
    while (d && d->word != loader_word(handle))
        d = d->next;
    pthread_rwlock_unlock(&known);
    return d;
}

/* Devices ---------------------------------------------------------------------------------------------------------- */

static PFN_vkVoidFunction either(const struct device *d, const char *name, const char *extended)
{
    PFN_vkVoidFunction call = d->next_proc(d->handle, name);
    return call ? call : d->next_proc(d->handle, extended);
}

static void load_calls(struct device *d)
{
#define X(name)                                                            \
    d->calls.name = (PFN_vk##name)either(d, "vk" #name, "vk" #name "KHR"); \
    if (!d->calls.name)                                                    \
        d->calls.name = (PFN_vk##name)d->next_proc(d->handle, "vk" #name "EXT");
    DEVICE_CALLS(X)
#undef X
}

static VKAPI_ATTR VkResult VKAPI_CALL capture_CreateDevice(VkPhysicalDevice physical, const VkDeviceCreateInfo *info,
                                                           const VkAllocationCallbacks *allocator, VkDevice *device)
{
    VkLayerDeviceCreateInfo *link = device_link(info);
    const struct instance *i = instance_of(physical);
    if (!link || !i)
        return VK_ERROR_INITIALIZATION_FAILED;
    PFN_vkGetInstanceProcAddr next_instance_proc = link->u.pLayerInfo->pfnNextGetInstanceProcAddr;
    PFN_vkGetDeviceProcAddr next_device_proc = link->u.pLayerInfo->pfnNextGetDeviceProcAddr;
    PFN_vkCreateDevice create = (PFN_vkCreateDevice)next_instance_proc(i->handle, "vkCreateDevice");
    link->u.pLayerInfo = link->u.pLayerInfo->pNext;
    struct device *d = calloc(1, sizeof *d);
    VkResult result = d && create ? create(physical, info, allocator, device) : VK_ERROR_OUT_OF_HOST_MEMORY;
    if (result != VK_SUCCESS) {
        free(d);
        return result;
    }
    d->handle = *device;
    d->word = loader_word(*device);
    d->next_proc = next_device_proc;
    load_calls(d);
    pthread_rwlock_wrlock(&known);
    d->next = devices;
    devices = d;
    pthread_rwlock_unlock(&known);
    return VK_SUCCESS;
}

VKAPI_ATTR void VKAPI_CALL capture_DestroyDevice(VkDevice device, const VkAllocationCallbacks *allocator)
{
    struct device *d = device ? device_of(device) : NULL;
    if (!d)
        return;
    pthread_rwlock_wrlock(&known);
    struct device **at = &devices;
    while (*at != d)
        at = &(*at)->next;
    *at = d->next;
    pthread_rwlock_unlock(&known);
    d->calls.DestroyDevice(device, allocator);
    lock_recorder();
    drop_batches(d);
    write_ready();
    free_device(d);
    unlock_recorder();
    free(d);
}

/* Instances -------------------------------------------------------------------------------------------------------- */

static VKAPI_ATTR VkResult VKAPI_CALL capture_CreateInstance(const VkInstanceCreateInfo *info,
                                                             const VkAllocationCallbacks *allocator,
                                                             VkInstance *instance)
{
    VkLayerInstanceCreateInfo *link = instance_link(info);
    if (!link)
        return VK_ERROR_INITIALIZATION_FAILED;
    PFN_vkGetInstanceProcAddr next = link->u.pLayerInfo->pfnNextGetInstanceProcAddr;
    PFN_vkCreateInstance create = (PFN_vkCreateInstance)next(NULL, "vkCreateInstance");
    link->u.pLayerInfo = link->u.pLayerInfo->pNext;
    struct instance *i = calloc(1, sizeof *i);
    VkResult result = i && create ? create(info, allocator, instance) : VK_ERROR_OUT_OF_HOST_MEMORY;
    if (result != VK_SUCCESS) {
        free(i);
        return result;
    }
    i->word = loader_word(*instance);
    i->handle = *instance;
    i->next_proc = next;
    i->DestroyInstance = (PFN_vkDestroyInstance)next(*instance, "vkDestroyInstance");
    pthread_rwlock_wrlock(&known);
    i->next = instances;
    instances = i;
    pthread_rwlock_unlock(&known);
    return VK_SUCCESS;
}

static VKAPI_ATTR void VKAPI_CALL capture_DestroyInstance(VkInstance instance, const VkAllocationCallbacks *allocator)
{
    struct instance *i = instance ? instance_of(instance) : NULL;
    if (!i)
        return;
    pthread_rwlock_wrlock(&known);
    struct instance **at = &instances;
    while (*at != i)
        at = &(*at)->next;
    *at = i->next;
    pthread_rwlock_unlock(&known);
    i->DestroyInstance(instance, allocator);
    free(i);
}

/* Addresses -------------------------------------------------------------------------------------------------------- */

static VKAPI_ATTR PFN_vkVoidFunction VKAPI_CALL device_proc(VkDevice device, const char *name);

static bool is_named(const char *name, const char *call)
{
    size_t length = strlen(call);
    const char *rest = name + length;
    return strncmp(name, call, length) == 0
           && (rest[0] == '\0' || strcmp(rest, "KHR") == 0 || strcmp(rest, "EXT") == 0);
}

static PFN_vkVoidFunction device_call(const char *name)
{
    if (strcmp(name, "vkGetDeviceProcAddr") == 0)
        return (PFN_vkVoidFunction)device_proc;
#define X(call)                     \
    if (is_named(name, "vk" #call)) \
        return (PFN_vkVoidFunction)capture_##call;
    DEVICE_CALLS(X)
#undef X
    return NULL;
}

static VKAPI_ATTR PFN_vkVoidFunction VKAPI_CALL device_proc(VkDevice device, const char *name)
{
    const struct device *d = device_of(device);
    PFN_vkVoidFunction next = d ? d->next_proc(device, name) : NULL, own = next ? device_call(name) : NULL;
    return own ? own : next;
}

static VKAPI_ATTR PFN_vkVoidFunction VKAPI_CALL instance_proc(VkInstance instance, const char *name)
{
    if (strcmp(name, "vkGetInstanceProcAddr") == 0)
        return (PFN_vkVoidFunction)instance_proc;
    if (strcmp(name, "vkCreateInstance") == 0)
        return (PFN_vkVoidFunction)capture_CreateInstance;
    if (strcmp(name, "vkDestroyInstance") == 0)
        return (PFN_vkVoidFunction)capture_DestroyInstance;
    if (strcmp(name, "vkCreateDevice") == 0)
        return (PFN_vkVoidFunction)capture_CreateDevice;
    const struct instance *i = instance ? instance_of(instance) : NULL;
    PFN_vkVoidFunction next = i ? i->next_proc(instance, name) : NULL, own = next ? device_call(name) : NULL;
    return own ? own : next;
}

VKAPI_ATTR VkResult VKAPI_CALL vkNegotiateLoaderLayerInterfaceVersion(VkNegotiateLayerInterface *interface);

__attribute__((visibility("default"))) VKAPI_ATTR VkResult VKAPI_CALL
vkNegotiateLoaderLayerInterfaceVersion(VkNegotiateLayerInterface *interface)
{
    interface->loaderLayerInterfaceVersion = 2;
    interface->pfnGetInstanceProcAddr = instance_proc;
    interface->pfnGetDeviceProcAddr = device_proc;
    interface->pfnGetPhysicalDeviceProcAddr = NULL;
    return VK_SUCCESS;
}
