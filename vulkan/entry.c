/* The loader's side: what the layer says of itself and of physical devices, and how instances and devices come and go
 * (loader interface version 2; Vulkan 1.3, "Devices and Queues", "Features", "Extended Functionality"). */
#include "layer.h"

#include <stdio.h>
#include <stdlib.h>
#include <string.h>

#define LAYER_NAME "VK_LAYER_VQ_timeline"

struct instance {
    VkInstance handle;
    PFN_vkGetInstanceProcAddr next_proc;
    PFN_vkDestroyInstance DestroyInstance;
#define X(name) PFN_vk##name name;
    PHYSICAL_CALLS(X)
#undef X
    struct settings settings;
};

static pthread_rwlock_t known = PTHREAD_RWLOCK_INITIALIZER;
static struct table devices, instances; /* by the loader's word */

struct device *device_of(const void *handle)
{
    pthread_rwlock_rdlock(&known);
    struct device *d = table_get(&devices, loader_word(handle));
    pthread_rwlock_unlock(&known);
    return d;
}

static struct instance *instance_of(const void *handle)
{
    pthread_rwlock_rdlock(&known);
    struct instance *i = table_get(&instances, loader_word(handle));
    pthread_rwlock_unlock(&known);
    return i;
}

/* Makes room to remember one more, before what is to be remembered is made. */
static bool can_remember(struct table *table)
{
    pthread_rwlock_wrlock(&known);
    bool has_room = table_reserve(table);
    pthread_rwlock_unlock(&known);
    return has_room;
}

static bool remember(struct table *table, const void *handle, void *value)
{
    pthread_rwlock_wrlock(&known);
    bool is_put = table_put(table, loader_word(handle), value);
    pthread_rwlock_unlock(&known);
    return is_put;
}

static void *forget(struct table *table, const void *handle)
{
    pthread_rwlock_wrlock(&known);
    void *value = table_take(table, loader_word(handle));
    if (table->live == 0)
        table_free(table);
    pthread_rwlock_unlock(&known);
    return value;
}

void complain(const char *what, int64_t which)
{
    fprintf(stderr, LAYER_NAME ": %s (%lld)\n", what, (long long)which);
}

/* What a physical device can ------------------------------------------------------------------------------------ */

/* Whether the driver has timelines of its own, which are left alone by default. */
static bool has_timelines(const struct instance *i, VkPhysicalDevice physical)
{
    VkPhysicalDeviceTimelineSemaphoreFeatures has = {
        .sType = VK_STRUCTURE_TYPE_PHYSICAL_DEVICE_TIMELINE_SEMAPHORE_FEATURES};
    VkPhysicalDeviceFeatures2 features = {.sType = VK_STRUCTURE_TYPE_PHYSICAL_DEVICE_FEATURES_2, .pNext = &has};
    if (i->GetPhysicalDeviceFeatures2)
        i->GetPhysicalDeviceFeatures2(physical, &features);
    return has.timelineSemaphore != VK_FALSE;
}

static bool stands_in(const struct instance *i, VkPhysicalDevice physical)
{
    return i->settings.always || !has_timelines(i, physical);
}

/* Drivers that run the batches of a queue one after another, with what they wrote made visible between. */
static bool runs_in_order(const struct instance *i, VkPhysicalDevice physical)
{
    VkPhysicalDeviceDriverProperties driver = {.sType = VK_STRUCTURE_TYPE_PHYSICAL_DEVICE_DRIVER_PROPERTIES};
    VkPhysicalDeviceProperties2 properties = {.sType = VK_STRUCTURE_TYPE_PHYSICAL_DEVICE_PROPERTIES_2,
                                              .pNext = &driver};
    if (i->GetPhysicalDeviceProperties2)
        i->GetPhysicalDeviceProperties2(physical, &properties);
    return driver.driverID == VK_DRIVER_ID_MESA_LLVMPIPE;
}

static VKAPI_ATTR void VKAPI_CALL layer_GetPhysicalDeviceFeatures2(VkPhysicalDevice physical,
                                                                   VkPhysicalDeviceFeatures2 *features)
{
    struct instance *i = instance_of(physical);
    i->GetPhysicalDeviceFeatures2(physical, features);
    if (!stands_in(i, physical))
        return;
    VkPhysicalDeviceTimelineSemaphoreFeatures *alone =
        in_chain(features->pNext, VK_STRUCTURE_TYPE_PHYSICAL_DEVICE_TIMELINE_SEMAPHORE_FEATURES);
    VkPhysicalDeviceVulkan12Features *all =
        in_chain(features->pNext, VK_STRUCTURE_TYPE_PHYSICAL_DEVICE_VULKAN_1_2_FEATURES);
    if (alone)
        alone->timelineSemaphore = VK_TRUE;
    if (all)
        all->timelineSemaphore = VK_TRUE;
}

/* Values are compared and never added, so any difference of two does. */
static VKAPI_ATTR void VKAPI_CALL layer_GetPhysicalDeviceProperties2(VkPhysicalDevice physical,
                                                                     VkPhysicalDeviceProperties2 *properties)
{
    struct instance *i = instance_of(physical);
    i->GetPhysicalDeviceProperties2(physical, properties);
    if (!stands_in(i, physical))
        return;
    VkPhysicalDeviceTimelineSemaphoreProperties *alone =
        in_chain(properties->pNext, VK_STRUCTURE_TYPE_PHYSICAL_DEVICE_TIMELINE_SEMAPHORE_PROPERTIES);
    VkPhysicalDeviceVulkan12Properties *all =
        in_chain(properties->pNext, VK_STRUCTURE_TYPE_PHYSICAL_DEVICE_VULKAN_1_2_PROPERTIES);
    if (alone)
        alone->maxTimelineSemaphoreValueDifference = UINT64_MAX;
    if (all)
        all->maxTimelineSemaphoreValueDifference = UINT64_MAX;
}

/* A timeline of the layer's can't leave the device, nor come from outside. */
static VKAPI_ATTR void VKAPI_CALL layer_GetPhysicalDeviceExternalSemaphoreProperties(
    VkPhysicalDevice physical, const VkPhysicalDeviceExternalSemaphoreInfo *info,
    VkExternalSemaphoreProperties *properties)
{
    struct instance *i = instance_of(physical);
    const VkSemaphoreTypeCreateInfo *type = in_chain(info->pNext, VK_STRUCTURE_TYPE_SEMAPHORE_TYPE_CREATE_INFO);
    if (!type || type->semaphoreType != VK_SEMAPHORE_TYPE_TIMELINE || !stands_in(i, physical)) {
        i->GetPhysicalDeviceExternalSemaphoreProperties(physical, info, properties);
        return;
    }
    properties->exportFromImportedHandleTypes = 0;
    properties->compatibleHandleTypes = 0;
    properties->externalSemaphoreFeatures = 0;
}

static const VkExtensionProperties extension = {VK_KHR_TIMELINE_SEMAPHORE_EXTENSION_NAME,
                                                VK_KHR_TIMELINE_SEMAPHORE_SPEC_VERSION};

static VkResult tell_extensions(const VkExtensionProperties *all, uint32_t there, uint32_t *count,
                                VkExtensionProperties *to)
{
    if (!to) {
        *count = there;
        return VK_SUCCESS;
    }
    bool is_short = *count < there;
    if (!is_short)
        *count = there;
    memcpy(to, all, *count * sizeof *all);
    return is_short ? VK_INCOMPLETE : VK_SUCCESS;
}

/* The driver's extensions, with room for one more: NULL for want of memory, or where it fails. */
static VkExtensionProperties *extensions_of(const struct instance *i, VkPhysicalDevice physical, uint32_t *count,
                                            VkResult *result)
{
    *result = i->EnumerateDeviceExtensionProperties(physical, NULL, count, NULL);
    if (*result != VK_SUCCESS)
        return NULL;
    VkExtensionProperties *all = calloc((size_t)*count + 1, sizeof *all);
    *result = all ? i->EnumerateDeviceExtensionProperties(physical, NULL, count, all) : VK_ERROR_OUT_OF_HOST_MEMORY;
    if (*result >= 0)
        return all;
    free(all);
    return NULL;
}

static VKAPI_ATTR VkResult VKAPI_CALL layer_EnumerateDeviceExtensionProperties(VkPhysicalDevice physical,
                                                                               const char *layer, uint32_t *count,
                                                                               VkExtensionProperties *properties)
{
    if (layer && strcmp(layer, LAYER_NAME) == 0)
        return tell_extensions(&extension, 1, count, properties);
    struct instance *i = instance_of(physical);
    if (layer || !stands_in(i, physical))
        return i->EnumerateDeviceExtensionProperties(physical, layer, count, properties);
    uint32_t there = 0;
    VkResult result;
    VkExtensionProperties *all = extensions_of(i, physical, &there, &result);
    if (!all) {
        /* Mesa's layer that selects devices asks for so many extensions next, whatever the result */
        *count = 0;
        return result;
    }
    bool is_there = false;
    for (uint32_t k = 0; k < there; k++)
        is_there = is_there || strcmp(all[k].extensionName, extension.extensionName) == 0;
    if (!is_there)
        all[there++] = extension;
    result = tell_extensions(all, there, count, properties);
    free(all);
    return result;
}

/* Devices ------------------------------------------------------------------------------------------------------- */

/* vkCreateDevice of the next one, which is asked for no timelines. The structs of the chain are the client's: what is
 * written there is put back. */
static VkResult create_next(PFN_vkCreateDevice create, VkPhysicalDevice physical, const VkDeviceCreateInfo *info,
                            const VkAllocationCallbacks *allocator, VkDevice *device)
{
    VkPhysicalDeviceTimelineSemaphoreFeatures *alone =
        in_chain(info->pNext, VK_STRUCTURE_TYPE_PHYSICAL_DEVICE_TIMELINE_SEMAPHORE_FEATURES);
    VkPhysicalDeviceVulkan12Features *all =
        in_chain(info->pNext, VK_STRUCTURE_TYPE_PHYSICAL_DEVICE_VULKAN_1_2_FEATURES);
    const char **names = calloc((size_t)info->enabledExtensionCount + 1, sizeof *names);
    if (!names)
        return VK_ERROR_OUT_OF_HOST_MEMORY;
    VkDeviceCreateInfo own = *info;
    own.enabledExtensionCount = 0;
    for (uint32_t i = 0; i < info->enabledExtensionCount; i++)
        if (strcmp(info->ppEnabledExtensionNames[i], extension.extensionName) != 0)
            names[own.enabledExtensionCount++] = info->ppEnabledExtensionNames[i];
    own.ppEnabledExtensionNames = names;
    VkBool32 was_alone = alone ? alone->timelineSemaphore : VK_FALSE;
    VkBool32 was_all = all ? all->timelineSemaphore : VK_FALSE;
    if (alone)
        alone->timelineSemaphore = VK_FALSE;
    if (all)
        all->timelineSemaphore = VK_FALSE;
    VkResult result = create(physical, &own, allocator, device);
    if (alone)
        alone->timelineSemaphore = was_alone;
    if (all)
        all->timelineSemaphore = was_all;
    free(names);
    return result;
}

static void free_device(struct device *d)
{
    vq_layer_close(&d->layer);
    for (uint32_t i = 0; i < d->queue_count; i++)
        pthread_mutex_destroy(&d->queues[i].driver);
    pthread_mutex_destroy(&d->core);
    pthread_cond_destroy(&d->changed);
    table_free(&d->semaphores);
    table_free(&d->client_fences);
    table_free(&d->shared_fences);
    free(d->queues);
    free(d->numbers);
    free(d->spare);
    free(d);
}

/* The layer's part of a device, before the driver's is there: NULL for want of memory. All queues that the client asks
 * for are opened here, and get their handles as it fetches them. */
static struct device *new_device(const VkDeviceCreateInfo *info)
{
    struct device *d = calloc(1, sizeof *d);
    if (!d)
        return NULL;
    pthread_mutex_init(&d->core, NULL);
    pthread_condattr_t clock;
    pthread_condattr_init(&clock);
    pthread_condattr_setclock(&clock, CLOCK_MONOTONIC);
    pthread_cond_init(&d->changed, &clock);
    pthread_condattr_destroy(&clock);
    uint32_t count = 0;
    for (uint32_t i = 0; i < info->queueCreateInfoCount; i++)
        count += info->pQueueCreateInfos[i].queueCount;
    d->queues = calloc((size_t)count + 1, sizeof *d->queues);
    bool is_open = d->queues && count <= MOST_QUEUES && vq_layer_open(&d->layer) == VQ_LAYER_DONE;
    while (is_open && d->queue_count < count) {
        struct queue *q = &d->queues[d->queue_count];
        struct vq_layer_answer opened = vq_layer_open_queue(&d->layer);
        is_open = opened.code == VQ_LAYER_DONE;
        q->number = opened.number;
        pthread_mutex_init(&q->driver, NULL);
        d->queue_count++;
    }
    if (is_open)
        return d;
    free_device(d);
    return NULL;
}

static void find_calls(struct device *d, PFN_vkGetDeviceProcAddr next)
{
    d->next_proc = next;
#define X(name)                                                                                                        \
    d->next.name = (PFN_vk##name)next(d->handle, "vk" #name);                                                          \
    if (!d->next.name)                                                                                                 \
        d->next.name = (PFN_vk##name)next(d->handle, "vk" #name "KHR");
    DEVICE_CALLS(X)
    OTHER_CALLS(X)
#undef X
}

static VKAPI_ATTR VkResult VKAPI_CALL layer_CreateDevice(VkPhysicalDevice physical, const VkDeviceCreateInfo *info,
                                                         const VkAllocationCallbacks *allocator, VkDevice *device)
{
    struct instance *i = instance_of(physical);
    VkLayerDeviceCreateInfo *link = device_link(info);
    if (!link)
        return VK_ERROR_INITIALIZATION_FAILED;
    PFN_vkGetInstanceProcAddr next = link->u.pLayerInfo->pfnNextGetInstanceProcAddr;
    PFN_vkGetDeviceProcAddr next_device = link->u.pLayerInfo->pfnNextGetDeviceProcAddr;
    PFN_vkCreateDevice create = (PFN_vkCreateDevice)next(i->handle, "vkCreateDevice");
    link->u.pLayerInfo = link->u.pLayerInfo->pNext;
    struct device *d = can_remember(&devices) ? new_device(info) : NULL;
    if (!d)
        return VK_ERROR_OUT_OF_HOST_MEMORY;
    d->is_active = stands_in(i, physical);
    d->settings = i->settings;
    open_trace(&d->trace, d->is_active ? i->settings.trace : "");
    bool is_in_order = runs_in_order(i, physical);
    d->drops_same_queue =
        i->settings.same_queue == SAME_DROP || (i->settings.same_queue == SAME_KNOWN && is_in_order);
    d->set_loader_data = loader_data(info);
    d->bars_dropped = d->set_loader_data && (i->settings.dropped == DROPPED_BARRIER
                                             || (i->settings.dropped == DROPPED_KNOWN && !is_in_order));
    VkResult result = d->is_active ? create_next(create, physical, info, allocator, device)
                                   : create(physical, info, allocator, device);
    if (result != VK_SUCCESS) {
        free_device(d);
        return result;
    }
    d->handle = *device;
    find_calls(d, next_device);
    if (remember(&devices, *device, d))
        return VK_SUCCESS;
    d->next.DestroyDevice(*device, allocator);
    free_device(d);
    return VK_ERROR_OUT_OF_HOST_MEMORY;
}

static void write_log(const struct device *d)
{
    if (d->settings.log[0] == '\0' || !d->is_active)
        return;
    bool is_file = strcmp(d->settings.log, "stderr") != 0;
    FILE *to = is_file ? fopen(d->settings.log, "a") : stderr;
    if (!to)
        return;
    const struct counts *c = &d->counts;
    fprintf(to,
            LAYER_NAME ": batches %llu, submits that left something held back %llu, waits %llu (past %llu, covered "
                       "%llu), relays %llu, barriers %llu, fences %llu, binary semaphores %llu, waits of the host "
                       "%llu\n",
            (unsigned long long)c->batches, (unsigned long long)c->held_back, (unsigned long long)c->waits,
            (unsigned long long)c->past, (unsigned long long)c->covered, (unsigned long long)c->relays,
            (unsigned long long)c->barriers, (unsigned long long)c->fences, (unsigned long long)c->binaries,
            (unsigned long long)c->host_waits);
    if (is_file)
        fclose(to);
}

static void destroy_objects(struct device *d)
{
    for (uint32_t i = 0; i < d->queue_count; i++) {
        if (d->queues[i].newest)
            done_up_to(d, d->queues[i].newest);
        if (d->queues[i].pool)
            d->next.DestroyCommandPool(d->handle, d->queues[i].pool, NULL);
    }
    /* what the client didn't destroy: its handles are gone with the device */
    for (size_t i = 0; i < d->semaphores.room; i++) {
        struct timeline *t = d->semaphores.keys[i] > 1 ? d->semaphores.values[i] : NULL;
        for (uint32_t k = 0; t && k < t->sync_room; k++)
            unrefer_flight(d, t->syncs[k].flight);
        free(t ? t->free_points : NULL);
        free(t ? t->syncs : NULL);
        free(t);
    }
    for (struct flight *f = d->spare_flights, *next; f; f = next) {
        next = f->next;
        if (f->own)
            d->next.DestroyFence(d->handle, f->own, NULL);
        free(f->relays);
        free(f);
    }
    for (uint32_t i = 0; i < d->spare_count; i++)
        d->next.DestroySemaphore(d->handle, d->spare[i], NULL);
}

static VKAPI_ATTR void VKAPI_CALL layer_DestroyDevice(VkDevice device, const VkAllocationCallbacks *allocator)
{
    if (!device)
        return;
    struct device *d = forget(&devices, device);
    stop_watcher(d);
    destroy_objects(d);
    close_trace(d);
    write_log(d);
    d->next.DestroyDevice(device, allocator);
    free_device(d);
}

/* A queue gets its handle when the client fetches it; again, it is the same one. */
static void have_queue(struct device *d, VkQueue handle, uint32_t family)
{
    pthread_mutex_lock(&d->core);
    if (handle && !queue_of(d, handle))
        for (uint32_t i = 0; i < d->queue_count; i++)
            if (!d->queues[i].handle) {
                d->queues[i].handle = handle;
                d->queues[i].family = family;
                break;
            }
    pthread_mutex_unlock(&d->core);
}

static VKAPI_ATTR void VKAPI_CALL layer_GetDeviceQueue(VkDevice device, uint32_t family, uint32_t index,
                                                       VkQueue *queue)
{
    struct device *d = device_of(device);
    d->next.GetDeviceQueue(device, family, index, queue);
    have_queue(d, *queue, family);
}

static VKAPI_ATTR void VKAPI_CALL layer_GetDeviceQueue2(VkDevice device, const VkDeviceQueueInfo2 *info,
                                                        VkQueue *queue)
{
    struct device *d = device_of(device);
    d->next.GetDeviceQueue2(device, info, queue);
    have_queue(d, *queue, info->queueFamilyIndex);
}

/* Instances ----------------------------------------------------------------------------------------------------- */

/* The next functions are asked for now: later the loader's own table leads back to this layer. */
static void find_physical_calls(struct instance *i)
{
    i->DestroyInstance = (PFN_vkDestroyInstance)i->next_proc(i->handle, "vkDestroyInstance");
#define X(name)                                                                                                        \
    i->name = (PFN_vk##name)i->next_proc(i->handle, "vk" #name);                                                       \
    if (!i->name)                                                                                                      \
        i->name = (PFN_vk##name)i->next_proc(i->handle, "vk" #name "KHR");
    PHYSICAL_CALLS(X)
#undef X
}

static VKAPI_ATTR VkResult VKAPI_CALL layer_CreateInstance(const VkInstanceCreateInfo *info,
                                                           const VkAllocationCallbacks *allocator,
                                                           VkInstance *instance)
{
    VkLayerInstanceCreateInfo *link = instance_link(info);
    if (!link)
        return VK_ERROR_INITIALIZATION_FAILED;
    PFN_vkGetInstanceProcAddr next = link->u.pLayerInfo->pfnNextGetInstanceProcAddr;
    link->u.pLayerInfo = link->u.pLayerInfo->pNext;
    struct instance *i = can_remember(&instances) ? calloc(1, sizeof *i) : NULL;
    if (!i)
        return VK_ERROR_OUT_OF_HOST_MEMORY;
    VkResult result = ((PFN_vkCreateInstance)next(NULL, "vkCreateInstance"))(info, allocator, instance);
    if (result != VK_SUCCESS) {
        free(i);
        return result;
    }
    i->handle = *instance;
    i->next_proc = next;
    i->settings = read_settings();
    find_physical_calls(i);
    if (remember(&instances, *instance, i))
        return VK_SUCCESS;
    i->DestroyInstance(*instance, allocator);
    free(i);
    return VK_ERROR_OUT_OF_HOST_MEMORY;
}

static VKAPI_ATTR void VKAPI_CALL layer_DestroyInstance(VkInstance instance, const VkAllocationCallbacks *allocator)
{
    if (!instance)
        return;
    struct instance *i = forget(&instances, instance);
    i->DestroyInstance(instance, allocator);
    free(i);
}

/* Functions by their names -------------------------------------------------------------------------------------- */

/* Whether a name is that of a call, with the suffix of its extension or without. */
static bool is_named(const char *name, const char *call)
{
    size_t length = strlen(call);
    return strncmp(name, call, length) == 0 && (name[length] == '\0' || strcmp(name + length, "KHR") == 0);
}

static VKAPI_ATTR PFN_vkVoidFunction VKAPI_CALL device_proc(VkDevice device, const char *name);
static VKAPI_ATTR PFN_vkVoidFunction VKAPI_CALL instance_proc(VkInstance instance, const char *name);

static PFN_vkVoidFunction device_call(const char *name)
{
    if (strcmp(name, "vkGetDeviceProcAddr") == 0)
        return (PFN_vkVoidFunction)device_proc;
#define X(call)                                                                                                        \
    if (is_named(name, "vk" #call))                                                                                    \
        return (PFN_vkVoidFunction)layer_##call;
    DEVICE_CALLS(X)
#undef X
    return NULL;
}

static PFN_vkVoidFunction instance_call(const char *name)
{
    if (strcmp(name, "vkGetInstanceProcAddr") == 0)
        return (PFN_vkVoidFunction)instance_proc;
    if (strcmp(name, "vkCreateInstance") == 0)
        return (PFN_vkVoidFunction)layer_CreateInstance;
    if (strcmp(name, "vkDestroyInstance") == 0)
        return (PFN_vkVoidFunction)layer_DestroyInstance;
    if (strcmp(name, "vkCreateDevice") == 0)
        return (PFN_vkVoidFunction)layer_CreateDevice;
#define X(call)                                                                                                        \
    if (is_named(name, "vk" #call))                                                                                    \
        return (PFN_vkVoidFunction)layer_##call;
    PHYSICAL_CALLS(X)
#undef X
    return NULL;
}

/* The calls of timelines are there where the driver hasn't them; others only where it has. */
static bool is_of_timelines(const char *name)
{
    return is_named(name, "vkGetSemaphoreCounterValue") || is_named(name, "vkWaitSemaphores")
           || is_named(name, "vkSignalSemaphore");
}

static VKAPI_ATTR PFN_vkVoidFunction VKAPI_CALL device_proc(VkDevice device, const char *name)
{
    struct device *d = device_of(device);
    PFN_vkVoidFunction own = device_call(name), next = d->next_proc(device, name);
    return own && (next || (d->is_active && is_of_timelines(name))) ? own : next;
}

static VKAPI_ATTR PFN_vkVoidFunction VKAPI_CALL instance_proc(VkInstance instance, const char *name)
{
    PFN_vkVoidFunction own = instance_call(name);
    if (!own)
        own = device_call(name);
    if (own || !instance)
        return own;
    struct instance *i = instance_of(instance);
    return i->next_proc(instance, name);
}

VKAPI_ATTR VkResult VKAPI_CALL vkNegotiateLoaderLayerInterfaceVersion(VkNegotiateLayerInterface *interface);

__attribute__((visibility("default"))) VKAPI_ATTR VkResult VKAPI_CALL
vkNegotiateLoaderLayerInterfaceVersion(VkNegotiateLayerInterface *interface)
{
    if (interface->loaderLayerInterfaceVersion < 2)
        return VK_ERROR_INITIALIZATION_FAILED;
    interface->loaderLayerInterfaceVersion = 2;
    interface->pfnGetInstanceProcAddr = instance_proc;
    interface->pfnGetDeviceProcAddr = device_proc;
    interface->pfnGetPhysicalDeviceProcAddr = NULL;
    return VK_SUCCESS;
}
