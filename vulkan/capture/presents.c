/* Presents and acquires: each image of a swapchain has a queue of its own, whose batches read the image when it is
 * presented and signal when it is acquired again. */
#include "capture.h"

#include <stdlib.h>

struct swapchain {
    VkFormat format;
    VkExtent2D extent;
    uint32_t layers;
    uint32_t count;
    uint64_t keys[64];
    struct thing *images[64], *queues[64];
};
enum { MOST_IMAGES = 64 };

VKAPI_ATTR VkResult VKAPI_CALL capture_CreateSwapchainKHR(VkDevice device, const VkSwapchainCreateInfoKHR *info,
                                                          const VkAllocationCallbacks *allocator,
                                                          VkSwapchainKHR *swapchain)
{
    struct device *d = device_of(device);
    VkResult result = d->calls.CreateSwapchainKHR(device, info, allocator, swapchain);
    if (result != VK_SUCCESS)
        return result;
    lock_recorder();
    struct swapchain *s = is_recording() ? get(1, sizeof *s) : NULL;
    if (s) {
        s->format = info->imageFormat;
        s->extent = info->imageExtent;
        s->layers = info->imageArrayLayers;
        if (!table_put(&d->tables[SWAPCHAINS], KEY(*swapchain), s))
            free(s);
    }
    unlock_recorder();
    return result;
}

VKAPI_ATTR void VKAPI_CALL capture_DestroySwapchainKHR(VkDevice device, VkSwapchainKHR swapchain,
                                                       const VkAllocationCallbacks *allocator)
{
    struct device *d = device_of(device);
    lock_recorder();
    struct swapchain *s = swapchain ? table_take(&d->tables[SWAPCHAINS], KEY(swapchain)) : NULL;
    for (uint32_t i = 0; s && i < s->count; i++)
        end_thing(d, s->keys[i], "vkDestroySwapchainKHR");
    free(s);
    unlock_recorder();
    d->calls.DestroySwapchainKHR(device, swapchain, allocator);
}

VKAPI_ATTR VkResult VKAPI_CALL capture_GetSwapchainImagesKHR(VkDevice device, VkSwapchainKHR swapchain, uint32_t *count,
                                                             VkImage *images)
{
    struct device *d = device_of(device);
    VkResult result = d->calls.GetSwapchainImagesKHR(device, swapchain, count, images);
    lock_recorder();
    struct swapchain *s =
        is_recording() && result >= 0 && images ? table_get(&d->tables[SWAPCHAINS], KEY(swapchain)) : NULL;
    for (uint32_t i = s ? s->count : 0; s && i < *count && i < MOST_IMAGES; i++) {
        VkExtent3D extent = {s->extent.width, s->extent.height, 1};
        s->keys[i] = KEY(images[i]);
        s->images[i] = new_image(d, s->keys[i], s->format, extent, 1, s->layers, "an image of a swapchain");
        s->queues[i] = new_thing(d, QUEUE, 0, 0, "which presents the image above");
        if (s->images[i])
            s->images[i]->is_swapped = true;
        s->count = i + 1;
    }
    unlock_recorder();
    return result;
}

static void acquired(struct device *d, VkResult result, VkSwapchainKHR swapchain, uint32_t image, VkSemaphore semaphore,
                     VkFence fence, const char *call)
{
    if (result != VK_SUCCESS && result != VK_SUBOPTIMAL_KHR)
        return;
    lock_recorder();
    struct swapchain *s = is_recording() ? table_get(&d->tables[SWAPCHAINS], KEY(swapchain)) : NULL;
    if (s && image < s->count) {
        struct batch *b = new_batch(call);
        add_signal(b, find(d, KEY(semaphore)), 0, EVERY);
        add_fence(b, find(d, KEY(fence)));
        hand_on(s->queues[image], b);
    }
    unlock_recorder();
}

VKAPI_ATTR VkResult VKAPI_CALL capture_AcquireNextImageKHR(VkDevice device, VkSwapchainKHR swapchain, uint64_t timeout,
                                                           VkSemaphore semaphore, VkFence fence, uint32_t *image)
{
    struct device *d = device_of(device);
    VkResult result = d->calls.AcquireNextImageKHR(device, swapchain, timeout, semaphore, fence, image);
    acquired(d, result, swapchain, *image, semaphore, fence, "vkAcquireNextImageKHR");
    return result;
}

VKAPI_ATTR VkResult VKAPI_CALL capture_AcquireNextImage2KHR(VkDevice device, const VkAcquireNextImageInfoKHR *info,
                                                            uint32_t *image)
{
    struct device *d = device_of(device);
    VkResult result = d->calls.AcquireNextImage2KHR(device, info, image);
    acquired(d, result, info->swapchain, *image, info->semaphore, info->fence, "vkAcquireNextImage2KHR");
    return result;
}

/* The first swapchain's image waits for the semaphores; of others nothing is written. */
static void present(struct device *d, const VkPresentInfoKHR *info)
{
    const struct swapchain *s = table_get(&d->tables[SWAPCHAINS], KEY(info->pSwapchains[0]));
    uint32_t image = info->pImageIndices[0];
    if (!s || image >= s->count || !s->images[image])
        return;
    struct batch *b = new_batch("vkQueuePresentKHR");
    for (uint32_t i = 0; i < info->waitSemaphoreCount; i++)
        add_wait(b, find(d, KEY(info->pWaitSemaphores[i])), 0, EVERY);
    if (b)
        say(&b->text, "read R%u 0 %llu other # presented\n", s->images[image]->number,
            (unsigned long long)s->images[image]->size);
    hand_on(s->queues[image], b);
}

VKAPI_ATTR VkResult VKAPI_CALL capture_QueuePresentKHR(VkQueue queue, const VkPresentInfoKHR *info)
{
    struct device *d = device_of(queue);
    lock_recorder();
    if (is_recording() && info->swapchainCount > 0)
        present(d, info);
    if (info->swapchainCount > 1)
        count_unseen(UNSEEN_PARTS);
    unlock_recorder();
    return d->calls.QueuePresentKHR(queue, info);
}
