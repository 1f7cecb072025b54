/* The calls that the layer answers, by the names that Vulkan has for them. */
#ifndef LAYER_H
#define LAYER_H

#include "device.h"

/* queues.c; under `core`: waits until a queue has done all that it was given so far. */
VkResult idle(struct device *d, struct queue *q);

VKAPI_ATTR VkResult VKAPI_CALL layer_CreateSemaphore(VkDevice device, const VkSemaphoreCreateInfo *info,
                                                     const VkAllocationCallbacks *allocator, VkSemaphore *semaphore);
VKAPI_ATTR void VKAPI_CALL layer_DestroySemaphore(VkDevice device, VkSemaphore semaphore,
                                                  const VkAllocationCallbacks *allocator);
VKAPI_ATTR VkResult VKAPI_CALL layer_GetSemaphoreCounterValue(VkDevice device, VkSemaphore semaphore, uint64_t *value);
VKAPI_ATTR VkResult VKAPI_CALL layer_SignalSemaphore(VkDevice device, const VkSemaphoreSignalInfo *info);
VKAPI_ATTR VkResult VKAPI_CALL layer_WaitSemaphores(VkDevice device, const VkSemaphoreWaitInfo *info, uint64_t timeout);
VKAPI_ATTR VkResult VKAPI_CALL layer_QueueSubmit(VkQueue queue, uint32_t count, const VkSubmitInfo *infos,
                                                 VkFence fence);
VKAPI_ATTR VkResult VKAPI_CALL layer_QueueSubmit2(VkQueue queue, uint32_t count, const VkSubmitInfo2 *infos,
                                                  VkFence fence);
VKAPI_ATTR VkResult VKAPI_CALL layer_QueueBindSparse(VkQueue queue, uint32_t count, const VkBindSparseInfo *infos,
                                                     VkFence fence);
VKAPI_ATTR VkResult VKAPI_CALL layer_QueuePresentKHR(VkQueue queue, const VkPresentInfoKHR *info);
VKAPI_ATTR VkResult VKAPI_CALL layer_QueueWaitIdle(VkQueue queue);
VKAPI_ATTR VkResult VKAPI_CALL layer_DeviceWaitIdle(VkDevice device);
VKAPI_ATTR VkResult VKAPI_CALL layer_CreateFence(VkDevice device, const VkFenceCreateInfo *info,
                                                 const VkAllocationCallbacks *allocator, VkFence *fence);
VKAPI_ATTR void VKAPI_CALL layer_DestroyFence(VkDevice device, VkFence fence, const VkAllocationCallbacks *allocator);
VKAPI_ATTR VkResult VKAPI_CALL layer_ResetFences(VkDevice device, uint32_t count, const VkFence *fences);

#endif
