/* The calls of a device that the recorder answers. Where the driver has one only under its extension's name, it is that
 * one. */
#ifndef CALLS_H
#define CALLS_H

#include <vulkan/vulkan.h>

#define DEVICE_CALLS(X)                                                                                                \
    X(DestroyDevice)                                                                                                   \
    X(CreateBuffer)                                                                                                    \
    X(DestroyBuffer)                                                                                                   \
    X(CreateBufferView)                                                                                                \
    X(DestroyBufferView)                                                                                               \
    X(CreateImage)                                                                                                     \
    X(DestroyImage)                                                                                                    \
    X(CreateImageView)                                                                                                 \
    X(DestroyImageView)                                                                                                \
    X(BindBufferMemory)                                                                                                \
    X(BindBufferMemory2)                                                                                               \
    X(MapMemory)                                                                                                       \
    X(UnmapMemory)                                                                                                     \
    X(FreeMemory)                                                                                                      \
    X(FlushMappedMemoryRanges)                                                                                         \
    X(InvalidateMappedMemoryRanges)                                                                                    \
    X(CreateSemaphore)                                                                                                 \
    X(DestroySemaphore)                                                                                                \
    X(ImportSemaphoreFdKHR)                                                                                            \
    X(GetSemaphoreFdKHR)                                                                                               \
    X(CreateFence)                                                                                                     \
    X(DestroyFence)                                                                                                    \
    X(ImportFenceFdKHR)                                                                                                \
    X(GetFenceFdKHR)                                                                                                   \
    X(CreateEvent)                                                                                                     \
    X(DestroyEvent)                                                                                                    \
    X(GetEventStatus)                                                                                                  \
    X(CreateQueryPool)                                                                                                 \
    X(DestroyQueryPool)                                                                                                \
    X(CreateSwapchainKHR)                                                                                              \
    X(DestroySwapchainKHR)                                                                                             \
    X(GetSwapchainImagesKHR)                                                                                           \
    X(AcquireNextImageKHR)                                                                                             \
    X(AcquireNextImage2KHR)                                                                                            \
    X(QueuePresentKHR)                                                                                                 \
    X(QueueSubmit)                                                                                                     \
    X(QueueSubmit2)                                                                                                    \
    X(QueueBindSparse)                                                                                                 \
    X(QueueWaitIdle)                                                                                                   \
    X(DeviceWaitIdle)                                                                                                  \
    X(WaitSemaphores)                                                                                                  \
    X(SignalSemaphore)                                                                                                 \
    X(GetSemaphoreCounterValue)                                                                                        \
    X(WaitForFences)                                                                                                   \
    X(GetFenceStatus)                                                                                                  \
    X(ResetFences)                                                                                                     \
    X(CreateShaderModule)                                                                                              \
    X(DestroyShaderModule)                                                                                             \
    X(CreateGraphicsPipelines)                                                                                         \
    X(CreateComputePipelines)                                                                                          \
    X(DestroyPipeline)                                                                                                 \
    X(CreateDescriptorSetLayout)                                                                                       \
    X(DestroyDescriptorSetLayout)                                                                                      \
    X(AllocateDescriptorSets)                                                                                          \
    X(FreeDescriptorSets)                                                                                              \
    X(ResetDescriptorPool)                                                                                             \
    X(DestroyDescriptorPool)                                                                                           \
    X(UpdateDescriptorSets)                                                                                            \
    X(CreateDescriptorUpdateTemplate)                                                                                  \
    X(DestroyDescriptorUpdateTemplate)                                                                                 \
    X(UpdateDescriptorSetWithTemplate)                                                                                 \
    X(CreateRenderPass)                                                                                                \
    X(CreateRenderPass2)                                                                                               \
    X(DestroyRenderPass)                                                                                               \
    X(CreateFramebuffer)                                                                                               \
    X(DestroyFramebuffer)                                                                                              \
    X(AllocateCommandBuffers)                                                                                          \
    X(FreeCommandBuffers)                                                                                              \
    X(DestroyCommandPool)                                                                                              \
    X(ResetCommandPool)                                                                                                \
    X(BeginCommandBuffer)                                                                                              \
    X(ResetCommandBuffer)                                                                                              \
    X(CmdExecuteCommands)                                                                                              \
    X(CmdCopyBuffer)                                                                                                   \
    X(CmdCopyBuffer2)                                                                                                  \
    X(CmdFillBuffer)                                                                                                   \
    X(CmdUpdateBuffer)                                                                                                 \
    X(CmdCopyBufferToImage)                                                                                            \
    X(CmdCopyBufferToImage2)                                                                                           \
    X(CmdCopyImageToBuffer)                                                                                            \
    X(CmdCopyImageToBuffer2)                                                                                           \
    X(CmdCopyImage)                                                                                                    \
    X(CmdCopyImage2)                                                                                                   \
    X(CmdBlitImage)                                                                                                    \
    X(CmdBlitImage2)                                                                                                   \
    X(CmdResolveImage)                                                                                                 \
    X(CmdResolveImage2)                                                                                                \
    X(CmdClearColorImage)                                                                                              \
    X(CmdClearDepthStencilImage)                                                                                       \
    X(CmdResetQueryPool)                                                                                               \
    X(CmdBeginQuery)                                                                                                   \
    X(CmdEndQuery)                                                                                                     \
    X(CmdWriteTimestamp)                                                                                               \
    X(CmdWriteTimestamp2)                                                                                              \
    X(CmdCopyQueryPoolResults)                                                                                         \
    X(CmdPipelineBarrier)                                                                                              \
    X(CmdPipelineBarrier2)                                                                                             \
    X(CmdSetEvent)                                                                                                     \
    X(CmdSetEvent2)                                                                                                    \
    X(CmdWaitEvents)                                                                                                   \
    X(CmdWaitEvents2)                                                                                                  \
    X(CmdBindPipeline)                                                                                                 \
    X(CmdBindDescriptorSets)                                                                                           \
    X(CmdPushDescriptorSetKHR)                                                                                         \
    X(CmdPushDescriptorSetWithTemplateKHR)                                                                             \
    X(CmdBindVertexBuffers)                                                                                            \
    X(CmdBindVertexBuffers2)                                                                                           \
    X(CmdBindIndexBuffer)                                                                                              \
    X(CmdSetVertexInputEXT)                                                                                            \
    X(CmdDispatch)                                                                                                     \
    X(CmdDispatchBase)                                                                                                 \
    X(CmdDispatchIndirect)                                                                                             \
    X(CmdDraw)                                                                                                         \
    X(CmdDrawIndexed)                                                                                                  \
    X(CmdDrawIndirect)                                                                                                 \
    X(CmdDrawIndexedIndirect)                                                                                          \
    X(CmdDrawIndirectCount)                                                                                            \
    X(CmdDrawIndexedIndirectCount)                                                                                     \
    X(CmdDrawMultiEXT)                                                                                                 \
    X(CmdDrawMultiIndexedEXT)                                                                                          \
    X(CmdDrawMeshTasksEXT)                                                                                             \
    X(CmdDrawMeshTasksIndirectEXT)                                                                                     \
    X(CmdDrawIndirectByteCountEXT)                                                                                     \
    X(CmdBeginRenderPass)                                                                                              \
    X(CmdBeginRenderPass2)                                                                                             \
    X(CmdNextSubpass)                                                                                                  \
    X(CmdNextSubpass2)                                                                                                 \
    X(CmdEndRenderPass)                                                                                                \
    X(CmdEndRenderPass2)                                                                                               \
    X(CmdBeginRendering)                                                                                               \
    X(CmdTraceRaysKHR)                                                                                                 \
    X(CmdBuildAccelerationStructuresKHR)                                                                               \
    X(SetDebugUtilsObjectNameEXT)                                                                                      \
    X(CmdBeginDebugUtilsLabelEXT)                                                                                      \
    X(CmdEndDebugUtilsLabelEXT)                                                                                        \
    X(CmdInsertDebugUtilsLabelEXT)

struct calls {
#define X(name) PFN_vk##name name;
    DEVICE_CALLS(X)
#undef X
};

/* Each is answered by capture_NAME, which has the type of vkNAME. */
#define X(name) __typeof__(vk##name) capture_##name;
DEVICE_CALLS(X)
#undef X

#endif
