/* A client of the recorder, for its tests: each word is a small piece of work on buffers, images, queues and the host.
 *
 * capture_client WORD [missing | unseen]
 *
 * With `missing` the one barrier, wait or event that orders the work is left out; with `unseen` it is there, and one of
 * its access masks lacks what the work needs. The status is 1 where a call fails.
 */
#include "capture_client.h"

#include <pthread.h>
#include <string.h>
#include <unistd.h>

enum { SIZE = 4096 };

bool is_missing, is_unseen;
static VkInstance instance;
static VkPhysicalDevice physical;

static struct gpu new_gpu(void)
{
    struct gpu g = {0};
    uint32_t count = 1;
    VkQueueFamilyProperties family;
    vkGetPhysicalDeviceQueueFamilyProperties(physical, &count, &family);
    float priorities[2] = {1, 1};
    uint32_t queue_count = family.queueCount > 1 ? 2 : 1;
    VkDeviceQueueCreateInfo queues = {
        .sType = VK_STRUCTURE_TYPE_DEVICE_QUEUE_CREATE_INFO, .queueCount = queue_count, .pQueuePriorities = priorities};
    VkPhysicalDeviceVulkan13Features features13 = {.sType = VK_STRUCTURE_TYPE_PHYSICAL_DEVICE_VULKAN_1_3_FEATURES,
                                                   .synchronization2 = VK_TRUE,
                                                   .dynamicRendering = VK_TRUE};
    VkPhysicalDeviceVulkan12Features features12 = {.sType = VK_STRUCTURE_TYPE_PHYSICAL_DEVICE_VULKAN_1_2_FEATURES,
                                                   .pNext = &features13,
                                                   .timelineSemaphore = VK_TRUE};
    VkDeviceCreateInfo info = {.sType = VK_STRUCTURE_TYPE_DEVICE_CREATE_INFO,
                               .pNext = &features12,
                               .queueCreateInfoCount = 1,
                               .pQueueCreateInfos = &queues};
    CHECK(vkCreateDevice(physical, &info, NULL, &g.device));
    for (uint32_t i = 0; i < 2; i++)
        vkGetDeviceQueue(g.device, 0, i < queue_count ? i : 0, &g.queues[i]);
    VkCommandPoolCreateInfo pool = {.sType = VK_STRUCTURE_TYPE_COMMAND_POOL_CREATE_INFO};
    CHECK(vkCreateCommandPool(g.device, &pool, NULL, &g.pool));
    VkPhysicalDeviceMemoryProperties memory;
    vkGetPhysicalDeviceMemoryProperties(physical, &memory);
    while (!(memory.memoryTypes[g.memory_type].propertyFlags & VK_MEMORY_PROPERTY_HOST_VISIBLE_BIT))
        g.memory_type++;
    return g;
}

static void end_gpu(struct gpu *g)
{
    vkDestroyCommandPool(g->device, g->pool, NULL);
    vkDestroyDevice(g->device, NULL);
}

static struct buffer new_buffer(const struct gpu *g)
{
    struct buffer b;
    VkBufferCreateInfo info = {.sType = VK_STRUCTURE_TYPE_BUFFER_CREATE_INFO,
                               .size = SIZE,
                               .usage = VK_BUFFER_USAGE_TRANSFER_SRC_BIT | VK_BUFFER_USAGE_TRANSFER_DST_BIT
                                        | VK_BUFFER_USAGE_STORAGE_BUFFER_BIT | VK_BUFFER_USAGE_INDIRECT_BUFFER_BIT};
    CHECK(vkCreateBuffer(g->device, &info, NULL, &b.handle));
    VkMemoryRequirements needs;
    vkGetBufferMemoryRequirements(g->device, b.handle, &needs);
    VkMemoryAllocateInfo memory = {.sType = VK_STRUCTURE_TYPE_MEMORY_ALLOCATE_INFO,
                                   .allocationSize = needs.size,
                                   .memoryTypeIndex = g->memory_type};
    CHECK(vkAllocateMemory(g->device, &memory, NULL, &b.memory));
    CHECK(vkBindBufferMemory(g->device, b.handle, b.memory, 0));
    return b;
}

static void end_buffer(const struct gpu *g, struct buffer b)
{
    vkDestroyBuffer(g->device, b.handle, NULL);
    vkFreeMemory(g->device, b.memory, NULL);
}

VkCommandBuffer begin(const struct gpu *g, VkCommandBufferLevel level)
{
    VkCommandBufferAllocateInfo info = {.sType = VK_STRUCTURE_TYPE_COMMAND_BUFFER_ALLOCATE_INFO,
                                        .commandPool = g->pool,
                                        .level = level,
                                        .commandBufferCount = 1};
    VkCommandBuffer c;
    CHECK(vkAllocateCommandBuffers(g->device, &info, &c));
    VkCommandBufferInheritanceInfo inherited = {.sType = VK_STRUCTURE_TYPE_COMMAND_BUFFER_INHERITANCE_INFO};
    VkCommandBufferBeginInfo begun = {.sType = VK_STRUCTURE_TYPE_COMMAND_BUFFER_BEGIN_INFO,
                                      .pInheritanceInfo = &inherited};
    CHECK(vkBeginCommandBuffer(c, &begun));
    return c;
}

static void submit(VkQueue queue, VkCommandBuffer c, VkSemaphore wait, uint64_t wait_value, VkSemaphore signal,
                   uint64_t signal_value, VkFence fence)
{
    VkTimelineSemaphoreSubmitInfo values = {.sType = VK_STRUCTURE_TYPE_TIMELINE_SEMAPHORE_SUBMIT_INFO,
                                            .waitSemaphoreValueCount = wait != VK_NULL_HANDLE,
                                            .pWaitSemaphoreValues = &wait_value,
                                            .signalSemaphoreValueCount = signal != VK_NULL_HANDLE,
                                            .pSignalSemaphoreValues = &signal_value};
    VkPipelineStageFlags stages = VK_PIPELINE_STAGE_TRANSFER_BIT;
    VkSubmitInfo info = {.sType = VK_STRUCTURE_TYPE_SUBMIT_INFO,
                         .pNext = &values,
                         .waitSemaphoreCount = wait != VK_NULL_HANDLE,
                         .pWaitSemaphores = &wait,
                         .pWaitDstStageMask = &stages,
                         .commandBufferCount = c != NULL,
                         .pCommandBuffers = &c,
                         .signalSemaphoreCount = signal != VK_NULL_HANDLE,
                         .pSignalSemaphores = &signal};
    CHECK(vkQueueSubmit(queue, 1, &info, fence));
}

void finish(const struct gpu *g, VkCommandBuffer c)
{
    CHECK(vkEndCommandBuffer(c));
    submit(g->queues[0], c, VK_NULL_HANDLE, 0, VK_NULL_HANDLE, 0, VK_NULL_HANDLE);
    CHECK(vkQueueWaitIdle(g->queues[0]));
}

static VkSemaphore new_timeline(const struct gpu *g)
{
    VkSemaphoreTypeCreateInfo type = {.sType = VK_STRUCTURE_TYPE_SEMAPHORE_TYPE_CREATE_INFO,
                                      .semaphoreType = VK_SEMAPHORE_TYPE_TIMELINE};
    VkSemaphoreCreateInfo info = {.sType = VK_STRUCTURE_TYPE_SEMAPHORE_CREATE_INFO, .pNext = &type};
    VkSemaphore t;
    CHECK(vkCreateSemaphore(g->device, &info, NULL, &t));
    return t;
}

static void barrier(VkCommandBuffer c)
{
    VkMemoryBarrier all = {.sType = VK_STRUCTURE_TYPE_MEMORY_BARRIER,
                           .srcAccessMask = is_unseen ? 0 : VK_ACCESS_TRANSFER_WRITE_BIT,
                           .dstAccessMask = VK_ACCESS_TRANSFER_READ_BIT | VK_ACCESS_TRANSFER_WRITE_BIT};
    if (!is_missing)
        vkCmdPipelineBarrier(c, VK_PIPELINE_STAGE_TRANSFER_BIT, VK_PIPELINE_STAGE_TRANSFER_BIT, 0, 1, &all, 0, NULL, 0,
                             NULL);
}

static void copy(VkCommandBuffer c, struct buffer from, struct buffer to)
{
    VkBufferCopy region = {0, 0, SIZE};
    vkCmdCopyBuffer(c, from.handle, to.handle, 1, &region);
}

/* Words ---------------------------------------------------------------------------------------------------------- */

static void do_barrier(const struct gpu *g, struct buffer a, struct buffer b)
{
    VkCommandBuffer c = begin(g, VK_COMMAND_BUFFER_LEVEL_PRIMARY);
    vkCmdFillBuffer(c, a.handle, 0, VK_WHOLE_SIZE, 7);
    barrier(c);
    copy(c, a, b);
    finish(g, c);
}

static void do_event(const struct gpu *g, struct buffer a, struct buffer b)
{
    VkEventCreateInfo info = {.sType = VK_STRUCTURE_TYPE_EVENT_CREATE_INFO};
    VkEvent e;
    CHECK(vkCreateEvent(g->device, &info, NULL, &e));
    VkCommandBuffer c = begin(g, VK_COMMAND_BUFFER_LEVEL_PRIMARY);
    VkMemoryBarrier all = {.sType = VK_STRUCTURE_TYPE_MEMORY_BARRIER,
                           .srcAccessMask = VK_ACCESS_TRANSFER_WRITE_BIT,
                           .dstAccessMask = is_unseen ? VK_ACCESS_TRANSFER_WRITE_BIT : VK_ACCESS_TRANSFER_READ_BIT};
    vkCmdFillBuffer(c, a.handle, 0, SIZE, 7);
    vkCmdSetEvent(c, e, VK_PIPELINE_STAGE_TRANSFER_BIT);
    if (!is_missing)
        vkCmdWaitEvents(c, 1, &e, VK_PIPELINE_STAGE_TRANSFER_BIT, VK_PIPELINE_STAGE_TRANSFER_BIT, 1, &all, 0, NULL, 0,
                        NULL);
    copy(c, a, b);
    finish(g, c);
    vkDestroyEvent(g->device, e, NULL);
}

/* Each barrier of a call is a memory dependency of its own: that of another resource doesn't make this one visible. */
static void do_several(const struct gpu *g, struct buffer a, struct buffer b)
{
    VkMemoryBarrier2 memory = {.sType = VK_STRUCTURE_TYPE_MEMORY_BARRIER_2,
                               .srcStageMask = VK_PIPELINE_STAGE_2_COPY_BIT | VK_PIPELINE_STAGE_2_CLEAR_BIT,
                               .srcAccessMask = VK_ACCESS_2_TRANSFER_WRITE_BIT,
                               .dstStageMask = VK_PIPELINE_STAGE_2_COMPUTE_SHADER_BIT,
                               .dstAccessMask = VK_ACCESS_2_SHADER_SAMPLED_READ_BIT | VK_ACCESS_2_UNIFORM_READ_BIT};
    VkBufferMemoryBarrier2 buffer = {.sType = VK_STRUCTURE_TYPE_BUFFER_MEMORY_BARRIER_2,
                                     .srcStageMask = memory.srcStageMask,
                                     .srcAccessMask = memory.srcAccessMask,
                                     .dstStageMask = VK_PIPELINE_STAGE_2_COPY_BIT,
                                     .dstAccessMask = is_unseen ? VK_ACCESS_2_NONE : VK_ACCESS_2_TRANSFER_READ_BIT,
                                     .buffer = a.handle,
                                     .size = SIZE};
    VkDependencyInfo both = {.sType = VK_STRUCTURE_TYPE_DEPENDENCY_INFO,
                             .memoryBarrierCount = 1,
                             .pMemoryBarriers = &memory,
                             .bufferMemoryBarrierCount = !is_missing,
                             .pBufferMemoryBarriers = &buffer};
    VkCommandBuffer c = begin(g, VK_COMMAND_BUFFER_LEVEL_PRIMARY);
    vkCmdFillBuffer(c, a.handle, 0, SIZE, 7);
    vkCmdPipelineBarrier2(c, &both);
    copy(c, a, b);
    finish(g, c);
}

/* Masks of each kind of access, and of several. */
static const VkAccessFlags2 masks[] = {
    VK_ACCESS_2_NONE,
    VK_ACCESS_2_INDIRECT_COMMAND_READ_BIT,
    VK_ACCESS_2_INDEX_READ_BIT,
    VK_ACCESS_2_VERTEX_ATTRIBUTE_READ_BIT,
    VK_ACCESS_2_UNIFORM_READ_BIT,
    VK_ACCESS_2_INPUT_ATTACHMENT_READ_BIT,
    VK_ACCESS_2_SHADER_READ_BIT,
    VK_ACCESS_2_SHADER_WRITE_BIT,
    VK_ACCESS_2_COLOR_ATTACHMENT_READ_BIT,
    VK_ACCESS_2_COLOR_ATTACHMENT_WRITE_BIT,
    VK_ACCESS_2_DEPTH_STENCIL_ATTACHMENT_READ_BIT,
    VK_ACCESS_2_DEPTH_STENCIL_ATTACHMENT_WRITE_BIT,
    VK_ACCESS_2_TRANSFER_READ_BIT,
    VK_ACCESS_2_TRANSFER_WRITE_BIT,
    VK_ACCESS_2_HOST_READ_BIT,
    VK_ACCESS_2_HOST_WRITE_BIT,
    VK_ACCESS_2_MEMORY_READ_BIT,
    VK_ACCESS_2_MEMORY_WRITE_BIT,
    VK_ACCESS_2_SHADER_SAMPLED_READ_BIT,
    VK_ACCESS_2_SHADER_STORAGE_READ_BIT,
    VK_ACCESS_2_SHADER_STORAGE_WRITE_BIT,
    VK_ACCESS_2_MEMORY_READ_BIT | VK_ACCESS_2_MEMORY_WRITE_BIT,
    VK_ACCESS_2_TRANSFER_READ_BIT | VK_ACCESS_2_UNIFORM_READ_BIT | VK_ACCESS_2_SHADER_WRITE_BIT,
    VK_ACCESS_2_INDEX_READ_BIT | VK_ACCESS_2_TRANSFER_WRITE_BIT | VK_ACCESS_2_SHADER_WRITE_BIT,
};

/* A barrier for each mask, in their order, and one of tests of depth. */
static void do_masks(const struct gpu *g, struct buffer a, struct buffer b)
{
    VkCommandBuffer c = begin(g, VK_COMMAND_BUFFER_LEVEL_PRIMARY);
    for (size_t i = 0; i <= sizeof masks / sizeof masks[0]; i++) {
        bool is_last = i == sizeof masks / sizeof masks[0];
        VkPipelineStageFlags2 every = VK_PIPELINE_STAGE_2_ALL_COMMANDS_BIT | VK_PIPELINE_STAGE_2_HOST_BIT;
        VkMemoryBarrier2 memory = {.sType = VK_STRUCTURE_TYPE_MEMORY_BARRIER_2,
                                   .srcStageMask = is_last ? VK_PIPELINE_STAGE_2_LATE_FRAGMENT_TESTS_BIT : every,
                                   .srcAccessMask = is_last ? VK_ACCESS_2_DEPTH_STENCIL_ATTACHMENT_WRITE_BIT : masks[i],
                                   .dstStageMask = is_last ? VK_PIPELINE_STAGE_2_EARLY_FRAGMENT_TESTS_BIT : every,
                                   .dstAccessMask = is_last ? VK_ACCESS_2_DEPTH_STENCIL_ATTACHMENT_READ_BIT : masks[i]};
        VkDependencyInfo one = {
            .sType = VK_STRUCTURE_TYPE_DEPENDENCY_INFO, .memoryBarrierCount = 1, .pMemoryBarriers = &memory};
        vkCmdPipelineBarrier2(c, &one);
    }
    (void)a;
    (void)b;
    finish(g, c);
}

/* An event with a dependency, whose first access mask makes available. */
static void do_event2(const struct gpu *g, struct buffer a, struct buffer b)
{
    VkEventCreateInfo info = {.sType = VK_STRUCTURE_TYPE_EVENT_CREATE_INFO};
    VkEvent e;
    CHECK(vkCreateEvent(g->device, &info, NULL, &e));
    VkMemoryBarrier2 memory = {.sType = VK_STRUCTURE_TYPE_MEMORY_BARRIER_2,
                               .srcStageMask = VK_PIPELINE_STAGE_2_ALL_TRANSFER_BIT,
                               .srcAccessMask =
                                   is_unseen ? VK_ACCESS_2_TRANSFER_READ_BIT : VK_ACCESS_2_TRANSFER_WRITE_BIT,
                               .dstStageMask = VK_PIPELINE_STAGE_2_COPY_BIT,
                               .dstAccessMask = VK_ACCESS_2_TRANSFER_READ_BIT};
    VkDependencyInfo one = {
        .sType = VK_STRUCTURE_TYPE_DEPENDENCY_INFO, .memoryBarrierCount = 1, .pMemoryBarriers = &memory};
    VkCommandBuffer c = begin(g, VK_COMMAND_BUFFER_LEVEL_PRIMARY);
    vkCmdFillBuffer(c, a.handle, 0, SIZE, 7);
    vkCmdSetEvent2(c, e, &one);
    if (!is_missing)
        vkCmdWaitEvents2(c, 1, &e, &one);
    copy(c, a, b);
    finish(g, c);
    vkDestroyEvent(g->device, e, NULL);
}

static void do_secondary(const struct gpu *g, struct buffer a, struct buffer b)
{
    VkCommandBuffer second = begin(g, VK_COMMAND_BUFFER_LEVEL_SECONDARY);
    copy(second, a, b);
    CHECK(vkEndCommandBuffer(second));
    VkCommandBuffer c = begin(g, VK_COMMAND_BUFFER_LEVEL_PRIMARY);
    uint32_t words[4] = {0};
    vkCmdUpdateBuffer(c, a.handle, 0, sizeof words, words);
    barrier(c);
    vkCmdExecuteCommands(c, 1, &second);
    finish(g, c);
}

/* The batch that waits is submitted before its signal. */
static void do_early(const struct gpu *g, struct buffer a, struct buffer b)
{
    VkSemaphore t = new_timeline(g), done = new_timeline(g);
    VkCommandBuffer first = begin(g, VK_COMMAND_BUFFER_LEVEL_PRIMARY);
    vkCmdFillBuffer(first, a.handle, 0, SIZE, 7);
    CHECK(vkEndCommandBuffer(first));
    VkCommandBuffer second = begin(g, VK_COMMAND_BUFFER_LEVEL_PRIMARY);
    copy(second, a, b);
    CHECK(vkEndCommandBuffer(second));
    submit(g->queues[0], first, t, 1, is_missing ? VK_NULL_HANDLE : done, 1, VK_NULL_HANDLE);
    submit(g->queues[1], second, is_missing ? t : done, 1, done, 2, VK_NULL_HANDLE);
    VkSemaphoreSignalInfo signal = {.sType = VK_STRUCTURE_TYPE_SEMAPHORE_SIGNAL_INFO, .semaphore = t, .value = 1};
    CHECK(vkSignalSemaphore(g->device, &signal));
    uint64_t value = 2;
    VkSemaphoreWaitInfo wait = {
        .sType = VK_STRUCTURE_TYPE_SEMAPHORE_WAIT_INFO, .semaphoreCount = 1, .pSemaphores = &done, .pValues = &value};
    CHECK(vkWaitSemaphores(g->device, &wait, UINT64_MAX));
    CHECK(vkDeviceWaitIdle(g->device));
    vkDestroySemaphore(g->device, t, NULL);
    vkDestroySemaphore(g->device, done, NULL);
}

/* The host writes what a copy read; without the wait for its fence it does so too early. */
static void do_flush(const struct gpu *g, struct buffer a, struct buffer b)
{
    VkFenceCreateInfo info = {.sType = VK_STRUCTURE_TYPE_FENCE_CREATE_INFO};
    VkFence f;
    CHECK(vkCreateFence(g->device, &info, NULL, &f));
    void *data;
    CHECK(vkMapMemory(g->device, a.memory, 0, VK_WHOLE_SIZE, 0, &data));
    VkMappedMemoryRange range = {
        .sType = VK_STRUCTURE_TYPE_MAPPED_MEMORY_RANGE, .memory = a.memory, .size = VK_WHOLE_SIZE};
    CHECK(vkFlushMappedMemoryRanges(g->device, 1, &range));
    VkCommandBuffer c = begin(g, VK_COMMAND_BUFFER_LEVEL_PRIMARY);
    copy(c, a, b);
    CHECK(vkEndCommandBuffer(c));
    submit(g->queues[0], c, VK_NULL_HANDLE, 0, VK_NULL_HANDLE, 0, f);
    if (!is_missing)
        CHECK(vkWaitForFences(g->device, 1, &f, VK_TRUE, UINT64_MAX));
    CHECK(vkFlushMappedMemoryRanges(g->device, 1, &range));
    CHECK(vkDeviceWaitIdle(g->device));
    vkUnmapMemory(g->device, a.memory);
    vkDestroyFence(g->device, f, NULL);
}

/* A buffer that is destroyed when its copy has long run: only the wait says that it has. */
static void do_destroy(const struct gpu *g, struct buffer a, struct buffer b)
{
    struct buffer mine = new_buffer(g);
    VkCommandBuffer c = begin(g, VK_COMMAND_BUFFER_LEVEL_PRIMARY);
    copy(c, mine, b);
    CHECK(vkEndCommandBuffer(c));
    (void)a;
    submit(g->queues[0], c, VK_NULL_HANDLE, 0, VK_NULL_HANDLE, 0, VK_NULL_HANDLE);
    if (is_missing)
        usleep(300000);
    else
        CHECK(vkQueueWaitIdle(g->queues[0]));
    end_buffer(g, mine);
    CHECK(vkQueueWaitIdle(g->queues[0]));
}

static void do_queries(const struct gpu *g, struct buffer a, struct buffer b)
{
    VkQueryPoolCreateInfo info = {
        .sType = VK_STRUCTURE_TYPE_QUERY_POOL_CREATE_INFO, .queryType = VK_QUERY_TYPE_TIMESTAMP, .queryCount = 4};
    VkQueryPool pool;
    CHECK(vkCreateQueryPool(g->device, &info, NULL, &pool));
    VkCommandBuffer c = begin(g, VK_COMMAND_BUFFER_LEVEL_PRIMARY);
    vkCmdResetQueryPool(c, pool, 0, 4);
    vkCmdWriteTimestamp(c, VK_PIPELINE_STAGE_BOTTOM_OF_PIPE_BIT, pool, 0);
    vkCmdFillBuffer(c, a.handle, 0, SIZE, 7);
    barrier(c);
    vkCmdCopyQueryPoolResults(c, pool, 0, 1, a.handle, 0, 8, VK_QUERY_RESULT_64_BIT | VK_QUERY_RESULT_WAIT_BIT);
    (void)b;
    finish(g, c);
    vkDestroyQueryPool(g->device, pool, NULL);
}

VkImage new_image(const struct gpu *g, VkFormat format, uint32_t layers, VkImageUsageFlags usage,
                  VkDeviceMemory *memory)
{
    VkImageCreateInfo info = {.sType = VK_STRUCTURE_TYPE_IMAGE_CREATE_INFO,
                              .imageType = VK_IMAGE_TYPE_2D,
                              .format = format,
                              .extent = {32, 32, 1},
                              .mipLevels = layers,
                              .arrayLayers = layers,
                              .samples = VK_SAMPLE_COUNT_1_BIT,
                              .usage = usage | VK_IMAGE_USAGE_TRANSFER_SRC_BIT};
    VkImage image;
    CHECK(vkCreateImage(g->device, &info, NULL, &image));
    VkMemoryRequirements needs;
    vkGetImageMemoryRequirements(g->device, image, &needs);
    VkMemoryAllocateInfo allocate = {.sType = VK_STRUCTURE_TYPE_MEMORY_ALLOCATE_INFO,
                                     .allocationSize = needs.size,
                                     .memoryTypeIndex = g->memory_type};
    CHECK(vkAllocateMemory(g->device, &allocate, NULL, memory));
    CHECK(vkBindImageMemory(g->device, image, *memory, 0));
    return image;
}

/* An image: a transition, a clear of its second level, a blit from it to another part, a copy to a buffer. */
static void do_image(const struct gpu *g, struct buffer a, struct buffer b)
{
    VkDeviceMemory memory;
    VkImage image = new_image(g, VK_FORMAT_R8G8B8A8_UNORM, 2, VK_IMAGE_USAGE_TRANSFER_DST_BIT, &memory);
    VkImageSubresourceRange all = {VK_IMAGE_ASPECT_COLOR_BIT, 0, 2, 0, 2},
                            level = {VK_IMAGE_ASPECT_COLOR_BIT, 1, 1, 0, 2};
    VkImageMemoryBarrier to_general = {.sType = VK_STRUCTURE_TYPE_IMAGE_MEMORY_BARRIER,
                                       .dstAccessMask = VK_ACCESS_TRANSFER_WRITE_BIT | VK_ACCESS_TRANSFER_READ_BIT,
                                       .newLayout = VK_IMAGE_LAYOUT_GENERAL,
                                       .image = image,
                                       .subresourceRange = all};
    VkClearColorValue black = {0};
    VkImageBlit blit = {{VK_IMAGE_ASPECT_COLOR_BIT, 1, 0, 1},
                        {{0, 0, 0}, {16, 16, 1}},
                        {VK_IMAGE_ASPECT_COLOR_BIT, 0, 1, 1},
                        {{16, 16, 0}, {4, 0, 1}}};
    VkBufferImageCopy part = {.imageSubresource = {VK_IMAGE_ASPECT_COLOR_BIT, 0, 0, 1}, .imageExtent = {8, 8, 1}};
    VkCommandBuffer c = begin(g, VK_COMMAND_BUFFER_LEVEL_PRIMARY);
    vkCmdPipelineBarrier(c, VK_PIPELINE_STAGE_TOP_OF_PIPE_BIT, VK_PIPELINE_STAGE_TRANSFER_BIT, 0, 0, NULL, 0, NULL, 1,
                         &to_general);
    vkCmdClearColorImage(c, image, VK_IMAGE_LAYOUT_GENERAL, &black, 1, &level);
    vkCmdCopyImageToBuffer(c, image, VK_IMAGE_LAYOUT_GENERAL, a.handle, 1, &part); /* another level */
    barrier(c);
    vkCmdBlitImage(c, image, VK_IMAGE_LAYOUT_GENERAL, image, VK_IMAGE_LAYOUT_GENERAL, 1, &blit, VK_FILTER_NEAREST);
    (void)b;
    finish(g, c);
    vkDestroyImage(g->device, image, NULL);
    vkFreeMemory(g->device, memory, NULL);
}

/* Dispatches ----------------------------------------------------------------------------------------------------- */

/* What glslangValidator makes of this:
 *
 *     layout(set = 0, binding = 0) buffer Block { uint word[]; } blocks[2];
 *     void main() { blocks[1].word[0] = 7u; }
 *
 * The index 1 stands at one place. */
enum { PLACE_OF_INDEX = 89 };
static const uint32_t storing[] = {
    0x7230203, 0x10000, 0x8000b, 0x16, 0, 0x20011, 1, 0x6000b, 1, 0x4c534c47, 0x6474732e, 0x3035342e, 0, 0x3000e, 0,
    1, 0x5000f, 5, 4, 0x6e69616d, 0, 0x60010, 4, 0x11, 1, 1, 1, 0x40047, 7, 6, 4, 0x50048, 8, 0, 0x23, 0, 0x30047, 8,
    3, 0x40047, 0xc, 0x22, 0, 0x40047, 0xc, 0x21, 0, 0x40047, 0x15, 0xb, 0x19, 0x20013, 2, 0x30021, 3, 2, 0x40015, 6,
    0x20, 0, 0x3001d, 7, 6, 0x3001e, 8, 7, 0x4002b, 6, 9, 2, 0x4001c, 0xa, 8, 9, 0x40020, 0xb, 2, 0xa, 0x4003b, 0xb,
    0xc, 2, 0x40015, 0xd, 0x20, 1, 0x4002b, 0xd, 0xe, 1, 0x4002b, 0xd, 0xf, 0, 0x4002b, 6, 0x10, 7, 0x40020, 0x11, 2,
    6, 0x40017, 0x13, 6, 3, 0x4002b, 6, 0x14, 1, 0x6002c, 0x13, 0x15, 0x14, 0x14, 0x14, 0x50036, 2, 4, 0, 3, 0x200f8,
    5, 0x70041, 0x11, 0x12, 0xc, 0xe, 0xf, 0xf, 0x3003e, 0x12, 0x10, 0x100fd, 0x10038,
};

static VkPipeline new_pipeline(const struct gpu *g, VkPipelineLayout layout, uint32_t element)
{
    uint32_t code[sizeof storing / sizeof storing[0]];
    memcpy(code, storing, sizeof code);
    code[PLACE_OF_INDEX] = element;
    VkShaderModuleCreateInfo module = {
        .sType = VK_STRUCTURE_TYPE_SHADER_MODULE_CREATE_INFO, .codeSize = sizeof code, .pCode = code};
    VkComputePipelineCreateInfo info = {.sType = VK_STRUCTURE_TYPE_COMPUTE_PIPELINE_CREATE_INFO,
                                        .stage = {.sType = VK_STRUCTURE_TYPE_PIPELINE_SHADER_STAGE_CREATE_INFO,
                                                  .stage = VK_SHADER_STAGE_COMPUTE_BIT,
                                                  .pName = "main"},
                                        .layout = layout};
    CHECK(vkCreateShaderModule(g->device, &module, NULL, &info.stage.module));
    VkPipeline pipeline;
    CHECK(vkCreateComputePipelines(g->device, VK_NULL_HANDLE, 1, &info, NULL, &pipeline));
    vkDestroyShaderModule(g->device, info.stage.module, NULL);
    return pipeline;
}

static VkDescriptorSet new_set(const struct gpu *g, VkDescriptorPool pool, VkDescriptorSetLayout layout,
                               struct buffer a, struct buffer b)
{
    VkDescriptorSetAllocateInfo info = {.sType = VK_STRUCTURE_TYPE_DESCRIPTOR_SET_ALLOCATE_INFO,
                                        .descriptorPool = pool,
                                        .descriptorSetCount = 1,
                                        .pSetLayouts = &layout};
    VkDescriptorSet set;
    CHECK(vkAllocateDescriptorSets(g->device, &info, &set));
    VkDescriptorBufferInfo buffers[2] = {{a.handle, 0, VK_WHOLE_SIZE}, {b.handle, 0, VK_WHOLE_SIZE}};
    VkWriteDescriptorSet write = {.sType = VK_STRUCTURE_TYPE_WRITE_DESCRIPTOR_SET,
                                  .dstSet = set,
                                  .descriptorCount = 2,
                                  .descriptorType = VK_DESCRIPTOR_TYPE_STORAGE_BUFFER,
                                  .pBufferInfo = buffers};
    vkUpdateDescriptorSets(g->device, 1, &write, 0, NULL);
    return set;
}

/* What a dispatch needs: an array of two storage buffers. */
struct array {
    VkDescriptorSetLayout set_layout;
    VkDescriptorPool pool;
    VkPipelineLayout layout;
    VkDescriptorSet set;
};

static struct array new_array(const struct gpu *g, struct buffer a, struct buffer b)
{
    struct array made;
    VkDescriptorSetLayoutBinding binding = {.descriptorType = VK_DESCRIPTOR_TYPE_STORAGE_BUFFER,
                                            .descriptorCount = 2,
                                            .stageFlags = VK_SHADER_STAGE_COMPUTE_BIT};
    VkDescriptorSetLayoutCreateInfo set_info = {
        .sType = VK_STRUCTURE_TYPE_DESCRIPTOR_SET_LAYOUT_CREATE_INFO, .bindingCount = 1, .pBindings = &binding};
    VkDescriptorPoolSize size = {VK_DESCRIPTOR_TYPE_STORAGE_BUFFER, 2};
    VkDescriptorPoolCreateInfo pool_info = {
        .sType = VK_STRUCTURE_TYPE_DESCRIPTOR_POOL_CREATE_INFO, .maxSets = 1, .poolSizeCount = 1, .pPoolSizes = &size};
    CHECK(vkCreateDescriptorSetLayout(g->device, &set_info, NULL, &made.set_layout));
    CHECK(vkCreateDescriptorPool(g->device, &pool_info, NULL, &made.pool));
    VkPipelineLayoutCreateInfo layout_info = {
        .sType = VK_STRUCTURE_TYPE_PIPELINE_LAYOUT_CREATE_INFO, .setLayoutCount = 1, .pSetLayouts = &made.set_layout};
    CHECK(vkCreatePipelineLayout(g->device, &layout_info, NULL, &made.layout));
    made.set = new_set(g, made.pool, made.set_layout, a, b);
    return made;
}

static void end_array(const struct gpu *g, struct array made)
{
    vkDestroyPipelineLayout(g->device, made.layout, NULL);
    vkDestroyDescriptorPool(g->device, made.pool, NULL);
    vkDestroyDescriptorSetLayout(g->device, made.set_layout, NULL);
}

/* Two dispatches that store to one element each of an array of descriptors; both to the same one where the index is
 * what orders them. */
static void do_elements(const struct gpu *g, struct buffer a, struct buffer b)
{
    struct array both = new_array(g, a, b);
    VkPipeline pipelines[2] = {new_pipeline(g, both.layout, 0), new_pipeline(g, both.layout, is_missing ? 0 : 1)};
    VkCommandBuffer c = begin(g, VK_COMMAND_BUFFER_LEVEL_PRIMARY);
    vkCmdBindDescriptorSets(c, VK_PIPELINE_BIND_POINT_COMPUTE, both.layout, 0, 1, &both.set, 0, NULL);
    for (int i = 0; i < 2; i++) {
        vkCmdBindPipeline(c, VK_PIPELINE_BIND_POINT_COMPUTE, pipelines[i]);
        vkCmdDispatch(c, 1, 1, 1);
    }
    finish(g, c);
    for (int i = 0; i < 2; i++)
        vkDestroyPipeline(g->device, pipelines[i], NULL);
    end_array(g, both);
}

/* A dispatch whose size stands in a buffer, and a copy of what it stores: the mask for shaders' writes is another one
 * than that for copies. */
static void do_stores(const struct gpu *g, struct buffer a, struct buffer b)
{
    struct array both = new_array(g, a, b);
    VkPipeline pipeline = new_pipeline(g, both.layout, 0);
    VkMemoryBarrier sizes = {.sType = VK_STRUCTURE_TYPE_MEMORY_BARRIER,
                             .srcAccessMask = VK_ACCESS_TRANSFER_WRITE_BIT,
                             .dstAccessMask = VK_ACCESS_INDIRECT_COMMAND_READ_BIT},
                    stores = {.sType = VK_STRUCTURE_TYPE_MEMORY_BARRIER,
                              .srcAccessMask = is_unseen ? VK_ACCESS_SHADER_READ_BIT : VK_ACCESS_SHADER_WRITE_BIT,
                              .dstAccessMask = VK_ACCESS_TRANSFER_READ_BIT};
    VkCommandBuffer c = begin(g, VK_COMMAND_BUFFER_LEVEL_PRIMARY);
    vkCmdFillBuffer(c, b.handle, 0, SIZE, 1);
    vkCmdPipelineBarrier(c, VK_PIPELINE_STAGE_TRANSFER_BIT, VK_PIPELINE_STAGE_DRAW_INDIRECT_BIT, 0, 1, &sizes, 0, NULL,
                         0, NULL);
    vkCmdBindDescriptorSets(c, VK_PIPELINE_BIND_POINT_COMPUTE, both.layout, 0, 1, &both.set, 0, NULL);
    vkCmdBindPipeline(c, VK_PIPELINE_BIND_POINT_COMPUTE, pipeline);
    vkCmdDispatchIndirect(c, b.handle, 0);
    if (!is_missing)
        vkCmdPipelineBarrier(c, VK_PIPELINE_STAGE_COMPUTE_SHADER_BIT | VK_PIPELINE_STAGE_DRAW_INDIRECT_BIT,
                             VK_PIPELINE_STAGE_TRANSFER_BIT, 0, 1, &stores, 0, NULL, 0, NULL);
    copy(c, a, b);
    finish(g, c);
    vkDestroyPipeline(g->device, pipeline, NULL);
    end_array(g, both);
}

/* Two threads with a device each, many times. */
static void *in_thread(void *nothing)
{
    struct gpu g = new_gpu();
    struct buffer a = new_buffer(&g), b = new_buffer(&g);
    for (int i = 0; i < 40; i++)
        do_barrier(&g, a, b);
    end_buffer(&g, a);
    end_buffer(&g, b);
    end_gpu(&g);
    return nothing;
}

static void do_threads(const struct gpu *g, struct buffer a, struct buffer b)
{
    pthread_t threads[2];
    for (int i = 0; i < 2; i++)
        CHECK(pthread_create(&threads[i], NULL, in_thread, NULL));
    do_barrier(g, a, b);
    for (int i = 0; i < 2; i++)
        CHECK(pthread_join(threads[i], NULL));
}

static void do_forever(const struct gpu *g, struct buffer a, struct buffer b)
{
    for (;;)
        do_barrier(g, a, b);
}

static const struct {
    const char *name;
    void (*work)(const struct gpu *g, struct buffer a, struct buffer b);
} words[] = {{"barrier", do_barrier},     {"several", do_several},     {"event", do_event},
             {"event2", do_event2},       {"secondary", do_secondary}, {"early", do_early},
             {"flush", do_flush},         {"destroy", do_destroy},     {"queries", do_queries},
             {"image", do_image},         {"passes", do_passes},       {"subpasses", do_subpasses},
             {"rendering", do_rendering}, {"masks", do_masks},         {"elements", do_elements},
             {"stores", do_stores},       {"threads", do_threads},     {"forever", do_forever}};

static void do_word(const char *word)
{
    VkApplicationInfo application = {.sType = VK_STRUCTURE_TYPE_APPLICATION_INFO, .apiVersion = VK_API_VERSION_1_3};
    VkInstanceCreateInfo info = {.sType = VK_STRUCTURE_TYPE_INSTANCE_CREATE_INFO, .pApplicationInfo = &application};
    CHECK(vkCreateInstance(&info, NULL, &instance));
    uint32_t one = 1;
    if (vkEnumeratePhysicalDevices(instance, &one, &physical) < 0 || one == 0)
        exit(1);
    struct gpu g = new_gpu();
    struct buffer a = new_buffer(&g), b = new_buffer(&g);
    for (size_t i = 0; i < sizeof words / sizeof words[0]; i++)
        if (strcmp(word, words[i].name) == 0)
            words[i].work(&g, a, b);
    end_buffer(&g, a);
    end_buffer(&g, b);
    end_gpu(&g);
    vkDestroyInstance(instance, NULL);
}

int main(int count, char **arguments)
{
    const char *word = count > 1 ? arguments[1] : "", *way = count > 2 ? arguments[2] : "";
    is_missing = strcmp(way, "missing") == 0;
    is_unseen = strcmp(way, "unseen") == 0;
    do_word(word);
    if (strcmp(way, "twice") == 0)
        do_word(word);
    puts("right");
    return 0;
}
