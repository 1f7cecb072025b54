/* The client's rendering: passes with attachments that are cleared, stored and loaded. */
#include "capture_client.h"

/* An image to render to, with its view. */
struct target {
    VkImage image;
    VkDeviceMemory memory;
    VkImageView view;
};

static struct target new_target(const struct gpu *g, VkFormat format, VkImageAspectFlags aspect,
                                VkImageUsageFlags usage)
{
    struct target t;
    t.image = new_image(g, format, 1, usage, &t.memory);
    VkImageViewCreateInfo info = {.sType = VK_STRUCTURE_TYPE_IMAGE_VIEW_CREATE_INFO,
                                  .image = t.image,
                                  .viewType = VK_IMAGE_VIEW_TYPE_2D,
                                  .format = format,
                                  .subresourceRange = {aspect, 0, 1, 0, 1}};
    CHECK(vkCreateImageView(g->device, &info, NULL, &t.view));
    return t;
}

static void end_target(const struct gpu *g, struct target t)
{
    vkDestroyImageView(g->device, t.view, NULL);
    vkDestroyImage(g->device, t.image, NULL);
    vkFreeMemory(g->device, t.memory, NULL);
}

static const VkImageLayout in_color = VK_IMAGE_LAYOUT_COLOR_ATTACHMENT_OPTIMAL,
                           in_depth = VK_IMAGE_LAYOUT_DEPTH_STENCIL_ATTACHMENT_OPTIMAL;

/* Behind the passes above, whose depth was stored by the late tests, and is loaded by the early ones; and before
 * copies. */
static void depend(VkSubpassDependency *dependencies)
{
    VkAccessFlags writes = VK_ACCESS_COLOR_ATTACHMENT_WRITE_BIT | VK_ACCESS_DEPTH_STENCIL_ATTACHMENT_WRITE_BIT;
    VkAccessFlags reads = VK_ACCESS_COLOR_ATTACHMENT_READ_BIT | VK_ACCESS_DEPTH_STENCIL_ATTACHMENT_READ_BIT;
    dependencies[0] = (VkSubpassDependency){
        .dstSubpass = VK_SUBPASS_EXTERNAL,
        .srcStageMask = VK_PIPELINE_STAGE_COLOR_ATTACHMENT_OUTPUT_BIT,
        .dstStageMask = VK_PIPELINE_STAGE_TRANSFER_BIT,
        .srcAccessMask = VK_ACCESS_COLOR_ATTACHMENT_WRITE_BIT,
        .dstAccessMask = VK_ACCESS_TRANSFER_READ_BIT,
    };
    dependencies[1] = (VkSubpassDependency){
        .srcSubpass = VK_SUBPASS_EXTERNAL,
        .srcStageMask = VK_PIPELINE_STAGE_COLOR_ATTACHMENT_OUTPUT_BIT | VK_PIPELINE_STAGE_LATE_FRAGMENT_TESTS_BIT,
        .dstStageMask = VK_PIPELINE_STAGE_COLOR_ATTACHMENT_OUTPUT_BIT | VK_PIPELINE_STAGE_EARLY_FRAGMENT_TESTS_BIT,
        .srcAccessMask = writes,
        .dstAccessMask = is_unseen ? writes : writes | reads,
    };
}

/* A pass that clears color and depth; or one that loads them, and leaves the color to a copy. */
static VkRenderPass new_pass(const struct gpu *g, bool is_second)
{
    VkAttachmentDescription attachments[2] = {
        {.format = VK_FORMAT_R8G8B8A8_UNORM,
         .initialLayout = is_second ? in_color : VK_IMAGE_LAYOUT_UNDEFINED,
         .finalLayout = is_second ? VK_IMAGE_LAYOUT_TRANSFER_SRC_OPTIMAL : in_color},
        {.format = VK_FORMAT_D16_UNORM,
         .initialLayout = is_second ? in_depth : VK_IMAGE_LAYOUT_UNDEFINED,
         .finalLayout = in_depth},
    };
    for (int i = 0; i < 2; i++) {
        attachments[i].samples = VK_SAMPLE_COUNT_1_BIT;
        attachments[i].loadOp = is_second ? VK_ATTACHMENT_LOAD_OP_LOAD : VK_ATTACHMENT_LOAD_OP_CLEAR;
    }
    VkAttachmentReference color = {0, in_color}, depth = {1, in_depth};
    VkSubpassDescription subpass = {
        .colorAttachmentCount = 1, .pColorAttachments = &color, .pDepthStencilAttachment = &depth};
    VkSubpassDependency dependencies[2];
    depend(dependencies);
    VkRenderPassCreateInfo info = {.sType = VK_STRUCTURE_TYPE_RENDER_PASS_CREATE_INFO,
                                   .attachmentCount = 2,
                                   .pAttachments = attachments,
                                   .subpassCount = 1,
                                   .pSubpasses = &subpass,
                                   .dependencyCount = !is_second   ? 0
                                                      : is_missing ? 1
                                                                   : 2,
                                   .pDependencies = dependencies};
    VkRenderPass pass;
    CHECK(vkCreateRenderPass(g->device, &info, NULL, &pass));
    return pass;
}

static VkFramebuffer new_framebuffer(const struct gpu *g, VkRenderPass pass, const struct target *targets)
{
    VkImageView views[2] = {targets[0].view, targets[1].view};
    VkFramebufferCreateInfo info = {.sType = VK_STRUCTURE_TYPE_FRAMEBUFFER_CREATE_INFO,
                                    .renderPass = pass,
                                    .attachmentCount = 2,
                                    .pAttachments = views,
                                    .width = 32,
                                    .height = 32,
                                    .layers = 1};
    VkFramebuffer framebuffer;
    CHECK(vkCreateFramebuffer(g->device, &info, NULL, &framebuffer));
    return framebuffer;
}

static void copy_target(VkCommandBuffer c, const struct target *t, struct buffer to)
{
    VkBufferImageCopy all = {.imageSubresource = {VK_IMAGE_ASPECT_COLOR_BIT, 0, 0, 1}, .imageExtent = {32, 32, 1}};
    vkCmdCopyImageToBuffer(c, t->image, VK_IMAGE_LAYOUT_TRANSFER_SRC_OPTIMAL, to.handle, 1, &all);
}

void do_passes(const struct gpu *g, struct buffer a, struct buffer b)
{
    struct target targets[2] = {
        new_target(g, VK_FORMAT_R8G8B8A8_UNORM, VK_IMAGE_ASPECT_COLOR_BIT, VK_IMAGE_USAGE_COLOR_ATTACHMENT_BIT),
        new_target(g, VK_FORMAT_D16_UNORM, VK_IMAGE_ASPECT_DEPTH_BIT, VK_IMAGE_USAGE_DEPTH_STENCIL_ATTACHMENT_BIT)};
    VkRenderPass passes[2] = {new_pass(g, false), new_pass(g, true)};
    VkFramebuffer framebuffers[2] = {new_framebuffer(g, passes[0], targets), new_framebuffer(g, passes[1], targets)};
    VkClearValue clear[2] = {{.depthStencil = {0}}, {.depthStencil = {1, 0}}};
    VkCommandBuffer c = begin(g, VK_COMMAND_BUFFER_LEVEL_PRIMARY);
    for (int i = 0; i < 2; i++) {
        VkRenderPassBeginInfo info = {.sType = VK_STRUCTURE_TYPE_RENDER_PASS_BEGIN_INFO,
                                      .renderPass = passes[i],
                                      .framebuffer = framebuffers[i],
                                      .renderArea = {.extent = {32, 32}},
                                      .clearValueCount = 2,
                                      .pClearValues = clear};
        vkCmdBeginRenderPass(c, &info, VK_SUBPASS_CONTENTS_INLINE);
        vkCmdEndRenderPass(c);
    }
    copy_target(c, &targets[0], a);
    (void)b;
    finish(g, c);
    for (int i = 0; i < 2; i++) {
        vkDestroyFramebuffer(g->device, framebuffers[i], NULL);
        vkDestroyRenderPass(g->device, passes[i], NULL);
        end_target(g, targets[i]);
    }
}

/* Between two subpasses, and from the second one to copies. */
static void depend_between(VkSubpassDependency *dependencies)
{
    dependencies[0] = (VkSubpassDependency){
        .srcSubpass = 1,
        .dstSubpass = VK_SUBPASS_EXTERNAL,
        .srcStageMask = VK_PIPELINE_STAGE_COLOR_ATTACHMENT_OUTPUT_BIT,
        .dstStageMask = VK_PIPELINE_STAGE_TRANSFER_BIT,
        .srcAccessMask = VK_ACCESS_COLOR_ATTACHMENT_WRITE_BIT,
        .dstAccessMask = VK_ACCESS_TRANSFER_READ_BIT,
    };
    dependencies[1] = (VkSubpassDependency){
        .srcSubpass = 0,
        .dstSubpass = 1,
        .srcStageMask = VK_PIPELINE_STAGE_COLOR_ATTACHMENT_OUTPUT_BIT,
        .dstStageMask = VK_PIPELINE_STAGE_FRAGMENT_SHADER_BIT,
        .srcAccessMask = is_unseen ? VK_ACCESS_COLOR_ATTACHMENT_READ_BIT : VK_ACCESS_COLOR_ATTACHMENT_WRITE_BIT,
        .dstAccessMask = VK_ACCESS_INPUT_ATTACHMENT_READ_BIT,
    };
}

/* A pass of two subpasses: what the first one renders to is an input of the second one, which renders to another
 * attachment, whose layout comes there. */
static VkRenderPass new_chain(const struct gpu *g)
{
    VkAttachmentDescription attachments[2];
    for (int i = 0; i < 2; i++)
        attachments[i] = (VkAttachmentDescription){.format = VK_FORMAT_R8G8B8A8_UNORM,
                                                   .samples = VK_SAMPLE_COUNT_1_BIT,
                                                   .loadOp = VK_ATTACHMENT_LOAD_OP_CLEAR,
                                                   .finalLayout = i == 0 ? VK_IMAGE_LAYOUT_SHADER_READ_ONLY_OPTIMAL
                                                                         : VK_IMAGE_LAYOUT_TRANSFER_SRC_OPTIMAL};
    VkAttachmentReference colors[2] = {{0, in_color}, {1, in_color}},
                          input = {0, VK_IMAGE_LAYOUT_SHADER_READ_ONLY_OPTIMAL};
    VkSubpassDescription subpasses[2] = {{.colorAttachmentCount = 1, .pColorAttachments = &colors[0]},
                                         {.colorAttachmentCount = 1,
                                          .pColorAttachments = &colors[1],
                                          .inputAttachmentCount = 1,
                                          .pInputAttachments = &input}};
    VkSubpassDependency dependencies[2];
    depend_between(dependencies);
    VkRenderPassCreateInfo info = {.sType = VK_STRUCTURE_TYPE_RENDER_PASS_CREATE_INFO,
                                   .attachmentCount = 2,
                                   .pAttachments = attachments,
                                   .subpassCount = 2,
                                   .pSubpasses = subpasses,
                                   .dependencyCount = is_missing ? 1 : 2,
                                   .pDependencies = dependencies};
    VkRenderPass pass;
    CHECK(vkCreateRenderPass(g->device, &info, NULL, &pass));
    return pass;
}

void do_subpasses(const struct gpu *g, struct buffer a, struct buffer b)
{
    VkImageUsageFlags usage = VK_IMAGE_USAGE_COLOR_ATTACHMENT_BIT | VK_IMAGE_USAGE_INPUT_ATTACHMENT_BIT;
    struct target targets[2];
    for (int i = 0; i < 2; i++)
        targets[i] = new_target(g, VK_FORMAT_R8G8B8A8_UNORM, VK_IMAGE_ASPECT_COLOR_BIT, usage);
    VkRenderPass pass = new_chain(g);
    VkFramebuffer framebuffer = new_framebuffer(g, pass, targets);
    VkClearValue clear[2] = {0};
    VkRenderPassBeginInfo info = {.sType = VK_STRUCTURE_TYPE_RENDER_PASS_BEGIN_INFO,
                                  .renderPass = pass,
                                  .framebuffer = framebuffer,
                                  .renderArea = {.extent = {32, 32}},
                                  .clearValueCount = 2,
                                  .pClearValues = clear};
    VkCommandBuffer c = begin(g, VK_COMMAND_BUFFER_LEVEL_PRIMARY);
    vkCmdBeginRenderPass(c, &info, VK_SUBPASS_CONTENTS_INLINE);
    vkCmdNextSubpass(c, VK_SUBPASS_CONTENTS_INLINE);
    vkCmdEndRenderPass(c);
    copy_target(c, &targets[1], a);
    (void)b;
    finish(g, c);
    vkDestroyFramebuffer(g->device, framebuffer, NULL);
    vkDestroyRenderPass(g->device, pass, NULL);
    for (int i = 0; i < 2; i++)
        end_target(g, targets[i]);
}

static void render(VkCommandBuffer c, const struct target *t, VkAttachmentLoadOp load)
{
    VkRenderingAttachmentInfo color = {.sType = VK_STRUCTURE_TYPE_RENDERING_ATTACHMENT_INFO,
                                       .imageView = t->view,
                                       .imageLayout = in_color,
                                       .loadOp = load};
    VkRenderingInfo info = {.sType = VK_STRUCTURE_TYPE_RENDERING_INFO,
                            .renderArea = {.extent = {32, 32}},
                            .layerCount = 1,
                            .colorAttachmentCount = 1,
                            .pColorAttachments = &color};
    vkCmdBeginRendering(c, &info);
    vkCmdEndRendering(c);
}

static void move_target(VkCommandBuffer c, const struct target *t, VkPipelineStageFlags from,
                        VkAccessFlags from_accesses, VkImageLayout old, VkPipelineStageFlags to,
                        VkAccessFlags to_accesses, VkImageLayout layout)
{
    VkImageMemoryBarrier barrier = {.sType = VK_STRUCTURE_TYPE_IMAGE_MEMORY_BARRIER,
                                    .srcAccessMask = from_accesses,
                                    .dstAccessMask = to_accesses,
                                    .oldLayout = old,
                                    .newLayout = layout,
                                    .image = t->image,
                                    .subresourceRange = {VK_IMAGE_ASPECT_COLOR_BIT, 0, 1, 0, 1}};
    vkCmdPipelineBarrier(c, from, to, 0, 0, NULL, 0, NULL, 1, &barrier);
}

void do_rendering(const struct gpu *g, struct buffer a, struct buffer b)
{
    struct target t =
        new_target(g, VK_FORMAT_R8G8B8A8_UNORM, VK_IMAGE_ASPECT_COLOR_BIT, VK_IMAGE_USAGE_COLOR_ATTACHMENT_BIT);
    VkPipelineStageFlags stage = VK_PIPELINE_STAGE_COLOR_ATTACHMENT_OUTPUT_BIT;
    VkAccessFlags write = VK_ACCESS_COLOR_ATTACHMENT_WRITE_BIT, read = VK_ACCESS_COLOR_ATTACHMENT_READ_BIT;
    VkCommandBuffer c = begin(g, VK_COMMAND_BUFFER_LEVEL_PRIMARY);
    move_target(c, &t, VK_PIPELINE_STAGE_TOP_OF_PIPE_BIT, 0, VK_IMAGE_LAYOUT_UNDEFINED, stage, write, in_color);
    render(c, &t, VK_ATTACHMENT_LOAD_OP_CLEAR);
    if (!is_missing)
        move_target(c, &t, stage, write, in_color, stage, is_unseen ? write : read | write, in_color);
    render(c, &t, VK_ATTACHMENT_LOAD_OP_LOAD);
    move_target(c, &t, stage, write, in_color, VK_PIPELINE_STAGE_TRANSFER_BIT, VK_ACCESS_TRANSFER_READ_BIT,
                VK_IMAGE_LAYOUT_TRANSFER_SRC_OPTIMAL);
    copy_target(c, &t, a);
    (void)b;
    finish(g, c);
    end_target(g, t);
}
