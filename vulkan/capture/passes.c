/* Render passes: their attachments, the dependencies between their subpasses and out of them, and the layout
 * transitions there, with Vulkan's implicit dependencies where there are none of its own; and dynamic rendering. */
#include "capture.h"

#include <stdlib.h>

/* What a subpass does with an attachment. */
enum { AS_COLOR = 1, AS_DEPTH = 2, AS_DEPTH_READ = 4, AS_INPUT = 8, AS_RESOLVED = 16 };

/* The layouts before the first subpass that uses it, there, in the last one, and behind that; and the aspects that are
 * loaded. */
struct attachment {
    VkImageLayout initial, first, last, final;
    uint32_t first_subpass, last_subpass;
    VkImageAspectFlags loaded;
    bool is_used;
};

struct dependency {
    uint32_t source, target;
    VkMemoryBarrier2 masks;
};

struct pass {
    uint32_t attachment_count, subpass_count, dependency_count;
    struct attachment *attachments;
    unsigned char *kinds; /* for each subpass, for each attachment */
    VkImageLayout *layouts;
    struct dependency *dependencies;
};

struct frame {
    uint32_t count;
    struct view views[];
};

void free_pass(struct pass *p)
{
    if (!p)
        return;
    free(p->attachments);
    free(p->kinds);
    free(p->layouts);
    free(p->dependencies);
    free(p);
}

static struct pass *new_pass(uint32_t attachments, uint32_t subpasses, uint32_t dependencies)
{
    struct pass *p = is_recording() ? get(1, sizeof *p) : NULL;
    if (!p)
        return NULL;
    p->attachment_count = attachments;
    p->subpass_count = subpasses;
    p->dependency_count = dependencies;
    p->attachments = get(attachments, sizeof *p->attachments);
    p->kinds = get((size_t)attachments * subpasses, 1);
    p->layouts = get((size_t)attachments * subpasses, sizeof *p->layouts);
    p->dependencies = get(dependencies, sizeof *p->dependencies);
    if (p->attachments && p->kinds && p->layouts && p->dependencies)
        return p;
    free_pass(p);
    return NULL;
}

static bool only_reads(VkImageLayout layout)
{
    return layout == VK_IMAGE_LAYOUT_DEPTH_STENCIL_READ_ONLY_OPTIMAL || layout == VK_IMAGE_LAYOUT_READ_ONLY_OPTIMAL
           || layout == VK_IMAGE_LAYOUT_SHADER_READ_ONLY_OPTIMAL || layout == VK_IMAGE_LAYOUT_DEPTH_READ_ONLY_OPTIMAL;
}

static void use(struct pass *p, uint32_t subpass, uint32_t number, VkImageLayout layout, unsigned char kind)
{
    if (number >= p->attachment_count)
        return;
    struct attachment *a = &p->attachments[number];
    if (!a->is_used) {
        a->first = layout;
        a->first_subpass = subpass;
    }
    a->is_used = true;
    a->last = layout;
    a->last_subpass = subpass;
    p->kinds[(size_t)subpass * p->attachment_count + number] |= kind;
    p->layouts[(size_t)subpass * p->attachment_count + number] = layout;
}

/* Both versions of the create infos have the same names for what is read here. */
#define USE_ALL(pass, subpass, of)                                                                              \
    for (uint32_t k = 0; k < (of)->colorAttachmentCount; k++) {                                                 \
        use(pass, subpass, (of)->pColorAttachments[k].attachment, (of)->pColorAttachments[k].layout, AS_COLOR); \
        if ((of)->pResolveAttachments)                                                                          \
            use(pass, subpass, (of)->pResolveAttachments[k].attachment, (of)->pResolveAttachments[k].layout,    \
                AS_RESOLVED);                                                                                   \
    }                                                                                                           \
    for (uint32_t k = 0; k < (of)->inputAttachmentCount; k++)                                                   \
        use(pass, subpass, (of)->pInputAttachments[k].attachment, (of)->pInputAttachments[k].layout, AS_INPUT); \
    if ((of)->pDepthStencilAttachment)                                                                          \
        use(pass, subpass, (of)->pDepthStencilAttachment->attachment, (of)->pDepthStencilAttachment->layout,    \
            only_reads((of)->pDepthStencilAttachment->layout) ? AS_DEPTH_READ : AS_DEPTH);

/* The aspects that are loaded: those with other load operations are written. */
static VkImageAspectFlags loaded(VkFormat format, VkAttachmentLoadOp load, VkAttachmentLoadOp stencil)
{
    VkImageAspectFlags aspects = format_aspects(format);
    if (load != VK_ATTACHMENT_LOAD_OP_LOAD)
        aspects &= VK_IMAGE_ASPECT_STENCIL_BIT;
    return stencil == VK_ATTACHMENT_LOAD_OP_LOAD ? aspects : aspects & ~(VkImageAspectFlags)VK_IMAGE_ASPECT_STENCIL_BIT;
}

#define MASKS(from, accesses_from, to, accesses_to) \
    ((VkMemoryBarrier2){                            \
        .srcStageMask = from, .srcAccessMask = accesses_from, .dstStageMask = to, .dstAccessMask = accesses_to})

#define KEEP_ATTACHMENT(to, of)                                 \
    *(to) = (struct attachment){.initial = (of)->initialLayout, \
                                .final = (of)->finalLayout,     \
                                .loaded = loaded((of)->format, (of)->loadOp, (of)->stencilLoadOp)};

static void keep_pass(struct device *d, uint64_t key, struct pass *p)
{
    free_pass(table_take(&d->tables[PASSES], key));
    if (!table_put(&d->tables[PASSES], key, p))
        free_pass(p);
}

VKAPI_ATTR VkResult VKAPI_CALL capture_CreateRenderPass(VkDevice device, const VkRenderPassCreateInfo *info,
                                                        const VkAllocationCallbacks *allocator, VkRenderPass *pass)
{
    struct device *d = device_of(device);
    VkResult result = d->calls.CreateRenderPass(device, info, allocator, pass);
    if (result != VK_SUCCESS)
        return result;
    lock_recorder();
    struct pass *p = new_pass(info->attachmentCount, info->subpassCount, info->dependencyCount);
    for (uint32_t i = 0; p && i < p->attachment_count; i++) {
        KEEP_ATTACHMENT(&p->attachments[i], &info->pAttachments[i])
    }
    for (uint32_t i = 0; p && i < p->subpass_count; i++) {
        USE_ALL(p, i, &info->pSubpasses[i])
    }
    for (uint32_t i = 0; p && i < p->dependency_count; i++) {
        const VkSubpassDependency *x = &info->pDependencies[i];
        p->dependencies[i] = (struct dependency){
            x->srcSubpass, x->dstSubpass, MASKS(x->srcStageMask, x->srcAccessMask, x->dstStageMask, x->dstAccessMask)};
    }
    if (p)
        keep_pass(d, KEY(*pass), p);
    unlock_recorder();
    return result;
}

VKAPI_ATTR VkResult VKAPI_CALL capture_CreateRenderPass2(VkDevice device, const VkRenderPassCreateInfo2 *info,
                                                         const VkAllocationCallbacks *allocator, VkRenderPass *pass)
{
    struct device *d = device_of(device);
    VkResult result = d->calls.CreateRenderPass2(device, info, allocator, pass);
    if (result != VK_SUCCESS)
        return result;
    lock_recorder();
    struct pass *p = new_pass(info->attachmentCount, info->subpassCount, info->dependencyCount);
    for (uint32_t i = 0; p && i < p->attachment_count; i++) {
        KEEP_ATTACHMENT(&p->attachments[i], &info->pAttachments[i])
    }
    for (uint32_t i = 0; p && i < p->subpass_count; i++) {
        USE_ALL(p, i, &info->pSubpasses[i])
    }
    for (uint32_t i = 0; p && i < p->dependency_count; i++) {
        const VkSubpassDependency2 *x = &info->pDependencies[i];
        const VkMemoryBarrier2 *b = in_chain(x->pNext, VK_STRUCTURE_TYPE_MEMORY_BARRIER_2);
        p->dependencies[i] =
            (struct dependency){x->srcSubpass, x->dstSubpass,
                                b ? *b : MASKS(x->srcStageMask, x->srcAccessMask, x->dstStageMask, x->dstAccessMask)};
    }
    if (p)
        keep_pass(d, KEY(*pass), p);
    unlock_recorder();
    return result;
}

VKAPI_ATTR void VKAPI_CALL capture_DestroyRenderPass(VkDevice device, VkRenderPass pass,
                                                     const VkAllocationCallbacks *allocator)
{
    struct device *d = device_of(device);
    lock_recorder();
    free_pass(pass ? table_take(&d->tables[PASSES], KEY(pass)) : NULL);
    unlock_recorder();
    d->calls.DestroyRenderPass(device, pass, allocator);
}

VKAPI_ATTR VkResult VKAPI_CALL capture_CreateFramebuffer(VkDevice device, const VkFramebufferCreateInfo *info,
                                                         const VkAllocationCallbacks *allocator,
                                                         VkFramebuffer *framebuffer)
{
    struct device *d = device_of(device);
    VkResult result = d->calls.CreateFramebuffer(device, info, allocator, framebuffer);
    if (result != VK_SUCCESS)
        return result;
    lock_recorder();
    uint32_t count = info->flags & VK_FRAMEBUFFER_CREATE_IMAGELESS_BIT ? 0 : info->attachmentCount;
    struct frame *f = is_recording() ? get(1, sizeof *f + count * sizeof f->views[0]) : NULL;
    if (f) {
        f->count = count;
        for (uint32_t i = 0; i < count; i++) {
            const struct view *v = table_get(&d->tables[VIEWS], KEY(info->pAttachments[i]));
            f->views[i] = v ? *v : (struct view){0};
        }
        free(table_take(&d->tables[FRAMES], KEY(*framebuffer)));
        if (!table_put(&d->tables[FRAMES], KEY(*framebuffer), f))
            free(f);
    }
    unlock_recorder();
    return result;
}

VKAPI_ATTR void VKAPI_CALL capture_DestroyFramebuffer(VkDevice device, VkFramebuffer framebuffer,
                                                      const VkAllocationCallbacks *allocator)
{
    struct device *d = device_of(device);
    lock_recorder();
    free(framebuffer ? table_take(&d->tables[FRAMES], KEY(framebuffer)) : NULL);
    unlock_recorder();
    d->calls.DestroyFramebuffer(device, framebuffer, allocator);
}

/* Commands ------------------------------------------------------------------------------------------------------- */

static bool leads(const struct dependency *x, uint32_t from, uint32_t to)
{
    if (x->source == x->target)
        return false;
    if (from == VK_SUBPASS_EXTERNAL)
        return x->source == VK_SUBPASS_EXTERNAL;
    if (to == VK_SUBPASS_EXTERNAL)
        return x->target == VK_SUBPASS_EXTERNAL;
    return x->target == to;
}

static const uint64_t attachment_accesses =
    VK_ACCESS_2_INPUT_ATTACHMENT_READ_BIT | VK_ACCESS_2_COLOR_ATTACHMENT_READ_BIT
    | VK_ACCESS_2_COLOR_ATTACHMENT_WRITE_BIT | VK_ACCESS_2_DEPTH_STENCIL_ATTACHMENT_READ_BIT
    | VK_ACCESS_2_DEPTH_STENCIL_ATTACHMENT_WRITE_BIT;

static void join(VkMemoryBarrier2 *to, const VkMemoryBarrier2 *from)
{
    to->srcStageMask |= from->srcStageMask;
    to->srcAccessMask |= from->srcAccessMask;
    to->dstStageMask |= from->dstStageMask;
    to->dstAccessMask |= from->dstAccessMask;
}

static void put_masks(struct commands *l, uint32_t number, const VkMemoryBarrier2 *b)
{
    put_transition(l, l->attached[number].thing, &l->attached[number].range,
                   first_scope(b->srcStageMask, b->srcAccessMask), second_scope(b->dstStageMask, b->dstAccessMask));
}

/* An attachment's transition into the pass or out of it: between the scopes of the dependencies of subpasses that use
 * it. Where the first one of these has none, or the last one, there is an implicit one, of the accesses to attachments:
 * it begins at no stage and holds back all, or waits for all and holds back none (Vulkan 1.3, "Render Pass Creation").
 */
static void transit(struct commands *l, uint32_t number, bool is_in)
{
    const struct pass *p = l->pass;
    const struct attachment *a = &p->attachments[number];
    if (!a->is_used || (is_in ? a->initial == a->first : a->last == a->final))
        return;
    VkMemoryBarrier2 all = {0};
    bool is_own = false;
    for (uint32_t i = 0; i < p->dependency_count; i++) {
        const struct dependency *x = &p->dependencies[i];
        uint32_t outside = is_in ? x->source : x->target, inside = is_in ? x->target : x->source;
        if (outside != VK_SUBPASS_EXTERNAL || inside >= p->subpass_count
            || !p->kinds[(size_t)inside * p->attachment_count + number])
            continue;
        is_own = is_own || inside == (is_in ? a->first_subpass : a->last_subpass);
        join(&all, &x->masks);
    }
    if (!is_own)
        join(&all, is_in ? &MASKS(0, 0, VK_PIPELINE_STAGE_2_ALL_COMMANDS_BIT, attachment_accesses)
                         : &MASKS(VK_PIPELINE_STAGE_2_ALL_COMMANDS_BIT, attachment_accesses, 0, 0));
    put_masks(l, number, &all);
}

/* An attachment's transition into a subpass, where one before used it in another layout: behind what dependencies out
 * of that one wait for, and before what those into this one hold back. */
static void transit_between(struct commands *l, uint32_t number, uint32_t subpass)
{
    const struct pass *p = l->pass;
    size_t count = p->attachment_count, at = subpass * count + number, before = subpass;
    while (before > 0 && !p->kinds[(before - 1) * count + number])
        before--;
    if (!p->kinds[at] || before == 0 || p->layouts[at] == p->layouts[(before - 1) * count + number])
        return;
    before--;
    VkMemoryBarrier2 all = {0};
    for (uint32_t i = 0; i < p->dependency_count; i++) {
        const struct dependency *x = &p->dependencies[i];
        if (x->source == before && x->target != before)
            join(&all, &MASKS(x->masks.srcStageMask, x->masks.srcAccessMask, 0, 0));
        if (x->target == subpass && x->source != subpass)
            join(&all, &MASKS(0, 0, x->masks.dstStageMask, x->masks.dstAccessMask));
    }
    put_masks(l, number, &all);
}

/* Into a subpass, or out of the pass: the dependencies and the transitions there. */
static void cross(struct commands *l, uint32_t from, uint32_t to)
{
    const struct pass *p = l->pass;
    bool is_in = from == VK_SUBPASS_EXTERNAL, is_out = to == VK_SUBPASS_EXTERNAL;
    for (uint32_t i = 0; i < p->dependency_count; i++) {
        const VkMemoryBarrier2 *b = &p->dependencies[i].masks;
        if (leads(&p->dependencies[i], from, to))
            put_barrier(l, first_scope(b->srcStageMask, b->srcAccessMask),
                        second_scope(b->dstStageMask, b->dstAccessMask));
    }
    for (uint32_t i = 0; i < p->attachment_count && i < l->attached_count; i++) {
        if (is_in || is_out)
            transit(l, i, is_in);
        else
            transit_between(l, i, to);
    }
}

/* The area that is rendered to, of each level and layer of a view. */
static void touch_area(struct commands *l, const struct view *v, bool is_write, uint32_t stages)
{
    if (v->is_slice)
        count_unseen(UNSEEN_PARTS);
    if (!v->thing || !v->thing->is_image || v->is_slice)
        return;
    VkImageSubresourceLayers layers = {v->range.aspectMask, v->range.baseMipLevel, v->range.baseArrayLayer,
                                       v->range.layerCount};
    VkOffset3D offset = {l->area.offset.x, l->area.offset.y, 0};
    VkExtent3D extent = {l->area.extent.width, l->area.extent.height, v->thing->extent.depth};
    touch_box(l, v->thing, is_write, &layers, offset, extent, stages);
}

/* What is loaded of an attachment is read, of depth by the early tests. */
static void load(struct commands *l, const struct view *v, VkImageAspectFlags aspects)
{
    struct view part = *v;
    part.range.aspectMask &= aspects;
    bool is_color = aspects & VK_IMAGE_ASPECT_COLOR_BIT;
    if (part.range.aspectMask)
        touch_area(l, &part, false, (is_color ? COLOR : EARLY) | ATTACHMENT);
}

/* Inputs are read by the shaders of draws, through descriptors. */
static void attach(struct commands *l)
{
    const struct pass *p = l->pass;
    begin_other_command(l);
    for (uint32_t i = 0; i < p->attachment_count && i < l->attached_count; i++) {
        unsigned kinds = p->kinds[(size_t)l->subpass * p->attachment_count + i];
        const struct attachment *a = &p->attachments[i];
        const struct view *v = &l->attached[i];
        if (kinds & (AS_COLOR | AS_DEPTH) && a->first_subpass == l->subpass)
            load(l, v, a->loaded);
        if (kinds & AS_DEPTH_READ)
            touch_area(l, v, false, EARLY | LATE | ATTACHMENT);
        if (kinds & AS_DEPTH)
            touch_area(l, v, true, EARLY | LATE | WRITE);
        if (kinds & (AS_COLOR | AS_RESOLVED))
            touch_area(l, v, true, COLOR | WRITE);
    }
}

/* The views that are rendered to: those of the framebuffer, or of the call where the framebuffer has none. */
static void find_views(struct commands *l, const VkRenderPassBeginInfo *info)
{
    const VkRenderPassAttachmentBeginInfo *own =
        in_chain(info->pNext, VK_STRUCTURE_TYPE_RENDER_PASS_ATTACHMENT_BEGIN_INFO);
    const struct frame *f = table_get(&l->device->tables[FRAMES], KEY(info->framebuffer));
    uint32_t count = own && own->attachmentCount ? own->attachmentCount : f ? f->count : 0;
    free(l->attached);
    l->attached = get(count, sizeof *l->attached);
    l->attached_count = l->attached ? count : 0;
    for (uint32_t i = 0; i < l->attached_count; i++) {
        const struct view *v = own && own->attachmentCount
                                   ? table_get(&l->device->tables[VIEWS], KEY(own->pAttachments[i]))
                                   : &f->views[i];
        l->attached[i] = v ? *v : (struct view){0};
    }
}

static void begin_pass(struct commands *l, const VkRenderPassBeginInfo *info)
{
    l->pass = table_get(&l->device->tables[PASSES], KEY(info->renderPass));
    l->subpass = 0;
    l->area = info->renderArea;
    find_views(l, info);
    if (!l->pass)
        return;
    cross(l, VK_SUBPASS_EXTERNAL, 0);
    attach(l);
}

static void next_subpass(struct commands *l)
{
    if (!l || !l->pass || l->subpass + 1 >= l->pass->subpass_count)
        return;
    l->subpass++;
    cross(l, l->subpass - 1, l->subpass);
    attach(l);
}

static void end_pass(struct commands *l)
{
    if (l && l->pass)
        cross(l, l->subpass, VK_SUBPASS_EXTERNAL);
    if (l)
        l->pass = NULL;
}

VKAPI_ATTR void VKAPI_CALL capture_CmdBeginRenderPass(VkCommandBuffer handle, const VkRenderPassBeginInfo *info,
                                                      VkSubpassContents contents)
{
    struct device *d = device_of(handle);
    struct commands *l = begin_state(d, handle, "vkCmdBeginRenderPass");
    if (l)
        begin_pass(l, info);
    end_command();
    d->calls.CmdBeginRenderPass(handle, info, contents);
}

VKAPI_ATTR void VKAPI_CALL capture_CmdBeginRenderPass2(VkCommandBuffer handle, const VkRenderPassBeginInfo *info,
                                                       const VkSubpassBeginInfo *begin)
{
    struct device *d = device_of(handle);
    struct commands *l = begin_state(d, handle, "vkCmdBeginRenderPass2");
    if (l)
        begin_pass(l, info);
    end_command();
    d->calls.CmdBeginRenderPass2(handle, info, begin);
}

VKAPI_ATTR void VKAPI_CALL capture_CmdNextSubpass(VkCommandBuffer handle, VkSubpassContents contents)
{
    struct device *d = device_of(handle);
    next_subpass(begin_state(d, handle, "vkCmdNextSubpass"));
    end_command();
    d->calls.CmdNextSubpass(handle, contents);
}

VKAPI_ATTR void VKAPI_CALL capture_CmdNextSubpass2(VkCommandBuffer handle, const VkSubpassBeginInfo *begin,
                                                   const VkSubpassEndInfo *end)
{
    struct device *d = device_of(handle);
    next_subpass(begin_state(d, handle, "vkCmdNextSubpass2"));
    end_command();
    d->calls.CmdNextSubpass2(handle, begin, end);
}

VKAPI_ATTR void VKAPI_CALL capture_CmdEndRenderPass(VkCommandBuffer handle)
{
    struct device *d = device_of(handle);
    end_pass(begin_state(d, handle, "vkCmdEndRenderPass"));
    end_command();
    d->calls.CmdEndRenderPass(handle);
}

VKAPI_ATTR void VKAPI_CALL capture_CmdEndRenderPass2(VkCommandBuffer handle, const VkSubpassEndInfo *end)
{
    struct device *d = device_of(handle);
    end_pass(begin_state(d, handle, "vkCmdEndRenderPass2"));
    end_command();
    d->calls.CmdEndRenderPass2(handle, end);
}

/* Dynamic rendering ------------------------------------------------------------------------------------------------ */

/* An attachment, of which one aspect is rendered to at some stages. */
static void render_to(struct commands *l, const VkRenderingAttachmentInfo *a, VkImageAspectFlags aspect,
                      uint32_t stages)
{
    if (!l || !a || !a->imageView)
        return;
    const struct table *views = &l->device->tables[VIEWS];
    const struct view *v = table_get(views, KEY(a->imageView));
    const struct view *resolved =
        a->resolveMode && a->resolveImageView ? table_get(views, KEY(a->resolveImageView)) : NULL;
    bool is_write = !only_reads(a->imageLayout);
    if (v && is_write && a->loadOp == VK_ATTACHMENT_LOAD_OP_LOAD)
        load(l, v, aspect);
    if (v)
        touch_area(l, v, is_write, stages | (is_write ? WRITE : ATTACHMENT));
    if (resolved)
        touch_area(l, resolved, true, COLOR | WRITE);
}

VKAPI_ATTR void VKAPI_CALL capture_CmdBeginRendering(VkCommandBuffer handle, const VkRenderingInfo *info)
{
    struct device *d = device_of(handle);
    struct commands *l = begin_command(d, handle, "vkCmdBeginRendering");
    if (l && !(info->flags & VK_RENDERING_RESUMING_BIT)) {
        l->area = info->renderArea;
        for (uint32_t i = 0; i < info->colorAttachmentCount; i++)
            render_to(l, &info->pColorAttachments[i], VK_IMAGE_ASPECT_COLOR_BIT, COLOR);
        const VkRenderingAttachmentInfo *depth = info->pDepthAttachment, *stencil = info->pStencilAttachment;
        render_to(l, depth, VK_IMAGE_ASPECT_DEPTH_BIT, EARLY | LATE);
        if (!depth || !stencil || depth->imageView != stencil->imageView)
            render_to(l, stencil, VK_IMAGE_ASPECT_STENCIL_BIT, EARLY | LATE);
    }
    end_command();
    d->calls.CmdBeginRendering(handle, info);
}
