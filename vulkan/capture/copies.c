/* Copies, fills, updates, blits, resolves and clears: exactly what they touch, or a part of it. */
#include "capture.h"

#include <stdlib.h>

/* Buffers -------------------------------------------------------------------------------------------------------- */

static void copy_bytes(struct commands *l, VkBuffer from, VkBuffer to, uint64_t source, uint64_t target, uint64_t size)
{
    if (!l)
        return;
    touch(l, find(l->device, KEY(from)), false, source, size, COPY | READ);
    touch(l, find(l->device, KEY(to)), true, target, size, COPY | WRITE);
}

VKAPI_ATTR void VKAPI_CALL capture_CmdCopyBuffer(VkCommandBuffer handle, VkBuffer from, VkBuffer to, uint32_t count,
                                                 const VkBufferCopy *regions)
{
    struct device *d = device_of(handle);
    struct commands *l = begin_command(d, handle, "vkCmdCopyBuffer");
    for (uint32_t i = 0; i < count; i++)
        copy_bytes(l, from, to, regions[i].srcOffset, regions[i].dstOffset, regions[i].size);
    end_command();
    d->calls.CmdCopyBuffer(handle, from, to, count, regions);
}

VKAPI_ATTR void VKAPI_CALL capture_CmdCopyBuffer2(VkCommandBuffer handle, const VkCopyBufferInfo2 *info)
{
    struct device *d = device_of(handle);
    struct commands *l = begin_command(d, handle, "vkCmdCopyBuffer2");
    for (uint32_t i = 0; i < info->regionCount; i++)
        copy_bytes(l, info->srcBuffer, info->dstBuffer, info->pRegions[i].srcOffset, info->pRegions[i].dstOffset,
                   info->pRegions[i].size);
    end_command();
    d->calls.CmdCopyBuffer2(handle, info);
}

VKAPI_ATTR void VKAPI_CALL capture_CmdFillBuffer(VkCommandBuffer handle, VkBuffer buffer, VkDeviceSize offset,
                                                 VkDeviceSize size, uint32_t word)
{
    struct device *d = device_of(handle);
    struct commands *l = begin_command(d, handle, "vkCmdFillBuffer");
    const struct thing *t = l ? find(d, KEY(buffer)) : NULL;
    if (t && offset < t->size)
        touch(l, t, true, offset, size == VK_WHOLE_SIZE ? (t->size - offset) & ~(uint64_t)3 : size, COPY | WRITE);
    end_command();
    d->calls.CmdFillBuffer(handle, buffer, offset, size, word);
}

VKAPI_ATTR void VKAPI_CALL capture_CmdUpdateBuffer(VkCommandBuffer handle, VkBuffer buffer, VkDeviceSize offset,
                                                   VkDeviceSize size, const void *data)
{
    struct device *d = device_of(handle);
    struct commands *l = begin_command(d, handle, "vkCmdUpdateBuffer");
    touch(l, l ? find(d, KEY(buffer)) : NULL, true, offset, size, COPY | WRITE);
    end_command();
    d->calls.CmdUpdateBuffer(handle, buffer, offset, size, data);
}

/* Buffers and images --------------------------------------------------------------------------------------------- */

struct box {
    VkImageSubresourceLayers layers;
    VkOffset3D offset;
    VkExtent3D extent;
};

/* The buffer's side of a copy: all its bytes where its rows follow one another, else the first row of each layer and
 * slice; and one byte where the format's texels come in blocks. */
static void touch_rows(struct commands *l, const struct thing *buffer, const struct thing *image, bool is_write,
                       uint64_t offset, uint32_t row_length, uint32_t row_count, const struct box *box)
{
    uint32_t scope = COPY | (is_write ? WRITE : READ);
    uint64_t texel = image ? texel_bytes(image->format, box->layers.aspectMask) : 0;
    if (texel == 0) {
        touch(l, buffer, is_write, offset, 1, scope);
        return;
    }
    uint64_t width = box->extent.width, height = box->extent.height;
    uint64_t row = row_length ? row_length : width, slice = row * (row_count ? row_count : height);
    uint64_t slices = (uint64_t)box->extent.depth * box->layers.layerCount;
    if (row == width && slice == width * height) {
        touch(l, buffer, is_write, offset, slice * slices * texel, scope);
        return;
    }
    count_unseen(UNSEEN_PARTS);
    uint64_t whole = row == width ? width * height : width;
    for (uint64_t i = 0; i < slices && i < 16; i++)
        touch(l, buffer, is_write, offset + i * slice * texel, whole * texel, scope);
}

static void copy_rows(struct commands *l, VkBuffer buffer, VkImage image, bool to_image, uint64_t offset,
                      uint32_t row_length, uint32_t row_count, struct box box)
{
    if (!l)
        return;
    const struct thing *b = find(l->device, KEY(buffer)), *t = find(l->device, KEY(image));
    if (to_image)
        touch_rows(l, b, t, false, offset, row_length, row_count, &box);
    touch_box(l, t, to_image, &box.layers, box.offset, box.extent, COPY | (to_image ? WRITE : READ));
    if (!to_image)
        touch_rows(l, b, t, true, offset, row_length, row_count, &box);
}

VKAPI_ATTR void VKAPI_CALL capture_CmdCopyBufferToImage(VkCommandBuffer handle, VkBuffer from, VkImage to,
                                                        VkImageLayout layout, uint32_t count,
                                                        const VkBufferImageCopy *regions)
{
    struct device *d = device_of(handle);
    struct commands *l = begin_command(d, handle, "vkCmdCopyBufferToImage");
    for (uint32_t i = 0; i < count; i++) {
        const __typeof__(regions[0]) *r = &regions[i];
        copy_rows(l, from, to, true, r->bufferOffset, r->bufferRowLength, r->bufferImageHeight,
                  (struct box){r->imageSubresource, r->imageOffset, r->imageExtent});
    }
    end_command();
    d->calls.CmdCopyBufferToImage(handle, from, to, layout, count, regions);
}

VKAPI_ATTR void VKAPI_CALL capture_CmdCopyBufferToImage2(VkCommandBuffer handle, const VkCopyBufferToImageInfo2 *info)
{
    struct device *d = device_of(handle);
    struct commands *l = begin_command(d, handle, "vkCmdCopyBufferToImage2");
    for (uint32_t i = 0; i < info->regionCount; i++) {
        const __typeof__(info->pRegions[0]) *r = &info->pRegions[i];
        copy_rows(l, info->srcBuffer, info->dstImage, true, r->bufferOffset, r->bufferRowLength, r->bufferImageHeight,
                  (struct box){r->imageSubresource, r->imageOffset, r->imageExtent});
    }
    end_command();
    d->calls.CmdCopyBufferToImage2(handle, info);
}

VKAPI_ATTR void VKAPI_CALL capture_CmdCopyImageToBuffer(VkCommandBuffer handle, VkImage from, VkImageLayout layout,
                                                        VkBuffer to, uint32_t count, const VkBufferImageCopy *regions)
{
    struct device *d = device_of(handle);
    struct commands *l = begin_command(d, handle, "vkCmdCopyImageToBuffer");
    for (uint32_t i = 0; i < count; i++) {
        const __typeof__(regions[0]) *r = &regions[i];
        copy_rows(l, to, from, false, r->bufferOffset, r->bufferRowLength, r->bufferImageHeight,
                  (struct box){r->imageSubresource, r->imageOffset, r->imageExtent});
    }
    end_command();
    d->calls.CmdCopyImageToBuffer(handle, from, layout, to, count, regions);
}

VKAPI_ATTR void VKAPI_CALL capture_CmdCopyImageToBuffer2(VkCommandBuffer handle, const VkCopyImageToBufferInfo2 *info)
{
    struct device *d = device_of(handle);
    struct commands *l = begin_command(d, handle, "vkCmdCopyImageToBuffer2");
    for (uint32_t i = 0; i < info->regionCount; i++) {
        const __typeof__(info->pRegions[0]) *r = &info->pRegions[i];
        copy_rows(l, info->dstBuffer, info->srcImage, false, r->bufferOffset, r->bufferRowLength, r->bufferImageHeight,
                  (struct box){r->imageSubresource, r->imageOffset, r->imageExtent});
    }
    end_command();
    d->calls.CmdCopyImageToBuffer2(handle, info);
}

/* Images --------------------------------------------------------------------------------------------------------- */

static void copy_boxes(struct commands *l, VkImage from, VkImage to, struct box source, struct box target)
{
    if (!l)
        return;
    touch_box(l, find(l->device, KEY(from)), false, &source.layers, source.offset, source.extent, COPY | READ);
    touch_box(l, find(l->device, KEY(to)), true, &target.layers, target.offset, target.extent, COPY | WRITE);
}

VKAPI_ATTR void VKAPI_CALL capture_CmdCopyImage(VkCommandBuffer handle, VkImage from, VkImageLayout layout, VkImage to,
                                                VkImageLayout to_layout, uint32_t count, const VkImageCopy *regions)
{
    struct device *d = device_of(handle);
    struct commands *l = begin_command(d, handle, "vkCmdCopyImage");
    for (uint32_t i = 0; i < count; i++) {
        const __typeof__(regions[0]) *r = &regions[i];
        copy_boxes(l, from, to, (struct box){r->srcSubresource, r->srcOffset, r->extent},
                   (struct box){r->dstSubresource, r->dstOffset, r->extent});
    }
    end_command();
    d->calls.CmdCopyImage(handle, from, layout, to, to_layout, count, regions);
}

VKAPI_ATTR void VKAPI_CALL capture_CmdCopyImage2(VkCommandBuffer handle, const VkCopyImageInfo2 *info)
{
    struct device *d = device_of(handle);
    struct commands *l = begin_command(d, handle, "vkCmdCopyImage2");
    for (uint32_t i = 0; i < info->regionCount; i++) {
        const __typeof__(info->pRegions[0]) *r = &info->pRegions[i];
        copy_boxes(l, info->srcImage, info->dstImage, (struct box){r->srcSubresource, r->srcOffset, r->extent},
                   (struct box){r->dstSubresource, r->dstOffset, r->extent});
    }
    end_command();
    d->calls.CmdCopyImage2(handle, info);
}

VKAPI_ATTR void VKAPI_CALL capture_CmdResolveImage(VkCommandBuffer handle, VkImage from, VkImageLayout layout,
                                                   VkImage to, VkImageLayout to_layout, uint32_t count,
                                                   const VkImageResolve *regions)
{
    struct device *d = device_of(handle);
    struct commands *l = begin_command(d, handle, "vkCmdResolveImage");
    for (uint32_t i = 0; i < count; i++) {
        const __typeof__(regions[0]) *r = &regions[i];
        copy_boxes(l, from, to, (struct box){r->srcSubresource, r->srcOffset, r->extent},
                   (struct box){r->dstSubresource, r->dstOffset, r->extent});
    }
    end_command();
    d->calls.CmdResolveImage(handle, from, layout, to, to_layout, count, regions);
}

VKAPI_ATTR void VKAPI_CALL capture_CmdResolveImage2(VkCommandBuffer handle, const VkResolveImageInfo2 *info)
{
    struct device *d = device_of(handle);
    struct commands *l = begin_command(d, handle, "vkCmdResolveImage2");
    for (uint32_t i = 0; i < info->regionCount; i++) {
        const __typeof__(info->pRegions[0]) *r = &info->pRegions[i];
        copy_boxes(l, info->srcImage, info->dstImage, (struct box){r->srcSubresource, r->srcOffset, r->extent},
                   (struct box){r->dstSubresource, r->dstOffset, r->extent});
    }
    end_command();
    d->calls.CmdResolveImage2(handle, info);
}

/* The box between two corners, in whatever order they come. */
static struct box spanned(VkImageSubresourceLayers layers, const VkOffset3D *corners)
{
    VkOffset3D a = corners[0], b = corners[1];
    VkOffset3D low = {a.x < b.x ? a.x : b.x, a.y < b.y ? a.y : b.y, a.z < b.z ? a.z : b.z};
    VkExtent3D extent = {(uint32_t)abs(a.x - b.x), (uint32_t)abs(a.y - b.y), (uint32_t)abs(a.z - b.z)};
    return (struct box){layers, low, extent};
}

VKAPI_ATTR void VKAPI_CALL capture_CmdBlitImage(VkCommandBuffer handle, VkImage from, VkImageLayout layout, VkImage to,
                                                VkImageLayout to_layout, uint32_t count, const VkImageBlit *regions,
                                                VkFilter filter)
{
    struct device *d = device_of(handle);
    struct commands *l = begin_command(d, handle, "vkCmdBlitImage");
    for (uint32_t i = 0; i < count; i++) {
        const __typeof__(regions[0]) *r = &regions[i];
        copy_boxes(l, from, to, spanned(r->srcSubresource, r->srcOffsets), spanned(r->dstSubresource, r->dstOffsets));
    }
    end_command();
    d->calls.CmdBlitImage(handle, from, layout, to, to_layout, count, regions, filter);
}

VKAPI_ATTR void VKAPI_CALL capture_CmdBlitImage2(VkCommandBuffer handle, const VkBlitImageInfo2 *info)
{
    struct device *d = device_of(handle);
    struct commands *l = begin_command(d, handle, "vkCmdBlitImage2");
    for (uint32_t i = 0; i < info->regionCount; i++) {
        const __typeof__(info->pRegions[0]) *r = &info->pRegions[i];
        copy_boxes(l, info->srcImage, info->dstImage, spanned(r->srcSubresource, r->srcOffsets),
                   spanned(r->dstSubresource, r->dstOffsets));
    }
    end_command();
    d->calls.CmdBlitImage2(handle, info);
}

VKAPI_ATTR void VKAPI_CALL capture_CmdClearColorImage(VkCommandBuffer handle, VkImage image, VkImageLayout layout,
                                                      const VkClearColorValue *value, uint32_t count,
                                                      const VkImageSubresourceRange *ranges)
{
    struct device *d = device_of(handle);
    struct commands *l = begin_command(d, handle, "vkCmdClearColorImage");
    for (uint32_t i = 0; l && i < count; i++)
        touch_range(l, find(d, KEY(image)), true, &ranges[i], COPY | WRITE);
    end_command();
    d->calls.CmdClearColorImage(handle, image, layout, value, count, ranges);
}

VKAPI_ATTR void VKAPI_CALL capture_CmdClearDepthStencilImage(VkCommandBuffer handle, VkImage image,
                                                             VkImageLayout layout,
                                                             const VkClearDepthStencilValue *value, uint32_t count,
                                                             const VkImageSubresourceRange *ranges)
{
    struct device *d = device_of(handle);
    struct commands *l = begin_command(d, handle, "vkCmdClearDepthStencilImage");
    for (uint32_t i = 0; l && i < count; i++)
        touch_range(l, find(d, KEY(image)), true, &ranges[i], COPY | WRITE);
    end_command();
    d->calls.CmdClearDepthStencilImage(handle, image, layout, value, count, ranges);
}
