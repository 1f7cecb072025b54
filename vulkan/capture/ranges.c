/* What commands touch, as lines of a command buffer's text.
 *
 * An image's units are the texels of its first level, counted again for each level of each layer of each aspect, in the
 * order aspect, layer, level. A part of a level is said by its rows, and of rows that aren't whole by no more than
 * MOST_ROWS: a part will do. */
#include "capture.h"

#include <stdarg.h>

enum { MOST_ROWS = 16 };

void say_line(struct commands *l, const char *format, ...)
{
    char line[448];
    va_list words;
    va_start(words, format);
    vsnprintf(line, sizeof line, format, words);
    va_end(words);
    unsigned open = l->label_count < MOST_LABELS ? l->label_count : MOST_LABELS;
    const char *label = open > 0 ? l->labels[open - 1] : "", *quote = open > 0 ? "\"" : "";
    say(&l->text, "%s # %s in C%u%s%s%s%s\n", line, l->call, l->number, open > 0 ? " " : "", quote, label, quote);
}

void begin_other_command(struct commands *l)
{
    if (!l->is_fresh)
        say(&l->text, "next\n");
    l->is_fresh = true;
}

/* Whether one read says what another one does: each of its stages, with the same kinds. */
static bool has_scope(const struct recent *r, uint32_t scope)
{
    uint32_t kinds = ~(uint32_t)STAGES;
    return !(scope & ~r->scope & STAGES) && (scope & kinds) == (r->scope & kinds);
}

/* Whether a read was said since the last barrier; else it is remembered as one that was. */
static bool is_said(struct commands *l, struct recent read)
{
    for (unsigned i = 0; i < l->recent_count; i++) {
        const struct recent *r = &l->recent[i];
        if (r->thing == read.thing && r->offset <= read.offset && r->offset + r->size >= read.offset + read.size
            && has_scope(r, read.scope))
            return true;
    }
    if (l->recent_count < MOST_RECENT)
        l->recent[l->recent_count++] = read;
    return false;
}

void touch(struct commands *l, const struct thing *t, bool is_write, uint64_t offset, uint64_t size, uint32_t scope)
{
    if (!l || !t || t->is_gone || size == 0 || offset >= t->size)
        return;
    size = size > t->size - offset ? t->size - offset : size;
    if (!is_write && is_said(l, (struct recent){t, offset, size, scope}))
        return;
    char words[SCOPE_TEXT];
    say_line(l, "%s R%u %llu %llu %s", is_write ? "write" : "read", t->number, (unsigned long long)offset,
             (unsigned long long)size, scope_words(words, scope));
    l->is_fresh = false;
}

/* The aspect of an image with several of them. */
static VkImageAspectFlags aspect(const struct thing *t, uint32_t number)
{
    if (t->aspects == 3)
        return (VkImageAspectFlags)VK_IMAGE_ASPECT_PLANE_0_BIT << number;
    if (t->aspects == 2)
        return number ? VK_IMAGE_ASPECT_STENCIL_BIT : VK_IMAGE_ASPECT_DEPTH_BIT;
    return ~(VkImageAspectFlags)0;
}

static bool has_aspect(const struct thing *t, uint32_t number, VkImageAspectFlags mask)
{
    return mask & aspect(t, number) || (t->aspects == 3 && mask & VK_IMAGE_ASPECT_COLOR_BIT);
}

static uint64_t level_units(const struct thing *t)
{
    return (uint64_t)t->extent.width * t->extent.height * t->extent.depth;
}

/* What is done with each part of a range that is in one piece. */
typedef void act_on(struct commands *l, const struct thing *t, uint64_t offset, uint64_t size, const uint32_t *with);

static void each_part(struct commands *l, const struct thing *t, const VkImageSubresourceRange *range, act_on *act,
                      const uint32_t *with)
{
    if (!l || !t || t->is_gone || !t->is_image || range->baseArrayLayer >= t->layers
        || range->baseMipLevel >= t->levels)
        return;
    uint32_t layers = t->layers - range->baseArrayLayer, levels = t->levels - range->baseMipLevel;
    layers = range->layerCount < layers ? range->layerCount : layers;
    levels = range->levelCount < levels ? range->levelCount : levels;
    uint64_t units = level_units(t);
    for (uint32_t a = 0; a < t->aspects; a++) {
        if (!has_aspect(t, a, range->aspectMask))
            continue;
        uint64_t first = ((uint64_t)a * t->layers + range->baseArrayLayer) * t->levels;
        if (levels == t->levels)
            act(l, t, first * units, (uint64_t)layers * levels * units, with);
        for (uint32_t y = 0; levels < t->levels && y < layers; y++)
            act(l, t, (first + (uint64_t)y * t->levels + range->baseMipLevel) * units, levels * units, with);
    }
}

static void touch_part(struct commands *l, const struct thing *t, uint64_t offset, uint64_t size, const uint32_t *with)
{
    touch(l, t, with[0], offset, size, with[1]);
}

void touch_range(struct commands *l, const struct thing *t, bool is_write, const VkImageSubresourceRange *range,
                 uint32_t scope)
{
    each_part(l, t, range, touch_part, (const uint32_t[]){is_write, scope});
}

void touch_view(struct commands *l, const struct view *v, bool is_write, uint32_t scope)
{
    if (v->is_slice)
        count_unseen(UNSEEN_PARTS);
    else if (v->thing && v->thing->is_image)
        touch_range(l, v->thing, is_write, &v->range, scope);
    else
        touch(l, v->thing, is_write, v->offset, v->size, scope);
}

/* Boxes ---------------------------------------------------------------------------------------------------------- */

static uint32_t at_level(uint32_t size, uint32_t level)
{
    size = level < 32 ? size >> level : 0;
    return size ? size : 1;
}

/* The size of a level. Planes of color are smaller in some formats. */
static VkExtent3D level_extent(const struct thing *t, const VkImageSubresourceLayers *layers)
{
    VkExtent3D e = {at_level(t->extent.width, layers->mipLevel), at_level(t->extent.height, layers->mipLevel),
                    at_level(t->extent.depth, layers->mipLevel)};
    bool is_half = t->format == VK_FORMAT_G8_B8_R8_3PLANE_420_UNORM || t->format == VK_FORMAT_G8_B8R8_2PLANE_420_UNORM;
    if (is_half && layers->aspectMask & (VK_IMAGE_ASPECT_PLANE_1_BIT | VK_IMAGE_ASPECT_PLANE_2_BIT)) {
        e.width = (e.width + 1) / 2;
        e.height = (e.height + 1) / 2;
    }
    return e;
}

/* A slice of a box: `base` is where the slice's level begins. */
static void touch_slice(struct commands *l, const struct thing *t, uint64_t base, VkOffset3D o, VkExtent3D e,
                        bool are_whole_rows, const uint32_t *with)
{
    uint64_t width = t->extent.width;
    if (are_whole_rows && e.width == width) {
        touch(l, t, with[0], base + (uint64_t)o.y * width, e.height * width, with[1]);
        return;
    }
    if (e.height > MOST_ROWS)
        count_unseen(UNSEEN_PARTS);
    for (uint32_t row = 0; row < e.height && row < MOST_ROWS; row++)
        touch(l, t, with[0], base + ((uint64_t)o.y + row) * width + (uint64_t)o.x, e.width, with[1]);
}

void touch_box(struct commands *l, const struct thing *t, bool is_write, const VkImageSubresourceLayers *layers,
               VkOffset3D o, VkExtent3D e, uint32_t scope)
{
    if (!l || !t || t->is_gone || !t->is_image || layers->mipLevel >= t->levels)
        return;
    const uint32_t with[] = {is_write, scope};
    VkExtent3D whole = level_extent(t, layers);
    bool are_whole_rows = o.x == 0 && e.width >= whole.width;
    if (are_whole_rows && o.y == 0 && o.z == 0 && e.height >= whole.height && e.depth >= whole.depth) {
        VkImageSubresourceRange range = {layers->aspectMask, layers->mipLevel, 1, layers->baseArrayLayer,
                                         layers->layerCount};
        touch_range(l, t, is_write, &range, scope);
        return;
    }
    bool is_deep = t->extent.depth > 1;
    uint32_t first = is_deep ? 0 : layers->baseArrayLayer;
    uint32_t left = first < t->layers ? t->layers - first : 0;
    uint32_t count = is_deep ? 1 : layers->layerCount < left ? layers->layerCount : left;
    for (uint32_t a = 0; a < t->aspects; a++)
        for (uint32_t y = 0; has_aspect(t, a, layers->aspectMask) && y < count; y++)
            for (uint32_t z = 0; z < e.depth; z++) {
                uint64_t level = (((uint64_t)a * t->layers + first + y) * t->levels) + layers->mipLevel;
                uint64_t slice = ((uint64_t)o.z + z) * t->extent.width * t->extent.height;
                touch_slice(l, t, level * level_units(t) + slice, o, e, are_whole_rows, with);
            }
}

/* Barriers ------------------------------------------------------------------------------------------------------- */

void put_barrier(struct commands *l, uint32_t from, uint32_t to)
{
    if (!l)
        return;
    char source[SCOPE_TEXT], target[SCOPE_TEXT];
    say_line(l, "barrier %s %s", scope_words(source, from), scope_words(target, to));
    l->is_fresh = true;
    l->recent_count = 0;
}

static void move_part(struct commands *l, const struct thing *t, uint64_t offset, uint64_t size, const uint32_t *with)
{
    if (size == 0 || offset + size > t->size)
        return;
    char source[SCOPE_TEXT], target[SCOPE_TEXT];
    say_line(l, "barrier %s %s R%u %llu %llu", scope_words(source, with[0]), scope_words(target, with[1]), t->number,
             (unsigned long long)offset, (unsigned long long)size);
    l->is_fresh = true;
    l->recent_count = 0;
}

void put_transition(struct commands *l, const struct thing *t, const VkImageSubresourceRange *range, uint32_t from,
                    uint32_t to)
{
    each_part(l, t, range, move_part, (const uint32_t[]){from, to});
}

void put_mark(struct commands *l, struct thing *event, bool is_set, uint32_t scope)
{
    if (!l || !event || !has_room((void **)&l->marks, &l->mark_room, l->mark_count, sizeof *l->marks))
        return;
    l->marks[l->mark_count++] = (struct mark){l->text.size, event, is_set, scope};
    l->is_fresh = true;
    l->recent_count = 0;
}
