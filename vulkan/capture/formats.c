/* How many bytes a texel of a format takes in a buffer, and its aspects. */
#include "capture.h"

/* The last format of each row of formats with as many bytes, in the order of their numbers (Vulkan 1.3, "Formats"). */
static const struct {
    VkFormat last;
    unsigned char bytes;
} rows[] = {
    {VK_FORMAT_UNDEFINED, 0},
    {VK_FORMAT_R4G4_UNORM_PACK8, 1},
    {VK_FORMAT_A1R5G5B5_UNORM_PACK16, 2},
    {VK_FORMAT_R8_SRGB, 1},
    {VK_FORMAT_R8G8_SRGB, 2},
    {VK_FORMAT_B8G8R8_SRGB, 3},
    {VK_FORMAT_A2B10G10R10_SINT_PACK32, 4},
    {VK_FORMAT_R16_SFLOAT, 2},
    {VK_FORMAT_R16G16_SFLOAT, 4},
    {VK_FORMAT_R16G16B16_SFLOAT, 6},
    {VK_FORMAT_R16G16B16A16_SFLOAT, 8},
    {VK_FORMAT_R32_SFLOAT, 4},
    {VK_FORMAT_R32G32_SFLOAT, 8},
    {VK_FORMAT_R32G32B32_SFLOAT, 12},
    {VK_FORMAT_R32G32B32A32_SFLOAT, 16},
    {VK_FORMAT_R64_SFLOAT, 8},
    {VK_FORMAT_R64G64_SFLOAT, 16},
    {VK_FORMAT_R64G64B64_SFLOAT, 24},
    {VK_FORMAT_R64G64B64A64_SFLOAT, 32},
    {VK_FORMAT_E5B9G9R9_UFLOAT_PACK32, 4},
    {VK_FORMAT_D16_UNORM, 2},
    {VK_FORMAT_D32_SFLOAT, 4},
    {VK_FORMAT_S8_UINT, 1},
};

uint64_t texel_bytes(VkFormat format, VkImageAspectFlags aspects)
{
    if (aspects == VK_IMAGE_ASPECT_STENCIL_BIT)
        return 1;
    switch (format) {
    case VK_FORMAT_D16_UNORM_S8_UINT:
        return 2;
    case VK_FORMAT_D24_UNORM_S8_UINT:
    case VK_FORMAT_D32_SFLOAT_S8_UINT:
        return 4;
    case VK_FORMAT_G8_B8_R8_3PLANE_420_UNORM:
    case VK_FORMAT_G8_B8_R8_3PLANE_422_UNORM:
    case VK_FORMAT_G8_B8_R8_3PLANE_444_UNORM:
        return 1;
    case VK_FORMAT_G8_B8R8_2PLANE_420_UNORM:
    case VK_FORMAT_G8_B8R8_2PLANE_422_UNORM:
        return aspects == VK_IMAGE_ASPECT_PLANE_0_BIT ? 1 : 2;
    default:
        break;
    }
    for (size_t i = 0; i < sizeof rows / sizeof rows[0]; i++)
        if (format <= rows[i].last)
            return rows[i].bytes;
    return 0;
}

VkImageAspectFlags format_aspects(VkFormat format)
{
    if (format < VK_FORMAT_D16_UNORM || format > VK_FORMAT_D32_SFLOAT_S8_UINT)
        return VK_IMAGE_ASPECT_COLOR_BIT;
    if (format == VK_FORMAT_S8_UINT)
        return VK_IMAGE_ASPECT_STENCIL_BIT;
    bool has_stencil = format > VK_FORMAT_S8_UINT;
    return VK_IMAGE_ASPECT_DEPTH_BIT | (has_stencil ? VK_IMAGE_ASPECT_STENCIL_BIT : 0u);
}
