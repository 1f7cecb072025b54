/* Stages and kinds of accesses: Vulkan's masks and the words of captures. */
#include "capture.h"

#include <string.h>

static const struct {
    uint64_t mask;
    uint32_t stages;
} known[] = {
    {VK_PIPELINE_STAGE_2_ALL_GRAPHICS_BIT, GRAPHICS},
    {VK_PIPELINE_STAGE_2_DRAW_INDIRECT_BIT, INDIRECT},
    {VK_PIPELINE_STAGE_2_VERTEX_INPUT_BIT | VK_PIPELINE_STAGE_2_INDEX_INPUT_BIT
         | VK_PIPELINE_STAGE_2_VERTEX_ATTRIBUTE_INPUT_BIT,
     INPUT},
    {VK_PIPELINE_STAGE_2_VERTEX_SHADER_BIT | VK_PIPELINE_STAGE_2_TESSELLATION_CONTROL_SHADER_BIT
         | VK_PIPELINE_STAGE_2_TESSELLATION_EVALUATION_SHADER_BIT | VK_PIPELINE_STAGE_2_GEOMETRY_SHADER_BIT
         | VK_PIPELINE_STAGE_2_TASK_SHADER_BIT_NV | VK_PIPELINE_STAGE_2_MESH_SHADER_BIT_NV
         | VK_PIPELINE_STAGE_2_TRANSFORM_FEEDBACK_BIT_EXT | VK_PIPELINE_STAGE_2_PRE_RASTERIZATION_SHADERS_BIT,
     VERTEX},
    {VK_PIPELINE_STAGE_2_FRAGMENT_SHADER_BIT, FRAGMENT},
    {VK_PIPELINE_STAGE_2_EARLY_FRAGMENT_TESTS_BIT | VK_PIPELINE_STAGE_2_FRAGMENT_DENSITY_PROCESS_BIT_EXT
         | VK_PIPELINE_STAGE_2_FRAGMENT_SHADING_RATE_ATTACHMENT_BIT_KHR,
     EARLY},
    {VK_PIPELINE_STAGE_2_LATE_FRAGMENT_TESTS_BIT, LATE},
    {VK_PIPELINE_STAGE_2_COLOR_ATTACHMENT_OUTPUT_BIT, COLOR},
    {VK_PIPELINE_STAGE_2_COMPUTE_SHADER_BIT, COMPUTE},
    {VK_PIPELINE_STAGE_2_ALL_TRANSFER_BIT | VK_PIPELINE_STAGE_2_COPY_BIT | VK_PIPELINE_STAGE_2_RESOLVE_BIT
         | VK_PIPELINE_STAGE_2_BLIT_BIT | VK_PIPELINE_STAGE_2_CLEAR_BIT,
     COPY},
    {VK_PIPELINE_STAGE_2_HOST_BIT, HOST},
};

/* The end of the pipe as a first scope, and its top as a second one, are all stages (Vulkan 1.3, "Synchronization",
 * "Pipeline Stages"); the other way round they are none. */
static uint32_t stages_of(uint64_t mask, uint64_t all_by)
{
    if (mask & (VK_PIPELINE_STAGE_2_ALL_COMMANDS_BIT | all_by))
        return EVERY;
    mask &= ~(VK_PIPELINE_STAGE_2_BOTTOM_OF_PIPE_BIT | VK_PIPELINE_STAGE_2_TOP_OF_PIPE_BIT);
    uint32_t stages = 0;
    for (size_t i = 0; i < sizeof known / sizeof known[0]; i++) {
        if (mask & known[i].mask)
            stages |= known[i].stages;
        mask &= ~known[i].mask;
    }
    return mask ? stages | OTHER : stages;
}

uint32_t first_stages(uint64_t mask)
{
    return stages_of(mask, VK_PIPELINE_STAGE_2_BOTTOM_OF_PIPE_BIT);
}

uint32_t second_stages(uint64_t mask)
{
    return stages_of(mask, VK_PIPELINE_STAGE_2_TOP_OF_PIPE_BIT);
}

/* Kinds ---------------------------------------------------------------------------------------------------------- */

/* What has no word of its own is said by more: all reads, or all writes. */
static const struct {
    uint64_t mask;
    uint32_t kinds;
} accesses[] = {
    {VK_ACCESS_2_INDEX_READ_BIT, INDEX},
    {VK_ACCESS_2_VERTEX_ATTRIBUTE_READ_BIT, ATTRIBUTE},
    {VK_ACCESS_2_UNIFORM_READ_BIT, UNIFORM},
    {VK_ACCESS_2_SHADER_SAMPLED_READ_BIT, SAMPLED},
    {VK_ACCESS_2_SHADER_STORAGE_READ_BIT, STORAGE_READ},
    {VK_ACCESS_2_SHADER_READ_BIT, SAMPLED | STORAGE_READ},
    {VK_ACCESS_2_SHADER_STORAGE_WRITE_BIT | VK_ACCESS_2_SHADER_WRITE_BIT, STORAGE_WRITE},
    {VK_ACCESS_2_INPUT_ATTACHMENT_READ_BIT | VK_ACCESS_2_COLOR_ATTACHMENT_READ_BIT
         | VK_ACCESS_2_DEPTH_STENCIL_ATTACHMENT_READ_BIT | VK_ACCESS_2_COLOR_ATTACHMENT_READ_NONCOHERENT_BIT_EXT,
     ATTACHMENT},
    {VK_ACCESS_2_INDIRECT_COMMAND_READ_BIT | VK_ACCESS_2_TRANSFER_READ_BIT | VK_ACCESS_2_HOST_READ_BIT
         | VK_ACCESS_2_MEMORY_READ_BIT | VK_ACCESS_2_CONDITIONAL_RENDERING_READ_BIT_EXT
         | VK_ACCESS_2_TRANSFORM_FEEDBACK_COUNTER_READ_BIT_EXT | VK_ACCESS_2_ACCELERATION_STRUCTURE_READ_BIT_KHR,
     READ},
    {VK_ACCESS_2_COLOR_ATTACHMENT_WRITE_BIT | VK_ACCESS_2_DEPTH_STENCIL_ATTACHMENT_WRITE_BIT
         | VK_ACCESS_2_TRANSFER_WRITE_BIT | VK_ACCESS_2_HOST_WRITE_BIT | VK_ACCESS_2_MEMORY_WRITE_BIT
         | VK_ACCESS_2_TRANSFORM_FEEDBACK_WRITE_BIT_EXT | VK_ACCESS_2_TRANSFORM_FEEDBACK_COUNTER_WRITE_BIT_EXT
         | VK_ACCESS_2_ACCELERATION_STRUCTURE_WRITE_BIT_KHR,
     WRITE},
};

/* The kinds of a mask: where it has one that isn't known here, all of them. */
static uint32_t kinds_of(uint64_t mask)
{
    uint32_t kinds = 0;
    for (size_t i = 0; i < sizeof accesses / sizeof accesses[0]; i++) {
        if (mask & accesses[i].mask)
            kinds |= accesses[i].kinds;
        mask &= ~accesses[i].mask;
    }
    return mask ? ALL_KINDS : kinds;
}

/* A depth attachment is written by tests of both stages, and stored at the late ones: who names these has all. It
 * orders nothing more, as `early` is logically earlier. */
uint32_t first_scope(uint64_t stages, uint64_t accesses)
{
    uint32_t scope = first_stages(stages), kinds = kinds_of(accesses);
    return scope | (scope & LATE ? EARLY : 0) | (kinds ? kinds : READ);
}

/* Likewise of what tests read: which of both stages does isn't known here. */
uint32_t second_scope(uint64_t stages, uint64_t accesses)
{
    uint32_t scope = second_stages(stages), kinds = kinds_of(accesses);
    return scope | (scope & EARLY ? LATE : 0) | (kinds ? kinds : WRITE);
}

/* Words ---------------------------------------------------------------------------------------------------------- */

/* Adds the words of the bits of a mask from its lowest one on, with a plus sign between two. */
static size_t put_words(char *to, size_t size, uint32_t mask, const char *const *words)
{
    for (bool is_first = true; mask; mask >>= 1, words++) {
        if (!(mask & 1))
            continue;
        if (!is_first)
            to[size++] = '+';
        is_first = false;
        memcpy(to + size, *words, strlen(*words));
        size += strlen(*words);
    }
    return size;
}

/* Kinds without those that `read` or `write` says too. */
static uint32_t shortened(uint32_t kinds)
{
    if (kinds & READ)
        kinds &= READ | WRITE | STORAGE_WRITE;
    if (kinds & WRITE)
        kinds &= ~(uint32_t)STORAGE_WRITE;
    return kinds == ALL_KINDS ? 0 : kinds;
}

const char *scope_words(char *to, uint32_t scope)
{
    static const char *const stages[] = {"indirect", "input",   "vertex", "early", "fragment", "late",
                                         "color",    "compute", "copy",   "host",  "other",    "all"};
    static const char *const kinds[] = {"read",    "write",        "index",         "attribute", "uniform",
                                        "sampled", "storage-read", "storage-write", "attachment"};
    if (!(scope & STAGES))
        return strcpy(to, "none");
    size_t size = put_words(to, 0, scope & EVERY ? EVERY : scope & STAGES, stages);
    uint32_t named = shortened(scope & ~(uint32_t)STAGES);
    if (named) {
        to[size++] = ':';
        size = put_words(to, size, named / READ, kinds);
    }
    to[size] = '\0';
    return to;
}
