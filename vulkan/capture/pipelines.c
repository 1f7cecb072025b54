/* Shader modules and pipelines: what their code reaches, and how vertices are read. */
#include "capture.h"

#include <stdlib.h>

void free_pipeline(struct pipeline *p)
{
    if (!p)
        return;
    free(p->uses);
    free(p->inputs);
    free(p);
}

static void keep(struct device *d, enum kind kind, uint64_t key, struct pipeline *p)
{
    free_pipeline(table_take(&d->tables[kind], key));
    if (!table_put(&d->tables[kind], key, p))
        free_pipeline(p);
}

VKAPI_ATTR VkResult VKAPI_CALL capture_CreateShaderModule(VkDevice device, const VkShaderModuleCreateInfo *info,
                                                          const VkAllocationCallbacks *allocator,
                                                          VkShaderModule *module)
{
    struct device *d = device_of(device);
    VkResult result = d->calls.CreateShaderModule(device, info, allocator, module);
    if (result != VK_SUCCESS)
        return result;
    lock_recorder();
    struct pipeline *p = is_recording() ? get(1, sizeof *p) : NULL;
    if (p && reflect(p, info->pCode, info->codeSize, 0))
        keep(d, MODULES, KEY(*module), p);
    else
        free_pipeline(p);
    unlock_recorder();
    return result;
}

static void end(struct device *d, enum kind kind, uint64_t key)
{
    lock_recorder();
    free_pipeline(key ? table_take(&d->tables[kind], key) : NULL);
    unlock_recorder();
}

VKAPI_ATTR void VKAPI_CALL capture_DestroyShaderModule(VkDevice device, VkShaderModule module,
                                                       const VkAllocationCallbacks *allocator)
{
    struct device *d = device_of(device);
    end(d, MODULES, KEY(module));
    d->calls.DestroyShaderModule(device, module, allocator);
}

VKAPI_ATTR void VKAPI_CALL capture_DestroyPipeline(VkDevice device, VkPipeline pipeline,
                                                   const VkAllocationCallbacks *allocator)
{
    struct device *d = device_of(device);
    end(d, PIPELINES, KEY(pipeline));
    d->calls.DestroyPipeline(device, pipeline, allocator);
}

/* Pipelines ------------------------------------------------------------------------------------------------------ */

static uint32_t stage_of(VkShaderStageFlagBits stage)
{
    if (stage == VK_SHADER_STAGE_FRAGMENT_BIT)
        return FRAGMENT;
    if (stage == VK_SHADER_STAGE_COMPUTE_BIT)
        return COMPUTE;
    bool is_early = stage & (VK_SHADER_STAGE_ALL_GRAPHICS | VK_SHADER_STAGE_TASK_BIT_NV | VK_SHADER_STAGE_MESH_BIT_NV);
    return is_early ? VERTEX : OTHER;
}

/* Adds the uses of a module, at a stage, or those of a library, at theirs (0). */
static void add_uses(struct pipeline *to, const struct pipeline *from, uint32_t stage)
{
    for (size_t i = 0; from && i < from->count; i++) {
        if (!has_room((void **)&to->uses, &to->room, to->count, sizeof *to->uses))
            return;
        to->uses[to->count] = from->uses[i];
        if (stage)
            to->uses[to->count].stage = stage;
        to->count++;
    }
}

static void add_stage(struct device *d, struct pipeline *p, const VkPipelineShaderStageCreateInfo *info)
{
    const VkShaderModuleCreateInfo *own = in_chain(info->pNext, VK_STRUCTURE_TYPE_SHADER_MODULE_CREATE_INFO);
    if (info->module)
        add_uses(p, table_get(&d->tables[MODULES], KEY(info->module)), stage_of(info->stage));
    else if (own)
        reflect(p, own->pCode, own->codeSize, stage_of(info->stage));
}

static bool has_dynamic(const VkGraphicsPipelineCreateInfo *info, VkDynamicState state)
{
    for (uint32_t i = 0; info->pDynamicState && i < info->pDynamicState->dynamicStateCount; i++)
        if (info->pDynamicState->pDynamicStates[i] == state)
            return true;
    return false;
}

static void add_inputs(struct pipeline *p, const VkGraphicsPipelineCreateInfo *info)
{
    const VkPipelineVertexInputStateCreateInfo *state = info->pVertexInputState;
    if (has_dynamic(info, VK_DYNAMIC_STATE_VERTEX_INPUT_EXT) || !state || state->vertexBindingDescriptionCount == 0)
        return;
    bool has_strides = !has_dynamic(info, VK_DYNAMIC_STATE_VERTEX_INPUT_BINDING_STRIDE);
    free(p->inputs);
    p->inputs = get(state->vertexBindingDescriptionCount, sizeof *p->inputs);
    p->input_count = p->inputs ? state->vertexBindingDescriptionCount : 0;
    for (uint32_t i = 0; i < p->input_count; i++) {
        const VkVertexInputBindingDescription *b = &state->pVertexBindingDescriptions[i];
        p->inputs[i] =
            (struct vertex_input){b->binding, b->stride, b->inputRate == VK_VERTEX_INPUT_RATE_INSTANCE, has_strides};
    }
}

static void add_library(struct pipeline *to, const struct pipeline *from)
{
    if (!from)
        return;
    add_uses(to, from, 0);
    if (from->input_count == 0 || to->inputs)
        return;
    to->inputs = get(from->input_count, sizeof *to->inputs);
    to->input_count = to->inputs ? from->input_count : 0;
    for (uint32_t i = 0; i < to->input_count; i++)
        to->inputs[i] = from->inputs[i];
}

VKAPI_ATTR VkResult VKAPI_CALL capture_CreateGraphicsPipelines(VkDevice device, VkPipelineCache cache, uint32_t count,
                                                               const VkGraphicsPipelineCreateInfo *infos,
                                                               const VkAllocationCallbacks *allocator,
                                                               VkPipeline *pipelines)
{
    struct device *d = device_of(device);
    VkResult result = d->calls.CreateGraphicsPipelines(device, cache, count, infos, allocator, pipelines);
    lock_recorder();
    for (uint32_t i = 0; is_recording() && i < count; i++) {
        struct pipeline *p = result >= 0 && pipelines[i] ? get(1, sizeof *p) : NULL;
        if (!p)
            continue;
        const VkPipelineLibraryCreateInfoKHR *libraries =
            in_chain(infos[i].pNext, VK_STRUCTURE_TYPE_PIPELINE_LIBRARY_CREATE_INFO_KHR);
        add_inputs(p, &infos[i]);
        for (uint32_t k = 0; libraries && k < libraries->libraryCount; k++)
            add_library(p, table_get(&d->tables[PIPELINES], KEY(libraries->pLibraries[k])));
        for (uint32_t k = 0; infos[i].pStages && k < infos[i].stageCount; k++)
            add_stage(d, p, &infos[i].pStages[k]);
        keep(d, PIPELINES, KEY(pipelines[i]), p);
    }
    unlock_recorder();
    return result;
}

VKAPI_ATTR VkResult VKAPI_CALL capture_CreateComputePipelines(VkDevice device, VkPipelineCache cache, uint32_t count,
                                                              const VkComputePipelineCreateInfo *infos,
                                                              const VkAllocationCallbacks *allocator,
                                                              VkPipeline *pipelines)
{
    struct device *d = device_of(device);
    VkResult result = d->calls.CreateComputePipelines(device, cache, count, infos, allocator, pipelines);
    lock_recorder();
    for (uint32_t i = 0; is_recording() && i < count; i++) {
        struct pipeline *p = result >= 0 && pipelines[i] ? get(1, sizeof *p) : NULL;
        if (!p)
            continue;
        add_stage(d, p, &infos[i].stage);
        keep(d, PIPELINES, KEY(pipelines[i]), p);
    }
    unlock_recorder();
    return result;
}
