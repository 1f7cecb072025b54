#include "play.h"

#include <inttypes.h>

static VkSemaphoreSubmitInfo at_all_commands(const struct play *play, struct mark mark)
{
    return (VkSemaphoreSubmitInfo){
        .sType = VK_STRUCTURE_TYPE_SEMAPHORE_SUBMIT_INFO, .semaphore = play->semaphores[mark.semaphore],
        .value = play->script->semaphores[mark.semaphore].kind == TIMELINE ? mark.value : 0,
        .stageMask = VK_PIPELINE_STAGE_2_ALL_COMMANDS_BIT};
}

/* Vulkan leaves the signals of one VkSubmitInfo2 unordered. A script's are made in the order of their lines, so each one
   behind the first has a VkSubmitInfo2 of its own, in the same call. */
static uint32_t fill_infos(const struct play *play, const struct job *job, VkSubmitInfo2 infos[MOST_PAIRS],
                           VkSemaphoreSubmitInfo waits[MOST_PAIRS], VkSemaphoreSubmitInfo signals[MOST_PAIRS])
{
    for (uint32_t n = 0; n < job->wait_count; n++)
        waits[n] = at_all_commands(play, job->waits[n]);
    infos[0].waitSemaphoreInfoCount = job->wait_count;
    infos[0].pWaitSemaphoreInfos = waits;
    for (uint32_t n = 0; n < job->signal_count; n++) {
        signals[n] = at_all_commands(play, job->signals[n]);
        if (n > 0)
            infos[n] = (VkSubmitInfo2){.sType = VK_STRUCTURE_TYPE_SUBMIT_INFO_2};
        infos[n].signalSemaphoreInfoCount = 1;
        infos[n].pSignalSemaphoreInfos = &signals[n];
    }
    return job->signal_count == 0 ? 1 : job->signal_count;
}

void submit(struct play *play, const struct job *job, bool is_bare)
{
    VkSemaphoreSubmitInfo waits[MOST_PAIRS], signals[MOST_PAIRS];
    VkSubmitInfo2 infos[MOST_PAIRS];
    VkCommandBufferSubmitInfo commands = {
        .sType = VK_STRUCTURE_TYPE_COMMAND_BUFFER_SUBMIT_INFO,
        .commandBuffer = play->commands[job - play->script->jobs]};
    VkQueue queue = play->device.queues[play->shared[job->queue]];
    VkFence fence = job->has_fence && !is_bare ? play->fences[job->fence.semaphore] : VK_NULL_HANDLE;
    uint32_t count = 1;

    infos[0] = (VkSubmitInfo2){
        .sType = VK_STRUCTURE_TYPE_SUBMIT_INFO_2, .commandBufferInfoCount = 1, .pCommandBufferInfos = &commands};
    if (!is_bare)
        count = fill_infos(play, job, infos, waits, signals);
    look_at(play, vkQueueSubmit2(queue, count, infos, fence), "vkQueueSubmit2", job->line);
}

/* Waits for timelines, or asks for them with the timeout 0. */
static void look(struct play *play, const struct job *job)
{
    bool is_wait = job->kind == HOST_WAIT_ALL || job->kind == HOST_WAIT_ANY;
    bool is_any = job->kind == HOST_WAIT_ANY || job->kind == HOST_POLL_ANY;
    VkSemaphore semaphores[MOST_PAIRS];
    uint64_t values[MOST_PAIRS];
    VkSemaphoreWaitInfo info = {
        .sType = VK_STRUCTURE_TYPE_SEMAPHORE_WAIT_INFO, .flags = is_any ? VK_SEMAPHORE_WAIT_ANY_BIT : 0,
        .semaphoreCount = job->wait_count, .pSemaphores = semaphores, .pValues = values};
    VkResult result;

    for (uint32_t n = 0; n < job->wait_count; n++) {
        semaphores[n] = play->semaphores[job->waits[n].semaphore];
        values[n] = job->waits[n].value;
    }
    result = vkWaitSemaphores(play->device.device, &info, is_wait ? UINT64_MAX : 0);
    if (result != VK_TIMEOUT)
        look_at(play, result, "vkWaitSemaphores", job->line);
    add_text("%u %s\n", job->line, result == VK_SUCCESS ? "ok" : "timeout");
}

static void signal_timeline(struct play *play, const struct job *job)
{
    VkSemaphoreSignalInfo info = {
        .sType = VK_STRUCTURE_TYPE_SEMAPHORE_SIGNAL_INFO,
        .semaphore = play->semaphores[job->signals[0].semaphore], .value = job->signals[0].value};

    look_at(play, vkSignalSemaphore(play->device.device, &info), "vkSignalSemaphore", job->line);
}

static void read_timeline(struct play *play, const struct job *job)
{
    uint64_t value = 0;

    look_at(play,
            vkGetSemaphoreCounterValue(play->device.device, play->semaphores[job->waits[0].semaphore], &value),
            "vkGetSemaphoreCounterValue", job->line);
    add_text("%u value %" PRIu64 "\n", job->line, value);
}

static void do_fence_step(struct play *play, const struct job *job)
{
    VkDevice device = play->device.device;
    VkFence fence = play->fences[job->waits[0].semaphore];
    VkResult result;

    if (job->kind == HOST_FENCE_RESET) {
        look_at(play, vkResetFences(device, 1, &fence), "vkResetFences", job->line);
    } else if (job->kind == HOST_FENCE_POLL) {
        result = vkGetFenceStatus(device, fence);
        if (result != VK_NOT_READY)
            look_at(play, result, "vkGetFenceStatus", job->line);
        add_text("%u %s\n", job->line, result == VK_SUCCESS ? "ok" : "not-ready");
    } else {
        result = vkWaitForFences(device, 1, &fence, VK_TRUE, UINT64_MAX);
        if (result != VK_TIMEOUT)
            look_at(play, result, "vkWaitForFences", job->line);
        add_text("%u %s\n", job->line, result == VK_SUCCESS ? "ok" : "timeout");
    }
}

void do_step(struct play *play, const struct job *job)
{
    switch (job->kind) {
    case HOST_SIGNAL:
        signal_timeline(play, job);
        break;
    case HOST_READ:
        read_timeline(play, job);
        break;
    case HOST_IDLE:
        look_at(play, vkDeviceWaitIdle(play->device.device), "vkDeviceWaitIdle", job->line);
        add_text("%u ok\n", job->line);
        break;
    case HOST_FENCE_WAIT:
    case HOST_FENCE_POLL:
    case HOST_FENCE_RESET:
        do_fence_step(play, job);
        break;
    default:
        look(play, job);
    }
}
