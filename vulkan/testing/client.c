/* A client of timelines, for tests of the layer. It ends with a line `NAME: right`, or with what was wrong and status
 * 1.
 *
 * client threads THREADS ROUNDS   each thread has a queue, and its batches wait for those of the thread before it,
 *                                 mostly before these are submitted; beside them a thread reads, and waits for any and
 *                                 for all
 * client many TIMELINES VALUES    so many timelines at once, of which each is signaled and waited for, and so many
 *                                 values on one of them
 * client any                      waits for any, of which the sides become true in each order: a host's signal, a batch
 *                                 that is pending, one that is submitted later; and time limits
 * client binaries ROUNDS          binary semaphores in chains over queues, held back behind a timeline
 * client devices                  two instances with a device each, and a second device of one
 * client group ROUNDS             a device that is a group of one: batches that say which devices of it they run on
 * client sparse ROUNDS            sparse binds that wait for a timeline and signal one; over the layer below, which
 *                                 binds nothing
 * client submits BATCHES          prints the nanoseconds that a caller's part takes of a batch with three waits and a
 *                                 signal, and those until all are done */
#include <pthread.h>
#include <stdbool.h>
#include <stdint.h>
#include <stdio.h>
#include <stdlib.h>
#include <string.h>
#include <time.h>
#include <vulkan/vulkan.h>

enum { QUEUES = 8 };

struct client {
    bool is_group;
    VkInstance instance;
    VkDevice device;
    uint32_t queue_count;
    VkQueue queues[QUEUES];
};

/* Two threads may come here at once, and only one of them may call exit: so neither does. */
static void wrong(const char *what, int64_t number)
{
    printf("wrong: %s (%lld)\n", what, (long long)number);
    fflush(stdout);
    _Exit(1);
}

static void must(VkResult result, const char *call)
{
    if (result < 0)
        wrong(call, result);
}

static VkInstance open_instance(void)
{
    VkApplicationInfo application = {.sType = VK_STRUCTURE_TYPE_APPLICATION_INFO, .apiVersion = VK_API_VERSION_1_2};
    VkInstanceCreateInfo info = {.sType = VK_STRUCTURE_TYPE_INSTANCE_CREATE_INFO, .pApplicationInfo = &application};
    VkInstance instance;
    must(vkCreateInstance(&info, NULL, &instance), "vkCreateInstance");
    return instance;
}

static void open_device(struct client *c)
{
    uint32_t one = 1, families = 1;
    VkPhysicalDevice physical;
    if (vkEnumeratePhysicalDevices(c->instance, &one, &physical) < 0 || one == 0)
        wrong("no device", 0);
    VkPhysicalDeviceTimelineSemaphoreFeatures timelines = {
        .sType = VK_STRUCTURE_TYPE_PHYSICAL_DEVICE_TIMELINE_SEMAPHORE_FEATURES};
    VkPhysicalDeviceFeatures2 features = {.sType = VK_STRUCTURE_TYPE_PHYSICAL_DEVICE_FEATURES_2, .pNext = &timelines};
    vkGetPhysicalDeviceFeatures2(physical, &features);
    if (!timelines.timelineSemaphore)
        wrong("the device has no timelines", 0);
    VkQueueFamilyProperties family;
    vkGetPhysicalDeviceQueueFamilyProperties(physical, &families, &family);
    c->queue_count = family.queueCount < QUEUES ? family.queueCount : QUEUES;
    float priorities[QUEUES] = {0};
    VkDeviceQueueCreateInfo queue = {.sType = VK_STRUCTURE_TYPE_DEVICE_QUEUE_CREATE_INFO,
                                     .queueCount = c->queue_count,
                                     .pQueuePriorities = priorities};
    VkDeviceGroupDeviceCreateInfo group = {.sType = VK_STRUCTURE_TYPE_DEVICE_GROUP_DEVICE_CREATE_INFO,
                                           .pNext = &timelines,
                                           .physicalDeviceCount = 1,
                                           .pPhysicalDevices = &physical};
    VkDeviceCreateInfo info = {.sType = VK_STRUCTURE_TYPE_DEVICE_CREATE_INFO,
                               .pNext = c->is_group ? (void *)&group : (void *)&timelines,
                               .queueCreateInfoCount = 1,
                               .pQueueCreateInfos = &queue};
    must(vkCreateDevice(physical, &info, NULL, &c->device), "vkCreateDevice");
    for (uint32_t i = 0; i < c->queue_count; i++)
        vkGetDeviceQueue(c->device, 0, i, &c->queues[i]);
}

static struct client open_client(void)
{
    struct client c = {.instance = open_instance()};
    open_device(&c);
    return c;
}

static void close_client(struct client *c)
{
    must(vkDeviceWaitIdle(c->device), "vkDeviceWaitIdle");
    vkDestroyDevice(c->device, NULL);
    vkDestroyInstance(c->instance, NULL);
}

static VkSemaphore open_semaphore(const struct client *c, VkSemaphoreType type, uint64_t initial)
{
    VkSemaphoreTypeCreateInfo of = {.sType = VK_STRUCTURE_TYPE_SEMAPHORE_TYPE_CREATE_INFO,
                                    .semaphoreType = type,
                                    .initialValue = initial};
    VkSemaphoreCreateInfo info = {.sType = VK_STRUCTURE_TYPE_SEMAPHORE_CREATE_INFO, .pNext = &of};
    VkSemaphore semaphore;
    must(vkCreateSemaphore(c->device, &info, NULL, &semaphore), "vkCreateSemaphore");
    return semaphore;
}

/* A batch that waits for at most one value and signals at most one; none: a semaphore that is null. */
static void submit(VkQueue queue, VkSemaphore wait, uint64_t waited, VkSemaphore signal, uint64_t signaled,
                   VkFence fence)
{
    VkPipelineStageFlags all = VK_PIPELINE_STAGE_ALL_COMMANDS_BIT;
    VkTimelineSemaphoreSubmitInfo values = {.sType = VK_STRUCTURE_TYPE_TIMELINE_SEMAPHORE_SUBMIT_INFO,
                                            .waitSemaphoreValueCount = wait != VK_NULL_HANDLE,
                                            .pWaitSemaphoreValues = &waited,
                                            .signalSemaphoreValueCount = signal != VK_NULL_HANDLE,
                                            .pSignalSemaphoreValues = &signaled};
    VkSubmitInfo info = {.sType = VK_STRUCTURE_TYPE_SUBMIT_INFO,
                         .pNext = &values,
                         .waitSemaphoreCount = wait != VK_NULL_HANDLE,
                         .pWaitSemaphores = &wait,
                         .pWaitDstStageMask = &all,
                         .signalSemaphoreCount = signal != VK_NULL_HANDLE,
                         .pSignalSemaphores = &signal};
    must(vkQueueSubmit(queue, 1, &info, fence), "vkQueueSubmit");
}

static VkResult wait_for(const struct client *c, uint32_t count, const VkSemaphore *semaphores, const uint64_t *values,
                         bool is_any, uint64_t timeout)
{
    VkSemaphoreWaitInfo info = {.sType = VK_STRUCTURE_TYPE_SEMAPHORE_WAIT_INFO,
                                .flags = is_any ? VK_SEMAPHORE_WAIT_ANY_BIT : 0,
                                .semaphoreCount = count,
                                .pSemaphores = semaphores,
                                .pValues = values};
    VkResult result = vkWaitSemaphores(c->device, &info, timeout);
    must(result, "vkWaitSemaphores");
    return result;
}

static void host_signal(const struct client *c, VkSemaphore semaphore, uint64_t value)
{
    VkSemaphoreSignalInfo info = {.sType = VK_STRUCTURE_TYPE_SEMAPHORE_SIGNAL_INFO,
                                  .semaphore = semaphore,
                                  .value = value};
    must(vkSignalSemaphore(c->device, &info), "vkSignalSemaphore");
}

static uint64_t value_of(const struct client *c, VkSemaphore semaphore)
{
    uint64_t value;
    must(vkGetSemaphoreCounterValue(c->device, semaphore, &value), "vkGetSemaphoreCounterValue");
    return value;
}

/* Threads ------------------------------------------------------------------------------------------------------- */

struct ring {
    struct client *client;
    uint32_t threads;
    uint64_t rounds;
    VkSemaphore timelines[QUEUES];
};

struct part {
    struct ring *ring;
    uint32_t index;
};

static void *go_round(void *of)
{
    const struct part *part = of;
    const struct ring *ring = part->ring;
    uint32_t before = (part->index + ring->threads - 1) % ring->threads;
    VkSemaphore own = ring->timelines[part->index];
    for (uint64_t round = 1; round <= ring->rounds; round++) {
        /* the first thread waits for the last one's round before */
        uint64_t waited = part->index == 0 ? round - 1 : round;
        submit(ring->client->queues[part->index], ring->timelines[before], waited, own, round, VK_NULL_HANDLE);
        if (round % 64 == 0)
            wait_for(ring->client, 1, &own, &(uint64_t){round - 32}, false, UINT64_MAX);
    }
    return NULL;
}

static void *look_on(void *of)
{
    const struct ring *ring = of;
    uint64_t last[QUEUES] = {0};
    for (uint64_t at = 1; at <= ring->rounds; at += 7) {
        uint64_t values[QUEUES];
        for (uint32_t i = 0; i < ring->threads; i++)
            values[i] = at;
        wait_for(ring->client, ring->threads, ring->timelines, values, at % 2 == 0, UINT64_MAX);
        for (uint32_t i = 0; i < ring->threads; i++) {
            uint64_t now = value_of(ring->client, ring->timelines[i]);
            if (now < last[i] || (at % 2 != 0 && now < at))
                wrong("a value fell, or a wait for all came early", (int64_t)now);
            last[i] = now;
        }
    }
    return NULL;
}

static void threads(uint32_t count, uint64_t rounds)
{
    struct client client = open_client();
    struct ring ring = {&client, count < client.queue_count ? count : client.queue_count, rounds, {0}};
    pthread_t handles[QUEUES], looks;
    struct part parts[QUEUES];
    for (uint32_t i = 0; i < ring.threads; i++)
        ring.timelines[i] = open_semaphore(&client, VK_SEMAPHORE_TYPE_TIMELINE, 0);
    for (uint32_t i = 0; i < ring.threads; i++) {
        parts[i] = (struct part){&ring, i};
        if (pthread_create(&handles[i], NULL, go_round, &parts[i]) != 0)
            wrong("no thread", i);
    }
    if (pthread_create(&looks, NULL, look_on, &ring) != 0)
        wrong("no thread", -1);
    for (uint32_t i = 0; i < ring.threads; i++)
        pthread_join(handles[i], NULL);
    pthread_join(looks, NULL);
    must(vkDeviceWaitIdle(client.device), "vkDeviceWaitIdle");
    for (uint32_t i = 0; i < ring.threads; i++) {
        if (value_of(&client, ring.timelines[i]) != rounds)
            wrong("a timeline has another value at the end", i);
        vkDestroySemaphore(client.device, ring.timelines[i], NULL);
    }
    close_client(&client);
}

/* Many timelines and values ------------------------------------------------------------------------------------- */

static void many(uint32_t count, uint64_t values)
{
    struct client client = open_client();
    VkSemaphore *timelines = calloc(count, sizeof *timelines);
    if (!timelines)
        wrong("no memory", count);
    for (uint32_t i = 0; i < count; i++)
        timelines[i] = open_semaphore(&client, VK_SEMAPHORE_TYPE_TIMELINE, i);
    for (uint32_t i = 0; i < count; i++)
        submit(client.queues[0], i ? timelines[i - 1] : VK_NULL_HANDLE, i, timelines[i], i + 1, VK_NULL_HANDLE);
    wait_for(&client, 1, &timelines[count - 1], &(uint64_t){count}, false, UINT64_MAX);
    for (uint32_t i = 0; i < count; i++)
        if (value_of(&client, timelines[i]) != (uint64_t)i + 1)
            wrong("a timeline has another value", i);
    uint64_t first = value_of(&client, timelines[0]);
    for (uint64_t value = 1; value <= values; value++)
        host_signal(&client, timelines[0], first + value);
    if (value_of(&client, timelines[0]) != first + values)
        wrong("values were lost", (int64_t)values);
    for (uint32_t i = 0; i < count; i++)
        vkDestroySemaphore(client.device, timelines[i], NULL);
    free(timelines);
    close_client(&client);
}

/* Waits for any ------------------------------------------------------------------------------------------------- */

struct later {
    const struct client *client;
    VkSemaphore host;
    VkSemaphore batch;
    int kind;
};

static void *make_true(void *of)
{
    const struct later *later = of;
    nanosleep(&(struct timespec){0, 20000000}, NULL);
    if (later->kind == 0)
        host_signal(later->client, later->host, 1);
    else
        submit(later->client->queues[0], VK_NULL_HANDLE, 0, later->batch, 1, VK_NULL_HANDLE);
    return NULL;
}

static void any(void)
{
    struct client client = open_client();
    for (int kind = 0; kind < 4; kind++) {
        VkSemaphore pair[3];
        for (int i = 0; i < 3; i++)
            pair[i] = open_semaphore(&client, VK_SEMAPHORE_TYPE_TIMELINE, 0);
        uint64_t ones[3] = {1, 1, 1};
        if (wait_for(&client, 3, pair, ones, true, 0) != VK_TIMEOUT
            || wait_for(&client, 3, pair, ones, true, 2000000) != VK_TIMEOUT)
            wrong("a wait for any was answered with nothing reached", kind);
        if (kind >= 2 && client.queue_count > 1) /* one side is held back all the time, on a queue of its own */
            submit(client.queues[client.queue_count - 1], pair[2], 1, pair[0], 1, VK_NULL_HANDLE);
        struct later later = {&client, pair[1], pair[1], kind % 2};
        pthread_t thread;
        if (pthread_create(&thread, NULL, make_true, &later) != 0)
            wrong("no thread", 0);
        if (wait_for(&client, 3, pair, ones, true, UINT64_MAX) != VK_SUCCESS)
            wrong("a wait for any wasn't answered", kind);
        pthread_join(thread, NULL);
        if (value_of(&client, pair[1]) != 1 || value_of(&client, pair[2]) != 0)
            wrong("another side was reached", kind);
        if (wait_for(&client, 3, pair, ones, false, 1000000) != VK_TIMEOUT)
            wrong("a wait for all was answered with one not reached", kind);
        host_signal(&client, pair[2], 1);
        must(vkDeviceWaitIdle(client.device), "vkDeviceWaitIdle");
        for (int i = 0; i < 3; i++)
            vkDestroySemaphore(client.device, pair[i], NULL);
    }
    close_client(&client);
}

/* Binary semaphores and fences ---------------------------------------------------------------------------------- */

static void binaries(uint64_t rounds)
{
    struct client client = open_client();
    VkSemaphore gate = open_semaphore(&client, VK_SEMAPHORE_TYPE_TIMELINE, 0);
    VkSemaphore chain[2];
    for (int i = 0; i < 2; i++)
        chain[i] = open_semaphore(&client, VK_SEMAPHORE_TYPE_BINARY, 0);
    VkFenceCreateInfo info = {.sType = VK_STRUCTURE_TYPE_FENCE_CREATE_INFO};
    VkFence fence;
    must(vkCreateFence(client.device, &info, NULL, &fence), "vkCreateFence");
    VkQueue first = client.queues[0], second = client.queues[client.queue_count > 1];
    VkQueue third = client.queues[client.queue_count / 2];
    for (uint64_t round = 1; round <= rounds; round++) {
        /* held back until the host's signal; the others behind it by binary semaphores alone */
        host_signal(&client, gate, 2 * round - 1);
        submit(first, gate, 2 * round - 1, chain[0], 0, VK_NULL_HANDLE);
        submit(second, chain[0], 0, chain[1], 0, VK_NULL_HANDLE);
        submit(third, chain[1], 0, gate, 2 * round, fence);
        must(vkWaitForFences(client.device, 1, &fence, VK_TRUE, UINT64_MAX), "vkWaitForFences");
        if (value_of(&client, gate) != 2 * round)
            wrong("behind a fence its batch's signal isn't there", (int64_t)round);
        must(vkResetFences(client.device, 1, &fence), "vkResetFences");
    }
    vkDestroyFence(client.device, fence, NULL);
    for (int i = 0; i < 2; i++)
        vkDestroySemaphore(client.device, chain[i], NULL);
    vkDestroySemaphore(client.device, gate, NULL);
    close_client(&client);
}

static void devices(void)
{
    struct client clients[3] = {open_client(), open_client(), {0}};
    clients[2].instance = clients[0].instance;
    open_device(&clients[2]);
    VkSemaphore timelines[3];
    for (int i = 0; i < 3; i++) {
        timelines[i] = open_semaphore(&clients[i], VK_SEMAPHORE_TYPE_TIMELINE, 5);
        submit(clients[i].queues[0], VK_NULL_HANDLE, 0, timelines[i], 10 + (uint64_t)i, VK_NULL_HANDLE);
    }
    for (int i = 0; i < 3; i++) {
        wait_for(&clients[i], 1, &timelines[i], &(uint64_t){6}, false, UINT64_MAX);
        if (value_of(&clients[i], timelines[i]) != 10 + (uint64_t)i)
            wrong("a device has another's value", i);
        vkDestroySemaphore(clients[i].device, timelines[i], NULL);
    }
    vkDestroyDevice(clients[2].device, NULL);
    close_client(&clients[0]);
    close_client(&clients[1]);
}

/* Groups of devices, and sparse binds ---------------------------------------------------------------------------- */

static VkCommandBuffer empty_commands(const struct client *c, VkCommandPool pool)
{
    VkCommandBufferAllocateInfo info = {.sType = VK_STRUCTURE_TYPE_COMMAND_BUFFER_ALLOCATE_INFO,
                                        .commandPool = pool,
                                        .commandBufferCount = 1};
    VkCommandBufferBeginInfo begun = {.sType = VK_STRUCTURE_TYPE_COMMAND_BUFFER_BEGIN_INFO,
                                      .flags = VK_COMMAND_BUFFER_USAGE_SIMULTANEOUS_USE_BIT};
    VkCommandBuffer commands;
    must(vkAllocateCommandBuffers(c->device, &info, &commands), "vkAllocateCommandBuffers");
    must(vkBeginCommandBuffer(commands, &begun), "vkBeginCommandBuffer");
    must(vkEndCommandBuffer(commands), "vkEndCommandBuffer");
    return commands;
}

/* A batch on the first device of a group, which waits for a value of a timeline and signals the next one. */
static void submit_in_group(VkQueue queue, VkCommandBuffer commands, VkSemaphore timeline, uint64_t waited)
{
    uint64_t signaled = waited + 1;
    uint32_t first = 0, mask = 1;
    VkPipelineStageFlags all = VK_PIPELINE_STAGE_ALL_COMMANDS_BIT;
    VkTimelineSemaphoreSubmitInfo values = {VK_STRUCTURE_TYPE_TIMELINE_SEMAPHORE_SUBMIT_INFO, NULL, 1, &waited, 1,
                                            &signaled};
    VkDeviceGroupSubmitInfo group = {VK_STRUCTURE_TYPE_DEVICE_GROUP_SUBMIT_INFO, &values, 1, &first, 1, &mask, 1,
                                     &first};
    VkSubmitInfo info = {VK_STRUCTURE_TYPE_SUBMIT_INFO, &group, 1, &timeline, &all, 1, &commands, 1, &timeline};
    must(vkQueueSubmit(queue, 1, &info, VK_NULL_HANDLE), "vkQueueSubmit");
}

static void group(uint64_t rounds)
{
    struct client client = {.is_group = true, .instance = open_instance()};
    open_device(&client);
    VkCommandPoolCreateInfo info = {.sType = VK_STRUCTURE_TYPE_COMMAND_POOL_CREATE_INFO};
    VkCommandPool pool;
    must(vkCreateCommandPool(client.device, &info, NULL, &pool), "vkCreateCommandPool");
    VkCommandBuffer commands = empty_commands(&client, pool);
    VkSemaphore timeline = open_semaphore(&client, VK_SEMAPHORE_TYPE_TIMELINE, 0);
    VkQueue first = client.queues[0], last = client.queues[client.queue_count - 1];
    for (uint64_t value = 0; value < 2 * rounds; value += 2) {
        if (first != last)
            submit_in_group(last, commands, timeline, value + 1); /* held back */
        submit_in_group(first, commands, timeline, value);
        if (first == last)
            submit_in_group(last, commands, timeline, value + 1);
        wait_for(&client, 1, &timeline, &(uint64_t){value + 2}, false, UINT64_MAX);
    }
    must(vkDeviceWaitIdle(client.device), "vkDeviceWaitIdle");
    vkDestroySemaphore(client.device, timeline, NULL);
    vkDestroyCommandPool(client.device, pool, NULL);
    close_client(&client);
}

/* The layer below wants binds whose offsets are 0, 1 and 2. */
static void bind_behind(VkQueue queue, VkSemaphore timeline, uint64_t waited, VkFence fence)
{
    uint64_t signaled = waited + 1;
    VkSparseMemoryBind binds[3] = {{.resourceOffset = 0}, {.resourceOffset = 1}, {.resourceOffset = 2}};
    VkSparseBufferMemoryBindInfo buffer = {VK_NULL_HANDLE, 3, binds};
    VkTimelineSemaphoreSubmitInfo values = {VK_STRUCTURE_TYPE_TIMELINE_SEMAPHORE_SUBMIT_INFO, NULL, 1, &waited, 1,
                                            &signaled};
    VkBindSparseInfo info = {.sType = VK_STRUCTURE_TYPE_BIND_SPARSE_INFO,
                             .pNext = &values,
                             .waitSemaphoreCount = 1,
                             .pWaitSemaphores = &timeline,
                             .bufferBindCount = 1,
                             .pBufferBinds = &buffer,
                             .signalSemaphoreCount = 1,
                             .pSignalSemaphores = &timeline};
    must(vkQueueBindSparse(queue, 1, &info, fence), "vkQueueBindSparse");
    memset(binds, 255, sizeof binds); /* the client's again, though the batch is held back */
}

static void sparse(uint64_t rounds)
{
    struct client client = open_client();
    VkSemaphore timeline = open_semaphore(&client, VK_SEMAPHORE_TYPE_TIMELINE, 0);
    VkFenceCreateInfo info = {.sType = VK_STRUCTURE_TYPE_FENCE_CREATE_INFO};
    VkFence fence;
    must(vkCreateFence(client.device, &info, NULL, &fence), "vkCreateFence");
    for (uint64_t value = 0; value < 3 * rounds; value += 3) {
        bind_behind(client.queues[0], timeline, value + 1, fence);
        host_signal(&client, timeline, value + 1);
        must(vkWaitForFences(client.device, 1, &fence, VK_TRUE, UINT64_MAX), "vkWaitForFences");
        if (value_of(&client, timeline) != value + 2)
            wrong("behind a fence its bind's signal isn't there", (int64_t)value);
        must(vkResetFences(client.device, 1, &fence), "vkResetFences");
        submit(client.queues[0], timeline, value + 2, timeline, value + 3, VK_NULL_HANDLE);
        wait_for(&client, 1, &timeline, &(uint64_t){value + 3}, false, UINT64_MAX);
    }
    must(vkDeviceWaitIdle(client.device), "vkDeviceWaitIdle");
    vkDestroyFence(client.device, fence, NULL);
    vkDestroySemaphore(client.device, timeline, NULL);
    close_client(&client);
}

/* What submitting costs ----------------------------------------------------------------------------------------- */

static uint64_t now(void)
{
    struct timespec time;
    clock_gettime(CLOCK_MONOTONIC, &time);
    return (uint64_t)time.tv_sec * 1000000000u + (uint64_t)time.tv_nsec;
}

static void submits(uint64_t count)
{
    struct client client = open_client();
    VkSemaphore timelines[4];
    uint64_t values[4] = {0};
    for (int i = 0; i < 4; i++)
        timelines[i] = open_semaphore(&client, VK_SEMAPHORE_TYPE_TIMELINE, 0);
    const VkPipelineStageFlags all[3] = {VK_PIPELINE_STAGE_ALL_COMMANDS_BIT, VK_PIPELINE_STAGE_ALL_COMMANDS_BIT,
                                         VK_PIPELINE_STAGE_ALL_COMMANDS_BIT};
    uint64_t begun = now();
    for (uint64_t i = 0; i < count; i++) {
        VkSemaphore waits[3];
        uint64_t waited[3];
        for (uint64_t k = 0; k < 3; k++) {
            waits[k] = timelines[(i + k + 1) % 4];
            waited[k] = values[(i + k + 1) % 4];
        }
        uint64_t signaled = ++values[i % 4];
        VkTimelineSemaphoreSubmitInfo of = {VK_STRUCTURE_TYPE_TIMELINE_SEMAPHORE_SUBMIT_INFO, NULL, 3, waited, 1,
                                            &signaled};
        VkSubmitInfo info = {VK_STRUCTURE_TYPE_SUBMIT_INFO, &of, 3, waits, all, 0, NULL, 1, &timelines[i % 4]};
        must(vkQueueSubmit(client.queues[0], 1, &info, VK_NULL_HANDLE), "vkQueueSubmit");
    }
    uint64_t submitted = now();
    must(vkDeviceWaitIdle(client.device), "vkDeviceWaitIdle");
    printf("%.0f ns submitting, %.0f in all\n", (double)(submitted - begun) / (double)count,
           (double)(now() - begun) / (double)count);
    for (int i = 0; i < 4; i++)
        vkDestroySemaphore(client.device, timelines[i], NULL);
    close_client(&client);
}

int main(int argc, char **argv)
{
    const char *what = argc > 1 ? argv[1] : "";
    uint64_t numbers[2] = {0};
    for (int i = 2; i < argc && i < 4; i++)
        numbers[i - 2] = strtoull(argv[i], NULL, 10);
    if (strcmp(what, "threads") == 0)
        threads((uint32_t)numbers[0], numbers[1]);
    else if (strcmp(what, "many") == 0)
        many((uint32_t)numbers[0], numbers[1]);
    else if (strcmp(what, "any") == 0)
        any();
    else if (strcmp(what, "binaries") == 0)
        binaries(numbers[0]);
    else if (strcmp(what, "group") == 0)
        group(numbers[0]);
    else if (strcmp(what, "sparse") == 0)
        sparse(numbers[0]);
    else if (strcmp(what, "devices") == 0)
        devices();
    else if (strcmp(what, "submits") == 0)
        submits(numbers[0]);
    else
        wrong("no such test", 0);
    printf("%s: right\n", what);
    return 0;
}
