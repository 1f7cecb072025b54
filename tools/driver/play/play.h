/* A script played on a device: its objects, its commands, its steps and its text. */
#ifndef PLAY_H
#define PLAY_H

#include <stdbool.h>
#include <stddef.h>
#include <stdint.h>

#include <vulkan/vulkan.h>

#include "device.h"
#include "script.h"

/* Statuses of the program. */
enum { DONE = 0, NOT_READY = 1, REFUSED = 2, LOST = 3, HUNG = 4, LEFT_OUT = 5 };

/* The script as it was read from the standard input. */
struct source {
    char *bytes;
    size_t size;
};

struct play {
    const struct script *script;
    struct source source;
    struct device device;
    /* The device's queue of each queue of the script; the order of the jobs. */
    uint32_t shared[MOST_QUEUES], order[MOST_JOBS];
    VkBuffer buffers[MOST_BUFFERS];
    VkDeviceMemory memory;
    VkDeviceSize offsets[MOST_BUFFERS];
    uint8_t *bytes;
    VkSemaphore semaphores[MOST_SEMAPHORES];
    VkFence fences[MOST_SEMAPHORES];
    /* The pool of each queue of the device, and the command buffer of each batch by its job. */
    VkCommandPool pools[MOST_QUEUES];
    VkCommandBuffer commands[MOST_JOBS];
};

/* Ends the program with LOST where a call failed: says which one, at which line of the script, and the script. */
void look_at(const struct play *play, VkResult result, const char *call, uint32_t line);

/* objects.c: makes and frees the objects of one run, buffers of zeros and recorded command buffers among them. */
void make_objects(struct play *play);
void free_objects(struct play *play);

/* steps.c: submits a batch, with its waits, signals and fence or bare; does a step of the host. */
void submit(struct play *play, const struct job *job, bool is_bare);
void do_step(struct play *play, const struct job *job);

/* text.c: the text, one for the whole program, which the thread that looks for hangs reads too. */
void begin_text(uint32_t line);
void stand_at(uint32_t line);
void add_text(const char *format, ...) __attribute__((format(printf, 1, 2)));
void add_buffers(const struct play *play);
void print_text(void);

/* Watches the host: where a run takes longer than this, the text so far and a line `LINE hang` are printed, and the
   program ends with HUNG. */
void watch(double seconds);

#endif
