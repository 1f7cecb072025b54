/* What the parts of the recorder share.
 *
 * One lock, that of the recorder, guards all that is here; it isn't held in a call of the driver. A call first says
 * what it will do and then calls the driver, but what the driver has to answer first (a creation, a wait) is said
 * behind it. What a command touches is written into its command buffer's text when it is recorded, and into the capture
 * at each submission of the buffer.
 *
 * Never more is said than what a command may touch, but that bound resources are taken as touched whole by a shader
 * whose code reads or writes them; what isn't seen, or only in part, is counted (`unseen`). */
#ifndef CAPTURE_H
#define CAPTURE_H

#include "../loader.h"
#include "calls.h"

#include <pthread.h>
#include <stdio.h>

#define LAYER_NAME "VK_LAYER_VQ_capture"

/* The tables of a device, by what their handles are. */
enum kind {
    THINGS,
    COMMANDS,
    VIEWS,
    FRAMES,
    PASSES,
    SET_LAYOUTS,
    SETS,
    TEMPLATES,
    MODULES,
    PIPELINES,
    SWAPCHAINS,
    KINDS
};

struct device {
    struct device *next;
    uint64_t word; /* the loader's */
    VkDevice handle;
    PFN_vkGetDeviceProcAddr next_proc;
    struct calls calls;
    struct table tables[KINDS];
    struct thing *things; /* those that are there */
    struct thing *gone;   /* command buffers may lead to them */
};

/* Text that grows ------------------------------------------------------------------------------------------------ */

struct text {
    char *bytes;
    size_t size;
    size_t room;
};

__attribute__((format(printf, 2, 3))) void say(struct text *text, const char *format, ...);
void append(struct text *text, const char *bytes, size_t size);

/* The capture ------------------------------------------------------------------------------------------------------ */

void lock_recorder(void);
void unlock_recorder(void);

/* Whether calls are written down: a file is named, and there was memory for all so far. Under the lock. */
bool is_recording(void);

/* Nothing more is written down, and standard error says why. */
void lose_capture(const char *why);

/* Memory, zeroed, or NULL: then nothing more is written down, and standard error says so. */
void *get(size_t count, size_t size);

/* Room for one more behind `count` elements of a list: false for want of memory. */
bool has_room(void **list, size_t *room, size_t count, size_t size);

/* A line that no thread does, and one of the thread that goes on. */
__attribute__((format(printf, 1, 2))) void write_line(const char *format, ...);
__attribute__((format(printf, 1, 2))) void write_host_line(const char *format, ...);
void write_text(const struct text *text);

/* Hands what was written to the system, so that a kill loses none of it. */
void flush_capture(void);

/* What isn't seen is counted, and said at the end. */
enum unseen {
    UNSEEN_BATCHES,
    UNSEEN_VERTICES,
    UNSEEN_SPARSE,
    UNSEEN_IMPORTS,
    UNSEEN_EXPORTS,
    UNSEEN_MAPPED,
    UNSEEN_COUNTS,
    UNSEEN_TRACING,
    UNSEEN_PARTS,
    UNSEEN_EVENTS,
    UNSEEN_REFUSED,
    UNSEEN_DESCRIPTORS,
    UNSEEN_ARGUMENTS,
    UNSEEN_KINDS
};
void count_unseen(enum unseen what);

/* Scopes ------------------------------------------------------------------------------------------------------------
 */

/* A scope is stages and kinds of accesses, in one word: the words of docs/CAPTURES.md, in their order. Where it has all
 * kinds, or none of these, none is written. */
enum stage {
    INDIRECT = 1 << 0,
    INPUT = 1 << 1,
    VERTEX = 1 << 2,
    EARLY = 1 << 3,
    FRAGMENT = 1 << 4,
    LATE = 1 << 5,
    COLOR = 1 << 6,
    GRAPHICS = (1 << 7) - 1,
    COMPUTE = 1 << 7,
    COPY = 1 << 8,
    HOST = 1 << 9,
    OTHER = 1 << 10,
    EVERY = 1 << 11,
    STAGES = (1 << 12) - 1
};
enum access {
    READ = 1 << 16,
    WRITE = 1 << 17,
    INDEX = 1 << 18,
    ATTRIBUTE = 1 << 19,
    UNIFORM = 1 << 20,
    SAMPLED = 1 << 21,
    STORAGE_READ = 1 << 22,
    STORAGE_WRITE = 1 << 23,
    ATTACHMENT = 1 << 24,
    ALL_KINDS = READ | WRITE
};
enum { SCOPE_TEXT = 192 };

/* The stages of a mask (of either width), in a first scope or in a second one. */
uint32_t first_stages(uint64_t mask);
uint32_t second_stages(uint64_t mask);

/* The first or the second scope of a barrier with these masks. One without accesses makes nothing available, or nothing
 * visible. */
uint32_t first_scope(uint64_t stages, uint64_t accesses);
uint32_t second_scope(uint64_t stages, uint64_t accesses);

/* The words of a scope, in `to` of SCOPE_TEXT bytes, which is returned. */
const char *scope_words(char *to, uint32_t scope);

/* Names -------------------------------------------------------------------------------------------------------------
 */

enum letter { RESOURCE = 'R', TIMELINE = 'T', BINARY = 'S', FENCE = 'F', EVENT = 'E', QUEUE = 'Q' };

struct batch;

/* What the capture has a name for: a letter and a number, which is never used again. */
struct thing {
    struct thing *next, *previous;
    enum letter letter;
    unsigned number;
    bool is_gone;
    bool is_imported;
    /* Of a resource: its units. Of an image, those of its first level are counted for each level of each layer. */
    uint64_t size;
    bool is_image;
    bool is_swapped; /* an image of a swapchain */
    VkFormat format;
    VkExtent3D extent;
    uint32_t levels, layers, aspects;
    uint64_t memory, offset; /* where a buffer is bound */
    uint64_t seen;           /* of a timeline: the greatest value that the host saw; of a fence: 1 where it was seen */
    uint64_t top;            /* of a timeline: the greatest value that a line above signals */
    bool is_signaled;        /* of a binary semaphore: a line above signals it, and none waited since */
    bool is_used;            /* of a fence: a line above names it, since it was reset */
    struct thing *set_on;    /* of an event: the queue that set it last */
    struct batch *first, *last; /* of a queue: the batches that wait for a signal that is still to come */
};

struct thing *new_thing(struct device *d, enum letter letter, uint64_t key, uint64_t value, const char *call);
struct thing *new_image(struct device *d, uint64_t key, VkFormat format, VkExtent3D extent, uint32_t levels,
                        uint32_t layers, const char *call);
struct thing *find(struct device *d, uint64_t key);
struct thing *queue_of(struct device *d, VkQueue queue);

/* Destroys: the host writes a resource, and its name ends. */
void end_thing(struct device *d, uint64_t key, const char *call);
void write_ends(void);

/* Something outside may tell the host what has ended: destructions aren't taken for accesses any more. */
void distrust_ends(void);

/* Part of a resource. Of a buffer `offset` and `size`. */
struct view {
    struct thing *thing;
    VkImageSubresourceRange range;
    uint64_t offset, size;
    bool is_slice; /* slices of a 3D image, which aren't told apart: what is done to them isn't written */
};

/* Command buffers ---------------------------------------------------------------------------------------------------
 */

enum { MOST_LABELS = 8, LABEL_TEXT = 48 };
enum { MOST_SETS = 32, MOST_DYNAMIC = 16, MOST_RECENT = 64, MOST_VERTEX_BUFFERS = 32, POINTS = 2 };

/* A read that was said, since the last barrier: one that it covers says nothing new. */
struct recent {
    const struct thing *thing;
    uint64_t offset, size;
    uint32_t scope;
};

/* An event is set or awaited behind the first `at` bytes of a command buffer's text. Whether it was set on the queue is
 * only known at a submission. */
struct mark {
    size_t at;
    struct thing *event;
    bool is_set;
    uint32_t scope;
};

struct vertex_buffer {
    struct thing *thing;
    uint64_t offset, stride;
};

struct vertex_input {
    uint32_t binding;
    uint32_t stride;
    bool is_instanced;
    bool has_stride; /* else that of vkCmdBindVertexBuffers2 */
};

struct pass;

struct commands {
    struct device *device;
    uint32_t number;
    uint64_t pool;
    struct text text;
    struct mark *marks;
    size_t mark_count, mark_room;
    const char *call;
    char labels[MOST_LABELS][LABEL_TEXT]; /* the open ones, up to so many */
    unsigned label_count;
    bool is_fresh; /* what follows is of no other command */
    uint64_t pipeline[POINTS];
    uint64_t sets[POINTS][MOST_SETS];
    struct set *pushed[POINTS][MOST_SETS];
    uint32_t dynamic[POINTS][MOST_SETS][MOST_DYNAMIC];
    struct recent recent[MOST_RECENT];
    unsigned recent_count;
    const struct pass *pass;
    struct view *attached;
    uint32_t attached_count, subpass;
    VkRect2D area;
    struct vertex_buffer vertex_buffers[MOST_VERTEX_BUFFERS];
    struct vertex_input *inputs; /* of vkCmdSetVertexInputEXT */
    uint32_t input_count;
    struct vertex_buffer index; /* its stride is the size of an index */
};

/* The command buffer, where a command begins in it (under the lock, which `end_command` gives back), or NULL where
 * nothing is recorded. What follows takes NULL, and then does nothing. */
struct commands *begin_command(struct device *d, VkCommandBuffer handle, const char *call);

/* The same, for what only changes the buffer's state. */
struct commands *begin_state(struct device *d, VkCommandBuffer handle, const char *call);
void end_command(void);
void free_commands(struct commands *l);
void begin_other_command(struct commands *l);

void touch(struct commands *l, const struct thing *t, bool is_write, uint64_t offset, uint64_t size, uint32_t scope);
void touch_range(struct commands *l, const struct thing *t, bool is_write, const VkImageSubresourceRange *range,
                 uint32_t scope);
void touch_box(struct commands *l, const struct thing *t, bool is_write, const VkImageSubresourceLayers *layers,
               VkOffset3D offset, VkExtent3D extent, uint32_t scope);
void touch_view(struct commands *l, const struct view *v, bool is_write, uint32_t scope);
/* How many bytes a texel takes in a buffer, or 0 where that isn't known here: blocks of texels. */
uint64_t texel_bytes(VkFormat format, VkImageAspectFlags aspects);

/* The aspects of a format: color, or depth, stencil or both. */
VkImageAspectFlags format_aspects(VkFormat format);

void put_barrier(struct commands *l, uint32_t from, uint32_t to);
void put_transition(struct commands *l, const struct thing *t, const VkImageSubresourceRange *range, uint32_t from,
                    uint32_t to);
/* A line of the text, with a comment that leads back to the call. */
__attribute__((format(printf, 2, 3))) void say_line(struct commands *l, const char *format, ...);

void put_mark(struct commands *l, struct thing *event, bool is_set, uint32_t scope);

/* What the bound pipeline's shaders reach through the bound descriptors. */
void run_shaders(struct commands *l, VkPipelineBindPoint point);

/* Shaders and descriptors -------------------------------------------------------------------------------------------
 */

/* What a shader's code does with a binding. */
/* What a shader does with a binding, or where its index is a constant, with one element of it. */
enum { ANY_ELEMENT = UINT32_MAX };

struct use {
    uint32_t set, binding, stage, element;
    bool loads;  /* from a buffer's memory */
    bool stores; /* to it */
    bool reads;  /* texels */
    bool writes; /* texels */
};

struct pipeline {
    struct use *uses;
    size_t count, room;
    struct vertex_input *inputs;
    uint32_t input_count;
};

/* Adds what the code does: false for want of memory. Faulty code adds what was understood. */
bool reflect(struct pipeline *to, const uint32_t *code, size_t size, uint32_t stage);

struct slot {
    bool is_set;
    struct view view;
};

struct binding {
    uint32_t number, count;
    VkDescriptorType type;
    struct slot *slots;
};

struct set {
    uint64_t pool;
    struct binding *bindings;
    size_t count, room;
};

void free_set(struct set *set);
void free_pipeline(struct pipeline *p);
void free_pass(struct pass *p);

/* Batches -----------------------------------------------------------------------------------------------------------
 */

struct await {
    struct thing *thing;
    uint64_t value;
};

struct batch {
    struct batch *next;
    struct text text;
    struct await *waits, *signals;
    size_t wait_count, wait_room, signal_count, signal_room;
    unsigned ticket; /* where it was handed over, or 0 */
    struct thing *fence;
    bool has_commands, needs_cut;
    const char *call;
};

struct batch *new_batch(const char *call);
void add_wait(struct batch *b, struct thing *t, uint64_t value, uint32_t stages);
void add_signal(struct batch *b, struct thing *t, uint64_t value, uint32_t stages);
void add_fence(struct batch *b, struct thing *t);
void add_commands(struct device *d, struct batch *b, VkCommandBuffer handle, struct thing *queue);

/* Writes a batch, or holds it back until what it waits for is signaled above. It is given up. */
void hand_on(struct thing *queue, struct batch *b);
void write_ready(void);
void drop_batches(struct device *d);
unsigned held_batches(void);

/* Frees what a device has in its tables. */
void free_device(struct device *d);

struct device *device_of(const void *handle);

#endif
