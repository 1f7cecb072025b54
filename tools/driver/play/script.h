/* A script of either version, as its lines say it: docs/LANGUAGE.md. It was checked by vq before, so reading has only
   to understand it. A wait that holds back a part of its batch is read as one that holds back the whole: no call of
   Vulkan names commands, and what the script may give then it may give as it stands. */
#ifndef SCRIPT_H
#define SCRIPT_H

#include <stdbool.h>
#include <stddef.h>
#include <stdint.h>

enum {
    NAME_SIZE = 17,
    MOST_BUFFERS = 64,
    MOST_SEMAPHORES = 256,
    MOST_QUEUES = 16,
    MOST_JOBS = 8192,
    MOST_COMMANDS = 8192,
    MOST_PAIRS = 16,
};

/* What fills a buffer from an offset on. */
#define WHOLE UINT64_MAX

enum semaphore_kind { TIMELINE, BINARY, FENCE };

enum job_kind {
    BATCH,
    HOST_SIGNAL,
    HOST_WAIT_ALL,
    HOST_WAIT_ANY,
    HOST_POLL_ALL,
    HOST_POLL_ANY,
    HOST_READ,
    HOST_FENCE_WAIT,
    HOST_FENCE_POLL,
    HOST_FENCE_RESET,
    HOST_IDLE,
};

enum command_kind { FILL, UPDATE, COPY };

struct buffer {
    char name[NAME_SIZE];
    uint64_t size;
};

struct semaphore {
    char name[NAME_SIZE];
    enum semaphore_kind kind;
    uint64_t initial;
    /* While lines are read. Of a binary semaphore: how often it was signaled. Of a fence: its resets with effect. */
    uint64_t count;
    /* Of a fence: whether it was named since the last reset. */
    bool is_used;
};

/* A semaphore or fence with a value. The k-th signal of a binary semaphore has the value k, and so has the k-th naming
   of a fence, where only resets with effect are counted between. */
struct mark {
    uint32_t semaphore;
    uint64_t value;
};

struct command {
    enum command_kind kind;
    uint32_t source, target;
    uint64_t source_offset, target_offset, size;
    uint32_t word;
    uint8_t *bytes;
};

/* A batch, or a step of the host. */
struct job {
    enum job_kind kind;
    uint32_t line;
    /* Of a batch. */
    uint32_t queue, first_command, command_count;
    bool has_fence;
    struct mark fence;
    /* What it waits for, or asks for; what it signals. */
    uint32_t wait_count, signal_count;
    struct mark waits[MOST_PAIRS], signals[MOST_PAIRS];
};

struct script {
    uint32_t buffer_count, semaphore_count, queue_count, job_count, command_count, line_count;
    struct buffer buffers[MOST_BUFFERS];
    struct semaphore semaphores[MOST_SEMAPHORES];
    char queues[MOST_QUEUES][NAME_SIZE];
    struct job jobs[MOST_JOBS];
    struct command commands[MOST_COMMANDS];
    /* Whether a batch is open while lines are read. */
    bool is_open;
};

/* Reads a text. Answers 0, or the number of the first line that it doesn't understand. */
uint32_t read_script(struct script *script, const char *text, size_t size);

void free_commands(struct script *script);

#endif
