/* What the live layer did, written down as a script of what was submitted with a trace behind it, which `vq --audit`
 * judges (docs/AUDIT.md). Semaphores alone are written: batches that wait for or signal one, host signals, and waits
 * and reads that were answered. All under the device's `core`. */
#ifndef TRACE_H
#define TRACE_H

#include <stdbool.h>
#include <stddef.h>
#include <stdint.h>

struct device;
struct batch;
struct flight;
struct timeline;
struct text {
    char *bytes;
    size_t size;
    size_t room;
};

/* What a flight's batch is in the script, until it is told that the device ran it. */
struct told {
    uint32_t line; /* among those of jobs, from 1 */
    bool is_told;
    uint32_t signal_count;
    uint32_t awaited_count;
    struct flight **awaited; /* those whose pending signals it waits for, each with a reference */
    struct told_signal {
        uint32_t name;
        bool is_binary;
        uint64_t value;
    } signals[];
};

struct event;

struct trace {
    bool is_on;
    bool is_cut; /* a limit of scripts is reached: no more jobs are written */
    char path[256];
    uint32_t timeline_count;
    uint32_t fresh; /* points that were taken so far */
    uint32_t jobs, job_lines, finished;
    struct text declarations, job_text;
    struct event *events;
    size_t event_count, event_room;
};

/* Empty: nothing is written. */
void open_trace(struct trace *trace, const char *path);
/* A timeline, or a binary semaphore at its first signal by a batch. */
void trace_timeline(struct device *d, struct timeline *t, uint64_t initial);
/* After a batch was submitted, with the signals that the live layer told in its `points`. */
void trace_submit(struct device *d, struct batch *b, uint64_t signal_count);
/* The call whose batches were submitted is refused: they can't be taken out of the script. */
void trace_refused(struct device *d);
/* After a release, with the same in `points`, whose syncs are of the batch's flight. */
void trace_release(struct device *d, struct batch *b, uint64_t signal_count);
/* The released batch waits for the pending signal of a flight. */
void trace_awaits(struct device *d, struct batch *b, struct flight *awaited);
/* A flight is done, after those before it on its queue. */
void trace_done(struct device *d, struct flight *f);
void trace_complete(struct device *d, struct timeline *t, uint32_t point, uint64_t value);
void trace_host_signal(struct device *d, struct timeline *t, uint64_t value);
void trace_host_wait(struct device *d, bool is_any, uint32_t count, struct timeline *const *timelines,
                     const uint64_t *values);
void trace_host_read(struct device *d, struct timeline *t, uint64_t value);
/* Writes the file, and forgets all. */
void close_trace(struct device *d);

#endif
