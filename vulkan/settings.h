/* The settings of the layer, read when an instance is made. Each is a variable of the environment, or a line of the
 * file vk_layer_settings.txt (in the working directory, or where VK_LAYER_SETTINGS_PATH says), as `vq_timeline.way =
 * fence`; the environment comes first.
 *
 * | variable               | line                     | values                                                   |
 * | VQ_TIMELINE_WAY        | vq_timeline.way          | `relay` (the default), `fence`                           |
 * | VQ_TIMELINE_SAME_QUEUE | vq_timeline.same_queue   | `known` (the default), `wait`, `drop`                    |
 * | VQ_TIMELINE_DROPPED    | vq_timeline.dropped      | `known` (the default), `barrier`, `nothing`              |
 * | VQ_TIMELINE_STAND_IN   | vq_timeline.stand_in     | `missing` (the default), `always`                        |
 * | VQ_TIMELINE_LOG        | vq_timeline.log          | a file, or `stderr`: what the layer did, at the end      |
 * | VQ_TIMELINE_TRACE      | vq_timeline.trace        | a file: a script and a trace for `vq --audit`            |
 */
#ifndef SETTINGS_H
#define SETTINGS_H

#include <stdbool.h>

/* How a batch waits for a signal that is pending. */
enum way {
    WAY_RELAY, /* by a binary semaphore, which an empty batch on the signaling queue signals */
    WAY_FENCE  /* the thread that hands it over waits for the fence of the signaling batch first */
};

/* What becomes of a wait for a pending signal of the same queue. */
enum same_queue {
    SAME_KNOWN, /* dropped where the driver is known to run a queue's batches in order, one after another */
    SAME_WAIT,  /* waited for like any other */
    SAME_DROP   /* dropped */
};

/* What stands in the place of a wait that is dropped. */
enum dropped {
    DROPPED_KNOWN,   /* nothing where the driver is known to keep no caches between batches, and else a barrier */
    DROPPED_BARRIER, /* a barrier of all memory, as the first command of the queue's next batch */
    DROPPED_NOTHING
};

struct settings {
    enum way way;
    enum same_queue same_queue;
    enum dropped dropped;
    bool always; /* also where the driver has timelines of its own */
    char log[256]; /* empty: none */
    char trace[240]; /* empty: none */
};

struct settings read_settings(void);

#endif
