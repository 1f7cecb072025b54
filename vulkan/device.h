/* What the layer keeps of a device: its queues, its timelines, the batches that it holds back and those that the driver
 * has.
 *
 * Two kinds of lock. `core` is held round the live layer (vq_layer.h) and all that this file has, and never in a call
 * of the driver that may block. `driver` of a queue is held for one call of the driver on that queue, and nothing else
 * is locked meanwhile. Who releases a batch of a queue marks the queue busy until the driver has the batch: so batches
 * of one queue reach the driver in the order of their releases, and a batch waits only for what was released before. */
#ifndef DEVICE_H
#define DEVICE_H

#include "loader.h"
#include "settings.h"
#include "trace.h"
#include "vq_layer.h"

#include <pthread.h>

#define PHYSICAL_CALLS(X)                                                                                              \
    X(GetPhysicalDeviceFeatures2)                                                                                      \
    X(GetPhysicalDeviceProperties2)                                                                                    \
    X(GetPhysicalDeviceExternalSemaphoreProperties)                                                                    \
    X(EnumerateDeviceExtensionProperties)

/* The calls of a device that the layer answers. */
#define DEVICE_CALLS(X)                                                                                                \
    X(DestroyDevice)                                                                                                   \
    X(GetDeviceQueue)                                                                                                  \
    X(GetDeviceQueue2)                                                                                                 \
    X(CreateSemaphore)                                                                                                 \
    X(DestroySemaphore)                                                                                                \
    X(GetSemaphoreCounterValue)                                                                                        \
    X(SignalSemaphore)                                                                                                 \
    X(WaitSemaphores)                                                                                                  \
    X(QueueSubmit)                                                                                                     \
    X(QueueSubmit2)                                                                                                    \
    X(QueueBindSparse)                                                                                                 \
    X(QueuePresentKHR)                                                                                                 \
    X(QueueWaitIdle)                                                                                                   \
    X(DeviceWaitIdle)                                                                                                  \
    X(CreateFence)                                                                                                     \
    X(DestroyFence)                                                                                                    \
    X(ResetFences)

/* The driver's calls that the layer makes besides. */
#define OTHER_CALLS(X)                                                                                                 \
    X(GetFenceStatus)                                                                                                  \
    X(WaitForFences)                                                                                                   \
    X(CreateCommandPool)                                                                                               \
    X(DestroyCommandPool)                                                                                              \
    X(AllocateCommandBuffers)                                                                                          \
    X(BeginCommandBuffer)                                                                                              \
    X(CmdPipelineBarrier)                                                                                              \
    X(EndCommandBuffer)

struct calls {
#define X(name) PFN_vk##name name;
    DEVICE_CALLS(X)
    OTHER_CALLS(X)
#undef X
};

/* A device with more queues is refused; a wait for any of more fences looks again and again. */
enum { MOST_QUEUES = 64, MOST_WATCHED = 64 };

struct queue;

/* One batch that the driver has, or is about to be given. Its fence, or that of a later one of its queue, is signaled
 * when it is done. */
struct flight {
    struct flight *next; /* on its queue, oldest first; or among the spare ones */
    struct queue *queue;
    uint64_t number;     /* of its queue, in the order of releases, from 1 */
    VkFence own;         /* the layer's, kept with the struct; or none yet */
    VkFence fence;       /* what is signaled: its own, the client's, or none */
    uint32_t references; /* of its queue, of points, and of threads that wait */
    uint32_t waiting;    /* threads that are in a wait for its fence */
    bool done;
    VkSemaphore *relays; /* binary semaphores that the batch waited for: spare again when it is done */
    uint32_t relay_count;
    uint32_t relay_room;
    struct told *told; /* what a trace has of it */
};

/* What a point of a timeline or of a binary semaphore stands for: the flight whose batch signals it. */
struct sync {
    struct flight *flight;
    uint32_t told_point; /* the point's number in a trace */
};

/* A timeline, or a binary semaphore of the client's that a batch signaled. */
struct timeline {
    VkSemaphore handle; /* of a timeline: a binary semaphore of the driver's that is never signaled */
    uint32_t number;    /* in the live layer */
    bool is_binary;
    struct sync *syncs; /* by point */
    uint32_t sync_room;
    uint32_t name;         /* in a trace; 0: it has none */
    uint32_t *free_points; /* in a trace */
    uint32_t free_count;
    uint32_t free_room;
};

/* A semaphore that a batch waits for or signals, as the client named it. */
struct mark {
    VkSemaphore semaphore;
    struct timeline *timeline; /* where the live layer knows it */
    uint64_t value;
    VkPipelineStageFlags2 stages;
    uint32_t device_index;
    bool is_named; /* to the live layer, by this batch */
};

enum form { FORM_SUBMIT, FORM_SUBMIT_2, FORM_SPARSE, FORM_PRESENT, FORM_FENCE };

/* A batch as the client gave it. It and all that it leads to lie in one block of memory. */
struct batch {
    enum form form;
    struct queue *queue;
    struct flight *flight;
    VkFence fence; /* the client's, or none */
    struct mark *waits;
    struct mark *signals;
    uint32_t wait_count;
    uint32_t signal_count;
    uint32_t named_waits;      /* to the live layer */
    uint32_t named_signals;
    uint32_t timeline_waits;   /* of these, those of timelines */
    uint32_t timeline_signals;
    uint32_t promised; /* binary semaphores that are kept for its relays */
    struct vq_layer_point *points; /* room for what it waits for, or signals */

    /* vkQueueSubmit and vkQueueSubmit2 */
    const void *chain;
    bool is_group; /* vkQueueSubmit said which devices of a group: the marks and commands have it */
    VkSubmitFlags flags;
    uint32_t command_count;
    VkCommandBufferSubmitInfo *commands;

    const VkBindSparseInfo *sparse;
    const VkPresentInfoKHR *present; /* the caller's, who waits until the batch is handed over */
    VkResult *result;                /* where the caller of a present or of an idle reads what the driver said */
    bool *is_handed;                 /* where such a caller sees that it was handed over */
    struct flight **keeps_flight;    /* where such a caller sees the batch's flight, with a reference of its own */
    bool wants_fence;                /* though nothing else wants one of it */
    bool begins_with_barrier;        /* that of its queue */
};

struct queue {
    VkQueue handle;
    uint32_t family;
    uint32_t number; /* in the live layer, and in `queues` */
    pthread_mutex_t driver;
    uint64_t given;    /* under `driver`: the number of the last batch that the driver has */
    uint64_t handed;   /* under `core`: the same, a moment later */
    uint64_t released; /* the number of the last batch that was released */
    uint64_t held_back; /* how many batches are */
    uint32_t since_fence; /* batches since the last one with a fence */
    bool busy;          /* a thread hands a batch over */
    bool has_waited;    /* a batch of it waits for a timeline, or did */
    bool owes_barrier;  /* a wait was dropped, and no batch with commands has come since */
    VkCommandPool pool; /* of the barrier; both come with the first batch that may want it */
    VkCommandBuffer barrier;
    struct flight *oldest;
    struct flight *newest;
    uint64_t asked;     /* the question of the device's at which a fence of this queue wasn't signaled, */
    uint64_t not_done;  /* and the number of its batch: those behind it aren't done then either */
    /* By queue, and read and written by whom it is busy for: the last batch of the other queue that this one has waited
     * for, and at which stages. */
    uint64_t seen[MOST_QUEUES];
    VkPipelineStageFlags2 seen_stages[MOST_QUEUES];
};

/* The thread that watches fences for a wait for any, started when one needs it. */
struct watcher {
    pthread_t thread;
    pthread_cond_t wanted;
    bool is_started;
    bool is_stopped;
    uint32_t count; /* of the flights whose fences it waits for; 0: it waits for some */
    struct flight *flights[MOST_WATCHED];
};

/* What was done, for the log. */
struct counts {
    uint64_t batches;
    uint64_t held_back;
    uint64_t relays;
    uint64_t waits;
    uint64_t past;
    uint64_t covered;
    uint64_t barriers;
    uint64_t fences;
    uint64_t binaries;
    uint64_t host_waits;
};

struct device {
    VkDevice handle;
    bool is_active; /* else the driver's own timelines are left alone */
    bool drops_same_queue;
    bool bars_dropped; /* a barrier stands for the waits that are dropped */
    struct settings settings;
    PFN_vkSetDeviceLoaderData set_loader_data;
    PFN_vkGetDeviceProcAddr next_proc;
    struct calls next;

    pthread_mutex_t core;
    pthread_cond_t changed; /* something was released, handed over, signaled by the host, or done */
    struct vq_layer layer;
    struct queue *queues;
    uint32_t queue_count;
    struct table semaphores;   /* to struct timeline */
    struct timeline **numbers; /* by number in the live layer */
    uint32_t number_room;
    struct table client_fences; /* to the struct flight that is signaled by it */
    struct table shared_fences; /* fences that may be exported or imported: never a flight's */
    struct flight *spare_flights;
    VkSemaphore *spare; /* binary semaphores for relays */
    uint32_t spare_count;
    uint32_t spare_room;
    uint32_t promised;
    bool is_lost;
    uint64_t question; /* counts what the application asks: a fence is asked for once for each */
    struct watcher watcher;
    struct trace trace;
    struct counts counts;
};

/* The device that a device, queue or command buffer belongs to. */
struct device *device_of(const void *handle);

/* Something went wrong that only a wrong client or a failing driver brings about: said on the standard error. */
void complain(const char *what, int64_t which);

/* The queue with a handle of the client's, or NULL. */
struct queue *queue_of(struct device *d, VkQueue handle);

/* semaphores.c; under `core` */

/* Keeps a timeline by its handle and by its number in the live layer: false for want of memory. */
bool know(struct device *d, struct timeline *t, uint32_t number);

/* flights.c; all under `core` */

/* A flight for a batch of a queue, with a fence of its own where that is wanted: NULL for want of memory. */
struct flight *take_flight(struct device *d, struct queue *q, bool with_fence);
void refer_flight(struct flight *f);
void unrefer_flight(struct device *d, struct flight *f);
/* Puts a released batch's flight behind the others of its queue. */
void append_flight(struct queue *q, struct flight *f);
/* Marks the flights of a queue up to this one done, and finishes their batches. */
void done_up_to(struct device *d, struct flight *f);
/* Whether the driver has a flight's batch. */
bool is_handed(const struct flight *f);
/* Asks the driver whether a flight is done. */
bool is_done(struct device *d, struct flight *f);
/* Finishes what is done of a queue. */
void reap(struct device *d, struct queue *q);
/* Waits for a flight's fence, with `core` left meanwhile: VK_SUCCESS, VK_TIMEOUT or an error. It has a fence. The time
 * begins when the driver has the batch. */
VkResult wait_for_flight(struct device *d, struct flight *f, uint64_t nanoseconds);
/* Completes what is done of a timeline. */
void collect(struct device *d, struct timeline *t);
/* Sees to it that so many more binary semaphores are kept for relays: false for want of memory. */
bool promise_relays(struct device *d, uint32_t count);
VkSemaphore take_relay(struct device *d);

/* watcher.c; under `core` but for the last */

/* Has these flights watched: once one is done, `changed` is rung. False where the watcher has others to watch, or there
 * is no thread. */
bool watch_flights(struct device *d, struct flight **flights, uint32_t count);
/* Ends the thread, once what it watches is done. */
void stop_watcher(struct device *d);

/* batches.c */

/* Copies: NULL for want of memory. The marks' timelines aren't looked up yet. */
struct batch *copy_submit(struct queue *q, const VkSubmitInfo *info);
struct batch *copy_submit_2(struct queue *q, const VkSubmitInfo2 *info);
struct batch *new_present(struct queue *q, const VkPresentInfoKHR *info);
struct batch *new_fence(struct queue *q, VkFence fence);
/* One driver call for a batch, with these waits behind its own and this fence. */
VkResult call_driver(struct device *d, const struct batch *b, const struct mark *waits, uint32_t wait_count,
                     VkFence fence);
/* An empty batch on a queue that signals a binary semaphore. */
VkResult call_relay(struct device *d, struct queue *q, enum form form, VkSemaphore semaphore);

/* visibility.c; under `core` */

/* Whether a batch has commands in front of which a barrier may stand. */
bool takes_barrier(const struct batch *b);
/* Makes a queue's barrier, where it hasn't one: false for want of memory. */
bool has_barrier(struct device *d, struct queue *q);

/* sparse.c */
struct batch *copy_sparse(struct queue *q, const VkBindSparseInfo *info);
VkResult call_sparse(struct device *d, const struct batch *b, const struct mark *waits, uint32_t wait_count,
                     VkFence fence);

/* hand_over.c; under `core`, which is left while the driver is called */

/* Submits the batches of one call to the live layer, all or none: they are held back, and freed where it fails. */
VkResult submit_all(struct device *d, struct batch **batches, uint32_t count);
/* Hands over all that is ready, on all queues, until nothing is, or other threads are at it. */
void flush(struct device *d);

#endif
