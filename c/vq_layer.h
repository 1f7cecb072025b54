/* The live layer for C: timelines, binary semaphores, fences and queues of a device whose batches come as they are
 * submitted. A batch is held back until all that it waits for is past or pending; then it is released, with the points
 * to wait for and to signal, and the caller hands it to the device. docs/LAYER-C.md says what it is, and how a driver
 * uses it.
 *
 * Link with libvq_layer_c.a and with an allocator: the kit's liblibc_c.a, or the three functions of vq_alloc.h. A
 * shared object is linked with -Wl,--exclude-libs,ALL, so that it keeps these names to itself.
 *
 * What a caller owes, and nothing checks:
 * - each call is given a layer as it was last written: zeroed (VQ_LAYER_NONE), opened by vq_layer_open, or closed; two
 *   structs don't stand for one layer;
 * - calls on one layer that may change it are made one at a time: a mutex is held round each, and all calls may share
 *   it. Layers are free of one another;
 * - pointers of one call are valid and not null, but for a list or a room of 0, which may be NULL, and what they lead
 *   to doesn't overlap;
 * - no call comes from a signal handler, nor in the child of a fork of a process with threads;
 * - vq_layer_complete is told only of a point whose sync is signaled, and vq_layer_finish only of a batch that is done;
 * - a sync is reset between the submit that gives its point and the release of that batch;
 * - batches of one queue are handed to the device in the order of their releases;
 * - vq_layer_unref gives back a reference of the caller's own.
 *
 * Words: an operation is a value of a timeline with its *point*, a number under which the caller keeps a binary sync of
 * its own: the pair of timeline and point names the sync. It is *taken* from the submit on, *pending* from the release
 * of its batch on, and done with vq_layer_complete or vq_layer_take_back. The *pending value* is the value of the last
 * pending operation, and where none is pending, the payload, which is the value that the timeline has reached.
 *
 * A binary semaphore is a timeline of the layer's own: its n-th signal is value n. A batch's wait takes the signal that
 * was submitted last. A fence is a binary semaphore that no batch waits for, and that the host resets. Their numbers
 * are those of timelines: where a call says timeline, one of these may stand, but for vq_layer_signal.
 *
 * A call that isn't answered with VQ_LAYER_DONE changes nothing of the layer. No call waits, starts a thread or ends
 * the process, and only vq_layer_open, the three calls that open something, and vq_layer_submit want memory. The calls
 * whose layer is `const` write nothing but their room. */
#ifndef VQ_LAYER_H
#define VQ_LAYER_H

#include <stdbool.h>
#include <stddef.h>
#include <stdint.h>

#ifdef __cplusplus
extern "C" {
#endif

/* The version of this header; vq_layer_version has that of the library. */
#define VQ_LAYER_VERSION 1

/* For compilers that know these: no pointer is null, and the answer isn't dropped. */
#if defined(__GNUC__)
#define VQ_LAYER_CALL __attribute__((nonnull))
#define VQ_LAYER_ASK __attribute__((nonnull, warn_unused_result))
#define VQ_LAYER_TOLD __attribute__((warn_unused_result))
#else
#define VQ_LAYER_CALL
#define VQ_LAYER_ASK
#define VQ_LAYER_TOLD
#endif

/* A function of this header itself, also for C before 1999. */
#if defined(__cplusplus) || (defined(__STDC_VERSION__) && __STDC_VERSION__ >= 199901L)
#define VQ_LAYER_INLINE static inline
#elif defined(__GNUC__)
#define VQ_LAYER_INLINE static __inline__
#else
#define VQ_LAYER_INLINE static
#endif

/* The codes: made of layer_codes.txt. */
enum vq_layer_code {
    VQ_LAYER_DONE = 0,              /* the call did what it says */
    VQ_LAYER_NO_MEMORY = 1,         /* there was no memory, or no number: nothing was changed */
    VQ_LAYER_NO_HANDLE = 2,         /* no layer is open at the handle: it was never opened, or is closed */
    VQ_LAYER_NO_QUEUE = 3,          /* no queue has this number */
    VQ_LAYER_NO_TIMELINE = 4,       /* no timeline has this number */
    VQ_LAYER_NO_BATCH = 5,          /* no batch stands in this place */
    VQ_LAYER_NO_ROOM = 6,           /* the room was filled, and the rest left out */
    VQ_LAYER_NOT_ABOVE = 16,        /* the value isn't above the pending one, or for the host's signal, the payload */
    VQ_LAYER_TWICE = 17,            /* a point is taken for this value already */
    VQ_LAYER_FULL = 18,             /* no number is left: of points, or of references to this one */
    VQ_LAYER_TOO_MANY_WAITS = 19,   /* too many waits are in flight */
    VQ_LAYER_UNSIGNALED = 20,       /* the binary semaphore has no signal that isn't taken */
    VQ_LAYER_SIGNALED = 21,         /* the binary semaphore has a signal that isn't taken */
    VQ_LAYER_REPEATED = 22,         /* the batch names the binary semaphore twice */
    VQ_LAYER_PAST = 32,             /* the value is reached */
    VQ_LAYER_PENDING = 33,          /* a pending operation reaches the value */
    VQ_LAYER_NOT_YET = 34,          /* no pending operation reaches the value yet */
    VQ_LAYER_NOT_OUT = 40,          /* the point carries no operation */
    VQ_LAYER_NOT_HELD = 41,         /* the host doesn't hold the point */
    VQ_LAYER_NOTHING_PENDING = 42,  /* nothing is pending */
    VQ_LAYER_OUTSTANDING = 43,      /* an operation is taken or pending whose value isn't above this one */
    VQ_LAYER_NO_BINARY = 44,        /* no binary semaphore has this number */
    VQ_LAYER_IN_USE = 45,           /* the signal is submitted and not reached */
    VQ_LAYER_NAMED = 46,            /* a batch of a queue names it and isn't finished */
    VQ_LAYER_HELD = 47,             /* the host holds a point of it */
    VQ_LAYER_EMPTY = 48,            /* nothing is held back */
    VQ_LAYER_WAITS = 49,            /* the first held-back batch waits for a value that is neither past nor pending */
    VQ_LAYER_BEHIND = 50,           /* the first held-back batch signals behind an operation that isn't installed */
    VQ_LAYER_USED = 51,             /* a binary semaphore of the batch was used since its submission */
    VQ_LAYER_NONE_READY = 52,       /* no queue is ready */
    VQ_LAYER_NOTHING_RELEASED = 53, /* nothing is released */
    VQ_LAYER_MISSING = 54           /* the first held-back batch waits for a value that no held-back batch signals */
};

/* What a number of enum vq_layer_code says. */
VQ_LAYER_INLINE const char *vq_layer_words(enum vq_layer_code code)
{
    switch (code) {
    case VQ_LAYER_DONE:
        return "the call did what it says";
    case VQ_LAYER_NO_MEMORY:
        return "there was no memory, or no number: nothing was changed";
    case VQ_LAYER_NO_HANDLE:
        return "no layer is open at the handle: it was never opened, or is closed";
    case VQ_LAYER_NO_QUEUE:
        return "no queue has this number";
    case VQ_LAYER_NO_TIMELINE:
        return "no timeline has this number";
    case VQ_LAYER_NO_BATCH:
        return "no batch stands in this place";
    case VQ_LAYER_NO_ROOM:
        return "the room was filled, and the rest left out";
    case VQ_LAYER_NOT_ABOVE:
        return "the value isn't above the pending one, or for the host's signal, the payload";
    case VQ_LAYER_TWICE:
        return "a point is taken for this value already";
    case VQ_LAYER_FULL:
        return "no number is left: of points, or of references to this one";
    case VQ_LAYER_TOO_MANY_WAITS:
        return "too many waits are in flight";
    case VQ_LAYER_UNSIGNALED:
        return "the binary semaphore has no signal that isn't taken";
    case VQ_LAYER_SIGNALED:
        return "the binary semaphore has a signal that isn't taken";
    case VQ_LAYER_REPEATED:
        return "the batch names the binary semaphore twice";
    case VQ_LAYER_PAST:
        return "the value is reached";
    case VQ_LAYER_PENDING:
        return "a pending operation reaches the value";
    case VQ_LAYER_NOT_YET:
        return "no pending operation reaches the value yet";
    case VQ_LAYER_NOT_OUT:
        return "the point carries no operation";
    case VQ_LAYER_NOT_HELD:
        return "the host doesn't hold the point";
    case VQ_LAYER_NOTHING_PENDING:
        return "nothing is pending";
    case VQ_LAYER_OUTSTANDING:
        return "an operation is taken or pending whose value isn't above this one";
    case VQ_LAYER_NO_BINARY:
        return "no binary semaphore has this number";
    case VQ_LAYER_IN_USE:
        return "the signal is submitted and not reached";
    case VQ_LAYER_NAMED:
        return "a batch of a queue names it and isn't finished";
    case VQ_LAYER_HELD:
        return "the host holds a point of it";
    case VQ_LAYER_EMPTY:
        return "nothing is held back";
    case VQ_LAYER_WAITS:
        return "the first held-back batch waits for a value that is neither past nor pending";
    case VQ_LAYER_BEHIND:
        return "the first held-back batch signals behind an operation that isn't installed";
    case VQ_LAYER_USED:
        return "a binary semaphore of the batch was used since its submission";
    case VQ_LAYER_NONE_READY:
        return "no queue is ready";
    case VQ_LAYER_NOTHING_RELEASED:
        return "nothing is released";
    case VQ_LAYER_MISSING:
        return "the first held-back batch waits for a value that no held-back batch signals";
    }
    return "no such code";
}
/* The end of the codes. */

/* A layer. Zeroed, it is none: each call answers VQ_LAYER_NO_HANDLE, and vq_layer_close does nothing. */
struct vq_layer {
    void *at;
};
#define VQ_LAYER_NONE {0}

/* What a call answers: its code, and what it tells besides, as said at the call. What it doesn't tell is 0. */
struct vq_layer_answer {
    enum vq_layer_code code;
    uint32_t number;
    uint64_t value;
};

/* A value of a timeline, which a batch waits for or signals. Of a binary semaphore or a fence the layer counts the
 * value, and this one isn't looked at. */
struct vq_layer_value {
    uint32_t timeline;
    uint64_t value;
};

/* A signal of a batch: a value of a timeline, and the point that was given for it. Or a wait: the value, and the point
 * that the batch holds and waits for, which carries the first pending operation at or above that value;
 * VQ_LAYER_NO_POINT where the value was past at the release, and before it. */
struct vq_layer_point {
    uint32_t timeline;
    uint32_t point;
    uint64_t value;
};
#define VQ_LAYER_NO_POINT UINT32_MAX

/* The version of the library. */
uint32_t vq_layer_version(void);

/* Opens a layer with no timelines and no queues at `*layer`; or VQ_LAYER_NO_MEMORY, and it stays. What was there isn't
 * looked at, nor closed. */
VQ_LAYER_ASK enum vq_layer_code vq_layer_open(struct vq_layer *layer);

/* Ends a layer, whatever is held back, released, pending or held, frees its memory, and zeroes the struct. Of a zeroed
 * struct it does nothing. */
VQ_LAYER_CALL void vq_layer_close(struct vq_layer *layer);

/* Timelines, binary semaphores, fences and queues. */

/* Opens a timeline that has reached a value: its `number`, the least that stands for nothing. VQ_LAYER_NO_MEMORY. */
VQ_LAYER_ASK struct vq_layer_answer vq_layer_open_timeline(struct vq_layer *layer, uint64_t initial);

/* Opens a binary semaphore or a fence, unsignaled or signaled once: its `number`, as that of a timeline.
 * VQ_LAYER_NO_MEMORY. */
VQ_LAYER_ASK struct vq_layer_answer vq_layer_open_binary(struct vq_layer *layer, bool signaled);

/* Opens a queue: its `number`, counted from 0. Queues aren't closed but with the layer. VQ_LAYER_NO_MEMORY. */
VQ_LAYER_ASK struct vq_layer_answer vq_layer_open_queue(struct vq_layer *layer);

/* Closes a timeline, a binary semaphore or a fence: its number stands for nothing, and is opened again first. The syncs
 * of its points are the caller's. VQ_LAYER_NO_TIMELINE. VQ_LAYER_NAMED: a batch of the queue `number` names it and
 * isn't finished. VQ_LAYER_HELD: the host holds its point `number`. */
VQ_LAYER_CALL struct vq_layer_answer vq_layer_close_timeline(struct vq_layer *layer, uint32_t timeline);

/* Batches. */

/* Puts a batch behind the others of its queue, held back: its place there is `value`. A point is given for each
 * timeline that it signals, which vq_layer_signals reads: of signals of one timeline the greatest stands for all, and
 * each smaller value is reached with it. All memory that the batch will want is taken here. A binary semaphore may be
 * named once by its waits and once by its signals.
 *
 * VQ_LAYER_NO_QUEUE. VQ_LAYER_TOO_MANY_WAITS: the batches that aren't finished would have 2^31 waits.
 * VQ_LAYER_NO_MEMORY. Of the others `number` is the timeline: VQ_LAYER_NO_TIMELINE; VQ_LAYER_UNSIGNALED, which the
 * batch waits for; VQ_LAYER_SIGNALED, which it signals; VQ_LAYER_REPEATED; VQ_LAYER_NOT_ABOVE, where `value` is the
 * pending value; VQ_LAYER_TWICE; VQ_LAYER_FULL. */
VQ_LAYER_ASK struct vq_layer_answer vq_layer_submit(struct vq_layer *layer, uint32_t queue, uint64_t token,
                                                    const struct vq_layer_value *waits, size_t wait_count,
                                                    const struct vq_layer_value *signals, size_t signal_count);

/* Takes back the batch that was submitted last to a queue, if it is held back, as where the sync of one of its points
 * can't be made or reset: its token is `value`. Its points are free, and its signals and waits of binary semaphores
 * undone. VQ_LAYER_NO_QUEUE; VQ_LAYER_EMPTY; VQ_LAYER_USED: of the binary semaphore `number`. */
VQ_LAYER_CALL struct vq_layer_answer vq_layer_take_back(struct vq_layer *layer, uint32_t queue);

/* What the first held-back batch of a queue is blocked by: VQ_LAYER_DONE where it is ready; VQ_LAYER_NO_QUEUE;
 * VQ_LAYER_EMPTY; VQ_LAYER_WAITS for `value` of the timeline `number`; VQ_LAYER_BEHIND: it signals `value` of the
 * timeline `number`, where a smaller one is taken and not pending yet. */
VQ_LAYER_ASK struct vq_layer_answer vq_layer_blocked(const struct vq_layer *layer, uint32_t queue);

/* The ready queue of least number: `number`. VQ_LAYER_NONE_READY. */
VQ_LAYER_ASK struct vq_layer_answer vq_layer_next(const struct vq_layer *layer);

/* Whether the first held-back batch of a queue waits for what nothing that is submitted brings: VQ_LAYER_DONE where it
 * doesn't, or nothing is held back; VQ_LAYER_MISSING: its first wait for a value that is neither past nor pending, and
 * that no held-back batch signals, is for `value` of the timeline `number`. It looks through all held-back batches. */
VQ_LAYER_ASK struct vq_layer_answer vq_layer_stuck(const struct vq_layer *layer, uint32_t queue);

/* Releases the first held-back batch of a queue: its place is `value`. It holds the points that it waits for, which
 * vq_layer_waits reads, and its operations are pending from then on. Hand it to the device after that. What
 * vq_layer_blocked answers, where that isn't VQ_LAYER_DONE. */
VQ_LAYER_ASK struct vq_layer_answer vq_layer_release(struct vq_layer *layer, uint32_t queue);

/* The oldest released batch of a queue is done on the device: its references are given back, and it is gone. Its token
 * is `value`. VQ_LAYER_NOTHING_RELEASED, also where no queue has the number. */
VQ_LAYER_ASK struct vq_layer_answer vq_layer_finish(struct vq_layer *layer, uint32_t queue);

/* A queue's batches that aren't finished, in the order of their submission: how many they are, and how many of them,
 * the first ones, are released: `value`. VQ_LAYER_NO_QUEUE. */
VQ_LAYER_ASK struct vq_layer_answer vq_layer_batches(const struct vq_layer *layer, uint32_t queue);
VQ_LAYER_ASK struct vq_layer_answer vq_layer_released(const struct vq_layer *layer, uint32_t queue);

/* The token of the batch in a place, counted from 0 for the oldest one: `value`. A finish makes each place one less.
 * VQ_LAYER_NO_QUEUE, VQ_LAYER_NO_BATCH. */
VQ_LAYER_ASK struct vq_layer_answer vq_layer_token(const struct vq_layer *layer, uint32_t queue, uint64_t place);

/* What the batch in a place waits for, in the order of its submission, and what it signals, one for each timeline in
 * the order in which they were first named: as many as go into the room, in its front. How many there are is `value`.
 * VQ_LAYER_NO_ROOM: the room is full, and the rest is left out. VQ_LAYER_NO_QUEUE, VQ_LAYER_NO_BATCH. */
VQ_LAYER_CALL struct vq_layer_answer vq_layer_waits(const struct vq_layer *layer, uint32_t queue, uint64_t place,
                                                    struct vq_layer_point *room, size_t size);
VQ_LAYER_CALL struct vq_layer_answer vq_layer_signals(const struct vq_layer *layer, uint32_t queue, uint64_t place,
                                                      struct vq_layer_point *room, size_t size);

/* One timeline, binary semaphore or fence. */

/* The first pending operation, whose sync is asked first: its point is `number`, and its value `value`.
 * VQ_LAYER_NOTHING_PENDING, also where no timeline has the number. */
VQ_LAYER_ASK struct vq_layer_answer vq_layer_first(const struct vq_layer *layer, uint32_t timeline);

/* Completes the first pending operation, which is told as by vq_layer_first: its value is reached, and its point is
 * free unless it is held. VQ_LAYER_NOTHING_PENDING. */
VQ_LAYER_CALL struct vq_layer_answer vq_layer_complete(struct vq_layer *layer, uint32_t timeline);

/* Where a value stands: VQ_LAYER_PAST; VQ_LAYER_PENDING at the first pending operation whose value is at least this
 * one: its point is `number`, and its value `value`; VQ_LAYER_NOT_YET. VQ_LAYER_NO_TIMELINE. */
VQ_LAYER_ASK struct vq_layer_answer vq_layer_find(const struct vq_layer *layer, uint32_t timeline, uint64_t value);

/* Holds a point that carries an operation, for the host, so that it isn't given again before vq_layer_unref.
 * VQ_LAYER_NOT_OUT. VQ_LAYER_FULL: it has 2^31 references. */
VQ_LAYER_CALL struct vq_layer_answer vq_layer_refer(struct vq_layer *layer, uint32_t timeline, uint32_t point);

/* Gives a reference of the host back. VQ_LAYER_NOT_HELD: the host holds no such point. It looks through the released
 * batches, whose references it doesn't take. */
VQ_LAYER_CALL struct vq_layer_answer vq_layer_unref(struct vq_layer *layer, uint32_t timeline, uint32_t point);

/* The host sets the value of a timeline. VQ_LAYER_NO_TIMELINE, also of a binary semaphore. VQ_LAYER_NOT_ABOVE: the
 * timeline reached it, `value` is the payload. VQ_LAYER_OUTSTANDING: the first operation, which is taken or pending,
 * has a value that isn't above it, `value`. */
VQ_LAYER_ASK struct vq_layer_answer vq_layer_signal(struct vq_layer *layer, uint32_t timeline, uint64_t value);

/* The value that a timeline has reached, or how many signals of a binary semaphore: `value`; and the pending value,
 * above which a batch may signal. VQ_LAYER_NO_TIMELINE. */
VQ_LAYER_ASK struct vq_layer_answer vq_layer_value(const struct vq_layer *layer, uint32_t timeline);
VQ_LAYER_ASK struct vq_layer_answer vq_layer_pending_value(const struct vq_layer *layer, uint32_t timeline);

/* The signal of a binary semaphore or a fence that is submitted and not taken: `value` is its number, which
 * vq_layer_find looks for. VQ_LAYER_UNSIGNALED, also of what isn't a binary semaphore. */
VQ_LAYER_ASK struct vq_layer_answer vq_layer_untaken(const struct vq_layer *layer, uint32_t timeline);

/* Resets a fence: the host takes its signal. One that is unsignaled stays so. VQ_LAYER_NO_BINARY. VQ_LAYER_IN_USE: its
 * signal is submitted and not reached. */
VQ_LAYER_CALL struct vq_layer_answer vq_layer_reset(struct vq_layer *layer, uint32_t fence);

/* A list or a room of 0 may be NULL: the library itself wants pointers, so these give it one that nobody reads, and
 * stand for the calls. */
VQ_LAYER_TOLD VQ_LAYER_INLINE struct vq_layer_answer vq_layer_submit_nullable(
    struct vq_layer *layer, uint32_t queue, uint64_t token, const struct vq_layer_value *waits, size_t wait_count,
    const struct vq_layer_value *signals, size_t signal_count)
{
    const struct vq_layer_value unread = {0, 0};
    return vq_layer_submit(layer, queue, token, waits ? waits : &unread, wait_count, signals ? signals : &unread,
                           signal_count);
}

VQ_LAYER_INLINE struct vq_layer_answer vq_layer_waits_nullable(const struct vq_layer *layer, uint32_t queue,
                                                             uint64_t place, struct vq_layer_point *room, size_t size)
{
    struct vq_layer_point unread;
    return vq_layer_waits(layer, queue, place, room ? room : &unread, size);
}

VQ_LAYER_INLINE struct vq_layer_answer vq_layer_signals_nullable(const struct vq_layer *layer, uint32_t queue,
                                                               uint64_t place, struct vq_layer_point *room, size_t size)
{
    struct vq_layer_point unread;
    return vq_layer_signals(layer, queue, place, room ? room : &unread, size);
}

#define vq_layer_submit vq_layer_submit_nullable
#define vq_layer_waits vq_layer_waits_nullable
#define vq_layer_signals vq_layer_signals_nullable

#ifdef __cplusplus
}
#endif

#endif
