/* The live timeline for C: points for the values of one timeline semaphore, as submissions come. docs/LIVE-CALLS.md
 * says what it is, and how a driver uses it.
 *
 * Link with libvq_live_c.a and with an allocator: the kit's liblibc_c.a, or the three functions of vq_alloc.h. A
 * shared object is linked with -Wl,--exclude-libs,ALL, so that it keeps these names to itself.
 *
 * What a caller owes, and nothing checks:
 * - each call is given a timeline as it was last written: zeroed (VQ_LIVE_NONE), opened by vq_live_open, or closed;
 *   two structs don't stand for one timeline;
 * - calls on one timeline that may change it are made one at a time: a mutex is held round each. Timelines are free of
 *   one another;
 * - pointers of one call are valid and not null, but for an output that isn't wanted (below), and what they lead to
 *   doesn't overlap;
 * - no call comes from a signal handler, nor in the child of a fork of a process with threads;
 * - vq_live_complete is told only of a point whose sync is signaled, and a sync is reset between the take of its point
 *   and the submission (with help, under the lock that the take has);
 * - an operation that is passed is one that vq_live_take gave for this timeline, and vq_live_unref gives back a
 *   reference of the caller's own.
 *
 * Words: an operation is *taken* from vq_live_take on, *pending* from vq_live_install on, and done with
 * vq_live_complete or vq_live_cancel. The *pending value* is the value of the last pending operation, and where none
 * is pending, the payload, which is the value that the timeline has reached.
 *
 * A call that isn't answered with VQ_LIVE_DONE, VQ_LIVE_PENDING included, changes nothing. An output is written only
 * where the call says so, and else not touched. No call waits, starts a thread or ends the process, and only
 * vq_live_open and vq_live_take want memory. The calls whose timeline is `const` write nothing but their output. */
#ifndef VQ_LIVE_H
#define VQ_LIVE_H

#include <stdint.h>

#ifdef __cplusplus
extern "C" {
#endif

/* The version of this header; vq_live_version has that of the library. */
#define VQ_LIVE_VERSION 1

/* For compilers that know these: no pointer is null, and the answer isn't dropped. */
#if defined(__GNUC__)
#define VQ_LIVE_CALL __attribute__((nonnull))
#define VQ_LIVE_ASK __attribute__((nonnull, warn_unused_result))
#define VQ_LIVE_TOLD __attribute__((warn_unused_result))
#else
#define VQ_LIVE_CALL
#define VQ_LIVE_ASK
#define VQ_LIVE_TOLD
#endif

/* A function of this header itself, also for C before 1999. */
#if defined(__cplusplus) || (defined(__STDC_VERSION__) && __STDC_VERSION__ >= 199901L)
#define VQ_LIVE_INLINE static inline
#elif defined(__GNUC__)
#define VQ_LIVE_INLINE static __inline__
#else
#define VQ_LIVE_INLINE static
#endif

/* The codes: made of live_codes.txt. */
enum vq_live_code {
    VQ_LIVE_DONE = 0,             /* the call did what it says */
    VQ_LIVE_NO_MEMORY = 1,        /* there was no memory: nothing was changed */
    VQ_LIVE_NO_HANDLE = 2,        /* no timeline is open at the handle: it was never opened, or is closed */
    VQ_LIVE_NOT_ABOVE = 16,       /* the value isn't above the pending one, or for a signal, the payload */
    VQ_LIVE_TWICE = 17,           /* a point is taken for this value already */
    VQ_LIVE_FULL = 18,            /* no number is left: of points, or of references to this one */
    VQ_LIVE_ALREADY = 24,         /* the value isn't above the pending one */
    VQ_LIVE_NOTHING_TAKEN = 25,   /* nothing is taken */
    VQ_LIVE_NOT_NEXT = 26,        /* another operation is next to be installed */
    VQ_LIVE_NOT_TAKEN = 27,       /* the point isn't taken for this value */
    VQ_LIVE_PAST = 32,            /* the value is reached */
    VQ_LIVE_PENDING = 33,         /* a pending operation reaches the value */
    VQ_LIVE_NOT_YET = 34,         /* no pending operation reaches the value yet */
    VQ_LIVE_NOT_OUT = 40,         /* the point carries no operation */
    VQ_LIVE_NOT_HELD = 41,        /* nobody holds the point */
    VQ_LIVE_NOTHING_PENDING = 42, /* nothing is pending */
    VQ_LIVE_OUTSTANDING = 43      /* an operation is taken or pending whose value isn't above this one */
};

/* What a number of enum vq_live_code says. */
VQ_LIVE_INLINE const char *vq_live_words(enum vq_live_code code)
{
    switch (code) {
    case VQ_LIVE_DONE:
        return "the call did what it says";
    case VQ_LIVE_NO_MEMORY:
        return "there was no memory: nothing was changed";
    case VQ_LIVE_NO_HANDLE:
        return "no timeline is open at the handle: it was never opened, or is closed";
    case VQ_LIVE_NOT_ABOVE:
        return "the value isn't above the pending one, or for a signal, the payload";
    case VQ_LIVE_TWICE:
        return "a point is taken for this value already";
    case VQ_LIVE_FULL:
        return "no number is left: of points, or of references to this one";
    case VQ_LIVE_ALREADY:
        return "the value isn't above the pending one";
    case VQ_LIVE_NOTHING_TAKEN:
        return "nothing is taken";
    case VQ_LIVE_NOT_NEXT:
        return "another operation is next to be installed";
    case VQ_LIVE_NOT_TAKEN:
        return "the point isn't taken for this value";
    case VQ_LIVE_PAST:
        return "the value is reached";
    case VQ_LIVE_PENDING:
        return "a pending operation reaches the value";
    case VQ_LIVE_NOT_YET:
        return "no pending operation reaches the value yet";
    case VQ_LIVE_NOT_OUT:
        return "the point carries no operation";
    case VQ_LIVE_NOT_HELD:
        return "nobody holds the point";
    case VQ_LIVE_NOTHING_PENDING:
        return "nothing is pending";
    case VQ_LIVE_OUTSTANDING:
        return "an operation is taken or pending whose value isn't above this one";
    }
    return "no such code";
}
/* The end of the codes. */

/* A timeline. Zeroed, it is none: each call answers VQ_LIVE_NO_HANDLE, and vq_live_close does nothing. */
struct vq_live {
    void *at;
};
#define VQ_LIVE_NONE {0}

/* An operation: a value, and the point that was given for it, which is the number of a binary sync of the caller's. */
struct vq_live_given {
    uint64_t value;
    uint32_t point;
};
/* The point of no operation. */
#define VQ_LIVE_NO_POINT UINT32_MAX

/* The version of the library. */
uint32_t vq_live_version(void);

/* Opens a timeline that has reached a value, with no points, at `*timeline`; or VQ_LIVE_NO_MEMORY, and it stays. What
 * was there isn't looked at, nor closed. */
VQ_LIVE_ASK enum vq_live_code vq_live_open(uint64_t initial, struct vq_live *timeline);

/* Ends a timeline, whatever is taken, pending or held, frees its memory, and zeroes the struct. Of a zeroed struct it
 * does nothing. */
VQ_LIVE_CALL void vq_live_close(struct vq_live *timeline);

/* Gives a point to an operation with this value: `*given`. The point is the free one that was freed last, or a fresh
 * one, numbered from 0 up. Takes needn't rise. VQ_LIVE_NOT_ABOVE: `given->value` is the pending value, and
 * `given->point` VQ_LIVE_NO_POINT. VQ_LIVE_TWICE, VQ_LIVE_FULL, VQ_LIVE_NO_MEMORY. */
VQ_LIVE_ASK enum vq_live_code vq_live_take(struct vq_live *timeline, uint64_t value, struct vq_live_given *given);

/* Makes the taken operation pending: its submission is made. VQ_LIVE_ALREADY: its value isn't above the pending value,
 * which says nothing else; of an operation that vq_live_take gave and nobody cancelled, it was installed before,
 * perhaps by a reader that helped, and that is no error. It comes before the next two. VQ_LIVE_NOTHING_TAKEN.
 * VQ_LIVE_NOT_NEXT: another one is to be installed first, `*next`. */
VQ_LIVE_ASK enum vq_live_code vq_live_install(struct vq_live *timeline, const struct vq_live_given *given,
                                              struct vq_live_given *next);

/* Takes back an operation that is taken and not installed: its submission failed, or the reset of its sync. Its point
 * is free unless it is held. VQ_LIVE_ALREADY: its value isn't above the pending value; this comes first.
 * VQ_LIVE_NOT_TAKEN. */
VQ_LIVE_CALL enum vq_live_code vq_live_cancel(struct vq_live *timeline, const struct vq_live_given *given);

/* Completes the first pending operation, `*given`: its value is reached, and its point is free unless it is held.
 * VQ_LIVE_NOTHING_PENDING. */
VQ_LIVE_CALL enum vq_live_code vq_live_complete(struct vq_live *timeline, struct vq_live_given *given);

/* Where a value stands: VQ_LIVE_PAST; VQ_LIVE_PENDING at the first pending operation whose value is at least this one,
 * `*given`; VQ_LIVE_NOT_YET. */
VQ_LIVE_ASK enum vq_live_code vq_live_find(const struct vq_live *timeline, uint64_t value,
                                           struct vq_live_given *given);

/* Holds a point that carries an operation, so that it isn't given again before vq_live_unref. VQ_LIVE_NOT_OUT,
 * VQ_LIVE_FULL. */
VQ_LIVE_CALL enum vq_live_code vq_live_refer(struct vq_live *timeline, uint32_t point);

/* Gives a reference back. VQ_LIVE_NOT_HELD: nobody holds the point. */
VQ_LIVE_CALL enum vq_live_code vq_live_unref(struct vq_live *timeline, uint32_t point);

/* The host sets a value. VQ_LIVE_NOT_ABOVE: the timeline reached it, `*known` is the payload. VQ_LIVE_OUTSTANDING:
 * the first operation, which is taken or pending, has a value that isn't above it, `*known`. */
VQ_LIVE_ASK enum vq_live_code vq_live_signal(struct vq_live *timeline, uint64_t value, uint64_t *known);

/* The value that the timeline has reached; 0 where none is open. */
VQ_LIVE_CALL uint64_t vq_live_value(const struct vq_live *timeline);

/* The first pending operation, whose sync is asked first. VQ_LIVE_NOTHING_PENDING. */
VQ_LIVE_ASK enum vq_live_code vq_live_first(const struct vq_live *timeline, struct vq_live_given *given);

/* The taken operation of least value, the next to be installed. VQ_LIVE_NOTHING_TAKEN. */
VQ_LIVE_ASK enum vq_live_code vq_live_least_taken(const struct vq_live *timeline, struct vq_live_given *given);

/* An output that isn't wanted is NULL: the library itself wants each output, so these give it one that nobody reads,
 * and stand for the calls. */
VQ_LIVE_TOLD VQ_LIVE_INLINE enum vq_live_code vq_live_take_nullable(struct vq_live *timeline, uint64_t value,
                                                                   struct vq_live_given *given)
{
    struct vq_live_given unread;
    return vq_live_take(timeline, value, given ? given : &unread);
}

VQ_LIVE_TOLD VQ_LIVE_INLINE enum vq_live_code vq_live_install_nullable(struct vq_live *timeline,
                                                                      const struct vq_live_given *given,
                                                                      struct vq_live_given *next)
{
    struct vq_live_given unread;
    return vq_live_install(timeline, given, next ? next : &unread);
}

VQ_LIVE_INLINE enum vq_live_code vq_live_complete_nullable(struct vq_live *timeline, struct vq_live_given *given)
{
    struct vq_live_given unread;
    return vq_live_complete(timeline, given ? given : &unread);
}

VQ_LIVE_TOLD VQ_LIVE_INLINE enum vq_live_code vq_live_find_nullable(const struct vq_live *timeline, uint64_t value,
                                                                   struct vq_live_given *given)
{
    struct vq_live_given unread;
    return vq_live_find(timeline, value, given ? given : &unread);
}

VQ_LIVE_TOLD VQ_LIVE_INLINE enum vq_live_code vq_live_signal_nullable(struct vq_live *timeline, uint64_t value,
                                                                     uint64_t *known)
{
    uint64_t unread;
    return vq_live_signal(timeline, value, known ? known : &unread);
}

VQ_LIVE_TOLD VQ_LIVE_INLINE enum vq_live_code vq_live_first_nullable(const struct vq_live *timeline,
                                                                    struct vq_live_given *given)
{
    struct vq_live_given unread;
    return vq_live_first(timeline, given ? given : &unread);
}

VQ_LIVE_TOLD VQ_LIVE_INLINE enum vq_live_code vq_live_least_taken_nullable(const struct vq_live *timeline,
                                                                          struct vq_live_given *given)
{
    struct vq_live_given unread;
    return vq_live_least_taken(timeline, given ? given : &unread);
}

#define vq_live_take vq_live_take_nullable
#define vq_live_install vq_live_install_nullable
#define vq_live_complete vq_live_complete_nullable
#define vq_live_find vq_live_find_nullable
#define vq_live_signal vq_live_signal_nullable
#define vq_live_first vq_live_first_nullable
#define vq_live_least_taken vq_live_least_taken_nullable

#ifdef __cplusplus
}
#endif

#endif
