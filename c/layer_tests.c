/* Tests the live layer for C: each call and each code once, with what vq_layer.h says, and refused memory. Stops with a
 * line and status 1 where something is not as it should be.
 *
 * tests full: besides, that a reference is refused from 2^31 on. It takes about a minute.
 */
#define _DEFAULT_SOURCE /* MAP_NORESERVE */
#include <inttypes.h>
#include <stdio.h>
#include <stdlib.h>
#include <string.h>
#include <sys/mman.h>

#include "testing.h"
#include "vq_layer.h"

#define SAYS(answer, code, number, value) says(__FILE__, __LINE__, (answer), (code), (number), (value))
#define DOES(answer) says(__FILE__, __LINE__, (answer), VQ_LAYER_DONE, 0, 0)
#define POINT(got, timeline, point, value) is_point(__FILE__, __LINE__, (got), (timeline), (point), (value))

static void says(const char *file, int line, struct vq_layer_answer got, enum vq_layer_code code, uint32_t number,
                 uint64_t value)
{
    is(file, line, got.code, code);
    is(file, line, got.number, number);
    is(file, line, got.value, value);
}

static void is_point(const char *file, int line, struct vq_layer_point got, uint32_t timeline, uint32_t point,
                     uint64_t value)
{
    is(file, line, got.timeline, timeline);
    is(file, line, got.point, point);
    is(file, line, got.value, value);
}

/* A batch that waits for at most one value and signals at most one; timeline NONE is none. */
enum { NONE = 99 };

static struct vq_layer_answer submit(struct vq_layer *layer, uint32_t queue, uint64_t token, uint32_t waits_for,
                                     uint64_t wanted, uint32_t signals, uint64_t value)
{
    struct vq_layer_value wait = {waits_for, wanted}, signal = {signals, value};
    return vq_layer_submit(layer, queue, token, &wait, waits_for != NONE, &signal, signals != NONE);
}

/* A layer with two timelines, 0 that has reached 10 and 1 at 0, and two queues. */
static struct vq_layer opened(void)
{
    struct vq_layer layer = VQ_LAYER_NONE;
    IS(vq_layer_open(&layer), VQ_LAYER_DONE);
    SAYS(vq_layer_open_timeline(&layer, 10), VQ_LAYER_DONE, 0, 0);
    SAYS(vq_layer_open_timeline(&layer, 0), VQ_LAYER_DONE, 1, 0);
    SAYS(vq_layer_open_queue(&layer), VQ_LAYER_DONE, 0, 0);
    SAYS(vq_layer_open_queue(&layer), VQ_LAYER_DONE, 1, 0);
    return layer;
}

/* A batch of queue 0 waits for what one of queue 1 signals: held back, released behind it with its point, finished. */
static void a_batch_waits_for_another(void)
{
    struct vq_layer l = opened();
    struct vq_layer_point room[2];
    SAYS(submit(&l, 0, 70, 0, 12, 1, 1), VQ_LAYER_DONE, 0, 0);
    SAYS(vq_layer_signals(&l, 0, 0, room, 2), VQ_LAYER_DONE, 0, 1);
    POINT(room[0], 1, 0, 1);
    SAYS(vq_layer_waits(&l, 0, 0, room, 2), VQ_LAYER_DONE, 0, 1);
    POINT(room[0], 0, VQ_LAYER_NO_POINT, 12);
    SAYS(vq_layer_blocked(&l, 0), VQ_LAYER_WAITS, 0, 12);
    SAYS(vq_layer_stuck(&l, 0), VQ_LAYER_MISSING, 0, 12);
    SAYS(vq_layer_release(&l, 0), VQ_LAYER_WAITS, 0, 12);
    SAYS(vq_layer_next(&l), VQ_LAYER_NONE_READY, 0, 0);
    SAYS(submit(&l, 1, 71, NONE, 0, 0, 15), VQ_LAYER_DONE, 0, 0);
    DOES(vq_layer_stuck(&l, 0));
    SAYS(vq_layer_blocked(&l, 0), VQ_LAYER_WAITS, 0, 12);
    SAYS(vq_layer_find(&l, 0, 12), VQ_LAYER_NOT_YET, 0, 0);
    DOES(vq_layer_blocked(&l, 1));
    SAYS(vq_layer_next(&l), VQ_LAYER_DONE, 1, 0);
    SAYS(vq_layer_pending_value(&l, 0), VQ_LAYER_DONE, 0, 10);
    DOES(vq_layer_release(&l, 1));
    SAYS(vq_layer_pending_value(&l, 0), VQ_LAYER_DONE, 0, 15);
    SAYS(vq_layer_value(&l, 0), VQ_LAYER_DONE, 0, 10);
    SAYS(vq_layer_find(&l, 0, 12), VQ_LAYER_PENDING, 0, 15);
    SAYS(vq_layer_find(&l, 0, 10), VQ_LAYER_PAST, 0, 0);
    SAYS(vq_layer_next(&l), VQ_LAYER_DONE, 0, 0);
    SAYS(vq_layer_release(&l, 0), VQ_LAYER_DONE, 0, 0);
    SAYS(vq_layer_waits(&l, 0, 0, room, 2), VQ_LAYER_DONE, 0, 1);
    POINT(room[0], 0, 0, 12);
    SAYS(vq_layer_token(&l, 0, 0), VQ_LAYER_DONE, 0, 70);
    SAYS(vq_layer_first(&l, 0), VQ_LAYER_DONE, 0, 15);
    SAYS(vq_layer_complete(&l, 0), VQ_LAYER_DONE, 0, 15);
    SAYS(vq_layer_value(&l, 0), VQ_LAYER_DONE, 0, 15);
    /* the batch of queue 0 holds point 0, so the next operation has another */
    SAYS(submit(&l, 1, 72, NONE, 0, 0, 16), VQ_LAYER_DONE, 0, 1);
    SAYS(vq_layer_signals(&l, 1, 1, room, 2), VQ_LAYER_DONE, 0, 1);
    POINT(room[0], 0, 1, 16);
    SAYS(vq_layer_finish(&l, 0), VQ_LAYER_DONE, 0, 70);
    SAYS(submit(&l, 1, 73, NONE, 0, 0, 17), VQ_LAYER_DONE, 0, 2);
    SAYS(vq_layer_signals(&l, 1, 2, room, 2), VQ_LAYER_DONE, 0, 1);
    POINT(room[0], 0, 0, 17);
    SAYS(vq_layer_finish(&l, 0), VQ_LAYER_NOTHING_RELEASED, 0, 0);
    SAYS(vq_layer_finish(&l, 9), VQ_LAYER_NOTHING_RELEASED, 0, 0);
    SAYS(vq_layer_first(&l, 0), VQ_LAYER_NOTHING_PENDING, 0, 0);
    SAYS(vq_layer_complete(&l, 0), VQ_LAYER_NOTHING_PENDING, 0, 0);
    vq_layer_close(&l);
}

/* What a queue says of its batches, and a room that is too small. */
static void batches_are_read(void)
{
    struct vq_layer l = opened();
    struct vq_layer_value waits[3] = {{0, 3}, {0, 10}, {1, 0}}, signals[3] = {{1, 5}, {0, 11}, {1, 4}};
    struct vq_layer_point room[3] = {{7, 7, 7}, {7, 7, 7}, {7, 7, 7}};
    SAYS(vq_layer_batches(&l, 1), VQ_LAYER_DONE, 0, 0);
    SAYS(vq_layer_submit(&l, 1, 5, waits, 3, signals, 3), VQ_LAYER_DONE, 0, 0);
    SAYS(vq_layer_submit(&l, 1, 6, NULL, 0, NULL, 0), VQ_LAYER_DONE, 0, 1);
    SAYS(vq_layer_batches(&l, 1), VQ_LAYER_DONE, 0, 2);
    SAYS(vq_layer_released(&l, 1), VQ_LAYER_DONE, 0, 0);
    SAYS(vq_layer_release(&l, 1), VQ_LAYER_DONE, 0, 0);
    SAYS(vq_layer_release(&l, 1), VQ_LAYER_DONE, 0, 1);
    SAYS(vq_layer_release(&l, 1), VQ_LAYER_EMPTY, 0, 0);
    SAYS(vq_layer_released(&l, 1), VQ_LAYER_DONE, 0, 2);
    SAYS(vq_layer_token(&l, 1, 1), VQ_LAYER_DONE, 0, 6);
    SAYS(vq_layer_waits(&l, 1, 0, room, 1), VQ_LAYER_NO_ROOM, 0, 3);
    POINT(room[0], 0, VQ_LAYER_NO_POINT, 3);
    POINT(room[1], 7, 7, 7);
    SAYS(vq_layer_waits(&l, 1, 0, room, 3), VQ_LAYER_DONE, 0, 3);
    POINT(room[2], 1, VQ_LAYER_NO_POINT, 0);
    /* one for each timeline, the greater of two values */
    SAYS(vq_layer_signals(&l, 1, 0, room, 3), VQ_LAYER_DONE, 0, 2);
    POINT(room[0], 1, 0, 5);
    POINT(room[1], 0, 0, 11);
    POINT(room[2], 1, VQ_LAYER_NO_POINT, 0);
    SAYS(vq_layer_signals(&l, 1, 0, NULL, 0), VQ_LAYER_NO_ROOM, 0, 2);
    SAYS(vq_layer_waits(&l, 1, 1, NULL, 0), VQ_LAYER_DONE, 0, 0);
    SAYS(vq_layer_signals(&l, 1, 1, NULL, 0), VQ_LAYER_DONE, 0, 0);
    SAYS(vq_layer_find(&l, 1, 4), VQ_LAYER_PENDING, 0, 5);
    /* no such queue, no such batch */
    SAYS(vq_layer_batches(&l, 2), VQ_LAYER_NO_QUEUE, 0, 0);
    SAYS(vq_layer_released(&l, 2), VQ_LAYER_NO_QUEUE, 0, 0);
    SAYS(vq_layer_token(&l, 2, 0), VQ_LAYER_NO_QUEUE, 0, 0);
    SAYS(vq_layer_token(&l, 1, 2), VQ_LAYER_NO_BATCH, 0, 0);
    SAYS(vq_layer_token(&l, 1, UINT64_MAX), VQ_LAYER_NO_BATCH, 0, 0);
    SAYS(vq_layer_waits(&l, 2, 0, room, 3), VQ_LAYER_NO_QUEUE, 0, 0);
    SAYS(vq_layer_waits(&l, 1, 2, room, 3), VQ_LAYER_NO_BATCH, 0, 0);
    SAYS(vq_layer_signals(&l, 2, 0, room, 3), VQ_LAYER_NO_QUEUE, 0, 0);
    SAYS(vq_layer_signals(&l, 1, 2, room, 3), VQ_LAYER_NO_BATCH, 0, 0);
    vq_layer_close(&l);
}

/* Each refused submit, and what is behind a taken value. */
static void submits_are_refused(void)
{
    struct vq_layer l = opened();
    SAYS(submit(&l, 2, 0, NONE, 0, 0, 11), VQ_LAYER_NO_QUEUE, 0, 0);
    SAYS(submit(&l, 0, 0, 5, 0, 0, 11), VQ_LAYER_NO_TIMELINE, 5, 0);
    SAYS(submit(&l, 0, 0, 0, 0, 6, 11), VQ_LAYER_NO_TIMELINE, 6, 0);
    SAYS(submit(&l, 0, 0, NONE, 0, 0, 10), VQ_LAYER_NOT_ABOVE, 0, 10);
    SAYS(submit(&l, 0, 1, NONE, 0, 0, 20), VQ_LAYER_DONE, 0, 0);
    SAYS(submit(&l, 1, 0, NONE, 0, 0, 20), VQ_LAYER_TWICE, 0, 0);
    SAYS(submit(&l, 1, 2, NONE, 0, 0, 15), VQ_LAYER_DONE, 0, 0);
    /* the smaller value goes first */
    SAYS(vq_layer_blocked(&l, 0), VQ_LAYER_BEHIND, 0, 20);
    SAYS(vq_layer_release(&l, 0), VQ_LAYER_BEHIND, 0, 20);
    DOES(vq_layer_release(&l, 1));
    DOES(vq_layer_release(&l, 0));
    SAYS(submit(&l, 1, 0, NONE, 0, 0, 20), VQ_LAYER_NOT_ABOVE, 0, 20);
    SAYS(vq_layer_blocked(&l, 0), VQ_LAYER_EMPTY, 0, 0);
    SAYS(vq_layer_blocked(&l, 2), VQ_LAYER_NO_QUEUE, 0, 0);
    SAYS(vq_layer_release(&l, 2), VQ_LAYER_NO_QUEUE, 0, 0);
    DOES(vq_layer_stuck(&l, 2));
    /* a room for 2^31 waits, of which none is looked at */
    size_t most = (size_t)1 << 31;
    void *waits = mmap(NULL, most * sizeof(struct vq_layer_value), PROT_READ,
                       MAP_PRIVATE | MAP_ANONYMOUS | MAP_NORESERVE, -1, 0);
    if (waits != MAP_FAILED) {
        SAYS(vq_layer_submit(&l, 0, 0, waits, most, NULL, 0), VQ_LAYER_TOO_MANY_WAITS, 0, 0);
        munmap(waits, most * sizeof(struct vq_layer_value));
    }
    vq_layer_close(&l);
}

static void batches_are_taken_back(void)
{
    struct vq_layer l = opened();
    struct vq_layer_value both[2] = {{2, 0}, {0, 11}};
    struct vq_layer_point room[2];
    SAYS(vq_layer_open_binary(&l, false), VQ_LAYER_DONE, 2, 0);
    SAYS(vq_layer_take_back(&l, 2), VQ_LAYER_NO_QUEUE, 0, 0);
    SAYS(vq_layer_take_back(&l, 0), VQ_LAYER_EMPTY, 0, 0);
    SAYS(vq_layer_submit(&l, 0, 31, NULL, 0, both, 2), VQ_LAYER_DONE, 0, 0);
    SAYS(vq_layer_untaken(&l, 2), VQ_LAYER_DONE, 0, 1);
    SAYS(vq_layer_take_back(&l, 0), VQ_LAYER_DONE, 0, 31);
    SAYS(vq_layer_untaken(&l, 2), VQ_LAYER_UNSIGNALED, 0, 0);
    SAYS(vq_layer_submit(&l, 0, 32, NULL, 0, both, 2), VQ_LAYER_DONE, 0, 0);
    SAYS(vq_layer_signals(&l, 0, 0, room, 2), VQ_LAYER_DONE, 0, 2);
    POINT(room[0], 2, 0, 1);
    POINT(room[1], 0, 0, 11);
    SAYS(submit(&l, 1, 33, 2, 0, NONE, 0), VQ_LAYER_DONE, 0, 0);
    SAYS(vq_layer_take_back(&l, 0), VQ_LAYER_USED, 2, 0);
    SAYS(vq_layer_take_back(&l, 1), VQ_LAYER_DONE, 0, 33);
    SAYS(vq_layer_take_back(&l, 0), VQ_LAYER_DONE, 0, 32);
    SAYS(submit(&l, 0, 34, NONE, 0, 0, 11), VQ_LAYER_DONE, 0, 0);
    DOES(vq_layer_release(&l, 0));
    SAYS(vq_layer_take_back(&l, 0), VQ_LAYER_EMPTY, 0, 0);
    vq_layer_close(&l);
}

/* A binary semaphore between two queues, and a fence that the host resets. */
static void binary_semaphores_and_fences(void)
{
    struct vq_layer l = opened();
    struct vq_layer_point room[1];
    struct vq_layer_value twice[2] = {{2, 0}, {2, 0}};
    SAYS(vq_layer_open_binary(&l, false), VQ_LAYER_DONE, 2, 0);
    SAYS(vq_layer_open_binary(&l, true), VQ_LAYER_DONE, 3, 0);
    SAYS(submit(&l, 0, 0, 2, 0, NONE, 0), VQ_LAYER_UNSIGNALED, 2, 0);
    SAYS(submit(&l, 0, 0, NONE, 0, 3, 0), VQ_LAYER_SIGNALED, 3, 0);
    SAYS(vq_layer_submit(&l, 0, 0, NULL, 0, twice, 2), VQ_LAYER_REPEATED, 2, 0);
    SAYS(submit(&l, 0, 1, NONE, 0, 2, 77), VQ_LAYER_DONE, 0, 0);
    SAYS(submit(&l, 0, 0, NONE, 0, 2, 0), VQ_LAYER_SIGNALED, 2, 0);
    SAYS(vq_layer_submit(&l, 0, 0, twice, 2, NULL, 0), VQ_LAYER_REPEATED, 2, 0);
    SAYS(submit(&l, 1, 2, 2, 0, NONE, 0), VQ_LAYER_DONE, 0, 0);
    SAYS(vq_layer_blocked(&l, 1), VQ_LAYER_WAITS, 2, 1);
    DOES(vq_layer_release(&l, 0));
    DOES(vq_layer_release(&l, 1));
    SAYS(vq_layer_waits(&l, 1, 0, room, 1), VQ_LAYER_DONE, 0, 1);
    POINT(room[0], 2, 0, 1);
    SAYS(vq_layer_signal(&l, 2, 5), VQ_LAYER_NO_TIMELINE, 0, 0);
    /* 3 as a fence */
    SAYS(vq_layer_value(&l, 3), VQ_LAYER_DONE, 0, 1);
    SAYS(vq_layer_untaken(&l, 3), VQ_LAYER_DONE, 0, 1);
    SAYS(vq_layer_find(&l, 3, 1), VQ_LAYER_PAST, 0, 0);
    DOES(vq_layer_reset(&l, 3));
    DOES(vq_layer_reset(&l, 3));
    SAYS(vq_layer_untaken(&l, 3), VQ_LAYER_UNSIGNALED, 0, 0);
    SAYS(submit(&l, 0, 3, NONE, 0, 3, 0), VQ_LAYER_DONE, 0, 1);
    SAYS(vq_layer_release(&l, 0), VQ_LAYER_DONE, 0, 1);
    SAYS(vq_layer_reset(&l, 3), VQ_LAYER_IN_USE, 0, 0);
    SAYS(vq_layer_find(&l, 3, 2), VQ_LAYER_PENDING, 0, 2);
    SAYS(vq_layer_complete(&l, 3), VQ_LAYER_DONE, 0, 2);
    DOES(vq_layer_reset(&l, 3));
    SAYS(vq_layer_reset(&l, 0), VQ_LAYER_NO_BINARY, 0, 0);
    SAYS(vq_layer_untaken(&l, 0), VQ_LAYER_UNSIGNALED, 0, 0);
    vq_layer_close(&l);
}

/* The host's references and values, and when a timeline may be closed. */
static void the_host(void)
{
    struct vq_layer l = opened();
    SAYS(vq_layer_refer(&l, 0, 0), VQ_LAYER_NOT_OUT, 0, 0);
    SAYS(vq_layer_refer(&l, 9, 0), VQ_LAYER_NOT_OUT, 0, 0);
    SAYS(submit(&l, 0, 1, NONE, 0, 0, 20), VQ_LAYER_DONE, 0, 0);
    SAYS(vq_layer_signal(&l, 0, 20), VQ_LAYER_OUTSTANDING, 0, 20);
    SAYS(vq_layer_signal(&l, 0, 10), VQ_LAYER_NOT_ABOVE, 0, 10);
    SAYS(vq_layer_signal(&l, 9, 10), VQ_LAYER_NO_TIMELINE, 0, 0);
    DOES(vq_layer_signal(&l, 0, 12));
    SAYS(vq_layer_value(&l, 0), VQ_LAYER_DONE, 0, 12);
    SAYS(vq_layer_value(&l, 9), VQ_LAYER_NO_TIMELINE, 0, 0);
    SAYS(vq_layer_pending_value(&l, 9), VQ_LAYER_NO_TIMELINE, 0, 0);
    SAYS(vq_layer_find(&l, 9, 0), VQ_LAYER_NO_TIMELINE, 0, 0);
    SAYS(vq_layer_first(&l, 9), VQ_LAYER_NOTHING_PENDING, 0, 0);
    DOES(vq_layer_release(&l, 0));
    SAYS(submit(&l, 1, 2, 0, 20, NONE, 0), VQ_LAYER_DONE, 0, 0);
    DOES(vq_layer_release(&l, 1));
    /* the reference of the batch isn't the host's */
    SAYS(vq_layer_unref(&l, 0, 0), VQ_LAYER_NOT_HELD, 0, 0);
    DOES(vq_layer_refer(&l, 0, 0));
    SAYS(vq_layer_complete(&l, 0), VQ_LAYER_DONE, 0, 20);
    SAYS(vq_layer_close_timeline(&l, 0), VQ_LAYER_NAMED, 0, 0);
    SAYS(vq_layer_finish(&l, 0), VQ_LAYER_DONE, 0, 1);
    SAYS(vq_layer_close_timeline(&l, 0), VQ_LAYER_NAMED, 1, 0);
    SAYS(vq_layer_finish(&l, 1), VQ_LAYER_DONE, 0, 2);
    SAYS(vq_layer_close_timeline(&l, 0), VQ_LAYER_HELD, 0, 0);
    DOES(vq_layer_unref(&l, 0, 0));
    SAYS(vq_layer_unref(&l, 0, 0), VQ_LAYER_NOT_HELD, 0, 0);
    DOES(vq_layer_close_timeline(&l, 0));
    SAYS(vq_layer_close_timeline(&l, 0), VQ_LAYER_NO_TIMELINE, 0, 0);
    SAYS(vq_layer_close_timeline(&l, 9), VQ_LAYER_NO_TIMELINE, 0, 0);
    SAYS(vq_layer_find(&l, 0, 0), VQ_LAYER_NO_TIMELINE, 0, 0);
    SAYS(submit(&l, 0, 1, NONE, 0, 0, 20), VQ_LAYER_NO_TIMELINE, 0, 0);
    SAYS(vq_layer_open_binary(&l, true), VQ_LAYER_DONE, 0, 0);
    SAYS(vq_layer_untaken(&l, 0), VQ_LAYER_DONE, 0, 1);
    vq_layer_close(&l);
}

static void two_layers(void)
{
    struct vq_layer one = opened(), other = opened();
    SAYS(submit(&one, 0, 1, NONE, 0, 0, 20), VQ_LAYER_DONE, 0, 0);
    SAYS(vq_layer_next(&other), VQ_LAYER_NONE_READY, 0, 0);
    vq_layer_close(&one);
    SAYS(submit(&other, 0, 1, NONE, 0, 0, 20), VQ_LAYER_DONE, 0, 0);
    vq_layer_close(&other);
}

/* Of a struct that holds no layer each call says so, and leaves its room; and it is closed again and again. */
static void none_is_open(struct vq_layer *l)
{
    const struct vq_layer_point untouched = {7, 8, 9};
    struct vq_layer_point room = untouched;
    struct vq_layer_value value = {0, 11};
    const struct vq_layer_answer answers[] = {
        vq_layer_open_timeline(l, 0), vq_layer_open_binary(l, true), vq_layer_open_queue(l),
        vq_layer_close_timeline(l, 0), vq_layer_submit(l, 0, 0, &value, 1, &value, 1), vq_layer_take_back(l, 0),
        vq_layer_blocked(l, 0), vq_layer_next(l), vq_layer_stuck(l, 0), vq_layer_release(l, 0), vq_layer_finish(l, 0),
        vq_layer_batches(l, 0), vq_layer_released(l, 0), vq_layer_token(l, 0, 0), vq_layer_waits(l, 0, 0, &room, 1),
        vq_layer_signals(l, 0, 0, &room, 1), vq_layer_first(l, 0), vq_layer_complete(l, 0), vq_layer_find(l, 0, 0),
        vq_layer_refer(l, 0, 0), vq_layer_unref(l, 0, 0), vq_layer_signal(l, 0, 1), vq_layer_value(l, 0),
        vq_layer_pending_value(l, 0), vq_layer_untaken(l, 0), vq_layer_reset(l, 0),
    };
    for (size_t i = 0; i < sizeof answers / sizeof *answers; i++)
        SAYS(answers[i], VQ_LAYER_NO_HANDLE, 0, 0);
    IS(memcmp(&room, &untouched, sizeof room), 0);
    vq_layer_close(l);
    IS(l->at == NULL, 1);
}

static void never_opened_and_closed(void)
{
    struct vq_layer layer = VQ_LAYER_NONE;
    none_is_open(&layer);
    for (int times = 0; times < 2; times++) {
        layer = opened();
        SAYS(submit(&layer, 0, 1, NONE, 0, 0, 20), VQ_LAYER_DONE, 0, 0);
        DOES(vq_layer_release(&layer, 0));
        vq_layer_close(&layer);
        none_is_open(&layer);
    }
}

/* The calls that ask write nothing but their room: they are answered from a page that can't be written. */
static void questions_write_nothing(void)
{
    enum { PAGE = 4096 };
    struct vq_layer *l = aligned_alloc(PAGE, PAGE);
    struct vq_layer_point room[1];
    IS(l != NULL, 1);
    *l = opened();
    SAYS(vq_layer_open_binary(l, true), VQ_LAYER_DONE, 2, 0);
    SAYS(submit(l, 0, 4, 0, 10, 1, 1), VQ_LAYER_DONE, 0, 0);
    SAYS(submit(l, 0, 5, 0, 11, 1, 2), VQ_LAYER_DONE, 0, 1);
    DOES(vq_layer_release(l, 0));
    IS(mprotect(l, PAGE, PROT_READ), 0);
    SAYS(vq_layer_blocked(l, 0), VQ_LAYER_WAITS, 0, 11);
    SAYS(vq_layer_next(l), VQ_LAYER_NONE_READY, 0, 0);
    SAYS(vq_layer_stuck(l, 0), VQ_LAYER_MISSING, 0, 11);
    SAYS(vq_layer_batches(l, 0), VQ_LAYER_DONE, 0, 2);
    SAYS(vq_layer_released(l, 0), VQ_LAYER_DONE, 0, 1);
    SAYS(vq_layer_token(l, 0, 1), VQ_LAYER_DONE, 0, 5);
    SAYS(vq_layer_waits(l, 0, 0, room, 1), VQ_LAYER_DONE, 0, 1);
    SAYS(vq_layer_signals(l, 0, 0, room, 1), VQ_LAYER_DONE, 0, 1);
    SAYS(vq_layer_first(l, 1), VQ_LAYER_DONE, 0, 1);
    SAYS(vq_layer_find(l, 1, 1), VQ_LAYER_PENDING, 0, 1);
    SAYS(vq_layer_value(l, 0), VQ_LAYER_DONE, 0, 10);
    SAYS(vq_layer_pending_value(l, 1), VQ_LAYER_DONE, 0, 1);
    SAYS(vq_layer_untaken(l, 2), VQ_LAYER_DONE, 0, 1);
    IS(mprotect(l, PAGE, PROT_READ | PROT_WRITE), 0);
    vq_layer_close(l);
    free(l);
}

#ifndef WITHOUT_REFUSALS
static unsigned refusals;

/* An answer, and where memory was refused, that of a second try: then the nth allocation has been refused. */
#define AGAIN(call)                                   \
    do {                                              \
        struct vq_layer_answer first_try = (call);    \
        if (first_try.code == VQ_LAYER_NO_MEMORY) {   \
            SAYS(first_try, VQ_LAYER_NO_MEMORY, 0, 0); \
            refusals++;                               \
            first_try = (call);                       \
        }                                             \
        IS(first_try.code, VQ_LAYER_DONE);            \
        got = first_try;                              \
    } while (0)

/* Opens and submits, with the nth allocation refused: that call says so and changes nothing, and the next one gives
 * what it would have given. Whether an allocation was refused. */
static int goes_on_without_memory(unsigned long n)
{
    struct vq_layer l = VQ_LAYER_NONE;
    struct vq_layer_answer got;
    struct vq_layer_point room[9];
    refusals = 0;
    left = n;
    if (vq_layer_open(&l) == VQ_LAYER_NO_MEMORY) {
        IS(l.at == NULL, 1);
        refusals++;
        IS(vq_layer_open(&l), VQ_LAYER_DONE);
    }
    for (uint32_t i = 0; i < 9; i++) {
        AGAIN(i % 3 == 2 ? vq_layer_open_binary(&l, true) : vq_layer_open_timeline(&l, i));
        IS(got.number, i);
    }
    for (uint32_t i = 0; i < 5; i++) {
        AGAIN(vq_layer_open_queue(&l));
        IS(got.number, i);
    }
    for (uint32_t i = 0; i < 30; i++) {
        struct vq_layer_value waits[3] = {{0, i}, {1, 10 + i}, {5, 0}}, signals[3] = {{0, i + 1}, {1, 11 + i}, {5, 0}};
        AGAIN(vq_layer_submit(&l, i % 5, i, waits, 3, signals, 3));
        IS(got.value, i / 5);
        SAYS(vq_layer_signals(&l, i % 5, i / 5, room, 9), VQ_LAYER_DONE, 0, 3);
        POINT(room[0], 0, i, i + 1);
        POINT(room[2], 5, i, i + 2);
    }
    IS(refusals, left == 0);
    left = 0;
    vq_layer_close(&l);
    return refusals != 0;
}

/* No call but those that open, and submit, asks for memory. */
static void the_others_want_none(void)
{
    struct vq_layer l = opened();
    struct vq_layer_point room[2];
    for (uint32_t i = 0; i < 100; i++)
        SAYS(submit(&l, 0, i, 1, i, 1, i + 1), VQ_LAYER_DONE, 0, i);
    left = 1;
    DOES(vq_layer_signal(&l, 0, 11));
    SAYS(vq_layer_take_back(&l, 0), VQ_LAYER_DONE, 0, 99);
    for (uint32_t i = 0; i < 99; i++) {
        SAYS(vq_layer_next(&l), VQ_LAYER_DONE, 0, 0);
        SAYS(vq_layer_release(&l, 0), VQ_LAYER_DONE, 0, i);
        SAYS(vq_layer_waits(&l, 0, i, room, 2), VQ_LAYER_DONE, 0, 1);
        SAYS(vq_layer_signals(&l, 0, i, room, 2), VQ_LAYER_DONE, 0, 1);
        DOES(vq_layer_refer(&l, 1, room[0].point));
    }
    for (uint32_t i = 0; i < 99; i++) {
        SAYS(vq_layer_complete(&l, 1), VQ_LAYER_DONE, i, i + 1);
        SAYS(vq_layer_finish(&l, 0), VQ_LAYER_DONE, 0, i);
        DOES(vq_layer_unref(&l, 1, i));
    }
    DOES(vq_layer_close_timeline(&l, 1));
    IS(left, 1);
    left = 0;
    vq_layer_close(&l);
}

static void without_memory(void)
{
    unsigned long n = 1;
    while (goes_on_without_memory(n))
        n++;
    IS(n > 50, 1);
    the_others_want_none();
}
#endif

/* The host's references to a point end at 2^31. */
static void all_references(void)
{
    struct vq_layer l = opened();
    SAYS(submit(&l, 0, 1, NONE, 0, 0, 20), VQ_LAYER_DONE, 0, 0);
    for (uint32_t i = 0; i < (uint32_t)1 << 31; i++)
        DOES(vq_layer_refer(&l, 0, 0));
    SAYS(vq_layer_refer(&l, 0, 0), VQ_LAYER_FULL, 0, 0);
    DOES(vq_layer_unref(&l, 0, 0));
    DOES(vq_layer_refer(&l, 0, 0));
    vq_layer_close(&l);
}

static void words_and_version(void)
{
    IS(vq_layer_version(), VQ_LAYER_VERSION);
    IS(strcmp(vq_layer_words(VQ_LAYER_NONE_READY), "no queue is ready"), 0);
    IS(strcmp(vq_layer_words((enum vq_layer_code)999), "no such code"), 0);
}

int main(int argc, char **argv)
{
    words_and_version();
    never_opened_and_closed();
    questions_write_nothing();
    a_batch_waits_for_another();
    batches_are_read();
    submits_are_refused();
    batches_are_taken_back();
    binary_semaphores_and_fences();
    the_host();
    two_layers();
#ifndef WITHOUT_REFUSALS
    without_memory();
#endif
    if (argc > 1 && strcmp(argv[1], "full") == 0)
        all_references();
    return 0;
}
