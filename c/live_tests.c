/* Tests the live timeline for C: each call and each code once, with what vq_live.h says; the three orders of calls in
 * which a driver's layer was seen to go wrong (docs/DRIVERS.md); and refused memory. Stops with a line and status 1
 * where something is not as it should be.
 *
 * tests full: besides, that the last reference of a point is refused. It takes about a minute.
 */
#include <inttypes.h>
#include <stdio.h>
#include <stdlib.h>
#include <string.h>
#include <sys/mman.h>

#include "testing.h"
#include "vq_live.h"

#define IS_GIVEN(got, value, point) is_given(__FILE__, __LINE__, (got), (value), (point))

static void is_given(const char *file, int line, struct vq_live_given got, uint64_t value, uint32_t point)
{
    is(file, line, got.value, value);
    is(file, line, got.point, point);
}

static struct vq_live_given given(uint64_t value, uint32_t point)
{
    struct vq_live_given operation;
    memset(&operation, 0, sizeof operation);
    operation.value = value;
    operation.point = point;
    return operation;
}

/* What an out parameter holds where a call is to leave it. */
static const uint64_t BEFORE = 987654321;

static struct vq_live_given before(void)
{
    return given(BEFORE, 77);
}

static uint32_t install(struct vq_live *timeline, uint64_t value, uint32_t point)
{
    struct vq_live_given operation = given(value, point), next;
    return vq_live_install(timeline, &operation, &next);
}

static uint32_t cancel(struct vq_live *timeline, uint64_t value, uint32_t point)
{
    struct vq_live_given operation = given(value, point);
    return vq_live_cancel(timeline, &operation);
}

/* A take that succeeds: the point. */
static uint32_t taken(struct vq_live *timeline, uint64_t value)
{
    struct vq_live_given operation = before();
    IS(vq_live_take(timeline, value, &operation), VQ_LIVE_DONE);
    IS(operation.value, value);
    return operation.point;
}

static void an_empty_timeline(struct vq_live *t)
{
    struct vq_live_given g = before();
    IS(vq_live_value(t), 5);
    IS(vq_live_first(t, &g), VQ_LIVE_NOTHING_PENDING);
    IS(vq_live_complete(t, &g), VQ_LIVE_NOTHING_PENDING);
    IS(vq_live_least_taken(t, &g), VQ_LIVE_NOTHING_TAKEN);
    IS(vq_live_find(t, 5, &g), VQ_LIVE_PAST);
    IS(vq_live_find(t, 6, &g), VQ_LIVE_NOT_YET);
    IS(vq_live_install(t, &(struct vq_live_given){.value = 6}, &g), VQ_LIVE_NOTHING_TAKEN);
    IS_GIVEN(g, BEFORE, 77);
    IS(vq_live_take(t, 5, &g), VQ_LIVE_NOT_ABOVE);
    IS_GIVEN(g, 5, VQ_LIVE_NO_POINT);
    IS(cancel(t, 6, 0), VQ_LIVE_NOT_TAKEN);
    IS(vq_live_refer(t, 0), VQ_LIVE_NOT_OUT);
    IS(vq_live_unref(t, 0), VQ_LIVE_NOT_HELD);
}

/* Takes 8 and then 7, and installs 7: it is pending at point 1. */
static void takes_and_installs(struct vq_live *t)
{
    struct vq_live_given g = before(), eight = given(8, 0), seven = given(7, 1);
    IS(taken(t, 8), 0);
    IS(taken(t, 7), 1);
    IS(vq_live_take(t, 8, &g), VQ_LIVE_TWICE);
    IS_GIVEN(g, BEFORE, 77);
    IS(vq_live_least_taken(t, &g), VQ_LIVE_DONE);
    IS_GIVEN(g, 7, 1);
    g = before();
    IS(vq_live_install(t, &eight, &g), VQ_LIVE_NOT_NEXT);
    IS_GIVEN(g, 7, 1);
    g = before();
    IS(vq_live_install(t, &seven, &g), VQ_LIVE_DONE);
    IS(vq_live_install(t, &seven, &g), VQ_LIVE_ALREADY);
    IS_GIVEN(g, BEFORE, 77);
    IS(vq_live_take(t, 6, &g), VQ_LIVE_NOT_ABOVE);
    IS_GIVEN(g, 7, VQ_LIVE_NO_POINT);
    IS(cancel(t, 7, 1), VQ_LIVE_ALREADY);
    IS(cancel(t, 8, 1), VQ_LIVE_NOT_TAKEN);
    IS(cancel(t, 9, 0), VQ_LIVE_NOT_TAKEN);
    for (uint64_t value = 6; value <= 7; value++) {
        g = before();
        IS(vq_live_find(t, value, &g), VQ_LIVE_PENDING);
        IS_GIVEN(g, 7, 1);
    }
    IS(vq_live_find(t, 8, &g), VQ_LIVE_NOT_YET);
    g = before();
    IS(vq_live_first(t, &g), VQ_LIVE_DONE);
    IS_GIVEN(g, 7, 1);
}

static void the_host_signals(struct vq_live *t)
{
    uint64_t known = BEFORE;
    IS(vq_live_signal(t, 5, &known), VQ_LIVE_NOT_ABOVE);
    IS(known, 5);
    known = BEFORE;
    IS(vq_live_signal(t, 7, &known), VQ_LIVE_OUTSTANDING);
    IS(known, 7);
    known = BEFORE;
    IS(vq_live_signal(t, 6, &known), VQ_LIVE_DONE);
    IS(known, BEFORE);
    IS(vq_live_value(t), 6);
}

/* Point 0 is held once and point 1 twice; a held point is given to nobody. */
static void points_are_held(struct vq_live *t)
{
    struct vq_live_given g = before();
    IS(vq_live_refer(t, 0), VQ_LIVE_DONE);
    IS(vq_live_refer(t, 1), VQ_LIVE_DONE);
    IS(vq_live_refer(t, 1), VQ_LIVE_DONE);
    IS(vq_live_refer(t, 2), VQ_LIVE_NOT_OUT);
    IS(vq_live_unref(t, 2), VQ_LIVE_NOT_HELD);
    IS(vq_live_complete(t, &g), VQ_LIVE_DONE);
    IS_GIVEN(g, 7, 1);
    IS(vq_live_value(t), 7);
    IS(vq_live_find(t, 7, &g), VQ_LIVE_PAST);
    IS(vq_live_refer(t, 1), VQ_LIVE_NOT_OUT);
    IS(taken(t, 9), 2);
    IS(vq_live_unref(t, 1), VQ_LIVE_DONE);
    IS(taken(t, 10), 3);
    IS(vq_live_unref(t, 1), VQ_LIVE_DONE);
    IS(vq_live_unref(t, 1), VQ_LIVE_NOT_HELD);
    IS(taken(t, 11), 1);
    IS(cancel(t, 8, 0), VQ_LIVE_DONE);
    IS(taken(t, 12), 4);
    IS(vq_live_unref(t, 0), VQ_LIVE_DONE);
    IS(taken(t, 13), 0);
}

/* Completes 9 to 13; then the point that was freed last is given first. */
static void points_are_used_again(struct vq_live *t)
{
    static const uint32_t points[] = {2, 3, 1, 4, 0};
    struct vq_live_given g;
    for (uint64_t i = 0; i < 5; i++)
        IS(install(t, 9 + i, points[i]), VQ_LIVE_DONE);
    for (uint64_t i = 0; i < 5; i++) {
        IS(vq_live_complete(t, &g), VQ_LIVE_DONE);
        IS_GIVEN(g, 9 + i, points[i]);
        IS(vq_live_value(t), 9 + i);
    }
    for (uint64_t i = 0; i < 5; i++)
        IS(taken(t, 20 + i), points[4 - i]);
    IS(taken(t, 25), 5);
}

static void each_call(void)
{
    struct vq_live timeline;
    IS(vq_live_open(5, &timeline), VQ_LIVE_DONE);
    an_empty_timeline(&timeline);
    takes_and_installs(&timeline);
    the_host_signals(&timeline);
    points_are_held(&timeline);
    points_are_used_again(&timeline);
    vq_live_close(&timeline);
}

/* Two timelines are free of one another, and a value may be as great as there are. */
static void two_timelines(void)
{
    struct vq_live one, other;
    uint64_t known = BEFORE;
    IS(vq_live_open(0, &one), VQ_LIVE_DONE);
    IS(vq_live_open(UINT64_MAX - 1, &other), VQ_LIVE_DONE);
    IS(taken(&one, 1), 0);
    IS(taken(&other, UINT64_MAX), 0);
    IS(install(&other, UINT64_MAX, 0), VQ_LIVE_DONE);
    IS(vq_live_complete(&other, &(struct vq_live_given){0}), VQ_LIVE_DONE);
    IS(vq_live_value(&other), UINT64_MAX);
    IS(vq_live_signal(&other, UINT64_MAX, &known), VQ_LIVE_NOT_ABOVE);
    IS(known, UINT64_MAX);
    IS(vq_live_value(&one), 0);
    vq_live_close(&other);
    IS(install(&one, 1, 0), VQ_LIVE_DONE);
    vq_live_close(&one);
}

/* The three orders. The syncs of points, which the device signals. */
static int is_signaled[4];

/* The loop of gc_locked: completes what is pending and signaled, and with help what is taken and signaled. */
static void collect(struct vq_live *t, int helps)
{
    struct vq_live_given g;
    while (vq_live_first(t, &g) == VQ_LIVE_DONE && is_signaled[g.point])
        IS(vq_live_complete(t, &g), VQ_LIVE_DONE);
    if (vq_live_first(t, &g) == VQ_LIVE_DONE)
        return;
    while (helps && vq_live_least_taken(t, &g) == VQ_LIVE_DONE && is_signaled[g.point]) {
        IS(install(t, g.value, g.point), VQ_LIVE_DONE);
        IS(vq_live_complete(t, &g), VQ_LIVE_DONE);
    }
}

/* A batch that signals 1 has run, and the fence with it. Its install came before, or comes after what the host does. */
static struct vq_live a_batch_has_run(int is_installed)
{
    struct vq_live timeline;
    IS(vq_live_open(0, &timeline), VQ_LIVE_DONE);
    IS(taken(&timeline, 1), 0);
    is_signaled[0] = 0;
    if (is_installed)
        IS(install(&timeline, 1, 0), VQ_LIVE_DONE);
    is_signaled[0] = 1;
    return timeline;
}

/* The submitting thread's own install comes last: whoever helped was before it, and it is no error. */
static void ends(struct vq_live timeline, int is_installed, uint64_t value)
{
    if (!is_installed)
        IS(install(&timeline, 1, 0), VQ_LIVE_ALREADY);
    collect(&timeline, 1);
    IS(vq_live_value(&timeline), value);
    vq_live_close(&timeline);
}

/* A fence's wait, then a read: it is 1, where the read gave 0. */
static void a_read_after_the_fence(int is_installed)
{
    struct vq_live timeline = a_batch_has_run(is_installed);
    collect(&timeline, 1);
    IS(vq_live_value(&timeline), 1);
    ends(timeline, is_installed, 1);
}

/* The host signals 2 after the fence's wait: the payload stays 2, where it fell to 1. */
static void a_host_signal_after_the_fence(int is_installed)
{
    uint64_t known = BEFORE;
    struct vq_live timeline = a_batch_has_run(is_installed);
    collect(&timeline, 1);
    IS(vq_live_signal(&timeline, 2, &known), VQ_LIVE_DONE);
    ends(timeline, is_installed, 2);
}

/* A wait for 2 then finds it past, where it hung. */
static void a_wait_for_what_was_read(int is_installed)
{
    uint64_t known = BEFORE;
    struct vq_live_given g;
    struct vq_live timeline = a_batch_has_run(is_installed);
    collect(&timeline, 1);
    IS(vq_live_signal(&timeline, 2, &known), VQ_LIVE_DONE);
    IS(vq_live_value(&timeline), 2);
    if (!is_installed)
        IS(install(&timeline, 1, 0), VQ_LIVE_ALREADY);
    collect(&timeline, 1);
    IS(vq_live_find(&timeline, 2, &g), VQ_LIVE_PAST);
    ends(timeline, is_installed, 2);
}

/* A driver that installs late and doesn't help reads a value that is too low, and its host's signal is refused; nothing
 * falls, and the wait ends. */
static void late_without_help(void)
{
    uint64_t known = BEFORE;
    struct vq_live_given g = before();
    struct vq_live timeline = a_batch_has_run(0);
    collect(&timeline, 0);
    IS(vq_live_value(&timeline), 0);
    IS(vq_live_find(&timeline, 1, &g), VQ_LIVE_NOT_YET);
    IS(vq_live_signal(&timeline, 2, &known), VQ_LIVE_OUTSTANDING);
    IS(known, 1);
    IS(install(&timeline, 1, 0), VQ_LIVE_DONE);
    collect(&timeline, 0);
    IS(vq_live_value(&timeline), 1);
    IS(vq_live_signal(&timeline, 2, &known), VQ_LIVE_DONE);
    IS(vq_live_find(&timeline, 2, &g), VQ_LIVE_PAST);
    IS(vq_live_value(&timeline), 2);
    vq_live_close(&timeline);
}

/* The helped operation's point carries a later one by the time of the late install: that is refused all the same. */
static void late_where_the_point_is_used_again(void)
{
    struct vq_live_given g;
    struct vq_live timeline = a_batch_has_run(0);
    collect(&timeline, 1);
    IS(taken(&timeline, 2), 0);
    is_signaled[0] = 0;
    IS(install(&timeline, 1, 0), VQ_LIVE_ALREADY);
    IS(vq_live_least_taken(&timeline, &g), VQ_LIVE_DONE);
    IS_GIVEN(g, 2, 0);
    IS(vq_live_value(&timeline), 1);
    vq_live_close(&timeline);
}

/* A wait that is abandoned with its reference holds back no value, where the walk over the points ended at it. */
static void a_reference_holds_nothing_back(void)
{
    struct vq_live timeline;
    IS(vq_live_open(0, &timeline), VQ_LIVE_DONE);
    for (uint32_t i = 0; i < 3; i++) {
        IS(taken(&timeline, i + 1), i);
        IS(install(&timeline, i + 1, i), VQ_LIVE_DONE);
        is_signaled[i] = 1;
    }
    IS(vq_live_refer(&timeline, 0), VQ_LIVE_DONE);
    collect(&timeline, 0);
    IS(vq_live_value(&timeline), 3);
    IS(taken(&timeline, 4), 2);
    IS(taken(&timeline, 5), 1);
    IS(taken(&timeline, 6), 3);
    IS(vq_live_unref(&timeline, 0), VQ_LIVE_DONE);
    IS(taken(&timeline, 7), 0);
    vq_live_close(&timeline);
}

#ifndef WITHOUT_REFUSALS
/* Takes 1 to 100 where the nth allocation is refused: that call says so and changes nothing, and the next one gives
 * what it would have given. Whether an allocation was refused. */
static int takes_without_memory(unsigned long n)
{
    struct vq_live timeline = {NULL};
    struct vq_live_given g = before();
    unsigned refusals = 0;
    left = n;
    if (vq_live_open(0, &timeline) == VQ_LIVE_NO_MEMORY) {
        IS(timeline.at == NULL, 1);
        refusals++;
        IS(vq_live_open(0, &timeline), VQ_LIVE_DONE);
    }
    for (uint64_t value = 1; value <= 100; value++) {
        enum vq_live_code code = vq_live_take(&timeline, value, &g);
        if (code == VQ_LIVE_NO_MEMORY) {
            IS_GIVEN(g, BEFORE, 77);
            refusals++;
            code = vq_live_take(&timeline, value, &g);
        }
        IS(code, VQ_LIVE_DONE);
        IS_GIVEN(g, value, (uint32_t)value - 1);
        g = before();
    }
    IS(refusals, left == 0);
    left = 0;
    vq_live_close(&timeline);
    return refusals != 0;
}

/* No call but open and take asks for memory. */
static void the_others_want_none(void)
{
    uint64_t known;
    struct vq_live timeline;
    struct vq_live_given g;
    IS(vq_live_open(0, &timeline), VQ_LIVE_DONE);
    for (uint64_t value = 2; value <= 101; value++)
        IS(taken(&timeline, value), value - 2);
    left = 1;
    IS(vq_live_signal(&timeline, 1, &known), VQ_LIVE_DONE);
    for (uint64_t value = 2; value <= 101; value += 2) {
        IS(install(&timeline, value, (uint32_t)value - 2), VQ_LIVE_DONE);
        IS(vq_live_find(&timeline, value, &g), VQ_LIVE_PENDING);
        IS(vq_live_refer(&timeline, g.point), VQ_LIVE_DONE);
        IS(cancel(&timeline, value + 1, (uint32_t)value - 1), VQ_LIVE_DONE);
        IS(vq_live_complete(&timeline, &g), VQ_LIVE_DONE);
        IS(vq_live_unref(&timeline, g.point), VQ_LIVE_DONE);
    }
    IS(left, 1);
    left = 0;
    vq_live_close(&timeline);
}

static void without_memory(void)
{
    unsigned long n = 1;
    while (takes_without_memory(n))
        n++;
    IS(n > 10, 1);
    the_others_want_none();
}
#endif

/* The count of a point's references ends at 4,294,967,295. */
static void all_references(void)
{
    struct vq_live timeline;
    IS(vq_live_open(0, &timeline), VQ_LIVE_DONE);
    IS(taken(&timeline, 1), 0);
    for (uint32_t i = 0; i < UINT32_MAX; i++)
        IS(vq_live_refer(&timeline, 0), VQ_LIVE_DONE);
    IS(vq_live_refer(&timeline, 0), VQ_LIVE_FULL);
    IS(vq_live_unref(&timeline, 0), VQ_LIVE_DONE);
    IS(vq_live_refer(&timeline, 0), VQ_LIVE_DONE);
    vq_live_close(&timeline);
}

/* Of a struct that holds no timeline each call says so, and leaves its output; and it is closed again and again. */
static void none_is_open(struct vq_live *t)
{
    const struct vq_live_given one = given(1, 0), untouched = before();
    struct vq_live_given g = before();
    uint64_t known = BEFORE;
    IS(vq_live_take(t, 1, &g), VQ_LIVE_NO_HANDLE);
    IS(vq_live_install(t, &one, &g), VQ_LIVE_NO_HANDLE);
    IS(vq_live_cancel(t, &one), VQ_LIVE_NO_HANDLE);
    IS(vq_live_complete(t, &g), VQ_LIVE_NO_HANDLE);
    IS(vq_live_find(t, 1, &g), VQ_LIVE_NO_HANDLE);
    IS(vq_live_refer(t, 0), VQ_LIVE_NO_HANDLE);
    IS(vq_live_unref(t, 0), VQ_LIVE_NO_HANDLE);
    IS(vq_live_signal(t, 1, &known), VQ_LIVE_NO_HANDLE);
    IS(vq_live_value(t), 0);
    IS(vq_live_first(t, &g), VQ_LIVE_NO_HANDLE);
    IS(vq_live_least_taken(t, &g), VQ_LIVE_NO_HANDLE);
    IS(memcmp(&g, &untouched, sizeof g), 0);
    IS(known, BEFORE);
    vq_live_close(t);
    IS(t->at == NULL, 1);
}

static void never_opened_and_closed(void)
{
    struct vq_live timeline = VQ_LIVE_NONE;
    none_is_open(&timeline);
    for (int times = 0; times < 2; times++) {
        IS(vq_live_open(7, &timeline), VQ_LIVE_DONE);
        IS(taken(&timeline, 8), 0);
        vq_live_close(&timeline);
        none_is_open(&timeline);
    }
}

/* A call that is refused, or tells nothing, leaves each byte of its output, and the calls that ask write nothing else:
 * they are answered from a page that can't be written. */
static void questions_write_nothing(void)
{
    enum { PAGE = 4096 };
    struct vq_live *t = aligned_alloc(PAGE, PAGE);
    struct vq_live_given g, untouched, six = given(6, 0);
    memset(&untouched, 0xaa, sizeof untouched);
    g = untouched;
    memset(&g, 0xaa, sizeof g);
    IS(t != NULL, 1);
    IS(vq_live_open(5, t), VQ_LIVE_DONE);
    IS(vq_live_install(t, &six, &g), VQ_LIVE_NOTHING_TAKEN);
    IS(taken(t, 6), 0);
    IS(vq_live_take(t, 6, &g), VQ_LIVE_TWICE);
    IS(vq_live_install(t, &six, &g), VQ_LIVE_DONE);
    IS(mprotect(t, PAGE, PROT_READ), 0);
    IS(vq_live_find(t, 5, &g), VQ_LIVE_PAST);
    IS(vq_live_find(t, 7, &g), VQ_LIVE_NOT_YET);
    IS(vq_live_least_taken(t, &g), VQ_LIVE_NOTHING_TAKEN);
    IS(memcmp(&g, &untouched, sizeof g), 0);
    IS(vq_live_value(t), 5);
    IS(vq_live_find(t, 6, &g), VQ_LIVE_PENDING);
    IS_GIVEN(g, 6, 0);
    g = before();
    IS(vq_live_first(t, &g), VQ_LIVE_DONE);
    IS_GIVEN(g, 6, 0);
    IS(mprotect(t, PAGE, PROT_READ | PROT_WRITE), 0);
    vq_live_close(t);
    free(t);
}

/* What VQ_LIVE_ALREADY doesn't say: a cancelled operation below the pending value, and one that was never taken. */
static void already_is_of_values(void)
{
    struct vq_live timeline;
    struct vq_live_given zero = given(0, 0);
    IS(vq_live_open(0, &timeline), VQ_LIVE_DONE);
    IS(vq_live_cancel(&timeline, &zero), VQ_LIVE_ALREADY);
    IS(taken(&timeline, 5), 0);
    IS(taken(&timeline, 6), 1);
    IS(cancel(&timeline, 5, 0), VQ_LIVE_DONE);
    IS(install(&timeline, 6, 1), VQ_LIVE_DONE);
    IS(install(&timeline, 5, 0), VQ_LIVE_ALREADY);
    vq_live_close(&timeline);
}

/* No output is wanted: the calls are those with one, and it is nowhere. */
static void outputs_that_nobody_wants(void)
{
    struct vq_live timeline = VQ_LIVE_NONE;
    struct vq_live_given given = {1, 0};
    IS(vq_live_open(0, &timeline), VQ_LIVE_DONE);
    IS(vq_live_take(&timeline, 1, NULL), VQ_LIVE_DONE);
    IS(vq_live_take(&timeline, 2, NULL), VQ_LIVE_DONE);
    IS(vq_live_least_taken(&timeline, NULL), VQ_LIVE_DONE);
    IS(vq_live_install(&timeline, &(struct vq_live_given){2, 1}, NULL), VQ_LIVE_NOT_NEXT);
    IS(vq_live_install(&timeline, &given, NULL), VQ_LIVE_DONE);
    IS(vq_live_find(&timeline, 1, NULL), VQ_LIVE_PENDING);
    IS(vq_live_first(&timeline, NULL), VQ_LIVE_DONE);
    IS(vq_live_signal(&timeline, 3, NULL), VQ_LIVE_OUTSTANDING);
    IS(vq_live_complete(&timeline, NULL), VQ_LIVE_DONE);
    IS(vq_live_value(&timeline), 1);
    vq_live_close(&timeline);
}

static void words_and_version(void)
{
    IS(vq_live_version(), VQ_LIVE_VERSION);
    IS(strcmp(vq_live_words(VQ_LIVE_NOT_YET), "no pending operation reaches the value yet"), 0);
    IS(strcmp(vq_live_words((enum vq_live_code)999), "no such code"), 0);
}

int main(int argc, char **argv)
{
    words_and_version();
    never_opened_and_closed();
    questions_write_nothing();
    already_is_of_values();
    each_call();
    two_timelines();
    outputs_that_nobody_wants();
    for (int is_installed = 0; is_installed <= 1; is_installed++) {
        a_read_after_the_fence(is_installed);
        a_host_signal_after_the_fence(is_installed);
        a_wait_for_what_was_read(is_installed);
    }
    late_without_help();
    late_where_the_point_is_used_again();
    a_reference_holds_nothing_back();
#ifndef WITHOUT_REFUSALS
    without_memory();
#endif
    if (argc > 1 && strcmp(argv[1], "full") == 0)
        all_references();
    return 0;
}
