/* A timeline as a driver uses it. Its binary syncs are flags here, which the device signals where one is waited for. */
#include <inttypes.h>
#include <stdio.h>

#include "vq_live.h"

static struct vq_live timeline; /* none yet; the driver's lock is held round each call */
static int syncs[16];           /* the binary syncs by point: a driver's array grows when a take gives a greater one */

/* Mesa's gc_locked: completes the pending operations whose syncs are signaled. */
static void collect(void)
{
    struct vq_live_given first;
    while (vq_live_first(&timeline, &first) == VQ_LIVE_DONE && syncs[first.point])
        vq_live_complete(&timeline, &first);
}

/* Mesa's alloc_point_locked: a point for a value, its sync reset. */
static enum vq_live_code take(uint64_t value, struct vq_live_given *given)
{
    collect();
    enum vq_live_code code = vq_live_take(&timeline, value, given);
    if (code == VQ_LIVE_DONE) {
        syncs[given->point] = 0; /* where this fails: vq_live_cancel(&timeline, given) */
        printf("value %" PRIu64 ": point %" PRIu32 "\n", value, given->point);
    }
    return code;
}

/* Mesa's point_install, before the work is handed to the device. */
static enum vq_live_code submit(struct vq_live_given given)
{
    struct vq_live_given next;
    return vq_live_install(&timeline, &given, &next);
}

/* Mesa's wait_locked: the waiting is the driver's own. */
static void wait_for(uint64_t value)
{
    struct vq_live_given at;
    enum vq_live_code code;
    for (collect(); (code = vq_live_find(&timeline, value, &at)) != VQ_LIVE_PAST; collect()) {
        if (code == VQ_LIVE_NOT_YET)
            return; /* a driver waits here until something is installed */
        vq_live_refer(&timeline, at.point);
        syncs[at.point] = 1; /* a driver leaves its lock, waits for this sync, and takes the lock again */
        vq_live_unref(&timeline, at.point);
    }
    printf("waited for %" PRIu64 ": the payload is %" PRIu64 "\n", value, vq_live_value(&timeline));
}

int main(void)
{
    struct vq_live_given one, two, three;
    uint64_t known;
    if (vq_live_open(0, &timeline) != VQ_LIVE_DONE)
        return 1;
    if (take(2, &two) != VQ_LIVE_DONE || take(1, &one) != VQ_LIVE_DONE)
        return 1;
    if (submit(two) == VQ_LIVE_NOT_NEXT)
        printf("2 isn't next\n");
    if (submit(one) != VQ_LIVE_DONE || submit(two) != VQ_LIVE_DONE)
        return 1;
    wait_for(1);
    if (vq_live_signal(&timeline, 5, &known) == VQ_LIVE_OUTSTANDING)
        printf("the host can't signal 5: %" PRIu64 " comes first\n", known);
    wait_for(2);
    if (take(4, &three) != VQ_LIVE_DONE || submit(three) != VQ_LIVE_DONE)
        return 1;
    wait_for(3);
    vq_live_close(&timeline);
    return 0;
}
