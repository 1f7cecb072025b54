/* Plays random calls on a live layer and on a second model of it, and after each asks both everything: no answer may
 * differ. The model is written by vq_layer.h and docs/LAYER-C.md, with plain lists that are looked through; its free
 * points are a pile of which the last is given first. Stops with a line and status 1 where something differs.
 *
 * layer_player CALLS [SEED]
 */
#include <inttypes.h>
#include <stdio.h>
#include <stdlib.h>
#include <string.h>

#include "vq_layer.h"

enum { NUMBERS = 6, QUEUES = 3, POINTS = 64, OPS = 40, BATCHES = 20, LISTED = 4, CALLS_A_GAME = 150 };
enum kind { CLOSED, TIMELINE, BINARY };

struct op {
    uint64_t value;
    uint32_t point;
    int is_pending;
};

/* A timeline or a binary semaphore: its operations that are taken or pending, and the references to its points. */
struct line {
    enum kind kind;
    uint64_t payload, signals, taken;
    struct op ops[OPS];
    uint32_t op_count;
    uint32_t batch_refs[POINTS], host_refs[POINTS], pile[POINTS], pile_count, made;
};

struct batch {
    uint64_t token;
    struct vq_layer_point waits[LISTED], signals[LISTED];
    uint32_t wait_count, signal_count;
    int is_released;
};

struct queue {
    struct batch batches[BATCHES];
    uint32_t count;
};

static struct vq_layer layer;
static struct line lines[NUMBERS];
static struct queue queues[QUEUES];
static uint32_t line_count, queue_count;

static uint64_t seed, state, calls, questions, tokens;
enum { OPEN, SHUT, SUBMIT, TAKE_BACK, RELEASE, FINISH, COMPLETE, SIGNAL, REFER, UNREF, RESET, KINDS };
static const char *const names[KINDS] = {"open", "close", "submit", "take_back", "release", "finish", "complete",
                                         "signal", "refer", "unref", "reset"};
static uint64_t accepted[KINDS], refused[KINDS];

static _Noreturn void differs(const char *what, struct vq_layer_answer got, struct vq_layer_answer wanted)
{
    printf("layer_player: seed %" PRIu64 ", call %" PRIu64 ": %s: got %d %" PRIu32 " %" PRIu64 ", wanted %d %" PRIu32
           " %" PRIu64 "\n", seed, calls, what, (int)got.code, got.number, got.value, (int)wanted.code, wanted.number,
           wanted.value);
    exit(1);
}

static struct vq_layer_answer says(enum vq_layer_code code, uint32_t number, uint64_t value)
{
    return (struct vq_layer_answer){code, number, value};
}

static void same(const char *what, struct vq_layer_answer got, struct vq_layer_answer wanted)
{
    if (got.code != wanted.code || got.number != wanted.number || got.value != wanted.value)
        differs(what, got, wanted);
}

/* The answer of a call that may change something. Whether it was accepted. */
static int called(int kind, struct vq_layer_answer got, struct vq_layer_answer wanted)
{
    same(names[kind], got, wanted);
    calls++;
    (got.code == VQ_LAYER_DONE ? accepted : refused)[kind]++;
    return got.code == VQ_LAYER_DONE;
}

static void asked(const char *what, struct vq_layer_answer got, struct vq_layer_answer wanted)
{
    same(what, got, wanted);
    questions++;
}

static uint32_t below(uint32_t limit)
{
    state ^= state << 13;
    state ^= state >> 7;
    state ^= state << 17;
    return (uint32_t)(state >> 20) % limit;
}

/* The model: what holds of one line. */

static enum kind kind_of(uint32_t number)
{
    return number < line_count ? lines[number].kind : CLOSED;
}

/* The operation of least value among the pending or the taken ones, at or above a value; NULL where there is none. */
static struct op *least(struct line *line, int is_pending, uint64_t value)
{
    struct op *found = NULL;
    for (uint32_t i = 0; i < line->op_count; i++) {
        struct op *op = &line->ops[i];
        if (op->is_pending == is_pending && op->value >= value && (found == NULL || op->value < found->value))
            found = op;
    }
    return found;
}

static uint64_t pending_value(const struct line *line)
{
    uint64_t value = line->payload;
    for (uint32_t i = 0; i < line->op_count; i++)
        if (line->ops[i].is_pending && line->ops[i].value > value)
            value = line->ops[i].value;
    return value;
}

static int is_carried(const struct line *line, uint32_t point)
{
    for (uint32_t i = 0; i < line->op_count; i++)
        if (line->ops[i].point == point)
            return 1;
    return 0;
}

static void free_if_idle(struct line *line, uint32_t point)
{
    if (!is_carried(line, point) && line->batch_refs[point] == 0 && line->host_refs[point] == 0)
        line->pile[line->pile_count++] = point;
}

static void remove_op(struct line *line, struct op *op)
{
    uint32_t point = op->point;
    *op = line->ops[--line->op_count];
    free_if_idle(line, point);
}

static struct vq_layer_answer first_answer(uint32_t number)
{
    struct op *op = kind_of(number) == CLOSED ? NULL : least(&lines[number], 1, 0);
    return op == NULL ? says(VQ_LAYER_NOTHING_PENDING, 0, 0) : says(VQ_LAYER_DONE, op->point, op->value);
}

static struct vq_layer_answer find_answer(uint32_t number, uint64_t value)
{
    if (kind_of(number) == CLOSED)
        return says(VQ_LAYER_NO_TIMELINE, 0, 0);
    if (value <= lines[number].payload)
        return says(VQ_LAYER_PAST, 0, 0);
    struct op *op = least(&lines[number], 1, value);
    return op == NULL ? says(VQ_LAYER_NOT_YET, 0, 0) : says(VQ_LAYER_PENDING, op->point, op->value);
}

/* The model: queues. */

static struct batch *first_held_back(uint32_t queue)
{
    for (uint32_t i = 0; i < queues[queue].count; i++)
        if (!queues[queue].batches[i].is_released)
            return &queues[queue].batches[i];
    return NULL;
}

static uint32_t released_count(uint32_t queue)
{
    struct batch *batch = first_held_back(queue);
    return batch == NULL ? queues[queue].count : (uint32_t)(batch - queues[queue].batches);
}

static int is_not_yet(const struct vq_layer_point *wait)
{
    return find_answer(wait->timeline, wait->value).code == VQ_LAYER_NOT_YET;
}

static struct vq_layer_answer blocked_answer(uint32_t queue)
{
    if (queue >= queue_count)
        return says(VQ_LAYER_NO_QUEUE, 0, 0);
    struct batch *batch = first_held_back(queue);
    if (batch == NULL)
        return says(VQ_LAYER_EMPTY, 0, 0);
    for (uint32_t i = 0; i < batch->wait_count; i++)
        if (is_not_yet(&batch->waits[i]))
            return says(VQ_LAYER_WAITS, batch->waits[i].timeline, batch->waits[i].value);
    for (uint32_t i = 0; i < batch->signal_count; i++)
        if (least(&lines[batch->signals[i].timeline], 0, 0)->value < batch->signals[i].value)
            return says(VQ_LAYER_BEHIND, batch->signals[i].timeline, batch->signals[i].value);
    return says(VQ_LAYER_DONE, 0, 0);
}

static int is_brought(const struct vq_layer_point *wait)
{
    for (uint32_t q = 0; q < queue_count; q++)
        for (uint32_t i = 0; i < queues[q].count; i++)
            for (uint32_t j = 0; j < queues[q].batches[i].signal_count; j++) {
                const struct batch *batch = &queues[q].batches[i];
                if (!batch->is_released && batch->signals[j].timeline == wait->timeline
                    && batch->signals[j].value >= wait->value)
                    return 1;
            }
    return 0;
}

static struct vq_layer_answer stuck_answer(uint32_t queue)
{
    struct batch *batch = queue < queue_count ? first_held_back(queue) : NULL;
    for (uint32_t i = 0; batch != NULL && i < batch->wait_count; i++)
        if (is_not_yet(&batch->waits[i]) && !is_brought(&batch->waits[i]))
            return says(VQ_LAYER_MISSING, batch->waits[i].timeline, batch->waits[i].value);
    return says(VQ_LAYER_DONE, 0, 0);
}

static int names_line(const struct batch *batch, uint32_t number)
{
    for (uint32_t i = 0; i < batch->wait_count; i++)
        if (batch->waits[i].timeline == number)
            return 1;
    for (uint32_t i = 0; i < batch->signal_count; i++)
        if (batch->signals[i].timeline == number)
            return 1;
    return 0;
}

/* The calls. */

static uint32_t any_line(void)
{
    return below(100) == 0 ? NUMBERS + below(3) : below(line_count);
}

static uint32_t any_queue(void)
{
    return below(100) == 0 ? QUEUES + below(3) : below(queue_count);
}

static int is_listed(uint32_t number, const struct vq_layer_value *list, uint32_t count)
{
    for (uint32_t i = 0; i < count; i++)
        if (list[i].timeline == number)
            return 1;
    return 0;
}

static void open_line(void)
{
    uint32_t number = 0, initial = below(4);
    int is_binary = below(2) == 0;
    while (number < line_count && lines[number].kind != CLOSED)
        number++;
    if (number == NUMBERS)
        return;
    struct vq_layer_answer got = is_binary ? vq_layer_open_binary(&layer, initial % 2) :
        vq_layer_open_timeline(&layer, initial);
    called(OPEN, got, says(VQ_LAYER_DONE, number, 0));
    if (number == line_count)
        line_count++;
    memset(&lines[number], 0, sizeof lines[number]);
    lines[number].kind = is_binary ? BINARY : TIMELINE;
    lines[number].payload = is_binary ? initial % 2 : initial;
    lines[number].signals = is_binary ? initial % 2 : 0;
}

static void close_line(void)
{
    uint32_t number = any_line();
    if (below(4) != 0)
        return;
    struct vq_layer_answer wanted = says(VQ_LAYER_DONE, 0, 0);
    for (uint32_t p = POINTS; p-- > 0;)
        if (kind_of(number) != CLOSED && lines[number].host_refs[p] + lines[number].batch_refs[p] != 0)
            wanted = says(VQ_LAYER_HELD, p, 0);
    for (uint32_t q = queue_count; q-- > 0;)
        for (uint32_t i = 0; i < queues[q].count; i++)
            if (names_line(&queues[q].batches[i], number))
                wanted = says(VQ_LAYER_NAMED, q, 0);
    if (kind_of(number) == CLOSED)
        wanted = says(VQ_LAYER_NO_TIMELINE, 0, 0);
    if (called(SHUT, vq_layer_close_timeline(&layer, number), wanted))
        lines[number].kind = CLOSED;
}

/* Why a list of waits, or of signals with these waits, is refused: the first that is. */
static struct vq_layer_answer list_answer(const struct vq_layer_value *list, uint32_t count,
                                          const struct vq_layer_value *waits, uint32_t wait_count, int is_signals)
{
    for (uint32_t i = 0; i < count; i++) {
        uint32_t number = list[i].timeline;
        if (kind_of(number) == CLOSED)
            return says(VQ_LAYER_NO_TIMELINE, number, 0);
        if (kind_of(number) != BINARY)
            continue;
        if (is_listed(number, list + i + 1, count - i - 1))
            return says(VQ_LAYER_REPEATED, number, 0);
        int is_untaken = lines[number].signals != lines[number].taken;
        if (!is_signals && !is_untaken)
            return says(VQ_LAYER_UNSIGNALED, number, 0);
        if (is_signals && is_untaken && !is_listed(number, waits, wait_count))
            return says(VQ_LAYER_SIGNALED, number, 0);
    }
    return says(VQ_LAYER_DONE, 0, 0);
}

/* A batch's signals, the greatest of a timeline for all. */
static void merge(struct batch *batch, struct vq_layer_value signal)
{
    uint32_t i = 0;
    if (lines[signal.timeline].kind == BINARY)
        signal.value = lines[signal.timeline].signals + 1;
    while (i < batch->signal_count && batch->signals[i].timeline != signal.timeline)
        i++;
    if (i == batch->signal_count)
        batch->signals[batch->signal_count++] = (struct vq_layer_point){signal.timeline, 0, signal.value};
    else if (batch->signals[i].value < signal.value)
        batch->signals[i].value = signal.value;
}

static struct vq_layer_answer take_answer(const struct batch *batch)
{
    for (uint32_t i = 0; i < batch->signal_count; i++) {
        struct line *line = &lines[batch->signals[i].timeline];
        uint64_t value = batch->signals[i].value;
        if (value <= pending_value(line))
            return says(VQ_LAYER_NOT_ABOVE, batch->signals[i].timeline, pending_value(line));
        struct op *taken = least(line, 0, value);
        if (taken != NULL && taken->value == value)
            return says(VQ_LAYER_TWICE, batch->signals[i].timeline, 0);
    }
    return says(VQ_LAYER_DONE, 0, 0);
}

static void take_points(struct batch *batch)
{
    for (uint32_t i = 0; i < batch->wait_count; i++) {
        struct line *line = &lines[batch->waits[i].timeline];
        if (line->kind == BINARY)
            batch->waits[i].value = line->taken = line->signals;
    }
    for (uint32_t i = 0; i < batch->signal_count; i++) {
        struct line *line = &lines[batch->signals[i].timeline];
        uint32_t point = line->pile_count > 0 ? line->pile[--line->pile_count] : line->made++;
        batch->signals[i].point = point;
        line->ops[line->op_count++] = (struct op){batch->signals[i].value, point, 0};
        if (line->kind == BINARY)
            line->signals++;
    }
}

/* A list of waits or of signals, most of which may be so. */
static uint32_t listed(struct vq_layer_value *list, int is_signals)
{
    uint32_t most = below(LISTED), count = 0;
    for (uint32_t i = 0; i < most; i++) {
        uint32_t number = any_line();
        enum kind kind = kind_of(number);
        uint64_t value = kind == CLOSED ? 0 : lines[number].payload + below(5) + (uint64_t)is_signals;
        int is_untaken = kind == BINARY && lines[number].signals != lines[number].taken;
        int is_fine = kind == TIMELINE || (kind == BINARY && is_untaken != is_signals);
        if (is_fine || below(12) == 0)
            list[count++] = (struct vq_layer_value){number, value};
    }
    return count;
}

static void submit(void)
{
    uint32_t queue = any_queue();
    struct vq_layer_value waits[LISTED], signals[LISTED];
    struct batch batch = {.token = ++tokens};
    batch.wait_count = listed(waits, 0);
    uint32_t signal_count = listed(signals, 1);
    for (uint32_t i = 0; i < line_count; i++)
        if (lines[i].op_count > OPS - LISTED)
            return;
    if (queue < queue_count && queues[queue].count == BATCHES)
        return;
    struct vq_layer_answer wanted = list_answer(waits, batch.wait_count, NULL, 0, 0);
    if (wanted.code == VQ_LAYER_DONE)
        wanted = list_answer(signals, signal_count, waits, batch.wait_count, 1);
    if (queue >= queue_count)
        wanted = says(VQ_LAYER_NO_QUEUE, 0, 0);
    if (wanted.code == VQ_LAYER_DONE) {
        for (uint32_t i = 0; i < batch.wait_count; i++)
            batch.waits[i] = (struct vq_layer_point){waits[i].timeline, VQ_LAYER_NO_POINT, waits[i].value};
        for (uint32_t i = 0; i < signal_count; i++)
            merge(&batch, signals[i]);
        wanted = take_answer(&batch);
    }
    if (wanted.code == VQ_LAYER_DONE)
        wanted.value = queues[queue].count;
    struct vq_layer_answer got =
        vq_layer_submit(&layer, queue, batch.token, waits, batch.wait_count, signals, signal_count);
    if (called(SUBMIT, got, wanted)) {
        take_points(&batch);
        queues[queue].batches[queues[queue].count++] = batch;
    }
}

/* Of a batch that may be taken back: whether a number of a binary semaphore was used since, and which. */
static struct vq_layer_answer used_answer(const struct batch *batch)
{
    for (uint32_t i = 0; i < batch->signal_count; i++) {
        struct line *line = &lines[batch->signals[i].timeline];
        uint64_t value = batch->signals[i].value;
        if (line->kind == BINARY && (line->signals != value || line->taken >= value))
            return says(VQ_LAYER_USED, batch->signals[i].timeline, 0);
    }
    for (uint32_t i = 0; i < batch->wait_count; i++) {
        struct line *line = &lines[batch->waits[i].timeline];
        uint64_t value = batch->waits[i].value;
        int is_signaled_here = 0;
        for (uint32_t j = 0; j < batch->signal_count; j++)
            is_signaled_here |= batch->signals[j].timeline == batch->waits[i].timeline;
        if (line->kind == BINARY && (line->taken != value || (!is_signaled_here && line->signals != value)))
            return says(VQ_LAYER_USED, batch->waits[i].timeline, 0);
    }
    return says(VQ_LAYER_DONE, 0, batch->token);
}

static void take_back(void)
{
    uint32_t queue = any_queue();
    struct batch *batch = NULL;
    struct vq_layer_answer wanted = says(queue < queue_count ? VQ_LAYER_EMPTY : VQ_LAYER_NO_QUEUE, 0, 0);
    if (queue < queue_count && first_held_back(queue) != NULL) {
        batch = &queues[queue].batches[queues[queue].count - 1];
        wanted = used_answer(batch);
    }
    if (!called(TAKE_BACK, vq_layer_take_back(&layer, queue), wanted))
        return;
    for (uint32_t i = batch->signal_count; i-- > 0;) {
        struct line *line = &lines[batch->signals[i].timeline];
        remove_op(line, least(line, 0, batch->signals[i].value));
        if (line->kind == BINARY)
            line->signals--;
    }
    for (uint32_t i = 0; i < batch->wait_count; i++)
        if (lines[batch->waits[i].timeline].kind == BINARY)
            lines[batch->waits[i].timeline].taken--;
    queues[queue].count--;
}

static void release(void)
{
    uint32_t queue = any_queue();
    struct vq_layer_answer wanted = blocked_answer(queue);
    if (wanted.code == VQ_LAYER_DONE)
        wanted.value = released_count(queue);
    if (!called(RELEASE, vq_layer_release(&layer, queue), wanted))
        return;
    struct batch *batch = first_held_back(queue);
    batch->is_released = 1;
    for (uint32_t i = 0; i < batch->wait_count; i++) {
        struct vq_layer_answer at = find_answer(batch->waits[i].timeline, batch->waits[i].value);
        if (at.code == VQ_LAYER_PENDING) {
            batch->waits[i].point = at.number;
            lines[batch->waits[i].timeline].batch_refs[at.number]++;
        }
    }
    for (uint32_t i = 0; i < batch->signal_count; i++)
        least(&lines[batch->signals[i].timeline], 0, batch->signals[i].value)->is_pending = 1;
}

static void finish(void)
{
    uint32_t queue = any_queue();
    struct vq_layer_answer wanted = says(VQ_LAYER_NOTHING_RELEASED, 0, 0);
    if (queue < queue_count && released_count(queue) > 0)
        wanted = says(VQ_LAYER_DONE, 0, queues[queue].batches[0].token);
    if (!called(FINISH, vq_layer_finish(&layer, queue), wanted))
        return;
    struct batch batch = queues[queue].batches[0];
    memmove(queues[queue].batches, queues[queue].batches + 1, --queues[queue].count * sizeof batch);
    for (uint32_t i = 0; i < batch.wait_count; i++) {
        struct line *line = &lines[batch.waits[i].timeline];
        if (batch.waits[i].point != VQ_LAYER_NO_POINT) {
            line->batch_refs[batch.waits[i].point]--;
            free_if_idle(line, batch.waits[i].point);
        }
    }
}

static void complete(void)
{
    uint32_t number = any_line();
    if (!called(COMPLETE, vq_layer_complete(&layer, number), first_answer(number)))
        return;
    struct op *op = least(&lines[number], 1, 0);
    lines[number].payload = op->value;
    remove_op(&lines[number], op);
}

static void signal_value(void)
{
    uint32_t number = any_line();
    uint64_t value = below(3), first = UINT64_MAX;
    struct vq_layer_answer wanted = says(VQ_LAYER_NO_TIMELINE, 0, 0);
    if (kind_of(number) == TIMELINE) {
        struct line *line = &lines[number];
        value += line->payload;
        for (uint32_t i = 0; i < line->op_count; i++)
            if (line->ops[i].value < first)
                first = line->ops[i].value;
        wanted = says(VQ_LAYER_DONE, 0, 0);
        if (first <= value)
            wanted = says(VQ_LAYER_OUTSTANDING, 0, first);
        if (value <= line->payload)
            wanted = says(VQ_LAYER_NOT_ABOVE, 0, line->payload);
    }
    if (called(SIGNAL, vq_layer_signal(&layer, number, value), wanted))
        lines[number].payload = value;
}

static void refer(void)
{
    uint32_t number = any_line(), point = below(4);
    int is_out = kind_of(number) != CLOSED && is_carried(&lines[number], point);
    struct vq_layer_answer wanted = says(is_out ? VQ_LAYER_DONE : VQ_LAYER_NOT_OUT, 0, 0);
    if (called(REFER, vq_layer_refer(&layer, number, point), wanted))
        lines[number].host_refs[point]++;
}

static void unref(void)
{
    uint32_t number = any_line(), point = below(4);
    int is_held = kind_of(number) != CLOSED && lines[number].host_refs[point] > 0;
    struct vq_layer_answer wanted = says(is_held ? VQ_LAYER_DONE : VQ_LAYER_NOT_HELD, 0, 0);
    if (called(UNREF, vq_layer_unref(&layer, number, point), wanted)) {
        lines[number].host_refs[point]--;
        free_if_idle(&lines[number], point);
    }
}

static void reset(void)
{
    uint32_t number = any_line();
    struct vq_layer_answer wanted = says(VQ_LAYER_NO_BINARY, 0, 0);
    if (kind_of(number) == BINARY) {
        struct line *line = &lines[number];
        int is_in_use = line->signals != line->taken && line->signals > line->payload;
        wanted = says(is_in_use ? VQ_LAYER_IN_USE : VQ_LAYER_DONE, 0, 0);
    }
    if (called(RESET, vq_layer_reset(&layer, number), wanted))
        lines[number].taken = lines[number].signals;
}

/* The questions. */

static void ask_line(uint32_t number)
{
    enum kind kind = kind_of(number);
    struct line *line = &lines[kind == CLOSED ? 0 : number];
    struct vq_layer_answer none = says(VQ_LAYER_NO_TIMELINE, 0, 0), no = says(VQ_LAYER_UNSIGNALED, 0, 0);
    int is_untaken = kind == BINARY && line->signals != line->taken;
    asked("value", vq_layer_value(&layer, number), kind == CLOSED ? none : says(VQ_LAYER_DONE, 0, line->payload));
    asked("pending_value", vq_layer_pending_value(&layer, number),
          kind == CLOSED ? none : says(VQ_LAYER_DONE, 0, pending_value(line)));
    asked("untaken", vq_layer_untaken(&layer, number), is_untaken ? says(VQ_LAYER_DONE, 0, line->signals) : no);
    asked("first", vq_layer_first(&layer, number), first_answer(number));
    for (uint64_t value = line->payload; value < line->payload + 6; value++)
        asked("find", vq_layer_find(&layer, number, value), find_answer(number, value));
}

static void ask_rows(const char *what, struct vq_layer_answer got, const struct vq_layer_point *room,
                     const struct vq_layer_point *rows, uint32_t count)
{
    asked(what, got, says(VQ_LAYER_DONE, 0, count));
    for (uint32_t i = 0; i < count; i++) {
        asked(what, says(VQ_LAYER_DONE, room[i].timeline, room[i].value),
              says(VQ_LAYER_DONE, rows[i].timeline, rows[i].value));
        asked(what, says(VQ_LAYER_DONE, room[i].point, 0), says(VQ_LAYER_DONE, rows[i].point, 0));
    }
}

static void ask_queue(uint32_t queue)
{
    struct vq_layer_point room[LISTED];
    int is_there = queue < queue_count;
    struct vq_layer_answer none = says(VQ_LAYER_NO_QUEUE, 0, 0);
    asked("blocked", vq_layer_blocked(&layer, queue), blocked_answer(queue));
    asked("stuck", vq_layer_stuck(&layer, queue), stuck_answer(queue));
    asked("batches", vq_layer_batches(&layer, queue), is_there ? says(VQ_LAYER_DONE, 0, queues[queue].count) : none);
    asked("released", vq_layer_released(&layer, queue),
          is_there ? says(VQ_LAYER_DONE, 0, released_count(queue)) : none);
    for (uint32_t i = 0; is_there && i < queues[queue].count; i++) {
        struct batch *batch = &queues[queue].batches[i];
        asked("token", vq_layer_token(&layer, queue, i), says(VQ_LAYER_DONE, 0, batch->token));
        ask_rows("waits", vq_layer_waits(&layer, queue, i, room, LISTED), room, batch->waits, batch->wait_count);
        ask_rows("signals", vq_layer_signals(&layer, queue, i, room, LISTED), room, batch->signals,
                 batch->signal_count);
    }
}

static void ask_everything(void)
{
    struct vq_layer_answer ready = says(VQ_LAYER_NONE_READY, 0, 0);
    for (uint32_t number = 0; number <= line_count; number++)
        ask_line(number);
    for (uint32_t queue = 0; queue <= queue_count; queue++)
        ask_queue(queue);
    for (uint32_t queue = queue_count; queue-- > 0;)
        if (blocked_answer(queue).code == VQ_LAYER_DONE)
            ready = says(VQ_LAYER_DONE, queue, 0);
    asked("next", vq_layer_next(&layer), ready);
}

static void step(void)
{
    static void (*const bodies[])(void) = {
        open_line, close_line, submit,   submit,   submit,   submit,       submit,       take_back, release, release,
        release,   release,    release,  finish,   finish,   finish,       complete,     complete,  complete, complete,
        complete,  complete,   complete, complete, complete, signal_value, signal_value, refer,     refer,   refer,
        unref,     unref,      unref,    unref,    unref,    reset,        reset};
    bodies[below(sizeof bodies / sizeof *bodies)]();
}

static void play(uint64_t most)
{
    line_count = queue_count = 0;
    memset(queues, 0, sizeof queues);
    if (vq_layer_open(&layer) != VQ_LAYER_DONE)
        exit(1);
    while (line_count < 3)
        open_line();
    for (uint32_t count = 1 + below(QUEUES); queue_count < count; queue_count++)
        asked("open_queue", vq_layer_open_queue(&layer), says(VQ_LAYER_DONE, queue_count, 0));
    for (uint32_t i = 0; i < CALLS_A_GAME && calls < most; i++) {
        step();
        ask_everything();
    }
    vq_layer_close(&layer);
}

int main(int argc, char **argv)
{
    uint64_t most = argc > 1 ? strtoull(argv[1], NULL, 10) : 0;
    if (most == 0)
        return 2;
    for (seed = argc > 2 ? strtoull(argv[2], NULL, 10) : 1; calls < most; seed++) {
        state = seed * UINT64_C(0x9E3779B97F4A7C15) | 1;
        play(most);
    }
    printf("%" PRIu64 " calls and %" PRIu64 " questions: the layer and the model agree\n", calls, questions);
    for (int kind = 0; kind < KINDS; kind++) {
        printf("%s: %" PRIu64 ", refused %" PRIu64 "\n", names[kind], accepted[kind], refused[kind]);
        if (most >= 10000 && (accepted[kind] == 0 || (refused[kind] == 0 && kind != OPEN)))
            return 1;
    }
    return 0;
}
