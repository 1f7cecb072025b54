/* Batches: they are written in an order in which they could have run. One that waits for a signal which is still to
 * come is held back, and `hand` marks where it was submitted. */
#include "capture.h"

#include <stdlib.h>

static unsigned held, tickets;
static struct thing **queues; /* those that have had batches held back */
static size_t queue_count, queue_room;

unsigned held_batches(void)
{
    return held;
}

struct batch *new_batch(const char *call)
{
    struct batch *b = get(1, sizeof *b);
    if (b)
        b->call = call;
    return b;
}

static void free_batch(struct batch *b)
{
    free(b->text.bytes);
    free(b->waits);
    free(b->signals);
    free(b);
}

void add_wait(struct batch *b, struct thing *t, uint64_t value, uint32_t stages)
{
    if (!b || !t)
        return;
    if (t->is_imported) {
        b->needs_cut = true;
        count_unseen(UNSEEN_IMPORTS);
        return;
    }
    if (!has_room((void **)&b->waits, &b->wait_room, b->wait_count, sizeof *b->waits))
        return;
    b->waits[b->wait_count++] = (struct await){t, value};
    char words[SCOPE_TEXT];
    if (t->letter == TIMELINE)
        say(&b->text, "wait T%u %llu %s\n", t->number, (unsigned long long)value, scope_words(words, stages));
    else
        say(&b->text, "wait S%u %s\n", t->number, scope_words(words, stages));
}

void add_signal(struct batch *b, struct thing *t, uint64_t value, uint32_t stages)
{
    if (!b || !t || !has_room((void **)&b->signals, &b->signal_room, b->signal_count, sizeof *b->signals))
        return;
    b->signals[b->signal_count++] = (struct await){t, value};
    char words[SCOPE_TEXT];
    if (t->letter == TIMELINE)
        say(&b->text, "signal T%u %llu %s\n", t->number, (unsigned long long)value, scope_words(words, stages));
    else
        say(&b->text, "signal S%u %s\n", t->number, scope_words(words, stages));
}

void add_fence(struct batch *b, struct thing *t)
{
    if (!b || !t)
        return;
    b->fence = t;
    say(&b->text, "fence F%u\n", t->number);
}

/* An event's line: awaited where it was set on this queue; else a barrier of all stages, which orders more. */
static void add_mark(struct batch *b, const struct mark *m, struct thing *queue)
{
    char words[SCOPE_TEXT];
    const char *scope = scope_words(words, m->scope);
    if (m->is_set) {
        m->event->set_on = queue;
        say(&b->text, "set E%u %s\n", m->event->number, scope);
    } else if (m->event->set_on == queue) {
        say(&b->text, "await E%u %s\n", m->event->number, scope);
    } else {
        count_unseen(UNSEEN_EVENTS);
        say(&b->text, "barrier all %s # an event that this queue didn't set\n", scope);
    }
}

void add_commands(struct device *d, struct batch *b, VkCommandBuffer handle, struct thing *queue)
{
    const struct commands *l = table_get(&d->tables[COMMANDS], KEY(handle));
    if (!b || !l || (l->text.size == 0 && l->mark_count == 0))
        return;
    if (b->has_commands)
        say(&b->text, "next\n");
    b->has_commands = true;
    say(&b->text, "# command buffer C%u\n", l->number);
    size_t at = 0;
    for (size_t i = 0; i < l->mark_count; i++) {
        append(&b->text, l->text.bytes + at, l->marks[i].at - at);
        at = l->marks[i].at;
        add_mark(b, &l->marks[i], queue);
    }
    if (l->text.size > at)
        append(&b->text, l->text.bytes + at, l->text.size - at);
}

/* Writing -------------------------------------------------------------------------------------------------------- */

static bool is_ready(const struct batch *b)
{
    for (size_t i = 0; i < b->wait_count; i++) {
        const struct thing *t = b->waits[i].thing;
        if (t->letter == TIMELINE ? t->top < b->waits[i].value : !t->is_signaled)
            return false;
    }
    return true;
}

static void write_batch(const struct thing *queue, struct batch *b)
{
    if (b->needs_cut)
        write_host_line("cut # what was imported is awaited\n");
    if (b->ticket)
        write_line("submit Q%u K%u # %s\n", queue->number, b->ticket, b->call);
    else
        write_host_line("submit Q%u # %s\n", queue->number, b->call);
    write_text(&b->text);
    write_line("end\n");
    for (size_t i = 0; i < b->wait_count; i++)
        b->waits[i].thing->is_signaled = false;
    for (size_t i = 0; i < b->signal_count; i++) {
        struct await *s = &b->signals[i];
        s->thing->is_signaled = true;
        if (s->thing->letter == TIMELINE && s->thing->top < s->value)
            s->thing->top = s->value;
    }
    if (b->fence) {
        b->fence->is_used = true;
        b->fence->seen = 0;
    }
    free_batch(b);
}

void write_ready(void)
{
    for (bool has_moved = held > 0; has_moved;) {
        has_moved = false;
        for (size_t i = 0; i < queue_count; i++) {
            struct thing *q = queues[i];
            while (q->first && is_ready(q->first)) {
                struct batch *b = q->first;
                q->first = b->next;
                q->last = q->first ? q->last : NULL;
                held--;
                write_batch(q, b);
                has_moved = true;
            }
        }
    }
    write_ends();
    flush_capture();
}

static void hold_back(struct thing *queue, struct batch *b)
{
    bool is_known = false;
    for (size_t i = 0; i < queue_count; i++)
        is_known = is_known || queues[i] == queue;
    if (!is_known) {
        if (!has_room((void **)&queues, &queue_room, queue_count, sizeof(struct thing *))) {
            free_batch(b);
            return;
        }
        queues[queue_count++] = queue;
    }
    b->ticket = ++tickets;
    write_host_line("hand K%u # %s\n", b->ticket, b->call);
    if (queue->last)
        queue->last->next = b;
    else
        queue->first = b;
    queue->last = b;
    held++;
}

void hand_on(struct thing *queue, struct batch *b)
{
    if (!b)
        return;
    if (!queue || !is_recording())
        free_batch(b);
    else if (!queue->first && is_ready(b))
        write_batch(queue, b);
    else
        hold_back(queue, b);
    write_ready();
}

/* The batches of a device that goes are lost. */
void drop_batches(struct device *d)
{
    size_t left = 0;
    for (size_t i = 0; i < queue_count; i++) {
        bool is_its = false;
        for (struct thing *t = d->things; t; t = t->next)
            is_its = is_its || t == queues[i];
        if (!is_its) {
            queues[left++] = queues[i];
            continue;
        }
        while (queues[i]->first) {
            struct batch *b = queues[i]->first;
            queues[i]->first = b->next;
            held--;
            count_unseen(UNSEEN_BATCHES);
            free_batch(b);
        }
    }
    queue_count = left;
    if (left == 0) {
        free(queues);
        queues = NULL;
        queue_room = 0;
    }
}
