/* What the live layer did, written down for `vq --audit`. */
#include "trace.h"

#include "device.h"

#include <inttypes.h>
#include <stdarg.h>
#include <stdatomic.h>
#include <stdio.h>
#include <stdlib.h>
#include <string.h>

/* The limits of scripts (docs/LANGUAGE.md, "Limits"). */
enum { MOST_TIMELINES = 256, MOST_JOBS = 8192, MOST_SCRIPT_QUEUES = 16, MOST_MARKS = 16, MOST_TEXT = 1 << 21 };

enum what { SUBMIT, TAKE, TAKE_AGAIN, RELEASE, BIND, START, SIGNAL, FINISH, COMPLETE, FREE, ANSWER_OK, ANSWER_VALUE };

enum who { HOST, SUBMITTER, RING };

struct event {
    enum what what;
    enum who who;
    uint32_t queue;
    uint32_t line;
    uint32_t name;
    uint32_t point;
    uint64_t value;
    bool is_binary;
};

static void give_up(struct device *d, const char *why)
{
    complain(why, (int64_t)d->trace.jobs);
    d->trace.is_on = false;
}

static void append(struct device *d, struct text *text, const char *format, ...)
{
    char line[128];
    va_list words;
    va_start(words, format);
    int size = vsnprintf(line, sizeof line, format, words);
    va_end(words);
    if (text->size + (size_t)size + 1 > text->room) {
        size_t room = 2 * text->room + 4096;
        char *larger = realloc(text->bytes, room);
        if (!larger) {
            give_up(d, "no memory for the trace");
            return;
        }
        text->bytes = larger;
        text->room = room;
    }
    memcpy(text->bytes + text->size, line, (size_t)size + 1);
    text->size += (size_t)size;
}

static void tell(struct device *d, struct event event)
{
    struct trace *t = &d->trace;
    if (!t->is_on)
        return;
    if (t->event_count == t->event_room) {
        size_t room = 2 * t->event_room + 1024;
        struct event *larger = realloc(t->events, room * sizeof *larger);
        if (!larger) {
            give_up(d, "no memory for the trace");
            return;
        }
        t->events = larger;
        t->event_room = room;
    }
    t->events[t->event_count++] = event;
    t->finished += event.what == FINISH;
}

void open_trace(struct trace *trace, const char *path)
{
    static atomic_uint count;
    *trace = (struct trace){0};
    if (path[0] == '\0')
        return;
    unsigned before = atomic_fetch_add(&count, 1);
    int size = before == 0 ? snprintf(trace->path, sizeof trace->path, "%s", path)
                           : snprintf(trace->path, sizeof trace->path, "%s.%u", path, before);
    trace->is_on = size > 0 && (size_t)size < sizeof trace->path;
}

void trace_timeline(struct device *d, struct timeline *t, uint64_t initial)
{
    if (!d->trace.is_on)
        return;
    if (d->trace.timeline_count == MOST_TIMELINES) {
        d->trace.is_cut = true;
        return;
    }
    t->name = ++d->trace.timeline_count;
    if (t->is_binary)
        append(d, &d->trace.declarations, "binary S%" PRIu32 "\n", t->name);
    else
        append(d, &d->trace.declarations, "timeline T%" PRIu32 " %" PRIu64 "\n", t->name, initial);
}

/* A job's first line: its number among the lines of jobs, or 0 where no more are written. */
static uint32_t new_job(struct device *d, uint32_t lines)
{
    struct trace *t = &d->trace;
    t->is_cut = t->is_cut || t->jobs == MOST_JOBS || t->job_text.size > MOST_TEXT
                || d->queue_count > MOST_SCRIPT_QUEUES;
    if (!t->is_on || t->is_cut)
        return 0;
    uint32_t line = t->job_lines + 1;
    t->jobs++;
    t->job_lines += lines;
    return line;
}

/* Points: what the trace numbers by their use, the one of a timeline that was given up last first. -------------- */

static uint32_t take_point(struct device *d, struct timeline *t, enum what *what)
{
    *what = t->free_count > 0 ? TAKE_AGAIN : TAKE;
    return t->free_count > 0 ? t->free_points[--t->free_count] : d->trace.fresh++;
}

static void free_point(struct device *d, struct timeline *t, uint32_t point)
{
    if (t->free_count == t->free_room) {
        uint32_t room = 2 * t->free_room + 8;
        uint32_t *larger = realloc(t->free_points, room * sizeof *larger);
        if (!larger) {
            give_up(d, "no memory for the trace");
            return;
        }
        t->free_points = larger;
        t->free_room = room;
    }
    t->free_points[t->free_count++] = point;
}

/* Batches ------------------------------------------------------------------------------------------------------- */

static bool can_be_written(const struct device *d, const struct batch *b, uint64_t signal_count)
{
    for (uint32_t i = 0; i < b->wait_count; i++)
        if (b->waits[i].is_named && b->waits[i].timeline->name == 0)
            return false;
    for (uint32_t i = 0; i < b->signal_count; i++)
        if (!b->signals[i].is_named)
            return false;
    for (uint64_t i = 0; i < signal_count; i++)
        if (d->numbers[b->points[i].timeline]->name == 0)
            return false;
    return b->named_waits <= MOST_MARKS && signal_count <= MOST_MARKS;
}

/* A line of a batch; of a binary semaphore it has no value. */
static void append_mark(struct device *d, const char *word, bool is_binary, uint32_t name, uint64_t value)
{
    if (is_binary)
        append(d, &d->trace.job_text, "%s S%" PRIu32 "\n", word, name);
    else
        append(d, &d->trace.job_text, "%s T%" PRIu32 " %" PRIu64 "\n", word, name, value);
}

void trace_submit(struct device *d, struct batch *b, uint64_t signal_count)
{
    if (!d->trace.is_on || (b->named_waits == 0 && signal_count == 0))
        return;
    if (!can_be_written(d, b, signal_count)) {
        d->trace.is_cut = true;
        return;
    }
    struct told *told = calloc(1, sizeof *told + signal_count * sizeof told->signals[0]);
    struct flight **awaited = calloc((size_t)b->named_waits + 1, sizeof *awaited);
    if (!told || !awaited) {
        free(told);
        free(awaited);
        give_up(d, "no memory for the trace");
        return;
    }
    told->awaited = awaited;
    struct text *to = &d->trace.job_text;
    for (uint64_t i = 0; i < signal_count; i++) {
        const struct timeline *t = d->numbers[b->points[i].timeline];
        told->signals[told->signal_count++] = (struct told_signal){t->name, t->is_binary, b->points[i].value};
    }
    told->line = new_job(d, 2 + b->named_waits + told->signal_count);
    b->flight->told = told;
    if (told->line == 0)
        return;
    append(d, to, "submit Q%" PRIu32 "\n", b->queue->number);
    for (uint32_t i = 0; i < b->wait_count; i++)
        if (b->waits[i].is_named)
            append_mark(d, "wait", b->waits[i].timeline->is_binary, b->waits[i].timeline->name, b->waits[i].value);
    for (uint32_t i = 0; i < told->signal_count; i++)
        append_mark(d, "signal", told->signals[i].is_binary, told->signals[i].name, told->signals[i].value);
    append(d, to, "end\n");
    tell(d, (struct event){.what = SUBMIT, .who = HOST, .line = told->line});
}

void trace_refused(struct device *d)
{
    if (d->trace.is_on)
        give_up(d, "a submit is refused, and no trace is written");
}

/* Whether a flight's batch is in the script. */
static bool is_written(const struct device *d, const struct flight *f)
{
    return d->trace.is_on && f->told && f->told->line > 0;
}

void trace_release(struct device *d, struct batch *b, uint64_t signal_count)
{
    if (!is_written(d, b->flight))
        return;
    uint32_t queue = b->queue->number;
    for (uint64_t i = 0; i < signal_count; i++) {
        struct timeline *t = d->numbers[b->points[i].timeline];
        struct event take = {.who = SUBMITTER, .queue = queue, .name = t->name, .is_binary = t->is_binary,
                             .value = b->points[i].value};
        take.point = t->syncs[b->points[i].point].told_point = take_point(d, t, &take.what);
        tell(d, take);
    }
    tell(d, (struct event){.what = RELEASE, .who = SUBMITTER, .queue = queue, .line = b->flight->told->line});
    for (uint64_t i = 0; i < signal_count; i++) {
        const struct timeline *t = d->numbers[b->points[i].timeline];
        tell(d, (struct event){.what = BIND, .who = SUBMITTER, .queue = queue, .name = t->name,
                               .is_binary = t->is_binary, .value = b->points[i].value,
                               .point = t->syncs[b->points[i].point].told_point});
    }
}

void trace_awaits(struct device *d, struct batch *b, struct flight *awaited)
{
    struct told *told = b->flight->told;
    if (!is_written(d, b->flight) || !is_written(d, awaited) || awaited->told->is_told)
        return;
    refer_flight(awaited);
    told->awaited[told->awaited_count++] = awaited;
}

/* Tells that the device ran a batch, after those that it waited for: a fence may be seen before theirs. */
static void tell_flight(struct device *d, struct flight *f)
{
    struct told *told = f->told;
    if (!told || told->is_told)
        return;
    told->is_told = true;
    for (uint32_t i = 0; i < told->awaited_count; i++) {
        struct flight *awaited = told->awaited[i];
        bool is_there = awaited->told && !awaited->told->is_told;
        for (struct flight *g = is_there ? awaited->queue->oldest : NULL; g; g = g == awaited ? NULL : g->next)
            tell_flight(d, g);
        unrefer_flight(d, awaited);
    }
    told->awaited_count = 0;
    if (told->line == 0)
        return;
    struct event event = {.what = START, .who = RING, .queue = f->queue->number, .line = told->line};
    tell(d, event);
    for (uint32_t i = 0; i < told->signal_count; i++)
        tell(d, (struct event){.what = SIGNAL, .who = RING, .queue = f->queue->number, .name = told->signals[i].name,
                               .is_binary = told->signals[i].is_binary, .value = told->signals[i].value});
    event.what = FINISH;
    tell(d, event);
}

void trace_done(struct device *d, struct flight *f)
{
    tell_flight(d, f);
}

void trace_complete(struct device *d, struct timeline *t, uint32_t point, uint64_t value)
{
    const struct sync *sync = &t->syncs[point];
    if (!d->trace.is_on || !sync->flight || !sync->flight->told || sync->flight->told->line == 0)
        return;
    struct event event = {.what = COMPLETE, .who = HOST, .name = t->name, .is_binary = t->is_binary, .value = value,
                          .point = sync->told_point};
    tell(d, event);
    event.what = FREE;
    tell(d, event);
    free_point(d, t, sync->told_point);
}

/* Host steps ---------------------------------------------------------------------------------------------------- */

void trace_host_signal(struct device *d, struct timeline *t, uint64_t value)
{
    uint32_t line = t->name ? new_job(d, 1) : 0;
    if (line == 0)
        return;
    append(d, &d->trace.job_text, "host signal T%" PRIu32 " %" PRIu64 "\n", t->name, value);
    struct event event = {.who = HOST, .line = line, .name = t->name, .value = value};
    enum what take;
    event.point = take_point(d, t, &take);
    for (enum what each[] = {START, take, BIND, SIGNAL, FINISH, COMPLETE, FREE}, *at = each; at < each + 7; at++) {
        event.what = *at;
        tell(d, event);
    }
    free_point(d, t, event.point);
}

static void answer(struct device *d, uint32_t line, enum what what, uint64_t value)
{
    tell(d, (struct event){.what = START, .who = HOST, .line = line});
    tell(d, (struct event){.what = what, .who = HOST, .line = line, .value = value});
    tell(d, (struct event){.what = FINISH, .who = HOST, .line = line});
}

void trace_host_wait(struct device *d, bool is_any, uint32_t count, struct timeline *const *timelines,
                     const uint64_t *values)
{
    bool are_known = d->trace.is_on && count > 0 && count <= MOST_MARKS;
    for (uint32_t i = 0; are_known && i < count; i++)
        are_known = timelines[i]->name != 0;
    uint32_t line = are_known ? new_job(d, 1) : 0;
    if (line == 0)
        return;
    append(d, &d->trace.job_text, "host wait %s", is_any ? "any" : "all");
    for (uint32_t i = 0; i < count; i++)
        append(d, &d->trace.job_text, " T%" PRIu32 " %" PRIu64, timelines[i]->name, values[i]);
    append(d, &d->trace.job_text, "\n");
    answer(d, line, ANSWER_OK, 0);
}

void trace_host_read(struct device *d, struct timeline *t, uint64_t value)
{
    uint32_t line = t->name ? new_job(d, 1) : 0;
    if (line == 0)
        return;
    append(d, &d->trace.job_text, "host read T%" PRIu32 "\n", t->name);
    answer(d, line, ANSWER_VALUE, value);
}

/* The file ------------------------------------------------------------------------------------------------------ */

static void write_event(FILE *to, const struct event *e, uint32_t before)
{
    uint32_t line = e->line + before;
    char name = e->is_binary ? 'S' : 'T';
    if (e->who == HOST)
        fprintf(to, " host ");
    else
        fprintf(to, " %c:Q%" PRIu32 " ", e->who == RING ? 'R' : 'S', e->queue);
    static const char *const words[] = {[SUBMIT] = "submit", [RELEASE] = "release", [START] = "start",
                                        [FINISH] = "finish", [SIGNAL] = "signal",   [COMPLETE] = "complete"};
    switch (e->what) {
    case TAKE:
    case TAKE_AGAIN:
        fprintf(to, "take %c%" PRIu32 " %" PRIu64 " %s %" PRIu32 "\n", name, e->name, e->value,
                e->what == TAKE ? "fresh" : "reused", e->point);
        break;
    case BIND:
        fprintf(to, "bind %c%" PRIu32 " %" PRIu64 " %" PRIu32 "\n", name, e->name, e->value, e->point);
        break;
    case FREE:
        fprintf(to, "free %" PRIu32 "\n", e->point);
        break;
    case SIGNAL:
    case COMPLETE:
        fprintf(to, "%s %c%" PRIu32 " %" PRIu64 "\n", words[e->what], name, e->name, e->value);
        break;
    case ANSWER_OK:
        fprintf(to, "answer %" PRIu32 " ok\n", line);
        break;
    case ANSWER_VALUE:
        fprintf(to, "answer %" PRIu32 " value %" PRIu64 "\n", line, e->value);
        break;
    default:
        fprintf(to, "%s %" PRIu32 "\n", words[e->what], line);
    }
}

/* The trace ends before the last finish, since it knows no buffers' bytes (docs/AUDIT.md). */
static size_t end_of(const struct trace *t)
{
    size_t end = t->event_count;
    if (t->finished < t->jobs || t->jobs == 0)
        return end;
    while (t->events[end - 1].what != FINISH)
        end--;
    return end - 1;
}

static void write_trace(const struct device *d)
{
    const struct trace *t = &d->trace;
    FILE *to = fopen(t->path, "w");
    if (!to) {
        complain("the trace can't be written", 0);
        return;
    }
    fprintf(to, "version 2\n%s", t->declarations.bytes ? t->declarations.bytes : "");
    for (uint32_t i = 0; i < d->queue_count; i++)
        fprintf(to, "queue Q%" PRIu32 " threaded\n", i);
    fprintf(to, "%strace\n", t->job_text.bytes ? t->job_text.bytes : "");
    uint32_t before = 1 + t->timeline_count + d->queue_count;
    size_t end = end_of(t);
    for (size_t i = 0; i < end; i++) {
        fprintf(to, "%zu", i + 1);
        write_event(to, &t->events[i], before);
    }
    uint32_t left = t->jobs - t->finished + (end < t->event_count);
    if (left > 0)
        fprintf(to, "unfinished %" PRIu32 "\n", left);
    else
        fprintf(to, "finished\nend\n");
    fclose(to);
}

void close_trace(struct device *d)
{
    if (d->trace.is_on)
        write_trace(d);
    free(d->trace.declarations.bytes);
    free(d->trace.job_text.bytes);
    free(d->trace.events);
}
