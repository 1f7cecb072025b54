/* Tests the actors of a run that threads share: of each script that is named, each actor is driven through its handle
 * by a thread of its own, with nothing held round a call, so many times; then the answers and the bytes of all buffers
 * are printed, as vq prints them. Misuse is answered by a code, and refused memory too. Stops with a line and status 1
 * where something is not as vq.h says.
 *
 * actors TIMES SCRIPT.. */
#include <inttypes.h>
#include <pthread.h>
#include <sched.h>
#include <stdio.h>
#include <stdlib.h>
#include <string.h>
#include <time.h>

#include "testing.h"
#include "vq.h"

enum { LONGEST = 1 << 23, ANSWERS = 4096, BYTES = 1 << 22, PATIENCE = 200 };

struct script {
    const char *name;
    const uint8_t *text;
    size_t length;
};

/* An actor's thread. */
struct part {
    const char *name;
    struct vq_handle actor;
    pthread_t thread;
};

/* A pause that gets longer where it is called again and again. */
static void rest(unsigned long *blocked)
{
    if (++*blocked < PATIENCE) {
        sched_yield();
        return;
    }
    struct timespec nap = {0, 20000};
    nanosleep(&nap, NULL);
}

/* The turns of an actor until it has ended; the host's thread then waits until all jobs are finished. */
static void *drive(void *of)
{
    struct part *part = of;
    struct vq_turn_result turn;
    unsigned long blocked = 0;
    uint32_t code;
    while ((code = vq_turn(&part->actor, &turn)) != VQ_ENDED) {
        if (code == VQ_MOVED)
            blocked = 0;
        else if (code == VQ_BLOCKED)
            rest(&blocked);
        else
            fail(part->name, "a turn got another code");
    }
    blocked = 0;
    while ((code = vq_finished(&part->actor)) == VQ_UNFINISHED)
        rest(&blocked);
    if (code != VQ_DONE && code != VQ_NOT_HOST)
        fail(part->name, "a look got another code");
    return NULL;
}

static const char *const answer_words[] = {"?", "ok", "timeout", "not-ready", "value"};

static void print_answers(const char *name, struct vq_handle *host)
{
    static struct vq_answered rows[ANSWERS];
    size_t count;
    if (vq_answers(host, rows, ANSWERS, &count) != VQ_DONE)
        fail(name, "no answers");
    for (size_t i = 0; i < count; i++) {
        printf("%" PRIu32 " %s", rows[i].line, answer_words[rows[i].kind]);
        if (rows[i].kind == VQ_ANSWER_VALUE)
            printf(" %" PRIu64, rows[i].value);
        printf("\n");
    }
}

/* The buffers, with the names that the script's lines give. */
static void print_buffers(const struct script *script, struct vq_handle *host, uint8_t *room)
{
    uint32_t buffer = 0;
    size_t size;
    for (const char *line = (const char *)script->text; *line != '\0';
         line += strcspn(line, "\n"), line += *line == '\n') {
        char name[256];
        if (sscanf(line, "buffer %255s", name) != 1 || strncmp(line, "buffer ", 7) != 0)
            continue;
        if (vq_bytes(host, buffer++, room, BYTES, &size) != VQ_DONE)
            fail(script->name, "no bytes");
        printf("buffer %s %zu\n", name, size);
        for (size_t i = 0; i < size; i++)
            printf("%02x%s", room[i], i % 16 == 15 || i == size - 1 ? "\n" : "");
    }
    printf("end\n");
    if (vq_bytes(host, buffer, room, BYTES, &size) != VQ_NO_BUFFER)
        fail(script->name, "a buffer too many");
}

/* What is asked of the wrong actor, or too early: nothing is done, and what was there stays. */
static void misuse(const char *name, struct vq_handle *actors, size_t count)
{
    struct vq_signal signal;
    struct vq_answered row;
    uint8_t room[1] = {0xaa};
    size_t needed = 77;
    for (size_t i = 1; i < count; i++)
        if (actors[i].at != NULL
            && (vq_finished(&actors[i]) != VQ_NOT_HOST
                || vq_answers(&actors[i], &row, 1, &needed) != VQ_NOT_HOST
                || vq_bytes(&actors[i], 0, room, sizeof room, &needed) != VQ_NOT_HOST))
            fail(name, "an actor that isn't the host answered for it");
    if (vq_finished(&actors[0]) != VQ_UNFINISHED
        || vq_bytes(&actors[0], 0, room, sizeof room, &needed) != VQ_UNFINISHED)
        fail(name, "a run that hasn't begun is finished");
    if (vq_op(&actors[0], UINT32_MAX, &signal) != VQ_NO_OP || vq_line(&actors[0], UINT32_MAX) != 0)
        fail(name, "an operation or a job that isn't there was found");
    if (needed != 77 || room[0] != 0xaa)
        fail(name, "a refused call wrote something");
}

/* An actor stands at each number that has one in a run over one core, and at no other. */
static void at_their_numbers(const struct script *script, const struct vq_handle *actors, size_t count)
{
    struct vq_handle run;
    struct vq_turn_result turn;
    if (vq_open(script->text, script->length, &run).code != VQ_LAWFUL || vq_actors(&run) != count)
        fail(script->name, "another number of actors");
    for (uint32_t i = 0; i < VQ_MOST_ACTORS; i++)
        if ((vq_turn_of(&run, i, &turn) == VQ_NO_ACTOR) != (actors[i].at == NULL))
            fail(script->name, "an actor stands at another number");
    vq_close(&run);
}

/* What isn't of the kind that a handle holds: nothing is done, and what was there stays. */
static void of_wrong_kind(const struct script *script, struct vq_handle *actor)
{
    struct vq_handle plan, run;
    struct vq_turn_result turn, same;
    struct vq_answered row;
    uint8_t room[1] = {0xaa};
    size_t needed = 77;
    memset(&turn, 0xaa, sizeof turn);
    same = turn;
    if (vq_plan(script->text, script->length, &plan).code != VQ_LAWFUL
        || vq_open(script->text, script->length, &run).code != VQ_LAWFUL)
        fail(script->name, "another verdict");
    if (vq_turn(&plan, &turn) != VQ_WRONG_KIND || vq_turn(&run, &turn) != VQ_WRONG_KIND
        || vq_turn_of(&plan, 0, &turn) != VQ_WRONG_KIND || vq_turn_of(actor, 0, &turn) != VQ_WRONG_KIND
        || memcmp(&turn, &same, sizeof turn) != 0)
        fail(script->name, "a turn of what has none");
    if (vq_finished(&plan) != VQ_WRONG_KIND || vq_answers(&plan, &row, 1, &needed) != VQ_WRONG_KIND
        || vq_bytes(&plan, 0, room, sizeof room, &needed) != VQ_WRONG_KIND || needed != 77 || room[0] != 0xaa)
        fail(script->name, "a plan was run");
    if (vq_actors(&plan) != vq_actors(&run) || vq_actors(&plan) != vq_actors(actor))
        fail(script->name, "handles of one script differ in their actors");
    struct vq_signal by_plan = {0}, by_run = {0}, by_actor = {0};
    uint32_t code;
    for (uint32_t op = 0; (code = vq_op(&plan, op, &by_plan)) == VQ_DONE; op++)
        if (vq_op(&run, op, &by_run) != VQ_DONE || vq_op(actor, op, &by_actor) != VQ_DONE
            || memcmp(&by_plan, &by_run, sizeof by_plan) != 0 || memcmp(&by_plan, &by_actor, sizeof by_plan) != 0
            || vq_line(&plan, by_plan.job) == 0 || vq_line(&plan, by_plan.job) != vq_line(actor, by_plan.job)
            || vq_line(&plan, by_plan.job) != vq_line(&run, by_plan.job))
            fail(script->name, "handles of one script differ in a signal operation");
    if (code != VQ_NO_OP)
        fail(script->name, "another code of a signal operation");
    vq_close(&plan);
    vq_close(&run);
}

/* Too little room: what goes in is written, and the number says how much there is. */
static void in_little_room(const char *name, struct vq_handle *host, uint8_t *whole)
{
    size_t size, again;
    if (vq_bytes(host, 0, whole, BYTES, &size) != VQ_DONE || size == 0)
        return;
    uint8_t *room = malloc(size);
    if (room == NULL)
        fail(name, "no memory");
    memset(room, 0xaa, size);
    if (vq_bytes(host, 0, room, size - 1, &again) != VQ_NO_ROOM || again != size
        || memcmp(room, whole, size - 1) != 0 || room[size - 1] != 0xaa)
        fail(name, "a smaller room got other bytes");
    free(room);
}

/* Where a copy's memory is refused, nothing is written. */
static void without_copies(const char *name, struct vq_handle *host, uint8_t *whole)
{
#ifndef WITHOUT_REFUSALS
    static struct vq_answered rows[ANSWERS];
    uint8_t room[1] = {0xaa};
    size_t size, count, needed = 77;
    if (vq_answers(host, rows, ANSWERS, &count) != VQ_DONE)
        fail(name, "no answers");
    left = 1;
    enum vq_code code = vq_answers(host, rows, ANSWERS, &needed);
    left = 0;
    if (count > 0 && (code != VQ_NO_MEMORY || needed != 77))
        fail(name, "answers without memory");
    if (vq_bytes(host, 0, whole, BYTES, &size) != VQ_DONE)
        return;
    needed = 77;
    left = 1;
    code = vq_bytes(host, 0, room, sizeof room, &needed);
    left = 0;
    if (code != VQ_NO_MEMORY || needed != 77 || room[0] != 0xaa)
        fail(name, "bytes without memory");
#else
    (void)name, (void)host, (void)whole;
#endif
}

/* Closes all actors but the host, the last of them after a look that finds it open. */
static void close_workers(const char *name, struct part *parts, size_t count)
{
    uint8_t room[1];
    size_t needed;
    for (size_t i = count - 1; i > 0; i--) {
        if (parts[i].actor.at == NULL)
            continue;
        if (vq_bytes(&parts[0].actor, 0, room, sizeof room, &needed) != VQ_SHARED)
            fail(name, "bytes while another actor is open");
        vq_close(&parts[i].actor);
    }
}

static void run(const struct script *script, struct vq_handle *actors, size_t count, uint8_t *room, int is_first)
{
    static struct part parts[VQ_MOST_ACTORS];
    for (size_t i = 0; i < count; i++) {
        parts[i].name = script->name;
        parts[i].actor = actors[i];
        if (actors[i].at != NULL && pthread_create(&parts[i].thread, NULL, drive, &parts[i]) != 0)
            fail(script->name, "no thread");
    }
    for (size_t i = 0; i < count; i++)
        if (parts[i].actor.at != NULL)
            pthread_join(parts[i].thread, NULL);
    close_workers(script->name, parts, count);
    print_answers(script->name, &parts[0].actor);
    print_buffers(script, &parts[0].actor, room);
    if (is_first) {
        in_little_room(script->name, &parts[0].actor, room);
        without_copies(script->name, &parts[0].actor, room);
    }
    struct vq_turn_result turn;
    if (vq_turn(&parts[0].actor, &turn) != VQ_CLOSED || vq_finished(&parts[0].actor) != VQ_DONE)
        fail(script->name, "a run that is closed isn't at its end");
    vq_close(&parts[0].actor);
}

/* Some turns of each actor, and then all are closed, the host first or last. */
static void given_up(const struct script *script, int turns, int is_host_first)
{
    struct vq_handle actors[VQ_MOST_ACTORS];
    struct vq_turn_result turn;
    size_t count;
    if (vq_share(script->text, script->length, actors, VQ_MOST_ACTORS, &count).code != VQ_LAWFUL)
        fail(script->name, "another verdict");
    for (int k = 0; k < turns; k++)
        for (size_t i = 0; i < count; i++)
            if (actors[i].at != NULL)
                IS(vq_turn(&actors[i], &turn) == VQ_NO_HANDLE, 0);
    for (size_t i = 0; i < count; i++) {
        size_t which = is_host_first ? i : count - 1 - i;
        if (actors[which].at != NULL)
            vq_close(&actors[which]);
    }
}

/* Each allocation of an opening in turn is refused: then nothing is opened, and nothing is lost. */
static void without_memory(const struct script *script)
{
#ifndef WITHOUT_REFUSALS
    for (unsigned long n = 1;; n += 1 + n / 20) {
        struct vq_handle plan = {NULL};
        left = n;
        struct vq_verdict verdict = vq_plan(script->text, script->length, &plan);
        int came = left == 0;
        left = 0;
        if (verdict.code == VQ_LAWFUL)
            vq_close(&plan);
        if (!came)
            break;
        if (verdict.code != VQ_LAWFUL && (verdict.code != VQ_NO_MEMORY || plan.at != NULL))
            fail(script->name, "another end of a plan for want of memory");
    }
    for (unsigned long n = 1;; n += 1 + n / 400) {
        struct vq_handle actors[VQ_MOST_ACTORS] = {{NULL}};
        size_t count = 77;
        left = n;
        struct vq_verdict verdict = vq_share(script->text, script->length, actors, VQ_MOST_ACTORS, &count);
        int came = left == 0;
        left = 0;
        if (verdict.code == VQ_LAWFUL)
            for (size_t i = 0; i < count; i++)
                if (actors[i].at != NULL)
                    vq_close(&actors[i]);
        if (!came)
            return;
        if (verdict.code != VQ_LAWFUL && (verdict.code != VQ_NO_MEMORY || actors[0].at != NULL || count != 77))
            fail(script->name, "another end for want of memory");
    }
#else
    (void)script;
#endif
}

/* A room that is one too small for the actors gets none, and says how many there are. */
static void in_few_places(const struct script *script, size_t count)
{
    struct vq_handle actors[VQ_MOST_ACTORS];
    size_t needed = 0;
    memset(actors, 0xaa, sizeof actors);
    struct vq_handle before = actors[0];
    if (vq_share(script->text, script->length, actors, count - 1, &needed).code != VQ_NO_ROOM || needed != count
        || memcmp(&actors[0], &before, sizeof before) != 0)
        fail(script->name, "actors went into too small a room");
}

static void test(int times, const struct script *script, uint8_t *room)
{
    for (int time = 0; time < times; time++) {
        struct vq_handle actors[VQ_MOST_ACTORS];
        size_t count = 77;
        memset(actors, 0xaa, sizeof actors);
        struct vq_verdict verdict = vq_share(script->text, script->length, actors, VQ_MOST_ACTORS, &count);
        if (verdict.code != vq_check(script->text, script->length).code)
            fail(script->name, "vq_share and vq_check differ");
        if (verdict.code != VQ_LAWFUL) {
            if (count != 77)
                fail(script->name, "actors of a script that isn't lawful");
            return;
        }
        if (time == 0) {
            misuse(script->name, actors, count);
            of_wrong_kind(script, &actors[0]);
            at_their_numbers(script, actors, count);
            in_few_places(script, count);
        }
        run(script, actors, count, room, time == 0);
    }
    for (int turns = 0; turns < 100; turns = 3 * turns + 1)
        for (int is_host_first = 0; is_host_first < 2; is_host_first++)
            given_up(script, turns, is_host_first);
    without_memory(script);
}

int main(int argc, char **argv)
{
    uint8_t *bytes = malloc(LONGEST), *room = malloc(BYTES);
    if (bytes == NULL || room == NULL)
        fail("actors", "no memory");
    for (int i = 2; i < argc; i++) {
        FILE *file = fopen(argv[i], "rb");
        if (file == NULL)
            fail(argv[i], "can't be read");
        struct script script = {argv[i], bytes, fread(bytes, 1, LONGEST - 1, file)};
        bytes[script.length] = '\0';
        fclose(file);
        test(atoi(argv[1]), &script, room);
    }
    free(bytes);
    free(room);
    return 0;
}
