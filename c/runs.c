/* Tests the runs of the face for C: of each script that is named, nine threads drive the actors of a run through it,
 * with a mutex of their own round each call, so many times; then the answers and the bytes of all buffers are printed,
 * as vq prints them. Misuse is answered by a code, and refused memory too. Stops with a line and status 1 where
 * something is not as vq.h says.
 *
 * runs TIMES SCRIPT.. */
#include <inttypes.h>
#include <pthread.h>
#include <sched.h>
#include <stdio.h>
#include <stdlib.h>
#include <string.h>

#include "testing.h"
#include "vq.h"

enum { LONGEST = 1 << 23, THREADS = 9, ANSWERS = 4096, BYTES = 1 << 22 };

struct shared {
    const char *name;
    pthread_mutex_t mutex;
    pthread_cond_t moved;
    unsigned long moves;
    struct vq_handle run;
};

struct part {
    struct shared *shared;
    uint32_t first;
};

/* A turn of an actor with the mutex held. Who is blocked waits until some actor has moved. */
static uint32_t one_turn(struct shared *shared, uint32_t actor)
{
    struct vq_turn_result turn;
    pthread_mutex_lock(&shared->mutex);
    enum vq_code code = vq_turn_of(&shared->run, actor, &turn);
    if (code == VQ_MOVED) {
        shared->moves++;
        pthread_cond_broadcast(&shared->moved);
    }
    pthread_mutex_unlock(&shared->mutex);
    return code;
}

/* A thread has the actors whose numbers are its own plus a multiple of the number of threads. */
static void *drive(void *of)
{
    const struct part *part = of;
    struct shared *shared = part->shared;
    pthread_mutex_lock(&shared->mutex);
    uint64_t actors = vq_actors(&shared->run);
    pthread_mutex_unlock(&shared->mutex);
    for (int is_left = 1; is_left;) {
        pthread_mutex_lock(&shared->mutex);
        unsigned long before = shared->moves;
        pthread_mutex_unlock(&shared->mutex);
        int has_moved = 0;
        is_left = 0;
        for (uint32_t actor = part->first; actor < actors; actor += THREADS) {
            uint32_t code = one_turn(shared, actor);
            if (code != VQ_MOVED && code != VQ_BLOCKED && code != VQ_ENDED && code != VQ_NO_ACTOR)
                fail(shared->name, "a turn got another code");
            has_moved |= code == VQ_MOVED;
            is_left |= code == VQ_MOVED || code == VQ_BLOCKED;
        }
        pthread_mutex_lock(&shared->mutex);
        while (is_left && !has_moved && shared->moves == before)
            pthread_cond_wait(&shared->moved, &shared->mutex);
        pthread_mutex_unlock(&shared->mutex);
    }
    return NULL;
}

static const char *const answer_words[] = {"?", "ok", "timeout", "not-ready", "value"};

/* The answers and the buffers, with the names that the script's lines give. */
static void print(struct shared *shared, const char *script, uint8_t *room)
{
    static struct vq_answered rows[ANSWERS];
    size_t count;
    if (vq_answers(&shared->run, rows, ANSWERS, &count) != VQ_DONE)
        fail(shared->name, "no answers");
    if (vq_answers(&shared->run, NULL, 0, NULL) != (count == 0 ? VQ_DONE : VQ_NO_ROOM))
        fail(shared->name, "answers without a room");
    for (size_t i = 0; i < count; i++) {
        printf("%" PRIu32 " %s", rows[i].line, answer_words[rows[i].kind]);
        if (rows[i].kind == VQ_ANSWER_VALUE)
            printf(" %" PRIu64, rows[i].value);
        printf("\n");
    }
    uint32_t buffer = 0;
    for (const char *line = script; *line != '\0'; line += strcspn(line, "\n"), line += *line == '\n') {
        char name[256];
        if (sscanf(line, "buffer %255s", name) != 1 || strncmp(line, "buffer ", 7) != 0)
            continue;
        size_t size;
        if (vq_bytes(&shared->run, buffer++, room, BYTES, &size) != VQ_DONE)
            fail(shared->name, "no bytes");
        printf("buffer %s %zu\n", name, size);
        for (size_t i = 0; i < size; i++)
            printf("%02x%s", room[i], i % 16 == 15 || i == size - 1 ? "\n" : "");
    }
    printf("end\n");
    if (vq_bytes(&shared->run, buffer, room, BYTES, &count) != VQ_NO_BUFFER)
        fail(shared->name, "a buffer too many");
}

static void run(struct shared *shared)
{
    pthread_t threads[THREADS];
    struct part parts[THREADS];
    for (uint32_t i = 0; i < THREADS; i++) {
        parts[i] = (struct part){shared, i};
        if (pthread_create(&threads[i], NULL, drive, &parts[i]) != 0)
            fail(shared->name, "no thread");
    }
    for (int i = 0; i < THREADS; i++)
        pthread_join(threads[i], NULL);
    if (vq_finished(&shared->run) != VQ_DONE)
        fail(shared->name, "all actors have ended, and not all jobs are finished");
}

/* Each code that misuse has: nothing is done, and what was there stays. */
static void misuse(struct shared *shared)
{
    struct vq_turn_result turn, same;
    struct vq_signal signal;
    uint8_t room[1] = {0xaa};
    size_t needed = 77;
    memset(&turn, 0xaa, sizeof turn);
    same = turn;
    if (vq_turn_of(&shared->run, UINT32_MAX, &turn) != VQ_NO_ACTOR || memcmp(&turn, &same, sizeof turn) != 0)
        fail(shared->name, "an actor that isn't there had a turn");
    if (vq_op(&shared->run, UINT32_MAX, &signal) != VQ_NO_OP || vq_line(&shared->run, UINT32_MAX) != 0)
        fail(shared->name, "an operation or a job that isn't there was found");
    if (vq_turn_of(&shared->run, UINT32_MAX, NULL) != VQ_NO_ACTOR || vq_op(&shared->run, UINT32_MAX, NULL) != VQ_NO_OP)
        fail(shared->name, "a call whose output isn't wanted has another code");
    if (vq_finished(&shared->run) == VQ_UNFINISHED
        && (vq_bytes(&shared->run, 0, room, sizeof room, &needed) != VQ_UNFINISHED || needed != 77 || room[0] != 0xaa))
        fail(shared->name, "bytes of an unfinished run");
}

/* Too little room: what goes in is written, and the number says how much there is. */
static void in_little_room(struct shared *shared, uint8_t *whole)
{
    size_t size, again;
    if (vq_bytes(&shared->run, 0, whole, BYTES, &size) != VQ_DONE || size == 0)
        return;
    uint8_t *room = malloc(size);
    if (room == NULL)
        fail(shared->name, "no memory");
    memset(room, 0xaa, size);
    if (vq_bytes(&shared->run, 0, room, size - 1, &again) != VQ_NO_ROOM || again != size
        || memcmp(room, whole, size - 1) != 0 || room[size - 1] != 0xaa)
        fail(shared->name, "a smaller room got other bytes");
    free(room);
}

/* Each allocation of an opening in turn is refused: then there is no run, and nothing is lost. */
static void without_memory(const char *name, const uint8_t *text, size_t length)
{
#ifndef WITHOUT_REFUSALS
    for (unsigned long n = 1;; n += 1 + n / 20) {
        struct vq_handle run = {NULL};
        left = n;
        struct vq_verdict verdict = vq_open(text, length, &run);
        int came = left == 0;
        left = 0;
        if (verdict.code == VQ_LAWFUL)
            vq_close(&run);
        if (!came)
            return;
        if (verdict.code != VQ_LAWFUL && (verdict.code != VQ_NO_MEMORY || run.at != NULL))
            fail(name, "another end for want of memory");
    }
#else
    (void)name, (void)text, (void)length;
#endif
}

static void test(int times, const char *name, uint8_t *bytes, uint8_t *room)
{
    FILE *file = fopen(name, "rb");
    if (file == NULL)
        fail(name, "can't be read");
    size_t length = fread(bytes, 1, LONGEST - 1, file);
    bytes[length] = '\0';
    fclose(file);
    for (int time = 0; time < times; time++) {
        struct shared shared = {.name = name, .run = {NULL}};
        pthread_mutex_init(&shared.mutex, NULL);
        pthread_cond_init(&shared.moved, NULL);
        struct vq_verdict verdict = vq_open(bytes, length, &shared.run);
        if (verdict.code != vq_check(bytes, length).code)
            fail(name, "vq_open and vq_check differ");
        if (verdict.code != VQ_LAWFUL) {
            if (shared.run.at != NULL)
                fail(name, "a run of a script that isn't lawful");
            return;
        }
        if (time == 0)
            misuse(&shared);
        run(&shared);
        print(&shared, (const char *)bytes, room);
        if (time == 0)
            in_little_room(&shared, room);
        vq_close(&shared.run);
    }
    without_memory(name, bytes, length);
}

/* Of a handle that holds nothing each call says so, and leaves its output. */
static void nothing_is_open(struct vq_handle *handle)
{
    struct vq_turn_result turn, turn_before;
    struct vq_signal signal, signal_before;
    struct vq_answered answered, answered_before;
    uint8_t byte = 77;
    size_t needed = 77;
    memset(&turn, 0xaa, sizeof turn);
    memset(&turn_before, 0xaa, sizeof turn);
    memset(&signal, 0xaa, sizeof signal);
    memset(&signal_before, 0xaa, sizeof signal);
    memset(&answered, 0xaa, sizeof answered);
    memset(&answered_before, 0xaa, sizeof answered);
    IS(vq_turn(handle, &turn), VQ_NO_HANDLE);
    IS(vq_turn_of(handle, 0, &turn), VQ_NO_HANDLE);
    IS(vq_op(handle, 0, &signal), VQ_NO_HANDLE);
    IS(vq_finished(handle), VQ_NO_HANDLE);
    IS(vq_answers(handle, &answered, 1, &needed), VQ_NO_HANDLE);
    IS(vq_bytes(handle, 0, &byte, 1, &needed), VQ_NO_HANDLE);
    IS(vq_actors(handle), 0);
    IS(vq_line(handle, 0), 0);
    IS(memcmp(&turn, &turn_before, sizeof turn), 0);
    IS(memcmp(&signal, &signal_before, sizeof signal), 0);
    IS(memcmp(&answered, &answered_before, sizeof answered), 0);
    IS(byte == 77 && needed == 77, 1);
    vq_close(handle);
    IS(handle->at == NULL, 1);
}

static void never_opened_and_closed(void)
{
    static const uint8_t text[] = "queue q immediate\n";
    struct vq_handle handle = VQ_NOTHING;
    nothing_is_open(&handle);
    IS(vq_open(text, sizeof text - 1, &handle).code, VQ_LAWFUL);
    vq_close(&handle);
    nothing_is_open(&handle);
    IS(strcmp(vq_words(VQ_NO_HANDLE), "nothing is open at the handle: it was never opened, or is closed"), 0);
}

int main(int argc, char **argv)
{
    never_opened_and_closed();
    uint8_t *bytes = malloc(LONGEST), *room = malloc(BYTES);
    if (bytes == NULL || room == NULL)
        fail("runs", "no memory");
    for (int i = 2; i < argc; i++)
        test(atoi(argv[1]), argv[i], bytes, room);
    free(bytes);
    free(room);
    return 0;
}
