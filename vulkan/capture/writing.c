/* The capture's file, its host threads, and what is said at the end.
 *
 * VQ_CAPTURE_FILE names the file, which may be a pipe; %p in it stands for the process's number. Where it isn't set
 * nothing is recorded. */
#include "capture.h"

#include <stdarg.h>
#include <stdlib.h>
#include <string.h>
#include <unistd.h>

static pthread_mutex_t lock = PTHREAD_MUTEX_INITIALIZER;
static FILE *out;
static bool is_open, is_lost;
static pid_t process;
static unsigned long counts[UNSEEN_KINDS];

void lock_recorder(void)
{
    pthread_mutex_lock(&lock);
}

void unlock_recorder(void)
{
    pthread_mutex_unlock(&lock);
}

/* The name of the file, with the process's number for %p: false where it is too long. */
static bool name_file(char *to, size_t room, const char *name)
{
    const char *place = strstr(name, "%p");
    int size = place ? snprintf(to, room, "%.*s%ld%s", (int)(place - name), name, (long)getpid(), place + 2)
                     : snprintf(to, room, "%s", name);
    return size >= 0 && (size_t)size < room;
}

static void open_capture(void)
{
    is_open = true;
    process = getpid();
    const char *name = getenv("VQ_CAPTURE_FILE");
    char path[4096];
    if (name && name[0] != '\0' && name_file(path, sizeof path, name))
        out = fopen(path, "w");
    if (!out)
        fprintf(stderr, LAYER_NAME ": nothing is recorded: %s\n",
                name ? "the file of VQ_CAPTURE_FILE can't be written" : "VQ_CAPTURE_FILE names no file");
}

bool is_recording(void)
{
    if (!is_open)
        open_capture();
    return out && !is_lost && getpid() == process;
}

void lose_capture(const char *why)
{
    if (!is_lost)
        fprintf(stderr, LAYER_NAME ": the capture ends early: %s\n", why);
    is_lost = true;
}

void *get(size_t count, size_t size)
{
    void *memory = calloc(count > 0 ? count : 1, size);
    if (!memory)
        lose_capture("no memory");
    return memory;
}

bool has_room(void **list, size_t *room, size_t count, size_t size)
{
    if (count < *room)
        return true;
    size_t more = 2 * *room + 8;
    void *larger = realloc(*list, more * size);
    if (!larger) {
        lose_capture("no memory");
        return false;
    }
    *list = larger;
    *room = more;
    return true;
}

void append(struct text *text, const char *bytes, size_t size)
{
    if (is_lost || size == 0)
        return;
    if (text->size + size > text->room) {
        size_t room = 2 * (text->size + size) + 256;
        char *larger = realloc(text->bytes, room);
        if (!larger) {
            lose_capture("no memory");
            return;
        }
        text->bytes = larger;
        text->room = room;
    }
    memcpy(text->bytes + text->size, bytes, size);
    text->size += size;
}

void say(struct text *text, const char *format, ...)
{
    char line[512];
    va_list words;
    va_start(words, format);
    int size = vsnprintf(line, sizeof line, format, words);
    va_end(words);
    if (size > 0)
        append(text, line, (size_t)size < sizeof line ? (size_t)size : sizeof line - 1);
}

/* Lines ---------------------------------------------------------------------------------------------------------- */

void write_line(const char *format, ...)
{
    if (!is_recording())
        return;
    va_list words;
    va_start(words, format);
    vfprintf(out, format, words);
    va_end(words);
}

/* The locks of the application aren't seen: a thread is told all by the one that did the line before. */
static void name_thread(void)
{
    static _Thread_local unsigned own;
    static unsigned names, last;
    if (own == 0)
        own = ++names;
    if (own == last)
        return;
    fprintf(out, "thread H%u\n", own);
    if (last != 0)
        fprintf(out, "after H%u\n", last);
    last = own;
}

void write_host_line(const char *format, ...)
{
    if (!is_recording())
        return;
    name_thread();
    va_list words;
    va_start(words, format);
    vfprintf(out, format, words);
    va_end(words);
}

void write_text(const struct text *text)
{
    if (is_recording())
        fwrite(text->bytes, 1, text->size, out);
}

void flush_capture(void)
{
    if (is_recording() && fflush(out) != 0)
        lose_capture("the file can't be written");
}

/* The end -------------------------------------------------------------------------------------------------------- */

void count_unseen(enum unseen what)
{
    counts[what]++;
}

static const char *const unseen_words[UNSEEN_KINDS] = {
    [UNSEEN_BATCHES] = "batches whose waits were never signaled aren't written",
    [UNSEEN_VERTICES] = "indexed or indirect draws whose vertices aren't seen",
    [UNSEEN_SPARSE] = "sparse binds, of which only waits and signals are written",
    [UNSEEN_IMPORTS] = "imported semaphores and fences, whose waits are cuts",
    [UNSEEN_MAPPED] = "memories that were mapped, where the host is seen only at flushes and invalidations",
    [UNSEEN_COUNTS] = "indirect draws of counted commands, of which only the count is seen",
    [UNSEEN_TRACING] = "commands of ray tracing that aren't seen",
    [UNSEEN_PARTS] = "commands of which only a part is written",
    [UNSEEN_EXPORTS] = "exported semaphores and fences: from the first one on destructions aren't written",
    [UNSEEN_EVENTS] = "waits for events that the queue didn't set, taken for barriers of all stages",
    [UNSEEN_REFUSED] = "submissions that the driver refused, each followed by a cut",
    [UNSEEN_ARGUMENTS] = "bindings that shaders hand to functions, whose accesses there aren't seen",
    [UNSEEN_DESCRIPTORS] = "shaders' bindings for which no descriptor was seen",
};

__attribute__((destructor)) static void end_capture(void)
{
    lock_recorder();
    if (out && getpid() == process) {
        counts[UNSEEN_BATCHES] += held_batches();
        for (int i = 0; i < UNSEEN_KINDS; i++)
            if (counts[i] > 0)
                fprintf(stderr, LAYER_NAME ": %lu %s\n", counts[i], unseen_words[i]);
        fclose(out);
        out = NULL;
    }
    unlock_recorder();
}
