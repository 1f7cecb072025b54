#include "play.h"

#include <errno.h>
#include <pthread.h>
#include <stdarg.h>
#include <stdio.h>
#include <stdlib.h>
#include <string.h>
#include <time.h>
#include <unistd.h>

/* Where the host stands, and what it was answered so far: what is printed where it hangs. */
struct text {
    char *bytes;
    size_t size, room;
    uint32_t line;
    /* How many runs have begun. */
    uint32_t runs;
};

/* The host's thread changes the text under this lock, as the watching one may print it at any time. */
static pthread_mutex_t lock = PTHREAD_MUTEX_INITIALIZER;
static pthread_cond_t began;
static struct text text;

static void grow(size_t more)
{
    size_t room = text.room == 0 ? 4096 : text.room;

    while (room < text.size + more)
        room *= 2;
    if (room > text.room) {
        char *bytes = realloc(text.bytes, room);
        if (bytes == NULL) {
            fprintf(stderr, "play: no memory for the text\n");
            _Exit(NOT_READY);
        }
        text.bytes = bytes;
        text.room = room;
    }
}

static void append(const char *bytes, size_t size)
{
    grow(size);
    memcpy(text.bytes + text.size, bytes, size);
    text.size += size;
}

void begin_text(uint32_t line)
{
    pthread_mutex_lock(&lock);
    text.size = 0;
    text.line = line;
    text.runs++;
    pthread_cond_signal(&began);
    pthread_mutex_unlock(&lock);
}

void stand_at(uint32_t line)
{
    pthread_mutex_lock(&lock);
    text.line = line;
    pthread_mutex_unlock(&lock);
}

void add_text(const char *format, ...)
{
    char line[128];
    va_list values;
    int length;

    va_start(values, format);
    length = vsnprintf(line, sizeof line, format, values);
    va_end(values);
    pthread_mutex_lock(&lock);
    append(line, (size_t)length);
    pthread_mutex_unlock(&lock);
}

/* Sixteen bytes to a line. */
static void add_bytes(const uint8_t *bytes, uint64_t size)
{
    static const char digits[] = "0123456789abcdef";
    char line[33];

    for (uint64_t row = 0; row < size; row += 16) {
        size_t length = 0;
        for (uint64_t place = row; place < size && place < row + 16; place++) {
            line[length++] = digits[bytes[place] / 16];
            line[length++] = digits[bytes[place] % 16];
        }
        line[length++] = '\n';
        pthread_mutex_lock(&lock);
        append(line, length);
        pthread_mutex_unlock(&lock);
    }
}

void add_buffers(const struct play *play)
{
    for (uint32_t b = 0; b < play->script->buffer_count; b++) {
        const struct buffer *buffer = &play->script->buffers[b];
        add_text("buffer %s %llu\n", buffer->name, (unsigned long long)buffer->size);
        add_bytes(play->bytes + play->offsets[b], buffer->size);
    }
    add_text("end\n");
}

static void write_all(void)
{
    size_t written = 0;

    while (written < text.size) {
        ssize_t count = write(STDOUT_FILENO, text.bytes + written, text.size - written);
        if (count < 0 && errno != EINTR)
            _Exit(NOT_READY);
        if (count > 0)
            written += (size_t)count;
    }
}

void print_text(void)
{
    pthread_mutex_lock(&lock);
    write_all();
    text.size = 0;
    pthread_mutex_unlock(&lock);
}

/* Looks whether a run has begun since it looked last; where none has for too long, the host hangs. */
static void *look_for_hang(void *given)
{
    double seconds = *(double *)given;
    char line[32];
    int length;

    pthread_mutex_lock(&lock);
    for (;;) {
        uint32_t runs = text.runs;
        struct timespec until;
        int result = 0;

        clock_gettime(CLOCK_MONOTONIC, &until);
        until.tv_sec += (time_t)seconds;
        until.tv_nsec += (long)((seconds - (double)(time_t)seconds) * 1e9);
        until.tv_sec += until.tv_nsec / 1000000000;
        until.tv_nsec %= 1000000000;
        while (text.runs == runs && result == 0)
            result = pthread_cond_timedwait(&began, &lock, &until);
        if (text.runs == runs)
            break;
    }
    length = snprintf(line, sizeof line, "%u hang\n", text.line);
    append(line, (size_t)length);
    write_all();
    /* ends every thread of the process, those of the driver too */
    _Exit(HUNG);
}

void watch(double seconds)
{
    static double kept;
    pthread_condattr_t clock;
    pthread_t thread;

    kept = seconds;
    if (pthread_condattr_init(&clock) != 0 || pthread_condattr_setclock(&clock, CLOCK_MONOTONIC) != 0 ||
        pthread_cond_init(&began, &clock) != 0 || pthread_create(&thread, NULL, look_for_hang, &kept) != 0) {
        fprintf(stderr, "play: no thread to watch for hangs\n");
        exit(NOT_READY);
    }
    pthread_detach(thread);
}
