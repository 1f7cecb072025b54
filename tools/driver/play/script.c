#include "script.h"

#include <stdlib.h>
#include <string.h>

enum { MOST_WORDS = 40 };

struct words {
    size_t count;
    char *at[MOST_WORDS];
};

static bool is(const struct words *words, size_t place, const char *wanted)
{
    return place < words->count && strcmp(words->at[place], wanted) == 0;
}

/* Cuts a line into its words. */
static bool cut(char *line, struct words *words)
{
    char *comment = strchr(line, '#');
    char *rest = NULL;

    if (comment != NULL)
        *comment = '\0';
    words->count = 0;
    for (char *word = strtok_r(line, " \t", &rest); word != NULL; word = strtok_r(NULL, " \t", &rest)) {
        if (words->count == MOST_WORDS)
            return false;
        words->at[words->count++] = word;
    }
    return true;
}

static bool read_numeral(const struct words *words, size_t place, uint64_t *value)
{
    char *end = NULL;
    bool is_hexadecimal;

    if (place >= words->count)
        return false;
    is_hexadecimal = strncmp(words->at[place], "0x", 2) == 0;
    *value = strtoull(words->at[place], &end, is_hexadecimal ? 16 : 10);
    return end != words->at[place] && *end == '\0';
}

static bool keep_name(char kept[NAME_SIZE], const struct words *words)
{
    if (words->count < 2 || strlen(words->at[1]) >= NAME_SIZE)
        return false;
    memcpy(kept, words->at[1], strlen(words->at[1]) + 1);
    return true;
}

static bool find_buffer(const struct script *script, const struct words *words, size_t place, uint32_t *found)
{
    for (*found = 0; *found < script->buffer_count; (*found)++)
        if (is(words, place, script->buffers[*found].name))
            return true;
    return false;
}

static bool find_semaphore(const struct script *script, const struct words *words, size_t place, uint32_t *found)
{
    for (*found = 0; *found < script->semaphore_count; (*found)++)
        if (is(words, place, script->semaphores[*found].name))
            return true;
    return false;
}

static bool find_queue(const struct script *script, const struct words *words, size_t place, uint32_t *found)
{
    for (*found = 0; *found < script->queue_count; (*found)++)
        if (is(words, place, script->queues[*found]))
            return true;
    return false;
}

/* Declarations. */

static bool declare_buffer(struct script *script, const struct words *words)
{
    struct buffer *buffer = &script->buffers[script->buffer_count];

    if (script->buffer_count == MOST_BUFFERS)
        return false;
    script->buffer_count++;
    return keep_name(buffer->name, words) && read_numeral(words, 2, &buffer->size);
}

static bool declare_semaphore(struct script *script, const struct words *words, enum semaphore_kind kind)
{
    struct semaphore *semaphore = &script->semaphores[script->semaphore_count];

    if (script->semaphore_count == MOST_SEMAPHORES)
        return false;
    script->semaphore_count++;
    semaphore->kind = kind;
    return keep_name(semaphore->name, words) && (kind != TIMELINE || read_numeral(words, 2, &semaphore->initial));
}

static bool declare_queue(struct script *script, const struct words *words)
{
    if (script->queue_count == MOST_QUEUES)
        return false;
    return keep_name(script->queues[script->queue_count++], words);
}

/* Lines of batches. */

static struct job *last_job(struct script *script)
{
    return &script->jobs[script->job_count - 1];
}

static struct job *add_job(struct script *script, enum job_kind kind, uint32_t line)
{
    struct job *job = &script->jobs[script->job_count];

    if (script->job_count == MOST_JOBS)
        return NULL;
    script->job_count++;
    job->kind = kind;
    job->line = line;
    job->first_command = script->command_count;
    return job;
}

static bool add_mark(struct mark *marks, uint32_t *count, uint32_t semaphore, uint64_t value)
{
    if (*count == MOST_PAIRS)
        return false;
    marks[*count] = (struct mark){.semaphore = semaphore, .value = value};
    (*count)++;
    return true;
}

static bool begin_batch(struct script *script, const struct words *words, uint32_t line)
{
    struct job *job = add_job(script, BATCH, line);

    script->is_open = true;
    return job != NULL && find_queue(script, words, 1, &job->queue);
}

/* A wait of a binary semaphore is for the last signal that is written before it. */
static bool read_wait(struct script *script, const struct words *words)
{
    struct job *job = last_job(script);
    uint32_t t;
    uint64_t value;

    if (!find_semaphore(script, words, 1, &t))
        return false;
    value = script->semaphores[t].count;
    if (script->semaphores[t].kind == TIMELINE && !read_numeral(words, 2, &value))
        return false;
    return add_mark(job->waits, &job->wait_count, t, value);
}

static bool read_signal(struct script *script, const struct words *words)
{
    struct job *job = last_job(script);
    uint32_t t;
    uint64_t value;

    if (!find_semaphore(script, words, 1, &t))
        return false;
    if (script->semaphores[t].kind == BINARY)
        value = ++script->semaphores[t].count;
    else if (!read_numeral(words, 2, &value))
        return false;
    return add_mark(job->signals, &job->signal_count, t, value);
}

static bool name_fence(struct script *script, const struct words *words)
{
    struct job *job = last_job(script);

    if (!find_semaphore(script, words, 1, &job->fence.semaphore))
        return false;
    job->has_fence = true;
    job->fence.value = script->semaphores[job->fence.semaphore].count + 1;
    script->semaphores[job->fence.semaphore].is_used = true;
    return true;
}

static struct command *add_command(struct script *script, enum command_kind kind)
{
    struct command *command = &script->commands[script->command_count];

    if (script->command_count == MOST_COMMANDS)
        return NULL;
    script->command_count++;
    last_job(script)->command_count++;
    command->kind = kind;
    return command;
}

static bool read_fill(struct script *script, const struct words *words)
{
    struct command *command = add_command(script, FILL);
    uint64_t word = 0;
    bool is_read = command != NULL && find_buffer(script, words, 1, &command->target) &&
                   read_numeral(words, 2, &command->target_offset) && read_numeral(words, 4, &word);

    if (!is_read)
        return false;
    command->word = (uint32_t)word;
    command->size = WHOLE;
    return is(words, 3, "whole") || read_numeral(words, 3, &command->size);
}

static int digit(char given)
{
    if (given >= '0' && given <= '9')
        return given - '0';
    if (given >= 'a' && given <= 'f')
        return given - 'a' + 10;
    return given >= 'A' && given <= 'F' ? given - 'A' + 10 : -1;
}

static bool read_update(struct script *script, const struct words *words)
{
    struct command *command = add_command(script, UPDATE);

    if (command == NULL || words->count != 4 || !find_buffer(script, words, 1, &command->target) ||
        !read_numeral(words, 2, &command->target_offset))
        return false;
    command->size = strlen(words->at[3]) / 2;
    command->bytes = malloc(command->size + 1);
    if (command->bytes == NULL)
        return false;
    for (uint64_t place = 0; place < command->size; place++) {
        int high = digit(words->at[3][2 * place]), low = digit(words->at[3][2 * place + 1]);
        if (high < 0 || low < 0)
            return false;
        command->bytes[place] = (uint8_t)(16 * high + low);
    }
    return true;
}

static bool read_copy(struct script *script, const struct words *words)
{
    struct command *command = add_command(script, COPY);

    return command != NULL && find_buffer(script, words, 1, &command->source) &&
           read_numeral(words, 2, &command->source_offset) && find_buffer(script, words, 3, &command->target) &&
           read_numeral(words, 4, &command->target_offset) && read_numeral(words, 5, &command->size);
}

static bool read_inside(struct script *script, const struct words *words)
{
    if (is(words, 0, "wait"))
        return read_wait(script, words);
    if (is(words, 0, "fill"))
        return read_fill(script, words);
    if (is(words, 0, "update"))
        return read_update(script, words);
    if (is(words, 0, "copy"))
        return read_copy(script, words);
    if (is(words, 0, "signal"))
        return read_signal(script, words);
    if (is(words, 0, "fence"))
        return name_fence(script, words);
    script->is_open = false;
    return is(words, 0, "end");
}

/* Steps of the host. */

static bool read_pairs(struct script *script, const struct words *words, struct job *job, size_t place)
{
    for (; place < words->count; place += 2) {
        uint32_t t;
        uint64_t value;
        if (!find_semaphore(script, words, place, &t) || !read_numeral(words, place + 1, &value) ||
            !add_mark(job->waits, &job->wait_count, t, value))
            return false;
    }
    return job->wait_count > 0;
}

/* A wait or a poll of a fence is for its naming since the last reset with effect. */
static bool read_fence_step(struct script *script, const struct words *words, uint32_t line)
{
    enum job_kind kind = is(words, 2, "wait")   ? HOST_FENCE_WAIT
                         : is(words, 2, "poll") ? HOST_FENCE_POLL
                                                : HOST_FENCE_RESET;
    struct job *job = add_job(script, kind, line);
    struct semaphore *fence;
    uint32_t t;

    if (job == NULL || !find_semaphore(script, words, 3, &t))
        return false;
    fence = &script->semaphores[t];
    if (!add_mark(job->waits, &job->wait_count, t, fence->count + 1))
        return false;
    if (kind == HOST_FENCE_RESET && fence->is_used) {
        fence->count++;
        fence->is_used = false;
    }
    return kind != HOST_FENCE_RESET || is(words, 2, "reset");
}

static bool read_look(struct script *script, const struct words *words, uint32_t line)
{
    bool is_wait = is(words, 1, "wait"), is_any = is(words, 2, "any");
    enum job_kind wait = is_any ? HOST_WAIT_ANY : HOST_WAIT_ALL, poll = is_any ? HOST_POLL_ANY : HOST_POLL_ALL;
    struct job *job = add_job(script, is_wait ? wait : poll, line);

    return job != NULL && (is_any || is(words, 2, "all")) && read_pairs(script, words, job, 3);
}

static bool read_host(struct script *script, const struct words *words, uint32_t line)
{
    struct job *job;
    uint32_t t;
    uint64_t value = 0;

    if (is(words, 1, "fence"))
        return read_fence_step(script, words, line);
    if (is(words, 1, "wait") || is(words, 1, "poll"))
        return read_look(script, words, line);
    if (is(words, 1, "idle"))
        return add_job(script, HOST_IDLE, line) != NULL;
    if (!find_semaphore(script, words, 2, &t))
        return false;
    if (is(words, 1, "read")) {
        job = add_job(script, HOST_READ, line);
        return job != NULL && add_mark(job->waits, &job->wait_count, t, 0);
    }
    job = add_job(script, HOST_SIGNAL, line);
    return job != NULL && is(words, 1, "signal") && read_numeral(words, 3, &value) &&
           add_mark(job->signals, &job->signal_count, t, value);
}

static bool read_outside(struct script *script, const struct words *words, uint32_t line)
{
    if (is(words, 0, "version"))
        return is(words, 1, "2");
    if (is(words, 0, "buffer"))
        return declare_buffer(script, words);
    if (is(words, 0, "timeline"))
        return declare_semaphore(script, words, TIMELINE);
    if (is(words, 0, "binary"))
        return declare_semaphore(script, words, BINARY);
    if (is(words, 0, "fence"))
        return declare_semaphore(script, words, FENCE);
    if (is(words, 0, "queue"))
        return declare_queue(script, words);
    if (is(words, 0, "submit"))
        return begin_batch(script, words, line);
    return is(words, 0, "host") && read_host(script, words, line);
}

static bool read_line(struct script *script, char *line, uint32_t number)
{
    struct words words;

    if (!cut(line, &words))
        return false;
    if (words.count == 0)
        return true;
    return script->is_open ? read_inside(script, &words) : read_outside(script, &words, number);
}

uint32_t read_script(struct script *script, const char *text, size_t size)
{
    const char *end = text + size;

    memset(script, 0, sizeof *script);
    while (text < end) {
        const char *stop = memchr(text, '\n', (size_t)(end - text));
        size_t length = (size_t)((stop == NULL ? end : stop) - text);
        char *line = malloc(length + 1);
        bool is_read = line != NULL;

        script->line_count++;
        if (is_read) {
            memcpy(line, text, length);
            if (length > 0 && line[length - 1] == '\r')
                length--;
            line[length] = '\0';
            is_read = read_line(script, line, script->line_count);
        }
        free(line);
        if (!is_read)
            return script->line_count;
        text = stop == NULL ? end : stop + 1;
    }
    return script->is_open ? script->line_count + 1 : 0;
}

void free_commands(struct script *script)
{
    for (uint32_t c = 0; c < script->command_count; c++)
        free(script->commands[c].bytes);
}
