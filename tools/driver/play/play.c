/* Plays a script on a Vulkan device: tools/driver/README.md. */
#include "play.h"

#include <signal.h>
#include <stdio.h>
#include <stdlib.h>
#include <string.h>
#include <time.h>

#include "checked.h"
#include "order.h"
#include "result.h"

static const char usage[] =
    "play [--vq PROGRAM | --checked] [--device NAME] [--runs N] [--timing] [--timeout SECONDS] [--order QUEUES] "
    "< SCRIPT\n";

struct options {
    const char *vq, *device;
    bool is_checked, is_timed;
    unsigned long runs;
    double timeout;
    /* Where it isn't 0, only the order on a device of so many queues is asked for. */
    uint32_t queues;
};

static bool read_number(const char *word, double least, double most, double *number)
{
    char *end = NULL;

    *number = strtod(word, &end);
    return end != word && *end == '\0' && *number >= least && *number <= most;
}

/* An option that has a word behind it. */
static bool read_option(const char *name, const char *next, struct options *options)
{
    double number;

    if (strcmp(name, "--vq") == 0)
        options->vq = next;
    else if (strcmp(name, "--device") == 0)
        options->device = next;
    else if (strcmp(name, "--runs") == 0 && read_number(next, 1, 1e6, &number))
        options->runs = (unsigned long)number;
    else if (strcmp(name, "--timeout") == 0 && read_number(next, 1e-3, 1e6, &number))
        options->timeout = number;
    else if (strcmp(name, "--order") == 0 && read_number(next, 1, MOST_QUEUES, &number))
        options->queues = (uint32_t)number;
    else
        return false;
    return true;
}

static bool read_options(int count, char **words, struct options *options)
{
    *options = (struct options){.vq = "vq", .runs = 1, .timeout = 10};
    for (int place = 1; place < count; place++) {
        if (strcmp(words[place], "--checked") == 0)
            options->is_checked = true;
        else if (strcmp(words[place], "--timing") == 0)
            options->is_timed = true;
        else if (place + 1 == count || !read_option(words[place], words[place + 1], options))
            return false;
        else
            place++;
    }
    return true;
}

void look_at(const struct play *play, VkResult result, const char *call, uint32_t line)
{
    if (result == VK_SUCCESS)
        return;
    if (line == 0)
        fprintf(stderr, "play: %s: %s\nthe script:\n", call, result_name(result));
    else
        fprintf(stderr, "play: line %u: %s: %s\nthe script:\n", line, call, result_name(result));
    fwrite(play->source.bytes, 1, play->source.size, stderr);
    /* nothing may be left running, and a lost device can't be closed */
    _Exit(LOST);
}

static bool read_source(struct source *source)
{
    size_t room = 1 << 16, count;

    source->size = 0;
    source->bytes = malloc(room);
    while (source->bytes != NULL) {
        count = fread(source->bytes + source->size, 1, room - source->size, stdin);
        source->size += count;
        if (count == 0)
            return ferror(stdin) == 0;
        if (source->size == room) {
            char *bytes = realloc(source->bytes, room *= 2);
            if (bytes == NULL)
                free(source->bytes);
            source->bytes = bytes;
        }
    }
    return false;
}

/* Ends the program where vq refuses the script. */
static void ask_vq(const struct options *options, const struct source *source)
{
    char answer[256];
    int status = check_script(options->vq, source->bytes, source->size, answer);

    if (status == 0)
        return;
    if (status == REFUSED) {
        fputs(answer, stdout);
        exit(REFUSED);
    }
    fprintf(stderr, "play: %s --check can't be run (name the program by --vq)\n", options->vq);
    exit(NOT_READY);
}

/* The queues behind the device's last one share that. */
static void share_queues(struct play *play)
{
    for (uint32_t q = 0; q < MOST_QUEUES; q++)
        play->shared[q] = q < play->device.queue_count ? q : play->device.queue_count - 1;
}

/* A value may be far above a payload only as far as the device allows. */
static bool is_within_difference(const struct play *play)
{
    const struct script *script = play->script;

    for (uint32_t j = 0; j < script->job_count; j++) {
        const struct job *job = &script->jobs[j];
        for (uint32_t n = 0; n < job->wait_count + job->signal_count; n++) {
            struct mark mark = n < job->wait_count ? job->waits[n] : job->signals[n - job->wait_count];
            uint64_t initial = script->semaphores[mark.semaphore].initial;
            if (script->semaphores[mark.semaphore].kind == TIMELINE && mark.value > initial &&
                mark.value - initial > play->device.most_difference)
                return false;
        }
    }
    return true;
}

/* Ends the program where the script can't be played as it is. */
static void prepare(struct play *play)
{
    bool is_moved = false;

    share_queues(play);
    if (!is_within_difference(play)) {
        fprintf(stderr, "play: left out: a value is further above its timeline than the device allows\n");
        exit(LEFT_OUT);
    }
    if (!find_order(play->script, play->shared, play->order, &is_moved)) {
        fprintf(stderr, "play: left out: no order of the batches is safe on %u queues\n", play->device.queue_count);
        exit(LEFT_OUT);
    }
    if (is_moved)
        fprintf(stderr, "play: batches are submitted in another order than written, as queues share one\n");
}

/* Prints the lines of the batches and host steps in the order in which they would be played. */
static void print_order(struct play *play, uint32_t queues)
{
    play->device.queue_count = queues;
    play->device.most_difference = UINT64_MAX;
    prepare(play);
    for (uint32_t n = 0; n < play->script->job_count; n++)
        printf("%u\n", play->script->jobs[play->order[n]].line);
}

static double now(void)
{
    struct timespec time;

    clock_gettime(CLOCK_MONOTONIC, &time);
    return (double)time.tv_sec * 1e6 + (double)time.tv_nsec / 1e3;
}

/* Goes through all jobs, or through the batches alone without their waits and signals, until all is idle. Answers the
   microseconds since the first submit. */
static double run(struct play *play, bool is_bare)
{
    uint32_t end = play->script->line_count + 1;
    double start = 0;

    for (uint32_t n = 0; n < play->script->job_count; n++) {
        const struct job *job = &play->script->jobs[play->order[n]];
        stand_at(job->line);
        if (job->kind == BATCH && start == 0)
            start = now();
        if (job->kind == BATCH)
            submit(play, job, is_bare);
        else if (!is_bare)
            do_step(play, job);
    }
    stand_at(end);
    look_at(play, vkDeviceWaitIdle(play->device.device), "vkDeviceWaitIdle", end);
    return start == 0 ? 0 : now() - start;
}

static void print_timing(struct play *play)
{
    uint32_t batches = 0;
    double whole = run(play, false), bare = run(play, true), count;

    for (uint32_t j = 0; j < play->script->job_count; j++)
        batches += play->script->jobs[j].kind == BATCH;
    count = batches == 0 ? 1 : batches;
    printf("{\"device\": \"%s\", \"driver\": \"%s\", \"queues\": %u, \"batches\": %u, \"us_a_batch\": %.3f, "
           "\"bare_us_a_batch\": %.3f}\n",
           play->device.name, play->device.driver, play->device.queue_count, batches, whole / count, bare / count);
}

static void run_once(struct play *play, bool is_timed)
{
    begin_text(1);
    make_objects(play);
    if (is_timed) {
        print_timing(play);
    } else {
        run(play, false);
        add_buffers(play);
        print_text();
    }
    free_objects(play);
}

/* Reads the script. Answers DONE, or the status to end with. */
static int take_script(struct play *play, struct script *script, const struct options *options)
{
    uint32_t line;

    if (!read_source(&play->source)) {
        fprintf(stderr, "play: the script can't be read\n");
        return NOT_READY;
    }
    if (!options->is_checked)
        ask_vq(options, &play->source);
    line = read_script(script, play->source.bytes, play->source.size);
    if (line != 0) {
        printf("error: syntax: line %u\n", line);
        return REFUSED;
    }
    play->script = script;
    return DONE;
}

int main(int count, char **words)
{
    static struct play play;
    static struct script script;
    struct options options;
    const char *lack;
    int status;

    signal(SIGPIPE, SIG_IGN);
    if (!read_options(count, words, &options)) {
        fputs(usage, stderr);
        return NOT_READY;
    }
    status = take_script(&play, &script, &options);
    if (status != DONE)
        return status;
    if (options.queues > 0) {
        print_order(&play, options.queues);
        return DONE;
    }
    lack = open_device(&play.device, options.device);
    if (lack != NULL) {
        fprintf(stderr, "play: %s\n", lack);
        return NOT_READY;
    }
    prepare(&play);
    watch(options.timeout);
    for (unsigned long n = 0; n < options.runs; n++)
        run_once(&play, options.is_timed);
    close_device(&play.device);
    free_commands(&script);
    free(play.source.bytes);
    return DONE;
}
