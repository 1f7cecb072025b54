/* The settings of the layer. */
#include "settings.h"

#include <ctype.h>
#include <stdio.h>
#include <stdlib.h>
#include <string.h>

enum { LINE = 512 };

/* The value of a line `name = value`, trimmed, or NULL where the line is another one. */
static char *value_of(char *line, const char *name)
{
    while (isspace((unsigned char)*line))
        line++;
    size_t length = strlen(name);
    if (strncmp(line, name, length) != 0)
        return NULL;
    line += length;
    while (isspace((unsigned char)*line))
        line++;
    if (*line++ != '=')
        return NULL;
    while (isspace((unsigned char)*line))
        line++;
    char *end = line + strlen(line);
    while (end > line && isspace((unsigned char)end[-1]))
        *--end = '\0';
    return line;
}

static FILE *settings_file(void)
{
    static const char name[] = "vk_layer_settings.txt";
    const char *path = getenv("VK_LAYER_SETTINGS_PATH");
    if (!path)
        return fopen(name, "r");
    char whole[4096];
    size_t length = strlen(path), end = sizeof name - 1;
    bool is_file = length >= end && strcmp(path + length - end, name) == 0;
    int size = snprintf(whole, sizeof whole, is_file ? "%s" : "%s/%s", path, name);
    return size > 0 && (size_t)size < sizeof whole ? fopen(whole, "r") : NULL;
}

/* What is set under a name: the environment's, or the file's; empty where neither says anything. */
static void setting(const char *variable, const char *name, char *to, size_t size)
{
    const char *said = getenv(variable);
    snprintf(to, size, "%s", said ? said : "");
    FILE *file = said ? NULL : settings_file();
    if (!file)
        return;
    char line[LINE];
    while (fgets(line, sizeof line, file)) {
        const char *value = value_of(line, name);
        if (value)
            snprintf(to, size, "%s", value);
    }
    fclose(file);
}

struct settings read_settings(void)
{
    struct settings settings = {WAY_RELAY, SAME_KNOWN, DROPPED_KNOWN, false, "", ""};
    char said[LINE];
    setting("VQ_TIMELINE_WAY", "vq_timeline.way", said, sizeof said);
    if (strcmp(said, "fence") == 0)
        settings.way = WAY_FENCE;
    setting("VQ_TIMELINE_SAME_QUEUE", "vq_timeline.same_queue", said, sizeof said);
    if (strcmp(said, "wait") == 0)
        settings.same_queue = SAME_WAIT;
    if (strcmp(said, "drop") == 0)
        settings.same_queue = SAME_DROP;
    setting("VQ_TIMELINE_DROPPED", "vq_timeline.dropped", said, sizeof said);
    if (strcmp(said, "barrier") == 0)
        settings.dropped = DROPPED_BARRIER;
    if (strcmp(said, "nothing") == 0)
        settings.dropped = DROPPED_NOTHING;
    setting("VQ_TIMELINE_STAND_IN", "vq_timeline.stand_in", said, sizeof said);
    settings.always = strcmp(said, "always") == 0;
    setting("VQ_TIMELINE_LOG", "vq_timeline.log", settings.log, sizeof settings.log);
    setting("VQ_TIMELINE_TRACE", "vq_timeline.trace", settings.trace, sizeof settings.trace);
    return settings;
}
