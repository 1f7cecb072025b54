/* Opens two copies of a plug-in that links one of the libraries (plugin.c), while it has functions of the libraries'
 * names itself: the plug-ins take their own, each has its own state, and none of the libraries' names is seen from
 * outside.
 *
 * plugin_host OBJECT OBJECT */
#include <dlfcn.h>
#include <stdint.h>
#include <stdio.h>
#include <string.h>

/* What a plug-in would call if it didn't keep its names to itself. */
uint64_t vq_live_value(const void *timeline);
uint32_t vq_line(const void *handle, uint32_t job);
struct answer {
    uint32_t code, number;
    uint64_t value;
};
struct answer vq_layer_value(const void *layer, uint32_t timeline);

uint64_t vq_live_value(const void *timeline)
{
    (void)timeline;
    return 424242;
}

uint32_t vq_line(const void *handle, uint32_t job)
{
    (void)handle;
    return 424242 + job;
}

struct answer vq_layer_value(const void *layer, uint32_t timeline)
{
    (void)layer;
    return (struct answer){0, timeline, 424242};
}

static int failed(const char *what)
{
    printf("plugin_host: %s\n", what);
    return 1;
}

int main(int argc, char **argv)
{
    static const char *const hidden[] = {"vq_live_value",  "vq_live_open", "vq_line",     "vq_plan",
                                         "vq_layer_value", "vq_layer_open", "rattle_alloc"};
    int (*numbers[2])(int);
    for (int i = 0; i < 2; i++) {
        void *object = i + 1 < argc ? dlopen(argv[i + 1], RTLD_NOW | RTLD_LOCAL) : NULL;
        if (object == NULL)
            return failed("an object isn't opened");
        void *found = dlsym(object, "plugin_number");
        if (found == NULL)
            return failed("plugin_number isn't found");
        memcpy(&numbers[i], &found, sizeof found);
        for (size_t name = 0; name < sizeof hidden / sizeof *hidden; name++)
            if (dlsym(object, hidden[name]) != NULL)
                return failed(hidden[name]);
    }
    if (numbers[0](7) != 7 || numbers[1](9) != 9 || numbers[0](11) != 7 || numbers[1](11) != 9)
        return failed("a plug-in has another number");
    return 0;
}
