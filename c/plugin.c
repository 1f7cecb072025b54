/* A shared object that links one of the libraries, as a driver does, and keeps their names to itself: plugin_host.c
 * opens two copies of it. With -DWITH_LIVE it links libvq_live_c.a, with -DWITH_LAYER libvq_layer_c.a, and else
 * libvq_c.a. */
#include <string.h>

#ifdef WITH_LIVE
#include "vq_live.h"
#elif defined(WITH_LAYER)
#include "vq_layer.h"
#else
#include "vq.h"
#endif

int plugin_number(int number);

#ifdef WITH_LIVE
static struct vq_live timeline = VQ_LIVE_NONE;

/* Opens this copy's timeline at a number, if it isn't open, and says which number it was opened at. */
int plugin_number(int number)
{
    if (timeline.at == NULL && vq_live_open((uint64_t)number, &timeline) != VQ_LIVE_DONE)
        return -1;
    return (int)vq_live_value(&timeline);
}
#elif defined(WITH_LAYER)
static struct vq_layer layer = VQ_LAYER_NONE;

/* The same of a timeline of this copy's layer. */
int plugin_number(int number)
{
    if (layer.at == NULL && (vq_layer_open(&layer) != VQ_LAYER_DONE
                             || vq_layer_open_timeline(&layer, (uint64_t)number).code != VQ_LAYER_DONE))
        return -1;
    return (int)vq_layer_value(&layer, 0).value;
}
#else
static struct vq_handle plan = VQ_NOTHING;

/* Opens this copy's plan, whose batch stands on a line of this number, if it isn't open, and says where it stands. */
int plugin_number(int number)
{
    static const char head[] = "buffer b 4\nqueue q immediate\n", batch[] = "submit q\nfill b 0 4 0\nend\n";
    uint8_t text[256];
    size_t length = sizeof head - 1;
    memcpy(text, head, length);
    for (int line = 3; line < number && length < sizeof text - sizeof batch; line++)
        text[length++] = '\n';
    memcpy(text + length, batch, sizeof batch - 1);
    length += sizeof batch - 1;
    if (plan.at == NULL && vq_plan(text, length, &plan).code != VQ_LAWFUL)
        return -1;
    return (int)vq_line(&plan, 0);
}
#endif
