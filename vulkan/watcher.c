/* The one thread of the layer: it waits for the fences of a wait for any, of which another side has no fence yet. Who
 * waits then sleeps until something changes, be it a signal of the host, a batch that is handed over, or a fence. */
#include "device.h"

#include <stdlib.h>

/* Lets go of the fences that were watched. */
static void let_go(struct device *d, struct watcher *w)
{
    for (uint32_t i = 0; i < w->count; i++) {
        w->flights[i]->waiting--;
        unrefer_flight(d, w->flights[i]);
    }
    w->count = 0;
    pthread_cond_broadcast(&d->changed);
}

static void *watch(void *of)
{
    struct device *d = of;
    struct watcher *w = &d->watcher;
    pthread_mutex_lock(&d->core);
    while (!w->is_stopped) {
        if (w->count == 0) {
            pthread_cond_wait(&w->wanted, &d->core);
            continue;
        }
        uint32_t count = w->count;
        VkFence fences[MOST_WATCHED];
        for (uint32_t i = 0; i < count; i++)
            fences[i] = w->flights[i]->fence;
        d->counts.host_waits++;
        pthread_mutex_unlock(&d->core);
        VkResult result = d->next.WaitForFences(d->handle, count, fences, VK_FALSE, UINT64_MAX);
        pthread_mutex_lock(&d->core);
        if (result == VK_ERROR_DEVICE_LOST)
            d->is_lost = true;
        let_go(d, w);
    }
    pthread_mutex_unlock(&d->core);
    return NULL;
}

static bool is_watched(const struct watcher *w, const struct flight *f)
{
    for (uint32_t i = 0; i < w->count; i++)
        if (w->flights[i] == f)
            return true;
    return false;
}

bool watch_flights(struct device *d, struct flight **flights, uint32_t count)
{
    struct watcher *w = &d->watcher;
    bool are_watched = w->count > 0;
    for (uint32_t i = 0; i < count; i++)
        are_watched = are_watched && is_watched(w, flights[i]);
    if (are_watched)
        return true;
    if (w->count > 0 || count > MOST_WATCHED)
        return false;
    if (!w->is_started) {
        pthread_cond_init(&w->wanted, NULL);
        w->is_started = pthread_create(&w->thread, NULL, watch, d) == 0;
        if (!w->is_started)
            return false;
    }
    for (uint32_t i = 0; i < count; i++) {
        refer_flight(flights[i]);
        flights[i]->waiting++;
        w->flights[i] = flights[i];
    }
    w->count = count;
    pthread_cond_signal(&w->wanted);
    return true;
}

void stop_watcher(struct device *d)
{
    struct watcher *w = &d->watcher;
    if (!w->is_started)
        return;
    pthread_mutex_lock(&d->core);
    w->is_stopped = true;
    pthread_cond_signal(&w->wanted);
    pthread_mutex_unlock(&d->core);
    pthread_join(w->thread, NULL);
    pthread_cond_destroy(&w->wanted);
}
