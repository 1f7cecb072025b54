/* What a turn costs that C takes, by one thread: of a run over one core (vq_turn_of), of one that threads
 * share (vq_turn); and what a handle costs, by a call that asks next to nothing (vq_line).
 *
 * handles SCRIPT TIMES
 */
#include <stdio.h>
#include <stdlib.h>
#include <time.h>

#include "vq.h"

static uint8_t text[1 << 23];

/* The nanoseconds that this process has run. */
static double now(void)
{
    struct timespec time;
    clock_gettime(CLOCK_PROCESS_CPUTIME_ID, &time);
    return 1e9 * (double)time.tv_sec + (double)time.tv_nsec;
}

/* The turns of a run over one core, each actor in turn until all have ended. */
static unsigned long over_core(size_t length, double *took)
{
    struct vq_handle run;
    struct vq_turn_result turn;
    unsigned long turns = 0;
    if (vq_open(text, length, &run).code != VQ_LAWFUL)
        exit(1);
    uint32_t count = (uint32_t)vq_actors(&run);
    double begun = now();
    for (int is_left = 1; is_left;) {
        is_left = 0;
        for (uint32_t i = 0; i < count; i++, turns++) {
            enum vq_code code = vq_turn_of(&run, i, &turn);
            is_left |= code == VQ_MOVED || code == VQ_BLOCKED;
        }
    }
    *took += now() - begun;
    vq_close(&run);
    return turns;
}

/* The same of a run that is shared, and so many calls through its host's handle that ask next to nothing. */
static unsigned long over_board(size_t length, double *took, double *asked, unsigned long asks)
{
    struct vq_handle actors[VQ_MOST_ACTORS];
    struct vq_turn_result turn;
    unsigned long turns = 0;
    size_t count;
    if (vq_share(text, length, actors, VQ_MOST_ACTORS, &count).code != VQ_LAWFUL)
        exit(1);
    double begun = now();
    for (int is_left = 1; is_left;) {
        is_left = 0;
        for (size_t i = 0; i < count; i++, turns++) {
            uint32_t code = actors[i].at == NULL ? VQ_ENDED : vq_turn(&actors[i], &turn);
            is_left |= code != VQ_ENDED;
        }
    }
    *took += now() - begun;
    begun = now();
    for (unsigned long i = 0; i < asks; i++)
        if (vq_line(&actors[0], UINT32_MAX) != 0)
            exit(1);
    *asked += now() - begun;
    for (size_t i = 0; i < count; i++)
        if (actors[i].at != NULL)
            vq_close(&actors[i]);
    return turns;
}

int main(int argc, char **argv)
{
    FILE *file = argc == 3 ? fopen(argv[1], "rb") : NULL;
    if (file == NULL)
        return 1;
    size_t length = fread(text, 1, sizeof text, file);
    fclose(file);
    int times = atoi(argv[2]);
    unsigned long core = 0, board = 0, asks = 100000;
    double of_core = 0, of_board = 0, of_handle = 0;
    for (int i = 0; i < times; i++) {
        core += over_core(length, &of_core);
        board += over_board(length, &of_board, &of_handle, asks);
    }
    printf("a turn over one core   %6.1f ns\n", of_core / (double)core);
    printf("a turn over a board    %6.1f ns\n", of_board / (double)board);
    printf("a handle               %6.1f ns\n", of_handle / (double)asks / times);
    return 0;
}
