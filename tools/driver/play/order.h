/* In which order the jobs of a script are played, where its queues may share queues of the device. */
#ifndef ORDER_H
#define ORDER_H

#include "script.h"

/* Finds an order in which the host can't hang. `shared` has the device's queue of each queue of the script. The jobs of
   a queue and the host's steps keep their order, and no batch comes before a host step that is written before it.
   Answers whether there is such an order, as there is for each lawful script; `is_moved` says whether it is another one
   than that of the lines. */
bool find_order(const struct script *script, const uint32_t shared[MOST_QUEUES], uint32_t order[MOST_JOBS],
                bool *is_moved);

#endif
