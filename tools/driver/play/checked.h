/* Asks vq whether a script is lawful. */
#ifndef CHECKED_H
#define CHECKED_H

#include <stddef.h>

/* Runs `VQ --check` on the script. Answers its status, and what it printed as a string of its own; -1 where it can't be
   run. */
int check_script(const char *vq, const char *script, size_t size, char answer[256]);

#endif
