"""Runs of a program whose starts of threads are refused. Wants a C compiler, and a program that takes pthread_create
from a shared library."""
import os
import subprocess

# Refuses the thread of the number in REFUSED, counted from 1, and with REFUSED_ON all later ones too.
REFUSING = r'''
#define _GNU_SOURCE
#include <dlfcn.h>
#include <errno.h>
#include <fcntl.h>
#include <pthread.h>
#include <stdlib.h>
#include <unistd.h>
static int started;
/* Says in the file of eight bytes COUNTED that a start was refused. */
static void note(void) {
  int file = open(getenv("COUNTED"), O_WRONLY);
  if (write(file, "refused!", 8) != 8) abort();
  close(file);
}
int pthread_create(pthread_t *thread, const pthread_attr_t *attributes, void *(*run)(void *), void *argument) {
  int (*create)(pthread_t *, const pthread_attr_t *, void *(*)(void *), void *) = dlsym(RTLD_NEXT, "pthread_create");
  int refused = atoi(getenv("REFUSED"));
  started++;
  if (started == refused || (started > refused && getenv("REFUSED_ON"))) {
    note();
    return EAGAIN;
  }
  return create(thread, attributes, run, argument);
}
'''


def library_in(folder):
    """The library that refuses threads, made in a folder."""
    library = os.path.join(folder, 'refusing.so')
    command = ['cc', '-shared', '-fPIC', '-o', library, '-x', 'c', '-', '-ldl']
    subprocess.run(command, input=REFUSING.encode(), check=True)
    return library


def threads_of(data):
    """How many threads a run of the script starts: one for each queue, and one more for each threaded queue."""
    words = [line.split() for line in data.split(b'\n')]
    queues = [line for line in words if line[:1] == [b'queue']]
    return len(queues) + sum(line[2:] == [b'threaded'] for line in queues)


def refusing(library, number, later):
    """The environment of a run of which the thread of a number is refused, and, where it says so, all later ones."""
    with open(library + '.counted', 'wb'):
        pass
    environment = dict(os.environ, LD_PRELOAD=library, REFUSED=str(number), COUNTED=library + '.counted')
    if later:
        environment['REFUSED_ON'] = '1'
    return environment


def was_refused(environment):
    """Whether a start was refused in the run."""
    return os.path.getsize(environment['COUNTED']) > 0
