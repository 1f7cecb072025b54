#include "checked.h"

#include <errno.h>
#include <spawn.h>
#include <stdbool.h>
#include <string.h>
#include <sys/wait.h>
#include <unistd.h>

extern char **environ;

/* Starts the program between two pipes. */
static bool start(const char *vq, pid_t *child, int *given, int *printed)
{
    int in[2], out[2];
    char check[] = "--check", *words[] = {(char *)vq, check, NULL};
    posix_spawn_file_actions_t actions;
    int fault;

    if (pipe(in) != 0 || pipe(out) != 0 || posix_spawn_file_actions_init(&actions) != 0)
        return false;
    fault = posix_spawn_file_actions_adddup2(&actions, in[0], STDIN_FILENO);
    fault |= posix_spawn_file_actions_adddup2(&actions, out[1], STDOUT_FILENO);
    for (int end = 0; end < 2; end++) {
        fault |= posix_spawn_file_actions_addclose(&actions, in[end]);
        fault |= posix_spawn_file_actions_addclose(&actions, out[end]);
    }
    if (fault == 0)
        fault = posix_spawnp(child, vq, &actions, NULL, words, environ);
    posix_spawn_file_actions_destroy(&actions);
    close(in[0]);
    close(out[1]);
    *given = in[1];
    *printed = out[0];
    return fault == 0;
}

static void write_all(int file, const char *bytes, size_t size)
{
    while (size > 0) {
        ssize_t count = write(file, bytes, size);
        if (count < 0 && errno != EINTR)
            return;
        if (count > 0) {
            bytes += count;
            size -= (size_t)count;
        }
    }
}

static void read_answer(int file, char answer[256])
{
    size_t size = 0;
    ssize_t count;

    do {
        count = read(file, answer + size, 255 - size);
        if (count > 0)
            size += (size_t)count;
    } while (size < 255 && (count > 0 || (count < 0 && errno == EINTR)));
    answer[size] = '\0';
}

int check_script(const char *vq, const char *script, size_t size, char answer[256])
{
    pid_t child;
    int given, printed, status = 0;

    answer[0] = '\0';
    if (!start(vq, &child, &given, &printed))
        return -1;
    /* vq reads all of its input before it writes */
    write_all(given, script, size);
    close(given);
    read_answer(printed, answer);
    close(printed);
    while (waitpid(child, &status, 0) < 0)
        if (errno != EINTR)
            return -1;
    return WIFEXITED(status) ? WEXITSTATUS(status) : -1;
}
