/* One process a name, one after the other. */
#include "each.h"

#include "say.h"
#include "stop.h"

#include <errno.h>
#include <signal.h>
#include <stdio.h>
#include <stdlib.h>
#include <string.h>
#include <sys/wait.h>
#include <unistd.h>

/* The exit status of the process, which is told to stop when this one is. */
static int status_of(pid_t process, const char *name) {
    int ended = 0, told = 0;
    while (waitpid(process, &ended, 0) < 0) {
        if (errno != EINTR)
            die("%s: nobody knows how its process ended: %s", name, strerror(errno));
        if (stop_asked() && !told) {
            told = stop_asked();
            kill(process, told);
        }
    }
    if (WIFEXITED(ended))
        return WEXITSTATUS(ended);
    if (!stop_asked())
        say("%s: ended by signal %d", name, WTERMSIG(ended));
    return STATUS_TROUBLE;
}

static int in_own_process(const char *name, int (*work)(const char *name)) {
    fflush(stdout); /* what is still to be printed is printed once */
    pid_t process = fork();
    if (process < 0)
        die("%s: no process for it: %s", name, strerror(errno));
    if (process == 0)
        exit(work(name));
    return status_of(process, name);
}

int each_in_turn(const char **names, size_t count, int (*work)(const char *name), int *statuses) {
    int first = STATUS_SUCCESS;
    for (size_t i = 0; i < count && !stop_asked(); i++) {
        int status = count == 1 ? work(names[i]) : in_own_process(names[i], work);
        if (statuses)
            statuses[i] = status;
        if (!first)
            first = status;
    }
    return first;
}
