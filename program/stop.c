/* Signals, turned into a flag: the temporary file is removed by the ordinary end of the program and not in a handler. */
#include "stop.h"

#include "report.h"
#include "say.h"

#include <signal.h>
#include <stddef.h>
#include <stdio.h>
#include <stdlib.h>

static const struct {
    int number;
    const char *name;
} listened[] = {{SIGINT, "SIGINT"},   {SIGTERM, "SIGTERM"}, {SIGHUP, "SIGHUP"},   {SIGQUIT, "SIGQUIT"},
                {SIGUSR1, "SIGUSR1"}, {SIGUSR2, "SIGUSR2"}, {SIGALRM, "SIGALRM"}, {SIGVTALRM, "SIGVTALRM"},
                {SIGPROF, "SIGPROF"}, {SIGXCPU, "SIGXCPU"}, {SIGIO, "SIGIO"},     {SIGPWR, "SIGPWR"},
#ifdef SIGSTKFLT
                {SIGSTKFLT, "SIGSTKFLT"}
#endif
};

static volatile sig_atomic_t asked;

static void ask(int number) { asked = number; }

static void listen_to(int number) {
    struct sigaction now = {.sa_handler = ask}, before; /* no restart: a write that waits for its reader must come back */
    sigemptyset(&now.sa_mask);
    if (sigaction(number, &now, &before) == 0 && before.sa_handler == SIG_IGN)
        sigaction(number, &before, NULL); /* who started the program wants it to live on, as nohup does */
}

/* Runs after everything else that the program does at its end. */
static void end_by_signal(void) {
    if (!asked)
        return;
    signal(asked, SIG_DFL);
    raise(asked);
}

void stop_listen(void) {
    atexit(end_by_signal);
    for (size_t i = 0; i < sizeof listened / sizeof *listened; i++)
        listen_to(listened[i].number);
    for (int number = SIGRTMIN; number <= SIGRTMAX; number++)
        listen_to(number);
    signal(SIGPIPE, SIG_IGN);
    signal(SIGXFSZ, SIG_IGN);
}

int stop_asked(void) { return asked; }

void stop_obeyed(void) { asked = 0; }

void stop_here(void) {
    if (!asked)
        return;
    char name[32];
    snprintf(name, sizeof name, "signal %d", (int)asked);
    for (size_t i = 0; i < sizeof listened / sizeof *listened; i++)
        if (listened[i].number == asked)
            snprintf(name, sizeof name, "%s", listened[i].name);
    const char *standing = report_standing();
    die_with(STATUS_SIGNAL + asked, "interrupted by %s%s%s", name, *standing ? ": " : "", standing);
}
