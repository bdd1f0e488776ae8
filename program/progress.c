/* One line that is written over: a bar, the attempt, its bytes and the rate, as much of it as the terminal is wide. */
#include "progress.h"

#include "numbers.h"

#include <stdbool.h>
#include <stdio.h>
#include <string.h>
#include <sys/ioctl.h>
#include <time.h>
#include <unistd.h>

enum { BAR = 20, USUAL_COLUMNS = 80 }; /* beside the bar there is room for five digits of attempts, and four of MiB a second */
static const double MIB = 1048576.0, MOMENT = 0.1; /* seconds */

static bool shown;

static double now(void) {
    struct timespec t;
    clock_gettime(CLOCK_MONOTONIC, &t);
    return (double)t.tv_sec + (double)t.tv_nsec * 1e-9;
}

static int columns(void) {
    struct winsize size;
    return ioctl(STDERR_FILENO, TIOCGWINSZ, &size) == 0 && size.ws_col ? size.ws_col : USUAL_COLUMNS;
}

/* The last column stays free: a terminal may go to the next line there. */
static void draw(const char *bar, const char *text) {
    int room = columns() - 1;
    bool both = (int)(strlen(bar) + strlen(text)) <= room;
    fprintf(stderr, "\r%s%.*s\033[K", both ? bar : "", room, text);
    shown = true;
}

void progress_wait(const char *what) { draw("", what); }

void progress_show(const struct bumbazeel_state *state, uint32_t attempt, uint32_t attempts, uint64_t moved) {
    static double start, last;
    if (!state->at)
        return; /* no chunk is awaited */
    double time = now();
    if (start == 0)
        start = time;
    else if (time - last < MOMENT)
        return;
    last = time;
    double done = (double)(state->at - 1) * BLOCK, all = (double)state->last[state->area - 1] * BLOCK;
    int filled = (int)(BAR * done / all);
    char bar[2 * BAR + 4], text[160], rate[40] = "";
    snprintf(bar, sizeof bar, "[%.*s%.*s] ", filled, "####################", BAR - filled, "....................");
    if (time > start)
        snprintf(rate, sizeof rate, ", %.1f MiB/s", (double)moved / (time - start) / MIB);
    snprintf(text, sizeof text, "attempt %u of %u: %.1f of %.1f MiB%s", (unsigned)attempt, (unsigned)attempts, done / MIB, all / MIB, rate);
    draw(bar, text);
}

void progress_hide(void) {
    if (shown)
        fputs("\r\033[K", stderr);
    shown = false;
}
