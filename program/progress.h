/* A collection's progress, on standard error, which is a terminal. */
#ifndef PROGRESS_H
#define PROGRESS_H

#include "bumbazeel.h"

/* Shows what is waited for, at once. */
void progress_wait(const char *what);

/* Shows how far the attempt is and how fast the bytes of the whole run, `moved`, came: at once, and then at most ten times a second.
 * `attempt` and `attempts` are those of the run. */
void progress_show(const struct bumbazeel_state *state, uint32_t attempt, uint32_t attempts, uint64_t moved);

/* Takes the line away, so that something else can be said. */
void progress_hide(void);

#endif
