/* The same work for several devices or files. */
#ifndef EACH_H
#define EACH_H

#include <stddef.h>

/* Does the work for each name in turn. Of several, each has a process of its own, so that whatever ends one leaves the others alone. Its
 * exit status, or STATUS_TROUBLE if a signal ended it, goes to `statuses`, unless that is NULL. Answers the first that is not 0. A stop that is
 * asked for is handed on, and the names after it are left out. */
int each_in_turn(const char **names, size_t count, int (*work)(const char *name), int *statuses);

#endif
