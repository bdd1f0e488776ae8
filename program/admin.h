/* The commands of a host: those that a stock one needs, and of all others the status that the standard names. Get Log Page is the embedded
 * drive's alone. */
#ifndef ADMIN_H
#define ADMIN_H

#include "drive.h"
#include "transport.h"

/* Whom the hosts meet. `list`: each command is printed as it is answered. */
void admin_open(const struct drive *drive, const char *nqn, bool list);

/* Takes a command, and the data that came with it. */
void admin_take(struct connection *c, const uint8_t command[COMMAND_BYTES], const uint8_t *data, size_t bytes);

/* Answers the command that waits on the connection. */
void admin_answer_late(struct connection *c);

/* The connection is closed: its queue is gone, and with the admin queue the controller. */
void admin_closed(struct connection *c);

/* Loses the connections of hosts that have not said that they are alive. Answers when that is to be looked at again. */
uint64_t admin_expire(void);

#endif
