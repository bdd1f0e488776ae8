/* One run of a collection against a drive, into the output. */
#ifndef RUN_H
#define RUN_H

#include "drive.h"

#include <stdbool.h>
#include <stddef.h>
#include <stdint.h>

/* Whether page 08h is acknowledged once its copy is saved. */
enum acknowledge { IF_NOTHING_IS_UNREAD, ALWAYS, NEVER };

/* What bumbazeel_setup is asked for, and what is shown meanwhile. */
struct wish {
    uint8_t page, create, area;
    uint32_t blocks, attempts; /* blocks 0: of a drive without extended data */
    size_t room;               /* the most bytes that the area may take */
    enum acknowledge acknowledge;
    bool list, progress, hash;
};

/* Runs the collection, and leaves in the report how far it came. Once the copy stands it is saved under its name, on the disk, before an
 * acknowledgement is sent, and nothing takes it away again. Dies if setup refuses the wish or the output fails. If the drive cannot be
 * asked, the report has no ending and the drive's `trouble` says why. */
void run(struct drive *drive, const struct wish *wish);

#endif
