/* What the embedded drive is asked to be. */
#ifndef EMBEDDED_OPTIONS_H
#define EMBEDDED_OPTIONS_H

#include "arguments.h"
#include "drive.h"

/* The options of it that need no word about commands. */
#define EMBEDDED_HELP                                                                   \
    "  --seed N              what its captures hold is made from N (1)\n" \
    "  --drive-areas A1,A2,A3,A4\n" \
    "                        last blocks of its captures (8,24,64,128)\n" \
    "  --drive-no-area4      it has no area 4\n" \
    "  --drive-no-etdas      it has, but the host has not said yes to it\n" \
    "  --drive-no-mcda       it does not honour the greatest area wanted\n" \
    "  --drive-old           it has no extended data and no area 4\n" \
    "  --drive-generation N  its generation at the start, 0 to 255 (1)\n" \
    "  --drive-empty         it holds no capture at the start\n"

/* The drive of a command line that says nothing of it. */
struct embedded usual_embedded(void);

/* Whether the argument is an option of the embedded drive; then it is read. */
bool read_embedded_option(struct embedded *e, struct arguments *a);

/* What one option leaves to another: captures that name no areas have the drive's. */
void complete_embedded(struct embedded *e);

#endif
