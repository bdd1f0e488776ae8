/* What `bumbazeel collect` is asked for. */
#ifndef COLLECT_OPTIONS_H
#define COLLECT_OPTIONS_H

#include "arguments.h"
#include "drive.h"
#include "run.h"

#include <stdbool.h>

struct collect_options {
    struct wish wish; /* area 0, room 0: not given */
    struct embedded drive;
    bool blocks_given, room_given, json, quiet, no_clobber;
    uint32_t timeout;         /* milliseconds a command; 0: as long as the system lets it */
    struct operands devices;  /* none: the embedded drive */
    const char *output;       /* NULL: a name of its own in the folder output_dir */
    const char *output_dir;
    const char *sheet;         /* NULL: the run is entered nowhere */
    const char *embedded_only; /* an option that has no meaning with a device */
};

/* Reads the words after `collect`. Dies of whatever is wrong; --help ends the program. */
struct collect_options collect_options_of(char **words);

#endif
