/* What is known of the collection so far: whatever ends the program, it is told from here, as a line and as JSON. A program has one. */
#ifndef REPORT_H
#define REPORT_H

#include "drive.h"
#include "fault.h"
#include "reach.h"

#include <stdbool.h>
#include <stddef.h>
#include <stdint.h>
#include <time.h>

enum acknowledgement { NOT_SENT, DONE, REFUSED_BY_DRIVE, NOT_KNOWN };

struct report {
    time_t began;
    const char *device;        /* its path; NULL: the embedded drive */
    const struct drive *drive; /* NULL before it is open */
    uint8_t page, area;        /* area 0: not yet known */
    bool create;
    bool ended;                /* the collection has an ending, which is `ending` */
    uint8_t ending;
    struct fault fault;        /* with ending 7, of the header just judged */
    struct out_of_reach out_of_reach; /* with ending 19, and with 8 by MDTS: of the header just judged */
    uint32_t attempts, failed;
    uint64_t commands; /* Get Log Pages of the page collected that were sent */
    bool newer;        /* a newer capture was acknowledged unread */
    enum acknowledgement acknowledgement;
    bool keeps;        /* none is wanted */
    uint32_t unread;   /* blocks of the page above the area, which keep it from being acknowledged */
    bool empty;        /* the page has no blocks at all */
    const char *file;  /* where it is saved, whole; NULL: nowhere */
    bool to_standard_output;
    size_t bytes;      /* saved */
    char sha256[65];   /* of them; "": not asked for, or there is nobody to ask */
    const char *sheet; /* the file that the run is entered into when it has ended; NULL: none */
    bool entered;      /* and whether it is */
};

extern struct report report;

/* What stands now, as the second half of a message: what is saved, and what became of the acknowledgement. "" where nothing is collected. */
const char *report_standing(void);

/* Tells the ending in one line. */
void report_line(void);

/* Prints the whole report as one JSON object; `error` is the line that was said, or NULL. */
void report_json(int status, const char *error);

#endif
