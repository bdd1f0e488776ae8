/* A drive that a collection asks: the embedded one, or a device of this machine. */
#ifndef DRIVE_H
#define DRIVE_H

#include "bumbazeel.h"

#include <stdbool.h>
#include <stddef.h>
#include <stdint.h>

/* What became of a command. Lost: it is not known what the drive did, and why that is so stands in the drive's `trouble`. */
enum completion { SUCCEEDED, REFUSED, LOST };

struct drive {
    const char *path;           /* of the device; NULL: the embedded drive */
    char serial[21], model[41], firmware[9];
    uint8_t caps;               /* as bumbazeel_setup takes them */
    uint32_t oui;               /* 24 bits */
    uint32_t most_blocks;       /* the most blocks that one command may transfer, */
    const char *most_blocks_by; /* and who says so */
    uint16_t refusal;           /* NVMe status, type * 256 + code, of the latest command that it refused; 0 before the first */
    char trouble[256];

    /* Sends a Get Log Page of these words, which transfers `bytes` bytes; with success data holds them. */
    enum completion (*send)(struct drive *drive, const uint32_t words[5], uint8_t *data, size_t bytes);
};

/* The device's path, or what the embedded drive is called. */
const char *drive_name(const struct drive *drive);

/* Whether it has telemetry pages but no extended data (LPA bit 2 at 0). Such a drive takes no offset into a page, so one command reads header
 * and blocks together. */
bool drive_is_old(const struct drive *drive);

/* The last block that this one command brings: that of 4,096 dwords, or less by MDTS. */
uint32_t drive_reach(const struct drive *drive);

/* ---- a device of this machine, through Linux's admin passthrough */

/* Opens it and asks Identify alone. A command may take `timeout` milliseconds; 0: as long as the system lets it. Dies if it is no drive. */
struct drive *device_open(const char *path, uint32_t timeout);

/* Asks the opened drive what Identify leaves open: ETDAS and MCDAS, each only where LPA says that it can be asked for. */
void device_ask(void);

/* The bytes that a Get Log Page of these words transfers: without extended data 12 bits of the first word count alone. */
size_t transfer_bytes(uint8_t caps, const uint32_t words[5]);

/* ---- the embedded drive: the library's own controller, with contents made from a seed */

/* What happens right before a command, counted from 1. The last four are for a command that comes over a connection. */
struct happening {
    enum what {
        CAPTURE,      /* another capture is taken */
        CLEAR,        /* another host acknowledges page 08h */
        DROP,         /* a firmware commit drops the data of page 07h */
        REFUSAL,      /* the command is refused */
        HEADER_BYTE,  /* from here on a byte of the headers that it gives is another */
        CLOSE_BEFORE, /* its connection is closed, and it is not done */
        CLOSE_UNTOLD, /* it is done, and its connection is closed before it is answered */
        CLOSE_AFTER,  /* it is done and answered, and then its connection is closed */
        DELAY         /* it is done and answered later */
    } what;
    uint64_t before;
    uint8_t page;      /* of a capture; 0: the one that the command asks for */
    uint32_t areas[4]; /* of a capture */
    uint32_t number;   /* the status of a refusal; the milliseconds of a delay; the value of a header's byte, */
    uint16_t byte;     /* which is this one */
};

struct embedded {
    uint64_t seed;
    uint32_t areas[4]; /* of the captures that name none */
    uint8_t caps;
    uint8_t generation; /* of both pages at the start */
    bool empty;         /* the drive starts without a capture */
    struct happening *happenings;
    size_t count;
};

/* A drive with a capture on the page. The happenings, in their order, happen as the run sends its commands. */
struct drive *embedded_open(uint8_t page, const struct embedded *settings);

/* A drive with a capture on each page, first 08h and then 07h, for the functions below. What it refuses in the middle is said and does not
 * end the program. */
const struct drive *embedded_open_both(const struct embedded *settings);

/* What is to become of a command, besides its answer. */
struct fate {
    uint16_t refusal; /* 0: it is not refused before the controller sees it */
    uint32_t delay;
    enum what closing; /* CAPTURE: its connection stays */
};

/* Counts a command on the page, and lets happen what is to happen before it. */
struct fate embedded_before(uint8_t page);

/* The controller's answer to the words; with success data holds what they ask for, a header with the bytes that are to be others. */
uint8_t embedded_answer(const uint32_t words[5], uint8_t *data, size_t bytes);

/* Lets a capture, a clearing or a drop happen now: the controller's answer. */
uint8_t embedded_now(const struct happening *happening);

/* Lets something happen before the n-th command from now, n being what `before` says. False: too much is to happen already, or there is no
 * room for such a capture. */
bool embedded_later(const struct happening *happening);

/* Nothing more is to happen. */
void embedded_forget(void);

/* The last blocks of the captures that name none. */
const uint32_t *embedded_areas(void);

/* Whether the record has changed since this was last asked. */
bool embedded_changed(void);

/* The record's notice: an event tells of 08h data. */
bool embedded_notice(void);

/* What the page holds: its header, and the bytes of its blocks, which are behind *blocks. */
size_t embedded_held(uint8_t page, uint8_t header[BUMBAZEEL_BLOCK], const uint8_t **blocks);

#endif
