/* What is out of reach on a drive without extended data: an area whose blocks one command cannot bring, told to people and to programs. */
#ifndef REACH_H
#define REACH_H

#include "drive.h"

#include <stdbool.h>
#include <stdint.h>

struct out_of_reach {
    uint8_t area;          /* the wanted area; 0: nothing is out of reach */
    uint32_t last, reach;  /* the block where it ends, and the last one that a command brings */
    bool by_mdts;          /* which is less than 31 by the drive's MDTS */
    uint8_t smaller;       /* the greatest area with blocks that is in reach, */
    uint32_t smaller_last; /* and the block where that ends; 0 and 0: there is none */
};

/* What is out of reach of the area in a header with these last blocks. */
struct out_of_reach out_of_reach_of(const struct drive *drive, uint8_t area, const uint32_t last[4]);

/* "area 3 ends at block 64, past block 31; area 2 ends at block 24: choose it with --area 2", until it is called again. */
const char *out_of_reach_text(const struct out_of_reach *o);

/* Prints the member out_of_reach: an object, or null if nothing is. */
void out_of_reach_json(const struct out_of_reach *o);

#endif
