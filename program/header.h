/* What a header says, by the library's plan, for whoever reads one without a wish of their own for area, room and chunks. */
#ifndef HEADER_H
#define HEADER_H

#include "bumbazeel.h"
#include "fault.h"

#include <stddef.h>
#include <stdint.h>

struct reading {
    uint8_t answer;                   /* 0; 7: it is bad; 11: it is of 08h and shows no data available */
    struct bumbazeel_planned planned; /* with 0 what it says, else no last blocks */
    struct fault fault;               /* with 7 what is at fault */
};

/* Reads a header of `bytes` bytes of a drive with these capabilities. The page is the one that it must be of, or its own first byte. */
struct reading read_header(uint8_t page, uint8_t caps, const uint8_t *header, size_t bytes);

/* The greatest area that a drive with these capabilities gives. */
uint8_t greatest_area(uint8_t caps);

/* The blocks that a page with these last blocks holds, whether the host may read them or not. */
uint32_t blocks_held(const uint32_t last[4]);

/* The generation that is the page's own. */
uint8_t own_generation(const struct bumbazeel_planned *planned);

#endif
