/* The header file's numbers under the program's short names: for messages, for buffers and for the reading of the command line. */
#ifndef NUMBERS_H
#define NUMBERS_H

#include "bumbazeel.h"

enum {
    BLOCK = BUMBAZEEL_BLOCK,
    REASON = BUMBAZEEL_REASON,
    MOST_BLOCKS = BUMBAZEEL_MOST_BLOCKS,
    REACH = BUMBAZEEL_REACH,
    MOST_ATTEMPTS = BUMBAZEEL_MOST_ATTEMPTS,
    MOST_ROOM = BUMBAZEEL_MOST_ROOM,
    LAST_OF_AREA_3 = BUMBAZEEL_LAST_OF_AREA_3,
    LAST_OF_AREA_4 = BUMBAZEEL_LAST_OF_AREA_4
};

#endif
