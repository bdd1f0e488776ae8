/* Which area to choose instead is read off the header that was judged: of what a later one may show nothing is said. */
#include "reach.h"

#include "numbers.h"

#include <stdio.h>

struct out_of_reach out_of_reach_of(const struct drive *drive, uint8_t area, const uint32_t last[4]) {
    struct out_of_reach o = {.reach = drive_reach(drive)};
    if (!drive_is_old(drive) || last[area - 1] <= o.reach)
        return o;
    o.area = area;
    o.last = last[area - 1];
    o.by_mdts = o.reach < REACH;
    for (uint8_t smaller = 1; smaller < area; smaller++)
        if (last[smaller - 1] && last[smaller - 1] <= o.reach) {
            o.smaller = smaller;
            o.smaller_last = last[smaller - 1];
        }
    return o;
}

const char *out_of_reach_text(const struct out_of_reach *o) {
    static char text[224];
    char instead[96] = "";
    if (o->smaller)
        snprintf(instead, sizeof instead, "; area %u ends at block %u: choose it with --area %u", o->smaller, (unsigned)o->smaller_last, o->smaller);
    else if (o->area > 1)
        snprintf(instead, sizeof instead, "; no smaller area with blocks is in reach");
    snprintf(text, sizeof text, "area %u ends at block %u, past block %u%s%s", o->area, (unsigned)o->last, (unsigned)o->reach,
             o->by_mdts ? ", the last that one command brings (MDTS)" : "", instead);
    return text;
}

void out_of_reach_json(const struct out_of_reach *o) {
    printf(", \"out_of_reach\": ");
    if (!o->area) {
        printf("null");
        return;
    }
    printf("{\"area\": %u, \"last_block\": %u, \"reach\": %u, \"smaller_area\": ", o->area, (unsigned)o->last, (unsigned)o->reach);
    if (o->smaller)
        printf("%u}", o->smaller);
    else
        printf("null}");
}
