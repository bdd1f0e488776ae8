/* The plan is asked for the greatest area in the largest room, a block a command, of a drive that takes offsets: so it refuses nothing but a
 * bad header and one without data. */
#include "header.h"

#include "numbers.h"

struct reading read_header(uint8_t page, uint8_t caps, const uint8_t *header, size_t bytes) {
    struct reading r;
    uint8_t asked = page == BUMBAZEEL_CONTROLLER_PAGE ? page : BUMBAZEEL_HOST_PAGE; /* a first byte that is neither is at fault by both */
    uint8_t able = caps | BUMBAZEEL_EXTENDED | BUMBAZEEL_TELEMETRY;
    r.answer = bumbazeel_plan(asked, greatest_area(caps), able, 1, MOST_ROOM, header, bytes, &r.planned);
    r.fault = fault_of(r.planned.bad_field, page, caps & BUMBAZEEL_DA4S, header, bytes);
    return r;
}

uint8_t greatest_area(uint8_t caps) {
    uint8_t both = BUMBAZEEL_DA4S | BUMBAZEEL_ETDAS;
    return (caps & both) == both ? 4 : 3;
}

uint32_t blocks_held(const uint32_t last[4]) { return last[3] > last[2] ? last[3] : last[2]; }

uint8_t own_generation(const struct bumbazeel_planned *planned) {
    return planned->page == BUMBAZEEL_HOST_PAGE ? planned->host_generation : planned->controller_generation;
}
