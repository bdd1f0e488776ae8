/* The library says which field is at fault; its value and what it may be are read off the header here. */
#include "fault.h"

#include "bytes.h"
#include "json.h"
#include "numbers.h"

#include <stdio.h>

enum { AREA_1_AT = 8, AREA_2_AT = 10, AREA_3_AT = 12 };
enum { MOST_SCOPE = 2, MOST_AVAILABLE = 1 };

static const struct {
    const char *name, *called; /* in JSON, and in a line */
} fields[] = {
    [BUMBAZEEL_FIELD_LENGTH] = {"length", "length"},
    [BUMBAZEEL_FIELD_IDENTIFIER] = {"identifier", "identifier"},
    [BUMBAZEEL_FIELD_AREA_2] = {"area_2", "last block of area 2"},
    [BUMBAZEEL_FIELD_AREA_3] = {"area_3", "last block of area 3"},
    [BUMBAZEEL_FIELD_AREA_4] = {"area_4", "last block of area 4"},
    [BUMBAZEEL_FIELD_SCOPE] = {"scope", "scope"},
    [BUMBAZEEL_FIELD_AVAILABLE] = {"available", "data available (TCDA)"},
    [BUMBAZEEL_FIELD_EMPTY] = {"empty", "last block of area 3"},
};

static void put(struct fault *f, uint32_t value, uint32_t least, uint32_t most, const char *when) {
    f->value = value;
    f->least = least;
    f->most = most;
    f->when = when;
}

/* Of a file that is checked for the page that its own first byte names, either page would do. */
static void put_identifier(struct fault *f, uint32_t value, uint8_t page) {
    bool either = page != BUMBAZEEL_HOST_PAGE && page != BUMBAZEEL_CONTROLLER_PAGE;
    put(f, value, either ? BUMBAZEEL_HOST_PAGE : page, either ? BUMBAZEEL_CONTROLLER_PAGE : page, "");
}

static void put_area_4(struct fault *f, uint32_t value, uint32_t area_3) {
    if (!f->da4s)
        put(f, value, 0, 0, " without DA4S");
    else if (!area_3)
        put(f, value, 0, 0, " while that of area 3 is 0");
    else
        put(f, value, area_3, LAST_OF_AREA_4, " with DA4S");
}

struct fault fault_of(uint8_t field, uint8_t page, bool da4s, const uint8_t *header, size_t bytes) {
    struct fault f = {.field = field, .byte = bumbazeel_field_byte(page, field), .da4s = da4s};
    const uint8_t *at = header + f.byte;
    switch (field) {
    case BUMBAZEEL_FIELD_LENGTH:
        put(&f, (uint32_t)bytes, BLOCK, BLOCK, "");
        break;
    case BUMBAZEEL_FIELD_IDENTIFIER:
        put_identifier(&f, *at, page);
        break;
    case BUMBAZEEL_FIELD_AREA_2:
        put(&f, get16(at), get16(header + AREA_1_AT), LAST_OF_AREA_3, "");
        break;
    case BUMBAZEEL_FIELD_AREA_3:
        put(&f, get16(at), get16(header + AREA_2_AT), LAST_OF_AREA_3, "");
        break;
    case BUMBAZEEL_FIELD_AREA_4:
        put_area_4(&f, get32(at), get16(header + AREA_3_AT));
        break;
    case BUMBAZEEL_FIELD_SCOPE:
        put(&f, *at, 0, MOST_SCOPE, "");
        break;
    case BUMBAZEEL_FIELD_AVAILABLE:
        put(&f, *at, 0, MOST_AVAILABLE, "");
        break;
    case BUMBAZEEL_FIELD_EMPTY:
        put(&f, get16(at), 1, LAST_OF_AREA_3, " while 08h data is available");
        break;
    }
    return f;
}

/* An identifier as pages are written. */
static void put_number(const struct fault *f, uint32_t number, char text[16]) {
    snprintf(text, 16, f->field == BUMBAZEEL_FIELD_IDENTIFIER ? "%02Xh" : "%u", (unsigned)number);
}

const char *fault_text(const struct fault *f) {
    static char text[160];
    char value[16], least[16], most[16], range[48];
    put_number(f, f->value, value);
    put_number(f, f->least, least);
    put_number(f, f->most, most);
    if (f->least == f->most)
        snprintf(range, sizeof range, "only be %s", least);
    else
        snprintf(range, sizeof range, "be %s %s %s", least, f->most - f->least == 1 ? "or" : "to", most);
    snprintf(text, sizeof text, "%s at byte %u is %s, it may %s%s", fields[f->field].called, f->byte, value, range, f->when);
    return text;
}

void fault_json(const struct fault *f) {
    printf(", \"bad_field\": ");
    if (f->field == BUMBAZEEL_FIELD_NONE)
        printf("null");
    else
        printf("{\"field\": \"%s\", \"byte\": %u, \"value\": %u, \"least\": %u, \"most\": %u, \"da4s\": %s}", fields[f->field].name, f->byte,
               (unsigned)f->value, (unsigned)f->least, (unsigned)f->most, json_flag(f->da4s));
}
