/* The command line of the embedded drive, for `collect` and `serve`. */
#include "embedded_options.h"

#include "say.h"

#include <stdlib.h>
#include <string.h>

static const uint8_t EVERY_CAP = BUMBAZEEL_EXTENDED | BUMBAZEEL_TELEMETRY | BUMBAZEEL_DA4S | BUMBAZEEL_ETDAS | BUMBAZEEL_MCDAS;

struct embedded usual_embedded(void) {
    return (struct embedded){.seed = 1, .areas = {8, 24, 64, 128}, .caps = EVERY_CAP, .generation = 1};
}

static struct happening *add_happening(struct embedded *e, const char *option) {
    struct happening *all = realloc(e->happenings, (e->count + 1) * sizeof *all);
    if (!all)
        die("no memory for %s", option);
    e->happenings = all;
    return &all[e->count++];
}

/* N, or N:A1,A2,A3,A4 for a capture. */
static void read_happening(struct embedded *e, const char *option, enum what what, const char *value) {
    const char *colon = what == CAPTURE ? strchr(value, ':') : NULL;
    char *number = colon ? strndup(value, (size_t)(colon - value)) : strdup(value);
    struct happening *h = add_happening(e, option);
    if (!number)
        die("no memory for %s", option);
    *h = (struct happening){.what = what, .before = number_of(option, number, 1, UINT32_MAX)};
    free(number);
    if (colon)
        areas_of(option, colon + 1, h->areas);
    else
        h->areas[3] = UINT32_MAX; /* as --drive-areas, which may come later */
}

static void read_header_byte(struct embedded *e, const char *option, const char *value) {
    struct happening *h = add_happening(e, option);
    *h = (struct happening){.what = HEADER_BYTE};
    header_byte_of(option, value, &h->before, &h->byte, &h->number);
}

bool read_embedded_option(struct embedded *e, struct arguments *a) {
    const char *value;
    if (argument_value(a, "--seed", &value))
        e->seed = number_of("--seed", value, 0, UINT64_MAX);
    else if (argument_value(a, "--drive-areas", &value))
        areas_of("--drive-areas", value, e->areas);
    else if (argument_flag(a, "--drive-no-area4"))
        e->caps &= (uint8_t)~(BUMBAZEEL_DA4S | BUMBAZEEL_ETDAS);
    else if (argument_flag(a, "--drive-no-etdas"))
        e->caps &= (uint8_t)~BUMBAZEEL_ETDAS;
    else if (argument_flag(a, "--drive-no-mcda"))
        e->caps &= (uint8_t)~BUMBAZEEL_MCDAS;
    else if (argument_flag(a, "--drive-old"))
        e->caps &= (uint8_t)~(BUMBAZEEL_EXTENDED | BUMBAZEEL_DA4S | BUMBAZEEL_ETDAS);
    else if (argument_value(a, "--drive-generation", &value))
        e->generation = (uint8_t)number_of("--drive-generation", value, 0, 255);
    else if (argument_flag(a, "--drive-empty"))
        e->empty = true;
    else if (argument_value(a, "--capture-before", &value))
        read_happening(e, "--capture-before", CAPTURE, value);
    else if (argument_value(a, "--clear-before", &value))
        read_happening(e, "--clear-before", CLEAR, value);
    else if (argument_value(a, "--drop-before", &value))
        read_happening(e, "--drop-before", DROP, value);
    else if (argument_value(a, "--refuse", &value))
        read_happening(e, "--refuse", REFUSAL, value);
    else if (argument_value(a, "--header-byte", &value))
        read_header_byte(e, "--header-byte", value);
    else
        return false;
    return true;
}

void complete_embedded(struct embedded *e) {
    for (size_t i = 0; i < e->count; i++)
        if (e->happenings[i].areas[3] == UINT32_MAX)
            memcpy(e->happenings[i].areas, e->areas, sizeof e->areas);
}
