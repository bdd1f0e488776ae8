/* What is at fault in a bad header: the field, its value and what it may be, told to people and to programs. */
#ifndef FAULT_H
#define FAULT_H

#include <stdbool.h>
#include <stddef.h>
#include <stdint.h>

struct fault {
    uint8_t field;               /* one of the header file's; BUMBAZEEL_FIELD_NONE: nothing is at fault */
    uint16_t byte;               /* where it starts */
    uint32_t value, least, most; /* what it is, and what it may be for this fault to be gone, */
    const char *when;            /* under this condition; "": under any */
    bool da4s;                   /* which the header was judged by */
};

/* The fault that the library found, which is `field`, in a header of `bytes` bytes that was checked for the page and DA4S. */
struct fault fault_of(uint8_t field, uint8_t page, bool da4s, const uint8_t *header, size_t bytes);

/* "scope at byte 381 is 3, it may be 0 to 2", until it is called again. */
const char *fault_text(const struct fault *f);

/* Prints the member bad_field: an object, or null if nothing is at fault. */
void fault_json(const struct fault *f);

#endif
