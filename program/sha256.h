/* SHA-256, by whoever has it. */
#ifndef SHA256_H
#define SHA256_H

#include <stdbool.h>
#include <stddef.h>
#include <stdint.h>

/* Writes the 64 digits and the end of the text. False, with "", if this machine has no libcrypto. */
bool sha256_of(const uint8_t *bytes, size_t count, char digits[65]);

#endif
