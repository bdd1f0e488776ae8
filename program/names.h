/* NVMe statuses in words. */
#ifndef NAMES_H
#define NAMES_H

#include <stdint.h>

/* The standard's name of a status, type * 256 + code, in lower case. */
const char *status_name(uint16_t status);

#endif
