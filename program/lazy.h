/* Memory in whole pages. Each function dies without memory. */
#ifndef LAZY_H
#define LAZY_H

#include <stddef.h>
#include <stdint.h>

/* `bytes` zero bytes that cost nothing until they are written. */
uint8_t *lazy_bytes(size_t bytes);

/* `bytes` zero bytes that are there in full: no later write to them can be the one that the machine has no memory for. */
uint8_t *held_bytes(size_t bytes);

/* Gives back what one of the two gave. */
void free_bytes(uint8_t *at, size_t bytes);

#endif
