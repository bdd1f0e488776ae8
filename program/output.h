/* The file that a collection saves: it stands under its name whole or not at all. A program has one. */
#ifndef OUTPUT_H
#define OUTPUT_H

#include <stdbool.h>
#include <stddef.h>
#include <stdint.h>

/* Prepares for a file of this name, which is not to replace another if it is `fresh`, or for standard output if it is "-". Dies if that
 * cannot do, before a page is asked for. From here on, whatever ends the program leaves no temporary file. */
void output_open(const char *name, bool fresh);

/* Writes the bytes, down to the disk, and gives the file its name, over an older one. To standard output: writes them, and waits until a
 * pipe's reader has taken them. Dies if that cannot be done. */
void output_save(const uint8_t *bytes, size_t count);

/* What the saved file is called in messages, and whether it is standard output. */
const char *output_called(void);
bool output_is_standard(void);

/* Brings the file's name to the disk too. 0, or the error number. */
int output_sync_name(void);

#endif
