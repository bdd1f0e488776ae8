/* JSON on standard output. */
#ifndef JSON_H
#define JSON_H

#include <stdbool.h>

/* A yes or no. */
const char *json_flag(bool value);

/* Prints a text with its quotation marks, whatever its bytes are; what is no UTF-8 becomes U+FFFD. NULL is null. */
void json_string(const char *text);

/* Prints the object of a command that died: its status and the line that it said. */
void json_error(int status, const char *error);

#endif
