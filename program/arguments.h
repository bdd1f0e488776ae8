/* A command's arguments, read from left to right. Options are `--name`, `--name value` and `--name=value`, or `-n`, `-n value` and
 * `-nvalue`; `--` ends them. An option that has several names has them as "--name|-n". Whatever is wrong ends the program with one line. */
#ifndef ARGUMENTS_H
#define ARGUMENTS_H

#include <stdbool.h>
#include <stddef.h>
#include <stdint.h>

struct arguments {
    const char *command; /* for the messages */
    char **next;
    const char *word; /* the argument that is looked at */
    bool operands;    /* the options have ended */
};

struct arguments arguments_of(const char *command, char **words);

/* Goes to the next argument; false after the last. */
bool argument_next(struct arguments *a);

/* Whether the argument is this option, which has no value. */
bool argument_flag(const struct arguments *a, const char *names);

/* Whether the argument is this option, which has a value; then *value is it. */
bool argument_value(struct arguments *a, const char *names, const char **value);

/* The argument as an operand: dies if it is an option. */
const char *argument_operand(const struct arguments *a);

/* Operands in their order. */
struct operands {
    const char **names;
    size_t count;
};

void operands_add(struct operands *all, const char *name);

/* A number of `least` to `most`, decimal or 0x and hexadecimal digits, and nothing else in the word. */
uint64_t number_of(const char *option, const char *text, uint64_t least, uint64_t most);

/* 7 or 8, from 07h, 08h, 7, 8, 0x07 or 0x08. */
uint8_t page_of(const char *option, const char *text);

/* Four last blocks A1,A2,A3,A4 of a capture. */
void areas_of(const char *option, const char *text, uint32_t areas[4]);

/* N:BYTE=VALUE, a command's number and a byte of a header. */
void header_byte_of(const char *option, const char *text, uint64_t *command, uint16_t *byte, uint32_t *value);

/* ENDING,BLOCKS,COMMANDS,FAILED, the numbers of a finished run. */
void run_of(const char *option, const char *text, uint64_t numbers[4]);

#endif
