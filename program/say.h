/* What the program says to people: one line on standard error a thing, and an answer's meaning in words. */
#ifndef SAY_H
#define SAY_H

#include <stdbool.h>
#include <stdint.h>

/* An exit status. A collection or a header that is not as it should be has the number of its answer, 7 to 12 or 19. */
enum {
    STATUS_SUCCESS = 0,
    STATUS_OTHER_LENGTH = 1, /* a file that does not end where its header says */
    STATUS_TROUBLE = 2,      /* bad use, and what the machine refuses */
    STATUS_SIGNAL = 128      /* and the signal's number, as a shell tells it; the program itself ends by the signal */
};

/* Says what is wrong and ends the program with STATUS_TROUBLE. */
_Noreturn void die(const char *format, ...) __attribute__((format(printf, 1, 2)));

/* The same with another status. */
_Noreturn void die_with(int status, const char *format, ...) __attribute__((format(printf, 2, 3)));

/* Says something that does not end the program. */
void say(const char *format, ...) __attribute__((format(printf, 1, 2)));

/* From here on whatever dies is told on standard output too, by this function. It is called once at most; NULL takes it away. */
void say_at_death(void (*tell)(int status, const char *error));

/* From here on the line of whatever dies ends with these words, as they stand then. They begin with what parts them from the rest. */
void say_last(const char *words);

/* The meaning of an answer number, in document 01's words. */
const char *meaning(uint8_t answer);

/* Prints "7 (bad header): why" and no end of the line, the words being those in parentheses; NULL: there is nothing to say of why. */
void print_answer(uint8_t answer, const char *words, const char *why);

/* The text with a '?' for each byte that would break a line or steer a terminal. */
void make_plain(char *text);

/* Prints what was asked for, help or version, and ends the program with success. */
_Noreturn void print_help(const char *text);

/* Ends the program's output: dies, with `aside` after the reason, if not all of standard output could be written. */
void close_stdout(const char *aside);

#endif
