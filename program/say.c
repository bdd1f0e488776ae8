/* Messages: one line each, whatever a file name in them holds. */
#include "say.h"

#include "bumbazeel.h"
#include "progress.h"

#include <errno.h>
#include <stdarg.h>
#include <stdio.h>
#include <stdlib.h>
#include <string.h>

enum { LINE = 8192 };

static void (*at_death)(int status, const char *error);
static const char *last_words = "";

void make_plain(char *text) {
    for (char *at = text; *at; at++)
        if ((unsigned char)*at < ' ' || *at == 127)
            *at = '?';
}

static void line(char text[LINE], const char *format, va_list values, const char *after) {
    if (vsnprintf(text, LINE, format, values) < 0)
        text[0] = '\0';
    size_t length = strlen(text);
    snprintf(text + length, LINE - length, "%s", after);
    make_plain(text);
    progress_hide();
    fprintf(stderr, "bumbazeel: %s\n", text);
}

static _Noreturn void end(int status, const char *format, va_list values) {
    char text[LINE];
    void (*tell)(int, const char *) = at_death;
    line(text, format, values, last_words);
    at_death = NULL; /* what cannot be told is not told again */
    if (tell)
        tell(status, text);
    exit(status);
}

void die(const char *format, ...) {
    va_list values;
    va_start(values, format);
    end(STATUS_TROUBLE, format, values);
}

void die_with(int status, const char *format, ...) {
    va_list values;
    va_start(values, format);
    end(status, format, values);
}

void say(const char *format, ...) {
    char text[LINE];
    va_list values;
    va_start(values, format);
    line(text, format, values, "");
    va_end(values);
}

void say_at_death(void (*tell)(int status, const char *error)) { at_death = tell; }

void say_last(const char *words) { last_words = words; }

const char *meaning(uint8_t answer) {
    static const char *const meanings[] = {
        [BUMBAZEEL_SUCCESS] = "success",
        [BUMBAZEEL_INVALID_FIELD] = "invalid field in command",
        [BUMBAZEEL_INVALID_LOG_PAGE] = "invalid log page",
        [BUMBAZEEL_SHORT_BUFFER] = "transfer buffer shorter than the transfer",
        [BUMBAZEEL_DISAGREE] = "record and lent stores disagree",
        [BUMBAZEEL_BROKEN_CANDIDATE] = "broken candidate",
        [BUMBAZEEL_NO_AREA_4] = "area 4 wanted without DA4S and ETDAS",
        [BUMBAZEEL_BAD_HEADER] = "bad header",
        [BUMBAZEEL_NO_ROOM] = "wanted area larger than the copy",
        [BUMBAZEEL_ATTEMPTS_USED_UP] = "attempts used up",
        [BUMBAZEEL_WITHDRAWN] = "withdrawn, the 08h header no longer shows data available",
        [BUMBAZEEL_NOTHING] = "nothing, the first 08h header shows no data available",
        [BUMBAZEEL_BROKE_ITS_WORD] = "controller broke its word",
        [BUMBAZEEL_BAD_SETUP] = "bad setup or state, bad builder arguments",
        [BUMBAZEEL_ALREADY_ENDED] = "already ended",
        [BUMBAZEEL_DOES_NOT_FIT] = "completion doesn't fit the awaited command",
        [BUMBAZEEL_OUT_OF_REACH] = "wanted area past block 31, where the drive has no extended data",
        [BUMBAZEEL_TOTAL_FULL] = "a total would pass 18,446,744,073,709,551,615",
    };
    bool known = answer < sizeof meanings / sizeof *meanings && meanings[answer];
    return known ? meanings[answer] : "unknown answer";
}

void print_answer(uint8_t answer, const char *words, const char *why) {
    printf("%u (%s)%s%s", answer, words, why ? ": " : "", why ? why : "");
}

void close_stdout(const char *aside) {
    int lost = ferror(stdout); /* an earlier line; its reason is gone */
    errno = 0;
    if (fflush(stdout) || lost)
        die("standard output: %s%s", errno ? strerror(errno) : "not all of it could be written", aside);
}

void print_help(const char *text) {
    fputs(text, stdout);
    close_stdout("");
    exit(STATUS_SUCCESS);
}
