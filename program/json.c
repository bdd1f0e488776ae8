/* JSON's strings: everything else that is printed is numbers and words of the program's own. */
#include "json.h"

#include <stddef.h>
#include <stdio.h>

const char *json_flag(bool value) { return value ? "true" : "false"; }

/* The bytes of the UTF-8 character at the front of the text: 2 to 4, or 0 if there is none of these. */
static size_t character_bytes(const unsigned char *text) {
    size_t count = text[0] >= 0xC2 && text[0] <= 0xDF ? 2 : (text[0] & 0xF0) == 0xE0 ? 3 : text[0] >= 0xF0 && text[0] <= 0xF4 ? 4 : 0;
    for (size_t i = 1; i < count; i++)
        if ((text[i] & 0xC0) != 0x80)
            return 0;
    bool overlong = (text[0] == 0xE0 && text[1] < 0xA0) || (text[0] == 0xF0 && text[1] < 0x90);
    bool no_character = (text[0] == 0xED && text[1] > 0x9F) || (text[0] == 0xF4 && text[1] > 0x8F);
    return count && !overlong && !no_character ? count : 0;
}

void json_string(const char *text) {
    if (!text) {
        fputs("null", stdout);
        return;
    }
    putchar('"');
    for (const unsigned char *at = (const unsigned char *)text; *at; at++) {
        size_t count = character_bytes(at);
        if (count) {
            fwrite(at, 1, count, stdout);
            at += count - 1;
        } else if (*at == '"' || *at == '\\')
            printf("\\%c", *at);
        else if (*at < ' ' || *at == 127)
            printf("\\u%04X", *at);
        else if (*at > 127)
            fputs("\\uFFFD", stdout);
        else
            putchar(*at);
    }
    putchar('"');
}

void json_error(int status, const char *error) {
    printf("{\"status\": %d, \"error\": ", status);
    json_string(error);
    puts("}");
    fflush(stdout); /* if it cannot be written, the line on standard error was */
}
