/* Strict reading of the command line. */
#include "arguments.h"

#include "numbers.h"
#include "say.h"

#include <stdlib.h>
#include <string.h>

struct arguments arguments_of(const char *command, char **words) {
    struct arguments a = {.command = command, .next = words, .word = NULL, .operands = false};
    return a;
}

bool argument_next(struct arguments *a) {
    if (*a->next && !a->operands && strcmp(*a->next, "--") == 0) {
        a->operands = true;
        a->next++;
    }
    a->word = *a->next;
    if (a->word)
        a->next++;
    return a->word != NULL;
}

/* Whether the argument is this one name, "--name" or "-n". What follows it in the same word is then *rest: a long name's value follows
 * '='. */
static bool is_name(const char *word, const char *name, size_t length, const char **rest) {
    if (strncmp(word, name, length) != 0)
        return false;
    *rest = word + length;
    return length == 2 || word[length] == '\0' || word[length] == '=';
}

/* Whether the argument is one of the names, which `|` parts; then *length is the name's. */
static bool is_option(const struct arguments *a, const char *names, size_t *length, const char **rest) {
    for (const char *name = names; !a->operands && *name; name += *length + (name[*length] == '|')) {
        *length = strcspn(name, "|");
        if (is_name(a->word, name, *length, rest))
            return true;
    }
    return false;
}

bool argument_flag(const struct arguments *a, const char *names) {
    const char *rest;
    size_t length;
    if (!is_option(a, names, &length, &rest))
        return false;
    if (*rest)
        die("%.*s takes no value", (int)length, a->word);
    return true;
}

bool argument_value(struct arguments *a, const char *names, const char **value) {
    const char *rest;
    size_t length;
    if (!is_option(a, names, &length, &rest))
        return false;
    *value = !*rest ? *a->next : length == 2 ? rest : rest + 1;
    if (!*value)
        die("%s needs a value (bumbazeel %s --help)", a->word, a->command);
    if (!*rest)
        a->next++;
    return true;
}

const char *argument_operand(const struct arguments *a) {
    if (!a->operands && a->word[0] == '-' && a->word[1])
        die("unknown option '%s' (bumbazeel %s --help lists them)", a->word, a->command);
    return a->word;
}

void operands_add(struct operands *all, const char *name) {
    const char **names = realloc(all->names, (all->count + 1) * sizeof *names);
    if (!names)
        die("no memory for '%s'", name);
    all->names = names;
    all->names[all->count++] = name;
}

static int digit_of(char c, unsigned base) {
    int value = c >= '0' && c <= '9' ? c - '0' : c >= 'a' && c <= 'f' ? c - 'a' + 10 : c >= 'A' && c <= 'F' ? c - 'A' + 10 : 16;
    return value < (int)base ? value : -1;
}

/* Reads a number at the front of the text. The text behind it, or NULL if there is none or it is over 64 bits. */
static const char *read_number(const char *text, uint64_t *value) {
    unsigned base = text[0] == '0' && (text[1] == 'x' || text[1] == 'X') ? 16 : 10;
    const char *at = base == 16 ? text + 2 : text;
    if (digit_of(*at, base) < 0)
        return NULL;
    for (*value = 0; digit_of(*at, base) >= 0; at++) {
        uint64_t digit = (uint64_t)digit_of(*at, base);
        if (*value > (UINT64_MAX - digit) / base)
            return NULL;
        *value = *value * base + digit;
    }
    return at;
}

uint64_t number_of(const char *option, const char *text, uint64_t least, uint64_t most) {
    uint64_t value = 0;
    const char *rest = read_number(text, &value);
    if (!rest || *rest || value < least || value > most)
        die("%s '%s' is not a number from %llu to %llu", option, text, (unsigned long long)least, (unsigned long long)most);
    return value;
}

uint8_t page_of(const char *option, const char *text) {
    uint64_t value = 0;
    const char *rest = read_number(text, &value);
    bool suffix = rest && rest == text + 2 && text[0] == '0' && strcmp(rest, "h") == 0;
    if (!rest || (*rest && !suffix) || (value != 7 && value != 8))
        die("%s '%s' is not a telemetry page: give 07h or 08h", option, text);
    return (uint8_t)value;
}

void areas_of(const char *option, const char *text, uint32_t areas[4]) {
    const char *at = text;
    uint64_t before = 0;
    bool good = true;
    for (int i = 0; good && i < 4; i++) {
        uint64_t value = 0;
        at = read_number(at, &value);
        good = at && value >= before && value <= (i < 3 ? LAST_OF_AREA_3 : LAST_OF_AREA_4) && *at == (i < 3 ? ',' : '\0');
        areas[i] = (uint32_t)value;
        before = value;
        if (good && i < 3)
            at++;
    }
    if (!good || (areas[3] && !areas[2]))
        die("%s '%s' is not A1,A2,A3,A4 with A1 <= A2 <= A3 <= A4, A3 at most %d, A4 at most %d, and A4 = 0 if A3 = 0", option, text,
            LAST_OF_AREA_3, LAST_OF_AREA_4);
}

/* Reads a number and the mark behind it. The text behind both, or NULL if they are not there. */
static const char *read_up_to(const char *text, char mark, uint64_t *value) {
    const char *rest = text ? read_number(text, value) : NULL;
    return rest && *rest == mark ? rest + 1 : NULL;
}

void header_byte_of(const char *option, const char *text, uint64_t *command, uint16_t *byte, uint32_t *value) {
    uint64_t n = 0, at = 0, is = 0;
    bool whole = read_up_to(read_up_to(read_up_to(text, ':', &n), '=', &at), '\0', &is);
    if (!whole || n < 1 || n > UINT32_MAX || at >= BLOCK || is > UINT8_MAX)
        die("%s '%s' is not N:BYTE=VALUE with N at least 1, BYTE at most %d and VALUE at most %d", option, text, BLOCK - 1, UINT8_MAX);
    *command = n;
    *byte = (uint16_t)at;
    *value = (uint32_t)is;
}

void run_of(const char *option, const char *text, uint64_t numbers[4]) {
    const char *at = text;
    for (int i = 0; i < 4; i++)
        at = read_up_to(at, i < 3 ? ',' : '\0', &numbers[i]);
    if (!at || numbers[0] > UINT8_MAX)
        die("%s '%s' is not ENDING,BLOCKS,COMMANDS,FAILED with ENDING at most %d and each of the others at most %llu", option, text, UINT8_MAX,
            (unsigned long long)UINT64_MAX);
}
