/* bumbazeel check: what the header of a saved file says, and whether the file is as long as it says. */
#include "commands.h"

#include "arguments.h"
#include "bumbazeel.h"
#include "each.h"
#include "fault.h"
#include "header.h"
#include "json.h"
#include "numbers.h"
#include "say.h"

#include <errno.h>
#include <fcntl.h>
#include <stdio.h>
#include <stdlib.h>
#include <string.h>
#include <sys/stat.h>
#include <unistd.h>

enum { ROW = 16 }; /* bytes of the reason in a line */
static const uint64_t LONGEST = BLOCK * (1 + (uint64_t)LAST_OF_AREA_4); /* a header and the largest area 4 */

static const char help[] = "usage: bumbazeel check [OPTIONS] FILE...\n"
                           "\n"
                           "Shows the header of a saved telemetry page, the first 512 bytes of FILE (- for\n"
                           "standard input), and which areas its length fits. Of several files it shows a\n"
                           "line each, and counts them. Of a bad header it tells the field at fault, and of\n"
                           "one of page 08h that shows no data available just that.\n"
                           "Exit status: 0 the length fits, 1 it does not, 7 a bad header, 11 no data.\n"
                           "\n"
                           "  --page 07h|08h  the page it must be (by default as its first byte says)\n"
                           "  --area4         the drive has area 4 (DA4S 1)\n"
                           "  --no-area4      the drive has none (by default whichever makes it good)\n"
                           "  --json          print one JSON object a file\n"
                           "  -h, --help      this text\n";

static struct {
    struct operands files;
    uint8_t page; /* 0: by the first byte */
    enum { EITHER, WITH_AREA_4, WITHOUT_AREA_4 } area_4;
    bool json;
} options;

struct saved {
    uint8_t header[BLOCK];
    size_t header_bytes; /* less than 512 of a shorter file */
    uint64_t bytes;      /* of the whole file; LONGEST + 1 of any that is longer */
};

struct finding {
    struct reading header;
    bool da4s;
    unsigned areas; /* that the header speaks of: 3 or 4 */
    unsigned held;  /* the file is long enough for the areas 1 to this one */
    bool fits;      /* and ends with the last block of that one */
};

static void read_options(char **words) {
    struct arguments a = arguments_of("check", words);
    const char *value;
    while (argument_next(&a)) {
        if (argument_flag(&a, "--help|-h"))
            print_help(help);
        if (argument_value(&a, "--page", &value))
            options.page = page_of("--page", value);
        else if (argument_flag(&a, "--area4"))
            options.area_4 = WITH_AREA_4;
        else if (argument_flag(&a, "--no-area4"))
            options.area_4 = WITHOUT_AREA_4;
        else if (argument_flag(&a, "--json"))
            options.json = true;
        else
            operands_add(&options.files, argument_operand(&a));
    }
    if (!options.files.count)
        die("check needs FILE, a saved telemetry page (bumbazeel check --help)");
}

/* Reads up to `bytes` bytes; fewer at the end of the file. */
static size_t read_some(int file, const char *name, uint8_t *to, size_t bytes) {
    size_t done = 0;
    while (done < bytes) {
        ssize_t n = read(file, to + done, bytes - done);
        if (n < 0 && errno != EINTR)
            die("%s: cannot read: %s", name, strerror(errno));
        if (n == 0)
            break;
        if (n > 0)
            done += (size_t)n;
    }
    return done;
}

static struct saved read_saved(const char *name) {
    struct saved saved = {.bytes = 0};
    struct stat about;
    int file = strcmp(name, "-") == 0 ? STDIN_FILENO : open(name, O_RDONLY | O_CLOEXEC);
    if (file < 0 || fstat(file, &about))
        die("%s: cannot open: %s", name, strerror(errno));
    saved.bytes = saved.header_bytes = read_some(file, name, saved.header, BLOCK);
    if (S_ISREG(about.st_mode))
        saved.bytes = (uint64_t)about.st_size < LONGEST ? (uint64_t)about.st_size : LONGEST + 1;
    static uint8_t rest[1 << 16];
    for (size_t n = 1; !S_ISREG(about.st_mode) && n && saved.bytes <= LONGEST; saved.bytes += n)
        n = read_some(file, name, rest, sizeof rest); /* a pipe has no length; one without end is left */
    close(file);
    return saved;
}

static struct finding judge(const struct saved *saved, bool da4s) {
    uint8_t page = options.page ? options.page : saved->header[0];
    uint8_t caps = da4s ? BUMBAZEEL_DA4S | BUMBAZEEL_ETDAS : 0; /* whoever saved it may have had a yes to area 4 */
    struct finding f = {.da4s = da4s, .areas = greatest_area(caps)};
    f.header = read_header(page, caps, saved->header, saved->header_bytes);
    return f;
}

static bool bad(const struct finding *f) { return f->header.answer == BUMBAZEEL_BAD_HEADER; }

/* By whichever DA4S the header is not bad, with data or without. Of one that is bad by both, the fault that comes later is told: the earlier
 * one is area 4's, which a wrong DA4S alone may make. */
static struct finding judge_by_either(const struct saved *saved) {
    struct finding with = judge(saved, true), without = judge(saved, false);
    if (bad(&with) && (!bad(&without) || without.header.fault.field > with.header.fault.field))
        return without;
    return with;
}

static struct finding find(const struct saved *saved) {
    struct finding f = options.area_4 == EITHER ? judge_by_either(saved) : judge(saved, options.area_4 == WITH_AREA_4);
    for (unsigned area = 1; area <= f.areas; area++) {
        uint64_t end = BLOCK * (1 + (uint64_t)f.header.planned.last[area - 1]);
        if (f.header.answer == BUMBAZEEL_SUCCESS && saved->bytes >= end) {
            f.held = area;
            f.fits = saved->bytes == end;
        }
    }
    return f;
}

static const char *scope_name(uint8_t scope) {
    return scope == 0 ? "not reported" : scope == 1 ? "controller" : "NVM subsystem";
}

/* Sixteen bytes a row, with their text; a tail of zeros is one row. */
static void print_reason(const uint8_t reason[REASON]) {
    size_t used = REASON;
    while (used && !reason[used - 1])
        used--;
    for (size_t row = 0; row < REASON; row += ROW) {
        printf("%-24s%02zX ", row ? "" : "reason", row);
        if (row >= used) {
            printf(" zeros to 7F\n");
            return;
        }
        for (size_t i = row; i < row + ROW; i++)
            printf(" %02X", reason[i]);
        printf("  ");
        for (size_t i = row; i < row + ROW; i++)
            putchar(reason[i] >= ' ' && reason[i] < 127 ? reason[i] : '.');
        putchar('\n');
    }
}

/* "areas 1 to 3", the areas that the file is long enough for. */
static void print_held(const struct finding *f) {
    if (f->held == 0)
        printf("no area");
    else if (f->held == 1)
        printf("area 1");
    else
        printf("areas 1 to %u", f->held);
}

/* Only the length is known here: a file does not say whether it is of one capture. */
static void print_length(const struct finding *f, const struct saved *saved) {
    if (saved->bytes > LONGEST)
        printf("longer than any telemetry page, ");
    else
        printf("%llu bytes, ", (unsigned long long)saved->bytes);
    printf(f->fits ? "length fits " : "length does not fit: it has ");
    print_held(f);
    if (!f->fits && f->held == f->areas)
        printf(" and more behind");
    else if (!f->fits && f->held)
        printf(", and area %u not to its end", f->held + 1);
    putchar('\n');
}

/* Why nothing more is shown of the header. */
static void print_why(const struct reading *header) {
    print_answer(header->answer, meaning(header->answer), header->fault.field ? fault_text(&header->fault) : NULL);
    putchar('\n');
}

/* One file of several in a line. */
static void print_line(const char *name, const struct finding *f, const struct saved *saved) {
    char plain[4096];
    snprintf(plain, sizeof plain, "%s", name);
    make_plain(plain);
    printf("%s: ", plain);
    if (f->header.answer) {
        print_why(&f->header);
        return;
    }
    printf("%02Xh, generation %u, ", f->header.planned.page, own_generation(&f->header.planned));
    print_length(f, saved);
}

static void print_table(const struct finding *f, const struct saved *saved) {
    const struct bumbazeel_planned *h = &f->header.planned;
    printf("%-24s%02Xh, telemetry %s-initiated\n", "page", h->page, h->page == 7 ? "host" : "controller");
    printf("%-24s%06Xh\n", "OUI", (unsigned)h->oui);
    printf("%-24s%u, %s\n", "scope", h->scope, scope_name(h->scope));
    for (unsigned area = 1; area <= f->areas; area++)
        printf("area %u %17slast block %u, %llu bytes\n", area, "", (unsigned)h->last[area - 1],
               (unsigned long long)h->last[area - 1] * BLOCK);
    if (h->page == 7)
        printf("%-24s%u\n", "host generation", h->host_generation);
    printf("%-24s%u\n", "controller generation", h->controller_generation);
    printf("%-24s%s\n", "08h data available", h->available ? "yes" : "no");
    print_reason(h->reason);
    printf("%-24s", "file");
    print_length(f, saved);
}

static void print_fields(const struct finding *f) {
    const struct bumbazeel_planned *h = &f->header.planned;
    printf(", \"page\": \"%02Xh\", \"oui\": \"%06X\", \"scope\": %u, \"scope_name\": \"%s\", \"da4s\": %s", h->page, (unsigned)h->oui,
           h->scope, scope_name(h->scope), json_flag(f->da4s));
    printf(", \"last_blocks\": [%u, %u, %u, %u]", (unsigned)h->last[0], (unsigned)h->last[1], (unsigned)h->last[2], (unsigned)h->last[3]);
    if (h->page == 7)
        printf(", \"host_generation\": %u", h->host_generation);
    printf(", \"controller_generation\": %u, \"available\": %s, \"reason\": \"", h->controller_generation, json_flag(h->available));
    for (size_t i = 0; i < REASON; i++)
        printf("%02X", h->reason[i]);
    putchar('"');
}

static int status_of(const struct finding *f) {
    return f->header.answer ? f->header.answer : f->fits ? STATUS_SUCCESS : STATUS_OTHER_LENGTH;
}

static void print_json(const char *name, const struct finding *f, const struct saved *saved) {
    printf("{\"status\": %d, \"error\": null, \"file\": ", status_of(f));
    json_string(name);
    printf(", \"answer\": %u, \"meaning\": ", f->header.answer);
    json_string(meaning(f->header.answer));
    fault_json(&f->header.fault);
    if (f->header.answer == BUMBAZEEL_SUCCESS)
        print_fields(f);
    printf(", \"file_bytes\": %llu, \"areas_held\": %u, \"length_fits\": %s}\n", (unsigned long long)saved->bytes, f->held,
           json_flag(f->fits));
}

static int check_file(const char *name) {
    struct saved saved = read_saved(name);
    struct finding f = find(&saved);
    say_at_death(NULL); /* its object is the one that is printed here */
    if (options.json)
        print_json(name, &f, &saved);
    else if (options.files.count > 1)
        print_line(name, &f, &saved);
    else if (f.header.answer == BUMBAZEEL_SUCCESS)
        print_table(&f, &saved);
    else {
        printf("%-24s", "header");
        print_why(&f.header);
    }
    close_stdout("");
    return status_of(&f);
}

static void summarize(const int *statuses) {
    size_t count[256] = {0}; /* of each exit status */
    for (size_t i = 0; i < options.files.count; i++)
        count[statuses[i]]++;
    printf("%zu files: %zu with a length that fits, %zu with another, ", options.files.count, count[STATUS_SUCCESS],
           count[STATUS_OTHER_LENGTH]);
    printf("%zu with a bad header, %zu with no data available, %zu that cannot be read\n", count[BUMBAZEEL_BAD_HEADER],
           count[BUMBAZEEL_NOTHING], count[STATUS_TROUBLE]);
    close_stdout("");
}

int check_command(char **words) {
    read_options(words);
    int *statuses = calloc(options.files.count, sizeof *statuses);
    if (!statuses)
        die("no memory for %zu files", options.files.count);
    int status = each_in_turn(options.files.names, options.files.count, check_file, statuses);
    if (options.files.count > 1 && !options.json)
        summarize(statuses);
    free(statuses);
    return status;
}
