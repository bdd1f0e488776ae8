/* bumbazeel sheet: prints the totals of a month's sheet, or of several added, and enters a run by hand. */
#include "commands.h"

#include "arguments.h"
#include "bumbazeel.h"
#include "json.h"
#include "place.h"
#include "say.h"
#include "sheet_file.h"
#include "stop.h"

#include <errno.h>
#include <fcntl.h>
#include <stdio.h>
#include <stdlib.h>
#include <string.h>
#include <unistd.h>

static const char help[] = "usage: bumbazeel sheet [OPTIONS] FILE...\n"
                           "       bumbazeel sheet --enter ENDING,BLOCKS,COMMANDS,FAILED [--json] FILE\n"
                           "\n"
                           "Prints the month's sheet FILE, into which bumbazeel collect --sheet FILE enters\n"
                           "its runs, or several sheets added: the runs by ending, the blocks kept, the\n"
                           "commands sent and the failed attempts, all exact, and the mean blocks a good\n"
                           "run, as a whole part and a rest.\n"
                           "\n"
                           "  --csv           print a line of names and a line of numbers\n"
                           "  --json          print one JSON object\n"
                           "  --enter ENDING,BLOCKS,COMMANDS,FAILED\n"
                           "                  enter one run by hand: how it ended (0, 7 to 12 or 19),\n"
                           "                  the blocks kept, the commands sent and the failed\n"
                           "                  attempts; FILE is made if it is not there\n"
                           "  -h, --help      this text\n";

enum { ENDINGS = 8, DIGITS = 64 }; /* of a number in 128 bits, with its commas */
static const uint8_t endings[ENDINGS] = {
    BUMBAZEEL_SUCCESS,   BUMBAZEEL_BAD_HEADER, BUMBAZEEL_NO_ROOM,        BUMBAZEEL_ATTEMPTS_USED_UP,
    BUMBAZEEL_WITHDRAWN, BUMBAZEEL_NOTHING,    BUMBAZEEL_BROKE_ITS_WORD, BUMBAZEEL_OUT_OF_REACH}; /* as in struct bumbazeel_sheet */

/* Eight totals of 64 bits together may pass them. */
__extension__ typedef unsigned __int128 wide;

static struct {
    struct operands files;
    bool csv, json, enter;
    struct finished run; /* to be entered */
} options;

struct month {
    struct bumbazeel_sheet sheet;
    struct bumbazeel_mean mean;
    wide runs; /* of all endings */
};

static void read_run(const char *value) {
    uint64_t numbers[4] = {0};
    run_of("--enter", value, numbers);
    options.enter = true;
    options.run = (struct finished){.ending = (uint8_t)numbers[0], .blocks = numbers[1], .commands = numbers[2], .failed = numbers[3]};
}

static void judge_options(void) {
    if (!options.files.count)
        die("sheet needs FILE, a month's sheet (bumbazeel sheet --help)");
    if (options.csv && options.json)
        die("--csv and --json are two forms: choose one");
    if (options.enter && options.csv)
        die("--csv prints a sheet: leave it out with --enter");
    if (options.enter && options.files.count > 1)
        die("--enter enters one run into one sheet: give one FILE");
}

static void read_options(char **words) {
    struct arguments a = arguments_of("sheet", words);
    const char *value;
    while (argument_next(&a)) {
        if (argument_flag(&a, "--help|-h"))
            print_help(help);
        if (argument_flag(&a, "--csv"))
            options.csv = true;
        else if (argument_flag(&a, "--json"))
            options.json = true;
        else if (argument_value(&a, "--enter", &value))
            read_run(value);
        else
            operands_add(&options.files, argument_operand(&a));
    }
    judge_options();
}

/* ---- numbers */

/* The digits of a number, with a comma before each three if it is `grouped`, until it is called four times more. */
static const char *digits(wide number, bool grouped) {
    static char texts[4][DIGITS];
    static unsigned turn;
    char *text = texts[turn++ % 4], *at = text + DIGITS - 1;
    *at = '\0';
    for (int count = 0; number || !count; count++, number /= 10) {
        if (grouped && count && count % 3 == 0)
            *--at = ',';
        *--at = (char)('0' + (int)(number % 10));
    }
    return at;
}

static const char *exact(wide number) { return digits(number, false); }

static const char *readable(wide number) { return digits(number, true); }

/* ---- reading */

/* Opens a sheet to read, of a name that is a link too. */
static int open_sheet(const char *name, struct stat *about) {
    if (strcmp(name, "-") == 0)
        die("'-': a sheet is read by its name: give a file's name");
    int opened = open(name, O_RDONLY | O_NONBLOCK | O_CLOEXEC); /* a pipe without a writer is not waited for */
    if (opened < 0 || fstat(opened, about))
        die("%s: cannot open: %s", name, strerror(errno));
    if (no_file(about))
        die("%s: is %s: give the name of a sheet", name, no_file(about));
    return opened;
}

/* Dies if one file is given twice, whose runs would count twice. A name that is given twice is one file, though it may be replaced in between. */
static void judge_same(const struct stat *known, size_t last) {
    char *path = realpath(options.files.names[last], NULL);
    for (size_t i = 0; i < last; i++) {
        char *other = realpath(options.files.names[i], NULL);
        if (same_file(&known[i], &known[last]) || (path && other && strcmp(path, other) == 0))
            die("%s: is the same file as %s: its runs would count twice", options.files.names[last], options.files.names[i]);
        free(other);
    }
    free(path);
}

/* The sheets of all files, added. They stay open, so that no other file gets the number by which one is known. */
static struct month add_all(void) {
    struct month month = {.runs = 0};
    struct stat *known = calloc(options.files.count, sizeof *known);
    if (!known)
        die("no memory for %zu sheets", options.files.count);
    bumbazeel_new_sheet(&month.sheet);
    for (size_t i = 0; i < options.files.count; i++) {
        const char *name = options.files.names[i];
        struct bumbazeel_sheet sheet;
        int opened = open_sheet(name, &known[i]);
        judge_same(known, i);
        const char *why = sheet_read(opened, &sheet);
        if (why)
            die("%s: %s", name, why);
        uint8_t answer = bumbazeel_add(&month.sheet, &sheet);
        if (answer)
            die("%s: %u (%s): it cannot be added to the sheets before it", name, answer, meaning(answer));
    }
    free(known);
    bumbazeel_mean(&month.sheet, &month.mean);
    for (size_t i = 0; i < ENDINGS; i++)
        month.runs += month.sheet.runs[i];
    return month;
}

/* ---- printing */

enum { LABEL = 18 }; /* columns */

/* The columns that the longest number takes. */
static int columns_of(const struct month *m) {
    wide longest = m->runs;
    const uint64_t others[] = {m->sheet.blocks, m->sheet.commands, m->sheet.failed};
    for (size_t i = 0; i < sizeof others / sizeof *others; i++)
        if (longest < others[i])
            longest = others[i];
    return (int)strlen(readable(longest));
}

static void print_row(const char *label, int columns, wide number, const char *after) {
    printf("%-*s%*s%s%s\n", LABEL, label, columns, readable(number), after ? "  " : "", after ? after : "");
}

static void print_files(void) {
    for (size_t i = 0; i < options.files.count; i++) {
        char plain[4096];
        snprintf(plain, sizeof plain, "%s", options.files.names[i]);
        make_plain(plain);
        printf("%-*s%s\n", LABEL, i ? "" : options.files.count > 1 ? "sheets added" : "sheet", plain);
    }
}

static void print_mean(const struct month *m) {
    printf("%-*s", LABEL, "mean");
    if (!m->mean.given)
        puts("no run ended well, so there is no mean");
    else if (!m->mean.rest)
        printf("%s block%s a good run\n", readable(m->mean.whole), m->mean.whole == 1 ? "" : "s");
    else
        printf("%s and %s/%s blocks a good run\n", readable(m->mean.whole), readable(m->mean.rest), readable(m->sheet.runs[0]));
}

static void print_table(const struct month *m) {
    int columns = columns_of(m);
    print_files();
    print_row("runs", columns, m->runs, NULL);
    for (size_t i = 0; i < ENDINGS; i++) {
        char label[LABEL];
        snprintf(label, sizeof label, "  ended with %u", endings[i]);
        print_row(label, columns, m->sheet.runs[i], meaning(endings[i]));
    }
    print_row("blocks kept", columns, m->sheet.blocks, NULL);
    print_row("commands sent", columns, m->sheet.commands, NULL);
    print_row("failed attempts", columns, m->sheet.failed, NULL);
    print_mean(m);
}

static void print_csv(const struct month *m) {
    fputs("runs", stdout);
    for (size_t i = 0; i < ENDINGS; i++)
        printf(",ended_with_%u", endings[i]);
    puts(",blocks,commands,failed_attempts,mean_whole,mean_rest,mean_of");
    fputs(exact(m->runs), stdout);
    for (size_t i = 0; i < ENDINGS; i++)
        printf(",%s", exact(m->sheet.runs[i]));
    printf(",%s,%s,%s", exact(m->sheet.blocks), exact(m->sheet.commands), exact(m->sheet.failed));
    if (m->mean.given)
        printf(",%s,%s,%s\n", exact(m->mean.whole), exact(m->mean.rest), exact(m->sheet.runs[0]));
    else
        puts(",,,");
}

static void print_json(const struct month *m) {
    printf("{\"status\": 0, \"error\": null, \"files\": [");
    for (size_t i = 0; i < options.files.count; i++) {
        fputs(i ? ", " : "", stdout);
        json_string(options.files.names[i]);
    }
    printf("], \"runs\": %s, \"endings\": [", exact(m->runs));
    for (size_t i = 0; i < ENDINGS; i++) {
        printf("%s{\"ending\": %u, \"meaning\": ", i ? ", " : "", endings[i]);
        json_string(meaning(endings[i]));
        printf(", \"runs\": %s}", exact(m->sheet.runs[i]));
    }
    printf("], \"blocks\": %s, \"commands\": %s, \"failed_attempts\": %s, \"mean\": ", exact(m->sheet.blocks), exact(m->sheet.commands),
           exact(m->sheet.failed));
    if (m->mean.given)
        printf("{\"whole\": %s, \"rest\": %s, \"of\": %s}}\n", exact(m->mean.whole), exact(m->mean.rest), exact(m->sheet.runs[0]));
    else
        puts("null}");
}

static int print_all(void) {
    struct month month = add_all();
    say_at_death(NULL); /* the object that is printed here is the one */
    if (options.csv)
        print_csv(&month);
    else if (options.json)
        print_json(&month);
    else
        print_table(&month);
    close_stdout("");
    return STATUS_SUCCESS;
}

/* ---- entering */

static int enter_run(void) {
    const char *name = options.files.names[0];
    const struct finished *run = &options.run;
    stop_listen();
    sheet_enter_by_hand(name, run);
    say_at_death(NULL); /* the object that is printed here is the one */
    if (options.json) {
        printf("{\"status\": 0, \"error\": null, \"sheet\": {\"file\": ");
        json_string(name);
        printf(", \"entered\": true}, \"ending\": %u, \"meaning\": ", run->ending);
        json_string(meaning(run->ending));
        printf(", \"blocks\": %s, \"commands\": %s, \"failed_attempts\": %s}\n", exact(run->blocks), exact(run->commands), exact(run->failed));
    }
    close_stdout("");
    say("entered into %s: ending %u (%s), blocks kept: %s, commands sent: %s, failed attempts: %s", name, run->ending, meaning(run->ending),
        exact(run->blocks), exact(run->commands), exact(run->failed));
    return STATUS_SUCCESS;
}

int sheet_command(char **words) {
    read_options(words);
    return options.enter ? enter_run() : print_all();
}
