/* The command line of `bumbazeel collect`. */
#include "collect_options.h"

#include "arguments.h"
#include "embedded_options.h"
#include "numbers.h"
#include "say.h"

#include <stdio.h>
#include <stdlib.h>
#include <string.h>
#include <unistd.h>

static const char help[] = "usage: bumbazeel collect [OPTIONS] [DEVICE] OUTPUT\n"
                           "       bumbazeel collect [OPTIONS] DEVICE... --output-dir FOLDER\n"
                           "\n"
                           "Collects a telemetry page from a drive and saves it in the file OUTPUT (- for\n"
                           "standard output): the header, then the blocks of the wanted area, all of one\n"
                           "capture. OUTPUT is written whole or not at all. Without DEVICE, such as\n"
                           "/dev/nvme0, it rehearses with the embedded drive.\n"
                           "\n"
                           "  --page 07h|08h        host-initiated or controller-initiated (07h)\n"
                           "  -c, --controller-init page 08h\n"
                           "  --create              let the drive take a new capture first (07h)\n"
                           "  -g, --host-generate 0|1\n"
                           "                        1: as --create; 0: without it\n"
                           "  -d, --area 1..4       the wanted area (the greatest that the drive gives)\n"
                           "  --acknowledge         acknowledge page 08h even if it holds more than the area\n"
                           "  --keep                never acknowledge page 08h\n"
                           "  -o, --output OUTPUT   the file, if it is not the last word\n"
                           "  --output-dir FOLDER   a new file in FOLDER, named by serial, page and time\n"
                           "  --no-clobber          replace no file\n"
                           "  --sheet FILE          enter the run, when it has ended, into the month's sheet\n"
                           "                        FILE, which bumbazeel sheet FILE prints\n"
                           "  --blocks N            blocks a command, 1 to 8192 (128); refused of a drive\n"
                           "                        without extended data, which one command reads\n"
                           "  --attempts N          attempts if the page changes meanwhile, 1 to 65535 (5)\n"
                           "  --room BYTES          the most that the area may take, a multiple of 512\n"
                           "                        (all that the area can have)\n"
                           "  -t, --timeout MS      the most milliseconds that a command may take\n"
                           "  --device PATH         as DEVICE\n"
                           "  -v, --list            print the commands sent\n"
                           "  --json                print the outcome as one JSON object\n"
                           "  --quiet               say nothing of a plain success\n"
                           "\n"
                           "The embedded drive, to rehearse with:\n"
                           EMBEDDED_HELP
                           "  --capture-before N[:A1,A2,A3,A4]\n"
                           "                        a capture comes right before the run's command N\n"
                           "  --clear-before N      another host acknowledges before command N (08h)\n"
                           "  --drop-before N       a firmware commit drops the data before command N (07h)\n"
                           "  --refuse N            command N is refused, as by a broken drive\n"
                           "  --header-byte N:BYTE=VALUE\n"
                           "                        from command N on this byte of the header is VALUE\n"
                           "The last five may be given more than once and happen in their order.\n";

/* What is collected, and from which drive. */
static bool read_wish(struct collect_options *o, struct arguments *a) {
    const char *value;
    if (argument_value(a, "--page", &value))
        o->wish.page = page_of("--page", value);
    else if (argument_flag(a, "--controller-init|-c"))
        o->wish.page = 8;
    else if (argument_flag(a, "--create"))
        o->wish.create = 1;
    else if (argument_value(a, "--host-generate|-g", &value))
        o->wish.create = (uint8_t)number_of("--host-generate", value, 0, 1);
    else if (argument_value(a, "--area|--data-area|-d", &value))
        o->wish.area = (uint8_t)number_of("--area", value, 1, 4);
    else if (argument_flag(a, "--acknowledge"))
        o->wish.acknowledge = ALWAYS;
    else if (argument_flag(a, "--keep"))
        o->wish.acknowledge = NEVER;
    else if (argument_value(a, "--blocks", &value)) {
        o->wish.blocks = (uint32_t)number_of("--blocks", value, 1, MOST_BLOCKS);
        o->blocks_given = true;
    } else if (argument_value(a, "--attempts", &value))
        o->wish.attempts = (uint32_t)number_of("--attempts", value, 1, MOST_ATTEMPTS);
    else if (argument_value(a, "--room", &value)) {
        o->wish.room = (size_t)number_of("--room", value, 0, MOST_ROOM);
        o->room_given = true;
    } else
        return false;
    return true;
}

/* Where from and where to, and what is shown. */
static bool read_manner(struct collect_options *o, struct arguments *a) {
    const char *value;
    if (argument_value(a, "--device", &value))
        operands_add(&o->devices, value);
    else if (argument_value(a, "--timeout|-t", &value))
        o->timeout = (uint32_t)number_of("--timeout", value, 1, UINT32_MAX);
    else if (argument_value(a, "--output-dir", &value))
        o->output_dir = value;
    else if (argument_value(a, "--output|--output-file|-o", &value))
        o->output = value;
    else if (argument_flag(a, "--no-clobber"))
        o->no_clobber = true;
    else if (argument_value(a, "--sheet", &value))
        o->sheet = value;
    else if (argument_flag(a, "--list|--verbose|-v"))
        o->wish.list = true;
    else if (argument_flag(a, "--json"))
        o->json = true;
    else if (argument_flag(a, "--quiet"))
        o->quiet = true;
    else
        return false;
    return true;
}

/* The last operand is OUTPUT, unless an option tells where the copy goes; the others are devices. */
static void sort_operands(struct collect_options *o, const struct operands *operands) {
    size_t devices = operands->count;
    if (!o->output && !o->output_dir && devices)
        o->output = operands->names[--devices];
    for (size_t i = 0; i < devices; i++)
        operands_add(&o->devices, operands->names[i]);
}

static void judge_places(const struct collect_options *o) {
    if (!o->output && !o->output_dir)
        die("collect needs OUTPUT, a file's name or - (bumbazeel collect --help)");
    if (o->output && o->output_dir)
        die("--output-dir gives the file a name of its own: leave %s out", o->output);
    if (o->devices.count > 1 && o->output)
        die("%zu devices need --output-dir: they cannot all go to %s", o->devices.count, o->output);
    if (o->devices.count && o->embedded_only)
        die("%s is for the embedded drive: leave it out with a device", o->embedded_only);
    if (o->output && strcmp(o->output, "-") == 0 && (o->wish.list || o->json))
        die("--list and --json need standard output: give a file's name for OUTPUT");
}

/* What no option alone can tell. */
static void judge(const struct collect_options *o) {
    judge_places(o);
    if (o->wish.create && o->wish.page == 8)
        die("--create is for page 07h: a drive takes 08h captures by itself");
    if (o->wish.acknowledge == ALWAYS && o->wish.page == 7)
        die("--acknowledge is for page 08h: nobody acknowledges 07h");
    if (o->wish.room % BLOCK)
        die("--room %zu is not a multiple of 512", o->wish.room);
    if (o->wish.page == 8 && !o->drive.areas[2])
        die("--drive-areas: a capture on page 08h has a block in area 3 or it is none");
}

/* What no happening alone can tell. */
static void judge_happening(const struct collect_options *o, const struct happening *h) {
    if (h->what == CLEAR && o->wish.page == 7)
        die("--clear-before is for page 08h: nobody acknowledges 07h");
    if (h->what == DROP && o->wish.page == 8)
        die("--drop-before is for page 07h: a firmware commit leaves 08h as it is");
    if (h->what == CAPTURE && o->wish.page == 8 && !h->areas[2])
        die("--capture-before: a capture on page 08h has a block in area 3 or it is none");
}

/* What one option leaves to another. */
static void complete(struct collect_options *o) {
    o->wish.hash = o->json;
    bool listing_in_view = o->wish.list && isatty(STDOUT_FILENO); /* it shows the progress, line by line */
    o->wish.progress = !o->quiet && !listing_in_view && isatty(STDERR_FILENO);
    complete_embedded(&o->drive);
    for (size_t i = 0; i < o->drive.count; i++)
        judge_happening(o, &o->drive.happenings[i]);
}

struct collect_options collect_options_of(char **words) {
    struct collect_options o = {.wish = {.page = 7, .blocks = 128, .attempts = 5},
                                .drive = usual_embedded()};
    struct arguments a = arguments_of("collect", words);
    struct operands operands = {.count = 0};
    while (argument_next(&a)) {
        const char *word = a.word;
        if (argument_flag(&a, "--help|-h"))
            print_help(help);
        if (read_embedded_option(&o.drive, &a))
            o.embedded_only = word;
        else if (!read_wish(&o, &a) && !read_manner(&o, &a))
            operands_add(&operands, argument_operand(&a));
    }
    sort_operands(&o, &operands);
    free(operands.names);
    judge(&o);
    complete(&o);
    return o;
}
