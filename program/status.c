/* bumbazeel status: whether drives have something to tell, from the header of a page alone, which stays unacknowledged. */
#include "commands.h"

#include "arguments.h"
#include "bumbazeel.h"
#include "drive.h"
#include "each.h"
#include "fault.h"
#include "header.h"
#include "json.h"
#include "names.h"
#include "numbers.h"
#include "reach.h"
#include "say.h"

#include <stdio.h>

static const char help[] = "usage: bumbazeel status [OPTIONS] DEVICE...\n"
                           "\n"
                           "Reads the header of page 08h, without acknowledging it, and tells whether the\n"
                           "drive has something to tell. Exit status: 0 yes, 11 no.\n"
                           "\n"
                           "  --page 07h|08h    the page (08h); of 07h: whether it holds a capture\n"
                           "  -t, --timeout MS  the most milliseconds that a command may take\n"
                           "  --json            print one JSON object a drive\n"
                           "  -h, --help        this text\n";

static struct {
    struct operands devices;
    uint8_t page;
    uint32_t timeout;
    bool json;
} options = {.page = 8};

static void read_options(char **words) {
    struct arguments a = arguments_of("status", words);
    const char *value;
    while (argument_next(&a)) {
        if (argument_flag(&a, "--help|-h"))
            print_help(help);
        if (argument_value(&a, "--page", &value))
            options.page = page_of("--page", value);
        else if (argument_value(&a, "--timeout|-t", &value))
            options.timeout = (uint32_t)number_of("--timeout", value, 1, UINT32_MAX);
        else if (argument_flag(&a, "--json"))
            options.json = true;
        else
            operands_add(&options.devices, argument_operand(&a));
    }
    if (!options.devices.count)
        die("status needs DEVICE, such as /dev/nvme0 (bumbazeel list shows those at hand)");
}

static struct reading ask(struct drive *drive) {
    struct reading refused = {.answer = BUMBAZEEL_BROKE_ITS_WORD};
    uint32_t words[5];
    uint8_t header[BLOCK];
    if (!(drive->caps & BUMBAZEEL_TELEMETRY))
        die("%s: LPA bit 3 is 0, so it has no telemetry pages", drive->path);
    bumbazeel_words(options.page, 0, 0, 1, 0, 1, words);
    enum completion completion = drive->send(drive, words, header, sizeof header);
    if (completion == LOST)
        die("%s: %s", drive->path, drive->trouble);
    return completion == REFUSED ? refused : read_header(options.page, drive->caps, header, sizeof header);
}

/* The answer that is told: 07h without blocks is nothing too, though its header says all that it has to say. */
static uint8_t told(const struct reading *header) {
    bool empty = header->answer == BUMBAZEEL_SUCCESS && !blocks_held(header->planned.last);
    return empty ? BUMBAZEEL_NOTHING : header->answer;
}

/* `meaning` has 08h's words for nothing. */
static const char *in_words(uint8_t answer) { return answer == BUMBAZEEL_NOTHING ? "nothing" : meaning(answer); }

/* What is at fault in the header, or why it was refused; NULL: neither. */
static const char *reason(const struct drive *drive, const struct fault *fault) {
    return fault->field ? fault_text(fault) : drive->refusal ? status_name(drive->refusal) : NULL;
}

/* What is out of reach of the greatest area, if the header says how large that is. */
static struct out_of_reach beyond_of(const struct drive *drive, const struct reading *header) {
    return out_of_reach_of(drive, greatest_area(drive->caps), header->planned.last);
}

/* That the drive has no extended data, and what this limits. */
static void print_old(const struct drive *drive, const struct reading *header) {
    struct out_of_reach beyond = beyond_of(drive, header);
    if (beyond.area)
        printf("; no extended data, and %s", out_of_reach_text(&beyond));
    else
        printf("; no extended data, so block %u is the last in reach%s", (unsigned)beyond.reach, beyond.reach < REACH ? " (MDTS)" : "");
}

static void print_line(const struct drive *drive, const struct reading *header) {
    uint32_t blocks = blocks_held(header->planned.last);
    char path[4096];
    snprintf(path, sizeof path, "%s", drive->path);
    make_plain(path);
    printf("%s  %s  %s  %02Xh: ", path, drive->serial, drive->model, options.page);
    if (told(header) == BUMBAZEEL_SUCCESS)
        printf("yes, generation %u, %u blocks, %llu bytes", own_generation(&header->planned), (unsigned)blocks,
               (unsigned long long)BLOCK * (1 + (uint64_t)blocks));
    else
        print_answer(told(header), in_words(told(header)), reason(drive, &header->fault));
    if (drive_is_old(drive))
        print_old(drive, header);
    putchar('\n');
}

static void print_json(const struct drive *drive, const struct reading *header) {
    const uint32_t *last = header->planned.last;
    struct out_of_reach beyond = beyond_of(drive, header);
    printf("{\"status\": %u, \"error\": null, \"device\": ", told(header));
    json_string(drive->path);
    printf(", \"serial\": ");
    json_string(drive->serial);
    printf(", \"model\": ");
    json_string(drive->model);
    printf(", \"firmware\": ");
    json_string(drive->firmware);
    printf(", \"extended_data\": %s, \"page\": \"%02Xh\", \"meaning\": ", json_flag(drive->caps & BUMBAZEEL_EXTENDED), options.page);
    json_string(in_words(told(header)));
    fault_json(&header->fault);
    out_of_reach_json(&beyond);
    if (header->answer == BUMBAZEEL_SUCCESS)
        printf(", \"generation\": %u, \"last_blocks\": [%u, %u, %u, %u]", own_generation(&header->planned), (unsigned)last[0],
               (unsigned)last[1], (unsigned)last[2], (unsigned)last[3]);
    printf(", \"refusal_status\": \"%04Xh\"}\n", drive->refusal);
}

static int tell_status(const char *path) {
    struct drive *drive = device_open(path, options.timeout);
    device_ask();
    struct reading header = ask(drive);
    say_at_death(NULL); /* its object is the one that is printed here */
    if (options.json)
        print_json(drive, &header);
    else
        print_line(drive, &header);
    close_stdout("");
    return told(&header);
}

int status_command(char **words) {
    read_options(words);
    return each_in_turn(options.devices.names, options.devices.count, tell_status, NULL);
}
