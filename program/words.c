/* bumbazeel words: the five words of one Get Log Page. */
#include "commands.h"

#include "arguments.h"
#include "bumbazeel.h"
#include "numbers.h"
#include "say.h"

#include <stdio.h>

static const char help[] = "usage: bumbazeel words --page 07h|08h --offset BLOCKS --blocks N [OPTIONS]\n"
                           "\n"
                           "Prints the words of a Get Log Page, CDW10 to CDW14. Offset and length count\n"
                           "blocks of 512 bytes; the header is block 0.\n"
                           "\n"
                           "  --page 07h|08h   the page\n"
                           "  --offset BLOCKS  0 to 1048576\n"
                           "  --blocks N       1 to 8192\n"
                           "  --create         take a new capture first (07h)\n"
                           "  --mcda N         the greatest area wanted, 1 to 4 with --create (0, any)\n"
                           "  --rae 0|1        retain the event; 0 acknowledges 08h (1)\n";

struct options {
    uint8_t page, create, mcda, rae;
    uint32_t offset, blocks;
    bool offset_given, blocks_given;
};

static bool read_option(struct options *o, struct arguments *a) {
    const char *value;
    if (argument_value(a, "--page", &value))
        o->page = page_of("--page", value);
    else if (argument_flag(a, "--create"))
        o->create = 1;
    else if (argument_value(a, "--mcda", &value))
        o->mcda = (uint8_t)number_of("--mcda", value, 0, 255);
    else if (argument_value(a, "--rae", &value))
        o->rae = (uint8_t)number_of("--rae", value, 0, 1);
    else if (argument_value(a, "--offset", &value)) {
        o->offset = (uint32_t)number_of("--offset", value, 0, UINT32_MAX);
        o->offset_given = true;
    } else if (argument_value(a, "--blocks", &value)) {
        o->blocks = (uint32_t)number_of("--blocks", value, 0, UINT32_MAX);
        o->blocks_given = true;
    } else
        return false;
    return true;
}

static struct options read_options(char **words) {
    struct options o = {.rae = 1};
    struct arguments a = arguments_of("words", words);
    while (argument_next(&a)) {
        if (argument_flag(&a, "--help|-h"))
            print_help(help);
        if (!read_option(&o, &a))
            die("'%s' is one word too many: words takes options alone", argument_operand(&a));
    }
    if (!o.page || !o.offset_given || !o.blocks_given)
        die("words needs --page, --offset and --blocks (bumbazeel words --help)");
    return o;
}

int words_command(char **words) {
    struct options o = read_options(words);
    uint32_t five[5];
    uint8_t answer = bumbazeel_words(o.page, o.create, o.mcda, o.rae, o.offset, o.blocks, five);
    if (answer)
        die("refused: %u (%s): create is for 07h, MCDA 0 to 4 and 0 without create, 1 to %d blocks, offset at most %d", answer,
            meaning(answer), MOST_BLOCKS, LAST_OF_AREA_4);
    printf("%08X %08X %08X %08X %08X\n", (unsigned)five[0], (unsigned)five[1], (unsigned)five[2], (unsigned)five[3], (unsigned)five[4]);
    close_stdout("");
    return STATUS_SUCCESS;
}
