/* bumbazeel collect: for each drive, opens it and the output, runs the collection and tells how it ended. */
#include "commands.h"

#include "collect_options.h"
#include "drive.h"
#include "each.h"
#include "header.h"
#include "naming.h"
#include "numbers.h"
#include "output.h"
#include "report.h"
#include "run.h"
#include "say.h"
#include "sheet_file.h"
#include "stop.h"

#include <stdio.h>
#include <time.h>

static struct collect_options options;

/* Nothing can be split on a drive that takes no offset. */
static void judge_blocks(const struct drive *drive) {
    if (options.blocks_given && drive_is_old(drive))
        die("%s: has no extended data (LPA bit 2 is 0), so one command reads header and blocks together: leave --blocks out", drive_name(drive));
}

/* A drive without extended data is lent no more room than one command can fill. */
static void complete_old(struct wish *wish, const struct drive *drive) {
    uint32_t reach = drive_reach(drive);
    size_t most = (size_t)reach * BLOCK;
    wish->blocks = 0;
    if (wish->room > most)
        wish->room = most;
    if (!options.quiet && wish->area <= greatest_area(drive->caps))
        say("note: %s has no extended data (LPA bit 2 is 0): one command reads header and blocks together, up to block %u%s, so at most %u blocks"
            " (%zu bytes) of an area", drive_name(drive), (unsigned)reach, reach < REACH ? " by the drive's MDTS" : "", (unsigned)reach, most);
}

/* What the drive decides where the options leave it open. */
static void complete(struct wish *wish, const struct drive *drive) {
    if (!wish->area)
        wish->area = greatest_area(drive->caps);
    if (!options.room_given)
        wish->room = wish->area == 4 ? MOST_ROOM : LAST_OF_AREA_3 * BLOCK;
    if (drive_is_old(drive)) {
        complete_old(wish, drive);
    } else if (wish->blocks > drive->most_blocks) {
        wish->blocks = drive->most_blocks;
        if (!options.quiet)
            say("note: %u blocks a command, the most that %s", (unsigned)wish->blocks, drive->most_blocks_by);
    }
}

/* Whether page 07h has no blocks though it had some, or was to have some, in this run. */
static bool emptied(void) { return report.page == 7 && report.empty && (options.wish.create || report.failed); }

static void hint(void) {
    if (report.file && emptied())
        say("note: page 07h holds no blocks: the capture had none, or a firmware commit or power on dropped them");
    else if (report.file && report.page == 7 && report.empty)
        say("note: page 07h holds no capture: --create lets the drive take one");
    if (options.json && report.file && !report.sha256[0])
        say("note: no SHA-256 of the file, since this machine has no libcrypto");
}

/* Whether a success has nothing more to tell. */
static bool as_wished(void) { return report.page == 7 ? !emptied() : report.acknowledgement == DONE || report.keeps; }

/* Tells a run that has an ending. */
static void tell(void) {
    char aside[5000];
    say_at_death(NULL); /* the object that is printed here is the one */
    if (options.json)
        report_json(report.ending, NULL);
    snprintf(aside, sizeof aside, " (%s)", report_standing());
    close_stdout(aside);
    if (!options.quiet || report.ending || report.newer || !as_wished())
        report_line();
    if (!options.quiet)
        hint();
}

/* Where the copy goes. It is not the sheet: a name that is given is known before the drive is. */
static const char *output_name(void) {
    const char *name = options.output ? options.output : own_name(options.output_dir);
    if (options.sheet && !options.output)
        sheet_keep_from(name);
    return name;
}

static void prepare_sheet(void) {
    if (!options.sheet)
        return;
    sheet_open(options.sheet, options.quiet);
    if (options.output)
        sheet_keep_from(options.output);
}

/* Enters the run, which has an ending. */
static void enter(void) {
    struct finished run = {.ending = report.ending, .commands = report.commands, .failed = report.failed};
    if (!options.sheet)
        return;
    if (report.ending == BUMBAZEEL_SUCCESS)
        run.blocks = report.bytes / BLOCK - 1; /* behind the header */
    sheet_enter(&run);
}

/* Collects from the device; NULL is the embedded drive. Answers the exit status. */
static int collect_from(const char *device) {
    struct wish wish = options.wish;
    report.began = time(NULL);
    report.page = wish.page;
    report.device = device;
    report.keeps = wish.acknowledge == NEVER;
    if (options.json)
        say_at_death(report_json);
    prepare_sheet();
    struct drive *drive = device ? device_open(device, options.timeout) : embedded_open(wish.page, &options.drive);
    report.drive = drive;
    judge_blocks(drive);
    if (device)
        device_ask();
    complete(&wish, drive);
    report.area = wish.area;
    output_open(output_name(), options.no_clobber || options.output_dir);
    run(drive, &wish);
    if (!report.ended) {
        stop_here();
        die("%s: %s: %s", drive_name(drive), drive->trouble, report_standing());
    }
    enter();
    tell();
    return report.ending;
}

int collect_command(char **words) {
    options = collect_options_of(words);
    stop_listen();
    if (options.wish.list)
        setvbuf(stdout, NULL, _IOLBF, 0); /* a command is seen when it is sent */
    if (!options.devices.count)
        return collect_from(NULL);
    return each_in_turn(options.devices.names, options.devices.count, collect_from, NULL);
}
