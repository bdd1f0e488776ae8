/* The run: the library decides every command and the ending; here words are sent, bytes are moved and the copy is saved.
 *
 * How much room the copy needs is planned when a header is there. Setup is a plain function of numbers, so it is asked twice: without room,
 * for the words of the first command, and again with the room that the plan calls for when the command is completed; its first command
 * is the very one that was sent, so the completion is its own. A header that shows more than there is room for opens a collection in the
 * same way. */
#include "run.h"

#include "bumbazeel.h"
#include "header.h"
#include "lazy.h"
#include "numbers.h"
#include "output.h"
#include "progress.h"
#include "reach.h"
#include "report.h"
#include "say.h"
#include "sha256.h"
#include "stop.h"

#include <stdio.h>
#include <string.h>

enum { GROWTH_PART = 8, LEAST_GROWTH = 128 * BLOCK }; /* what a later attempt may take more */

struct under_way {
    struct drive *drive;
    const struct wish *wish;
    struct bumbazeel_state state;
    struct bumbazeel_next next;
    uint32_t sent[5];     /* the words of the latest command, */
    uint8_t *data;        /* and what it brought, */
    size_t data_bytes;    /* for which there is this much */
    uint8_t *image;       /* the file: the latest closing header, then the copy */
    size_t room, held;    /* bytes of the copy, and those of the image */
    uint32_t earlier;     /* attempts of this run before this collection */
    uint64_t moved;
};

static uint8_t *copy_of(const struct under_way *r) { return r->image + BLOCK; }

static void set_up(struct under_way *r, uint8_t create, size_t room) {
    const struct wish *w = r->wish;
    r->room = room;
    bumbazeel_setup(w->page, create, w->area, r->drive->caps, w->blocks, w->attempts - r->earlier, room, &r->state, &r->next);
}

/* What the drive lacks that setup asks for. */
static const char *lacking(uint8_t caps, uint8_t answer) {
    if (!(caps & BUMBAZEEL_TELEMETRY))
        return "LPA bit 3 is 0, so it has no telemetry pages";
    if (answer == BUMBAZEEL_NO_AREA_4 && !(caps & BUMBAZEEL_DA4S))
        return "LPA bit 6 is 0, so it has no area 4: choose area 1 to 3";
    if (answer == BUMBAZEEL_NO_AREA_4)
        return "the host has not said yes to area 4: choose area 1 to 3, or switch ETDAS on in Host Behavior Support";
    return "the numbers break its limits";
}

/* The most bytes that a command brings: a chunk, or header and blocks together. */
static size_t most_bytes(const struct wish *w) { return w->blocks ? (size_t)w->blocks * BLOCK : BLOCK + w->room; }

static void begin(struct under_way *r) {
    set_up(r, r->wish->create, 0);
    if (r->next.kind == BUMBAZEEL_REFUSED)
        die("%s: setup is refused: %u (%s): %s", drive_name(r->drive), r->next.answer, meaning(r->next.answer),
            lacking(r->drive->caps, r->next.answer));
    r->data_bytes = most_bytes(r->wish);
    r->data = held_bytes(r->data_bytes);
}

/* Plans the wish from the header just read: the library's answer, and the bytes that the wanted area takes. With a refusal these are 0: in
 * no more room than the wish's the collection ends at this header. */
static uint8_t plan(const struct under_way *r, size_t *bytes) {
    const struct wish *w = r->wish;
    struct bumbazeel_planned planned;
    uint8_t answer = bumbazeel_plan(w->page, w->area, r->drive->caps, w->blocks, w->room, r->data, BLOCK, &planned);
    *bytes = (size_t)planned.last[w->area - 1] * BLOCK;
    return answer;
}

static void hold(struct under_way *r, size_t bytes) {
    if (r->held >= bytes)
        return;
    if (r->held)
        free_bytes(r->image, r->held);
    r->image = held_bytes(bytes);
    r->held = bytes;
}

/* Sets up once more, with room for the header just read, which the drive gave for this very first command. */
static void make_room(struct under_way *r, uint8_t create) {
    size_t area;
    plan(r, &area);
    size_t room = area + area / GROWTH_PART / BLOCK * BLOCK + LEAST_GROWTH;
    set_up(r, create, room < r->wish->room ? room : r->wish->room);
    if (memcmp(r->sent, r->next.words, sizeof r->sent) != 0)
        die("the collection asks for another command than the one that was sent");
    hold(r, BLOCK + r->room);
}

static void take(struct under_way *r, bool ok, size_t bytes) {
    if (bumbazeel_step(&r->state, ok, r->data, ok ? bytes : 0, copy_of(r), r->room, &r->next) == BUMBAZEEL_REFUSED)
        die("the collection takes no completion: %u (%s)", r->next.answer, meaning(r->next.answer));
}

/* Whether the collection has ended for want of room that may be had. */
static bool can_grow(const struct under_way *r) {
    size_t area;
    return r->next.kind == BUMBAZEEL_ENDED && r->next.answer == BUMBAZEEL_NO_ROOM && plan(r, &area) == BUMBAZEEL_SUCCESS;
}

/* The header just read opens its attempt once more, with room for it. */
static void open_again(struct under_way *r) {
    r->earlier += r->state.attempt - 1;
    make_room(r, 0);
    take(r, true, BLOCK);
}

static void list(const uint32_t words[5]) {
    printf("%08X %08X %08X %08X %08X\n", (unsigned)words[0], (unsigned)words[1], (unsigned)words[2], (unsigned)words[3],
           (unsigned)words[4]);
}

/* Sends the command that is awaited, and lets the library take its completion. False: it is not known what the drive did. */
static bool exchange(struct under_way *r) {
    size_t bytes = transfer_bytes(r->drive->caps, r->next.words);
    uint8_t phase = r->state.phase;
    if (bytes > r->data_bytes)
        die("the collection asks for %zu bytes by a command, and there is room for %zu", bytes, r->data_bytes);
    memcpy(r->sent, r->next.words, sizeof r->sent);
    if (r->wish->list)
        list(r->sent);
    report.commands++;
    enum completion completion = r->drive->send(r->drive, r->sent, r->data, bytes);
    bool ok = completion == SUCCEEDED;
    if (completion == LOST)
        return false;
    if (ok && phase == BUMBAZEEL_AWAITS_CHUNK)
        r->moved += r->wish->blocks ? bytes : bytes - BLOCK; /* of header and blocks together the blocks alone */
    if (ok && phase == BUMBAZEEL_AWAITS_CLOSING_HEADER)
        memcpy(r->image, r->data, BLOCK);
    if (phase == BUMBAZEEL_AWAITS_FIRST_HEADER)
        make_room(r, r->state.create);
    take(r, ok, bytes);
    return true;
}

static void save(struct under_way *r) {
    uint32_t wanted = r->state.last[r->wish->area - 1], all = blocks_held(r->state.last); /* as in the closing header: it matched */
    size_t bytes = BLOCK * (1 + (size_t)wanted);
    output_save(r->image, bytes);
    report.file = output_called();
    report.to_standard_output = output_is_standard();
    report.bytes = bytes;
    report.unread = all - wanted;
    report.empty = all == 0;
    int reason = output_sync_name();
    if (reason)
        die("the directory of %s cannot be synced: %s: %s", report.file, strerror(reason), report_standing());
    if (r->wish->hash)
        sha256_of(r->image, bytes, report.sha256);
}

/* Sends the acknowledgement, if it is wanted, after the copy is saved. False: the run goes no further. */
static bool acknowledge(struct under_way *r) {
    save(r);
    if (r->wish->acknowledge == NEVER || (r->wish->acknowledge == IF_NOTHING_IS_UNREAD && report.unread))
        return false;
    stop_here();
    report.acknowledgement = NOT_KNOWN;
    if (!exchange(r))
        return false;
    report.acknowledgement = r->next.answer == BUMBAZEEL_SUCCESS ? DONE : REFUSED_BY_DRIVE;
    report.newer = r->next.newer;
    return true;
}

/* What is out of reach, where the collection has ended for that: in the header just read, which is good. */
static struct out_of_reach beyond(const struct under_way *r) {
    struct out_of_reach none = {.area = 0};
    bool too_large = r->next.answer == BUMBAZEEL_OUT_OF_REACH || r->next.answer == BUMBAZEEL_NO_ROOM;
    if (r->next.kind != BUMBAZEEL_ENDED || !too_large)
        return none;
    struct reading header = read_header(r->wish->page, r->drive->caps, r->data, BLOCK);
    return out_of_reach_of(r->drive, r->wish->area, header.planned.last);
}

/* Where the run is, for whatever is told of it from here on. */
static void put_report(const struct under_way *r) {
    bool used_up = r->next.answer == BUMBAZEEL_ATTEMPTS_USED_UP;
    report.attempts = used_up ? r->wish->attempts : r->earlier + r->state.attempt;
    report.failed = used_up ? report.attempts : report.attempts - 1;
    report.ending = r->next.answer; /* 0 of a run that goes no further than the acknowledgement */
    report.fault = fault_of(r->next.bad_field, r->wish->page, r->drive->caps & BUMBAZEEL_DA4S, r->data, BLOCK);
    report.out_of_reach = beyond(r);
}

/* The next command. False: the run goes no further. */
static bool advance(struct under_way *r) {
    if (r->wish->progress && r->state.phase == BUMBAZEEL_AWAITS_FIRST_HEADER && r->wish->create)
        progress_wait("waiting for the drive to take a capture");
    if (!exchange(r))
        return false;
    if (can_grow(r))
        open_again(r);
    put_report(r);
    if (r->wish->progress)
        progress_show(&r->state, report.attempts, r->wish->attempts, r->moved);
    return true;
}

void run(struct drive *drive, const struct wish *wish) {
    struct under_way r = {.drive = drive, .wish = wish};
    bool going = true;
    begin(&r);
    if (wish->list)
        puts("cdw10 cdw11 cdw12 cdw13 cdw14");
    while (going && r.next.kind == BUMBAZEEL_SEND) {
        stop_here();
        going = r.state.phase == BUMBAZEEL_AWAITS_ACKNOWLEDGEMENT ? acknowledge(&r) : advance(&r);
    }
    progress_hide();
    if (wish->page == 7 && r.next.kind == BUMBAZEEL_ENDED && r.next.answer == BUMBAZEEL_SUCCESS)
        save(&r);
    put_report(&r);
    report.ended = !drive->trouble[0];
}
