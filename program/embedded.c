/* The embedded drive: the proved controller over stores in memory.
 *
 * Each capture has contents of its own, made from the seed and the capture's number, so that a copy of two captures would show. Between two
 * commands of the run other hosts act, firmware is committed, and bytes of the headers that it gives become others than the controller's, as
 * the happenings say. */
#include "drive.h"

#include "header.h"
#include "lazy.h"
#include "numbers.h"
#include "say.h"

#include <stdio.h>
#include <stdlib.h>
#include <string.h>

enum { SCOPE_CONTROLLER = 1, MOST_HAPPENINGS = 1024 };
static const uint32_t CREATE_BIT = 1u << 8;
static const uint16_t INTERNAL_ERROR = 0x0006; /* the generic status of a drive that cannot say more */
static const uint32_t OUI = 0x02425A; /* a locally administered one: nobody's */

struct candidate {
    uint32_t last[4];
    uint8_t *bytes;
    size_t count;
    uint8_t reason[REASON];
    size_t reason_bytes;
};

static struct {
    struct drive drive;
    struct embedded settings;
    uint8_t page; /* the only one; 0: both */
    struct bumbazeel_record record, told; /* `told` is the record when it was last asked whether it has changed */
    uint8_t *host, *controller; /* the stores: of one page only that one has any bytes */
    size_t host_bytes, controller_bytes;
    uint8_t *spare; /* where a candidate's contents are made */
    size_t spare_bytes;
    uint64_t captures, sent;
    struct {
        bool other;
        uint8_t value;
    } header[BLOCK]; /* bytes of the headers that it gives, where they are others than the controller's */
} here;

/* splitmix64: every word depends on all bits of the seed. */
static uint64_t mixed(uint64_t x) {
    x += 0x9E3779B97F4A7C15u;
    x = (x ^ x >> 30) * 0xBF58476D1CE4E5B9u;
    x = (x ^ x >> 27) * 0x94D049BB133111EBu;
    return x ^ x >> 31;
}

static struct candidate next_candidate(const uint32_t areas[4]) {
    struct candidate c = {.bytes = here.spare, .count = (size_t)areas[3] * BLOCK, .reason_bytes = REASON};
    uint64_t base = mixed(here.settings.seed + here.captures);
    memcpy(c.last, areas, sizeof c.last);
    for (size_t at = 0; at < c.count; at += sizeof base) {
        uint64_t word = mixed(base + at / sizeof base);
        memcpy(c.bytes + at, &word, sizeof word);
    }
    snprintf((char *)c.reason, REASON, "embedded drive, seed %llu, capture %llu", (unsigned long long)here.settings.seed,
             (unsigned long long)here.captures);
    here.captures++;
    return c;
}

/* A candidate that no controller takes: lent where no create is meant. */
static struct candidate no_candidate(void) {
    struct candidate c = {.bytes = here.spare};
    return c;
}

static struct bumbazeel_lent lent(const struct candidate *c) {
    struct bumbazeel_lent lent = {.record = &here.record,
                                  .host_store = here.host,
                                  .host_bytes = here.host_bytes,
                                  .controller_store = here.controller,
                                  .controller_bytes = here.controller_bytes,
                                  .candidate = c->bytes,
                                  .candidate_bytes = c->count,
                                  .reason = c->reason,
                                  .reason_bytes = c->reason_bytes};
    memcpy(lent.last, c->last, sizeof lent.last);
    return lent;
}

static uint8_t command(const struct candidate *c, const uint32_t words[5], uint8_t *data, size_t bytes) {
    struct bumbazeel_lent all = lent(c);
    uint8_t identifier_class;
    return bumbazeel_command_on(&all, words, data, bytes, &identifier_class);
}

/* A command of another host, which reads the header of the page. */
static uint8_t others_command(uint8_t page, uint8_t create, uint8_t rae, const struct candidate *c) {
    uint32_t words[5];
    uint8_t header[BLOCK];
    uint8_t answer = bumbazeel_words(page, create, 0, rae, 0, 1, words);
    return answer ? answer : command(c, words, header, sizeof header);
}

static uint8_t capture(uint8_t page, const uint32_t areas[4]) {
    struct candidate c = next_candidate(areas);
    struct bumbazeel_lent all = lent(&c);
    return page == BUMBAZEEL_HOST_PAGE ? others_command(page, 1, 1, &c) : bumbazeel_capture_on(&all);
}

static uint8_t clear(void) {
    struct candidate none = no_candidate();
    return others_command(BUMBAZEEL_CONTROLLER_PAGE, 0, 0, &none);
}

static uint8_t drop(void) {
    struct candidate none = no_candidate();
    struct bumbazeel_lent all = lent(&none);
    return bumbazeel_drop_on(&all);
}

/* A run ends where the drive cannot do what is to happen; a drive with both pages serves on. */
static void tell(uint8_t answer, const char *what) {
    void (*how)(const char *format, ...) = here.page ? die : say;
    if (answer)
        how("the embedded drive takes no %s: %u (%s)", what, answer, meaning(answer));
}

static void tell_capture(uint8_t answer, uint8_t page, const uint32_t areas[4]) {
    char what[120];
    snprintf(what, sizeof what, "capture of areas %u,%u,%u,%u on page %02Xh", (unsigned)areas[0], (unsigned)areas[1], (unsigned)areas[2],
             (unsigned)areas[3], page);
    tell(answer, what);
}

static void set_header_byte(uint16_t byte, uint8_t value) {
    here.header[byte].other = true;
    here.header[byte].value = value;
}

/* Lets one thing happen before a command on the page. */
static void let_happen(const struct happening *h, uint8_t page, struct fate *fate) {
    uint8_t captured = h->page ? h->page : page;
    if (h->what == CAPTURE)
        tell_capture(capture(captured, h->areas), captured, h->areas);
    else if (h->what == CLEAR)
        tell(clear(), "acknowledgement");
    else if (h->what == DROP)
        tell(drop(), "firmware commit");
    else if (h->what == REFUSAL)
        fate->refusal = (uint16_t)(h->number ? h->number : INTERNAL_ERROR);
    else if (h->what == HEADER_BYTE)
        set_header_byte(h->byte, (uint8_t)h->number);
    else if (h->what == DELAY)
        fate->delay = h->number;
    else
        fate->closing = h->what;
}

struct fate embedded_before(uint8_t page) {
    struct fate fate = {.closing = CAPTURE};
    size_t left = 0;
    here.sent++;
    for (size_t i = 0; i < here.settings.count; i++) {
        if (here.settings.happenings[i].before == here.sent)
            let_happen(&here.settings.happenings[i], page, &fate);
        else if (here.settings.happenings[i].before > here.sent)
            here.settings.happenings[left++] = here.settings.happenings[i];
    }
    here.settings.count = left;
    return fate;
}

/* Changes the front of a page, of which there may be less than a header. */
static void change_header(uint8_t *front, size_t bytes) {
    for (size_t i = 0; i < BLOCK && i < bytes; i++)
        if (here.header[i].other)
            front[i] = here.header[i].value;
}

uint8_t embedded_answer(const uint32_t words[5], uint8_t *data, size_t bytes) {
    bool create = (words[0] & 0xFF) == BUMBAZEEL_HOST_PAGE && words[0] & CREATE_BIT;
    struct candidate c = create ? next_candidate(here.settings.areas) : no_candidate();
    uint8_t answer = command(&c, words, data, bytes);
    if (!answer && !words[2] && !words[3]) /* at offset 0 */
        change_header(data, bytes);
    return answer;
}

static enum completion embedded_send(struct drive *drive, const uint32_t words[5], uint8_t *data, size_t bytes) {
    struct fate fate = embedded_before(here.page);
    uint8_t answer = fate.refusal ? 0 : embedded_answer(words, data, bytes);
    if (fate.refusal || answer)
        drive->refusal = fate.refusal ? fate.refusal : bumbazeel_status(answer);
    return fate.refusal || answer ? REFUSED : SUCCEEDED;
}

uint8_t embedded_now(const struct happening *happening) {
    if ((size_t)happening->areas[3] * BLOCK > here.spare_bytes)
        return BUMBAZEEL_BROKEN_CANDIDATE;
    if (happening->what == DROP)
        return drop();
    return happening->what == CLEAR ? clear() : capture(happening->page, happening->areas);
}

bool embedded_later(const struct happening *happening) {
    if (here.settings.count >= MOST_HAPPENINGS || (size_t)happening->areas[3] * BLOCK > here.spare_bytes)
        return false;
    struct happening *all = realloc(here.settings.happenings, (here.settings.count + 1) * sizeof *all);
    if (!all)
        return false;
    here.settings.happenings = all;
    all[here.settings.count] = *happening;
    all[here.settings.count++].before += here.sent;
    return true;
}

void embedded_forget(void) { here.settings.count = 0; }

const uint32_t *embedded_areas(void) { return here.settings.areas; }

bool embedded_changed(void) {
    bool changed = memcmp(&here.told, &here.record, sizeof here.told) != 0;
    here.told = here.record;
    return changed;
}

bool embedded_notice(void) { return here.record.notice; }

size_t embedded_held(uint8_t page, uint8_t header[BLOCK], const uint8_t **blocks) {
    struct candidate none = no_candidate();
    uint32_t words[5];
    bumbazeel_words(page, 0, 0, 1, 0, 1, words);
    uint8_t answer = command(&none, words, header, BLOCK);
    if (answer)
        memset(header, 0, BLOCK);
    struct reading found = read_header(page, here.settings.caps, header, BLOCK);
    *blocks = page == BUMBAZEEL_HOST_PAGE ? here.host : here.controller;
    return (size_t)blocks_held(found.planned.last) * BLOCK;
}

/* The bytes of the largest capture to come. */
static size_t store_bytes(const struct embedded *settings) {
    uint32_t most = settings->areas[3];
    for (size_t i = 0; i < settings->count; i++)
        if (settings->happenings[i].what == CAPTURE && settings->happenings[i].areas[3] > most)
            most = settings->happenings[i].areas[3];
    return (size_t)most * BLOCK;
}

/* A drive before any capture. */
static void start(uint8_t page, const struct embedded *settings) {
    size_t bytes = store_bytes(settings);
    here.drive = (struct drive){.serial = "EMBEDDED",
                                .model = "Bumbazeel embedded drive",
                                .firmware = VERSION,
                                .caps = settings->caps,
                                .oui = OUI,
                                .most_blocks = UINT32_MAX,
                                .send = embedded_send};
    here.settings = *settings;
    here.page = page;
    here.host_bytes = page != BUMBAZEEL_CONTROLLER_PAGE ? bytes : 0;
    here.controller_bytes = page != BUMBAZEEL_HOST_PAGE ? bytes : 0;
    here.host = lazy_bytes(here.host_bytes);
    here.controller = lazy_bytes(here.controller_bytes);
    here.spare = lazy_bytes(bytes);
    here.spare_bytes = bytes;
    uint8_t answer = bumbazeel_fresh(settings->caps, OUI, SCOPE_CONTROLLER, SCOPE_CONTROLLER, &here.record);
    if (answer)
        die("the embedded drive cannot start: %u (%s)", answer, meaning(answer));
    uint8_t generation = settings->empty ? settings->generation : (uint8_t)(settings->generation - 1u); /* the first capture adds one */
    here.record.host_generation = here.record.controller_generation = generation;
}

struct drive *embedded_open(uint8_t page, const struct embedded *settings) {
    start(page, settings);
    if (!settings->empty)
        tell_capture(capture(page, settings->areas), page, settings->areas);
    return &here.drive;
}

const struct drive *embedded_open_both(const struct embedded *settings) {
    start(0, settings);
    if (!settings->empty) {
        tell_capture(capture(BUMBAZEEL_CONTROLLER_PAGE, settings->areas), BUMBAZEEL_CONTROLLER_PAGE, settings->areas);
        tell_capture(capture(BUMBAZEEL_HOST_PAGE, settings->areas), BUMBAZEEL_HOST_PAGE, settings->areas);
    }
    return &here.drive;
}
