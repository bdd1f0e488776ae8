/* The C boundary as a C or C++ program sees it: sizes and offsets of the structs, and each function once or more, damaged bytes and
 * NULL with a length of 0 among the arguments. It writes one line a failure and "boundary: ok" without any. */
#include "bumbazeel.h"

#include <stdio.h>
#include <stdlib.h>
#include <string.h>

#define AT(type, field, bytes) BUMBAZEEL_ASSERT(offsetof(struct type, field) == bytes, "offset of " #type "." #field)

AT(bumbazeel_planned, page, 0);
AT(bumbazeel_planned, scope, 1);
AT(bumbazeel_planned, host_generation, 2);
AT(bumbazeel_planned, available, 3);
AT(bumbazeel_planned, controller_generation, 4);
AT(bumbazeel_planned, bad_field, 5);
AT(bumbazeel_planned, bad_byte, 6);
AT(bumbazeel_planned, oui, 8);
AT(bumbazeel_planned, last, 12);
AT(bumbazeel_planned, reason, 28);
AT(bumbazeel_planned, chunks, 156);

AT(bumbazeel_state, phase, 0);
AT(bumbazeel_state, page, 1);
AT(bumbazeel_state, create, 2);
AT(bumbazeel_state, area, 3);
AT(bumbazeel_state, caps, 4);
AT(bumbazeel_state, generation, 5);
AT(bumbazeel_state, zero, 6);
AT(bumbazeel_state, chunk, 8);
AT(bumbazeel_state, attempts, 12);
AT(bumbazeel_state, attempt, 16);
AT(bumbazeel_state, at, 20);
AT(bumbazeel_state, room, 24);
AT(bumbazeel_state, count, 32);
AT(bumbazeel_state, last, 40);

AT(bumbazeel_next, kind, 0);
AT(bumbazeel_next, answer, 1);
AT(bumbazeel_next, newer, 2);
AT(bumbazeel_next, bad_field, 3);
AT(bumbazeel_next, words, 4);
AT(bumbazeel_next, count, 24);

AT(bumbazeel_record, caps, 0);
AT(bumbazeel_record, host_scope, 1);
AT(bumbazeel_record, controller_scope, 2);
AT(bumbazeel_record, host_generation, 3);
AT(bumbazeel_record, controller_generation, 4);
AT(bumbazeel_record, available, 5);
AT(bumbazeel_record, notice, 6);
AT(bumbazeel_record, zero, 7);
AT(bumbazeel_record, oui, 8);
AT(bumbazeel_record, host_last, 12);
AT(bumbazeel_record, controller_last, 28);
AT(bumbazeel_record, host_reason, 44);
AT(bumbazeel_record, controller_reason, 172);

AT(bumbazeel_sheet, mark, 0);
AT(bumbazeel_sheet, runs, 8);
AT(bumbazeel_sheet, blocks, 72);
AT(bumbazeel_sheet, commands, 80);
AT(bumbazeel_sheet, failed, 88);
AT(bumbazeel_sheet, check, 96);

AT(bumbazeel_mean, given, 0);
AT(bumbazeel_mean, zero, 1);
AT(bumbazeel_mean, whole, 8);
AT(bumbazeel_mean, rest, 16);

static int failures;

static void expect_at(int line, const char *text, int holds) {
    if (!holds) {
        printf("boundary.c:%d: %s\n", line, text);
        failures++;
    }
}
#define expect(test) expect_at(__LINE__, #test, test)

enum {
    CAPS = BUMBAZEEL_EXTENDED | BUMBAZEEL_TELEMETRY | BUMBAZEEL_DA4S | BUMBAZEEL_ETDAS | BUMBAZEEL_MCDAS,
    OLD_CAPS = CAPS & ~BUMBAZEEL_EXTENDED, /* of a drive that is collected in an old run */
    BLOCK = BUMBAZEEL_BLOCK,
    BLOCKS = 4
};

static int all(const void *bytes, size_t count, uint8_t value) {
    for (size_t i = 0; i < count; i++)
        if (((const uint8_t *)bytes)[i] != value)
            return 0;
    return 1;
}

/* What a plan is asked for besides the header. */
struct wanted {
    uint8_t page, area, caps;
    uint32_t chunk;
    size_t room;
};

/* A plan from a header of at most 513 bytes, which stays as it is; *planned is written whole, and is zeros with every answer but 0 and 7. */
static uint8_t plan(struct wanted w, const uint8_t *header, size_t bytes, struct bumbazeel_planned *planned) {
    uint8_t before[BLOCK + 1];
    if (bytes)
        memcpy(before, header, bytes);
    memset(planned, 0xff, sizeof *planned);
    const uint8_t answer = bumbazeel_plan(w.page, w.area, w.caps, w.chunk, w.room, header, bytes, planned);
    expect(bytes == 0 || !memcmp(before, header, bytes));
    if (answer != BUMBAZEEL_SUCCESS && answer != BUMBAZEEL_BAD_HEADER)
        expect(all(planned, sizeof *planned, 0));
    return answer;
}

/* The plan that refuses the fewest headers of a page: of the greatest area that the capabilities allow, a block a command or without extended data
 * in one, into the largest copy. */
static struct wanted largest(uint8_t page, uint8_t caps) {
    const uint8_t both = BUMBAZEEL_DA4S | BUMBAZEEL_ETDAS;
    struct wanted w = {page, (uint8_t)((caps & both) == both ? 4 : 3), caps, caps & BUMBAZEEL_EXTENDED ? 1u : 0u, BUMBAZEEL_MOST_ROOM};
    return w;
}

/* A controller with stores of four blocks, the candidate that its next create or capture takes, and the last answer's class. */
struct drive {
    struct bumbazeel_record record;
    uint8_t host[BLOCKS * BLOCK], controller[BLOCKS * BLOCK], candidate[BLOCKS * BLOCK], reason[128], identifier_class;
    uint32_t last[4];
};

static struct bumbazeel_lent lent(struct drive *d) {
    struct bumbazeel_lent lent;
    lent.record = &d->record;
    lent.host_store = d->host;
    lent.host_bytes = sizeof d->host;
    lent.controller_store = d->controller;
    lent.controller_bytes = sizeof d->controller;
    memcpy(lent.last, d->last, sizeof lent.last);
    lent.candidate = d->candidate;
    lent.candidate_bytes = (size_t)d->last[3] * BLOCK;
    lent.reason = d->reason;
    lent.reason_bytes = sizeof d->reason;
    return lent;
}

static uint8_t command(struct drive *d, const uint32_t words[5], uint8_t *buffer, size_t bytes) {
    struct bumbazeel_lent all = lent(d);
    return bumbazeel_command_on(&all, words, buffer, bytes, &d->identifier_class);
}

static uint8_t capture(struct drive *d) {
    struct bumbazeel_lent all = lent(d);
    return bumbazeel_capture_on(&all);
}

static uint8_t drop(struct drive *d) {
    struct bumbazeel_lent all = lent(d);
    return bumbazeel_drop_on(&all);
}

static void begin(struct drive *d) {
    static const uint32_t last[4] = {1, 2, 3, 4};
    memset(d, 0, sizeof *d);
    expect(bumbazeel_fresh(CAPS, 0x123456, 1, 2, &d->record) == BUMBAZEEL_SUCCESS);
    memcpy(d->last, last, sizeof last);
    for (size_t i = 0; i < sizeof d->candidate; i++)
        d->candidate[i] = (uint8_t)(i * 7 + i / BLOCK + 1);
    memset(d->reason, 0xab, sizeof d->reason);
}

static void numbers(void) {
    int counts[4] = {0, 0, 0, 0};
    for (int page = 0; page < 256; page++)
        counts[bumbazeel_class((uint8_t)page) & 3]++;
    expect(counts[0] == 42 && counts[1] == 64 && counts[2] == 64 && counts[3] == 86);
    expect(bumbazeel_class(0x07) == BUMBAZEEL_CLASS_NAMED);
    expect(bumbazeel_class(0x0e) == BUMBAZEEL_CLASS_ELSEWHERE);
    expect(bumbazeel_class(0xc0) == BUMBAZEEL_CLASS_VENDOR);
    expect(bumbazeel_class(0x24) == BUMBAZEEL_CLASS_RESERVED);
    expect(bumbazeel_status(BUMBAZEEL_SUCCESS) == 0x0000);
    expect(bumbazeel_status(BUMBAZEEL_INVALID_FIELD) == 0x0002);
    expect(bumbazeel_status(BUMBAZEEL_INVALID_LOG_PAGE) == 0x0109);
    for (int answer = 3; answer < 256; answer++)
        expect(bumbazeel_status((uint8_t)answer) == 0xffff);
}

static void words(void) {
    uint32_t built[5];
    memset(built, 0xff, sizeof built);
    expect(bumbazeel_words(0x07, 1, 3, 255, 0, 1, built) == BUMBAZEEL_SUCCESS);
    expect(built[0] == 0x007f8707 && built[1] == 0 && built[2] == 0 && built[3] == 0 && built[4] == 0);
    expect(bumbazeel_words(0x08, 0, 0, 0, 1048576, 8192, built) == BUMBAZEEL_SUCCESS);
    expect(built[0] == 0xffff0008 && built[1] == 0xf && built[2] == 0x20000000 && built[3] == 0 && built[4] == 0);
    expect(bumbazeel_words(0x08, 1, 0, 1, 0, 1, built) == BUMBAZEEL_BAD_SETUP);
    expect(all(built, sizeof built, 0));
}

static void fresh(void) {
    struct bumbazeel_record record;
    memset(&record, 0xff, sizeof record);
    expect(bumbazeel_fresh(CAPS, 0xffffff, 2, 1, &record) == BUMBAZEEL_SUCCESS);
    expect(record.caps == CAPS && record.host_scope == 2 && record.controller_scope == 1 && record.oui == 0xffffff);
    expect(all((uint8_t *)&record + 3, 5, 0) && all((uint8_t *)&record + 12, 288, 0));
    expect(bumbazeel_fresh(32, 0, 1, 1, &record) == BUMBAZEEL_DISAGREE && all(&record, sizeof record, 0));
    memset(&record, 0xff, sizeof record);
    expect(bumbazeel_fresh(CAPS, 0x1000000, 1, 1, &record) == BUMBAZEEL_DISAGREE && all(&record, sizeof record, 0));
    expect(bumbazeel_fresh(CAPS, 0, 0, 1, &record) == BUMBAZEEL_DISAGREE);
    expect(bumbazeel_fresh(CAPS, 0, 1, 3, &record) == BUMBAZEEL_DISAGREE);
}

static void controller(void) {
    struct drive d, before;
    struct bumbazeel_planned planned;
    uint32_t ask[5];
    uint8_t buffer[2 * BLOCK];
    begin(&d);

    /* a create takes the candidate and shows it */
    memset(buffer, 0x55, sizeof buffer);
    bumbazeel_words(0x07, 1, 0, 1, 0, 1, ask);
    d.identifier_class = 9;
    expect(command(&d, ask, buffer, sizeof buffer) == BUMBAZEEL_SUCCESS && d.identifier_class == 0);
    expect(d.record.host_generation == 1 && !memcmp(d.record.host_last, d.last, sizeof d.last) && !memcmp(d.record.host_reason, d.reason, 128));
    expect(!memcmp(d.host, d.candidate, sizeof d.host) && all(buffer + BLOCK, BLOCK, 0x55));
    expect(plan(largest(0x07, CAPS), buffer, BLOCK, &planned) == BUMBAZEEL_SUCCESS && planned.chunks == 4);
    expect(planned.page == 7 && planned.scope == 1 && planned.host_generation == 1 && planned.available == 0 && planned.controller_generation == 0);
    expect(planned.bad_field == 0 && planned.bad_byte == 0 && planned.oui == 0x123456);
    expect(!memcmp(planned.last, d.last, sizeof d.last) && !memcmp(planned.reason, d.reason, 128));
    expect(plan(largest(0x08, CAPS), buffer, BLOCK, &planned) == BUMBAZEEL_BAD_HEADER && planned.bad_field == BUMBAZEEL_FIELD_IDENTIFIER);
    expect(plan(largest(0x07, CAPS), buffer, BLOCK - 1, &planned) == BUMBAZEEL_BAD_HEADER && planned.bad_field == BUMBAZEEL_FIELD_LENGTH);

    /* blocks 2 and 3 of the area */
    bumbazeel_words(0x07, 0, 0, 1, 2, 2, ask);
    expect(command(&d, ask, buffer, sizeof buffer) == BUMBAZEEL_SUCCESS && !memcmp(buffer, d.host + BLOCK, 2 * BLOCK));

    /* refusals change nothing */
    before = d;
    expect(command(&d, ask, buffer, BLOCK) == BUMBAZEEL_SHORT_BUFFER && command(&d, ask, NULL, 0) == BUMBAZEEL_SHORT_BUFFER);
    ask[2]++;
    expect(command(&d, ask, buffer, sizeof buffer) == BUMBAZEEL_INVALID_FIELD && !memcmp(&before, &d, sizeof d));
    ask[0] = (ask[0] & ~0xffu) | 0xc0;
    expect(command(&d, ask, buffer, sizeof buffer) == BUMBAZEEL_INVALID_LOG_PAGE && d.identifier_class == BUMBAZEEL_CLASS_VENDOR);
    d.identifier_class = 0;
    expect(!memcmp(&before, &d, sizeof d));
    d.last[0] = 3;
    expect(capture(&d) == BUMBAZEEL_BROKEN_CANDIDATE);
    d.last[0] = 1;
    expect(!memcmp(&before, &d, sizeof d));

    /* a capture, and the acknowledgement that clears it */
    expect(capture(&d) == BUMBAZEEL_SUCCESS);
    expect(d.record.available == 1 && d.record.notice == 1 && d.record.controller_generation == 1 && !memcmp(d.controller, d.candidate, sizeof d.controller));
    expect(!memcmp(d.record.controller_last, d.last, sizeof d.last) && !memcmp(d.record.controller_reason, d.reason, 128));
    bumbazeel_words(0x08, 0, 0, 0, 0, 1, ask);
    expect(command(&d, ask, buffer, sizeof buffer) == BUMBAZEEL_SUCCESS && plan(largest(0x08, CAPS), buffer, BLOCK, &planned) == BUMBAZEEL_SUCCESS);
    expect(planned.available == 1 && planned.scope == 2 && planned.controller_generation == 1 && planned.host_generation == 0);
    expect(d.record.available == 0 && d.record.notice == 0 && all(d.record.controller_last, 16, 0) && d.record.controller_generation == 1);
    expect(command(&d, ask, buffer, sizeof buffer) == BUMBAZEEL_SUCCESS && plan(largest(0x08, CAPS), buffer, BLOCK, &planned) == BUMBAZEEL_NOTHING);

    /* damaged records */
    for (int damage = 0; damage < 4; damage++) {
        before = d;
        if (damage == 0)
            before.record.caps = 32;
        else if (damage == 1)
            before.record.notice = 2;
        else if (damage == 2)
            before.record.zero = 1;
        else
            before.record.host_scope = 3; /* not damaged, but it disagrees */
        struct drive lent = before;
        lent.identifier_class = 9;
        memset(buffer, 0x55, sizeof buffer);
        expect(command(&lent, ask, buffer, sizeof buffer) == BUMBAZEEL_DISAGREE && lent.identifier_class == 0 && all(buffer, sizeof buffer, 0x55));
        expect(capture(&lent) == BUMBAZEEL_DISAGREE && drop(&lent) == BUMBAZEEL_DISAGREE);
        expect(!memcmp(&lent, &before, sizeof lent));
    }

    /* no stores, no candidate, no buffer */
    struct bumbazeel_record alone;
    uint8_t identifier_class;
    bumbazeel_fresh(CAPS, 0, 1, 1, &alone);
    expect(bumbazeel_command(&alone, NULL, 0, NULL, 0, d.last, NULL, 0, NULL, 0, ask, NULL, 0, &identifier_class) == BUMBAZEEL_SHORT_BUFFER);
    expect(bumbazeel_capture(&alone, NULL, 0, NULL, 0, d.last, NULL, 0, NULL, 0) == BUMBAZEEL_BROKEN_CANDIDATE);
}

/* A drop zeroes the host's last blocks and reason, and leaves every other byte of the drive. */
static void drops(void) {
    struct drive d, want;
    struct bumbazeel_planned planned;
    uint32_t ask[5];
    uint8_t buffer[BLOCK];
    begin(&d);
    bumbazeel_words(0x07, 1, 0, 1, 0, 1, ask);
    expect(command(&d, ask, buffer, sizeof buffer) == BUMBAZEEL_SUCCESS && capture(&d) == BUMBAZEEL_SUCCESS);
    d.record.host_generation = 255;
    want = d;
    memset(want.record.host_last, 0, sizeof want.record.host_last);
    memset(want.record.host_reason, 0, sizeof want.record.host_reason);

    /* stores that do not hold the last blocks: 4, and nothing is written */
    struct drive before = d;
    const size_t whole = sizeof d.host;
    expect(bumbazeel_drop(&d.record, d.host, whole - 1, d.controller, whole) == BUMBAZEEL_DISAGREE);
    expect(bumbazeel_drop(&d.record, d.host, whole, d.controller, whole - 1) == BUMBAZEEL_DISAGREE);
    expect(bumbazeel_drop(&d.record, NULL, 0, d.controller, whole) == BUMBAZEEL_DISAGREE);
    expect(bumbazeel_drop(&d.record, d.host, whole, NULL, 0) == BUMBAZEEL_DISAGREE && !memcmp(&d, &before, sizeof d));

    expect(drop(&d) == BUMBAZEEL_SUCCESS && !memcmp(&d, &want, sizeof d));
    expect(drop(&d) == BUMBAZEEL_SUCCESS && !memcmp(&d, &want, sizeof d));
    expect(bumbazeel_drop(&d.record, NULL, 0, d.controller, whole) == BUMBAZEEL_SUCCESS && !memcmp(&d, &want, sizeof d));

    /* the page is its header, which shows the generation, no areas and no reason */
    bumbazeel_words(0x07, 0, 0, 1, 0, 1, ask);
    expect(command(&d, ask, buffer, sizeof buffer) == BUMBAZEEL_SUCCESS && plan(largest(0x07, CAPS), buffer, BLOCK, &planned) == BUMBAZEEL_SUCCESS);
    expect(planned.host_generation == 255 && planned.available == 1 && planned.controller_generation == 1 && planned.chunks == 0);
    expect(all(planned.last, sizeof planned.last, 0) && all(planned.reason, sizeof planned.reason, 0));
    bumbazeel_words(0x07, 0, 0, 1, 1, 1, ask);
    expect(command(&d, ask, buffer, sizeof buffer) == BUMBAZEEL_SUCCESS && all(buffer, sizeof buffer, 0));
    bumbazeel_words(0x07, 0, 0, 1, 2, 1, ask);
    expect(command(&d, ask, buffer, sizeof buffer) == BUMBAZEEL_INVALID_FIELD && !memcmp(&d, &want, sizeof d));

    /* no stores, and no bit of the capabilities */
    struct bumbazeel_record alone, fresh;
    expect(bumbazeel_fresh(0, 0xffffff, 2, 1, &fresh) == BUMBAZEEL_SUCCESS);
    alone = fresh;
    alone.host_generation = fresh.host_generation = 7;
    memset(alone.host_reason, 0xab, sizeof alone.host_reason);
    expect(bumbazeel_drop(&alone, NULL, 0, NULL, 0) == BUMBAZEEL_SUCCESS && !memcmp(&alone, &fresh, sizeof alone));
}

/* What is at fault in a bad header, as a set of bits by the fields' numbers. */
#define FAULT(field) (1u << BUMBAZEEL_FIELD_##field)
enum { A2 = 1 << BUMBAZEEL_FIELD_AREA_2, A3 = 1 << BUMBAZEEL_FIELD_AREA_3, A4 = 1 << BUMBAZEEL_FIELD_AREA_4 };

/* Last blocks, and those of them that are at fault with DA4S and without it. */
static const struct {
    uint32_t last[4];
    unsigned with_da4s, without;
} areas[] = {
    {{0, 0, 0, 0}, 0, 0},
    {{1, 1, 1, 1}, 0, A4},
    {{1, 1, 1, 0}, A4, 0},
    {{1, 2, 3, 4}, 0, A4},
    {{1, 2, 3, 2}, A4, A4},
    {{0, 0, 1, 0}, A4, 0},
    {{0, 0, 0, 1}, A4, A4},
    {{0, 0, 0, 1048577}, A4, A4},
    {{1, 2, 3, 1048576}, 0, A4},
    {{1, 2, 3, 1048577}, A4, A4},
    {{1, 2, 3, 0xff000000}, A4, A4},
    {{65535, 65535, 65535, 65535}, 0, A4},
    {{65535, 65535, 65535, 65534}, A4, A4},
    {{65535, 65535, 65535, 0}, A4, 0},
    {{1, 0, 0, 0}, A2, A2},
    {{1, 0, 0, 1}, A2 | A4, A2 | A4},
    {{3, 2, 2, 2}, A2, A2 | A4},
    {{3, 2, 2, 0}, A2 | A4, A2},
    {{256, 255, 65535, 65535}, A2, A2 | A4},
    {{0, 1, 0, 0}, A3, A3},
    {{0, 1, 0, 1}, A3 | A4, A3 | A4},
    {{1, 3, 2, 2}, A3, A3 | A4},
    {{1, 3, 2, 0}, A3 | A4, A3},
    {{2, 3, 1, 1}, A3, A3 | A4}, /* area 3 is below area 1 too, but area 2 is not */
    {{1, 65535, 65534, 1048577}, A3 | A4, A3 | A4},
    {{2, 1, 0, 0}, A2 | A3, A2 | A3},
    {{2, 1, 0, 1}, A2 | A3 | A4, A2 | A3 | A4},
    {{5, 3, 1, 1}, A2 | A3, A2 | A3 | A4},
    {{5, 3, 1, 0}, A2 | A3 | A4, A2 | A3},
    {{31, 31, 31, 31}, 0, A4},
    {{31, 31, 31, 0}, A4, 0},
    {{32, 32, 32, 32}, 0, A4},
    {{32, 32, 32, 0}, A4, 0},
};
enum { ROWS = sizeof areas / sizeof *areas, SHOWN = ROWS * 3 * 4 * 3 };

/* Writes one of so many headers of a page, which differ in last blocks, scope, TCDA and identifier. Answers what is at fault in it. */
static unsigned show(uint8_t *header, uint8_t page, uint8_t da4s, unsigned number) {
    static const uint8_t scopes[] = {2, 3, 255}, availables[] = {0, 1, 2, 255};
    const uint8_t identifiers[] = {page, (uint8_t)(15 - page), 0}, scope = scopes[number / ROWS % 3];
    const uint8_t available = availables[number / ROWS / 3 % 4], identifier = identifiers[number / ROWS / 3 / 4];
    const uint32_t *last = areas[number % ROWS].last;
    unsigned faults = da4s ? areas[number % ROWS].with_da4s : areas[number % ROWS].without;
    memset(header, 0, BLOCK);
    header[0] = identifier;
    for (int i = 0; i < 2; i++) {
        header[8 + i] = (uint8_t)(last[0] >> 8 * i);
        header[10 + i] = (uint8_t)(last[1] >> 8 * i);
        header[12 + i] = (uint8_t)(last[2] >> 8 * i);
    }
    for (int i = 0; i < 4; i++)
        header[16 + i] = (uint8_t)(last[3] >> 8 * i);
    header[380] = header[381] = 3; /* which is no scope on the other page */
    header[page == 0x07 ? 380 : 381] = scope;
    header[382] = available;
    faults |= identifier != page ? FAULT(IDENTIFIER) : 0;
    faults |= scope > 2 ? FAULT(SCOPE) : 0;
    faults |= available > 1 ? FAULT(AVAILABLE) : 0;
    faults |= page == 0x08 && available == 1 && last[2] == 0 ? FAULT(EMPTY) : 0;
    return faults;
}

/* The number of the first field at fault, which is the lowest, or 0. */
static uint8_t first_of(unsigned faults) {
    for (uint8_t field = BUMBAZEEL_FIELD_LENGTH; field <= BUMBAZEEL_FIELD_EMPTY; field++)
        if (faults >> field & 1)
            return field;
    return BUMBAZEEL_FIELD_NONE;
}

static uint16_t starts(int page, int field) {
    static const uint16_t bytes[] = {0, 0, 0, 10, 12, 16, 381, 382, 12};
    return field == BUMBAZEEL_FIELD_SCOPE && page == 0x07 ? 380 : field <= BUMBAZEEL_FIELD_EMPTY ? bytes[field] : 0;
}

/* The last block of an area in a header of 512 bytes. */
static uint32_t last_of(const uint8_t *header, uint8_t area) {
    uint32_t last = 0;
    for (int at = area == 4 ? 19 : 7 + 2 * area; at >= (area == 4 ? 16 : 6 + 2 * area); at--)
        last = last << 8 | header[at];
    return last;
}

/* The largest plan tells the first field at fault and where it starts, and zeros besides. Of a good header it tells what it says, but on 08h
 * without data available, and without extended data past block 31. */
static void plan_finds(uint8_t page, uint8_t caps, const uint8_t *header, size_t bytes, unsigned faults) {
    const struct wanted w = largest(page, caps);
    struct bumbazeel_planned planned, want;
    memset(&want, 0, sizeof want);
    want.bad_field = first_of(faults);
    want.bad_byte = starts(page, want.bad_field);
    uint8_t answer = plan(w, header, bytes, &planned);
    if (faults)
        expect(answer == BUMBAZEEL_BAD_HEADER && !memcmp(&planned, &want, sizeof planned));
    else if (page == 0x08 && header[382] == 0)
        expect(answer == BUMBAZEEL_NOTHING);
    else if (w.chunk == 0 && last_of(header, w.area) > 31)
        expect(answer == BUMBAZEEL_OUT_OF_REACH);
    else
        expect(answer == BUMBAZEEL_SUCCESS && planned.bad_field == 0 && planned.bad_byte == 0 && planned.page == page);
    expect(planned.chunks == (w.chunk ? planned.last[w.area - 1] : planned.last[w.area - 1] > 0)); /* a block a command, or all blocks in one */
}

/* Each fault alone and every two with no third are among the headers, but for those that cannot be: 07h may be available but empty, and TCDA
 * is not 1 and over 1. A page that is neither is 13, whatever is at fault. */
static void faults(uint8_t page, uint8_t caps) {
    static const uint8_t others[] = {0x00, 0x06, 0x09, 0x87, 0xff};
    struct bumbazeel_planned planned;
    uint8_t header[BLOCK + 1], met[1 << 9] = {0};
    for (unsigned number = 0; number < SHOWN; number++) {
        const unsigned at_fault = show(header, page, caps & BUMBAZEEL_DA4S, number);
        header[BLOCK] = page;
        plan_finds(page, caps, header, BLOCK, at_fault);
        plan_finds(page, caps, header, BLOCK - 1, at_fault | FAULT(LENGTH));
        plan_finds(page, caps, header, BLOCK + 1, at_fault | FAULT(LENGTH));
        met[at_fault] = met[at_fault | FAULT(LENGTH)] = 1;
        header[0] = others[number % sizeof others]; /* the page asked for, which is neither */
        expect(plan(largest(header[0], caps), header, BLOCK, &planned) == BUMBAZEEL_BAD_SETUP);
        expect(plan(largest(header[0], caps), header, BLOCK + 1, &planned) == BUMBAZEEL_BAD_SETUP);
    }
    plan_finds(page, caps, NULL, 0, FAULT(LENGTH));
    expect(plan(largest(0x09, caps), NULL, 0, &planned) == BUMBAZEEL_BAD_SETUP);
    for (int first = BUMBAZEEL_FIELD_LENGTH; first <= BUMBAZEEL_FIELD_EMPTY; first++)
        for (int second = first; second <= BUMBAZEEL_FIELD_EMPTY; second++) {
            int can_be = second != BUMBAZEEL_FIELD_EMPTY || (page == 0x08 && first != BUMBAZEEL_FIELD_AVAILABLE);
            expect(met[1u << first | 1u << second] == can_be);
        }
}

/* Blocks of an area, blocks a command, and how many commands bring them. */
static const struct {
    uint32_t blocks, chunk, chunks;
} lists[] = {
    {0, 1, 0},
    {0, 8192, 0},
    {1, 1, 1},
    {1, 8192, 1},
    {2, 1, 2},
    {2, 2, 1},
    {7, 3, 3},
    {9, 3, 3},
    {10, 3, 4},
    {8191, 8192, 1},
    {8192, 8192, 1},
    {8193, 8192, 2},
    {65535, 1, 65535},
    {65535, 8191, 9},
    {65536, 1, 65536},
    {65536, 256, 256},
    {65537, 256, 257},
    {1048575, 2, 524288},
    {1048576, 1, 1048576},
    {1048576, 8191, 129},
    {1048576, 8192, 128},
};

/* A header with data available, whose area 4 has so many blocks, and areas 1 to 3 as many of them as they can have. */
static void show_blocks(uint8_t *header, uint8_t page, uint32_t blocks) {
    const uint32_t most = BUMBAZEEL_LAST_OF_AREA_3, third = blocks < most ? blocks : most;
    memset(header, 0, BLOCK);
    header[0] = page;
    for (int at = 8; at < 14; at++)
        header[at] = (uint8_t)(third >> at % 2 * 8);
    for (int i = 0; i < 4; i++)
        header[16 + i] = (uint8_t)(blocks >> 8 * i);
    header[382] = 1;
}

/* The chunks of a plan, with a room that is just the area; of a block less it is 8. */
static void plan_lists(uint8_t page) {
    for (size_t i = 0; i < sizeof lists / sizeof *lists; i++) {
        const uint32_t blocks = lists[i].blocks;
        struct bumbazeel_planned planned;
        uint8_t header[BLOCK];
        show_blocks(header, page, blocks);
        if (blocks == 0)
            header[382] = page == 0x07; /* on 08h an area 3 without a block is not available */
        for (uint8_t area = 1; area <= 4; area++) {
            struct wanted w = {page, area, CAPS, lists[i].chunk, (size_t)blocks * BLOCK};
            if (area < 4 && blocks > BUMBAZEEL_LAST_OF_AREA_3)
                continue;
            if (header[382] == 0) {
                expect(plan(w, header, BLOCK, &planned) == BUMBAZEEL_NOTHING);
                continue;
            }
            expect(plan(w, header, BLOCK, &planned) == BUMBAZEEL_SUCCESS && planned.chunks == lists[i].chunks);
            expect(planned.page == page && planned.last[3] == blocks && planned.available == 1);
            if (blocks == 0)
                continue;
            w.room -= BLOCK;
            expect(plan(w, header, BLOCK, &planned) == BUMBAZEEL_NO_ROOM);
        }
    }
}

/* 13 for each of setup's limits that is broken, 6, 7, 11, 8, 0: all is wrong at first, and is mended in this order. */
static void plan_order(void) {
    static const uint8_t bad_pages[] = {0x00, 0x06, 0x09, 0x18, 0xff}, bad_areas[] = {0, 5, 255}, bad_caps[] = {1, 2, 17, 30, 29, 32, 63, 128, 255};
    static const uint32_t bad_chunks[] = {0, 8193, 65537, 0xffffffff};
    static const size_t bad_rooms[] = {1, 511, 513, 536870911, 536870913, 536871424, (size_t)1 << 32, (size_t)0 - 512, (size_t)0 - 1};
    const struct wanted wrong = {0x08, 4, CAPS & ~BUMBAZEEL_ETDAS, 2, BLOCK};
    struct wanted w;
    struct bumbazeel_planned planned;
    uint8_t header[BLOCK];
    show_blocks(header, 0x08, 2);
    header[381] = 3; /* scope */
    header[382] = 0;
    for (size_t i = 0; i < sizeof bad_pages; i++) {
        w = wrong;
        w.page = bad_pages[i];
        expect(plan(w, header, BLOCK, &planned) == BUMBAZEEL_BAD_SETUP);
    }
    for (size_t i = 0; i < sizeof bad_areas; i++) {
        w = wrong;
        w.area = bad_areas[i];
        expect(plan(w, header, BLOCK, &planned) == BUMBAZEEL_BAD_SETUP);
    }
    for (size_t i = 0; i < sizeof bad_caps; i++) {
        w = wrong;
        w.caps = bad_caps[i];
        expect(plan(w, header, BLOCK, &planned) == BUMBAZEEL_BAD_SETUP);
    }
    for (size_t i = 0; i < sizeof bad_chunks / sizeof *bad_chunks; i++) {
        w = wrong;
        w.chunk = bad_chunks[i];
        expect(plan(w, header, BLOCK, &planned) == BUMBAZEEL_BAD_SETUP);
    }
    for (size_t i = 0; i < sizeof bad_rooms / sizeof *bad_rooms; i++) {
        w = wrong;
        w.room = bad_rooms[i];
        expect(plan(w, header, BLOCK, &planned) == BUMBAZEEL_BAD_SETUP);
    }
    w = wrong;
    expect(plan(w, header, BLOCK, &planned) == BUMBAZEEL_NO_AREA_4 && plan(w, NULL, 0, &planned) == BUMBAZEEL_NO_AREA_4);
    w.caps = CAPS & ~BUMBAZEEL_DA4S;
    expect(plan(w, header, BLOCK, &planned) == BUMBAZEEL_NO_AREA_4);
    w.caps = CAPS;
    expect(plan(w, NULL, 0, &planned) == BUMBAZEEL_BAD_HEADER && planned.bad_field == BUMBAZEEL_FIELD_LENGTH && planned.bad_byte == 0);
    expect(plan(w, header, BLOCK, &planned) == BUMBAZEEL_BAD_HEADER && planned.bad_field == BUMBAZEEL_FIELD_SCOPE && planned.bad_byte == 381);
    header[381] = 2;
    expect(plan(w, header, BLOCK, &planned) == BUMBAZEEL_NOTHING);
    header[382] = 1;
    expect(plan(w, header, BLOCK, &planned) == BUMBAZEEL_NO_ROOM);
    w.room += BLOCK;
    expect(plan(w, header, BLOCK, &planned) == BUMBAZEEL_SUCCESS && planned.chunks == 1);

    /* area 4 is judged by DA4S of the capabilities, also where it is not wanted */
    w.area = 3;
    expect(plan(w, header, BLOCK, &planned) == BUMBAZEEL_SUCCESS);
    w.caps = CAPS & ~BUMBAZEEL_ETDAS;
    expect(plan(w, header, BLOCK, &planned) == BUMBAZEEL_SUCCESS && planned.last[3] == 2);
    w.caps = CAPS & ~BUMBAZEEL_DA4S;
    expect(plan(w, header, BLOCK, &planned) == BUMBAZEEL_BAD_HEADER && planned.bad_field == BUMBAZEEL_FIELD_AREA_4);

    /* the wanted area counts, and none beside it: areas of 1 to 4 blocks, a block a command, into so many blocks and into one less */
    header[8] = 1;
    header[12] = 3;
    header[16] = 4;
    w.caps = CAPS;
    w.chunk = 1;
    for (w.area = 1; w.area <= 4; w.area++) {
        w.room = (size_t)w.area * BLOCK;
        expect(plan(w, header, BLOCK, &planned) == BUMBAZEEL_SUCCESS && planned.chunks == w.area && planned.last[w.area - 1] == w.area);
        w.room -= BLOCK;
        expect(plan(w, header, BLOCK, &planned) == BUMBAZEEL_NO_ROOM);
    }
}

static void field_bytes(void) {
    int wrong = 0;
    for (int page = 0; page < 256; page++)
        for (int field = 0; field < 256; field++)
            wrong += bumbazeel_field_byte((uint8_t)page, (uint8_t)field) != starts(page, field);
    expect(wrong == 0);
    expect(bumbazeel_field_byte(0x07, BUMBAZEEL_FIELD_SCOPE) == 380 && bumbazeel_field_byte(0x08, BUMBAZEEL_FIELD_SCOPE) == 381);
}

/* A collection of one block that awaits a header: the first one, or in its last attempt a closing one or the one after a refused chunk. Of DA4S
 * and ETDAS the drive has one, and with `old` no extended data. */
static struct bumbazeel_state awaiting(uint8_t page, uint8_t da4s, uint8_t old, uint8_t phase) {
    const uint8_t caps = (uint8_t)((old ? OLD_CAPS : CAPS) & ~(da4s ? BUMBAZEEL_ETDAS : BUMBAZEEL_DA4S));
    struct bumbazeel_state state;
    struct bumbazeel_next next;
    uint8_t header[2 * BLOCK], copy[BLOCK];
    memset(header, 0xff, sizeof header);
    expect(bumbazeel_setup(page, 0, 1, caps, !old, 2, sizeof copy, &state, &next) == BUMBAZEEL_SEND && next.bad_field == 0);
    if (phase != BUMBAZEEL_AWAITS_FIRST_HEADER) {
        expect(show(header, page, da4s, ROWS * 3 + (da4s ? 1 : 2)) == 0); /* data is available, and each area has one block */
        expect(bumbazeel_step(&state, 1, header, BLOCK, copy, sizeof copy, &next) == BUMBAZEEL_SEND && next.bad_field == 0);
        const uint8_t came = phase == BUMBAZEEL_AWAITS_CLOSING_HEADER;
        const size_t bytes = came ? (old ? 2 : 1) * BLOCK : 0;
        expect(bumbazeel_step(&state, came, header, bytes, copy, sizeof copy, &next) == BUMBAZEEL_SEND && next.bad_field == 0);
        state.attempt = state.attempts;
    }
    expect(state.phase == phase);
    return state;
}

/* Ending 7 has the first field at fault; commands, refusals and other endings have none. A first header is answered as a plan from it is. Answers
 * which endings there were, as bits. */
static unsigned faults_in_collections(uint8_t page, uint8_t da4s, uint8_t old, uint8_t phase) {
    const struct bumbazeel_state awaits = awaiting(page, da4s, old, phase);
    unsigned endings = 0;
    for (unsigned number = 0; number < SHOWN; number++) {
        struct bumbazeel_state state = awaits;
        struct bumbazeel_next next;
        uint8_t header[BLOCK], copy[BLOCK];
        const unsigned at_fault = show(header, page, da4s, number);
        memset(copy, 0x55, sizeof copy);
        memset(&next, 0xff, sizeof next);
        expect(bumbazeel_step(&state, 1, header, BLOCK - 1, copy, sizeof copy, &next) == BUMBAZEEL_REFUSED);
        expect(next.answer == BUMBAZEEL_DOES_NOT_FIT && next.bad_field == 0);
        uint8_t kind = bumbazeel_step(&state, 1, header, BLOCK, copy, sizeof copy, &next);
        if (at_fault)
            expect(kind == BUMBAZEEL_ENDED && next.answer == BUMBAZEEL_BAD_HEADER && next.newer == 0 && all(copy, sizeof copy, 0));
        else
            expect(next.answer != BUMBAZEEL_BAD_HEADER);
        expect(next.bad_field == first_of(at_fault));
        if (phase == BUMBAZEEL_AWAITS_FIRST_HEADER) {
            const struct wanted w = {page, state.area, state.caps, state.chunk, sizeof copy};
            struct bumbazeel_planned planned;
            expect(plan(w, header, BLOCK, &planned) == next.answer && planned.bad_field == next.bad_field);
            expect((kind == BUMBAZEEL_SEND) == (next.answer == BUMBAZEEL_SUCCESS) && (state.phase == BUMBAZEEL_AWAITS_CHUNK) == (planned.chunks == 1));
        }
        if (kind != BUMBAZEEL_ENDED)
            continue;
        endings |= 1u << next.answer;
        expect(bumbazeel_step(&state, 1, header, BLOCK, copy, sizeof copy, &next) == BUMBAZEEL_REFUSED && next.bad_field == 0);
    }
    return endings;
}

/* The same at a first header, a closing one and one after a refused chunk: every ending from 7 to 12 is among them, and without extended data 19. */
static void endings(void) {
    enum { FIRST = BUMBAZEEL_AWAITS_FIRST_HEADER, CLOSING = BUMBAZEEL_AWAITS_CLOSING_HEADER, REFUSED = BUMBAZEEL_AWAITS_CLOSING_HEADER_AFTER_REFUSAL };
    const unsigned bad = 1u << BUMBAZEEL_BAD_HEADER, large = 1u << BUMBAZEEL_NO_ROOM, used_up = 1u << BUMBAZEEL_ATTEMPTS_USED_UP;
    const unsigned withdrawn = 1u << BUMBAZEEL_WITHDRAWN, nothing = 1u << BUMBAZEEL_NOTHING, broke = 1u << BUMBAZEEL_BROKE_ITS_WORD;
    for (uint8_t side = 0; side < 4; side++) {
        const uint8_t da4s = side % 2, old = side / 2;
        const unsigned far = old ? 1u << BUMBAZEEL_OUT_OF_REACH : 0;
        expect(faults_in_collections(0x07, da4s, old, FIRST) == (bad | large | far));
        expect(faults_in_collections(0x08, da4s, old, FIRST) == (bad | large | far | nothing));
        expect(faults_in_collections(0x07, da4s, old, CLOSING) == (bad | used_up | 1u << BUMBAZEEL_SUCCESS));
        expect(faults_in_collections(0x08, da4s, old, CLOSING) == (bad | used_up | withdrawn));
        expect(faults_in_collections(0x07, da4s, old, REFUSED) == (bad | used_up | broke));
        expect(faults_in_collections(0x08, da4s, old, REFUSED) == (bad | used_up | broke | withdrawn));
    }
}

/* A whole collection of a page, from a drive that was captured on. */
static void collection(uint8_t page, uint8_t create, unsigned commands) {
    struct drive d;
    struct bumbazeel_state state;
    struct bumbazeel_next next;
    uint8_t buffer[2 * BLOCK], copy[6 * BLOCK];
    const struct wanted w = {page, 4, CAPS, 2, sizeof copy};
    struct bumbazeel_planned planned;
    unsigned sent = 0, chunks = 0;
    begin(&d);
    if (page == 0x08)
        expect(capture(&d) == BUMBAZEEL_SUCCESS);
    memset(copy, 0x55, sizeof copy);
    expect(bumbazeel_setup(page, create, 4, CAPS, 2, 3, sizeof copy, &state, &next) == BUMBAZEEL_SEND);
    expect(state.phase == 0 && state.page == page && state.create == create && state.area == 4 && state.caps == CAPS && state.chunk == 2);
    expect(state.attempts == 3 && state.attempt == 1 && state.room == sizeof copy && state.count == 1 && state.at == 0);
    while (next.kind == BUMBAZEEL_SEND && sent < 100) {
        size_t bytes = ((next.words[0] >> 16) + 1) * 4;
        expect(bytes <= sizeof buffer && next.answer == 0 && next.newer == 0 && next.count == 0 && next.bad_field == 0);
        sent++;
        chunks += state.phase == BUMBAZEEL_AWAITS_CHUNK;
        uint8_t answer = command(&d, next.words, buffer, sizeof buffer);
        if (answer != BUMBAZEEL_SUCCESS)
            bytes = 0;
        if (state.phase == BUMBAZEEL_AWAITS_FIRST_HEADER)
            expect(plan(w, buffer, BLOCK, &planned) == BUMBAZEEL_SUCCESS && !memcmp(planned.last, d.last, sizeof d.last));
        uint8_t kind = bumbazeel_step(&state, answer == BUMBAZEEL_SUCCESS ? 7 : 0, buffer, bytes, copy, sizeof copy, &next);
        expect(kind == next.kind);
    }
    expect(next.kind == BUMBAZEEL_ENDED && next.answer == BUMBAZEEL_SUCCESS && next.newer == 0 && next.count == commands && sent == commands);
    expect(all(next.words, sizeof next.words, 0) && state.phase == 5 && state.count == commands && chunks == planned.chunks);
    expect(!memcmp(copy, d.candidate, sizeof d.candidate) && all(copy + sizeof d.candidate, sizeof copy - sizeof d.candidate, 0));
    struct bumbazeel_state ended = state;
    expect(bumbazeel_step(&state, 1, NULL, 0, copy, sizeof copy, &next) == BUMBAZEEL_REFUSED && next.answer == BUMBAZEEL_ALREADY_ENDED);
    expect(!memcmp(&ended, &state, sizeof state) && all(next.words, sizeof next.words, 0) && next.count == 0);
}

/* A collection of areas (2,2,2,0) in which the data is dropped after so many commands: the run goes on from the header that shows it, and
 * ends well with no blocks. */
static void dropped_collection(uint32_t chunk, unsigned dropped_after, unsigned commands, unsigned refused) {
    static const uint32_t last[4] = {2, 2, 2, 2};
    const uint8_t caps = CAPS & ~BUMBAZEEL_DA4S;
    struct drive d;
    struct bumbazeel_state state;
    struct bumbazeel_next next;
    uint32_t ask[5];
    uint8_t buffer[2 * BLOCK], copy[3 * BLOCK];
    unsigned sent = 0, refusals = 0;
    begin(&d);
    d.record.caps = caps;
    memcpy(d.last, last, sizeof last);
    bumbazeel_words(0x07, 1, 0, 1, 0, 1, ask);
    expect(command(&d, ask, buffer, sizeof buffer) == BUMBAZEEL_SUCCESS && d.record.host_last[2] == 2 && d.record.host_last[3] == 0);
    memset(copy, 0x55, sizeof copy);
    expect(bumbazeel_setup(0x07, 0, 3, caps, chunk, 2, sizeof copy, &state, &next) == BUMBAZEEL_SEND);
    while (next.kind == BUMBAZEEL_SEND && sent < 100) {
        size_t bytes = ((next.words[0] >> 16) + 1) * 4;
        uint8_t answer = command(&d, next.words, buffer, sizeof buffer);
        if (answer != BUMBAZEEL_SUCCESS) {
            bytes = 0;
            refusals++;
        }
        bumbazeel_step(&state, answer == BUMBAZEEL_SUCCESS, buffer, bytes, copy, sizeof copy, &next);
        if (++sent == dropped_after)
            expect(drop(&d) == BUMBAZEEL_SUCCESS);
    }
    expect(next.kind == BUMBAZEEL_ENDED && next.answer == BUMBAZEEL_SUCCESS && next.count == commands && sent == commands);
    expect(refusals == refused && state.attempt == 2 && all(state.last, sizeof state.last, 0) && all(copy, sizeof copy, 0));
}

/* An acknowledgement is newer by its generation alone, whatever last blocks it shows; nothing of it is at fault. */
static void acknowledgements(const struct bumbazeel_state *awaits, const uint8_t *header, uint8_t *copy, size_t room) {
    for (uint8_t newer = 0; newer < 2; newer++) {
        struct bumbazeel_state state = *awaits;
        struct bumbazeel_next next;
        uint8_t shown[BLOCK];
        memcpy(shown, header, sizeof shown);
        memset(shown + 8, 0, 12);
        shown[383] = (uint8_t)(shown[383] + newer);
        expect(bumbazeel_step(&state, 1, shown, sizeof shown, copy, room, &next) == BUMBAZEEL_ENDED);
        expect(next.answer == BUMBAZEEL_SUCCESS && next.newer == newer && next.bad_field == 0);
    }
}

/* A later header matches by its generation and each of the four last blocks, on both pages; after a refused chunk a match is 12. */
static void matches(uint8_t page) {
    const uint32_t last[4] = {1, 2, 3, 4};
    for (int differs = -1; differs < 5; differs++) {
        struct drive d;
        struct bumbazeel_state state, awaits;
        struct bumbazeel_next next;
        uint32_t ask[5];
        uint8_t header[BLOCK], copy[4 * BLOCK];
        begin(&d);
        d.record.available = 1;
        memcpy(d.record.host_last, last, sizeof last);
        memcpy(d.record.controller_last, last, sizeof last);
        bumbazeel_words(page, 0, 0, 1, 0, 1, ask);
        expect(bumbazeel_setup(page, 0, 1, CAPS, 1, 2, sizeof copy, &awaits, &next) == BUMBAZEEL_SEND);
        expect(command(&d, ask, header, sizeof header) == BUMBAZEEL_SUCCESS);
        expect(bumbazeel_step(&awaits, 1, header, sizeof header, copy, sizeof copy, &next) == BUMBAZEEL_SEND);
        if (differs >= 0 && differs < 4)
            awaits.last[differs] = differs ? last[differs] - 1 : 0;
        else if (differs == 4)
            awaits.generation++;
        awaits.at = 0;
        memset(header + 384, 0xcd, 128); /* the reason is not compared */
        awaits.phase = BUMBAZEEL_AWAITS_CLOSING_HEADER;
        state = awaits;
        uint8_t kind = bumbazeel_step(&state, 1, header, sizeof header, copy, sizeof copy, &next);
        if (differs >= 0)
            expect(kind == BUMBAZEEL_SEND && state.attempt == 2 && state.phase == BUMBAZEEL_AWAITS_CHUNK && !memcmp(state.last, last, sizeof last));
        else if (page == 0x07)
            expect(kind == BUMBAZEEL_ENDED && next.answer == BUMBAZEEL_SUCCESS);
        else
            expect(kind == BUMBAZEEL_SEND && state.attempt == 1 && state.phase == BUMBAZEEL_AWAITS_ACKNOWLEDGEMENT);
        if (state.phase == BUMBAZEEL_AWAITS_ACKNOWLEDGEMENT)
            acknowledgements(&state, header, copy, sizeof copy);
        awaits.phase = BUMBAZEEL_AWAITS_CLOSING_HEADER_AFTER_REFUSAL;
        state = awaits;
        kind = bumbazeel_step(&state, 1, header, sizeof header, copy, sizeof copy, &next);
        if (differs >= 0)
            expect(kind == BUMBAZEEL_SEND && state.attempt == 2 && state.phase == BUMBAZEEL_AWAITS_CHUNK);
        else
            expect(kind == BUMBAZEEL_ENDED && next.answer == BUMBAZEEL_BROKE_ITS_WORD);
    }
}

/* Parts of 4 MiB and more take another way through the library than small ones: a candidate into each store, a transfer, and the chunks of
 * a collection. The last four pages of them are not full. */
static void large(void) {
    const uint32_t blocks = 8192 + 40, last[4] = {1, 2, 3, blocks}, dwords = blocks * (BLOCK / 4) - 1;
    const uint32_t whole[5] = {0x8007 | (dwords & 0xffff) << 16, dwords >> 16, BLOCK, 0, 0};
    const size_t bytes = (size_t)blocks * BLOCK;
    uint8_t *memory = (uint8_t *)malloc(5 * bytes), *host = memory, *controller = host + bytes, *candidate = controller + bytes;
    uint8_t *buffer = candidate + bytes, *copy = buffer + bytes, reason[128], identifier_class;
    struct bumbazeel_record record;
    struct bumbazeel_state state;
    struct bumbazeel_next next;
    expect(memory != NULL);
    if (!memory)
        return;
    memset(memory, 0x55, 5 * bytes);
    memset(reason, 0xab, sizeof reason);
    for (size_t i = 0; i < bytes; i++)
        candidate[i] = (uint8_t)(i * 2654435761u >> 13);
    expect(bumbazeel_fresh(CAPS, 0, 1, 1, &record) == BUMBAZEEL_SUCCESS);
    expect(bumbazeel_capture(&record, host, bytes, controller, bytes, last, candidate, bytes, reason, 128) == BUMBAZEEL_SUCCESS);
    expect(!memcmp(controller, candidate, bytes) && all(host, bytes, 0x55));
    expect(bumbazeel_setup(0x07, 1, 4, CAPS, 8192, 1, bytes, &state, &next) == BUMBAZEEL_SEND);
    while (next.kind == BUMBAZEEL_SEND) {
        size_t asked = ((size_t)(next.words[0] >> 16 | next.words[1] << 16) + 1) * 4;
        expect(bumbazeel_command(&record, host, bytes, controller, bytes, last, candidate, bytes, reason, 128, next.words, buffer, bytes,
                                 &identifier_class) == BUMBAZEEL_SUCCESS);
        bumbazeel_step(&state, 1, buffer, asked, copy, bytes, &next);
    }
    expect(next.answer == BUMBAZEEL_SUCCESS && next.count == 4 && !memcmp(host, candidate, bytes) && !memcmp(copy, candidate, bytes));
    expect(bumbazeel_command(&record, host, bytes, controller, bytes, last, NULL, 0, NULL, 0, whole, buffer, bytes, &identifier_class) ==
           BUMBAZEEL_SUCCESS);
    expect(!memcmp(buffer, candidate, bytes));
    free(memory);
}

/* A flag is 0 or anything else. */
static void flags(void) {
    struct bumbazeel_state one, many;
    struct bumbazeel_next next_one, next_many;
    uint32_t built_one[5], built_many[5];
    expect(bumbazeel_setup(0x07, 1, 1, CAPS, 1, 1, 512, &one, &next_one) == BUMBAZEEL_SEND && one.create == 1);
    expect(bumbazeel_setup(0x07, 128, 1, CAPS, 1, 1, 512, &many, &next_many) == BUMBAZEEL_SEND);
    expect(!memcmp(&one, &many, sizeof one) && !memcmp(&next_one, &next_many, sizeof next_one));
    expect(bumbazeel_words(0x07, 1, 4, 1, 0, 1, built_one) == BUMBAZEEL_SUCCESS && bumbazeel_words(0x07, 2, 4, 128, 0, 1, built_many) == BUMBAZEEL_SUCCESS);
    expect(!memcmp(built_one, built_many, sizeof built_one));
}

/* The limits and the phases that the header file names are the library's. */
static void limits(void) {
    struct bumbazeel_state state;
    struct bumbazeel_next next;
    struct bumbazeel_planned planned;
    uint32_t built[5];
    uint8_t header[BLOCK];
    const uint8_t page = BUMBAZEEL_HOST_PAGE;
    const uint32_t blocks = BUMBAZEEL_MOST_BLOCKS, attempts = BUMBAZEEL_MOST_ATTEMPTS, last = BUMBAZEEL_LAST_OF_AREA_4;
    const size_t room = BUMBAZEEL_MOST_ROOM;
    expect(bumbazeel_setup(page, 0, 4, CAPS, blocks, attempts, room, &state, &next) == BUMBAZEEL_SEND);
    expect(state.phase == BUMBAZEEL_AWAITS_FIRST_HEADER && state.room == (uint64_t)last * BLOCK);
    expect(bumbazeel_setup(page, 0, 4, CAPS, blocks + 1, attempts, room, &state, &next) == BUMBAZEEL_REFUSED);
    expect(bumbazeel_setup(page, 0, 4, CAPS, blocks, attempts + 1, room, &state, &next) == BUMBAZEEL_REFUSED);
    expect(bumbazeel_setup(page, 0, 4, CAPS, blocks, attempts, room + BLOCK, &state, &next) == BUMBAZEEL_REFUSED);
    expect(bumbazeel_setup(page, 0, 4, CAPS, blocks, attempts, room - BLOCK / 2, &state, &next) == BUMBAZEEL_REFUSED);
    expect(next.answer == BUMBAZEEL_BAD_SETUP && state.phase == BUMBAZEEL_AWAITS_NOTHING);
    show_blocks(header, page, last);
    expect(bumbazeel_plan(page, 4, CAPS, blocks, room, header, BLOCK, &planned) == BUMBAZEEL_SUCCESS && planned.chunks == last / blocks);
    expect(bumbazeel_plan(page, 4, CAPS, blocks + 1, room, header, BLOCK, &planned) == BUMBAZEEL_BAD_SETUP);
    expect(bumbazeel_plan(page, 4, CAPS, blocks, room + BLOCK, header, BLOCK, &planned) == BUMBAZEEL_BAD_SETUP);
    expect(bumbazeel_plan(page, 4, CAPS, blocks, room - BLOCK / 2, header, BLOCK, &planned) == BUMBAZEEL_BAD_SETUP);
    expect(bumbazeel_words(BUMBAZEEL_CONTROLLER_PAGE, 0, 0, 1, last, blocks, built) == BUMBAZEEL_SUCCESS);
    expect(bumbazeel_words(page, 0, 0, 1, last + 1, blocks, built) == BUMBAZEEL_BAD_SETUP);
    expect(bumbazeel_words(page, 0, 0, 1, last, blocks + 1, built) == BUMBAZEEL_BAD_SETUP);
    show_blocks(header, page, BUMBAZEEL_REACH);
    expect(bumbazeel_plan(page, 4, OLD_CAPS, 0, room, header, BLOCK, &planned) == BUMBAZEEL_SUCCESS && planned.chunks == 1);
    show_blocks(header, page, BUMBAZEEL_REACH + 1);
    expect(bumbazeel_plan(page, 4, OLD_CAPS, 0, room, header, BLOCK, &planned) == BUMBAZEEL_OUT_OF_REACH);
    expect(bumbazeel_words(page, 0, 0, 1, 0, BUMBAZEEL_REACH + 1, built) == BUMBAZEEL_SUCCESS && built[0] >> 16 == 4096 - 1);
}

/* The answer to a state in the last of so many attempts, with so many commands sent, whose header is refused: it ends, and tells the count, or
 * it is 13 and nothing changes. */
static uint8_t refused_header(uint32_t attempts, uint64_t count) {
    struct bumbazeel_state state, before;
    struct bumbazeel_next next;
    uint8_t copy[BLOCK];
    memset(copy, 0x55, sizeof copy);
    expect(bumbazeel_setup(0x08, 0, 1, CAPS, 1, 1, sizeof copy, &state, &next) == BUMBAZEEL_SEND);
    state.attempts = state.attempt = attempts;
    state.count = count;
    before = state;
    if (bumbazeel_step(&state, 0, NULL, 0, copy, sizeof copy, &next) == BUMBAZEEL_ENDED)
        expect(next.count == count && state.count == count && next.bad_field == 0 && all(copy, sizeof copy, 0));
    else
        expect(!memcmp(&state, &before, sizeof state) && all(copy, sizeof copy, 0x55));
    return next.answer;
}

/* Attempts are 1 to 65,535, for setup and in a state, and the commands that a state counts are at most 2 + attempts * 1,048,577. */
static void attempts(void) {
    static const uint32_t good[] = {1, 2, 255, 256, 257, 65534, 65535}, bad[] = {0, 65536, 65537, 0x1000000, 0xffffffff};
    struct bumbazeel_state state;
    struct bumbazeel_next next;
    for (size_t i = 0; i < sizeof good / sizeof *good; i++) {
        const uint64_t most = 2 + good[i] * (uint64_t)1048577;
        expect(bumbazeel_setup(0x07, 0, 1, CAPS, 1, good[i], 0, &state, &next) == BUMBAZEEL_SEND && state.attempts == good[i]);
        expect(refused_header(good[i], most) == BUMBAZEEL_BROKE_ITS_WORD && refused_header(good[i], most + 1) == BUMBAZEEL_BAD_SETUP);
    }
    for (size_t i = 0; i < sizeof bad / sizeof *bad; i++) {
        expect(bumbazeel_setup(0x07, 0, 1, CAPS, 1, bad[i], 0, &state, &next) == BUMBAZEEL_REFUSED && next.answer == BUMBAZEEL_BAD_SETUP);
        expect(refused_header(bad[i], 1) == BUMBAZEEL_BAD_SETUP);
    }
    expect(refused_header(65535, 68718493697u) == BUMBAZEEL_BROKE_ITS_WORD && refused_header(65535, 68718493698u) == BUMBAZEEL_BAD_SETUP);
}

static void refused_setups(void) {
    struct bumbazeel_state state;
    struct bumbazeel_next next;
    memset(&state, 0xff, sizeof state);
    expect(bumbazeel_setup(0x07, 1, 4, CAPS, 0, 1, 512, &state, &next) == BUMBAZEEL_REFUSED && next.answer == BUMBAZEEL_BAD_SETUP);
    expect(state.phase == 5 && state.count == 0 && next.kind == BUMBAZEEL_REFUSED && all(next.words, sizeof next.words, 0));
    expect(bumbazeel_setup(0x07, 0, 4, CAPS & ~BUMBAZEEL_ETDAS, 1, 1, 512, &state, &next) == BUMBAZEEL_REFUSED && next.answer == BUMBAZEEL_NO_AREA_4);
    expect(bumbazeel_setup(0x07, 0, 3, CAPS | 32, 1, 1, 512, &state, &next) == BUMBAZEEL_REFUSED && next.answer == BUMBAZEEL_BAD_SETUP);
    expect(state.phase == 5 && state.caps == 0 && state.area == 3);
    expect(bumbazeel_step(&state, 1, NULL, 0, NULL, 0, &next) == BUMBAZEEL_REFUSED && next.answer == BUMBAZEEL_ALREADY_ENDED);
}

/* Steps that refuse leave state and copy as they were: a damaged state, one that breaks setup's limits, and data that does not fit. */
static void refused_steps(void) {
    struct bumbazeel_state fine, before, state;
    struct bumbazeel_next next;
    uint8_t copy[BLOCK], data[BLOCK];
    memset(copy, 0x55, sizeof copy);
    memset(data, 0, sizeof data);
    expect(bumbazeel_setup(0x07, 0, 1, CAPS, 1, 1, sizeof copy, &fine, &next) == BUMBAZEEL_SEND);
    for (int damage = 0; damage < 8; damage++) {
        before = fine;
        if (damage == 0)
            before.phase = 6;
        else if (damage == 1)
            before.create = 2;
        else if (damage == 2)
            before.caps = 32;
        else if (damage == 3)
            before.zero[0] = 1;
        else if (damage == 4)
            before.zero[1] = 1;
        else if (damage == 5)
            before.at = 0x01000000;
        else if (damage == 6)
            before.attempt = 2;
        else
            before.room = (uint64_t)1 << 63;
        state = before;
        memset(&next, 0xff, sizeof next);
        expect(bumbazeel_step(&state, 1, data, sizeof data, copy, sizeof copy, &next) == BUMBAZEEL_REFUSED && next.answer == BUMBAZEEL_BAD_SETUP);
        expect(!memcmp(&state, &before, sizeof state) && all(copy, sizeof copy, 0x55));
        expect(next.kind == BUMBAZEEL_REFUSED && next.newer == 0 && next.bad_field == 0 && next.count == 0 && all(next.words, sizeof next.words, 0));
    }
    state = fine;
    expect(bumbazeel_step(&state, 1, data, 1, copy, sizeof copy, &next) == BUMBAZEEL_REFUSED && next.answer == BUMBAZEEL_DOES_NOT_FIT);
    expect(bumbazeel_step(&state, 0, NULL, 0, NULL, 0, &next) == BUMBAZEEL_REFUSED && next.answer == BUMBAZEEL_DOES_NOT_FIT);
    expect(!memcmp(&state, &fine, sizeof state) && all(copy, sizeof copy, 0x55));
    expect(bumbazeel_step(&state, 0, NULL, 0, copy, sizeof copy, &next) == BUMBAZEEL_ENDED && next.answer == BUMBAZEEL_BROKE_ITS_WORD);
    expect(state.phase == 5 && next.count == 1 && all(copy, sizeof copy, 0));
}

/* ---- old runs: drives without extended data, which take no offset and at most 4,096 dwords */

enum { OLD_BLOCKS = 40 };

/* A controller without extended data, with areas of so many blocks on both pages. */
struct old_drive {
    struct bumbazeel_record record;
    uint8_t host[OLD_BLOCKS * BLOCK], controller[OLD_BLOCKS * BLOCK];
};

static void begin_old(struct old_drive *d, uint8_t caps, const uint32_t last[4]) {
    expect(bumbazeel_fresh(caps, 0x123456, 1, 2, &d->record) == BUMBAZEEL_SUCCESS);
    memcpy(d->record.host_last, last, sizeof d->record.host_last);
    memcpy(d->record.controller_last, last, sizeof d->record.controller_last);
    d->record.available = 1;
    for (size_t i = 0; i < sizeof d->host; i++) {
        d->host[i] = (uint8_t)(i * 7 + i / BLOCK + 1);
        d->controller[i] = (uint8_t)(i * 11 + i / BLOCK + 2);
    }
}

/* A row of old runs: the last block of the wanted area, the room in blocks, the middle command's CDW10 but for the page, and the ending. */
static const struct {
    uint32_t blocks, room, middle;
    uint8_t answer;
} old_rows[] = {
    {0, 0, 0, BUMBAZEEL_SUCCESS}, /* which skips the middle command */
    {0, 9, 0, BUMBAZEEL_SUCCESS},
    {1, 1, 0x00ff8000, BUMBAZEEL_SUCCESS},
    {2, 9, 0x017f8000, BUMBAZEEL_SUCCESS},
    {30, 30, 0x0f7f8000, BUMBAZEEL_SUCCESS},
    {31, 31, 0x0fff8000, BUMBAZEEL_SUCCESS},
    {31, OLD_BLOCKS, 0x0fff8000, BUMBAZEEL_SUCCESS},
    {31, 30, 0, BUMBAZEEL_NO_ROOM},
    {20, 10, 0, BUMBAZEEL_NO_ROOM},
    {1, 0, 0, BUMBAZEEL_NO_ROOM},
    {32, OLD_BLOCKS, 0, BUMBAZEEL_OUT_OF_REACH},
    {32, 32, 0, BUMBAZEEL_OUT_OF_REACH},
    {32, 31, 0, BUMBAZEEL_OUT_OF_REACH},
    {33, 10, 0, BUMBAZEEL_OUT_OF_REACH},
    {32, 0, 0, BUMBAZEEL_OUT_OF_REACH},
};

/* A whole old run of a row, of area 2 or of area 4: header, header and blocks together, header, on 08h the acknowledgement; or the ending that its
 * plan has. */
static void old_run(uint8_t page, uint8_t area, size_t row) {
    const uint32_t blocks = old_rows[row].blocks, room = old_rows[row].room;
    const uint8_t caps = (uint8_t)(area == 4 ? OLD_CAPS : OLD_CAPS & ~BUMBAZEEL_DA4S);
    const uint32_t header = 0x007f8000u | page, middle = old_rows[row].middle | page, due[4] = {header, blocks ? middle : header, header, 0x007f0008};
    const struct wanted w = {page, area, caps, 0, (size_t)room * BLOCK};
    const uint32_t last[4] = {0, area == 4 ? 0 : blocks, area == 4 ? 1 : blocks + 1, area == 4 ? blocks : 0};
    struct old_drive d;
    struct bumbazeel_state state;
    struct bumbazeel_next next;
    struct bumbazeel_planned planned;
    uint8_t buffer[32 * BLOCK], copy[OLD_BLOCKS * BLOCK], identifier_class;
    uint32_t sent = 0, commands = 1;
    begin_old(&d, caps, last);
    memset(copy, 0x55, sizeof copy);
    expect(bumbazeel_setup(page, 0, area, caps, 0, 2, w.room, &state, &next) == BUMBAZEEL_SEND && state.caps == caps && state.chunk == 0);
    if (old_rows[row].answer == BUMBAZEEL_SUCCESS)
        commands = 2 + (blocks > 0) + (page == 0x08);
    while (next.kind == BUMBAZEEL_SEND && sent < commands) {
        const uint32_t is = sent > 0 && blocks == 0 ? sent + 1 : sent; /* which of the four */
        const size_t bytes = ((next.words[0] >> 16) + 1) * 4;
        expect(next.words[0] == due[is] && all(next.words + 1, 4 * sizeof *next.words, 0) && bytes <= sizeof buffer);
        expect((state.phase == BUMBAZEEL_AWAITS_CHUNK) == (is == 1) && state.at == (is == 1));
        expect(bumbazeel_command(&d.record, d.host, sizeof d.host, d.controller, sizeof d.controller, last, NULL, 0, NULL, 0, next.words, buffer,
                                 sizeof buffer, &identifier_class) == BUMBAZEEL_SUCCESS);
        if (sent == 0)
            expect(plan(w, buffer, BLOCK, &planned) == old_rows[row].answer && planned.chunks == (commands > 1 && blocks > 0));
        bumbazeel_step(&state, 1, buffer, bytes, copy, w.room, &next);
        sent++;
    }
    expect(next.kind == BUMBAZEEL_ENDED && next.answer == old_rows[row].answer && next.newer == 0 && next.bad_field == 0);
    expect(sent == commands && next.count == commands && state.phase == BUMBAZEEL_AWAITS_NOTHING && state.attempt == 1);
    const size_t kept = next.answer == BUMBAZEEL_SUCCESS ? (size_t)blocks * BLOCK : 0;
    expect(!memcmp(copy, page == 0x07 ? d.host : d.controller, kept) && all(copy + kept, w.room - kept, 0));
    expect(all(copy + w.room, sizeof copy - w.room, 0x55));
    expect((d.record.available == 0) == (page == 0x08 && commands > 1)); /* acknowledged */
}

/* A header of an old drive with data available, and areas of so many blocks. */
static void show_old(uint8_t *header, uint8_t page, uint8_t blocks, uint8_t generation) {
    memset(header, 0, BLOCK);
    header[0] = page;
    header[8] = header[10] = header[12] = blocks;
    header[page == 0x07 ? 381 : 383] = generation;
    header[382] = 1;
}

/* An old run of two blocks after its first header and its middle command, which brought a header and blocks of B1h, or was refused. */
static struct bumbazeel_state after_middle(uint8_t page, uint32_t attempts, const uint8_t *middle, uint8_t *copy, size_t room) {
    struct bumbazeel_state state;
    struct bumbazeel_next next;
    uint8_t data[3 * BLOCK];
    expect(bumbazeel_setup(page, 0, 3, BUMBAZEEL_TELEMETRY, 0, attempts, room, &state, &next) == BUMBAZEEL_SEND);
    show_old(data, page, 2, 5);
    expect(bumbazeel_step(&state, 1, data, BLOCK, copy, room, &next) == BUMBAZEEL_SEND && next.words[0] == (0x017f8000u | page));
    memset(data, 0xb1, sizeof data);
    if (middle)
        memcpy(data, middle, BLOCK);
    expect(bumbazeel_step(&state, middle != NULL, data, middle ? sizeof data : 0, copy, room, &next) == BUMBAZEEL_SEND);
    expect(next.words[0] == (0x007f8000u | page) && all(next.words + 1, 4 * sizeof *next.words, 0) && state.at == 0 && state.attempt == 1);
    expect(state.phase == (middle ? BUMBAZEEL_AWAITS_CLOSING_HEADER : BUMBAZEEL_AWAITS_CLOSING_HEADER_AFTER_REFUSAL));
    return state;
}

/* The middle command's own header is not judged, whatever it shows: the closing one decides. */
static void old_middles(uint8_t page) {
    for (int kind = 0; kind < 8; kind++) {
        struct bumbazeel_state state;
        struct bumbazeel_next next;
        uint8_t middle[BLOCK], closing[BLOCK], copy[4 * BLOCK];
        show_old(middle, page, 2, (uint8_t)(kind == 1 ? 6 : 5));
        if (kind == 2)
            middle[382] = 0;
        else if (kind == 3)
            middle[382] = 2;
        else if (kind == 4)
            middle[0] = (uint8_t)(15 - page);
        else if (kind == 5)
            show_old(middle, page, 32, 5);
        else if (kind > 5)
            memset(middle, kind == 6 ? 0 : 0xff, sizeof middle);
        memset(copy, 0x55, sizeof copy);
        state = after_middle(page, 2, middle, copy, sizeof copy);
        expect(all(copy, 2 * BLOCK, 0xb1) && all(copy + 2 * BLOCK, 2 * BLOCK, 0x55));
        show_old(closing, page, 2, 5);
        if (page == 0x08) {
            expect(bumbazeel_step(&state, 1, closing, BLOCK, copy, sizeof copy, &next) == BUMBAZEEL_SEND && next.words[0] == 0x007f0008);
            expect(state.phase == BUMBAZEEL_AWAITS_ACKNOWLEDGEMENT && all(next.words + 1, 4 * sizeof *next.words, 0));
        }
        const uint8_t newer = page == 0x08 && kind % 2;
        closing[383] = (uint8_t)(closing[383] + newer);
        expect(bumbazeel_step(&state, 1, closing, BLOCK, copy, sizeof copy, &next) == BUMBAZEEL_ENDED);
        expect(next.answer == BUMBAZEEL_SUCCESS && next.newer == newer && next.count == (page == 0x08 ? 4 : 3));
        expect(all(copy, 2 * BLOCK, 0xb1) && all(copy + 2 * BLOCK, 2 * BLOCK, 0));
    }
}

/* What an old run of two blocks makes of a closing header: attempts allowed, the header's areas and generation, the ending after a middle command
 * that came and after a refused one, or 255 for a command on both pages and 254 for the acknowledgement or success; and the attempt then. */
static const struct {
    uint32_t attempts;
    uint8_t blocks, generation, came, refused;
    uint32_t attempt;
} old_closings[] = {
    {2, 2, 5, 254, 12, 1}, /* a match */
    {1, 2, 5, 254, 12, 1},
    {2, 2, 6, 255, 255, 2}, /* mismatches */
    {2, 3, 5, 255, 255, 2},
    {1, 2, 6, 9, 9, 1},
    {1, 31, 5, 9, 9, 1},
    {1, 32, 6, 9, 9, 1},
    {2, 31, 5, 8, 8, 2}, /* larger than the copy */
    {2, 32, 5, 19, 19, 2}, /* past block 31 too */
    {2, 32, 6, 19, 19, 2},
    {2, 255, 6, 19, 19, 2},
};

static void old_later(uint8_t page) {
    for (size_t i = 0; i < 2 * sizeof old_closings / sizeof *old_closings; i++) {
        const uint8_t came = i % 2 == 0, due = came ? old_closings[i / 2].came : old_closings[i / 2].refused;
        struct bumbazeel_state state;
        struct bumbazeel_next next;
        uint8_t header[BLOCK], copy[4 * BLOCK];
        memset(copy, 0x55, sizeof copy);
        show_old(header, page, 2, 5);
        state = after_middle(page, old_closings[i / 2].attempts, came ? header : NULL, copy, sizeof copy);
        show_old(header, page, old_closings[i / 2].blocks, old_closings[i / 2].generation);
        const uint8_t kind = bumbazeel_step(&state, 1, header, BLOCK, copy, sizeof copy, &next);
        expect(state.attempt == old_closings[i / 2].attempt && next.bad_field == 0);
        if (due == 255) {
            const uint32_t dwords = 128 * (old_closings[i / 2].blocks + 1u) - 1;
            expect(kind == BUMBAZEEL_SEND && state.phase == BUMBAZEEL_AWAITS_CHUNK && state.at == 1);
            expect(next.words[0] == (dwords << 16 | 0x8000u | page) && all(next.words + 1, 4 * sizeof *next.words, 0));
        } else if (due == 254)
            expect(page == 0x07 ? kind == BUMBAZEEL_ENDED && !next.answer : kind == BUMBAZEEL_SEND && next.words[0] == 0x007f0008);
        else {
            expect(kind == BUMBAZEEL_ENDED && next.answer == due && next.count == 3 && all(copy, sizeof copy, 0));
            expect(state.generation == 5 && state.last[2] == 2 && state.last[3] == 0); /* of the header that opened the attempt */
        }
    }
}

/* Capabilities, wanted area and chunk, and setup's and a plan's answer: with extended data a chunk of 1 to 8,192, without it none. */
static const struct {
    uint8_t caps, area;
    uint32_t chunk;
    uint8_t answer;
} old_setups[] = {
    {BUMBAZEEL_TELEMETRY, 3, 0, 0},
    {BUMBAZEEL_TELEMETRY, 3, 1, 13},
    {BUMBAZEEL_TELEMETRY, 3, 31, 13},
    {BUMBAZEEL_TELEMETRY, 3, 8192, 13},
    {BUMBAZEEL_TELEMETRY, 3, 0xffffffff, 13},
    {BUMBAZEEL_TELEMETRY | BUMBAZEEL_EXTENDED, 3, 0, 13},
    {BUMBAZEEL_TELEMETRY | BUMBAZEEL_EXTENDED, 3, 1, 0},
    {BUMBAZEEL_TELEMETRY | BUMBAZEEL_EXTENDED, 3, 8192, 0},
    {BUMBAZEEL_TELEMETRY | BUMBAZEEL_EXTENDED, 3, 8193, 13},
    {0, 3, 0, 13},
    {BUMBAZEEL_EXTENDED, 3, 1, 13},
    {32, 3, 0, 13},
    {32 | BUMBAZEEL_TELEMETRY, 3, 0, 13},
    {BUMBAZEEL_TELEMETRY, 4, 0, 6},
    {BUMBAZEEL_TELEMETRY | BUMBAZEEL_DA4S, 4, 0, 6},
    {BUMBAZEEL_TELEMETRY | BUMBAZEEL_ETDAS, 4, 0, 6},
    {BUMBAZEEL_TELEMETRY | BUMBAZEEL_DA4S | BUMBAZEEL_ETDAS, 4, 0, 0},
    {BUMBAZEEL_TELEMETRY | BUMBAZEEL_DA4S | BUMBAZEEL_ETDAS, 4, 1, 13},
    {BUMBAZEEL_TELEMETRY | BUMBAZEEL_DA4S | BUMBAZEEL_MCDAS, 3, 0, 0},
};

static void old_limits(void) {
    uint8_t header[BLOCK];
    struct bumbazeel_planned planned;
    show_old(header, 0x07, 0, 1);
    for (size_t i = 0; i < sizeof old_setups / sizeof *old_setups; i++) {
        const struct wanted w = {0x07, old_setups[i].area, old_setups[i].caps, old_setups[i].chunk, BLOCK};
        const uint8_t answer = old_setups[i].answer, kept = (uint8_t)(w.caps > 31 ? 0 : w.caps);
        struct bumbazeel_state state;
        struct bumbazeel_next next;
        memset(&state, 0xff, sizeof state);
        expect(bumbazeel_setup(w.page, 1, w.area, w.caps, w.chunk, 1, w.room, &state, &next) == (answer ? BUMBAZEEL_REFUSED : BUMBAZEEL_SEND));
        expect(next.answer == answer && state.caps == kept && state.chunk == w.chunk && state.phase == (answer ? 5 : 0) && state.count == !answer);
        if (!answer)
            expect(next.words[0] == (w.caps & BUMBAZEEL_MCDAS ? 0x007f8107u | w.area << 9 : 0x007f8107u));
        expect(plan(w, header, BLOCK, &planned) == answer && planned.chunks == 0);
    }
}

/* A step on this state, with as many bytes of data, is refused with this answer, and leaves state and copy. */
static void old_refused(struct bumbazeel_state before, uint8_t ok, size_t bytes, uint8_t answer) {
    static uint8_t data[(OLD_BLOCKS + 1) * BLOCK], copy[OLD_BLOCKS * BLOCK];
    struct bumbazeel_state state = before;
    struct bumbazeel_next next;
    memset(copy, 0x55, sizeof copy);
    memset(&next, 0xff, sizeof next);
    expect(bumbazeel_step(&state, ok, data, bytes, copy, sizeof copy, &next) == BUMBAZEEL_REFUSED && next.answer == answer);
    expect(!memcmp(&state, &before, sizeof state) && all(copy, sizeof copy, 0x55));
    expect(next.newer == 0 && next.bad_field == 0 && next.count == 0 && all(next.words, sizeof next.words, 0));
}

/* States of an old run: 13 where the area is past block 31, whatever is awaited, where the chunk starts at any block but 1, and where it has a
 * chunk or its capabilities have extended data; 15 where the middle command does not bring header and blocks. */
static void old_states(uint8_t page) {
    static const uint32_t bad_starts[] = {0, 2, 3, 31, 32, 0xffffffff};
    struct bumbazeel_state fine, state;
    struct bumbazeel_next next;
    uint8_t header[BLOCK], copy[OLD_BLOCKS * BLOCK];
    expect(bumbazeel_setup(page, 0, 3, BUMBAZEEL_TELEMETRY, 0, 2, sizeof copy, &fine, &next) == BUMBAZEEL_SEND);
    show_old(header, page, 31, 5);
    expect(bumbazeel_step(&fine, 1, header, BLOCK, copy, sizeof copy, &next) == BUMBAZEEL_SEND && fine.at == 1 && fine.last[2] == 31);
    for (size_t i = 0; i < sizeof bad_starts / sizeof *bad_starts; i++) {
        state = fine;
        state.at = bad_starts[i];
        old_refused(state, 1, 32 * BLOCK, BUMBAZEEL_BAD_SETUP);
        old_refused(state, 0, 0, BUMBAZEEL_BAD_SETUP);
    }
    for (uint8_t phase = 0; phase < 6; phase++) {
        const uint8_t ended = phase == BUMBAZEEL_AWAITS_NOTHING;
        state = fine;
        state.phase = phase;
        state.at = phase == BUMBAZEEL_AWAITS_CHUNK;
        state.last[2] = 32;
        old_refused(state, 0, 0, ended ? BUMBAZEEL_ALREADY_ENDED : BUMBAZEEL_BAD_SETUP);
        old_refused(state, 1, phase == BUMBAZEEL_AWAITS_CHUNK ? 33 * BLOCK : BLOCK, ended ? BUMBAZEEL_ALREADY_ENDED : BUMBAZEEL_BAD_SETUP);
        state.last[2] = 31;
        state.chunk = 31;
        old_refused(state, 0, 0, ended ? BUMBAZEEL_ALREADY_ENDED : BUMBAZEEL_BAD_SETUP);
        state.chunk = 0;
        state.caps |= BUMBAZEEL_EXTENDED;
        old_refused(state, 0, 0, ended ? BUMBAZEEL_ALREADY_ENDED : BUMBAZEEL_BAD_SETUP);
    }
    state = fine;
    state.last[2] = 0;
    old_refused(state, 1, BLOCK, BUMBAZEEL_BAD_SETUP);
    for (size_t blocks = 0; blocks <= OLD_BLOCKS; blocks++)
        if (blocks != 32)
            old_refused(fine, 1, blocks * BLOCK, BUMBAZEEL_DOES_NOT_FIT);
    old_refused(fine, 1, 32 * BLOCK - 1, BUMBAZEEL_DOES_NOT_FIT);
    old_refused(fine, 1, 32 * BLOCK + 1, BUMBAZEEL_DOES_NOT_FIT);
    old_refused(fine, 0, 32 * BLOCK, BUMBAZEEL_DOES_NOT_FIT);
    expect(bumbazeel_step(&fine, 0, NULL, 0, copy, sizeof copy, &next) == BUMBAZEEL_SEND);
    expect(fine.phase == BUMBAZEEL_AWAITS_CLOSING_HEADER_AFTER_REFUSAL && fine.at == 0);
}

/* 13, 6, 7, 11, 19, 8, 0 of a plan without extended data: all is wrong at first, and is mended in this order. */
static void old_order(void) {
    struct wanted w = {0x08, 4, OLD_CAPS & ~BUMBAZEEL_ETDAS, 1, 10 * BLOCK};
    struct bumbazeel_planned planned;
    uint8_t header[BLOCK];
    show_blocks(header, 0x08, 32);
    header[381] = 3; /* scope */
    header[382] = 0;
    expect(plan(w, header, BLOCK, &planned) == BUMBAZEEL_BAD_SETUP);
    w.chunk = 0;
    expect(plan(w, header, BLOCK, &planned) == BUMBAZEEL_NO_AREA_4);
    w.caps = OLD_CAPS;
    expect(plan(w, header, BLOCK, &planned) == BUMBAZEEL_BAD_HEADER && planned.bad_field == BUMBAZEEL_FIELD_SCOPE);
    header[381] = 2;
    expect(plan(w, header, BLOCK, &planned) == BUMBAZEEL_NOTHING);
    header[382] = 1;
    expect(plan(w, header, BLOCK, &planned) == BUMBAZEEL_OUT_OF_REACH);
    w.room = BUMBAZEEL_MOST_ROOM;
    expect(plan(w, header, BLOCK, &planned) == BUMBAZEEL_OUT_OF_REACH);
    show_blocks(header, 0x08, 31);
    w.room = 10 * BLOCK;
    expect(plan(w, header, BLOCK, &planned) == BUMBAZEEL_NO_ROOM);
    w.room = 31 * BLOCK;
    expect(plan(w, header, BLOCK, &planned) == BUMBAZEEL_SUCCESS && planned.chunks == 1 && planned.last[3] == 31 && planned.page == 0x08);
    w.caps |= BUMBAZEEL_EXTENDED;
    w.chunk = 8192;
    w.room = BUMBAZEEL_MOST_ROOM;
    show_blocks(header, 0x08, 1048576);
    expect(plan(w, header, BLOCK, &planned) == BUMBAZEEL_SUCCESS && planned.chunks == 128); /* all of it is in reach */
}

static void old_runs(void) {
    for (uint8_t page = 0x07; page <= 0x08; page++) {
        for (size_t row = 0; row < sizeof old_rows / sizeof *old_rows; row++) {
            old_run(page, 2, row);
            if (old_rows[row].blocks) /* 08h shows data only where area 3 has a block, and then area 4 has one */
                old_run(page, 4, row);
        }
        old_middles(page);
        old_later(page);
        old_states(page);
    }
    old_limits();
    old_order();
}

/* ---- the month's sheet */

static const uint64_t MOST_TOTAL = 18446744073709551615u;

/* The endings that a run has, in the order of a sheet's runs. */
static const uint8_t run_endings[8] = {0, 7, 8, 9, 10, 11, 12, 19};

/* A sheet with no run entered, as bytes. */
static const uint8_t no_runs[104] = {
    0x42, 0x5a, 0x53, 0x48, 0x45, 0x45, 0x54, 0x31, /* the mark, "BZSHEET1" */
    0x00, 0x00, 0x00, 0x00, 0x00, 0x00, 0x00, 0x00,
    0x00, 0x00, 0x00, 0x00, 0x00, 0x00, 0x00, 0x00,
    0x00, 0x00, 0x00, 0x00, 0x00, 0x00, 0x00, 0x00,
    0x00, 0x00, 0x00, 0x00, 0x00, 0x00, 0x00, 0x00,
    0x00, 0x00, 0x00, 0x00, 0x00, 0x00, 0x00, 0x00,
    0x00, 0x00, 0x00, 0x00, 0x00, 0x00, 0x00, 0x00,
    0x00, 0x00, 0x00, 0x00, 0x00, 0x00, 0x00, 0x00,
    0x00, 0x00, 0x00, 0x00, 0x00, 0x00, 0x00, 0x00,
    0x00, 0x00, 0x00, 0x00, 0x00, 0x00, 0x00, 0x00,
    0x00, 0x00, 0x00, 0x00, 0x00, 0x00, 0x00, 0x00,
    0x00, 0x00, 0x00, 0x00, 0x00, 0x00, 0x00, 0x00,
    0x42, 0x5a, 0x53, 0x48, 0x45, 0x45, 0x54, 0x31, /* the check */
};

/* The sheet of these five runs, as bytes. */
static const struct run {
    uint8_t ending;
    uint64_t blocks, commands, failed;
} five_runs[5] = {{0, 7, 6, 0}, {9, 0, 21, 5}, {0, 0x0102030405060708, 258, 1}, {19, 0, 1, 0}, {0, 0, 2, 0}};
static const uint8_t five_runs_bytes[104] = {
    0x42, 0x5a, 0x53, 0x48, 0x45, 0x45, 0x54, 0x31, /* the mark */
    0x03, 0x00, 0x00, 0x00, 0x00, 0x00, 0x00, 0x00, /* runs that ended with 0 */
    0x00, 0x00, 0x00, 0x00, 0x00, 0x00, 0x00, 0x00, /* 7 */
    0x00, 0x00, 0x00, 0x00, 0x00, 0x00, 0x00, 0x00, /* 8 */
    0x01, 0x00, 0x00, 0x00, 0x00, 0x00, 0x00, 0x00, /* 9 */
    0x00, 0x00, 0x00, 0x00, 0x00, 0x00, 0x00, 0x00, /* 10 */
    0x00, 0x00, 0x00, 0x00, 0x00, 0x00, 0x00, 0x00, /* 11 */
    0x00, 0x00, 0x00, 0x00, 0x00, 0x00, 0x00, 0x00, /* 12 */
    0x01, 0x00, 0x00, 0x00, 0x00, 0x00, 0x00, 0x00, /* 19 */
    0x0f, 0x07, 0x06, 0x05, 0x04, 0x03, 0x02, 0x01, /* blocks kept */
    0x20, 0x01, 0x00, 0x00, 0x00, 0x00, 0x00, 0x00, /* commands sent */
    0x06, 0x00, 0x00, 0x00, 0x00, 0x00, 0x00, 0x00, /* failed attempts */
    0x7c, 0x62, 0x59, 0x4d, 0x49, 0x48, 0x56, 0x32, /* the check */
};

static struct run run_of(uint8_t ending, uint64_t blocks, uint64_t commands, uint64_t failed) {
    struct run run = {ending, blocks, commands, failed};
    return run;
}

static struct bumbazeel_sheet sheet_from(const uint8_t bytes[104]) {
    struct bumbazeel_sheet sheet;
    memcpy(&sheet, bytes, sizeof sheet);
    return sheet;
}

/* Makes the check fit the other bytes. */
static void mend(struct bumbazeel_sheet *sheet) {
    const uint8_t *bytes = (const uint8_t *)sheet;
    sheet->check = 0;
    for (int i = 0; i < 96; i++)
        sheet->check += (uint64_t)bytes[i] << i % 8 * 8;
}

/* A sheet with these runs of every ending and these other totals. */
static struct bumbazeel_sheet totals(uint64_t runs, uint64_t blocks, uint64_t commands, uint64_t failed) {
    struct bumbazeel_sheet sheet = sheet_from(no_runs);
    for (int i = 0; i < 8; i++)
        sheet.runs[i] = runs;
    sheet.blocks = blocks;
    sheet.commands = commands;
    sheet.failed = failed;
    mend(&sheet);
    return sheet;
}

static int same_sheet(struct bumbazeel_sheet one, struct bumbazeel_sheet other) { return !memcmp(&one, &other, sizeof one); }

/* Enters a run, which gets this answer. With 13 and 20 the sheet is as it was. */
static int entered(struct bumbazeel_sheet *sheet, struct run run, uint8_t answer) {
    const struct bumbazeel_sheet before = *sheet;
    return bumbazeel_enter(sheet, run.ending, run.blocks, run.commands, run.failed) == answer && (!answer || same_sheet(*sheet, before));
}

/* Adds a sheet to another, which gets this answer, and stays. With 13 and 20 the other is as it was. */
static int added(struct bumbazeel_sheet *sheet, struct bumbazeel_sheet other, uint8_t answer) {
    const struct bumbazeel_sheet before = *sheet, lent = other;
    return bumbazeel_add(sheet, &other) == answer && (!answer || same_sheet(*sheet, before)) && same_sheet(other, lent);
}

/* Asks for a sheet's mean, which gets this answer, and is whole and rest or, with `given` 0, zeros. The sheet stays. */
static int has_mean(struct bumbazeel_sheet sheet, uint8_t answer, uint8_t given, uint64_t whole, uint64_t rest) {
    const struct bumbazeel_sheet before = sheet;
    struct bumbazeel_mean mean;
    memset(&mean, 0xff, sizeof mean);
    return bumbazeel_mean(&sheet, &mean) == answer && mean.given == given && all(mean.zero, sizeof mean.zero, 0) && mean.whole == whole &&
           mean.rest == rest && same_sheet(sheet, before);
}

/* A damaged sheet gets 13 wherever it is lent. */
static int is_damaged(struct bumbazeel_sheet sheet) {
    struct bumbazeel_sheet intact = sheet_from(five_runs_bytes);
    return entered(&sheet, five_runs[0], 13) && added(&sheet, intact, 13) && added(&intact, sheet, 13) && has_mean(sheet, 13, 0, 0, 0);
}

static int is_intact(struct bumbazeel_sheet sheet) {
    struct bumbazeel_sheet none = sheet_from(no_runs);
    return added(&none, sheet, 0) && same_sheet(none, sheet);
}

/* Every order of the five runs gives the same bytes, and so do two sheets that they are divided between. */
static void sheet_bytes(void) {
    struct bumbazeel_sheet sheet;
    memset(&sheet, 0xff, sizeof sheet);
    bumbazeel_new_sheet(&sheet);
    expect(!memcmp(&sheet, no_runs, sizeof no_runs) && is_intact(sheet) && has_mean(sheet, 0, 0, 0, 0));
    for (int order = 0; order < 3125; order++) {
        int places = 0;
        for (int i = 0, rest = order; i < 5; i++, rest /= 5)
            places |= 1 << rest % 5;
        if (places != 31)
            continue; /* a run would be entered twice */
        struct bumbazeel_sheet one = sheet_from(no_runs), other = one;
        bumbazeel_new_sheet(&sheet);
        for (int i = 0, rest = order; i < 5; i++, rest /= 5) {
            expect(entered(&sheet, five_runs[rest % 5], 0));
            expect(entered(i < order % 4 ? &one : &other, five_runs[rest % 5], 0));
        }
        expect(!memcmp(&sheet, five_runs_bytes, sizeof five_runs_bytes));
        expect(added(&one, other, 0) && !memcmp(&one, five_runs_bytes, sizeof five_runs_bytes));
    }
    expect(sheet.runs[0] == 3 && sheet.runs[3] == 1 && sheet.runs[7] == 1 && sheet.blocks == 0x010203040506070f);
    expect(sheet.commands == 288 && sheet.failed == 6 && has_mean(sheet, 0, 1, 24207953263460954u, 1));
}

/* Eight endings are entered, each at its place. Any other is 13, and so are blocks with any other than 0, also where a total is full. */
static void sheet_endings(void) {
    for (int ending = 0, place = 0; ending < 256; ending++) {
        const int is_one = place < 8 && run_endings[place] == ending;
        const struct run run = {(uint8_t)ending, 0, 4, 2}, with_blocks = {(uint8_t)ending, 9, 4, 2};
        const struct run most = {(uint8_t)ending, MOST_TOTAL, MOST_TOTAL, MOST_TOTAL};
        struct bumbazeel_sheet sheet = sheet_from(no_runs), want = sheet, full = totals(MOST_TOTAL, MOST_TOTAL, MOST_TOTAL, MOST_TOTAL);
        expect(entered(&sheet, run, is_one ? 0 : 13));
        if (is_one) {
            want.runs[place++] = 1;
            want.commands = 4;
            want.failed = 2;
            mend(&want);
        }
        expect(same_sheet(sheet, want));
        expect(entered(&full, run, is_one ? 20 : 13) && entered(&full, most, ending ? 13 : 20));
        expect(entered(&sheet, with_blocks, ending ? 13 : 0) && sheet.blocks == (ending ? 0u : 9u));
    }
}

/* A total of 18,446,744,073,709,551,615 is taken, one more is 20, and nothing of the run is entered then. */
static void sheet_limits(void) {
    const uint64_t most = MOST_TOTAL;
    for (int place = 0; place < 8; place++) {
        const struct run run = {run_endings[place], 0, 0, 0};
        struct bumbazeel_sheet sheet = totals(most, most, most, most);
        sheet.runs[place] = most - 1;
        mend(&sheet);
        expect(entered(&sheet, run, 0) && same_sheet(sheet, totals(most, most, most, most)) && entered(&sheet, run, 20));
        sheet = totals(1, 0, 0, 0);
        sheet.runs[place] = most;
        mend(&sheet);
        expect(entered(&sheet, run, 20) && entered(&sheet, run_of(run_endings[(place + 1) % 8], 0, 0, 0), 0));
    }
    /* the numbers up to the limit, and one of them past it */
    static const uint64_t numbers[] = {0, 1, 2, 0x100000000, 0x8000000000000000, 0xfffffffffffffffe, 0xffffffffffffffff};
    for (size_t i = 0; i < sizeof numbers / sizeof *numbers; i++) {
        const uint64_t n = numbers[i], room = most - n;
        struct bumbazeel_sheet sheet = totals(1, n, n, n);
        if (n) {
            const struct run past[] = {{0, room + 1, room, room}, {0, room, room + 1, room}, {0, room, room, room + 1}, {0, room + 1, room + 1, room + 1},
                                       {12, 0, room + 1, 0},      {12, 0, 0, room + 1}};
            for (size_t j = 0; j < sizeof past / sizeof *past; j++)
                expect(entered(&sheet, past[j], 20));
            expect(entered(&sheet, run_of(12, room + 1, 0, 0), 13));
        }
        expect(entered(&sheet, run_of(0, room, room, room), 0));
        struct bumbazeel_sheet want = totals(1, most, most, most);
        want.runs[0] = 2;
        mend(&want);
        expect(same_sheet(sheet, want) && entered(&sheet, run_of(0, 0, 0, 0), 0));
    }
}

/* Additions at the limit of each of the eleven totals. */
static void sheet_additions(void) {
    const uint64_t most = MOST_TOTAL, half = most / 2;
    for (int total = 0; total < 11; total++) {
        const struct bumbazeel_sheet low = totals(half, half, half, half), high = totals(half + 1, half + 1, half + 1, half + 1);
        struct bumbazeel_sheet sheet = low, higher = high;
        uint64_t number = half + 2;
        memcpy((uint8_t *)&higher + 8 + 8 * total, &number, 8);
        mend(&higher);
        expect(added(&sheet, higher, 20) && added(&higher, low, 20));
        expect(added(&sheet, high, 0) && same_sheet(sheet, totals(most, most, most, most)));
        expect(added(&sheet, low, 20) && added(&sheet, sheet_from(no_runs), 0) && same_sheet(sheet, totals(most, most, most, most)));
    }
}

/* Each bit flipped is damage. With the check mended the mark still is, and totals that no runs have are. */
static void sheet_damage(void) {
    struct bumbazeel_sheet sheet;
    for (int bit = 0; bit < 832; bit++) {
        sheet = sheet_from(five_runs_bytes);
        ((uint8_t *)&sheet)[bit / 8] ^= (uint8_t)(1 << bit % 8);
        expect(is_damaged(sheet));
        mend(&sheet);
        expect(bit < 64 ? is_damaged(sheet) : is_intact(sheet));
    }
    for (int runs = 0; runs < 256; runs++) /* a set of endings that have a run */
        for (int numbers = 0; numbers < 8; numbers++) {
            sheet = totals(0, numbers & 1 ? MOST_TOTAL : 0, numbers & 2 ? 1 : 0, numbers & 4 ? 1 : 0);
            for (int place = 0; place < 8; place++)
                sheet.runs[place] = runs >> place & 1;
            mend(&sheet);
            const int damaged = (!(runs & 1) && numbers & 1) || (!runs && numbers);
            expect(damaged ? is_damaged(sheet) : is_intact(sheet));
        }
    memset(&sheet, 0, sizeof sheet);
    expect(is_damaged(sheet));
    sheet = sheet_from(five_runs_bytes); /* what keeps the sum is not seen */
    sheet.commands += 5;
    sheet.failed -= 5;
    expect(is_intact(sheet));
}

/* The mean is divided once, and a good run of no blocks counts in it. */
static void sheet_means(void) {
    static const struct {
        uint64_t blocks, good, whole, rest;
    } rows[] = {
        {0, 1, 0, 0},
        {0, 0xffffffffffffffff, 0, 0},
        {1, 1, 1, 0},
        {1, 2, 0, 1},
        {7, 2, 3, 1},
        {10, 3, 3, 1},
        {11, 3, 3, 2},
        {12, 3, 4, 0},
        {0xffffffffffffffff, 1, 0xffffffffffffffff, 0},
        {0xffffffffffffffff, 2, 0x7fffffffffffffff, 1},
        {0xffffffffffffffff, 10, 1844674407370955161, 5},
        {0xffffffffffffffff, 0xffffffff, 0x100000001, 0},
        {0xffffffffffffffff, 0x100000000, 0xffffffff, 0xffffffff},
        {0xffffffffffffffff, 0x8000000000000000, 1, 0x7fffffffffffffff},
        {0xffffffffffffffff, 0xfffffffffffffffe, 1, 1},
        {0xffffffffffffffff, 0xffffffffffffffff, 1, 0},
        {0xfffffffffffffffe, 0xffffffffffffffff, 0, 0xfffffffffffffffe},
    };
    struct bumbazeel_sheet sheet;
    for (size_t i = 0; i < sizeof rows / sizeof *rows; i++) {
        sheet = totals(5, rows[i].blocks, 6, 7);
        sheet.runs[0] = rows[i].good;
        mend(&sheet);
        expect(has_mean(sheet, 0, 1, rows[i].whole, rows[i].rest));
    }
    sheet = totals(5, 0, 6, 7);
    sheet.runs[0] = 0;
    mend(&sheet);
    expect(has_mean(sheet, 0, 0, 0, 0));
    expect(entered(&sheet, run_of(0, 5, 3, 0), 0) && has_mean(sheet, 0, 1, 5, 0));
    expect(entered(&sheet, run_of(0, 0, 2, 0), 0) && has_mean(sheet, 0, 1, 2, 1));
}

static void sheets(void) {
    sheet_bytes();
    sheet_endings();
    sheet_limits();
    sheet_additions();
    sheet_damage();
    sheet_means();
}

int main(void) {
    numbers();
    words();
    fresh();
    controller();
    drops();
    field_bytes();
    for (uint8_t page = 0x07; page <= 0x08; page++) {
        faults(page, CAPS);
        faults(page, CAPS & ~BUMBAZEEL_ETDAS);
        faults(page, CAPS & ~BUMBAZEEL_DA4S);
        faults(page, OLD_CAPS);
        faults(page, OLD_CAPS & ~BUMBAZEEL_DA4S);
        plan_lists(page);
    }
    plan_order();
    endings();
    collection(0x07, 1, 4);
    collection(0x08, 0, 5);
    dropped_collection(1, 1, 5, 1); /* H D c1 c2! h h */
    dropped_collection(2, 1, 4, 0); /* H D c1 h h */
    dropped_collection(1, 3, 5, 0); /* H c1 c2 D h h */
    matches(0x07);
    matches(0x08);
    large();
    flags();
    limits();
    attempts();
    refused_setups();
    refused_steps();
    old_runs();
    sheets();
    if (failures)
        return 1;
    puts("boundary: ok");
    return 0;
}
