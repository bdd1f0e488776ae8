/* Calls every function of the boundary as an input's bytes say, and holds each call to the header file.
 *
 * One drive (record and two stores), one collection (state and copy) and one month's sheet live through an input. Whatever is lent stands in a slot: pages
 * between two that nobody may touch, at their front or rear edge as the input says, and a margin at the other side of it. Each slot has
 * an image of what it must hold, margin included. A call's rule brings the images up to date, and then every slot is compared with its
 * image, so a byte that changed where none may change is found.
 *
 * The library is not instrumented: the sanitizers watch this file and the C library alone, and the untouchable pages watch the proved
 * code. For the same reason each function's answers are counted where libFuzzer finds them: else it could not tell what is new to it.
 *
 * With -DREPLAY it is a program of its own that runs the files it is given and prints which answers each function gave. */
#define _GNU_SOURCE
#include "bumbazeel.h"

#include <stdbool.h>
#include <stdio.h>
#include <stdlib.h>
#include <string.h>
#include <sys/mman.h>

enum { BLOCK = BUMBAZEEL_BLOCK, REASON_BYTES = BUMBAZEEL_REASON, FEW_BLOCKS = 16, MOST_BLOCKS = 35, MOST = MOST_BLOCKS * BLOCK, MOST_CALLS = 64 };
enum { PAGE = 4096, MARGIN = 64, ROOM = MOST + PAGE }; /* of a slot */
enum { HEADER_07 = BUMBAZEEL_HOST_PAGE, HEADER_08 = BUMBAZEEL_CONTROLLER_PAGE, CREATE_BIT = 1 << 8, RAE_BIT = 1 << 15 };
enum { TOTALS = 11, RUNS = 8, MARK_BYTES = 8, CHECK_PLACE = 96 }; /* of a sheet */
static const uint64_t MOST_ATTEMPT_COMMANDS = 1048577, MOST_TOTAL = 18446744073709551615u;

static void broken(const char *test, int line) {
    fprintf(stderr, "fuzz.c:%d: does not hold: %s\n", line, test);
    abort();
}
#define must(test) ((test) ? (void)0 : broken(#test, __LINE__))

/* ---- what was reached */

/* A plan, a setup and a step are told apart by extended data: without it they are an old run's. The last four are whether an intact sheet had a mean,
 * and the fields that a plan, a first header and a later header had at fault. */
enum function {
    PLAN, OLD_PLAN, BUILD, SETUP, OLD_SETUP, STEP, OLD_STEP, FRESH, COMMAND, CAPTURE, DROP, ENTER, ADD, MEAN_ASKED, NUMBERS, MEAN_GIVEN, PLAN_FIELD,
    FIRST_FIELD, LATER_FIELD, FUNCTIONS
};
enum { VARIANTS = 8, ANSWERS = 32, SENDS = 16 }; /* a step that goes on counts as answer 16 */
__attribute__((section("__libfuzzer_extra_counters"))) static uint8_t reached[FUNCTIONS][VARIANTS][ANSWERS];

static void reach(enum function function, unsigned variant, unsigned answer) { reached[function][variant % VARIANTS][answer % ANSWERS] = 1; }

/* ---- the input */

/* Each call of these stands in a statement of its own where the order of two would be the compiler's choice. */
static const uint8_t *input;
static size_t left;

static uint8_t byte(void) {
    if (!left)
        return 0;
    left--;
    return *input++;
}

/* Mostly a number that small stores have room for, else one beside a limit, else one about block 31, else any. */
static uint32_t number(void) {
    static const uint32_t limits[] = {65535, 65536,  1048576,  1048577, 8191, 8192, 8193,       255,
                                      256,   257,    0xFFFFFF, 0x1000000, 512, 511,  536870912, 0xFFFFFFFF};
    uint8_t first = byte();
    if (first < 0xC0)
        return first % (FEW_BLOCKS + 2);
    if (first < 0xF0)
        return limits[first % (sizeof limits / sizeof *limits)];
    if (first < 0xF8)
        return BUMBAZEEL_REACH - 1 + first % 4;
    uint32_t any = 0;
    for (int i = 0; i < 4; i++)
        any = any << 8 | byte();
    return any;
}

/* A length of `bytes`, or now and then another one; never more than a slot holds. */
static size_t about(size_t bytes) {
    uint8_t change = byte();
    if (change >= 0xE0)
        bytes = change % 2 ? bytes + 1 + change / 2 % 8 : number() * (size_t)BLOCK;
    else if (change >= 0xC0)
        bytes = bytes < change % 32u ? 0 : bytes - change % 32u;
    return bytes < MOST ? bytes : MOST;
}

/* Bytes of some whole blocks, or now and then of a part: mostly of few, else of so many that an area past block 31 may have room. */
static size_t some_blocks(void) {
    uint8_t first = byte();
    return about((size_t)(first < 0xF0 ? first % (FEW_BLOCKS + 1) : MOST_BLOCKS - first % 8) * BLOCK);
}

static bool is_old(uint8_t caps) { return !(caps & BUMBAZEEL_EXTENDED); }

/* Blocks a command, mostly such that a setup takes: without extended data some even numbers are 0. */
static uint32_t chunk_for(uint8_t caps) {
    uint32_t chunk = number();
    return is_old(caps) && chunk < 8 && chunk % 2 == 0 ? 0 : chunk;
}

/* ---- slots */

enum which { RECORD, HOST, CONTROLLER, LAST, CANDIDATE, REASON, WORDS, BUFFER, CLASS, STATE, NEXT, DATA, COPY, PLANNED, SHEET, OTHER, MEAN, SLOTS };

static struct slot {
    uint8_t *pages, *lent;
    size_t bytes;
    bool rear; /* it stands at the rear edge, with the margin in front of it */
    _Alignas(8) uint8_t image[MOST + MARGIN];
} slots[SLOTS];
static uint8_t rear_edges; /* the slots' edges, by their numbers modulo 8 */

static void map_slots(void) {
    for (int i = 0; i < SLOTS; i++) {
        uint8_t *all = mmap(NULL, ROOM + 2 * PAGE, PROT_NONE, MAP_PRIVATE | MAP_ANONYMOUS, -1, 0);
        must(all != MAP_FAILED);
        slots[i].pages = all + PAGE;
        must(!mprotect(slots[i].pages, ROOM, PROT_READ | PROT_WRITE));
    }
}

/* What is lent and the margin: the part of a slot that has an image. */
static uint8_t *watched(const struct slot *s) { return s->rear ? s->pages + ROOM - s->bytes - MARGIN : s->pages; }

/* The image of what is lent. */
static void *image(enum which which) { return slots[which].image + (slots[which].rear ? MARGIN : 0); }

/* Makes the slot's image what the slot holds. */
static void settle(enum which which) { memcpy(slots[which].image, watched(&slots[which]), slots[which].bytes + MARGIN); }

/* Lends so many bytes at the slot's edge, all of this value. Without any the pointer may be NULL. */
static void *lend(enum which which, size_t bytes, uint8_t value) {
    struct slot *s = &slots[which];
    s->rear = rear_edges >> which % 8 & 1;
    s->bytes = bytes;
    memset(watched(s), 0xA5, bytes + MARGIN);
    s->lent = watched(s) + (s->rear ? MARGIN : 0);
    memset(s->lent, value, bytes);
    settle(which);
    if (!bytes && rear_edges & 0x80)
        s->lent = NULL;
    return s->lent;
}

/* Takes what was written as the function's result: it is judged by its value. */
static void accept_all(enum which which) { memcpy(image(which), slots[which].lent, slots[which].bytes); }

static void slots_are_as_they_must(void) {
    for (int i = 0; i < SLOTS; i++)
        must(!memcmp(watched(&slots[i]), slots[i].image, slots[i].bytes + MARGIN));
}

static bool zeros(const void *bytes, size_t count) {
    for (size_t i = 0; i < count; i++)
        if (((const uint8_t *)bytes)[i])
            return false;
    return true;
}

#define AS(type, which) ((type *)(void *)slots[which].lent)
#define THE_RECORD AS(struct bumbazeel_record, RECORD)
#define THE_STATE AS(struct bumbazeel_state, STATE)
#define THE_NEXT AS(struct bumbazeel_next, NEXT)
#define THE_PLANNED AS(struct bumbazeel_planned, PLANNED)
#define THE_SHEET AS(struct bumbazeel_sheet, SHEET)
#define THE_OTHER AS(struct bumbazeel_sheet, OTHER)
#define THE_MEAN AS(struct bumbazeel_mean, MEAN)

static uint32_t little_endian(const uint8_t *at, int bytes) { return bytes ? at[0] | little_endian(at + 1, bytes - 1) << 8 : 0; }

static bool last_blocks_keep_the_rule(const uint32_t last[4], bool da4s) {
    return last[0] <= last[1] && last[1] <= last[2] && last[2] <= BUMBAZEEL_LAST_OF_AREA_3 && last[3] <= BUMBAZEEL_LAST_OF_AREA_4 && (da4s ? last[3] >= last[2] : !last[3]) &&
           (!last[3] || last[2]);
}

/* ---- plan */

/* What a plan is asked for besides the header. */
struct wanted {
    uint8_t page, area, caps;
    uint32_t chunk;
    size_t room;
};

/* The plan that refuses the fewest headers of a page: of the greatest area that the capabilities allow, a block a command or without extended data
 * in one, into the largest copy. */
static struct wanted largest(uint8_t page, uint8_t caps) {
    bool area_4 = caps & BUMBAZEEL_DA4S && caps & BUMBAZEEL_ETDAS;
    return (struct wanted){page, area_4 ? 4 : 3, caps, !is_old(caps), BUMBAZEEL_MOST_ROOM};
}

/* Plans from what the slot for data holds. */
static uint8_t plan_into(struct bumbazeel_planned *planned, struct wanted w) {
    return bumbazeel_plan(w.page, w.area, w.caps, w.chunk, w.room, slots[DATA].lent, slots[DATA].bytes, planned);
}

/* Whether setup takes a chunk: 1 to 8,192 blocks, but none without extended data. */
static bool chunk_is_good(uint8_t caps, uint32_t chunk) { return is_old(caps) ? !chunk : chunk >= 1 && chunk <= BUMBAZEEL_MOST_BLOCKS; }

/* What setup's limits refuse: 13, then 6. Create and attempts have none here. */
static uint8_t refused_by_limits(struct wanted w) {
    if ((w.page != HEADER_07 && w.page != HEADER_08) || w.area < 1 || w.area > 4 || w.caps > 31 || !(w.caps & BUMBAZEEL_TELEMETRY) ||
        !chunk_is_good(w.caps, w.chunk) || w.room % BLOCK || w.room > BUMBAZEEL_MOST_ROOM)
        return BUMBAZEEL_BAD_SETUP;
    return w.area > largest(w.page, w.caps).area ? BUMBAZEEL_NO_AREA_4 : BUMBAZEEL_SUCCESS;
}

/* What a header of 512 bytes says. */
static struct bumbazeel_planned fields_of(const uint8_t *h, uint8_t page) {
    bool host = page == HEADER_07;
    struct bumbazeel_planned f = {.page = h[0], .scope = h[host ? 380 : 381], .host_generation = host ? h[381] : 0, .available = h[382],
                                  .controller_generation = h[383], .oui = little_endian(h + 5, 3)};
    for (int area = 0; area < 3; area++)
        f.last[area] = little_endian(h + 8 + 2 * area, 2);
    f.last[3] = little_endian(h + 16, 4);
    memcpy(f.reason, h + 384, REASON_BYTES);
    return f;
}

/* A plan that was not refused: its fields are the header's, which is a good one, and its chunks hold the wanted area, the last of them a part of
 * it too. Without extended data one does, of up to 31 blocks. */
static void plan_is_the_headers(struct wanted w) {
    const struct bumbazeel_planned *p = THE_PLANNED;
    struct bumbazeel_planned want = fields_of(slots[DATA].lent, w.page);
    uint64_t wanted = want.last[w.area - 1], chunks = p->chunks;
    want.chunks = p->chunks;
    must(slots[DATA].bytes == BLOCK && p->page == w.page && !memcmp(p, &want, sizeof want));
    must(last_blocks_keep_the_rule(p->last, w.caps & BUMBAZEEL_DA4S) && p->scope <= 2 && p->available <= 1);
    must(w.page == HEADER_07 || (p->available && p->last[2]));
    const uint32_t chunk = is_old(w.caps) ? BUMBAZEEL_REACH : w.chunk;
    must(chunks * chunk >= wanted && (wanted ? (chunks - 1) * chunk < wanted : !chunks) && (chunks <= 1 || !is_old(w.caps)));
}

/* Whether a field after the length is at fault, in a header of 512 bytes. */
static bool is_at_fault(uint8_t field, const uint8_t *h, uint8_t page, bool da4s) {
    uint32_t a1 = little_endian(h + 8, 2), a2 = little_endian(h + 10, 2), a3 = little_endian(h + 12, 2), a4 = little_endian(h + 16, 4);
    switch (field) {
    case BUMBAZEEL_FIELD_IDENTIFIER:
        return h[0] != page;
    case BUMBAZEEL_FIELD_AREA_2:
        return a2 < a1;
    case BUMBAZEEL_FIELD_AREA_3:
        return a3 < a2;
    case BUMBAZEEL_FIELD_AREA_4:
        return da4s ? a4 < a3 || a4 > BUMBAZEEL_LAST_OF_AREA_4 || (a4 && !a3) : a4 > 0;
    case BUMBAZEEL_FIELD_SCOPE:
        return h[page == HEADER_07 ? 380 : 381] > 2;
    case BUMBAZEEL_FIELD_AVAILABLE:
        return h[382] > 1;
    default:
        return page == HEADER_08 && h[382] == 1 && !a3;
    }
}

/* The first field at fault in what the slot for data holds, or none. */
static uint8_t first_at_fault(uint8_t page, bool da4s) {
    if (slots[DATA].bytes != BLOCK)
        return BUMBAZEEL_FIELD_LENGTH;
    for (uint8_t field = BUMBAZEEL_FIELD_IDENTIFIER; field <= BUMBAZEEL_FIELD_EMPTY; field++)
        if (is_at_fault(field, slots[DATA].lent, page, da4s))
            return field;
    return BUMBAZEEL_FIELD_NONE;
}

/* Which page it is, for what was reached. */
static unsigned page_variant(uint8_t page) { return page == HEADER_07 ? 1 : page == HEADER_08 ? 2 : 0; }

/* What is due of a plan: the first refusal that holds. *told is what goes with it. */
static uint8_t refusal_due(struct wanted w, struct bumbazeel_planned *told) {
    *told = (struct bumbazeel_planned){0};
    uint8_t by_limits = refused_by_limits(w);
    if (by_limits)
        return by_limits;
    told->bad_field = first_at_fault(w.page, w.caps & BUMBAZEEL_DA4S);
    told->bad_byte = bumbazeel_field_byte(w.page, told->bad_field);
    if (told->bad_field)
        return BUMBAZEEL_BAD_HEADER;
    const struct bumbazeel_planned shown = fields_of(slots[DATA].lent, w.page);
    if (w.page == HEADER_08 && !shown.available)
        return BUMBAZEEL_NOTHING;
    if (is_old(w.caps) && shown.last[w.area - 1] > BUMBAZEEL_REACH)
        return BUMBAZEEL_OUT_OF_REACH;
    return (uint64_t)shown.last[w.area - 1] * BLOCK > w.room ? BUMBAZEEL_NO_ROOM : BUMBAZEEL_SUCCESS;
}

/* A command that a drive without extended data takes: from offset 0, and the count in bits 27:16 of CDW10. */
static bool needs_no_extended_data(const uint32_t w[5]) { return !(w[0] >> 28) && zeros(w + 1, 4 * sizeof *w); }

/* Lets a collection with so many attempts take what the slot for data holds as its first header, and run on with nothing that disturbs it. Setup
 * refuses what the plan's limits do, the header is answered as the plan is, and then the planned chunks are sent: without extended data one, which
 * brings a header too that nobody looks at. The copy is their blocks and zeros. A copy that no slot would hold is set up alone. */
static void collection_is_as_planned(struct wanted w, uint8_t create, uint32_t attempts, uint8_t answer) {
    static const uint8_t nothing[MOST];
    static uint8_t copy[MOST], header_and_blocks[BLOCK + MOST];
    const uint8_t *data = is_old(w.caps) ? header_and_blocks : header_and_blocks + BLOCK;
    const uint8_t *h = slots[DATA].lent;
    const bool by_limits = answer == BUMBAZEEL_BAD_SETUP || answer == BUMBAZEEL_NO_AREA_4;
    const uint32_t chunks = THE_PLANNED->chunks;
    struct bumbazeel_state s;
    struct bumbazeel_next next;
    uint32_t sent = 0;
    memset(header_and_blocks, 0xFF, BLOCK);
    memset(header_and_blocks + BLOCK, 0x33, MOST);
    must(bumbazeel_setup(w.page, create, w.area, w.caps, w.chunk, attempts, w.room, &s, &next) == (by_limits ? BUMBAZEEL_REFUSED : BUMBAZEEL_SEND));
    must(next.answer == (by_limits ? answer : 0));
    if (by_limits || w.room > MOST)
        return;
    bumbazeel_step(&s, 1, h, slots[DATA].bytes, copy, w.room, &next);
    if (slots[DATA].bytes != BLOCK) {
        must(answer == BUMBAZEEL_BAD_HEADER && next.kind == BUMBAZEEL_REFUSED && next.answer == BUMBAZEEL_DOES_NOT_FIT);
        return;
    }
    must(next.kind == (answer ? BUMBAZEEL_ENDED : BUMBAZEEL_SEND) && next.answer == answer && next.bad_field == THE_PLANNED->bad_field);
    while (next.kind == BUMBAZEEL_SEND) {
        bool chunk = s.phase == BUMBAZEEL_AWAITS_CHUNK;
        size_t bytes = 4 * ((size_t)(next.words[0] >> 16 | next.words[1] << 16) + 1);
        sent += chunk;
        must(sent <= chunks && bytes <= MOST && (!is_old(w.caps) || needs_no_extended_data(next.words)));
        bumbazeel_step(&s, 1, chunk ? data : h, bytes, copy, w.room, &next);
    }
    const size_t kept = answer ? 0 : (size_t)s.last[w.area - 1] * BLOCK;
    must(!memcmp(copy, header_and_blocks + BLOCK, kept) && !memcmp(copy + kept, nothing, w.room - kept));
    must(next.kind == BUMBAZEEL_ENDED && next.answer == answer && sent == chunks);
    must(next.count == (answer ? 1 : 2 + (uint64_t)chunks + (w.page == HEADER_08)));
}

/* Plans from what the slot for data holds, and compares the plan with collections. */
static uint8_t plan(struct wanted w) {
    struct bumbazeel_planned told;
    lend(PLANNED, sizeof told, 0xEE);
    uint8_t answer = plan_into(THE_PLANNED, w);
    must(answer == refusal_due(w, &told));
    if (answer)
        must(!memcmp(THE_PLANNED, &told, sizeof told));
    else
        plan_is_the_headers(w);
    accept_all(PLANNED);
    slots_are_as_they_must();
    reach(is_old(w.caps) ? OLD_PLAN : PLAN, page_variant(w.page), answer);
    reach(PLAN_FIELD, page_variant(w.page), THE_PLANNED->bad_field);
    collection_is_as_planned(w, 0, BUMBAZEEL_MOST_ATTEMPTS, answer);
    collection_is_as_planned(w, w.page != HEADER_08, 1, answer);
    slots_are_as_they_must();
    return answer;
}

/* Two bytes for the last block of areas 1 to 3, four for area 4's. */
static void put_last_block(uint8_t *header, int area, uint32_t last) {
    int at = area == 3 ? 16 : 8 + 2 * area;
    for (int i = 0; i < (area == 3 ? 4 : 2); i++)
        header[at + i] = (uint8_t)(last >> 8 * i);
}

/* A header as the input says, good ones and bad ones. */
static void make_header(uint8_t page) {
    uint8_t *h = lend(DATA, BLOCK, 0);
    uint8_t shape = byte();
    uint32_t before = 0;
    h[0] = shape & 1 ? byte() : page;
    for (int area = 0; area < 4; area++) {
        uint32_t last = number() + (shape & 2 ? 0 : before);
        put_last_block(h, area, last);
        before = last;
    }
    h[380] = shape & 4 ? byte() : 1;
    for (int at = 381; at < 385; at++)
        h[at] = shape & 8 ? byte() : byte() & 1;
    settle(DATA);
}

/* The largest plan, or one with other arguments as the input says. */
static void plan_of_anything(void) {
    uint8_t page = byte() % 16, what = byte();
    if (what & 1)
        make_header(page);
    else
        lend(DATA, about(BLOCK), what & 2 ? (uint8_t)~page : page);
    uint8_t shape = byte(), caps = (shape & 1 ? 31 : 31 & ~BUMBAZEEL_DA4S) & ~(shape & 2 ? BUMBAZEEL_ETDAS : 0);
    if (shape & 4)
        page = byte();
    if (shape & 8)
        caps = byte();
    struct wanted w = largest(page, caps);
    if (shape & 0x10)
        w.area = byte() % 8;
    if (shape & 0x20)
        w.chunk = chunk_for(caps);
    if (shape & 0xC0)
        w.room = number() * (size_t)(shape & 0x40 ? BLOCK : 1);
    plan(w);
}

/* ---- command builder and numbers */

static void build(void) {
    uint8_t page = byte(), create = byte() & 1, mcda = byte() % 8, rae = byte() & 1;
    uint32_t offset = number(), blocks = number();
    uint32_t *w = lend(WORDS, 5 * sizeof *w, 0xEE);
    uint8_t answer = bumbazeel_words(page, create, mcda, rae, offset, blocks, w);
    must(answer == BUMBAZEEL_SUCCESS || answer == BUMBAZEEL_BAD_SETUP);
    if (answer)
        must(zeros(w, 5 * sizeof *w));
    else
        must((w[0] & 0xFFFF) == (page | (uint32_t)create << 8 | (uint32_t)mcda << 9 | (uint32_t)rae << 15) &&
             (w[0] >> 16 | w[1] << 16) + 1 == blocks * (BLOCK / 4) && w[2] == offset * BLOCK && !w[3] && !w[4]);
    accept_all(WORDS);
    slots_are_as_they_must();
    reach(BUILD, 0, answer);
}

static void numbers(void) {
    uint8_t any = byte(), class = bumbazeel_class(any);
    const uint16_t status = bumbazeel_status(any), starts[256] = {0, 0, 0, 10, 12, 16, any == HEADER_07 ? 380 : 381, 382, 12};
    must(class <= BUMBAZEEL_CLASS_RESERVED);
    for (int field = 0; field < 256; field++)
        must(bumbazeel_field_byte(any, (uint8_t)field) == starts[field]);
    must(status == (any == 0 ? 0x0000 : any == 1 ? 0x0002 : any == 2 ? 0x0109 : 0xFFFF));
    slots_are_as_they_must();
    reach(NUMBERS, 0, class);
}

/* ---- the drive */

/* Whether record and stores agree. Answer 4 says so, and only a change from outside can change it. */
static enum { UNKNOWN, AGREE, DISAGREE } agreement;

static void judge_agreement(uint8_t answer) {
    bool disagree = answer == BUMBAZEEL_DISAGREE;
    must(agreement == UNKNOWN || disagree == (agreement == DISAGREE));
    agreement = disagree ? DISAGREE : AGREE;
}

static void fresh(void) {
    uint8_t caps = byte(), host_scope = byte() % 4, controller_scope = byte() % 4;
    caps = caps < 0xF0 ? caps % 32 : caps;
    uint32_t oui = number();
    struct bumbazeel_record *r = lend(RECORD, sizeof *r, 0xEE), want = {0};
    uint8_t answer = bumbazeel_fresh(caps, oui, host_scope, controller_scope, r);
    must(answer == BUMBAZEEL_SUCCESS || answer == BUMBAZEEL_DISAGREE);
    if (!answer) {
        want.caps = caps;
        want.oui = oui;
        want.host_scope = host_scope;
        want.controller_scope = controller_scope;
    }
    must(!memcmp(r, &want, sizeof want));
    accept_all(RECORD);
    slots_are_as_they_must();
    agreement = answer ? DISAGREE : AGREE;
    reach(FRESH, 0, answer);
}

static void fill_last(uint32_t last[4]) {
    uint8_t shape = byte();
    uint32_t before = 0;
    for (int area = 0; area < 4; area++) {
        last[area] = shape < 0xD0 ? before + byte() % 4 : shape < 0xE0 ? before + byte() % MOST_BLOCKS : number();
        before = last[area];
    }
}

/* A record filled in by hand. */
static void fill_record(void) {
    struct bumbazeel_record *r = lend(RECORD, sizeof *r, 0);
    r->caps = byte() % 32;
    r->host_scope = byte() % 3;
    r->controller_scope = byte() % 3;
    r->host_generation = byte();
    r->controller_generation = byte();
    r->available = byte() % 3;
    r->notice = byte() % 3;
    r->oui = number();
    fill_last(r->host_last);
    if (r->available)
        fill_last(r->controller_last);
    memset(r->host_reason, byte(), REASON_BYTES);
    memset(r->controller_reason, byte(), REASON_BYTES);
    settle(RECORD);
    agreement = UNKNOWN;
}

static void damage_record(void) {
    uint32_t at = byte();
    at = (at << 8 | byte()) % (uint32_t)sizeof(struct bumbazeel_record);
    slots[RECORD].lent[at] = byte();
    settle(RECORD);
    agreement = UNKNOWN;
}

static void change_stores(void) {
    size_t host = some_blocks();
    size_t controller = some_blocks();
    lend(HOST, host, 0x11);
    lend(CONTROLLER, controller, 0x22);
    agreement = UNKNOWN;
}

/* A candidate, mostly one that a controller takes. Its blocks differ. */
static void make_candidate(void) {
    uint32_t *last = lend(LAST, 4 * sizeof *last, 0);
    fill_last(last);
    settle(LAST);
    uint32_t blocks = last[3] < MOST_BLOCKS ? last[3] : MOST_BLOCKS;
    uint8_t first = byte();
    lend(CANDIDATE, about((size_t)blocks * BLOCK), first);
    for (size_t i = 0; i < slots[CANDIDATE].bytes; i++)
        slots[CANDIDATE].lent[i] = (uint8_t)(first + i / BLOCK);
    settle(CANDIDATE);
    lend(REASON, about(REASON_BYTES), first);
}

static size_t transfer_bytes(const uint32_t w[5], bool extended) {
    return 4 * ((size_t)(extended ? w[0] >> 16 | (w[1] & 0xFFFF) << 16 : w[0] >> 16 & 0xFFF) + 1);
}

/* The store's first blocks become the candidate's, as far as the last blocks that were taken go. */
static void take_candidate(enum which store, const uint32_t taken[4], bool da4s) {
    const uint32_t *last = AS(uint32_t, LAST);
    size_t bytes = (size_t)(taken[3] > taken[2] ? taken[3] : taken[2]) * BLOCK;
    must(last_blocks_keep_the_rule(taken, da4s));
    for (int area = 0; area < 4; area++)
        must(taken[area] <= last[area]);
    must(bytes <= slots[store].bytes && slots[CANDIDATE].bytes == (size_t)last[3] * BLOCK && slots[REASON].bytes == REASON_BYTES);
    if (bytes)
        memcpy(image(store), slots[CANDIDATE].lent, bytes);
}

static void create(void) {
    struct bumbazeel_record *want = image(RECORD);
    take_candidate(HOST, THE_RECORD->host_last, want->caps & BUMBAZEEL_DA4S);
    memcpy(want->host_last, THE_RECORD->host_last, sizeof want->host_last);
    memcpy(want->host_reason, slots[REASON].lent, REASON_BYTES);
    want->host_generation++;
}

static void served_header_reads_back(const struct bumbazeel_record *shown, uint8_t page) {
    bool host = page == HEADER_07;
    memcpy(lend(DATA, BLOCK, 0), slots[BUFFER].lent, BLOCK);
    settle(DATA);
    uint8_t answer = plan(largest(page, shown->caps | BUMBAZEEL_EXTENDED | BUMBAZEEL_TELEMETRY));
    must(answer == (host || shown->available ? BUMBAZEEL_SUCCESS : BUMBAZEEL_NOTHING));
    const struct bumbazeel_planned f = fields_of(slots[DATA].lent, page);
    must(f.page == page && f.oui == shown->oui && f.scope == (host ? shown->host_scope : shown->controller_scope));
    must(f.host_generation == (host ? shown->host_generation : 0) && f.controller_generation == shown->controller_generation);
    must(f.available == shown->available);
    must(!memcmp(f.last, host ? shown->host_last : shown->controller_last, sizeof f.last));
    must(!memcmp(f.reason, host ? shown->host_reason : shown->controller_reason, REASON_BYTES));
    if (is_old(shown->caps))
        plan(largest(page, shown->caps));
}

/* What a command that succeeded may have changed, in its order: create, transfer, clearing. */
static void serve(const uint32_t w[5]) {
    struct bumbazeel_record *want = image(RECORD);
    uint8_t page = w[0] & 0xFF;
    enum which store = page == HEADER_07 ? HOST : CONTROLLER;
    uint64_t offset = w[2] | (uint64_t)w[3] << 32;
    size_t bytes = transfer_bytes(w, want->caps & BUMBAZEEL_EXTENDED);
    must((page == HEADER_07 || page == HEADER_08) && offset % BLOCK == 0 && bytes % BLOCK == 0 && bytes <= slots[BUFFER].bytes);
    if (page == HEADER_07 && w[0] & CREATE_BIT)
        create();
    const uint32_t *last = page == HEADER_07 ? want->host_last : want->controller_last;
    bool area_4 = want->caps & BUMBAZEEL_DA4S && want->caps & BUMBAZEEL_ETDAS;
    uint64_t size = BLOCK + (uint64_t)last[area_4 ? 3 : 2] * BLOCK;
    const struct bumbazeel_record shown = *want;
    must(offset <= size);
    for (size_t i = offset ? 0 : BLOCK; i < bytes; i++)
        ((uint8_t *)image(BUFFER))[i] = offset + i < size ? ((uint8_t *)image(store))[offset + i - BLOCK] : 0;
    if (page == HEADER_08 && !(w[0] & RAE_BIT)) {
        want->available = want->notice = 0;
        memset(want->controller_last, 0, sizeof want->controller_last);
    }
    if (!offset) {
        memcpy(image(BUFFER), slots[BUFFER].lent, BLOCK);
        served_header_reads_back(&shown, page);
    }
}

/* Which kind of command it is, for what was reached. */
static unsigned command_variant(const uint32_t w[5]) {
    uint8_t page = w[0] & 0xFF;
    return page == HEADER_07 ? (w[0] & CREATE_BIT ? 2 : 1) : page == HEADER_08 ? (w[0] & RAE_BIT ? 3 : 4) : 0;
}

/* Sends the drive the words in their slot, with a buffer in its own. */
static uint8_t command(void) {
    const uint32_t *w = AS(uint32_t, WORDS);
    uint8_t *class = lend(CLASS, 1, 0xEE);
    uint8_t answer = bumbazeel_command(THE_RECORD, slots[HOST].lent, slots[HOST].bytes, slots[CONTROLLER].lent, slots[CONTROLLER].bytes,
                                       AS(uint32_t, LAST), slots[CANDIDATE].lent, slots[CANDIDATE].bytes, slots[REASON].lent,
                                       slots[REASON].bytes, w, slots[BUFFER].lent, slots[BUFFER].bytes, class);
    must(answer <= BUMBAZEEL_BROKEN_CANDIDATE);
    must(*class == (answer == BUMBAZEEL_INVALID_LOG_PAGE ? bumbazeel_class(w[0] & 0xFF) : 0));
    accept_all(CLASS);
    judge_agreement(answer);
    reach(COMMAND, command_variant(w), answer);
    if (!answer)
        serve(w);
    slots_are_as_they_must();
    return answer;
}

static void make_words(void) {
    uint32_t *w = lend(WORDS, 5 * sizeof *w, 0);
    uint8_t shape = byte(), flags = byte();
    uint32_t dwords = number() * (BLOCK / 4) - 1, offset = number() * BLOCK;
    w[0] = (flags & 1 ? HEADER_08 : HEADER_07) | (flags >> 1 & 1u) << 8 | (flags >> 2 & 7u) << 9 | (flags >> 5 & 1u) << 15 | dwords << 16;
    w[1] = dwords >> 16;
    w[2] = offset;
    if (shape >= 0xC0)
        w[shape % 5] ^= number() << shape / 5 % 4 * 8;
    if (shape >= 0xF0)
        w[0] = (w[0] & ~0xFFu) | byte();
    settle(WORDS);
}

static void command_of_anything(void) {
    make_candidate();
    make_words();
    lend(BUFFER, about(transfer_bytes(AS(uint32_t, WORDS), true)), 0xBB);
    command();
}

static void capture(void) {
    make_candidate();
    uint8_t answer = bumbazeel_capture(THE_RECORD, slots[HOST].lent, slots[HOST].bytes, slots[CONTROLLER].lent, slots[CONTROLLER].bytes,
                                       AS(uint32_t, LAST), slots[CANDIDATE].lent, slots[CANDIDATE].bytes, slots[REASON].lent,
                                       slots[REASON].bytes);
    must(answer == BUMBAZEEL_SUCCESS || answer == BUMBAZEEL_DISAGREE || answer == BUMBAZEEL_BROKEN_CANDIDATE);
    judge_agreement(answer);
    if (!answer) {
        struct bumbazeel_record *want = image(RECORD);
        must(THE_RECORD->controller_last[2]);
        take_candidate(CONTROLLER, THE_RECORD->controller_last, want->caps & BUMBAZEEL_DA4S);
        memcpy(want->controller_last, THE_RECORD->controller_last, sizeof want->controller_last);
        memcpy(want->controller_reason, slots[REASON].lent, REASON_BYTES);
        want->controller_generation++;
        want->available = want->notice = 1;
    }
    slots_are_as_they_must();
    reach(CAPTURE, 0, answer);
}

/* A drop looks at both stores, and changes the host's part of the record alone. */
static void drop(void) {
    bool empty = zeros(THE_RECORD->host_last, sizeof THE_RECORD->host_last);
    uint8_t answer = bumbazeel_drop(THE_RECORD, slots[HOST].lent, slots[HOST].bytes, slots[CONTROLLER].lent, slots[CONTROLLER].bytes);
    must(answer == BUMBAZEEL_SUCCESS || answer == BUMBAZEEL_DISAGREE);
    judge_agreement(answer);
    if (!answer) {
        struct bumbazeel_record *want = image(RECORD);
        memset(want->host_last, 0, sizeof want->host_last);
        memset(want->host_reason, 0, REASON_BYTES);
    }
    slots_are_as_they_must();
    reach(DROP, empty, answer);
}

/* ---- the month's sheet */

/* The number of eight bytes, the lowest first. */
static uint64_t number_at(const uint8_t *bytes) {
    uint64_t number = 0;
    for (int i = 7; i >= 0; i--)
        number = number << 8 | bytes[i];
    return number;
}

static void put_number(uint8_t *bytes, uint64_t number) {
    for (int i = 0; i < 8; i++)
        bytes[i] = (uint8_t)(number >> 8 * i);
}

/* The check that is due: every byte before it, at its place in its number. */
static uint64_t check_due(const uint8_t *sheet) {
    uint64_t sum = 0;
    for (int i = 0; i < CHECK_PLACE; i++)
        sum += (uint64_t)sheet[i] << i % 8 * 8;
    return sum;
}

static const uint8_t *total_of(const uint8_t *sheet, int total) { return sheet + MARK_BYTES + 8 * total; }

/* Whether a sheet's bytes are none that are damaged. */
static bool sheet_is_intact(const uint8_t *sheet) {
    const bool no_run = zeros(total_of(sheet, 0), 8 * RUNS), no_good_run = zeros(total_of(sheet, 0), 8);
    return !memcmp(sheet, "BZSHEET1", MARK_BYTES) && number_at(sheet + CHECK_PLACE) == check_due(sheet) &&
           (!no_good_run || zeros(total_of(sheet, RUNS), 8)) && (!no_run || zeros(total_of(sheet, RUNS + 1), 16));
}

/* Adds these numbers to the totals of an intact sheet: 20, and nothing is changed, if one would pass the limit. */
static uint8_t add_all(uint8_t *sheet, const uint64_t numbers[TOTALS]) {
    for (int i = 0; i < TOTALS; i++)
        if (numbers[i] > MOST_TOTAL - number_at(total_of(sheet, i)))
            return BUMBAZEEL_TOTAL_FULL;
    for (int i = 0; i < TOTALS; i++)
        put_number(sheet + MARK_BYTES + 8 * i, number_at(total_of(sheet, i)) + numbers[i]);
    put_number(sheet + CHECK_PLACE, check_due(sheet));
    return BUMBAZEEL_SUCCESS;
}

/* A number of a run or a sheet: mostly a small one, or one as far below the limit, so that two fill a total or pass it. */
static uint64_t total(void) {
    const uint8_t first = byte();
    if (first < 0x80)
        return first % 8;
    if (first < 0xC0)
        return MOST_TOTAL - first % 8;
    if (first < 0xE0)
        return ((uint64_t)1 << 2 * (first % 32)) + first / 2 % 2;
    uint64_t any = 0;
    for (int i = 0; i < 8; i++)
        any = any << 8 | byte();
    return any;
}

static void begin_sheet(void) {
    static const uint8_t none[CHECK_PLACE - MARK_BYTES];
    bumbazeel_new_sheet(lend(SHEET, sizeof(struct bumbazeel_sheet), 0xEE));
    const uint8_t *sheet = slots[SHEET].lent;
    must(!memcmp(sheet, "BZSHEET1", MARK_BYTES) && !memcmp(sheet + MARK_BYTES, none, sizeof none) && !memcmp(sheet + CHECK_PLACE, "BZSHEET1", 8));
    accept_all(SHEET);
    slots_are_as_they_must();
}

/* A sheet as the input says: totals by the bits of two bytes, then whether mark and check are right. */
static void make_sheet(enum which which) {
    uint8_t *sheet = lend(which, sizeof(struct bumbazeel_sheet), 0);
    memcpy(sheet, "BZSHEET1", MARK_BYTES);
    unsigned shape = byte();
    shape |= (unsigned)byte() << 8;
    for (int i = 0; i < TOTALS; i++)
        if (shape >> i & 1)
            put_number(sheet + MARK_BYTES + 8 * i, total());
    if (shape >> 12 == 0xF)
        sheet[byte() % MARK_BYTES] ^= byte();
    put_number(sheet + CHECK_PLACE, check_due(sheet));
    if (shape >> 12 == 0xE)
        sheet[byte() % sizeof(struct bumbazeel_sheet)] ^= byte();
    settle(which);
}

static void fill_sheet(void) { make_sheet(SHEET); }

/* Changes a byte. The check may be mended after it. */
static void damage_sheet(void) {
    uint8_t *sheet = slots[SHEET].lent;
    const uint8_t at = byte();
    sheet[at % sizeof(struct bumbazeel_sheet)] = byte();
    if (at & 0x80)
        put_number(sheet + CHECK_PLACE, check_due(sheet));
    settle(SHEET);
}

/* The place among a sheet's runs of those with an ending, or RUNS if no run has it. */
static int place_of(uint8_t ending) {
    if (ending >= BUMBAZEEL_BAD_HEADER && ending <= BUMBAZEEL_BROKE_ITS_WORD)
        return 1 + ending - BUMBAZEEL_BAD_HEADER;
    return ending == BUMBAZEEL_SUCCESS ? 0 : ending == BUMBAZEEL_OUT_OF_REACH ? RUNS - 1 : RUNS;
}

/* Enters a run. It is as if the sheet of this one run were added. */
static uint8_t enter(uint8_t ending, uint64_t blocks, uint64_t commands, uint64_t failed) {
    const struct bumbazeel_sheet before = *THE_SHEET;
    const int place = place_of(ending);
    uint64_t numbers[TOTALS] = {0};
    uint8_t due = BUMBAZEEL_BAD_SETUP;
    if (sheet_is_intact(slots[SHEET].lent) && place < RUNS && (!blocks || ending == BUMBAZEEL_SUCCESS)) {
        numbers[place] = 1;
        numbers[RUNS] = blocks;
        numbers[RUNS + 1] = commands;
        numbers[RUNS + 2] = failed;
        due = add_all(image(SHEET), numbers);
    }
    const uint8_t answer = bumbazeel_enter(THE_SHEET, ending, blocks, commands, failed);
    must(answer == due);
    slots_are_as_they_must();
    reach(ENTER, (unsigned)place, answer);
    if (answer != BUMBAZEEL_BAD_SETUP) {
        struct bumbazeel_sheet one, sum = before;
        bumbazeel_new_sheet(&one);
        must(!bumbazeel_enter(&one, ending, blocks, commands, failed) && bumbazeel_add(&sum, &one) == answer && !memcmp(&sum, THE_SHEET, sizeof sum));
    }
    return answer;
}

static void enter_anything(void) {
    static const uint8_t endings[] = {0, 7, 8, 9, 10, 11, 12, 19, 0, 0, 0, 0, 6, 13, 20};
    const uint8_t what = byte(), ending = what < 0xF0 ? endings[what % sizeof endings] : byte();
    const uint64_t blocks = !ending || what & 0x80 ? total() : 0;
    const uint64_t commands = total();
    const uint64_t failed = total();
    enter(ending, blocks, commands, failed);
}

/* Adds another sheet. Either way round the answer and the sums are the same. */
static void add_sheets(void) {
    make_sheet(OTHER);
    const struct bumbazeel_sheet before = *THE_SHEET;
    struct bumbazeel_sheet sum = *THE_OTHER;
    const bool intact = sheet_is_intact(slots[SHEET].lent), other_intact = sheet_is_intact(slots[OTHER].lent);
    uint64_t numbers[TOTALS];
    for (int i = 0; i < TOTALS; i++)
        numbers[i] = number_at(total_of(slots[OTHER].lent, i));
    const uint8_t due = intact && other_intact ? add_all(image(SHEET), numbers) : BUMBAZEEL_BAD_SETUP;
    const uint8_t answer = bumbazeel_add(THE_SHEET, THE_OTHER);
    must(answer == due);
    slots_are_as_they_must();
    reach(ADD, intact + 2u * other_intact, answer);
    must(bumbazeel_add(&sum, &before) == answer && !memcmp(&sum, answer ? THE_OTHER : THE_SHEET, sizeof sum));
}

static void ask_mean(void) {
    const uint8_t *sheet = slots[SHEET].lent;
    const uint64_t good = number_at(total_of(sheet, 0)), blocks = number_at(total_of(sheet, RUNS));
    const bool intact = sheet_is_intact(sheet), given = intact && good;
    struct bumbazeel_mean *mean = lend(MEAN, sizeof *mean, 0xEE);
    const uint8_t answer = bumbazeel_mean(THE_SHEET, mean);
    must(answer == (intact ? BUMBAZEEL_SUCCESS : BUMBAZEEL_BAD_SETUP));
    must(mean->given == given && zeros(mean->zero, sizeof mean->zero));
    must(mean->whole == (given ? blocks / good : 0) && mean->rest == (given ? blocks % good : 0));
    accept_all(MEAN);
    slots_are_as_they_must();
    reach(MEAN_ASKED, 0, answer);
    if (intact)
        reach(MEAN_GIVEN, 0, given);
}

/* ---- the collection */

static bool untouched;      /* the state comes from setup, and only steps have changed it */
static uint64_t sent;       /* commands, since setup */
static uint32_t chunks;     /* of these, the chunks of this attempt */
static uint32_t chunks_due; /* by the plan from the header that opened it */

static bool attempts_are_good(uint32_t attempts) { return attempts >= 1 && attempts <= BUMBAZEEL_MOST_ATTEMPTS; }

/* Whether a state's commands are no more than its attempts allow, which takes 64 bits. */
static bool count_is_good(const struct bumbazeel_state *s) { return s->count <= 2 + s->attempts * MOST_ATTEMPT_COMMANDS; }

/* The next command is the one that the state awaits. */
static void command_is_awaited(void) {
    const struct bumbazeel_state *s = THE_STATE;
    const struct bumbazeel_next *next = THE_NEXT;
    uint32_t want[5];
    uint8_t creates = s->phase == BUMBAZEEL_AWAITS_FIRST_HEADER && s->create;
    bool chunk = s->phase == BUMBAZEEL_AWAITS_CHUNK, old = is_old(s->caps);
    uint32_t rest = chunk ? s->last[s->area - 1] - s->at + 1 : 1, blocks = old || rest < s->chunk ? rest : s->chunk, offset = s->at;
    if (chunk && old) { /* header and blocks together */
        must(s->at == 1 && s->last[s->area - 1] <= BUMBAZEEL_REACH);
        blocks++;
        offset = 0;
    }
    must(s->phase < BUMBAZEEL_AWAITS_NOTHING && chunk == (s->at > 0) && (!old || needs_no_extended_data(next->words)));
    must(!bumbazeel_words(s->page, creates, creates && s->caps & BUMBAZEEL_MCDAS ? s->area : 0, s->phase != BUMBAZEEL_AWAITS_ACKNOWLEDGEMENT, offset,
                          blocks, want));
    must(!memcmp(next->words, want, sizeof want) && !next->answer && !next->newer && !next->count);
    must(!untouched || (s->count == sent && count_is_good(s)));
}

static struct wanted wanted_by(const struct bumbazeel_state *s) { return (struct wanted){s->page, s->area, s->caps, s->chunk, s->room}; }

/* A header that opened an attempt, the first or a later one: as many chunks are due as a plan from it has. */
static void attempt_was_opened(const struct bumbazeel_state *before) {
    const struct bumbazeel_state *s = THE_STATE;
    struct bumbazeel_planned p;
    must(plan_into(&p, wanted_by(before)) == BUMBAZEEL_SUCCESS && !memcmp(s->last, p.last, sizeof p.last));
    must(s->phase == (p.chunks ? BUMBAZEEL_AWAITS_CHUNK : BUMBAZEEL_AWAITS_CLOSING_HEADER));
    chunks = 0;
    chunks_due = p.chunks;
}

/* Counts an attempt's chunks: all that were planned before the closing header, unless one is refused. */
static void count_chunks(void) {
    chunks += THE_STATE->phase == BUMBAZEEL_AWAITS_CHUNK;
    must(!untouched || chunks <= chunks_due);
    must(!untouched || THE_STATE->phase != BUMBAZEEL_AWAITS_CLOSING_HEADER || chunks == chunks_due);
}

static void setup(void) {
    uint8_t flags = byte(), caps = flags & 0x40 ? byte() % 40 : 31, page = flags & 0x80 ? byte() : HEADER_07 + (flags & 1);
    uint8_t area = flags >> 1 & 7;
    uint32_t chunk = chunk_for(caps), attempts = number();
    size_t room = flags & 0x20 ? number() : slots[COPY].bytes;
    lend(STATE, sizeof(struct bumbazeel_state), 0xEE);
    lend(NEXT, sizeof(struct bumbazeel_next), 0xEE);
    uint8_t kind = bumbazeel_setup(page, flags >> 4 & 1, area, caps, chunk, attempts, room, THE_STATE, THE_NEXT);
    must(kind == THE_NEXT->kind && !THE_NEXT->bad_field && zeros(THE_STATE->zero, 2));
    /* A plan from no bytes is refused by setup's limits or, where they are kept, by the length. */
    struct bumbazeel_planned planned;
    const uint8_t by_plan = bumbazeel_plan(page, area, caps, chunk, room, NULL, 0, &planned);
    const bool alone = !attempts_are_good(attempts) || (flags >> 4 & 1 && page == HEADER_08); /* what no plan is asked for */
    must(THE_NEXT->answer == (alone ? BUMBAZEEL_BAD_SETUP : by_plan == BUMBAZEEL_BAD_HEADER ? BUMBAZEEL_SUCCESS : by_plan));
    accept_all(STATE);
    accept_all(NEXT);
    slots_are_as_they_must();
    reach(is_old(caps) && caps <= 31 ? OLD_SETUP : SETUP, 0, kind == BUMBAZEEL_SEND ? SENDS : THE_NEXT->answer);
    untouched = true;
    sent = kind == BUMBAZEEL_SEND;
    if (kind == BUMBAZEEL_SEND) {
        must(THE_STATE->phase == BUMBAZEEL_AWAITS_FIRST_HEADER && THE_STATE->attempt == 1);
        command_is_awaited();
    } else {
        must(kind == BUMBAZEEL_REFUSED && (THE_NEXT->answer == BUMBAZEEL_BAD_SETUP || THE_NEXT->answer == BUMBAZEEL_NO_AREA_4));
        must(THE_STATE->phase == BUMBAZEEL_AWAITS_NOTHING && zeros(THE_NEXT->words, 20) && !THE_NEXT->newer && !THE_NEXT->count);
    }
}

/* Whether a state's area fits its copy, its chunk is one that setup takes, and an awaited one starts in the area. Without extended data the area is
 * up to block 31, and what is awaited starts at block 1. */
static bool area_is_good(const struct bumbazeel_state *s) {
    const uint32_t wanted = s->last[s->area - 1];
    const bool in_area = s->phase != BUMBAZEEL_AWAITS_CHUNK || (s->at >= 1 && s->at <= wanted), fits = (uint64_t)wanted * BLOCK <= s->room;
    const bool reached = wanted <= BUMBAZEEL_REACH && (s->phase != BUMBAZEEL_AWAITS_CHUNK || s->at == 1);
    return chunk_is_good(s->caps, s->chunk) && in_area && fits && (!is_old(s->caps) || reached);
}

/* Whether a state's bytes are none that are damaged. */
static bool is_intact(const struct bumbazeel_state *s) {
    return s->phase <= BUMBAZEEL_AWAITS_NOTHING && s->create <= 1 && s->caps <= 31 && zeros(s->zero, 2) &&
           (s->phase == BUMBAZEEL_AWAITS_CHUNK || !s->at);
}

static void step_was_refused(const struct bumbazeel_state *before) {
    const struct bumbazeel_next *next = THE_NEXT;
    must(next->answer >= BUMBAZEEL_BAD_SETUP && next->answer <= BUMBAZEEL_DOES_NOT_FIT);
    must((next->answer == BUMBAZEEL_ALREADY_ENDED) == (before->phase == BUMBAZEEL_AWAITS_NOTHING && is_intact(before)));
    must(zeros(next->words, 20) && !next->newer && !next->count);
    must(!untouched || next->answer == (before->phase == BUMBAZEEL_AWAITS_NOTHING ? BUMBAZEEL_ALREADY_ENDED : BUMBAZEEL_DOES_NOT_FIT));
    must(next->answer != BUMBAZEEL_DOES_NOT_FIT || (attempts_are_good(before->attempts) && count_is_good(before) && area_is_good(before)));
}

/* Where a header has its page's own generation. */
static int generation_place(uint8_t page) { return page == HEADER_07 ? 381 : 383; }

static void run_ended(const struct bumbazeel_state *before) {
    const struct bumbazeel_next *next = THE_NEXT;
    bool success = next->answer == BUMBAZEEL_SUCCESS;
    size_t kept = success ? (size_t)before->last[before->area - 1] * BLOCK : 0;
    must(success || (next->answer >= BUMBAZEEL_BAD_HEADER && next->answer <= BUMBAZEEL_BROKE_ITS_WORD) ||
         (next->answer == BUMBAZEEL_OUT_OF_REACH && is_old(before->caps)));
    must(THE_STATE->phase == BUMBAZEEL_AWAITS_NOTHING && zeros(next->words, 20) && next->newer <= (success && before->phase == BUMBAZEEL_AWAITS_ACKNOWLEDGEMENT));
    must(!untouched || before->phase != BUMBAZEEL_AWAITS_ACKNOWLEDGEMENT || before->page == HEADER_08);
    must(next->count == before->count && (!untouched || next->count == sent) && kept <= slots[COPY].bytes);
    must(THE_STATE->generation == before->generation && !memcmp(THE_STATE->last, before->last, sizeof before->last));
    if (success && before->phase == BUMBAZEEL_AWAITS_ACKNOWLEDGEMENT)
        must(next->newer == (slots[DATA].lent[generation_place(before->page)] != before->generation));
    if (slots[COPY].bytes)
        memset((uint8_t *)image(COPY) + kept, 0, slots[COPY].bytes - kept);
}

/* A first header is answered as a plan from it is. */
static void first_header_was_judged(const struct bumbazeel_state *before) {
    const struct bumbazeel_next *next = THE_NEXT;
    struct bumbazeel_planned p;
    must(next->answer == plan_into(&p, wanted_by(before)) && next->bad_field == p.bad_field);
    must(next->kind == (next->answer ? BUMBAZEEL_ENDED : BUMBAZEEL_SEND) && THE_STATE->attempt == before->attempt);
    if (!next->answer) {
        must(THE_STATE->generation == slots[DATA].lent[generation_place(before->page)]);
        attempt_was_opened(before);
    }
}

/* A header that does not match the attempt's opens the next one, if there is one and its area is in reach and the copy has room for it: 9, 19, 8. The
 * last two are the next attempt's. */
static void attempt_failed(const struct bumbazeel_state *before, const struct bumbazeel_planned *f, uint8_t generation) {
    const struct bumbazeel_state *s = THE_STATE;
    const struct bumbazeel_next *next = THE_NEXT;
    const uint32_t wanted = f->last[before->area - 1];
    const bool far = is_old(before->caps) && wanted > BUMBAZEEL_REACH, large = (uint64_t)wanted * BLOCK > before->room;
    const bool used_up = before->attempt == before->attempts;
    if (used_up || far || large) {
        must(next->kind == BUMBAZEEL_ENDED);
        must(next->answer == (used_up ? BUMBAZEEL_ATTEMPTS_USED_UP : far ? BUMBAZEEL_OUT_OF_REACH : BUMBAZEEL_NO_ROOM));
        must(s->attempt == before->attempt + !used_up);
    } else {
        must(next->kind == BUMBAZEEL_SEND && s->attempt == before->attempt + 1 && s->generation == generation &&
             !memcmp(s->last, f->last, sizeof s->last));
        attempt_was_opened(before);
    }
}

/* A later header matches by its generation and all four last blocks. */
static void later_header_was_judged(const struct bumbazeel_state *before) {
    const uint8_t *h = slots[DATA].lent;
    const struct bumbazeel_next *next = THE_NEXT;
    struct bumbazeel_planned f;
    bool host = before->page == HEADER_07;
    /* With extended data no area is out of reach, and all else is the same. */
    uint8_t generation = h[generation_place(before->page)], planned = plan_into(&f, largest(before->page, before->caps | BUMBAZEEL_EXTENDED));
    if (planned)
        must(next->answer == (planned == BUMBAZEEL_NOTHING ? BUMBAZEEL_WITHDRAWN : BUMBAZEEL_BAD_HEADER));
    else if (generation != before->generation || memcmp(f.last, before->last, sizeof f.last))
        attempt_failed(before, &f, generation);
    else if (before->phase == BUMBAZEEL_AWAITS_CLOSING_HEADER_AFTER_REFUSAL)
        must(next->answer == BUMBAZEEL_BROKE_ITS_WORD);
    else
        must(host ? next->kind == BUMBAZEEL_ENDED && !next->answer : THE_STATE->phase == BUMBAZEEL_AWAITS_ACKNOWLEDGEMENT);
}

/* Ending 7 has the field that a plan finds at fault in the same header, which is not its length, and nothing else has a field. An
 * acknowledgement is no header to be judged. */
static void field_is_the_plans(const struct bumbazeel_state *before) {
    const struct bumbazeel_next *next = THE_NEXT;
    const uint8_t field = next->bad_field;
    struct bumbazeel_planned f;
    must((field != BUMBAZEEL_FIELD_NONE) == (next->kind == BUMBAZEEL_ENDED && next->answer == BUMBAZEEL_BAD_HEADER));
    if (!field)
        return;
    must(plan_into(&f, largest(before->page, before->caps)) == BUMBAZEEL_BAD_HEADER);
    must(field == f.bad_field && field != BUMBAZEEL_FIELD_LENGTH && before->phase != BUMBAZEEL_AWAITS_ACKNOWLEDGEMENT);
    reach(before->phase == BUMBAZEEL_AWAITS_FIRST_HEADER ? FIRST_FIELD : LATER_FIELD, 2u * before->phase + (before->page == HEADER_08), field);
}

/* Lends the completion in the slot for data. */
static void step(uint8_t ok) {
    const struct bumbazeel_state before = *THE_STATE;
    lend(NEXT, sizeof(struct bumbazeel_next), 0xEE);
    uint8_t kind = bumbazeel_step(THE_STATE, ok, slots[DATA].lent, slots[DATA].bytes, slots[COPY].lent, slots[COPY].bytes, THE_NEXT);
    must(kind == THE_NEXT->kind && kind <= BUMBAZEEL_REFUSED);
    field_is_the_plans(&before);
    accept_all(NEXT);
    reach(is_old(before.caps) && before.caps <= 31 ? OLD_STEP : STEP, before.phase, kind == BUMBAZEEL_SEND ? SENDS : THE_NEXT->answer);
    if (kind == BUMBAZEEL_REFUSED) {
        step_was_refused(&before);
    } else {
        must(before.phase < BUMBAZEEL_AWAITS_NOTHING && (before.phase != BUMBAZEEL_AWAITS_CHUNK || kind == BUMBAZEEL_SEND));
        must(attempts_are_good(before.attempts) && count_is_good(&before) && area_is_good(&before));
        if (before.phase == BUMBAZEEL_AWAITS_CHUNK && ok) {
            const size_t header = is_old(before.caps) ? BLOCK : 0; /* which is not judged, and does not go into the copy */
            must(!header || slots[DATA].bytes == (before.last[before.area - 1] + 1) * BLOCK);
            memcpy((uint8_t *)image(COPY) + (size_t)(before.at - 1) * BLOCK, slots[DATA].lent + header, slots[DATA].bytes - header);
        }
        if (before.phase == BUMBAZEEL_AWAITS_CHUNK && !ok)
            must(THE_STATE->phase == BUMBAZEEL_AWAITS_CLOSING_HEADER_AFTER_REFUSAL);
        if (ok && before.phase == BUMBAZEEL_AWAITS_FIRST_HEADER)
            first_header_was_judged(&before);
        if (ok && (before.phase == BUMBAZEEL_AWAITS_CLOSING_HEADER || before.phase == BUMBAZEEL_AWAITS_CLOSING_HEADER_AFTER_REFUSAL))
            later_header_was_judged(&before);
        accept_all(STATE);
    }
    if (kind == BUMBAZEEL_SEND) {
        sent++;
        command_is_awaited();
        count_chunks();
    } else if (kind == BUMBAZEEL_ENDED) {
        run_ended(&before);
    }
    slots_are_as_they_must();
}

/* Lets the drive answer the command that is awaited, and steps with its completion. */
static void step_with_the_drive(void) {
    memcpy(lend(WORDS, sizeof THE_NEXT->words, 0), THE_NEXT->words, sizeof THE_NEXT->words);
    settle(WORDS);
    size_t bytes = transfer_bytes(AS(uint32_t, WORDS), true);
    lend(BUFFER, bytes < MOST ? bytes : MOST, 0xBB);
    bool ok = command() == BUMBAZEEL_SUCCESS;
    lend(DATA, ok ? slots[BUFFER].bytes : 0, 0);
    if (ok)
        memcpy(slots[DATA].lent, slots[BUFFER].lent, slots[BUFFER].bytes);
    settle(DATA);
    step(ok);
}

/* A header that shows what the attempt's showed, but for one byte that the input may change. */
static void make_matching_header(void) {
    const struct bumbazeel_state *s = THE_STATE;
    const int generation = generation_place(s->page), places[] = {8, 10, 12, 16, generation, 384, 382, 0};
    uint8_t *h = lend(DATA, BLOCK, 0);
    h[0] = s->page;
    for (int area = 0; area < 4; area++)
        put_last_block(h, area, s->last[area]);
    h[382] = 1;
    h[generation] = s->generation;
    int place = places[byte() % (sizeof places / sizeof *places)];
    h[place] = (uint8_t)(h[place] + byte());
    settle(DATA);
}

/* A completion as the input says. */
static void step_with_anything(void) {
    uint8_t what = byte();
    size_t awaited = transfer_bytes(THE_NEXT->words, true);
    if (what < 0x40)
        make_header(THE_STATE->page);
    else if (what < 0x60)
        make_matching_header();
    else if (what < 0xB0)
        lend(DATA, about(awaited < MOST ? awaited : MOST), what);
    else
        lend(DATA, what < 0xF0 ? 0 : byte(), 0);
    step(what < 0xB0 || what & 1);
}

/* Enters the collection that has ended, if only steps have changed its state: it has one of the endings that a sheet counts. */
static void enter_the_run(void) {
    const struct bumbazeel_state *s = THE_STATE;
    const uint8_t ending = THE_NEXT->answer;
    if (!untouched || THE_NEXT->kind != BUMBAZEEL_ENDED)
        return;
    const bool intact = sheet_is_intact(slots[SHEET].lent);
    const uint8_t answer = enter(ending, ending ? 0 : s->last[s->area - 1], THE_NEXT->count, s->attempt - (ending != BUMBAZEEL_ATTEMPTS_USED_UP));
    must((answer == BUMBAZEEL_BAD_SETUP) == !intact);
}

/* A collection from the drive, with whatever else happens between its commands. */
static void run(void) {
    setup();
    make_candidate();
    for (int i = 0; i < MOST_CALLS && THE_NEXT->kind == BUMBAZEEL_SEND; i++) {
        uint8_t happening = byte();
        if (happening >= 0xF0)
            step_with_anything();
        else if (happening >= 0xE0)
            command_of_anything();
        else if (happening >= 0xC0)
            capture();
        else if (happening >= 0xB0)
            drop();
        else
            step_with_the_drive();
    }
    enter_the_run();
}

static void damage_state(void) {
    size_t at = byte() % sizeof(struct bumbazeel_state);
    slots[STATE].lent[at] = byte();
    settle(STATE);
    untouched = false;
}

static void change_copy(void) { lend(COPY, some_blocks(), 0xCC); }

/* ---- an input */

static void (*const calls[])(void) = {
    run,   command_of_anything, capture, step_with_anything, fresh,         fill_record,  setup,       plan_of_anything,
    build, numbers,             damage_record,               change_stores, damage_state, change_copy,  drop,
    begin_sheet, fill_sheet, damage_sheet, enter_anything, add_sheets, ask_mean,
};

static void begin(void) {
    if (!slots[0].pages)
        map_slots();
    rear_edges = byte();
    for (int i = 0; i < SLOTS; i++)
        lend((enum which)i, 0, 0);
    agreement = UNKNOWN;
    untouched = false;
    lend(RECORD, sizeof(struct bumbazeel_record), 0);
    lend(STATE, sizeof(struct bumbazeel_state), 0);
    lend(NEXT, sizeof(struct bumbazeel_next), 0);
    lend(LAST, 4 * sizeof(uint32_t), 0);
    begin_sheet();
    change_stores();
    change_copy();
    fresh();
}

int LLVMFuzzerTestOneInput(const uint8_t *bytes, size_t count);
int LLVMFuzzerTestOneInput(const uint8_t *bytes, size_t count) {
    input = bytes;
    left = count;
    begin();
    for (int i = 0; i < MOST_CALLS && left; i++)
        calls[byte() % (sizeof calls / sizeof *calls)]();
    return 0;
}

#ifdef REPLAY
static void tell_reached(void) {
    static const char *const names[FUNCTIONS] = {
        "plan",  "old plan", "words",   "setup", "old setup", "step",            "old step",
        "fresh", "command",  "capture", "drop",  "enter",     "add",             "mean",
        "class", "mean given", "field of a plan", "field of a first header", "field of a later header",
    };
    for (int f = 0; f < FUNCTIONS; f++) {
        printf("%s:", names[f]);
        for (int a = 0; a < ANSWERS; a++) {
            bool any = false;
            for (int v = 0; v < VARIANTS; v++)
                any |= reached[f][v][a];
            if (any)
                printf(a == SENDS ? " send" : " %d", a);
        }
        puts("");
    }
}

int main(int count, char **files) {
    static uint8_t bytes[1 << 16];
    for (int i = 1; i < count; i++) {
        FILE *file = fopen(files[i], "rb");
        if (!file) {
            perror(files[i]);
            return 1;
        }
        LLVMFuzzerTestOneInput(bytes, fread(bytes, 1, sizeof bytes, file));
        fclose(file);
    }
    tell_reached();
    return 0;
}
#endif
