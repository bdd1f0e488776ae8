/* Bumbazeel across a plain C boundary: the proved telemetry bench for NVMe pages 07h and 08h.
 *
 * Every function is total: any numbers and any bytes give a named answer, and nobody is asked to check first. What a pointer must be
 * is what C's types say: a struct or an array of fixed length is there in full, and so are the bytes of each pointer with a length
 * (with a length of 0 the pointer may be NULL). What is written must not overlap anything else that is lent to the same call. No
 * function keeps a pointer, allocates, reads a clock or writes anywhere but where it says, so calls on different bytes may run in
 * different threads.
 *
 * A flag is a byte: 0 is no and anything else is yes. All structs are laid out with no padding but the named `zero` bytes, numbers
 * little-endian, as the offsets beside the fields say; a test holds the library to them. */
#ifndef BUMBAZEEL_H
#define BUMBAZEEL_H

#include <stddef.h>
#include <stdint.h>

#ifdef __cplusplus
extern "C" {
#define BUMBAZEEL_ASSERT(test, text) static_assert(test, text)
#else
#define BUMBAZEEL_ASSERT(test, text) _Static_assert(test, text)
#endif

/* ---- the version of this file and of the library that it belongs to */
#define BUMBAZEEL_VERSION_MAJOR 0
#define BUMBAZEEL_VERSION_MINOR 2
#define BUMBAZEEL_VERSION_PATCH 0

/* ---- the pages, and the limits that the functions hold their arguments to */
enum {
    BUMBAZEEL_HOST_PAGE = 0x07,         /* telemetry host-initiated */
    BUMBAZEEL_CONTROLLER_PAGE = 0x08,   /* telemetry controller-initiated */
    BUMBAZEEL_BLOCK = 512,              /* bytes of a block, and of the header */
    BUMBAZEEL_REASON = 128,             /* bytes of a reason */
    BUMBAZEEL_LAST_OF_AREA_3 = 65535,   /* the greatest last block of areas 1 to 3 */
    BUMBAZEEL_LAST_OF_AREA_4 = 1048576, /* and of area 4 */
    BUMBAZEEL_MOST_BLOCKS = 8192,       /* blocks of one command */
    BUMBAZEEL_REACH = 31,               /* the last block that a command without extended data reaches: 4,096 dwords from offset 0 */
    BUMBAZEEL_MOST_ATTEMPTS = 65535,    /* of a collection */
    BUMBAZEEL_MOST_ROOM = 536870912 /* bytes of a copy */
};

/* ---- answers; RULES.md (share/doc/bumbazeel) says when each is given */
enum {
    BUMBAZEEL_SUCCESS = 0,
    BUMBAZEEL_INVALID_FIELD = 1,     /* Invalid Field in Command (generic status 02h) */
    BUMBAZEEL_INVALID_LOG_PAGE = 2,  /* Invalid Log Page (command specific status 09h) */
    BUMBAZEEL_SHORT_BUFFER = 3,      /* transfer buffer shorter than the transfer */
    BUMBAZEEL_DISAGREE = 4,          /* record and lent stores disagree, or the record is damaged */
    BUMBAZEEL_BROKEN_CANDIDATE = 5,
    BUMBAZEEL_NO_AREA_4 = 6,         /* area 4 wanted without DA4S and ETDAS */
    BUMBAZEEL_BAD_HEADER = 7,
    BUMBAZEEL_NO_ROOM = 8,           /* wanted area larger than the copy */
    BUMBAZEEL_ATTEMPTS_USED_UP = 9,
    BUMBAZEEL_WITHDRAWN = 10,        /* an 08h header no longer shows data available */
    BUMBAZEEL_NOTHING = 11,          /* the first 08h header shows no data available */
    BUMBAZEEL_BROKE_ITS_WORD = 12,   /* the controller refused what it may not refuse */
    BUMBAZEEL_BAD_SETUP = 13,        /* bad setup, state, builder arguments, run or sheet */
    BUMBAZEEL_ALREADY_ENDED = 14,
    BUMBAZEEL_DOES_NOT_FIT = 15,     /* the completion does not fit the awaited command */
    BUMBAZEEL_OUT_OF_REACH = 19,     /* wanted area past block 31, without extended data */
    BUMBAZEEL_TOTAL_FULL = 20        /* a total of a sheet would pass 18,446,744,073,709,551,615 */
};

/* ---- what a controller can do: a byte of five bits; a byte over 31 is damaged */
enum {
    BUMBAZEEL_EXTENDED = 1,  /* LPA bit 2: extended data, so offsets and long transfers */
    BUMBAZEEL_TELEMETRY = 2, /* LPA bit 3: pages 07h and 08h */
    BUMBAZEEL_DA4S = 4,      /* LPA bit 6: area 4 supported */
    BUMBAZEEL_ETDAS = 8,     /* the host's yes to area 4 (Host Behavior Support) */
    BUMBAZEEL_MCDAS = 16     /* MCDA is honoured */
};

/* ---- identifier classes */
enum { BUMBAZEEL_CLASS_NAMED = 0, BUMBAZEEL_CLASS_ELSEWHERE = 1, BUMBAZEEL_CLASS_VENDOR = 2, BUMBAZEEL_CLASS_RESERVED = 3 };

/* ---- fields at fault in a bad header: the first of these, in this order, is told */
enum {
    BUMBAZEEL_FIELD_NONE = 0,       /* no field is told: the answer is not 7 */
    BUMBAZEEL_FIELD_LENGTH = 1,     /* the header has not 512 bytes */
    BUMBAZEEL_FIELD_IDENTIFIER = 2, /* the header's first byte is not the page asked for */
    BUMBAZEEL_FIELD_AREA_2 = 3,     /* the last block of area 2 is below that of area 1 */
    BUMBAZEEL_FIELD_AREA_3 = 4,     /* the last block of area 3 is below that of area 2 */
    BUMBAZEEL_FIELD_AREA_4 = 5,     /* the last block of area 4 is, without DA4S, not 0; with DA4S below that of area 3, over 1,048,576, or
                                       not 0 though area 3's is 0 */
    BUMBAZEEL_FIELD_SCOPE = 6,      /* the scope is over 2 */
    BUMBAZEEL_FIELD_AVAILABLE = 7,  /* TCDA is over 1 */
    BUMBAZEEL_FIELD_EMPTY = 8       /* available but empty: on 08h TCDA is 1, and the last block of area 3 is 0 */
};

/* What a plan gives. 160 bytes. With 0, what the header says and the number of chunks; with 7, the field at fault with its byte, and zeros; with
 * any other answer, zeros. */
struct bumbazeel_planned {
    uint8_t page;                  /*   0: 07h or 08h */
    uint8_t scope;                 /*   1 */
    uint8_t host_generation;       /*   2: 0 on 08h */
    uint8_t available;             /*   3: TCDA */
    uint8_t controller_generation; /*   4 */
    uint8_t bad_field;             /*   5: with 7 the field at fault, one of those above; else 0 */
    uint16_t bad_byte;             /*   6: and the byte of the header at which that field starts; else 0 */
    uint32_t oui;                  /*   8 */
    uint32_t last[4];              /*  12: last blocks of areas 1 to 4 */
    uint8_t reason[128];           /*  28 */
    uint32_t chunks;               /* 156: the commands that bring the wanted area: its blocks divided by `chunk`, rounded up; without
                                           extended data one, or none of an area without blocks */
};
BUMBAZEEL_ASSERT(sizeof(struct bumbazeel_planned) == 160, "struct bumbazeel_planned has 160 bytes");

/* What a collection awaits. */
enum {
    BUMBAZEEL_AWAITS_FIRST_HEADER = 0,
    BUMBAZEEL_AWAITS_CHUNK = 1,
    BUMBAZEEL_AWAITS_CLOSING_HEADER = 2,
    BUMBAZEEL_AWAITS_CLOSING_HEADER_AFTER_REFUSAL = 3, /* of a chunk */
    BUMBAZEEL_AWAITS_ACKNOWLEDGEMENT = 4,
    BUMBAZEEL_AWAITS_NOTHING = 5 /* it has ended */
};

/* A collection's state. 56 bytes. Lend it back as it was given. One that is damaged (`phase` over 5, `create` over 1, `caps` over 31, `zero`
 * not zero, or `at` not zero in a phase other than 1) gets 13. One that has ended (`phase` 5) gets 14, whatever its other numbers are. Any
 * other gets 13 where its numbers break setup's limits, `attempt` is not 1 to `attempts`, `count` is over 2 + `attempts` * 1,048,577 (which is up
 * to 68,718,493,697 and takes 64 bits), its area does not fit `room`, or its chunk starts outside the area; without extended data also where its
 * area is past block 31, or its chunk starts at any block but 1. */
struct bumbazeel_state {
    uint8_t phase;      /*  0: what is awaited, one of those above */
    uint8_t page;       /*  1 */
    uint8_t create;     /*  2: 0 or 1 */
    uint8_t area;       /*  3: wanted area */
    uint8_t caps;       /*  4 */
    uint8_t generation; /*  5: of the attempt's header */
    uint8_t zero[2];    /*  6 */
    uint32_t chunk;     /*  8: blocks a command; 0 without extended data */
    uint32_t attempts;  /* 12: attempts allowed */
    uint32_t attempt;   /* 16: this attempt, from 1 */
    uint32_t at;        /* 20: the block where the awaited chunk starts; 0 in any other phase */
    uint64_t room;      /* 24: bytes of the copy */
    uint64_t count;     /* 32: commands sent */
    uint32_t last[4];   /* 40: last blocks of the attempt's header */
};
BUMBAZEEL_ASSERT(sizeof(struct bumbazeel_state) == 56, "struct bumbazeel_state has 56 bytes");

/* What follows a setup or a step. 32 bytes. */
struct bumbazeel_next {
    uint8_t kind;      /*  0: one of the three kinds below */
    uint8_t answer;    /*  1: the number of an ending or a refusal; 0 with a command */
    uint8_t newer;     /*  2: 1 if an ending acknowledged a newer capture unread; a multiple of 256 newer ones is not seen */
    uint8_t bad_field; /*  3: with ending 7 the header's field at fault, BUMBAZEEL_FIELD_IDENTIFIER to BUMBAZEEL_FIELD_EMPTY; else 0 */
    uint32_t words[5]; /*  4: the next command, CDW10 to CDW14; zeros if there is none */
    uint64_t count;    /* 24: with an ending, the number of commands sent; else 0 */
};
BUMBAZEEL_ASSERT(sizeof(struct bumbazeel_next) == 32, "struct bumbazeel_next has 32 bytes");
enum { BUMBAZEEL_SEND = 0, BUMBAZEEL_ENDED = 1, BUMBAZEEL_REFUSED = 2 };

/* A controller's record. 300 bytes. Fill it in by hand or with bumbazeel_fresh; one that is damaged (`caps` over 31, `notice` over 1,
 * `zero` not zero) gets 4. */
struct bumbazeel_record {
    uint8_t caps;                  /*   0 */
    uint8_t host_scope;            /*   1: scope of 07h data, 1 or 2 */
    uint8_t controller_scope;      /*   2: scope of 08h data, 1 or 2 */
    uint8_t host_generation;       /*   3 */
    uint8_t controller_generation; /*   4 */
    uint8_t available;             /*   5: TCDA, 0 or 1 */
    uint8_t notice;                /*   6: the event that tells a host of 08h data, 0 or 1 */
    uint8_t zero;                  /*   7 */
    uint32_t oui;                  /*   8: 24 bits */
    uint32_t host_last[4];         /*  12: last blocks of 07h */
    uint32_t controller_last[4];   /*  28: last blocks of 08h */
    uint8_t host_reason[128];      /*  44 */
    uint8_t controller_reason[128];/* 172 */
};
BUMBAZEEL_ASSERT(sizeof(struct bumbazeel_record) == 300, "struct bumbazeel_record has 300 bytes");

/* A month's sheet: exact totals over finished runs. 104 bytes. Begin one with bumbazeel_new_sheet, and lend it back as it was given, from a
 * file too: its bytes are the same everywhere. One that is damaged gets 13: `mark` is another, `check` is not the sum, or no runs at all have
 * these totals (blocks without a good run; commands or failed attempts without a run). The check finds any one number changed; what somebody
 * changes with care is not found. */
struct bumbazeel_sheet {
    uint8_t mark[8];   /*   0: "BZSHEET1" */
    uint64_t runs[8];  /*   8: runs by ending: those that ended with 0, 7, 8, 9, 10, 11, 12 and 19 */
    uint64_t blocks;   /*  72: blocks kept */
    uint64_t commands; /*  80: commands sent */
    uint64_t failed;   /*  88: failed attempts */
    uint64_t check;    /*  96: the twelve numbers before it added, `mark` as one of them, modulo 2^64 */
};
BUMBAZEEL_ASSERT(sizeof(struct bumbazeel_sheet) == 104, "struct bumbazeel_sheet has 104 bytes");

/* The mean blocks a good run, divided once: `whole` and `rest` parts of as many as there are good runs. 24 bytes. */
struct bumbazeel_mean {
    uint8_t given;   /*  0: 1 if there is a mean, 0 if there is none: no run ended with 0 */
    uint8_t zero[7]; /*  1 */
    uint64_t whole;  /*  8: blocks = whole * runs[0] + rest */
    uint64_t rest;   /* 16: less than runs[0]; 0 if there is no mean */
};
BUMBAZEEL_ASSERT(sizeof(struct bumbazeel_mean) == 24, "struct bumbazeel_mean has 24 bytes");

/* ---- host side */

/* Checks a header of `bytes` bytes and plans a collection from it: of the wanted area, `chunk` blocks a command, into a copy of `room` bytes. The
 * answer is the first of these: 13 or 6, as bumbazeel_setup would refuse page, area, capabilities, `chunk` and `room`; 7: the header is bad, by
 * DA4S of `caps`; 11: an 08h header shows no data available; 19: without extended data, the wanted area is past block 31; 8: the wanted area is
 * larger than the copy; else 0. A collection answers its first header in the same way, and sends `chunks` chunks if nothing disturbs it. *planned
 * is always written. */
uint8_t bumbazeel_plan(uint8_t page, uint8_t area, uint8_t caps, uint32_t chunk, size_t room, const uint8_t *header, size_t bytes,
                       struct bumbazeel_planned *planned);

/* The byte at which a field, one of BUMBAZEEL_FIELD_LENGTH to BUMBAZEEL_FIELD_EMPTY, starts in a header of this page: 0 for the length and the
 * identifier; 10, 12 and 16 for the last blocks of areas 2 to 4; 380 on 07h and 381 on any other page for the scope; 382 for TCDA; 12 for
 * available but empty. Any other number gives 0. With ending 7 of a collection, ask it with the page that was set up and `bad_field` of *next. */
uint16_t bumbazeel_field_byte(uint8_t page, uint8_t field);

/* Builds the words of a Get Log Page: offset and length in blocks of 512 bytes, the header being block 0. 0: words are CDW10 to
 * CDW14. 13: words are zeros. */
uint8_t bumbazeel_words(uint8_t page, uint8_t create, uint8_t mcda, uint8_t rae, uint32_t offset, uint32_t blocks, uint32_t words[5]);

/* Begins a collection into a copy of `room` bytes. Answers next->kind: BUMBAZEEL_SEND with the first command, or BUMBAZEEL_REFUSED
 * with 13 or 6 and a state that has ended. *state and *next are written in both cases. `caps` over 31 is a bad setup, and none of its
 * bits is in the state. With extended data `chunk` blocks are read a command, 1 to BUMBAZEEL_MOST_BLOCKS. Without it no offset can be sent, so
 * `chunk` is 0, and one command reads header and blocks together, up to BUMBAZEEL_REACH. */
uint8_t bumbazeel_setup(uint8_t page, uint8_t create, uint8_t area, uint8_t caps, uint32_t chunk, uint32_t attempts, size_t room,
                        struct bumbazeel_state *state, struct bumbazeel_next *next);

/* Takes the completion of the awaited command: whether it succeeded, and its data (none with a refusal). A closing header matches
 * if its generation and all four last blocks are those of the header that opened the attempt, and then the copy stands. A generation is one
 * byte, so a multiple of 256 captures of the same areas between the two headers is not seen, and the copy may mix captures then; with at most
 * 255 in an attempt it never does, however many the whole run meets. Answers next->kind.
 * BUMBAZEEL_SEND: the next command is awaited, and a chunk that came was written to its place in the copy, of header and blocks together the
 * blocks alone; that header is not judged, the closing one decides. BUMBAZEEL_ENDED: with success
 * the copy holds the wanted area and zeros after it, else zeros alone. BUMBAZEEL_REFUSED: 14, 13 or 15; state and copy are as they
 * were. *next is always written. */
uint8_t bumbazeel_step(struct bumbazeel_state *state, uint8_t ok, const uint8_t *data, size_t bytes, uint8_t *copy, size_t room,
                       struct bumbazeel_next *next);

/* ---- controller side */

/* Writes a record before any capture. 0, or 4 if `caps`, the OUI or a scope is none that a controller has; then *record is zeros. */
uint8_t bumbazeel_fresh(uint8_t caps, uint32_t oui, uint8_t host_scope, uint8_t controller_scope, struct bumbazeel_record *record);

/* Answers a command of any five words. Both stores are lent; so is a candidate (`last`, `bytes`, `reason`), which is read at a create on
 * 07h alone. 0: the bytes asked for stand at the front of `buffer` and the rest of it stays; a create has taken the candidate into host
 * store and record before; a command on 08h without RAE has cleared the record's 08h page after. Any other answer leaves record, stores
 * and buffer as lent. *identifier_class is the class of the page identifier with answer 2, else 0. */
uint8_t bumbazeel_command(struct bumbazeel_record *record, uint8_t *host_store, size_t host_bytes, const uint8_t *controller_store,
                          size_t controller_bytes, const uint32_t last[4], const uint8_t *candidate, size_t candidate_bytes,
                          const uint8_t *reason, size_t reason_bytes, const uint32_t words[5], uint8_t *buffer, size_t buffer_bytes,
                          uint8_t *identifier_class);

/* Takes a capture of the controller's own on 08h, over an unread one too: 0, 4 or 5. Only 0 changes record and controller store. */
uint8_t bumbazeel_capture(struct bumbazeel_record *record, const uint8_t *host_store, size_t host_bytes, uint8_t *controller_store,
                          size_t controller_bytes, const uint32_t last[4], const uint8_t *candidate, size_t candidate_bytes,
                          const uint8_t *reason, size_t reason_bytes);

/* Drops the host's data, as a Firmware Commit or power on does: 0 or 4. Only 0 changes the record: the four last blocks and the reason of
 * 07h are zero then, its generation stays, and nothing of 08h is touched. Both stores stay as they are. */
uint8_t bumbazeel_drop(struct bumbazeel_record *record, const uint8_t *host_store, size_t host_bytes, const uint8_t *controller_store,
                       size_t controller_bytes);

/* What a command, a capture and a drop are lent, in one place. A command reads the candidate at a create on 07h alone. */
struct bumbazeel_lent {
    struct bumbazeel_record *record;
    uint8_t *host_store;
    size_t host_bytes;
    uint8_t *controller_store;
    size_t controller_bytes;
    uint32_t last[4]; /* the candidate's last blocks, bytes and reason */
    const uint8_t *candidate;
    size_t candidate_bytes;
    const uint8_t *reason;
    size_t reason_bytes;
};

/* bumbazeel_command, bumbazeel_capture and bumbazeel_drop on what is lent. */
static inline uint8_t bumbazeel_command_on(const struct bumbazeel_lent *lent, const uint32_t words[5], uint8_t *buffer, size_t buffer_bytes,
                                           uint8_t *identifier_class) {
    return bumbazeel_command(lent->record, lent->host_store, lent->host_bytes, lent->controller_store, lent->controller_bytes, lent->last,
                             lent->candidate, lent->candidate_bytes, lent->reason, lent->reason_bytes, words, buffer, buffer_bytes,
                             identifier_class);
}

static inline uint8_t bumbazeel_capture_on(const struct bumbazeel_lent *lent) {
    return bumbazeel_capture(lent->record, lent->host_store, lent->host_bytes, lent->controller_store, lent->controller_bytes, lent->last,
                             lent->candidate, lent->candidate_bytes, lent->reason, lent->reason_bytes);
}

static inline uint8_t bumbazeel_drop_on(const struct bumbazeel_lent *lent) {
    return bumbazeel_drop(lent->record, lent->host_store, lent->host_bytes, lent->controller_store, lent->controller_bytes);
}

/* ---- the month's sheet */

/* Writes a sheet with no run entered. */
void bumbazeel_new_sheet(struct bumbazeel_sheet *sheet);

/* Enters a finished run: how it ended, the blocks kept, the commands sent, and the failed attempts (its attempt less one; with ending 9 all of
 * them). The answer is the first of these: 13: the sheet is damaged, no run has this ending (those of `runs` are all), or blocks were kept with an
 * ending other than 0; 20: a total would pass 18,446,744,073,709,551,615; else 0, and it is counted. With 13 and 20 the sheet is as it was. */
uint8_t bumbazeel_enter(struct bumbazeel_sheet *sheet, uint8_t ending, uint64_t blocks, uint64_t commands, uint64_t failed);

/* Adds another sheet, not the sheet itself, so that the sheets of many benches make one month: with 0 the sheet is that of all their runs. 13:
 * either is damaged. 20: a total would pass 18,446,744,073,709,551,615. With 13 and 20 the sheet is as it was. */
uint8_t bumbazeel_add(struct bumbazeel_sheet *sheet, const struct bumbazeel_sheet *other);

/* The mean blocks a good run. 0, or 13: the sheet is damaged. *mean is always written, with 13 as zeros. */
uint8_t bumbazeel_mean(const struct bumbazeel_sheet *sheet, struct bumbazeel_mean *mean);

/* ---- numbers */

/* The class of a page identifier. */
uint8_t bumbazeel_class(uint8_t page);

/* The NVMe status of an answer, type * 256 + code: 0000h, 0002h and 0109h of 0, 1 and 2. FFFFh: it has none. */
uint16_t bumbazeel_status(uint8_t answer);

#ifdef __cplusplus
}
#endif
#endif
