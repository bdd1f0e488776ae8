/* The PDUs of NVMe/TCP, as far as a controller without digests and without asking for data (R2T) has them. */
#include "transport.h"

#include "admin.h"
#include "bytes.h"

#include <stdlib.h>
#include <string.h>

enum { ICREQ = 0x00, ICRESP = 0x01, H2C_TERM = 0x02, C2H_TERM = 0x03, CAPSULE = 0x04, RESPONSE = 0x05, H2C_DATA = 0x06, C2H_DATA = 0x07 };
enum { COMMON_BYTES = 8, ICREQ_BYTES = 128, CAPSULE_BYTES = 72, RESPONSE_BYTES = 24, DATA_BYTES = 24, TERM_BYTES = 24, MOST_TERM = 152 };
enum { TYPE_AT = 0, FLAGS_AT = 1, HLEN_AT = 2, PDO_AT = 3, PLEN_AT = 4, PFV_AT = 8, HPDA_AT = 10 }; /* places in a header */
enum { DIGESTS = 3, LAST_DATA = 4 };                                                                /* flags */
enum { INVALID_HEADER_FIELD = 1, SEQUENCE_ERROR = 2, UNSUPPORTED_PARAMETER = 6 };                   /* fatal errors */
enum { MOST_HPDA = 31, MOST_H2C_DATA = 4096, ENOUGH_OUTPUT = 4096, KEPT_ROOM = 16384 };

void transport_open(struct connection *c) {
    int socket = c->socket;
    memset(c, 0, sizeof *c);
    c->socket = socket;
    c->opened = now_ms();
}

void transport_free(struct connection *c) {
    free(c->out);
    c->out = NULL;
}

void transport_lose(struct connection *c, const char *why) {
    c->stage = LOST_CONNECTION;
    c->why = why;
    c->queue.waits = false; /* what waits is not done */
}

void transport_leave(struct connection *c, const char *why) {
    if (c->stage >= LAST_WORDS)
        return;
    c->stage = LAST_WORDS;
    c->why = why;
    c->ended = now_ms();
    c->queue.waits = false;
}

/* ---- what goes out */

/* Room for some more bytes; NULL: there is no memory, and the connection is lost. */
static uint8_t *more(struct connection *c, size_t bytes) {
    if (c->from == c->to)
        c->from = c->to = 0;
    if (c->room - c->to < bytes) {
        uint8_t *grown = realloc(c->out, c->to + bytes);
        if (!grown) {
            transport_lose(c, "there is no memory for its answer");
            return NULL;
        }
        c->out = grown;
        c->room = c->to + bytes;
    }
    if (c->from == c->to)
        c->stuck = now_ms();
    c->to += bytes;
    return c->out + c->to - bytes;
}

/* Room for a PDU with its common header, and zeros behind it up to the data. */
static uint8_t *begin(struct connection *c, uint8_t type, uint8_t header, size_t offset, size_t data) {
    uint8_t *at = more(c, offset + data);
    if (!at)
        return NULL;
    memset(at, 0, offset);
    at[TYPE_AT] = type;
    at[HLEN_AT] = header;
    put32(at + PLEN_AT, (uint32_t)(offset + data));
    return at;
}

const uint8_t *transport_output(const struct connection *c, size_t *bytes) {
    *bytes = c->stage == LOST_CONNECTION ? 0 : c->to - c->from;
    return c->out ? c->out + c->from : NULL;
}

void transport_sent(struct connection *c, size_t bytes) {
    c->from += bytes;
    c->stuck = now_ms();
    if (c->from < c->to)
        return;
    c->from = c->to = 0;
    if (c->room > KEPT_ROOM) {
        transport_free(c);
        c->room = 0;
    }
}

void transport_data(struct connection *c, uint16_t identifier, const uint8_t *data, size_t bytes) {
    size_t offset = (DATA_BYTES + c->alignment - 1) / c->alignment * c->alignment;
    uint8_t *at = bytes ? begin(c, C2H_DATA, DATA_BYTES, offset, bytes) : NULL;
    if (!at)
        return;
    at[FLAGS_AT] = LAST_DATA;
    at[PDO_AT] = (uint8_t)offset;
    put16(at + 8, identifier);
    put32(at + 16, (uint32_t)bytes);
    memcpy(at + offset, data, bytes);
}

void transport_completion(struct connection *c, const uint8_t completion[16]) {
    uint8_t *at = begin(c, RESPONSE, RESPONSE_BYTES, RESPONSE_BYTES, 0);
    if (at)
        memcpy(at + COMMON_BYTES, completion, 16);
}

/* Says what is wrong with the PDU that is there, at this place of its header, and speaks no more. */
static void terminate(struct connection *c, uint16_t error, uint32_t place, const char *why) {
    size_t shown = c->have < MOST_PARAMETER ? c->have : MOST_PARAMETER;
    uint8_t *at = begin(c, C2H_TERM, TERM_BYTES, TERM_BYTES, shown);
    if (!at)
        return;
    put16(at + 8, error);
    put32(at + 10, place);
    memcpy(at + TERM_BYTES, c->in, shown);
    transport_leave(c, why);
}

/* ---- what comes in */

/* Whether a capsule's header can be right. */
static bool good_capsule(struct connection *c, uint32_t bytes) {
    uint8_t offset = c->in[PDO_AT];
    if (c->in[HLEN_AT] != CAPSULE_BYTES)
        terminate(c, INVALID_HEADER_FIELD, HLEN_AT, "a capsule's header has another length");
    else if (c->in[FLAGS_AT] & DIGESTS)
        terminate(c, INVALID_HEADER_FIELD, FLAGS_AT, "a capsule has a digest, which nobody agreed on");
    else if (bytes < CAPSULE_BYTES || bytes > MOST_PDU)
        terminate(c, INVALID_HEADER_FIELD, PLEN_AT, "a capsule is shorter than its header or longer than any");
    else if (bytes > CAPSULE_BYTES && (offset < CAPSULE_BYTES || offset % 4 || offset > bytes || bytes - offset > MOST_CAPSULE_DATA))
        terminate(c, INVALID_HEADER_FIELD, PDO_AT, "a capsule's data are not inside it");
    return c->stage == SPEAKING;
}

/* Looks at the common header that is there: the length of the PDU, or 0 if the connection ends by it. */
static size_t length_of(struct connection *c) {
    uint8_t type = c->in[TYPE_AT];
    uint32_t bytes = get32(c->in + PLEN_AT);
    if (type == H2C_TERM)
        transport_lose(c, "the host has found something wrong and terminates it");
    else if (type != ICREQ && type != CAPSULE && type != H2C_DATA)
        terminate(c, INVALID_HEADER_FIELD, TYPE_AT, "a PDU is of a type that no host sends");
    else if (c->stage == STARTING ? type != ICREQ : type != CAPSULE)
        terminate(c, SEQUENCE_ERROR, 0, "a PDU comes out of its turn");
    else if (type == CAPSULE)
        return good_capsule(c, bytes) ? bytes : 0;
    else if (c->in[HLEN_AT] != ICREQ_BYTES)
        terminate(c, INVALID_HEADER_FIELD, HLEN_AT, "an ICReq's header has another length");
    else if (bytes != ICREQ_BYTES)
        terminate(c, INVALID_HEADER_FIELD, PLEN_AT, "an ICReq has another length");
    else
        return bytes;
    return 0;
}

/* Answers ICReq. Digests are declined by leaving their bits at 0. */
static void initialize(struct connection *c) {
    if (get16(c->in + PFV_AT)) {
        terminate(c, UNSUPPORTED_PARAMETER, PFV_AT, "the host speaks another version of PDUs");
        return;
    }
    if (c->in[HPDA_AT] > MOST_HPDA) {
        terminate(c, INVALID_HEADER_FIELD, HPDA_AT, "the host wants data where no PDU can have them");
        return;
    }
    uint8_t *at = begin(c, ICRESP, ICREQ_BYTES, ICREQ_BYTES, 0);
    if (!at)
        return;
    put32(at + 12, MOST_H2C_DATA);
    c->alignment = 4 * ((size_t)c->in[HPDA_AT] + 1);
    c->stage = SPEAKING;
}

static void take_pdu(struct connection *c, size_t bytes) {
    size_t offset = bytes > CAPSULE_BYTES ? c->in[PDO_AT] : bytes;
    if (c->stage == STARTING)
        initialize(c);
    else
        admin_take(c, c->in + COMMON_BYTES, c->in + offset, bytes - offset);
}

static bool ready(const struct connection *c) { return c->stage <= SPEAKING && !c->queue.waits && c->to - c->from < ENOUGH_OUTPUT; }

void transport_go_on(struct connection *c) {
    while (ready(c) && c->have >= COMMON_BYTES) {
        size_t bytes = length_of(c);
        if (!bytes || c->have < bytes)
            break;
        take_pdu(c, bytes);
        memmove(c->in, c->in + bytes, c->have - bytes);
        c->have -= bytes;
        c->partial = now_ms();
    }
    if (c->stage == LAST_WORDS)
        c->have = 0; /* nobody reads it any more */
}

bool transport_listens(const struct connection *c) { return c->stage == LAST_WORDS || (ready(c) && c->have < MOST_PDU); }

uint8_t *transport_room(struct connection *c, size_t *bytes) {
    *bytes = MOST_PDU - c->have;
    return c->in + c->have;
}

void transport_took(struct connection *c, size_t bytes) {
    if (c->stage == LAST_WORDS)
        return;
    if (!c->have)
        c->partial = now_ms();
    c->have += bytes;
    transport_go_on(c);
}
