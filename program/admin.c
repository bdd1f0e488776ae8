/* Fabrics and admin commands over the embedded drive. A host's admin queue makes a controller for it, and there may be several of both. */
#include "admin.h"

#include "bytes.h"
#include "hold.h"

#include <stdio.h>
#include <string.h>

enum { MOST_CONTROLLERS = 32, QUEUES = 2, MOST_ID = 0xFFEF, ANY_ID = 0xFFFF };
enum { GET_LOG_PAGE = 0x02, IDENTIFY = 0x06, ABORT = 0x08, SET_FEATURES = 0x09, GET_FEATURES = 0x0A, EVENT_REQUEST = 0x0C, KEEP_ALIVE = 0x18,
       FABRICS = 0x7F, HAPPEN = 0xC0 };                                      /* opcodes */
enum { PROPERTY_SET = 0x00, CONNECT = 0x01, PROPERTY_GET = 0x04 };           /* types of Fabrics commands */
enum { CAP_AT = 0x00, VS_AT = 0x08, CC_AT = 0x14, CSTS_AT = 0x1C };          /* properties */
enum { CC_ENABLE = 1, CC_SHUTDOWN = 3 << 14, CC_OTHER_KINDS = 0x3FF0 };      /* command sets, page sizes, arbitrations but the first */
enum { CSTS_READY = 1, CSTS_FATAL = 2, CSTS_SHUT_DOWN = 2 << 2 };
enum { NUMBER_OF_QUEUES = 0x07, EVENTS = 0x0B, KEEP_ALIVE_TIMER = 0x0F, HOST_BEHAVIOR = 0x16 }; /* features */
enum { CONNECT_BYTES = 1024, IDENTIFY_BYTES = 4096, BEHAVIOR_BYTES = 512, NQN_BYTES = 256, HOST_ID_BYTES = 16 };
enum { MOST_ENTRIES = 128, EVENT_REQUESTS = 4, ALIVE_UNIT = 100 }; /* of a queue; at once; milliseconds */
enum { SGL_IN_CAPSULE = 0x01, SGL_TRANSPORT = 0x5A };
enum { TELEMETRY_EVENTS = 1 << 10, NAMESPACE_EVENTS = 1 << 8, TELEMETRY_CHANGED = 0x080202 }; /* a notice, of page 08h */

enum { /* statuses, type * 256 + code */
    INVALID_OPCODE = 0x0001,
    INVALID_FIELD = 0x0002,
    IDENTIFIER_CONFLICT = 0x0003,
    INVALID_NAMESPACE = 0x000B,
    COMMAND_SEQUENCE = 0x000C,
    DATA_LENGTH_INVALID = 0x000F,
    DESCRIPTOR_INVALID = 0x0011,
    OFFSET_INVALID = 0x0016,
    TOO_MANY_EVENT_REQUESTS = 0x0105,
    NOT_SAVEABLE = 0x010D,
    NOT_CHANGEABLE = 0x010E,
    CONNECT_FORMAT = 0x0180,
    CONNECT_BUSY = 0x0181,
    CONNECT_PARAMETER = 0x0182,
    CANNOT_HAPPEN = 0x07C0, /* the vendor's own */
    DO_NOT_RETRY = 0x4000
};

static const uint64_t CAPABILITIES = (MOST_ENTRIES - 1) | 1ull << 16 | 20ull << 24 | 1ull << 37; /* CQR; 10 seconds; the NVM command set */
static const uint32_t NVME_VERSION = 0x20000;
static const uint32_t LAST_NAMESPACE = 0xFFFFFFFD;

struct controller {
    uint16_t id; /* 0: the place is free */
    char host[NQN_BYTES];
    uint8_t host_id[HOST_ID_BYTES];
    struct connection *queues[QUEUES]; /* admin and I/O */
    uint32_t cc, csts, events, timeout;
    uint64_t alive; /* when the host last said so */
    uint16_t requests[EVENT_REQUESTS];
    size_t requested;
    bool told; /* of the notice */
    uint8_t retry_behavior;
};

static struct {
    const struct drive *drive;
    const char *nqn;
    bool list;
    struct controller controllers[MOST_CONTROLLERS];
    uint16_t latest;
    uint8_t data[MOST_TRANSFER];
} here;

/* A command under way. */
struct command {
    struct connection *c;
    const uint8_t *bytes, *data;
    size_t data_bytes;
};

static uint8_t opcode_of(const struct command *k) { return k->bytes[0]; }
static uint16_t identifier_of(const struct command *k) { return get16(k->bytes + 2); }
static uint32_t namespace_of(const struct command *k) { return get32(k->bytes + 4); }
static uint32_t sgl_bytes(const struct command *k) { return get32(k->bytes + 32); }
static uint8_t sgl_type(const struct command *k) { return k->bytes[39]; }
static uint32_t word_of(const struct command *k, int number) { return get32(k->bytes + 4 * number); } /* CDW10 to CDW15 */

void admin_open(const struct drive *drive, const char *nqn, bool list) {
    memset(&here, 0, sizeof here);
    here.drive = drive;
    here.nqn = nqn;
    here.list = list;
    if (list)
        puts("host queue opcode cdw10 cdw11 cdw12 cdw13 cdw14 cdw15 status");
}

/* ---- answers */

/* A Fabrics command has its type beside the opcode. */
static void list(const struct command *k, const char *outcome) {
    const struct queue *q = &k->c->queue;
    if (!here.list)
        return;
    printf("%u %u %02X", q->controller ? q->controller->id : 0, q->id, opcode_of(k));
    if (opcode_of(k) == FABRICS)
        printf(":%02X", k->bytes[4]);
    for (int word = 10; word < 16; word++)
        printf(" %08X", (unsigned)word_of(k, word));
    printf(" %s\n", outcome);
}

static void complete(struct connection *c, uint16_t identifier, uint16_t status, uint64_t result) {
    uint8_t completion[16];
    put32(completion, (uint32_t)result);
    put32(completion + 4, (uint32_t)(result >> 32));
    put16(completion + 8, c->queue.head);
    put16(completion + 10, c->queue.id);
    put16(completion + 12, identifier);
    put16(completion + 14, (uint32_t)status << 1);
    transport_completion(c, completion);
}

static void end(const struct command *k, uint16_t status, uint64_t result) {
    char outcome[8];
    snprintf(outcome, sizeof outcome, "%04X", (unsigned)status & 0x7FF);
    list(k, outcome);
    complete(k->c, identifier_of(k), status, result);
}

static void succeed(const struct command *k, uint64_t result) { end(k, 0, result); }

static void refuse(const struct command *k, uint16_t status) { end(k, status | DO_NOT_RETRY, 0); }

/* Refuses Connect, and says where the parameter stands: in the command, or in the data that came with it. */
static void refuse_parameter(const struct command *k, uint32_t place, bool in_data) {
    end(k, CONNECT_PARAMETER | DO_NOT_RETRY, place | (uint32_t)in_data << 16);
}

static void deliver(const struct command *k, const uint8_t *data, size_t bytes) {
    transport_data(k->c, identifier_of(k), data, bytes);
    succeed(k, 0);
}

/* Whether the command can be lent this much of what is to go to the host; if not, it is refused. */
static bool takes(const struct command *k, size_t bytes) {
    if (sgl_type(k) != SGL_TRANSPORT)
        refuse(k, DESCRIPTOR_INVALID);
    else if (sgl_bytes(k) < bytes)
        refuse(k, DATA_LENGTH_INVALID);
    else
        return true;
    return false;
}

/* Whether this many bytes came with the command; if not, it is refused. Nobody is asked for data that did not come. */
static bool brings(const struct command *k, size_t bytes) {
    if (sgl_type(k) != SGL_IN_CAPSULE)
        refuse(k, DESCRIPTOR_INVALID);
    else if (get32(k->bytes + 24) || get32(k->bytes + 28))
        refuse(k, OFFSET_INVALID);
    else if (sgl_bytes(k) != bytes || k->data_bytes < bytes)
        refuse(k, DATA_LENGTH_INVALID);
    else
        return true;
    return false;
}

/* ---- events: the record's notice, told once to each host that has asked for it */

static void tell_host(struct controller *all) {
    if (!embedded_notice())
        all->told = false;
    if (!embedded_notice() || all->told || !all->requested || !(all->events & TELEMETRY_EVENTS))
        return;
    all->told = true;
    complete(all->queues[0], all->requests[--all->requested], 0, TELEMETRY_CHANGED);
    if (here.list)
        printf("%u 0 0C event %08X\n", all->id, (unsigned)TELEMETRY_CHANGED);
}

static void tell_hosts(void) {
    for (struct controller *all = here.controllers; all < here.controllers + MOST_CONTROLLERS; all++)
        if (all->id && all->queues[0] && all->queues[0]->stage == SPEAKING)
            tell_host(all);
}

static void request_event(const struct command *k) {
    struct controller *all = k->c->queue.controller;
    if (all->requested == EVENT_REQUESTS) {
        refuse(k, TOO_MANY_EVENT_REQUESTS);
        return;
    }
    all->requests[all->requested++] = identifier_of(k);
    list(k, "held");
}

/* ---- connections of a controller */

static void close_all(struct controller *all, void (*how)(struct connection *c, const char *why), const char *why) {
    for (int i = 0; i < QUEUES; i++)
        if (all->queues[i])
            how(all->queues[i], why);
}

static void release_io_queue(struct controller *all) {
    if (all->queues[1])
        transport_lose(all->queues[1], "its controller is reset or gone");
}

void admin_closed(struct connection *c) {
    struct controller *all = c->queue.controller;
    if (here.list)
        printf("%u %u closed: %s\n", all ? all->id : 0, c->queue.id, c->why ? c->why : "the host has closed the connection");
    if (!all)
        return;
    all->queues[c->queue.id] = NULL;
    c->queue.controller = NULL;
    if (c->queue.id)
        return;
    if (all->queues[1])
        all->queues[1]->queue.controller = NULL;
    release_io_queue(all);
    all->id = 0;
}

/* When the controller's host must have said that it is alive. A host whose command waits cannot be heard. */
static uint64_t expiry(const struct controller *all) {
    bool counts = all->id && all->timeout && all->queues[0] && !all->queues[0]->queue.waits;
    return counts ? all->alive + all->timeout : UINT64_MAX;
}

uint64_t admin_expire(void) {
    uint64_t next = UINT64_MAX, now = now_ms();
    for (struct controller *all = here.controllers; all < here.controllers + MOST_CONTROLLERS; all++) {
        if (expiry(all) <= now) {
            all->csts |= CSTS_FATAL;
            all->timeout = 0;
            close_all(all, transport_lose, "its keep alive timeout has expired");
        }
        next = expiry(all) < next ? expiry(all) : next;
    }
    return next;
}

/* ---- Fabrics commands */

static struct controller *controller_of(uint16_t id) {
    for (struct controller *all = here.controllers; all < here.controllers + MOST_CONTROLLERS; all++)
        if (all->id == id)
            return all;
    return NULL;
}

static bool is_text(const uint8_t *at) { return at[0] && memchr(at, 0, NQN_BYTES); }

/* A free place, with an identifier that no other has; NULL: all are taken. */
static struct controller *new_controller(void) {
    struct controller *all = controller_of(0);
    if (!all)
        return NULL;
    do
        here.latest = here.latest < MOST_ID ? here.latest + 1 : 1;
    while (controller_of(here.latest));
    memset(all, 0, sizeof *all);
    all->id = here.latest;
    return all;
}

static void join(const struct command *k, struct controller *all, uint16_t queue) {
    struct queue *q = &k->c->queue;
    q->controller = all;
    q->id = queue;
    q->size = (uint16_t)(get16(k->bytes + 44) + 1);
    q->head = 1;
    all->queues[queue] = k->c;
    succeed(k, all->id); /* no authentication is wanted */
}

static uint32_t in_units(uint32_t milliseconds) {
    uint32_t units = milliseconds / ALIVE_UNIT + (milliseconds % ALIVE_UNIT != 0);
    return units > UINT32_MAX / ALIVE_UNIT ? UINT32_MAX : units * ALIVE_UNIT;
}

static void connect_admin(const struct command *k) {
    if (get16(k->data + 16) != ANY_ID) {
        refuse_parameter(k, 16, true);
        return;
    }
    struct controller *all = new_controller();
    if (!all) {
        end(k, CONNECT_BUSY, 0);
        return;
    }
    memcpy(all->host_id, k->data, HOST_ID_BYTES);
    memcpy(all->host, k->data + 512, NQN_BYTES);
    all->timeout = in_units(get32(k->bytes + 48));
    all->alive = now_ms();
    join(k, all, 0);
}

static void connect_io(const struct command *k) {
    struct controller *all = get16(k->data + 16) ? controller_of(get16(k->data + 16)) : NULL;
    bool same = all && memcmp(all->host_id, k->data, HOST_ID_BYTES) == 0 && strcmp(all->host, (const char *)k->data + 512) == 0;
    if (!same)
        refuse_parameter(k, 16, true);
    else if (get16(k->bytes + 42) >= QUEUES)
        refuse_parameter(k, 42, false);
    else if (!(all->csts & CSTS_READY) || all->queues[1])
        refuse(k, COMMAND_SEQUENCE);
    else
        join(k, all, 1);
}

static void connect_queue(const struct command *k) {
    uint16_t size = get16(k->bytes + 44);
    if (k->c->queue.controller)
        refuse(k, COMMAND_SEQUENCE);
    else if (get16(k->bytes + 40))
        refuse(k, CONNECT_FORMAT);
    else if (!brings(k, CONNECT_BYTES))
        return;
    else if (!is_text(k->data + 256) || strcmp((const char *)k->data + 256, here.nqn) != 0)
        refuse_parameter(k, 256, true);
    else if (!is_text(k->data + 512))
        refuse_parameter(k, 512, true);
    else if (!size || size >= MOST_ENTRIES)
        refuse_parameter(k, 44, false);
    else if (get16(k->bytes + 42))
        connect_io(k);
    else
        connect_admin(k);
}

static void get_property(const struct command *k) {
    const struct controller *all = k->c->queue.controller;
    uint32_t at = get32(k->bytes + 44);
    bool eight = (k->bytes[40] & 7) == 1, four = (k->bytes[40] & 7) == 0;
    if (eight && at == CAP_AT)
        succeed(k, CAPABILITIES);
    else if (four && (at == VS_AT || at == CC_AT || at == CSTS_AT))
        succeed(k, at == VS_AT ? NVME_VERSION : at == CC_AT ? all->cc : all->csts);
    else
        refuse(k, INVALID_FIELD);
}

/* What a controller forgets when it is reset. */
static void reset(struct controller *all) {
    all->requested = 0;
    all->events = 0;
    all->told = false;
    all->retry_behavior = 0;
    release_io_queue(all);
}

static void configure(struct controller *all, uint32_t value) {
    bool was = all->cc & CC_ENABLE, is = value & CC_ENABLE;
    all->cc = value;
    if (is && !was)
        all->csts = value & CC_OTHER_KINDS ? CSTS_FATAL : CSTS_READY;
    if (!is && was) {
        reset(all);
        all->csts = 0;
    }
    if (value & CC_SHUTDOWN)
        all->csts |= CSTS_SHUT_DOWN;
}

static void set_property(const struct command *k) {
    struct controller *all = k->c->queue.controller;
    if ((k->bytes[40] & 7) || get32(k->bytes + 44) != CC_AT) {
        refuse(k, INVALID_FIELD);
        return;
    }
    all->alive = now_ms();
    configure(all, get32(k->bytes + 48));
    succeed(k, 0);
}

static void take_fabrics(const struct command *k) {
    uint8_t type = k->bytes[4];
    bool connected = k->c->queue.controller, admin = !k->c->queue.id;
    if (type == CONNECT)
        connect_queue(k);
    else if (!connected)
        refuse(k, COMMAND_SEQUENCE);
    else if (type == PROPERTY_GET && admin)
        get_property(k);
    else if (type == PROPERTY_SET && admin)
        set_property(k);
    else
        refuse(k, INVALID_OPCODE); /* authentication and Disconnect among them */
}

/* ---- Identify */

static void put_text(uint8_t *at, size_t bytes, const char *text) {
    memset(at, ' ', bytes);
    memcpy(at, text, strlen(text) < bytes ? strlen(text) : bytes);
}

static void put_controller(const struct controller *all, uint8_t *at) {
    const struct drive *drive = here.drive;
    put_text(at + 4, 20, drive->serial);
    put_text(at + 24, 40, drive->model);
    put_text(at + 64, 8, drive->firmware);
    put32(at + 73, drive->oui); /* three bytes; the fourth is the next one's */
    at[76] = 2;                 /* CMIC: several controllers */
    at[77] = TRANSFER_SHIFT;    /* MDTS */
    put16(at + 78, all->id);
    put32(at + 80, NVME_VERSION);
    put32(at + 92, NAMESPACE_EVENTS); /* OAES: Linux asks for no event where it sees none that it knows */
    at[111] = 1;                      /* an I/O controller */
    at[259] = EVENT_REQUESTS - 1;
    at[261] = (uint8_t)((drive->caps & BUMBAZEEL_EXTENDED ? 1 << 2 : 0) | (drive->caps & BUMBAZEEL_TELEMETRY ? 1 << 3 : 0) |
                        (drive->caps & BUMBAZEEL_DA4S ? 1 << 6 : 0)); /* LPA */
    put16(at + 320, 1);                                               /* KAS: a unit of Keep Alive */
    at[512] = 0x66;                                                   /* SQES: 64 bytes */
    at[513] = 0x44;                                                   /* CQES: 16 bytes */
    put16(at + 514, MOST_ENTRIES);                                    /* MAXCMD */
    put32(at + 536, 1 | 1 << 20);                                     /* SGLS: SGLs, with an offset into the capsule */
    memcpy(at + 768, here.nqn, strlen(here.nqn));
    put32(at + 1792, 4); /* IOCCSZ: a command of the I/O queue brings no data */
    put32(at + 1796, 1); /* IORCSZ */
    at[1803] = 1;        /* MSDBD: one descriptor */
}

static void identify(const struct command *k) {
    uint8_t what = k->bytes[40];
    bool namespace_wanted = what == 0x00 || what == 0x03;
    if (what > 0x03) {
        refuse(k, INVALID_FIELD);
    } else if (namespace_wanted || (what == 0x02 && namespace_of(k) > LAST_NAMESPACE)) {
        refuse(k, INVALID_NAMESPACE); /* there is none */
    } else if (takes(k, IDENTIFY_BYTES)) {
        memset(here.data, 0, IDENTIFY_BYTES);
        if (what == 0x01)
            put_controller(k->c->queue.controller, here.data);
        deliver(k, here.data, IDENTIFY_BYTES);
    }
}

/* ---- features */

/* The host's yes to area 4 is the drive's from the start and never changes. */
static uint8_t area_4_said(void) { return here.drive->caps & BUMBAZEEL_ETDAS ? 1 : 0; }

static void get_behavior(const struct command *k) {
    if (!takes(k, BEHAVIOR_BYTES))
        return;
    memset(here.data, 0, BEHAVIOR_BYTES);
    here.data[0] = k->c->queue.controller->retry_behavior;
    here.data[1] = area_4_said();
    deliver(k, here.data, BEHAVIOR_BYTES);
}

static void set_behavior(const struct command *k) {
    if (!brings(k, BEHAVIOR_BYTES))
        return;
    if (k->data[0] > 1 || k->data[1] > 1) {
        refuse(k, INVALID_FIELD);
    } else if (k->data[1] != area_4_said()) {
        refuse(k, NOT_CHANGEABLE);
    } else {
        k->c->queue.controller->retry_behavior = k->data[0];
        succeed(k, 0);
    }
}

static void get_feature(const struct command *k) {
    const struct controller *all = k->c->queue.controller;
    uint8_t feature = k->bytes[40];
    if (word_of(k, 10) >> 8 & 7)
        refuse(k, INVALID_FIELD); /* only current values */
    else if (feature == NUMBER_OF_QUEUES)
        succeed(k, 0); /* one of each kind */
    else if (feature == EVENTS || feature == KEEP_ALIVE_TIMER)
        succeed(k, feature == EVENTS ? all->events : all->timeout);
    else if (feature == HOST_BEHAVIOR)
        get_behavior(k);
    else
        refuse(k, INVALID_FIELD);
}

static void set_number_of_queues(const struct command *k) {
    uint32_t wanted = word_of(k, 11);
    if (wanted >> 16 == 0xFFFF || (wanted & 0xFFFF) == 0xFFFF)
        refuse(k, INVALID_FIELD);
    else if (k->c->queue.controller->queues[1])
        refuse(k, COMMAND_SEQUENCE);
    else
        succeed(k, 0);
}

static void set_timer(const struct command *k) {
    struct controller *all = k->c->queue.controller;
    all->timeout = in_units(word_of(k, 11));
    all->alive = now_ms();
    succeed(k, 0);
}

static void set_feature(const struct command *k) {
    uint8_t feature = k->bytes[40];
    if (word_of(k, 10) >> 31) {
        refuse(k, NOT_SAVEABLE);
    } else if (feature == NUMBER_OF_QUEUES) {
        set_number_of_queues(k);
    } else if (feature == EVENTS) {
        k->c->queue.controller->events = word_of(k, 11);
        succeed(k, 0);
    } else if (feature == KEEP_ALIVE_TIMER) {
        set_timer(k);
    } else if (feature == HOST_BEHAVIOR) {
        set_behavior(k);
    } else {
        refuse(k, INVALID_FIELD);
    }
}

/* ---- Get Log Page */

static void words_of(const struct command *k, uint32_t words[5]) {
    for (int i = 0; i < 5; i++)
        words[i] = word_of(k, 10 + i);
}

/* What the embedded drive makes of the command goes back as it is. A status that it has none for is about the room that it was lent. */
static void serve_page(const struct command *k) {
    uint32_t words[5];
    words_of(k, words);
    uint8_t answer = embedded_answer(words, here.data, sizeof here.data < sgl_bytes(k) ? sizeof here.data : sgl_bytes(k));
    uint16_t status = bumbazeel_status(answer);
    if (answer == BUMBAZEEL_SHORT_BUFFER)
        refuse(k, DATA_LENGTH_INVALID);
    else if (answer)
        refuse(k, status);
    else
        deliver(k, here.data, transfer_bytes(here.drive->caps, words));
}

/* The command has waited as long as it was to wait. */
static void finish_page(const struct command *k, uint16_t refusal, enum what closing) {
    struct controller *all = k->c->queue.controller;
    if (closing == CLOSE_BEFORE) {
        list(k, "not done, and the connection is closed");
        close_all(all, transport_lose, "so it was to happen");
        return;
    }
    if (refusal)
        end(k, refusal, 0);
    else
        serve_page(k);
    if (closing == CLOSE_UNTOLD)
        close_all(all, transport_lose, "so it was to happen, before the answer was sent");
    if (closing == CLOSE_AFTER)
        close_all(all, transport_leave, "so it was to happen");
}

static void get_page(const struct command *k) {
    uint8_t page = k->bytes[40];
    struct queue *q = &k->c->queue;
    struct fate fate = {.closing = CAPTURE};
    if (!takes(k, 0))
        return;
    if (sgl_bytes(k) > MOST_TRANSFER) {
        refuse(k, INVALID_FIELD);
        return;
    }
    if (page == BUMBAZEEL_HOST_PAGE || page == BUMBAZEEL_CONTROLLER_PAGE)
        fate = embedded_before(page);
    if (!fate.delay) {
        finish_page(k, fate.refusal, fate.closing);
        return;
    }
    q->waits = true;
    q->until = now_ms() + fate.delay;
    q->refusal = fate.refusal;
    q->closing = fate.closing;
    memcpy(q->command, k->bytes, COMMAND_BYTES);
}

/* ---- the vendor command that makes things happen */

enum { FORGET = 0, CAPTURE_08 = 1, CAPTURE_07 = 2, CLEAR_08 = 3, REFUSE = 4, CLOSE_1 = 5, CLOSE_2 = 6, WAIT = 7, CLOSE_3 = 8, DROP_07 = 9,
       KINDS = 10 };

static struct happening happening_of(const struct command *k) {
    static const enum what kinds[KINDS] = {[CAPTURE_08] = CAPTURE,  [CAPTURE_07] = CAPTURE,   [CLEAR_08] = CLEAR,      [REFUSE] = REFUSAL,
                                           [CLOSE_1] = CLOSE_BEFORE, [CLOSE_2] = CLOSE_UNTOLD, [CLOSE_3] = CLOSE_AFTER, [WAIT] = DELAY,
                                           [DROP_07] = DROP};
    uint32_t kind = word_of(k, 10);
    struct happening h = {.what = kinds[kind], .before = word_of(k, 11), .number = word_of(k, 12)};
    if (h.what != CAPTURE)
        return h;
    h.page = kind == CAPTURE_07 ? BUMBAZEEL_HOST_PAGE : BUMBAZEEL_CONTROLLER_PAGE;
    for (int i = 0; i < 4; i++)
        h.areas[i] = word_of(k, 12 + i);
    if (!(h.areas[0] | h.areas[1] | h.areas[2] | h.areas[3]))
        memcpy(h.areas, embedded_areas(), sizeof h.areas);
    return h;
}

static void close_everything(void) {
    for (struct controller *all = here.controllers; all < here.controllers + MOST_CONTROLLERS; all++)
        if (all->id)
            close_all(all, transport_leave, "so it was to happen");
}

static void happen_now(const struct command *k, const struct happening *h) {
    if (h->what == CLOSE_BEFORE) {
        succeed(k, 0);
        close_everything();
    } else if (h->what != CAPTURE && h->what != CLEAR && h->what != DROP) {
        refuse(k, INVALID_FIELD);
    } else if (embedded_now(h)) {
        refuse(k, CANNOT_HAPPEN);
    } else {
        succeed(k, 0);
    }
}

static void happen(const struct command *k) {
    uint32_t kind = word_of(k, 10);
    if (kind >= KINDS || (kind == REFUSE && (!word_of(k, 12) || word_of(k, 12) > 0x7FFF))) {
        refuse(k, INVALID_FIELD);
        return;
    }
    struct happening h = happening_of(k);
    if (kind == FORGET) {
        embedded_forget();
        succeed(k, 0);
    } else if (!h.before) {
        happen_now(k, &h);
    } else if (embedded_later(&h)) {
        succeed(k, 0);
    } else {
        refuse(k, CANNOT_HAPPEN);
    }
}

/* ---- all commands */

static void take_admin(const struct command *k) {
    switch (opcode_of(k)) {
    case GET_LOG_PAGE:
        get_page(k);
        break;
    case IDENTIFY:
        identify(k);
        break;
    case ABORT:
        succeed(k, 1); /* not aborted: what could be is answered by now */
        break;
    case SET_FEATURES:
        set_feature(k);
        break;
    case GET_FEATURES:
        get_feature(k);
        break;
    case EVENT_REQUEST:
        request_event(k);
        break;
    case KEEP_ALIVE:
        k->c->queue.controller->alive = now_ms();
        succeed(k, 0);
        break;
    case HAPPEN:
        happen(k);
        break;
    default:
        refuse(k, INVALID_OPCODE);
    }
}

/* The I/O queue is there because hosts want one. Flush, Write and Read are of namespaces, and there is none. */
static void take_io(const struct command *k) { refuse(k, opcode_of(k) <= 0x02 ? INVALID_NAMESPACE : INVALID_OPCODE); }

/* Whether the identifier is one of a request that is still held. */
static bool conflicts(const struct command *k) {
    const struct controller *all = k->c->queue.controller;
    for (size_t i = 0; all && !k->c->queue.id && i < all->requested; i++)
        if (all->requests[i] == identifier_of(k))
            return true;
    return false;
}

static void take(const struct command *k) {
    const struct controller *all = k->c->queue.controller;
    bool fused = k->bytes[1] & 3, by_sgl = k->bytes[1] >> 6 == 1;
    if (conflicts(k))
        refuse(k, IDENTIFIER_CONFLICT);
    else if (fused || !by_sgl)
        refuse(k, INVALID_FIELD);
    else if (opcode_of(k) == FABRICS)
        take_fabrics(k);
    else if (!all || !(all->csts & CSTS_READY))
        refuse(k, COMMAND_SEQUENCE);
    else if (k->c->queue.id)
        take_io(k);
    else
        take_admin(k);
}

/* After a command: what changed is written for tests and told to hosts. */
static void settle(void) {
    if (embedded_changed())
        hold_pages();
    tell_hosts();
}

void admin_take(struct connection *c, const uint8_t command[COMMAND_BYTES], const uint8_t *data, size_t bytes) {
    struct command k = {.c = c, .bytes = command, .data = data, .data_bytes = bytes};
    if (c->queue.size)
        c->queue.head = (uint16_t)((c->queue.head + 1u) % c->queue.size);
    take(&k);
    settle();
}

void admin_answer_late(struct connection *c) {
    struct command k = {.c = c, .bytes = c->queue.command};
    c->queue.waits = false;
    c->queue.controller->alive = now_ms();
    finish_page(&k, c->queue.refusal, (enum what)c->queue.closing);
    settle();
}
