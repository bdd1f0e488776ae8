/* Lets libFuzzer be two hosts of the server: whatever they send, in whatever pieces, however slowly they take their answers, the PDU reader
 * and the commands behind it say only what a controller may say, in bounded memory. Sockets are left out: bytes go in and come out here.
 *
 * An input is a row of acts. Each starts with a byte that chooses it; raw bytes, PDUs that are nearly right, and time that passes. */
#include "../../program/admin.h"
#include "../../program/bytes.h"
#include "../../program/numbers.h"
#include "../../program/say.h"
#include "../../program/transport.h"

#include <stdarg.h>
#include <stdio.h>
#include <stdlib.h>
#include <string.h>

enum { HOSTS = 3, MOST_ACTS = 200, MOST_OUTPUT = MOST_TRANSFER + 65536 };
#define NQN "nqn.2026-11.example.bumbazeel:embedded"

static const uint8_t *input;
static size_t left;
static uint64_t now = 1000;

static struct host {
    struct connection c;
    uint8_t answer[MOST_OUTPUT]; /* what has come back and is not yet whole */
    size_t have;
    bool started, over;
    uint32_t data; /* the identifier that data came for, or ANYTHING */
} hosts[HOSTS], *h;
enum { ANYTHING = 0x10000 };

/* ---- what the program's parts need of the others */

_Noreturn void die(const char *format, ...) {
    (void)format;
    abort();
}
void say(const char *format, ...) { (void)format; }
void make_plain(char *text) { (void)text; }
const char *meaning(uint8_t answer) { return answer ? "refused" : "success"; }
uint64_t now_ms(void) { return now; }

static void hold(bool good, const char *what) {
    if (good)
        return;
    fprintf(stderr, "%s\n", what);
    abort();
}

static uint8_t byte(void) {
    if (!left)
        return 0;
    left--;
    return *input++;
}

/* ---- what comes back */

static void check_pdu(const uint8_t *at, size_t bytes) {
    hold(!h->over, "something is said after the last words");
    hold(at[2] <= bytes, "a header is longer than its PDU");
    if (at[0] == 1) {
        hold(!h->started && bytes == 128 && !at[11], "an ICResp is out of its turn or agrees to digests");
        h->started = true;
    } else if (at[0] == 3) {
        hold(bytes >= 24 && bytes <= 152 && at[2] == 24, "a termination is not as it should be");
        h->over = true;
    } else if (at[0] == 7) {
        hold(h->started && at[3] >= 24 && at[3] <= bytes && at[3] % h->c.alignment == 0, "data are not where they should be");
        hold(get32(at + 16) == bytes - at[3] && bytes - at[3] <= MOST_TRANSFER && h->data == ANYTHING, "data are of another length");
        h->data = get16(at + 8);
    } else {
        hold(at[0] == 5 && bytes == 24 && h->started, "a PDU that no controller sends");
        hold(h->data == ANYTHING || (h->data == get16(at + 20) && !(get16(at + 22) >> 1)), "data are of another command");
        h->data = ANYTHING;
    }
}

static void take_back(size_t most) {
    size_t bytes;
    const uint8_t *at = transport_output(&h->c, &bytes);
    bytes = bytes < most ? bytes : most;
    hold(h->have + bytes <= sizeof h->answer, "too much comes back");
    if (!bytes)
        return;
    memcpy(h->answer + h->have, at, bytes);
    h->have += bytes;
    transport_sent(&h->c, bytes);
    size_t done = 0;
    while (h->have - done >= 8 && h->have - done >= get32(h->answer + done + 4)) {
        uint32_t length = get32(h->answer + done + 4);
        hold(length >= 8, "a PDU is shorter than its header");
        check_pdu(h->answer + done, length);
        done += length;
    }
    memmove(h->answer, h->answer + done, h->have - done);
    h->have -= done;
    transport_go_on(&h->c);
}

/* ---- what is sent */

static void look_after(struct host *one) {
    struct connection *c = &one->c;
    if (c->queue.waits && c->stage == SPEAKING && now >= c->queue.until) {
        admin_answer_late(c);
        transport_go_on(c);
    }
    hold(c->have <= MOST_PDU && c->to - c->from <= MOST_OUTPUT && c->room <= MOST_OUTPUT, "a connection takes more than its memory");
}

static void open_again(void) {
    transport_open(&h->c);
    h->have = 0;
    h->started = h->over = false;
    h->data = ANYTHING;
}

static void close_lost(void) {
    for (int round = 0; round < 2; round++)
        for (h = hosts; h < hosts + HOSTS; h++)
            if (h->c.stage == LOST_CONNECTION) {
                admin_closed(&h->c);
                transport_free(&h->c);
                open_again();
            }
}

static void give(const uint8_t *bytes, size_t count, size_t piece) {
    while (count && h->c.stage != LOST_CONNECTION) {
        size_t room, some = count < piece ? count : piece;
        if (!transport_listens(&h->c))
            return;
        uint8_t *at = transport_room(&h->c, &room);
        some = some < room ? some : room;
        hold(some > 0, "a connection listens and has no room");
        memcpy(at, bytes, some);
        transport_took(&h->c, some);
        bytes += some;
        count -= some;
    }
}

static void give_start(void) {
    uint8_t pdu[128] = {0, 0, 128, 0, 128, 0, 0, 0, 0, 0, byte() % 33, byte() & 3};
    give(pdu, sizeof pdu, 1000);
}

static void give_capsule(const uint8_t command[COMMAND_BYTES], const uint8_t *data, size_t bytes) {
    static uint8_t pdu[72 + MOST_CAPSULE_DATA] = {4, 0, 72, 72};
    put32(pdu + 4, (uint32_t)(72 + bytes));
    memcpy(pdu + 8, command, COMMAND_BYTES);
    if (bytes)
        memcpy(pdu + 72, data, bytes);
    give(pdu, 72 + bytes, 1 + (size_t)byte() * 40);
}

static void give_connect(uint16_t queue, uint16_t controller) {
    uint8_t command[COMMAND_BYTES] = {0x7F, 0x40, 1, 0, 1}, data[1024] = {0};
    put32(command + 32, sizeof data);
    command[39] = 1;
    put16(command + 42, queue);
    put16(command + 44, 31);
    put32(command + 48, (uint32_t)byte() * 10);
    put16(data + 16, controller);
    strcpy((char *)data + 256, NQN);
    strcpy((char *)data + 512, "nqn.2026-11.example.host:fuzz");
    if (byte() & 1) { /* nearly right */
        uint8_t place = byte() % 6;
        static const uint16_t places[6] = {0, 16, 256, 512, 511, 767};
        data[places[place]] ^= byte();
    } else if (byte() & 1) {
        command[byte() % COMMAND_BYTES] ^= byte();
    }
    give_capsule(command, data, sizeof data);
}

static void give_enable(void) {
    uint8_t command[COMMAND_BYTES] = {0x7F, 0x40, 2};
    command[39] = 0x5A;
    put32(command + 44, 0x14);
    put32(command + 48, 0x460000u | (byte() ? 1 : 0));
    give_capsule(command, NULL, 0);
}

static uint32_t number(void) {
    uint8_t kind = byte();
    if (kind < 128)
        return kind;
    if (kind < 192)
        return (uint32_t)(kind & 15) << (byte() & 31);
    return byte() | (uint32_t)byte() << 8 | (uint32_t)byte() << 16 | (uint32_t)byte() << 24;
}

/* A command of any words, mostly one that is known. */
static void give_command(void) {
    static const uint8_t opcodes[] = {0x02, 0x06, 0x08, 0x09, 0x0A, 0x0C, 0x18, 0x7F, 0xC0};
    static const uint8_t types[] = {0x5A, 0x01, 0x5A, 0x00};
    uint8_t which = byte(), data[1024];
    uint8_t command[COMMAND_BYTES] = {which < 240 ? opcodes[which % sizeof opcodes] : byte(), 0x40, byte() & 7};
    command[4] = byte();
    size_t bytes = (size_t)byte() * 4;
    memset(data, byte(), sizeof data);
    data[0] = byte();
    data[1] = byte();
    put32(command + 32, number());
    command[39] = types[byte() % sizeof types];
    for (int i = 0; i < 6; i++)
        put32(command + 40 + 4 * i, number());
    if (command[0] == 0xC0 && get32(command + 44) > 100)
        put32(command + 44, 1); /* so that it happens */
    give_capsule(command, data, bytes);
}

/* Get Log Page of a page that is there. */
static void give_page(void) {
    uint8_t command[COMMAND_BYTES] = {0x02, 0x40, byte() & 7};
    uint32_t blocks = 1 + byte() % 8, bits = byte();
    put32(command + 32, blocks * BLOCK);
    command[39] = 0x5A;
    put32(command + 40, (bits & 1 ? 7 : 8) | (bits & 6) << 7 | (bits & 8) << 12 | (128 * blocks - 1) << 16);
    put32(command + 48, (uint32_t)(byte() % 16) * BLOCK);
    give_capsule(command, NULL, 0);
}

static void give_bytes(void) {
    uint8_t bytes[256];
    size_t count = byte(), piece = 1 + (size_t)byte();
    for (size_t i = 0; i < count; i++)
        bytes[i] = byte();
    give(bytes, count, piece);
}

static void act(void) {
    uint8_t which = byte();
    h = &hosts[which >> 4 & 3 ? (which >> 4 & 3) - 1 : 0];
    switch (which & 15) {
    case 0:
    case 1: give_bytes(); break;
    case 2: give_start(); break;
    case 3: give_connect(0, 0xFFFF); break;
    case 4: give_connect(1, byte()); break;
    case 5: give_enable(); break;
    case 6: take_back(byte()); break;
    case 7: now += (uint64_t)byte() * 20; break;
    case 8: transport_lose(&h->c, NULL); break;
    case 9:
    case 10: give_page(); break;
    case 11: take_back(SIZE_MAX); break;
    default: give_command();
    }
}

/* A host that is ready, so that an input need not find the way there. */
static void begin(void) {
    static const struct embedded plan = {.seed = 1, .areas = {1, 2, 3, 5}, .caps = 31, .generation = 1};
    static const struct drive *drive;
    if (!drive)
        drive = embedded_open_both(&plan);
    embedded_forget();
    admin_open(drive, NQN, false);
    for (h = hosts; h < hosts + HOSTS; h++) {
        transport_free(&h->c);
        open_again();
    }
    h = hosts;
}

int LLVMFuzzerTestOneInput(const uint8_t *bytes, size_t count);
int LLVMFuzzerTestOneInput(const uint8_t *bytes, size_t count) {
    input = bytes;
    left = count;
    begin();
    for (int i = 0; i < MOST_ACTS && left; i++) {
        act();
        admin_expire();
        for (int k = 0; k < HOSTS; k++)
            look_after(&hosts[k]);
        close_lost();
    }
    for (h = hosts; h < hosts + HOSTS; h++)
        take_back(SIZE_MAX);
    return 0;
}
