/* NVMe/TCP: what comes over a connection is read as PDUs, and what goes back is made into PDUs. There are no sockets here: whoever has them
 * puts bytes in and takes bytes out. Nothing that comes is believed: every length is looked at before it is used, and whatever is wrong ends
 * the connection in the standard's way. */
#ifndef TRANSPORT_H
#define TRANSPORT_H

#include <stdbool.h>
#include <stddef.h>
#include <stdint.h>

enum {
    COMMAND_BYTES = 64,
    MOST_CAPSULE_DATA = 8192,                        /* bytes that come with a command */
    MOST_PDU = 256 + MOST_CAPSULE_DATA,              /* a data offset is a byte */
    TRANSFER_SHIFT = 7, MOST_TRANSFER = 4096 << TRANSFER_SHIFT, /* bytes that go back with one: MDTS */
    MOST_PARAMETER = 128                             /* bytes of a wrong header that are sent back */
};

/* Where a connection stands. A lost one is closed at once. One that has said its last words is closed when they are sent and the other side
 * has closed too, or has had the time to. */
enum stage { STARTING, SPEAKING, LAST_WORDS, LOST_CONNECTION };

/* A queue's side of a connection, which belongs to admin.c. */
struct queue {
    struct controller *controller; /* NULL: not connected yet */
    uint16_t id, size, head;
    bool waits;                     /* a command is answered later, and nothing is read until then: */
    uint64_t until;                 /* when, */
    uint8_t command[COMMAND_BYTES]; /* which, */
    uint32_t closing;               /* and what becomes of the connection */
    uint16_t refusal;
};

struct connection {
    int socket;
    enum stage stage;
    const char *why; /* it ends; NULL: the host has closed it */
    struct queue queue;
    size_t alignment; /* of data in a PDU to the host */
    uint8_t in[MOST_PDU];
    size_t have;
    uint8_t *out; /* what is to be sent: from `from` to `to` */
    size_t from, to, room;
    uint64_t opened, partial, stuck, ended; /* when it was opened; since when a PDU is not whole, answers are not taken; when it ended */
    bool shut;                              /* the other side has been told that nothing more comes */
};

/* Milliseconds of a clock that only goes forward. */
uint64_t now_ms(void);

void transport_open(struct connection *c);

/* Gives back its memory. */
void transport_free(struct connection *c);

/* Ends a connection: at once, and after what is to be sent. */
void transport_lose(struct connection *c, const char *why);
void transport_leave(struct connection *c, const char *why);

/* Whether the connection is to be read; where to, and how many bytes at most. */
bool transport_listens(const struct connection *c);
uint8_t *transport_room(struct connection *c, size_t *bytes);

/* Takes bytes that were read to that place. */
void transport_took(struct connection *c, size_t bytes);

/* Hands the commands that are there to admin.c, as long as their answers are taken. */
void transport_go_on(struct connection *c);

/* What is to be sent, and that some of it has been. */
const uint8_t *transport_output(const struct connection *c, size_t *bytes);
void transport_sent(struct connection *c, size_t bytes);

/* Sends a command's data; its completion follows. */
void transport_data(struct connection *c, uint16_t identifier, const uint8_t *data, size_t bytes);

/* Sends a completion: the 16 bytes of it. */
void transport_completion(struct connection *c, const uint8_t completion[16]);

#endif
