/* bumbazeel serve: the embedded drive as an NVMe/TCP controller. One process, one loop: sockets are read and written here, and what their
 * bytes mean is transport.c's and admin.c's. */
#define _GNU_SOURCE /* accept4, ppoll, POLLRDHUP */
#include "commands.h"

#include "admin.h"
#include "embedded_options.h"
#include "hold.h"
#include "say.h"
#include "stop.h"
#include "transport.h"

#include <arpa/inet.h>
#include <errno.h>
#include <netinet/in.h>
#include <netinet/tcp.h>
#include <poll.h>
#include <signal.h>
#include <stdio.h>
#include <string.h>
#include <sys/socket.h>
#include <sys/stat.h>
#include <time.h>
#include <unistd.h>

enum { MOST_CONNECTIONS = 64, WAITING_HOSTS = 256, FREE = -1, MOST_NQN = 223 };
enum { PAUSE = 100 }; /* milliseconds without new connections, where the machine has none to give */

static const char help[] = "usage: bumbazeel serve [OPTIONS]\n"
                           "\n"
                           "Serves the embedded drive to hosts over NVMe/TCP, with both telemetry pages, until\n"
                           "SIGINT or SIGTERM. It prints one line when it listens. A host meets it with\n"
                           "  nvme connect -t tcp -a 127.0.0.1 -s 4420 -n nqn.2026-11.example.bumbazeel:embedded\n"
                           "\n"
                           "  --address ADDRESS     listen here, an IPv4 or IPv6 address (127.0.0.1)\n"
                           "  --port N              the port, 0 for any that is free (4420)\n"
                           "  --nqn NAME            the name that hosts connect to\n"
                           "                        (nqn.2026-11.example.bumbazeel:embedded)\n"
                           "  --patience MS         how long a host may take to connect, to send the rest of a\n"
                           "                        PDU and to take an answer, 1 to 3600000 (10000)\n"
                           "  --hold FOLDER         write what the pages hold to files there, after each change\n"
                           "  -v, --list            print each command that came\n"
                           "\n"
                           "The embedded drive:\n"
                           EMBEDDED_HELP
                           "  --capture-before N[:A1,A2,A3,A4]\n"
                           "                        a capture comes right before telemetry command N, on the\n"
                           "                        page that it asks for\n"
                           "  --clear-before N      another host acknowledges before telemetry command N\n"
                           "  --drop-before N       a firmware commit drops the data of 07h before telemetry\n"
                           "                        command N\n"
                           "  --refuse N            telemetry command N is refused, as by a broken drive\n"
                           "  --header-byte N:BYTE=VALUE\n"
                           "                        from telemetry command N on this byte of headers is VALUE\n"
                           "The last five may be given more than once and happen in their order. More can be\n"
                           "made to happen from a host, by the vendor command C0h: see the man page.\n";

struct options {
    const char *address, *nqn, *hold;
    uint16_t port;
    uint64_t patience;
    bool list;
    struct embedded drive;
};

static struct {
    int listening;
    uint64_t patience, pause; /* no new connections before `pause` */
    struct connection connections[MOST_CONNECTIONS];
} here;

uint64_t now_ms(void) {
    struct timespec now;
    clock_gettime(CLOCK_MONOTONIC, &now);
    return (uint64_t)now.tv_sec * 1000 + (uint64_t)now.tv_nsec / 1000000;
}

/* ---- the command line */

static const char *nqn_of(const char *text) {
    if (strncmp(text, "nqn.", 4) != 0 || strlen(text) > MOST_NQN)
        die("--nqn '%s' is no NVMe name: it starts with nqn. and has %d bytes at most", text, MOST_NQN);
    return text;
}

static const char *folder_of(const char *name) {
    struct stat found;
    if (stat(name, &found))
        die("--hold %s: %s", name, strerror(errno));
    if (!S_ISDIR(found.st_mode))
        die("--hold %s: is no folder", name);
    return name;
}

static bool read_option(struct options *o, struct arguments *a) {
    const char *value;
    if (argument_value(a, "--address", &value))
        o->address = value;
    else if (argument_value(a, "--port", &value))
        o->port = (uint16_t)number_of("--port", value, 0, UINT16_MAX);
    else if (argument_value(a, "--nqn", &value))
        o->nqn = nqn_of(value);
    else if (argument_value(a, "--patience", &value))
        o->patience = number_of("--patience", value, 1, 3600000);
    else if (argument_value(a, "--hold", &value))
        o->hold = folder_of(value);
    else if (argument_flag(a, "--list|--verbose|-v"))
        o->list = true;
    else
        return false;
    return true;
}

/* Either page may be captured, and one on 08h has a block in area 3. */
static void judge(const struct options *o) {
    if (!o->drive.areas[2])
        die("--drive-areas: a capture on page 08h has a block in area 3 or it is none");
    for (size_t i = 0; i < o->drive.count; i++)
        if (o->drive.happenings[i].what == CAPTURE && !o->drive.happenings[i].areas[2])
            die("--capture-before: a capture on page 08h has a block in area 3 or it is none");
}

static struct options options_of(char **words) {
    struct options o = {.address = "127.0.0.1",
                        .port = 4420,
                        .nqn = "nqn.2026-11.example.bumbazeel:embedded",
                        .patience = 10000,
                        .drive = usual_embedded()};
    struct arguments a = arguments_of("serve", words);
    while (argument_next(&a)) {
        if (argument_flag(&a, "--help|-h"))
            print_help(help);
        if (!read_option(&o, &a) && !read_embedded_option(&o.drive, &a))
            die("'%s' is one word too many: serve takes options alone", argument_operand(&a));
    }
    complete_embedded(&o.drive);
    judge(&o);
    return o;
}

/* ---- listening */

union address {
    struct sockaddr any;
    struct sockaddr_in four;
    struct sockaddr_in6 six;
};

static socklen_t address_of(const struct options *o, union address *at) {
    memset(at, 0, sizeof *at);
    if (inet_pton(AF_INET, o->address, &at->four.sin_addr) == 1) {
        at->any.sa_family = AF_INET;
        at->four.sin_port = htons(o->port);
        return sizeof at->four;
    }
    if (inet_pton(AF_INET6, o->address, &at->six.sin6_addr) != 1)
        die("--address '%s' is no IPv4 or IPv6 address", o->address);
    at->any.sa_family = AF_INET6;
    at->six.sin6_port = htons(o->port);
    return sizeof at->six;
}

static void listen_at(const struct options *o) {
    union address at;
    socklen_t bytes = address_of(o, &at);
    int yes = 1;
    here.listening = socket(at.any.sa_family, SOCK_STREAM | SOCK_NONBLOCK | SOCK_CLOEXEC, 0);
    if (here.listening < 0)
        die("no socket for %s: %s", o->address, strerror(errno));
    (void)setsockopt(here.listening, SOL_SOCKET, SO_REUSEADDR, &yes, sizeof yes);
    if (bind(here.listening, &at.any, bytes) || listen(here.listening, WAITING_HOSTS) || getsockname(here.listening, &at.any, &bytes))
        die("cannot listen on %s port %u: %s", o->address, o->port, strerror(errno));
    uint16_t port = ntohs(at.any.sa_family == AF_INET ? at.four.sin_port : at.six.sin6_port);
    printf("listening on %s port %u as %s\n", o->address, port, o->nqn);
    close_stdout("");
}

/* ---- connections */

static void welcome(int socket) {
    int yes = 1;
    (void)setsockopt(socket, IPPROTO_TCP, TCP_NODELAY, &yes, sizeof yes);
    (void)setsockopt(socket, SOL_SOCKET, SO_KEEPALIVE, &yes, sizeof yes); /* a host that is gone without a word */
    for (struct connection *c = here.connections; c < here.connections + MOST_CONNECTIONS; c++)
        if (c->socket == FREE) {
            c->socket = socket;
            transport_open(c);
            return;
        }
    close(socket); /* all places are taken */
}

static void accept_hosts(void) {
    int socket = 0;
    for (int i = 0; socket >= 0 && i < WAITING_HOSTS; i++) {
        socket = accept4(here.listening, NULL, NULL, SOCK_NONBLOCK | SOCK_CLOEXEC);
        if (socket >= 0)
            welcome(socket);
        else if (errno == EMFILE || errno == ENFILE || errno == ENOBUFS || errno == ENOMEM)
            here.pause = now_ms() + PAUSE;
    }
}

static void close_lost(struct connection *c) {
    admin_closed(c);
    transport_free(c);
    close(c->socket);
    c->socket = FREE;
}

/* Closes what is lost. That of an admin queue loses its I/O queue too. */
static void close_all_lost(void) {
    for (int round = 0; round < 2; round++)
        for (struct connection *c = here.connections; c < here.connections + MOST_CONNECTIONS; c++)
            if (c->socket != FREE && c->stage == LOST_CONNECTION)
                close_lost(c);
}

/* What an error on a connection means: nothing yet, or its end. */
static void judge_error(struct connection *c) {
    if (errno != EAGAIN && errno != EINTR)
        transport_lose(c, c->stage == LAST_WORDS ? c->why : "the connection is broken");
}

static void hear(struct connection *c) {
    size_t room;
    uint8_t *at = transport_room(c, &room);
    ssize_t got = recv(c->socket, at, room, 0);
    if (got > 0)
        transport_took(c, (size_t)got);
    else if (got == 0)
        transport_lose(c, c->stage == LAST_WORDS ? c->why : NULL);
    else
        judge_error(c);
}

/* Sends what the connection takes; true if that is all. */
static bool flush(struct connection *c) {
    size_t bytes;
    const uint8_t *at = transport_output(c, &bytes);
    while (bytes) {
        ssize_t sent = send(c->socket, at, bytes, MSG_NOSIGNAL);
        if (sent < 0) {
            judge_error(c);
            return false;
        }
        transport_sent(c, (size_t)sent);
        at = transport_output(c, &bytes);
    }
    return true;
}

/* Answers the commands that have come, as far as the answers are taken. */
static void answer(struct connection *c) {
    size_t bytes;
    while (flush(c)) {
        transport_go_on(c);
        transport_output(c, &bytes);
        if (!bytes)
            break;
    }
    if (c->stage == LAST_WORDS && c->from == c->to && !c->shut) {
        (void)shutdown(c->socket, SHUT_WR);
        c->shut = true;
    }
}

/* When something is to be done about the connection though nothing comes. */
static uint64_t due(const struct connection *c) {
    if (c->stage == LAST_WORDS)
        return c->shut || c->from < c->to ? c->ended + here.patience : c->ended;
    if (c->queue.waits)
        return c->queue.until;
    if (c->from < c->to)
        return c->stuck + here.patience;
    if (!c->queue.controller)
        return c->opened + here.patience;
    return c->have ? c->partial + here.patience : UINT64_MAX;
}

static void act_on_time(struct connection *c) {
    if (due(c) > now_ms())
        return;
    if (c->queue.waits)
        admin_answer_late(c);
    else if (c->stage == LAST_WORDS && !c->shut && c->from == c->to)
        return; /* it is shut right after this */
    else if (c->stage == LAST_WORDS)
        transport_lose(c, c->why);
    else
        transport_lose(c, c->from < c->to ? "the host does not take its answers" : "the host is too slow");
}

static short wanted(const struct connection *c) {
    short events = c->from < c->to ? POLLOUT : 0;
    if (transport_listens(c))
        events |= POLLIN;
    return c->queue.waits ? POLLRDHUP : events; /* what waits is not done for a host that is gone */
}

static void attend(struct connection *c, short came) {
    if (c->queue.waits && came)
        transport_lose(c, NULL);
    else if (came & (POLLIN | POLLHUP | POLLERR))
        hear(c);
    if (c->stage != LOST_CONNECTION)
        act_on_time(c);
    if (c->stage != LOST_CONNECTION)
        answer(c);
}

/* What is waited for: the connections that there are, and new ones. No more places than files are open, which is all that the system takes. */
struct watch {
    struct pollfd places[MOST_CONNECTIONS + 1];
    struct connection *of[MOST_CONNECTIONS + 1]; /* NULL: new ones */
    nfds_t count;
    uint64_t until; /* something is due then */
};

static void watch_file(struct watch *w, struct connection *c, int file, short events) {
    w->places[w->count] = (struct pollfd){.fd = file, .events = events};
    w->of[w->count++] = c;
}

static void watch_until(struct watch *w, uint64_t then) {
    if (then < w->until)
        w->until = then;
}

static struct watch watch_all(void) {
    struct watch w = {.until = admin_expire()};
    close_all_lost();
    for (struct connection *c = here.connections; c < here.connections + MOST_CONNECTIONS; c++)
        if (c->socket != FREE) {
            watch_file(&w, c, c->socket, wanted(c));
            watch_until(&w, due(c));
        }
    if (now_ms() >= here.pause)
        watch_file(&w, NULL, here.listening, POLLIN);
    else
        watch_until(&w, here.pause);
    return w;
}

/* Waits until something comes or is due. */
static void wait_for(struct watch *w) {
    uint64_t now = now_ms(), left = w->until > now ? w->until - now : 0;
    struct timespec most = {.tv_sec = (time_t)(left / 1000), .tv_nsec = (long)(left % 1000) * 1000000};
    sigset_t none;
    sigemptyset(&none); /* signals come here and nowhere else */
    if (ppoll(w->places, w->count, w->until == UINT64_MAX ? NULL : &most, &none) >= 0)
        return;
    if (errno != EINTR)
        die("cannot wait for hosts: %s", strerror(errno));
    for (nfds_t i = 0; i < w->count; i++)
        w->places[i].revents = 0;
}

static void turn(void) {
    struct watch w = watch_all();
    wait_for(&w);
    for (nfds_t i = 0; i < w.count; i++)
        if (w.of[i])
            attend(w.of[i], w.places[i].revents);
        else if (w.places[i].revents)
            accept_hosts();
}

/* Serves until a stop is asked for. Signals come while it waits and at no other time, so that none is overlooked. */
static void serve(void) {
    sigset_t all, before;
    sigfillset(&all);
    sigprocmask(SIG_BLOCK, &all, &before);
    while (!stop_asked())
        turn();
    sigprocmask(SIG_SETMASK, &before, NULL);
}

int serve_command(char **words) {
    struct options o = options_of(words);
    here.patience = o.patience;
    for (int i = 0; i < MOST_CONNECTIONS; i++)
        here.connections[i].socket = FREE;
    stop_listen();
    if (o.list)
        setvbuf(stdout, NULL, _IOLBF, 0);
    const struct drive *drive = embedded_open_both(&o.drive);
    hold_in(o.hold);
    hold_pages();
    listen_at(&o);
    admin_open(drive, o.nqn, o.list);
    serve();
    if (stop_asked() == SIGINT || stop_asked() == SIGTERM)
        stop_obeyed();
    close_stdout("");
    return STATUS_SUCCESS;
}
