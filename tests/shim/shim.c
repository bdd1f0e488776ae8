/* A preloaded drive: stands between a program and Linux's admin passthrough, and answers the admin commands to one path from the proved
 * controller. So the program, and the tools of the trade, can be tried on a drive where there is none.
 *
 *   BUMBAZEEL_SHIM=PATH         the device's path (it need not exist); without it nothing is answered here
 *   BUMBAZEEL_SHIM_OLD=PATH     the path of a second one, an old drive: it has neither extended data nor area 4, and its LPA is 08h
 *   BUMBAZEEL_SHIM_AREAS=A,B,C,D   last blocks of the four areas (default 2,3,5,9)
 *   BUMBAZEEL_SHIM_MDTS=N       the drive's MDTS (default 5: 128 KiB); a longer Get Log Page is refused
 *   BUMBAZEEL_SHIM_ETDAS=0      the host has said no to area 4 (default 1); 2: after the first capture was taken
 *   BUMBAZEEL_SHIM_MCDAS=1      it honours the greatest area that a create wants, as its page 00h says (default 0)
 *   BUMBAZEEL_SHIM_LPA=N        the LPA that it shows (default 6Ch: extended data, telemetry, page 00h, area 4); bit 2 is what it has
 *   BUMBAZEEL_SHIM_CAPTURE=N    a capture of the page asked for comes right before the N-th Get Log Page
 *   BUMBAZEEL_SHIM_DROP=N       a drop comes right before the N-th Get Log Page, and before a capture that comes there too
 *   BUMBAZEEL_SHIM_HEADER=BYTE=VALUE[,BYTE=VALUE..]   these bytes of the headers that it gives have these values
 *   BUMBAZEEL_SHIM_GONE=N       the drive is gone from the N-th Get Log Page of 07h or 08h on
 *   BUMBAZEEL_SHIM_FAIL=N,before|after,RESULT   the N-th admin command fails before or after the drive acted: with the error number -RESULT
 *                               if RESULT is negative, else with this NVMe status
 *   BUMBAZEEL_SHIM_LOG=FILE     each Get Log Page's five words and answer, and a line for each other command
 *
 * 08h has a capture from the start; 07h is empty until a create, whose contents do not depend on who sends it. */
#define _GNU_SOURCE
#include "bumbazeel.h"

#include <dlfcn.h>
#include <errno.h>
#include <fcntl.h>
#include <linux/nvme_ioctl.h>
#include <stdarg.h>
#include <stdbool.h>
#include <stdio.h>
#include <stdlib.h>
#include <string.h>
#include <sys/ioctl.h>
#include <sys/mman.h>
#include <sys/stat.h>
#include <sys/sysmacros.h>
#include <unistd.h>

enum { GET_LOG_PAGE = 0x02, IDENTIFY = 0x06, GET_FEATURES = 0x0A };
enum { BLOCK = BUMBAZEEL_BLOCK, REASON = BUMBAZEEL_REASON, NVME_MAJOR = 243, INVALID_OPCODE = 0x0001, INVALID_FIELD = 0x0002 };
static const uint32_t OUI = 0x02425A, RETAIN_EVENT = 1u << 15;

static struct {
    bool ready, old;
    int file;
    struct bumbazeel_record record;
    uint32_t last[4];
    uint8_t *host, *controller, *candidate;
    size_t bytes;
    uint8_t reason[REASON];
    unsigned captures;
    long asked, capture_before, drop_before, gone_from;
    long admins, fails_at, fails_with;
    bool fails_after;
} drive = {.file = -1};

/* The log is mapped before the program starts, so that no failing system call of the program's keeps a command out of it. */
static struct {
    int file;
    pid_t owner;
    char *text;
    size_t used;
} record_of_commands = {.file = -1};
enum { LONGEST_LOG = 64 << 20 };

static long setting(const char *name, long otherwise) {
    const char *text = getenv(name);
    return text ? strtol(text, NULL, 0) : otherwise;
}

static void must(bool good, const char *what) {
    if (good)
        return;
    fprintf(stderr, "shim: %s\n", what);
    _exit(70);
}

/* The contents of a capture: every block of every capture differs. */
static void next_candidate(void) {
    unsigned n = ++drive.captures;
    for (size_t i = 0; i < drive.bytes; i++)
        drive.candidate[i] = (uint8_t)((i / BLOCK * 31 + i * 7 + n * 97) >> (i & 1));
    memset(drive.reason, 0, REASON);
    snprintf((char *)drive.reason, REASON, "shim capture %u", n);
}

static struct bumbazeel_lent lent(void) {
    struct bumbazeel_lent lent = {.record = &drive.record,
                                  .host_store = drive.host,
                                  .host_bytes = drive.bytes,
                                  .controller_store = drive.controller,
                                  .controller_bytes = drive.bytes,
                                  .candidate = drive.candidate,
                                  .candidate_bytes = drive.bytes,
                                  .reason = drive.reason,
                                  .reason_bytes = REASON};
    memcpy(lent.last, drive.last, sizeof lent.last);
    return lent;
}

static void take_08(void) {
    next_candidate();
    struct bumbazeel_lent all = lent();
    must(!bumbazeel_capture_on(&all), "the capture is refused");
}

static uint8_t command(const uint32_t words[5], uint8_t *buffer, size_t bytes) {
    struct bumbazeel_lent all = lent();
    uint8_t identifier_class;
    return bumbazeel_command_on(&all, words, buffer, bytes, &identifier_class);
}

static void take_07(void) {
    uint32_t words[5];
    uint8_t header[BLOCK];
    next_candidate();
    must(!bumbazeel_words(7, 1, 0, 1, 0, 1, words) && !command(words, header, sizeof header), "the create is refused");
}

static void drop_07(void) {
    struct bumbazeel_lent all = lent();
    must(!bumbazeel_drop_on(&all), "the drop is refused");
}

static uint8_t shown_lpa(void) { return (uint8_t)setting("BUMBAZEEL_SHIM_LPA", drive.old ? 1 << 3 : 1 << 2 | 1 << 3 | 1 << 5 | 1 << 6); }

static uint8_t shown_mdts(void) { return (uint8_t)setting("BUMBAZEEL_SHIM_MDTS", 5); }

static void read_failure(void) {
    const char *text = getenv("BUMBAZEEL_SHIM_FAIL");
    char when[8] = "";
    if (!text)
        return;
    must(sscanf(text, "%ld,%7[a-z],%li", &drive.fails_at, when, &drive.fails_with) == 3, "BUMBAZEEL_SHIM_FAIL wants N,before|after,RESULT");
    drive.fails_after = !strcmp(when, "after");
}

static void get_ready(void) {
    const char *areas = getenv("BUMBAZEEL_SHIM_AREAS");
    uint8_t caps = BUMBAZEEL_TELEMETRY | (shown_lpa() & 1 << 2 ? BUMBAZEEL_EXTENDED : 0) | (drive.old ? 0 : BUMBAZEEL_DA4S);
    must(sscanf(areas ? areas : "2,3,5,9", "%u,%u,%u,%u", &drive.last[0], &drive.last[1], &drive.last[2], &drive.last[3]) == 4,
         "BUMBAZEEL_SHIM_AREAS wants four numbers");
    if (setting("BUMBAZEEL_SHIM_ETDAS", 1) && !drive.old)
        caps |= BUMBAZEEL_ETDAS;
    if (setting("BUMBAZEEL_SHIM_MCDAS", 0))
        caps |= BUMBAZEEL_MCDAS;
    drive.bytes = (size_t)drive.last[3] * BLOCK;
    drive.host = calloc(1, drive.bytes + 1);
    drive.controller = calloc(1, drive.bytes + 1);
    drive.candidate = calloc(1, drive.bytes + 1);
    must(drive.host && drive.controller && drive.candidate, "out of memory");
    must(!bumbazeel_fresh(caps, OUI, 1, 1, &drive.record), "the record is refused");
    drive.capture_before = setting("BUMBAZEEL_SHIM_CAPTURE", 0);
    drive.drop_before = setting("BUMBAZEEL_SHIM_DROP", 0);
    drive.gone_from = setting("BUMBAZEEL_SHIM_GONE", 0);
    read_failure();
    take_08();
    if (setting("BUMBAZEEL_SHIM_ETDAS", 1) == 2)
        drive.record.caps &= (uint8_t)~BUMBAZEEL_ETDAS;
    next_candidate(); /* for a create */
    drive.ready = true;
}

/* A system call that nobody else makes, for whoever traces the program: it starts, the drive has an acknowledgement, it is at its end. */
enum { START = 0x7FFF0001, ACKNOWLEDGEMENT = 0x7FFF0002, END = 0x7FFF0003 };
static void mark(pid_t what) { (void)getsid(what); }

__attribute__((constructor)) static void open_log(void) {
    const char *path = getenv("BUMBAZEEL_SHIM_LOG");
    if (!path || !getenv("BUMBAZEEL_SHIM"))
        return;
    record_of_commands.file = open(path, O_RDWR | O_CREAT | O_TRUNC | O_CLOEXEC, 0666);
    must(record_of_commands.file >= 0 && !ftruncate(record_of_commands.file, LONGEST_LOG), "the log cannot be opened");
    record_of_commands.text = mmap(NULL, LONGEST_LOG, PROT_READ | PROT_WRITE, MAP_SHARED, record_of_commands.file, 0);
    must(record_of_commands.text != MAP_FAILED, "the log cannot be mapped");
    record_of_commands.owner = getpid();
    mark(START);
}

/* Where the text ends, which other processes of the program may have written. */
static char *end_of_log(void) {
    while (record_of_commands.text[record_of_commands.used])
        record_of_commands.used++;
    return record_of_commands.text + record_of_commands.used;
}

/* A process that is killed leaves the zeros behind the text, and so does a child, whose parent still writes. */
__attribute__((destructor)) static void close_log(void) {
    if (!record_of_commands.text)
        return;
    mark(END);
    if (getpid() == record_of_commands.owner && ftruncate(record_of_commands.file, end_of_log() - record_of_commands.text))
        fprintf(stderr, "shim: the log has zeros at its end\n");
}

static void log_line(const char *format, ...) __attribute__((format(printf, 1, 2)));
static void log_line(const char *format, ...) {
    va_list values;
    if (!record_of_commands.text)
        return;
    char *at = end_of_log();
    must(record_of_commands.used < LONGEST_LOG - 4096, "the log is full");
    va_start(values, format);
    vsnprintf(at, 4096, format, values);
    va_end(values);
}

/* The page that lists the pages: those that the shim serves, and MCDAS in the entry of 07h. */
static int get_supported(uint8_t *data, size_t bytes) {
    memset(data, 0, bytes);
    for (size_t page = 0; page <= 8 && 4 * page + 2 < bytes; page += page ? 1 : 7)
        data[4 * page] = 1;
    if (bytes > 4 * 7 + 2)
        data[4 * 7 + 2] = drive.record.caps & BUMBAZEEL_MCDAS ? 1 : 0;
    return 0;
}

static void change_header(uint8_t *header) {
    const char *at = getenv("BUMBAZEEL_SHIM_HEADER");
    unsigned byte, value;
    for (int used = 0; at && *at; at += used + (at[used] == ',')) {
        must(sscanf(at, "%u=%u%n", &byte, &value, &used) == 2 && byte < BLOCK && value < 256, "BUMBAZEEL_SHIM_HEADER wants BYTE=VALUE,..");
        header[byte] = (uint8_t)value;
    }
}

static int get_log_page(const uint32_t words[5], uint8_t *data, size_t bytes) {
    uint8_t page = words[0] & 0xFF;
    if (page == 0) {
        log_line("page 00h 0000\n");
        return get_supported(data, bytes);
    }
    drive.asked++;
    if (drive.gone_from && drive.asked >= drive.gone_from) {
        errno = ENODEV;
        return -1;
    }
    if (page == 8 && !(words[0] & RETAIN_EVENT))
        mark(ACKNOWLEDGEMENT);
    if (drive.asked == drive.drop_before)
        drop_07();
    if (drive.asked == drive.capture_before)
        page == 8 ? take_08() : take_07();
    bool too_long = shown_mdts() && bytes > (size_t)4096 << shown_mdts();
    uint8_t answer = too_long ? BUMBAZEEL_INVALID_FIELD : command(words, data, bytes);
    uint16_t status = bumbazeel_status(answer);
    must(status != 0xFFFF, "the controller is lent too little");
    if (!answer && !words[2] && !words[3])
        change_header(data);
    log_line("%08X %08X %08X %08X %08X %04X\n", words[0], words[1], words[2], words[3], words[4], status);
    return status;
}

static int identify(uint32_t what, uint8_t *data, size_t bytes) {
    if (what != 1 || bytes < 4096)
        return INVALID_FIELD;
    memset(data, 0, bytes);
    memcpy(data + 4, "SHIM0001            ", 20);
    memcpy(data + 24, "Bumbazeel proved controller             ", 40);
    memcpy(data + 64, "1.0     ", 8);
    data[73] = OUI & 0xFF;
    data[74] = OUI >> 8 & 0xFF;
    data[75] = OUI >> 16;
    data[77] = shown_mdts();
    data[261] = shown_lpa();
    return 0;
}

static int get_features(uint32_t what, uint8_t *data, size_t bytes) {
    if (what != 0x16 || bytes < BLOCK)
        return INVALID_FIELD;
    memset(data, 0, bytes);
    data[1] = drive.record.caps & BUMBAZEEL_ETDAS ? 1 : 0;
    log_line("feature 16h 0000\n");
    return 0;
}

static int serve(struct nvme_admin_cmd *c) {
    uint8_t *data = (uint8_t *)(uintptr_t)c->addr;
    const uint32_t words[5] = {c->cdw10, c->cdw11, c->cdw12, c->cdw13, c->cdw14};
    switch (c->opcode) {
    case GET_LOG_PAGE: return get_log_page(words, data, c->data_len);
    case IDENTIFY:
        log_line("Identify timeout %u\n", c->timeout_ms);
        return identify(c->cdw10 & 0xFF, data, c->data_len);
    case GET_FEATURES: return get_features(c->cdw10 & 0xFF, data, c->data_len);
    default: return INVALID_OPCODE;
    }
}

static int admin(struct nvme_admin_cmd *c) {
    bool fails = ++drive.admins == drive.fails_at;
    int status = fails && !drive.fails_after ? 0 : serve(c);
    if (!fails)
        return status;
    log_line("failed %s the drive acted\n", drive.fails_after ? "after" : "before");
    if (drive.fails_with < 0)
        errno = (int)-drive.fails_with;
    return drive.fails_with < 0 ? -1 : (int)drive.fails_with;
}

/* ---- what the program calls */

static bool is_named(const char *path, const char *name) {
    const char *here = getenv(name);
    return here && path && !strcmp(path, here);
}

static bool is_drive(const char *path) { return is_named(path, "BUMBAZEEL_SHIM") || is_named(path, "BUMBAZEEL_SHIM_OLD"); }

static int open_drive(const char *path) {
    int (*real)(const char *, int, ...) = (int (*)(const char *, int, ...))(uintptr_t)dlsym(RTLD_NEXT, "open");
    drive.old = is_named(path, "BUMBAZEEL_SHIM_OLD");
    drive.file = real("/dev/null", O_RDONLY | O_CLOEXEC);
    return drive.file;
}

#define OPENS(name)                                                                                                                        \
    int name(const char *path, int flags, ...) {                                                                                          \
        va_list rest;                                                                                                                      \
        va_start(rest, flags);                                                                                                             \
        mode_t mode = flags & (O_CREAT | O_TMPFILE) ? va_arg(rest, mode_t) : 0;                                                           \
        va_end(rest);                                                                                                                      \
        if (is_drive(path))                                                                                                                \
            return open_drive(path);                                                                                                       \
        return ((int (*)(const char *, int, ...))(uintptr_t)dlsym(RTLD_NEXT, #name))(path, flags, mode);                                  \
    }
OPENS(open)
OPENS(open64)

/* What a fortified build calls where it opens and does not create. */
#define OPENS_ONLY(name)                                                                                                                   \
    int name(const char *path, int flags);                                                                                                 \
    int name(const char *path, int flags) {                                                                                                \
        return is_drive(path) ? open_drive(path) : ((int (*)(const char *, int))(uintptr_t)dlsym(RTLD_NEXT, #name))(path, flags);         \
    }
OPENS_ONLY(__open_2)
OPENS_ONLY(__open64_2)

/* The drive is a character device to whoever looks. */
#define STATS(name, type)                                                                                                                  \
    int name(int file, struct type *found) {                                                                                              \
        int status = ((int (*)(int, struct type *))(uintptr_t)dlsym(RTLD_NEXT, #name))(file, found);                                      \
        if (!status && file >= 0 && file == drive.file) {                                                                                  \
            found->st_mode = (found->st_mode & ~(mode_t)S_IFMT) | S_IFCHR;                                                                 \
            found->st_rdev = makedev(NVME_MAJOR, 0);                                                                                       \
        }                                                                                                                                  \
        return status;                                                                                                                     \
    }
STATS(fstat, stat)
STATS(fstat64, stat64)

int ioctl(int file, unsigned long request, ...) {
    va_list rest;
    va_start(rest, request);
    void *argument = va_arg(rest, void *);
    va_end(rest);
    if (file < 0 || file != drive.file)
        return ((int (*)(int, unsigned long, ...))(uintptr_t)dlsym(RTLD_NEXT, "ioctl"))(file, request, argument);
    if (!drive.ready)
        get_ready();
    if (request == NVME_IOCTL_ADMIN_CMD)
        return admin(argument);
    errno = ENOTTY;
    return -1;
}
