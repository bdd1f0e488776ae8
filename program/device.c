/* A device of this machine: admin commands through Linux's passthrough, with open and ioctl and nothing else. */
#include "drive.h"

#include "lazy.h"
#include "names.h"
#include "numbers.h"
#include "say.h"

#include <errno.h>
#include <fcntl.h>
#include <linux/nvme_ioctl.h>
#include <stdarg.h>
#include <stdio.h>
#include <string.h>
#include <sys/ioctl.h>
#include <sys/stat.h>

enum { GET_LOG_PAGE = 0x02, IDENTIFY = 0x06, GET_FEATURES = 0x0A }; /* admin opcodes */
enum { CNS_CONTROLLER = 0x01, HOST_BEHAVIOR_SUPPORT = 0x16 };       /* what Identify and Get Features ask for */
enum { IDENTIFY_BYTES = 4096, BEHAVIOR_BYTES = 512, SUPPORTED_BYTES = 1024 };
enum { SERIAL_AT = 4, MODEL_AT = 24, FIRMWARE_AT = 64, IEEE_AT = 73, MDTS_AT = 77, LPA_AT = 261, ETDAS_AT = 1, ENTRY_07_AT = 4 * 0x07 };
enum { LPA_EXTENDED = 1 << 2, LPA_TELEMETRY = 1 << 3, LPA_SUPPORTED_PAGES = 1 << 5, LPA_DA4S = 1 << 6 };
enum { BLOCKS_A_PAGE = 4096 / 512, MOST_BLOCKS_OF_PCI = 127 * BLOCKS_A_PAGE }; /* CAP.MPSMIN taken as 4,096 bytes */
enum { STATUS_MASK = 0x7FF, PATH_RELATED = 3 };                                  /* above the status are hints about trying again */
static const uint32_t EVERY_NAMESPACE = 0xFFFFFFFF;

static struct {
    struct drive drive;
    int file;
    uint8_t lpa;
    uint32_t timeout;
    int reason; /* the error number of the latest ioctl that failed */
} here;

static void trouble(const char *format, ...) __attribute__((format(printf, 1, 2)));
static void trouble(const char *format, ...) {
    va_list values;
    va_start(values, format);
    vsnprintf(here.drive.trouble, sizeof here.drive.trouble, format, values);
    va_end(values);
}

/* Why Linux has no answer of the drive's. */
static void explain(int reason, size_t bytes) {
    if (reason == EINTR)
        trouble("the system gave the command up: it took too long, or the controller was reset");
    else if (reason == EAGAIN)
        trouble("the controller is being reset or reconnected: try again later");
    else if (reason == EINVAL)
        trouble("the system takes no transfer of %zu blocks: %s", bytes / 512,
                drive_is_old(&here.drive) ? "choose a smaller area with --area" : "give fewer with --blocks");
    else
        trouble("the drive cannot be asked: %s", strerror(reason));
}

/* Sends an admin command: its NVMe status, type * 256 + code, 0 being success; -1: it is not known what the drive did. */
static int admin(struct nvme_admin_cmd command, uint8_t *data, size_t bytes) {
    memset(data, 0, bytes); /* what a drive does not transfer must not be an earlier command's data */
    command.addr = (uint64_t)(uintptr_t)data;
    command.data_len = (uint32_t)bytes;
    command.timeout_ms = here.timeout;
    int status = ioctl(here.file, NVME_IOCTL_ADMIN_CMD, &command);
    if (status < 0) {
        here.reason = errno;
        explain(here.reason, bytes);
        return -1;
    }
    status &= STATUS_MASK;
    if (status >> 8 == PATH_RELATED) { /* Linux's own word, or one about the way: no refusal of the drive's */
        trouble("the way to the drive is lost: status %04Xh (%s)", (unsigned)status, status_name((uint16_t)status));
        return -1;
    }
    return status;
}

static enum completion device_send(struct drive *drive, const uint32_t words[5], uint8_t *data, size_t bytes) {
    struct nvme_admin_cmd command = {.opcode = GET_LOG_PAGE,
                                     .nsid = EVERY_NAMESPACE,
                                     .cdw10 = words[0],
                                     .cdw11 = words[1],
                                     .cdw12 = words[2],
                                     .cdw13 = words[3],
                                     .cdw14 = words[4]};
    int status = admin(command, data, bytes);
    if (status > 0)
        drive->refusal = (uint16_t)status;
    return status < 0 ? LOST : status ? REFUSED : SUCCEEDED;
}

/* A text of Identify, without the spaces at its end. */
static void put_text(char *text, const uint8_t *at, size_t bytes) {
    while (bytes && (at[bytes - 1] == ' ' || !at[bytes - 1]))
        bytes--;
    memcpy(text, at, bytes);
    text[bytes] = '\0';
    make_plain(text);
}

static void put_most_blocks(uint8_t mdts) {
    uint32_t transferred = mdts == 0 || mdts > 20 ? UINT32_MAX : (uint32_t)BLOCKS_A_PAGE << mdts;
    bool by_drive = transferred <= MOST_BLOCKS_OF_PCI;
    here.drive.most_blocks = by_drive ? transferred : MOST_BLOCKS_OF_PCI;
    here.drive.most_blocks_by = by_drive ? "the drive transfers (MDTS)" : "Linux surely takes (127 parts of memory)";
}

/* Who it is, LPA, MDTS and OUI from Identify Controller. */
static void identify(uint8_t *data) {
    struct nvme_admin_cmd command = {.opcode = IDENTIFY, .cdw10 = CNS_CONTROLLER};
    int status = admin(command, data, IDENTIFY_BYTES);
    if (status < 0 && (here.reason == ENOTTY || here.reason == EINVAL))
        die("%s: is no NVMe device: %s", here.drive.path, strerror(here.reason));
    if (status < 0)
        die("%s: %s: nothing was saved", here.drive.path, here.drive.trouble);
    if (status)
        die("%s: the drive refuses Identify Controller with status %04Xh (%s)", here.drive.path, (unsigned)status,
            status_name((uint16_t)status));
    here.lpa = data[LPA_AT];
    here.drive.caps |= here.lpa & LPA_EXTENDED ? BUMBAZEEL_EXTENDED : 0;
    here.drive.caps |= here.lpa & LPA_TELEMETRY ? BUMBAZEEL_TELEMETRY : 0;
    here.drive.caps |= here.lpa & LPA_DA4S ? BUMBAZEEL_DA4S : 0;
    here.drive.oui = data[IEEE_AT] | (uint32_t)data[IEEE_AT + 1] << 8 | (uint32_t)data[IEEE_AT + 2] << 16;
    put_text(here.drive.serial, data + SERIAL_AT, sizeof here.drive.serial - 1);
    put_text(here.drive.model, data + MODEL_AT, sizeof here.drive.model - 1);
    put_text(here.drive.firmware, data + FIRMWARE_AT, sizeof here.drive.firmware - 1);
    put_most_blocks(data[MDTS_AT]);
}

/* Asks for one thing that a drive may lack; true if it answered. A refused command is an entry in the drive's error log, so nobody asks
 * where LPA has no bit for it. */
static bool asked(struct nvme_admin_cmd command, uint8_t *data, size_t bytes) {
    int status = admin(command, data, bytes);
    if (status < 0)
        die("%s: %s: nothing was saved", here.drive.path, here.drive.trouble);
    return status == 0;
}

/* The host's yes to area 4. */
static void ask_etdas(uint8_t *data) {
    struct nvme_admin_cmd command = {.opcode = GET_FEATURES, .cdw10 = HOST_BEHAVIOR_SUPPORT};
    if (asked(command, data, BEHAVIOR_BYTES) && data[ETDAS_AT] == 1)
        here.drive.caps |= BUMBAZEEL_ETDAS;
}

/* Bit 16 of entry 07h of the page that lists the pages. */
static void ask_mcdas(uint8_t *data) {
    struct nvme_admin_cmd command = {.opcode = GET_LOG_PAGE, .nsid = EVERY_NAMESPACE, .cdw10 = (SUPPORTED_BYTES / 4 - 1) << 16};
    if (asked(command, data, SUPPORTED_BYTES) && data[ENTRY_07_AT + 2] & 1)
        here.drive.caps |= BUMBAZEEL_MCDAS;
}

static void open_file(const char *path) {
    struct stat found;
    here.file = open(path, O_RDONLY | O_NONBLOCK | O_CLOEXEC); /* a pipe must not keep it waiting */
    if (here.file < 0)
        die("%s: cannot open the drive: %s%s", path, strerror(errno), errno == EACCES ? ": this mostly takes root's rights" : "");
    if (fstat(here.file, &found))
        die("%s: cannot open the drive: %s", path, strerror(errno));
    if (!S_ISCHR(found.st_mode) && !S_ISBLK(found.st_mode))
        die("%s: is no NVMe device but %s: give one such as /dev/nvme0", path,
            S_ISDIR(found.st_mode)   ? "a directory"
            : S_ISREG(found.st_mode) ? "a file"
                                     : "a pipe or a socket");
}

struct drive *device_open(const char *path, uint32_t timeout) {
    uint8_t *data = lazy_bytes(IDENTIFY_BYTES);
    here.drive.path = path;
    here.drive.send = device_send;
    here.timeout = timeout;
    open_file(path);
    identify(data);
    free_bytes(data, IDENTIFY_BYTES);
    return &here.drive;
}

void device_ask(void) {
    uint8_t *data = lazy_bytes(IDENTIFY_BYTES);
    if (here.lpa & LPA_DA4S)
        ask_etdas(data);
    if (here.lpa & LPA_SUPPORTED_PAGES)
        ask_mcdas(data);
    free_bytes(data, IDENTIFY_BYTES);
}

const char *drive_name(const struct drive *drive) { return drive->path ? drive->path : "the embedded drive"; }

bool drive_is_old(const struct drive *drive) {
    return (drive->caps & (BUMBAZEEL_TELEMETRY | BUMBAZEEL_EXTENDED)) == BUMBAZEEL_TELEMETRY;
}

uint32_t drive_reach(const struct drive *drive) { return drive->most_blocks <= REACH ? drive->most_blocks - 1 : REACH; }

size_t transfer_bytes(uint8_t caps, const uint32_t words[5]) {
    uint32_t count = caps & BUMBAZEEL_EXTENDED ? words[0] >> 16 | (words[1] & 0xFFFF) << 16 : words[0] >> 16 & 0xFFF;
    return 4 * ((size_t)count + 1);
}
