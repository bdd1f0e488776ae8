/* A temporary file in the directory of the one that is wanted, then a rename: no reader ever meets half a file, and an older file is only
 * replaced by a whole one. The temporary is removed at the program's end, whichever way that comes. */
#define _GNU_SOURCE /* renameat2 */
#include "output.h"

#include "place.h"
#include "say.h"
#include "stop.h"

#include <errno.h>
#include <fcntl.h>
#include <poll.h>
#include <stdio.h>
#include <stdlib.h>
#include <string.h>
#include <sys/ioctl.h>
#include <sys/stat.h>
#include <time.h>
#include <unistd.h>

enum { PIECE = 1 << 20 }; /* between two pieces a stop is looked for */
enum { MOMENT = 20 };     /* milliseconds: a stop is looked for as often while somebody is waited for */

static struct {
    const char *name, *base; /* as it was given, and its last part */
    bool standard;           /* it is standard output */
    bool fresh;              /* it replaces no file */
    int directory, file;
    mode_t mode;
    char temporary[80]; /* "" while there is none */
} output;

const char *output_called(void) { return output.standard ? "standard output" : output.name; }

bool output_is_standard(void) { return output.standard; }

static void remove_temporary(void) {
    if (output.temporary[0] && unlinkat(output.directory, output.temporary, 0))
        say("%s: the temporary file %s beside it cannot be removed: %s", output.name, output.temporary, strerror(errno));
    output.temporary[0] = '\0';
}

/* What stands there may only be a file that a rename can replace, and that nobody has protected. The new file takes the older one's mode. */
static void look_at_older(void) {
    struct stat older;
    output.mode = usual_mode();
    if (fstatat(output.directory, output.base, &older, AT_SYMLINK_NOFOLLOW)) {
        if (errno != ENOENT)
            die("%s: %s", output.name, strerror(errno));
        return;
    }
    if (output.fresh)
        die("%s: is there already, and --no-clobber replaces nothing", output.name);
    if (S_ISCHR(older.st_mode) || S_ISBLK(older.st_mode))
        die("%s: is a device: give a file's name for OUTPUT after it, or - for standard output", output.name);
    if (no_file(&older))
        die("%s: is %s: give a file's name for OUTPUT, or - for standard output", output.name, no_file(&older));
    if (write_protected(&older))
        die("%s: is there already and is write-protected: give another name for OUTPUT", output.name);
    output.mode = older.st_mode & PERMISSIONS;
}

static void open_temporary(void) {
    char name[sizeof output.temporary];
    struct timespec now;
    clock_gettime(CLOCK_REALTIME, &now); /* in the name, so that what a killed run left is never in the way */
    output.file = -1;
    for (unsigned n = 0; output.file < 0; n++) {
        snprintf(name, sizeof name, ".bumbazeel.%ld.%lld.%09ld.%u", (long)getpid(), (long long)now.tv_sec, now.tv_nsec, n);
        output.file = openat(output.directory, name, O_WRONLY | O_CREAT | O_EXCL | O_CLOEXEC, 0600);
        if (output.file < 0 && (errno != EEXIST || n == 100))
            die("%s: cannot make a file in its directory: %s", output.name, strerror(errno));
    }
    memcpy(output.temporary, name, sizeof name);
}

void output_open(const char *name, bool fresh) {
    output.name = name;
    output.fresh = fresh;
    output.standard = strcmp(name, "-") == 0;
    if (output.standard) {
        if (isatty(STDOUT_FILENO))
            die("standard output is a terminal: give a file's name for OUTPUT, or send - to a file or a program");
        output.file = STDOUT_FILENO;
        return;
    }
    output.directory = place_open(name, "OUTPUT", &output.base);
    if (!*output.base)
        die("'%s': give a file's name for OUTPUT, or - for standard output", name);
    look_at_older();
    atexit(remove_temporary);
    open_temporary();
}

/* Waits a moment for room in an output that does not wait by itself. */
static void wait_for_room(void) {
    struct pollfd place = {.fd = output.file, .events = POLLOUT};
    (void)poll(&place, 1, MOMENT);
}

static void write_all(const uint8_t *bytes, size_t count) {
    while (count) {
        stop_here();
        ssize_t done = write(output.file, bytes, count < PIECE ? count : PIECE);
        if (done < 0 && errno == EAGAIN)
            wait_for_room();
        else if (done < 0 && errno != EINTR)
            die("%s: cannot write: %s: nothing was saved", output_called(), strerror(errno));
        else if (done == 0)
            die("%s: cannot write: it takes no more bytes: nothing was saved", output_called());
        if (done > 0) {
            bytes += done;
            count -= (size_t)done;
        }
    }
}

/* What a pipe's reader has not taken is not saved. */
static void wait_for_reader(void) {
    int unread = 0;
    while (ioctl(output.file, FIONREAD, &unread) == 0 && unread > 0) {
        struct pollfd reader = {.fd = output.file, .events = 0};
        stop_here();
        if (poll(&reader, 1, MOMENT) > 0 && reader.revents & POLLERR)
            die("standard output: its reader is gone and has left %d bytes: nothing was saved", unread);
    }
}

static void flush_standard(void) {
    struct stat about;
    bool known = fstat(output.file, &about) == 0;
    bool on_disk = known && (S_ISREG(about.st_mode) || S_ISBLK(about.st_mode));
    if (!known || (on_disk && fsync(output.file)))
        die("standard output: cannot write: %s: nothing was saved", strerror(errno));
    if (S_ISFIFO(about.st_mode))
        wait_for_reader();
}

static void close_file(void) {
    (void)fchmod(output.file, output.mode); /* a file system without modes has its own */
    bool kept = fsync(output.file) == 0;
    int reason = errno;
    if (close(output.file) && kept) {
        kept = false;
        reason = errno;
    }
    stop_here();
    if (!kept)
        die("%s: cannot write: %s: nothing was saved", output.name, strerror(reason));
}

/* Whether the temporary has got the name, which no other file had. Where a file system cannot rename so, the file gets a second name, and
 * the first is left to be removed. */
static bool renamed_fresh(const char *from) {
    if (renameat2(output.directory, from, output.directory, output.base, RENAME_NOREPLACE) == 0)
        return true;
    if ((errno != EINVAL && errno != ENOSYS) || linkat(output.directory, from, output.directory, output.base, 0))
        return false;
    snprintf(output.temporary, sizeof output.temporary, "%s", from);
    remove_temporary();
    return true;
}

static void give_name(void) {
    char kept[sizeof output.temporary];
    memcpy(kept, output.temporary, sizeof kept);
    output.temporary[0] = '\0'; /* whole as it is, it is not removed any more */
    if (output.fresh ? !renamed_fresh(kept) : renameat(output.directory, kept, output.directory, output.base) != 0)
        die("%s: cannot get its name: %s: the whole file is kept beside it as %s", output.name, strerror(errno), kept);
}

void output_save(const uint8_t *bytes, size_t count) {
    write_all(bytes, count);
    if (output.standard) {
        flush_standard();
    } else {
        close_file();
        give_name();
    }
}

int output_sync_name(void) { return output.standard ? 0 : place_sync(output.directory); }
