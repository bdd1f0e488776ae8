/* The sheet is replaced whole by a rename, so a reader needs no lock. Whoever enters a run locks the directory, reads, enters and renames: a lock of
 * the file itself would be one of a file that has lost its name when the next one gets it. The lock falls with the process, whatever ends it.
 *
 * Under the lock nobody else has a temporary file, so its name is fixed: what a killed program left is replaced by the next one. */
#include "sheet_file.h"

#include "place.h"
#include "report.h"
#include "say.h"
#include "stop.h"

#include <errno.h>
#include <fcntl.h>
#include <limits.h>
#include <poll.h>
#include <stdarg.h>
#include <stdio.h>
#include <stdlib.h>
#include <string.h>
#include <sys/file.h>
#include <unistd.h>

enum { MOMENT = 20, PATIENCE = 2000 }; /* milliseconds: a lock is tried as often, and who waits longer is told */

static struct {
    const char *name, *base; /* as it was given, and its last part */
    bool quiet;
    int directory;
    mode_t mode;
    char temporary[NAME_MAX + 1];
    bool begun;        /* the temporary is there */
    char words[6144];  /* that end the line of whatever dies */
} file;

static const char OWN_NAMES[] = ".bumbazeel.";

/* Dies of what is wrong with the sheet, and tells what became of the copy if the run has ended. */
static _Noreturn void fail(const char *format, ...) __attribute__((format(printf, 1, 2)));

static void fail(const char *format, ...) {
    char text[512];
    va_list values;
    const char *standing = report.ended ? report_standing() : "";
    va_start(values, format);
    vsnprintf(text, sizeof text, format, values);
    va_end(values);
    die("%s: %s%s%s", file.name, text, *standing ? ": " : "", standing);
}

static void remove_temporary(void) {
    if (file.begun && unlinkat(file.directory, file.temporary, 0))
        say("%s: the temporary file %s beside it cannot be removed: %s", file.name, file.temporary, strerror(errno));
    file.begun = false;
}

/* Takes the name and opens its directory. */
static void find(const char *name) {
    file.name = name;
    file.directory = place_open(name, "the sheet", &file.base);
    if (!*file.base || strcmp(name, "-") == 0)
        die("'%s': give a file's name for the sheet", name);
    if (strncmp(file.base, OWN_NAMES, strlen(OWN_NAMES)) == 0)
        die("%s: names that start with %s are those of temporary files: give another name for the sheet", name, OWN_NAMES);
    snprintf(file.temporary, sizeof file.temporary, "%ssheet.%s", OWN_NAMES, file.base); /* cut, it still is nobody else's under the lock */
    atexit(remove_temporary);
}

static void lock(void) {
    for (int waited = 0; flock(file.directory, LOCK_EX | LOCK_NB); waited += MOMENT) {
        if (errno != EWOULDBLOCK && errno != EINTR)
            fail("cannot lock its directory: %s", strerror(errno));
        stop_here();
        if (waited == PATIENCE && !file.quiet)
            say("note: %s: waiting for the lock of its directory, which another program has", file.name);
        (void)poll(NULL, 0, MOMENT);
    }
}

static void unlock(void) { (void)flock(file.directory, LOCK_UN); }

/* Reads up to `bytes` bytes; fewer at the end of the file, and -1 if it cannot be read. */
static ssize_t read_some(int opened, uint8_t *to, size_t bytes) {
    size_t done = 0;
    for (ssize_t n = 1; n && done < bytes;) {
        n = read(opened, to + done, bytes - done);
        if (n < 0 && errno != EINTR)
            return -1;
        if (n > 0)
            done += (size_t)n;
    }
    return (ssize_t)done;
}

const char *sheet_read(int opened, struct bumbazeel_sheet *sheet) {
    static char why[192];
    uint8_t bytes[sizeof *sheet + 1] = {0}; /* one more tells a longer file */
    struct bumbazeel_mean mean;
    ssize_t count = read_some(opened, bytes, sizeof bytes);
    if (count < 0) {
        snprintf(why, sizeof why, "cannot read: %s", strerror(errno));
        return why;
    }
    memcpy(sheet, bytes, sizeof *sheet);
    bool fits = count == sizeof *sheet, longer = count > (ssize_t)sizeof *sheet;
    uint8_t answer = fits ? bumbazeel_mean(sheet, &mean) : BUMBAZEEL_BAD_SETUP;
    int said = snprintf(why, sizeof why, "%u (%s): it is no sheet", answer, meaning(answer));
    if (fits)
        snprintf(why + said, sizeof why - (size_t)said, ", or a damaged one");
    else
        snprintf(why + said, sizeof why - (size_t)said, ": it has %s%zu bytes, and a sheet has %zu", longer ? "more than " : "",
                 longer ? sizeof *sheet : (size_t)count, sizeof *sheet);
    return answer ? why : NULL;
}

/* Whatever stands under the name may only be a file that a rename can replace, and that nobody has protected. */
static void judge(const struct stat *older) {
    struct stat standard;
    if (no_file(older))
        fail("is %s: give a file's name for the sheet", no_file(older));
    if (write_protected(older))
        fail("is there already and is write-protected: give another name for the sheet");
    if (fstat(STDOUT_FILENO, &standard) == 0 && same_file(older, &standard))
        fail("is standard output too: what is printed would damage the sheet");
}

/* The sheet as it stands; a new one if there is none. The next one takes its mode. */
static void take_up(struct bumbazeel_sheet *sheet) {
    struct stat older;
    file.mode = usual_mode();
    if (fstatat(file.directory, file.base, &older, AT_SYMLINK_NOFOLLOW)) {
        if (errno != ENOENT)
            fail("%s", strerror(errno));
        bumbazeel_new_sheet(sheet);
        return;
    }
    judge(&older);
    file.mode = older.st_mode & PERMISSIONS;
    int opened = openat(file.directory, file.base, O_RDONLY | O_NOFOLLOW | O_NONBLOCK | O_CLOEXEC);
    if (opened < 0)
        fail("cannot open: %s", strerror(errno));
    const char *why = sheet_read(opened, sheet);
    if (why)
        fail("%s", why);
    close(opened);
}

static int make_temporary(void) { return openat(file.directory, file.temporary, O_WRONLY | O_CREAT | O_EXCL | O_CLOEXEC, 0600); }

/* Makes the temporary, in the place of one that a killed program left. */
static int begin_temporary(void) {
    int temporary = make_temporary();
    if (temporary < 0 && errno == EEXIST && unlinkat(file.directory, file.temporary, 0) == 0)
        temporary = make_temporary();
    if (temporary < 0)
        fail("cannot make %s in its directory: %s", file.temporary, strerror(errno));
    file.begun = true;
    return temporary;
}

static void write_all(int temporary, const struct bumbazeel_sheet *sheet) {
    const uint8_t *at = (const uint8_t *)sheet, *end = at + sizeof *sheet;
    while (at < end) {
        ssize_t done = write(temporary, at, (size_t)(end - at));
        if (done < 0 && errno != EINTR)
            fail("cannot write: %s", strerror(errno));
        if (done == 0)
            fail("cannot write: it takes no more bytes");
        if (done > 0)
            at += done;
    }
}

/* Writes the sheet beside the old one, down to the disk, and gives it the name. */
static void replace(const struct bumbazeel_sheet *sheet) {
    int temporary = begin_temporary();
    write_all(temporary, sheet);
    (void)fchmod(temporary, file.mode); /* a file system without modes has its own */
    if (fsync(temporary) || close(temporary))
        fail("cannot write: %s", strerror(errno));
    if (renameat(file.directory, file.temporary, file.directory, file.base))
        fail("cannot be replaced: %s", strerror(errno));
    file.begun = false;
}

/* The name as a shell's word that is no option. */
static void put_quoted(char *text, size_t room, const char *name) {
    static const char plain[] = "ABCDEFGHIJKLMNOPQRSTUVWXYZabcdefghijklmnopqrstuvwxyz0123456789_@%+=:,./-";
    size_t at = (size_t)snprintf(text, room, "%s", name[0] == '-' ? "./" : "");
    if (!name[strspn(name, plain)]) {
        snprintf(text + at, room - at, "%s", name);
        return;
    }
    text[at++] = '\'';
    for (; *name && at + 6 < room; name++) {
        if (*name == '\'')
            at += (size_t)snprintf(text + at, room - at, "'\\'");
        text[at++] = *name;
    }
    snprintf(text + at, room - at, "'");
}

/* From here on the run is not entered for a reason that whoever reads it may remove. */
static void tell_by_hand(const struct finished *run) {
    char quoted[4608];
    put_quoted(quoted, sizeof quoted, file.name);
    snprintf(file.words, sizeof file.words, "; the run is not entered: enter it with: bumbazeel sheet --enter %u,%llu,%llu,%llu %s", run->ending,
             (unsigned long long)run->blocks, (unsigned long long)run->commands, (unsigned long long)run->failed, quoted);
}

/* Why the library does not take the run: the sheet itself is intact. */
static const char *reason(uint8_t answer, const struct finished *run) {
    return answer != BUMBAZEEL_BAD_SETUP ? "begin another sheet"
           : run->blocks                 ? "a run that ended with 0 keeps blocks, and no other (endings are 0, 7 to 12 and 19)"
                                         : "no run has this ending (endings are 0, 7 to 12 and 19)";
}

/* Enters the run, under the lock. After the rename it is entered, whatever fails then. */
static void enter(const struct finished *run) {
    struct bumbazeel_sheet sheet;
    lock();
    take_up(&sheet);
    uint8_t answer = bumbazeel_enter(&sheet, run->ending, run->blocks, run->commands, run->failed);
    if (answer)
        fail("%u (%s): %s", answer, meaning(answer), reason(answer, run));
    replace(&sheet);
    report.entered = true;
    file.words[0] = '\0';
    int trouble = place_sync(file.directory);
    if (trouble)
        fail("the run is entered, but the directory cannot be synced: %s", strerror(trouble));
    unlock();
    snprintf(file.words, sizeof file.words, "; the run is entered into %.4096s", file.name);
}

void sheet_open(const char *name, bool quiet) {
    struct bumbazeel_sheet sheet;
    report.sheet = name;
    file.quiet = quiet;
    snprintf(file.words, sizeof file.words, "; no run was begun");
    say_last(file.words);
    find(name);
    lock();
    take_up(&sheet);
    close(begin_temporary());
    remove_temporary();
    unlock();
    snprintf(file.words, sizeof file.words, "; the run is not entered into %.4096s", name);
}

void sheet_keep_from(const char *output) {
    struct stat sheets, outputs, sheet, other;
    const char *base;
    if (strcmp(output, "-") == 0)
        return;
    int directory = place_open(output, "OUTPUT", &base);
    bool beside = fstat(file.directory, &sheets) == 0 && fstat(directory, &outputs) == 0 && same_file(&sheets, &outputs);
    bool same = beside && (strcmp(base, file.base) == 0 || strcmp(base, file.temporary) == 0);
    if (fstatat(directory, base, &other, AT_SYMLINK_NOFOLLOW) == 0 && fstatat(file.directory, file.base, &sheet, AT_SYMLINK_NOFOLLOW) == 0)
        same = same || same_file(&sheet, &other);
    if (same)
        die("%s: is the sheet's file: give another name for OUTPUT", output);
    close(directory);
}

void sheet_enter(const struct finished *run) {
    tell_by_hand(run);
    enter(run);
}

void sheet_enter_by_hand(const char *name, const struct finished *run) {
    report.sheet = name;
    snprintf(file.words, sizeof file.words, "; the run is not entered");
    say_last(file.words);
    find(name);
    enter(run);
}
