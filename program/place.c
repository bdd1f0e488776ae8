/* A rename replaces a regular file alone: a device, a directory or a link is no copy of anything. */
#define _GNU_SOURCE /* syncfs */
#include "place.h"

#include "say.h"

#include <errno.h>
#include <fcntl.h>
#include <stdlib.h>
#include <string.h>
#include <unistd.h>

enum { WRITERS = 0222 };

int place_open(const char *name, const char *what, const char **base) {
    const char *slash = strrchr(name, '/');
    char *path = slash ? strndup(name, slash == name ? 1 : (size_t)(slash - name)) : strdup(".");
    *base = slash ? slash + 1 : name;
    if (!path)
        die("no memory for a file name");
    int directory = open(path, O_RDONLY | O_DIRECTORY | O_CLOEXEC);
    if (directory < 0)
        die("%s: cannot open the directory for %s: %s", path, what, strerror(errno));
    free(path);
    return directory;
}

mode_t usual_mode(void) {
    mode_t mask = umask(0);
    umask(mask);
    return 0666 & ~mask;
}

const char *no_file(const struct stat *about) {
    return S_ISREG(about->st_mode)                              ? NULL
           : S_ISCHR(about->st_mode) || S_ISBLK(about->st_mode) ? "a device"
           : S_ISDIR(about->st_mode)                            ? "a directory"
           : S_ISLNK(about->st_mode)                            ? "a symbolic link"
                                                                : "no regular file";
}

bool write_protected(const struct stat *about) { return !(about->st_mode & WRITERS); }

bool same_file(const struct stat *one, const struct stat *other) { return one->st_dev == other->st_dev && one->st_ino == other->st_ino; }

int place_sync(int directory) {
    if (fsync(directory) == 0)
        return 0;
    if (errno == EINVAL && syncfs(directory) == 0) /* a file system that syncs no directories */
        return 0;
    return errno;
}
