/* The place of a file that is written beside its name and then renamed: its directory, and what may be replaced there. */
#ifndef PLACE_H
#define PLACE_H

#include <stdbool.h>
#include <sys/stat.h>
#include <sys/types.h>

enum { PERMISSIONS = 0777 };

/* Opens the directory of the name, and leaves the name's last part in *base. Dies if there is none; `what` is what the file is called then. */
int place_open(const char *name, const char *what, const char **base);

/* The mode that a file made by any other program would have. */
mode_t usual_mode(void);

/* What stands there instead of a file that a rename can replace, such as "a directory"; NULL: it is such a file. */
const char *no_file(const struct stat *about);

/* Whether nobody may write the file, since somebody has protected it. */
bool write_protected(const struct stat *about);

/* Whether the two are one file, under whatever names. */
bool same_file(const struct stat *one, const struct stat *other);

/* Brings the names in the directory to the disk. 0, or the error number. */
int place_sync(int directory);

#endif
