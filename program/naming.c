/* A serial may hold any printable character: what a file name should not have becomes '_'. */
#include "naming.h"

#include "report.h"
#include "say.h"

#include <stdio.h>
#include <stdlib.h>
#include <string.h>
#include <time.h>
#include <unistd.h>

enum { MOST_OF_A_SECOND = 100 }; /* files of one drive, page and second */

static void put_serial(char to[sizeof report.drive->serial]) {
    static const char letters[] = "ABCDEFGHIJKLMNOPQRSTUVWXYZabcdefghijklmnopqrstuvwxyz0123456789_-";
    snprintf(to, sizeof report.drive->serial, "%s", report.drive->serial[0] ? report.drive->serial : "unknown");
    for (char *at = to; *at; at++)
        if (!strchr(letters, *at))
            *at = '_';
}

const char *own_name(const char *folder) {
    char serial[sizeof report.drive->serial], when[32], number[16] = "";
    struct tm utc;
    size_t room = strlen(folder) + 128;
    char *name = malloc(room);
    if (!name)
        die("no memory for a file name");
    put_serial(serial);
    strftime(when, sizeof when, "%Y%m%dT%H%M%SZ", gmtime_r(&report.began, &utc));
    for (int n = 2; n < MOST_OF_A_SECOND; n++) {
        snprintf(name, room, "%s/%s-%02Xh-%s%s.bin", folder, serial, report.page, when, number);
        if (access(name, F_OK) != 0)
            break;
        snprintf(number, sizeof number, "-%d", n);
    }
    return name;
}
