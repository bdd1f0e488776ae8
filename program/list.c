/* bumbazeel list: the NVMe controllers that Linux knows, as /sys shows them. No drive is asked and no right is needed. */
#define _GNU_SOURCE /* versionsort */
#include "commands.h"

#include "arguments.h"
#include "json.h"
#include "say.h"

#include <dirent.h>
#include <errno.h>
#include <fcntl.h>
#include <stdio.h>
#include <stdlib.h>
#include <string.h>
#include <unistd.h>

static const char help[] = "usage: bumbazeel list [--json]\n"
                           "\n"
                           "Lists the NVMe drives at hand: device, serial, model and firmware.\n"
                           "\n"
                           "  --json      print one JSON object\n"
                           "  -h, --help  this text\n";
static const char CONTROLLERS[] = "/sys/class/nvme";

enum { TEXT = 128 };

/* What the file says, without the spaces at its end; "" if it cannot be read. */
static void read_text(int folder, const char *device, const char *what, char text[TEXT]) {
    char name[TEXT * 3];
    snprintf(name, sizeof name, "%s/%s", device, what);
    int file = openat(folder, name, O_RDONLY | O_CLOEXEC);
    ssize_t length = file < 0 ? 0 : read(file, text, TEXT - 1);
    if (file >= 0)
        close(file);
    while (length > 0 && (text[length - 1] == ' ' || text[length - 1] == '\n'))
        length--;
    text[length > 0 ? length : 0] = '\0';
    make_plain(text);
}

static void print_drive(int folder, const char *device, bool json, bool first) {
    static const char *const files[] = {"serial", "model", "firmware_rev", "transport", "state"};
    static const char *const members[] = {"serial", "model", "firmware", "transport", "state"};
    char text[TEXT];
    printf(json ? "%s{\"device\": \"/dev/%s\"" : "%s/dev/%s", json && !first ? ", " : "", device);
    for (size_t i = 0; i < sizeof files / sizeof *files; i++) {
        read_text(folder, device, files[i], text);
        if (json) {
            printf(", \"%s\": ", members[i]);
            json_string(text);
        } else {
            printf("  %s", text);
        }
    }
    fputs(json ? "}" : "\n", stdout);
}

static int is_controller(const struct dirent *entry) { return strncmp(entry->d_name, "nvme", 4) == 0; }

static bool reads_json(char **words) {
    bool json = false;
    struct arguments a = arguments_of("list", words);
    while (argument_next(&a)) {
        if (argument_flag(&a, "--help|-h"))
            print_help(help);
        if (argument_flag(&a, "--json"))
            json = true;
        else
            die("'%s' is one word too many: list takes options alone", argument_operand(&a));
    }
    return json;
}

int list_command(char **words) {
    bool json = reads_json(words);
    struct dirent **found = NULL;
    int count = scandir(CONTROLLERS, &found, is_controller, versionsort);
    int folder = open(CONTROLLERS, O_RDONLY | O_DIRECTORY | O_CLOEXEC);
    if (count < 0 && errno != ENOENT)
        die("%s: %s", CONTROLLERS, strerror(errno));
    if (json)
        printf("{\"status\": 0, \"error\": null, \"drives\": [");
    for (int i = 0; i < count; i++) {
        print_drive(folder, found[i]->d_name, json, i == 0);
        free(found[i]);
    }
    free(found);
    if (json)
        puts("]}");
    say_at_death(NULL);
    close_stdout("");
    if (count <= 0 && !json)
        say("there is no NVMe drive here");
    return STATUS_SUCCESS;
}
