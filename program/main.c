/* bumbazeel: collects NVMe telemetry pages, checks saved ones, keeps the month's sheet, builds command words, serves a drive to rehearse with. All that matters is decided by the proved library. */
#include "commands.h"
#include "json.h"
#include "say.h"

#include <errno.h>
#include <fcntl.h>
#include <stdbool.h>
#include <stddef.h>
#include <stdio.h>
#include <string.h>
#include <unistd.h>

static const char help[] = "usage: bumbazeel COMMAND [OPTIONS]\n"
                           "\n"
                           "  collect   collect a telemetry page, 07h or 08h, from drives into files\n"
                           "  status    tell whether drives have something to tell on page 08h\n"
                           "  list      list the NVMe drives at hand\n"
                           "  check     show the header of a saved page, and whether the file's length fits\n"
                           "  sheet     print the month's sheet: exact totals over the runs entered in it\n"
                           "  words     print the words of a Get Log Page\n"
                           "  serve     serve the embedded drive to hosts, over NVMe/TCP\n"
                           "  help      show a command's options: bumbazeel help COMMAND\n"
                           "\n"
                           "bumbazeel COMMAND -h, --help tells a command's options.\n"
                           "bumbazeel -V, --version tells the version.\n"
                           "\n"
                           "Exit status: 0 success; 7 to 12 and 19 the ending of a collection, 7 a bad\n"
                           "header of a saved page, 11 nothing on a drive or in a saved page 08h; 1 a file\n"
                           "that is not as long as its header says; 2 bad use, and what the machine refuses.\n"
                           "Of several drives or files the first status that is not 0 counts.\n";

static const struct {
    const char *name;
    int (*run)(char **words);
} commands[] = {{"collect", collect_command}, {"status", status_command}, {"list", list_command},
                {"check", check_command},     {"sheet", sheet_command},   {"words", words_command}, {"serve", serve_command}};

/* A closed standard stream would lend its number to the next file that is opened, and what is printed would go there. The root directory
 * is always there, and takes no byte. */
static void fill_standard_streams(void) {
    int file;
    do
        file = open("/", O_RDONLY | O_DIRECTORY);
    while (file >= 0 && file <= STDERR_FILENO);
    if (file < 0)
        die("the standard streams cannot be made sure of: %s", strerror(errno));
    close(file);
}

/* Whoever asks for JSON gets it of a bad command line too. */
static bool asks_for_json(char **words) {
    for (; *words && strcmp(*words, "--") != 0; words++)
        if (strcmp(*words, "--json") == 0)
            return true;
    return false;
}

static bool is(const char *word, const char *one, const char *other) { return strcmp(word, one) == 0 || strcmp(word, other) == 0; }

static int run_command(const char *name, char **words) {
    for (size_t i = 0; i < sizeof commands / sizeof *commands; i++)
        if (strcmp(name, commands[i].name) == 0)
            return commands[i].run(words);
    die("unknown command '%s': give collect, status, list, check, sheet, words, serve or help (bumbazeel --help)", name);
}

int main(int argc, char **argv) {
    static char *ask_for_help[] = {"--help", NULL};
    fill_standard_streams();
    if (asks_for_json(argv))
        say_at_death(json_error);
    if (argc < 2)
        die("no command: give collect, status, list, check, sheet, words, serve or help (bumbazeel --help)");
    if (argc == 2 && (is(argv[1], "--help", "-h") || strcmp(argv[1], "help") == 0))
        print_help(help);
    if (argc == 2 && is(argv[1], "--version", "-V"))
        print_help("bumbazeel " VERSION "\n");
    if (argc == 3 && strcmp(argv[1], "help") == 0)
        return run_command(argv[2], ask_for_help);
    return run_command(argv[1], argv + 2);
}
