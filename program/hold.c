/* A file is renamed when it is whole, so that nobody reads half of one. What cannot be written is said. */
#include "hold.h"

#include "drive.h"
#include "numbers.h"
#include "say.h"

#include <errno.h>
#include <stdio.h>
#include <string.h>

static const char *folder;

void hold_in(const char *name) { folder = name; }

static void write_page(uint8_t page, const char *name) {
    uint8_t header[BLOCK];
    const uint8_t *blocks;
    char path[4096], whole[4096];
    size_t bytes = embedded_held(page, header, &blocks);
    if (page == BUMBAZEEL_CONTROLLER_PAGE && !bytes)
        return;
    int long_path = snprintf(path, sizeof path, "%s/.%s.new", folder, name);
    int long_whole = snprintf(whole, sizeof whole, "%s/%s", folder, name);
    bool fits = long_path < (int)sizeof path && long_whole < (int)sizeof whole;
    FILE *file = fits ? fopen(path, "wb") : NULL;
    bool written = file && fwrite(header, 1, BLOCK, file) == BLOCK && fwrite(blocks, 1, bytes, file) == bytes;
    if (file)
        written = fclose(file) == 0 && written;
    if (!written || rename(path, whole))
        say("%s: what page %02Xh holds cannot be written: %s", folder, page, fits ? strerror(errno) : "the name is too long");
}

void hold_pages(void) {
    if (!folder)
        return;
    write_page(BUMBAZEEL_HOST_PAGE, "held-07h.bin");
    write_page(BUMBAZEEL_CONTROLLER_PAGE, "held-08h.bin");
}
