/* Large pages are several times faster to fill with zeros. */
#include "lazy.h"

#include "say.h"

#include <errno.h>
#include <string.h>
#include <sys/mman.h>

enum { SMALLEST_PAGE = 4096 };

static size_t mapped(size_t bytes) { return bytes ? bytes : 1; }

static uint8_t *map(size_t bytes, int reserve) {
    void *at = mmap(NULL, mapped(bytes), PROT_READ | PROT_WRITE, MAP_PRIVATE | MAP_ANONYMOUS | reserve, -1, 0);
    if (at == MAP_FAILED)
        die("no memory for %zu bytes: %s", bytes, strerror(errno));
    (void)madvise(at, mapped(bytes), MADV_HUGEPAGE); /* a wish: a kernel without them goes on with small ones */
    return at;
}

uint8_t *lazy_bytes(size_t bytes) { return map(bytes, MAP_NORESERVE); }

uint8_t *held_bytes(size_t bytes) {
    uint8_t *at = map(bytes, 0);
    for (size_t i = 0; i < bytes; i += SMALLEST_PAGE)
        ((volatile uint8_t *)at)[i] = 0;
    return at;
}

void free_bytes(uint8_t *at, size_t bytes) { munmap(at, mapped(bytes)); }
