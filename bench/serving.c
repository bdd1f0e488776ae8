/* The proved controller serving a page, against memcpy of the same bytes: one block, 64 KiB and 64 MiB, in one run.
 *
 * A read of n bytes from offset 512 moves n bytes of the store to the buffer. Both buffers are written before the first timing, the
 * two ways take turns, and the best of the turns counts. The bytes are compared, and so is the cost of one block from a small store
 * with that from a store of 64 MiB: it must not grow with the store. */
#define _POSIX_C_SOURCE 199309L
#include "bumbazeel.h"

#include <stdio.h>
#include <stdlib.h>
#include <string.h>
#include <time.h>

/* a drive with one host page, all of its store being area 4 */
static struct bumbazeel_record drive(size_t store_bytes) {
    struct bumbazeel_record record;
    if (bumbazeel_fresh(BUMBAZEEL_EXTENDED | BUMBAZEEL_TELEMETRY | BUMBAZEEL_DA4S | BUMBAZEEL_ETDAS | BUMBAZEEL_MCDAS, 0, 1, 1, &record)) {
        fputs("no fresh record\n", stderr);
        exit(1);
    }
    for (int area = 0; area < 3; area++)
        record.host_last[area] = 1;
    record.host_last[3] = (uint32_t)(store_bytes / 512);
    return record;
}

static double now(void) {
    struct timespec t;
    clock_gettime(CLOCK_MONOTONIC, &t);
    return (double)t.tv_sec + (double)t.tv_nsec * 1e-9;
}

/* called through a pointer that the compiler cannot see through, so that it is the C library's */
static void *(*volatile copy)(void *, const void *, size_t) = memcpy;

struct best {
    double serve, copy;
};

static struct best measure(size_t bytes, size_t store_bytes, unsigned turns, unsigned calls) {
    uint8_t *store = malloc(store_bytes), *buf = malloc(bytes), *want = malloc(bytes);
    struct bumbazeel_record record = drive(store_bytes);
    uint32_t dwords = (uint32_t)(bytes / 4 - 1);
    /* the builder's commands end at 8,192 blocks, and 64 MiB are more */
    const uint32_t words[5] = {0x8007u | (dwords & 0xffffu) << 16, dwords >> 16, 512, 0, 0}, last[4] = {0, 0, 0, 0};
    struct best best = {1e9, 1e9};
    if (!store || !buf || !want) {
        fputs("out of memory\n", stderr);
        exit(1);
    }
    for (size_t i = 0; i < store_bytes; i++)
        store[i] = (uint8_t)(i * 2654435761u >> 13);
    memset(buf, 1, bytes);
    memset(want, 2, bytes);
    for (unsigned t = 0; t < turns; t++) {
        uint8_t answer = 0, page_class;
        double served = 0, copied = 0;
        for (unsigned way = t; way < t + 2; way++) { /* the one that comes second finds the store in the cache: they change places */
            double start = now();
            if (way % 2)
                for (unsigned c = 0; c < calls; c++)
                    copy(want, store, bytes);
            else
                for (unsigned c = 0; c < calls; c++)
                    answer |= bumbazeel_command(&record, store, store_bytes, NULL, 0, last, NULL, 0, NULL, 0, words, buf, bytes, &page_class);
            *(way % 2 ? &copied : &served) = (now() - start) / calls;
        }
        if (answer || memcmp(buf, want, bytes)) {
            fputs("the transfer is not the store's bytes\n", stderr);
            exit(1);
        }
        if (served < best.serve)
            best.serve = served;
        if (copied < best.copy)
            best.copy = copied;
    }
    free(store);
    free(buf);
    free(want);
    return best;
}

static void report(const char *name, struct best b) {
    printf("%-32s %12.2f us served %12.2f us memcpy   memcpy / served %.2f\n", name, b.serve * 1e6, b.copy * 1e6, b.copy / b.serve);
}

int main(void) {
    report("one block", measure(512, 512, 50, 20000));
    report("one block of a store of 64 MiB", measure(512, 64u << 20, 50, 20000));
    report("64 KiB", measure(64u << 10, 64u << 10, 50, 500));
    report("64 MiB", measure(64u << 20, 64u << 20, 15, 1));
    return 0;
}
