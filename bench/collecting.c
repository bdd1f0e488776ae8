/* A collection by the library alone, against the two memory copies that it cannot do without.
 *
 * The proved controller serves area 4 to the proved collection in one process, so each byte moves twice: from the store to the transfer
 * buffer, and from there to the copy. The other side of the ratio is memcpy doing just that, chunk by chunk in the same order over the same
 * memory. Everything is written before the first timing, the two take turns, and the best turn of each counts. A collection may cost
 * 1.25 times the two copies.
 *
 * BENCH_MIB=N has an area of N MiB (512): it takes twice as much memory. */
#define _POSIX_C_SOURCE 200112L
#include "bumbazeel.h"

#include <stdbool.h>
#include <stdio.h>
#include <stdlib.h>
#include <string.h>
#include <time.h>

enum { BLOCK = BUMBAZEEL_BLOCK, PAGE_07 = BUMBAZEEL_HOST_PAGE, AREA = 4, TURNS = 9, MIB = 1 << 20, MOST_MIB = 512 };
static const double LIMIT = 1.25;

/* called through a pointer that the compiler cannot see through, so that it is the C library's */
static void *(*volatile copy_bytes)(void *, const void *, size_t) = memcpy;

static struct {
    struct bumbazeel_record record;
    uint8_t *store, *buffer, *copy;
    size_t bytes; /* of store and copy */
} bench;

static void must(bool good, const char *what) {
    if (good)
        return;
    fprintf(stderr, "collecting: %s\n", what);
    exit(1);
}

/* The process's own time: another one's turns on the processor are no part of a ratio. */
static double now(void) {
    struct timespec t;
    clock_gettime(CLOCK_PROCESS_CPUTIME_ID, &t);
    return (double)t.tv_sec + (double)t.tv_nsec * 1e-9;
}

/* A drive with one host page, all of its store being area 4. */
static void make_drive(size_t bytes) {
    const uint8_t caps = BUMBAZEEL_EXTENDED | BUMBAZEEL_TELEMETRY | BUMBAZEEL_DA4S | BUMBAZEEL_ETDAS | BUMBAZEEL_MCDAS;
    must(!bumbazeel_fresh(caps, 0, 1, 1, &bench.record), "no fresh record");
    for (int area = 0; area < 3; area++)
        bench.record.host_last[area] = 1;
    bench.record.host_last[3] = (uint32_t)(bytes / BLOCK);
    bench.bytes = bytes;
    bench.store = malloc(bytes);
    bench.copy = malloc(bytes);
    must(bench.store && bench.copy, "out of memory: BENCH_MIB=64 takes less");
    for (size_t i = 0; i < bytes; i++)
        bench.store[i] = (uint8_t)(i * 2654435761u >> 13);
    memset(bench.copy, 1, bytes);
}

static size_t transfer_bytes(const uint32_t words[5]) { return 4 * ((size_t)(words[0] >> 16 | (words[1] & 0xFFFF) << 16) + 1); }

/* The run of a collection: how many commands it took. */
static uint64_t collect(uint32_t chunk) {
    struct bumbazeel_state state;
    struct bumbazeel_next next;
    const uint32_t no_candidate[4] = {0, 0, 0, 0};
    uint8_t identifier_class;
    bumbazeel_setup(PAGE_07, 0, AREA, bench.record.caps, chunk, 1, bench.bytes, &state, &next);
    while (next.kind == BUMBAZEEL_SEND) {
        size_t bytes = transfer_bytes(next.words);
        uint8_t answer = bumbazeel_command(&bench.record, bench.store, bench.bytes, NULL, 0, no_candidate, NULL, 0, NULL, 0, next.words,
                                           bench.buffer, bytes, &identifier_class);
        bumbazeel_step(&state, !answer, bench.buffer, answer ? 0 : bytes, bench.copy, bench.bytes, &next);
    }
    must(next.kind == BUMBAZEEL_ENDED && next.answer == BUMBAZEEL_SUCCESS, "the collection does not succeed");
    return next.count;
}

static void copy_twice(size_t chunk_bytes) {
    for (size_t at = 0; at < bench.bytes; at += chunk_bytes) {
        size_t bytes = bench.bytes - at < chunk_bytes ? bench.bytes - at : chunk_bytes;
        copy_bytes(bench.buffer, bench.store + at, bytes);
        copy_bytes(bench.copy + at, bench.buffer, bytes);
    }
}

static void must_be_the_store(const char *who) { must(!memcmp(bench.copy, bench.store, bench.bytes), who); }

/* Times one way, from a copy that is none yet. */
static void turn(bool collects, uint32_t chunk, double *best, uint64_t *commands) {
    memset(bench.copy, 1, bench.bytes);
    double start = now();
    if (collects)
        *commands = collect(chunk);
    else
        copy_twice((size_t)chunk * BLOCK);
    double took = now() - start;
    must_be_the_store(collects ? "the collection's copy is not the store's bytes" : "the copies are not the store's bytes");
    if (took < *best)
        *best = took;
}

static void measure(uint32_t chunk) {
    double collected = 1e9, copied = 1e9;
    uint64_t commands = 0;
    bench.buffer = malloc((size_t)chunk * BLOCK);
    must(bench.buffer != NULL, "out of memory");
    memset(bench.buffer, 1, (size_t)chunk * BLOCK);
    for (int t = 0; t < 2 * TURNS; t++) {
        bool collects = (t + t / 2) % 2; /* they change places: no, yes, yes, no */
        turn(collects, chunk, collects ? &collected : &copied, &commands);
    }
    free(bench.buffer);
    printf("%6u blocks %9llu commands %9.1f ms collected %9.1f ms copied twice   collected / copied %.2f%s\n", (unsigned)chunk,
           (unsigned long long)commands, collected * 1e3, copied * 1e3, collected / copied,
           collected / copied > LIMIT ? "   OVER 1.25" : "");
}

int main(void) {
    static const uint32_t chunks[] = {1, 8, 128, 1024, 8192};
    const char *wish = getenv("BENCH_MIB");
    long mib = wish ? strtol(wish, NULL, 10) : MOST_MIB;
    must(mib >= 1 && mib <= MOST_MIB, "BENCH_MIB is not a number from 1 to 512");
    make_drive((size_t)mib * MIB);
    printf("a collection of %ld MiB\n", mib);
    for (size_t i = 0; i < sizeof chunks / sizeof *chunks; i++)
        measure(chunks[i]);
    return 0;
}
