/* A million runs entered into a sheet across the C boundary, against the same numbers added in plain C.
 *
 * Each entering judges the sheet (its mark, its check, whether any runs have such totals), looks at every total before it changes one and writes the
 * check again; the plain way adds four numbers to four totals and looks at nothing. So the ratio is what the judging costs, and the time of one entering is
 * what a bench pays for a run. Both ways take the same runs in turn, the best turn of each counts, and the totals are compared. */
#define _POSIX_C_SOURCE 199309L
#include "bumbazeel.h"

#include <stdio.h>
#include <stdlib.h>
#include <string.h>
#include <time.h>

enum { RUNS = 1000000, TURNS = 11, ENDINGS = 8, MOST_BLOCKS = 4096, MOST_COMMANDS = 512, MOST_FAILED = 5 };

struct run {
    uint8_t ending, place; /* its number, and its place among the endings */
    uint64_t blocks, commands, failed;
};

struct totals {
    uint64_t runs[ENDINGS], blocks, commands, failed;
};

static struct run runs[RUNS];

/* Runs from a seed, of all endings: one in two is good. */
static void make_runs(void) {
    static const uint8_t endings[ENDINGS] = {0, 7, 8, 9, 10, 11, 12, 19};
    uint32_t seed = 1;
    for (size_t i = 0; i < RUNS; i++) {
        seed = seed * 1664525u + 1013904223u;
        uint8_t place = seed >> 31 ? 0 : (uint8_t)(seed >> 28 & 7);
        runs[i] = (struct run){.ending = endings[place], .place = place, .commands = (seed >> 8) % MOST_COMMANDS, .failed = (seed >> 16) % MOST_FAILED};
        runs[i].blocks = place ? 0 : (seed >> 12) % MOST_BLOCKS;
    }
}

/* The process's own time: another one's turns on the processor are no part of a ratio. */
static double now(void) {
    struct timespec t;
    clock_gettime(CLOCK_PROCESS_CPUTIME_ID, &t);
    return (double)t.tv_sec + (double)t.tv_nsec * 1e-9;
}

/* A call for each run, as entering is: the compiler may neither take it into the loop nor out of it. */
static __attribute__((noinline)) void add(struct totals *totals, const struct run *run) {
    totals->runs[run->place]++;
    totals->blocks += run->blocks;
    totals->commands += run->commands;
    totals->failed += run->failed;
    __asm__ volatile("" : : "r"(totals) : "memory");
}

static double enter_all(struct bumbazeel_sheet *sheet) {
    uint8_t refused = 0;
    bumbazeel_new_sheet(sheet);
    double start = now();
    for (size_t i = 0; i < RUNS; i++)
        refused |= bumbazeel_enter(sheet, runs[i].ending, runs[i].blocks, runs[i].commands, runs[i].failed);
    double took = now() - start;
    if (refused) {
        fputs("entering: a run was refused\n", stderr);
        exit(1);
    }
    return took;
}

static double add_all(struct totals *totals) {
    memset(totals, 0, sizeof *totals);
    double start = now();
    for (size_t i = 0; i < RUNS; i++)
        add(totals, &runs[i]);
    return now() - start;
}

int main(void) {
    struct bumbazeel_sheet sheet;
    struct totals totals;
    double entered = 1e9, added = 1e9;
    make_runs();
    for (int t = 0; t < 2 * TURNS; t++) {
        int enters = (t + t / 2) % 2; /* they change places: no, yes, yes, no */
        double took = enters ? enter_all(&sheet) : add_all(&totals), *best = enters ? &entered : &added;
        if (took < *best)
            *best = took;
    }
    if (memcmp(sheet.runs, totals.runs, sizeof sheet.runs) || sheet.blocks != totals.blocks || sheet.commands != totals.commands ||
        sheet.failed != totals.failed) {
        fputs("entering: the sheet's totals are not those of the plain sums\n", stderr);
        exit(1);
    }
    printf("a million runs in a sheet %9.2f ms entered %9.2f ms added in plain C   entered / added %.2f, %.1f ns a run\n", entered * 1e3, added * 1e3,
           entered / added, entered / RUNS * 1e9);
    return 0;
}
