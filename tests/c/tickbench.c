/* Times the tick handler's entries on the plan of one set: `tickbench FILE`. Calls take turns in one run, over the same cores and ticks, and the fastest
 * of several turns counts. Prints the time of each call, and how many times the packed one's it is. One row is of lines whose last is missing: they are
 * read but for that one, and refused before any two slices are compared.
 *
 * `tickbench --only ROW TIMES FILE` makes the calls of one row so many times, for who counts the instructions; rows are counted from 0. */
#define _DEFAULT_SOURCE
#include "clampfern.h"
#include <stdio.h>
#include <stdlib.h>
#include <string.h>
#include <time.h>

enum { BOARD_LINE = 11, SLICE_LINE = 17, TURNS = 9 };

static const double TURN = 1e6; /* nanoseconds that a turn takes at the least */

static uint8_t lines[BOARD_LINE + CLAMPFERN_OUT_MOST], table[CLAMPFERN_PACKED_MOST], other[CLAMPFERN_PACKED_MOST];
static size_t lines_len, table_len;
static uint32_t window, cores[2];
static volatile uint32_t sink; /* so that no call is left out */

static void by_lines(uint32_t tick, uint32_t kind, uint32_t core)
{
    sink = clampfern_tick(lines, lines_len, tick, kind, core);
}

static void by_cut_lines(uint32_t tick, uint32_t kind, uint32_t core)
{
    sink = clampfern_tick(lines, lines_len - SLICE_LINE, tick, kind, core);
}

static void packing(uint32_t tick, uint32_t kind, uint32_t core)
{
    (void)tick, (void)kind, (void)core;
    sink = (uint32_t)clampfern_pack(lines, lines_len, other, sizeof other);
}

static void by_table(uint32_t tick, uint32_t kind, uint32_t core)
{
    sink = clampfern_packed_tick(table, table_len, tick, kind, core);
}

static const struct row {
    const char *name;
    void (*call)(uint32_t tick, uint32_t kind, uint32_t core);
} rows[] = {
    {"clampfern_tick", by_lines},
    {"the same, a line missing", by_cut_lines},
    {"clampfern_pack", packing},
    {"clampfern_packed_tick", by_table},
};
enum { ROWS = sizeof rows / sizeof *rows };

static double now(void)
{
    struct timespec at;
    clock_gettime(CLOCK_MONOTONIC, &at);
    return at.tv_sec * 1e9 + at.tv_nsec;
}

/* So many calls, for one core after the other at ticks all over the window. */
static void ask(const struct row *row, int calls)
{
    for (int i = 0; i < calls; i++)
        row->call((uint32_t)i * 7919 % window, 1 + i % 2, (uint32_t)i / 2 % cores[i % 2]);
}

/* Nanoseconds for a call, in a turn of so many. */
static double turn(const struct row *row, int calls)
{
    double start = now();
    ask(row, calls);
    return (now() - start) / calls;
}

static void time_rows(void)
{
    double best[ROWS];
    int calls[ROWS];
    for (int r = 0; r < ROWS; r++)
        for (calls[r] = 1; turn(&rows[r], calls[r]) * calls[r] < TURN;)
            calls[r] *= 2;
    for (int i = 0; i < TURNS; i++)
        for (int r = 0; r < ROWS; r++) {
            double took = turn(&rows[r], calls[r]);
            best[r] = i == 0 || took < best[r] ? took : best[r];
        }
    printf("%-26s %10s %8s\n", "call", "time", "ratio");
    for (int r = 0; r < ROWS; r++)
        printf("%-26s %7.3f us %8.1f\n", rows[r].name, best[r] / 1000, best[r] / best[ROWS - 1]);
}

/* The plan of a set, whose first line has to be a board's; and the board by its packed form. */
static void plan(const char *path)
{
    static uint8_t set[CLAMPFERN_TEXT_MOST];
    FILE *file = fopen(path, "rb");
    size_t set_len = file ? fread(set, 1, sizeof set, file) : 0;
    memcpy(lines, set, BOARD_LINE);
    lines_len = BOARD_LINE + clampfern_plan(set, set_len, lines + BOARD_LINE, CLAMPFERN_OUT_MOST);
    table_len = clampfern_pack(lines, lines_len, table, sizeof table);
    if (table_len == 0) {
        fprintf(stderr, "tickbench: %s has no plan\n", path);
        exit(1);
    }
    window = 256u * table[1] + table[2];
    cores[0] = table[3];
    cores[1] = table[4];
}

int main(int argc, char **argv)
{
    if (argc == 5 && strcmp(argv[1], "--only") == 0) {
        plan(argv[4]);
        ask(&rows[atoi(argv[2]) % ROWS], atoi(argv[3]));
        return 0;
    }
    for (int i = 1; i < argc; i++) {
        plan(argv[i]);
        printf("%s: %zu slices\n", argv[i], (table_len - 5) / 8);
        time_rows();
    }
    return 0;
}
