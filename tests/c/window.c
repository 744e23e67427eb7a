/* Runs a whole window of plans through the tick handler. For each file that is named it plans the set once, puts the board's line before the answer,
 * and asks for each core at each tick, by the lines and by their packed table. Prints for each job at how many ticks it was named on each kind, and
 * ends with status 1 where that is not the share of its line, where the two answers differ, or where a job is named twice at one tick. C99, no heap. */
#include "clampfern.h"
#include <stdbool.h>
#include <stdio.h>
#include <string.h>

enum {
    BOARD_LINE = 11, /* bytes of a board's line with its line feed, and of the lines of a plan */
    COUNTS_LINE = 7,
    SHARE_LINE = 13,
    KINDS = 2
};

/* The lines for the tick handler, and their table packed. */
struct plan {
    uint8_t lines[BOARD_LINE + CLAMPFERN_OUT_MOST], table[CLAMPFERN_PACKED_MOST];
    size_t lines_len, table_len;
};

/* At how many ticks of a window each job was named, and none, on each kind. */
struct sums {
    unsigned named[CLAMPFERN_TICK_IDLE + 1][KINDS];
};

/* Once for a set. False where it has no plan. */
static bool plan_once(struct plan *plan, const uint8_t *set, size_t set_len)
{
    memcpy(plan->lines, set, BOARD_LINE);
    plan->lines_len = BOARD_LINE + clampfern_plan(set, set_len, plan->lines + BOARD_LINE, CLAMPFERN_OUT_MOST);
    plan->table_len = clampfern_pack(plan->lines, plan->lines_len, plan->table, sizeof plan->table);
    return plan->table_len > 0;
}

/* At each tick, for each core: the job that it runs, or CLAMPFERN_TICK_IDLE. */
static uint32_t at_tick(const struct plan *plan, uint32_t tick, uint32_t kind, uint32_t core)
{
    return clampfern_packed_tick(plan->table, plan->table_len, tick, kind, core);
}

static int status;

static void wrong(const char *what, unsigned number)
{
    printf("wrong: %s %u\n", what, number);
    status = 1;
}

/* The number that so many digits of the lines spell. They are a plan's, so all are there. */
static unsigned number_at(const struct plan *plan, size_t at, int digits)
{
    unsigned number = 0;
    for (int i = 0; i < digits; i++) {
        uint8_t c = plan->lines[at + i];
        number = 16 * number + (c <= '9' ? c - '0' : c % 32 + 9);
    }
    return number;
}

static unsigned window_of(const struct plan *plan)
{
    return number_at(plan, 2, 4);
}

static unsigned cores_of(const struct plan *plan, unsigned kind)
{
    return number_at(plan, 4 + 2 * kind, 2);
}

static unsigned jobs_of(const struct plan *plan)
{
    return number_at(plan, BOARD_LINE + 2, 2);
}

static unsigned share_of(const struct plan *plan, unsigned job, unsigned kind)
{
    return number_at(plan, BOARD_LINE + COUNTS_LINE + SHARE_LINE * job + 4 * kind, 4);
}

/* What both entries say of a core. */
static uint32_t asked(const struct plan *plan, unsigned tick, unsigned kind, unsigned core)
{
    uint32_t said = at_tick(plan, tick, kind, core);
    if (clampfern_tick(plan->lines, plan->lines_len, tick, kind, core) != said)
        wrong("lines and packed table differ at tick", tick);
    return said;
}

/* Adds up what each core does at one tick. */
static void add_tick(const struct plan *plan, unsigned tick, struct sums *sums)
{
    bool runs[CLAMPFERN_TICK_IDLE] = {false};
    for (unsigned kind = 1; kind <= KINDS; kind++)
        for (unsigned core = 0; core < cores_of(plan, kind); core++) {
            uint32_t said = asked(plan, tick, kind, core);
            if (said > CLAMPFERN_TICK_IDLE) {
                wrong("refused by", said - CLAMPFERN_TICK_REFUSED);
                continue;
            }
            if (said < CLAMPFERN_TICK_IDLE && runs[said])
                wrong("two cores at once run job", said);
            if (said < CLAMPFERN_TICK_IDLE)
                runs[said] = true;
            sums->named[said][kind - 1]++;
        }
}

/* What is not there is refused: the tick after the last, and the core after the last of each kind. */
static void ask_beyond(const struct plan *plan)
{
    const uint32_t beyond = CLAMPFERN_TICK_REFUSED + CLAMPFERN_REFUSAL_BEYOND;
    for (unsigned kind = 0; kind <= KINDS + 1; kind++) {
        bool is_there = kind == 1 || kind == 2;
        if (asked(plan, window_of(plan), kind, 0) != beyond || asked(plan, 0, kind, is_there ? cores_of(plan, kind) : 0) != beyond)
            wrong("not refused beyond kind", kind);
    }
}

static void print_window(const struct plan *plan, const struct sums *sums)
{
    printf("window %u, cores %u and %u, jobs %u\n", window_of(plan), cores_of(plan, 1), cores_of(plan, 2), jobs_of(plan));
    printf("  job  first  second\n");
    for (unsigned job = 0; job < CLAMPFERN_TICK_IDLE; job++) {
        const unsigned *named = sums->named[job];
        if (job < jobs_of(plan))
            printf("%5u  %5u  %6u\n", job, named[0], named[1]);
        for (unsigned kind = 1; kind <= KINDS; kind++)
            if (named[kind - 1] != (job < jobs_of(plan) ? share_of(plan, job, kind) : 0))
                wrong("not the share of job", job);
    }
    printf(" idle  %5u  %6u\n", sums->named[CLAMPFERN_TICK_IDLE][0], sums->named[CLAMPFERN_TICK_IDLE][1]);
}

/* Plans a set, and runs one window of it. */
static void run(const char *title, const uint8_t *set, size_t set_len)
{
    static struct plan plan;
    static struct sums sums;
    sums = (struct sums){{{0}}};
    printf("%s: ", title);
    if (!plan_once(&plan, set, set_len)) {
        printf("no plan, and the tick handler says %u\n", clampfern_tick(plan.lines, plan.lines_len, 0, 1, 0));
        return;
    }
    for (unsigned tick = 0; tick < window_of(&plan); tick++)
        add_tick(&plan, tick, &sums);
    ask_beyond(&plan);
    print_window(&plan, &sums);
}

int main(int argc, char **argv)
{
    static uint8_t set[CLAMPFERN_TEXT_MOST + 1]; /* a byte more tells a text that is too long */
    for (int i = 1; i < argc; i++) {
        FILE *file = fopen(argv[i], "rb");
        size_t set_len = file ? fread(set, 1, sizeof set, file) : 0;
        if (!file || ferror(file)) {
            perror(argv[i]);
            return 1;
        }
        fclose(file);
        run(argv[i], set, set_len);
    }
    return fflush(stdout) == 0 ? status : 1;
}
