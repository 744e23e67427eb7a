/* Times planners, text in to text out: `bench FILE..`, each file a group of texts in frames (a length of four bytes, high byte first, then so many
 * bytes). Planners take turns on each text, and the fastest of several turns counts. Prints for each group the mean over its texts, and the
 * text that takes ours the longest; then the peak stack of the call over all texts. With INDEPENDENT defined it links the independent planner too,
 * checks that the answers are the same, and prints ratios.
 *
 * `bench --only PLANNER TIMES FILE` plans each tenth text of a file so many times and says how many texts these are, for who counts the instructions
 * (planner 0 is ours, 1 the independent one). */
#define _DEFAULT_SOURCE
#include "clampfern.h"
#include <libgen.h>
#include <stdio.h>
#include <stdlib.h>
#include <string.h>
#include <time.h>
#include <ucontext.h>

typedef size_t planner(const uint8_t *text, size_t text_len, uint8_t *out, size_t out_len);
#ifdef INDEPENDENT
planner independent_plan;
static planner *const planners[] = {clampfern_plan, independent_plan};
#else
static planner *const planners[] = {clampfern_plan};
#endif
enum { PLANNERS = sizeof planners / sizeof *planners, TURNS = 9, TEXT_MOST = 65536 };

static const double TURN = 1e6; /* nanoseconds that a turn takes at the least */

struct text {
    uint8_t bytes[TEXT_MOST];
    size_t size;
};

static double now(void)
{
    struct timespec at;
    clock_gettime(CLOCK_MONOTONIC, &at);
    return at.tv_sec * 1e9 + at.tv_nsec;
}

/* Nanoseconds for a call, in a turn of so many. */
static double turn(planner *plan, const struct text *text, int calls)
{
    uint8_t out[CLAMPFERN_OUT_MOST];
    double start = now();
    for (int i = 0; i < calls; i++)
        plan(text->bytes, text->size, out, sizeof out);
    return (now() - start) / calls;
}

static void time_text(const struct text *text, double best[PLANNERS])
{
    int calls = 1;
    while (turn(planners[0], text, calls) * calls < TURN)
        calls *= 2;
    for (int i = 0; i < TURNS; i++)
        for (int p = 0; p < PLANNERS; p++) {
            double took = turn(planners[p], text, calls);
            best[p] = i == 0 || took < best[p] ? took : best[p];
        }
}

static void check_same(const struct text *text)
{
    uint8_t out[PLANNERS][CLAMPFERN_OUT_MOST];
    size_t size[PLANNERS];
    for (int p = 0; p < PLANNERS; p++) {
        size[p] = planners[p](text->bytes, text->size, out[p], sizeof out[p]);
        if (size[p] == 0 || size[p] != size[0] || memcmp(out[p], out[0], size[0]) != 0) {
            fprintf(stderr, "bench: the answers differ\n");
            exit(1);
        }
    }
}

/* The peak stack of a call: run on a stack full of marks, of which it leaves those that it does not reach. */
static uint8_t stack[1 << 18];
static ucontext_t outside, inside;
static planner *called;
static const struct text *called_with;
static uint8_t called_out[CLAMPFERN_OUT_MOST];

static void call(void)
{
    called(called_with->bytes, called_with->size, called_out, sizeof called_out);
}

static size_t nothing(const uint8_t *text, size_t text_len, uint8_t *out, size_t out_len)
{
    (void)text, (void)text_len, (void)out, (void)out_len;
    return 0;
}

static size_t reached(planner *plan, const struct text *text)
{
    called = plan;
    called_with = text;
    memset(stack, 0xa5, sizeof stack);
    getcontext(&inside);
    inside.uc_stack.ss_sp = stack;
    inside.uc_stack.ss_size = sizeof stack;
    inside.uc_link = &outside;
    makecontext(&inside, call, 0);
    swapcontext(&outside, &inside);
    size_t unmarked = 0;
    while (unmarked < sizeof stack && stack[unmarked] == 0xa5)
        unmarked++;
    return sizeof stack - unmarked;
}

static int read_text(FILE *file, struct text *text)
{
    uint8_t head[4];
    if (fread(head, 1, 4, file) != 4)
        return 0;
    text->size = (size_t)head[0] << 24 | head[1] << 16 | head[2] << 8 | head[3];
    return text->size <= TEXT_MOST && fread(text->bytes, 1, text->size, file) == text->size;
}

static void report(const char *group, const char *what, const double took[PLANNERS])
{
    printf("%-8s %-12s %10.2f us", group, what, took[0] / 1000);
    if (PLANNERS == 2)
        printf(" %10.2f us %8.2f", took[1] / 1000, took[0] / took[1]);
    printf("\n");
}

static void time_group(const char *name, FILE *file, size_t peak[PLANNERS])
{
    static struct text text;
    double sum[PLANNERS] = {0}, most[PLANNERS] = {0}, took[PLANNERS];
    int texts = 0;
    while (read_text(file, &text)) {
        check_same(&text);
        time_text(&text, took);
        texts++;
        for (int p = 0; p < PLANNERS; p++) {
            sum[p] += took[p];
            size_t size = reached(planners[p], &text) - reached(nothing, &text);
            peak[p] = size > peak[p] ? size : peak[p];
        }
        if (took[0] > most[0])
            memcpy(most, took, sizeof most);
    }
    for (int p = 0; p < PLANNERS; p++)
        sum[p] /= texts;
    report(name, "mean", sum);
    report(name, "slowest", most);
}

static void only(planner *plan, int times, FILE *file)
{
    static struct text text;
    uint8_t out[CLAMPFERN_OUT_MOST];
    int texts = 0;
    for (int number = 0; read_text(file, &text); number++)
        if (number % 10 == 0) {
            texts++;
            for (int i = 0; i < times; i++)
                plan(text.bytes, text.size, out, sizeof out);
        }
    printf("texts %d\n", texts);
}

static FILE *opened(const char *path)
{
    FILE *file = fopen(path, "rb");
    if (!file) {
        perror(path);
        exit(1);
    }
    return file;
}

int main(int argc, char **argv)
{
    if (argc == 5 && strcmp(argv[1], "--only") == 0) {
        only(planners[atoi(argv[2]) % PLANNERS], atoi(argv[3]), opened(argv[4]));
        return 0;
    }
    size_t peak[PLANNERS] = {0};
    printf("%-8s %-12s %13s%s\n", "group", "time", "ours", PLANNERS == 2 ? "   independent    ratio" : "");
    for (int group = 1; group < argc; group++)
        time_group(basename(argv[group]), opened(argv[group]), peak);
    printf("%-8s %-12s %7zu bytes", "all", "peak stack", peak[0]);
    if (PLANNERS == 2)
        printf(" %7zu bytes %8.2f", peak[1], (double)peak[0] / peak[1]);
    printf("\n");
    return 0;
}
