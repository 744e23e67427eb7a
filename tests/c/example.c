/* Plans the set of each file that is named, reads the answer's lines into structs, and prints these as tables. C99, no heap.
 * Every byte of an answer is looked at before it is used: an answer that was stored or sent may be cut off by then. */
#include "clampfern.h"
#include <stdbool.h>
#include <stdio.h>

/* What a job gets in every window, in ticks on each kind. */
struct share {
    uint16_t first, second;
};

/* Ticks of a job on a core, in every window: kind 1 or 2, cores of each kind from 0. */
struct slice {
    uint8_t job, kind, core;
    uint16_t start, length;
};

struct answer {
    uint8_t refusal, place; /* enum clampfern_refusal, and where; the number is 0 for a plan */
    uint8_t jobs, slices;   /* how many rows the plan has of each table */
    struct share share[CLAMPFERN_JOBS_MOST];
    struct slice slice[CLAMPFERN_SLICES_MOST];
};

/* What is left of an answer. Once something else was there than was needed, `good` is false, and no more bytes are taken. */
struct rest {
    const uint8_t *at, *end;
    bool good;
};

static void need(struct rest *rest, bool is_there)
{
    rest->good = rest->good && is_there;
}

static uint8_t character(struct rest *rest)
{
    need(rest, rest->at < rest->end);
    return rest->good ? *rest->at++ : 0;
}

static unsigned digit(struct rest *rest)
{
    uint8_t c = character(rest);
    if (c >= '0' && c <= '9')
        return c - '0';
    need(rest, c >= 'a' && c <= 'f');
    return rest->good ? c - 'a' + 10 : 0;
}

static uint8_t byte(struct rest *rest)
{
    unsigned high = digit(rest);
    return (uint8_t)(16 * high + digit(rest));
}

static uint16_t ticks(struct rest *rest)
{
    unsigned high = byte(rest);
    return (uint16_t)(256 * high + byte(rest));
}

static void line_feed(struct rest *rest)
{
    need(rest, character(rest) == '\n');
}

static struct share read_share(struct rest *rest, uint8_t job)
{
    struct share share;
    need(rest, byte(rest) == 0x11);
    need(rest, byte(rest) == job);
    share.first = ticks(rest);
    share.second = ticks(rest);
    line_feed(rest);
    return share;
}

static struct slice read_slice(struct rest *rest, uint8_t jobs)
{
    struct slice slice;
    need(rest, byte(rest) == 0x12);
    slice.job = byte(rest);
    slice.kind = byte(rest);
    slice.core = byte(rest);
    slice.start = ticks(rest);
    slice.length = ticks(rest);
    line_feed(rest);
    need(rest, slice.job < jobs && (slice.kind == 1 || slice.kind == 2) && slice.core < CLAMPFERN_CORES_MOST);
    return slice;
}

/* What `count` bytes of answer say, as clampfern_plan returned them. False where they are no whole answer. */
static bool read_answer(const uint8_t *out, size_t count, struct answer *answer)
{
    struct rest rest = {out, out + count, true};
    *answer = (struct answer){0};
    if (count == 0) { /* fewer bytes were lent than the answer has */
        answer->refusal = CLAMPFERN_REFUSAL_TOO_SHORT;
        return true;
    }
    uint8_t record = byte(&rest);
    if (record == 0x1f) {
        answer->refusal = byte(&rest);
        answer->place = byte(&rest);
        need(&rest, answer->refusal != 0);
    } else {
        answer->jobs = byte(&rest);
        answer->slices = byte(&rest);
        need(&rest, record == 0x10 && answer->jobs <= CLAMPFERN_JOBS_MOST && answer->slices <= CLAMPFERN_SLICES_MOST);
    }
    line_feed(&rest);
    for (uint8_t job = 0; rest.good && job < answer->jobs; job++)
        answer->share[job] = read_share(&rest, job);
    for (uint8_t row = 0; rest.good && row < answer->slices; row++)
        answer->slice[row] = read_slice(&rest, answer->jobs);
    need(&rest, rest.at == rest.end);
    return rest.good;
}

static void print_answer(const struct answer *answer)
{
    if (answer->refusal != 0) {
        printf("refusal %d, place %d\n", answer->refusal, answer->place);
        return;
    }
    printf("%d jobs, %d slices\n", answer->jobs, answer->slices);
    printf("  job  first  second\n");
    for (int job = 0; job < answer->jobs; job++)
        printf("%5d  %5d  %6d\n", job, answer->share[job].first, answer->share[job].second);
    printf("  job  kind  core  start  length\n");
    for (int row = 0; row < answer->slices; row++) {
        struct slice slice = answer->slice[row];
        printf("%5d  %4d  %4d  %5d  %6d\n", slice.job, slice.kind, slice.core, slice.start, slice.length);
    }
}

/* Plans a text into the first bytes of a buffer that is never too short, and prints what the answer says. Returns how many bytes it has. */
static size_t show(const char *title, const uint8_t *text, size_t text_len, size_t out_len)
{
    static uint8_t out[CLAMPFERN_OUT_MOST];
    static struct answer answer;
    size_t count = clampfern_plan(text, text_len, out, out_len);
    printf("%s: ", title);
    if (read_answer(out, count, &answer))
        print_answer(&answer);
    else
        printf("no answer\n");
    return count;
}

int main(int argc, char **argv)
{
    static uint8_t text[CLAMPFERN_TEXT_MOST + 1]; /* a byte more tells a text that is too long */
    for (int i = 1; i < argc; i++) {
        FILE *file = fopen(argv[i], "rb");
        size_t text_len = file ? fread(text, 1, sizeof text, file) : 0;
        if (!file || ferror(file)) {
            perror(argv[i]);
            return 1;
        }
        fclose(file);
        size_t count = show(argv[i], text, text_len, CLAMPFERN_OUT_MOST);
        show("the same, lent a byte less than its answer has", text, text_len, count - 1);
    }
    return fflush(stdout) == 0 ? 0 : 1;
}
