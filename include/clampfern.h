/* Clampfern from C: plans the jobs of a board with two kinds of core, from text to text, and tells a tick handler which job of a plan each core runs.
 * Link target/staticlib/libclampfern.a (x86-64), which `tools/archive` writes. It needs memcpy and memset and nothing else: no heap, no
 * files, no state. tests/c/example.c is a caller that reads answers into structs, tests/c/window.c one that asks at each tick. */
#ifndef CLAMPFERN_H
#define CLAMPFERN_H

#include <stddef.h>
#include <stdint.h>

/* The most that there may be. What is outside its limits is refused: docs/REFUSALS.md says how, and what to do about it. */
#define CLAMPFERN_WINDOW_MOST 65535 /* ticks of a window, from 1 */
#define CLAMPFERN_CORES_MOST 8      /* cores of each kind, from 1 */
#define CLAMPFERN_JOBS_MOST 64      /* jobs of a set, from 0 */
#define CLAMPFERN_COST_MOST 1000000 /* ticks that a job costs on a kind where it may run, from 1 */
#define CLAMPFERN_TEXT_MOST 4096    /* bytes of a text */

/* The most slices that a plan can have. */
#define CLAMPFERN_SLICES_MOST 94

/* The most bytes that an answer can have: the lines of a plan with the most jobs and the most slices. A buffer of this size is never too short. */
#define CLAMPFERN_OUT_MOST 2437

/* The bytes of a packed table with 255 slices: a byte counts them in the lines of a plan. A table of this size is never too short. */
#define CLAMPFERN_PACKED_MOST 2045

/* What is answered for a core at a tick, where it is not the number of a job. */
#define CLAMPFERN_TICK_IDLE 256    /* no job runs */
#define CLAMPFERN_TICK_REFUSED 512 /* plus the number of a refusal */

/* The bytes of stack that are enough for a call, with its return address and all that it calls but memcpy and memset, which are the caller's. */
#define CLAMPFERN_STACK_MOST 4096

/* The numbers of refusals. docs/REFUSALS.md has for each its place, its cause and what to do about it. */
enum clampfern_refusal {
    CLAMPFERN_REFUSAL_WINDOW = 1,        /* a window outside its limits */
    CLAMPFERN_REFUSAL_CORES = 2,         /* a count of cores outside its limits */
    CLAMPFERN_REFUSAL_TOO_MANY_JOBS = 3, /* more jobs than there may be */
    CLAMPFERN_REFUSAL_COST = 4,          /* a cost outside its limits */
    CLAMPFERN_REFUSAL_TOO_LONG = 5,      /* a job that fits the window on no kind where it may run */
    CLAMPFERN_REFUSAL_BOTH_OVER = 6,     /* no room: each kind has more than it can take, before any job is moved */
    CLAMPFERN_REFUSAL_TOO_SHORT = 7,     /* a buffer that is shorter than what goes into it: said by a count of 0, by no line and no code */
    CLAMPFERN_REFUSAL_NOT_HEX = 8,       /* a line that is not pairs of hexadecimal digits, or a text that is too long */
    CLAMPFERN_REFUSAL_RECORD = 9,        /* a line that is no record of its text, or bytes that are not a packed table */
    CLAMPFERN_REFUSAL_ORDER = 10,        /* a line that is out of its text's order, one too many, or one that is missing */
    CLAMPFERN_REFUSAL_BEYOND = 11,       /* a tick of the window's length or more, or a kind or a core that the board lacks */
    CLAMPFERN_REFUSAL_BAD_ROW = 12,      /* a slice with a length of 0, or outside the window or the cores */
    CLAMPFERN_REFUSAL_COLLIDES = 13,     /* a slice that shares a tick with an earlier one on the same core */
    CLAMPFERN_REFUSAL_FIRST_OVER = 14,   /* no room: the first kind is short, whatever is moved to the second */
    CLAMPFERN_REFUSAL_SECOND_OVER = 15,  /* no room: the second kind is short, whatever is moved to the first */
    CLAMPFERN_REFUSAL_OTHER_OVER = 16    /* no room: a kind was over and fits once jobs are moved, but the other then does not */
};

#ifdef __cplusplus
extern "C" {
#endif

/* Of every call here: any bytes of any length and any numbers may be passed, and nothing has to be checked first. As everywhere in C, each pointer
 * must point at as many bytes as its length says, must not be null (even with a length of 0), and the two of one call must not overlap. A call
 * keeps nothing between calls and touches only what is passed and its own stack, so any number of threads may call at once. */

/* Plans the set that a text describes. The format of the text and of the answer is in docs/SPEC.md.
 *
 *   text, text_len   the set: a board line, then a line for each job. What is no set in order is answered by the line of its refusal.
 *   out, out_len     where the answer goes: the lines of the plan, or the one line of a refusal. No zero byte is written at its end.
 *
 * Returns how many bytes of `out` were written, from its start; the bytes after them stay as they were. Returns 0 only where `out` is
 * shorter than the answer (CLAMPFERN_REFUSAL_TOO_SHORT, place 0), and then no byte of it has changed. An accepted and a refused set both
 * give a count above 0: they are told apart by the first two bytes, "10" for a plan and "1f" for a refusal. */
size_t clampfern_plan(const uint8_t *text, size_t text_len, uint8_t *out, size_t out_len);

/* Says which job a core runs at a tick of the window, by the lines of a plan ("The tick handler" in docs/SPEC.md).
 *
 *   lines, lines_len   the board's line, ended by a line feed, and then the lines of the plan, as clampfern_plan wrote them
 *   tick               of the window, from 0
 *   kind, core         1 or 2 for the kind, and the core of that kind, from 0
 *
 * Returns the number of the job, which is below CLAMPFERN_TICK_IDLE; or CLAMPFERN_TICK_IDLE where the core has no job at that tick; or
 * CLAMPFERN_TICK_REFUSED plus the number of the first refusal in this order:
 *
 *   8, 9, 10       the lines are no plan's: of the first line that is bad
 *   1, 2, 12, 13   the table cannot be run on the board: its window, its cores, a slice that does not fit, two slices that collide
 *   11             the window has no such tick, or the board no such kind or core
 *
 * Lines of clampfern_plan behind the board's line that they were planned for are never refused but by 11.
 *
 * Each call reads all the lines and compares all pairs of slices. Who asks at each tick packs the lines once, and then asks the packed table,
 * which takes a sixtieth of the time for a plan of 94 slices (docs/TESTING.md). */
uint32_t clampfern_tick(const uint8_t *lines, size_t lines_len, uint32_t tick, uint32_t kind, uint32_t core);

/* Reads and checks the same lines once, and writes their table in packed bytes for clampfern_packed_tick.
 *
 *   lines, lines_len   as for clampfern_tick
 *   table, table_len   where the packed bytes go; their form is this library's own
 *
 * Returns how many bytes of `table` were written, from its start; the bytes after them stay as they were. Returns 0 where the lines or their
 * table are refused, by the number that clampfern_tick tells for tick 0, kind 1 and core 0; and where these are in order and `table` is too short
 * (CLAMPFERN_REFUSAL_TOO_SHORT). Then no byte of it has changed. */
size_t clampfern_pack(const uint8_t *lines, size_t lines_len, uint8_t *table, size_t table_len);

/* Says which job a core runs at a tick, as clampfern_tick does, by a packed table. It looks at each slice once.
 *
 *   table, table_len   what clampfern_pack wrote: as many bytes as it returned
 *   tick, kind, core   as for clampfern_tick
 *
 * Returns what clampfern_tick returns on the lines that were packed, for every tick, kind and core. Other bytes are refused by 9 where they are not
 * of the packed form (CLAMPFERN_TICK_REFUSED + CLAMPFERN_REFUSAL_RECORD); where they are, their slices are taken as they stand. */
uint32_t clampfern_packed_tick(const uint8_t *table, size_t table_len, uint32_t tick, uint32_t kind, uint32_t core);

#ifdef __cplusplus
}
#endif

#endif
