/* Asks many tables through the C entries of the tick handler. Standard input holds frames: a length of four bytes, high byte first, and then so many
 * bytes: a tick, a kind and a core of four bytes each, high byte first, and then lines. For each the answer is written to standard output as a frame
 * of three such numbers: what clampfern_tick says, how many bytes clampfern_pack writes, and what clampfern_packed_tick says of these (ff ff ff ff
 * where there are none). Each table is packed into a buffer of the full size, one of exactly its size, and one that is a byte shorter. Lines, buffers
 * and packed bytes end at a page that may not be touched. Packed bytes are damaged, too. The program says so and ends with status 1 where an entry does
 * anything but what its header promises. */
#define _DEFAULT_SOURCE
#include "clampfern.h"
#include "wall.h"
#include <stdio.h>
#include <stdlib.h>
#include <string.h>

#define LINES_MOST 65536
#define NOT_ASKED 0xffffffff
#define BOARD_SIZE 5    /* bytes of a packed table: the board's record, then one for each row */
#define ROW_SIZE 8
#define NOT_PACKED (CLAMPFERN_TICK_REFUSED + CLAMPFERN_REFUSAL_RECORD)
#define BEYOND (CLAMPFERN_TICK_REFUSED + CLAMPFERN_REFUSAL_BEYOND)

struct query {
    uint32_t tick, kind, core;
    const uint8_t *lines;
    size_t lines_len;
};

static unsigned long number; /* of the query */
static uint8_t *lines_wall, *table_wall;

static void fail(const char *what)
{
    fprintf(stderr, "ticks: query %lu: %s\n", number, what);
    exit(1);
}

/* Packs into the last bytes before the wall, with marks in and before them, and sees to it that only those that are counted change. */
static size_t pack(const struct query *query, size_t table_len)
{
    uint8_t *table = table_wall - table_len;
    memset(table - BEFORE, MARK, BEFORE + table_len);
    size_t written = clampfern_pack(query->lines, query->lines_len, table, table_len);
    if (written > table_len)
        fail("more bytes than were lent");
    if (!marked(table - BEFORE, table) || !marked(table + written, table_wall))
        fail("a byte outside the packed ones has changed");
    return written;
}

/* Packs a table into buffers of each size. Returns how many bytes it has. */
static size_t pack_each(const struct query *query, uint8_t packed[CLAMPFERN_PACKED_MOST])
{
    size_t size = pack(query, CLAMPFERN_PACKED_MOST);
    memcpy(packed, table_wall - CLAMPFERN_PACKED_MOST, size);
    if (size == 0)
        return 0;
    if (pack(query, size) != size || memcmp(table_wall - size, packed, size) != 0)
        fail("other bytes in a buffer of exactly their size");
    if (pack(query, size - 1) != 0 || pack(query, 0) != 0)
        fail("a buffer that is too short is not refused");
    return size;
}

/* What is said of packed bytes that end at the wall. */
static uint32_t ask(const struct query *query, const uint8_t *packed, size_t size)
{
    memcpy(table_wall - size, packed, size);
    return clampfern_packed_tick(table_wall - size, size, query->tick, query->kind, query->core);
}

/* Asks once with one byte changed. */
static uint32_t ask_changed(const struct query *query, uint8_t *packed, size_t size, size_t at, uint8_t value)
{
    uint8_t was = packed[at];
    packed[at] = value;
    uint32_t answer = ask(query, packed, size);
    packed[at] = was;
    return answer;
}

static void refused(uint32_t answer)
{
    if (answer != NOT_PACKED)
        fail("bytes that are not of the packed form are not refused");
}

/* Damages packed bytes in a few ways, another row and another byte for each query: what is not of the form any more is refused, and what still is,
 * is answered. */
static void damage(const struct query *query, uint8_t packed[CLAMPFERN_PACKED_MOST + 1], size_t size)
{
    size_t rows = (size - BOARD_SIZE) / ROW_SIZE;
    packed[size] = packed[0];
    refused(ask(query, packed, 0));
    refused(ask(query, packed, size - 1));
    refused(ask(query, packed, size + 1));
    refused(ask_changed(query, packed, size, 0, packed[0] + 1));
    if (rows > 0) {
        size_t row = BOARD_SIZE + ROW_SIZE * (number % rows);
        refused(ask_changed(query, packed, size, row, packed[row] - 1));
        refused(ask_changed(query, packed, size, row + 2, 0));
        refused(ask_changed(query, packed, size, row + 2, 3));
        if (ask(query, packed, row) == NOT_PACKED)
            fail("the rows before one are refused");
    }
    uint32_t answer = ask_changed(query, packed, size, number % size, (uint8_t)number);
    if (answer > CLAMPFERN_TICK_IDLE && answer != NOT_PACKED && answer != BEYOND)
        fail("a changed byte is answered by a number that says nothing");
}

static uint32_t number_at(const uint8_t *bytes)
{
    return (uint32_t)bytes[0] << 24 | (uint32_t)bytes[1] << 16 | (uint32_t)bytes[2] << 8 | bytes[3];
}

static void put_number(uint32_t value)
{
    uint8_t bytes[4] = {value >> 24, value >> 16 & 255, value >> 8 & 255, value & 255};
    if (fwrite(bytes, 1, 4, stdout) != 4)
        fail("the answer cannot be written");
}

static void answer(const struct query *query)
{
    static uint8_t packed[CLAMPFERN_PACKED_MOST + 1];
    uint32_t from_packed = NOT_ASKED;
    uint32_t said = clampfern_tick(query->lines, query->lines_len, query->tick, query->kind, query->core);
    size_t size = pack_each(query, packed);
    if (size > 0) {
        from_packed = ask(query, packed, size);
        damage(query, packed, size);
    }
    put_number(12);
    put_number(said);
    put_number((uint32_t)size);
    put_number(from_packed);
}

int main(void)
{
    uint8_t head[16];
    lines_wall = walled(LINES_MOST);
    table_wall = walled(8192);
    if (!lines_wall || !table_wall)
        fail("no memory");
    while (fread(head, 1, 4, stdin) == 4) {
        size_t size = number_at(head);
        if (size < 12 || size - 12 > LINES_MOST || fread(head + 4, 1, 12, stdin) != 12 || fread(lines_wall - (size - 12), 1, size - 12, stdin) != size - 12)
            fail("it is too short, too long or cut off");
        struct query query = {number_at(head + 4), number_at(head + 8), number_at(head + 12), lines_wall - (size - 12), size - 12};
        answer(&query);
        number++;
    }
    return fflush(stdout) == 0 ? 0 : 1;
}
