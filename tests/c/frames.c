/* Plans many texts through the C entry. Standard input holds frames: a length of four bytes, high byte first, and then so many bytes. For each
 * text the answer is written to standard output as a frame. Each text is planned three times, into a buffer of the full size, one of exactly the
 * size of the answer, and one that is a byte shorter. Text and buffers end at a page that may not be touched. The program says so and ends with
 * status 1 where the entry does anything but what its header promises. With the word --most the longest answer has to be among those of the
 * texts: a header that promises a greater one promises too much. */
#define _DEFAULT_SOURCE
#include "clampfern.h"
#include "wall.h"
#include <stdio.h>
#include <stdlib.h>
#include <string.h>

#define TEXT_MOST 65536

static unsigned long number; /* of the text */
static size_t most;          /* bytes in an answer up to here */

static void fail(const char *what)
{
    fprintf(stderr, "frames: text %lu: %s\n", number, what);
    exit(1);
}

/* Plans into the last bytes before the wall, with marks in and before them, and sees to it that only those of the answer change. */
static size_t plan(const uint8_t *text, size_t text_len, uint8_t *wall, size_t out_len)
{
    uint8_t *out = wall - out_len;
    memset(out - BEFORE, MARK, BEFORE + out_len);
    size_t written = clampfern_plan(text, text_len, out, out_len);
    if (written > out_len)
        fail("more bytes than were lent");
    if (!marked(out - BEFORE, out) || !marked(out + written, wall))
        fail("a byte outside the answer has changed");
    return written;
}

static void answer(const uint8_t *text, size_t text_len, uint8_t *wall)
{
    uint8_t full[CLAMPFERN_OUT_MOST];
    size_t size = plan(text, text_len, wall, sizeof full);
    if (size == 0)
        fail("the full size is too short");
    memcpy(full, wall - sizeof full, size);
    if (plan(text, text_len, wall, size) != size || memcmp(wall - size, full, size) != 0)
        fail("another answer into a buffer of exactly its size");
    if (plan(text, text_len, wall, size - 1) != 0)
        fail("a buffer that is too short is not refused");
    most = size > most ? size : most;
    uint8_t head[4] = {0, 0, size >> 8, size & 255};
    if (fwrite(head, 1, 4, stdout) != 4 || fwrite(full, 1, size, stdout) != size)
        fail("the answer cannot be written");
}

int main(int argc, char **argv)
{
    uint8_t *text_wall = walled(TEXT_MOST);
    uint8_t *out_wall = walled(8192);
    uint8_t head[4];
    if (!text_wall || !out_wall)
        fail("no memory");
    while (fread(head, 1, 4, stdin) == 4) {
        size_t size = (size_t)head[0] << 24 | head[1] << 16 | head[2] << 8 | head[3];
        if (size > TEXT_MOST || fread(text_wall - size, 1, size, stdin) != size)
            fail("the text is too long or cut off");
        answer(text_wall - size, size, out_wall);
        number++;
    }
    if (argc > 1 && strcmp(argv[1], "--most") == 0 && most != CLAMPFERN_OUT_MOST)
        fail("no answer has the most bytes that one can have");
    return fflush(stdout) == 0 ? 0 : 1;
}
