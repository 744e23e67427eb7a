/* For programs that lend memory to the library and look at what it touched: memory that ends at a page that may not be touched, and marks. */
#include <stdint.h>
#include <sys/mman.h>

#define BEFORE 64 /* bytes before a buffer that must stay as they are */
#define MARK 0xa5 /* what these bytes, and a buffer that nothing is written to, hold */

/* The end of so many bytes of memory, at such a page, and null where there is no memory. */
static uint8_t *walled(size_t size)
{
    uint8_t *start = mmap(NULL, size + 4096, PROT_READ | PROT_WRITE, MAP_PRIVATE | MAP_ANONYMOUS, -1, 0);
    return start == MAP_FAILED || mprotect(start + size, 4096, PROT_NONE) != 0 ? NULL : start + size;
}

static int marked(const uint8_t *from, const uint8_t *end)
{
    while (from < end)
        if (*from++ != MARK)
            return 0;
    return 1;
}
