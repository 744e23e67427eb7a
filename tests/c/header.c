/* Holds include/clampfern.h to the library's entries and to its numbers: this does not compile, as C99 or C++98 or what came after them, where the
 * header says anything else. tests/header.sh writes numbers.h from the Rattle sources: a row IS(NAME, NUMBER) for each CLAMPFERN_NAME. */
#include "clampfern.h"
#include "clampfern.h"
#include <limits.h>

#define HOLDS(name, what) typedef char name[(what) ? 1 : -1]

/* On x86-64 a slice is passed as a pointer and then a length, a `usize` in eight bytes and a `u32` in four. */
typedef unsigned long writer(const unsigned char *from, unsigned long from_len, unsigned char *to, unsigned long to_len);
typedef unsigned int asker(const unsigned char *from, unsigned long from_len, unsigned int tick, unsigned int kind, unsigned int core);
HOLDS(a_byte_has_8_bits, CHAR_BIT == 8 && sizeof(uint8_t) == 1);
HOLDS(a_number_has_4_bytes, sizeof(uint32_t) == 4 && sizeof(unsigned int) == 4);
HOLDS(a_length_has_8_bytes, sizeof(size_t) == 8 && sizeof(unsigned long) == 8);
HOLDS(a_pointer_has_8_bytes, sizeof(uint8_t *) == 8 && sizeof(writer *) == 8);

#define IS(name, number) HOLDS(name##_is_the_sources_number, CLAMPFERN_##name == (number));
#include "numbers.h"

/* Each type is exactly this one. */
extern writer *const plan_entry, *const pack_entry;
extern asker *const tick_entry, *const packed_tick_entry;
writer *const plan_entry = clampfern_plan;
writer *const pack_entry = clampfern_pack;
asker *const tick_entry = clampfern_tick;
asker *const packed_tick_entry = clampfern_packed_tick;

/* Also for C++ they are functions of C: any others would not be those that are declared here. */
#ifdef __cplusplus
extern "C" {
#endif
writer clampfern_plan, clampfern_pack;
asker clampfern_tick, clampfern_packed_tick;
#ifdef __cplusplus
}
#endif
