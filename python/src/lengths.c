/* See lengths.h. Blocks have narrow sums, so that compilers vectorise the counts. */
#include "lengths.h"

#include <string.h>

#ifdef __x86_64__
#define WITH_AVX2 __attribute__((target("avx2")))
#endif

enum { COUNTED = 128 }; /* bytes or units of a block */

/* Counts in blocks, and the rest separately. */
#define COUNT(in, len, size, Sum, of)                       \
    size_t count = 0, at = 0;                               \
    for (; at + (size) * COUNTED <= (len); at += (size) * COUNTED) { \
        Sum sum = 0;                                        \
        for (size_t i = 0; i < COUNTED; i++)                \
            sum = (Sum)(sum + of((in) + at + (size) * i));  \
        count += sum;                                       \
    }                                                       \
    for (; at + (size) <= (len); at += (size))              \
        count += of((in) + at);                             \
    return count

/* Whether a byte continues no character. Each such byte becomes one unit, or more. */
static inline uint8_t is_front(const uint8_t *byte) {
    return (int8_t)*byte >= -0x40;
}

/* How many bytes of UTF-8 a unit becomes, or more; a surrogate counts as half of four. */
static inline uint16_t unit_len(uint16_t unit) {
    return (uint16_t)(1 + (unit >= 0x80) + (unit >= 0x800) - ((unit & 0xF800) == 0xD800));
}

static inline uint16_t same(const uint8_t *bytes) {
    uint16_t unit;
    memcpy(&unit, bytes, sizeof unit);
    return unit;
}

static inline uint16_t swapped(const uint8_t *bytes) {
    uint16_t unit = same(bytes);
    return (uint16_t)(unit << 8 | unit >> 8);
}

static inline uint8_t is_line_end(const uint8_t *byte) {
    return *byte == '\n';
}

#define same_len(bytes) unit_len(same(bytes))
#define swapped_len(bytes) unit_len(swapped(bytes))
#define same_line_end(bytes) (same(bytes) == '\n')
#define swapped_line_end(bytes) (swapped(bytes) == '\n')

#define COUNTS(suffix, attribute)                                                                                                   \
    attribute static size_t fronts##suffix(const uint8_t *in, size_t len) { COUNT(in, len, 1, uint8_t, is_front); }                 \
    attribute static size_t line_ends##suffix(const uint8_t *in, size_t len) { COUNT(in, len, 1, uint8_t, is_line_end); }           \
    attribute static size_t same_lens##suffix(const uint8_t *in, size_t len) { COUNT(in, len, 2, uint16_t, same_len); }             \
    attribute static size_t swapped_lens##suffix(const uint8_t *in, size_t len) { COUNT(in, len, 2, uint16_t, swapped_len); }       \
    attribute static size_t same_line_ends##suffix(const uint8_t *in, size_t len) { COUNT(in, len, 2, uint8_t, same_line_end); }    \
    attribute static size_t swapped_line_ends##suffix(const uint8_t *in, size_t len) { COUNT(in, len, 2, uint8_t, swapped_line_end); }

COUNTS(, )
#ifdef WITH_AVX2
COUNTS(_wide, WITH_AVX2)
#define COUNTED_BY(name, in, len) ((len) >= COUNTED && nody_lanes() == 32 ? name##_wide(in, len) : name(in, len))
#else
#define COUNTED_BY(name, in, len) name(in, len)
#endif

size_t line_count(nody_encoding_t encoding, const uint8_t *bytes, size_t len) {
    if (encoding == NODY_UTF8)
        return COUNTED_BY(line_ends, bytes, len);
    return encoding == NODY_UTF16_NATIVE ? COUNTED_BY(same_line_ends, bytes, len) : COUNTED_BY(swapped_line_ends, bytes, len);
}

size_t least_recoded(nody_encoding_t from, nody_encoding_t to, const uint8_t *in, size_t len) {
    size_t count;
    if ((from == NODY_UTF8) == (to == NODY_UTF8))
        return len;
    if (from != NODY_UTF8)
        return from == NODY_UTF16_NATIVE ? COUNTED_BY(same_lens, in, len) : COUNTED_BY(swapped_lens, in, len);
    count = COUNTED_BY(fronts, in, len);
    return 2 * (count < len / 3 ? len / 3 : count); /* (three bytes become one unit, or more) */
}
