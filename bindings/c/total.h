/* Exact sums of products, rounded once: the calls of the proved library for C.
 *
 * The calls keep nothing between them and allocate nothing. Slices are lent for the time of the call: a pointer, which
 * is never null (also where the length is 0), and a number of elements.
 *
 * Link libexports.a, which is a copy of crates/exports_c/out/libexports_c.a, made by `rt lib` in crates/exports_c. */
#ifndef TOTAL_H
#define TOTAL_H

#include <stddef.h>
#include <stdint.h>

/* A value where code is 0, and else the code, the place and the side of a refusal. */
struct total_answer {
    uint64_t code;
    uint64_t place;
    uint64_t side;
    uint64_t value;
};

/* Where a sum goes that is no number of the width. */
enum total_direction { TOTAL_NEAREST = 0, TOTAL_TOWARD_ZERO = 1, TOTAL_UP = 2, TOTAL_DOWN = 3 };

/* The width of the pattern: binary64, or binary32 in the low half. */
enum total_width { TOTAL_LONG = 0, TOTAL_SHORT = 1 };

/* The codes of a refusal that these calls give. Places count from 0. */
enum total_code {
    TOTAL_NOT_FINITE = 1,     /* an element has no finite value: its index, and side 1 or 2 */
    TOTAL_NOT_FACTOR = 2,     /* an element has more than 26 significant bits or lies outside the window: the same */
    TOTAL_LENGTHS_DIFFER = 3, /* the shorter length, and its side */
    TOTAL_FULL = 4,           /* more than 67,108,864 products: this number, side 0 */
    TOTAL_OUTPUT_SHORT = 7,   /* the bytes needed, side 0 */
    TOTAL_SHORT_RANGE = 8,    /* the sum is too large for the short width: 0 and 0 */
    TOTAL_NO_FORM = 255       /* the numbers stand for no direction or no width: 0 and 0 */
};

/* The exact sum of the products firsts[i] * seconds[i], rounded once in a direction; in the short width, the long
 * pattern is rounded once more. The value is the pattern of the result. Elements are binary64 patterns or whole counts. */
struct total_answer total_dot_patterns(const uint64_t *firsts, size_t first_count, const uint64_t *seconds,
                                       size_t second_count, uint32_t direction, uint32_t width);
struct total_answer total_dot_counts(const int32_t *firsts, size_t first_count, const int32_t *seconds,
                                     size_t second_count, uint32_t direction, uint32_t width);
struct total_answer total_dot_patterns_counts(const uint64_t *firsts, size_t first_count, const int32_t *seconds,
                                              size_t second_count, uint32_t direction, uint32_t width);

/* Writes the report of a sheet: a `no` line for each refused line, and the `sum` line. The value is the number of bytes
 * written. Where out is too short, nothing is written. out may not overlap the sheet. */
struct total_answer total_report(const uint8_t *sheet, size_t sheet_length, uint8_t *out, size_t out_length);

#endif
