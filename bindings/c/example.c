/* Each call from C, with good and bad input: prints the four numbers of each answer. */
#include "total.h"
#include <inttypes.h>
#include <stdio.h>
#include <string.h>

static void show(const char *name, struct total_answer a) {
    printf("%s: %" PRIu64 " %" PRIu64 " %" PRIu64 " %016" PRIx64 "\n", name, a.code, a.place, a.side, a.value);
}

static void show_report(const char *name, const char *sheet, size_t room) {
    uint8_t out[64];
    memset(out, '.', sizeof out);
    struct total_answer a = total_report((const uint8_t *)sheet, strlen(sheet), out, room);
    show(name, a);
    printf("%.*s\n", (int)sizeof out, (const char *)out);
}

int main(void) {
    const uint64_t far[] = {0x43b0000000000000, 0x3ff0000000000000, 0xc3b0000000000000};
    const uint64_t ones[] = {0x3ff0000000000000, 0x3ff0000000000000, 0x3ff0000000000000};
    const uint64_t halfway[] = {0x4340000000000000, 0x3ff0000000000000};
    const uint64_t nan[] = {0x3ff0000000000000, 0x7ff8000000000000};
    const uint64_t long_fraction[] = {0x3ff0000004000000};
    const uint64_t large[] = {0x5e2ffffff8000000};
    const uint64_t one_and_a_half[] = {0x3ff8000000000000};
    const int32_t lowest[] = {INT32_MIN};
    const int32_t counts[] = {1, 5};

    show("cancelled", total_dot_patterns(far, 3, ones, 3, TOTAL_NEAREST, TOTAL_LONG));
    show("halfway, nearest", total_dot_patterns(halfway, 2, ones, 2, TOTAL_NEAREST, TOTAL_LONG));
    show("halfway, toward zero", total_dot_patterns(halfway, 2, ones, 2, TOTAL_TOWARD_ZERO, TOTAL_LONG));
    show("halfway, up", total_dot_patterns(halfway, 2, ones, 2, TOTAL_UP, TOTAL_LONG));
    show("halfway, down", total_dot_patterns(halfway, 2, ones, 2, TOTAL_DOWN, TOTAL_LONG));
    show("counts", total_dot_counts(lowest, 1, lowest, 1, TOTAL_NEAREST, TOTAL_LONG));
    show("patterns and counts", total_dot_patterns_counts(far, 2, counts, 2, TOTAL_UP, TOTAL_LONG));
    show("short", total_dot_patterns(one_and_a_half, 1, ones, 1, TOTAL_NEAREST, TOTAL_SHORT));
    show("empty", total_dot_patterns(ones, 0, ones, 0, TOTAL_DOWN, TOTAL_LONG));
    show("unequal lengths", total_dot_patterns(far, 3, ones, 2, TOTAL_NEAREST, TOTAL_LONG));
    show("NaN", total_dot_patterns(ones, 2, nan, 2, TOTAL_NEAREST, TOTAL_LONG));
    show("27 significant bits", total_dot_patterns(long_fraction, 1, ones, 1, TOTAL_NEAREST, TOTAL_LONG));
    show("too large for short", total_dot_patterns(large, 1, ones, 1, TOTAL_NEAREST, TOTAL_SHORT));
    show("no such direction", total_dot_patterns(ones, 1, ones, 1, 4, TOTAL_LONG));
    show("no such width", total_dot_patterns(ones, 1, ones, 1, TOTAL_NEAREST, 2));

    const char *sheet = "add\tp43b0000000000000\tc1\nadd\tc1\tc1\nadd\tc1\nsub\tp43b0000000000000\tc1\n";
    show_report("report", sheet, 64);
    show_report("report that just fits", sheet, 32);
    show_report("report without room", sheet, 31);
    show_report("report of an empty sheet", "", 64);
    show_report("report of a line without a line feed", "add\tc2\tc3", 64);
    return 0;
}
