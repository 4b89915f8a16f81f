/* Runs a sheet file on a memory file, with vectors of 16 bytes, and writes what the report says of the run, of a lane outside memory and
 * of each register with valid lanes. From the top of the repository, once `tools/build uve` has written the library:
 *
 *   cc -Iinclude examples/run.c target/staticlib/libuve.a -o run-c
 *   ./run-c sheet image
 */
#include <stdio.h>
#include "uve.h"

static uint8_t sheet[65536], memory[65536], report[UVE_RUN_REPORT];

/* Number k of the report. */
static unsigned long number(int k) {
    unsigned long n = 0;
    for (int i = 7; i >= 0; i--)
        n = n << 8 | report[8 * k + i];
    return n;
}

int main(int argc, char **argv) {
    FILE *s = argc == 3 ? fopen(argv[1], "rb") : NULL, *m = argc == 3 ? fopen(argv[2], "rb") : NULL;
    if (!s || !m)
        return 2;
    size_t sheet_len = fread(sheet, 1, sizeof sheet, s), memory_len = fread(memory, 1, sizeof memory, m);
    uint64_t answer = uve_run(sheet, sheet_len, 16, memory, memory_len, report, sizeof report);
    printf("number %lu, place %lu, passes %lu, calculations %lu\n", number(0), number(1), number(2), number(3));
    if (number(0) == 14)
        printf("outside: lane %lu, operand %lu\n", number(4), number(5));
    for (int i = 0, k = 8; i < 32; i++, k += 14)
        if (number(k + 3))
            printf("u%d: state %lu, kind %lu, width %lu, lanes %lu, first byte %02x\n", i, number(k), number(k + 1), number(k + 2),
                   number(k + 3), report[8 * (k + 6)]);
    return answer != 0;
}
