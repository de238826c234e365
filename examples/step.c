/* The smallest program: it reads a sheet of settings from standard input, makes a fresh board and steps it three times.
 *
 *     tools/staticlib.sh
 *     cc examples/step.c -Iinclude target/staticlib/libsaltdelta.a -o step
 *     ./step < examples/listing.in
 */
#include <stdio.h>

#include "saltdelta.h"

int main(void) {
    static uint8_t text[65536];
    const size_t length = fread(text, 1, sizeof text, stdin);
    uint32_t sample[7] = {1000, 1000, 1000, 60000, 1, 10000, 10000}; /* codes, mHz, permission, available, limit */
    saltdelta_settings settings = {0};
    saltdelta_report report = saltdelta_fresh_report();
    saltdelta_board board = saltdelta_fresh();
    const saltdelta_sheet sheet = saltdelta_read_sheet(&settings, text, length);
    if (sheet.number != SALTDELTA_ACCEPTED) {
        printf("sheet line %u: refused %u\n", (unsigned)sheet.line, (unsigned)sheet.number);
        return 1;
    }
    for (int step = 1; step <= 3; step++) {
        sample[4] = step < 3; /* permission is withdrawn at the third step */
        if (saltdelta_step(&board, &settings, sample, 7, &report) == SALTDELTA_ACCEPTED)
            printf("step %d: status %u, watts %u\n", step, (unsigned)report.status, (unsigned)report.watts);
    }
    return 0;
}
