/* Why: reads what `board` reads, a sheet and then samples. For each line it says status and watts, and the rules that
 * held them, or the number by which the line is refused. Before the first line it says those of the fresh board.
 *
 *     tools/staticlib.sh
 *     cc examples/why.c -Iinclude target/staticlib/libsaltdelta.a -o why
 *     ./why < examples/morning.in
 *
 * It shows the library's explained step. A refused sheet ends it with status 1. */
#include <inttypes.h>
#include <stdio.h>
#include <string.h>

#include "saltdelta.h"

static const char *const statuses[] = {"tripped", "entering", "continuous", "mandatory", "momentary", "cease"};

static const char *const status_rules[] = {"", "no permission", "limit", "wait not full", "returned", "lowest voltage", "highest voltage",
                                           "frequency"};

static const char *const limits[] = {"", "uv1", "uv2", "ov1", "ov2", "uf1", "uf2", "of1", "of2"};

static const char *const watts_rules[] = {"", "status", "available power", "operator's limit", "share", "watt curve", "nameplate", "recovery",
                                          "droop"};

static void say(const saltdelta_explained *e) {
    const char *const rule = e->status_rule == SALTDELTA_STATUS_BY_LIMIT ? limits[e->limit] : status_rules[e->status_rule];
    printf("%-10s %-15s %5u %s\n", statuses[e->report.status], rule, e->report.watts, watts_rules[e->watts_rule]);
}

/* The first thirteen lines, with their line feeds. */
static size_t read_sheet(char *text, size_t room) {
    size_t length = 0;
    for (int line = 0; line < 13 && fgets(text + length, (int)(room - length), stdin) != NULL; line++)
        length += strlen(text + length);
    return length;
}

/* A sample line has seven numbers of at most six digits, and is the line that they make when they are written out again. */
static int read_sample(const char *line, uint32_t *x) {
    char again[96];
    if (sscanf(line, "(at (%6" SCNu32 " %6" SCNu32 " %6" SCNu32 ") %6" SCNu32 " %6" SCNu32 " %6" SCNu32 " %6" SCNu32, &x[0], &x[1], &x[2], &x[3], &x[4],
               &x[5], &x[6]) != 7)
        return 0;
    sprintf(again, "(at (%" PRIu32 " %" PRIu32 " %" PRIu32 ") %" PRIu32 " %" PRIu32 " %" PRIu32 " %" PRIu32 ")\n", x[0], x[1], x[2], x[3], x[4], x[5], x[6]);
    return strcmp(line, again) == 0;
}

int main(void) {
    static char text[4096];
    const size_t length = read_sheet(text, sizeof text);
    saltdelta_settings settings;
    saltdelta_board board = saltdelta_fresh();
    saltdelta_explained explained = saltdelta_fresh_explained();
    saltdelta_sheet sheet;
    memset(&settings, 0, sizeof settings);
    sheet = saltdelta_read_sheet(&settings, (const uint8_t *)text, length);
    if (sheet.number != SALTDELTA_ACCEPTED) {
        printf("refused %" PRIu32 " %" PRIu32 "\n", sheet.number, sheet.line);
        return 1;
    }
    say(&explained);
    while (fgets(text, sizeof text, stdin) != NULL) {
        uint32_t x[7];
        const uint32_t number = read_sample(text, x) ? saltdelta_step_explained(&board, &settings, x, 7, &explained) : SALTDELTA_SAMPLE;
        if (number == SALTDELTA_ACCEPTED)
            say(&explained);
        else
            printf("refused %" PRIu32 "\n", number);
    }
    return 0;
}
