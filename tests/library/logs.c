/* Savings at sixteen places of a log, and how often each place and each byte of the image is met. */
#include "check.h"

/* Savings go to sixteen places of a log, one after the other. They are counted by their address modulo 16, and for each byte of the
 * image by whether they changed it to something other than 0. */
enum { PLACES = 16, ROOM = 64, LOG = PLACES + PLACES + ROOM + PLACES };
static unsigned placed[PLACES], byte_written[SALTDELTA_IMAGE];

static void count_saving(const uint8_t *buffer) {
    placed[(uintptr_t)buffer % PLACES]++;
    for (int i = 0; i < SALTDELTA_IMAGE; i++)
        byte_written[i] += buffer[i] != 0 && buffer[i] != 0xAA;
}

uint32_t save(const saltdelta_board *b, size_t length) {
    static unsigned made;
    uint8_t log[LOG], was[LOG];
    uint8_t *const buffer = log + PLACES + made++ % PLACES;
    uint32_t number;
    if (length > ROOM)
        exit(2);
    memset(log, 0xAA, sizeof log);
    memset(was, 0xAA, sizeof was);
    number = saltdelta_save(b, buffer, length);
    fprintf(calls, "save %zu\n", length);
    if (number == SALTDELTA_ACCEPTED) {
        fputs("saved ", answers);
        count_saving(buffer);
    } else {
        fprintf(answers, "refused %" PRIu32 " ", number);
    }
    memcpy(was + (buffer - log), buffer, length);
    if (memcmp(log, was, sizeof log) != 0)
        fputs("with other bytes ", answers);
    put_bytes(buffer, length);
    return number;
}

/* Any records, at all places. */
void log_saves(void) {
    anew();
    for (int i = 0; i < 2400; i++) {
        const saltdelta_board b = any_record();
        give_record(&b);
        save(&b, within(SALTDELTA_IMAGE, 60));
    }
}

void log_reached(void) {
    char which[48];
    for (int i = 0; i < PLACES; i++) {
        sprintf(which, "of %d modulo 16", i);
        often(placed[i], "log: an address ", which, "");
    }
    for (int i = 0; i < SALTDELTA_IMAGE; i++) {
        sprintf(which, "%d written", i);
        often(byte_written[i], "log: byte ", which, "");
    }
}
