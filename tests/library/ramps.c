/* Ramps at the ends of their row and outside it, in steps and in sheets. */
#include "check.h"

enum { RAMP_LENGTHS = 9, RAMP_TIMES = 400 };
static const uint32_t ramp_lengths[RAMP_LENGTHS] = {0, 99, 100, 101, 59999, 60000, 60001, 65536, 100000};
static unsigned ramp_answers[RAMP_LENGTHS];

/* The reading of a sheet with this line 11: taken, with its numbers stored, or refused with 2 at line 11, with every byte of the settings left. */
static int ramp_read(uint32_t wait, uint32_t ramp, int taken) {
    char line[64], text[1024];
    saltdelta_settings was, is;
    saltdelta_sheet found;
    sprintf(line, "(enter (wait %" PRIu32 " %" PRIu32 "))", wait, ramp);
    memset(&was, 0x5A, sizeof was);
    memset(&is, 0x5A, sizeof is);
    found = saltdelta_read_sheet(&is, (const uint8_t *)text, write_sheet(text, 11, line));
    if (taken)
        return found.number == SALTDELTA_ACCEPTED && is.wait == wait && is.ramp == ramp;
    return found.number == SALTDELTA_RANGE && found.line == 11 && memcmp(&was, &is, sizeof was) == 0;
}

/* Ramps at the ends of their row and outside it: steps with them, every other an explained one, and sheets. Half of the steps have voltages that do
 * not rise as well, which a refused ramp comes before. */
void ramp_ends(void) {
    for (int i = 0; i < RAMP_LENGTHS; i++) {
        const int taken = ramp_lengths[i] >= 100 && ramp_lengths[i] <= 60000;
        anew();
        for (int k = 0; k < RAMP_TIMES; k++) {
            const int falls = k % 4 / 2;
            saltdelta_settings s = rule_settings();
            saltdelta_board b = any_record();
            saltdelta_report report;
            uint32_t number;
            s.ramp = ramp_lengths[i];
            if (falls)
                s.watt[1].volts = s.watt[0].volts;
            give_settings(&s);
            give_record(&b);
            number = step(&b, &s, steady, 7, &report);
            ramp_answers[i] += number == (taken ? (falls ? SALTDELTA_RISE : SALTDELTA_ACCEPTED) : SALTDELTA_RANGE)
                && ramp_read(within(0, 60000), ramp_lengths[i], taken);
        }
    }
}

/* Every one of the answers was right. */
void ramps_reached(void) {
    for (int i = 0; i < RAMP_LENGTHS; i++) {
        printf("%9u  ramp of %" PRIu32 "\n", ramp_answers[i], ramp_lengths[i]);
        expect(ramp_answers[i] == RAMP_TIMES, "a ramp at an end of its row, or outside it");
    }
}
