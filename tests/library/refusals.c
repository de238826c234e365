/* Refused calls: they write no byte of what is lent to them, padding included. */
#include "check.h"

static const uint32_t bad_ramps[3] = {99, 60001, 100000};

static void fill_steady(lent_step *lent, int pattern, const saltdelta_settings *s) {
    const saltdelta_board b = {.status = SALTDELTA_CONTINUOUS, .recovery = 7, .side = SALTDELTA_HIGH_SIDE,
                               .counters = {0, 1, 2, 3, 4, 5, 6, 7, 8}, .ramp = 100, .watts = 5000, .vars = -5, .held = 6000};
    fill(lent, pattern, &b, s, steady, 7);
}

/* A step that is refused with `number` writes no byte; one that is not refused (number 0) writes the report. An explained one likewise. */
static void step_refused(lent_step *lent, size_t count, uint32_t number, const char *what) {
    lent_step before;
    uint32_t found;
    memcpy(&before, lent, sizeof before);
    found = saltdelta_step(&lent->board, &lent->settings, lent->sample, count, &lent->report);
    expect(found == number && (memcmp(&before, lent, sizeof before) == 0) == (number != SALTDELTA_ACCEPTED), what);
    memcpy(&before, lent, sizeof before);
    found = saltdelta_step_explained(&lent->board, &lent->settings, lent->sample, count, &lent->explained);
    expect(found == number && (memcmp(&before, lent, sizeof before) == 0) == (number != SALTDELTA_ACCEPTED), what);
}

void steps_refused(void) {
    const saltdelta_settings s = settings_of_sheet();
    for (int pattern = 0; pattern < 256; pattern += 85) {
        lent_step lent;
        fill_steady(&lent, pattern, &s);
        step_refused(&lent, 7, SALTDELTA_ACCEPTED, "a step that is accepted");
        for (int i = 0; i < 8; i++) {
            fill_steady(&lent, pattern, &s);
            lent.settings.trip[i].clearing = 100001;
            step_refused(&lent, 7, SALTDELTA_RANGE, "a clearing time out of range");
        }
        for (int i = 0; i < 3; i++) {
            fill_steady(&lent, pattern, &s);
            lent.settings.ramp = bad_ramps[i];
            step_refused(&lent, 7, SALTDELTA_RANGE, "a ramp out of range");
        }
        fill_steady(&lent, pattern, &s);
        lent.settings.var[3].volts = lent.settings.var[2].volts;
        step_refused(&lent, 7, SALTDELTA_RISE, "voltages that do not rise");
        for (size_t count = 0; count < 10; count++) {
            fill_steady(&lent, pattern, &s);
            if (count != 7)
                step_refused(&lent, count, SALTDELTA_SAMPLE, "another count than seven");
        }
        for (int i = 0; i < 3; i++) {
            fill_steady(&lent, pattern, &s);
            lent.sample[i] = 4096;
            step_refused(&lent, 7, SALTDELTA_CODE, "a code above 4095");
        }
        fill_steady(&lent, pattern, &s);
        lent.sample[3] = 39999;
        step_refused(&lent, 7, SALTDELTA_FREQUENCY, "a frequency under 40000");
        fill_steady(&lent, pattern, &s);
        lent.sample[3] = 80001;
        step_refused(&lent, 7, SALTDELTA_FREQUENCY, "a frequency over 80000");
        fill_steady(&lent, pattern, &s);
        lent.sample[4] = 2;
        step_refused(&lent, 7, SALTDELTA_PERMISSION, "a permission of 2");
        for (int i = 5; i < 7; i++) {
            fill_steady(&lent, pattern, &s);
            lent.sample[i] = 10001;
            step_refused(&lent, 7, SALTDELTA_POWER, "a power above 10000");
        }
    }
}

/* A saving that is refused writes no byte of the buffer, and none of the record. */
void saves_refused(void) {
    for (size_t length = 0; length < SALTDELTA_IMAGE; length++) {
        uint8_t buffer[SALTDELTA_IMAGE], before[SALTDELTA_IMAGE];
        saltdelta_board board, board_before;
        memset(buffer, 0x5A, sizeof buffer);
        memset(before, 0x5A, sizeof before);
        memset(&board, 0xA5, sizeof board);
        memset(&board_before, 0xA5, sizeof board_before);
        expect(saltdelta_save(&board, buffer, length) == SALTDELTA_BUFFER && memcmp(buffer, before, sizeof buffer) == 0
                   && memcmp(&board, &board_before, sizeof board) == 0,
               "a buffer under 49 bytes");
    }
}

/* A replay that is refused with `number` writes no byte of settings, samples, report and buffer. */
typedef struct {
    saltdelta_settings settings;
    saltdelta_report report;
    uint32_t samples[24];
    uint8_t buffer[60];
} lent_replay;

static void fill_replay(lent_replay *lent, int pattern, const saltdelta_settings *s) {
    memset(lent, pattern, sizeof *lent);
    memcpy(&lent->settings, s, sizeof *s);
    for (size_t i = 0; i < 24; i++)
        lent->samples[i] = steady[i % 7];
}

static void replay_refused(lent_replay *lent, size_t length, uint32_t number, const char *what) {
    lent_replay before;
    saltdelta_replayed found;
    memcpy(&before, lent, sizeof before);
    found = saltdelta_replay(&lent->settings, lent->samples, 24, &lent->report, lent->buffer, length);
    expect(found.number == number && found.accepted == 0 && memcmp(&before, lent, sizeof before) == 0, what);
}

void replays_refused(void) {
    const saltdelta_settings s = settings_of_sheet();
    for (int pattern = 0; pattern < 256; pattern += 85) {
        lent_replay lent;
        for (size_t length = 0; length <= sizeof lent.buffer; length++) {
            fill_replay(&lent, pattern, &s);
            if (length < SALTDELTA_IMAGE)
                replay_refused(&lent, length, SALTDELTA_BUFFER, "a replay into a buffer under 49 bytes");
            lent.settings.trip[length % 8].clearing = 100001;
            replay_refused(&lent, length, SALTDELTA_RANGE, "a replay with a clearing time out of range");
            fill_replay(&lent, pattern, &s);
            lent.settings.ramp = bad_ramps[length % 3];
            replay_refused(&lent, length, SALTDELTA_RANGE, "a replay with a ramp out of range");
            fill_replay(&lent, pattern, &s);
            lent.settings.watt[1].volts = lent.settings.watt[0].volts;
            replay_refused(&lent, length, SALTDELTA_RISE, "a replay with voltages that do not rise");
        }
    }
}
