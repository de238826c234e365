/* Made numbers: the dice, and settings, records and samples of any kind that are drawn with them. */
#include "check.h"

static uint64_t seed = 20260101;

uint64_t next(void) {
    seed ^= seed >> 12;
    seed ^= seed << 25;
    seed ^= seed >> 27;
    return seed * UINT64_C(0x2545F4914F6CDD1D);
}

uint32_t within(uint32_t lowest, uint32_t highest) {
    return lowest + (uint32_t)((next() >> 11) % ((uint64_t)highest - lowest + 1));
}

int one_in(uint32_t n) {
    return within(1, n) == 1;
}

const uint32_t steady[7] = {1000, 1010, 990, 60000, 1, 10000, 9000};

uint32_t count(void) {
    return one_in(3) ? (uint32_t)next() : one_in(2) ? within(0, 20) : within(0, 100001);
}

/* Watts or a held power: none, near the top, or anything. */
static uint16_t any_power(void) {
    const uint32_t kind = within(0, 7);
    return (uint16_t)(kind == 0 ? 0 : kind == 1 ? within(9999, 10001) : kind == 2 ? within(65534, 65535) : kind == 3 ? within(0, 65535) : within(0, 10000));
}

/* A side with a name or without one. */
static uint8_t any_side(void) {
    const uint32_t kind = within(0, 7);
    return (uint8_t)(kind == 0 ? 3 : kind == 1 ? 255 : kind == 2 ? within(0, 255) : within(0, 2));
}

saltdelta_board any_record(void) {
    saltdelta_board b;
    b.status = (uint8_t)(one_in(4) ? within(0, 255) : within(0, 6));
    for (int i = 0; i < 9; i++)
        b.counters[i] = count();
    b.ramp = count();
    b.watts = any_power();
    b.vars = (int16_t)within(0, 65535);
    b.recovery = (uint8_t)(one_in(2) ? within(0, 42) : within(0, 255));
    b.side = any_side();
    b.held = any_power();
    return b;
}

size_t any_sample(uint32_t *sample) {
    for (int i = 0; i < 3; i++)
        sample[i] = one_in(4) ? within(0, 4097) : within(850, 1100);
    sample[3] = one_in(4) ? within(39990, 80010) : within(59000, 61000);
    sample[4] = one_in(6) ? within(0, 2) : 1;
    sample[5] = one_in(4) ? within(0, 10001) : 10000;
    sample[6] = one_in(8) ? (uint32_t)next() : within(0, 10000);
    return one_in(12) ? within(0, 9) : 7;
}

/* A sheet with a short wait and ramp, read by the library. */
saltdelta_settings settings_read(void) {
    char line[64], text[1024];
    size_t length;
    saltdelta_settings s;
    saltdelta_sheet found;
    sprintf(line, "(enter (wait %" PRIu32 " %" PRIu32 "))", within(0, 2), within(100, 110));
    length = write_sheet(text, 11, line);
    memset(&s, 0, sizeof s);
    found = saltdelta_read_sheet(&s, (const uint8_t *)text, length);
    expect(found.number == SALTDELTA_ACCEPTED && found.start == length && found.length == 0, line);
    return s;
}
