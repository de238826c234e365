/* Replays: each is what its steps one by one are. */
#include "check.h"

/* Up to `count` numbers of a recording, seven a sample, some samples refused. */
void any_recording(uint32_t *samples, size_t count) {
    for (size_t i = 0; i < count; i += 7) {
        uint32_t sample[9];
        any_sample(sample);
        memcpy(samples + i, sample, 7 * sizeof *sample);
    }
}

/* A recording of `count` numbers is stepped one by one and then replayed into `length` bytes: the same count of accepted samples, report and image,
 * and the bytes after the image stay; where it is refused, for the buffer, nothing is written. The report is the replay's. */
int replay(const uint32_t *samples, size_t count, size_t length, saltdelta_report *report) {
    const saltdelta_report lent = {77, 77, 77, 77, 77, -77, 77, 77};
    uint8_t stepped[64], replayed[64];
    size_t accepted = 0;
    saltdelta_settings s = settings_read();
    saltdelta_board b = saltdelta_fresh();
    saltdelta_report last = saltdelta_fresh_report();
    saltdelta_replayed found;
    int right;
    anew();
    give_settings(&s);
    for (size_t i = 0; i < count; i += 7)
        accepted += step(&b, &s, samples + i, count - i < 7 ? count - i : 7, &last) == SALTDELTA_ACCEPTED;
    memset(stepped, 0xAA, sizeof stepped);
    memset(replayed, 0xAA, sizeof replayed);
    saltdelta_save(&b, stepped, length);
    *report = lent;
    found = saltdelta_replay(&s, samples, count, report, replayed, length);
    if (length < SALTDELTA_IMAGE)
        right = found.number == SALTDELTA_BUFFER && found.accepted == 0 && same_report(report, &lent);
    else
        right = found.number == SALTDELTA_ACCEPTED && found.accepted == accepted && same_report(report, &last);
    right = right && memcmp(stepped, replayed, sizeof stepped) == 0;
    expect(right, "a replay and its steps");
    return right;
}
