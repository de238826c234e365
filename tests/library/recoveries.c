/* The recovery: the ways in which its count moves, and boards and records that reach them. The names and counts of
 * the ways of carrying images over stand here too; carries.c counts them. */
#include "check.h"

const char *const ways[WAYS] = {
    "recovery to 0 by momentary", "recovery to 0 by cease", "recovery up in entering", "recovery up in continuous",
    "recovery up in mandatory", "recovery held at 40", "recovery to 40 by a trip", "recovery 40 at a return",
    "recovery limits the watts", "recovery above 40 read as 40", "recovery of a tripped record not read",
    "carried forward", "forward refused with 10", "forward refused with 10, short target too", "forward refused with 9",
    "carried back", "back refused with 10", "back refused with 10, another end too", "back refused with 10, short target too",
    "back refused with 10, another end and a short target too", "back refused with 11", "back refused with 11, short target too",
    "back refused with 9", "back refused with 11 for the recovery alone", "back refused with 11 for the side alone",
    "back refused with 11 for the held power's high byte alone", "back refused with 11 for the held power's low byte alone",
    "back refused with 11 for the side alone, short target too", "back refused with 11 for the held power's low byte alone, short target too",
    "forward, 46 bytes refused with 10", "forward, 47 bytes refused with 10", "forward, 49 bytes refused with 10",
    "back, 46 bytes that end with a full recovery refused with 10", "back, 48 bytes refused with 10", "back, 45 bytes refused with 10",
    "forward, into 45 bytes refused with 9", "forward, into 46 bytes refused with 9", "forward, into 47 bytes refused with 9",
    "forward, into 48 bytes refused with 9", "forward, into 49 bytes carried", "back, into 44 bytes refused with 9", "back, into 45 bytes carried",
    "old to new to old", "new to old to new"};
unsigned reached[WAYS];

/* Counts the ways that a step shows: the status and the recovery lent to it, and its report. */
void shown(uint8_t status, uint8_t recovery, const saltdelta_report *r) {
    const int was = status >= SALTDELTA_ENTERING && status <= SALTDELTA_CEASE, is = r->status != SALTDELTA_TRIPPED;
    const int back = was && recovery > 0 && r->recovery == 0, up = was && recovery < RECOVERY_TOP && r->recovery == recovery + 1;
    const int gives = is && r->status <= SALTDELTA_MANDATORY, full = r->recovery == RECOVERY_TOP;
    reached[BY_MOMENTARY] += back && r->status == SALTDELTA_MOMENTARY;
    reached[BY_CEASE] += back && r->status == SALTDELTA_CEASE;
    reached[UP_ENTERING] += up && r->status == SALTDELTA_ENTERING;
    reached[UP_CONTINUOUS] += up && r->status == SALTDELTA_CONTINUOUS;
    reached[UP_MANDATORY] += up && r->status == SALTDELTA_MANDATORY;
    reached[HELD] += was && gives && recovery == RECOVERY_TOP && full;
    reached[BY_TRIP] += was && !is && recovery < RECOVERY_TOP && full;
    reached[AT_RETURN] += !was && is && full;
    reached[LIMITS] += !full && r->watts > 0 && r->watts == 250 * r->recovery;
    reached[ABOVE] += was && gives && recovery > RECOVERY_TOP && full;
    reached[UNREAD] += !was && recovery != RECOVERY_TOP && full;
}

/* Steps with one sample: steady, or with one phase or the frequency at an edge of mandatory operation, momentary cessation or cease, or about a
 * point of the droop. */
static void steps(saltdelta_board *b, const saltdelta_settings *s, int dip, uint32_t times) {
    static const uint32_t edges[8] = {0, 249, 250, 774, 1211, 1440, 1441, 4095};
    static const uint32_t hertz[12] = {40000, 56999, 57000, 62000, 62001, 80000, 59700, 59963, 59964, 60036, 60037, 60300};
    saltdelta_report report;
    uint32_t sample[7];
    memcpy(sample, steady, sizeof sample);
    if (dip && one_in(3))
        sample[3] = hertz[within(0, 11)];
    else if (dip)
        sample[within(0, 2)] = edges[within(0, 7)];
    while (times-- > 0)
        step(b, s, sample, 7, &report);
}

/* Boards from fresh, up the ramp and on, with dips; then records in which only the counters are low, so that few of them trip. */
void recoveries(void) {
    for (int i = 0; i < 30; i++) {
        saltdelta_board b = saltdelta_fresh();
        saltdelta_settings s = settings_read();
        anew();
        give_settings(&s);
        for (int k = 0; k < 12; k++) {
            steps(&b, &s, 0, within(1, 60));
            steps(&b, &s, 1, within(1, 16));
        }
    }
    for (int i = 0; i < 1000; i++) {
        saltdelta_board b = any_record();
        saltdelta_settings s = settings_read();
        for (int k = 0; k < 9; k++)
            b.counters[k] = within(0, 14);
        anew();
        give_settings(&s);
        give_record(&b);
        steps(&b, &s, one_in(2), 1);
        steps(&b, &s, 0, within(0, 3));
    }
}
