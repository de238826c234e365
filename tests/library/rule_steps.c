/* Steps on lent records that are made for the rules: every rule, limit and tie is named, or the step is refused. */
#include "check.h"

/* Curves of any height, rising in voltage, steep ones among them. */
static void any_curves(saltdelta_settings *s) {
    uint32_t volts = within(7000, 8500);
    for (int i = 0; i < 4; i++, volts += within(1, 1500)) {
        s->var[i].volts = volts;
        s->var[i].power = one_in(3) ? (one_in(2) ? 10000 : -10000) : (int32_t)within(0, 20000) - 10000;
    }
    s->watt[0].volts = within(10000, 11000);
    s->watt[1].volts = s->watt[0].volts + within(1, 1000);
    for (int i = 0; i < 2; i++)
        s->watt[i].power = one_in(3) ? 10000 : (int32_t)within(0, 10000);
}

/* Accepted settings, the trip levels mostly those nearest to nominal and the clearing times the shortest; a wait of 0 to 3. */
saltdelta_settings rule_settings(void) {
    static const saltdelta_limit near[8] = {
        {8800, 2100}, {5000, 200}, {11000, 100}, {12000, 16}, {59000, 18000}, {57000, 16}, {61000, 18000}, {61800, 16}};
    static const saltdelta_limit far[8] = {
        {0, 5000}, {0, 2100}, {12000, 1300}, {12000, 16}, {50000, 100000}, {50000, 100000}, {66000, 100000}, {66000, 100000}};
    saltdelta_settings s = settings_of_sheet();
    for (int i = 0; i < 8; i++) {
        const uint32_t low = near[i].level < far[i].level ? near[i].level : far[i].level;
        s.trip[i].level = one_in(6) ? within(low, near[i].level + far[i].level - low) : near[i].level;
        s.trip[i].clearing = one_in(6) ? within(near[i].clearing, far[i].clearing) : near[i].clearing;
    }
    s.wait = within(0, 3);
    s.ramp = within(100, 110);
    if (one_in(2))
        any_curves(&s);
    return s;
}

/* A record of any status whose counters are full, full after this step, one short of that, or low. */
saltdelta_board rule_record(const saltdelta_settings *s) {
    saltdelta_board b = any_record();
    b.status = (uint8_t)(one_in(8) ? within(6, 255) : within(0, 5));
    for (int i = 0; i < 9; i++) {
        const uint32_t top = i < 8 ? s->trip[i].clearing : s->wait > 1 ? s->wait : 1, kind = within(0, 7);
        b.counters[i] = kind < 2 ? top - 1 : kind < 3 ? top : kind < 4 ? UINT32_MAX : kind < 5 && top > 1 ? top - 2 : within(0, 13);
    }
    b.ramp = one_in(2) ? s->ramp - within(0, 1) : within(0, s->ramp);
    return b;
}

/* Codes at the edges of regions, of limits and of entering service. */
uint32_t edge(void) {
    static const uint32_t edges[12] = {0, 249, 250, 774, 775, 841, 1000, 1210, 1211, 1440, 1441, 4095};
    return edges[within(0, 11)];
}

/* One code on all phases or most, one frequency, permission mostly, powers of a few kinds. */
static void rule_sample(uint32_t *sample) {
    static const uint32_t hertz[18] = {40000, 49999, 56999, 57000, 58799, 58800, 58999, 59000, 61000,
                                       61001, 61200, 61201, 61800, 61801, 62000, 62001, 66001, 80000};
    const uint32_t most = one_in(2) ? 1000 : edge();
    for (int i = 0; i < 3; i++)
        sample[i] = one_in(4) ? edge() : most;
    sample[3] = one_in(2) ? 60000 : hertz[within(0, 17)];
    sample[4] = !one_in(4);
    for (int i = 5; i < 7; i++)
        sample[i] = one_in(4) ? 0 : one_in(3) ? 10000 : within(0, 10000);
}

/* An explained step of a lent record, and one more step, explained or not, with the same sample. */
void two_steps(saltdelta_board b, const saltdelta_settings *s, const uint32_t *sample) {
    saltdelta_report report;
    give_record(&b);
    explain(&b, s, sample, 7, &report);
    step(&b, s, sample, 7, &report);
}

/* Lent records that trip, wait, return or stay in service, several limits and regions at once. */
void status_steps(void) {
    for (int i = 0; i < 6000; i++) {
        const saltdelta_settings s = rule_settings();
        if (i % 10 == 0)
            anew();
        give_settings(&s);
        for (int k = 0; k < 4; k++) {
            uint32_t sample[7];
            rule_sample(sample);
            two_steps(rule_record(&s), &s, sample);
        }
    }
}

/* Explained steps that are refused, for one cause or several. */
void refused_explained(void) {
    for (int i = 0; i < 3000; i++) {
        saltdelta_settings s = rule_settings();
        saltdelta_board b = rule_record(&s);
        saltdelta_report report;
        uint32_t sample[9] = {0}, causes = 1u << within(0, 6), count = 7;
        if (one_in(2))
            causes |= 1u << within(0, 6);
        if (i % 20 == 0)
            anew();
        rule_sample(sample);
        if (causes & 1)
            s.trip[within(0, 7)].clearing = 100001;
        if (causes & 2)
            s.watt[1].volts = s.watt[0].volts;
        if (causes & 4)
            count = one_in(2) ? within(0, 6) : within(8, 9);
        if (causes & 8)
            sample[within(0, 2)] = within(4096, 5000);
        if (causes & 16)
            sample[3] = one_in(2) ? 39999 : 80001;
        if (causes & 32)
            sample[4] = within(2, 100);
        if (causes & 64)
            sample[within(5, 6)] = within(10001, 20000);
        give_settings(&s);
        give_record(&b);
        explain(&b, &s, sample, count, &report);
    }
}

/* What holds the watts: one of the six leaves `least`, those before it more, those behind it the same or more. A nameplate and a recovery
 * of just so much are not always to be had: then they leave somewhat more. */
static void six_powers(uint32_t *left) {
    const uint32_t kind = within(0, 7), least = kind == 0 ? 0 : kind == 1 ? 10000 : kind < 4 ? within(0, 10000) : 250 * within(29, 39);
    const int first = (int)within(0, POWERS - 1);
    for (int i = 0; i < POWERS; i++) {
        if (i < first && least < 10000)
            left[i] = one_in(3) ? 10000 : within(least + 1, 10000);
        else
            left[i] = i == first || one_in(2) ? least : within(least, 10000);
    }
}

/* Lent records in service, in continuous and mandatory operation, under settings in which the six leave these powers. */
void watts_steps(void) {
    static const uint32_t grid[5][2] = {{1000, 60000}, {900, 60000}, {1150, 60000}, {700, 60000}, {1000, 58500}};
    static const uint32_t ramps[3] = {100, 10000, 60000};
    for (int i = 0; i < 10000; i++) {
        saltdelta_settings s = rule_settings();
        saltdelta_board b = any_record();
        uint32_t left[POWERS], at = within(0, 4), ramp, sample[7];
        int32_t vars;
        if (i % 20 == 0)
            anew();
        six_powers(left);
        s.ramp = ramps[within(0, 2)];
        vars = (int32_t)root(100000000 - left[4] * left[4]);
        for (int k = 0; k < 4; k++)
            s.var[k].power = left[4] % 2 == 0 ? vars : -vars;
        s.watt[0].power = (int32_t)left[3];
        if (one_in(2))
            s.watt[1].power = (int32_t)left[3];
        ramp = (uint32_t)(((uint64_t)left[2] * s.ramp + 9999) / 10000);
        b.status = (uint8_t)within(SALTDELTA_ENTERING, SALTDELTA_CEASE);
        for (int k = 0; k < 9; k++)
            b.counters[k] = within(0, 11);
        b.ramp = ramp > 0 && at < 3 ? ramp - 1 : ramp;
        b.recovery = (uint8_t)(left[5] > 0 ? (left[5] + 249) / 250 - 1 : 0);
        for (int k = 0; k < 3; k++)
            sample[k] = grid[at][0];
        sample[3] = grid[at][1];
        sample[4] = 1;
        sample[5] = left[0];
        sample[6] = left[1];
        give_settings(&s);
        two_steps(b, &s, sample);
    }
}
