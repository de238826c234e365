/* Events of the droop: boards, lent records and replays that reach its ways. */
#include "check.h"

/* At the points and one past them, close by, in the continuous region, in the mandatory one, far outside, or nominal. */
static uint32_t frequency(void) {
    static const uint32_t far[4] = {40000, 56999, 62001, 80000};
    const uint32_t kind = within(0, 11);
    return kind < 4 ? points[within(0, 3)] : kind < 6 ? within(59900, 60100) : kind < 8 ? within(59000, 61000) : kind == 8 ? within(57000, 62000)
         : kind == 9 ? far[within(0, 3)] : kind == 10 ? within(40000, 80000) : 60000;
}

/* Settings in which the droop mostly has the least to give: no vars, and a flat curve. */
static saltdelta_settings open_settings(void) {
    saltdelta_settings s = rule_settings();
    const int open = !one_in(4);
    for (int i = 0; i < 4 && open; i++)
        s.var[i].power = 0;
    for (int i = 0; i < 2 && open; i++)
        s.watt[i].power = 10000;
    if (one_in(2)) {
        s.hertz.low = 59000;
        s.hertz.high = 61000;
    }
    return s;
}

/* Nominal voltages mostly, else of any region; much power available mostly; a low limit of the operator's. */
static void event_sample(uint32_t *sample) {
    sample[0] = 1000;
    sample[1] = 1000;
    sample[2] = one_in(4) ? edge() : 1000;
    sample[3] = frequency();
    sample[4] = !one_in(12);
    sample[5] = one_in(2) ? 10000 : one_in(3) ? 0 : within(0, 10000);
    sample[6] = one_in(2) ? within(0, 499) : within(0, 10000);
}

/* The next sample of an event: the same, another, less available, or the frequency as far past the other point. */
static void next_sample(uint32_t *sample, const saltdelta_report *now) {
    const uint32_t kind = within(0, 5);
    if (kind < 2)
        event_sample(sample);
    else if (kind == 2)
        sample[5] = within(0, top_power(now->watts));
    else if (kind == 3)
        sample[3] = 120000 - sample[3];
    else if (kind == 4)
        sample[3] = frequency();
}

/* Boards from fresh, up a short ramp, with events of some steps; many return in one. */
void event_walks(void) {
    for (int i = 0; i < 600; i++) {
        saltdelta_board b = saltdelta_fresh();
        const saltdelta_settings s = open_settings();
        const uint32_t begin[7] = {1000, 1000, 1000, one_in(2) ? within(59900, 60100) : 60000, 1, 10000, 10000};
        saltdelta_report report = saltdelta_fresh_report();
        anew();
        give_settings(&s);
        for (uint32_t k = within(1, 12); k > 0; k--)
            step(&b, &s, begin, 7, &report);
        for (int events = 0; events < 6; events++) {
            uint32_t sample[7];
            for (uint32_t k = within(0, 19); k > 0; k--)
                step(&b, &s, steady, 7, &report);
            event_sample(sample);
            for (uint32_t k = within(1, 5); k > 0; k--) {
                step(&b, &s, sample, 7, &report);
                next_sample(sample, &report);
            }
        }
        save(&b, 51);
    }
}

/* Lent records, mostly in service with low counters and a full recovery, with any side, held power and watts; three steps each. Some are about where
 * nothing is left of the held power. */
void event_steps(void) {
    for (int i = 0; i < 12000; i++) {
        const saltdelta_settings s = open_settings();
        saltdelta_board b = rule_record(&s);
        saltdelta_report report = saltdelta_fresh_report();
        uint32_t sample[7];
        if (i % 20 == 0)
            anew();
        if (!one_in(4)) {
            b.status = (uint8_t)within(SALTDELTA_ENTERING, SALTDELTA_CEASE);
            for (int k = 0; k < 9; k++)
                b.counters[k] = within(0, 11);
        }
        if (!one_in(4))
            b.recovery = RECOVERY_TOP;
        event_sample(sample);
        if (one_in(6)) {
            sample[3] = HIGH_POINT + within(1, 1900);
            b.side = SALTDELTA_HIGH_SIDE;
            b.held = (uint16_t)((uint32_t)tenfold(sample[3]) / 3 + within(0, 4) - 2);
        }
        give_settings(&s);
        give_record(&b);
        for (int k = 0; k < 3; k++) {
            step(&b, &s, sample, 7, &report);
            next_sample(sample, &report);
        }
    }
}

/* Lent records that are tripped, or have a status without a name; most of them return, many into an event. */
void event_returns(void) {
    for (int i = 0; i < 9000; i++) {
        saltdelta_settings s = open_settings();
        saltdelta_board b;
        uint32_t sample[7];
        if (i % 20 == 0)
            anew();
        s.volts.low = 9000;
        s.volts.high = 10600;
        b = rule_record(&s);
        b.status = (uint8_t)(one_in(2) ? SALTDELTA_TRIPPED : within(SALTDELTA_CEASE + 1, 255));
        b.counters[8] = (s.wait > 1 ? s.wait : 1) - within(0, 1);
        event_sample(sample);
        sample[2] = 1000;
        if (one_in(2))
            sample[3] = within(s.hertz.low, s.hertz.high);
        give_settings(&s);
        two_steps(b, &s, sample);
    }
}

/* What holds the watts in an event: one of droop, watt curve, nameplate and recovery leaves `least`, those before it more, those behind it the same or
 * more; as with the six, nameplate and recovery leave somewhat more where that cannot be had. Available power, or the held power moved, is the
 * droop's. */
void event_powers(void) {
    static const uint32_t codes[4] = {1000, 900, 1150, 700};
    for (int i = 0; i < 8000; i++) {
        const uint32_t kind = within(0, 7), least = kind == 0 ? 0 : kind == 1 ? 10000 : kind < 4 ? within(0, 10000) : 250 * within(29, 39);
        const uint32_t first = within(0, EVENT_POWERS - 1), high = within(0, 1), code = codes[within(0, 3)], begins = one_in(4);
        saltdelta_settings s = rule_settings();
        saltdelta_board b = any_record();
        uint32_t left[EVENT_POWERS], room, past, sample[7] = {code, code, code, 0, 1, 10000, one_in(2) ? 0 : within(0, 10000)};
        int32_t vars, held;
        if (i % 20 == 0)
            anew();
        for (uint32_t k = 0; k < EVENT_POWERS; k++)
            if (k < first && least < 10000)
                left[k] = one_in(3) ? 10000 : within(least + 1, 10000);
            else
                left[k] = k == first || one_in(2) ? least : within(least, 10000);
        vars = (int32_t)root(100000000 - left[2] * left[2]);
        for (int k = 0; k < 4; k++)
            s.var[k].power = left[2] % 2 == 0 ? vars : -vars;
        s.watt[0].power = (int32_t)left[1];
        if (one_in(2))
            s.watt[1].power = (int32_t)left[1];
        /* so far past the point that the held power is within its range */
        room = (high ? 10000 - left[0] : left[0]) * 3 / 10;
        past = within(1, room > 1500 ? 1500 : room > 1 ? room : 1);
        held = (int32_t)left[0] + (high ? 1 : -1) * (int32_t)(past * 10 / 3);
        sample[3] = high ? HIGH_POINT + past : LOW_POINT - past;
        if (one_in(3) || held < 0 || held > 10000)
            sample[5] = left[0];
        held = held < 0 ? 0 : held > 10000 ? 10000 : held;
        b.status = (uint8_t)within(SALTDELTA_ENTERING, SALTDELTA_CEASE);
        for (int k = 0; k < 9; k++)
            b.counters[k] = within(0, 11);
        b.recovery = (uint8_t)(left[3] > 0 ? (left[3] + 249) / 250 - 1 : 0);
        b.side = (uint8_t)(begins ? SALTDELTA_NO_SIDE : high ? SALTDELTA_HIGH_SIDE : SALTDELTA_LOW_SIDE);
        if (begins)
            b.watts = (uint16_t)held;
        else
            b.held = (uint16_t)held;
        give_settings(&s);
        two_steps(b, &s, sample);
    }
}

/* Recordings that go up a short ramp and end in an event or after one. At [side][i]: with power held, with watts, after momentary or cease. */
enum { REPLAY_ENDS = 3 };
static unsigned replay_ends[3][REPLAY_ENDS];

void event_replays(void) {
    for (int i = 0; i < 2000; i++) {
        uint32_t samples[LONGEST_RECORDING] = {0};
        size_t count = 0;
        saltdelta_report r;
        for (uint32_t k = within(4, 40); k > 0; k--, count += 7)
            memcpy(samples + count, steady, sizeof steady);
        for (uint32_t events = within(1, 3); events > 0; events--) {
            event_sample(samples + count);
            count += 7;
            for (uint32_t k = within(0, 3); k > 0; k--, count += 7)
                memcpy(samples + count, samples + count - 7, sizeof steady);
        }
        if (!replay(samples, count, within(SALTDELTA_IMAGE, 60), &r) || r.side > SALTDELTA_LOW_SIDE)
            continue;
        replay_ends[r.side][0] += r.held > 0;
        replay_ends[r.side][1] += r.watts > 0;
        replay_ends[r.side][2] += r.held > 0 && r.recovery < RECOVERY_TOP;
    }
}

void replay_ends_reached(void) {
    static const char *const ends[REPLAY_ENDS] = {", with power held", ", with watts", ", after momentary or cease, with power held"};
    for (int side = SALTDELTA_HIGH_SIDE; side <= SALTDELTA_LOW_SIDE; side++)
        for (int i = 0; i < REPLAY_ENDS; i++)
            often(replay_ends[side][i], "replay that ends in an event, ", sides[side], ends[i]);
}
