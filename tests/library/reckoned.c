/* What the tests reckon by themselves: regions, the volt-watt curve, the nameplate, and the droop. */
#include "check.h"

uint32_t root(uint32_t square) {
    uint32_t found = 0;
    for (uint32_t bit = 1 << 15; bit > 0; bit >>= 1)
        if ((found + bit) * (found + bit) <= square)
            found += bit;
    return found;
}

/* Regions as statuses: the worse, the higher. */
int region_of_code(uint32_t code) {
    return code < 250 ? SALTDELTA_MOMENTARY : code < 775 ? SALTDELTA_MANDATORY : code < 1211 ? SALTDELTA_CONTINUOUS
         : code < 1441 ? SALTDELTA_MOMENTARY : SALTDELTA_CEASE;
}

int region_of_frequency(uint32_t hertz) {
    return hertz < 57000 || hertz > 62000 ? SALTDELTA_CEASE : hertz < 58800 || hertz > 61200 ? SALTDELTA_MANDATORY : SALTDELTA_CONTINUOUS;
}

/* The volt-watt curve at the mean voltage. */
int32_t watt_curve(const saltdelta_settings *s, const uint32_t *sample) {
    const int32_t mean = (int32_t)((root(sample[0] * 100000) + root(sample[1] * 100000) + root(sample[2] * 100000)) / 3);
    const int32_t from = (int32_t)s->watt[0].volts, to = (int32_t)s->watt[1].volts;
    if (mean <= from)
        return s->watt[0].power;
    if (mean >= to)
        return s->watt[1].power;
    return s->watt[0].power + (s->watt[1].power - s->watt[0].power) * (mean - from) / (to - from);
}

/* What the rating leaves beside the vars. */
uint32_t nameplate(const saltdelta_report *r) {
    const uint32_t vars = (uint32_t)(r->vars < 0 ? -r->vars : r->vars);
    return vars > 10000 ? 0 : root(100000000 - vars * vars);
}

int side_of(uint32_t hertz) {
    return hertz > HIGH_POINT ? SALTDELTA_HIGH_SIDE : hertz < LOW_POINT ? SALTDELTA_LOW_SIDE : SALTDELTA_NO_SIDE;
}

/* Ten times the way from the point that the frequency is past. */
int32_t tenfold(uint32_t hertz) {
    return 10 * (int32_t)(hertz > HIGH_POINT ? hertz - HIGH_POINT : hertz < LOW_POINT ? LOW_POINT - hertz : 0);
}

/* The held power moved by the frequency. */
int32_t moved_power(uint16_t held, uint32_t hertz) {
    const int32_t quotient = tenfold(hertz) / 3;
    return hertz < LOW_POINT ? held + quotient : held > quotient ? held - quotient : 0;
}
