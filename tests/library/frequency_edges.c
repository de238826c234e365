/* The edges of the frequency's regions, and far outside: steps that meet them, and how often they do. */
#include "check.h"

enum { HERTZ_EDGES = 8 };
static const uint32_t hertz_edges[HERTZ_EDGES] = {56999, 57000, 58799, 58800, 61200, 61201, 62000, 62001};
/* At [i][service][region]: edge i, tripped and in service, with voltages of each region from continuous on. Limits that run out by their places,
 * trips by permission, recovery set back below and above. */
static unsigned at_edge[HERTZ_EDGES][2][4], run_out[9], trip_far_outside[2], set_back[2];

/* Counts an accepted sample, with the record and settings lent to its step, and the report. */
void edge_shown(const saltdelta_board *b, const saltdelta_settings *s, const uint32_t *sample, const saltdelta_report *r) {
    const int was = b->status >= SALTDELTA_ENTERING && b->status <= SALTDELTA_CEASE, is = r->status != SALTDELTA_TRIPPED;
    int voltages = SALTDELTA_CONTINUOUS;
    for (int i = 0; i < 3; i++)
        if (region_of_code(sample[i]) > voltages)
            voltages = region_of_code(sample[i]);
    for (int i = 0; i < HERTZ_EDGES; i++)
        at_edge[i][is][voltages - SALTDELTA_CONTINUOUS] += sample[3] == hertz_edges[i] && was == is;
    if (region_of_frequency(sample[3]) != SALTDELTA_CEASE)
        return;
    for (int i = 1; i <= 8; i++)
        run_out[i] += (r->bits >> (9 - i) & 1) && b->counters[i - 1] < s->trip[i - 1].clearing;
    trip_far_outside[sample[4] != 0] += was && !is;
    set_back[sample[3] > 62000] += was && is && voltages <= SALTDELTA_MANDATORY && b->recovery > 0 && r->recovery == 0;
}

void edges_reached(void) {
    static const char *const regions[4] = {"continuous", "mandatory", "momentary", "cease"};
    for (int i = 0; i < HERTZ_EDGES; i++)
        for (int service = 0; service < 2; service++)
            for (int region = 0; region < 4; region++) {
                char name[48];
                sprintf(name, "%" PRIu32 " mHz %s, voltages ", hertz_edges[i], service ? "in service" : "tripped");
                often(at_edge[i][service][region], "frequency: ", name, regions[region]);
            }
    often(trip_far_outside[0], "frequency: ", "tripped far outside by permission", "");
    often(trip_far_outside[1], "frequency: ", "tripped far outside by a limit", "");
    often(set_back[0], "frequency: ", "recovery to 0 below 57000 mHz, by the frequency alone", "");
    often(set_back[1], "frequency: ", "recovery to 0 above 62000 mHz, by the frequency alone", "");
    for (int i = 1; i <= 8; i++)
        often(run_out[i], "frequency: ", limits[i], " runs out far outside");
}

/* Lent records, about half of them in service with low counters, with each edge of the frequency's regions and voltages of each region, on one phase
 * or on all. */
void edge_steps(void) {
    static const uint32_t codes[4][4] = {{775, 1000, 1210, 1000}, {250, 500, 774, 774}, {0, 249, 1211, 1440}, {1441, 2000, 4095, 1441}};
    for (int i = 0; i < 16000; i++) {
        const saltdelta_settings s = rule_settings();
        const uint32_t code = codes[i / HERTZ_EDGES % 4][within(0, 3)], phase = within(0, 6), permission = !one_in(8);
        saltdelta_board b = rule_record(&s);
        uint32_t sample[7] = {1000, 1000, 1000, hertz_edges[i % HERTZ_EDGES], permission, 10000, within(0, 10000)};
        if (one_in(2)) {
            b.status = (uint8_t)within(SALTDELTA_ENTERING, SALTDELTA_CEASE);
            for (int k = 0; k < 9; k++)
                b.counters[k] = within(0, 12);
        }
        if (i % 20 == 0)
            anew();
        for (uint32_t k = 0; k < 3; k++)
            if (phase == k || phase > 2)
                sample[k] = code;
        give_settings(&s);
        two_steps(b, &s, sample);
    }
}
