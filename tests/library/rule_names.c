/* The rules: how often each is named and in which ways, and whether a rule is what its name in the header says. */
#include "check.h"

/* By their numbers, and the limits by their places, from 1. */
static const char *const status_rules[STATUS_RULES + 1] = {"", "permission", "a limit", "the wait", "a return", "lowest", "highest", "frequency"};
const char *const limits[9] = {"", "uv1", "uv2", "ov1", "ov2", "uf1", "uf2", "of1", "of2"};
static const char *const watts_rules[WATTS_RULES + 1] = {
    "", "the status", "available", "the operator", "the share", "the curve", "the nameplate", "the recovery", "the droop"};

/* Ways of naming a rule. */
enum {
    PERMISSION_LIMIT, PERMISSION_ALONE, WAIT_PERMISSION, WAIT_LIMIT, WAIT_NAMELESS, RETURN_NAMELESS, LOWEST_ENTERING, LOWEST_CONTINUOUS,
    LOWEST_HIGHEST, LOWEST_FREQUENCY, HIGHEST_LOWEST, HIGHEST_FREQUENCY, LOWEST_BELOW, LOWEST_ABOVE, HIGHEST_BELOW, HIGHEST_ABOVE,
    FREQUENCY_BELOW, FREQUENCY_ABOVE, FREQUENCY_MANDATORY, FREQUENCY_MOMENTARY, STATUS_TRIPPED, STATUS_MOMENTARY, STATUS_CEASE, OTHER_0, NOTHING_HOLDS,
    NAMINGS
};
static const char *const namings[NAMINGS] = {
    "permission named, a limit complete too", "permission named, no limit complete", "the wait named, permission off",
    "the wait named, a limit complete", "the wait named, status without a name", "a return, status without a name",
    "lowest named in entering", "lowest named in continuous", "lowest named, highest as bad", "lowest named, frequency as bad",
    "highest named, lowest bad but better", "highest named, frequency bad but better", "lowest named, frequency below 57000",
    "lowest named, frequency above 62000", "highest named, frequency below 57000", "highest named, frequency above 62000",
    "frequency named below 57000", "frequency named above 62000", "frequency named in mandatory",
    "frequency named, a voltage in momentary", "the status holds the watts in tripped",
    "the status holds the watts in momentary", "the status holds the watts in cease", "another rule holds the watts at 0",
    "nothing holds the watts down"};

/* `ahead`: a limit named before another that is complete. `same_left`: without an event and in one, at [i][k] the power i named where the later k
 * leaves the same, at [i][i] where no other does. */
static unsigned by_status[256], by_limit[256], ahead[256], by_watts[256], same_left[2][POWERS][POWERS], named[NAMINGS];
unsigned refused_with[12];

/* Steps of which what the header's name of a rule says is not so. */
static unsigned misnamed;

/* The header's names of the powers that may hold the watts, without an event and in one, in the order in which they are named. */
static const int powers[2] = {POWERS, EVENT_POWERS};
static const int power_names[2][POWERS] = {
    {SALTDELTA_WATTS_BY_AVAILABLE, SALTDELTA_WATTS_BY_OPERATOR, SALTDELTA_WATTS_BY_SHARE, SALTDELTA_WATTS_BY_CURVE,
     SALTDELTA_WATTS_BY_NAMEPLATE, SALTDELTA_WATTS_BY_RECOVERY},
    {SALTDELTA_WATTS_BY_DROOP, SALTDELTA_WATTS_BY_CURVE, SALTDELTA_WATTS_BY_NAMEPLATE, SALTDELTA_WATTS_BY_RECOVERY}};

/* What the power of a rule leaves. */
static uint32_t left_by(int rule, const saltdelta_settings *s, const uint32_t *sample, const saltdelta_report *r) {
    const uint32_t moved = (uint32_t)moved_power(r->held, sample[3]);
    switch (rule) {
    case SALTDELTA_WATTS_BY_AVAILABLE: return sample[5];
    case SALTDELTA_WATTS_BY_OPERATOR: return sample[6];
    case SALTDELTA_WATTS_BY_SHARE: return r->share;
    case SALTDELTA_WATTS_BY_CURVE: return (uint32_t)watt_curve(s, sample);
    case SALTDELTA_WATTS_BY_NAMEPLATE: return nameplate(r);
    case SALTDELTA_WATTS_BY_RECOVERY: return 250 * (uint32_t)r->recovery;
    default: return moved < sample[5] ? moved : sample[5];
    }
}

/* In a status that gives power: which of the powers leave what the watts are. The first of them is to be named. */
static void powers_named(const saltdelta_settings *s, const uint32_t *sample, const saltdelta_explained *e) {
    const int event = e->report.side != SALTDELTA_NO_SIDE;
    int first = -1, same = 0;
    for (int i = 0; i < powers[event]; i++) {
        if (left_by(power_names[event][i], s, sample, &e->report) != e->report.watts)
            continue;
        if (first < 0)
            first = i;
        same_left[event][first][i] += i > first;
        same++;
    }
    misnamed += first < 0 || power_names[event][first] != e->watts_rule;
    if (same == 1)
        same_left[event][first][first]++;
}

/* What the header's name of a status rule says is so; `was` and `is`: in service before and after. */
static int name_holds(int rule, int was, int is, int off, int completed, int lowest, int highest, int frequency) {
    switch (rule) {
    case SALTDELTA_STATUS_BY_PERMISSION: return was && !is && off;
    case SALTDELTA_STATUS_BY_LIMIT: return was && !is && !off && completed;
    case SALTDELTA_STATUS_BY_WAIT: return !was && !is;
    case SALTDELTA_STATUS_BY_RETURN: return !was && is;
    case SALTDELTA_STATUS_BY_LOWEST: return was && is && lowest >= highest && lowest >= frequency;
    case SALTDELTA_STATUS_BY_HIGHEST: return was && is && highest > lowest && highest >= frequency;
    case SALTDELTA_STATUS_BY_FREQUENCY: return was && is && frequency > lowest && frequency > highest;
    default: return 0;
    }
}

/* Counts what an accepted explained step shows: the status lent to it, settings, sample, and what it wrote. */
void explained_shown(uint8_t status, const saltdelta_settings *s, const uint32_t *sample, const saltdelta_explained *e) {
    const uint32_t *v = sample;
    const int lowest = region_of_code(v[0] < v[1] && v[0] < v[2] ? v[0] : v[1] < v[2] ? v[1] : v[2]);
    const int highest = region_of_code(v[0] > v[1] && v[0] > v[2] ? v[0] : v[1] > v[2] ? v[1] : v[2]);
    const int frequency = region_of_frequency(v[3]), off = v[4] == 0, bad = SALTDELTA_CONTINUOUS + 1;
    const int rule = e->status_rule, complete = e->report.bits >> 1 != 0, nameless = status > SALTDELTA_CEASE;
    const int by_lowest = rule == SALTDELTA_STATUS_BY_LOWEST, by_highest = rule == SALTDELTA_STATUS_BY_HIGHEST;
    const int by_frequency = rule == SALTDELTA_STATUS_BY_FREQUENCY;
    const int gives = e->report.status >= SALTDELTA_ENTERING && e->report.status <= SALTDELTA_MANDATORY;
    const int none = e->watts_rule == SALTDELTA_WATTS_BY_STATUS;
    const int was = status >= SALTDELTA_ENTERING && status <= SALTDELTA_CEASE, is = e->report.status != SALTDELTA_TRIPPED;
    const int completed = e->limit >= 1 && e->limit <= 8 && (e->report.bits >> (9 - e->limit) & 1);
    misnamed += !name_holds(rule, was, is, off, completed, lowest, highest, frequency) || none == gives;
    by_status[rule]++;
    by_limit[e->limit]++;
    if (e->limit <= 8)
        ahead[e->limit] += (e->report.bits & ((1 << (9 - e->limit)) - 2)) != 0;
    by_watts[e->watts_rule]++;
    named[PERMISSION_LIMIT] += rule == SALTDELTA_STATUS_BY_PERMISSION && complete;
    named[PERMISSION_ALONE] += rule == SALTDELTA_STATUS_BY_PERMISSION && !complete;
    named[WAIT_PERMISSION] += rule == SALTDELTA_STATUS_BY_WAIT && off;
    named[WAIT_LIMIT] += rule == SALTDELTA_STATUS_BY_WAIT && complete;
    named[WAIT_NAMELESS] += rule == SALTDELTA_STATUS_BY_WAIT && nameless;
    named[RETURN_NAMELESS] += rule == SALTDELTA_STATUS_BY_RETURN && nameless;
    named[LOWEST_ENTERING] += by_lowest && e->report.status == SALTDELTA_ENTERING;
    named[LOWEST_CONTINUOUS] += by_lowest && e->report.status == SALTDELTA_CONTINUOUS;
    named[LOWEST_HIGHEST] += by_lowest && lowest >= bad && highest == lowest;
    named[LOWEST_FREQUENCY] += by_lowest && lowest >= bad && frequency == lowest;
    named[HIGHEST_LOWEST] += by_highest && lowest >= bad && lowest < highest;
    named[HIGHEST_FREQUENCY] += by_highest && frequency >= bad && frequency < highest;
    named[LOWEST_BELOW] += by_lowest && v[3] < 57000;
    named[LOWEST_ABOVE] += by_lowest && v[3] > 62000;
    named[HIGHEST_BELOW] += by_highest && v[3] < 57000;
    named[HIGHEST_ABOVE] += by_highest && v[3] > 62000;
    named[FREQUENCY_BELOW] += by_frequency && v[3] < 57000;
    named[FREQUENCY_ABOVE] += by_frequency && v[3] > 62000;
    named[FREQUENCY_MANDATORY] += by_frequency && e->report.status == SALTDELTA_MANDATORY;
    named[FREQUENCY_MOMENTARY] += by_frequency && (lowest == SALTDELTA_MOMENTARY || highest == SALTDELTA_MOMENTARY);
    named[STATUS_TRIPPED] += none && e->report.status == SALTDELTA_TRIPPED;
    named[STATUS_MOMENTARY] += none && e->report.status == SALTDELTA_MOMENTARY;
    named[STATUS_CEASE] += none && e->report.status == SALTDELTA_CEASE;
    named[OTHER_0] += gives && !none && e->report.watts == 0;
    named[NOTHING_HOLDS] += gives && !none && e->report.watts == 10000;
    if (gives)
        powers_named(s, sample, e);
}

void rules_reached(void) {
    printf("%9u  rules that are not as the header names them\n", misnamed);
    expect(misnamed == 0, "the header's names of the rules");
    for (int i = 1; i <= STATUS_RULES; i++)
        often(by_status[i], "status held by ", status_rules[i], "");
    for (int i = 1; i <= 8; i++) {
        often(by_limit[i], "limit named: ", limits[i], "");
        /* uf2 and a limit of overfrequency are not broken at once, and behind of2 is none */
        if (i != SALTDELTA_UF2 + 1 && i != SALTDELTA_OF2 + 1)
            often(ahead[i], "limit named before another that is complete: ", limits[i], "");
    }
    for (int i = 1; i <= WATTS_RULES; i++)
        often(by_watts[i], "watts held by ", watts_rules[i], "");
    for (int event = 0; event < 2; event++)
        for (int i = 0; i < powers[event]; i++)
            for (int k = i; k < powers[event]; k++) {
                char held[64], beside[64] = "";
                sprintf(held, "watts held%s%s by ", event ? " in an event" : "", k > i ? "" : " alone");
                if (k > i)
                    sprintf(beside, ", the same left by %s", watts_rules[power_names[event][k]]);
                often(same_left[event][i][k], held, watts_rules[power_names[event][i]], beside);
            }
    for (int i = 0; i < NAMINGS; i++)
        often(named[i], "rules: ", namings[i], "");
    for (int i = SALTDELTA_RANGE; i <= SALTDELTA_SAMPLE; i++) {
        char number[12];
        sprintf(number, "%d", i);
        often(refused_with[i], "explained step refused with ", number, "");
    }
}
