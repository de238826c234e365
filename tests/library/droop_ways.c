/* The droop: the ways in which an event begins, goes on, ends and moves the watts, and how often each is reached. */
#include "check.h"

enum { POINTS = 4, BY_SIDE = 58, OTHERWISE = 6, MOST_WAYS = 64 };
/* The points, and the frequencies that are the first of an event. */
const uint32_t points[POINTS] = {LOW_POINT - 1, LOW_POINT, HIGH_POINT, HIGH_POINT + 1};
const char *const sides[3] = {"", "high side", "low side"};

/* A way and how often it was shown. The ways of a list are told in the same order by every step, from the first on. */
typedef struct {
    const char *name;
    unsigned count;
} droop_way;
typedef struct {
    droop_way ways[MOST_WAYS];
    int at;
} droop_list;
static droop_list by_side[3], otherwise;
/* Steps of which what the header's name of a side says is not so. */
static unsigned misplaced;
/* At [i][service]: point i, tripped, in service and at a return. */
static unsigned at_point[POINTS][3];

static void way(droop_list *list, const char *name, int shown) {
    list->ways[list->at].name = name;
    list->ways[list->at++].count += shown != 0;
}

uint16_t top_power(uint16_t power) {
    return power > 10000 ? 10000 : power;
}

/* Counts what an accepted step shows of one side: what was lent to it, its report, and the rule of the watts where it was an explained one, else 0. */
static void side_shown(int side, const saltdelta_board *b, const saltdelta_settings *s, const uint32_t *sample, const saltdelta_report *r, int rule) {
    droop_list *const list = &by_side[side];
    const uint16_t watts = top_power(b->watts), held = top_power(b->held);
    const int was = b->status >= SALTDELTA_ENTERING && b->status <= SALTDELTA_CEASE, is = r->status != SALTDELTA_TRIPPED;
    const int stays = was && is, returns = !was && is, nameless = b->status > SALTDELTA_CEASE, here = r->side == side;
    const int none = r->side == SALTDELTA_NO_SIDE && r->held == 0, beyond = side_of(sample[3]) == side;
    const int as_fresh = b->status == SALTDELTA_TRIPPED && b->recovery == RECOVERY_TOP && b->side == SALTDELTA_NO_SIDE && b->held == 0
        && b->ramp == 0 && b->watts == 0 && b->vars == 0;
    /* the watts before are held now; another held power than the lent one */
    const int begins = here && r->held == watts, changes = r->held != held;
    const int begun = stays && b->side == SALTDELTA_NO_SIDE && b->watts > 0 && b->watts <= 10000 && begins && changes;
    const int again = stays && begins && changes, jump = again && b->side == SALTDELTA_LOW_SIDE + SALTDELTA_HIGH_SIDE - side;
    /* nothing is taken from a record that is read as tripped */
    const int untaken = !was && b->side == side && b->held > 0 && changes;
    const int on = stays && b->side == side && here, goes_on = on && b->held > 0 && b->held <= 10000 && watts != held && r->held == b->held;
    const int ends = was && b->side == side && b->held > 0 && none, ended = ends && is;
    const int between = ended && sample[3] >= LOW_POINT && sample[3] <= HIGH_POINT;
    const int tripped = ends && !is && beyond, idle = !is && b->side == SALTDELTA_NO_SIDE && b->watts > 0 && beyond && none;
    const int gives = here && r->status >= SALTDELTA_ENTERING && r->status <= SALTDELTA_MANDATORY;
    const int after = was && b->status >= SALTDELTA_MOMENTARY && b->side == SALTDELTA_NO_SIDE && gives && begins;
    const int32_t moved = moved_power(r->held, sample[3]), available = (int32_t)sample[5], given = r->watts;
    const int32_t by = given > r->held ? given - r->held : r->held - given;
    const int32_t curve = watt_curve(s, sample), plate = (int32_t)nameplate(r), back = 250 * (int32_t)r->recovery;
    const int32_t least = curve < plate ? (curve < back ? curve : back) : plate < back ? plate : back;
    /* the watts are the moved power, and one more would be given too; or what is available, which is less */
    const int is_free = gives && given == moved && moved < available && moved < least;
    const int cut = gives && given == available && available > 0 && available < moved && available < least;
    const int shown = is_free && given > 0, remainder = tenfold(sample[3]) % 3, limit = (int32_t)sample[6] < given, share = r->share < r->watts;
    list->at = 0;
    way(list, "begins in service", begun);
    way(list, "begins in service, a held power lent without a side", begun && b->held > 0);
    way(list, "begins in service, watts above 10000", stays && b->side == SALTDELTA_NO_SIDE && b->watts > 10000 && begins);
    way(list, "begins at a return, watts 0", returns && b->watts == 0 && begins);
    way(list, "begins at a return, as from fresh", returns && begins && as_fresh);
    way(list, "begins at a return, watts lent", returns && b->watts > 0 && b->watts <= 10000 && begins);
    way(list, "begins at a return, watts above 10000", returns && b->watts > 10000 && begins);
    way(list, "begins at a return, side and held power of a tripped record not taken", returns && begins && untaken && !nameless);
    way(list, "begins at a return, side and held power of a status without a name not taken", returns && begins && untaken && nameless);
    way(list, "begins anew after a side without a name", again && b->side > SALTDELTA_LOW_SIDE);
    way(list, "begins anew after side 3", again && b->side == 3);
    way(list, "begins anew after side 255", again && b->side == 255);
    way(list, "begins anew after a jump", jump);
    way(list, "begins anew after a jump, watts above 10000", jump && b->watts > 10000);
    way(list, "begins in momentary", begun && r->status == SALTDELTA_MOMENTARY);
    way(list, "begins in cease", begun && r->status == SALTDELTA_CEASE);
    way(list, "begins in mandatory", begun && r->status == SALTDELTA_MANDATORY);
    way(list, "begins after a cessation, none held", after && b->watts == 0);
    way(list, "begins after a cessation, watts lent", after && b->watts > 0);
    way(list, "does not begin at a trip", was && idle);
    way(list, "does not begin in a tripped record", !was && idle);
    way(list, "goes on", goes_on);
    way(list, "goes on with watts above 10000 before", goes_on && b->watts > 10000);
    way(list, "goes on, none held and watts before", on && b->held == 0 && b->watts > 0 && r->held == 0);
    way(list, "goes on, above 10000 held as 10000", on && b->held > 10000 && b->watts < 10000 && r->held == 10000);
    way(list, "goes on in entering", goes_on && r->status == SALTDELTA_ENTERING);
    way(list, "goes on in continuous", goes_on && r->status == SALTDELTA_CONTINUOUS);
    way(list, "goes on in mandatory", goes_on && r->status == SALTDELTA_MANDATORY);
    way(list, "goes on in momentary", goes_on && r->status == SALTDELTA_MOMENTARY);
    way(list, "goes on in cease", goes_on && r->status == SALTDELTA_CEASE);
    way(list, "goes on after momentary", goes_on && b->status == SALTDELTA_MOMENTARY && gives);
    way(list, "goes on after cease", goes_on && b->status == SALTDELTA_CEASE && gives);
    way(list, "ends at 59964", ended && sample[3] == LOW_POINT);
    way(list, "ends at 60036", ended && sample[3] == HIGH_POINT);
    way(list, "ends between the points", between && sample[3] != LOW_POINT && sample[3] != HIGH_POINT);
    way(list, "ends in momentary", between && r->status == SALTDELTA_MOMENTARY);
    way(list, "ends in cease", between && r->status == SALTDELTA_CEASE);
    way(list, "ended by permission", tripped && sample[4] == 0);
    way(list, "ended by a limit", tripped && sample[4] == 1);
    way(list, "none in a tripped record that stays so", untaken && !is && !nameless && beyond);
    way(list, "none in a status without a name that stays tripped", untaken && !is && nameless && beyond);
    way(list, "moves the held power", shown && by > 0);
    way(list, "moves the held power at a return", shown && returns);
    way(list, "moves the held power by 3, a millihertz past the point", is_free && tenfold(sample[3]) == 10 && by == 3);
    way(list, "quotient with remainder 1", shown && remainder == 1);
    way(list, "quotient with remainder 2", shown && remainder == 2);
    way(list, "cut by available power", cut);
    way(list, "available power below the watts before holds", on && cut && available < watts);
    way(list, "none available", gives && available == 0 && moved > 0 && given == 0);
    way(list, "operator's limit below the watts", gives && limit);
    way(list, "share below the watts", gives && share);
    way(list, "operator's limit and share below the watts at a return", returns && gives && limit && share);
    way(list, "status named", here && rule == SALTDELTA_WATTS_BY_STATUS);
    way(list, "droop named", here && rule == SALTDELTA_WATTS_BY_DROOP);
    way(list, "droop named, the watts those available", rule == SALTDELTA_WATTS_BY_DROOP && cut);
    way(list, "curve named", here && rule == SALTDELTA_WATTS_BY_CURVE);
    way(list, "nameplate named", here && rule == SALTDELTA_WATTS_BY_NAMEPLATE);
    way(list, "recovery named", here && rule == SALTDELTA_WATTS_BY_RECOVERY);
}

/* Counts an accepted step on either side, and what is reached once for both. */
void droop_shown(const saltdelta_board *b, const saltdelta_settings *s, const uint32_t *sample, const saltdelta_report *r, int rule) {
    const int was = b->status >= SALTDELTA_ENTERING && b->status <= SALTDELTA_CEASE, is = r->status != SALTDELTA_TRIPPED;
    const int32_t quotient = tenfold(sample[3]) / 3;
    const int gives = is && r->status <= SALTDELTA_MANDATORY;
    const int over = gives && r->side == SALTDELTA_HIGH_SIDE && r->held > 0 && r->held < quotient && r->watts == 0;
    const int nothing = over && sample[5] > 0 && watt_curve(s, sample) > 0 && nameplate(r) > 0 && r->recovery > 0;
    const int cleared = was && b->held > 0 && r->side == SALTDELTA_NO_SIDE && r->held == 0;
    misplaced += r->side != (is ? side_of(sample[3]) : SALTDELTA_NO_SIDE);
    side_shown(SALTDELTA_HIGH_SIDE, b, s, sample, r, rule);
    side_shown(SALTDELTA_LOW_SIDE, b, s, sample, r, rule);
    otherwise.at = 0;
    way(&otherwise, "0 by the floor", nothing);
    way(&otherwise, "0 by the floor, one too many", nothing && quotient == r->held + 1);
    way(&otherwise, "held without a side, ended between the points", is && cleared && b->side == SALTDELTA_NO_SIDE);
    way(&otherwise, "held under a side without a name, ended between the points", is && cleared && b->side > SALTDELTA_LOW_SIDE);
    way(&otherwise, "held without a side, ended by a trip", !is && cleared && b->side == SALTDELTA_NO_SIDE);
    way(&otherwise, "held under a side without a name, ended by a trip", !is && cleared && b->side > SALTDELTA_LOW_SIDE);
    for (int i = 0; i < POINTS; i++)
        if (sample[3] == points[i] && (is || !was))
            at_point[i][!is ? 0 : was ? 1 : 2]++;
}

void droops_reached(void) {
    static const char *const services[3] = {" mHz tripped", " mHz in service", " mHz at a return"};
    printf("%9u  sides that are not as the header names them\n", misplaced);
    expect(misplaced == 0, "the header's names of the sides");
    for (int side = SALTDELTA_HIGH_SIDE; side <= SALTDELTA_LOW_SIDE; side++) {
        if (by_side[side].at != BY_SIDE) expect(0, "the count of the droop's ways");
        for (int i = 0; i < by_side[side].at; i++) {
            char what[32];
            sprintf(what, "droop, %s: ", sides[side]);
            often(by_side[side].ways[i].count, what, by_side[side].ways[i].name, "");
        }
    }
    if (otherwise.at != OTHERWISE) expect(0, "the count of the droop's other ways");
    for (int i = 0; i < otherwise.at; i++)
        often(otherwise.ways[i].count, "droop: ", otherwise.ways[i].name, "");
    for (int i = 0; i < POINTS; i++)
        for (int service = 0; service < 3; service++) {
            char point[12];
            sprintf(point, "%" PRIu32, points[i]);
            often(at_point[i][service], "droop: ", point, services[service]);
        }
}
