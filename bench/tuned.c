/* The job of `board` (docs/SPECIFICATION.md, section 10) written for speed, as a yardstick: gcc -O3 tuned.c
   One pass over the bytes, tables for voltages, rating, decimals and bits; nothing is proved of it. `bench/run` holds its output
   against the comparison program's. */

#include <stdint.h>
#include <string.h>
#include <unistd.h>
#include <errno.h>

enum { BLOCK = 1 << 18, LINE_MOST = 73, OUT_FULL = 1 << 18, OUT_LINE = 128 };
enum { TRIPPED, ENTERING, CONTINUOUS, MANDATORY, MOMENTARY, CEASE };
enum { FORM = 1, RANGE, RISE, CODE, FREQUENCY, PERMISSION, POWER, SAMPLE };
enum { RECOVERY_TOP = 40, RECOVERY_STEP = 10000 / RECOVERY_TOP };
enum { NO_SIDE, HIGH_SIDE, LOW_SIDE };
enum { LOW_POINT = 59964, HIGH_POINT = 60036 }; /* of the droop */

static const int64_t INPUT_END = 1000000000000;

typedef struct { int32_t voltage, power; } point;
typedef struct {
    uint32_t limit[8], time[8], volts_low, volts_high, hertz_low, hertz_high, wait, ramp;
    point var[4], watt[2];
} settings;
typedef struct {
    uint32_t counter[9], ramp, share, recovery, side, held, watts;
    int in_service;
} board; /* when tripped, side and watts are 0, and recovery and held are not looked at */
typedef struct { const char *head; int pairs, low1, high1, low2, high2; } row;

static const row ROWS[13] = {
    {"(trip (uv1 ", 1, 0, 8800, 2100, 5000},         {"(trip (uv2 ", 1, 0, 5000, 200, 2100},
    {"(trip (ov1 ", 1, 11000, 12000, 100, 1300},     {"(trip (ov2 ", 1, 12000, 12000, 16, 16},
    {"(trip (uf1 ", 1, 50000, 59000, 18000, 100000}, {"(trip (uf2 ", 1, 50000, 57000, 16, 100000},
    {"(trip (of1 ", 1, 61000, 66000, 18000, 100000}, {"(trip (of2 ", 1, 61800, 66000, 16, 100000},
    {"(enter (volts ", 1, 8800, 9500, 10500, 10600}, {"(enter (hertz ", 1, 59000, 59900, 60100, 61000},
    {"(enter (wait ", 1, 0, 60000, 100, 60000},      {"(var (", 4, 7000, 13000, -10000, 10000},
    {"(watt (", 2, 10000, 12000, 0, 10000},
};

static uint16_t voltage_of[4096];     /* by code */
static uint8_t band_of[4096];         /* by code: 0 continuous to 3 cease */
static uint16_t rating_beside[10001]; /* by size of vars */
static char decimal[10001][8];        /* digits, and how many in the last byte */
static char nine_bits[512][16];
static const char HEADS[6][24] = {"(report tripped ", "(report entering ", "(report continuous ",
                                  "(report mandatory ", "(report momentary ", "(report cease "};
static const uint8_t HEAD_LENGTHS[6] = {16, 17, 19, 18, 18, 14};

static char in[LINE_MOST + 1 + BLOCK + 64], out[OUT_FULL + OUT_LINE];
static char *to = out;
static uint64_t lines;

static uint32_t root(uint32_t square) {
    uint32_t r = 0;
    for (uint32_t bit = 1u << 15; bit; bit >>= 1)
        if ((r + bit) * (r + bit) <= square) r += bit;
    return r;
}

static int put_number(char *at, uint64_t n) {
    char digits[20];
    int count = 0;
    do digits[count++] = '0' + n % 10; while (n /= 10);
    for (int i = 0; i < count; i++) at[i] = digits[count - 1 - i];
    return count;
}

static void make_tables(void) {
    for (uint32_t code = 0; code < 4096; code++) {
        uint32_t v = root(code * 100000);
        voltage_of[code] = v;
        band_of[code] = v > 12000 ? 3 : v > 11000 || v < 5000 ? 2 : v < 8800 ? 1 : 0;
    }
    for (uint32_t vars = 0; vars <= 10000; vars++) rating_beside[vars] = root(100000000 - vars * vars);
    for (int n = 0; n <= 10000; n++) decimal[n][7] = put_number(decimal[n], n);
    for (int bits = 0; bits < 512; bits++)
        for (int i = 0; i < 9; i++) nine_bits[bits][i] = '0' + (bits >> (8 - i) & 1);
}

static void flush(void) {
    for (char *p = out; p < to;) {
        ssize_t n = write(1, p, to - p);
        if (n < 0 && errno != EINTR) _exit(1);
        if (n > 0) p += n;
    }
    to = out;
}

static void refuse(int number, uint64_t line) {
    memcpy(to, "(refused ", 9);
    to[9] = '0' + number;
    to[10] = ' ';
    to += 11;
    to += put_number(to, line);
    *to++ = ')';
    *to++ = '\n';
}

/* A number of 1 to 6 digits without a leading zero; past it, or 0. The bytes end with one that is no digit. */
static inline const char *number(const char *p, uint32_t *value) {
    uint32_t n = (uint8_t)*p - '0';
    if (n > 9) return 0;
    if (n == 0) {
        *value = 0;
        return (uint8_t)(p[1] - '0') > 9 ? p + 1 : 0;
    }
    for (int i = 1; i <= 6; i++) {
        uint32_t digit = (uint8_t)p[i] - '0';
        if (digit > 9) {
            *value = n;
            return p + i;
        }
        n = n * 10 + digit;
    }
    return 0;
}

static inline int32_t between(point a, point b, int32_t v) {
    return a.power + (b.power - a.power) * (v - a.voltage) / (b.voltage - a.voltage);
}

static inline int32_t var_curve(const settings *s, int32_t v) {
    const point *p = s->var;
    if (v <= p[0].voltage) return p[0].power;
    if (v < p[1].voltage) return between(p[0], p[1], v);
    if (v < p[2].voltage) return p[1].power == p[2].power ? p[1].power : between(p[1], p[2], v);
    return v < p[3].voltage ? between(p[2], p[3], v) : p[3].power;
}

static inline int32_t watt_curve(const settings *s, int32_t v) {
    const point *p = s->watt;
    if (v <= p[0].voltage) return p[0].power;
    return v < p[1].voltage ? between(p[0], p[1], v) : p[1].power;
}

static inline uint32_t count(uint32_t *counter, uint32_t top, int again) {
    uint32_t n = *counter + (*counter < top);
    *counter = n = again ? n : 0;
    return n == top;
}

static inline uint32_t least(uint32_t a, uint32_t b) { return a < b ? a : b; }
static inline uint32_t most(uint32_t a, uint32_t b) { return a > b ? a : b; }

static inline void put_decimal(uint32_t n) {
    memcpy(to, decimal[n], 8);
    to += decimal[n][7];
}

static inline void report(int status, uint32_t bits, uint32_t share, uint32_t recovery, uint32_t side, uint32_t held, uint32_t watts, int32_t vars) {
    memcpy(to, HEADS[status], 24);
    to += HEAD_LENGTHS[status];
    memcpy(to, nine_bits[bits], 16);
    to += 9;
    *to++ = ' ';
    put_decimal(share);
    *to++ = ' ';
    put_decimal(recovery);
    *to++ = ' ';
    *to++ = '0' + side;
    *to++ = ' ';
    put_decimal(held);
    *to++ = ' ';
    put_decimal(watts);
    *to++ = ' ';
    if (vars < 0) *to++ = '-';
    put_decimal(vars < 0 ? -vars : vars);
    *to++ = ')';
    *to++ = '\n';
}

/* The power in an event, in the place of available power, operator's limit and share. */
static inline uint32_t droop(const board *b, uint32_t f, uint32_t available) {
    if (b->side == LOW_SIDE) return least(b->held + (LOW_POINT - f) * 10 / 3, available);
    uint32_t less = (f - HIGH_POINT) * 10 / 3;
    return b->held > less ? least(b->held - less, available) : 0;
}

/* Spec 6 and 7 for a sample of accepted form; the refusal's number, or 0. */
static inline int step(board *b, const settings *s, const uint32_t *n) {
    if ((n[0] | n[1] | n[2]) > 4095) return CODE;
    uint32_t f = n[3];
    if (f - 40000 > 40000) return FREQUENCY;
    if (n[4] > 1) return PERMISSION;
    if (n[5] > 10000 || n[6] > 10000) return POWER;
    uint32_t v0 = voltage_of[n[0]], v1 = voltage_of[n[1]], v2 = voltage_of[n[2]];
    uint32_t lowest = least(least(v0, v1), v2), highest = most(most(v0, v1), v2);
    uint32_t bits = 0;
    for (int i = 0; i < 2; i++) bits |= count(&b->counter[i], s->time[i], lowest < s->limit[i]) << (8 - i);
    for (int i = 2; i < 4; i++) bits |= count(&b->counter[i], s->time[i], highest > s->limit[i]) << (8 - i);
    for (int i = 4; i < 6; i++) bits |= count(&b->counter[i], s->time[i], f < s->limit[i]) << (8 - i);
    for (int i = 6; i < 8; i++) bits |= count(&b->counter[i], s->time[i], f > s->limit[i]) << (8 - i);
    int inside = n[4] & (lowest >= s->volts_low) & (highest <= s->volts_high) & (f >= s->hertz_low) & (f <= s->hertz_high);
    bits |= count(&b->counter[8], s->wait, inside);
    /* The worst of the three phases' bands is the worst of the lowest's and the highest's. */
    uint32_t band = most(most(band_of[n[0]], band_of[n[1]]), band_of[n[2]]);
    /* Outside 58800 to 61200 mandatory, outside 57000 to 62000 cease. */
    band = most(band, (f - 58800 > 2400) + 2 * (f - 57000 > 5000));
    if (b->in_service) {
        if (!n[4] || bits > 1) {
            b->in_service = 0;
        } else if (band == 0 && b->ramp < s->ramp) {
            b->ramp++;
            b->share = 10000 * b->ramp / s->ramp;
        }
    } else if (bits & 1) {
        b->in_service = 1;
        b->ramp = b->share = 0;
        b->recovery = RECOVERY_TOP;
    }
    if (!b->in_service) {
        b->side = b->watts = 0;
        report(TRIPPED, bits, 0, RECOVERY_TOP, NO_SIDE, 0, 0, 0);
        return 0;
    }
    uint32_t asked = least(least(n[5], n[6]), b->share);
    if (f - LOW_POINT > HIGH_POINT - LOW_POINT) {
        uint32_t side = f > HIGH_POINT ? HIGH_SIDE : LOW_SIDE;
        if (b->side != side) b->side = side, b->held = b->watts;
        asked = droop(b, f, n[5]);
    } else {
        b->side = b->held = 0;
    }
    if (band >= 2) {
        b->recovery = b->watts = 0;
        report(band + 2, bits, b->share, 0, b->side, b->held, 0, 0);
        return 0;
    }
    int32_t mean = (v0 + v1 + v2) / 3, vars = var_curve(s, mean);
    uint32_t watts = least(least(asked, watt_curve(s, mean)), rating_beside[vars < 0 ? -vars : vars]);
    /* A return comes here recovered, and is not counted. */
    if (b->recovery < RECOVERY_TOP) watts = least(watts, RECOVERY_STEP * ++b->recovery);
    b->watts = watts;
    report(band ? MANDATORY : b->ramp < s->ramp ? ENTERING : CONTINUOUS, bits, b->share, b->recovery, b->side, b->held, watts, vars);
    return 0;
}

/* A sample line from `p`; past its line feed, or 0. */
static inline const char *sample(const char *p, uint32_t *n) {
    if (memcmp(p, "(at (", 5)) return 0;
    if (!(p = number(p + 5, n)) || *p != ' ') return 0;
    if (!(p = number(p + 1, n + 1)) || *p != ' ') return 0;
    if (!(p = number(p + 1, n + 2)) || p[0] != ')' || p[1] != ' ') return 0;
    if (!(p = number(p + 2, n + 3)) || *p != ' ') return 0;
    if (!(p = number(p + 1, n + 4)) || *p != ' ') return 0;
    if (!(p = number(p + 1, n + 5)) || *p != ' ') return 0;
    if (!(p = number(p + 1, n + 6)) || p[0] != ')' || p[1] != '\n') return 0;
    return p + 2;
}

/* Lines from `p` to `end`; where the unended one begins. A byte stands at `end` that is of no form. */
static const char *samples(const char *p, const char *end, board *b, const settings *s) {
    while (p < end) {
        uint32_t n[7];
        const char *next = sample(p, n);
        int refused = SAMPLE;
        if (next && next <= end) {
            refused = step(b, s, n);
        } else {
            next = memchr(p, '\n', end - p);
            if (!next) return p;
            next++;
        }
        lines++;
        if (refused) refuse(refused, lines);
        if (to > out + OUT_FULL) flush();
        p = next;
    }
    return p;
}

static int signed_number(const char **p, int minus, int32_t *value) {
    uint32_t n;
    int negative = minus && **p == '-';
    const char *past = number(*p + negative, &n);
    if (!past || (negative && n == 0)) return 0;
    *value = negative ? -(int32_t)n : (int32_t)n;
    *p = past;
    return 1;
}

/* One sheet line with its line feed; the refusal's number, or 0. */
static int sheet_line(const char *p, const row *r, int32_t pair[][2]) {
    size_t head = strlen(r->head);
    if (strncmp(p, r->head, head)) return FORM;
    p += head;
    for (int i = 0; i < r->pairs; i++) {
        if (i && strncmp(p, ") (", 3)) return FORM;
        p += i ? 3 : 0;
        if (!signed_number(&p, 0, &pair[i][0]) || *p++ != ' ' || !signed_number(&p, r->low2 < 0, &pair[i][1])) return FORM;
    }
    if (strncmp(p, "))\n", 3)) return FORM;
    for (int i = 0; i < r->pairs; i++)
        if (pair[i][0] < r->low1 || pair[i][0] > r->high1 || pair[i][1] < r->low2 || pair[i][1] > r->high2) return RANGE;
    for (int i = 1; i < r->pairs; i++)
        if (pair[i - 1][0] >= pair[i][0]) return RISE;
    return 0;
}

static void store(settings *s, int line, int32_t pair[][2]) {
    if (line < 8) s->limit[line] = pair[0][0], s->time[line] = pair[0][1];
    if (line == 8) s->volts_low = pair[0][0], s->volts_high = pair[0][1];
    if (line == 9) s->hertz_low = pair[0][0], s->hertz_high = pair[0][1];
    if (line == 10) s->wait = pair[0][0] ? pair[0][0] : 1, s->ramp = pair[0][1];
    for (int i = 0; line > 10 && i < ROWS[line].pairs; i++)
        (line == 11 ? s->var : s->watt)[i] = (point){pair[i][0], pair[i][1]};
}

static int64_t taken;

static ssize_t more(char *at) {
    ssize_t n;
    int64_t room = INPUT_END - taken < BLOCK ? INPUT_END - taken : BLOCK;
    do n = room ? read(0, at, room) : 0; while (n < 0 && errno == EINTR);
    taken += n > 0 ? n : 0;
    return n > 0 ? n : 0;
}

int main(void) {
    static settings s;
    static board b;
    char *kept = in; /* where the unended line ends; lines begin at `in` */
    int overlong = 0;
    make_tables();
    for (;;) {
        ssize_t n = more(kept);
        const char *p = in, *end = kept + n;
        *(char *)end = 0;
        while (lines < 13) {
            const char *past = memchr(p, '\n', end - p);
            int32_t pair[4][2];
            int whole = past || n == 0 || end - p > LINE_MOST;
            int refused = past ? sheet_line(p, &ROWS[lines], pair) : FORM;
            if (!whole) break;
            if (refused) {
                refuse(refused, lines + 1);
                flush();
                return 0;
            }
            store(&s, lines++, pair);
            p = past + 1;
        }
        if (lines >= 13) {
            if (overlong) {
                const char *past = memchr(p, '\n', end - p);
                if (past) refuse(SAMPLE, ++lines), overlong = 0;
                p = past ? past + 1 : end;
            }
            p = samples(p, end, &b, &s);
        }
        if (n == 0) {
            if (p < end || overlong) refuse(SAMPLE, lines + 1);
            flush();
            return 0;
        }
        if (end - p > LINE_MOST) overlong = 1, p = end;
        memmove(in, p, end - p);
        kept = in + (end - p);
        flush();
    }
}
