/* Calls of the library and their answers, a line each in the form of the comparison program's mode `calls`. */
#include "check.h"

void put_bytes(const uint8_t *bytes, size_t length) {
    for (size_t i = 0; i < length; i++)
        fprintf(answers, "%02x", bytes[i]);
    fputc('\n', answers);
}

/* A list of calls begins, with a fresh board. */
void anew(void) {
    fputs("fresh\n", calls);
    fputs("ok\n", answers);
}

void give_record(const saltdelta_board *b) {
    fprintf(calls, "record %u", b->status);
    for (int i = 0; i < 9; i++)
        fprintf(calls, " %" PRIu32, b->counters[i]);
    fprintf(calls, " %" PRIu32 " %u %d %u %u %u\n", b->ramp, b->watts, b->vars, b->recovery, b->side, b->held);
    fputs("ok\n", answers);
}

void give_settings(const saltdelta_settings *s) {
    fputs("settings", calls);
    for (int i = 0; i < 8; i++)
        fprintf(calls, " %" PRIu32 " %" PRIu32, s->trip[i].level, s->trip[i].clearing);
    fprintf(calls, " %" PRIu32 " %" PRIu32 " %" PRIu32 " %" PRIu32, s->volts.low, s->volts.high, s->hertz.low, s->hertz.high);
    fprintf(calls, " %" PRIu32 " %" PRIu32, s->wait, s->ramp);
    for (int i = 0; i < 4; i++)
        fprintf(calls, " %" PRIu32 " %" PRId32, s->var[i].volts, s->var[i].power);
    for (int i = 0; i < 2; i++)
        fprintf(calls, " %" PRIu32 " %" PRId32, s->watt[i].volts, s->watt[i].power);
    fputs("\n", calls);
    fputs("ok\n", answers);
}

static void give_sample(const char *call, const uint32_t *sample, size_t count) {
    fputs(call, calls);
    for (size_t i = 0; i < count; i++)
        fprintf(calls, " %" PRIu32, sample[i]);
    fputs("\n", calls);
}

static void put_report(const saltdelta_report *r) {
    fprintf(answers, "report %u ", r->status);
    for (int i = SALTDELTA_UV1; i <= SALTDELTA_READY; i++)
        fputc(r->bits >> (8 - i) & 1 ? '1' : '0', answers);
    fprintf(answers, " %u %u %u %u %u %d ", r->share, r->recovery, r->side, r->held, r->watts, r->vars);
}

static void put_rules(const saltdelta_explained *e) {
    fprintf(answers, "rules %u %u %u", e->status_rule, e->limit, e->watts_rule);
}

/* The rules of a fresh board's report. */
void fresh_rules(void) {
    const saltdelta_explained e = saltdelta_fresh_explained();
    fputs("rules\n", calls);
    put_rules(&e);
    fputc('\n', answers);
}

/* In the fields of both reports stand numbers that no step writes. */
void fill(lent_step *lent, int pattern, const saltdelta_board *b, const saltdelta_settings *s, const uint32_t *sample, size_t count) {
    const saltdelta_report r = {77, 77, 20077, 20077, 20077, -20077, 20077, 77};
    memset(lent, pattern, sizeof *lent);
    lent->board.status = b->status;
    lent->board.recovery = b->recovery;
    lent->board.side = b->side;
    memcpy(lent->board.counters, b->counters, sizeof b->counters);
    lent->board.ramp = b->ramp;
    lent->board.watts = b->watts;
    lent->board.vars = b->vars;
    lent->board.held = b->held;
    memcpy(&lent->settings, s, sizeof *s);
    lent->report = r;
    lent->explained.report = r;
    lent->explained.status_rule = 77;
    lent->explained.limit = 77;
    lent->explained.watts_rule = 77;
    memcpy(lent->sample, sample, count * sizeof *sample);
}

/* Of what is lent to an explained step only record and explained report are written, and nothing if it is refused. */
static int stays(const lent_step *was, const lent_step *is, uint32_t number) {
    lent_step masked;
    memcpy(&masked, is, sizeof masked);
    if (number == SALTDELTA_ACCEPTED) {
        memcpy(&masked.board, &was->board, sizeof masked.board);
        memcpy(&masked.explained, &was->explained, sizeof masked.explained);
    }
    return memcmp(was, &masked, sizeof masked) == 0;
}

int same_report(const saltdelta_report *a, const saltdelta_report *b) {
    return a->status == b->status && a->bits == b->bits && a->share == b->share && a->recovery == b->recovery && a->watts == b->watts
        && a->vars == b->vars && a->held == b->held && a->side == b->side;
}

/* An explained step. The report is that of the last accepted one. */
uint32_t explain(saltdelta_board *b, const saltdelta_settings *s, const uint32_t *sample, size_t count, saltdelta_report *last) {
    static unsigned made;
    uint8_t image[SALTDELTA_IMAGE] = {0};
    lent_step lent, was;
    uint32_t number;
    fill(&lent, (int)(made++ % 256), b, s, sample, count);
    memcpy(&was, &lent, sizeof was);
    number = saltdelta_step_explained(&lent.board, &lent.settings, lent.sample, count, &lent.explained);
    give_sample("explain", sample, count);
    if (number == SALTDELTA_ACCEPTED) {
        put_report(&lent.explained.report);
        put_rules(&lent.explained);
        shown(b->status, b->recovery, &lent.explained.report);
        edge_shown(b, s, sample, &lent.explained.report);
        droop_shown(b, s, sample, &lent.explained.report, lent.explained.watts_rule);
        explained_shown(b->status, s, sample, &lent.explained);
        *last = lent.explained.report;
    } else {
        fprintf(answers, "refused %" PRIu32, number);
        refused_with[number % 12]++;
    }
    fputs(stays(&was, &lent, number) ? " " : " with other bytes ", answers);
    *b = lent.board;
    saltdelta_save(b, image, sizeof image);
    put_bytes(image, sizeof image);
    return number;
}

/* A step, every other time an explained one. The report is that of the last accepted step. */
uint32_t step(saltdelta_board *b, const saltdelta_settings *s, const uint32_t *sample, size_t count, saltdelta_report *last) {
    static unsigned made;
    const saltdelta_board before = *b;
    const saltdelta_report lent = {77, 77, 77, 77, 77, -77, 77, 77};
    saltdelta_report r = lent;
    uint8_t image[SALTDELTA_IMAGE] = {0};
    uint32_t number;
    if (made++ % 2 == 0)
        return explain(b, s, sample, count, last);
    number = saltdelta_step(b, s, sample, count, &r);
    give_sample("step", sample, count);
    if (number == SALTDELTA_ACCEPTED) {
        put_report(&r);
        shown(before.status, before.recovery, &r);
        edge_shown(&before, s, sample, &r);
        droop_shown(&before, s, sample, &r, 0);
    } else if (same_report(&r, &lent)) {
        fprintf(answers, "refused %" PRIu32 " ", number);
    } else {
        fprintf(answers, "refused %" PRIu32 " with a report ", number);
    }
    saltdelta_save(b, image, sizeof image);
    put_bytes(image, sizeof image);
    if (number == SALTDELTA_ACCEPTED)
        *last = r;
    return number;
}
