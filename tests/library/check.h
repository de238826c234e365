/* What the parts of the C test share. A comment on a function stands where it is defined. */
#ifndef CHECK_H
#define CHECK_H

#include <inttypes.h>
#include <stdio.h>
#include <stdlib.h>
#include <string.h>

#include "saltdelta.h"

enum { RECOVERY_TOP = SALTDELTA_RECOVERY_TOP, REACHED_AT_LEAST = 100 };

/* check.c */
extern FILE *calls, *answers;
void expect(int right, const char *what);
void often(unsigned count, const char *what, const char *which, const char *beside);

/* made.c */
extern const uint32_t steady[7];
uint64_t next(void);
uint32_t within(uint32_t lowest, uint32_t highest);
int one_in(uint32_t n);
uint32_t count(void);
saltdelta_board any_record(void);
size_t any_sample(uint32_t *sample);
saltdelta_settings settings_read(void);

/* recoveries.c: the ways of the recovery, and of carrying images over */
enum {
    BY_MOMENTARY, BY_CEASE, UP_ENTERING, UP_CONTINUOUS, UP_MANDATORY, HELD, BY_TRIP, AT_RETURN, LIMITS, ABOVE, UNREAD,
    FORWARD, FORWARD_10, FORWARD_10_9, FORWARD_9, BACK, BACK_10, BACK_10_11, BACK_10_9, BACK_10_11_9, BACK_11, BACK_11_9, BACK_9,
    BACK_RECOVERY, BACK_SIDE, BACK_HELD_HIGH, BACK_HELD_LOW, BACK_SIDE_9, BACK_HELD_LOW_9, FORWARD_46, FORWARD_47, FORWARD_49, BACK_46, BACK_48,
    BACK_45, FORWARD_INTO_45, FORWARD_INTO_46, FORWARD_INTO_47, FORWARD_INTO_48, FORWARD_INTO_49, BACK_INTO_44, BACK_INTO_45, OLD_NEW_OLD,
    NEW_OLD_NEW,
    WAYS
};
extern const char *const ways[WAYS];
extern unsigned reached[WAYS];
void shown(uint8_t status, uint8_t recovery, const saltdelta_report *r);
void recoveries(void);

/* reckoned.c */
/* The two points of the droop: on them and between them there is no event. */
enum { LOW_POINT = 59964, HIGH_POINT = 60036 };
uint32_t root(uint32_t square);
int region_of_code(uint32_t code);
int region_of_frequency(uint32_t hertz);
int32_t watt_curve(const saltdelta_settings *s, const uint32_t *sample);
uint32_t nameplate(const saltdelta_report *r);
int side_of(uint32_t hertz);
int32_t tenfold(uint32_t hertz);
int32_t moved_power(uint16_t held, uint32_t hertz);

/* rule_names.c */
enum { STATUS_RULES = SALTDELTA_STATUS_BY_FREQUENCY, WATTS_RULES = SALTDELTA_WATTS_BY_DROOP, POWERS = 6, EVENT_POWERS = 4 };
extern const char *const limits[9];
extern unsigned refused_with[12];
void explained_shown(uint8_t status, const saltdelta_settings *s, const uint32_t *sample, const saltdelta_explained *e);
void rules_reached(void);

/* rule_steps.c */
saltdelta_settings rule_settings(void);
saltdelta_board rule_record(const saltdelta_settings *s);
uint32_t edge(void);
void two_steps(saltdelta_board b, const saltdelta_settings *s, const uint32_t *sample);
void status_steps(void);
void refused_explained(void);
void watts_steps(void);

/* frequency_edges.c */
void edge_shown(const saltdelta_board *b, const saltdelta_settings *s, const uint32_t *sample, const saltdelta_report *r);
void edge_steps(void);
void edges_reached(void);

/* droop_ways.c */
extern const uint32_t points[];
extern const char *const sides[];
uint16_t top_power(uint16_t power);
void droop_shown(const saltdelta_board *b, const saltdelta_settings *s, const uint32_t *sample, const saltdelta_report *r, int rule);
void droops_reached(void);

/* droop_steps.c */
void event_walks(void);
void event_steps(void);
void event_returns(void);
void event_powers(void);
void event_replays(void);
void replay_ends_reached(void);

/* answers.c */
/* What is lent to a step, with a pattern in every byte, those of padding too, and then fields of its own. The copies that are compared
 * are made with memcpy, which copies padding; an assignment need not. */
typedef struct {
    saltdelta_board board;
    saltdelta_settings settings;
    saltdelta_report report;
    saltdelta_explained explained;
    uint32_t sample[9];
} lent_step;
void put_bytes(const uint8_t *bytes, size_t length);
void anew(void);
void give_record(const saltdelta_board *b);
void give_settings(const saltdelta_settings *s);
void fresh_rules(void);
void fill(lent_step *lent, int pattern, const saltdelta_board *b, const saltdelta_settings *s, const uint32_t *sample, size_t count);
int same_report(const saltdelta_report *a, const saltdelta_report *b);
uint32_t explain(saltdelta_board *b, const saltdelta_settings *s, const uint32_t *sample, size_t count, saltdelta_report *last);
uint32_t step(saltdelta_board *b, const saltdelta_settings *s, const uint32_t *sample, size_t count, saltdelta_report *last);

/* logs.c */
uint32_t save(const saltdelta_board *b, size_t length);
void log_saves(void);
void log_reached(void);

/* read_sheets.c */
size_t write_sheet(char *text, size_t at, const char *line);
saltdelta_settings settings_of_sheet(void);
void sheets(void);

/* refusals.c */
void steps_refused(void);
void saves_refused(void);
void replays_refused(void);

/* ramps.c */
void ramp_ends(void);
void ramps_reached(void);

/* replays.c */
enum { LONGEST_RECORDING = 400 };
void any_recording(uint32_t *samples, size_t count);
int replay(const uint32_t *samples, size_t count, size_t length, saltdelta_report *report);

/* buffers.c */
void buffers(void);
void buffers_reached(void);

/* carries.c */
void carries(void);
void long_carries(void);
void round_trips(void);
void fresh(void);

#endif
