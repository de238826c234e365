/* saltdelta.h: the grid-interface board as a library for C on x86-64.
 *
 *     tools/staticlib.sh                  makes target/staticlib/libsaltdelta.a
 *     cc program.c -Iinclude target/staticlib/libsaltdelta.a
 *
 * examples/step.c is the smallest program, and docs/LIBRARY.md is a guide. include/saltdelta.rs is the same for Rust.
 * docs/SPECIFICATION.md says what the board does; "spec 6.7" is a clause of it.
 *
 * THE TEN FUNCTIONS:
 *
 *     saltdelta_fresh             a fresh board record
 *     saltdelta_fresh_report      its report
 *     saltdelta_fresh_explained   its report with the rules that held it
 *     saltdelta_read_sheet        reads a sheet of settings
 *     saltdelta_step              one step of 10 ms
 *     saltdelta_step_explained    the same, with the rules that held status and watts
 *     saltdelta_save              saves a record's image
 *     saltdelta_carry_forward     carries an image over from the old firmware
 *     saltdelta_carry_back        carries an image back to the old firmware
 *     saltdelta_replay            replays recorded samples
 *
 * The library keeps nothing between calls and allocates nothing. It needs memcpy, memset and some 10 kB of stack, a
 * saving some 150 bytes. You may lend any numbers: there is an answer to each. The contracts in
 * crates/saltdelta_c/src/lib.rt say which, and that is proved.
 *
 * UNITS (spec 1.2). Voltage: 10000 is nominal. Frequency: mHz. Power: 10000 is the rating. Time: steps of 10 ms.
 *
 * ORDER. The order of a struct's fields is not the order of a report line (spec 10.4) or of an image (spec 9.1).
 *
 * NUMBERS ANSWERED. 0 when nothing is refused, else the first cause found:
 *
 *     1  sheet line missing, unended or not of its form
 *     2  setting outside its allowed range
 *     3  voltages along a curve that do not rise strictly
 *     4  code above 4095
 *     5  frequency not 40000 to 80000
 *     6  permission not 0 or 1
 *     7  available power or operator's limit above 10000
 *     8  sample not of seven numbers
 *     9  image buffer under 49 bytes; target of an image that is carried over under 49 bytes (forward) or 45 (back)
 *    10  image to be carried over of another length than 45 (forward) or 49 (back)
 *    11  image to be carried back that does not end with recovery count 40, side 0 and held power 0
 *
 * The causes are looked for in this order:
 *
 *   - a sheet: line by line, each for 1, 2, 3;
 *   - a step: 2 and 3 in sheet order, then 8, 4, 5, 6, 7;
 *   - a replay: 2 and 3 in sheet order, then 9;
 *   - carrying forward: 10, 9;
 *   - carrying back: 10, 11, 9.
 *
 * WHAT IS WRITTEN. A refused call writes nothing at all: every byte that was lent to it stays as it was, padding
 * included. A call that is not refused writes all fields of what it writes, and may change the padding.
 *
 * WHAT THE CALLER OWES, as for references in Rust. Nothing else is asked, and nothing tests it:
 *
 *   - Every pointer points to memory of the size that its type and its count say, aligned for its type. None is NULL,
 *     even with a count of 0. No memory is larger than PTRDIFF_MAX bytes.
 *   - The memory is initialised, also where the call writes: the settings of saltdelta_read_sheet, the report of
 *     saltdelta_step and of saltdelta_replay, the explained report of saltdelta_step_explained, every buffer and every
 *     target.
 *   - While the call runs, nobody else writes any of it, and nobody else reads what the call writes (the pointers that
 *     are not to const). What the call writes overlaps nothing else that is lent to the same call.
 *   - The structs are those below, and the compiler lays them out as the x86-64 System V ABI says.
 */
#ifndef SALTDELTA_H
#define SALTDELTA_H

#include <stddef.h>
#include <stdint.h>

#ifdef __cplusplus
extern "C" {
#endif

/* The causes for which a call is refused. */
enum {
    SALTDELTA_ACCEPTED = 0,
    SALTDELTA_FORM = 1,
    SALTDELTA_RANGE = 2,
    SALTDELTA_RISE = 3,
    SALTDELTA_CODE = 4,
    SALTDELTA_FREQUENCY = 5,
    SALTDELTA_PERMISSION = 6,
    SALTDELTA_POWER = 7,
    SALTDELTA_SAMPLE = 8,
    SALTDELTA_BUFFER = 9,
    SALTDELTA_SOURCE_LENGTH = 10, /* of an image to be carried over */
    SALTDELTA_ADDED_BYTES = 11    /* carrying back: the last four bytes are not recovery 40, side 0, held power 0 */
};

/* The status of a board. Any other number in a lent record is read as tripped. */
enum {
    SALTDELTA_TRIPPED = 0,
    SALTDELTA_ENTERING = 1,   /* in service, the ramp not yet full */
    SALTDELTA_CONTINUOUS = 2, /* in service, the ramp full */
    SALTDELTA_MANDATORY = 3,  /* mandatory operation */
    SALTDELTA_MOMENTARY = 4,  /* momentary cessation */
    SALTDELTA_CEASE = 5       /* cease to energize, by voltage or by frequency (spec 6.7, 6.8) */
};

/* The side of a droop event (spec 6.16). Any other number in a lent record is read as none. */
enum {
    SALTDELTA_NO_SIDE = 0,   /* no event: tripped, or 59964 to 60036 mHz */
    SALTDELTA_HIGH_SIDE = 1, /* in service above 60036 mHz */
    SALTDELTA_LOW_SIDE = 2   /* in service below 59964 mHz */
};

/* Places in saltdelta_settings.trip and in saltdelta_board.counters. The last is a place in the counters alone: the
 * ninth counter, toward return to service. */
enum {
    SALTDELTA_UV1 = 0,
    SALTDELTA_UV2 = 1,
    SALTDELTA_OV1 = 2,
    SALTDELTA_OV2 = 3,
    SALTDELTA_UF1 = 4,
    SALTDELTA_UF2 = 5,
    SALTDELTA_OF1 = 6,
    SALTDELTA_OF2 = 7,
    SALTDELTA_READY = 8
};

/* The image of a record, in bytes (spec 9.1). */
#define SALTDELTA_IMAGE 49

/* An image of the old firmware, in bytes (spec 9.5). It lacks the last four, which hold recovery count, side and held
 * power. */
#define SALTDELTA_OLD_IMAGE 45

/* A full recovery count: power is back (spec 6.15). */
#define SALTDELTA_RECOVERY_TOP 40

/* A trip line of the sheet: a voltage or frequency limit, and its clearing time. */
typedef struct {
    uint32_t level;
    uint32_t clearing;
} saltdelta_limit;

/* An enter-service range of voltage or frequency, both ends included. */
typedef struct {
    uint32_t low;
    uint32_t high;
} saltdelta_span;

/* A point of the volt-var or the volt-watt curve. Vars may be negative. */
typedef struct {
    uint32_t volts;
    int32_t power;
} saltdelta_point;

/* The settings of a sheet's thirteen lines. */
typedef struct {
    saltdelta_limit trip[8]; /* SALTDELTA_UV1 .. SALTDELTA_OF2 */
    saltdelta_span volts;    /* enter service: voltage */
    saltdelta_span hertz;    /* enter service: frequency */
    uint32_t wait;           /* return wait; 0 counts as 1 */
    uint32_t ramp;           /* ramp length, 100 to 60000 (spec 3.5) */
    saltdelta_point var[4];
    saltdelta_point watt[2];
} saltdelta_settings;

/* The board record, which the caller keeps from step to step. Any numbers may stand in it; spec 5.4 says how they are
 * read. A number above its top is read as the top, a status without a name as tripped, a side without a name as none.
 * Of a tripped board, ramp count, recovery count, side and held power are not looked at; its watts are, where its
 * return begins an event. */
typedef struct {
    uint8_t status;
    uint8_t recovery;     /* recovery count (spec 6.15): 0 in momentary cessation and cease, then one more a step up to
                           * 40; 40 when tripped, and at a return */
    uint8_t side;         /* of the droop event that the board is in: SALTDELTA_NO_SIDE .. SALTDELTA_LOW_SIDE */
    uint32_t counters[9]; /* for how many steps each limit has been broken, up to its clearing time; then the ninth */
    uint32_t ramp;        /* ramp count */
    uint16_t watts;       /* what an event that the next step begins will hold */
    int16_t vars;
    uint16_t held;        /* held power: the watts before the event began, up to 10000; 0 without one (spec 6.17) */
} saltdelta_board;

/* What a step reports. Bit 8 of bits is uv1, bit 7 uv2, and so on in sheet order to bit 1, of2, and bit 0, ready. So
 * bits >> (8 - SALTDELTA_UV2) & 1 is uv2's. A limit's bit is 1 when its counter is full. */
typedef struct {
    uint8_t status;
    uint8_t recovery; /* the record's after the step; watts are at most 250 times it (spec 7.7) */
    uint16_t bits;
    uint16_t share;   /* ramp count by ramp length, in ten-thousandths */
    uint16_t watts;
    int16_t vars;
    uint16_t held;    /* this and the side: the record's after the step */
    uint8_t side;
} saltdelta_report;

/* The rule that held a status (spec 8.6). 0 is none of them. A number keeps its rule in later versions, which may add
 * others. */
enum {
    SALTDELTA_STATUS_BY_PERMISSION = 1, /* tripped at this step, permission being off */
    SALTDELTA_STATUS_BY_LIMIT = 2,      /* tripped at this step by the limit that is named */
    SALTDELTA_STATUS_BY_WAIT = 3,       /* tripped since an earlier step, or fresh: the return wait is not full */
    SALTDELTA_STATUS_BY_RETURN = 4,     /* returned to service at this step */
    SALTDELTA_STATUS_BY_LOWEST = 5,     /* in service: the lowest voltage decides the operating region, in continuous
                                         * operation too (spec 8.7) */
    SALTDELTA_STATUS_BY_HIGHEST = 6,    /* in service: the highest voltage does */
    SALTDELTA_STATUS_BY_FREQUENCY = 7   /* in service: the frequency does */
};

/* The rule that held the watts (spec 8.8). It is the first, in the order of spec 7.5, that leaves what they are. In an
 * event the order is that of spec 7.8: droop comes first, in the place of available power, operator's limit and share,
 * which are then not named. 0 is none of these rules either, and a number keeps its rule in later versions. */
enum {
    SALTDELTA_WATTS_BY_STATUS = 1,    /* the status gives no power: tripped, momentary cessation, cease to energize */
    SALTDELTA_WATTS_BY_AVAILABLE = 2, /* available power; also where nothing holds the watts down */
    SALTDELTA_WATTS_BY_OPERATOR = 3,  /* the operator's limit */
    SALTDELTA_WATTS_BY_SHARE = 4,     /* the share of the ramp */
    SALTDELTA_WATTS_BY_CURVE = 5,     /* the volt-watt curve */
    SALTDELTA_WATTS_BY_NAMEPLATE = 6, /* the nameplate beside the vars */
    SALTDELTA_WATTS_BY_RECOVERY = 7,  /* the recovery after a cessation */
    SALTDELTA_WATTS_BY_DROOP = 8      /* the droop, with available power in it; in an event alone */
};

/* A report with the rules that held it. */
typedef struct {
    saltdelta_report report;
    uint8_t status_rule; /* SALTDELTA_STATUS_BY_PERMISSION .. SALTDELTA_STATUS_BY_FREQUENCY */
    uint8_t limit;       /* by a limit: its place in the sheet, from 1, so that SALTDELTA_UV1 + 1 is uv1's; else 0 */
    uint8_t watts_rule;  /* SALTDELTA_WATTS_BY_STATUS .. SALTDELTA_WATTS_BY_DROOP */
} saltdelta_explained;

/* What reading a sheet answers. It hands back a part of the caller's own bytes: `length` of them, from `start` on. That
 * is the refused line without its line feed, or what follows an accepted sheet. Where the refused line is missing, the
 * part is empty and stands behind the last byte (spec 3.9). */
typedef struct {
    uint32_t number; /* 0, or 1, 2 or 3 */
    uint32_t line;   /* the refused line, from 1; 0 when the sheet is accepted */
    size_t start;
    size_t length;
} saltdelta_sheet;

/* What a replay answers. */
typedef struct {
    uint32_t number; /* 0, or 2, 3 or 9 */
    size_t accepted; /* how many of the samples were accepted; 0 when the replay is refused */
} saltdelta_replayed;

/* A fresh board: tripped, with all counters, ramp count, watts, vars, side and held power 0, and recovery 40. */
saltdelta_board saltdelta_fresh(void);

/* The report of a fresh board, before its first sample: tripped, with all bits, share, watts, vars, side and held power
 * 0, and recovery 40. */
saltdelta_report saltdelta_fresh_report(void);

/* The same with its rules: the wait and the status. */
saltdelta_explained saltdelta_fresh_explained(void);

/* Reads the sheet at the front of `length` lent bytes into `settings`. Bytes past its thirteenth line are not the
 * sheet's. */
saltdelta_sheet saltdelta_read_sheet(saltdelta_settings *settings, const uint8_t *bytes, size_t length);

/* One step of the record, and its report. A sample is seven numbers: the mean-square codes of the three phases,
 * frequency, permission, available power, operator's limit. `count` is how many are lent; any other count than 7 is
 * refused with 8. The settings are checked again for 2 and 3. */
uint32_t saltdelta_step(saltdelta_board *board, const saltdelta_settings *settings, const uint32_t *sample, size_t count,
                        saltdelta_report *report);

/* The same step, answered and refused alike, with the same record and report. Beside the report stand the rules that
 * held it. Calls of saltdelta_step and of this may be mixed on one record. */
uint32_t saltdelta_step_explained(saltdelta_board *board, const saltdelta_settings *settings, const uint32_t *sample, size_t count,
                                  saltdelta_explained *explained);

/* Saves the record's image in the first 49 of `length` lent bytes. The bytes after it are untouched. The image has the
 * high byte of a number first: status (1 byte), the nine counters (4 each), ramp count (4), watts (2), vars (2, two's
 * complement), recovery (1), side (1), held power (2), each as it is. */
uint32_t saltdelta_save(const saltdelta_board *board, uint8_t *buffer, size_t length);

/* Carries an image of the old firmware over to this one. The 45 bytes of `source`, and behind them the bytes 40, 0, 0,
 * 0, go into the first 49 of `target_length` lent bytes. These four are recovery count 40, side 0 and held power 0. The
 * bytes after them are untouched. Source and target do not overlap. */
uint32_t saltdelta_carry_forward(const uint8_t *source, size_t source_length, uint8_t *target, size_t target_length);

/* Carries an image of this firmware back to the old one. The first 45 of the 49 bytes of `source` go into the first 45
 * of `target_length` lent bytes. The bytes after them are untouched. Source and target do not overlap.
 *
 * An image can be carried back exactly when its last four bytes are 40, 0, 0, 0, that is, recovery count 40, side 0 and
 * held power 0. The image of a tripped board always can, if the board began with saltdelta_fresh and was stepped under
 * one sheet (spec 13.10). */
uint32_t saltdelta_carry_back(const uint8_t *source, size_t source_length, uint8_t *target, size_t target_length);

/* Replays recorded samples: `count` numbers, seven a sample. They step a fresh record, one sample after another, under
 * the same settings. Writes the last report, or the fresh board's if no sample is accepted, and saves the record's
 * image in the first 49 of `length` lent bytes. A sample that is refused is no step and does not refuse the replay. A
 * last sample of fewer than seven numbers is refused too. */
saltdelta_replayed saltdelta_replay(const saltdelta_settings *settings, const uint32_t *samples, size_t count, saltdelta_report *report,
                                    uint8_t *buffer, size_t length);

#ifdef __cplusplus
}
#endif

#endif
